//! The planner for Rust: [`check`], [`best_route`], [`drive`], [`profile`] and [`set_off`] over its C boundary.
//!
//! Every function takes any bytes and any numbers and ends with its answer or with one numbered
//! refusal. The modules [`model`] and [`generate`] are what the tests compare it with.

pub mod generate;
pub mod model;

/// What a network check and a list of charges give back. `number` 0 is success, any other the refusal's number.
#[repr(C)]
#[derive(Clone, Copy, Debug, PartialEq, Eq)]
pub struct Checked {
    pub number: u64,
    pub place: u64,
}

/// What a best route gives back. A refusal has zero for all numbers but the first two.
#[repr(C)]
#[derive(Clone, Copy, Debug, PartialEq, Eq)]
pub struct Planned {
    pub number: u64,
    pub place: u64,
    pub roads: u64,
    pub arrival: u64,
    pub drawn: u64,
    pub recovered: u64,
    pub spilled: u64,
}

/// What a drive gives back.
#[repr(C)]
#[derive(Clone, Copy, Debug, PartialEq, Eq)]
pub struct Driven {
    pub number: u64,
    pub place: u64,
    pub arrival: u64,
    pub drawn: u64,
    pub recovered: u64,
    pub spilled: u64,
}

/// What a profile gives back.
#[repr(C)]
#[derive(Clone, Copy, Debug, PartialEq, Eq)]
pub struct Profiled {
    pub number: u64,
    pub place: u64,
    pub need: u64,
    pub sum: i64,
    pub top: u64,
}

/// The two files, as lent bytes.
#[derive(Clone, Copy, Debug)]
pub struct Files<'a> {
    pub nodes: &'a [u8],
    pub roads: &'a [u8],
}

/// The declarations of include/sedge.h.
mod c {
    use super::{Checked, Driven, Planned, Profiled};

    extern "C" {
        pub fn sedge_check(nodes: *const u8, nodes_len: usize, roads: *const u8, roads_len: usize) -> Checked;

        pub fn sedge_best_route(
            nodes: *const u8,
            nodes_len: usize,
            roads: *const u8,
            roads_len: usize,
            battery: i64,
            start: i64,
            source: u64,
            target: u64,
            route: *mut u16,
            route_len: usize,
        ) -> Planned;

        pub fn sedge_drive(
            nodes: *const u8,
            nodes_len: usize,
            roads: *const u8,
            roads_len: usize,
            battery: i64,
            start: i64,
            source: u64,
            route: *const u16,
            route_len: usize,
        ) -> Driven;

        pub fn sedge_profile(
            nodes: *const u8,
            nodes_len: usize,
            roads: *const u8,
            roads_len: usize,
            battery: i64,
            source: u64,
            route: *const u16,
            route_len: usize,
        ) -> Profiled;

        pub fn sedge_set_off(
            nodes: *const u8,
            nodes_len: usize,
            roads: *const u8,
            roads_len: usize,
            battery: i64,
            depot: u64,
            list: *mut i32,
            list_len: usize,
        ) -> Checked;
    }
}

// Safety of all five calls: a slice's pointer is to as many elements as its length says and is never
// null; the one list that is written is borrowed mutably, so nothing else that is lent overlaps it.

/// Network check: success or the first fault.
pub fn check(files: Files) -> Checked {
    unsafe { c::sedge_check(files.nodes.as_ptr(), files.nodes.len(), files.roads.as_ptr(), files.roads.len()) }
}

/// Best route: the first `roads` entries of `route` become the route, the others stay.
pub fn best_route(files: Files, battery: i64, start: i64, source: u64, target: u64, route: &mut [u16]) -> Planned {
    unsafe {
        c::sedge_best_route(
            files.nodes.as_ptr(),
            files.nodes.len(),
            files.roads.as_ptr(),
            files.roads.len(),
            battery,
            start,
            source,
            target,
            route.as_mut_ptr(),
            route.len(),
        )
    }
}

/// Drive of a given route: arrival and totals, or the first fault.
pub fn drive(files: Files, battery: i64, start: i64, source: u64, route: &[u16]) -> Driven {
    unsafe {
        c::sedge_drive(
            files.nodes.as_ptr(),
            files.nodes.len(),
            files.roads.as_ptr(),
            files.roads.len(),
            battery,
            start,
            source,
            route.as_ptr(),
            route.len(),
        )
    }
}

/// Profile of a given route: need, sum and top, or the first fault.
pub fn profile(files: Files, battery: i64, source: u64, route: &[u16]) -> Profiled {
    unsafe {
        c::sedge_profile(
            files.nodes.as_ptr(),
            files.nodes.len(),
            files.roads.as_ptr(),
            files.roads.len(),
            battery,
            source,
            route.as_ptr(),
            route.len(),
        )
    }
}

/// Charge to set off with: the first entries of `list`, one a junction, become the least charges from which some walk
/// to the depot is feasible, or -1 where none is; the others stay.
pub fn set_off(files: Files, battery: i64, depot: u64, list: &mut [i32]) -> Checked {
    unsafe {
        c::sedge_set_off(
            files.nodes.as_ptr(),
            files.nodes.len(),
            files.roads.as_ptr(),
            files.roads.len(),
            battery,
            depot,
            list.as_mut_ptr(),
            list.len(),
        )
    }
}
