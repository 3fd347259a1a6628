//! The planner's five answers once more, from the documents alone and by other means than the library's, so that the
//! two can be compared.
//!
//! Best charges spread over a plain queue until none rises any more; a profile is found by driving the route from
//! chosen starts, a charge to set off with by asking for best charges from chosen starts. Why there is no route is told
//! by that charge and, where none is enough, by following the roads on from the source. All energy is in mWh and in 64
//! bits, where no sum of document 01 wraps.

use crate::{Checked, Driven, Files, Planned, Profiled};
use std::collections::VecDeque;

pub const MOST_JUNCTIONS: usize = 2_048;
pub const MOST_ROADS: usize = 8_192;
pub const MOST_ROUTE_ROADS: usize = 8_192;
pub const MOST_CONSUMPTION: i64 = 200_000_000;
pub const MOST_BATTERY: i64 = 200_000_000;

/// What is asked of a network. Any numbers are taken.
#[derive(Clone, Copy, Debug, PartialEq, Eq)]
pub struct Query {
    pub battery: i64,
    pub start: i64,
    pub source: u64,
    pub target: u64,
}

/// A refusal: its number and the place of the fault, or of 10 the least start that is enough.
#[derive(Clone, Copy, Debug, PartialEq, Eq)]
pub struct Refusal {
    pub number: u64,
    pub place: u64,
}

/// One record of the road file.
#[derive(Clone, Copy, Debug, PartialEq, Eq)]
pub struct Road {
    pub tail: usize,
    pub head: usize,
    pub consumption: i64,
}

/// Both files, decoded. The records may still be at fault.
#[derive(Clone, Debug)]
pub struct Network {
    pub potentials: Vec<i64>,
    pub roads: Vec<Road>,
}

impl Network {
    pub fn has_junction(&self, number: u64) -> bool {
        number < self.potentials.len() as u64
    }

    /// For each junction the roads that leave it.
    fn roads_from(&self) -> Vec<Vec<Road>> {
        let mut leaving = vec![Vec::new(); self.potentials.len()];
        for road in &self.roads {
            leaving[road.tail].push(*road);
        }
        leaving
    }
}

/// The van on its way: where it stands, its charge and the three totals of the roads driven.
#[derive(Clone, Copy, Debug)]
struct Van {
    junction: usize,
    charge: i64,
    drawn: i64,
    recovered: i64,
    spilled: i64,
}

impl Van {
    fn at(junction: u64, charge: i64) -> Van {
        Van { junction: junction as usize, charge, drawn: 0, recovered: 0, spilled: 0 }
    }

    /// The van after a road that its charge allows.
    fn after(self, road: Road, battery: i64) -> Van {
        let left = self.charge - road.consumption;
        Van {
            junction: road.head,
            charge: left.min(battery),
            drawn: self.drawn + road.consumption.max(0),
            recovered: self.recovered + (-road.consumption).max(0),
            spilled: self.spilled + (left - battery).max(0),
        }
    }
}

/// The battery rule: the charge at the head of a road, or none where it cannot be driven.
pub fn charge_after(charge: i64, consumption: i64, battery: i64) -> Option<i64> {
    if consumption > charge {
        None
    } else {
        Some((charge - consumption).min(battery))
    }
}

/// Network check.
pub fn check(files: Files) -> Checked {
    let (number, place) = match sound_network(files) {
        Ok(_) => (0, 0),
        Err(refusal) => (refusal.number, refusal.place),
    };
    Checked { number, place }
}

/// The arrival of a best route, or the refusal, where the lent list has `room` entries.
pub fn best_arrival(files: Files, query: Query, room: usize) -> Result<i64, Refusal> {
    let network = read_network(files)?;
    test_battery(query)?;
    test_start(query)?;
    refuse_if(!network.has_junction(query.source) || !network.has_junction(query.target), 5, 0)?;
    refuse_if(room < network.potentials.len() - 1, 6, 0)?;
    test_records(&network)?;
    best_arrivals(&network, query)[query.target as usize].ok_or_else(|| reason_for_no_route(&network, query))
}

/// Drive of a given route.
pub fn drive(files: Files, query: Query, route: &[u16]) -> Driven {
    match driven_van(files, query, route) {
        Ok(van) => Driven {
            number: 0,
            place: 0,
            arrival: van.charge as u64,
            drawn: van.drawn as u64,
            recovered: van.recovered as u64,
            spilled: van.spilled as u64,
        },
        Err(Refusal { number, place }) => Driven { number, place, arrival: 0, drawn: 0, recovered: 0, spilled: 0 },
    }
}

/// Profile of a given route.
pub fn profile(files: Files, query: Query, route: &[u16]) -> Profiled {
    match passable_consumptions(files, query, route) {
        Ok(consumptions) => Profiled {
            number: 0,
            place: 0,
            need: need_of(&consumptions, query.battery) as u64,
            sum: consumptions.iter().sum(),
            top: arrival_over(&consumptions, query.battery, query.battery).expect("a full battery drives it") as u64,
        },
        Err(Refusal { number, place }) => Profiled { number, place, need: 0, sum: 0, top: 0 },
    }
}

/// The charges to set off with from these junctions to the target, or the refusal, where the lent list has `room`
/// entries.
pub fn set_off(files: Files, query: Query, room: usize, junctions: &[u64]) -> Result<Vec<i32>, Refusal> {
    let network = read_network(files)?;
    test_battery(query)?;
    refuse_if(!network.has_junction(query.target), 5, 0)?;
    refuse_if(room < network.potentials.len(), 6, 0)?;
    test_records(&network)?;
    let leaving = network.roads_from();
    let charge_from =
        |&source| charge_to_set_off(&leaving, Query { source, ..query }).map_or(-1, |charge| charge as i32);
    Ok(junctions.iter().map(charge_from).collect())
}

/// The network of two files whose lengths are right: refusals 1 and 2.
pub fn read_network(files: Files) -> Result<Network, Refusal> {
    let Files { nodes, roads } = files;
    refuse_if(nodes.is_empty() || !nodes.len().is_multiple_of(4) || nodes.len() / 4 > MOST_JUNCTIONS, 1, 0)?;
    refuse_if(!roads.len().is_multiple_of(8) || roads.len() / 8 > MOST_ROADS, 2, 0)?;
    Ok(Network {
        potentials: nodes.chunks_exact(4).map(signed).collect(),
        roads: roads.chunks_exact(8).map(road_of).collect(),
    })
}

/// The network of two files in which nothing is at fault.
pub fn sound_network(files: Files) -> Result<Network, Refusal> {
    let network = read_network(files)?;
    test_records(&network)?;
    Ok(network)
}

/// The greatest charge that can be had at each junction.
pub fn best_arrivals(network: &Network, query: Query) -> Vec<Option<i64>> {
    arrivals_over(&network.roads_from(), query)
}

/// The same, where for each junction the roads that leave it are given.
fn arrivals_over(leaving: &[Vec<Road>], query: Query) -> Vec<Option<i64>> {
    let by_the_rule = |charge, consumption| charge_after(charge, consumption, query.battery);
    greatest_labels(leaving, query.source, query.start, by_the_rule)
}

/// Does a chain of roads lead from source to target? Only their directions matter, not what they take.
pub fn is_joined(network: &Network, source: u64, target: u64) -> bool {
    let leaving = network.roads_from();
    let mut is_met = vec![false; leaving.len()];
    is_met[source as usize] = true;
    let mut waiting = VecDeque::from([source as usize]);
    while let Some(junction) = waiting.pop_front() {
        for road in &leaving[junction] {
            if !is_met[road.head] {
                is_met[road.head] = true;
                waiting.push_back(road.head);
            }
        }
    }
    is_met[target as usize]
}

/// The greatest gain, which is the least sum of consumptions, over all walks from the source to each junction,
/// whatever the battery.
pub fn greatest_gains(network: &Network, source: u64) -> Vec<Option<i64>> {
    greatest_labels(&network.roads_from(), source, 0, |gain, consumption| Some(gain - consumption))
}

/// The greatest label of each junction, where `onward` takes a label and a road's consumption to the label at the
/// head: every rise is passed on until there is none. It ends because no closed trip of a sound network gains energy.
fn greatest_labels(
    leaving: &[Vec<Road>],
    source: u64,
    start: i64,
    onward: impl Fn(i64, i64) -> Option<i64>,
) -> Vec<Option<i64>> {
    let mut labels = vec![None; leaving.len()];
    let mut is_waiting = vec![false; leaving.len()];
    labels[source as usize] = Some(start);
    let mut waiting = VecDeque::from([source as usize]);
    while let Some(junction) = waiting.pop_front() {
        is_waiting[junction] = false;
        let label = labels[junction].expect("a waiting junction has a label");
        for road in &leaving[junction] {
            let arrival = onward(label, road.consumption);
            if arrival > labels[road.head] {
                labels[road.head] = arrival;
                if !is_waiting[road.head] {
                    is_waiting[road.head] = true;
                    waiting.push_back(road.head);
                }
            }
        }
    }
    labels
}

/// The best arrival over the walks of least sum alone, all of them, where the battery rule allows any.
pub fn best_arrival_by_least_sum(network: &Network, query: Query) -> Option<i64> {
    let gains = greatest_gains(network, query.source);
    let on_a_cheapest_walk = |road: &Road| gains[road.tail].map(|gain| gain - road.consumption) == gains[road.head];
    let cheapest = Network {
        potentials: network.potentials.clone(),
        roads: network.roads.iter().copied().filter(on_a_cheapest_walk).collect(),
    };
    best_arrivals(&cheapest, query)[query.target as usize]
}

/// The greatest charge at each junction over all walks of up to twice as many roads as there are junctions, loops
/// and all, tried one by one. For tiny networks.
pub fn best_by_enumeration(network: &Network, query: Query) -> Vec<Option<i64>> {
    let mut best = vec![None; network.potentials.len()];
    let most_roads = 2 * network.potentials.len();
    try_walks(network, query.battery, query.source as usize, query.start, most_roads, &mut best);
    best
}

/// Notes the charge at a junction, then tries every walk of up to `roads_left` roads onward from it.
fn try_walks(
    network: &Network,
    battery: i64,
    junction: usize,
    charge: i64,
    roads_left: usize,
    best: &mut [Option<i64>],
) {
    best[junction] = best[junction].max(Some(charge));
    if roads_left == 0 {
        return;
    }
    for road in network.roads.iter().filter(|road| road.tail == junction) {
        if let Some(next) = charge_after(charge, road.consumption, battery) {
            try_walks(network, battery, road.head, next, roads_left - 1, best);
        }
    }
}

/// What is wrong with a planned route, if anything: the first entries of the list must be a walk from source to
/// target that visits no junction twice, and driving it must give the numbers reported.
pub fn fault_of_route(network: &Network, query: Query, planned: Planned, list: &[u16]) -> Option<String> {
    let Some(route) = list.get(..planned.roads as usize) else {
        return Some(format!("{} roads do not fit the list of {}", planned.roads, list.len()));
    };
    let mut van = Van::at(query.source, query.start);
    let mut visited = vec![false; network.potentials.len()];
    visited[van.junction] = true;
    for (place, &entry) in route.iter().enumerate() {
        match test_place(network, van, place, entry) {
            Err(refusal) => return Some(format!("driving it meets {refusal:?}")),
            Ok(road) => van = van.after(road, query.battery),
        }
        if visited[van.junction] {
            return Some(format!("place {place} leads to junction {} again", van.junction));
        }
        visited[van.junction] = true;
    }
    if van.junction as u64 != query.target {
        return Some(format!("it ends at junction {}", van.junction));
    }
    let reported = [planned.arrival, planned.drawn, planned.recovered, planned.spilled];
    let driven = [van.charge, van.drawn, van.recovered, van.spilled].map(|total| total as u64);
    if reported != driven {
        return Some(format!("arrival, drawn, recovered, spilled are {driven:?} when driven"));
    }
    None
}

fn refuse_if(fault: bool, number: u64, place: usize) -> Result<(), Refusal> {
    if fault {
        Err(Refusal { number, place: place as u64 })
    } else {
        Ok(())
    }
}

fn test_battery(query: Query) -> Result<(), Refusal> {
    refuse_if(query.battery < 1 || query.battery > MOST_BATTERY, 3, 0)
}

fn test_start(query: Query) -> Result<(), Refusal> {
    refuse_if(query.start < 0 || query.start > query.battery, 4, 0)
}

/// Refusals 7, 8 and 9, record by record.
fn test_records(network: &Network) -> Result<(), Refusal> {
    let junctions = network.potentials.len();
    for (record, road) in network.roads.iter().enumerate() {
        refuse_if(road.tail >= junctions || road.head >= junctions, 7, record)?;
        refuse_if(road.consumption < -MOST_CONSUMPTION || road.consumption > MOST_CONSUMPTION, 8, record)?;
        let reduced = road.consumption - network.potentials[road.tail] + network.potentials[road.head];
        refuse_if(reduced < 0, 9, record)?;
    }
    Ok(())
}

/// Why no walk from source to target is feasible: the start is too low (10, with the least that is enough), a full
/// battery would not help though roads lead there (16), or none do (17).
fn reason_for_no_route(network: &Network, query: Query) -> Refusal {
    match charge_to_set_off(&network.roads_from(), query) {
        Some(least) => Refusal { number: 10, place: least as u64 },
        None if is_joined(network, query.source, query.target) => Refusal { number: 16, place: 0 },
        None => Refusal { number: 17, place: 0 },
    }
}

/// The road of a route's entry, or refusal 12, 13 or 14 at its place.
fn test_place(network: &Network, van: Van, place: usize, entry: u16) -> Result<Road, Refusal> {
    let road = test_entry(network, van.junction, place, entry)?;
    refuse_if(road.consumption > van.charge, 14, place)?;
    Ok(road)
}

/// The road of a route's entry, or refusal 12 or 13 at its place.
fn test_entry(network: &Network, junction: usize, place: usize, entry: u16) -> Result<Road, Refusal> {
    refuse_if(entry as usize >= network.roads.len(), 12, place)?;
    let road = network.roads[entry as usize];
    refuse_if(road.tail != junction, 13, place)?;
    Ok(road)
}

/// The van at the end of a given route, or the drive's refusal.
fn driven_van(files: Files, query: Query, route: &[u16]) -> Result<Van, Refusal> {
    let network = read_network(files)?;
    test_battery(query)?;
    test_start(query)?;
    refuse_if(!network.has_junction(query.source), 5, 0)?;
    refuse_if(route.len() > MOST_ROUTE_ROADS, 11, 0)?;
    test_records(&network)?;
    let mut van = Van::at(query.source, query.start);
    for (place, &entry) in route.iter().enumerate() {
        let road = test_place(&network, van, place, entry)?;
        van = van.after(road, query.battery);
    }
    Ok(van)
}

/// The consumptions along a given route that a full battery can drive, or the profile's refusal: more charge never
/// hinders, so what a full battery cannot drive is impassable at every charge.
fn passable_consumptions(files: Files, query: Query, route: &[u16]) -> Result<Vec<i64>, Refusal> {
    let network = read_network(files)?;
    test_battery(query)?;
    refuse_if(!network.has_junction(query.source), 5, 0)?;
    refuse_if(route.len() > MOST_ROUTE_ROADS, 11, 0)?;
    test_records(&network)?;
    let mut van = Van::at(query.source, query.battery);
    let mut consumptions = Vec::new();
    for (place, &entry) in route.iter().enumerate() {
        let road = test_entry(&network, van.junction, place, entry)?;
        refuse_if(road.consumption > van.charge, 15, place)?;
        van = van.after(road, query.battery);
        consumptions.push(road.consumption);
    }
    Ok(consumptions)
}

/// The charge after all these consumptions in turn, or none where one cannot be driven.
fn arrival_over(consumptions: &[i64], battery: i64, start: i64) -> Option<i64> {
    let mut charge = start;
    for &consumption in consumptions {
        charge = charge_after(charge, consumption, battery)?;
    }
    Some(charge)
}

/// The least start from which these consumptions can be driven, where a full battery can.
fn need_of(consumptions: &[i64], battery: i64) -> i64 {
    least_start(battery, |start| arrival_over(consumptions, battery, start).is_some())
}

/// The least start from which some walk from source to target can be driven, or none where a full battery is not
/// enough.
fn charge_to_set_off(leaving: &[Vec<Road>], query: Query) -> Option<i64> {
    let arrives = |start| arrivals_over(leaving, Query { start, ..query })[query.target as usize].is_some();
    arrives(query.battery).then(|| least_start(query.battery, arrives))
}

/// The least start that arrives, by halving, where a full battery does: more charge never hinders.
fn least_start(battery: i64, arrives: impl Fn(i64) -> bool) -> i64 {
    let mut too_low = -1;
    let mut enough = battery;
    while enough - too_low > 1 {
        let between = (too_low + enough) / 2;
        if arrives(between) {
            enough = between;
        } else {
            too_low = between;
        }
    }
    enough
}

fn signed(record: &[u8]) -> i64 {
    i64::from(i32::from_le_bytes([record[0], record[1], record[2], record[3]]))
}

fn road_of(record: &[u8]) -> Road {
    Road {
        tail: usize::from(u16::from_le_bytes([record[0], record[1]])),
        head: usize::from(u16::from_le_bytes([record[2], record[3]])),
        consumption: signed(&record[4..]),
    }
}
