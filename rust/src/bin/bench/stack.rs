//! The stack that each entry and each program uses, found by painting: it is called on a stack of our own, filled with
//! one byte throughout, and the lowest byte that changed tells how deep it went.

use crate::networks::{Case, Question};
use crate::programs::{found, run, Folder};
use crate::queries::ask;
use std::path::Path;

/// The marks in bytes: for an entry that searches, for one that does not, for a program.
const MARKS: [usize; 3] = [64_000, 2_000, 160_000];

/// Prints the most bytes of stack that each entry uses over one drawing of each case, for a best route with and without
/// a route; then what the mains of the two programs use. The library is the one of `painted.c`.
pub fn print(cases: &[Case], library: &str, plan: &str, setoff: &str) -> Result<(), String> {
    let [searches, walks, program] = MARKS;
    let questions: Vec<&Question> = cases.iter().map(|case| &case.drawings[0]).collect();
    let (with, without): (Vec<_>, Vec<_>) = questions.iter().partition(|question| question.number == 0);
    println!("Stack below the caller's frame in bytes, by a painted stack: the most over the networks.");
    println!();
    println!("{:26} {:>7} {:>7}", "", "bytes", "mark");
    let line = |what: &str, bytes: usize, mark: usize| println!("{what:26} {bytes:>7} {mark:>7}");
    line("sedge_check", most(&questions, check), walks);
    line("sedge_best_route, a route", most(&with, best_route), searches);
    line("sedge_best_route, none", most(&without, best_route), searches);
    line("sedge_drive", most(&with, drive), walks);
    line("sedge_profile", most(&with, profile), walks);
    line("sedge_set_off", most(&questions, set_off), searches);
    let Question { battery, depot, .. } = *with[0];
    let (folder, library) = (Folder::with(with[0])?, found(library)?);
    let used = |program: &str, line: &str| main_of(&found(program)?, &folder.0, line, &library);
    line("plan", used(plan, &with[0].line())?, program);
    line("setoff", used(setoff, &format!("{battery} {depot}\n"))?, program);
    println!("{:26} {:>7}", "an empty call", painted::used(|| ()));
    Ok(())
}

/// What the program's main uses, in this folder with this line on its standard input.
fn main_of(program: &Path, folder: &Path, line: &str, library: &Path) -> Result<usize, String> {
    let mut deepest = 0;
    for paint in painted::PAINTS {
        let paint = paint.to_string();
        let variables = [("LD_PRELOAD", library.as_os_str()), ("PAINT", paint.as_ref())];
        let told = run(program, folder, line, &variables)?.stderr;
        let told = String::from_utf8_lossy(&told);
        let bytes = told.trim().parse().map_err(|_| format!("{}: no number of bytes: {told}", program.display()))?;
        deepest = usize::max(deepest, bytes);
    }
    Ok(deepest)
}

fn most(questions: &[&Question], used: fn(&Question) -> usize) -> usize {
    questions.iter().map(|question| used(question)).fold(0, usize::max)
}

fn check(question: &Question) -> usize {
    painted::used(|| sedge::check(question.files()))
}

fn best_route(question: &Question) -> usize {
    let Question { battery, start, source, target, .. } = *question;
    let mut list = question.list();
    painted::used(|| sedge::best_route(question.files(), battery, start, source, target, &mut list))
}

fn drive(question: &Question) -> usize {
    let Question { battery, start, source, .. } = *question;
    let route = route(question);
    painted::used(|| sedge::drive(question.files(), battery, start, source, &route))
}

fn profile(question: &Question) -> usize {
    let Question { battery, source, .. } = *question;
    let route = route(question);
    painted::used(|| sedge::profile(question.files(), battery, source, &route))
}

fn set_off(question: &Question) -> usize {
    let Question { battery, depot, .. } = *question;
    let mut charges = question.charges();
    painted::used(|| sedge::set_off(question.files(), battery, depot, &mut charges))
}

/// The best route of the question.
fn route(question: &Question) -> Vec<u16> {
    let mut list = question.list();
    let roads = ask(question, sedge::best_route, &mut list).roads;
    list.truncate(roads as usize);
    list
}

mod painted {
    use std::arch::asm;
    use std::ffi::c_void;
    use std::hint::black_box;

    /// The size of the stack that is painted, and the two paints: a byte that one of them hides the other shows.
    const BYTES: usize = 1 << 20;
    pub const PAINTS: [u8; 2] = [0xa5, 0x5a];

    /// How many bytes of stack the work uses.
    pub fn used<T, F: FnMut() -> T>(mut work: F) -> usize {
        let depth = |paint: u8| {
            let mut stack = vec![paint; BYTES];
            let top = stack.as_mut_ptr_range().end.map_addr(|end| end & !15);
            // The stack is ours alone, aligned as a call asks, and outlives the call.
            unsafe { call_on(top, run::<T, F>, (&raw mut work).cast()) };
            let lowest = stack.iter().position(|&byte| byte != paint).unwrap_or(BYTES);
            top.addr() - stack.as_ptr().addr() - lowest
        };
        PAINTS.map(depth).into_iter().fold(0, usize::max)
    }

    /// Runs the work that the pointer names.
    extern "C" fn run<T, F: FnMut() -> T>(work: *mut c_void) {
        // The pointer is the one that `used` made of its work.
        black_box(unsafe { (*work.cast::<F>())() });
    }

    /// Calls `run` with `work` on the stack that ends at `top`.
    unsafe fn call_on(top: *mut u8, run: extern "C" fn(*mut c_void), work: *mut c_void) {
        asm!(
            "xchg r12, rsp",
            "call r13",
            "mov rsp, r12",
            inout("r12") top => _,
            in("r13") run,
            in("rdi") work,
            clobber_abi("C"),
        );
    }
}
