//! Whole queries: bytes in, answer out, the network check included.

use crate::document::Refusal;
use crate::networks::{Case, Question, NUMBERS};
use crate::times::{Ratios, Times};
use crate::{plain, tight, tuned};
use sedge::{Files, Planned};
use std::fmt;
use std::hint::black_box;
use std::time::{Duration, Instant};

/// How often each drawing of a network is timed by each implementation. The first in turn has to fetch the files into
/// the nearest cache, so each is first equally often.
pub const ROUNDS: usize = 6 * IMPLEMENTATIONS.len();

/// How many queries of a network below full size are timed together.
const BATCH: u32 = 64;

/// What ours may take of each of the others on a full-size network with a route. Beside tuned there is no mark.
const PLAIN_MARK: f64 = 0.55;
const TIGHT_MARK: f64 = 1.0;

/// How often ours goes over the network to tell why there is no route: 10, 16 and 17.
const PASSES: [usize; 3] = [2, 3, 3];

/// A best route, as the wrapper gives it.
type BestRoute = fn(Files, i64, i64, u64, u64, &mut [u16]) -> Planned;

/// What is compared, by name.
const IMPLEMENTATIONS: [(&str, BestRoute); 4] = [
    ("ours", sedge::best_route),
    ("plain", plain::best_route),
    ("tight", tight::best_route),
    ("tuned", tuned::best_route),
];

/// The greatest ratio of medians and of leasts over the full-size networks.
#[derive(Default)]
pub struct Worst {
    median: Greatest,
    least: Greatest,
}

/// The greatest of some ratios, and the network that has it.
#[derive(Default)]
struct Greatest {
    ratio: f64,
    network: String,
}

/// Asserts that the implementations agree, then times every query in all of them, and prints a table and the marks.
pub fn compare(cases: &[Case]) -> Result<(), String> {
    for case in cases {
        case.drawings.iter().try_for_each(agree).map_err(|told| format!("{}: {told}", case.name))?;
    }
    println!("Whole queries in microseconds: the median, and the mean of the leasts of each drawing.");
    println!("{ROUNDS} rounds over the drawings of each network, the implementations in turn, each round from another");
    println!("one on. Below full size, {BATCH} queries are timed together. No buffer is cleared between queries.");
    println!("ours / route is by ours with a route on the same network.");
    let sizes: Vec<String> = cases.iter().filter(|case| case.has_route()).map(Case::size).collect();
    println!("Junctions and roads: {}.", sizes.join(", "));
    println!();
    println!(
        "{:12} {:>15} {:>15} {:>15} {:>15} {:>13} {:>13} {:>13} {:>13}",
        "network", "ours", "plain", "tight", "tuned", "ours / plain", "ours / tight", "ours / tuned", "ours / route"
    );
    let mut worst = NUMBERS.map(|_| <[Worst; 4]>::default());
    for questions in cases.chunks(NUMBERS.len()) {
        let mut route = None;
        for (case, worst) in questions.iter().zip(&mut worst) {
            let [ours, plain, tight, tuned] = time(case);
            let ratios = [plain, tight, tuned, *route.get_or_insert(ours)].map(|other| ours.by(&other));
            let [by_plain, by_tight, by_tuned, by_route] = &ratios;
            println!("{:12} {ours} {plain} {tight} {tuned} {by_plain} {by_tight} {by_tuned} {by_route}", case.name);
            if case.is_full_size() {
                worst.iter_mut().zip(&ratios).for_each(|(worst, ratios)| worst.take(ratios, &case.name));
            }
        }
    }
    let [[of_plain, of_tight, of_tuned, _], without_route @ ..] = worst;
    println!();
    println!("Full-size with a route:");
    println!("ours / plain at most {PLAIN_MARK:.2}: {}; {of_plain}", of_plain.judged(PLAIN_MARK));
    println!("ours / tight at most {TIGHT_MARK:.2}: {}; {of_tight}", of_tight.judged(TIGHT_MARK));
    println!("ours / tuned without a mark; {of_tuned}");
    println!("Full-size without a route, where ours goes over the network again to tell why, without a mark:");
    for ((number, passes), [_, of_tight, _, of_route]) in NUMBERS[1..].iter().zip(PASSES).zip(without_route) {
        println!("{number} by {passes} passes, ours / tight by 1; {of_tight}");
        println!("{number} by {passes} passes, ours / route; {of_route}");
    }
    Ok(())
}

/// Runs as many queries in the named implementation, one drawing after another, for a count of instructions.
pub fn count(case: &Case, implementation: &str, times: usize) -> Result<(), String> {
    let found = IMPLEMENTATIONS.iter().find(|(name, _)| *name == implementation);
    let (_, best_route) = found.ok_or(format!("no implementation {implementation}"))?;
    let mut list = case.drawings[0].list();
    for question in case.drawings.iter().cycle().take(times) {
        ask(question, *best_route, &mut list);
    }
    Ok(())
}

/// Runs one query, of which the compiler may foresee nothing.
pub fn ask(question: &Question, best_route: BestRoute, list: &mut [u16]) -> Planned {
    let question = black_box(question);
    black_box(best_route(question.files(), question.battery, question.start, question.source, question.target, list))
}

/// Whether all implementations give the same arrival and the number expected, which is one for all reasons why there is
/// no route but in ours, and each one's route is driven with the totals that it gave.
fn agree(question: &Question) -> Result<(), String> {
    let mut first = None;
    for (name, best_route) in IMPLEMENTATIONS {
        let mut list = question.list();
        let answer = ask(question, best_route, &mut list);
        let number = if name == "ours" { question.number } else { question.number.min(Refusal::NO_ROUTE.number) };
        if answer.number != number || *first.get_or_insert(answer.arrival) != answer.arrival {
            return Err(format!("{name} differs: {answer:?}"));
        }
        let route = &list[..answer.roads as usize];
        let driven = sedge::drive(question.files(), question.battery, question.start, question.source, route);
        let totals = (driven.arrival, driven.drawn, driven.recovered, driven.spilled);
        if answer.number == 0 && totals != (answer.arrival, answer.drawn, answer.recovered, answer.spilled) {
            return Err(format!("the route of {name} is driven otherwise: {answer:?}, {driven:?}"));
        }
    }
    Ok(())
}

/// The times of the case in each implementation.
fn time(case: &Case) -> [Times; 4] {
    let mut list = case.drawings[0].list();
    time_in_turn(case, |which, question| {
        ask(question, IMPLEMENTATIONS[which].1, &mut list);
    })
}

/// The times of each of `N` works, named by number, on the questions of the case.
pub fn time_in_turn<const N: usize>(case: &Case, mut work: impl FnMut(usize, &Question)) -> [Times; N] {
    let batch = if case.is_full_size() { 1 } else { BATCH };
    let mut taken = [(); N].map(|_| vec![Vec::new(); case.drawings.len()]);
    for round in 0..ROUNDS {
        for (i, question) in case.drawings.iter().enumerate() {
            for turn in 0..N {
                let which = (round + turn) % N;
                taken[which][i].push(time_once(batch, || work(which, question)));
            }
        }
    }
    taken.map(|taken| Times::of(&taken))
}

/// The time of one piece of work, as the mean of so many done together.
fn time_once(batch: u32, mut work: impl FnMut()) -> Duration {
    let begun = Instant::now();
    for _ in 0..batch {
        work();
    }
    begun.elapsed() / batch
}

impl Worst {
    pub fn take(&mut self, ratios: &Ratios, network: &str) {
        self.median.take(ratios.median, network);
        self.least.take(ratios.least, network);
    }

    /// Whether the medians keep to the mark, in a word.
    pub fn judged(&self, mark: f64) -> &'static str {
        if self.median.ratio <= mark {
            "met"
        } else {
            "missed"
        }
    }
}

impl fmt::Display for Worst {
    fn fmt(&self, f: &mut fmt::Formatter) -> fmt::Result {
        write!(f, "the worst by medians {}, by leasts {}", self.median, self.least)
    }
}

impl Greatest {
    fn take(&mut self, ratio: f64, network: &str) {
        if self.ratio < ratio {
            *self = Greatest { ratio, network: network.to_string() };
        }
    }
}

impl fmt::Display for Greatest {
    fn fmt(&self, f: &mut fmt::Formatter) -> fmt::Result {
        write!(f, "{:.2} on {}", self.ratio, self.network)
    }
}
