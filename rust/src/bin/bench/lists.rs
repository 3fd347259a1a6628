//! Whole lists of charges to set off with, beside best-route queries without a route, which search as widely: ours
//! twice, tight once.

use crate::networks::{Case, Question};
use crate::queries::{ask, time_in_turn, Worst, ROUNDS};
use crate::tight;
use crate::times::Times;
use sedge::Checked;
use std::hint::black_box;

/// What a list may take of a query that searches once without a route, on the same network with the same battery.
const MARK: f64 = 1.3;

/// Asserts that lists and best routes agree on the full-size networks, then times them, and prints a table and the
/// mark.
pub fn compare(cases: &[Case]) -> Result<(), String> {
    let too_low = || cases.iter().filter(|case| case.is_full_size() && case.number() == 10);
    for case in too_low() {
        case.drawings.iter().try_for_each(agree).map_err(|told| format!("{}: {told}", case.name))?;
    }
    println!("Lists of charges to set off with beside queries without a route on the same networks, as above; for");
    println!("these ours searches twice, tight once. {ROUNDS} rounds over the drawings, all in turn. The depot is the");
    println!("target of the question with a route; a full battery reaches it from so many junctions, in the drawing");
    println!("where they are fewest.");
    println!();
    println!(
        "{:12} {:>15} {:>15} {:>15} {:>16} {:>16} {:>10}",
        "network", "set off", "ours", "tight", "set off / ours", "set off / tight", "junctions"
    );
    let (mut of_ours, mut of_tight) = (Worst::default(), Worst::default());
    for case in too_low() {
        let [listed, ours, tight] = time(case);
        let (by_ours, by_tight) = (listed.by(&ours), listed.by(&tight));
        let reached = case.drawings.iter().map(reached_from).min().unwrap_or(0);
        let (ratio, ratio_to_tight) = (by_ours.to_string(), by_tight.to_string());
        println!("{:12} {listed} {ours} {tight} {ratio:>16} {ratio_to_tight:>16} {reached:>10}", case.name);
        of_ours.take(&by_ours, &case.name);
        of_tight.take(&by_tight, &case.name);
    }
    println!();
    println!("set off / tight at most {MARK:.2} on full-size: {}; {of_tight}", of_tight.judged(MARK));
    println!("set off / ours without a mark; {of_ours}");
    Ok(())
}

/// The times of a list and of a best route by ours and by tight.
fn time(case: &Case) -> [Times; 3] {
    let (mut charges, mut route) = (case.drawings[0].charges(), case.drawings[0].list());
    time_in_turn(case, |which, question| match which {
        0 => {
            list(question, &mut charges);
        }
        1 => {
            ask(question, sedge::best_route, &mut route);
        }
        _ => {
            ask(question, tight::best_route, &mut route);
        }
    })
}

/// Lists the charges, of which the compiler may foresee nothing.
fn list(question: &Question, charges: &mut [i32]) -> Checked {
    let question = black_box(question);
    black_box(sedge::set_off(question.files(), question.battery, question.depot, charges))
}

/// From how many junctions a full battery reaches the depot.
fn reached_from(question: &Question) -> usize {
    let mut charges = question.charges();
    list(question, &mut charges);
    charges.iter().filter(|charge| **charge >= 0).count()
}

/// Whether from the source of the question a best route is refused with 10 and the charge listed just below it, and is
/// found with it.
fn agree(question: &Question) -> Result<(), String> {
    let mut charges = question.charges();
    let answer = list(question, &mut charges);
    let charge = i64::from(charges[question.source as usize]);
    let told = |start| {
        let Question { battery, source, depot, .. } = *question;
        let planned = sedge::best_route(question.files(), battery, start, source, depot, &mut question.list());
        (planned.number, planned.place as i64)
    };
    let is_least = charge == 0 || told(charge - 1) == (10, charge);
    if answer.number == 0 && charge >= 0 && told(charge) == (0, 0) && is_least {
        Ok(())
    } else {
        Err(format!("the charge {charge} differs: {answer:?}"))
    }
}
