//! The benchmark of the planner; the script `bench` at the root runs it and says what it needs.

mod document;
mod lists;
mod networks;
mod plain;
mod programs;
mod queries;
#[cfg(target_arch = "x86_64")]
mod stack;
mod tight;
mod times;
mod tuned;

use networks::{cases, named, Case};

const USAGE: &str =
    "one of: names; queries; count NETWORK IMPLEMENTATION TIMES; stack LIBRARY PLAN SETOFF; programs PLAN READS";

fn main() -> Result<(), String> {
    let words: Vec<String> = std::env::args().skip(1).collect();
    let words: Vec<&str> = words.iter().map(String::as_str).collect();
    match words[..] {
        ["names"] => cases().iter().for_each(|case| println!("{}", case.name)),
        ["queries"] => {
            let cases = cases();
            queries::compare(&cases)?;
            println!();
            lists::compare(&cases)?
        }
        ["count", name, implementation, times] => {
            let times = times.parse().map_err(|_| format!("not a number: {times}"))?;
            queries::count(&found(name)?, implementation, times)?
        }
        #[cfg(target_arch = "x86_64")]
        ["stack", library, plan, setoff] => stack::print(&cases(), library, plan, setoff)?,
        ["programs", plan, reads] => programs::compare(&found("hill")?.drawings[0], plan, reads)?,
        _ => return Err(USAGE.to_string()),
    }
    Ok(())
}

fn found(name: &str) -> Result<Case, String> {
    named(name).ok_or(format!("no network {name}"))
}
