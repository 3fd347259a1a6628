//! What is kept of many times taken.

use std::fmt;
use std::time::Duration;

/// The median of all times, and the mean of the least ones of each drawing, in microseconds.
#[derive(Clone, Copy)]
pub struct Times {
    pub median: f64,
    pub least: f64,
}

/// One implementation's times by another's.
pub struct Ratios {
    pub median: f64,
    pub least: f64,
}

impl Times {
    /// From the times taken, drawing by drawing.
    pub fn of(taken: &[Vec<Duration>]) -> Times {
        let micros = |time: &Duration| time.as_nanos() as f64 / 1000.0;
        let mut all: Vec<f64> = taken.iter().flatten().map(micros).collect();
        all.sort_by(f64::total_cmp);
        let leasts = taken.iter().filter_map(|times| times.iter().min()).map(micros);
        Times { median: all[all.len() / 2], least: leasts.sum::<f64>() / taken.len() as f64 }
    }

    /// These by the other's.
    pub fn by(&self, other: &Times) -> Ratios {
        Ratios { median: self.median / other.median, least: self.least / other.least }
    }
}

impl fmt::Display for Times {
    fn fmt(&self, f: &mut fmt::Formatter) -> fmt::Result {
        write!(f, "{:7.2} {:7.2}", self.median, self.least)
    }
}

impl fmt::Display for Ratios {
    fn fmt(&self, f: &mut fmt::Formatter) -> fmt::Result {
        write!(f, "{:6.2} {:6.2}", self.median, self.least)
    }
}
