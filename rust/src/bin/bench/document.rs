//! What plain, tight and tuned share of document 01: the limits, the records and the refusals.

use sedge::model::{self, MOST_BATTERY};
use sedge::{Files, Planned};

pub use sedge::model::{MOST_JUNCTIONS, MOST_ROADS};

/// The most that a road may take or give, as wide as its field.
pub const MOST_CONSUMPTION: i32 = model::MOST_CONSUMPTION as i32;

/// A junction's potential and a road's record, as the files have them.
pub type Potential = [u8; 4];
pub type Record = [u8; 8];

/// A road as its record has it.
pub struct Road {
    pub tail: usize,
    pub head: usize,
    pub consumption: i32,
}

/// Why a question is refused: document 01's number, and the place.
pub struct Refusal {
    pub number: u64,
    pub place: usize,
}

/// Refusals 1 to 6, of the files' sizes and of the numbers, where the lent list has `room` entries.
#[inline(always)]
pub fn test_numbers(
    files: Files,
    battery: i64,
    start: i64,
    source: u64,
    target: u64,
    room: usize,
) -> Result<(), Refusal> {
    let refuse = |number| Err(Refusal { number, place: 0 });
    let junctions = files.nodes.len() / 4;
    if junctions == 0 || !files.nodes.len().is_multiple_of(4) || junctions > MOST_JUNCTIONS {
        return refuse(1);
    }
    if !files.roads.len().is_multiple_of(8) || files.roads.len() / 8 > MOST_ROADS {
        return refuse(2);
    }
    if !(1..=MOST_BATTERY).contains(&battery) {
        return refuse(3);
    }
    if !(0..=battery).contains(&start) {
        return refuse(4);
    }
    if source >= junctions as u64 || target >= junctions as u64 {
        return refuse(5);
    }
    if room < junctions - 1 {
        return refuse(6);
    }
    Ok(())
}

impl Road {
    #[inline(always)]
    pub fn read(record: Record) -> Road {
        let record = u64::from_le_bytes(record);
        Road { tail: record as u16 as usize, head: (record >> 16) as u16 as usize, consumption: (record >> 32) as i32 }
    }

    /// Refusals 7 to 9, of the record at this place.
    #[inline(always)]
    pub fn test(&self, nodes: &[Potential], place: usize) -> Result<(), Refusal> {
        let refuse = |number| Err(Refusal { number, place });
        if self.tail >= nodes.len() || self.head >= nodes.len() {
            return refuse(7);
        }
        if !(-MOST_CONSUMPTION..=MOST_CONSUMPTION).contains(&self.consumption) {
            return refuse(8);
        }
        let at_tail = i32::from_le_bytes(nodes[self.tail]) as i64;
        let at_head = i32::from_le_bytes(nodes[self.head]) as i64;
        if self.consumption as i64 - at_tail + at_head < 0 {
            return refuse(9);
        }
        Ok(())
    }
}

impl Refusal {
    /// There is no route; none of them asks why.
    pub const NO_ROUTE: Refusal = Refusal { number: 10, place: 0 };

    /// The answer that says so, with zero for all other numbers.
    pub fn answer(self) -> Planned {
        Planned {
            number: self.number,
            place: self.place as u64,
            roads: 0,
            arrival: 0,
            drawn: 0,
            recovered: 0,
            spilled: 0,
        }
    }
}
