//! The best route as the library was designed, in safe Rust: one loop that checks the records, a pass that chains the
//! roads, labels (charge + 1, 0 for none), a queue of maxima of groups of eight, no branch at an offer, and a drive of
//! the route that was written. Nothing is on the heap; the fields are read straight from the lent bytes.

use crate::document::{test_numbers, Potential, Record, Refusal, Road, MOST_JUNCTIONS, MOST_ROADS};
use sedge::{Files, Planned};
use std::hint::select_unpredictable;

/// A key tells its junction by its remainder.
const PLACES: u64 = 2048;

/// The working space, some 52 KB. Aligned, since it is cleared faster so.
#[repr(align(64))]
struct Space {
    /// For each junction the last road from it, plus one, and 0 for none.
    last: [u16; MOST_JUNCTIONS],
    /// For each road the previous one with the same tail, likewise.
    previous: [u16; MOST_ROADS],
    labels: [u32; MOST_JUNCTIONS],
    /// For each junction but the source the road that brought its label.
    ways: [u16; MOST_JUNCTIONS],
    frontier: Frontier,
}

/// The greatest key first: a key for each junction, 0 if it does not wait, and three levels of the greatest of each
/// group of eight below. The caller carries the greatest of all.
struct Frontier {
    keys: [u64; MOST_JUNCTIONS],
    ones: [u64; 256],
    twos: [u64; 32],
    threes: [u64; 8],
}

/// What is asked for, once it is known to be sound.
struct Query {
    battery: u32,
    start: u32,
    source: usize,
    target: usize,
}

/// What a road brings to its head.
struct Offer {
    road: u16,
    label: u32,
    key: u64,
}

/// Best route: the first `roads` entries of `route` become the route, the others stay.
pub fn best_route(files: Files, battery: i64, start: i64, source: u64, target: u64, route: &mut [u16]) -> Planned {
    plan(files, battery, start, source, target, route).unwrap_or_else(Refusal::answer)
}

#[inline(always)]
fn plan(
    files: Files,
    battery: i64,
    start: i64,
    source: u64,
    target: u64,
    list: &mut [u16],
) -> Result<Planned, Refusal> {
    test_numbers(files, battery, start, source, target, list.len())?;
    let (nodes, _) = files.nodes.as_chunks();
    let (roads, _) = files.roads.as_chunks();
    check(nodes, roads)?;
    let query =
        Query { battery: battery as u32, start: start as u32, source: source as usize, target: target as usize };
    let mut space = Space::new();
    space.chain(roads);
    if !space.explore(nodes, roads, &query) {
        return Err(Refusal::NO_ROUTE);
    }
    let count = space.count_back(roads, &query);
    let route = &mut list[..count];
    space.write_back(roads, &query, route);
    Ok(drive(roads, &query, route))
}

/// Checks the records in file order. Its loop keeps to the registers only as a function of its own.
#[inline(never)]
fn check(nodes: &[Potential], roads: &[Record]) -> Result<(), Refusal> {
    for (k, record) in roads.iter().enumerate() {
        Road::read(*record).test(nodes, k)?;
    }
    Ok(())
}

/// The drive of a route that can be driven: its arrival and totals.
#[inline(always)]
fn drive(roads: &[Record], query: &Query, route: &[u16]) -> Planned {
    let mut charge = query.start as i32;
    let (mut drawn, mut recovered, mut spilled) = (0, 0, 0);
    for &k in route {
        let consumption = Road::read(roads[k as usize]).consumption;
        let left = charge - consumption;
        charge = left.min(query.battery as i32);
        drawn += consumption.max(0) as u64;
        recovered += (-consumption).max(0) as u64;
        spilled += (left - charge) as u64;
    }
    Planned { number: 0, place: 0, roads: route.len() as u64, arrival: charge as u64, drawn, recovered, spilled }
}

// An index is taken modulo the length of its array only to spare the test of its range.
impl Space {
    #[inline(always)]
    fn new() -> Space {
        Space {
            last: [0; MOST_JUNCTIONS],
            previous: [0; MOST_ROADS],
            labels: [0; MOST_JUNCTIONS],
            ways: [0; MOST_JUNCTIONS],
            frontier: Frontier { keys: [0; MOST_JUNCTIONS], ones: [0; 256], twos: [0; 32], threes: [0; 8] },
        }
    }

    /// Chains the roads by their tails.
    #[inline(always)]
    fn chain(&mut self, roads: &[Record]) {
        for (k, (record, previous)) in roads.iter().zip(&mut self.previous).enumerate() {
            let last = &mut self.last[Road::read(*record).tail % MOST_JUNCTIONS];
            *previous = *last;
            *last = (k + 1) as u16;
        }
    }

    /// Settles one junction after another, the greatest key first, until the target is settled or none waits; whether
    /// the target was reached.
    #[inline(always)]
    fn explore(&mut self, nodes: &[Potential], roads: &[Record], query: &Query) -> bool {
        let source = query.source % MOST_JUNCTIONS;
        let label = query.start + 1;
        self.labels[source] = label;
        let mut top = self.frontier.raise(0, source, key(nodes, source, label));
        while top != 0 {
            let u = (top % PLACES) as usize % MOST_JUNCTIONS;
            if u == query.target {
                return true;
            }
            let rest = self.frontier.remove(u);
            top = self.spread(nodes, roads, query.battery, u, rest);
        }
        false
    }

    /// Offers the heads of all roads from u, which was settled last, what they bring; the greatest key then.
    #[inline(always)]
    fn spread(&mut self, nodes: &[Potential], roads: &[Record], battery: u32, u: usize, mut top: u64) -> u64 {
        let label = self.labels[u];
        let mut next = self.last[u];
        while next != 0 {
            let k = next - 1;
            next = self.previous[k as usize % MOST_ROADS];
            let road = Road::read(roads[k as usize]);
            let v = road.head % MOST_JUNCTIONS;
            let brings = (label as i32 - road.consumption).max(0).min(battery as i32 + 1) as u32;
            top = self.take(top, v, Offer { road: k, label: brings, key: key(nodes, v, brings) });
        }
        top
    }

    /// Takes the offer to v where it betters the label, without a branch; the greatest key then.
    #[inline(always)]
    fn take(&mut self, top: u64, v: usize, offer: Offer) -> u64 {
        let betters = self.labels[v] < offer.label;
        self.labels[v] = select_unpredictable(betters, offer.label, self.labels[v]);
        self.ways[v] = select_unpredictable(betters, offer.road, self.ways[v]);
        self.frontier.raise(top, v, select_unpredictable(betters, offer.key, 0))
    }

    /// How many roads lead back by the ways from the target to the source.
    #[inline(always)]
    fn count_back(&self, roads: &[Record], query: &Query) -> usize {
        let mut count = 0;
        let mut v = query.target;
        while v != query.source {
            v = Road::read(roads[self.ways[v % MOST_JUNCTIONS] as usize]).tail;
            count += 1;
        }
        count
    }

    /// Writes them, the last one first.
    #[inline(always)]
    fn write_back(&self, roads: &[Record], query: &Query, route: &mut [u16]) {
        let mut v = query.target;
        for entry in route.iter_mut().rev() {
            *entry = self.ways[v % MOST_JUNCTIONS];
            v = Road::read(roads[*entry as usize]).tail;
        }
    }
}

/// The key of v with this label: its distance below the greatest potential is added to the label.
#[inline(always)]
fn key(nodes: &[Potential], v: usize, label: u32) -> u64 {
    let below_most = i32::MAX.wrapping_sub(i32::from_le_bytes(nodes[v])) as u32;
    (label as u64 + below_most as u64) * PLACES + v as u64
}

impl Frontier {
    /// Makes the key of v no less than this one, where `top` is the greatest key; the greatest key then.
    #[inline(always)]
    fn raise(&mut self, top: u64, v: usize, key: u64) -> u64 {
        self.keys[v] = self.keys[v].max(key);
        self.ones[v / 8] = self.ones[v / 8].max(key);
        self.twos[v / 64] = self.twos[v / 64].max(key);
        self.threes[v / 512] = self.threes[v / 512].max(key);
        top.max(key)
    }

    /// Takes v out; the greatest key that is left, or 0.
    #[inline(always)]
    fn remove(&mut self, v: usize) -> u64 {
        let one = put(&mut self.keys, v, 0);
        let two = put(&mut self.ones, v / 8, one);
        let three = put(&mut self.twos, v / 64, two);
        put(&mut self.threes, v / 512, three)
    }
}

/// Puts x at i; the greatest of its group then. The other seven do not wait for x.
#[inline(always)]
fn put<const N: usize>(level: &mut [u64; N], i: usize, x: u64) -> u64 {
    level[i] = 0;
    let [a, b, c, d, e, f, g, h] = std::array::from_fn(|j| level[i / 8 * 8 + j]);
    level[i] = x;
    a.max(b).max(c.max(d)).max(e.max(f).max(g.max(h))).max(x)
}
