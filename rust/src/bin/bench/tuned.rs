//! The best route with tight's queue and chains in other shapes: signed keys, a branch at each offer, chains built with
//! the check, totals from the labels. Safe Rust, nothing on the heap, the fields read straight from the lent bytes.

use crate::document::{test_numbers, Potential, Record, Refusal, Road, MOST_JUNCTIONS, MOST_ROADS};
use sedge::{Files, Planned};

/// The working space, some 52 KB. Aligned, since it is cleared faster so.
#[repr(align(64))]
struct Space {
    /// For each junction the last road from it, plus one, and 0 for none.
    last: [u16; MOST_JUNCTIONS],
    /// For each road the previous one with the same tail, likewise.
    previous: [u16; MOST_ROADS],
    labels: [i32; MOST_JUNCTIONS],
    /// For each junction but the source the road that brought its label.
    ways: [u16; MOST_JUNCTIONS],
    queue: Queue,
}

/// The greatest key first: a key for each junction, and three levels of the greatest of each group of eight below. A
/// key holds the junction in its last eleven bits and is never negative; the larger of two is found faster if signed.
struct Queue {
    keys: [i64; 2048],
    ones: [i64; 256],
    twos: [i64; 32],
    threes: [i64; 4],
}

/// What is asked for, once it is known to be sound.
struct Query {
    battery: i32,
    start: i32,
    source: usize,
    target: usize,
}

/// Best route: the first `roads` entries of `route` become the route, the others stay.
pub fn best_route(files: Files, battery: i64, start: i64, source: u64, target: u64, route: &mut [u16]) -> Planned {
    plan(files, battery, start, source, target, route).unwrap_or_else(Refusal::answer)
}

#[inline(always)]
fn plan(
    files: Files,
    battery: i64,
    start: i64,
    source: u64,
    target: u64,
    list: &mut [u16],
) -> Result<Planned, Refusal> {
    test_numbers(files, battery, start, source, target, list.len())?;
    let (nodes, _) = files.nodes.as_chunks();
    let (roads, _) = files.roads.as_chunks();
    let query =
        Query { battery: battery as i32, start: start as i32, source: source as usize, target: target as usize };
    let mut space = Space::new();
    space.chain(nodes, roads)?;
    if !space.explore(nodes, roads, &query) {
        return Err(Refusal::NO_ROUTE);
    }
    Ok(space.route_back(roads, &query, list))
}

// An index is taken modulo the length of its array only to spare the test of its range.
impl Space {
    #[inline(always)]
    fn new() -> Space {
        Space {
            last: [0; MOST_JUNCTIONS],
            previous: [0; MOST_ROADS],
            labels: [0; MOST_JUNCTIONS],
            ways: [0; MOST_JUNCTIONS],
            queue: Queue { keys: [0; 2048], ones: [0; 256], twos: [0; 32], threes: [0; 4] },
        }
    }

    /// Checks the records in file order and chains the roads.
    #[inline(always)]
    fn chain(&mut self, nodes: &[Potential], roads: &[Record]) -> Result<(), Refusal> {
        for (k, (record, previous)) in roads.iter().zip(&mut self.previous).enumerate() {
            let road = Road::read(*record);
            road.test(nodes, k)?;
            let last = &mut self.last[road.tail % MOST_JUNCTIONS];
            *previous = *last;
            *last = (k + 1) as u16;
        }
        Ok(())
    }

    /// Settles one junction after another, the greatest key first; whether the target was reached.
    #[inline(always)]
    fn explore(&mut self, nodes: &[Potential], roads: &[Record], query: &Query) -> bool {
        let mut top = self.take(nodes, query.source % MOST_JUNCTIONS, query.start + 1, 0);
        while top != 0 {
            let u = top as usize % MOST_JUNCTIONS;
            if u == query.target {
                return true;
            }
            top = self.queue.remove(u);
            let label = self.labels[u];
            let mut next = self.last[u];
            while next != 0 {
                let k = next - 1;
                let road = Road::read(roads[k as usize]);
                next = self.previous[k as usize % MOST_ROADS];
                let v = road.head % MOST_JUNCTIONS;
                let brings = (label - road.consumption).max(0).min(query.battery + 1);
                if self.labels[v] < brings {
                    top = top.max(self.take(nodes, v, brings, k));
                }
            }
        }
        false
    }

    /// Gives v a better label, brought by road k; its key.
    #[inline(always)]
    fn take(&mut self, nodes: &[Potential], v: usize, label: i32, k: u16) -> i64 {
        let below_most = i32::MAX as i64 - i32::from_le_bytes(nodes[v]) as i64;
        let key = (label as i64 + below_most) * MOST_JUNCTIONS as i64 + v as i64;
        self.labels[v] = label;
        self.ways[v] = k;
        self.queue.raise(v, key);
        key
    }

    /// Goes back along the ways from the target, and writes the route once its length is known. A junction's label
    /// tells the charge with which the van leaves it, so the totals come on the way.
    #[inline(always)]
    fn route_back(&mut self, roads: &[Record], query: &Query, route: &mut [u16]) -> Planned {
        let backward = &mut self.previous;
        let (mut drawn, mut recovered, mut spilled) = (0, 0, 0);
        let mut count = 0;
        let mut v = query.target;
        while v != query.source {
            let k = self.ways[v % MOST_JUNCTIONS];
            let road = Road::read(roads[k as usize]);
            backward[count % MOST_ROADS] = k;
            count += 1;
            v = road.tail;
            let left = self.labels[v % MOST_JUNCTIONS] - 1 - road.consumption;
            drawn += road.consumption.max(0) as u64;
            recovered += (-road.consumption).max(0) as u64;
            spilled += (left - query.battery).max(0) as u64;
        }
        for (entry, k) in route.iter_mut().zip(backward[..count].iter().rev()) {
            *entry = *k;
        }
        let arrival = self.labels[query.target % MOST_JUNCTIONS] as u64 - 1;
        Planned { number: 0, place: 0, roads: count as u64, arrival, drawn, recovered, spilled }
    }
}

impl Queue {
    /// Gives v this key, which is greater than the one it had.
    #[inline(always)]
    fn raise(&mut self, v: usize, key: i64) {
        self.keys[v] = key;
        self.ones[v / 8] = self.ones[v / 8].max(key);
        self.twos[v / 64] = self.twos[v / 64].max(key);
        self.threes[v / 512] = self.threes[v / 512].max(key);
    }

    /// Takes v out; the greatest key that is left, or 0.
    #[inline(always)]
    fn remove(&mut self, v: usize) -> i64 {
        let one = clear(&mut self.keys, v);
        let two = put(&mut self.ones, v / 8, one);
        let three = put(&mut self.twos, v / 64, two);
        self.threes[v / 512] = 0;
        let [a, b, c, d] = self.threes;
        self.threes[v / 512] = three;
        a.max(b).max(c.max(d)).max(three)
    }
}

/// Clears entry i; the greatest of its group then.
#[inline(always)]
fn clear<const N: usize>(level: &mut [i64; N], i: usize) -> i64 {
    level[i] = 0;
    let [a, b, c, d, e, f, g, h] = std::array::from_fn(|j| level[i / 8 * 8 + j]);
    a.max(b).max(c.max(d)).max(e.max(f).max(g.max(h)))
}

/// Puts x at i; the greatest of its group then. The other seven do not wait for x.
#[inline(always)]
fn put<const N: usize>(level: &mut [i64; N], i: usize, x: i64) -> i64 {
    let others = clear(level, i);
    level[i] = x;
    others.max(x)
}
