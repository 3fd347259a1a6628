//! The best route as a good Rust programmer writes it first: the files decoded into vectors, the roads of each
//! junction side by side, and Dijkstra's search over a `BinaryHeap` that skips stale entries.

use crate::document::{test_numbers, Refusal, MOST_CONSUMPTION};
use sedge::{Files, Planned};
use std::collections::BinaryHeap;

/// A road as its record has it.
#[derive(Clone, Copy)]
struct Road {
    tail: u16,
    head: u16,
    consumption: i32,
}

/// The two files, decoded. The roads from junction v are `out[first[v]..first[v + 1]]`.
struct Network {
    potentials: Vec<i32>,
    roads: Vec<Road>,
    first: Vec<u32>,
    out: Vec<u16>,
}

/// What is asked for, once it is known to be sound.
struct Query {
    battery: i64,
    start: i64,
    source: usize,
    target: usize,
}

/// Best route: the first `roads` entries of `route` become the route, the others stay.
pub fn best_route(files: Files, battery: i64, start: i64, source: u64, target: u64, route: &mut [u16]) -> Planned {
    plan(files, battery, start, source, target, route).unwrap_or_else(Refusal::answer)
}

fn plan(
    files: Files,
    battery: i64,
    start: i64,
    source: u64,
    target: u64,
    list: &mut [u16],
) -> Result<Planned, Refusal> {
    test_numbers(files, battery, start, source, target, list.len())?;
    let network = Network::read(files)?;
    let query = Query { battery, start, source: source as usize, target: target as usize };
    let route = network.search(&query)?;
    list[..route.len()].copy_from_slice(&route);
    Ok(network.drive(&query, &route))
}

// The steps stay functions of their own: inlined into one, the search is slower.
impl Network {
    /// Decodes the two files and checks the records in file order.
    #[inline(never)]
    fn read(files: Files) -> Result<Network, Refusal> {
        let potentials: Vec<i32> =
            files.nodes.chunks_exact(4).map(|b| i32::from_le_bytes([b[0], b[1], b[2], b[3]])).collect();
        let roads: Vec<Road> = files
            .roads
            .chunks_exact(8)
            .map(|b| Road {
                tail: u16::from_le_bytes([b[0], b[1]]),
                head: u16::from_le_bytes([b[2], b[3]]),
                consumption: i32::from_le_bytes([b[4], b[5], b[6], b[7]]),
            })
            .collect();
        for (place, road) in roads.iter().enumerate() {
            let (tail, head) = (road.tail as usize, road.head as usize);
            if tail >= potentials.len() || head >= potentials.len() {
                return Err(Refusal { number: 7, place });
            }
            if !(-MOST_CONSUMPTION..=MOST_CONSUMPTION).contains(&road.consumption) {
                return Err(Refusal { number: 8, place });
            }
            if (road.consumption as i64) - (potentials[tail] as i64) + (potentials[head] as i64) < 0 {
                return Err(Refusal { number: 9, place });
            }
        }
        let (first, out) = side_by_side(&roads, potentials.len());
        Ok(Network { potentials, roads, first, out })
    }

    /// The best route: the junction with the most charge, counted from its potential, is settled first.
    #[inline(never)]
    fn search(&self, query: &Query) -> Result<Vec<u16>, Refusal> {
        let junctions = self.potentials.len();
        let mut charges: Vec<Option<i64>> = vec![None; junctions];
        let mut ways: Vec<u16> = vec![0; junctions];
        let mut settled = vec![false; junctions];
        let mut waiting = BinaryHeap::new();
        charges[query.source] = Some(query.start);
        waiting.push((query.start - self.potentials[query.source] as i64, query.source));
        while let Some((key, u)) = waiting.pop() {
            if settled[u] {
                continue;
            }
            if u == query.target {
                return Ok(self.route_back(&ways, query));
            }
            settled[u] = true;
            let charge = key + self.potentials[u] as i64;
            for &k in &self.out[self.first[u] as usize..self.first[u + 1] as usize] {
                let road = self.roads[k as usize];
                let left = charge - road.consumption as i64;
                if left < 0 {
                    continue;
                }
                let v = road.head as usize;
                let brings = left.min(query.battery);
                if charges[v].is_none_or(|charge| charge < brings) {
                    charges[v] = Some(brings);
                    ways[v] = k;
                    waiting.push((brings - self.potentials[v] as i64, v));
                }
            }
        }
        Err(Refusal::NO_ROUTE)
    }

    /// The roads by which the search came to the target, from the source on.
    fn route_back(&self, ways: &[u16], query: &Query) -> Vec<u16> {
        let mut route = Vec::new();
        let mut v = query.target;
        while v != query.source {
            route.push(ways[v]);
            v = self.roads[ways[v] as usize].tail as usize;
        }
        route.reverse();
        route
    }

    /// The drive of a route that can be driven: its arrival and totals.
    #[inline(never)]
    fn drive(&self, query: &Query, route: &[u16]) -> Planned {
        let mut charge = query.start;
        let (mut drawn, mut recovered, mut spilled) = (0, 0, 0);
        for &k in route {
            let consumption = self.roads[k as usize].consumption as i64;
            drawn += consumption.max(0);
            recovered += (-consumption).max(0);
            let left = charge - consumption;
            charge = left.min(query.battery);
            spilled += left - charge;
        }
        Planned {
            number: 0,
            place: 0,
            roads: route.len() as u64,
            arrival: charge as u64,
            drawn: drawn as u64,
            recovered: recovered as u64,
            spilled: spilled as u64,
        }
    }
}

/// The roads by their tails: where each junction's begin, and their numbers.
fn side_by_side(roads: &[Road], junctions: usize) -> (Vec<u32>, Vec<u16>) {
    let mut first = vec![0u32; junctions + 1];
    for road in roads {
        first[road.tail as usize + 1] += 1;
    }
    for v in 0..junctions {
        first[v + 1] += first[v];
    }
    let mut next = first.clone();
    let mut out = vec![0u16; roads.len()];
    for (k, road) in roads.iter().enumerate() {
        let place = &mut next[road.tail as usize];
        out[*place as usize] = k as u16;
        *place += 1;
    }
    (first, out)
}
