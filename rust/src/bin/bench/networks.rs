//! The networks of the benchmark, each drawn from fixed seeds, and what is asked of them.

use crate::document::{MOST_JUNCTIONS, MOST_ROADS};
use sedge::Files;

/// How often each network is drawn. A cab asks a network once, so no implementation may learn its branches by heart.
const DRAWINGS: u64 = 16;

/// The numbers of the answers to the questions about a network: a route, and the three reasons why there is none.
pub const NUMBERS: [u64; 4] = [0, 10, 16, 17];

/// What makes one drawing of a network: the questions with these answers.
type Draw = fn(Dice) -> [Question; 4];

/// The networks by name, the full-size ones first.
const KINDS: [(&str, Draw); 6] =
    [("hill", hill), ("random", country), ("path", path), ("fan", fan), ("h", network_h), ("town", town)];

/// The same kind of question about several drawings of the same kind of network.
pub struct Case {
    pub name: String,
    pub drawings: Vec<Question>,
}

/// A best-route question about a network, and the number of its answer. The depot, for charges to set off with, is the
/// target of the question with a route.
pub struct Question {
    network: Network,
    pub battery: i64,
    pub start: i64,
    pub source: u64,
    pub target: u64,
    pub depot: u64,
    pub number: u64,
}

/// The two files of a network, and the potentials as numbers.
#[derive(Clone)]
struct Network {
    potentials: Vec<i32>,
    nodes: Vec<u8>,
    roads: Vec<u8>,
}

/// From where to where, and with what charge.
#[derive(Clone, Copy)]
struct Ask {
    start: i64,
    source: usize,
    target: usize,
}

/// A seeded source of numbers (splitmix64).
struct Dice(u64);

/// Every case, the full-size networks first, those of one network in the order of their numbers.
pub fn cases() -> Vec<Case> {
    KINDS.iter().flat_map(|&(name, draw)| drawn(name, draw)).collect()
}

/// The case of this name.
pub fn named(name: &str) -> Option<Case> {
    let kinds = KINDS.iter().filter(|(kind, _)| name.starts_with(kind));
    kinds.flat_map(|&(kind, draw)| drawn(kind, draw)).find(|case| case.name == name)
}

/// All drawings of a network: the case with a route, by its name alone, and those without.
fn drawn(name: &str, draw: Draw) -> [Case; 4] {
    let called = |number| if number == 0 { name.to_string() } else { format!("{name}-{number}") };
    let mut cases = NUMBERS.map(|number| Case { name: called(number), drawings: Vec::new() });
    for seed in 0..DRAWINGS {
        for (case, question) in cases.iter_mut().zip(draw(Dice(seed))) {
            case.drawings.push(question);
        }
    }
    cases
}

impl Case {
    /// How many junctions and roads there are, after the name.
    pub fn size(&self) -> String {
        format!("{} {}/{}", self.name, self.junctions(), self.drawings[0].files().roads.len() / 8)
    }

    /// The number of the answers.
    pub fn number(&self) -> u64 {
        self.drawings[0].number
    }

    /// Whether it is the case with a route.
    pub fn has_route(&self) -> bool {
        self.number() == 0
    }

    fn junctions(&self) -> usize {
        self.drawings[0].files().nodes.len() / 4
    }

    /// Whether the network has as many junctions as there may be.
    pub fn is_full_size(&self) -> bool {
        self.junctions() == MOST_JUNCTIONS
    }
}

impl Question {
    /// The two files, lent.
    pub fn files(&self) -> Files<'_> {
        Files { nodes: &self.network.nodes, roads: &self.network.roads }
    }

    /// The line that asks the cab program.
    pub fn line(&self) -> String {
        format!("{} {} {} {}\n", self.battery, self.start, self.source, self.target)
    }

    /// A list with room for any route.
    pub fn list(&self) -> Vec<u16> {
        vec![0; self.network.potentials.len()]
    }

    /// A list with room for the charges to set off with.
    pub fn charges(&self) -> Vec<i32> {
        vec![0; self.network.potentials.len()]
    }
}

impl Network {
    /// Junctions with these potentials, and no roads yet.
    fn new(potentials: Vec<i32>) -> Network {
        let nodes = potentials.iter().flat_map(|potential| potential.to_le_bytes()).collect();
        Network { potentials, nodes, roads: Vec::new() }
    }

    /// One more road, which takes `slack` more than the least that its potentials let pass.
    fn add(&mut self, tail: usize, head: usize, slack: usize) {
        let consumption = self.potentials[tail] - self.potentials[head] + slack as i32;
        self.roads.extend((tail as u16).to_le_bytes());
        self.roads.extend((head as u16).to_le_bytes());
        self.roads.extend(consumption.to_le_bytes());
    }

    /// Closes all roads to this junction.
    fn close(&mut self, head: usize) {
        let open = self.roads.chunks_exact(8).filter(|record| record[2..4] != (head as u16).to_le_bytes());
        self.roads = open.flatten().copied().collect();
    }

    /// The question with a route, the one with a start that is too low, the same with a battery that holds no more than
    /// that start, and the one between junctions that no chain of roads joins.
    fn asked(self, battery: i64, with: Ask, low: Ask, apart: Ask) -> [Question; 4] {
        let depot = with.target as u64;
        let question = |number, battery, ask: Ask| Question {
            network: self.clone(),
            battery,
            start: ask.start,
            source: ask.source as u64,
            target: ask.target as u64,
            depot,
            number,
        };
        let [route, more_charge, never_enough, not_joined] = NUMBERS;
        [
            question(route, battery, with),
            question(more_charge, battery, low),
            question(never_enough, low.start, low),
            question(not_joined, battery, apart),
        ]
    }

    /// The same from junction 0, where all roads to `far` are long and none leads to `apart`.
    fn asked_from_0(self, far: usize, apart: usize) -> [Question; 4] {
        let ask = |start, target| Ask { start, source: 0, target };
        let low = ask(self.climb(0, far) + LONG as i64, far);
        self.asked(40_000_000, ask(35_000_000, far), low, ask(35_000_000, apart))
    }

    /// What the climb alone takes between two junctions.
    fn climb(&self, source: usize, target: usize) -> i64 {
        (self.potentials[source] - self.potentials[target]) as i64
    }
}

impl Dice {
    /// A number from 0 up to and without `limit`.
    fn below(&mut self, limit: usize) -> usize {
        self.0 = self.0.wrapping_add(0x9e37_79b9_7f4a_7c15);
        let mut x = self.0;
        x = (x ^ (x >> 30)).wrapping_mul(0xbf58_476d_1ce4_e5b9);
        x = (x ^ (x >> 27)).wrapping_mul(0x94d0_49bb_1331_11eb);
        ((x ^ (x >> 31)) % limit as u64) as usize
    }

    /// The numbers from 0 up to and without `count`, in some order.
    fn order(&mut self, count: usize) -> Vec<usize> {
        let mut order: Vec<usize> = (0..count).collect();
        for i in (1..count).rev() {
            order.swap(i, self.below(i + 1));
        }
        order
    }

    /// As many potentials, spread over 10,000,000 mWh.
    fn potentials(&mut self, count: usize) -> Vec<i32> {
        (0..count).map(|_| self.below(10_000_000) as i32 - 5_000_000).collect()
    }
}

/// A grid of 64 by 32 junctions over a dozen hills, each joined with its neighbours by roads both ways. The low start
/// would just lift the van to the highest junction, with nothing left for the way; where that is apart, the roads to it
/// are closed.
fn hill(mut dice: Dice) -> [Question; 4] {
    const WIDE: usize = 64;
    const HIGH: usize = 32;
    /// What the van takes for a metre of climb, and for a metre of flat road.
    const CLIMB: f64 = 9500.0;
    const FLAT: usize = 200;
    let peaks: Vec<[f64; 3]> =
        (0..12).map(|_| [dice.below(WIDE) as f64, dice.below(HIGH) as f64, 100.0 + dice.below(400) as f64]).collect();
    let potential = |v: usize| {
        let (x, y) = ((v % WIDE) as f64, (v / WIDE) as f64);
        let metres = peaks.iter().map(|p| p[2] * 30.0 / (30.0 + (x - p[0]).powi(2) + (y - p[1]).powi(2)));
        -(metres.sum::<f64>() * CLIMB) as i32
    };
    let mut network = Network::new((0..WIDE * HIGH).map(potential).collect());
    for v in 0..WIDE * HIGH {
        let right = (v % WIDE + 1 < WIDE).then_some(v + 1);
        let below = (v / WIDE + 1 < HIGH).then_some(v + WIDE);
        for there in [right, below].into_iter().flatten() {
            network.add(v, there, (150 + dice.below(200)) * FLAT);
            network.add(there, v, (150 + dice.below(200)) * FLAT);
        }
    }
    let (source, corner) = (0, WIDE * HIGH - 1);
    let highest = (source..=corner).min_by_key(|&v| network.potentials[v]).unwrap_or(corner);
    let with = Ask { start: 15_000_000, source, target: corner };
    let low = Ask { start: network.climb(source, highest), source, target: highest };
    let mut questions = network.asked(40_000_000, with, low, Ask { start: 40_000_000, ..low });
    questions[3].network.close(highest);
    questions
}

/// Roads between any two junctions, full size.
fn country(dice: Dice) -> [Question; 4] {
    random(dice, MOST_JUNCTIONS, MOST_ROADS)
}

/// Roads between any two junctions of a small network.
fn town(dice: Dice) -> [Question; 4] {
    random(dice, 64, 200)
}

/// A ring through all junctions but the last, to which no road leads, and roads between any two. All roads to the last
/// junction but one are long, so that it is reached late; the low start would just do for its climb and a long road.
fn random(mut dice: Dice, junctions: usize, roads: usize) -> [Question; 4] {
    let mut network = Network::new(dice.potentials(junctions));
    let (far, apart) = (junctions - 2, junctions - 1);
    for k in 0..roads {
        let (tail, head) = if k < apart { (k, (k + 1) % apart) } else { (dice.below(junctions), dice.below(apart)) };
        network.add(tail, head, dice.below(2_000_000) + if head == far { LONG } else { 0 });
    }
    network.asked_from_0(far, apart)
}

/// What a long road takes besides.
const LONG: usize = 15_000_000;

/// A chain through all junctions, numbered in no order; the side roads lead back, or on at a greater cost. The last
/// road of the chain is long, and the low start does not reach over it. No road leads back from the end, so that a
/// search from there is over at once, while one back to the beginning is wide.
fn path(mut dice: Dice) -> [Question; 4] {
    let order = dice.order(MOST_JUNCTIONS);
    let mut network = Network::new((0..MOST_JUNCTIONS).map(|_| dice.below(2_000_000) as i32).collect());
    for i in 1..MOST_JUNCTIONS {
        let slack = dice.below(20_000) + if i + 1 == MOST_JUNCTIONS { LONG } else { 0 };
        network.add(order[i - 1], order[i], slack);
        if i % 8 == 0 {
            network.add(order[i], order[dice.below(i)], dice.below(20_000));
            network.add(order[i - 4], order[i], 200_000);
        }
    }
    let (first, last) = (order[0], order[MOST_JUNCTIONS - 1]);
    let ask = |start| Ask { start, source: first, target: last };
    let back = Ask { start: 60_000_000, source: last, target: first };
    network.asked(80_000_000, ask(60_000_000), ask(24_000_000), back)
}

/// Four hubs with some two thousand roads each; every other junction has two roads from hubs and two to hubs, but no
/// road leads to the last. All roads to the last but one are long, so that it is reached late; the low start would just
/// do for its climb and a long road.
fn fan(mut dice: Dice) -> [Question; 4] {
    const HUBS: usize = 4;
    let mut network = Network::new(dice.potentials(MOST_JUNCTIONS));
    let (far, apart) = (MOST_JUNCTIONS - 2, MOST_JUNCTIONS - 1);
    for i in 0..MOST_ROADS / 2 {
        let rim = HUBS + i % (apart - HUBS);
        let slack = dice.below(2_000_000) + if rim == far { LONG } else { 0 };
        network.add(dice.below(HUBS), rim, slack);
        network.add(rim, dice.below(HUBS), dice.below(2_000_000));
    }
    network.asked_from_0(far, apart)
}

/// Hill network H of document 01, the same in every drawing.
fn network_h(_: Dice) -> [Question; 4] {
    let mut network = Network::new(vec![-200, -500, 0, 0]);
    for (tail, head, slack) in [(0, 1, 0), (1, 2, 0), (0, 2, 300), (2, 3, 900)] {
        network.add(tail, head, slack);
    }
    let ask = |start| Ask { start, source: 0, target: 3 };
    network.asked(1_000, ask(900), ask(699), Ask { start: 1_000, source: 3, target: 0 })
}
