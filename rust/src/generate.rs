//! Seeded networks, questions and routes to compare the library and the model on. The same seed always draws the
//! same case: there is no clock and no environment in it.

use crate::model::{charge_after, Query};
use crate::model::{MOST_BATTERY, MOST_CONSUMPTION, MOST_JUNCTIONS, MOST_ROADS, MOST_ROUTE_ROADS};
use crate::Files;
use std::fmt;

/// One input for all five entries. The target is the depot too.
#[derive(Clone, Debug, PartialEq, Eq)]
pub struct Case {
    pub seed: u64,
    pub nodes: Vec<u8>,
    pub roads: Vec<u8>,
    pub query: Query,
    /// The length of the list that is lent for the best route.
    pub room: usize,
    /// The route that is given to be driven and profiled.
    pub route: Vec<u16>,
}

impl Case {
    pub fn files(&self) -> Files<'_> {
        Files { nodes: &self.nodes, roads: &self.roads }
    }

    /// The length of the list that is lent for the charges to set off with. They need one entry more than a route, so
    /// that both lists are too short for the same networks.
    pub fn room_for_charges(&self) -> usize {
        self.room + 1
    }

    /// All junctions of a network with up to 64, and `of_large` drawn ones of a larger network.
    pub fn some_junctions(&self, of_large: usize) -> Vec<u64> {
        let junctions = self.nodes.len() / 4;
        if junctions <= 64 {
            return (0..junctions as u64).collect();
        }
        let mut dice = Dice::new(self.seed);
        (0..of_large).map(|_| dice.below(junctions) as u64).collect()
    }
}

impl fmt::Display for Case {
    fn fmt(&self, out: &mut fmt::Formatter) -> fmt::Result {
        writeln!(out, "seed {}, {:?}, list of {}", self.seed, self.query, self.room)?;
        writeln!(out, "given route {:?}", self.route)?;
        writeln!(out, "nodes, {} bytes: {}", self.nodes.len(), hex(&self.nodes))?;
        write!(out, "roads, {} bytes: {}", self.roads.len(), hex(&self.roads))
    }
}

fn hex(bytes: &[u8]) -> String {
    bytes.iter().map(|byte| format!("{byte:02x}")).collect()
}

/// One record of the road file.
#[derive(Clone, Copy, Debug)]
pub struct Record {
    pub tail: u16,
    pub head: u16,
    pub consumption: i32,
}

/// The bytes of a junction file.
pub fn nodes_file(potentials: &[i32]) -> Vec<u8> {
    potentials.iter().flat_map(|potential| potential.to_le_bytes()).collect()
}

/// The bytes of a road file.
pub fn roads_file(records: &[Record]) -> Vec<u8> {
    let mut bytes = Vec::new();
    for record in records {
        bytes.extend(record.tail.to_le_bytes());
        bytes.extend(record.head.to_le_bytes());
        bytes.extend(record.consumption.to_le_bytes());
    }
    bytes
}

/// The potentials and roads of document 01's hill network H.
pub fn hill_network() -> (Vec<i32>, Vec<Record>) {
    let road = |tail, head, consumption| Record { tail, head, consumption };
    (vec![-200, -500, 0, 0], vec![road(0, 1, 300), road(1, 2, -500), road(0, 2, 100), road(2, 3, 900)])
}

/// Numbers drawn from a seed (splitmix64).
pub struct Dice {
    state: u64,
}

impl Dice {
    pub fn new(seed: u64) -> Dice {
        Dice { state: seed }
    }

    fn roll(&mut self) -> u64 {
        self.state = self.state.wrapping_add(0x9e37_79b9_7f4a_7c15);
        let mut mixed = self.state;
        mixed = (mixed ^ (mixed >> 30)).wrapping_mul(0xbf58_476d_1ce4_e5b9);
        mixed = (mixed ^ (mixed >> 27)).wrapping_mul(0x94d0_49bb_1331_11eb);
        mixed ^ (mixed >> 31)
    }

    /// A number from `least` to `most`, both included.
    pub fn between(&mut self, least: i64, most: i64) -> i64 {
        least + (self.roll() % (most - least + 1) as u64) as i64
    }

    fn below(&mut self, bound: usize) -> usize {
        (self.roll() % bound as u64) as usize
    }

    fn one_in(&mut self, chances: usize) -> bool {
        self.below(chances) == 0
    }

    fn pick<T: Copy>(&mut self, items: &[T]) -> T {
        items[self.below(items.len())]
    }
}

/// A case of mixed kind: three quarters are networks of every shape that are mostly sound, the others have one fault
/// or two.
pub fn case(seed: u64) -> Case {
    let mut dice = Dice::new(seed);
    let (round, turn) = (seed / 48, seed % 48);
    match turn {
        0..=13 => sound(seed, &mut dice, hills),
        14..=15 => in_vain(seed, &mut dice),
        16..=22 => sound(seed, &mut dice, loops),
        23..=28 => sound(seed, &mut dice, parallels),
        29 => sound(seed, &mut dice, middling),
        30..=33 => extreme(seed, &mut dice),
        34 => ladder(seed, &mut dice),
        35 => small(seed, &mut dice),
        36..=39 => spoilt(seed, &mut dice, &[1 + (4 * round + turn) % 17], Spot::Apart),
        _ => {
            let (first, second, spot) = PAIRS[(8 * round + turn) as usize % PAIRS.len()];
            spoilt(seed, &mut dice, &[first, second], spot)
        }
    }
}

/// A network of 2,048 junctions and 8,192 roads, a few with a fault at a limit.
pub fn full_size(seed: u64) -> Case {
    let mut dice = Dice::new(seed);
    let mut draft = match seed % 4 {
        0 => hills_of(&mut dice, 64, 32),
        1 => ring_of(&mut dice, MOST_JUNCTIONS, MOST_ROADS),
        2 => chain_of(&mut dice, MOST_JUNCTIONS),
        _ => scattered(&mut dice, MOST_JUNCTIONS, MOST_ROADS),
    };
    fill_with_detours(&mut draft, &mut dice);
    draft.ask(&mut dice);
    if seed % 4 == 2 {
        draft.ask_end_to_end(&mut dice);
    } else if dice.one_in(3) {
        draft.ask_in_vain(&mut dice);
    }
    let fault = dice.pick(&[7, 8, 9]);
    match dice.below(24) {
        0 => spoil_record(&mut draft, &mut dice, MOST_ROADS - 1, fault),
        1 => spoil_ends(&mut draft, &mut dice),
        2 => draft.route.push(MOST_ROADS as u16),
        _ => {}
    }
    draft.into_case(seed)
}

/// A network of up to five junctions and eight roads with numbers so small that every edge is met.
pub fn tiny(seed: u64) -> Case {
    let mut dice = Dice::new(seed);
    let junctions = dice.pick(&[1, 2, 3, 4, 4, 5, 5, 5, 5, 5]);
    let roads = if dice.one_in(8) { dice.below(9) } else { (junctions + dice.below(5)).min(8) };
    let mut draft = Draft::new((0..junctions).map(|_| dice.between(-4, 4) as i32).collect());
    for number in 0..roads {
        let tail = if number < junctions { number } else { dice.below(junctions) };
        let head = if number < junctions { (tail + 1) % junctions } else { dice.below(junctions) };
        // With more than three roads from each junction there would be too many walks to try them all.
        if draft.roads.iter().filter(|road| usize::from(road.tail) == tail).count() < 3 {
            let slack = dice.pick(&[0, 0, 0, 1, 2, 5]);
            draft.add_road(tail, head, slack);
        }
    }
    draft.query.battery = dice.between(1, 9);
    draft.ask_with_battery(&mut dice);
    draft.into_case(seed)
}

/// Two questions of which the second is nowhere worse: battery and start are no lower and no road is dearer.
pub fn no_worse(seed: u64) -> (Case, Case) {
    let mut dice = Dice::new(seed);
    let mut draft = any_shape(&mut dice);
    draft.ask(&mut dice);
    if dice.one_in(4) {
        draft.ask_in_vain(&mut dice);
    }
    let first = draft.clone().into_case(seed);
    let query = &mut draft.query;
    if dice.one_in(2) {
        query.battery = dice.between(query.battery, MOST_BATTERY.min(2 * query.battery));
    }
    if dice.one_in(2) {
        query.start = dice.between(query.start, query.battery);
    }
    for place in 0..draft.roads.len() {
        let road = draft.roads[place];
        let cheapest = draft.drop(road.tail, road.head).max(-MOST_CONSUMPTION);
        if dice.one_in(2) {
            draft.roads[place].consumption = dice.between(cheapest, i64::from(road.consumption)) as i32;
        }
    }
    (first, draft.into_case(seed))
}

/// A network and a question while they are being drawn.
#[derive(Clone)]
struct Draft {
    potentials: Vec<i32>,
    roads: Vec<Record>,
    query: Query,
    room: usize,
    route: Vec<u16>,
}

/// A walk by the battery rule from the source: its roads, where it ends, the charge there, and the charge there of a
/// van that began with a full battery.
struct Walk {
    route: Vec<u16>,
    junction: u16,
    charge: i64,
    from_full: i64,
}

impl Draft {
    fn new(potentials: Vec<i32>) -> Draft {
        let query = Query { battery: 1, start: 0, source: 0, target: 0 };
        Draft { room: potentials.len() - 1, potentials, roads: Vec::new(), query, route: Vec::new() }
    }

    /// The least consumption with which a road between these junctions passes.
    fn drop(&self, tail: u16, head: u16) -> i64 {
        i64::from(self.potentials[usize::from(tail)]) - i64::from(self.potentials[usize::from(head)])
    }

    /// Adds a road that costs `slack` more than the potentials ask, where its consumption is in range.
    fn add_road(&mut self, tail: usize, head: usize, slack: i64) {
        let (tail, head) = (tail as u16, head as u16);
        let consumption = self.drop(tail, head) + slack;
        if consumption.abs() <= MOST_CONSUMPTION {
            self.roads.push(Record { tail, head, consumption: consumption as i32 });
        }
    }

    /// Adds a junction with the potential of another one, and room for it in the list, and gives its number.
    fn add_level_junction(&mut self, other: usize) -> usize {
        self.potentials.push(self.potentials[other]);
        self.room += 1;
        self.potentials.len() - 1
    }

    /// Adds a road from a junction to itself and gives its number.
    fn add_loop(&mut self, junction: u16, consumption: i64) -> u16 {
        self.roads.push(Record { tail: junction, head: junction, consumption: consumption as i32 });
        (self.roads.len() - 1) as u16
    }

    /// For each junction the numbers of the roads that leave it.
    fn roads_from(&self) -> Vec<Vec<u16>> {
        let mut leaving = vec![Vec::new(); self.potentials.len()];
        for (number, road) in self.roads.iter().enumerate() {
            leaving[usize::from(road.tail)].push(number as u16);
        }
        leaving
    }

    /// A walk from the source with this start charge, of up to `most_roads` roads that the charge allows.
    fn wander(&self, dice: &mut Dice, start: i64, most_roads: usize) -> Walk {
        let leaving = self.roads_from();
        let Query { battery, source, .. } = self.query;
        let mut walk = Walk { route: Vec::new(), junction: source as u16, charge: start, from_full: battery };
        for _ in 0..most_roads {
            let roads = &leaving[usize::from(walk.junction)];
            let first = dice.below(roads.len().max(1));
            let next = roads.iter().cycle().skip(first).take(roads.len()).find_map(|&number| {
                let road = self.roads[usize::from(number)];
                Some((number, road, charge_after(walk.charge, i64::from(road.consumption), battery)?))
            });
            let Some((number, road, charge)) = next else { break };
            walk.route.push(number);
            walk.junction = road.head;
            walk.charge = charge;
            walk.from_full = (walk.from_full - i64::from(road.consumption)).min(battery);
        }
        walk
    }

    /// Draws battery, start, source, target, list and given route; the target is mostly one that can be reached.
    fn ask(&mut self, dice: &mut Dice) {
        let dearest = self.roads.iter().map(|road| i64::from(road.consumption).abs()).max().unwrap_or(1).max(1);
        self.query.battery = dice.between(dearest / 2, 3 * dearest).clamp(1, MOST_BATTERY);
        self.ask_with_battery(dice);
    }

    fn ask_with_battery(&mut self, dice: &mut Dice) {
        let (junctions, battery) = (self.potentials.len(), self.query.battery);
        let anywhere = dice.between(0, battery);
        self.query.start = dice.pick(&[anywhere, anywhere, anywhere, battery, battery, battery - 1, battery / 2, 0]);
        self.query.source = dice.below(junctions) as u64;
        self.query.target = if dice.one_in(12) { dice.below(junctions) as u64 } else { self.reachable(dice) };
        let beyond = dice.pick(&[0, 0, 0, 0, 1, 1, 2, 40]);
        self.room = if dice.one_in(200) { 70_000 } else { junctions - 1 + beyond };
        let usual = dice.pick(&[0, 1, 2, 5, 10, 20, 40, 3 * junctions]);
        let most_roads = if dice.one_in(100) { MOST_ROUTE_ROADS } else { usual };
        let start = dice.pick(&[self.query.start, self.query.start, battery]);
        self.route = self.wander(dice, start, most_roads).route;
        if !self.roads.is_empty() && dice.one_in(6) {
            self.stray(dice);
        }
    }

    /// A junction that can be reached, where one comes up to which no road leads straight from the source.
    fn reachable(&self, dice: &mut Dice) -> u64 {
        let mut end = self.query.source;
        for _ in 0..8 {
            end = u64::from(self.wander(dice, self.query.start, 2 + self.potentials.len()).junction);
            let leads_straight =
                |road: &Record| u64::from(road.tail) == self.query.source && u64::from(road.head) == end;
            if end != self.query.source && !self.roads.iter().any(leads_straight) {
                break;
            }
        }
        end
    }

    /// From the first junction to the last with a full battery, and a list of just the right length.
    fn ask_end_to_end(&mut self, dice: &mut Dice) {
        let Query { battery, .. } = self.query;
        self.room = self.potentials.len() - 1;
        self.query = Query { battery, start: battery, source: 0, target: self.room as u64 };
        self.route = self.wander(dice, battery, self.potentials.len()).route;
    }

    /// Asks for any target from a low start. Two times in five the roads to it are made to cost all that the battery
    /// holds or 1 more, one time in five to lead back to where they begin.
    fn ask_in_vain(&mut self, dice: &mut Dice) {
        let target = dice.below(self.potentials.len()) as u16;
        self.query.start = dice.between(0, self.query.battery / 4);
        self.query.target = u64::from(target);
        let dear = (self.query.battery + dice.between(0, 1)).min(MOST_CONSUMPTION) as i32;
        let bar = dice.below(5);
        for road in self.roads.iter_mut().filter(|road| road.head == target && road.tail != target) {
            match bar {
                0 | 1 => road.consumption = road.consumption.max(dear),
                2 => *road = Record { head: road.tail, consumption: road.consumption.abs(), ..*road },
                _ => {}
            }
        }
    }

    /// Puts some roads at the end of the given route without looking where they begin or what they cost.
    fn stray(&mut self, dice: &mut Dice) {
        for _ in 0..dice.below(3) + 1 {
            if self.route.len() < MOST_ROUTE_ROADS {
                self.route.push(dice.below(self.roads.len()) as u16);
            }
        }
    }

    fn into_case(self, seed: u64) -> Case {
        Case {
            seed,
            nodes: nodes_file(&self.potentials),
            roads: roads_file(&self.roads),
            query: self.query,
            room: self.room,
            route: self.route,
        }
    }
}

/// A sound network of the given shape and a question of it.
fn sound(seed: u64, dice: &mut Dice, shape: fn(&mut Dice) -> Draft) -> Case {
    let mut draft = shape(dice);
    draft.ask(dice);
    draft.into_case(seed)
}

/// The same with any shape and a question that is often in vain.
fn in_vain(seed: u64, dice: &mut Dice) -> Case {
    let mut draft = any_shape(dice);
    draft.ask(dice);
    draft.ask_in_vain(dice);
    draft.into_case(seed)
}

fn any_shape(dice: &mut Dice) -> Draft {
    dice.pick(&[hills, loops, parallels])(dice)
}

/// A terrain of up to 64 junctions, with roads both ways between neighbours.
fn hills(dice: &mut Dice) -> Draft {
    let (width, height) = (dice.below(7) + 2, dice.below(7) + 2);
    hills_of(dice, width, height)
}

fn hills_of(dice: &mut Dice, width: usize, height: usize) -> Draft {
    let span = dice.pick(&[60, 1_000, 1_000_000, 60_000_000]);
    let mut draft = Draft::new((0..width * height).map(|_| dice.between(-span, span) as i32).collect());
    for junction in 0..width * height {
        let east = (junction % width + 1 < width).then_some(junction + 1);
        let south = (junction + width < width * height).then_some(junction + width);
        for neighbour in east.into_iter().chain(south) {
            let (slack, back) = (friction(dice, span), friction(dice, span));
            draft.add_road(junction, neighbour, slack);
            if !dice.one_in(8) {
                draft.add_road(neighbour, junction, back);
            }
        }
    }
    draft
}

/// What a road costs beyond its climb: often nothing.
fn friction(dice: &mut Dice, span: i64) -> i64 {
    let some = dice.between(0, span / 4);
    dice.pick(&[0, 0, 1, some])
}

/// Rings with chords on which a closed trip mostly costs exactly nothing.
fn loops(dice: &mut Dice) -> Draft {
    let junctions = dice.below(30) + 3;
    let roads = junctions + dice.below(2 * junctions);
    ring_of(dice, junctions, roads)
}

fn ring_of(dice: &mut Dice, junctions: usize, roads: usize) -> Draft {
    let span = dice.pick(&[10, 1_000, 90_000_000]);
    let mut draft = Draft::new((0..junctions).map(|_| dice.between(-span, span) as i32).collect());
    for number in 0..roads {
        let tail = number % junctions;
        let head = if number < junctions { (tail + 1) % junctions } else { dice.below(junctions) };
        let slack = if dice.one_in(8) { dice.between(0, span / 8 + 1) } else { 0 };
        draft.add_road(tail, head, slack);
    }
    draft
}

/// A row of a few junctions with many roads between the same ends and from a junction to itself.
fn parallels(dice: &mut Dice) -> Draft {
    let junctions = dice.below(9) + 3;
    let span = dice.pick(&[5, 100, 1_000_000, 90_000_000]);
    let mut draft = Draft::new((0..junctions).map(|_| dice.between(-span, span) as i32).collect());
    for _ in 0..4 * junctions + dice.below(20) {
        let tail = dice.below(junctions);
        let head = dice.pick(&[tail, tail + 1, tail + 1, tail.max(1) - 1]).min(junctions - 1);
        let slack = friction(dice, span);
        draft.add_road(tail, head, slack);
    }
    draft
}

/// A network of 65 junctions and more.
fn middling(dice: &mut Dice) -> Draft {
    let junctions = 65 + dice.below(MOST_JUNCTIONS - 65);
    let roads = (junctions * (2 + dice.below(4))).min(MOST_ROADS);
    match dice.below(3) {
        0 => ring_of(dice, junctions, roads),
        1 => chain_of(dice, junctions),
        _ => scattered(dice, junctions, roads),
    }
}

/// Roads between any two junctions, some from a junction to itself.
fn scattered(dice: &mut Dice, junctions: usize, roads: usize) -> Draft {
    let span = dice.pick(&[5, 100, 1_000_000, 90_000_000]);
    let mut draft = Draft::new((0..junctions).map(|_| dice.between(-span, span) as i32).collect());
    for _ in 0..roads {
        let tail = dice.below(junctions);
        let head = if dice.one_in(8) { tail } else { dice.below(junctions) };
        let slack = friction(dice, 2 * span);
        draft.add_road(tail, head, slack);
    }
    draft
}

/// Junctions in a row that are joined forwards, so that the best route can pass through all of them.
fn chain_of(dice: &mut Dice, junctions: usize) -> Draft {
    let span = dice.pick(&[10, 1_000, 1_000_000]);
    let mut draft = Draft::new((0..junctions).map(|_| dice.between(-span, span) as i32).collect());
    for junction in 1..junctions {
        draft.add_road(junction - 1, junction, 0);
    }
    draft
}

/// Fills the road file to its limit with roads back, around and from a junction to itself.
fn fill_with_detours(draft: &mut Draft, dice: &mut Dice) {
    while draft.roads.len() < MOST_ROADS {
        let tail = dice.below(draft.potentials.len());
        let head = dice.below(tail + 1);
        let slack = dice.between(0, 1_000);
        draft.add_road(tail, head, slack);
    }
    draft.roads.truncate(MOST_ROADS);
}

/// Numbers at both ends of their ranges: potentials, consumptions, battery and start.
fn extreme(seed: u64, dice: &mut Dice) -> Case {
    let junctions = dice.below(40) + 2;
    let battery = dice.pick(&[1, 2, 1_000, 100_000_000, MOST_BATTERY - 1, MOST_BATTERY, MOST_BATTERY]);
    let mut draft = Draft::new(extreme_potentials(dice, junctions));
    for number in 0..4 * junctions {
        let tail = number % junctions;
        let (next, anywhere) = ((tail + 1) % junctions, dice.below(junctions));
        let head = if number < junctions { next } else { dice.pick(&[tail, next, anywhere]) };
        let drop = draft.drop(tail as u16, head as u16);
        let low = dice.pick(&[-MOST_CONSUMPTION, -MOST_CONSUMPTION + 1, -battery - 1, -battery, -1, 0, drop, drop]);
        let high = dice.pick(&[1, battery, battery + 1, MOST_CONSUMPTION - 1, MOST_CONSUMPTION]);
        let wished = if dice.one_in(4) { high } else { low }.clamp(-MOST_CONSUMPTION, MOST_CONSUMPTION);
        // Now and then a road that does not look at the potentials, to fail where sums of 32 bits might let it pass.
        if dice.one_in(800) {
            draft.roads.push(Record { tail: tail as u16, head: head as u16, consumption: wished as i32 });
        } else {
            draft.add_road(tail, head, (wished - drop).max(0));
        }
    }
    draft.query.battery = battery;
    draft.ask_with_battery(dice);
    draft.into_case(seed)
}

/// Potentials near one end of 32 bits, rising from one end to the other, in turn a whole battery apart, or any of
/// the ends.
fn extreme_potentials(dice: &mut Dice, junctions: usize) -> Vec<i32> {
    let (lowest, highest) = (i64::from(i32::MIN), i64::from(i32::MAX));
    let near = dice.pick(&[1, MOST_CONSUMPTION, 2 * MOST_CONSUMPTION]);
    let style = dice.below(5);
    let potential = |dice: &mut Dice, junction: usize| match style {
        0 => lowest + dice.between(0, near),
        1 => highest - dice.between(0, near),
        2 => lowest + (highest - lowest) * junction as i64 / (junctions as i64 - 1),
        3 => lowest + MOST_CONSUMPTION * (junction as i64 % 2),
        _ => dice.pick(&[lowest, lowest + 1, -MOST_CONSUMPTION, 0, MOST_CONSUMPTION, highest - 1, highest]),
    };
    (0..junctions).map(|junction| potential(dice, junction) as i32).collect()
}

/// A row of junctions whose potentials rise through all of 32 bits, or go to and fro, with roads both ways that cost
/// and return almost a whole battery: totals and sums pass 32 bits.
fn ladder(seed: u64, dice: &mut Dice) -> Case {
    let junctions = dice.below(20) + 23;
    let rise = (i64::from(u32::MAX) / (junctions as i64 - 1)).min(MOST_CONSUMPTION);
    let goes_to_and_fro = dice.one_in(2);
    let height = |junction: usize| if goes_to_and_fro { junction % 2 } else { junction } as i64;
    let potentials = (0..junctions).map(|junction| (i64::from(i32::MIN) + rise * height(junction)) as i32);
    let mut draft = Draft::new(potentials.collect());
    for junction in 1..junctions {
        draft.add_road(junction - 1, junction, 0);
        draft.add_road(junction, junction - 1, 0);
    }
    draft.query.battery = dice.pick(&[rise, MOST_BATTERY, MOST_BATTERY]);
    draft.ask_with_battery(dice);
    let most_roads = dice.pick(&[100, 1_000, MOST_ROUTE_ROADS]);
    draft.route = draft.wander(dice, draft.query.start, most_roads).route;
    draft.into_case(seed)
}

/// One or two junctions, few roads, and a list with just enough room: none for one junction.
fn small(seed: u64, dice: &mut Dice) -> Case {
    let junctions = dice.below(2) + 1;
    let roads = dice.below(3);
    let mut draft = scattered(dice, junctions, roads);
    draft.ask(dice);
    draft.room = junctions - 1;
    draft.into_case(seed)
}

/// How two faults stand to each other: each somewhere in the input, in one record or place, or the second in the
/// record or place after the first.
#[derive(Clone, Copy, Debug, PartialEq, Eq)]
enum Spot {
    Apart,
    Same,
    Next,
}

/// Faults to be put into one input two at a time, by their refusals. A road that costs more than the battery holds
/// brings 14 to the drive and 15 to the profile.
const PAIRS: &[(u64, u64, Spot)] = &[
    (1, 2, Spot::Apart),
    (2, 3, Spot::Apart),
    (2, 7, Spot::Apart),
    (2, 8, Spot::Apart),
    (2, 9, Spot::Apart),
    (3, 4, Spot::Apart),
    (3, 5, Spot::Apart),
    (4, 5, Spot::Apart),
    (5, 6, Spot::Apart),
    (5, 11, Spot::Apart),
    (6, 7, Spot::Apart),
    (6, 8, Spot::Apart),
    (6, 9, Spot::Apart),
    (11, 7, Spot::Apart),
    (11, 8, Spot::Apart),
    (11, 9, Spot::Apart),
    (7, 8, Spot::Same),
    (8, 9, Spot::Same),
    (7, 8, Spot::Next),
    (8, 7, Spot::Next),
    (7, 9, Spot::Next),
    (9, 7, Spot::Next),
    (8, 9, Spot::Next),
    (9, 8, Spot::Next),
    (7, 10, Spot::Apart),
    (8, 10, Spot::Apart),
    (9, 10, Spot::Apart),
    (7, 16, Spot::Apart),
    (8, 16, Spot::Apart),
    (9, 16, Spot::Apart),
    (7, 17, Spot::Apart),
    (8, 17, Spot::Apart),
    (9, 17, Spot::Apart),
    (7, 12, Spot::Apart),
    (8, 12, Spot::Apart),
    (9, 12, Spot::Apart),
    (12, 13, Spot::Next),
    (13, 12, Spot::Next),
    (12, 14, Spot::Next),
    (14, 12, Spot::Next),
    (13, 14, Spot::Next),
    (14, 13, Spot::Next),
    (13, 14, Spot::Same),
];

/// A network with at least two junctions and two roads, and a battery that a road can exceed.
fn sound_draft(dice: &mut Dice) -> Draft {
    let mut draft = any_shape(dice);
    while draft.roads.len() < 2 {
        draft.add_loop(0, 0);
    }
    draft.ask(dice);
    draft.query.battery = draft.query.battery.min(MOST_BATTERY - 1);
    draft.query.start = draft.query.start.min(draft.query.battery);
    draft
}

/// A case with the faults of these refusals, one or two. Records are spoilt after the route, which is drawn on a
/// sound network.
fn spoilt(seed: u64, dice: &mut Dice, faults: &[u64], spot: Spot) -> Case {
    let mut draft = sound_draft(dice);
    let record = dice.below(draft.roads.len() - 1);
    spoil_route(&mut draft, dice, faults, spot);
    for &fault in faults {
        spoil_question(&mut draft, dice, fault);
    }
    spoil_records(&mut draft, dice, record, faults, spot);
    let mut case = draft.into_case(seed);
    for &fault in faults {
        spoil_file(&mut case, dice, fault);
    }
    case
}

/// Gives one file a length that it must not have, for faults 1 and 2.
fn spoil_file(case: &mut Case, dice: &mut Dice, fault: u64) {
    let odd_bytes = dice.below(3) + 1;
    match fault {
        1 => {
            let length = case.nodes.len();
            let over = dice.pick(&[4, 4, 8, 1, 4 * MOST_JUNCTIONS]);
            let wrong = dice.pick(&[0, length - 1, length + odd_bytes, 4 * MOST_JUNCTIONS + over]);
            case.nodes = case.nodes.iter().copied().cycle().take(wrong).collect();
        }
        2 => {
            let length = case.roads.len();
            let over = dice.pick(&[8, 8, 16, 4, 1, 8 * MOST_ROADS]);
            let wrong = dice.pick(&[length - 1, length + odd_bytes, length + 4, 8 * MOST_ROADS + over]);
            case.roads = case.roads.iter().copied().cycle().take(wrong).collect();
        }
        _ => {}
    }
}

/// Spoils a number of the question, the list's length or the given route's, for faults 3 to 6, 10, 11, 16 and 17.
fn spoil_question(draft: &mut Draft, dice: &mut Dice, fault: u64) {
    const BITS_32: i64 = 1 << 32;
    let Query { battery, start, .. } = draft.query;
    match fault {
        3 => {
            let wrong = [0, MOST_BATTERY + 1, BITS_32 + 1_000, BITS_32 + battery, -1, -battery, i64::MIN, i64::MAX];
            draft.query.battery = dice.pick(&wrong);
        }
        4 => {
            let above = battery.saturating_add(1);
            draft.query.start = dice.pick(&[-1, above, above, BITS_32 + start, start - BITS_32, i64::MIN, i64::MAX]);
        }
        5 => spoil_ends(draft, dice),
        6 => {
            let needed = draft.potentials.len() - 1;
            draft.room = dice.pick(&[needed - 1, needed - 1, needed / 2, 0]);
        }
        10 | 16 | 17 => ask_beyond(draft, dice, fault),
        11 => {
            let length = MOST_ROUTE_ROADS + dice.pick(&[1, 1, 2, 100, 60_000]);
            draft.route.resize(length, dice.below(draft.roads.len()) as u16);
        }
        _ => {}
    }
}

/// Asks for a new junction, level with the source, for which the start is too low (10) or the battery too small, by one
/// road or by two together (16), or to which no road leads, though perhaps one back (17).
fn ask_beyond(draft: &mut Draft, dice: &mut Dice, fault: u64) {
    let (source, battery) = (draft.query.source as usize, draft.query.battery);
    let start = draft.query.start.min(battery - 1);
    let beyond = draft.add_level_junction(source);
    match fault {
        10 => {
            let enough = dice.between(start + 1, battery);
            draft.query.start = start;
            draft.add_road(source, beyond, dice.pick(&[start + 1, enough, enough, battery]));
        }
        16 if dice.one_in(2) => draft.add_road(source, beyond, battery + 1),
        16 => {
            let further = draft.add_level_junction(source);
            let first = dice.between(1, battery);
            draft.add_road(source, beyond, first);
            draft.add_road(beyond, further, dice.between(battery - first + 1, battery));
        }
        _ if dice.one_in(2) => draft.add_road(beyond, source, 0),
        _ => {}
    }
    draft.query.target = draft.potentials.len() as u64 - 1;
}

/// Makes the source, the target or both no junction; some would be one if their upper bits were lost.
fn spoil_ends(draft: &mut Draft, dice: &mut Dice) {
    let junctions = draft.potentials.len() as u64;
    let (source, target) = (draft.query.source, draft.query.target);
    let lost = dice.pick(&[1 << 16, 1 << 32, 1 << 63]);
    let wrong = dice.pick(&[junctions, junctions, junctions + 1, 65_535, 65_536, 1 << 32, u64::MAX]);
    let (bad_source, bad_target) = if dice.one_in(3) { (lost + source, lost + target) } else { (wrong, wrong) };
    let which = dice.below(4);
    if which != 0 {
        draft.query.source = bad_source;
    }
    if which < 2 {
        draft.query.target = bad_target;
    }
}

/// Spoils one record or two neighbouring ones, for faults 7, 8 and 9.
fn spoil_records(draft: &mut Draft, dice: &mut Dice, record: usize, faults: &[u64], spot: Spot) {
    if faults == [8, 9] && spot == Spot::Same {
        // Below the range on a road from a junction to itself: no potentials let it pass.
        draft.roads[record].head = draft.roads[record].tail;
        draft.roads[record].consumption = dice.pick(&[-MOST_CONSUMPTION as i32 - 1, i32::MIN]);
        return;
    }
    let mut at = record;
    for &fault in faults {
        spoil_record(draft, dice, at, fault);
        if spot == Spot::Next {
            at += 1;
        }
    }
}

/// Spoils the ends (7), the consumption (8) or, by exactly 1, the potential test (9) of one record.
fn spoil_record(draft: &mut Draft, dice: &mut Dice, record: usize, fault: u64) {
    let junctions = draft.potentials.len() as u16;
    let Record { tail, head, .. } = draft.roads[record];
    match fault {
        7 => {
            let wrong = dice.pick(&[junctions, junctions, junctions + 1, 65_535]);
            let which = dice.below(3);
            if which != 0 {
                draft.roads[record].tail = wrong;
            }
            if which < 2 {
                draft.roads[record].head = wrong;
            }
        }
        8 => {
            let limit = MOST_CONSUMPTION as i32;
            draft.roads[record].consumption = dice.pick(&[limit + 1, -limit - 1, i32::MAX, i32::MIN]);
        }
        9 => draft.roads[record].consumption = (draft.drop(tail, head) - 1) as i32,
        _ => {}
    }
}

/// Makes the given route a good walk, then the entries with faults 12 to 15, then entries of any kind. The roads that
/// it adds lead from a junction to itself, so that the best route stays.
fn spoil_route(draft: &mut Draft, dice: &mut Dice, faults: &[u64], spot: Spot) {
    if !faults.iter().any(|fault| (12..=15).contains(fault)) {
        return;
    }
    let battery = draft.query.battery;
    let good_roads = dice.below(12);
    let walk = draft.wander(dice, draft.query.start, good_roads);
    let elsewhere = (walk.junction + 1) % draft.potentials.len() as u16;
    let too_low = dice.pick(&[walk.charge + 1, walk.from_full + 1, battery + 1]);
    let impassable = dice.pick(&[walk.from_full + 1, battery + 1]);
    let alone = faults.len() == 1;
    let costly_14 = draft.add_loop(walk.junction, if alone { too_low } else { battery + 1 });
    let costly_15 = draft.add_loop(walk.junction, if alone { impassable } else { battery + 1 });
    let free_elsewhere = draft.add_loop(elsewhere, 0);
    let costly_elsewhere = draft.add_loop(elsewhere, battery + 1);
    let no_road = draft.roads.len() as u16;
    draft.route = walk.route;
    for fault in faults {
        match fault {
            12 => draft.route.push(dice.pick(&[no_road, no_road, no_road + 1, 65_535])),
            13 if spot == Spot::Same => draft.route.push(costly_elsewhere),
            13 => draft.route.push(free_elsewhere),
            14 => draft.route.push(costly_14),
            15 => draft.route.push(costly_15),
            _ => {}
        }
    }
    draft.stray(dice);
}
