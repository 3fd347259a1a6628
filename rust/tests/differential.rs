//! Seeded networks through the library and the model: every number of every answer is compared, and what the run has
//! met is counted.
//!
//! A case that fails prints its seed and its whole input. `SEDGE_SEED=n` and the name of the test run that seed alone,
//! without the counts.

use sedge::generate::{self, hill_network, nodes_file, roads_file, Case, Dice, Record};
use sedge::model::{self, Network, Query, Refusal, Road};
use sedge::{best_route, check, drive, profile, set_off, Checked, Driven, Files, Planned, Profiled};
use std::collections::BTreeMap;
use std::fmt::Debug;

const SEEDED_NETWORKS: u64 = 48_000;
const FULL_SIZE_NETWORKS: u64 = 300;
const FULL_SIZE_LISTS: u64 = 10;
const TINY_NETWORKS: u64 = 8_000;
const NO_WORSE_PAIRS: u64 = 6_000;

/// How often each refusal and each pair of refusals must be met.
const LEAST_TIMES: u64 = 50;

/// Of how many junctions of a large network the charge to set off with is compared: with the model, which takes long
/// over each, and with best routes.
const ASKED_OF_THE_MODEL: usize = 1;
const ASKED_OF_BEST_ROUTES: usize = 16;

#[test]
fn answers_agree_on_seeded_networks() {
    let mut tally = Tally::default();
    over_seeds(SEEDED_NETWORKS, |seed| {
        let case = generate::case(seed);
        (compare(&case, &mut tally), case)
    });
    println!("{tally}");
    if is_whole_run() {
        assert!(tally.networks >= 20_000, "networks");
        assert!(2 * tally.two_or_more >= tally.networks, "at least half have a route of two or more roads");
        assert!(tally.spilling >= 2_000, "best routes that spill");
        assert!(tally.decided_by_the_rule >= 1_000, "best arrivals that the sums alone do not give");
        assert!(tally.least_sum_misleads >= 1_000, "best arrivals that no route of least sum has");
        assert!(tally.arrived_empty >= 500, "best arrivals of 0");
        assert!(tally.most_roads_driven >= LEAST_TIMES, "routes of 8,192 roads that can be driven");
        assert!(tally.wide_totals >= LEAST_TIMES, "drives with a total beyond 32 bits");
        assert!(tally.wide_sums >= LEAST_TIMES, "profiles with a sum beyond 32 bits");
        let no_routes = &tally.no_routes;
        assert!(no_routes.full >= 100, "refusals 10 of which the least start is a full battery");
        assert!(no_routes.far_above >= 500, "refusals 10 of which the least start is 2 or more above the start");
        assert!(no_routes.by_one_road >= 200, "refusals 16 where every chain has a road above the battery size");
        assert!(no_routes.by_all_roads >= 200, "refusals 16 where some chain has no road above the battery size");
        assert!(no_routes.joined_backward >= 300, "refusals 17 where roads lead from the target to the source");
        let charges = &tally.charges;
        assert!(charges.lists >= 20_000, "lists of charges to set off with");
        assert!(charges.zero >= 50_000, "charges of 0 at junctions other than the depot");
        assert!(charges.above_zero >= 100_000, "charges above 0");
        assert!(charges.full >= 2_000, "charges of a full battery");
        assert!(charges.none >= 20_000, "charges of -1");
        assert!(charges.none_though_joined >= 1_000, "charges of -1 where roads lead to the depot");
        assert!(charges.decided_by_the_rule >= 1_000, "charges that the sums alone do not give");
        assert!(charges.least_sum_misleads >= 1_000, "charges with which no route of least sum can be driven");
        tally.assert_refusals();
        tally.assert_pairs();
    }
}

#[test]
fn full_size_networks_agree() {
    let mut tally = Tally::default();
    let mut longest = 0;
    over_seeds(FULL_SIZE_NETWORKS, |seed| {
        let case = generate::full_size(seed);
        assert_eq!(case.nodes.len(), 4 * model::MOST_JUNCTIONS);
        assert_eq!(case.roads.len(), 8 * model::MOST_ROADS);
        let planned = compare(&case, &mut tally);
        longest = longest.max(planned.as_ref().map_or(0, |planned| planned.roads));
        (planned, case)
    });
    println!("{tally}longest route: {longest} roads");
    if is_whole_run() {
        assert!(tally.networks >= 200, "networks");
        assert!(2 * tally.two_or_more >= tally.networks, "at least half have a route of two or more roads");
        assert!(tally.spilling >= 50, "best routes that spill");
        assert_eq!(longest, model::MOST_JUNCTIONS as u64 - 1, "a route fills the list");
        for number in [10, 16, 17] {
            assert!(tally.refusals[&(Entry::BestRoute, number)] >= 5, "best routes refused with {number}");
        }
        assert!(tally.charges.lists >= 200, "lists of charges to set off with");
    }
}

/// Every number of a full-size list, by the best routes from its junction.
#[test]
fn full_size_lists_agree_with_best_routes() {
    let (mut lists, mut above_zero, mut none) = (0, 0, 0);
    over_seeds(FULL_SIZE_LISTS, |seed| {
        let case = generate::full_size(seed);
        let mut list = [0; model::MOST_JUNCTIONS];
        let mut compared = Ok(());
        if set_off(case.files(), case.query.battery, case.query.target, &mut list).number == 0 {
            lists += 1;
            above_zero += list.iter().filter(|charge| **charge > 0).count();
            none += list.iter().filter(|charge| **charge == -1).count();
            compared = compare_with_best_routes(&case, &list, 0..model::MOST_JUNCTIONS as u64);
        }
        (compared, case)
    });
    println!("full-size lists: {lists}, charges above 0: {above_zero}, of -1: {none}");
    if is_whole_run() {
        assert!(lists >= 5, "lists");
        assert!(above_zero >= 5_000, "charges above 0");
        assert!(none >= 2_000, "charges of -1");
    }
}

#[test]
fn tiny_networks_agree_with_enumeration() {
    let mut tally = Tally::default();
    let (mut answers, mut charges) = (BTreeMap::new(), 0);
    over_seeds(TINY_NETWORKS, |seed| {
        let case = generate::tiny(seed);
        let compared = compare(&case, &mut tally).and_then(|planned| {
            compare_with_enumeration(&case, &mut answers)?;
            charges += compare_charges_with_enumeration(&case)?;
            compare_all_starts(&case)?;
            Ok(planned)
        });
        (compared, case)
    });
    println!("{tally}best routes compared with all walks, by number: {answers:?}, charges to set off with: {charges}");
    if is_whole_run() {
        assert!(tally.networks >= 5_000, "networks");
        assert!(answers.values().sum::<u64>() >= 20_000, "best routes");
        for number in [0, 10, 16, 17] {
            assert!(answers[&number] >= 1_000, "best routes answered with {number}");
        }
        assert!(charges >= 20_000, "charges to set off with");
        assert!(tally.two_or_more >= 1_000, "routes of two or more roads");
        assert!(tally.decided_by_the_rule >= 200, "best arrivals that the sums alone do not give");
    }
}

/// Demand 3: with no smaller battery, no lower start and no dearer road, a van that arrives still arrives, and with
/// no less. Where there is no route, the least start that is enough does not rise, and chains of roads stay.
#[test]
fn nothing_better_arrives_with_less() {
    let (mut pairs, mut rose) = (BTreeMap::<_, u64>::new(), 0);
    over_seeds(NO_WORSE_PAIRS, |seed| {
        let (first, second) = generate::no_worse(seed);
        let (before, after) = (planned(&first), planned(&second));
        *pairs.entry((before.number, after.number)).or_default() += 1;
        rose += u64::from(before.number == 0 && after.arrival > before.arrival);
        let is_no_worse = match (before.number, after.number) {
            (0, 0) => after.arrival >= before.arrival,
            (10, 10) => after.place <= before.place,
            (10, 0) | (16, 0 | 10 | 16) | (17, 17) => true,
            _ => false,
        };
        let compared = if is_no_worse { Ok(()) } else { Err(format!("{before:?}\nthen {after:?} of\n{second}")) };
        (compared, first)
    });
    println!("pairs by both numbers: {pairs:?}, second arrives with more: {rose}");
    if is_whole_run() {
        assert!(pairs[&(0, 0)] >= 3_000, "pairs of which the first arrives");
        assert!(rose >= 1_000, "pairs of which the second arrives with more");
        for numbers in [(10, 0), (10, 10), (16, 0), (16, 10), (16, 16), (17, 17)] {
            assert!(pairs[&numbers] >= LEAST_TIMES, "pairs answered with {numbers:?}");
        }
    }
}

/// The table "On both sides of the line" of document 01, row by row, with the reasons why there is no route.
#[test]
fn rows_of_document_01() {
    let hill = Hill::new();
    assert_eq!(hill.best(1_000, 900, 0, 3), Ok((100, vec![0, 1, 3])));
    assert_eq!(hill.best(1_000, 700, 0, 3), Ok((0, vec![0, 1, 3])));
    assert_eq!(hill.best(1_000, 699, 0, 3), Err((10, 700)));
    assert_eq!(hill.best(1_000, 300, 0, 2), Ok((500, vec![0, 1])));
    assert_eq!(hill.best(1_000, 299, 0, 2), Ok((199, vec![2])));
    assert_eq!(hill.best(1_000, 100, 0, 2), Ok((0, vec![2])));
    assert_eq!(hill.best(1_000, 99, 0, 2), Err((10, 100)));
    assert_eq!(hill.best(1_000, 0, 1, 1), Ok((0, vec![])));
    assert_eq!(hill.best(1_100, 900, 0, 3), Ok((200, vec![0, 1, 3])));
    assert_eq!(hill.best(899, 899, 0, 3), Err((16, 0)));
    assert_eq!(hill.best(1_000, 1_000, 3, 0), Err((17, 0)));

    assert_eq!(drive(hill.files(), 1_000, 1_000, 1, &[1]), driven(1_000, 0, 500, 500));
    assert_eq!(drive(hill.files(), 1_000, 250, 0, &[0, 1]), refused_drive(14, 0));
    assert_eq!(profile(hill.files(), 1_000, 0, &[0, 1, 3]), profiled(700, 700, 100));

    let one_road = |potentials: &[i32], consumption| {
        let roads = roads_file(&[Record { tail: 0, head: 1, consumption }]);
        check(Files { nodes: &nodes_file(potentials), roads: &roads })
    };
    assert_eq!(one_road(&[0, 0], 200_000_000), Checked { number: 0, place: 0 });
    assert_eq!(one_road(&[0, 0], 200_000_001), Checked { number: 8, place: 0 });
    assert_eq!(one_road(&[-200, -500], 300), Checked { number: 0, place: 0 });
    assert_eq!(one_road(&[-200, -500], 299), Checked { number: 9, place: 0 });

    let good = Record { tail: 0, head: 1, consumption: 5 };
    let fails_9 = Record { tail: 1, head: 0, consumption: -1 };
    let fails_7 = Record { tail: 2, head: 0, consumption: 5 };
    let roads = roads_file(&[good, good, good, fails_9, good, fails_7]);
    assert_eq!(check(Files { nodes: &nodes_file(&[0, 0]), roads: &roads }), Checked { number: 9, place: 3 });

    let one_junction = Files { nodes: &nodes_file(&[7]), roads: &[] };
    let arrived = Planned { number: 0, place: 0, roads: 0, arrival: 3, drawn: 0, recovered: 0, spilled: 0 };
    assert_eq!(best_route(one_junction, 10, 3, 0, 0, &mut []), arrived);
}

/// The worked output, the profile rules and the errors that look right, as document 01 states them.
#[test]
fn other_numbers_of_document_01() {
    let hill = Hill::new();
    let mut list = [7; 5];
    let worked = Planned { number: 0, place: 0, roads: 3, arrival: 100, drawn: 1_200, recovered: 500, spilled: 100 };
    assert_eq!(best_route(hill.files(), 1_000, 900, 0, 3, &mut list), worked);
    assert_eq!(list, [0, 1, 3, 7, 7]);
    assert_eq!(drive(hill.files(), 1_000, 900, 0, &[0, 1, 3]), driven(100, 1_200, 500, 100));
    assert_eq!(drive(hill.files(), 1_000, 900, 0, &[]), driven(900, 0, 0, 0));

    assert_eq!(profile(hill.files(), 1_000, 0, &[]), profiled(0, 0, 1_000));
    assert_eq!(profile(hill.files(), 1_000, 0, &[0]), profiled(300, 300, 700));
    assert_eq!(profile(hill.files(), 1_000, 1, &[1]), profiled(0, -500, 1_000));
    assert_eq!(profile(hill.files(), 1_000, 0, &[0, 1]), profiled(300, -200, 1_000));
    assert_eq!(profile(hill.files(), 900, 2, &[3]), profiled(900, 900, 0));
    assert_eq!(profile(hill.files(), 899, 2, &[3]), refused_profile(15, 0));
    assert_eq!(profile(hill.files(), 999, 0, &[2, 3]), refused_profile(15, 1));
    assert_eq!(profile(hill.files(), 1_000, 0, &[2, 3]), profiled(1_000, 1_000, 0));

    // Capped at the end alone, the drive of 0, 1, 3 from 900 would arrive with 200; it is capped at junction 2.
    assert_eq!(drive(hill.files(), 1_000, 900, 0, &[0, 1]), driven(1_000, 300, 500, 100));

    // The exact sum of this road is -2^32, which in 32 bits would be 0 and pass.
    let road = roads_file(&[Record { tail: 0, head: 1, consumption: -1 }]);
    let falling = nodes_file(&[i32::MAX, i32::MIN]);
    assert_eq!(check(Files { nodes: &falling, roads: &road }), Checked { number: 9, place: 0 });
    // And of this one 2^32 - 2, which in 32 bits would be -2 and fail.
    let rising = nodes_file(&[i32::MIN, i32::MAX]);
    assert_eq!(check(Files { nodes: &rising, roads: &road }), Checked { number: 0, place: 0 });
}

/// The widest numbers: a climb through all of 32 bits, and the longest route to and fro with the dearest roads.
#[test]
fn totals_and_sums_pass_32_bits() {
    let rung = |junction: i64| (i64::from(i32::MIN) + 200_000_000 * junction).min(i64::from(i32::MAX)) as i32;
    let nodes = nodes_file(&(0..23).map(rung).collect::<Vec<i32>>());
    let mut records: Vec<Record> =
        (0..22).map(|tail| Record { tail, head: tail + 1, consumption: -200_000_000 }).collect();
    records[21].consumption = -94_967_295;
    let files = Files { nodes: &nodes, roads: &roads_file(&records) };
    let climb: Vec<u16> = (0..22).collect();
    let full = 200_000_000;
    assert_eq!(drive(files, full, full, 0, &climb), driven(200_000_000, 0, 4_294_967_295, 4_294_967_295));
    assert_eq!(profile(files, full, 0, &climb), profiled(0, -4_294_967_295, 200_000_000));

    let there = Record { tail: 0, head: 1, consumption: -200_000_000 };
    let back = Record { tail: 1, head: 0, consumption: 200_000_000 };
    let files = Files { nodes: &nodes_file(&[0, 200_000_000]), roads: &roads_file(&[there, back]) };
    let longest = [0, 1].repeat(4_096);
    assert_eq!(drive(files, full, 0, 0, &longest), driven(0, 819_200_000_000, 819_200_000_000, 0));
    assert_eq!(drive(files, full, full, 0, &longest), driven(0, 819_200_000_000, 819_200_000_000, 200_000_000));
    assert_eq!(profile(files, full, 0, &longest), profiled(0, 0, 0));
    let too_long = [longest.as_slice(), &[0]].concat();
    assert_eq!(drive(files, full, 0, 0, &too_long), refused_drive(11, 0));
    assert_eq!(profile(files, full, 0, &too_long), refused_profile(11, 0));
}

/// By hand: to reach 3 the van needs 900 at 2, so 400 at 1 and 700 at 0 by road 0, where road 2 would ask for 1,000.
#[test]
fn charges_to_set_off_with_on_hill() {
    let hill = Hill::new();
    assert_eq!(hill.charges(1_000, 3), Ok([700, 400, 900, 0]));
    assert_eq!(hill.charges(1_000, 2), Ok([100, 0, 0, -1]));
    assert_eq!(hill.charges(1_000, 1), Ok([300, 0, -1, -1]));
    assert_eq!(hill.charges(1_000, 0), Ok([0, -1, -1, -1]));
    assert_eq!(hill.charges(900, 3), Ok([700, 400, 900, 0]));
    assert_eq!(hill.charges(899, 3), Ok([-1, -1, -1, 0]));
    assert_eq!(hill.charges(100, 2), Ok([100, 0, 0, -1]));
    assert_eq!(hill.charges(99, 2), Ok([-1, 0, 0, -1]));
    assert_eq!(hill.charges(1, 2), Ok([-1, 0, 0, -1]));
    assert_eq!(hill.charges(200_000_000, 3), Ok([700, 400, 900, 0]));

    for battery in [i64::MIN, -1_000, -1, 0, 200_000_001, (1 << 32) + 1_000, i64::MAX] {
        assert_eq!(hill.charges(battery, 3), Err((3, 0)), "battery {battery}");
    }
    for depot in [4, 5, (1 << 16) + 3, (1 << 32) + 3, (1 << 63) + 3, u64::MAX] {
        assert_eq!(hill.charges(1_000, depot), Err((5, 0)), "depot {depot}");
    }
    let mut list = [7; 6];
    assert_eq!(set_off(hill.files(), 1_000, 3, &mut list[..3]), Checked { number: 6, place: 0 });
    assert_eq!(set_off(hill.files(), 1_000, 4, &mut list[..3]), Checked { number: 5, place: 0 });
    assert_eq!(set_off(hill.files(), 1_000, 3, &mut []), Checked { number: 6, place: 0 });
    assert_eq!(list, [7; 6]);
    assert_eq!(set_off(hill.files(), 1_000, 3, &mut list), Checked { number: 0, place: 0 });
    assert_eq!(list, [700, 400, 900, 0, 7, 7]);
}

/// By hand: the widest charges, and falls that the battery cannot take in, so that their sums promise too much.
#[test]
fn charges_to_set_off_with_at_their_limits() {
    let road = |tail, head, consumption| Record { tail, head, consumption };
    let listed = |potentials: &[i32], roads: &[Record], battery, depot| {
        let mut list = vec![7; potentials.len()];
        let files = Files { nodes: &nodes_file(potentials), roads: &roads_file(roads) };
        assert_eq!(set_off(files, battery, depot, &mut list), Checked { number: 0, place: 0 });
        list
    };
    let around = [road(0, 1, 200_000_000), road(1, 2, -200_000_000), road(2, 0, 200_000_000)];
    let rising = [0, 0, 200_000_000];
    assert_eq!(listed(&rising, &around, 200_000_000, 0), [0, 0, 200_000_000]);
    assert_eq!(listed(&rising, &around, 200_000_000, 1), [200_000_000, 0, -1]);
    assert_eq!(listed(&rising, &around, 199_999_999, 0), [0, -1, -1]);

    let fall_and_climbs = [road(0, 1, -500), road(1, 2, 80), road(2, 3, 80)];
    assert_eq!(listed(&[0, 500, 500, 500], &fall_and_climbs, 160, 3), [0, 160, 80, 0]);
    assert_eq!(listed(&[0, 500, 500, 500], &fall_and_climbs, 159, 3), [-1, -1, 80, 0]);

    assert_eq!(listed(&[7], &[], 1, 0), [0]);
    assert_eq!(listed(&[7], &[road(0, 0, 0)], 1, 0), [0]);
}

/// Every start between any two junctions, by the charges above: too low for them, or no chain of roads; and with a
/// battery that road 3 exceeds.
#[test]
fn reasons_for_no_route_on_hill() {
    let hill = Hill::new();
    for (target, charges) in (0..).zip([[0, -1, -1, -1], [300, 0, -1, -1], [100, 0, 0, -1], [700, 400, 900, 0]]) {
        for (source, charge) in (0..).zip(charges) {
            for start in 0..=1_000 {
                let expected = match charge {
                    -1 => Some((17, 0)),
                    least => (start < least).then_some((10, least as u64)),
                };
                assert_eq!(hill.best(1_000, start, source, target).err(), expected, "{start}, {source} to {target}");
            }
        }
    }
    for (source, start) in [(0, 0), (0, 700), (1, 400), (2, 0), (2, 899)] {
        assert_eq!(hill.best(899, start, source, 3), Err((16, 0)), "{start}, {source} to 3");
    }
}

/// By hand: on both sides of each line between the reasons. A refusal has no other number and leaves the list.
#[test]
fn reasons_for_no_route_at_their_limits() {
    let road = |tail, head, consumption| Record { tail, head, consumption };
    let refused = |potentials: &[i32], roads: &[Record], (battery, start), (source, target)| {
        let mut list = vec![7; potentials.len()];
        let files = Files { nodes: &nodes_file(potentials), roads: &roads_file(roads) };
        let planned = best_route(files, battery, start, source, target, &mut list);
        let Planned { number, place, .. } = planned;
        assert_eq!(planned, Planned { number, place, roads: 0, arrival: 0, drawn: 0, recovered: 0, spilled: 0 });
        assert_eq!(list, vec![7; potentials.len()]);
        (number, place)
    };
    let dearest = [road(0, 1, 200_000_000)];
    assert_eq!(refused(&[0, 0], &dearest, (200_000_000, 199_999_999), (0, 1)), (10, 200_000_000));
    assert_eq!(refused(&[0, 0], &dearest, (200_000_000, 0), (0, 1)), (10, 200_000_000));
    assert_eq!(refused(&[0, 0], &dearest, (199_999_999, 199_999_999), (0, 1)), (16, 0));
    assert_eq!(refused(&[0, 0], &dearest, (200_000_000, 200_000_000), (1, 0)), (17, 0));
    assert_eq!(refused(&[0, 0], &[road(0, 1, 1)], (1, 0), (0, 1)), (10, 1));
    assert_eq!(refused(&[0, 0], &[road(0, 1, 2)], (1, 0), (0, 1)), (16, 0));
    assert_eq!(refused(&[0, 0], &[road(0, 0, 0), road(1, 1, 0)], (1, 1), (0, 1)), (17, 0));
    assert_eq!(refused(&[0, 0], &[], (1, 1), (0, 1)), (17, 0));

    // Each climb alone can be driven; the fall before them fills the battery and no more.
    let fall_and_climbs = [road(0, 1, -500), road(1, 2, 80), road(2, 3, 80)];
    let heights = [0, 500, 500, 500];
    assert_eq!(refused(&heights, &fall_and_climbs, (160, 159), (1, 3)), (10, 160));
    assert_eq!(refused(&heights, &fall_and_climbs, (159, 159), (1, 3)), (16, 0));
    assert_eq!(refused(&heights, &fall_and_climbs, (159, 0), (0, 3)), (16, 0));
    assert_eq!(refused(&heights, &fall_and_climbs, (159, 79), (2, 3)), (10, 80));
    assert_eq!(refused(&heights, &fall_and_climbs, (160, 160), (3, 0)), (17, 0));
}

/// Hill network H.
struct Hill {
    nodes: Vec<u8>,
    roads: Vec<u8>,
}

impl Hill {
    fn new() -> Hill {
        let (potentials, roads) = hill_network();
        Hill { nodes: nodes_file(&potentials), roads: roads_file(&roads) }
    }

    fn files(&self) -> Files<'_> {
        Files { nodes: &self.nodes, roads: &self.roads }
    }

    /// Arrival and route, or number and place of the refusal.
    fn best(&self, battery: i64, start: i64, source: u64, target: u64) -> Result<(u64, Vec<u16>), (u64, u64)> {
        let mut list = [0; 3];
        let planned = best_route(self.files(), battery, start, source, target, &mut list);
        if planned.number == 0 {
            Ok((planned.arrival, list[..planned.roads as usize].to_vec()))
        } else {
            Err((planned.number, planned.place))
        }
    }

    /// The charges to set off with, or number and place of the refusal, which leaves the list as it was.
    fn charges(&self, battery: i64, depot: u64) -> Result<[i32; 4], (u64, u64)> {
        let mut list = [7; 4];
        let checked = set_off(self.files(), battery, depot, &mut list);
        if checked.number == 0 {
            Ok(list)
        } else {
            assert_eq!(list, [7; 4]);
            Err((checked.number, checked.place))
        }
    }
}

fn driven(arrival: u64, drawn: u64, recovered: u64, spilled: u64) -> Driven {
    Driven { number: 0, place: 0, arrival, drawn, recovered, spilled }
}

fn refused_drive(number: u64, place: u64) -> Driven {
    Driven { number, place, arrival: 0, drawn: 0, recovered: 0, spilled: 0 }
}

fn profiled(need: u64, sum: i64, top: u64) -> Profiled {
    Profiled { number: 0, place: 0, need, sum, top }
}

fn refused_profile(number: u64, place: u64) -> Profiled {
    Profiled { number, place, need: 0, sum: 0, top: 0 }
}

/// The one seed to run again, where one is given.
fn chosen_seed() -> Option<u64> {
    std::env::var("SEDGE_SEED").ok().map(|seed| seed.parse().expect("SEDGE_SEED is a number"))
}

fn is_whole_run() -> bool {
    chosen_seed().is_none()
}

/// Runs a comparison on each seed, or on the chosen one, and stops at the first case that fails.
fn over_seeds<T>(count: u64, mut run: impl FnMut(u64) -> (Result<T, String>, Case)) {
    if let Some(seed) = chosen_seed() {
        println!("seed {seed} alone: nothing is counted");
    }
    for seed in chosen_seed().map_or(0..count, |seed| seed..seed + 1) {
        let (compared, case) = run(seed);
        if let Err(difference) = compared {
            panic!("{difference}\nwith SEDGE_SEED={seed} for\n{case}");
        }
    }
}

fn same<T: PartialEq + Debug>(what: &str, given: T, expected: T) -> Result<(), String> {
    if given == expected {
        Ok(())
    } else {
        Err(format!("{what}: given    {given:?}\n{what}: expected {expected:?}"))
    }
}

/// Compares all five answers on one case, counts what it met, and gives the planned route's numbers.
fn compare(case: &Case, tally: &mut Tally) -> Result<Planned, String> {
    let before = case.clone();
    let files = case.files();
    let Query { battery, start, source, .. } = case.query;

    let checked = check(files);
    same("check", checked, model::check(files))?;
    tally.count(case, Entry::Check, checked.number, checked.place);

    let planned = compare_best_route(case, tally)?;
    tally.count(case, Entry::BestRoute, planned.number, planned.place);

    let driven = drive(files, battery, start, source, &case.route);
    same("drive", driven, model::drive(files, case.query, &case.route))?;
    tally.count(case, Entry::Drive, driven.number, driven.place);
    tally.count_drive(case, driven);

    let profiled = profile(files, battery, source, &case.route);
    same("profile", profiled, model::profile(files, case.query, &case.route))?;
    tally.count(case, Entry::Profile, profiled.number, profiled.place);
    tally.wide_sums += u64::from(i32::try_from(profiled.sum).is_err());
    if profiled.number == 0 {
        compare_drive_with_profile(case, profiled)?;
    }

    let listed = compare_set_off(case, tally)?;
    tally.count(case, Entry::SetOff, listed.number, listed.place);

    same("lent files and route", case, &before)?;
    tally.networks += 1;
    Ok(planned)
}

/// A lent list, with memory on both sides of it that is not lent.
struct Lent<T> {
    memory: Vec<T>,
    room: usize,
}

impl<T: From<u16> + PartialEq> Lent<T> {
    const BESIDE: usize = 8;

    fn new(room: usize) -> Lent<T> {
        Lent { memory: (0..Self::BESIDE + room + Self::BESIDE).map(Self::pattern).collect(), room }
    }

    /// What the memory holds before the list is lent.
    fn pattern(place: usize) -> T {
        T::from((place as u16).wrapping_mul(40_503) ^ 0xa5a5)
    }

    fn list(&mut self) -> &mut [T] {
        &mut self.memory[Self::BESIDE..Self::BESIDE + self.room]
    }

    /// Nothing but the list's first `entries` may have been written.
    fn test_others(&self, entries: usize) -> Result<(), String> {
        let written = Self::BESIDE..Self::BESIDE + entries;
        let is_changed = |place: &usize| !written.contains(place) && self.memory[*place] != Self::pattern(*place);
        match (0..self.memory.len()).find(is_changed) {
            Some(place) => {
                Err(format!("a list of {} was written at {}", self.room, place as i64 - Self::BESIDE as i64))
            }
            None => Ok(()),
        }
    }
}

/// The best route's answer, the whole list and what stands on both sides of it.
fn compare_best_route(case: &Case, tally: &mut Tally) -> Result<Planned, String> {
    let mut lent = Lent::new(case.room);
    let Query { battery, start, source, target } = case.query;
    let planned = best_route(case.files(), battery, start, source, target, lent.list());
    let roads = planned.roads as usize;
    let list = lent.list();
    match model::best_arrival(case.files(), case.query, case.room) {
        Err(refusal) => {
            let Refusal { number, place } = refusal;
            let refused = Planned { number, place, roads: 0, arrival: 0, drawn: 0, recovered: 0, spilled: 0 };
            same("best route", planned, refused)?;
            tally.no_routes.count(case, refusal);
        }
        Ok(arrival) => {
            let found = [planned.number, planned.place, planned.arrival];
            same("best route's number, place and arrival", found, [0, 0, arrival as u64])?;
            let network = model::sound_network(case.files()).expect("no refusal was expected");
            if let Some(fault) = model::fault_of_route(&network, case.query, planned, list) {
                return Err(format!("best route {planned:?}, {list:?}: {fault}"));
            }
            compare_route_with_entries(case, planned, &list[..roads])?;
            tally.count_route(&network, case.query, planned);
        }
    }
    lent.test_others(roads)?;
    Ok(planned)
}

/// The route of an answer, given to the library's drive and profile, must give that answer's numbers.
fn compare_route_with_entries(case: &Case, planned: Planned, route: &[u16]) -> Result<(), String> {
    let Query { battery, start, source, .. } = case.query;
    let expected = driven(planned.arrival, planned.drawn, planned.recovered, planned.spilled);
    same("drive of the best route", drive(case.files(), battery, start, source, route), expected)?;
    let Profiled { number, need, sum, top, .. } = profile(case.files(), battery, source, route);
    same("profile of the best route", number, 0)?;
    same("need is at most the start", need <= start as u64, true)?;
    same("arrival by profile", (top as i64).min(start - sum), planned.arrival as i64)
}

/// The library's drive and profile of the given route must agree at starts around need and at the full battery.
fn compare_drive_with_profile(case: &Case, profiled: Profiled) -> Result<(), String> {
    let need = profiled.need as i64;
    let battery = case.query.battery;
    let anywhere = Dice::new(case.seed).between(0, battery);
    for start in [need - 1, need, need + 1, anywhere, battery] {
        if (0..=battery).contains(&start) {
            compare_at_start(case, profiled, start)?;
        }
    }
    Ok(())
}

fn compare_at_start(case: &Case, profiled: Profiled, start: i64) -> Result<(), String> {
    let driven = drive(case.files(), case.query.battery, start, case.query.source, &case.route);
    let by_profile = (start >= profiled.need as i64).then_some((profiled.top as i64).min(start - profiled.sum));
    let by_drive = (driven.number == 0).then_some(driven.arrival as i64);
    same(&format!("arrival by drive and by profile from start {start}"), by_drive, by_profile)?;
    let (came_in, went) = (start as u64 + driven.recovered, driven.arrival + driven.drawn + driven.spilled);
    same("balance", driven.number != 0 || came_in == went, true)
}

/// The charges to set off with, by the model and by best routes, and what stands on both sides of the list.
fn compare_set_off(case: &Case, tally: &mut Tally) -> Result<Checked, String> {
    let mut lent = Lent::new(case.room_for_charges());
    let listed = set_off(case.files(), case.query.battery, case.query.target, lent.list());
    let asked = case.some_junctions(ASKED_OF_THE_MODEL);
    match model::set_off(case.files(), case.query, case.room_for_charges(), &asked) {
        Err(Refusal { number, place }) => same("set off", listed, Checked { number, place })?,
        Ok(charges) => {
            same("set off", listed, Checked { number: 0, place: 0 })?;
            let list = lent.list();
            let given: Vec<i32> = asked.iter().map(|junction| list[*junction as usize]).collect();
            same("charges to set off with", &given, &charges)?;
            compare_with_best_routes(case, list, case.some_junctions(ASKED_OF_BEST_ROUTES))?;
            tally.charges.count(case, &asked, &charges);
        }
    }
    lent.test_others(if listed.number == 0 { case.nodes.len() / 4 } else { 0 })?;
    Ok(listed)
}

/// From each of these junctions a best route must be refused exactly below its charge to set off with, with 10 and that
/// charge, or at every start where that is -1, with 16 or 17 as the model has it.
fn compare_with_best_routes(
    case: &Case,
    charges: &[i32],
    junctions: impl IntoIterator<Item = u64>,
) -> Result<(), String> {
    let Query { battery, target, .. } = case.query;
    let network = model::sound_network(case.files()).expect("no refusal was expected");
    let mut route = vec![0; case.room];
    for junction in junctions {
        let charge = i64::from(charges[junction as usize]);
        let (too_low, refused) = match charge {
            -1 if model::is_joined(&network, junction, target) => (battery, (16, 0)),
            -1 => (battery, (17, 0)),
            _ => (charge - 1, (10, charge as u64)),
        };
        for (start, expected) in [(too_low.min(0), refused), (too_low, refused), (charge, (0, 0))] {
            if start >= 0 {
                let planned = best_route(case.files(), battery, start, junction, target, &mut route);
                let what = format!("best route's number and place from junction {junction}, start {start}");
                same(&what, (planned.number, planned.place), expected)?;
            }
        }
    }
    Ok(())
}

/// The library's answer.
fn planned(case: &Case) -> Planned {
    let Query { battery, start, source, target } = case.query;
    best_route(case.files(), battery, start, source, target, &mut vec![0; case.room])
}

/// Compares library and model, for every target, with all walks tried one by one: the best of them or, where none is
/// feasible, those from every other start, and then those over the same roads if they took nothing. Counts the answers
/// by their numbers.
fn compare_with_enumeration(case: &Case, answers: &mut BTreeMap<u64, u64>) -> Result<(), String> {
    let network = model::sound_network(case.files()).expect("a tiny network is sound");
    let tried_from = |start| model::best_by_enumeration(&network, Query { start, ..case.query });
    let tried = tried_from(case.query.start);
    let tried_from_all: Vec<_> = (0..=case.query.battery).map(tried_from).collect();
    let free_roads = network.roads.iter().map(|road| Road { consumption: 0, ..*road }).collect();
    let chains = model::best_by_enumeration(&Network { roads: free_roads, ..network.clone() }, case.query);
    same("best arrivals by model", model::best_arrivals(&network, case.query), tried.clone())?;
    for target in 0..tried.len() {
        let planned = planned(&Case { query: Query { target: target as u64, ..case.query }, ..case.clone() });
        let least_start = tried_from_all.iter().position(|tried| tried[target].is_some());
        let expected = match (tried[target], least_start, chains[target]) {
            (Some(arrival), _, _) => [0, 0, arrival as u64],
            (None, Some(least), _) => [10, least as u64, 0],
            (None, None, Some(_)) => [16, 0, 0],
            (None, None, None) => [17, 0, 0],
        };
        let found = [planned.number, planned.place, planned.arrival];
        same(&format!("best route's number, place and arrival at junction {target}"), found, expected)?;
        *answers.entry(planned.number).or_default() += 1;
    }
    Ok(())
}

/// Compares the library's charges to set off with, for every junction, with the least start from which any of all
/// walks, tried one by one, leads to the depot.
fn compare_charges_with_enumeration(case: &Case) -> Result<u64, String> {
    let network = model::sound_network(case.files()).expect("a tiny network is sound");
    let mut charges = vec![0; network.potentials.len()];
    set_off(case.files(), case.query.battery, case.query.target, &mut charges);
    for (source, charge) in (0..).zip(&charges) {
        let leads_there = |start: &i64| {
            let tried = model::best_by_enumeration(&network, Query { start: *start, source, ..case.query });
            tried[case.query.target as usize].is_some()
        };
        let least = (0..=case.query.battery).find(leads_there).unwrap_or(-1);
        same(&format!("charge to set off with from junction {source}"), i64::from(*charge), least)?;
    }
    Ok(charges.len() as u64)
}

/// Drive and profile of the given route must agree at every start there is.
fn compare_all_starts(case: &Case) -> Result<(), String> {
    let profiled = profile(case.files(), case.query.battery, case.query.source, &case.route);
    for start in 0..=case.query.battery {
        if profiled.number == 0 {
            compare_at_start(case, profiled, start)?;
        }
    }
    Ok(())
}

#[derive(Clone, Copy, Debug, PartialEq, Eq, PartialOrd, Ord)]
enum Entry {
    Check,
    BestRoute,
    Drive,
    Profile,
    SetOff,
}

const ENTRIES: [Entry; 5] = [Entry::Check, Entry::BestRoute, Entry::Drive, Entry::Profile, Entry::SetOff];

impl Entry {
    /// The refusals that this entry can tell, in its order.
    fn refusals(self) -> &'static [u64] {
        match self {
            Entry::Check => &[1, 2, 7, 8, 9],
            Entry::BestRoute => &[1, 2, 3, 4, 5, 6, 7, 8, 9, 10, 16, 17],
            Entry::Drive => &[1, 2, 3, 4, 5, 11, 7, 8, 9, 12, 13, 14],
            Entry::Profile => &[1, 2, 3, 5, 11, 7, 8, 9, 12, 13, 15],
            Entry::SetOff => &[1, 2, 3, 5, 6, 7, 8, 9],
        }
    }

    /// The pairs of faults that must be met in one input of this entry; the first is told.
    fn pairs(self) -> Vec<Pair> {
        let of_inputs: &[(u64, u64)] = match self {
            Entry::Check => &[(1, 2), (2, 7), (2, 8), (2, 9)],
            Entry::BestRoute => &[
                (1, 2),
                (2, 3),
                (3, 4),
                (4, 5),
                (5, 6),
                (6, 7),
                (6, 8),
                (6, 9),
                (7, 10),
                (8, 10),
                (9, 10),
                (7, 16),
                (8, 16),
                (9, 16),
                (7, 17),
                (8, 17),
                (9, 17),
            ],
            Entry::Drive => {
                &[(1, 2), (2, 3), (3, 4), (4, 5), (5, 11), (11, 7), (11, 8), (11, 9), (7, 12), (8, 12), (9, 12)]
            }
            Entry::Profile => &[(1, 2), (2, 3), (3, 5), (5, 11), (11, 7), (11, 8), (11, 9), (7, 12), (8, 12), (9, 12)],
            Entry::SetOff => &[(1, 2), (2, 3), (3, 5), (5, 6), (6, 7), (6, 8), (6, 9)],
        };
        let of_neighbours: &[(u64, u64)] = match self {
            Entry::Check | Entry::BestRoute | Entry::SetOff => &[],
            Entry::Drive => &[(12, 13), (13, 12), (12, 14), (14, 12), (13, 14), (14, 13)],
            Entry::Profile => &[(12, 13), (13, 12), (12, 15), (15, 12), (13, 15), (15, 13)],
        };
        let of_one_place: &[(u64, u64)] = match self {
            Entry::Check | Entry::BestRoute | Entry::SetOff => &[],
            Entry::Drive => &[(13, 14)],
            Entry::Profile => &[(13, 15)],
        };
        let of_neighbours = of_neighbours.iter().chain(&[(7, 8), (8, 7), (7, 9), (9, 7), (8, 9), (9, 8)]);
        let of_one_place = of_one_place.iter().chain(&[(7, 8), (8, 9)]);
        let at = |spot: Spot| move |&(first, second): &(u64, u64)| Pair { first, second, spot };
        let inputs = of_inputs.iter().map(at(Spot::Apart));
        inputs.chain(of_one_place.map(at(Spot::Same))).chain(of_neighbours.map(at(Spot::Next))).collect()
    }
}

/// Two faults of one input: each somewhere, in one record or place, or the second in the next record or place.
#[derive(Clone, Copy, Debug, PartialEq, Eq, PartialOrd, Ord)]
struct Pair {
    first: u64,
    second: u64,
    spot: Spot,
}

#[derive(Clone, Copy, Debug, PartialEq, Eq, PartialOrd, Ord)]
enum Spot {
    Apart,
    Same,
    Next,
}

/// What a run has met.
#[derive(Default)]
struct Tally {
    networks: u64,
    arrived: u64,
    arrived_empty: u64,
    two_or_more: u64,
    spilling: u64,
    decided_by_the_rule: u64,
    least_sum_misleads: u64,
    most_roads_driven: u64,
    wide_totals: u64,
    wide_sums: u64,
    no_routes: NoRoutes,
    charges: Charges,
    refusals: BTreeMap<(Entry, u64), u64>,
    pairs: BTreeMap<(Entry, Pair), u64>,
}

/// The refusals for want of a route that a run has compared with the model.
#[derive(Default)]
struct NoRoutes {
    /// Of 10, where the least start that is enough is a full battery, and where it is 2 or more above the start.
    full: u64,
    far_above: u64,
    /// Of 16, where every chain of roads has one above the battery size, and where some chain has none.
    by_one_road: u64,
    by_all_roads: u64,
    /// Of 17, where roads lead from the target to the source.
    joined_backward: u64,
}

impl NoRoutes {
    fn count(&mut self, case: &Case, refusal: Refusal) {
        let Query { battery, start, source, target } = case.query;
        let least = refusal.place as i64;
        let roads_up_to = |most: i64| {
            let mut network = model::sound_network(case.files()).expect("no other refusal was expected");
            network.roads.retain(|road| road.consumption <= most);
            network
        };
        match refusal.number {
            10 => {
                self.full += u64::from(least == battery);
                self.far_above += u64::from(least >= start + 2);
            }
            16 if model::is_joined(&roads_up_to(battery), source, target) => self.by_all_roads += 1,
            16 => self.by_one_road += 1,
            17 => self.joined_backward += u64::from(model::is_joined(&roads_up_to(i64::MAX), target, source)),
            _ => {}
        }
    }
}

impl std::fmt::Display for NoRoutes {
    fn fmt(&self, out: &mut std::fmt::Formatter) -> std::fmt::Result {
        writeln!(out, "10 with a full battery: {}, 2 or more above the start: {}", self.full, self.far_above)?;
        writeln!(out, "16 by one road alone: {}, by all of a chain: {}", self.by_one_road, self.by_all_roads)?;
        writeln!(out, "17 though roads lead back: {}", self.joined_backward)
    }
}

/// The charges to set off with that a run has compared with the model. The last three are of one drawn junction a list.
#[derive(Default)]
struct Charges {
    lists: u64,
    zero: u64,
    above_zero: u64,
    full: u64,
    none: u64,
    none_though_joined: u64,
    decided_by_the_rule: u64,
    least_sum_misleads: u64,
}

impl Charges {
    /// Counts the charges from these junctions.
    fn count(&mut self, case: &Case, junctions: &[u64], charges: &[i32]) {
        self.lists += 1;
        for (junction, &charge) in junctions.iter().zip(charges) {
            self.zero += u64::from(charge == 0 && *junction != case.query.target);
            self.above_zero += u64::from(charge > 0);
            self.full += u64::from(i64::from(charge) == case.query.battery);
            self.none += u64::from(charge == -1);
        }
        let drawn = Dice::new(case.seed).between(0, junctions.len() as i64 - 1) as usize;
        self.count_walk(case, junctions[drawn], i64::from(charges[drawn]));
    }

    /// The rule decided a charge that is not the least sum over all walks, or not 0 where that is below 0. The least
    /// sum misleads where no walk of least sum can be driven with the charge, whichever of them were taken.
    fn count_walk(&mut self, case: &Case, source: u64, charge: i64) {
        let network = model::sound_network(case.files()).expect("no refusal was expected");
        let target = case.query.target as usize;
        let by_sum = model::greatest_gains(&network, source)[target].map(|gain| (-gain).max(0));
        if charge == -1 {
            self.none_though_joined += u64::from(by_sum.is_some());
        } else {
            let query = Query { start: charge, source, ..case.query };
            self.decided_by_the_rule += u64::from(by_sum != Some(charge));
            self.least_sum_misleads += u64::from(model::best_arrival_by_least_sum(&network, query).is_none());
        }
    }
}

impl std::fmt::Display for Charges {
    fn fmt(&self, out: &mut std::fmt::Formatter) -> std::fmt::Result {
        writeln!(out, "lists of charges to set off with: {}", self.lists)?;
        writeln!(out, "charges of 0 beside the depot's: {}, above 0: {}", self.zero, self.above_zero)?;
        writeln!(out, "charges of a full battery: {}, of -1: {}", self.full, self.none)?;
        writeln!(out, "charges of -1 though roads lead to the depot: {}", self.none_though_joined)?;
        writeln!(out, "charges decided by the rule: {}", self.decided_by_the_rule)?;
        writeln!(out, "charges where the least sum misleads: {}", self.least_sum_misleads)
    }
}

impl Tally {
    /// Counts a best route. The rule decided it where the start less the least sum over all walks, which is the best
    /// arrival without cap and needs, is not the best arrival. The least sum misleads where, driven by the rule, no
    /// walk of least sum arrives with the best charge, whichever of them were taken.
    fn count_route(&mut self, network: &Network, query: Query, planned: Planned) {
        let arrival = Some(planned.arrival as i64);
        let by_sum = model::greatest_gains(network, query.source)[query.target as usize].map(|gain| query.start + gain);
        self.arrived += 1;
        self.arrived_empty += u64::from(planned.arrival == 0);
        self.two_or_more += u64::from(planned.roads >= 2);
        self.spilling += u64::from(planned.spilled > 0);
        self.decided_by_the_rule += u64::from(by_sum != arrival);
        self.least_sum_misleads += u64::from(model::best_arrival_by_least_sum(network, query) != arrival);
    }

    fn count_drive(&mut self, case: &Case, driven: Driven) {
        let widest = driven.drawn.max(driven.recovered).max(driven.spilled);
        self.wide_totals += u64::from(u32::try_from(widest).is_err());
        self.most_roads_driven += u64::from(driven.number == 0 && case.route.len() == model::MOST_ROUTE_ROADS);
    }

    /// Counts an entry's refusal and the pairs of faults of which it tells the first.
    fn count(&mut self, case: &Case, entry: Entry, number: u64, place: u64) {
        if number == 0 {
            return;
        }
        *self.refusals.entry((entry, number)).or_default() += 1;
        for pair in entry.pairs() {
            if pair.first == number && has_second_fault(case, entry, pair, place as usize) {
                *self.pairs.entry((entry, pair)).or_default() += 1;
            }
        }
    }

    fn assert_refusals(&self) {
        for entry in ENTRIES {
            for &number in entry.refusals() {
                let times = self.refusals.get(&(entry, number)).copied().unwrap_or(0);
                assert!(times >= LEAST_TIMES, "refusal {number} of {entry:?}: {times} times");
            }
        }
    }

    fn assert_pairs(&self) {
        for entry in ENTRIES {
            for pair in entry.pairs() {
                let times = self.pairs.get(&(entry, pair)).copied().unwrap_or(0);
                assert!(times >= LEAST_TIMES, "{pair:?} of {entry:?}: {times} times");
            }
        }
    }
}

impl std::fmt::Display for Tally {
    fn fmt(&self, out: &mut std::fmt::Formatter) -> std::fmt::Result {
        writeln!(out, "networks: {}", self.networks)?;
        writeln!(out, "best routes: {}, that arrive with 0: {}", self.arrived, self.arrived_empty)?;
        writeln!(out, "best routes of two or more roads: {}, that spill: {}", self.two_or_more, self.spilling)?;
        writeln!(out, "best routes decided by the rule: {}", self.decided_by_the_rule)?;
        writeln!(out, "best routes where the least sum misleads: {}", self.least_sum_misleads)?;
        writeln!(out, "drives of 8,192 roads: {}", self.most_roads_driven)?;
        writeln!(out, "beyond 32 bits: {} drives, {} profiles", self.wide_totals, self.wide_sums)?;
        write!(out, "{}{}", self.no_routes, self.charges)?;
        for ((entry, number), times) in &self.refusals {
            writeln!(out, "{entry:?} refuses with {number}: {times}")?;
        }
        for ((entry, Pair { first, second, spot }), times) in &self.pairs {
            writeln!(out, "{entry:?} tells {first} before {second} ({spot:?}): {times}")?;
        }
        Ok(())
    }
}

/// Is the second fault of the pair in the input too, where the entry tells the first at this place?
fn has_second_fault(case: &Case, entry: Entry, pair: Pair, told: usize) -> bool {
    let at = if pair.spot == Spot::Next { told + 1 } else { told };
    match (pair.spot, pair.second) {
        (Spot::Apart, 7..=9) => (0..case.roads.len() / 8).any(|record| record_has(case, record, pair.second)),
        (Spot::Apart, _) => input_has(case, entry, pair.second),
        (_, 7..=9) => at < case.roads.len() / 8 && record_has(case, at, pair.second),
        _ => at < case.route.len() && place_has(case, told, at, pair.second),
    }
}

fn input_has(case: &Case, entry: Entry, fault: u64) -> bool {
    let Query { battery, start, source, target } = case.query;
    let junctions = case.nodes.len() as u64 / 4;
    match fault {
        2 => !case.roads.len().is_multiple_of(8) || case.roads.len() > 65_536,
        3 => !(1..=200_000_000).contains(&battery),
        4 => start < 0 || start > battery,
        5 if entry == Entry::BestRoute => source >= junctions || target >= junctions,
        5 if entry == Entry::SetOff => target >= junctions,
        5 => source >= junctions,
        6 => (case.room as u64) < junctions - 1,
        10 | 16 | 17 => number_without_faults(case) == fault,
        11 => case.route.len() > 8_192,
        12 => case.route.iter().any(|entry| usize::from(*entry) >= case.roads.len() / 8),
        _ => panic!("no pair asks for fault {fault} of the input"),
    }
}

/// Tail, head and consumption of a record.
fn record(case: &Case, number: usize) -> (u64, u64, i64) {
    let bytes = &case.roads[8 * number..8 * number + 8];
    let end = |low: usize| u64::from(bytes[low]) + 256 * u64::from(bytes[low + 1]);
    let consumption = i32::from_le_bytes([bytes[4], bytes[5], bytes[6], bytes[7]]);
    (end(0), end(2), i64::from(consumption))
}

fn potential(case: &Case, junction: u64) -> i64 {
    let bytes = &case.nodes[4 * junction as usize..];
    i64::from(i32::from_le_bytes([bytes[0], bytes[1], bytes[2], bytes[3]]))
}

fn record_has(case: &Case, number: usize, fault: u64) -> bool {
    let (tail, head, consumption) = record(case, number);
    let are_junctions = tail.max(head) < case.nodes.len() as u64 / 4;
    match fault {
        7 => !are_junctions,
        8 => !(-200_000_000..=200_000_000).contains(&consumption),
        _ => are_junctions && consumption - potential(case, tail) + potential(case, head) < 0,
    }
}

/// Has the entry at this place the fault, whatever is made of the entry at the place told, which is the same or the
/// one before? It begins elsewhere (13) if neither before nor after that entry the van stands at its tail; it is too
/// dear (14, 15) if it costs more than the battery holds.
fn place_has(case: &Case, told: usize, at: usize, fault: u64) -> bool {
    let road = |place: usize| {
        let number = usize::from(case.route[place]);
        (number < case.roads.len() / 8).then(|| record(case, number))
    };
    let before = if told == 0 { Some(case.query.source) } else { road(told - 1).map(|(_, head, _)| head) };
    let after = road(told).map(|(_, head, _)| head);
    match (fault, road(at)) {
        (12, entry) => entry.is_none(),
        (13, Some((tail, _, _))) => Some(tail) != before && Some(tail) != after,
        (_, Some((_, _, consumption))) => consumption > case.query.battery,
        (_, None) => false,
    }
}

/// The number of the best route's answer if the records at fault were not there.
fn number_without_faults(case: &Case) -> u64 {
    let is_sound = |number: &usize| (7..=9).all(|fault| !record_has(case, *number, fault));
    let sound_records = (0..case.roads.len() / 8).filter(is_sound);
    let roads: Vec<u8> = sound_records.flat_map(|number| &case.roads[8 * number..8 * number + 8]).copied().collect();
    let files = Files { nodes: &case.nodes, roads: &roads };
    model::best_arrival(files, case.query, case.room).map_or_else(|refusal| refusal.number, |_| 0)
}
