//! The cab's programs as processes: what each writes for each line and each pair of files, to the byte.

use sedge::generate::{self, hill_network, nodes_file, roads_file, Record};
use sedge::model::{self, Query, Refusal};
use sedge::Planned;
use std::collections::BTreeMap;
use std::fs::{self, File, Permissions};
use std::io::{Read, Write};
use std::os::unix::fs::{symlink, PermissionsExt};
use std::path::{Path, PathBuf};
use std::process::{Child, ChildStdin, Command, ExitStatus, Stdio};
use std::sync::atomic::{AtomicU64, Ordering};
use std::thread::{self, JoinHandle};
use std::time::{Duration, Instant};

const LEAST_CASES: usize = 60;
const LONGEST_WAIT: Duration = Duration::from_secs(10);

/// A program of the cab and some of its lines about hill network H.
struct Program {
    name: &'static str,
    /// A line that is answered, and the answer.
    worked: &'static str,
    written: &'static str,
    /// The same with a battery of 0, and with a junction that is one too many.
    no_battery: &'static str,
    no_junction: &'static str,
}

/// The best route.
const PLAN: Program = Program {
    name: "plan",
    worked: "1000 900 0 3\n",
    written: "arrival 100\ndrawn 1200\nrecovered 500\nspilled 100\nroads 3\n0\n1\n3\n",
    no_battery: "0 0 0 3\n",
    no_junction: "1000 900 0 4\n",
};

/// The charge to set off with from each junction.
const SETOFF: Program = Program {
    name: "setoff",
    worked: "1000 3\n",
    written: "700\n400\n900\n0\n",
    no_battery: "0 3\n",
    no_junction: "1000 4\n",
};

/// Refusal 6 is not among these cases: the program lends a list with room for every network that it can read.
#[test]
fn outputs_are_exact() {
    let own = vec![
        rows(),
        reasons_for_no_route(),
        lines_that_are_bad(),
        lines_that_are_good(),
        networks_at_their_limits(),
        faults_before_the_route(),
    ];
    assert_outputs(&PLAN, own);
}

#[test]
fn outputs_of_setoff_are_exact() {
    let own = vec![charges(), setoff_lines_that_are_bad(), setoff_lines_that_are_good(), charges_at_their_limits()];
    assert_outputs(&SETOFF, own);
}

/// The outputs of the program's own cases and of those that all programs have in common.
fn assert_outputs(program: &Program, own: Vec<Vec<Case>>) {
    let common = vec![
        lines_that_are_bad_anywhere(),
        lines_with_more(program),
        files_that_cannot_be_read(program),
        lengths(program),
        faults(program),
    ];
    let cases: Vec<Case> = own.into_iter().chain(common).flatten().collect();
    let failures: Vec<String> = cases.iter().filter_map(|case| failure_of(program, case)).collect();
    println!("{}: {} cases", program.name, cases.len());
    assert!(cases.len() >= LEAST_CASES, "{} cases", cases.len());
    assert!(failures.is_empty(), "{} of {} cases:\n{}", failures.len(), cases.len(), failures.join("\n"));
}

/// The van's computer may keep the pipe open: the answer comes with the line, not with the end of the input.
#[test]
fn answers_while_the_input_stays_open() {
    let asked: [(&str, &Program, &[&str], &str); 9] = [
        ("a good line", &PLAN, &["1000 900 0 3\n"], PLAN.written),
        ("a good line in pieces", &PLAN, &["10", "00 900", " ", "0 3", "\n"], PLAN.written),
        ("a good line and more", &PLAN, &["1000 900 0 3\n", "1000 700"], PLAN.written),
        ("a bad line", &PLAN, &["1000 900 0 x\n"], BAD_QUERY),
        ("a refused line", &PLAN, &["1000 699 0 3\n"], "refused 10 700\n"),
        ("a good line", &SETOFF, &["1000 3\n"], SETOFF.written),
        ("a good line in pieces", &SETOFF, &["10", "00", " ", "3", "\n"], SETOFF.written),
        ("a bad line", &SETOFF, &["1000 x\n"], BAD_QUERY),
        ("a refused line", &SETOFF, &["1000 4\n"], "refused 5 0\n"),
    ];
    for (name, program, pieces, expected) in asked {
        let folder = Folder::new(&hill_nodes(), &hill_roads());
        let pieces: Vec<&[u8]> = pieces.iter().map(|piece| piece.as_bytes()).collect();
        let output = run(program, &folder.path, &pieces, Input::StaysOpen);
        assert_eq!(output, Ok(Output::written(expected)), "{}: {name}", program.name);
    }
}

/// Seeded networks, sound and spoilt, and some of full size: refusals as the model tells them, routes as good as the
/// model's and driven to the numbers written.
#[test]
fn seeded_networks_are_answered_as_by_the_model() {
    let (mut arrived, mut refused, mut longest) = (0, BTreeMap::<u64, u64>::new(), 0);
    for case in seeded_networks() {
        let Query { battery, start, source, target } = case.query;
        let Some(line) = line_of(&[battery.into(), start.into(), source.into(), target.into()]) else { continue };
        let text = text_on(&PLAN, &case, &line);
        match model::best_arrival(case.files(), case.query, model::MOST_JUNCTIONS) {
            Err(Refusal { number, place }) => {
                *refused.entry(number).or_default() += 1;
                assert_eq!(text, format!("refused {number} {place}\n"), "{case}");
            }
            Ok(arrival) => {
                arrived += 1;
                let (planned, route) = read_answer(&text).unwrap_or_else(|| panic!("{text}\n{case}"));
                let network = model::sound_network(case.files()).expect("the model found a route");
                longest = longest.max(route.len());
                assert_eq!(planned.arrival as i64, arrival, "{case}");
                assert_eq!(model::fault_of_route(&network, case.query, planned, &route), None, "{case}");
            }
        }
    }
    println!("{arrived} routes, refusals by number {refused:?}, longest route {longest} roads");
    assert!(arrived >= 100, "{arrived} routes");
    assert!(refused.values().sum::<u64>() >= 20, "refusals {refused:?}");
    assert!([10, 16, 17].iter().all(|number| refused.contains_key(number)), "refusals {refused:?}");
    assert_eq!(longest, model::MOST_JUNCTIONS - 1, "the longest route there can be");
}

/// The same networks: refusals as the model tells them, one number a junction, and at every junction of a small network
/// and some of a large one the model's.
#[test]
fn seeded_networks_are_listed_as_by_the_model() {
    let (mut lists, mut refused, mut longest) = (0, 0, 0);
    for case in seeded_networks() {
        let Some(line) = line_of(&[case.query.battery.into(), case.query.target.into()]) else { continue };
        let text = text_on(&SETOFF, &case, &line);
        let asked = case.some_junctions(4);
        match model::set_off(case.files(), case.query, model::MOST_JUNCTIONS, &asked) {
            Err(Refusal { number, place }) => {
                refused += 1;
                assert_eq!(text, format!("refused {number} {place}\n"), "{case}");
            }
            Ok(expected) => {
                lists += 1;
                let list = read_list(&text).unwrap_or_else(|| panic!("{text}\n{case}"));
                longest = longest.max(list.len());
                assert_eq!(list.len(), case.nodes.len() / 4, "{case}");
                let given: Vec<i32> = asked.iter().map(|junction| list[*junction as usize]).collect();
                assert_eq!(given, expected, "{case}");
            }
        }
    }
    println!("{lists} lists, {refused} refusals, longest list {longest} numbers");
    assert!(lists >= 100, "{lists} lists");
    assert!(refused >= 20, "{refused} refusals");
    assert_eq!(longest, model::MOST_JUNCTIONS, "the longest list there can be");
}

const BAD_QUERY: &str = "bad query\n";
const NO_FILE: &str = "no file\n";

/// The lengths of the longest files. Of zeros they hold junctions of potential 0 and roads from junction 0 to itself
/// that cost nothing.
const LONGEST_NODES: u64 = 4 * model::MOST_JUNCTIONS as u64;
const LONGEST_ROADS: u64 = 8 * model::MOST_ROADS as u64;

/// A record that fails whatever the potentials are.
const GAINS: Record = Record { tail: 2, head: 2, consumption: -1 };

/// What stands under a file's name in the folder.
#[derive(Clone, Debug)]
enum Content {
    Bytes(Vec<u8>),
    /// So many bytes 0.
    Zeros(u64),
    Missing,
    Directory,
    /// A link to nothing.
    DanglingLink,
    /// A file without permission to read it.
    Forbidden(Vec<u8>),
    /// A link to a file that never ends.
    Endless,
}

/// One run of a program and what it must write.
struct Case {
    name: String,
    nodes: Content,
    roads: Content,
    input: Vec<u8>,
    expected: String,
}

/// A case on hill network H.
fn on_hill(name: &str, input: &[u8], expected: &str) -> Case {
    with_files(name, hill_nodes(), hill_roads(), input, expected)
}

fn with_files(name: &str, nodes: Content, roads: Content, input: &[u8], expected: &str) -> Case {
    Case { name: name.to_string(), nodes, roads, input: input.to_vec(), expected: expected.to_string() }
}

fn hill_nodes() -> Content {
    Content::Bytes(nodes_file(&hill_network().0))
}

fn hill_roads() -> Content {
    Content::Bytes(roads_file(&hill_network().1))
}

/// H's junction file, cut or filled up with zeros to this length.
fn hill_nodes_of(length: usize) -> Content {
    let mut bytes = nodes_file(&hill_network().0);
    bytes.resize(length, 0);
    Content::Bytes(bytes)
}

/// H's road file, cut or filled up with zeros to this length.
fn hill_roads_of(length: usize) -> Content {
    let mut bytes = roads_file(&hill_network().1);
    bytes.resize(length, 0);
    Content::Bytes(bytes)
}

/// H's road file with some records changed.
fn hill_roads_with(changes: &[(usize, Record)]) -> Content {
    let mut roads = hill_network().1;
    for &(number, record) in changes {
        roads[number] = record;
    }
    Content::Bytes(roads_file(&roads))
}

/// The text of an answer.
fn answer([arrival, drawn, recovered, spilled]: [u64; 4], route: &[u16]) -> String {
    let mut text = format!("arrival {arrival}\ndrawn {drawn}\nrecovered {recovered}\nspilled {spilled}\n");
    text += &format!("roads {}\n", route.len());
    for road in route {
        text += &format!("{road}\n");
    }
    text
}

/// The rows of document 01 that ask for a best route, and the same of its other rows as far as a line can ask them.
fn rows() -> Vec<Case> {
    let mut cases = vec![
        on_hill("start 900, 0 to 3", b"1000 900 0 3\n", PLAN.written),
        on_hill("start 700, 0 to 3", b"1000 700 0 3\n", &answer([0, 1200, 500, 0], &[0, 1, 3])),
        on_hill("start 699, 0 to 3", b"1000 699 0 3\n", "refused 10 700\n"),
        on_hill("start 300, 0 to 2", b"1000 300 0 2\n", &answer([500, 300, 500, 0], &[0, 1])),
        on_hill("start 299, 0 to 2", b"1000 299 0 2\n", &answer([199, 100, 0, 0], &[2])),
        on_hill("start 100, 0 to 2", b"1000 100 0 2\n", &answer([0, 100, 0, 0], &[2])),
        on_hill("start 99, 0 to 2", b"1000 99 0 2\n", "refused 10 100\n"),
        on_hill("start 0, 1 to 1", b"1000 0 1 1\n", &answer([0, 0, 0, 0], &[])),
        on_hill("start 1,000, 1 to 1", b"1000 1000 1 1\n", &answer([1000, 0, 0, 0], &[])),
        on_hill("battery 1,100, start 900, 0 to 3", b"1100 900 0 3\n", &answer([200, 1200, 500, 0], &[0, 1, 3])),
        on_hill("battery 899, start 899, 0 to 3", b"899 899 0 3\n", "refused 16 0\n"),
        on_hill("start 1,000, 1 to 2", b"1000 1000 1 2\n", &answer([1000, 0, 500, 500], &[1])),
        on_hill("start 1,000, 3 to 0", b"1000 1000 3 0\n", "refused 17 0\n"),
    ];
    let one_road = |name: &str, potentials: &[i32], consumption: i32, line: &[u8], expected: &str| {
        let roads = roads_file(&[Record { tail: 0, head: 1, consumption }]);
        with_files(name, Content::Bytes(nodes_file(potentials)), Content::Bytes(roads), line, expected)
    };
    let dearest = answer([0, 200_000_000, 0, 0], &[0]);
    let line = b"200000000 200000000 0 1\n";
    cases.push(one_road("consumption 200,000,000", &[0, 0], 200_000_000, line, &dearest));
    cases.push(one_road("consumption 200,000,001", &[0, 0], 200_000_001, line, "refused 8 0\n"));
    cases.push(one_road("potentials leave 0", &[-200, -500], 300, b"400 300 0 1\n", &answer([0, 300, 0, 0], &[0])));
    cases.push(one_road("potentials leave -1", &[-200, -500], 299, b"400 300 0 1\n", "refused 9 0\n"));
    let one_junction = Content::Bytes(nodes_file(&[7]));
    let alone = answer([3, 0, 0, 0], &[]);
    cases.push(with_files("one junction, no roads", one_junction, hill_roads_of(0), b"10 3 0 0\n", &alone));
    cases
}

/// By hand: why there is no route, on both sides of the lines between the reasons.
fn reasons_for_no_route() -> Vec<Case> {
    let two_junctions = || Content::Bytes(nodes_file(&[0, 0]));
    let dearest = || Content::Bytes(roads_file(&[Record { tail: 0, head: 1, consumption: 200_000_000 }]));
    let on_dearest =
        |name: &str, line: &[u8], expected: &str| with_files(name, two_junctions(), dearest(), line, expected);
    vec![
        on_hill("no charge, 0 to 3", b"1000 0 0 3\n", "refused 10 700\n"),
        on_hill("start 899, 2 to 3", b"1000 899 2 3\n", "refused 10 900\n"),
        on_hill("full battery needed, 2 to 3", b"900 899 2 3\n", "refused 10 900\n"),
        on_hill("battery one too small, 2 to 3", b"899 899 2 3\n", "refused 16 0\n"),
        on_hill("battery one too small, no charge", b"899 0 1 3\n", "refused 16 0\n"),
        on_hill("battery one too small, 0 to 2", b"99 99 0 2\n", "refused 16 0\n"),
        on_hill("the roads lead the other way", b"1000 1000 2 1\n", "refused 17 0\n"),
        on_hill("the smallest battery, 0 to 3", b"1 0 0 3\n", "refused 16 0\n"),
        on_hill("the smallest battery, 3 to 0", b"1 0 3 0\n", "refused 17 0\n"),
        on_dearest("the widest place", b"200000000 199999999 0 1\n", "refused 10 200000000\n"),
        on_dearest("the widest place, no charge", b"200000000 0 0 1\n", "refused 10 200000000\n"),
        on_dearest("one less than the widest", b"199999999 199999999 0 1\n", "refused 16 0\n"),
        on_dearest("the dearest road back", b"200000000 200000000 1 0\n", "refused 17 0\n"),
    ]
}

fn lines_that_are_bad() -> Vec<Case> {
    let long_number = [b"0".repeat(10_000).as_slice(), b" 900 0 3\n"].concat();
    let long_line = [b"1000 900 0 3".as_slice(), &b" ".repeat(10_000), b"\n"].concat();
    let lines: Vec<(&str, &[u8])> = vec![
        ("no newline", b"1000 900 0 3"),
        ("no newline after ten digits", b"1000 900 0 0000000003"),
        ("CR LF", b"1000 900 0 3\r\n"),
        ("CR alone", b"1000 900 0 3\r"),
        ("leading space", b" 1000 900 0 3\n"),
        ("trailing space", b"1000 900 0 3 \n"),
        ("two spaces", b"1000  900 0 3\n"),
        ("two spaces before the last", b"1000 900 0  3\n"),
        ("tab between", b"1000\t900 0 3\n"),
        ("tab at the end", b"1000 900 0 3\t\n"),
        ("vertical tab between", b"1000 900\x0b0 3\n"),
        ("plus sign", b"+1000 900 0 3\n"),
        ("plus sign before the last", b"1000 900 0 +3\n"),
        ("minus sign", b"1000 -1 0 3\n"),
        ("minus zero", b"1000 900 -0 3\n"),
        ("letters", b"battery start source target\n"),
        ("letter after a digit", b"1000 900 0 3x\n"),
        ("hexadecimal", b"0x3e8 900 0 3\n"),
        ("hexadecimal digit", b"1000 900 0 a\n"),
        ("decimal point", b"1000.0 900 0 3\n"),
        ("exponent", b"1e3 900 0 3\n"),
        ("comma", b"1,000 900 0 3\n"),
        ("commas between", b"1000,900,0,3\n"),
        ("underscore", b"1_000 900 0 3\n"),
        ("byte before the digits", b"1000 900 0 /\n"),
        ("byte after the digits", b"1000 900 0 :\n"),
        ("one number", b"1000\n"),
        ("three numbers", b"1000 900 0\n"),
        ("three numbers and a space", b"1000 900 0 \n"),
        ("five numbers", b"1000 900 0 3 3\n"),
        ("eleven digits of battery", b"00000001000 900 0 3\n"),
        ("eleven digits of start", b"1000 00000000900 0 3\n"),
        ("eleven digits of source", b"1000 900 00000000000 3\n"),
        ("eleven digits of target", b"1000 900 0 00000000003\n"),
        ("twenty digits", b"18446744073709552616 900 0 3\n"),
        ("empty line before a good one", b"\n1000 900 0 3\n"),
        ("bad line before a good one", b"plan\n1000 900 0 3\n"),
        ("newline amid the numbers", b"1000 900\n0 3\n"),
        ("zero byte first", b"\x001000 900 0 3\n"),
        ("zero byte between", b"1000\x00900 0 3\n"),
        ("zero byte before the newline", b"1000 900 0 3\x00\n"),
        ("zero byte for a newline", b"1000 900 0 3\x00"),
        ("byte order mark", b"\xef\xbb\xbf1000 900 0 3\n"),
        ("superscript digit", b"1000 900 0 \xb3\n"),
        ("digits of another script", "1000 900 0 ٣\n".as_bytes()),
        ("wide digits", "1000 900 0 ３\n".as_bytes()),
        ("space that does not break", "1000\u{a0}900 0 3\n".as_bytes()),
        ("digit with its top bit set", b"1000 900 0 \xb0\n"),
        ("a number of 10,000 digits", &long_number),
        ("a line of 10,000 bytes", &long_line),
    ];
    lines.iter().map(|(name, line)| on_hill(name, line, BAD_QUERY)).collect()
}

fn setoff_lines_that_are_bad() -> Vec<Case> {
    let long_number = [b"0".repeat(10_000).as_slice(), b" 3\n"].concat();
    let lines: Vec<(&str, &[u8])> = vec![
        ("no newline", b"1000 3"),
        ("no newline after ten digits", b"1000 0000000003"),
        ("CR LF", b"1000 3\r\n"),
        ("CR alone", b"1000 3\r"),
        ("leading space", b" 1000 3\n"),
        ("trailing space", b"1000 3 \n"),
        ("two spaces", b"1000  3\n"),
        ("tab between", b"1000\t3\n"),
        ("tab at the end", b"1000 3\t\n"),
        ("plus sign", b"+1000 3\n"),
        ("plus sign before the last", b"1000 +3\n"),
        ("minus sign", b"-1000 3\n"),
        ("minus zero", b"1000 -0\n"),
        ("letters", b"battery depot\n"),
        ("letter after a digit", b"1000 3x\n"),
        ("decimal point", b"1000.0 3\n"),
        ("comma between", b"1000,3\n"),
        ("byte before the digits", b"1000 /\n"),
        ("byte after the digits", b"1000 :\n"),
        ("one number", b"1000\n"),
        ("one number and a space", b"1000 \n"),
        ("three numbers", b"1000 3 3\n"),
        ("a line of plan", b"1000 900 0 3\n"),
        ("eleven digits of battery", b"00000001000 3\n"),
        ("eleven digits of depot", b"1000 00000000003\n"),
        ("twenty digits", b"18446744073709552616 3\n"),
        ("empty line before a good one", b"\n1000 3\n"),
        ("bad line before a good one", b"setoff\n1000 3\n"),
        ("newline between the numbers", b"1000\n3\n"),
        ("zero byte between", b"1000\x003\n"),
        ("zero byte for a newline", b"1000 3\x00"),
        ("a number of 10,000 digits", &long_number),
    ];
    lines.iter().map(|(name, line)| on_hill(name, line, BAD_QUERY)).collect()
}

fn lines_that_are_bad_anywhere() -> Vec<Case> {
    let no_end = b"1".repeat(1 << 20);
    let missing = || Content::Missing;
    vec![
        on_hill("empty input", b"", BAD_QUERY),
        on_hill("empty line", b"\n", BAD_QUERY),
        on_hill("no number", b"   \n", BAD_QUERY),
        on_hill("1 MB without a newline", &no_end, BAD_QUERY),
        with_files("bad line, no files", missing(), missing(), b"1000 900 0\n", BAD_QUERY),
        with_files("empty input, no files", missing(), missing(), b"", BAD_QUERY),
        with_files("bad line, directories", Content::Directory, Content::Directory, b"x\n", BAD_QUERY),
        with_files("bad line, empty nodes.bin", hill_nodes_of(0), hill_roads(), b"x\n", BAD_QUERY),
    ]
}

/// A good line and what is ignored after it.
fn lines_with_more(program: &Program) -> Vec<Case> {
    let followed_by =
        |name: &str, rest: &[u8]| on_hill(name, &[program.worked.as_bytes(), rest].concat(), program.written);
    vec![
        followed_by("text after the line", b"and so on"),
        followed_by("a second line", program.no_battery.as_bytes()),
        followed_by("an empty second line", b"\n"),
        followed_by("bytes of all kinds after the line", &[0, 255, 13, 10, 128, 0]),
        followed_by("1 MB after the line", &b"\x00\xff1 ".repeat(1 << 18)),
    ]
}

fn lines_that_are_good() -> Vec<Case> {
    let full = answer([199_999_100, 1200, 500, 200], &[0, 1, 3]);
    vec![
        on_hill("leading zeros", b"01000 0900 00 03\n", PLAN.written),
        on_hill("leading zeros up to ten digits", b"0000001000 0000000900 0000000000 0000000003\n", PLAN.written),
        on_hill("the largest battery", b"200000000 200000000 0 3\n", &full),
        on_hill("the largest battery with zeros", b"0200000000 0200000000 0 3\n", &full),
        on_hill("the smallest battery", b"1 1 1 2\n", &answer([1, 0, 500, 500], &[1])),
        on_hill("battery 0", b"0 0 0 3\n", "refused 3 0\n"),
        on_hill("battery 0 in ten digits", b"0000000000 0 0 3\n", "refused 3 0\n"),
        on_hill("battery 200,000,001", b"200000001 900 0 3\n", "refused 3 0\n"),
        on_hill("battery 1,000 above 32 bits", b"4294968296 900 0 3\n", "refused 3 0\n"),
        on_hill("battery of ten nines", b"9999999999 900 0 3\n", "refused 3 0\n"),
        on_hill("start above the battery", b"1000 1001 0 3\n", "refused 4 0\n"),
        on_hill("start 0 above 32 bits", b"1000 4294967296 0 3\n", "refused 4 0\n"),
        on_hill("start 900 above 32 bits", b"1000 4294968196 0 3\n", "refused 4 0\n"),
        on_hill("start of ten nines", b"1000 9999999999 0 3\n", "refused 4 0\n"),
        on_hill("source is one too many", b"1000 900 4 3\n", "refused 5 0\n"),
        on_hill("target is one too many", b"1000 900 0 4\n", "refused 5 0\n"),
        on_hill("source 0 above 16 bits", b"1000 900 65536 3\n", "refused 5 0\n"),
        on_hill("target 3 above 16 bits", b"1000 900 0 65539\n", "refused 5 0\n"),
        on_hill("source 0 above 32 bits", b"1000 900 4294967296 3\n", "refused 5 0\n"),
        on_hill("target 3 above 32 bits", b"1000 900 0 4294967299\n", "refused 5 0\n"),
        on_hill("source of ten nines", b"1000 900 9999999999 3\n", "refused 5 0\n"),
        on_hill("target of ten nines", b"1000 900 0 9999999999\n", "refused 5 0\n"),
        on_hill("ten nines everywhere", b"9999999999 9999999999 9999999999 9999999999\n", "refused 3 0\n"),
        on_hill("start before source", b"1000 1001 4 4\n", "refused 4 0\n"),
    ]
}

/// By hand: to reach 3 the van needs 900 at 2, so 400 at 1 and 700 at 0 by road 0, where road 2 would ask for 1,000.
fn charges() -> Vec<Case> {
    let far = Record { tail: 0, head: 1, consumption: 200_000_000 };
    let two_junctions = || Content::Bytes(nodes_file(&[0, 0]));
    let dearest = || Content::Bytes(roads_file(&[far]));
    vec![
        on_hill("depot 3", b"1000 3\n", SETOFF.written),
        on_hill("depot 2", b"1000 2\n", "100\n0\n0\n-1\n"),
        on_hill("depot 1", b"1000 1\n", "300\n0\n-1\n-1\n"),
        on_hill("depot 0", b"1000 0\n", "0\n-1\n-1\n-1\n"),
        on_hill("battery 900, depot 3", b"900 3\n", "700\n400\n900\n0\n"),
        on_hill("battery 899, depot 3", b"899 3\n", "-1\n-1\n-1\n0\n"),
        on_hill("battery 100, depot 2", b"100 2\n", "100\n0\n0\n-1\n"),
        on_hill("battery 99, depot 2", b"99 2\n", "-1\n0\n0\n-1\n"),
        with_files("the widest charge", two_junctions(), dearest(), b"200000000 1\n", "200000000\n0\n"),
        with_files("one less than the widest", two_junctions(), dearest(), b"199999999 1\n", "-1\n0\n"),
    ]
}

fn setoff_lines_that_are_good() -> Vec<Case> {
    vec![
        on_hill("leading zeros", b"01000 03\n", SETOFF.written),
        on_hill("leading zeros up to ten digits", b"0000001000 0000000003\n", SETOFF.written),
        on_hill("the largest battery", b"200000000 3\n", SETOFF.written),
        on_hill("the largest battery with zeros", b"0200000000 3\n", SETOFF.written),
        on_hill("the smallest battery", b"1 2\n", "-1\n0\n0\n-1\n"),
        on_hill("battery 0", b"0 3\n", "refused 3 0\n"),
        on_hill("battery 0 in ten digits", b"0000000000 3\n", "refused 3 0\n"),
        on_hill("battery 200,000,001", b"200000001 3\n", "refused 3 0\n"),
        on_hill("battery 1,000 above 32 bits", b"4294968296 3\n", "refused 3 0\n"),
        on_hill("battery of ten nines", b"9999999999 3\n", "refused 3 0\n"),
        on_hill("depot is one too many", b"1000 4\n", "refused 5 0\n"),
        on_hill("depot 3 above 16 bits", b"1000 65539\n", "refused 5 0\n"),
        on_hill("depot 3 above 32 bits", b"1000 4294967299\n", "refused 5 0\n"),
        on_hill("depot of ten nines", b"1000 9999999999\n", "refused 5 0\n"),
        on_hill("ten nines everywhere", b"9999999999 9999999999\n", "refused 3 0\n"),
    ]
}

fn files_that_cannot_be_read(program: &Program) -> Vec<Case> {
    let line = program.worked.as_bytes();
    let mut cases = Vec::new();
    for (name, content) in [
        ("is missing", Content::Missing),
        ("is a directory, which opens and cannot be read", Content::Directory),
        ("links to nothing", Content::DanglingLink),
    ] {
        cases.push(with_files(&format!("nodes.bin {name}"), content.clone(), hill_roads(), line, NO_FILE));
        cases.push(with_files(&format!("roads.bin {name}"), hill_nodes(), content.clone(), line, NO_FILE));
        cases.push(with_files(&format!("each file {name}"), content.clone(), content, line, NO_FILE));
    }
    if permissions_bind() {
        let (nodes, roads) = (nodes_file(&hill_network().0), roads_file(&hill_network().1));
        cases.push(with_files("nodes.bin is forbidden", Content::Forbidden(nodes), hill_roads(), line, NO_FILE));
        cases.push(with_files("roads.bin is forbidden", hill_nodes(), Content::Forbidden(roads), line, NO_FILE));
    } else {
        println!("left out: a file without permission to read, because this user may read every file");
    }
    let missing = || Content::Missing;
    cases.push(with_files("nodes.bin empty, roads.bin missing", hill_nodes_of(0), missing(), line, NO_FILE));
    cases.push(with_files("nodes.bin missing, roads.bin odd", missing(), hill_roads_of(31), line, NO_FILE));
    cases.push(with_files("nodes.bin far over, roads.bin missing", Content::Zeros(10 << 20), missing(), line, NO_FILE));
    let no_battery = program.no_battery.as_bytes();
    cases.push(with_files("bad battery, roads.bin missing", hill_nodes(), missing(), no_battery, NO_FILE));
    cases
}

/// Does a file without permission to read refuse this user? It does not refuse root.
fn permissions_bind() -> bool {
    let folder = Folder::new(&Content::Forbidden(vec![1]), &Content::Missing);
    File::open(folder.path.join("nodes.bin")).is_err()
}

/// Files of lengths that they must not have.
fn lengths(program: &Program) -> Vec<Case> {
    let line = program.worked.as_bytes();
    let no_battery = program.no_battery.as_bytes();
    let mut cases = vec![
        with_files("nodes.bin is empty", hill_nodes_of(0), hill_roads(), line, "refused 1 0\n"),
        with_files("both are empty", hill_nodes_of(0), hill_roads_of(0), line, "refused 1 0\n"),
        with_files("nodes.bin less a byte", hill_nodes_of(15), hill_roads(), line, "refused 1 0\n"),
        with_files("nodes.bin and a byte", hill_nodes_of(17), hill_roads(), line, "refused 1 0\n"),
        with_files("roads.bin less a byte", hill_nodes(), hill_roads_of(31), line, "refused 2 0\n"),
        with_files("roads.bin and a byte", hill_nodes(), hill_roads_of(33), line, "refused 2 0\n"),
        with_files("roads.bin less half a record", hill_nodes(), hill_roads_of(28), line, "refused 2 0\n"),
        with_files("both less a byte", hill_nodes_of(15), hill_roads_of(31), line, "refused 1 0\n"),
        with_files("2 before 3", hill_nodes(), hill_roads_of(31), no_battery, "refused 2 0\n"),
        with_files("nodes.bin never ends", Content::Endless, hill_roads(), line, "refused 1 0\n"),
        with_files("roads.bin never ends", hill_nodes(), Content::Endless, line, "refused 2 0\n"),
    ];
    for (name, nodes, roads, expected) in [
        ("nodes.bin a byte over", LONGEST_NODES + 1, LONGEST_ROADS, "refused 1 0\n"),
        ("nodes.bin a record over", LONGEST_NODES + 4, LONGEST_ROADS, "refused 1 0\n"),
        ("nodes.bin far over", 10 << 20, LONGEST_ROADS, "refused 1 0\n"),
        ("nodes.bin at 4,294,967,300 bytes", (1 << 32) + 4, LONGEST_ROADS, "refused 1 0\n"),
        ("roads.bin a byte over", LONGEST_NODES, LONGEST_ROADS + 1, "refused 2 0\n"),
        ("roads.bin a record over", LONGEST_NODES, LONGEST_ROADS + 8, "refused 2 0\n"),
        ("roads.bin far over", LONGEST_NODES, 10 << 20, "refused 2 0\n"),
        ("roads.bin at 4,294,967,304 bytes", LONGEST_NODES, (1 << 32) + 8, "refused 2 0\n"),
        ("both far over", 10 << 20, 10 << 20, "refused 1 0\n"),
    ] {
        cases.push(with_files(name, Content::Zeros(nodes), Content::Zeros(roads), line, expected));
    }
    cases
}

/// No roads, and as many junctions and roads as there may be.
fn networks_at_their_limits() -> Vec<Case> {
    let (nodes, roads) = (|| Content::Zeros(LONGEST_NODES), Content::Zeros(LONGEST_ROADS));
    let no_roads = || hill_roads_of(0);
    let (still, around) = (answer([5, 0, 0, 0], &[]), answer([900, 0, 0, 0], &[]));
    vec![
        with_files("roads.bin is empty", hill_nodes(), no_roads(), b"1000 900 0 3\n", "refused 17 0\n"),
        with_files("no roads are needed", hill_nodes(), no_roads(), b"9 5 2 2\n", &still),
        with_files("both at their limits", nodes(), roads, b"1000 900 0 0\n", &around),
        with_files("the last junction", nodes(), no_roads(), b"9 5 2047 2047\n", &still),
        with_files("one past the last junction", nodes(), no_roads(), b"9 5 0 2048\n", "refused 5 0\n"),
    ]
}

/// The same for the charges to set off with.
fn charges_at_their_limits() -> Vec<Case> {
    let (nodes, roads) = (|| Content::Zeros(LONGEST_NODES), Content::Zeros(LONGEST_ROADS));
    let no_roads = || hill_roads_of(0);
    let none_but_the_first = format!("0\n{}", "-1\n".repeat(2_047));
    let none_but_the_last = format!("{}0\n", "-1\n".repeat(2_047));
    let dearest = |tail| Record { tail, head: 0, consumption: 200_000_000 };
    let star = Content::Bytes(roads_file(&(1..2_048).map(dearest).collect::<Vec<Record>>()));
    let full_but_the_first = format!("0\n{}", "200000000\n".repeat(2_047));
    let one_junction = Content::Bytes(nodes_file(&[7]));
    vec![
        with_files("roads.bin is empty", hill_nodes(), no_roads(), b"1000 3\n", "-1\n-1\n-1\n0\n"),
        with_files("one junction, no roads", one_junction, no_roads(), b"10 0\n", "0\n"),
        with_files("both at their limits", nodes(), roads, b"1000 0\n", &none_but_the_first),
        with_files("the longest text", nodes(), star, b"200000000 0\n", &full_but_the_first),
        with_files("the last junction", nodes(), no_roads(), b"9 2047\n", &none_but_the_last),
        with_files("one past the last junction", nodes(), no_roads(), b"9 2048\n", "refused 5 0\n"),
    ]
}

/// Faults of records, alone and before or after other faults.
fn faults(program: &Program) -> Vec<Case> {
    let no_tail = Record { tail: 4, head: 2, consumption: 100 };
    let no_head = Record { tail: 0, head: 65_535, consumption: 100 };
    let too_dear = Record { tail: 1, head: 2, consumption: 200_000_001 };
    let too_cheap = Record { tail: 1, head: 2, consumption: -200_000_001 };
    let dear_and_nowhere = Record { tail: 4, head: 4, consumption: i32::MAX };
    let cheap_and_gains = Record { tail: 2, head: 2, consumption: i32::MIN };
    let mut many = vec![Record { tail: 0, head: 0, consumption: 0 }; model::MOST_ROADS];
    many[model::MOST_ROADS - 1] = GAINS;
    let told = |name: &str, changes: &[(usize, Record)], line: &str, expected: &str| {
        with_files(name, hill_nodes(), hill_roads_with(changes), line.as_bytes(), expected)
    };
    let longest = Content::Bytes(roads_file(&many));
    let Program { worked: line, no_battery, no_junction, .. } = program;
    vec![
        told("tail is no junction", &[(2, no_tail)], line, "refused 7 2\n"),
        told("head is no junction", &[(3, no_head)], line, "refused 7 3\n"),
        told("consumption too high", &[(1, too_dear)], line, "refused 8 1\n"),
        told("consumption too low", &[(1, too_cheap)], line, "refused 8 1\n"),
        told("potential fails", &[(0, GAINS)], line, "refused 9 0\n"),
        told("7 and 8 in one record", &[(1, dear_and_nowhere)], line, "refused 7 1\n"),
        told("8 and 9 in one record", &[(1, cheap_and_gains)], line, "refused 8 1\n"),
        told("9, then 7", &[(1, GAINS), (2, no_tail)], line, "refused 9 1\n"),
        told("3 before 7", &[(0, no_tail)], no_battery, "refused 3 0\n"),
        told("5 before 9", &[(1, GAINS)], no_junction, "refused 5 0\n"),
        with_files("the last of 8,192 records", hill_nodes(), longest, line.as_bytes(), "refused 9 8191\n"),
    ]
}

/// A fault of a record where there would be no route, or nothing to drive.
fn faults_before_the_route() -> Vec<Case> {
    let gains = || hill_roads_with(&[(1, GAINS)]);
    vec![
        with_files("9 though the start is too low", hill_nodes(), gains(), b"1000 99 0 2\n", "refused 9 1\n"),
        with_files("9 though the battery is too small", hill_nodes(), gains(), b"899 899 0 3\n", "refused 9 1\n"),
        with_files("9 though no road leads there", hill_nodes(), gains(), b"9 9 3 0\n", "refused 9 1\n"),
        with_files("9 though source is target", hill_nodes(), gains(), b"9 9 0 0\n", "refused 9 1\n"),
    ]
}

/// What is wrong with a case, if anything: its name, its line and both texts.
fn failure_of(program: &Program, case: &Case) -> Option<String> {
    let folder = Folder::new(&case.nodes, &case.roads);
    let before = folder.names();
    let given = run(program, &folder.path, &[&case.input], Input::Ends);
    if given == Ok(Output::written(&case.expected)) && folder.names() == before {
        return None;
    }
    let shown = String::from_utf8_lossy(&case.input[..case.input.len().min(80)]).into_owned();
    let (name, expected) = (&case.name, &case.expected);
    Some(format!("{name}, line {shown:?}:\n  given    {given:?}, files {:?}\n  expected {expected:?}", folder.names()))
}

/// A folder of its own for one run, removed after it.
struct Folder {
    path: PathBuf,
}

impl Folder {
    fn new(nodes: &Content, roads: &Content) -> Folder {
        static FOLDERS: AtomicU64 = AtomicU64::new(0);
        let number = FOLDERS.fetch_add(1, Ordering::Relaxed);
        let path = std::env::temp_dir().join(format!("sedge-program-{}-{number}", std::process::id()));
        fs::create_dir(&path).expect("a new folder for temporary files");
        put(&path.join("nodes.bin"), nodes);
        put(&path.join("roads.bin"), roads);
        Folder { path }
    }

    fn names(&self) -> Vec<String> {
        let entries = fs::read_dir(&self.path).expect("the folder of a run");
        let mut names: Vec<String> =
            entries.map(|entry| entry.expect("an entry").file_name().to_string_lossy().into_owned()).collect();
        names.sort();
        names
    }
}

impl Drop for Folder {
    fn drop(&mut self) {
        fs::remove_dir_all(&self.path).expect("the folder of a run can be removed");
    }
}

fn put(path: &Path, content: &Content) {
    let done = match content {
        Content::Bytes(bytes) => fs::write(path, bytes),
        Content::Zeros(length) => File::create(path).and_then(|file| file.set_len(*length)),
        Content::Missing => Ok(()),
        Content::Directory => fs::create_dir(path),
        Content::DanglingLink => symlink("nothing.bin", path),
        Content::Forbidden(bytes) => {
            fs::write(path, bytes).and_then(|()| fs::set_permissions(path, Permissions::from_mode(0o000)))
        }
        Content::Endless => symlink("/dev/zero", path),
    };
    done.unwrap_or_else(|fault| panic!("{}: {fault}", path.display()));
}

/// Whether the program's input ends after what was written, or stays open until the program has ended.
#[derive(Clone, Copy, PartialEq, Eq)]
enum Input {
    Ends,
    StaysOpen,
}

/// What a run wrote, and whether it ended with success.
#[derive(Debug, PartialEq, Eq)]
struct Output {
    text: String,
    errors: String,
    success: bool,
}

impl Output {
    /// A run that ended well and wrote this text alone.
    fn written(text: &str) -> Output {
        Output { text: text.to_string(), errors: String::new(), success: true }
    }
}

impl Program {
    fn path(&self) -> PathBuf {
        let path = Path::new(env!("CARGO_MANIFEST_DIR")).join(format!("../crates/{0}/out/{0}", self.name));
        path.canonicalize().unwrap_or_else(|_| panic!("{0} is not built: rt run in crates/{0}", self.name))
    }
}

/// Runs the program in a folder on an input that comes in these pieces. It must end in time.
fn run(program: &Program, folder: &Path, pieces: &[&[u8]], input: Input) -> Result<Output, String> {
    let mut command = Command::new(program.path());
    command.current_dir(folder).stdin(Stdio::piped()).stdout(Stdio::piped()).stderr(Stdio::piped());
    let mut child = command.spawn().expect("the program starts");
    let stdin = child.stdin.take().expect("its input is a pipe");
    let text = all_of(child.stdout.take().expect("its output is a pipe"));
    let errors = all_of(child.stderr.take().expect("its errors are a pipe"));
    let pieces: Vec<Vec<u8>> = pieces.iter().map(|piece| piece.to_vec()).collect();
    let writer = thread::spawn(move || write_pieces(stdin, &pieces, input));
    let ended = end_of(&mut child);
    writer.join().expect("the writer ends once the program has");
    let success = ended?.success();
    let text = text.join().expect("the output is read");
    let errors = errors.join().expect("the errors are read");
    Ok(Output { text, errors, success })
}

/// How the program ended; where it takes too long it is stopped, which is a fault.
fn end_of(child: &mut Child) -> Result<ExitStatus, String> {
    let began = Instant::now();
    while began.elapsed() < LONGEST_WAIT {
        if let Some(status) = child.try_wait().expect("its end can be asked for") {
            return Ok(status);
        }
        thread::sleep(Duration::from_millis(1));
    }
    child.kill().expect("the program can be stopped");
    child.wait().expect("the program has been stopped");
    Err(format!("the program did not end within {LONGEST_WAIT:?}"))
}

/// Writes the pieces with a pause between them and gives the input back if it is to stay open. The program may have
/// ended before it has read all: that is no fault.
fn write_pieces(mut stdin: ChildStdin, pieces: &[Vec<u8>], input: Input) -> Option<ChildStdin> {
    for (number, piece) in pieces.iter().enumerate() {
        if number > 0 {
            thread::sleep(Duration::from_millis(50));
        }
        if stdin.write_all(piece).and_then(|()| stdin.flush()).is_err() {
            break;
        }
    }
    (input == Input::StaysOpen).then_some(stdin)
}

/// Everything that comes out of a pipe until it closes, as text.
fn all_of(mut pipe: impl Read + Send + 'static) -> JoinHandle<String> {
    thread::spawn(move || {
        let mut bytes = Vec::new();
        pipe.read_to_end(&mut bytes).expect("the pipe can be read");
        String::from_utf8_lossy(&bytes).into_owned()
    })
}

fn seeded_networks() -> impl Iterator<Item = generate::Case> {
    (0..240).map(generate::case).chain((0..12).map(generate::full_size))
}

/// The line of these numbers, where ten digits can hold them.
fn line_of(numbers: &[i128]) -> Option<String> {
    let all_fit = numbers.iter().all(|number| (0..=9_999_999_999).contains(number));
    all_fit.then(|| numbers.iter().map(i128::to_string).collect::<Vec<String>>().join(" ") + "\n")
}

/// What the program writes for this line on a seeded network.
fn text_on(program: &Program, case: &generate::Case, line: &str) -> String {
    let folder = Folder::new(&Content::Bytes(case.nodes.clone()), &Content::Bytes(case.roads.clone()));
    let output = run(program, &folder.path, &[line.as_bytes()], Input::Ends);
    let Output { text, errors, success } = output.unwrap_or_else(|fault| panic!("{fault}\n{case}"));
    assert_eq!((errors.as_str(), success), ("", true), "{case}");
    text
}

/// The numbers and the route of an answer that is written just as document 01 says.
fn read_answer(text: &str) -> Option<(Planned, Vec<u16>)> {
    let lines: Vec<&str> = text.lines().collect();
    let number = |place: usize| lines.get(place)?.split_once(' ')?.1.parse::<u64>().ok();
    let [arrival, drawn, recovered, spilled] = [number(0)?, number(1)?, number(2)?, number(3)?];
    let roads = number(4)?;
    let route: Vec<u16> = lines[5..].iter().map(|line| line.parse().ok()).collect::<Option<_>>()?;
    let is_exact = roads == route.len() as u64 && answer([arrival, drawn, recovered, spilled], &route) == text;
    is_exact.then_some((Planned { number: 0, place: 0, roads, arrival, drawn, recovered, spilled }, route))
}

/// The numbers of a list that is written one a line.
fn read_list(text: &str) -> Option<Vec<i32>> {
    let list: Vec<i32> = text.lines().map(|line| line.parse().ok()).collect::<Option<_>>()?;
    let written: String = list.iter().map(|number| format!("{number}\n")).collect();
    (written == text).then_some(list)
}
