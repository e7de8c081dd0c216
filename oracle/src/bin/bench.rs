//! The cost of a tick in lean Rust and in Rattle, on the same cards, as tables in Markdown. A round is 100 ticks from the start state.
//!
//! - `bench time [ROUNDS]`: nanoseconds, over so many rounds in each of several processes.
//! - `bench samples ROUNDS`: what one of these processes measures. Each round goes through all cards, and on each card both sides by turns.
//! - `bench mixed`: what the mixed card has.
//! - `bench instructions`: instructions, counted by valgrind's callgrind over `bench rounds`.
//! - `bench rounds SIDE CALL CARD ROUNDS`: so many rounds of one side (`rust`, `rattle`) by one call (`tick`, `run`), and nothing else that depends
//!   on their number: the difference of one round and two is what a round takes.
//!
//! It stops where a round leaves another state than the oracle's, or takes from the heap.

use oracle::card::{
    Body, Card, Joint, BALL, BODY_NUMBERS, EDITION_1, EDITION_2, HINGE, JOINT_NUMBERS, KINDS,
    SLIDE, TETHER,
};
use oracle::compare::{all_same, Table};
use oracle::lean::LEAN;
use oracle::table::Ran;
use oracle::{host, math, table};
use std::alloc::{GlobalAlloc, Layout, System};
use std::env;
use std::process::Command;
use std::sync::atomic::{AtomicU64, Ordering};
use std::time::Instant;

const TICKS: u32 = 100;

/// What a run of a round answers.
const WHOLE_ROUND: Ran = Ran {
    number: 0,
    done: TICKS,
};

/// On one machine the Rattle's times differed by up to a tenth from process to process, for a reason that is not known, so that they are taken from several.
const PROCESSES: usize = 11;
const SIDES: [&str; 2] = ["rust", "rattle"];
const CALLS: [&str; 2] = ["tick", "run"];

/// A side's calls. The lean Rust has its room for the largest card after this.
fn side(name: &str) -> Table {
    match name {
        "rust" => {
            assert_eq!((LEAN.tick)(&[], &mut []), 1);
            LEAN
        }
        "rattle" => host::table(),
        _ => panic!("no side {name}"),
    }
}

// --------------------------------------------------------------------------------------------------------------------------------- heap

/// The system's allocator, which counts how often it is asked.
struct Counted;

static TAKEN: AtomicU64 = AtomicU64::new(0);

// SAFETY: each call is the system's.
unsafe impl GlobalAlloc for Counted {
    unsafe fn alloc(&self, layout: Layout) -> *mut u8 {
        TAKEN.fetch_add(1, Ordering::Relaxed);
        unsafe { System.alloc(layout) }
    }

    unsafe fn dealloc(&self, at: *mut u8, layout: Layout) {
        unsafe { System.dealloc(at, layout) }
    }
}

#[global_allocator]
static COUNTED: Counted = Counted;

fn taken() -> u64 {
    TAKEN.load(Ordering::Relaxed)
}

// -------------------------------------------------------------------------------------------------------------------------------- cards

struct Case {
    name: String,
    card: Card,
    bytes: Vec<u8>,
    start: Vec<f32>,
    /// The oracle's state after a round.
    end: Vec<f32>,
}

/// Links a step apart along x, the first anchored, and as many joints: the last goes back to the first link, so that a joint has one body in each length. A
/// single joint has two. Each link turns a little at the start, so that the motion leaves the plane. Limits keep each joint within `reach`, and motors push
/// past 0.0625.
fn linkage(name: &str, joints: usize, reach: f32, kind: impl Fn(usize) -> u32) -> Case {
    let bodies = joints.max(2);
    let edition = match bodies <= EDITION_1.most {
        true => EDITION_1,
        false => EDITION_2,
    };
    let mut card = Card {
        edition: edition.number,
        // These hold together at a higher rate.
        rate: match name {
            "slide 200" => 2000,
            "ball 200" => 480,
            _ => 240,
        },
        zero: 0,
        gravity: -9.75,
        warm_coefficient: 0.5,
        bodies: vec![Body::UNIT; bodies],
        joints: Vec::new(),
    };
    card.bodies[0] = Body::ANCHORED;
    for (i, body) in card.bodies.iter_mut().enumerate() {
        body.position = [i as f32, 0.0, 0.0];
        if !body.anchored {
            let way = [-1.0, 1.0][i % 2];
            body.angular_velocity = [0.5 * way, 0.25, 0.25 * way];
            // Else two thirds of these tethers would be slack, where a quarter of the other lengths' are at most.
            if name == "tether 200" && i % 2 == 1 {
                body.linear_velocity = [0.0, 0.0, 1.0];
            }
        }
    }
    for i in 0..joints {
        let (body1, body2) = (i % bodies, (i + 1) % bodies);
        let mut joint = Joint::plain(kind(i), body1 as u32, body2 as u32);
        let apart = card.bodies[body2].position[0] - card.bodies[body1].position[0];
        match joint.kind {
            TETHER => joint.limit1_range = [0.0, apart.abs()],
            _ => {
                joint.anchor1 = [0.5 * apart, 0.0, 0.0];
                joint.anchor2 = [-0.5 * apart, 0.0, 0.0];
            }
        }
        if matches!(joint.kind, HINGE | SLIDE) {
            joint.limit1 = true;
            joint.limit1_range = [-reach, reach];
            joint.motor = 1;
            joint.motor_numbers = [0.0, 0.125, 100.0, 2.0, 1.0];
        }
        if joint.kind == BALL {
            joint.limit1 = true;
            joint.limit1_range = [0.0, reach];
            joint.limit2 = true;
            joint.limit2_range = [-0.5 * reach, 0.5 * reach];
        }
        card.joints.push(joint);
    }
    let bytes = card.encode();
    let start = table::start_state(&card);
    let mut end = start.clone();
    assert_eq!(table::run(&bytes, &mut end, TICKS), WHOLE_ROUND);
    Case {
        name: name.to_string(),
        card,
        bytes,
        start,
        end,
    }
}

/// The chains' limits but the tethers' are looked at and hardly met, so that every length does the same work for a joint. Those of the mixed card are met.
fn case(name: &str) -> Case {
    let (kind, joints) = name.split_once(' ').expect("a kind and a number of joints");
    let joints = joints.parse().expect("a number of joints");
    match KINDS.iter().position(|other| *other == kind) {
        Some(kind) => linkage(name, joints, 0.5, |_| kind as u32),
        None if kind == "mixed" => linkage(name, joints, 0.0625, |i| i as u32 % 5),
        None => panic!("no kind {kind}"),
    }
}

const MIXED: &str = "mixed 32";
const LARGE_MIXED: &str = "mixed 200";

/// The lengths of chains over which the cost for a joint is to be flat.
const LENGTHS: [usize; 5] = [4, 8, 16, 32, 200];

fn cases() -> Vec<Case> {
    let lengths = [1, 2].into_iter().chain(LENGTHS);
    let chains = KINDS.iter().flat_map(|kind| {
        let names = lengths
            .clone()
            .map(move |joints| format!("{kind} {joints}"));
        names.collect::<Vec<_>>()
    });
    chains
        .chain([MIXED, LARGE_MIXED].map(str::to_string))
        .map(|name| case(&name))
        .collect()
}

fn length(v: [f32; 3]) -> f32 {
    v.iter().map(|x| x * x).sum::<f32>().sqrt()
}

/// How far a joint's anchors are from where the joint wants them, in links.
fn gap(joint: &Joint, state: &[f32]) -> f32 {
    let body = |i: u32| &state[BODY_NUMBERS * i as usize..];
    let turned = |i: u32, v| math::turn(body(i)[3..7].try_into().unwrap(), v);
    let anchor1 = turned(joint.body1, joint.anchor1);
    let anchor2 = turned(joint.body2, joint.anchor2);
    let apart: [f32; 3] = std::array::from_fn(|i| {
        body(joint.body1)[i] + anchor1[i] - body(joint.body2)[i] - anchor2[i]
    });
    match joint.kind {
        TETHER => length(apart) - joint.limit1_range[1],
        SLIDE => {
            let axis = turned(joint.body1, joint.axis);
            let along: f32 = apart.iter().zip(axis).map(|(x, y)| x * y).sum();
            (along.abs() - joint.limit1_range[1])
                .max(length(std::array::from_fn(|i| apart[i] - along * axis[i])))
        }
        _ => length(apart),
    }
}

/// After a round the linkage still holds together, and no joint's bodies are faster against each other than a fall of that time or two and the spins that they
/// began with.
fn assert_sensible(case: &Case) {
    let Case {
        name, card, end, ..
    } = case;
    let most = 2.0 * 9.75 * TICKS as f32 * card.dt() + 1.25;
    let number = |body: u32, place: usize| end[BODY_NUMBERS * body as usize + place];
    for (joint, i) in card.joints.iter().zip(0..) {
        let gap = gap(joint, end);
        assert!(gap < 0.1, "{name}: joint {i} is {gap} apart");
        for first in [7, 10] {
            let against: [f32; 3] = std::array::from_fn(|i| {
                number(joint.body1, first + i) - number(joint.body2, first + i)
            });
            let against = length(against);
            assert!(against < most, "{name}: joint {i} moves by {against}");
        }
    }
}

// --------------------------------------------------------------------------------------------------------------------------------- runs

/// One round, in a state that is overwritten.
fn round(table: &Table, call: &str, case: &Case, state: &mut [f32]) {
    state.copy_from_slice(&case.start);
    match call {
        "tick" => {
            for _ in 0..TICKS {
                assert_eq!((table.tick)(&case.bytes, state), 0);
            }
        }
        "run" => assert_eq!((table.run)(&case.bytes, state, TICKS), WHOLE_ROUND),
        _ => panic!("no call {call}"),
    }
}

/// Nanoseconds a tick of one round, which takes nothing from the heap and leaves the oracle's state.
fn time(table: &Table, call: &str, case: &Case, state: &mut [f32]) -> f64 {
    let before = taken();
    let begun = Instant::now();
    round(table, call, case, state);
    let nanoseconds = begun.elapsed().as_nanos() as f64;
    assert_eq!(taken(), before, "{} takes from the heap", case.name);
    assert!(all_same(state, &case.end), "{}: states differ", case.name);
    nanoseconds / TICKS as f64
}

/// The figures of a case, for each call those of the Rust and of the Rattle.
type Figures = [[f64; 2]; 2];

fn median(numbers: &mut [f64]) -> f64 {
    numbers.sort_by(f64::total_cmp);
    numbers[numbers.len() / 2]
}

/// The times of a case, for each call those of the Rust and of the Rattle.
type Samples = [[Vec<f64>; 2]; 2];

/// Times of each case in this process.
fn samples(cases: &[Case], rounds: usize) -> Vec<Samples> {
    let tables = SIDES.map(side);
    let mut lists: Vec<Samples> = cases.iter().map(|_| Default::default()).collect();
    for _ in 0..rounds {
        for (case, lists) in cases.iter().zip(&mut lists) {
            let mut state = case.start.clone();
            for (call, lists) in CALLS.iter().zip(lists) {
                for (table, list) in tables.iter().zip(lists) {
                    list.push(time(table, call, case, &mut state));
                }
            }
        }
    }
    lists
}

/// A line for each list of times, in the order of the cases.
fn print_samples(rounds: usize) {
    for list in samples(&cases(), rounds).iter().flatten().flatten() {
        let times: Vec<String> = list.iter().map(f64::to_string).collect();
        println!("{}", times.join(" "));
    }
}

/// The median and the least of the times of each case, over all processes.
fn times(cases: &[Case], rounds: usize) -> Vec<(Figures, Figures)> {
    let mut lists: Vec<Samples> = cases.iter().map(|_| Default::default()).collect();
    for _ in 0..PROCESSES {
        let output = Command::new(env::current_exe().unwrap())
            .args(["samples", &rounds.to_string()])
            .output()
            .expect("this program runs");
        assert!(output.status.success(), "a process failed");
        let text = String::from_utf8(output.stdout).expect("numbers");
        let mut lines = text.lines();
        for list in lists.iter_mut().flatten().flatten() {
            let line = lines.next().expect("a line for each list");
            list.extend(line.split(' ').map(|time| time.parse::<f64>().unwrap()));
        }
    }
    let both = |mut lists: Samples| {
        let medians = lists
            .each_mut()
            .map(|list| list.each_mut().map(|list| median(list)));
        // Sorted by now.
        (medians, lists.map(|list| list.map(|list| list[0])))
    };
    lists.into_iter().map(both).collect()
}

/// What callgrind counts over some rounds.
fn collected(side: &str, call: &str, name: &str, rounds: u32) -> f64 {
    let output = Command::new("valgrind")
        .args(["--tool=callgrind", "--callgrind-out-file=/dev/null"])
        .arg(env::current_exe().unwrap())
        .args(["rounds", side, call, name, &rounds.to_string()])
        .output()
        .expect("valgrind is installed");
    let text = String::from_utf8_lossy(&output.stderr);
    let found = text
        .lines()
        .find_map(|line| line.split_once("Collected : "));
    match (output.status.success(), found) {
        (true, Some((_, count))) => count.trim().parse().unwrap(),
        _ => panic!("callgrind counts nothing:\n{text}"),
    }
}

/// Instructions a tick of each case. Counts do not depend on the load, so both sides are counted at once.
fn instructions(cases: &[Case]) -> Vec<Figures> {
    let count = |side: &str, call: &str, case: &Case| {
        let [one, two] = [1, 2].map(|rounds| collected(side, call, &case.name, rounds));
        (two - one) / TICKS as f64
    };
    let of_side = |side| -> Vec<[f64; 2]> {
        let of_case = |case| CALLS.map(|call| count(side, call, case));
        cases.iter().map(of_case).collect()
    };
    let [rust, rattle] = std::thread::scope(|scope| {
        SIDES
            .map(|side| scope.spawn(move || of_side(side)))
            .map(|thread| thread.join().unwrap())
    });
    let by_call =
        |(rust, rattle): (&[f64; 2], &[f64; 2])| [0, 1].map(|call| [rust[call], rattle[call]]);
    rust.iter().zip(&rattle).map(by_call).collect()
}

// ------------------------------------------------------------------------------------------------------------------------------- tables

fn whole(x: f64) -> String {
    format!("{x:.0}")
}

fn ratio(a: f64, b: f64) -> String {
    format!("{:.2}", a / b)
}

fn row(cells: &[String]) {
    println!("| {} |", cells.join(" | "));
}

fn head(cells: &str) {
    println!("| {cells} |");
    println!("|---|{}", "---:|".repeat(cells.matches('|').count()));
}

/// How much the largest is over the least.
fn spread(numbers: &[f64]) -> String {
    let most = numbers.iter().copied().fold(0.0, f64::max);
    let least = numbers.iter().copied().fold(f64::MAX, f64::min);
    format!("{:.0} %", 100.0 * (most / least - 1.0))
}

/// What the Rattle takes for a joint in chains of 4 to 200, and what each joint more adds between these lengths. A line through the lengths 4 and 200 has a
/// part for the tick.
fn flatness(cases: &[Case], figures: &[Figures]) {
    head(
        "call, kind | 4 | 8 | 16 | 32 | 200 | spread | 4 to 8 | 8 to 16 | 16 to 32 | 32 to 200 | spread | for the tick",
    );
    let of = |name: String| figures[cases.iter().position(|case| case.name == name).unwrap()];
    for (call, name) in CALLS.iter().enumerate() {
        for kind in KINDS {
            let each = LENGTHS.map(|n| (n as f64, of(format!("{kind} {n}"))[call][1]));
            let slope = |i: usize, j: usize| (each[j].1 - each[i].1) / (each[j].0 - each[i].0);
            let joint = each.map(|(n, cost)| cost / n);
            let more = [0, 1, 2, 3].map(|i| slope(i, i + 1));
            let mut cells = vec![format!("{name}, {kind}")];
            cells.extend(joint.map(whole));
            cells.push(spread(&joint));
            cells.extend(more.map(whole));
            cells.push(spread(&more));
            cells.push(whole(each[0].1 - each[0].0 * slope(0, 4)));
            row(&cells);
        }
    }
}

fn print_times(rounds: usize) {
    let cases = cases();
    cases.iter().for_each(assert_sensible);
    let times = times(&cases, rounds);
    for (call, name) in CALLS.iter().enumerate() {
        println!("Nanoseconds a tick by `{name}`, over {rounds} rounds in each of {PROCESSES} processes:\n");
        head("card | Rust, median | Rattle, median | ratio | Rust, least | Rattle, least | ratio | Rattle a joint, median");
        for (case, (medians, least)) in cases.iter().zip(&times) {
            let mut cells = vec![case.name.clone()];
            for [rust, rattle] in [medians[call], least[call]] {
                cells.extend([whole(rust), whole(rattle), ratio(rattle, rust)]);
            }
            cells.push(whole(medians[call][1] / case.card.joints.len() as f64));
            row(&cells);
        }
        println!();
    }
    println!("Nanoseconds that the Rattle takes for a joint, by the least times:\n");
    let least: Vec<_> = times.iter().map(|(_, least)| *least).collect();
    flatness(&cases, &least);
}

fn print_instructions() {
    let cases = cases();
    let figures = instructions(&cases);
    println!("Instructions a tick:\n");
    head("card | Rust, tick | Rattle, tick | ratio | Rust, run | Rattle, run | ratio | Rattle a joint, run");
    for (case, figures) in cases.iter().zip(&figures) {
        let mut cells = vec![case.name.clone()];
        for [rust, rattle] in figures {
            cells.extend([whole(*rust), whole(*rattle), ratio(*rattle, *rust)]);
        }
        cells.push(whole(figures[1][1] / case.card.joints.len() as f64));
        row(&cells);
    }
    println!("\nInstructions that the Rattle takes for a joint:\n");
    flatness(&cases, &figures);
}

/// What the mixed card has, and how often its limits act in a round: a hinge's third total and a ball's second and third are those of limits alone.
fn print_mixed() {
    let Case {
        card, bytes, start, ..
    } = case(MIXED);
    let (bodies, joints) = (card.bodies.len(), card.joints.len());
    assert_eq!((bodies, joints), (32, 32));
    let count = |has: fn(&Joint) -> bool| card.joints.iter().filter(|joint| has(joint)).count();
    let motors = count(|joint| joint.motor != 0);
    let limits = count(|joint| joint.limit1) + count(|joint| joint.limit2);
    let mut state = start;
    let mut acts = [0; 2];
    for _ in 0..TICKS {
        assert_eq!(table::tick(&bytes, &mut state), 0);
        let totals = state[BODY_NUMBERS * bodies..].chunks(JOINT_NUMBERS);
        for (joint, totals) in card.joints.iter().zip(totals) {
            let used = |place: usize| (totals[3 * place..3 * place + 3] != [0.0; 3]) as u32;
            match joint.kind {
                HINGE => acts[0] += used(2),
                BALL => acts[1] += used(1) + used(2),
                _ => {}
            }
        }
    }
    let [hinges, balls] = acts;
    assert!(motors > 0 && limits > 0 && hinges > 0 && balls > 0);
    println!(
        "The mixed card has {bodies} bodies, {joints} joints, {motors} motors and {limits} limits. In a round the limits of its hinges act {hinges} times, \
         those of its balls {balls} times."
    );
}

fn main() {
    let words: Vec<String> = env::args().skip(1).collect();
    let words: Vec<&str> = words.iter().map(String::as_str).collect();
    match words[..] {
        ["time"] => print_times(9),
        ["time", rounds] => print_times(rounds.parse().expect("a number of rounds")),
        ["samples", rounds] => print_samples(rounds.parse().expect("a number of rounds")),
        ["instructions"] => print_instructions(),
        ["mixed"] => print_mixed(),
        ["rounds", name, call, card, rounds] => {
            let case = case(card);
            let table = side(name);
            let mut state = case.start.clone();
            for _ in 0..rounds.parse().expect("a number of rounds") {
                round(&table, call, &case, &mut state);
            }
        }
        _ => panic!("bench time [ROUNDS] | samples ROUNDS | instructions | mixed | rounds SIDE CALL CARD ROUNDS"),
    }
}
