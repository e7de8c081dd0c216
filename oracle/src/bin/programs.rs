//! Compares the program's whole output with the oracle's: `programs [--seed S] [--count N] PROGRAM` runs PROGRAM on N random inputs, on a card of as many bodies
//! as edition 1 has for as many ticks as there can be, on one of as many bodies and joints as editions 2 and 3 have, whole and damaged, and on cards that reach
//! each refusal that can come from a program. It fails at the first input with other lines, which it writes to target/differences, and where a class of inputs
//! that it looks for never came up.

use oracle::card::{self, Body, Card, Edition, Joint, BALL, EDITION_1, EDITION_2, EDITION_3};
use oracle::compare::Hits;
use oracle::generate::{self, Random};
use std::fs::{self, File};
use std::path::{Path, PathBuf};
use std::process::{Command, ExitCode};
use std::{env, io};

/// The ticks of the cards with as many bodies as editions 2 and 3 have.
const LARGE_TICKS: u16 = 1000;

struct Options {
    seed: u64,
    count: u64,
    program: PathBuf,
}

fn options() -> Option<Options> {
    let mut options = Options {
        seed: 1,
        count: 500,
        program: PathBuf::new(),
    };
    let mut words = env::args().skip(1);
    while let Some(word) = words.next() {
        match word.as_str() {
            "--seed" => options.seed = words.next()?.parse().ok()?,
            "--count" => options.count = words.next()?.parse().ok()?,
            _ => options.program = PathBuf::from(word),
        }
    }
    (options.program != PathBuf::new()).then_some(options)
}

fn input(ticks: u16, card: &[u8]) -> Vec<u8> {
    [&ticks.to_be_bytes(), card].concat()
}

/// As many bodies and joints as an edition has: bodies that spin about balls on a frame, each at a speed of its own. Nothing leaves its place but what falls
/// where edition 3 has a load on every second ball that its body's weight is above, so no tick is refused.
fn largest(edition: &Edition, rate: u32) -> Vec<u8> {
    let mut bodies = vec![Body::ANCHORED];
    let mut joints = Vec::new();
    for i in 1..edition.most {
        let position = [i as f32, 0.5 * i as f32, -2.0];
        bodies.push(Body {
            position,
            angular_velocity: [0.25 * i as f32, 1.0, -0.5],
            ..Body::UNIT
        });
        joints.push(Joint {
            anchor1: position,
            breaking_load: (i % 2) as f32,
            ..Joint::plain(BALL, 0, i as u32)
        });
    }
    joints.push(joints[0].clone());
    let card = Card {
        edition: edition.number,
        rate,
        zero: 0,
        gravity: -9.8125,
        warm_coefficient: 0.0,
        bodies,
        joints,
    };
    card.encode()
}

/// Inputs that are no random ones.
fn given(random: &mut Random) -> Vec<Vec<u8>> {
    let mut inputs = vec![input(u16::MAX, &largest(&EDITION_1, 240))];
    for edition in [EDITION_2, EDITION_3] {
        let large = largest(&edition, edition.fastest);
        inputs.push(input(LARGE_TICKS, &large));
        inputs.push(input(1, &[&large[..], &[0; 70000]].concat()));
        for number in card::REFUSALS {
            let mut damaged = large.clone();
            generate::damage(random, &mut damaged, number);
            inputs.push(input(1, &damaged));
        }
    }
    inputs
}

/// Fewer than two bytes, a damaged card, or a card with few ticks.
fn any_input(random: &mut Random) -> Vec<u8> {
    if random.one_in(50) {
        return vec![random.bits() as u8; random.below(2)];
    }
    let ticks = random.below(40) as u16;
    match random.below(3) {
        0 => input(ticks, &generate::damaged_card(random)),
        _ => input(ticks, &generate::card(random).encode()),
    }
}

fn written(program: &Path, input: &Path) -> io::Result<Vec<u8>> {
    let output = Command::new(program).stdin(File::open(input)?).output()?;
    match output.status.success() {
        true => Ok(output.stdout),
        false => Err(io::Error::other(format!("{}", output.status))),
    }
}

/// The number of the refusal in the last line, 0 where there is none.
fn refusal(lines: &str) -> u32 {
    let last = lines.lines().next_back().unwrap_or("");
    last.strip_prefix("refused ")
        .map_or(0, |number| number.parse().expect("a number"))
}

fn count_classes(input: &[u8], lines: &str, hits: &mut Hits) {
    let number = refusal(lines);
    for refused in card::REFUSALS.into_iter().chain([13]) {
        hits.look(format!("refused {refused}"), number == refused);
    }
    hits.look(
        "refused 13 after a tick",
        number == 13 && lines.lines().count() > 1,
    );
    hits.look("ticks done", number == 0 && !lines.is_empty());
    hits.look("no ticks", number == 0 && lines.is_empty());
    hits.look("no count", input.len() < 2);
    let of = |edition: &Edition| input.get(2) == Some(&(edition.number as u8));
    for (edition, ticks) in [
        (EDITION_1, u16::MAX),
        (EDITION_2, LARGE_TICKS),
        (EDITION_3, LARGE_TICKS),
    ] {
        let class = format!(
            "most bodies of edition {} and {ticks} ticks",
            edition.number
        );
        let last = format!("\n{ticks} {} ", edition.most - 1);
        hits.look(class, of(&edition) && lines.contains(&last));
    }
    for edition in [EDITION_2, EDITION_3] {
        let class = format!("a large card of edition {} is refused", edition.number);
        hits.look(class, of(&edition) && input.len() > 43000 && number != 0);
    }
}

/// Whether all inputs give the same lines.
fn compare(options: &Options, folder: &Path, hits: &mut Hits) -> io::Result<bool> {
    let given = given(&mut Random::of_case(options.seed, 0));
    let any = (1..=options.count).map(|case| any_input(&mut Random::of_case(options.seed, case)));
    for (case, input) in given.into_iter().chain(any).enumerate() {
        let path = folder.join("program.input");
        fs::write(&path, &input)?;
        let mut expected = Vec::new();
        oracle::table::program(&input, &mut expected)?;
        if written(&options.program, &path)? != expected {
            println!("DIFFERENCE in input {case}, written to {}", path.display());
            return Ok(false);
        }
        let lines = String::from_utf8(expected).map_err(io::Error::other)?;
        count_classes(&input, &lines, hits);
    }
    Ok(true)
}

fn main() -> ExitCode {
    let Some(options) = options() else {
        eprintln!("usage: programs [--seed S] [--count N] PROGRAM");
        return ExitCode::from(2);
    };
    let folder = Path::new(env!("CARGO_MANIFEST_DIR")).join("target/differences");
    let mut hits = Hits::default();
    let compared = fs::create_dir_all(&folder).and_then(|()| compare(&options, &folder, &mut hits));
    match compared {
        Ok(true) => {}
        Ok(false) => return ExitCode::FAILURE,
        Err(error) => {
            eprintln!("programs: {}: {error}", options.program.display());
            return ExitCode::FAILURE;
        }
    }
    println!(
        "programs: seed {}, all inputs equal, {} of them random",
        options.seed, options.count
    );
    print!("programs: classes\n{}", hits.lines());
    for class in hits.missed() {
        println!("programs: nothing reached `{class}`");
    }
    match hits.missed().is_empty() {
        true => ExitCode::SUCCESS,
        false => ExitCode::FAILURE,
    }
}
