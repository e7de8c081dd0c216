//! Writes the stored answers that the Rattle test programs replay: `answers DIR`, where DIR holds the crates, writes DIR/NAME/stdin and DIR/NAME/stdout
//! of replay_root, replay_trig and replay_table. A NaN is written as 7fc00000.

use oracle::card::{Body, Card, Joint, BALL, EDITION_3};
use oracle::compare::leaves::{angles, roots};
use oracle::families::FAMILIES;
use oracle::generate::Random;
use oracle::{math, table};
use std::fmt::Write;
use std::io;
use std::path::{Path, PathBuf};
use std::process::ExitCode;

fn bits(x: f32) -> u32 {
    match x.is_nan() {
        true => 0x7fc00000,
        false => x.to_bits(),
    }
}

fn hex(numbers: &[f32]) -> String {
    let words = numbers.iter().map(|x| format!("{:08x}", bits(*x)));
    words.collect::<Vec<_>>().join(" ")
}

struct Answers {
    name: &'static str,
    input: Vec<u8>,
    output: String,
}

/// A number to a line with it and its root, by the machine's own root.
fn root() -> Answers {
    let mut input = Vec::new();
    let mut output = String::new();
    for x in roots() {
        input.extend(x.to_bits().to_be_bytes());
        writeln!(output, "{}", hex(&[x, x.sqrt()])).unwrap();
    }
    Answers {
        name: "replay_root",
        input,
        output,
    }
}

/// y and x to a line with y, x, the sine and the cosine of y, atan2(y, x) and the arc sine of y.
fn trig() -> Answers {
    let mut input = Vec::new();
    let mut output = String::new();
    for [y, x] in angles() {
        input.extend(y.to_bits().to_be_bytes());
        input.extend(x.to_bits().to_be_bytes());
        let line = [
            y,
            x,
            math::sin(y),
            math::cos(y),
            math::atan2(y, x),
            math::asin(y),
        ];
        writeln!(output, "{}", hex(&line)).unwrap();
    }
    Answers {
        name: "replay_trig",
        input,
        output,
    }
}

/// Cards of each family and ticks of each card: `rt try` gives the interpreter 10,000,000 steps for all of them.
const REPLAYED: [(u64, u16); FAMILIES.len()] = [(2, 2), (1, 1), (1, 1), (2, 1), (8, 1), (5, 1)];

/// A polynomial in the numbers' bits, modulo the largest prime below 2^32.
fn sum(state: &[f32]) -> u64 {
    state.iter().fold(0, |sum, x| {
        (sum * 16777619 + u64::from(x.to_bits())) % 4294967291
    })
}

/// A body that hangs on two balls, of which the first breaks in the first tick.
fn breaking() -> Card {
    let loaded = |breaking_load| Joint {
        breaking_load,
        ..Joint::plain(BALL, 0, 1)
    };
    Card {
        edition: EDITION_3.number,
        rate: 64,
        gravity: -8.0,
        bodies: vec![Body::UNIT, Body::ANCHORED],
        joints: vec![loaded(1.0), loaded(f32::MAX)],
        ..Card::default()
    }
}

/// A tick count, a card's length and a card, of a family or the one above, to a line with the number that a run answers, the ticks done and the sum of the state
/// after.
fn table() -> Answers {
    let mut input = Vec::new();
    let mut output = String::new();
    let counts = FAMILIES.iter().zip(REPLAYED);
    let cards = counts.flat_map(|(family, (cards, ticks))| {
        (0..cards).map(move |case| ((family.draw)(&mut Random::of_case(1, case)), ticks))
    });
    for (card, ticks) in cards.chain([(breaking(), 2)]) {
        let bytes = card.encode();
        let mut state = table::start_state(&card);
        let ran = table::run(&bytes, &mut state, ticks.into());
        input.extend(ticks.to_be_bytes());
        input.extend((bytes.len() as u16).to_be_bytes());
        input.extend(bytes);
        writeln!(output, "{} {} {:08x}", ran.number, ran.done, sum(&state)).unwrap();
    }
    Answers {
        name: "replay_table",
        input,
        output,
    }
}

fn write(crates: &Path, answers: &Answers) -> io::Result<()> {
    let folder = crates.join(answers.name);
    std::fs::write(folder.join("stdin"), &answers.input)?;
    std::fs::write(folder.join("stdout"), &answers.output)?;
    println!(
        "{}: {} lines from {} bytes",
        answers.name,
        answers.output.lines().count(),
        answers.input.len()
    );
    Ok(())
}

fn main() -> ExitCode {
    let Some(crates) = std::env::args().nth(1).map(PathBuf::from) else {
        eprintln!("usage: answers DIR");
        return ExitCode::from(2);
    };
    for answers in [root(), trig(), table()] {
        if let Err(error) = write(&crates, &answers) {
            eprintln!("{}: {error}", answers.name);
            return ExitCode::FAILURE;
        }
    }
    ExitCode::SUCCESS
}
