//! example CARD: the poses of a card's bodies after one tick and after 99 more, or as many as are not refused, as the program writes them.
//! The status is 1 where the card or a tick is refused, 2 where the card can't be read or the poses can't be written.

use linkage::{Body, Card, Refusal, State};
use std::error::Error;
use std::io::{self, Write};
use std::process::ExitCode;

fn write_poses(
    out: &mut impl Write,
    tick: u32,
    bodies: impl Iterator<Item = Body>,
) -> io::Result<()> {
    for (n, body) in bodies.enumerate() {
        write!(out, "{tick} {n}")?;
        for number in body.position.iter().chain(&body.rotation) {
            write!(out, " {:08x}", number.to_bits())?;
        }
        writeln!(out)?;
    }
    Ok(())
}

fn run_card(out: &mut impl Write, card: &[u8]) -> Result<(), Box<dyn Error>> {
    let card = Card::new(card)?;
    let mut numbers = vec![0.0; card.state_numbers()];
    let mut state = State::start(card, &mut numbers)?;
    state.tick()?;
    write_poses(out, 1, state.bodies())?;
    let Err(refused) = state.run(99) else {
        write_poses(out, 100, state.bodies())?;
        return Ok(());
    };
    // None of the 99 is in the state: make those before the refused one.
    if refused.done > 0 {
        state.run(refused.done)?;
        write_poses(out, 1 + refused.done, state.bodies())?;
    }
    Err(refused.refusal.into())
}

/// Whether the card and all ticks were accepted.
fn run(out: &mut impl Write) -> Result<bool, Box<dyn Error>> {
    let path = std::env::args_os().nth(1).ok_or("usage: example CARD")?;
    let answer = run_card(out, &std::fs::read(path)?);
    let accepted = answer.is_ok();
    if let Err(error) = answer {
        let refusal = error.downcast::<Refusal>()?;
        writeln!(out, "refused {}", refusal.number())?;
        eprintln!("example: {refusal}");
    }
    out.flush()?;
    Ok(accepted)
}

fn main() -> ExitCode {
    match run(&mut io::stdout().lock()) {
        Ok(true) => ExitCode::SUCCESS,
        Ok(false) => ExitCode::from(1),
        Err(error) => {
            eprintln!("example: {error}");
            ExitCode::from(2)
        }
    }
}
