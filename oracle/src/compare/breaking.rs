//! Document 02, point 11: joints that break.

use super::tables::{Call, Tables};
use super::{number_bytes, Difference, Hits};
use crate::card::{
    Body, Card, Joint, BALL, BODY_NUMBERS, BROKEN, EDITION_2, EDITION_3, JOINT_NUMBERS,
};
use crate::generate::{self, Random};
use crate::math;
use crate::table;

/// The ticks in which a load is looked for, and those in which a joint may break under it.
const TICKS: u32 = 20;

/// The numbers of a state's joints.
fn joints<'a>(card: &Card, state: &'a [f32]) -> impl Iterator<Item = &'a [f32]> {
    state[BODY_NUMBERS * card.bodies.len()..].chunks(JOINT_NUMBERS)
}

/// How many joints of a state are broken.
pub(super) fn broken(card: &Card, state: &[f32]) -> usize {
    joints(card, state)
        .filter(|joint| joint[BROKEN] == 1.0)
        .count()
}

/// The state with every joint whole.
fn mended(card: &Card, state: &[f32]) -> Vec<f32> {
    let mut state = state.to_vec();
    for joint in state[BODY_NUMBERS * card.bodies.len()..].chunks_mut(JOINT_NUMBERS) {
        joint[BROKEN] = 0.0;
    }
    state
}

/// The state after a run from the start state, or before it where it is refused.
fn run_of(card: &Card, ticks: u32) -> Vec<f32> {
    let mut state = table::start_state(card);
    table::run(&card.encode(), &mut state, ticks);
    state
}

/// The most that a joint bears in a run without a break.
fn most_borne(card: &Card, joint: usize) -> f32 {
    let mut state = table::start_state(card);
    let dt = card.dt();
    let mut most = 0f32;
    for _ in 0..TICKS {
        if table::step(card, &mut state).is_err() {
            break;
        }
        let numbers = joints(card, &state).nth(joint).unwrap();
        let total = numbers[..3].try_into().unwrap();
        most = most.max(math::length(total) / (dt * dt));
    }
    most
}

/// Which joints a tick of a card with loads broke, and which it passed over.
pub(super) fn note_breaks(card: &Card, before: &[f32], after: &[f32], hits: &mut Hits) {
    if card.joints.iter().all(|joint| joint.breaking_load == 0.0) {
        return;
    }
    let [before, after] = [before, after].map(|state| broken(card, state));
    let all = card.joints.len();
    hits.look(
        "tick that breaks one joint of several",
        after == before + 1 && all > 1,
    );
    hits.look(
        "tick that breaks several joints at once",
        after > before + 1,
    );
    hits.look(
        "tick with a broken joint and a whole one",
        before > 0 && before < all,
    );
    hits.look("tick with all joints broken", before == all && all > 1);
    hits.look("tick with loads that breaks none", after == before);
}

/// A state whose joints' last numbers are neither 0 nor 1, and what a tick answers.
fn note_bad_marks(card: &Card, state: &[f32], number: u32, hits: &mut Hits) {
    let marks: Vec<u32> = joints(card, state)
        .map(|joint| joint[BROKEN].to_bits())
        .collect();
    for (name, mark) in [
        ("-0", -0.0),
        ("2", 2.0),
        ("-1", -1.0),
        ("the least above 0", f32::from_bits(1)),
        ("next below 1", 1f32.next_down()),
        ("next above 1", 1f32.next_up()),
    ] {
        let there = marks.contains(&mark.to_bits());
        let class = format!("state: a joint marked {name}: 21");
        hits.look(class, number == 21 && there);
        hits.look("state: 12 before 21", number == 12 && there);
    }
    for (name, so) in [
        ("NaN", f32::is_nan as fn(f32) -> bool),
        ("infinity", f32::is_infinite),
    ] {
        let there = marks.iter().any(|bits| so(f32::from_bits(*bits)));
        let class = format!("state: a joint marked {name}: 12");
        hits.look(class, number == 12 && there);
    }
    let stopped = number == 21 && table::step(card, &mut mended(card, state)) == Err(13);
    hits.look("state: 21 before 13", stopped);
}

/// A tick of a state in which joints are broken, and what they would have done.
fn note_skipped(card: &Card, state: &[f32], number: u32, hits: &mut Hits) {
    let count = broken(card, state);
    let done = number == 0 && count > 0;
    hits.look(
        "state: all joints broken, and accepted",
        done && count == card.joints.len(),
    );
    hits.look(
        format!("state: a broken joint in edition {}", card.edition),
        done,
    );
    let warm = card.joints.iter().zip(joints(card, state)).any(|(j, n)| {
        let pushed = |place: usize| n[3 * place..3 * place + 3].iter().any(|x| *x != 0.0);
        n[BROKEN] == 1.0 && j.motor != 0 && j.motor_total().is_some_and(pushed)
    });
    hits.look(
        "state: a broken joint's motor that would warm up",
        done && warm && card.warm_coefficient != 0.0,
    );
    let stops = done && table::step(card, &mut mended(card, state)) == Err(13);
    hits.look("state: a tick done, which a broken joint would stop", stops);
}

/// A state that a tick was asked of, with the card's own bytes.
pub(super) fn note_marks(card: &Card, state: &[f32], number: u32, hits: &mut Hits) {
    let asked = [0, 12, 21, 13].contains(&number);
    if asked && state.len() == card.state_length() && !card.joints.is_empty() {
        note_bad_marks(card, state, number, hits);
        note_skipped(card, state, number, hits);
    }
}

impl Tables {
    /// A linkage with one joint whose load is the most that the joint bears in a run, the f32 below and above it, and loads that nothing reaches.
    pub(super) fn breaking(
        &self,
        random: &mut Random,
        hits: &mut Hits,
    ) -> Result<u32, Box<Difference>> {
        let mut card = match random.one_in(3) {
            true => generate::linkage(random),
            false => generate::pair(random),
        };
        card.edition = EDITION_3.number;
        if card.joints.is_empty() {
            return Ok(0);
        }
        let joint = random.below(card.joints.len());
        let most = most_borne(&card, joint);
        if !(most.is_normal() && most < f32::MAX) {
            return Ok(0);
        }
        let mut ticks = 0;
        for (name, load) in [
            ("just below", most.next_down()),
            ("at", most),
            ("just above", most.next_up()),
            ("of 0 and not", 0.0),
            ("of -0 and not", -0.0),
            ("of the largest f32 and not", f32::MAX),
        ] {
            card.joints[joint].breaking_load = load;
            let ran = self.run(&card, TICKS, hits)?;
            let breaks = joints(&card, &run_of(&card, ran.done)).nth(joint).unwrap()[BROKEN];
            let expected = load != 0.0 && load < most;
            assert_eq!(breaks == 1.0, expected, "a joint breaks above its load");
            hits.hit(format!("load {name} the most that a joint bears"));
            ticks += ran.done;
        }
        ticks += self.twins(random, card, hits)?;
        Ok(ticks)
    }

    /// A card of edition 3 whose loads are all zero, and the card of edition 2 with the same numbers.
    fn twins(
        &self,
        random: &mut Random,
        mut card: Card,
        hits: &mut Hits,
    ) -> Result<u32, Box<Difference>> {
        for joint in &mut card.joints {
            joint.breaking_load = random.pick(&[0.0, -0.0]);
        }
        let twin = Card {
            edition: EDITION_2.number,
            ..card.clone()
        };
        let [ran, other] = [&card, &twin].map(|card| self.run(card, TICKS, hits));
        let (ran, other) = (ran?, other?);
        let [state, same] = [&card, &twin].map(|card| number_bytes(&run_of(card, ran.done)));
        assert!(ran == other && state == same, "twins tick alike");
        hits.look("run of a card without loads as its twin", ran.number == 0);
        Ok(2 * ran.done)
    }

    /// A push that is finite, but whose length is not: it breaks a joint of the largest load there is.
    pub(super) fn infinite_push(&self, hits: &mut Hits) -> Result<u64, Box<Difference>> {
        let mut card = Card {
            edition: EDITION_3.number,
            rate: 64,
            bodies: vec![
                Body {
                    inv_mass: 2f32.powi(-20),
                    ..Body::UNIT
                },
                Body::ANCHORED,
            ],
            joints: vec![Joint::plain(BALL, 0, 1)],
            ..Card::default()
        };
        card.joints[0].breaking_load = f32::MAX;
        let mut state = table::start_state(&card);
        state[7] = 2f32.powi(66);
        let tick = self.both(Call::Tick, &card.encode(), &state)?;
        let breaks = tick.number == 0 && broken(&card, &tick.state) == 1;
        hits.look("load of the largest f32 below an infinite push", breaks);
        self.both(Call::Run(3), &card.encode(), &state)?;
        Ok(4)
    }
}

#[cfg(test)]
mod tests {
    use super::super::{Table, ORACLE};
    use super::*;
    use crate::card;

    fn found(rattle: Table) -> String {
        let tables = Tables {
            oracle: ORACLE,
            rattle,
        };
        let hits = &mut Hits::default();
        let found = tables
            .runs(1, 200, hits)
            .and_then(|_| tables.states(1, 1000, hits));
        found.expect_err("it is wrong").text
    }

    /// The state after a tick with other marks: of the card, and of a joint's numbers before and after.
    fn marked(card: &[u8], state: &mut [f32], mark: fn(&Joint, f32, &[f32], &[f32]) -> f32) -> u32 {
        let before = state.to_vec();
        let number = table::tick(card, state);
        if number == 0 {
            let card = card::check(card).unwrap();
            let after = state[BODY_NUMBERS * card.bodies.len()..].chunks_mut(JOINT_NUMBERS);
            let pairs = card.joints.iter().zip(joints(&card, &before)).zip(after);
            for ((joint, before), after) in pairs {
                after[BROKEN] = mark(joint, card.dt(), before, after);
            }
        }
        number
    }

    #[test]
    fn wrong_breaks_are_found() {
        // A broken joint heals.
        found(Table {
            tick: |card, state| {
                marked(card, state, |_, _, before, after| {
                    after[BROKEN] - before[BROKEN]
                })
            },
            ..ORACLE
        });
        // Breaks at equality.
        found(Table {
            tick: |card, state| {
                marked(card, state, |joint, dt, _, after| {
                    let borne = math::length(after[..3].try_into().unwrap()) / (dt * dt);
                    let reached = borne == joint.breaking_load && borne != 0.0;
                    after[BROKEN].max(reached as u32 as f32)
                })
            },
            ..ORACLE
        });
        // A load of zero breaks.
        found(Table {
            tick: |card, state| {
                marked(card, state, |joint, _, _, after| {
                    let pushed = after[..3].iter().any(|x| *x != 0.0);
                    let breaks = joint.breaking_load == 0.0 && pushed;
                    after[BROKEN].max(breaks as u32 as f32)
                })
            },
            ..ORACLE
        });
        // Doesn't look at the marks.
        let text = found(Table {
            tick: |card, state| match table::tick(card, state) {
                21 => 0,
                number => number,
            },
            ..ORACLE
        });
        assert!(text.contains("oracle: 21, rattle: 0"), "{text}");
    }
}
