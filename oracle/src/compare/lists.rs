//! Lists of calls on one state, which each side keeps to itself: the card, bytes that are refused, other cards.

use super::breaking::broken;
use super::tables::{answer, Answer, Call, Tables};
use super::{number_bytes, Difference, Hits, Table};
use crate::card::{self, Card, BODY_NUMBERS, BROKEN, EDITION_1, JOINT_NUMBERS};
use crate::families::FAMILIES;
use crate::generate::{self, Places, Random};
use crate::table;

/// What a list does next.
enum Step {
    /// A call that brings the list's own card or other bytes.
    Call(Call, Vec<u8>),
    /// The host puts a number into the state.
    Write(usize, f32),
}

/// Which steps a list has.
#[derive(Clone, Copy, PartialEq)]
enum Sort {
    /// As demand 3 speaks: each call brings the card or bytes that its checks refuse.
    Demand,
    /// Other cards too, and NaNs and joints' marks that the host writes.
    Any,
}

/// A list so far.
struct List {
    /// The bytes of its card.
    own: Vec<u8>,
    /// The oracle's state and the Rattle's.
    states: [Vec<f32>; 2],
    /// Whether a call was refused.
    refused: bool,
}

type Compared = Result<(), Box<Difference>>;

/// Bytes that the card's checks refuse.
fn refused(random: &mut Random, card: &Card) -> Vec<u8> {
    loop {
        let mut bytes = match random.below(4) {
            0 => generate::card(random).encode(),
            1 => {
                let length = random.below(400);
                generate::random_bytes(random, length)
            }
            _ => card.encode(),
        };
        let number = random.pick(&card::REFUSALS);
        generate::damage(random, &mut bytes, number);
        if card::check(&bytes).is_err() {
            return bytes;
        }
    }
}

/// A card of as many bodies and joints, so that a tick of it goes on from the state, or any other.
fn other(random: &mut Random, card: &Card) -> Vec<u8> {
    let mut other = card.clone();
    other.rate = random.rate(EDITION_1.fastest);
    other.gravity = random.pick(&[0.0, 1.0, -9.81]);
    if random.one_in(2) {
        other.bodies.reverse();
        other.joints.reverse();
    }
    let bytes = other.encode();
    match random.one_in(3) || card::check(&bytes).is_err() {
        true => generate::card(random).encode(),
        false => bytes,
    }
}

fn next(random: &mut Random, card: &Card, sort: Sort) -> Step {
    if sort == Sort::Any && random.one_in(20) {
        if random.one_in(2) && !card.joints.is_empty() {
            let joint = random.below(card.joints.len());
            let place = BODY_NUMBERS * card.bodies.len() + JOINT_NUMBERS * joint + BROKEN;
            return Step::Write(place, random.pick(&[1.0, 1.0, 0.0, -0.0, 2.0]));
        }
        let place = random.below(card.state_length());
        return Step::Write(place, random.nan());
    }
    let call = match random.below(16) {
        0 => Call::Start,
        1 => Call::Check,
        2 => Call::Sizes,
        3..=5 => Call::Run(random.below(4) as u32),
        _ => Call::Tick,
    };
    let bytes = match random.below(6) {
        0 | 1 => refused(random, card),
        2 if sort == Sort::Any => other(random, card),
        _ => card.encode(),
    };
    Step::Call(call, bytes)
}

/// A state's numbers of the anchored bodies, as bits.
fn anchored_bits(card: &Card, state: &[f32]) -> Vec<u8> {
    let bodies = card.bodies.iter().zip(state.chunks(BODY_NUMBERS));
    let kept = bodies.filter(|(body, _)| body.anchored);
    kept.flat_map(|(_, numbers)| number_bytes(numbers))
        .collect()
}

impl Tables {
    /// A call by both sides, each on the state that its calls before left.
    fn step(
        &self,
        call: Call,
        bytes: &[u8],
        states: &mut [Vec<f32>; 2],
    ) -> Result<Answer, Box<Difference>> {
        let before = states[0].clone();
        let mut side = |i: usize, table: &Table| answer(table, call, bytes, &mut states[i]);
        let (oracle, rattle) = (side(0, &self.oracle), side(1, &self.rattle));
        if oracle.same(&rattle) {
            return Ok(oracle);
        }
        if self.differs(call, bytes, &before) {
            return Err(Box::new(self.difference(call, bytes, &before)));
        }
        let (oracle, rattle) = (oracle.words(), rattle.words());
        Err(Box::new(Difference {
            text: format!("{call:?} after other calls alone: oracle {oracle}, rattle {rattle}\n"),
            files: vec![
                ("list.card".into(), bytes.to_vec()),
                ("list.state".into(), number_bytes(&before)),
            ],
        }))
    }

    /// A call of a list, and what came up in it.
    fn called(&self, call: Call, bytes: &[u8], list: &mut List, hits: &mut Hits) -> Compared {
        let before = number_bytes(&list.states[0]);
        let number = self.step(call, bytes, &mut list.states)?.number;
        let changed = number_bytes(&list.states[0]) != before;
        assert!(number == 0 || !changed, "a refusal leaves the state");
        let ticked = changed && !matches!(call, Call::Start);
        hits.look("list: a tick after a refusal", ticked && list.refused);
        hits.look("list: a tick of another card", ticked && bytes != list.own);
        let large = Places::of(bytes).is_some_and(|places| places.bodies > EDITION_1.most);
        hits.look("list: a tick of over 32 bodies", ticked && large);
        note_refusal(number, &list.states[0], hits);
        list.refused |= number != 0;
        Ok(())
    }

    /// Answers how many steps it has.
    fn list(
        &self,
        random: &mut Random,
        sort: Sort,
        hits: &mut Hits,
    ) -> Result<u64, Box<Difference>> {
        let card = match random.one_in(20) {
            true => (FAMILIES[random.below(FAMILIES.len())].draw)(random),
            false => generate::card(random),
        };
        let start = table::start_state(&card);
        let anchored = anchored_bits(&card, &start);
        let mut list = List {
            own: card.encode(),
            states: [start.clone(), start],
            refused: false,
        };
        let length = 3 + random.below(18) as u64;
        for _ in 0..length {
            let before = list.states[0].clone();
            let mut started = false;
            match next(random, &card, sort) {
                Step::Write(place, x) => list.states.iter_mut().for_each(|state| state[place] = x),
                Step::Call(call, bytes) => {
                    started = matches!(call, Call::Start);
                    self.called(call, &bytes, &mut list, hits)?;
                }
            }
            if sort == Sort::Demand {
                let now = &list.states[0];
                let kept = anchored_bits(&card, now) == anchored;
                assert!(kept, "anchored bodies never change");
                hits.look("list: an anchored body", !anchored.is_empty());
                note_broken(&card, &before, now, started, hits);
            }
        }
        Ok(length)
    }

    /// Lists as demand 3 speaks of them, and others.
    pub fn lists(&self, seed: u64, count: u64, hits: &mut Hits) -> Result<u64, Box<Difference>> {
        let mut steps = 0;
        for case in 0..count {
            let random = &mut Random::of_case(seed, case);
            let sort = random.pick(&[Sort::Demand, Sort::Any]);
            steps += self.list(random, sort, hits)?;
        }
        Ok(steps)
    }
}

/// In a list as demand 3 speaks of, joints stay broken but for a start.
fn note_broken(card: &Card, before: &[f32], now: &[f32], started: bool, hits: &mut Hits) {
    let whole = |state: &[f32], place: usize| state[place] == 0.0;
    let first = BODY_NUMBERS * card.bodies.len() + BROKEN;
    let healed = (first..now.len())
        .step_by(JOINT_NUMBERS)
        .any(|place| !whole(before, place) && whole(now, place));
    assert!(started || !healed, "a broken joint stays broken");
    let [before_count, count] = [before, now].map(|state| broken(card, state));
    hits.look("list: a joint breaks", count > before_count);
    hits.look("list: a start makes joints whole", healed);
    let ticked = number_bytes(before) != number_bytes(now);
    hits.look(
        "list: a tick with a broken joint",
        ticked && before_count > 0 && !started,
    );
}

fn note_refusal(number: u32, state: &[f32], hits: &mut Hits) {
    for refusal in card::REFUSALS.into_iter().chain([11, 12, 21, 13]) {
        hits.look(format!("list: refused {refusal}"), refusal == number);
    }
    let nan = state.iter().any(|x| x.is_nan());
    hits.look("list: a NaN is left in its place", nan && number != 0);
}

#[cfg(test)]
mod tests {
    use super::super::ORACLE;
    use super::*;
    use std::sync::atomic::{AtomicBool, Ordering};

    fn found(rattle: Table) -> String {
        let tables = Tables {
            oracle: ORACLE,
            rattle,
        };
        let found = tables.lists(1, 300, &mut Hits::default());
        found.expect_err("it is wrong").text
    }

    static REFUSED: AtomicBool = AtomicBool::new(false);

    #[test]
    fn wrong_lists_are_found() {
        // Makes the NaNs of a refused state quiet.
        let text = found(Table {
            tick: |card, state| {
                let number = (ORACLE.tick)(card, state);
                for x in state.iter_mut().filter(|x| x.is_nan()) {
                    *x = f32::from_bits(x.to_bits() | 1 << 22);
                }
                number
            },
            ..ORACLE
        });
        let refused = |n: &u32| text.contains(&format!("oracle: {n}, rattle: {n}\n"));
        assert!((1..=21).any(|n| refused(&n)), "{text}");
        assert!(text.contains("(NaN)"), "{text}");
        // Remembers a refused card: no call by itself is wrong.
        let text = found(Table {
            check: |card| {
                let number = (ORACLE.check)(card);
                let before = REFUSED.swap(number == 2, Ordering::Relaxed);
                if before && number == 0 {
                    13
                } else {
                    number
                }
            },
            ..ORACLE
        });
        assert!(text.contains("after other calls alone"), "{text}");
    }
}
