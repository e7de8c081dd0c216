//! Runs and states: both tables' sizes, start, tick and run on the same bytes and numbers.

use super::breaking::{note_breaks, note_marks};
use super::{in_hex, number_bytes, shrink, Difference, Hits, Table};
use crate::above_one::{self, AboveOne};
use crate::card::{
    self, Card, Edition, Joint, BODY_NUMBERS, EDITIONS, EDITION_1, EDITION_2, JOINT_NUMBERS, KINDS,
};
use crate::generate::{self, Random};
use crate::large;
use crate::math;
use crate::table::{self, Ran};
use std::f32::consts::FRAC_PI_2;

/// A number that no start state has, to see what is written.
pub(super) const MARK: f32 = -12345.678;

/// How many linkages of over 32 bodies are run.
const LARGE_RUNS: u64 = 40;

#[derive(Clone, Copy, Debug)]
pub(super) enum Call {
    Check,
    Sizes,
    Start,
    Tick,
    Run(u32),
}

/// The number that a call answers, the counts that it writes, and the state after it.
pub(super) struct Answer {
    pub(super) number: u32,
    pub(super) counts: Vec<u32>,
    pub(super) state: Vec<f32>,
}

impl Answer {
    /// Bit for bit: a state that is left as it was may have any NaN.
    pub(super) fn same(&self, other: &Answer) -> bool {
        let bits = |answer: &Answer| number_bytes(&answer.state);
        self.number == other.number && self.counts == other.counts && bits(self) == bits(other)
    }

    /// The number and the counts.
    pub(super) fn words(&self) -> String {
        let counts = self.counts.iter().map(|count| format!(" {count}"));
        format!("{}{}", self.number, counts.collect::<String>())
    }
}

/// The answer of a call on a state, which it may write.
pub(super) fn answer(table: &Table, call: Call, card: &[u8], state: &mut [f32]) -> Answer {
    let (number, counts) = match call {
        Call::Check => ((table.check)(card), vec![]),
        Call::Sizes => {
            let sizes = (table.sizes)(card);
            let counts = vec![sizes.bodies, sizes.joints, sizes.numbers];
            (sizes.number, counts)
        }
        Call::Start => ((table.start)(card, state), vec![]),
        Call::Tick => ((table.tick)(card, state), vec![]),
        Call::Run(ticks) => {
            let ran = (table.run)(card, state, ticks);
            (ran.number, vec![ran.done])
        }
    };
    Answer {
        number,
        counts,
        state: state.to_vec(),
    }
}

pub struct Tables {
    pub oracle: Table,
    pub rattle: Table,
}

impl Tables {
    fn answers(&self, call: Call, card: &[u8], state: &[f32]) -> [Answer; 2] {
        [&self.oracle, &self.rattle].map(|table| answer(table, call, card, &mut state.to_vec()))
    }

    pub(super) fn differs(&self, call: Call, card: &[u8], state: &[f32]) -> bool {
        let [oracle, rattle] = self.answers(call, card, state);
        !oracle.same(&rattle)
    }

    /// The oracle's answer, or the difference.
    pub(super) fn both(
        &self,
        call: Call,
        card: &[u8],
        state: &[f32],
    ) -> Result<Answer, Box<Difference>> {
        let [oracle, rattle] = self.answers(call, card, state);
        match oracle.same(&rattle) {
            true => Ok(oracle),
            false => Err(Box::new(self.difference(call, card, state))),
        }
    }

    pub(super) fn difference(&self, call: Call, bytes: &[u8], state: &[f32]) -> Difference {
        let (call, bytes, state) = self.smallest(call, bytes.to_vec(), state.to_vec());
        let [oracle, rattle] = self.answers(call, &bytes, &state);
        let card = match card::check(&bytes) {
            Ok(card) => format!("{card:#?}"),
            Err(refusal) => format!("refused {refusal}"),
        };
        let text = format!(
            "{call:?} on a card of {} bytes and a state of {} numbers\n  oracle: {}, rattle: {}\n  before: {}\n  oracle: {}\n  rattle: {}\n{card}\n",
            bytes.len(),
            state.len(),
            oracle.words(),
            rattle.words(),
            in_hex(&state),
            in_hex(&oracle.state),
            in_hex(&rattle.state),
        );
        Difference {
            files: vec![
                ("table.card".into(), bytes),
                ("table.state".into(), number_bytes(&state)),
                ("table.txt".into(), text.clone().into_bytes()),
            ],
            text,
        }
    }

    fn smallest(
        &self,
        call: Call,
        bytes: Vec<u8>,
        mut state: Vec<f32>,
    ) -> (Call, Vec<u8>, Vec<f32>) {
        // A run that differs in its first tick is that tick, and one that differs with fewer ticks is of those.
        if let Call::Run(ticks) = call {
            let fewer = (0..ticks).map(Call::Run);
            let mut calls = [Call::Tick].into_iter().chain(fewer);
            if let Some(call) = calls.find(|call| self.differs(*call, &bytes, &state)) {
                return self.smallest(call, bytes, state);
            }
        }
        let Ok(card) = card::check(&bytes) else {
            let bytes = shrink::bytes(bytes, |bytes| self.differs(call, bytes, &state));
            return (call, bytes, state);
        };
        // From the start state where that differs too.
        let start = table::start_state(&card);
        if self.differs(call, &bytes, &start) {
            state = start;
        }
        let (card, state) = shrink::card_and_state(card, state, |card, state| {
            let bytes = card.encode();
            card::check(&bytes).is_ok() && self.differs(call, &bytes, state)
        });
        (call, card.encode(), state)
    }

    // ------------------------------------------------------------------------------------------------------------------------------- runs

    /// Ticks from the start state one by one, and the same ticks by one run.
    pub(super) fn run(
        &self,
        card: &Card,
        ticks: u32,
        hits: &mut Hits,
    ) -> Result<Ran, Box<Difference>> {
        let bytes = card.encode();
        let sizes = self.both(Call::Sizes, &bytes, &[])?;
        assert_eq!(sizes.number, 0, "a run begins with a card that is accepted");
        let length = sizes.counts[2] as usize;
        let start = self.both(Call::Start, &bytes, &vec![MARK; length])?.state;
        let mut state = start.clone();
        let (mut number, mut done) = (0, 0);
        while number == 0 && done < ticks {
            let tick = self.both(Call::Tick, &bytes, &state)?;
            number = tick.number;
            if number == 0 {
                note_breaks(card, &state, &tick.state, hits);
                state = tick.state;
                done += 1;
                note_state(card, &state, hits);
            }
        }
        hits.look("run refused in its first tick", number == 13 && done == 0);
        hits.look("run refused in a later tick", number == 13 && done > 0);
        let run = self.both(Call::Run(ticks), &bytes, &start)?;
        let by_ticks = Answer {
            number,
            counts: vec![done],
            state: match number {
                0 => state,
                _ => start.clone(),
            },
        };
        assert!(run.same(&by_ticks), "a run is its ticks, or nothing");
        self.both(Call::Run(0), &bytes, &start)?;
        if number != 0 {
            self.both(Call::Run(done), &bytes, &start)?;
            self.both(Call::Run(done + 1), &bytes, &start)?;
        }
        Ok(Ran { number, done })
    }

    /// A run from a state in which an arc sine's argument is above 1 in size.
    fn right_angle(&self, random: &mut Random, hits: &mut Hits) -> Result<u32, Box<Difference>> {
        let (card, state) = generate::right_angle(random);
        let bytes = card.encode();
        let (tick, above) = above_one::of(|| self.both(Call::Tick, &bytes, &state));
        let tick = tick?;
        if tick.number == 0 {
            note_above_one(&card, &tick.state, &above, hits);
        }
        Ok(self.both(Call::Run(20), &bytes, &state)?.counts[0])
    }

    /// A hinge and a ball that rest on a stop at a right angle, and at the f32 next below it.
    fn held(&self, hits: &mut Hits) -> Result<u64, Box<Difference>> {
        let mut ticks = 0;
        for kind in [card::HINGE, card::BALL] {
            for stop in [FRAC_PI_2, FRAC_PI_2.next_down()] {
                let card = generate::held(kind, stop);
                let (ran, above) = above_one::of(|| self.run(&card, 2000, hits));
                let done = ran?.done;
                let name = KINDS[kind as usize];
                let class = format!("{name} held at a quarter turn for 2,000 ticks");
                hits.look(class, done == 2000 && above.all > 0);
                ticks += u64::from(done);
            }
        }
        Ok(ticks)
    }

    /// Linkages over hundreds of ticks, and other cards over some.
    pub fn runs(&self, seed: u64, count: u64, hits: &mut Hits) -> Result<u64, Box<Difference>> {
        let mut ticks = 0;
        for case in 0..count {
            let random = &mut Random::of_case(seed, case);
            let (card, most) = match random.below(20) {
                4 => {
                    ticks += u64::from(self.right_angle(random, hits)?);
                    continue;
                }
                5 => {
                    ticks += u64::from(self.breaking(random, hits)?);
                    continue;
                }
                0 => (generate::linkage(random), 300),
                1 => (generate::coincident(random), 20),
                2 | 3 => (generate::any_card(random), 5),
                _ => (generate::pair(random), 20),
            };
            let card = generate::with_loads(random, card);
            let done = self.run(&card, most, hits)?.done;
            let bodies = card.bodies.len();
            let closed = card.joints.len() >= bodies && bodies > 2;
            hits.look("run of 300 ticks", done >= 300);
            hits.look("run of 300 ticks of a closed loop", done >= 300 && closed);
            hits.look("run of 300 ticks of 32 bodies", done >= 300 && bodies == 32);
            ticks += u64::from(done);
        }
        Ok(ticks + self.held(hits)? + self.infinite_push(hits)? + self.large(seed, hits)?)
    }

    /// Linkages of up to 200 bodies and joints, at rates of up to 4,000.
    fn large(&self, seed: u64, hits: &mut Hits) -> Result<u64, Box<Difference>> {
        let mut ticks = 0;
        for case in 0..LARGE_RUNS {
            let random = &mut Random::of_case(seed, case);
            let linkage = large::linkage(random);
            let card = generate::with_loads(random, linkage);
            let done = self.run(&card, 100, hits)?.done;
            let counts = [card.bodies.len(), card.joints.len()];
            let fast = card.rate == EDITION_2.fastest;
            hits.look("run of 100 ticks of over 32 bodies", done == 100);
            for most in [[200, 199], [200, 200]] {
                let [bodies, joints] = most;
                let class =
                    format!("run of 100 ticks of {bodies} bodies, {joints} joints, 4,000 a second");
                hits.look(class, done == 100 && fast && counts == most);
            }
            ticks += u64::from(done);
        }
        Ok(ticks)
    }

    // ----------------------------------------------------------------------------------------------------------------------------- states

    /// A tick from a state that no run may have left. Answers its number.
    pub(super) fn tick(
        &self,
        card: &Card,
        bytes: &[u8],
        state: &[f32],
        hits: &mut Hits,
    ) -> Result<u32, Box<Difference>> {
        let tick = self.both(Call::Tick, bytes, state)?;
        let number = tick.number;
        for refusal in [0, 11, 12, 21, 13] {
            hits.look(format!("state: tick answers {refusal}"), refusal == number);
        }
        note_marks(card, state, number, hits);
        hits.look(
            "state with subnormals is accepted",
            number == 0 && state.iter().any(|x| x.is_subnormal()),
        );
        hits.look(
            "state with numbers over 4,096 is accepted",
            number == 0 && state.iter().any(|x| x.abs() > 4096.0),
        );
        let kept = |pattern: fn(&f32) -> bool| number == 12 && tick.state.iter().any(pattern);
        hits.look("state with another quiet NaN is refused", kept(other_quiet));
        hits.look("state with a signalling NaN is refused", kept(signalling));
        if number == 0 {
            note_state(card, &tick.state, hits);
        }
        Ok(number)
    }

    /// Ticks and runs from states that no run may have left, of right and wrong lengths.
    pub fn states(&self, seed: u64, count: u64, hits: &mut Hits) -> Result<u64, Box<Difference>> {
        for case in 0..count {
            let random = &mut Random::of_case(seed, case);
            if random.one_in(10) {
                self.overflowing(random, hits)?;
                continue;
            }
            let card = generate::card(random);
            let state = generate::state(random, &card);
            let mut bytes = card.encode();
            if random.one_in(50) {
                let number = random.pick(&card::REFUSALS);
                generate::damage(random, &mut bytes, number);
            }
            let tick = self.tick(&card, &bytes, &state, hits)?;
            hits.look("state: a card is refused", card::REFUSALS.contains(&tick));
            if tick == 0 {
                note_lengths(&card, &state, hits);
            }
            let none = self.both(Call::Run(0), &bytes, &state)?.number;
            for refusal in [0, 12, 21, 13] {
                let class = format!("state: run of none answers 0, a tick {refusal}");
                hits.look(class, none == 0 && tick == refusal);
            }
            hits.look("state: run of none answers 11", none == 11);
            hits.look(
                "state: run of none, a card is refused",
                none == tick && card::REFUSALS.contains(&none),
            );
            let ticks = 1 + random.below(4) as u32;
            let run = self.both(Call::Run(ticks), &bytes, &state)?;
            for refusal in [0, 11, 12, 21, 13] {
                let class = format!("state: run answers {refusal}");
                hits.look(class, refusal == run.number);
            }
            let later = run.number == 13 && run.counts != [0];
            let free = card.joints.is_empty();
            hits.look("state: run refused in a later tick", later && !free);
            hits.look(
                "state: run without joints refused in a later tick",
                later && free,
            );
            self.both(Call::Sizes, &bytes, &[])?;
            self.both(Call::Start, &bytes, &state)?;
        }
        Ok(count)
    }
}

impl Tables {
    /// Turned inertias that overflow, and nothing else: 13 exactly where a joint of such a body is solved.
    fn overflowing(&self, random: &mut Random, hits: &mut Hits) -> Result<(), Box<Difference>> {
        let (card, state) = generate::overflowing(random);
        let overflows = |i: usize| {
            let body = &card.bodies[i];
            let numbers = &state[BODY_NUMBERS * i + 3..BODY_NUMBERS * i + 7];
            let rotation = numbers.try_into().expect("four numbers");
            !body.anchored && !card::finite(&math::turned_tensor(rotation, body.inv_inertia))
        };
        let mut without = card.clone();
        for body in &mut without.bodies {
            body.inv_inertia = [0.0; 6];
        }
        let still = self.both(Call::Tick, &without.encode(), &state)?;
        let at = |state: &[f32], i: usize| state[BODY_NUMBERS * i..BODY_NUMBERS * i + 3].to_vec();
        let moved = (0..card.bodies.len()).any(|i| at(&still.state, i) != at(&state, i));
        assert!(still.number == 0 && !moved, "the joints ask for nothing");
        let names = |joint: &Joint| [joint.body1 as usize, joint.body2 as usize];
        let solved = |i: usize| card.joints.iter().any(|joint| names(joint).contains(&i));
        let tick = self.both(Call::Tick, &card.encode(), &state)?.number;
        let some = (0..card.bodies.len()).any(|i| overflows(i) && solved(i));
        assert_eq!(tick, if some { 13 } else { 0 }, "an inertia that overflows");
        for joint in &card.joints {
            for (kind, name) in KINDS.iter().enumerate() {
                let of_kind =
                    joint.kind as usize == kind && names(joint).into_iter().any(overflows);
                hits.look(format!("inertia overflows at a {name}: 13"), of_kind);
            }
        }
        let locked = |i: usize| overflows(i) && solved(i) && card.bodies[i].locks != [false; 3];
        let any = (0..card.bodies.len()).any(locked);
        hits.look("inertia of a locked body overflows: 13", any);
        let free = (0..card.bodies.len()).any(overflows) && !some;
        hits.look("inertia of a body in no joint overflows: no 13", free);
        self.both(Call::Run(2), &card.encode(), &state)?;
        Ok(())
    }
}

/// Whether an edition has room for a card.
pub(super) fn fits(card: &Card, edition: &Edition) -> bool {
    let most = card.bodies.len().max(card.joints.len());
    most <= edition.most && card.rate <= edition.fastest
}

/// Joints on moving bodies whose rotation is of another length than 1.
fn note_lengths(card: &Card, state: &[f32], hits: &mut Hits) {
    let stretched = |i: u32| {
        let at = BODY_NUMBERS * i as usize + 3;
        let squares: f32 = state[at..at + 4].iter().map(|x| x * x).sum();
        !card.bodies[i as usize].anchored && !(0.5..2.0).contains(&squares)
    };
    let locked = |i: u32| stretched(i) && card.bodies[i as usize].locks != [false; 3];
    for joint in &card.joints {
        let bodies = [joint.body1, joint.body2];
        for (kind, name) in KINDS.iter().enumerate() {
            let of_kind = joint.kind as usize == kind && bodies.into_iter().any(stretched);
            hits.look(
                format!("tick with a {name} on a stretched rotation"),
                of_kind,
            );
        }
        let class = "tick with a locked body of a stretched rotation";
        hits.look(class, bodies.into_iter().any(locked));
    }
}

/// A NaN that is neither the arithmetic's own nor signalling.
fn other_quiet(x: &f32) -> bool {
    x.is_nan() && !signalling(x) && x.to_bits() << 1 != f32::NAN.to_bits() << 1
}

/// A NaN that any operation would make quiet.
fn signalling(x: &f32) -> bool {
    x.is_nan() && x.to_bits() & 1 << 22 == 0
}

/// Which arc sines above 1 in size a tick of one hinge or ball asked for, and whether its limit was hit. A swing's can't be infinite: its axis is made unit.
fn note_above_one(card: &Card, after: &[f32], above: &AboveOne, hits: &mut Hits) {
    let joint = &card.joints[0];
    let name = KINDS[joint.kind as usize];
    let mut look =
        |what: &str, found| hits.look(format!("tick with a {name}'s sine {what}"), found);
    look("next above 1", above.next > 0);
    look("far above 1", above.far > 0);
    if joint.kind == card::HINGE {
        look("infinite", above.infinite > 0);
    }
    let hit = after[BODY_NUMBERS * card.bodies.len()..]
        .iter()
        .any(|x| *x != 0.0);
    let finite = above.all > above.infinite;
    look("above 1, limit hit", finite && hit);
    look("above 1, limit not hit", finite && !hit);
}

/// Which totals a tick left: limits that were hit, motors that pushed.
fn note_state(card: &Card, state: &[f32], hits: &mut Hits) {
    let totals = &state[BODY_NUMBERS * card.bodies.len()..];
    for (joint, totals) in card.joints.iter().zip(totals.chunks(JOINT_NUMBERS)) {
        let kind = KINDS[joint.kind as usize];
        let used = |place: usize| totals[3 * place..3 * place + 3].iter().any(|x| *x != 0.0);
        for name in KINDS {
            hits.look(format!("tick with a {name}"), name == kind);
        }
        match joint.kind {
            card::HINGE => {
                hits.look("tick with a hinge limit hit", used(2));
                hits.look("tick with a hinge limit not hit", joint.limit1 && !used(2));
            }
            card::BALL => {
                hits.look("tick with a swing limit hit", used(1));
                hits.look("tick with a swing limit not hit", joint.limit1 && !used(1));
                hits.look("tick with a twist limit hit", used(2));
                hits.look("tick with a twist limit not hit", joint.limit2 && !used(2));
            }
            _ => hits.look(format!("tick with a {kind} at rest"), !used(0)),
        }
        if let Some(place) = joint.motor_total() {
            for motor in 1..=3 {
                hits.look(
                    format!("tick with a {kind} motor {motor}"),
                    joint.motor == motor && used(place),
                );
            }
            hits.look(
                format!("tick with a {kind} motor idle"),
                joint.motor != 0 && !used(place),
            );
        }
    }
    for edition in EDITIONS {
        let class = format!("tick of edition {}", edition.number);
        hits.look(class, card.edition == edition.number);
    }
    let large = !fits(card, &EDITION_1);
    hits.look("tick of a card that edition 1 has no room for", large);
    hits.look("tick with a joint", !card.joints.is_empty());
    hits.look(
        "tick with a locked body",
        card.bodies.iter().any(|body| body.locks != [false; 3]),
    );
    hits.look(
        "tick with an anchored body",
        card.bodies.iter().any(|body| body.anchored),
    );
}

#[cfg(test)]
mod tests {
    use super::super::ORACLE;
    use super::*;
    use crate::table::Sizes;

    fn against(rattle: Table) -> Tables {
        Tables {
            oracle: ORACLE,
            rattle,
        }
    }

    #[test]
    fn every_class_comes_up() {
        let tables = against(ORACLE);
        let mut hits = Hits::default();
        tables.cards(1, 2000, &mut hits).unwrap();
        assert_eq!(hits.missed(), [""; 0], "{}", hits.lines());
        let mut hits = Hits::default();
        tables.runs(1, 2000, &mut hits).unwrap();
        assert_eq!(hits.missed(), [""; 0], "{}", hits.lines());
        let mut hits = Hits::default();
        tables.states(1, 4000, &mut hits).unwrap();
        assert_eq!(hits.missed(), [""; 0], "{}", hits.lines());
        let mut hits = Hits::default();
        tables.families(1, 3000, &mut hits).unwrap();
        assert_eq!(hits.missed(), [""; 0], "{}", hits.lines());
        let mut hits = Hits::default();
        tables.lists(1, 2000, &mut hits).unwrap();
        assert_eq!(hits.missed(), [""; 0], "{}", hits.lines());
    }

    fn found(rattle: Table) -> String {
        let tables = against(rattle);
        let hits = &mut Hits::default();
        let found = tables
            .cards(1, 200, hits)
            .and_then(|_| tables.runs(1, 200, hits))
            .and_then(|_| tables.states(1, 1000, hits));
        found.expect_err("it is wrong").text
    }

    #[test]
    fn wrong_tables_are_found() {
        // Refuses each card.
        found(Table {
            check: |_| 1,
            ..ORACLE
        });
        // Takes a rate of 15.
        let text = found(Table {
            check: |card| match (ORACLE.check)(card) {
                4 if card[2] & 15 == 0 && card[3] == 15 << 2 => 0,
                number => number,
            },
            ..ORACLE
        });
        assert!(text.contains("oracle: 4, rattle: 0"), "{text}");
        // Answers 13 before solving.
        found(Table {
            tick: |_, _| 13,
            ..ORACLE
        });
        // Makes the first tick only, and says that it made them all.
        found(Table {
            run: |card, state, ticks| Ran {
                done: ticks,
                ..(ORACLE.run)(card, state, ticks.min(1))
            },
            ..ORACLE
        });
        // Leaves the state of the ticks before the refused one.
        let text = found(Table {
            run: |card, state, ticks| {
                let ran = (ORACLE.run)(card, state, ticks);
                if ran.number != 0 {
                    (ORACLE.run)(card, state, ran.done);
                }
                ran
            },
            ..ORACLE
        });
        assert!(text.starts_with("Run("), "{text}");
        // Counts the refused tick.
        found(Table {
            run: |card, state, ticks| match (ORACLE.run)(card, state, ticks) {
                Ran { number: 13, done } => Ran {
                    number: 13,
                    done: done + 1,
                },
                ran => ran,
            },
            ..ORACLE
        });
        // Looks at a state's numbers though it makes no tick.
        let text = found(Table {
            run: |card, state, ticks| match (ticks, (ORACLE.tick)(card, &mut state.to_vec())) {
                (0, number @ 12) => Ran { number, done: 0 },
                _ => (ORACLE.run)(card, state, ticks),
            },
            ..ORACLE
        });
        assert!(text.starts_with("Run(0)"), "{text}");
        // Gives the counts of a card that is refused.
        found(Table {
            sizes: |card| match ((ORACLE.sizes)(card), card) {
                (sizes @ Sizes { number: 6.., .. }, [1, byte, ..]) => Sizes {
                    bodies: u32::from(byte >> 2),
                    ..sizes
                },
                (sizes, _) => sizes,
            },
            ..ORACLE
        });
        // A still linkage.
        found(Table {
            tick: |card, state| (ORACLE.tick)(card, &mut state.to_vec()),
            ..ORACLE
        });
        // Writes the state though the tick is refused.
        found(Table {
            tick: |card, state| {
                let number = (ORACLE.tick)(card, state);
                if number == 13 {
                    state[0] = 0.5;
                }
                number
            },
            ..ORACLE
        });
        // The last total is off by its lowest bit.
        let text = found(Table {
            tick: |card, state| {
                let number = (ORACLE.tick)(card, state);
                if let (0, Some(last)) = (number, state.last_mut()) {
                    *last = f32::from_bits(last.to_bits() ^ 1);
                }
                number
            },
            ..ORACLE
        });
        assert!(text.contains("a state of 13 numbers"), "{text}");
    }
}
