//! Cards of the families, which are for the compiler's back end.

use super::tables::{Call, Tables};
use super::{Difference, Hits};
use crate::card::Card;
use crate::families::{steps_of_limits, steps_of_spin, FAMILIES, LIMITS, SINE_ENDS};
use crate::generate::{self, Random};
use crate::table;

impl Tables {
    /// As many cards of each family: a run from the start state, and a tick from a state that no run may have left.
    pub fn families(&self, seed: u64, count: u64, hits: &mut Hits) -> Result<u64, Box<Difference>> {
        let mut ticks = 0;
        for case in 0..count {
            let family = &FAMILIES[case as usize % FAMILIES.len()];
            let random = &mut Random::of_case(seed, case);
            let card = (family.draw)(random);
            let ran = self.run(&card, family.ticks, hits)?;
            let held = (family.holds)(&card);
            hits.look(format!("{}: runs", family.name), held && ran.number == 0);
            if family.name == LIMITS.name {
                self.note_limits(&card, hits)?;
            }
            note_spins(&card, ran.done, hits);
            self.tick(&card, &card.encode(), &generate::state(random, &card), hits)?;
            ticks += u64::from(ran.done);
        }
        Ok(ticks)
    }

    /// How far limits are from the computed value, and whether a first tick corrects.
    fn note_limits(&self, card: &Card, hits: &mut Hits) -> Result<(), Box<Difference>> {
        let joints = card.joints.iter();
        let limits: Vec<_> = joints.flat_map(|j| steps_of_limits(card, j)).collect();
        for steps in -2..=2 {
            let class = format!("limit {steps} steps from the computed value");
            hits.look(class, limits.contains(&Some(steps)));
        }
        let start = table::start_state(card);
        let after = self.both(Call::Tick, &card.encode(), &start)?.state;
        let moved = after.iter().zip(&start).any(|(a, b)| a != b);
        hits.look("limits: a first tick that moves nothing", !moved);
        hits.look("limits: a first tick that corrects", moved);
        Ok(())
    }
}

/// How far bodies' half angles are from the sine's ends, and whether the tick is done.
fn note_spins(card: &Card, done: u32, hits: &mut Hits) {
    for end in SINE_ENDS {
        let steps = card
            .bodies
            .iter()
            .map(|body| steps_of_spin(card, body, end));
        let most = steps.flatten().max();
        for steps in -2..=2 {
            let class = format!("half angle {steps} steps from {end}");
            hits.look(class, most == Some(steps));
        }
        if end == 16.0 {
            hits.look(
                "half angle up to 16: done",
                most.is_some_and(|m| m <= 0) && done > 0,
            );
            hits.look(
                "half angle over 16: refused",
                most.is_some_and(|m| m > 0) && done == 0,
            );
        }
    }
}

#[cfg(test)]
mod tests {
    use super::super::{Table, ORACLE};
    use super::*;
    use crate::card::check;
    use crate::families::CAPACITY;

    fn found(rattle: Table) -> String {
        let tables = Tables {
            oracle: ORACLE,
            rattle,
        };
        let found = tables.families(1, 60, &mut Hits::default());
        found.expect_err("it is wrong").text
    }

    #[test]
    fn wrong_families_are_found() {
        // The last joint of a card that is full is off by its lowest bit.
        let text = found(Table {
            tick: |card, state| {
                let number = (ORACLE.tick)(card, state);
                let full = check(card).is_ok_and(|card| card.joints.len() == CAPACITY);
                if let (0, true, Some(last)) =
                    (number, full, state.iter_mut().rfind(|x| **x != 0.0))
                {
                    *last = f32::from_bits(last.to_bits() ^ 1);
                }
                number
            },
            ..ORACLE
        });
        assert!(text.starts_with("Tick"), "{text}");
        // Loses the sign of zeros.
        let text = found(Table {
            tick: |card, state| {
                let number = (ORACLE.tick)(card, state);
                for x in state.iter_mut().filter(|x| number == 0 && **x == 0.0) {
                    *x = 0.0;
                }
                number
            },
            ..ORACLE
        });
        assert!(text.starts_with("Tick"), "{text}");
    }
}
