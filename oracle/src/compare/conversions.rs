//! Conversions between the editions: accepted, damaged and too large cards, and slices of every length around the result's.

use super::cards::limits;
use super::tables::{fits, Call, Tables};
use super::{shrink, Difference, Hits, Table};
use crate::card::{self, Card, Edition, EDITION_1, EDITION_2, LEAST_BYTES};
use crate::convert::Converted;
use crate::generate::{self, Random};

/// Those that a card is converted between.
const CONVERTED: [Edition; 2] = [EDITION_1, EDITION_2];

/// A slice before a conversion: bytes that show where it is written.
fn blank(length: usize) -> Vec<u8> {
    (0..length).map(|i| (i * 151 + 90) as u8).collect()
}

/// What a conversion answers, and the slice after it.
fn left(table: &Table, to: &Edition, card: &[u8], room: usize) -> (Converted, Vec<u8>) {
    let mut out = blank(room);
    let converted = match to.number {
        1 => (table.to_edition_1)(card, &mut out),
        _ => (table.to_edition_2)(card, &mut out),
    };
    (converted, out)
}

/// The edition that a conversion to this one starts from, which is also the one that a card of it goes to.
fn other(to: &Edition) -> &'static Edition {
    match to.number {
        1 => &EDITION_2,
        _ => &EDITION_1,
    }
}

/// The card in an edition, however large it is.
fn bytes_in(card: &Card, edition: &Edition) -> Vec<u8> {
    Card {
        edition: edition.number,
        ..card.clone()
    }
    .encode()
}

impl Tables {
    fn conversion_differs(&self, to: &Edition, card: &[u8], room: usize) -> bool {
        left(&self.oracle, to, card, room) != left(&self.rattle, to, card, room)
    }

    fn conversion_difference(&self, to: &Edition, bytes: &[u8], room: usize) -> Difference {
        let bytes = match card::check(bytes) {
            Err(_) => shrink::bytes(bytes.to_vec(), |bytes| {
                self.conversion_differs(to, bytes, room)
            }),
            Ok(card) => {
                let differs = |card: &Card, _: &[f32]| {
                    let bytes = card.encode();
                    card::check(&bytes).is_ok() && self.conversion_differs(to, &bytes, room)
                };
                shrink::card_and_state(card, vec![], differs).0.encode()
            }
        };
        let (oracle, rattle) = (
            left(&self.oracle, to, &bytes, room),
            left(&self.rattle, to, &bytes, room),
        );
        let first = oracle.1.iter().zip(&rattle.1).position(|(a, b)| a != b);
        let text = format!(
            "a card of {} bytes to edition {} in a slice of {room}\n  oracle: {:?}, rattle: {:?}, the first other byte: {first:?}\n",
            bytes.len(),
            to.number,
            oracle.0,
            rattle.0,
        );
        Difference {
            files: vec![
                ("conversion.card".into(), bytes),
                ("conversion.oracle".into(), oracle.1),
                ("conversion.rattle".into(), rattle.1),
            ],
            text,
        }
    }

    /// A conversion by both sides: its answer and, where it is done, the result.
    fn conversion(
        &self,
        to: &Edition,
        bytes: &[u8],
        room: usize,
        hits: &mut Hits,
    ) -> Result<(u32, Vec<u8>), Box<Difference>> {
        if self.conversion_differs(to, bytes, room) {
            return Err(Box::new(self.conversion_difference(to, bytes, room)));
        }
        let (Converted { number, length }, mut out) = left(&self.oracle, to, bytes, room);
        let length = length as usize;
        assert!(number == 0 || length == 0, "a refusal has no result");
        assert!(
            out[length..] == blank(room)[length..],
            "bytes past a result"
        );
        for refusal in [0].into_iter().chain(card::REFUSALS).chain([16]) {
            let class = format!("to edition {}: {refusal}", to.number);
            hits.look(class, refusal == number);
        }
        out.truncate(length);
        Ok((number, out))
    }

    /// An accepted card to slices of each of these lengths, of which those below the result's are refused by 16.
    fn rooms(
        &self,
        card: &Card,
        rooms: impl IntoIterator<Item = usize>,
        hits: &mut Hits,
    ) -> Result<u64, Box<Difference>> {
        let (to, mut compared) = (other(&Edition::of_number(card.edition).unwrap()), 0);
        let bytes = card.encode();
        let length = bytes_in(card, to).len();
        for room in rooms {
            let number = self.conversion(to, &bytes, room, hits)?.0;
            assert_eq!(
                number,
                if room < length { 16 } else { 0 },
                "a slice of {room}"
            );
            for (what, expected) in [
                ("of no byte: 16", 0),
                ("a byte too short: 16", length - 1),
                ("as long as the result: 0", length),
                ("a byte longer: 0", length + 1),
            ] {
                let class = format!("to edition {}, a slice {what}", to.number);
                hits.look(class, room == expected);
            }
            compared += 1;
        }
        Ok(compared)
    }

    /// An accepted card over and back, and what the calls make of both.
    fn over_and_back(
        &self,
        random: &mut Random,
        card: &Card,
        hits: &mut Hits,
    ) -> Result<(), Box<Difference>> {
        let from = Edition::of_number(card.edition).expect("an edition");
        let to = other(&from);
        let bytes = card.encode();
        let more = random.below(9);
        let room = bytes_in(card, to).len() + more;
        let (number, result) = self.conversion(to, &bytes, room, hits)?;
        let class = |what: &str| format!("to edition {}, {what}", to.number);
        if !fits(card, to) {
            assert_eq!(number, 16, "a card that the edition has no room for");
            return Ok(());
        }
        assert_eq!(number, 0, "an accepted card");
        let (number, back) = self.conversion(&from, &result, bytes.len() + more, hits)?;
        assert!(number == 0 && back == bytes, "over and back");
        hits.hit(class("and back: the same bytes"));
        let state = generate::state(random, card);
        for call in [
            Call::Check,
            Call::Sizes,
            Call::Start,
            Call::Tick,
            Call::Run(3),
        ] {
            let [own, converted] = [&bytes, &result].map(|bytes| self.both(call, bytes, &state));
            let (own, converted) = (own?, converted?);
            assert!(own.same(&converted), "a call of the converted card");
            if let Call::Tick = call {
                hits.look(class("a tick is the card's own"), own.number == 0);
                hits.look(class("a refusal is the card's own"), own.number > 10);
            }
        }
        Ok(())
    }

    /// Both sides of each limit of each edition, both ways.
    fn converted_limits(&self, hits: &mut Hits) -> Result<u64, Box<Difference>> {
        let mut compared = 0;
        for to in &CONVERTED {
            for (what, card, own) in limits(other(to)) {
                let room = bytes_in(&card, to).len();
                let expected = match own {
                    0 if !fits(&card, to) => 16,
                    _ => own,
                };
                let number = self.conversion(to, &card.encode(), room, hits)?.0;
                let class = format!("to edition {}, {what}: {expected}", to.number);
                hits.look(class, number == expected);
                // Of the edition that it is to be already, and one of no edition.
                let wanted = self.conversion(to, &bytes_in(&card, to), room, hits)?.0;
                let class = format!("to edition {}, of it already: 2", to.number);
                hits.look(class, wanted == 2);
                for edition in [0, 3, 4, 255] {
                    let unknown = [&[edition], &card.encode()[1..]].concat();
                    let number = self.conversion(to, &unknown, room, hits)?.0;
                    let class = format!("to edition {}, edition {edition}: 2", to.number);
                    hits.look(class, number == 2);
                    let short = &unknown[..LEAST_BYTES - 1];
                    let number = self.conversion(to, short, room, hits)?.0;
                    let class = format!("to edition {}, 1 before 2", to.number);
                    hits.look(class, number == 1);
                }
                compared += 10;
            }
        }
        Ok(compared)
    }

    /// Each of the card's refusals comes before 16, for whichever reason.
    fn before_sixteen(&self, seed: u64, hits: &mut Hits) -> Result<u64, Box<Difference>> {
        let mut compared = 0;
        for (to, refusal) in CONVERTED
            .iter()
            .flat_map(|to| card::REFUSALS.map(|refusal| (to, refusal)))
        {
            for case in 0..40 {
                let random = &mut Random::of_case(seed + u64::from(refusal), case);
                let mut card = generate::card(random);
                let large = to.number == 1 && random.one_in(2);
                if large {
                    card.edition = 2;
                    card.rate = 1001;
                }
                if !fits(&card, other(to)) {
                    continue;
                }
                let mut bytes = bytes_in(&card, other(to));
                let room = match large {
                    true => bytes.len() + 10,
                    false => random.below(bytes_in(&card, to).len()),
                };
                let alone = self.conversion(to, &bytes, room, hits)?.0;
                generate::damage(random, &mut bytes, refusal);
                let both = self.conversion(to, &bytes, room, hits)?.0;
                let reason = if large {
                    "a large card"
                } else {
                    "a short slice"
                };
                let class = format!("to edition {}, {refusal} before 16 for {reason}", to.number);
                hits.look(class, alone == 16 && both == refusal);
                compared += 2;
            }
        }
        Ok(compared)
    }

    /// Cards at limits and of each kind, slices of every length, refusals before 16; then random cards, damaged and not, over and back.
    pub fn conversions(
        &self,
        seed: u64,
        count: u64,
        hits: &mut Hits,
    ) -> Result<u64, Box<Difference>> {
        let mut compared = self.converted_limits(hits)? + self.before_sixteen(seed, hits)?;
        for edition in &CONVERTED {
            for card in generate::each_kind(edition) {
                let length = card.encode().len();
                compared += self.rooms(&card, 0..length + 20, hits)?;
            }
        }
        for case in 0..count {
            let random = &mut Random::of_case(seed, case);
            let card = generate::card(random);
            if card.edition > EDITION_2.number {
                let to = random.pick(&CONVERTED);
                let bytes = card.encode();
                let number = self.conversion(&to, &bytes, bytes.len(), hits)?.0;
                assert_eq!(number, 2, "an edition above 2");
                hits.hit(format!(
                    "to edition {}, of edition {}: 2",
                    to.number, card.edition
                ));
                continue;
            }
            if random.one_in(2) {
                self.over_and_back(random, &card, hits)?;
            } else {
                let bytes = generate::damaged_card(random);
                let room = random.below(2 * bytes.len() + 20);
                self.conversion(&random.pick(&CONVERTED), &bytes, room, hits)?;
            }
            if fits(&card, &EDITION_1) {
                let length = card.encode().len();
                let near = length - 5 + random.below(11);
                compared += self.rooms(&card, [near], hits)?;
            }
            compared += 1;
        }
        Ok(compared)
    }
}

#[cfg(test)]
mod tests {
    use super::super::ORACLE;
    use super::*;

    fn tables(rattle: Table) -> Tables {
        Tables {
            oracle: ORACLE,
            rattle,
        }
    }

    #[test]
    fn every_class_comes_up() {
        let mut hits = Hits::default();
        tables(ORACLE).conversions(1, 2000, &mut hits).unwrap();
        assert_eq!(hits.missed(), [""; 0], "{}", hits.lines());
    }

    fn found(to_edition_1: fn(&[u8], &mut [u8]) -> Converted) -> String {
        let wrong = tables(Table {
            to_edition_1,
            ..ORACLE
        });
        let found = wrong.conversions(1, 500, &mut Hits::default());
        found.expect_err("it is wrong").text
    }

    #[test]
    fn wrong_conversions_are_found() {
        // A field is moved by a bit.
        found(|card, out| {
            let converted = (ORACLE.to_edition_1)(card, out);
            if converted.length > 200 {
                out[200] = out[200].rotate_left(1);
            }
            converted
        });
        // 16 is forgotten for a short slice, which gets what fits.
        let text = found(|card, out| {
            let mut whole = vec![0; card.len()];
            let converted = (ORACLE.to_edition_1)(card, &mut whole);
            let length = out.len().min(converted.length as usize);
            out[..length].copy_from_slice(&whole[..length]);
            converted
        });
        assert!(text.contains("number: 16"), "{text}");
        // Writes the header though it refuses.
        found(|card, out| {
            let converted = (ORACLE.to_edition_1)(card, out);
            if let (16, [first, ..]) = (converted.number, out) {
                *first = 1;
            }
            converted
        });
        // Clears the bytes past the result.
        found(|card, out| {
            let converted = (ORACLE.to_edition_1)(card, out);
            if converted.number == 0 {
                out[converted.length as usize..].fill(0);
            }
            converted
        });
        // Looks at the slice before the card.
        found(|card, out| match out.len() {
            0 => Converted {
                number: 16,
                length: 0,
            },
            _ => (ORACLE.to_edition_1)(card, out),
        });
        // Copies a card of edition 1.
        found(
            |card, out| match (card.first(), out.get_mut(..card.len())) {
                (Some(1), Some(place)) if (ORACLE.check)(card) == 0 => {
                    place.copy_from_slice(card);
                    Converted {
                        number: 0,
                        length: card.len() as u32,
                    }
                }
                _ => (ORACLE.to_edition_1)(card, out),
            },
        );
    }
}
