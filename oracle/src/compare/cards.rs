//! Cards: both tables' check, sizes and start on the same bytes.

use super::tables::{fits, Call, Tables, MARK};
use super::{Difference, Hits};
use crate::card::{
    self, Body, Card, Edition, Joint, BALL, BODY_NUMBERS, EDITIONS, EDITION_1, FIXED, HINGE,
    JOINT_NUMBERS, KINDS, LEAST_BYTES, SLIDE, TETHER,
};
use crate::generate::{self, Places, Random};

/// The lengths of random bytes: all that a card of edition 1 may have, and then some to a little over the largest card.
fn lengths() -> impl Iterator<Item = usize> {
    (0..7000).chain((7000..45000).step_by(149))
}

impl Tables {
    /// Check, sizes and start on one card.
    fn card(&self, bytes: &[u8], hits: &mut Hits) -> Result<u32, Box<Difference>> {
        let number = self.both(Call::Check, bytes, &[])?.number;
        let sizes = self.both(Call::Sizes, bytes, &[])?;
        for refusal in [0].into_iter().chain(card::REFUSALS) {
            hits.look(format!("check answers {refusal}"), refusal == number);
            hits.look(format!("sizes answers {refusal}"), refusal == sizes.number);
        }
        hits.look(
            "sizes of the largest card of edition 1",
            bytes.len() == 6956 && sizes.counts == [32, 32, 832],
        );
        hits.look(
            "sizes of the largest card of edition 2",
            bytes.len() == 43416 && sizes.counts == [200, 200, 5200],
        );
        hits.look(
            "sizes of the largest card of edition 3",
            bytes.len() == 44216 && sizes.counts == [200, 200, 5200],
        );
        // The length that the counts give, whether the card is refused or not, and others.
        let length = Places::of(bytes).map_or(0, |places| {
            BODY_NUMBERS * places.bodies + JOINT_NUMBERS * places.joints
        });
        let lengths = match number {
            0 => vec![length, length - 1, length + 1, 0],
            _ => vec![length],
        };
        for length in lengths {
            let start = self.both(Call::Start, bytes, &vec![MARK; length])?;
            hits.look("start answers 11", start.number == 11);
            let written = !start.state.contains(&MARK) && start.number == 0;
            hits.look("start writes a state", written);
        }
        Ok(number)
    }

    /// Limits about 7 in size and at 1,024, of each kind that may have them, in use and off; 19 comes before 8.
    fn angle_limits(&self, hits: &mut Hits) -> Result<u64, Box<Difference>> {
        let mut compared = 0;
        for angle in [7.0, 7f32.next_up(), -7.0, -7f32.next_up(), 1024.0] {
            for range in [[angle, angle], [0.0, angle], [angle, 0.0]] {
                for (kind, second) in [
                    (HINGE, false),
                    (BALL, false),
                    (BALL, true),
                    (SLIDE, false),
                    (TETHER, false),
                ] {
                    let wide = matches!(kind, HINGE | BALL) && angle.abs() > 7.0;
                    let answers = if wide {
                        19
                    } else if range[0] > range[1] {
                        8
                    } else {
                        0
                    };
                    for (used, answers) in [(true, answers), (false, 6)] {
                        let name = KINDS[kind as usize];
                        let class =
                            format!("limit {range:?} of a {name}, second {second}, used {used}");
                        for edition in &EDITIONS {
                            let bytes = generate::limited(edition, kind, second, used, range);
                            let number = self.card(&bytes, hits)?;
                            hits.look(&class, number == answers);
                            compared += 1;
                        }
                    }
                }
            }
        }
        Ok(compared)
    }

    /// Cards of an edition with bits flipped, and with floats, lengths, counts, rates and named bodies at borders.
    fn borders(&self, edition: &Edition, hits: &mut Hits) -> Result<u64, Box<Difference>> {
        let mut cards = generate::at_borders(edition);
        for card in generate::each_kind(edition) {
            let bytes = card.encode();
            cards.extend(generate::flipped(&bytes));
            cards.extend(generate::floats_at_borders(&bytes));
        }
        for bytes in &cards {
            self.card(bytes, hits)?;
        }
        Ok(cards.len() as u64 + self.dominances(edition, hits)? + self.limits(edition, hits)?)
    }

    /// Each bit of each body's dominance, moving and anchored.
    fn dominances(&self, edition: &Edition, hits: &mut Hits) -> Result<u64, Box<Difference>> {
        let mut compared = 0;
        for (body, bit) in (0..edition.most).flat_map(|body| (0..8).map(move |bit| (body, bit))) {
            for anchored in [false, true] {
                let bytes = generate::dominant(edition, body, bit, anchored);
                let number = self.card(&bytes, hits)?;
                let (body, expected) = if anchored {
                    ("an anchored", 6)
                } else {
                    ("a moving", 17)
                };
                let class = format!("{expected} for bit {bit} of {body} body's dominance");
                hits.look(class, number == expected);
                compared += 1;
            }
        }
        Ok(compared)
    }

    /// Both sides of each limit of an edition's header and of its joints' bits, each a class.
    fn limits(&self, edition: &Edition, hits: &mut Hits) -> Result<u64, Box<Difference>> {
        let cards = limits(edition);
        for (what, card, expected) in &cards {
            let bytes = card.encode();
            let class =
                |what: &str, answer: u32| format!("edition {}, {what}: {answer}", edition.number);
            let number = self.card(&bytes, hits)?;
            hits.look(class(what, *expected), number == *expected);
            // A length that is wrong is asked after the counts and the rate.
            let answer = match *expected {
                3 | 4 => *expected,
                _ => 5,
            };
            let longer = self.card(&[&bytes[..], &[0]].concat(), hits)?;
            hits.look(class("a byte more", answer), longer == answer);
            for length in LEAST_BYTES..bytes.len().min(17) {
                let cut = self.card(&bytes[..length], hits)?;
                hits.look(class(&format!("{length} bytes"), answer), cut == answer);
            }
            let short = self.card(&bytes[..LEAST_BYTES - 1], hits)?;
            hits.look(class("11 bytes", 1), short == 1);
        }
        Ok(cards.len() as u64)
    }

    /// Two refusals apply: the second alone first, and then with the first, which wins.
    fn pairs(&self, seed: u64, hits: &mut Hits) -> Result<u64, Box<Difference>> {
        let mut compared = 0;
        for (i, first) in card::REFUSALS.into_iter().enumerate() {
            for second in card::REFUSALS.into_iter().skip(i + 1) {
                for case in 0..90 {
                    let random = &mut Random::of_case(seed + (100 * first + second) as u64, case);
                    let mut card = generate::card(random);
                    let edition = EDITIONS[case as usize % EDITIONS.len()];
                    if !fits(&card, &edition) {
                        continue;
                    }
                    card.edition = edition.number;
                    let mut bytes = card.encode();
                    generate::damage(random, &mut bytes, second);
                    let alone = self.card(&bytes, hits)?;
                    generate::damage(random, &mut bytes, first);
                    let both = self.card(&bytes, hits)?;
                    let edition = edition.number;
                    hits.look(
                        format!("edition {edition}: refusal {first} before {second}"),
                        alone == second && both == first,
                    );
                    compared += 2;
                }
            }
        }
        Ok(compared)
    }

    /// Bits flipped, floats, lengths and limits at borders, random bytes, damage of one and two kinds, and valid cards.
    pub fn cards(&self, seed: u64, count: u64, hits: &mut Hits) -> Result<u64, Box<Difference>> {
        let mut compared = self.angle_limits(hits)? + self.pairs(seed, hits)?;
        for edition in &EDITIONS {
            compared += self.borders(edition, hits)?;
        }
        for number in 0..=255 {
            let card = Card {
                edition: number,
                ..generate::each_kind(&EDITION_1).swap_remove(0)
            };
            let answer = self.card(&card.encode(), hits)?;
            let class = match number {
                0..=4 | 255 => format!("edition {number}"),
                _ => "another edition".to_string(),
            };
            let known = Edition::of_number(number).is_some();
            hits.look(class, answer == if known { 0 } else { 2 });
            compared += 1;
        }
        for length in lengths() {
            let bytes = generate::random_bytes(&mut Random::of_case(seed, length as u64), length);
            self.card(&bytes, hits)?;
            compared += 1;
        }
        for case in 0..count {
            let random = &mut Random::of_case(seed, case);
            let bytes = match random.one_in(4) {
                true => generate::card(random).encode(),
                false => generate::damaged_card(random),
            };
            self.card(&bytes, hits)?;
            compared += 1;
        }
        Ok(compared)
    }
}

/// Cards on both sides of each limit of an edition, and what a check answers.
pub(super) fn limits(edition: &Edition) -> Vec<(String, Card, u32)> {
    let mut cards = Vec::new();
    let mut edited = |what: String, answer: u32, edit: &dyn Fn(&mut Card)| {
        let mut card = Card {
            edition: edition.number,
            rate: 64,
            bodies: vec![Body::UNIT, Body::ANCHORED],
            joints: vec![Joint::plain(FIXED, 0, 1)],
            ..Card::default()
        };
        edit(&mut card);
        cards.push((what, card, answer));
    };
    let within = |count: usize| if count <= edition.most { 0 } else { 3 };
    let most = edition.most;
    for count in [0, 1, 2, 31, 32, 33, most, most + 1, edition.last_count()] {
        let answer = if count == 0 { 3 } else { within(count) };
        edited(format!("{count} bodies"), answer, &|card| {
            card.bodies = vec![Body::UNIT; count];
            card.joints.truncate(count / 2);
        });
        edited(format!("{count} joints"), within(count), &|card| {
            card.joints = vec![card.joints[0].clone(); count]
        });
    }
    edited("as many as there can be".into(), 0, &|card| {
        card.bodies = vec![Body::UNIT; most];
        card.joints = vec![card.joints[0].clone(); most];
    });
    for rate in [
        0,
        15,
        16,
        999,
        1000,
        1001,
        edition.fastest,
        edition.fastest + 1,
        edition.last_rate(),
    ] {
        let known = (16..=edition.fastest).contains(&rate);
        let answer = if known { 0 } else { 4 };
        edited(format!("rate {rate}"), answer, &|card| card.rate = rate);
    }
    for bit in 0..edition.zero_bits {
        let what = format!("zero {bit} of the header set");
        edited(what, 6, &|card| card.zero = 1 << bit);
    }
    for bit in 0..edition.joint_zero_bits {
        let what = format!("zero {bit} of a joint set");
        edited(what, 6, &|card| card.joints[0].zero = 1 << bit);
    }
    for body in [31, 32, most - 1, most, edition.last_count()] {
        if body < 1 << edition.body_number_bits {
            let answer = if body < most { 0 } else { 10 };
            let what = format!("a joint on body {body} of {most}");
            edited(what, answer, &|card| {
                card.bodies = vec![Body::UNIT; most];
                card.joints[0].body2 = body as u32;
            });
        }
    }
    cards
}
