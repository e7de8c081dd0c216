//! Document 02, point 4: a card of one edition as a card of the other.

use crate::card::{check, Card, Edition, EDITION_1, EDITION_2, LEAST_BYTES};

/// What a conversion answers: 0 and how many bytes the result has, or the refusal and 0.
#[derive(Clone, Copy, Debug, PartialEq)]
pub struct Converted {
    pub number: u32,
    pub length: u32,
}

pub fn to_edition_2(card: &[u8], out: &mut [u8]) -> Converted {
    answer(convert(card, &EDITION_1, &EDITION_2, out))
}

pub fn to_edition_1(card: &[u8], out: &mut [u8]) -> Converted {
    answer(convert(card, &EDITION_2, &EDITION_1, out))
}

fn answer(length: Result<usize, u32>) -> Converted {
    match length {
        Ok(length) => Converted {
            number: 0,
            length: length as u32,
        },
        Err(number) => Converted { number, length: 0 },
    }
}

/// The card's own refusals in their order, where 2 is any edition but the first of the two; then 16.
fn convert(bytes: &[u8], from: &Edition, to: &Edition, out: &mut [u8]) -> Result<usize, u32> {
    if bytes.len() >= LEAST_BYTES && u32::from(bytes[0]) != from.number {
        return Err(2);
    }
    let card = check(bytes)?;
    if card.bodies.len() > to.most || card.joints.len() > to.most || card.rate > to.fastest {
        return Err(16);
    }
    let result = Card {
        edition: to.number,
        ..card
    }
    .encode();
    let Some(place) = out.get_mut(..result.len()) else {
        return Err(16);
    };
    place.copy_from_slice(&result);
    Ok(result.len())
}

#[cfg(test)]
mod tests {
    use super::*;
    use crate::card::{Body, Joint, BALL};
    use crate::generate::{self, Random};

    const DONE_106: Converted = Converted {
        number: 0,
        length: 106,
    };

    fn refused(number: u32) -> Converted {
        Converted { number, length: 0 }
    }

    #[test]
    fn the_documents_card() {
        let bytes = Card::example().encode();
        let mut out = [7; 120];
        let converted = to_edition_2(&bytes, &mut out);
        assert_eq!((converted.number, converted.length), (0, 110));
        assert_eq!(out[..8], [2, 1, 0, 0, 16, 0, 0, 0]);
        assert_eq!(out[8..110], bytes[4..]);
        assert_eq!(out[110..], [7; 10]);
        let mut back = [9; 106];
        assert_eq!(to_edition_1(&out[..110], &mut back), DONE_106);
        assert_eq!(back[..], bytes);
    }

    #[test]
    fn refusals_in_order() {
        let card = Card::example();
        let [first, second] = [1, 2].map(|edition| {
            Card {
                edition,
                ..card.clone()
            }
            .encode()
        });
        let mut out = [7; 109];
        assert_eq!(to_edition_2(&first, &mut out), refused(16));
        assert_eq!(to_edition_2(&first[..11], &mut out), refused(1));
        assert_eq!(to_edition_2(&second[..11], &mut out), refused(1));
        assert_eq!(to_edition_2(&second[..12], &mut out), refused(2));
        assert_eq!(to_edition_2(&first[..12], &mut out), refused(5));
        assert_eq!(to_edition_1(&first, &mut out), refused(2));
        assert_eq!(to_edition_1(&second[..109], &mut out), refused(5));
        assert_eq!(to_edition_1(&second, &mut out[..105]), refused(16));
        assert_eq!(out, [7; 109]);
        assert_eq!(to_edition_1(&second, &mut out), DONE_106);
    }

    #[test]
    fn too_large_for_the_first() {
        let of = |bodies: usize, joints: usize, rate: u32| {
            let card = Card {
                edition: 2,
                rate,
                bodies: vec![Body::UNIT; bodies],
                joints: vec![Joint::plain(BALL, 0, 1); joints],
                ..Card::example()
            };
            to_edition_1(&card.encode(), &mut vec![0; 8000]).number
        };
        assert_eq!(of(32, 32, 1000), 0);
        assert_eq!(of(33, 32, 1000), 16);
        assert_eq!(of(32, 33, 1000), 16);
        assert_eq!(of(32, 32, 1001), 16);
    }

    #[test]
    fn over_and_back() {
        for case in 0..2000 {
            let card = generate::card(&mut Random::of_case(10, case));
            let large = card.bodies.len() > 32 || card.joints.len() > 32 || card.rate > 1000;
            if large || card.edition > 2 {
                continue;
            }
            let bytes = card.encode();
            let (over, back) = match card.edition {
                1 => (to_edition_2 as fn(&[u8], &mut [u8]) -> _, to_edition_1 as _),
                _ => (to_edition_1 as _, to_edition_2 as fn(&[u8], &mut [u8]) -> _),
            };
            let (mut there, mut again) = (vec![0; 8000], vec![0; 8000]);
            let Converted { number: 0, length } = over(&bytes, &mut there) else {
                panic!("an accepted card is converted");
            };
            let there = &there[..length as usize];
            assert!(check(there).is_ok());
            let Converted { number: 0, length } = back(there, &mut again) else {
                panic!("and back");
            };
            assert_eq!(again[..length as usize], bytes);
        }
    }
}
