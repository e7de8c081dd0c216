//! Cards that edition 1 has no room for.

use crate::card::{Card, EDITION_1, EDITION_2, EDITION_3};
use crate::families::{one_pair_of, star_of};
use crate::generate::{linked, scattered, with_loads, Random};

/// A header of edition 2 or 3, at a rate that edition 1 mostly doesn't have.
fn header(random: &mut Random) -> Card {
    Card {
        edition: random.pick(&[EDITION_2, EDITION_3]).number,
        rate: random.pick(&[EDITION_2.fastest, EDITION_2.fastest, 2000, 1001, 240]),
        zero: 0,
        gravity: random.pick(&[-9.81, 0.0, 1.0]),
        warm_coefficient: random.pick(&[0.0, 1.0, 0.5]),
        bodies: Vec::new(),
        joints: Vec::new(),
    }
}

/// As many as there can be, or any number over edition 1's most.
fn count(random: &mut Random) -> usize {
    match random.one_in(2) {
        true => EDITION_2.most,
        false => EDITION_1.most + 1 + random.below(EDITION_2.most - EDITION_1.most),
    }
}

/// A chain or a closed loop that is built to run.
pub fn linkage(random: &mut Random) -> Card {
    let card = header(random);
    let (count, closed) = (count(random), random.one_in(2));
    linked(random, card, count, closed)
}

/// Many bodies, many joints, or both: a linkage, bodies and joints in no order, joints on one body or on one pair.
pub fn card(random: &mut Random) -> Card {
    let count = count(random);
    let card = header(random);
    let card = match random.below(5) {
        0 => star_of(random, card, count),
        1 => one_pair_of(random, card, count),
        2 => scattered(random, card, count, EDITION_2.most),
        _ => linkage(random),
    };
    with_loads(random, card)
}

#[cfg(test)]
mod tests {
    use super::*;
    use crate::{card, table};

    #[test]
    fn cards_are_valid_and_large() {
        for case in 0..200 {
            let card = super::card(&mut Random::of_case(11, case));
            assert!(card::check(&card.encode()).is_ok(), "{case} {card:?}");
            assert!(card.bodies.len().max(card.joints.len()) > EDITION_1.most);
        }
    }

    #[test]
    fn linkages_run() {
        let run = |case: &u64| {
            let card = linkage(&mut Random::of_case(12, *case));
            let mut state = table::start_state(&card);
            (0..100).all(|_| table::step(&card, &mut state).is_ok())
        };
        let whole = (0..60).filter(run).count();
        assert!(whole >= 30, "{whole} of 60 ran 100 ticks");
    }
}
