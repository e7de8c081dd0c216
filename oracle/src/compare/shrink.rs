//! Smaller inputs that still differ.

use crate::card::{self, Card, BODY_NUMBERS, EDITION_3, JOINT_NUMBERS};

/// How much there is to a number: zero and one are least.
fn cost(x: f32) -> u32 {
    if x.is_nan() {
        return 60;
    }
    let bits = x.to_bits();
    let digits = 24 - (bits & 0x7fffff | 0x800000).trailing_zeros();
    let sign = bits >> 31;
    match x.abs() {
        0.0 => sign,
        1.0 => 2 + sign,
        size if (1.0 / 1024.0..1024.0).contains(&size) => 4 + digits + sign,
        _ => 14 + digits + sign,
    }
}

/// Simpler numbers in the place of x, simplest first.
fn simpler(x: f32) -> Vec<f32> {
    let bits = x.to_bits();
    let mut candidates = vec![0.0, -0.0, 1.0, -1.0, 2.0, 0.5];
    for kept in [0, 1, 2, 4, 8, 12, 16, 20, 22] {
        let cut = 23 - kept;
        candidates.push(f32::from_bits(bits >> cut << cut));
    }
    candidates.push(x.abs());
    candidates.retain(|candidate| cost(*candidate) < cost(x));
    candidates
}

/// Sets numbers to simpler ones, one at a time, for as long as the two sides differ.
pub fn numbers(mut input: Vec<f32>, differs: impl Fn(&[f32]) -> bool) -> Vec<f32> {
    loop {
        let mut changed = false;
        for i in 0..input.len() {
            for candidate in simpler(input[i]) {
                let before = input[i];
                input[i] = candidate;
                if differs(&input) {
                    changed = true;
                    break;
                }
                input[i] = before;
            }
        }
        if !changed {
            return input;
        }
    }
}

/// A card's floats, for edits of one at a time.
pub(crate) fn floats(card: &mut Card) -> Vec<&mut f32> {
    let mut floats = vec![&mut card.gravity, &mut card.warm_coefficient];
    for body in &mut card.bodies {
        floats.extend(&mut body.position);
        floats.extend(&mut body.rotation);
        floats.extend(&mut body.center_of_mass);
        floats.extend(&mut body.linear_velocity);
        floats.extend(&mut body.angular_velocity);
        floats.push(&mut body.inv_mass);
        floats.extend(&mut body.inv_inertia);
    }
    let loads = card.edition == EDITION_3.number;
    for joint in &mut card.joints {
        floats.extend(&mut joint.anchor1);
        floats.extend(&mut joint.anchor2);
        floats.extend(&mut joint.basis1);
        floats.extend(&mut joint.basis2);
        floats.extend(&mut joint.axis);
        floats.extend(&mut joint.compliances);
        floats.extend(&mut joint.limit1_range);
        floats.extend(&mut joint.limit2_range);
        floats.extend(&mut joint.motor_numbers);
        if loads {
            floats.push(&mut joint.breaking_load);
        }
    }
    floats
}

type Pair = (Card, Vec<f32>);

/// The card without some of its joints, and the state without their totals.
fn without_joints(card: &Card, state: &[f32], gone: impl Fn(usize) -> bool) -> Pair {
    let mut smaller = card.clone();
    smaller.joints.clear();
    let (bodies, totals) = state.split_at(state.len().min(BODY_NUMBERS * card.bodies.len()));
    let mut kept = bodies.to_vec();
    for (i, joint) in card.joints.iter().enumerate() {
        if !gone(i) {
            smaller.joints.push(joint.clone());
            kept.extend(totals.chunks(JOINT_NUMBERS).nth(i).unwrap_or(&[]));
        }
    }
    (smaller, kept)
}

/// The card with a joint less, or a body with its joints, and the state without their numbers.
fn without_parts(card: &Card, state: &[f32]) -> Vec<Pair> {
    let mut pairs = Vec::new();
    for i in 0..card.joints.len() {
        pairs.push(without_joints(card, state, |joint| joint == i));
    }
    for i in 0..card.bodies.len() {
        let name = i as u32;
        let named = |i: usize| [card.joints[i].body1, card.joints[i].body2].contains(&name);
        let (mut smaller, mut state) = without_joints(card, state, named);
        smaller.bodies.remove(i);
        for joint in &mut smaller.joints {
            joint.body1 -= (joint.body1 > name) as u32;
            joint.body2 -= (joint.body2 > name) as u32;
        }
        let numbers = BODY_NUMBERS * i..BODY_NUMBERS * (i + 1);
        if numbers.end <= state.len() {
            state.drain(numbers);
        }
        pairs.push((smaller, state));
    }
    pairs
}

/// The card with one bit field less, and its numbers.
fn smaller_cards(card: &Card) -> Vec<Card> {
    let mut cards = Vec::new();
    for i in 0..card.bodies.len() {
        let mut smaller = card.clone();
        smaller.bodies[i].locks = [false; 3];
        smaller.bodies[i].dominance = 0;
        if card.bodies[i].locks != [false; 3] || card.bodies[i].dominance != 0 {
            cards.push(smaller);
        }
    }
    for i in 0..card.joints.len() {
        let mut edits: Vec<fn(&mut card::Joint)> = Vec::new();
        if card.joints[i].motor != 0 {
            edits.push(|joint| {
                joint.motor = 0;
                joint.motor_numbers = [0.0; 5];
            });
        }
        if card.joints[i].limit2 {
            edits.push(|joint| {
                joint.limit2 = false;
                joint.limit2_range = [0.0; 2];
            });
        }
        if card.joints[i].limit1 {
            edits.push(|joint| {
                joint.limit1 = false;
                joint.limit1_range = [0.0; 2];
            });
        }
        for edit in edits {
            let mut smaller = card.clone();
            edit(&mut smaller.joints[i]);
            cards.push(smaller);
        }
    }
    if card.rate != 16 {
        cards.push(Card {
            rate: 16,
            ..card.clone()
        });
    }
    cards
}

/// Sets a card's floats to simpler ones. Answers whether any was.
fn simplify_floats(card: &mut Card, differs: impl Fn(&Card) -> bool) -> bool {
    let mut changed = false;
    for i in 0..floats(card).len() {
        let before = *floats(card)[i];
        for candidate in simpler(before) {
            *floats(card)[i] = candidate;
            if differs(card) {
                changed = true;
                break;
            }
            *floats(card)[i] = before;
        }
    }
    changed
}

/// Takes things away from a card and its state, for as long as the two sides differ.
pub fn card_and_state(
    mut card: Card,
    mut state: Vec<f32>,
    differs: impl Fn(&Card, &[f32]) -> bool,
) -> Pair {
    'again: loop {
        for (smaller, less) in without_parts(&card, &state) {
            if differs(&smaller, &less) {
                (card, state) = (smaller, less);
                continue 'again;
            }
        }
        for smaller in smaller_cards(&card) {
            if differs(&smaller, &state) {
                card = smaller;
                continue 'again;
            }
        }
        let changed = simplify_floats(&mut card, |card| differs(card, &state));
        let simple = numbers(state.clone(), |state| differs(&card, state));
        if !changed && simple.iter().zip(&state).all(|(a, b)| super::same(*a, *b)) {
            return (card, state);
        }
        state = simple;
    }
}

/// Clears bytes and cuts the end off, for as long as the two sides differ.
pub fn bytes(mut input: Vec<u8>, differs: impl Fn(&[u8]) -> bool) -> Vec<u8> {
    loop {
        let mut changed = false;
        for cut in [1024, 127, 123, 94, 16, 4, 1] {
            while input.len() >= cut && differs(&input[..input.len() - cut]) {
                input.truncate(input.len() - cut);
                changed = true;
            }
        }
        for i in 0..input.len() {
            let before = input[i];
            for candidate in [
                0,
                before & 0xf0,
                before & 0x0f,
                before & before.wrapping_sub(1),
            ] {
                if candidate != before {
                    input[i] = candidate;
                    if differs(&input) {
                        changed = true;
                        break;
                    }
                    input[i] = before;
                }
            }
        }
        if !changed {
            return input;
        }
    }
}

#[cfg(test)]
mod tests {
    use super::*;
    use crate::{generate, table};

    #[test]
    fn numbers_get_simple() {
        let input = vec![3.7, -12.34, f32::NAN, 0.1];
        let smallest = numbers(input, |x| x[1] < -5.0);
        assert_eq!(smallest[0], 0.0);
        assert!(smallest[1] == -12.0 || smallest[1] == -8.0, "{smallest:?}");
        assert_eq!(smallest[2..], [0.0, 0.0]);
    }

    #[test]
    fn cards_lose_parts_with_their_numbers() {
        let card = generate::linkage(&mut generate::Random::of_case(1, 4));
        let last = card.joints.len() - 1;
        let mut state = table::start_state(&card);
        state[BODY_NUMBERS * card.bodies.len() + JOINT_NUMBERS * last] = 7.25;
        let whole = |card: &Card, state: &[f32]| state.len() == card.state_length();
        let (card, state) = card_and_state(card, state, |card, state| {
            whole(card, state) && !card.joints.is_empty() && state.contains(&7.25)
        });
        assert_eq!((card.bodies.len(), card.joints.len()), (2, 1));
        assert_eq!(state.iter().filter(|x| **x != 0.0).count(), 1);
    }

    #[test]
    fn bytes_get_short() {
        let input: Vec<u8> = (0..200).collect();
        let smallest = bytes(input, |x| x.len() > 10 && x[10] & 8 != 0);
        assert_eq!(smallest, [0, 0, 0, 0, 0, 0, 0, 0, 0, 0, 8]);
    }
}
