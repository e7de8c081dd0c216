//! Families of cards for what no proof covers, the compiler's back end: many joints on one body or on one pair, anchored bodies between, and numbers at the
//! steps where a rule changes.

use crate::card::{self, Body, Card, Joint, BALL, EDITION_1, HINGE, SLIDE, TETHER};
use crate::compare::shrink::floats;
use crate::generate::{anchored, header, holding, link, product, rotation_about, Random};
use crate::math;
use crate::solver::{self, Pose};
use std::f32::consts::{PI, TAU};

/// As many as either edition takes.
pub const CAPACITY: usize = EDITION_1.most;

pub struct Family {
    pub name: &'static str,
    /// How many ticks a run of one of its cards has.
    pub ticks: u32,
    pub draw: fn(&mut Random) -> Card,
    /// Whether a card is one of the family's, by its numbers alone.
    pub holds: fn(&Card) -> bool,
}

pub const FAMILIES: [Family; 6] = [
    STAR,
    ONE_PAIR,
    ANCHORED_BETWEEN,
    LIMITS,
    SPINS,
    SIGNED_ZEROS,
];

pub const STAR: Family = Family {
    name: "32 joints on one body",
    ticks: 5,
    draw: star,
    holds: is_star,
};

pub const ONE_PAIR: Family = Family {
    name: "32 joints on one pair",
    ticks: 5,
    draw: one_pair,
    holds: is_one_pair,
};

pub const ANCHORED_BETWEEN: Family = Family {
    name: "anchored bodies between",
    ticks: 5,
    draw: anchored_between,
    holds: is_anchored_between,
};

pub const LIMITS: Family = Family {
    name: "limits at the computed value",
    ticks: 4,
    draw: at_limits,
    holds: is_at_limits,
};

pub const SPINS: Family = Family {
    name: "spins at the sine's ends",
    ticks: 4,
    draw: spins,
    holds: is_spins,
};

pub const SIGNED_ZEROS: Family = Family {
    name: "signed zeros only",
    ticks: 4,
    draw: signed_zeros,
    holds: is_signed_zeros,
};

fn names(joint: &Joint) -> [usize; 2] {
    [joint.body1 as usize, joint.body2 as usize]
}

/// The kinds of one card: one of them, or all.
fn kinds(random: &mut Random) -> Vec<u32> {
    match random.one_in(3) {
        true => vec![random.below(5) as u32],
        false => (0..5).collect(),
    }
}

/// Holds two bodies, in either order.
fn join(random: &mut Random, card: &mut Card, kinds: &[u32], a: usize, b: usize) {
    let kind = random.pick(kinds);
    let (body1, body2) = if random.one_in(2) { (a, b) } else { (b, a) };
    let joint = holding(random, &card.bodies, kind, body1, body2);
    card.joints.push(joint);
}

fn links(random: &mut Random, count: usize, spread: f32) -> Vec<Body> {
    let mut place = |_| {
        let position = random.small3(spread);
        link(random, position)
    };
    (0..count).map(&mut place).collect()
}

// ------------------------------------------------------------------------------------------------------------------------- many joints

fn star(random: &mut Random) -> Card {
    let card = header(random);
    star_of(random, card, CAPACITY)
}

/// A hub among other bodies, each joined to it, and one of them twice.
pub(crate) fn star_of(random: &mut Random, mut card: Card, count: usize) -> Card {
    card.bodies = links(random, count, 2.0);
    let hub = random.below(count);
    let fixed_hub = random.one_in(6);
    for i in 0..count {
        if i == hub && fixed_hub || i != hub && !fixed_hub && random.one_in(8) {
            card.bodies[i] = anchored(&card.bodies[i]);
        }
    }
    let kinds = kinds(random);
    for i in (0..count).filter(|i| *i != hub) {
        join(random, &mut card, &kinds, hub, i);
    }
    let again = (hub + 1 + random.below(count - 1)) % count;
    join(random, &mut card, &kinds, hub, again);
    card
}

fn is_star(card: &Card) -> bool {
    let on = |body: usize| {
        card.joints
            .iter()
            .filter(|j| names(j).contains(&body))
            .count()
    };
    let full = |body: usize| on(body) == CAPACITY;
    card.bodies.len() == CAPACITY && (0..CAPACITY).all(|i| on(i) > 0) && (0..CAPACITY).any(full)
}

fn one_pair(random: &mut Random) -> Card {
    let card = header(random);
    one_pair_of(random, card, CAPACITY)
}

/// So many joints on one pair of bodies, which are all there are or two of as many.
pub(crate) fn one_pair_of(random: &mut Random, mut card: Card, joints: usize) -> Card {
    let count = random.pick(&[2, 2, 2, joints]);
    card.bodies = links(random, count, 1.0);
    let first = random.below(count);
    let second = (first + 1 + random.below(count - 1)) % count;
    if random.one_in(4) {
        card.bodies[first] = anchored(&card.bodies[first]);
    }
    let kinds = kinds(random);
    for _ in 0..joints {
        join(random, &mut card, &kinds, first, second);
    }
    card
}

fn is_one_pair(card: &Card) -> bool {
    let sorted = |joint: &Joint| {
        let [a, b] = names(joint);
        [a.min(b), a.max(b)]
    };
    let joints = &card.joints;
    joints.len() == CAPACITY
        && joints
            .iter()
            .all(|joint| sorted(joint) == sorted(&joints[0]))
}

/// A ring in which every other body is anchored.
fn anchored_between(random: &mut Random) -> Card {
    let mut card = header(random);
    let count = 2 * (2 + random.below(CAPACITY / 2 - 1));
    card.bodies = links(random, count, 1.0);
    let odd = random.below(2);
    for body in card.bodies.iter_mut().skip(odd).step_by(2) {
        *body = anchored(body);
    }
    let kinds = kinds(random);
    for i in 0..count {
        join(random, &mut card, &kinds, i, (i + 1) % count);
    }
    card
}

fn is_anchored_between(card: &Card) -> bool {
    let alternate = |joint: &Joint| {
        let [a, b] = names(joint);
        card.bodies[a].anchored != card.bodies[b].anchored && a.abs_diff(b) % 2 == 1
    };
    card.joints.len() == card.bodies.len()
        && card.bodies.len() >= 4
        && card.joints.iter().all(alternate)
}

// ------------------------------------------------------------------------------------------------------------------- the computed value

/// So many f32s on.
fn stepped(x: f32, steps: i32) -> f32 {
    let step = if steps < 0 {
        f32::next_down
    } else {
        f32::next_up
    };
    (0..steps.abs()).fold(x, |x, _| step(x))
}

/// How many f32s the second is above the first, where that is at most 2 in size.
fn steps_between(from: f32, to: f32) -> Option<i32> {
    (-2..=2).find(|steps| stepped(from, *steps) == to)
}

/// `AngleLimit::compute_correction`'s angle.
fn angle(axis: [f32; 3], from: [f32; 3], to: [f32; 3]) -> f32 {
    let mut phi = math::asin(math::dot(math::cross(from, to), axis));
    if math::dot(from, to) < 0.0 {
        phi = PI - phi;
    }
    if phi > PI {
        phi -= TAU;
    }
    phi
}

fn unit(v: [f32; 3]) -> [f32; 3] {
    math::divide(v, math::length(v))
}

/// The swing and the twist of a ball.
fn swing_and_twist(a1: [f32; 3], a2: [f32; 3], b1: [f32; 3], b2: [f32; 3]) -> [f32; 2] {
    let swing = angle(unit(math::cross(a1, a2)), a1, a2);
    let n = unit(math::add(a1, a2));
    let across = |b: [f32; 3]| unit(math::sub(b, math::scale(n, math::dot(n, b))));
    [swing, angle(n, across(b1), across(b2))]
}

fn pose(body: &Body) -> Pose {
    Pose {
        position: body.position,
        rotation: body.rotation,
        center_of_mass: body.center_of_mass,
    }
}

/// What a joint's first and second limit look at where its bodies stand: an angle, a way, a swing and a twist, a length.
fn limited(bodies: &[Body], joint: &Joint) -> [f32; 2] {
    let [pose1, pose2] = names(joint).map(|i| pose(&bodies[i]));
    let prepared = solver::prepare(&joint.solver_joint(), &pose1, &pose2, [0.0; 3]).numbers();
    let vector = |i: usize| [0, 1, 2].map(|part| prepared[3 * i + part]);
    let separation = math::add(math::sub(vector(1), vector(0)), vector(2));
    match joint.kind {
        HINGE => [angle(vector(3), vector(5), vector(6)), 0.0],
        SLIDE => [math::dot(separation, vector(3)), 0.0],
        BALL => swing_and_twist(vector(3), vector(4), vector(5), vector(6)),
        _ => [math::length(separation), 0.0],
    }
}

/// A range with an end at most two steps from a number.
fn range_at(random: &mut Random, value: f32) -> [f32; 2] {
    let end = stepped(value, random.below(5) as i32 - 2);
    match random.below(3) {
        0 => [end, end],
        1 => [end - 1.0, end],
        _ => [end, end + 1.0],
    }
}

/// Two bodies at rest, turned or shifted against each other as the kind leaves them free.
fn two_at_rest(random: &mut Random, kind: u32, axis: [f32; 3]) -> [Body; 2] {
    let first = Body {
        position: random.small3(2.0),
        rotation: random.rotation(),
        ..Body::UNIT
    };
    let mut second = first.clone();
    match kind {
        SLIDE => {
            let along = math::turn(first.rotation, axis);
            let way = random.between(-2.0, 2.0);
            second.position = math::add(first.position, math::scale(along, way));
        }
        TETHER => second.position = math::add(first.position, random.small3(2.0)),
        _ => {
            let about = if kind == HINGE {
                axis
            } else {
                random.direction()
            };
            let between = rotation_about(about, random.angle());
            second.rotation = product(first.rotation, between);
        }
    }
    [first, second]
}

/// Two more bodies at rest, with a limit or two at the value that a tick computes.
fn add_limited(random: &mut Random, card: &mut Card) {
    let first = card.bodies.len();
    let kind = random.pick(&[HINGE, SLIDE, BALL, TETHER]);
    let mut joint = Joint::plain(kind, first as u32, first as u32 + 1);
    if kind != TETHER {
        joint.axis = random.direction();
    }
    card.bodies.extend(two_at_rest(random, kind, joint.axis));
    if random.one_in(3) {
        let i = first + random.below(2);
        card.bodies[i] = anchored(&card.bodies[i]);
    }
    let [value1, value2] = limited(&card.bodies, &joint);
    joint.limit2 = kind == BALL && random.one_in(2);
    joint.limit1 = !joint.limit2 || random.one_in(3);
    if joint.limit1 {
        joint.limit1_range = range_at(random, value1);
    }
    if joint.limit2 {
        joint.limit2_range = range_at(random, value2);
    }
    card.joints.push(joint);
}

fn limited_pairs(random: &mut Random) -> Card {
    let mut card = header(random);
    card.gravity = 0.0;
    for _ in 0..random.pick(&[1, 2, CAPACITY / 2]) {
        add_limited(random, &mut card);
    }
    card
}

/// Where an angle is not a number, another card is drawn.
fn at_limits(random: &mut Random) -> Card {
    loop {
        let card = limited_pairs(random);
        if card::check(&card.encode()).is_ok() && is_at_limits(&card) {
            return card;
        }
    }
}

/// How far each of a joint's limits is from the computed value, in steps.
pub fn steps_of_limits(card: &Card, joint: &Joint) -> Vec<Option<i32>> {
    let limits = [
        (joint.limit1, joint.limit1_range),
        (joint.limit2, joint.limit2_range),
    ];
    let values = limited(&card.bodies, joint);
    let used = limits
        .into_iter()
        .zip(values)
        .filter(|((used, _), _)| *used);
    used.map(|((_, [min, max]), value)| {
        steps_between(value, min).or_else(|| steps_between(value, max))
    })
    .collect()
}

fn is_at_limits(card: &Card) -> bool {
    let near = |joint: &Joint| {
        let steps = steps_of_limits(card, joint);
        !steps.is_empty() && steps.iter().all(Option::is_some)
    };
    !card.joints.is_empty() && card.joints.iter().all(near)
}

// ---------------------------------------------------------------------------------------------------------------- the ends of the sine

/// Where the sine goes over to its series, and its end.
pub const SINE_ENDS: [f32; 2] = [0.015625, 16.0];

/// Half the angle that a tick turns a body by.
fn half_angle(card: &Card, body: &Body) -> f32 {
    math::length(math::scale(body.angular_velocity, card.dt())) * 0.5
}

/// How far a body's half angle is from an end of the sine, in steps.
pub fn steps_of_spin(card: &Card, body: &Body, end: f32) -> Option<i32> {
    steps_between(end, half_angle(card, body))
}

/// An angular velocity whose half angle is at most two steps from an end.
fn spin(random: &mut Random, card: &Card, end: f32) -> [f32; 3] {
    loop {
        let size = 2.0 * end * card.rate as f32;
        let mut body = Body {
            angular_velocity: random.direction().map(|x| x * size),
            ..Body::UNIT
        };
        let part = &mut body.angular_velocity[random.below(3)];
        if *part != 0.0 {
            *part = stepped(*part, random.below(9) as i32 - 4);
        }
        let within = body.angular_velocity.iter().all(|x| x.abs() <= 1024.0);
        if within && steps_of_spin(card, &body, end).is_some() {
            return body.angular_velocity;
        }
    }
}

/// Bodies that spin by an end of the sine, free or in a chain.
fn spins(random: &mut Random) -> Card {
    let mut card = header(random);
    let end = random.pick(&SINE_ENDS);
    if end == 16.0 {
        // No faster rate: its spin is over 1,024.
        card.rate = 16 + random.below(17) as u32;
    }
    let count = 1 + random.below(4);
    card.bodies = links(random, count, 1.0);
    for i in 0..card.bodies.len() {
        card.bodies[i].angular_velocity = spin(random, &card, end);
    }
    if random.one_in(2) {
        let kinds = kinds(random);
        for i in 1..card.bodies.len() {
            join(random, &mut card, &kinds, i - 1, i);
        }
    }
    card
}

fn is_spins(card: &Card) -> bool {
    let at_end = |body: &Body| {
        let steps = SINE_ENDS.map(|end| steps_of_spin(card, body, end));
        steps.iter().any(Option::is_some)
    };
    card.bodies.iter().all(at_end)
}

// ------------------------------------------------------------------------------------------------------------------------ signed zeros

fn zeros<const N: usize>(random: &mut Random) -> [f32; N] {
    [0; N].map(|_| random.pick(&[0.0, -0.0]))
}

/// Zeros of either sign, but for a 1 or -1 in one place.
fn zeros_and_one<const N: usize>(random: &mut Random, place: usize) -> [f32; N] {
    let mut numbers = zeros(random);
    numbers[place] = random.pick(&[1.0, -1.0]);
    numbers
}

fn zero_body(random: &mut Random) -> Body {
    let body = Body {
        position: zeros(random),
        rotation: zeros_and_one(random, 3),
        center_of_mass: zeros(random),
        linear_velocity: zeros(random),
        angular_velocity: zeros(random),
        inv_mass: random.pick(&[1.0, 1.0, 0.0, -0.0]),
        inv_inertia: {
            let mut inertia = zeros(random);
            for place in [0, 3, 5] {
                inertia[place] = random.pick(&[1.0, 1.0, inertia[place]]);
            }
            inertia
        },
        locks: random.locks(),
        ..Body::UNIT
    };
    match random.one_in(5) {
        true => anchored(&body),
        false => body,
    }
}

fn zero_joint(random: &mut Random, body1: usize, body2: usize) -> Joint {
    let kind = random.below(5) as u32;
    let mut joint = Joint::plain(kind, body1 as u32, body2 as u32);
    joint.anchor1 = zeros(random);
    joint.anchor2 = zeros(random);
    if kind != TETHER {
        joint.basis1 = zeros_and_one(random, 3);
        joint.basis2 = zeros_and_one(random, 3);
    }
    let used = [2, 3, 2, 3, 1][kind as usize];
    joint.compliances[..used].copy_from_slice(&zeros::<3>(random)[..used]);
    if matches!(kind, HINGE | SLIDE | BALL) {
        let along = random.below(3);
        joint.axis = zeros_and_one(random, along);
        joint.limit1 = random.one_in(2);
        joint.limit2 = kind == BALL && random.one_in(2);
    }
    if joint.limit1 {
        joint.limit1_range = zeros(random);
    }
    if joint.limit2 {
        joint.limit2_range = zeros(random);
    }
    if matches!(kind, HINGE | SLIDE) && random.one_in(2) {
        joint.motor = 1 + random.below(3) as u32;
        joint.motor_numbers = zeros(random);
    }
    joint
}

fn signed_zeros(random: &mut Random) -> Card {
    let mut card = header(random);
    [card.gravity, card.warm_coefficient] = zeros(random);
    let count = 2 + random.below(5);
    card.bodies = (0..count).map(|_| zero_body(random)).collect();
    for i in 1..count {
        if !(card.bodies[i - 1].anchored && card.bodies[i].anchored) {
            card.joints.push(zero_joint(random, i - 1, i));
        }
    }
    card
}

fn is_signed_zeros(card: &Card) -> bool {
    let mut card = card.clone();
    let numbers: Vec<f32> = floats(&mut card).into_iter().map(|x| *x).collect();
    let zero = |sign: f32| move |x: &f32| x.to_bits() == (0.0 * sign).to_bits();
    numbers.iter().all(|x| *x == 0.0 || x.abs() == 1.0)
        && numbers.iter().any(zero(1.0))
        && numbers.iter().any(zero(-1.0))
}

#[cfg(test)]
mod tests {
    use super::*;
    use crate::table;

    #[test]
    fn families_hold_their_cards() {
        for family in &FAMILIES {
            for case in 0..300 {
                let card = (family.draw)(&mut Random::of_case(6, case));
                assert!(card::check(&card.encode()).is_ok(), "{card:?}");
                assert!((family.holds)(&card), "{}: {card:?}", family.name);
            }
        }
    }

    #[test]
    fn few_linkages_are_of_a_family() {
        for family in &FAMILIES {
            let held = |case: &u64| {
                let random = &mut Random::of_case(7, *case);
                (family.holds)(&crate::generate::linkage(random))
            };
            let linkages = (0..300).filter(held).count();
            assert!(linkages < 30, "{}: {linkages} of 300", family.name);
        }
    }

    #[test]
    fn most_of_each_family_runs() {
        for family in &FAMILIES {
            let whole = |case: &u64| {
                let card = (family.draw)(&mut Random::of_case(8, *case));
                let mut state = table::start_state(&card);
                (0..family.ticks).all(|_| table::step(&card, &mut state).is_ok())
            };
            let ran = (0..100).filter(whole).count();
            assert!(ran >= 40, "{}: {ran} of 100", family.name);
        }
    }

    /// Of values over 1, where a step is over 2^-24: two steps less are passed, the value itself is not.
    #[test]
    fn limits_change_at_the_computed_value() {
        for (kind, place) in [(HINGE, 2), (BALL, 1), (BALL, 2), (TETHER, 0)] {
            let mut hit = [0; 3];
            for case in 0..200 {
                let random = &mut Random::of_case(9, case);
                let mut joint = Joint::plain(kind, 0, 1);
                let card = Card {
                    edition: 1,
                    rate: 64,
                    zero: 0,
                    gravity: 0.0,
                    warm_coefficient: 0.0,
                    bodies: two_at_rest(random, kind, joint.axis).to_vec(),
                    joints: vec![],
                };
                let value = limited(&card.bodies, &joint)[(kind == BALL && place == 2) as usize];
                for (i, steps) in [-2, 0, 2].into_iter().enumerate() {
                    let range = [value - 1.0, stepped(value, steps)];
                    match place == 2 && kind == BALL {
                        true => (joint.limit2, joint.limit2_range) = (true, range),
                        false => (joint.limit1, joint.limit1_range) = (true, range),
                    }
                    let card = Card {
                        joints: vec![joint.clone()],
                        ..card.clone()
                    };
                    let mut state = table::start_state(&card);
                    if value > 1.0 && table::step(&card, &mut state).is_ok() {
                        let totals = &state[26 + 3 * place..29 + 3 * place];
                        hit[i] += totals.iter().any(|x| *x != 0.0) as u32;
                    }
                }
            }
            assert!(hit[0] > 20 && hit[1] == 0 && hit[2] == 0, "{kind} {hit:?}");
        }
    }
}
