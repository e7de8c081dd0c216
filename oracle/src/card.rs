//! Document 01, 'The card' and 'Turned back', with document 02's changes: the layout, its encoding and decoding, and the refusals up to 12.

use crate::math;
use crate::solver;

/// A card of fewer is refused by 1, whichever edition it may be.
pub const LEAST_BYTES: usize = 12;
pub const BODY_BYTES: usize = 94;
pub const BODY_NUMBERS: usize = 13;
/// Four totals, and whether the joint is broken.
pub const JOINT_NUMBERS: usize = 13;
/// The place of that last number: +0.0 for a whole joint, 1.0 for a broken one.
pub const BROKEN: usize = 12;
pub const SLOWEST: u32 = 16;

/// Where the editions differ. What is counted in bits is the width of a field.
#[derive(Clone, Copy, Debug, PartialEq)]
pub struct Edition {
    pub number: u32,
    pub header_bytes: usize,
    pub count_bits: usize,
    pub rate_bits: usize,
    pub zero_bits: usize,
    pub body_number_bits: usize,
    pub joint_zero_bits: usize,
    pub joint_bytes: usize,
    /// The most bodies, and the most joints.
    pub most: usize,
    pub fastest: u32,
}

pub const EDITION_1: Edition = Edition {
    number: 1,
    header_bytes: 12,
    count_bits: 6,
    rate_bits: 10,
    zero_bits: 2,
    body_number_bits: 5,
    joint_zero_bits: 7,
    joint_bytes: 123,
    most: 32,
    fastest: 1000,
};

/// Document 02, point 4.
pub const EDITION_2: Edition = Edition {
    number: 2,
    header_bytes: 16,
    count_bits: 8,
    rate_bits: 16,
    zero_bits: 24,
    body_number_bits: 8,
    joint_zero_bits: 1,
    joint_bytes: 123,
    most: 200,
    fastest: 4000,
};

/// Document 02, point 11: each joint ends with its breaking load.
pub const EDITION_3: Edition = Edition {
    number: 3,
    joint_bytes: 127,
    ..EDITION_2
};

pub const EDITIONS: [Edition; 3] = [EDITION_1, EDITION_2, EDITION_3];

impl Edition {
    pub fn of_number(number: u32) -> Option<Edition> {
        EDITIONS
            .into_iter()
            .find(|edition| edition.number == number)
    }

    /// The largest number that its field can have.
    pub fn last_count(&self) -> usize {
        (1 << self.count_bits) - 1
    }

    /// Likewise.
    pub fn last_rate(&self) -> u32 {
        (1 << self.rate_bits) - 1
    }

    pub fn card_bytes(&self, bodies: usize, joints: usize) -> usize {
        self.header_bytes + BODY_BYTES * bodies + self.joint_bytes * joints
    }

    /// Whether its joints have a breaking load.
    pub fn has_loads(&self) -> bool {
        self.number == 3
    }
}

/// The refusals of a card, in the order in which they are asked.
pub const REFUSALS: [u32; 12] = [1, 2, 3, 4, 5, 6, 17, 7, 19, 8, 9, 10];

/// A card as its fields, whatever they hold: not every value is one that the checks accept.
#[derive(Clone, Debug, Default)]
pub struct Card {
    pub edition: u32,
    pub rate: u32,
    pub zero: u32,
    pub gravity: f32,
    pub warm_coefficient: f32,
    pub bodies: Vec<Body>,
    pub joints: Vec<Joint>,
}

#[derive(Clone, Debug)]
pub struct Body {
    pub anchored: bool,
    pub locks: [bool; 3],
    /// Eight bits that must be zero: document 02, point 5.
    pub dominance: i8,
    pub zero: u32,
    pub position: [f32; 3],
    pub rotation: [f32; 4],
    pub center_of_mass: [f32; 3],
    pub linear_velocity: [f32; 3],
    pub angular_velocity: [f32; 3],
    pub inv_mass: f32,
    pub inv_inertia: [f32; 6],
}

#[derive(Clone, Debug)]
pub struct Joint {
    pub kind: u32,
    pub body1: u32,
    pub body2: u32,
    pub limit1: bool,
    pub limit2: bool,
    pub motor: u32,
    pub zero: u32,
    pub anchor1: [f32; 3],
    pub anchor2: [f32; 3],
    pub basis1: [f32; 4],
    pub basis2: [f32; 4],
    pub axis: [f32; 3],
    pub compliances: [f32; 4],
    pub limit1_range: [f32; 2],
    pub limit2_range: [f32; 2],
    /// Target velocity, target position, cap, and the model's two floats.
    pub motor_numbers: [f32; 5],
    /// In edition 3; 0 for a joint that never breaks.
    pub breaking_load: f32,
}

pub const FIXED: u32 = 0;
pub const HINGE: u32 = 1;
pub const SLIDE: u32 = 2;
pub const BALL: u32 = 3;
pub const TETHER: u32 = 4;
pub const KINDS: [&str; 5] = ["fixed", "hinge", "slide", "ball", "tether"];

impl Body {
    /// A moving body of unit mass and inertia at rest at the origin.
    pub const UNIT: Body = Body {
        anchored: false,
        locks: [false; 3],
        dominance: 0,
        zero: 0,
        position: [0.0; 3],
        rotation: [0.0, 0.0, 0.0, 1.0],
        center_of_mass: [0.0; 3],
        linear_velocity: [0.0; 3],
        angular_velocity: [0.0; 3],
        inv_mass: 1.0,
        inv_inertia: [1.0, 0.0, 0.0, 1.0, 0.0, 1.0],
    };

    /// An anchored body at the origin.
    pub const ANCHORED: Body = Body {
        anchored: true,
        inv_mass: 0.0,
        inv_inertia: [0.0; 6],
        ..Body::UNIT
    };
}

impl Joint {
    /// A joint of a kind at both bodies' origins, with what the kind must have and nothing else.
    pub fn plain(kind: u32, body1: u32, body2: u32) -> Joint {
        let basis = match kind {
            TETHER => [0.0; 4],
            _ => [0.0, 0.0, 0.0, 1.0],
        };
        let axis = match kind {
            HINGE | SLIDE | BALL => [0.0, 0.0, 1.0],
            _ => [0.0; 3],
        };
        Joint {
            kind,
            body1,
            body2,
            limit1: kind == TETHER,
            limit2: false,
            motor: 0,
            zero: 0,
            anchor1: [0.0; 3],
            anchor2: [0.0; 3],
            basis1: basis,
            basis2: basis,
            axis,
            compliances: [0.0; 4],
            limit1_range: [0.0; 2],
            limit2_range: [0.0; 2],
            motor_numbers: [0.0; 5],
            breaking_load: 0.0,
        }
    }
}

// ---------------------------------------------------------------------------------------------------------------------------- encoding

struct Writer {
    bytes: Vec<u8>,
    bits: usize,
}

impl Writer {
    fn put(&mut self, width: usize, value: u32) {
        for i in (0..width).rev() {
            if self.bits.is_multiple_of(8) {
                self.bytes.push(0);
            }
            let bit = (value >> i & 1) as u8;
            *self.bytes.last_mut().unwrap() |= bit << (7 - self.bits % 8);
            self.bits += 1;
        }
    }

    fn floats(&mut self, numbers: &[f32]) {
        // Each record's bit fields fill whole bytes.
        for number in numbers {
            self.bytes.extend(number.to_bits().to_be_bytes());
            self.bits += 32;
        }
    }
}

struct Reader<'a> {
    bytes: &'a [u8],
    bits: usize,
}

impl Reader<'_> {
    fn take(&mut self, width: usize) -> u32 {
        // Few bits, with floats behind them: they lie in the four bytes from the one in which they begin.
        let at = self.bits / 8;
        let word = u32::from_be_bytes(self.bytes[at..at + 4].try_into().unwrap());
        let value = word << (self.bits % 8) >> (32 - width);
        self.bits += width;
        value
    }

    fn flag(&mut self) -> bool {
        self.take(1) == 1
    }

    fn floats<const N: usize>(&mut self) -> [f32; N] {
        // Each record's bit fields fill whole bytes.
        let start = self.bits / 8;
        self.bits += 32 * N;
        std::array::from_fn(|i| {
            let at = start + 4 * i;
            f32::from_bits(u32::from_be_bytes(
                self.bytes[at..at + 4].try_into().unwrap(),
            ))
        })
    }
}

impl Card {
    /// The card's bytes. One of no edition is laid out as one of the first.
    pub fn encode(&self) -> Vec<u8> {
        let edition = Edition::of_number(self.edition).unwrap_or(EDITION_1);
        let mut w = Writer {
            bytes: Vec::new(),
            bits: 0,
        };
        w.put(8, self.edition);
        w.put(edition.count_bits, self.bodies.len() as u32);
        w.put(edition.count_bits, self.joints.len() as u32);
        w.put(edition.rate_bits, self.rate);
        w.put(edition.zero_bits, self.zero);
        w.floats(&[self.gravity, self.warm_coefficient]);
        for body in &self.bodies {
            w.put(1, body.anchored as u32);
            for lock in body.locks {
                w.put(1, lock as u32);
            }
            w.put(8, body.dominance as u8 as u32);
            w.put(4, body.zero);
            w.floats(&body.position);
            w.floats(&body.rotation);
            w.floats(&body.center_of_mass);
            w.floats(&body.linear_velocity);
            w.floats(&body.angular_velocity);
            w.floats(&[body.inv_mass]);
            w.floats(&body.inv_inertia);
        }
        for joint in &self.joints {
            w.put(3, joint.kind);
            w.put(edition.body_number_bits, joint.body1);
            w.put(edition.body_number_bits, joint.body2);
            w.put(1, joint.limit1 as u32);
            w.put(1, joint.limit2 as u32);
            w.put(2, joint.motor);
            w.put(edition.joint_zero_bits, joint.zero);
            w.floats(&joint.anchor1);
            w.floats(&joint.anchor2);
            w.floats(&joint.basis1);
            w.floats(&joint.basis2);
            w.floats(&joint.axis);
            w.floats(&joint.compliances);
            w.floats(&joint.limit1_range);
            w.floats(&joint.limit2_range);
            w.floats(&joint.motor_numbers);
            if edition.has_loads() {
                w.floats(&[joint.breaking_load]);
            }
        }
        w.bytes
    }

    /// Takes the fields of a card of an edition whose length is the one that its counts give.
    fn decode(&mut self, bytes: &[u8], edition: &Edition) {
        let mut r = Reader { bytes, bits: 0 };
        self.edition = r.take(8);
        let bodies = r.take(edition.count_bits);
        let joints = r.take(edition.count_bits);
        self.rate = r.take(edition.rate_bits);
        self.zero = r.take(edition.zero_bits);
        [self.gravity, self.warm_coefficient] = r.floats();
        let body = |r: &mut Reader| Body {
            anchored: r.flag(),
            locks: [r.flag(), r.flag(), r.flag()],
            dominance: r.take(8) as u8 as i8,
            zero: r.take(4),
            position: r.floats(),
            rotation: r.floats(),
            center_of_mass: r.floats(),
            linear_velocity: r.floats(),
            angular_velocity: r.floats(),
            inv_mass: r.floats::<1>()[0],
            inv_inertia: r.floats(),
        };
        let joint = |r: &mut Reader| Joint {
            kind: r.take(3),
            body1: r.take(edition.body_number_bits),
            body2: r.take(edition.body_number_bits),
            limit1: r.flag(),
            limit2: r.flag(),
            motor: r.take(2),
            zero: r.take(edition.joint_zero_bits),
            anchor1: r.floats(),
            anchor2: r.floats(),
            basis1: r.floats(),
            basis2: r.floats(),
            axis: r.floats(),
            compliances: r.floats(),
            limit1_range: r.floats(),
            limit2_range: r.floats(),
            motor_numbers: r.floats(),
            breaking_load: match edition.has_loads() {
                true => r.floats::<1>()[0],
                false => 0.0,
            },
        };
        self.bodies.clear();
        self.bodies.extend((0..bodies).map(|_| body(&mut r)));
        self.joints.clear();
        self.joints.extend((0..joints).map(|_| joint(&mut r)));
    }

    pub fn dt(&self) -> f32 {
        1.0 / self.rate as f32
    }

    pub fn state_length(&self) -> usize {
        BODY_NUMBERS * self.bodies.len() + JOINT_NUMBERS * self.joints.len()
    }
}

// ------------------------------------------------------------------------------------------------------------------------------- checks

/// The card's fields where none of [`REFUSALS`] applies, else the number of the first that does.
pub fn check(bytes: &[u8]) -> Result<Card, u32> {
    let mut card = Card::default();
    check_into(&mut card, bytes)?;
    Ok(card)
}

/// `check` into a card whose room for bodies and joints is used again; what it holds after a refusal has no meaning.
/// Each check goes over the whole card before the next begins.
pub fn check_into(card: &mut Card, bytes: &[u8]) -> Result<(), u32> {
    if bytes.len() < LEAST_BYTES {
        return Err(1);
    }
    let mut header = Reader { bytes, bits: 0 };
    let Some(edition) = Edition::of_number(header.take(8)) else {
        return Err(2);
    };
    let bodies = header.take(edition.count_bits) as usize;
    let joints = header.take(edition.count_bits) as usize;
    if bodies == 0 || bodies > edition.most || joints > edition.most {
        return Err(3);
    }
    let rate = header.take(edition.rate_bits);
    if !(SLOWEST..=edition.fastest).contains(&rate) {
        return Err(4);
    }
    if bytes.len() != edition.card_bytes(bodies, joints) {
        return Err(5);
    }
    card.decode(bytes, &edition);
    if card.zero != 0 || !card.bodies.iter().all(body_fits) || !card.joints.iter().all(joint_fits) {
        return Err(6);
    }
    if card.bodies.iter().any(|body| body.dominance != 0) {
        return Err(17);
    }
    if !within(&[card.gravity, card.warm_coefficient])
        || card.warm_coefficient < 0.0
        || !card.bodies.iter().all(body_in_range)
        || !card.joints.iter().all(joint_in_range)
    {
        return Err(7);
    }
    if card.joints.iter().any(|joint| !joint.angles_in_reach()) {
        return Err(19);
    }
    if card.joints.iter().any(|joint| {
        joint.limit1_range[0] > joint.limit1_range[1]
            || joint.limit2_range[0] > joint.limit2_range[1]
    }) {
        return Err(8);
    }
    if !card.bodies.iter().all(|body| unit(&body.rotation)) || !card.joints.iter().all(joint_units)
    {
        return Err(9);
    }
    if !card
        .joints
        .iter()
        .all(|joint| bodies_named(&card.bodies, joint))
    {
        return Err(10);
    }
    Ok(())
}

/// Whether all are so. It looks at each, which takes less time than to stop at the first that is not.
fn each(numbers: &[f32], so: impl Fn(f32) -> bool) -> bool {
    numbers.iter().fold(true, |all, number| all & so(*number))
}

pub fn finite(numbers: &[f32]) -> bool {
    each(numbers, f32::is_finite)
}

fn clear(numbers: &[f32]) -> bool {
    each(numbers, |number| number.to_bits() == 0)
}

/// 6 on a body.
fn body_fits(body: &Body) -> bool {
    let unused_clear = !body.anchored
        || body.locks == [false; 3]
            && body.dominance == 0
            && clear(&body.linear_velocity)
            && clear(&body.angular_velocity)
            && clear(&[body.inv_mass])
            && clear(&body.inv_inertia);
    body.zero == 0 && unused_clear
}

/// 6 on a joint.
fn joint_fits(joint: &Joint) -> bool {
    // What a kind may have: bases, an axis, how many compliances, the first limit, the second limit, a motor.
    let (bases, axis, compliances, limit1, limit2, motor) = match joint.kind {
        FIXED => (true, false, 2, false, false, false),
        HINGE => (true, true, 3, true, false, true),
        SLIDE => (true, true, 2, true, false, true),
        BALL => (true, true, 3, true, true, false),
        TETHER => (false, false, 1, true, false, false),
        _ => return false,
    };
    joint.zero == 0
        && (limit1 || !joint.limit1)
        && (joint.kind != TETHER || joint.limit1)
        && (limit2 || !joint.limit2)
        && (motor || joint.motor == 0)
        && (bases || clear(&joint.basis1) && clear(&joint.basis2))
        && (axis || clear(&joint.axis))
        && clear(&joint.compliances[compliances..])
        && (joint.limit1 || clear(&joint.limit1_range))
        && (joint.limit2 || clear(&joint.limit2_range))
        && (joint.motor != 0 || clear(&joint.motor_numbers))
}

/// At most 1,024 in size, which no infinity and no NaN is.
fn within(numbers: &[f32]) -> bool {
    each(numbers, |number| number.abs() <= 1024.0)
}

/// A cap or a breaking load, up to the largest f32.
fn not_negative(number: f32) -> bool {
    number.is_finite() && number >= 0.0
}

/// 7 on a body.
fn body_in_range(body: &Body) -> bool {
    within(&body.position)
        && within(&body.rotation)
        && within(&body.center_of_mass)
        && within(&body.linear_velocity)
        && within(&body.angular_velocity)
        && within(&[body.inv_mass])
        && within(&body.inv_inertia)
        && body.inv_mass >= 0.0
}

/// 7 on a joint.
fn joint_in_range(joint: &Joint) -> bool {
    let [target_velocity, target_position, cap, model1, model2] = joint.motor_numbers;
    within(&joint.anchor1)
        && within(&joint.anchor2)
        && within(&joint.basis1)
        && within(&joint.basis2)
        && within(&joint.axis)
        && within(&joint.compliances)
        && within(&joint.limit1_range)
        && within(&joint.limit2_range)
        && within(&[target_velocity, target_position, model1, model2])
        && not_negative(cap)
        && not_negative(joint.breaking_load)
        && !joint.compliances.iter().any(|compliance| *compliance < 0.0)
}

impl Joint {
    /// 19: the angle limits in use, a hinge's and both of a ball, are at most 7 in size.
    pub fn angles_in_reach(&self) -> bool {
        let in_reach = |range: &[f32; 2]| each(range, |angle| angle.abs() <= 7.0);
        match self.kind {
            HINGE => !self.limit1 || in_reach(&self.limit1_range),
            BALL => {
                (!self.limit1 || in_reach(&self.limit1_range))
                    && (!self.limit2 || in_reach(&self.limit2_range))
            }
            _ => true,
        }
    }
}

/// 9: the squares summed in f32, left to right, lie within 1 ± 2^-10.
fn unit(numbers: &[f32]) -> bool {
    let mut sum = numbers[0] * numbers[0];
    for number in &numbers[1..] {
        sum += number * number;
    }
    (1.0 - 1.0 / 1024.0..=1.0 + 1.0 / 1024.0).contains(&sum)
}

fn joint_units(joint: &Joint) -> bool {
    let bases = joint.kind == TETHER || unit(&joint.basis1) && unit(&joint.basis2);
    let axis = joint.kind == FIXED || joint.kind == TETHER || unit(&joint.axis);
    bases && axis
}

fn bodies_named(bodies: &[Body], joint: &Joint) -> bool {
    let (body1, body2) = (joint.body1 as usize, joint.body2 as usize);
    body1 < bodies.len()
        && body2 < bodies.len()
        && body1 != body2
        && !(bodies[body1].anchored && bodies[body2].anchored)
}

/// 11.
pub fn check_state_length(card: &Card, state: &[f32]) -> Result<(), u32> {
    if state.len() == card.state_length() {
        Ok(())
    } else {
        Err(11)
    }
}

/// At most 4,096 in size, which no infinity and no NaN is.
pub fn position_in_range(position: &[f32]) -> bool {
    each(position, |number| number.abs() <= 4096.0)
}

/// 12 and 21, of a state of the right length.
pub fn check_state_numbers(card: &Card, state: &[f32]) -> Result<(), u32> {
    let (bodies, joints) = state.split_at(BODY_NUMBERS * card.bodies.len());
    let near = bodies
        .chunks_exact(BODY_NUMBERS)
        .all(|body| position_in_range(&body[..3]));
    let whole_or_broken = |joint: &[f32]| {
        [0.0f32, 1.0]
            .map(f32::to_bits)
            .contains(&joint[BROKEN].to_bits())
    };
    if !(finite(state) && near) {
        Err(12)
    } else if !joints.chunks_exact(JOINT_NUMBERS).all(whole_or_broken) {
        Err(21)
    } else {
        Ok(())
    }
}

// ---------------------------------------------------------------------------------------------------------------- the solver's records

impl Body {
    /// The card's six numbers are along the body's own axes; the solver's are turned by the rotation that the tick finds.
    pub fn inertia(&self, rotation: [f32; 4]) -> solver::Inertia {
        if self.anchored {
            return solver::Inertia::dummy();
        }
        solver::Inertia {
            inv_mass: self.inv_mass,
            inv_inertia: math::turned_tensor(rotation, self.inv_inertia),
            dominance: self.dominance as i16,
            locks: self.locks,
        }
    }
}

impl Joint {
    pub fn solver_joint(&self) -> solver::Joint {
        let [target_velocity, target_position, cap, model1, model2] = self.motor_numbers;
        let model = match self.motor {
            0 => None,
            1 => Some(solver::Model::SpringDamper {
                frequency: model1,
                damping_ratio: model2,
            }),
            2 => Some(solver::Model::AccelerationBased {
                stiffness: model1,
                damping: model2,
            }),
            _ => Some(solver::Model::ForceBased {
                stiffness: model1,
                damping: model2,
            }),
        };
        solver::Joint {
            kind: match self.kind {
                FIXED => solver::Kind::Fixed,
                HINGE => solver::Kind::Hinge,
                SLIDE => solver::Kind::Slide,
                BALL => solver::Kind::Ball,
                TETHER => solver::Kind::Tether,
                other => panic!("no kind has the number {other}"),
            },
            anchor1: self.anchor1,
            anchor2: self.anchor2,
            basis1: self.basis1,
            basis2: self.basis2,
            axis: self.axis,
            compliances: self.compliances,
            limit1: self.limit1.then_some(self.limit1_range),
            limit2: self.limit2.then_some(self.limit2_range),
            motor: model.map(|model| solver::Motor {
                target_velocity,
                target_position,
                cap,
                model,
            }),
        }
    }

    /// Which of the joint's four totals is its motor's.
    pub fn motor_total(&self) -> Option<usize> {
        match self.kind {
            HINGE => Some(3),
            SLIDE => Some(2),
            _ => None,
        }
    }
}

#[cfg(test)]
impl Card {
    /// Document 01's example: one body, no joints, 16 ticks a second, an x velocity of 16.
    pub fn example() -> Card {
        Card {
            edition: 1,
            rate: 16,
            zero: 0,
            gravity: 0.0,
            warm_coefficient: 0.0,
            bodies: vec![Body {
                linear_velocity: [16.0, 0.0, 0.0],
                inv_mass: 0.0,
                inv_inertia: [0.0; 6],
                ..Body::UNIT
            }],
            joints: vec![],
        }
    }
}

#[cfg(test)]
mod tests {
    use super::*;

    /// A moving and an anchored body, and one joint of the kind between them.
    fn pair(kind: u32) -> Card {
        Card {
            edition: 1,
            rate: 64,
            zero: 0,
            gravity: -9.75,
            warm_coefficient: 0.5,
            bodies: vec![Body::UNIT, Body::ANCHORED],
            joints: vec![Joint::plain(kind, 0, 1)],
        }
    }

    fn answer(card: &Card) -> u32 {
        check(&card.encode()).err().unwrap_or(0)
    }

    /// Checks what the pair of a kind answers after an edit.
    fn expect(kind: u32, number: u32, edit: impl Fn(&mut Card)) {
        let mut card = pair(kind);
        edit(&mut card);
        assert_eq!(answer(&card), number, "{card:?}");
    }

    #[test]
    fn the_documents_card() {
        let bytes = Card::example().encode();
        assert_eq!(bytes.len(), 106);
        assert!(check(&bytes).is_ok());
        assert_eq!(check(&bytes[..105]).err(), Some(5));
        let slow = Card {
            rate: 15,
            ..Card::example()
        };
        assert_eq!(answer(&slow), 4);
    }

    #[test]
    fn fields_come_back() {
        let mut card = pair(HINGE);
        card.joints[0].motor = 2;
        card.joints[0].motor_numbers = [1.0, -2.0, 3.0, 4.0, 5.0];
        card.bodies[0].locks = [false, true, false];
        let bytes = card.encode();
        assert_eq!(bytes[0], 1);
        assert_eq!(bytes.len(), 12 + 2 * 94 + 123);
        assert_eq!(format!("{:?}", check(&bytes).unwrap()), format!("{card:?}"));
    }

    #[test]
    fn header() {
        let bytes = Card::example().encode();
        assert_eq!(check(&[]).err(), Some(1));
        assert_eq!(check(&bytes[..11]).err(), Some(1));
        assert_eq!(check(&bytes[..12]).err(), Some(5));
        for (edition, number) in [(0, 2), (1, 0), (2, 0), (3, 0), (4, 2), (255, 2)] {
            expect(BALL, number, |card| card.edition = edition);
        }
        for edition in EDITIONS {
            limits_of(&edition);
        }
    }

    /// Both sides of each limit of an edition's header.
    fn limits_of(edition: &Edition) {
        let expect = |number: u32, edit: &dyn Fn(&mut Card)| {
            expect(BALL, number, |card| {
                card.edition = edition.number;
                edit(card);
            })
        };
        for (rate, number) in [
            (0, 4),
            (15, 4),
            (16, 0),
            (edition.fastest, 0),
            (edition.fastest + 1, 4),
            (edition.last_rate(), 4),
        ] {
            expect(number, &|card| card.rate = rate);
        }
        expect(0, &|card| card.zero = 0);
        for bit in 0..edition.zero_bits {
            expect(6, &|card| card.zero = 1 << bit);
        }
        for bit in 0..edition.joint_zero_bits {
            expect(6, &|card| card.joints[0].zero = 1 << bit);
        }
        for (count, number) in [
            (0, 3),
            (2, 0),
            (edition.most, 0),
            (edition.most + 1, 3),
            (edition.last_count(), 3),
        ] {
            expect(number, &|card| card.bodies = vec![Body::UNIT; count]);
        }
        for (count, number) in [(0, 0), (edition.most, 0), (edition.most + 1, 3)] {
            expect(number, &|card| {
                card.joints = vec![Joint::plain(BALL, 0, 1); count]
            });
        }
    }

    #[test]
    fn bytes_of_edition_2() {
        let mut card = pair(HINGE);
        card.edition = 2;
        card.rate = 4000;
        card.joints[0].motor = 3;
        let bytes = card.encode();
        assert_eq!(bytes.len(), 16 + 2 * 94 + 123);
        assert_eq!(bytes[..8], [2, 2, 1, 0x0f, 0xa0, 0, 0, 0]);
        assert_eq!(bytes[8..12], (-9.75f32).to_be_bytes());
        // Kind 3 bits, bodies 8 and 8, limits 1 and 1, motor 2, zero 1.
        assert_eq!(bytes[204..207], [0b001_00000, 0b000_00000, 0b001_00_11_0]);
        assert_eq!(format!("{:?}", check(&bytes).unwrap()), format!("{card:?}"));
        for length in 12..bytes.len() {
            assert_eq!(check(&bytes[..length]).err(), Some(5));
        }
        for (place, byte, number) in [
            (0, 4, 2),
            (1, 0, 3),
            (1, 200, 5),
            (1, 201, 3),
            (2, 200, 5),
            (2, 201, 3),
            (4, 0xa1, 4),
        ] {
            let mut bytes = bytes.clone();
            bytes[place] = byte;
            assert_eq!(check(&bytes[..12]).err(), Some(number));
            assert_eq!(check(&bytes[..11]).err(), Some(1));
        }
    }

    #[test]
    fn kinds() {
        for kind in 0..8 {
            let mut card = pair(FIXED);
            card.joints[0] = Joint::plain(kind, 0, 1);
            assert_eq!(answer(&card), if kind > 4 { 6 } else { 0 }, "{kind}");
        }
    }

    #[test]
    fn limit_and_motor_bits() {
        let expected = [
            // kind, first limit, second limit, motor
            (FIXED, 6, 6, 6),
            (HINGE, 0, 6, 0),
            (SLIDE, 0, 6, 0),
            (BALL, 0, 0, 6),
            (TETHER, 0, 6, 6),
        ];
        for (kind, limit1, limit2, motor) in expected {
            expect(kind, limit1, |card| card.joints[0].limit1 = true);
            expect(kind, limit2, |card| card.joints[0].limit2 = true);
            for model in 1..4 {
                expect(kind, motor, |card| card.joints[0].motor = model);
            }
        }
        expect(TETHER, 6, |card| card.joints[0].limit1 = false);
    }

    #[test]
    fn fields_without_use() {
        // -0.0 is a set bit, and a NaN there is 6 and not 7.
        for number in [-0.0, f32::NAN, 1.0] {
            expect(FIXED, 6, |card| card.joints[0].axis[2] = number);
            expect(TETHER, 6, |card| card.joints[0].axis[0] = number);
            expect(TETHER, 6, |card| card.joints[0].basis1[3] = number);
            expect(TETHER, 6, |card| card.joints[0].basis2[0] = number);
            for (kind, used) in [(FIXED, 2), (HINGE, 3), (SLIDE, 2), (BALL, 3), (TETHER, 1)] {
                for place in used..4 {
                    expect(kind, 6, |card| card.joints[0].compliances[place] = number);
                }
            }
            for kind in [FIXED, HINGE, SLIDE, BALL] {
                expect(kind, 6, |card| card.joints[0].limit1_range[1] = number);
            }
            for kind in 0..5 {
                expect(kind, 6, |card| card.joints[0].limit2_range[0] = number);
                for place in 0..5 {
                    expect(kind, 6, |card| card.joints[0].motor_numbers[place] = number);
                }
            }
            expect(BALL, 6, |card| card.bodies[1].linear_velocity[0] = number);
            expect(BALL, 6, |card| card.bodies[1].angular_velocity[2] = number);
            expect(BALL, 6, |card| card.bodies[1].inv_mass = number);
            expect(BALL, 6, |card| card.bodies[1].inv_inertia[5] = number);
        }
        expect(BALL, 6, |card| card.bodies[1].locks[1] = true);
        for bit in 0..8 {
            let dominance = (1u8 << bit) as i8;
            expect(BALL, 17, |card| card.bodies[0].dominance = dominance);
            expect(BALL, 6, |card| card.bodies[1].dominance = dominance);
        }
        expect(BALL, 6, |card| {
            card.bodies[0].dominance = 1;
            card.joints[0].zero = 1;
        });
        expect(BALL, 17, |card| {
            card.bodies[0].dominance = 1;
            card.gravity = f32::NAN;
        });
        expect(BALL, 0, |card| card.bodies[1].center_of_mass[1] = -0.0);
        for zero in [1, 8] {
            expect(BALL, 6, |card| card.bodies[0].zero = zero);
            expect(BALL, 6, |card| card.bodies[1].zero = zero);
        }
        // A kind's listed compliances have use though their limit is off.
        for (kind, used) in [(FIXED, 2), (HINGE, 3), (SLIDE, 2), (BALL, 3), (TETHER, 1)] {
            for place in 0..used {
                expect(kind, 0, |card| card.joints[0].compliances[place] = 0.25);
            }
        }
    }

    #[test]
    fn range_of_floats() {
        let cases = [
            (1024.0, 0),
            (-1024.0, 0),
            (1024f32.next_up(), 7),
            (-1024f32.next_up(), 7),
            (f32::INFINITY, 7),
            (f32::NAN, 7),
            (-0.0, 0),
        ];
        for (number, refusal) in cases {
            expect(BALL, refusal, |card| card.gravity = number);
            expect(BALL, refusal, |card| card.bodies[0].position[0] = number);
            expect(BALL, refusal, |card| card.bodies[1].position[2] = number);
            expect(BALL, refusal, |card| {
                card.bodies[1].center_of_mass[0] = number
            });
            expect(BALL, refusal, |card| {
                card.bodies[0].linear_velocity[1] = number
            });
            expect(BALL, refusal, |card| {
                card.bodies[0].angular_velocity[1] = number
            });
            expect(BALL, refusal, |card| card.bodies[0].inv_inertia[1] = number);
            expect(BALL, refusal, |card| card.joints[0].anchor1[0] = number);
            expect(TETHER, refusal, |card| card.joints[0].anchor2[2] = number);
            expect(TETHER, refusal, |card| {
                card.joints[0].limit1_range = [number; 2]
            });
            for place in [0, 1, 3, 4] {
                expect(HINGE, refusal, |card| {
                    card.joints[0].motor = 1;
                    card.joints[0].motor_numbers[place] = number;
                });
            }
        }
        let not_negative = [
            (0.0, 0),
            (-0.0, 0),
            (-f32::from_bits(1), 7),
            (-1.0, 7),
            (1024.0, 0),
            (1024f32.next_up(), 7),
        ];
        for (number, refusal) in not_negative {
            expect(BALL, refusal, |card| card.warm_coefficient = number);
            expect(BALL, refusal, |card| card.bodies[0].inv_mass = number);
            for (kind, used) in [(FIXED, 2), (HINGE, 3), (SLIDE, 2), (BALL, 3), (TETHER, 1)] {
                for place in 0..used {
                    expect(kind, refusal, |card| {
                        card.joints[0].compliances[place] = number
                    });
                }
            }
        }
        let caps = [
            (0.0, 0),
            (-0.0, 0),
            (-f32::from_bits(1), 7),
            (f32::MAX, 0),
            (1024f32.next_up(), 0),
            (f32::INFINITY, 7),
            (f32::NAN, 7),
        ];
        for (number, refusal) in caps {
            for kind in [HINGE, SLIDE] {
                expect(kind, refusal, |card| {
                    card.joints[0].motor = 3;
                    card.joints[0].motor_numbers[2] = number;
                });
            }
        }
    }

    #[test]
    fn angles_in_reach() {
        for (range, angle, other) in [
            ([7.0, 7.0], 0, 0),
            ([-7.0, -7.0], 0, 0),
            ([-7.0, 7.0], 0, 0),
            ([0.0, 7f32.next_up()], 19, 0),
            ([-7f32.next_up(), 0.0], 19, 0),
            ([1024.0, 1024.0], 19, 0),
            ([8.0, 1.0], 19, 8),
        ] {
            for (kind, number) in [
                (HINGE, angle),
                (BALL, angle),
                (SLIDE, other),
                (TETHER, other),
            ] {
                expect(kind, number, |card| {
                    card.joints[0].limit1 = true;
                    card.joints[0].limit1_range = range;
                });
            }
            expect(BALL, angle, |card| {
                card.joints[0].limit2 = true;
                card.joints[0].limit2_range = range;
            });
            for kind in [HINGE, BALL] {
                expect(kind, 6, |card| card.joints[0].limit1_range = range);
                expect(kind, 6, |card| card.joints[0].limit2_range = range);
            }
        }
    }

    #[test]
    fn limits_in_order() {
        for (range, number) in [
            ([1.0, 1.0], 0),
            ([1.0, 1f32.next_up()], 0),
            ([1f32.next_up(), 1.0], 8),
            ([0.0, -0.0], 0),
        ] {
            for kind in [HINGE, SLIDE, BALL, TETHER] {
                expect(kind, number, |card| {
                    card.joints[0].limit1 = true;
                    card.joints[0].limit1_range = range;
                });
            }
            expect(BALL, number, |card| {
                card.joints[0].limit2 = true;
                card.joints[0].limit2_range = range;
            });
        }
    }

    #[test]
    fn unit_lengths() {
        for (w, number) in [
            (1.0, 0),
            (-1.0, 0),
            (0.9996, 0),
            (0.9995, 9),
            (1.0004, 0),
            (1.0005, 9),
            (0.0, 9),
        ] {
            expect(BALL, number, |card| card.bodies[0].rotation[3] = w);
            expect(BALL, number, |card| card.bodies[1].rotation[3] = w);
            for kind in [FIXED, HINGE, SLIDE, BALL] {
                expect(kind, number, |card| card.joints[0].basis1[3] = w);
                expect(kind, number, |card| card.joints[0].basis2[3] = w);
            }
            for kind in [HINGE, SLIDE, BALL] {
                expect(kind, number, |card| card.joints[0].axis[2] = w);
            }
        }
        // 31² + 7² + 3² + 2² is 1,023 and 32² + 1² is 1,025: both borders exactly, and the next sums beyond.
        let at = |x: f32, y: f32, z: f32, w: f32| [x / 32.0, y / 32.0, z / 32.0, w / 32.0];
        let small = 1.0 / 32768.0;
        for (rotation, number) in [
            (at(31.0, 7.0, 3.0, 2.0), 0),
            (at(31.0, 7.0, 3.0, 2.0 - small), 9),
            (at(1.0, 0.0, 0.0, 32.0), 0),
            (at(1.0 + 2.0 * small, 0.0, 0.0, 32.0), 9),
        ] {
            expect(BALL, number, |card| card.bodies[0].rotation = rotation);
            expect(BALL, number, |card| card.joints[0].basis2 = rotation);
        }
    }

    #[test]
    fn named_bodies() {
        for (body1, body2, number) in [(0, 1, 0), (1, 0, 0), (0, 2, 10), (31, 0, 10), (0, 0, 10)] {
            expect(BALL, number, |card| {
                card.joints[0].body1 = body1;
                card.joints[0].body2 = body2;
            });
        }
        for (body2, number) in [(32, 0), (199, 0), (200, 10), (255, 10)] {
            expect(BALL, number, |card| {
                card.edition = 2;
                card.bodies = vec![Body::UNIT; 200];
                card.joints[0].body2 = body2;
            });
        }
        expect(BALL, 10, |card| card.bodies[0] = Body::ANCHORED);
    }

    #[test]
    fn earlier_refusals_win() {
        // 6 in the last joint before 7 in the header, 7 there before 8, and so on.
        expect(BALL, 6, |card| {
            card.gravity = f32::NAN;
            card.joints[0].zero = 1;
        });
        expect(BALL, 7, |card| {
            card.joints[0].limit1 = true;
            card.joints[0].limit1_range = [1.0, 0.0];
            card.joints[0].compliances[2] = -1.0;
        });
        expect(BALL, 8, |card| {
            card.bodies[0].rotation[3] = 2.0;
            card.joints[0].limit2 = true;
            card.joints[0].limit2_range = [1.0, 0.0];
        });
        expect(BALL, 9, |card| {
            card.joints[0].body2 = 7;
            card.joints[0].axis[2] = 2.0;
        });
    }

    #[test]
    fn states() {
        let card = pair(SLIDE);
        assert_eq!(card.state_length(), 39);
        let state = vec![0.0; 39];
        assert!(check_state_length(&card, &state).is_ok());
        assert_eq!(check_state_length(&card, &state[1..]).err(), Some(11));
        assert_eq!(check_state_length(&card, &[0.0; 40]).err(), Some(11));
        for place in 0..38 {
            let position = place < 26 && place % 13 < 3;
            for (number, refused) in [
                (f32::NAN, true),
                (f32::INFINITY, true),
                (f32::NEG_INFINITY, true),
                (4096.0, false),
                (-4096.0, false),
                (4096f32.next_up(), position),
                (-4096f32.next_up(), position),
                (f32::MAX, position),
            ] {
                let mut state = state.clone();
                state[place] = number;
                assert_eq!(check_state_numbers(&card, &state) == Err(12), refused);
            }
        }
        for (number, refused) in [
            (0.0, false),
            (1.0, false),
            (-0.0, true),
            (2.0, true),
            (1f32.next_up(), true),
            (f32::from_bits(1), true),
        ] {
            let mut state = state.clone();
            state[38] = number;
            assert_eq!(check_state_numbers(&card, &state) == Err(21), refused);
        }
    }

    #[test]
    fn bytes_of_edition_3() {
        let mut card = pair(BALL);
        card.edition = 3;
        card.joints[0].breaking_load = f32::MAX;
        let bytes = card.encode();
        assert_eq!(bytes.len(), 16 + 2 * 94 + 127);
        assert_eq!(bytes[16 + 2 * 94 + 123..], f32::MAX.to_be_bytes());
        assert_eq!(format!("{:?}", check(&bytes).unwrap()), format!("{card:?}"));
        for (load, number) in [
            (0.0, 0),
            (-0.0, 0),
            (f32::from_bits(1), 0),
            (-f32::from_bits(1), 7),
            (f32::INFINITY, 7),
            (f32::NAN, 7),
        ] {
            card.joints[0].breaking_load = load;
            assert_eq!(answer(&card), number, "{load}");
        }
    }
}
