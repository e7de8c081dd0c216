//! Random and boundary inputs: numbers, poses, single joints, cards, damaged cards and states. Every draw follows from a seed.

use crate::card::{
    self, Body, Card, Edition, Joint, BALL, BODY_BYTES, BODY_NUMBERS, BROKEN, EDITIONS, EDITION_1,
    EDITION_2, EDITION_3, FIXED, HINGE, JOINT_NUMBERS, LEAST_BYTES, SLIDE, SLOWEST, TETHER,
};
use crate::large;
use crate::solver::{Inertia, Motion, Pose};
use crate::table;

/// Steele, Lea and Flood's SplitMix64.
#[derive(Clone, Debug)]
pub struct Random(u64);

impl Random {
    /// The draws of one case of a seed, whatever was drawn for the others.
    pub fn of_case(seed: u64, case: u64) -> Random {
        let mut random = Random(seed);
        let start = random.bits() ^ case.wrapping_mul(0xd1342543de82ef95);
        Random(start)
    }

    pub fn bits(&mut self) -> u64 {
        self.0 = self.0.wrapping_add(0x9e3779b97f4a7c15);
        let mut z = self.0;
        z = (z ^ z >> 30).wrapping_mul(0xbf58476d1ce4e5b9);
        z = (z ^ z >> 27).wrapping_mul(0x94d049bb133111eb);
        z ^ z >> 31
    }

    pub fn below(&mut self, count: usize) -> usize {
        (self.bits() % count as u64) as usize
    }

    pub fn one_in(&mut self, count: usize) -> bool {
        self.below(count) == 0
    }

    pub fn pick<T: Copy>(&mut self, from: &[T]) -> T {
        from[self.below(from.len())]
    }

    fn fraction(&mut self) -> f64 {
        (self.bits() >> 11) as f64 / (1u64 << 53) as f64
    }

    pub fn between(&mut self, low: f32, high: f32) -> f32 {
        (low as f64 + self.fraction() * (high as f64 - low as f64)) as f32
    }

    fn sign(&mut self) -> f32 {
        self.pick(&[1.0, -1.0])
    }
}

/// Where rules change, and the ends of the formats.
pub const BORDERS: [f32; 30] = [
    0.0,
    f32::from_bits(1),
    f32::from_bits(0x007fffff),
    f32::MIN_POSITIVE,
    f32::MAX,
    f32::INFINITY,
    f32::NAN,
    f32::EPSILON,
    // 2^-149 and 2^-126 as squares: about 2^-75 and 2^-63.
    f32::from_bits(0x1a000000),
    f32::from_bits(0x20000000),
    0.015625,
    16.0,
    0.5,
    1.0,
    2.0,
    3.0,
    0.25,
    std::f32::consts::FRAC_PI_2,
    std::f32::consts::PI,
    std::f32::consts::TAU,
    1024.0,
    4096.0,
    8388608.0,
    16777216.0,
    f32::from_bits(0x5f800000),
    f32::from_bits(0x34000001),
    f32::from_bits(0x33ffffff),
    0.03125,
    10.0,
    100.0,
];

impl Random {
    /// Any f32: every class of bit pattern.
    pub fn wild(&mut self) -> f32 {
        let size = match self.below(9) {
            8 => self.pick(&[f32::INFINITY, f32::NAN, f32::MAX, 0.0]),
            0 => f32::from_bits(self.bits() as u32),
            1 => {
                let border = self.pick(&BORDERS);
                let bits = border.to_bits() as i64 + self.below(5) as i64 - 2;
                f32::from_bits(bits.max(0) as u32)
            }
            2 => self.pick(&BORDERS),
            3 => self.between(0.0, 1.0),
            4 => self.between(0.0, 20.0),
            5 => self.below(17) as f32,
            6 => f32::from_bits(((self.below(254) as u32) << 23) | self.bits() as u32 & 0x7fffff),
            _ => f32::from_bits(self.bits() as u32 & 0x7fffff),
        };
        size * self.sign()
    }

    /// A NaN of any pattern, quiet or signalling.
    pub fn nan(&mut self) -> f32 {
        let payload = 1 + self.below((1 << 23) - 1) as u32;
        let sign = self.pick(&[0, 1 << 31]);
        f32::from_bits(sign | f32::INFINITY.to_bits() | payload)
    }

    /// A wild number that is finite.
    pub fn wild_finite(&mut self) -> f32 {
        loop {
            let number = self.wild();
            if number.is_finite() {
                return number;
            }
        }
    }

    /// A number as they come up in a linkage.
    pub fn ordinary(&mut self) -> f32 {
        let size = match self.below(8) {
            0 => 0.0,
            1 => self.below(5) as f32,
            2 => self.between(0.0, 0.01),
            3 => self.between(0.0, 20.0),
            4 => f32::from_bits((100 + self.below(34) as u32) << 23),
            _ => self.between(0.0, 2.0),
        };
        size * self.sign()
    }

    /// An ordinary number, or now and then a wild one.
    pub fn mixed(&mut self, one_in: usize) -> f32 {
        if self.one_in(one_in) {
            self.wild()
        } else {
            self.ordinary()
        }
    }

    pub fn ordinary3(&mut self) -> [f32; 3] {
        [self.ordinary(), self.ordinary(), self.ordinary()]
    }

    pub fn small3(&mut self, size: f32) -> [f32; 3] {
        [0; 3].map(|_| self.between(-size, size))
    }

    /// A unit vector: along an axis, between two, or anywhere.
    pub fn direction(&mut self) -> [f32; 3] {
        loop {
            let mut v = match self.below(4) {
                0 => {
                    let mut v = [0.0; 3];
                    v[self.below(3)] = 1.0;
                    v
                }
                1 => [0; 3].map(|_| self.below(2) as f64),
                _ => [0; 3].map(|_| self.fraction() * 2.0 - 1.0),
            };
            for x in &mut v {
                *x *= self.sign() as f64;
            }
            let length = (v[0] * v[0] + v[1] * v[1] + v[2] * v[2]).sqrt();
            if length > 0.01 {
                return v.map(|x| (x / length) as f32);
            }
        }
    }

    /// An angle: none, small, right, obtuse, straight, or any.
    pub fn angle(&mut self) -> f32 {
        use std::f32::consts::{FRAC_PI_2, PI};
        let size = match self.below(9) {
            0 => 0.0,
            1 => self.between(0.0, 1e-6),
            2 => self.between(0.0, 0.1),
            3 => FRAC_PI_2,
            4 => PI,
            5 => self.between(2.0, PI),
            6 => PI - self.between(0.0, 1e-3),
            _ => self.between(0.0, PI),
        };
        size * self.sign()
    }

    pub fn rotation(&mut self) -> [f32; 4] {
        let axis = self.direction();
        let angle = self.angle();
        let rotation = rotation_about(axis, angle);
        if self.one_in(4) {
            rotation.map(|x| -x)
        } else {
            rotation
        }
    }

    /// A rotation whose squares still sum to what the card takes.
    pub fn card_rotation(&mut self) -> [f32; 4] {
        let stretch = match self.below(4) {
            0 => self.between(1.0 - 4e-4, 1.0 + 4e-4),
            _ => 1.0,
        };
        self.rotation().map(|x| x * stretch)
    }

    pub fn rate(&mut self, fastest: u32) -> u32 {
        match self.below(4) {
            0 => self.pick(&[SLOWEST, fastest, 64]),
            1 => SLOWEST + self.below((fastest - SLOWEST) as usize + 1) as u32,
            _ => self.pick(&[30, 60, 64, 100, 120, 240]),
        }
    }

    pub fn compliance(&mut self) -> f32 {
        match self.below(6) {
            0 => self.pick(&[1e-8, 1e-6, 1e-4]),
            1 => 1.0 / 256.0,
            2 => self.between(0.0, 1.0),
            3 => self.pick(&[1.0, 1024.0, f32::from_bits(1), -0.0]),
            _ => 0.0,
        }
    }

    pub fn cap(&mut self) -> f32 {
        match self.below(8) {
            0 => f32::MAX,
            1 => f32::MAX.next_down(),
            2 => self.between(0.0, 0.01),
            3 => self.between(0.0, 1024.0),
            4 => self.pick(&[1e10, f32::from_bits(1), f32::MIN_POSITIVE, 1025.0, -0.0]),
            5 => self.between(0.0, 10.0),
            _ => 0.0,
        }
    }

    /// Zero for a third of them: a joint that never breaks.
    pub fn breaking_load(&mut self) -> f32 {
        match self.below(9) {
            0..3 => self.pick(&[0.0, 0.0, -0.0]),
            3 => self.pick(&[f32::MAX, f32::MAX.next_down(), 1e10]),
            4 => self.pick(&[f32::from_bits(1), f32::MIN_POSITIVE, 1e-6]),
            5 => self.between(0.0, 1.0),
            6 => self.between(0.0, 1024.0),
            _ => self.between(0.0, 32.0),
        }
    }

    /// An ordered range of angles.
    pub fn angle_range(&mut self) -> [f32; 2] {
        let ends = match self.below(6) {
            0 => [0.0, 0.0],
            5 => self.pick(&[[7.0, 7.0], [-7.0, -7.0], [-7.0, 7.0]]),
            1 => [-0.5, 0.5],
            2 => [self.between(-3.2, 3.2); 2],
            3 => [self.between(-7.0, 7.0), self.between(-7.0, 7.0)],
            _ => [self.between(-1.0, 1.0), self.between(-1.0, 1.0)],
        };
        ordered(ends)
    }

    pub fn distance_range(&mut self) -> [f32; 2] {
        let ends = match self.below(6) {
            0 => [0.0, 0.0],
            1 => [0.0, self.between(0.0, 2.0)],
            2 => [self.between(0.0, 3.0); 2],
            3 => [self.between(-2.0, 2.0), self.between(-2.0, 2.0)],
            4 => [-0.0, 0.0],
            _ => [self.between(0.0, 1.0), self.between(0.0, 4.0)],
        };
        ordered(ends)
    }

    /// Target velocity, target position, cap, the model's two.
    pub fn motor_numbers(&mut self, model: u32) -> [f32; 5] {
        let (first, second) = match model {
            1 => (self.between(0.0, 30.0), self.between(0.0, 3.0)),
            _ => (self.between(0.0, 500.0), self.between(0.0, 50.0)),
        };
        let first = if self.one_in(6) { 0.0 } else { first };
        let second = if self.one_in(6) { 0.0 } else { second };
        let target_velocity = if self.one_in(3) { 0.0 } else { self.ordinary() };
        let target_position = match self.below(4) {
            0 => 0.0,
            1 => self.between(-1024.0, 1024.0),
            _ => self.between(-7.0, 7.0),
        };
        [target_velocity, target_position, self.cap(), first, second]
    }

    pub fn inv_mass(&mut self) -> f32 {
        match self.below(10) {
            0 => 0.0,
            1 => self.pick(&[1024.0, f32::EPSILON, f32::from_bits(1), -0.0]),
            2 => 1.0,
            _ => self.between(0.01, 10.0),
        }
    }

    pub fn inv_inertia(&mut self) -> [f32; 6] {
        let size = |random: &mut Random| random.between(0.01, 12.0);
        match self.below(8) {
            0 => [0.0; 6],
            1 => {
                let i = self.pick(&[1.0, 6.0, 1024.0, f32::EPSILON]);
                [i, 0.0, 0.0, i, 0.0, i]
            }
            2 => [0; 6].map(|_| self.between(-10.0, 10.0)),
            3 | 4 => {
                let [a, b, c] = [size(self), size(self), size(self)];
                let small = a.min(b).min(c) * 0.3;
                [
                    a,
                    self.between(-small, small),
                    self.between(-small, small),
                    b,
                    self.between(-small, small),
                    c,
                ]
            }
            _ => [size(self), 0.0, 0.0, size(self), 0.0, size(self)],
        }
    }

    pub fn locks(&mut self) -> [bool; 3] {
        match self.below(5) {
            0 => [0; 3].map(|_| self.one_in(2)),
            _ => [false; 3],
        }
    }
}

pub fn ordered([a, b]: [f32; 2]) -> [f32; 2] {
    if a > b {
        [b, a]
    } else {
        [a, b]
    }
}

/// Worked out in f64 and rounded once.
pub fn rotation_about(axis: [f32; 3], angle: f32) -> [f32; 4] {
    let (sin, cos) = (angle as f64 / 2.0).sin_cos();
    let [x, y, z] = axis.map(|x| (x as f64 * sin) as f32);
    [x, y, z, cos as f32]
}

/// Ends at a right angle and at both its neighbours, or at zero.
pub fn right_angle_range(random: &mut Random) -> [f32; 2] {
    use std::f32::consts::FRAC_PI_2;
    let end = |random: &mut Random| {
        random.pick(&[
            FRAC_PI_2.next_down(),
            FRAC_PI_2,
            FRAC_PI_2.next_up(),
            FRAC_PI_2,
            0.0,
        ])
    };
    [-end(random), end(random)]
}

/// Rotations of two bodies, a quarter turn about z apart, whose lengths make a hinge's arc sine 2·z·w·s⁴: the next above 1 in size, above it, far above it or
/// infinite. A ball's swing has s², and the axes are apart where z is above w.
fn quarter_turns(random: &mut Random) -> [[f32; 4]; 2] {
    const ROOT_HALF: f32 = std::f32::consts::FRAC_1_SQRT_2;
    let (s, w) = random.pick(&[
        (1.0, ROOT_HALF),
        (1.0, ROOT_HALF.next_up()),
        (1.0, 0.75),
        (1.0, 1000.0),
        (1e8, 1e6),
    ]);
    let z = random.pick(&[w.next_down(), w, w.next_up()]) * random.sign();
    [[0.0, 0.0, 0.0, s], [0.0, 0.0, z, w]]
}

pub(crate) fn product(a: [f32; 4], b: [f32; 4]) -> [f32; 4] {
    let [ax, ay, az, aw] = a.map(f64::from);
    let [bx, by, bz, bw] = b.map(f64::from);
    [
        aw * bx + ax * bw + ay * bz - az * by,
        aw * by - ax * bz + ay * bw + az * bx,
        aw * bz + ax * by - ay * bx + az * bw,
        aw * bw - ax * bx - ay * by - az * bz,
    ]
    .map(|x| x as f32)
}

fn inverse([x, y, z, w]: [f32; 4]) -> [f32; 4] {
    [-x, -y, -z, w]
}

/// v turned by q, near enough to place a body.
fn turned(q: [f32; 4], v: [f32; 3]) -> [f32; 3] {
    let [x, y, z, _] = product(product(q, [v[0], v[1], v[2], 0.0]), inverse(q));
    [x, y, z]
}

fn plus(a: [f32; 3], b: [f32; 3]) -> [f32; 3] {
    [a[0] + b[0], a[1] + b[1], a[2] + b[2]]
}

fn minus(a: [f32; 3], b: [f32; 3]) -> [f32; 3] {
    [a[0] - b[0], a[1] - b[1], a[2] - b[2]]
}

// ------------------------------------------------------------------------------------------------------------------------- single joints

/// All that one joint's prepare, warm start and solve read.
#[derive(Clone, Debug)]
pub struct JointCase {
    pub joint: Joint,
    /// 0 none, 1 the first body, 2 the second.
    pub anchored: u32,
    pub pose1: Pose,
    pub pose2: Pose,
    /// The motor's total of the last tick; a slide's is in x.
    pub motor_total: [f32; 3],
    pub motion1: Motion,
    pub motion2: Motion,
    pub inertia1: Inertia,
    pub inertia2: Inertia,
    pub warm_coefficient: f32,
    pub dt: f32,
}

fn number_of_locks(locks: [bool; 3]) -> u32 {
    let [x, y, z] = locks.map(u32::from);
    x << 2 | y << 1 | z
}

fn locks_of_number(number: u32) -> [bool; 3] {
    [number & 4 != 0, number & 2 != 0, number & 1 != 0]
}

fn motion_of(numbers: &[f32]) -> Motion {
    Motion {
        linear_velocity: numbers[0..3].try_into().unwrap(),
        angular_velocity: numbers[3..6].try_into().unwrap(),
        delta_position: numbers[6..9].try_into().unwrap(),
        delta_rotation: numbers[9..13].try_into().unwrap(),
    }
}

pub fn motion_numbers(motion: &Motion) -> Vec<f32> {
    [
        &motion.linear_velocity[..],
        &motion.angular_velocity,
        &motion.delta_position,
        &motion.delta_rotation,
    ]
    .concat()
}

fn pose_of(numbers: &[f32]) -> Pose {
    Pose {
        position: numbers[0..3].try_into().unwrap(),
        rotation: numbers[3..7].try_into().unwrap(),
        center_of_mass: numbers[7..10].try_into().unwrap(),
    }
}

impl JointCase {
    /// How many of [`JointCase::numbers`] are whole: kind, limit bits, motor, anchored, locks.
    pub const WHOLE: usize = 6;
    pub const NUMBERS: usize = JointCase::WHOLE + 95;

    pub fn numbers(&self) -> Vec<f32> {
        let joint = &self.joint;
        let mut numbers = vec![
            joint.kind as f32,
            (joint.limit1 as u32 + 2 * joint.limit2 as u32) as f32,
            joint.motor as f32,
            self.anchored as f32,
            number_of_locks(self.inertia1.locks) as f32,
            number_of_locks(self.inertia2.locks) as f32,
        ];
        for part in [
            &joint.anchor1[..],
            &joint.anchor2,
            &joint.basis1,
            &joint.basis2,
            &joint.axis,
            &joint.compliances,
            &joint.limit1_range,
            &joint.limit2_range,
            &joint.motor_numbers,
        ] {
            numbers.extend(part);
        }
        for pose in [&self.pose1, &self.pose2] {
            numbers.extend(pose.position);
            numbers.extend(pose.rotation);
            numbers.extend(pose.center_of_mass);
        }
        numbers.extend(self.motor_total);
        numbers.extend(motion_numbers(&self.motion1));
        numbers.extend(motion_numbers(&self.motion2));
        for inertia in [&self.inertia1, &self.inertia2] {
            numbers.push(inertia.inv_mass);
            numbers.extend(inertia.inv_inertia);
        }
        numbers.extend([self.warm_coefficient, self.dt]);
        numbers
    }

    pub fn of_numbers(numbers: &[f32]) -> JointCase {
        let whole = |i: usize| numbers[i] as i32;
        let n = &numbers[JointCase::WHOLE..];
        let kind = (whole(0) as u32).min(4);
        let joint = Joint {
            kind,
            body1: 0,
            body2: 1,
            limit1: kind == TETHER || whole(1) & 1 != 0,
            limit2: whole(1) & 2 != 0,
            motor: whole(2) as u32 & 3,
            zero: 0,
            anchor1: n[0..3].try_into().unwrap(),
            anchor2: n[3..6].try_into().unwrap(),
            basis1: n[6..10].try_into().unwrap(),
            basis2: n[10..14].try_into().unwrap(),
            axis: n[14..17].try_into().unwrap(),
            compliances: n[17..21].try_into().unwrap(),
            limit1_range: n[21..23].try_into().unwrap(),
            limit2_range: n[23..25].try_into().unwrap(),
            motor_numbers: n[25..30].try_into().unwrap(),
            breaking_load: 0.0,
        };
        let inertia = |at: usize, locks: u32| Inertia {
            inv_mass: n[at],
            inv_inertia: n[at + 1..at + 7].try_into().unwrap(),
            dominance: 0,
            locks: locks_of_number(locks),
        };
        JointCase {
            joint,
            anchored: whole(3) as u32,
            pose1: pose_of(&n[30..40]),
            pose2: pose_of(&n[40..50]),
            motor_total: n[50..53].try_into().unwrap(),
            motion1: motion_of(&n[53..66]),
            motion2: motion_of(&n[66..79]),
            inertia1: inertia(79, whole(4) as u32),
            inertia2: inertia(86, whole(5) as u32),
            warm_coefficient: n[93],
            dt: n[94],
        }
    }

    /// Whether avian's own assertions hold, ordered limits and a finite time step, inverse masses are numbers, so that there is a largest, and angle
    /// limits are as a card may have them.
    pub fn in_domain(&self) -> bool {
        let in_order = |[min, max]: [f32; 2]| min <= max;
        in_order(self.joint.limit1_range)
            && in_order(self.joint.limit2_range)
            && self.joint.angles_in_reach()
            && self.dt.is_finite()
            && !self.inertia1.inv_mass.is_nan()
            && !self.inertia2.inv_mass.is_nan()
    }
}

/// Bits and numbers of a kind, as a card may have them.
fn dress(random: &mut Random, joint: &mut Joint) {
    let used = [2, 3, 2, 3, 1][joint.kind as usize];
    for compliance in &mut joint.compliances[..used] {
        *compliance = random.compliance();
    }
    match joint.kind {
        HINGE | BALL => {
            joint.limit1 = random.one_in(2);
            joint.limit1_range = random.angle_range();
        }
        SLIDE => {
            joint.limit1 = random.one_in(2);
            joint.limit1_range = random.distance_range();
        }
        TETHER => joint.limit1_range = random.distance_range(),
        _ => {}
    }
    if joint.kind == BALL {
        joint.limit2 = random.one_in(2);
        joint.limit2_range = random.angle_range();
    }
    if matches!(joint.kind, HINGE | SLIDE) && !random.one_in(3) {
        joint.motor = 1 + random.below(3) as u32;
        joint.motor_numbers = random.motor_numbers(joint.motor);
    }
    if !joint.limit1 {
        joint.limit1_range = [0.0; 2];
    }
    if !joint.limit2 {
        joint.limit2_range = [0.0; 2];
    }
}

fn motion(random: &mut Random, dt: f32) -> Motion {
    let scale = random.pick(&[0.0, 0.1, 1.0, 10.0]);
    let linear_velocity = random.small3(scale);
    let angular_velocity = random.small3(scale);
    let delta_position = match random.below(4) {
        0 => [0.0; 3],
        1 => random.small3(0.5),
        _ => linear_velocity.map(|x| x * dt),
    };
    let delta_rotation = match random.below(6) {
        0 => [0.0, 0.0, 0.0, 1.0],
        1 => random.rotation(),
        2 => {
            let stretch = random.pick(&[0.999, 1.001, 1.0001, 1.5, 0.5, 1e-6]);
            random.rotation().map(|x| x * stretch)
        }
        _ => {
            let axis = random.direction();
            let angle = random.between(0.0, scale * dt);
            rotation_about(axis, angle)
        }
    };
    Motion {
        linear_velocity,
        angular_velocity,
        delta_position,
        delta_rotation,
    }
}

fn inertia(random: &mut Random) -> Inertia {
    Inertia {
        inv_mass: random.inv_mass(),
        inv_inertia: random.inv_inertia(),
        dominance: 0,
        locks: random.locks(),
    }
}

/// A joint between two bodies that stand as its kind would have them, or nearly, or not at all.
pub fn joint_case(random: &mut Random) -> JointCase {
    let kind = random.below(5) as u32;
    let mut joint = Joint::plain(kind, 0, 1);
    dress(random, &mut joint);
    joint.anchor1 = random.ordinary3();
    joint.anchor2 = random.ordinary3();
    if kind != TETHER && random.one_in(2) {
        joint.basis1 = random.card_rotation();
        joint.basis2 = random.card_rotation();
    }
    if matches!(kind, HINGE | SLIDE | BALL) {
        joint.axis = random.direction();
    }
    let dt = 1.0 / random.rate(EDITION_2.fastest) as f32;

    let mut pose1 = Pose {
        position: random.ordinary3(),
        rotation: random.card_rotation(),
        center_of_mass: [0.0; 3],
    };
    if random.one_in(2) {
        pose1.center_of_mass = random.small3(0.5);
    }
    // The second body is turned against the first about the joint's axis, about any other, or not.
    let about = match random.below(3) {
        0 => random.direction(),
        _ if kind == FIXED || kind == TETHER => random.direction(),
        _ => joint.axis,
    };
    let between = rotation_about(about, random.angle());
    let joint_frame = product(pose1.rotation, joint.basis1);
    let second_frame = product(joint_frame, between);
    let mut pose2 = Pose {
        rotation: match kind {
            TETHER => random.card_rotation(),
            _ => product(second_frame, inverse(joint.basis2)),
        },
        ..pose1
    };
    if random.one_in(2) {
        pose2.center_of_mass = random.small3(0.5);
    }
    let anchor = plus(pose1.position, turned(pose1.rotation, joint.anchor1));
    let gap = match random.below(5) {
        0 => [0.0; 3],
        1 => random.small3(1e-6),
        2 => random.small3(0.01),
        3 => {
            let along = random.between(-3.0, 3.0);
            turned(joint_frame, joint.axis.map(|x| x * along))
        }
        _ => random.small3(3.0),
    };
    pose2.position = minus(plus(anchor, gap), turned(pose2.rotation, joint.anchor2));

    let mut case = JointCase {
        joint,
        anchored: random.pick(&[0, 0, 0, 1, 2]),
        pose1,
        pose2,
        motor_total: random.small3(2.0),
        motion1: motion(random, dt),
        motion2: motion(random, dt),
        inertia1: inertia(random),
        inertia2: inertia(random),
        warm_coefficient: random.pick(&[0.0, 0.5, 1.0, 0.3]),
        dt,
    };
    match random.below(12) {
        // Exactly zero separation: the same pose, anchor and deltas.
        0 => {
            case.pose2 = case.pose1;
            case.joint.anchor2 = case.joint.anchor1;
            case.motion2.delta_position = case.motion1.delta_position;
            case.motion2.delta_rotation = case.motion1.delta_rotation;
            if random.one_in(2) {
                case.joint.basis2 = case.joint.basis1;
            }
        }
        // The weight is exactly 2^-23, or its neighbour above: one body moves, without arms.
        1 => {
            let least = random.pick(&[f32::EPSILON, f32::EPSILON.next_up()]);
            case.anchored = 2;
            case.inertia1.inv_mass = least;
            case.inertia1.inv_inertia = [least, 0.0, 0.0, least, 0.0, least];
            case.inertia1.locks = [false; 3];
            case.joint.anchor1 = [0.0; 3];
            case.joint.anchor2 = [0.0; 3];
            case.pose1.center_of_mass = [0.0; 3];
            case.pose2.center_of_mass = [0.0; 3];
            let axis = random.below(3);
            case.pose1.position = [0.0; 3];
            case.pose2.position = [0.0; 3];
            case.pose2.position[axis] = random.pick(&[1.0, 0.25, -3.0]);
            case.motion1 = Motion {
                linear_velocity: random.small3(1.0),
                angular_velocity: random.small3(1.0),
                ..Motion::DUMMY
            };
            if kind != TETHER {
                case.joint.basis1 = [0.0, 0.0, 0.0, 1.0];
                case.joint.basis2 = [0.0, 0.0, 0.0, 1.0];
            }
            if matches!(kind, HINGE | SLIDE | BALL) {
                case.joint.axis = [0.0; 3];
                case.joint.axis[axis] = 1.0;
            }
            case.pose1.rotation = [0.0, 0.0, 0.0, 1.0];
            case.pose2.rotation = rotation_about(case.joint.axis, random.angle());
            case.pose2.rotation[3] = case.pose2.rotation[3].max(0.5);
        }
        4 => at_threshold(random, &mut case),
        5 if matches!(kind, HINGE | BALL) => at_right_angle(random, &mut case),
        // Some numbers are anything at all.
        2 | 3 => {
            let mut numbers = case.numbers();
            for _ in 0..=random.below(4) {
                let at = JointCase::WHOLE + random.below(numbers.len() - JointCase::WHOLE);
                numbers[at] = random.wild();
            }
            let wild = JointCase::of_numbers(&numbers);
            if wild.in_domain() {
                case = wild;
            }
        }
        _ => {}
    }
    case
}

/// Two bodies on one place but for a correction of 2^-23 or a neighbour of it: the slide's, the tether's, an angle's, a swing's or a motor's.
fn at_threshold(random: &mut Random, case: &mut JointCase) {
    const IDENTITY: [f32; 4] = [0.0, 0.0, 0.0, 1.0];
    let least = random.pick(&[
        f32::EPSILON,
        f32::EPSILON.next_up(),
        f32::EPSILON.next_down(),
    ]);
    let kind = case.joint.kind;
    let place = Pose {
        position: [0.0; 3],
        rotation: IDENTITY,
        center_of_mass: [0.0; 3],
    };
    (case.pose1, case.pose2) = (place, place);
    (case.motion1, case.motion2) = (Motion::DUMMY, Motion::DUMMY);
    let motor = case.joint.motor_numbers;
    case.joint = Joint {
        compliances: case.joint.compliances,
        ..Joint::plain(kind, 0, 1)
    };
    match kind {
        SLIDE | HINGE if random.one_in(2) => {
            // An acceleration of the velocity error alone.
            case.joint.motor = 2;
            case.joint.motor_numbers = [least * 64.0, 0.0, motor[2], 0.0, 1.0];
            case.dt = 1.0 / 64.0;
        }
        SLIDE => case.pose2.position[random.below(2)] = least * random.sign(),
        TETHER => {
            case.joint.limit1_range = random.pick(&[[0.0, 1.0], [1.0, 2.0]]);
            case.pose2.position[1] = match case.joint.limit1_range[1] == 1.0 {
                true => 1.0 + least,
                false => 1.0 - least,
            };
        }
        _ => {
            // A turn by this is about the number twice, of a rotation and of an axis at a right angle.
            case.pose2.rotation[random.below(2)] = 0.5 * least * random.sign();
            if kind == BALL {
                case.joint.limit1 = true;
                case.joint.limit1_range = random.pick(&[[-1.0, -0.5], [0.5, 1.0]]);
            }
        }
    }
}

/// A hinge, or a ball with one of its limits, of two bodies on one place and a quarter turn apart.
fn at_right_angle(random: &mut Random, case: &mut JointCase) {
    let range = right_angle_range(random);
    let twists = case.joint.kind == BALL && random.one_in(2);
    case.joint = Joint {
        compliances: case.joint.compliances,
        ..Joint::plain(case.joint.kind, 0, 1)
    };
    let place = Pose {
        position: [0.0; 3],
        rotation: random.rotation(),
        center_of_mass: [0.0; 3],
    };
    (case.pose1, case.pose2) = (place, place);
    (case.motion1, case.motion2) = (Motion::DUMMY, Motion::DUMMY);
    if twists {
        // About the swing axis, in any direction: the twist's axes are made unit, and the sine is above 1 by rounding alone.
        (case.joint.limit2, case.joint.limit2_range) = (true, range);
        let quarter = std::f32::consts::FRAC_PI_2 * random.sign();
        let turn = rotation_about([0.0, 1.0, 0.0], quarter);
        case.pose2.rotation = product(place.rotation, turn);
        return;
    }
    (case.joint.limit1, case.joint.limit1_range) = (true, range);
    case.pose1.rotation = [0.0, 0.0, 0.0, 1.0];
    case.pose2.rotation = case.pose1.rotation;
    [case.motion1.delta_rotation, case.motion2.delta_rotation] = quarter_turns(random);
}

// ---------------------------------------------------------------------------------------------------------------------------------- cards

fn pose_body(pose: &Pose) -> Body {
    Body {
        position: pose.position,
        rotation: pose.rotation,
        center_of_mass: pose.center_of_mass,
        ..Body::UNIT
    }
}

/// A card without bodies, of any edition.
pub(crate) fn header(random: &mut Random) -> Card {
    let edition = random.pick(&EDITIONS);
    Card {
        edition: edition.number,
        rate: random.rate(edition.fastest),
        zero: 0,
        gravity: random.pick(&[-9.75, 0.0, -9.81, 1.0, -1024.0]),
        warm_coefficient: random.pick(&[0.0, 1.0, 0.5, 0.3]),
        bodies: Vec::new(),
        joints: Vec::new(),
    }
}

/// The anchors in both bodies of a joint at a point between them.
fn anchor(body: &Body, point: [f32; 3]) -> [f32; 3] {
    turned(inverse(body.rotation), minus(point, body.position))
}

/// A joint of a kind that holds two bodies as they stand.
pub(crate) fn holding(
    random: &mut Random,
    bodies: &[Body],
    kind: u32,
    body1: usize,
    body2: usize,
) -> Joint {
    let (first, second) = (&bodies[body1], &bodies[body2]);
    let mut joint = Joint::plain(kind, body1 as u32, body2 as u32);
    dress(random, &mut joint);
    let middle = [0, 1, 2].map(|i| (first.position[i] + second.position[i]) * 0.5);
    joint.anchor1 = anchor(first, middle);
    joint.anchor2 = anchor(second, middle);
    if kind != TETHER {
        joint.basis1 = inverse(first.rotation);
        joint.basis2 = inverse(second.rotation);
    }
    if matches!(kind, HINGE | SLIDE | BALL) {
        joint.axis = random.direction();
    }
    match kind {
        TETHER => {
            joint.anchor1 = [0.0; 3];
            joint.anchor2 = [0.0; 3];
            joint.limit1_range = random.pick(&[[0.0, 1.0], [0.9, 1.1], [0.5, 0.75]]);
        }
        SLIDE if joint.limit1 => {
            joint.limit1_range = random.pick(&[[-0.5, 0.5], [0.0, 0.0], [0.1, 0.4], [-0.4, -0.1]])
        }
        HINGE if joint.limit1 => {
            joint.limit1_range = random.pick(&[[-0.5, 0.5], [0.0, 0.0], [0.2, 0.9], [-0.9, -0.2]])
        }
        _ => {}
    }
    if kind == BALL {
        if joint.limit1 {
            joint.limit1_range = random.pick(&[[0.0, 0.5], [-0.5, 0.5], [0.0, 0.0], [0.0, 1.5]]);
        }
        if joint.limit2 {
            joint.limit2_range = random.pick(&[[-0.3, 0.3], [0.0, 0.0], [0.1, 0.6]]);
        }
    }
    if joint.motor != 0 {
        let [velocity, position, cap, _, _] = &mut joint.motor_numbers;
        *velocity = velocity.clamp(-2.0, 2.0);
        *position = position.clamp(-1.0, 1.0);
        if *cap > 1024.0 && *cap < f32::MAX {
            *cap = 20.0;
        }
        let (first, second) = match joint.motor {
            1 => (random.between(0.5, 5.0), random.between(0.5, 1.5)),
            2 => (random.between(0.0, 20.0), random.between(0.0, 1.0)),
            _ => (random.between(0.0, 2.0), random.between(0.0, 0.2)),
        };
        joint.motor_numbers[3] = first;
        joint.motor_numbers[4] = second;
    }
    for compliance in &mut joint.compliances {
        *compliance = compliance.min(1.0);
    }
    joint
}

/// A body of a linkage that is built to run.
pub(crate) fn link(random: &mut Random, position: [f32; 3]) -> Body {
    let inverse_mass = random.between(0.2, 4.0);
    let mut body = Body {
        position,
        inv_mass: inverse_mass,
        inv_inertia: {
            let i = inverse_mass * random.between(2.0, 8.0);
            [i, 0.0, 0.0, i, 0.0, i]
        },
        ..Body::UNIT
    };
    if random.one_in(3) {
        body.rotation = random.rotation();
    }
    if random.one_in(4) {
        body.center_of_mass = random.small3(0.2);
    }
    if random.one_in(3) {
        body.linear_velocity = random.small3(0.5);
        body.angular_velocity = random.small3(0.5);
    }
    if random.one_in(12) {
        body.locks = random.locks();
    }
    body
}

/// The body anchored where it stands.
pub(crate) fn anchored(body: &Body) -> Body {
    Body {
        position: body.position,
        rotation: body.rotation,
        center_of_mass: body.center_of_mass,
        ..Body::ANCHORED
    }
}

/// A linkage that is built to run.
pub fn linkage(random: &mut Random) -> Card {
    let card = header(random);
    let count = match random.below(6) {
        0 => 32,
        1 => 2,
        _ => 2 + random.below(10),
    };
    let closed = count > 2 && count < 32 && random.one_in(3);
    linked(random, card, count, closed)
}

/// A chain or a closed loop of bodies a step apart, the first of them anchored or another or none.
pub(crate) fn linked(random: &mut Random, mut card: Card, count: usize, closed: bool) -> Card {
    card.gravity = random.pick(&[-9.75, 0.0, -1.0]);
    let kinds: Vec<u32> = match random.below(3) {
        0 => vec![random.below(5) as u32],
        _ => (0..5).collect(),
    };
    let straight = random.direction();
    for i in 0..count {
        let position = match closed {
            true => {
                let radius = count as f32 / std::f32::consts::TAU;
                let at = i as f32 * std::f32::consts::TAU / count as f32;
                [radius * at.cos(), radius * at.sin(), 0.0]
            }
            false => straight.map(|x| x * i as f32),
        };
        card.bodies.push(link(random, position));
    }
    let fixed = match random.below(4) {
        0 => None,
        1 => Some(random.below(count)),
        _ => Some(0),
    };
    if let Some(i) = fixed {
        card.bodies[i] = anchored(&card.bodies[i]);
    }
    for i in 0..if closed { count } else { count - 1 } {
        let (body1, body2) = match random.one_in(2) {
            true => (i, (i + 1) % count),
            false => ((i + 1) % count, i),
        };
        let kind = random.pick(&kinds);
        card.joints
            .push(holding(random, &card.bodies, kind, body1, body2));
    }
    card
}

/// A linkage whose links sit on one place: every separation is exactly zero at the start.
pub fn coincident(random: &mut Random) -> Card {
    let mut card = header(random);
    card.gravity = 0.0;
    let count = 2 + random.below(3);
    card.bodies = vec![Body::UNIT; count];
    if random.one_in(2) {
        card.bodies[0] = Body::ANCHORED;
    }
    for i in 1..count {
        let kind = random.below(5) as u32;
        card.joints.push(Joint::plain(kind, i as u32 - 1, i as u32));
    }
    card
}

/// A linkage whose joints ask for nothing, with one body more that is in no joint, and a state in which turned inertias overflow and nothing else does: in
/// all rotations z alone, so that the matrix is diagonal and no joint sees a turn. An inertia along z alone doesn't overflow.
pub fn overflowing(random: &mut Random) -> (Card, Vec<f32>) {
    let mut card = coincident(random);
    card.bodies.push(Body::UNIT);
    let jointed = random.one_in(2);
    let last = card.bodies.len() - 1;
    for (i, body) in card.bodies.iter_mut().enumerate() {
        if body.anchored {
            continue;
        }
        body.locks = random.locks();
        let size = random.pick(&[1.0, 6.0, 1024.0]);
        let along_z = i < last && !jointed || i > 0 && random.one_in(3);
        body.inv_inertia = match along_z {
            true => [0.0, 0.0, 0.0, 0.0, 0.0, size],
            false => [size, 0.0, 0.0, size, 0.0, size],
        };
    }
    let mut state = table::start_state(&card);
    let z = random.sign() * random.between(4.5e9, 9e9);
    for numbers in state[..BODY_NUMBERS * card.bodies.len()].chunks_mut(BODY_NUMBERS) {
        numbers[3..7].copy_from_slice(&[0.0, 0.0, z, 0.0]);
    }
    (card, state)
}

/// A large card takes as long as many others: one in so many is.
const LARGE: usize = 400;

/// A card of one joint case, for ticks with right-angle swings, limits hit on either side and the like.
pub fn pair(random: &mut Random) -> Card {
    let mut card = header(random);
    loop {
        let case = joint_case(random);
        card.joints = vec![case.joint];
        card.bodies = vec![pose_body(&case.pose1), pose_body(&case.pose2)];
        for (body, (inertia, motion)) in card.bodies.iter_mut().zip([
            (&case.inertia1, &case.motion1),
            (&case.inertia2, &case.motion2),
        ]) {
            body.inv_mass = inertia.inv_mass;
            body.inv_inertia = inertia.inv_inertia;
            body.locks = inertia.locks;
            body.linear_velocity = motion.linear_velocity;
            body.angular_velocity = motion.angular_velocity;
        }
        if let Some(i) = [None, Some(0), Some(1)][case.anchored as usize % 3] {
            card.bodies[i] = anchored(&card.bodies[i]);
        }
        if card::check(&card.encode()).is_ok() {
            return card;
        }
    }
}

/// A hinge or a ball of two bodies at rest on one place, with a limit at a right angle, and a state in which they are a quarter turn apart and not of unit
/// length.
pub fn right_angle(random: &mut Random) -> (Card, Vec<f32>) {
    let mut card = header(random);
    card.gravity = 0.0;
    card.bodies = vec![Body::UNIT; 2];
    let held = random.below(3);
    if held < 2 {
        card.bodies[held] = Body::ANCHORED;
    }
    card.joints = vec![Joint {
        limit1: true,
        limit1_range: right_angle_range(random),
        ..Joint::plain(random.pick(&[HINGE, BALL]), 0, 1)
    }];
    let mut state = table::start_state(&card);
    for (i, rotation) in quarter_turns(random).into_iter().enumerate() {
        state[BODY_NUMBERS * i + 3..BODY_NUMBERS * i + 7].copy_from_slice(&rotation);
    }
    (card, state)
}

/// A bar of 1 m and 1 kg on a hinge or a ball of the frame, let go 1.2 radians from the upright: it falls to the level and rests there, on a stop of about a
/// right angle. The bases are turned by 1.1 radians, so that no axis is along a coordinate.
pub fn held(kind: u32, stop: f32) -> Card {
    let about_z = |angle| rotation_about([0.0, 0.0, 1.0], angle);
    let (sine, cosine) = 1.2f64.sin_cos();
    let bar = Body {
        position: [(0.5 * sine) as f32, (0.5 * cosine) as f32, 0.0],
        rotation: about_z(-1.2),
        inv_inertia: [12.0, 0.0, 0.0, 12.0, 0.0, 12.0],
        ..Body::UNIT
    };
    let joint = Joint {
        limit1: true,
        limit1_range: match kind {
            HINGE => [-stop, 0.0],
            _ => [0.0, stop],
        },
        anchor2: [0.0, -0.5, 0.0],
        basis1: about_z(1.1),
        basis2: about_z(1.1),
        ..Joint::plain(kind, 0, 1)
    };
    Card {
        edition: 1,
        rate: 500,
        zero: 0,
        gravity: -9.81,
        warm_coefficient: 0.0,
        bodies: vec![Body::ANCHORED, bar],
        joints: vec![joint],
    }
}

/// Any card that no check refuses.
pub fn any_card(random: &mut Random) -> Card {
    let card = header(random);
    let bodies = match random.below(4) {
        0 => 32,
        _ => 1 + random.below(8),
    };
    let joints = random.pick(&[0, 1, 2, 5, 32]);
    scattered(random, card, bodies, joints)
}

/// Numbers anywhere in their ranges, bodies and joints in no order: of the joints those that a card may have.
pub(crate) fn scattered(random: &mut Random, mut card: Card, bodies: usize, joints: usize) -> Card {
    let number = |random: &mut Random| match random.below(6) {
        0 => random.pick(&[1024.0, -1024.0, -0.0, f32::from_bits(1), f32::MIN_POSITIVE]),
        1 => random.between(-1024.0, 1024.0),
        _ => random.ordinary(),
    };
    card.gravity = number(random);
    for _ in 0..bodies {
        let position = [0; 3].map(|_| number(random));
        let rotation = random.card_rotation();
        let center_of_mass = random.pick(&[[0.0; 3], [0.1, -0.2, 0.3]]);
        let body = match random.one_in(4) {
            true => Body::ANCHORED,
            false => Body {
                locks: random.locks(),
                linear_velocity: [0; 3].map(|_| number(random)),
                angular_velocity: [0; 3].map(|_| number(random)),
                inv_mass: random.inv_mass(),
                inv_inertia: random.inv_inertia(),
                ..Body::UNIT
            },
        };
        card.bodies.push(Body {
            position,
            rotation,
            center_of_mass,
            ..body
        });
    }
    for _ in 0..joints {
        let (body1, body2) = (random.below(bodies), random.below(bodies));
        if body1 == body2 || card.bodies[body1].anchored && card.bodies[body2].anchored {
            continue;
        }
        let mut joint = Joint::plain(random.below(5) as u32, body1 as u32, body2 as u32);
        dress(random, &mut joint);
        joint.anchor1 = random.ordinary3();
        joint.anchor2 = random.ordinary3();
        if joint.kind != TETHER {
            joint.basis1 = random.card_rotation();
            joint.basis2 = random.card_rotation();
        }
        if matches!(joint.kind, HINGE | SLIDE | BALL) {
            joint.axis = random.direction();
        }
        card.joints.push(joint);
    }
    card
}

/// Breaking loads for a card of edition 3; another has none.
pub fn with_loads(random: &mut Random, mut card: Card) -> Card {
    if card.edition == EDITION_3.number {
        for joint in &mut card.joints {
            joint.breaking_load = random.breaking_load();
        }
    }
    card
}

/// One of the above, and now and then a large one.
pub fn card(random: &mut Random) -> Card {
    if random.one_in(LARGE) {
        return large::card(random);
    }
    let card = match random.below(8) {
        0 | 1 => any_card(random),
        2 => coincident(random),
        3 | 4 => linkage(random),
        _ => pair(random),
    };
    with_loads(random, card)
}

// ------------------------------------------------------------------------------------------------------------------------- damaged cards

/// One plain card of each kind, with and without each limit and each motor that the kind may have.
pub fn each_kind(edition: &Edition) -> Vec<Card> {
    let mut cards = Vec::new();
    for kind in 0..5 {
        let limits: &[(bool, bool)] = match kind {
            FIXED => &[(false, false)],
            TETHER => &[(true, false)],
            BALL => &[(false, false), (true, false), (false, true), (true, true)],
            _ => &[(false, false), (true, false)],
        };
        let motors = match kind {
            HINGE | SLIDE => 0..4,
            _ => 0..1,
        };
        for &(limit1, limit2) in limits {
            for motor in motors.clone() {
                let mut joint = Joint::plain(kind, 0, 1);
                joint.limit1 = limit1;
                joint.limit2 = limit2;
                joint.motor = motor;
                if limit1 {
                    joint.limit1_range = [-0.5, 0.5];
                }
                if limit2 {
                    joint.limit2_range = [0.25, 0.75];
                }
                if motor != 0 {
                    joint.motor_numbers = [1.0, 0.5, 2.0, 3.0, 0.25];
                }
                joint.compliances[0] = 0.125;
                cards.push(Card {
                    edition: edition.number,
                    rate: 64,
                    zero: 0,
                    gravity: -9.75,
                    warm_coefficient: 0.5,
                    bodies: vec![
                        Body {
                            position: [1.0, 0.0, 0.0],
                            linear_velocity: [0.5, 0.25, 0.0],
                            ..Body::UNIT
                        },
                        Body::ANCHORED,
                    ],
                    joints: vec![joint],
                });
            }
        }
    }
    cards
}

/// Each bit of a card flipped in turn.
pub fn flipped(bytes: &[u8]) -> impl Iterator<Item = Vec<u8>> + '_ {
    (0..8 * bytes.len()).map(|bit| {
        let mut flipped = bytes.to_vec();
        flipped[bit / 8] ^= 0x80 >> (bit % 8);
        flipped
    })
}

fn bits_at(bytes: &[u8], at: usize, width: usize) -> u32 {
    (at..at + width).fold(0, |number, bit| {
        number << 1 | u32::from(bytes[bit / 8] >> (7 - bit % 8) & 1)
    })
}

fn set_bits(bytes: &mut [u8], at: usize, width: usize, number: u32) {
    for bit in 0..width {
        let (place, mask) = ((at + bit) / 8, 0x80 >> ((at + bit) % 8));
        match number >> (width - 1 - bit) & 1 {
            0 => bytes[place] &= !mask,
            _ => bytes[place] |= mask,
        }
    }
}

/// What a card's first bytes say of where its records are, accepted or not. One of no edition is laid out as one of the first.
pub struct Places {
    pub edition: Edition,
    pub bodies: usize,
    pub joints: usize,
}

impl Places {
    /// None of a card that is shorter than any header.
    pub fn of(bytes: &[u8]) -> Option<Places> {
        let edition = Edition::of_number(u32::from(*bytes.first()?)).unwrap_or(EDITION_1);
        let count = |at| bits_at(bytes, at, edition.count_bits) as usize;
        (bytes.len() >= LEAST_BYTES).then(|| Places {
            edition,
            bodies: count(8),
            joints: count(8 + edition.count_bits),
        })
    }

    /// Where the rate begins, in bits.
    fn rate(&self) -> usize {
        8 + 2 * self.edition.count_bits
    }

    fn body(&self, i: usize) -> usize {
        self.edition.card_bytes(i, 0)
    }

    fn joint(&self, i: usize) -> usize {
        self.edition.card_bytes(self.bodies, i)
    }

    /// Where the number of a joint's second body begins, in bits.
    fn second_body(&self, i: usize) -> usize {
        8 * self.joint(i) + 3 + self.edition.body_number_bits
    }

    /// Where a joint's bits of its limits begin, in bits.
    fn limits(&self, i: usize) -> usize {
        self.second_body(i) + self.edition.body_number_bits
    }

    /// A joint's kind, where the card has it.
    fn kind(&self, bytes: &[u8], i: usize) -> Option<u32> {
        bytes.get(self.joint(i)).map(|byte| u32::from(byte >> 5))
    }
}

/// Each float of a card set to each value at which an answer changes.
pub fn floats_at_borders(bytes: &[u8]) -> Vec<Vec<u8>> {
    let places = Places::of(bytes).expect("a card");
    let header = places.body(0);
    let mut floats: Vec<usize> = (header - 8..header).step_by(4).collect();
    for body in 0..places.bodies {
        let start = places.body(body);
        floats.extend((start + 2..start + BODY_BYTES).step_by(4));
    }
    for joint in 0..places.joints {
        let start = places.joint(joint);
        floats.extend((start + 3..start + places.edition.joint_bytes).step_by(4));
    }
    let values = [
        0.0,
        -0.0,
        f32::from_bits(1),
        -f32::from_bits(1),
        1.0,
        -1.0,
        1024.0,
        -1024.0,
        1024f32.next_up(),
        -1024f32.next_up(),
        f32::MAX,
        -f32::MAX,
        f32::INFINITY,
        f32::NEG_INFINITY,
        f32::NAN,
        f32::from_bits(0xff800001),
    ];
    let mut cards = Vec::new();
    for place in floats {
        for value in values {
            let mut card = bytes.to_vec();
            card[place..place + 4].copy_from_slice(&value.to_bits().to_be_bytes());
            cards.push(card);
        }
    }
    cards
}

/// Cards of an edition at both sides of each border that is no single float's.
pub fn at_borders(edition: &Edition) -> Vec<Vec<u8>> {
    let kinds = each_kind(edition);
    let mut cards = headers_at_borders(edition, &kinds[0]);
    for card in &kinds {
        cards.extend(records_at_borders(edition, card));
    }
    cards
}

/// Lengths, editions, counts, rates and zeros.
fn headers_at_borders(edition: &Edition, card: &Card) -> Vec<Vec<u8>> {
    let bytes = card.encode();
    let mut cards: Vec<_> = (0..bytes.len()).map(|n| bytes[..n].to_vec()).collect();
    cards.extend((1..4).map(|more| [&bytes[..], &[0; 4][..more]].concat()));
    cards.extend((0..=255).map(|number| [&[number], &bytes[1..]].concat()));
    let mut edited = |edit: &dyn Fn(&mut Card)| {
        let mut card = card.clone();
        edit(&mut card);
        cards.push(card.encode());
    };
    for rate in 0..=edition.last_rate() {
        edited(&|card| card.rate = rate);
    }
    for bit in 0..edition.zero_bits {
        edited(&|card| card.zero = 1 << bit);
    }
    let most = edition.most;
    for count in [0, 1, 2, most - 1, most, most + 1, edition.last_count()] {
        edited(&|card| card.bodies = vec![Body::UNIT; count]);
        edited(&|card| card.joints = vec![card.joints[0].clone(); count]);
        edited(&|card| {
            card.bodies = vec![Body::UNIT; count];
            card.joints = vec![card.joints[0].clone(); most];
        });
    }
    cards
}

/// Kinds with each of their bits, limit pairs, unit lengths and named bodies.
fn records_at_borders(edition: &Edition, card: &Card) -> Vec<Vec<u8>> {
    let mut cards = Vec::new();
    let mut edited = |edit: &dyn Fn(&mut Card)| {
        let mut card = card.clone();
        edit(&mut card);
        cards.push(card.encode());
    };
    for kind in 0..8 {
        for bits in 0..16 {
            edited(&|card| {
                let joint = &mut card.joints[0];
                joint.kind = kind;
                joint.limit1 = bits & 1 != 0;
                joint.limit2 = bits & 2 != 0;
                joint.motor = bits >> 2;
            });
        }
    }
    for range in [
        [1.0, 1.0],
        [1.0, 1f32.next_up()],
        [1f32.next_up(), 1.0],
        [0.0, -0.0],
        [-0.0, 0.0],
        [-1.0, -1f32.next_up()],
        [f32::from_bits(1), 0.0],
        [1024.0, -1024.0],
        [7.0, 7.0],
        [-7.0, -7.0],
        [7f32.next_up(), 7f32.next_up()],
        [-7f32.next_up(), -7f32.next_up()],
    ] {
        edited(&|card| card.joints[0].limit1_range = range);
        edited(&|card| card.joints[0].limit2_range = range);
    }
    // Squares that sum to 1,023 / 1,024 and 1,025 / 1,024 exactly, and just beyond.
    for near in [-2.0, -1.0, 0.0, 1.0, 2.0] {
        let small = near / 65536.0;
        let low = [31.0, 7.0, 3.0, 2.0 + small].map(|x: f32| x / 32.0);
        let high = [1.0 + small, 0.0, 0.0, 32.0].map(|x: f32| x / 32.0);
        for rotation in [low, high, [0.0; 4], [0.5; 4], [2.0, 0.0, 0.0, 0.0]] {
            edited(&|card| card.bodies[0].rotation = rotation);
            edited(&|card| card.bodies[1].rotation = rotation);
            edited(&|card| card.joints[0].basis1 = rotation);
            edited(&|card| card.joints[0].basis2 = rotation);
        }
        // As three squares: 31² + 7² + 13 is no sum of one square more, so the border is met by rounding.
        let axis_low = [0.96875, 0.21875, (13.0 + small).sqrt() / 32.0];
        let axis_high = [0.0, (1.0 + small) / 32.0, 1.0];
        for axis in [axis_low, axis_high, [0.0; 3], [0.6, 0.0, 0.8]] {
            edited(&|card| card.joints[0].axis = axis);
        }
    }
    // Every number of 5 bits, and of 8 bits each with one bit set.
    let named = (0..32).chain([32, 64, 128, 199, 200, 255]);
    let named: Vec<u32> = named
        .filter(|n| *n < 1 << edition.body_number_bits)
        .collect();
    for &body1 in &named {
        for &body2 in &named {
            edited(&|card| {
                card.joints[0].body1 = body1;
                card.joints[0].body2 = body2;
            });
        }
    }
    for anchored in [[false, false], [true, true], [true, false]] {
        edited(&|card| {
            card.bodies = anchored
                .map(|anchored| match anchored {
                    true => Body::ANCHORED,
                    false => Body::UNIT,
                })
                .to_vec()
        });
    }
    cards
}

/// A card of as many bodies as an edition has, one of which has one bit of its dominance set.
pub fn dominant(edition: &Edition, body: usize, bit: usize, anchored: bool) -> Vec<u8> {
    let mut bodies = vec![Body::UNIT; edition.most];
    if anchored {
        bodies[body] = Body::ANCHORED;
    }
    bodies[body].dominance = (1u8 << bit) as i8;
    let card = Card {
        edition: edition.number,
        rate: 64,
        bodies,
        ..Card::default()
    };
    card.encode()
}

/// A card with one limited joint, whose first or second limit is in use or only set.
pub fn limited(edition: &Edition, kind: u32, second: bool, used: bool, range: [f32; 2]) -> Vec<u8> {
    let mut joint = Joint::plain(kind, 0, 1);
    match second {
        true => (joint.limit2, joint.limit2_range) = (used, range),
        false => (joint.limit1, joint.limit1_range) = (used, range),
    }
    let card = Card {
        edition: edition.number,
        rate: 64,
        bodies: vec![Body::UNIT, Body::ANCHORED],
        joints: vec![joint],
        ..Card::default()
    };
    card.encode()
}

/// Bytes of a length: all at random, or with a header that passes, or with one that fits the length.
pub fn random_bytes(random: &mut Random, length: usize) -> Vec<u8> {
    let mut bytes: Vec<u8> = (0..length).map(|_| random.bits() as u8).collect();
    let style = random.below(4);
    let edition = random.pick(&EDITIONS);
    if style == 0 || length < LEAST_BYTES {
        return bytes;
    }
    let sparse = random.one_in(2);
    if sparse {
        for byte in &mut bytes {
            if !random.one_in(50) {
                *byte = 0;
            }
        }
    }
    let bodies = 1 + random.below(32);
    let joints = random.below(33);
    let counts = [bodies, joints].map(|count| count as u32);
    set_bits(&mut bytes, 0, 8, edition.number);
    set_bits(&mut bytes, 8, edition.count_bits, counts[0]);
    set_bits(
        &mut bytes,
        8 + edition.count_bits,
        edition.count_bits,
        counts[1],
    );
    let rate = random.rate(edition.fastest);
    set_bits(
        &mut bytes,
        8 + 2 * edition.count_bits,
        edition.rate_bits,
        rate,
    );
    if style > 1 {
        bytes.resize(edition.card_bytes(bodies, joints), 0);
    }
    bytes
}

/// A card to which refusal `number` applies; other damage is left as it is.
pub fn damage(random: &mut Random, bytes: &mut Vec<u8>, number: u32) {
    if number == 1 {
        bytes.truncate(random.below(LEAST_BYTES));
        return;
    }
    let Some(places) = Places::of(bytes) else {
        return;
    };
    match number {
        2..=5 => damage_header(random, bytes, number, &places),
        6 | 17 => damage_bits(random, bytes, number, &places),
        7 => {
            if places.edition.has_loads() && places.joints > 0 && random.one_in(4) {
                let load = random.pick(&[f32::NAN, f32::INFINITY, -f32::from_bits(1)]);
                let joint = random.below(places.joints);
                set_float(bytes, places.joint(joint + 1) - 4, load);
                return;
            }
            let value = random.pick(&[f32::NAN, f32::INFINITY, 1024f32.next_up(), -2000.0]);
            let place = match random.below(3) {
                1 if places.bodies > 0 => {
                    places.body(random.below(places.bodies)) + 2 + 4 * random.below(10)
                }
                2 if places.joints > 0 => {
                    places.joint(random.below(places.joints)) + 3 + 4 * random.below(6)
                }
                _ => places.body(0) - 8,
            };
            set_float(bytes, place, value);
        }
        9 => {
            if places.bodies > 0 {
                set_float(bytes, places.body(random.below(places.bodies)) + 26, 1.25);
            }
        }
        _ => damage_joints(random, bytes, number, &places),
    }
}

/// Where the card has its bytes.
fn set_float(bytes: &mut [u8], place: usize, value: f32) {
    if place + 4 <= bytes.len() {
        bytes[place..place + 4].copy_from_slice(&value.to_bits().to_be_bytes());
    }
}

fn damage_header(random: &mut Random, bytes: &mut Vec<u8>, number: u32, places: &Places) {
    let edition = &places.edition;
    let (counts, rates) = (edition.count_bits, edition.rate_bits);
    match number {
        2 => bytes[0] = random.pick(&[0, 4, 5, 129, 255]),
        3 => {
            let most = edition.most as u32;
            let over = random.pick(&[most + 1, most + 2, edition.last_count() as u32]);
            match random.below(3) {
                0 => set_bits(bytes, 8, counts, 0),
                1 => set_bits(bytes, 8, counts, over),
                _ => set_bits(bytes, 8 + counts, counts, over),
            }
        }
        4 => {
            let rate = random.pick(&[0, 1, 15, edition.fastest + 1, edition.last_rate()]);
            set_bits(bytes, places.rate(), rates, rate);
        }
        _ => match random.below(3) {
            0 => bytes.push(random.bits() as u8),
            1 => {
                bytes.pop();
            }
            _ => bytes.truncate(LEAST_BYTES + random.below(bytes.len() - LEAST_BYTES + 1)),
        },
    }
}

/// 6: a zero bit of header, body or joint. 17: a bit of a moving body's dominance.
fn damage_bits(random: &mut Random, bytes: &mut [u8], number: u32, places: &Places) {
    let edition = &places.edition;
    let moving = |i: &usize| {
        bytes
            .get(places.body(*i))
            .is_some_and(|byte| byte & 0x80 == 0)
    };
    let moving: Vec<usize> = (0..places.bodies).filter(moving).collect();
    let bit = match (number, random.below(3)) {
        (17, _) if moving.is_empty() => return,
        (17, _) => 8 * places.body(random.pick(&moving)) + 4 + random.below(8),
        (_, 1) if places.bodies > 0 => {
            8 * places.body(random.below(places.bodies)) + 12 + random.below(4)
        }
        (_, 2) if places.joints > 0 => {
            8 * places.joint(random.below(places.joints)) + 23
                - random.below(edition.joint_zero_bits)
        }
        _ => places.rate() + edition.rate_bits + random.below(edition.zero_bits),
    };
    if bit / 8 < bytes.len() {
        set_bits(bytes, bit, 1, 1);
    }
}

/// 19: an angle limit that is too wide. 8: limits in use the wrong way round. 10: one body twice.
fn damage_joints(random: &mut Random, bytes: &mut [u8], number: u32, places: &Places) {
    // Where the card has a joint's bits.
    let whole = |i: &usize| places.joint(*i) + 2 < bytes.len();
    let there: Vec<usize> = (0..places.joints).filter(whole).collect();
    let first = |i: usize| places.joint(i) + 3 + 4 * 21;
    match number {
        19 => {
            let turns = |i: &&usize| matches!(places.kind(bytes, **i), Some(HINGE | BALL));
            let turning: Vec<usize> = there.iter().filter(turns).copied().collect();
            if turning.is_empty() {
                return;
            }
            let i = random.pick(&turning);
            let second = places.kind(bytes, i) == Some(BALL) && random.one_in(2);
            set_bits(bytes, places.limits(i) + usize::from(second), 1, 1);
            let range = first(i) + 8 * usize::from(second);
            let angle = random.pick(&[7f32.next_up(), 8.0, 1024.0]);
            match random.one_in(2) {
                true => set_float(bytes, range, -angle),
                false => set_float(bytes, range + 4, angle),
            }
        }
        8 => {
            for i in there {
                if bits_at(bytes, places.limits(i), 1) == 1 {
                    set_float(bytes, first(i), 1.0);
                    let below = random.pick(&[1f32.next_down(), -1.0, 0.0]);
                    set_float(bytes, first(i) + 4, below);
                }
            }
        }
        _ => {
            let width = places.edition.body_number_bits;
            for i in there {
                if i == 0 || random.one_in(3) {
                    let body1 = bits_at(bytes, 8 * places.joint(i) + 3, width);
                    set_bits(bytes, places.second_body(i), width, body1);
                }
            }
        }
    }
}

/// A valid card with one or two kinds of damage.
pub fn damaged_card(random: &mut Random) -> Vec<u8> {
    let mut bytes = card(random).encode();
    for _ in 0..=random.below(2) {
        let number = random.pick(&card::REFUSALS);
        damage(random, &mut bytes, number);
    }
    bytes
}

// --------------------------------------------------------------------------------------------------------------------------------- states

/// Each joint whole or broken; now and then one that is neither.
fn mark_joints(random: &mut Random, card: &Card, state: &mut [f32]) {
    let broken_one_in = random.pick(&[1, 2, 8, usize::MAX]);
    for joint in state[BODY_NUMBERS * card.bodies.len()..].chunks_mut(JOINT_NUMBERS) {
        joint[BROKEN] = random.one_in(broken_one_in) as u32 as f32;
    }
    if random.one_in(8) && !card.joints.is_empty() {
        let joint = random.below(card.joints.len());
        let at = card.state_length() - JOINT_NUMBERS * (joint + 1) + BROKEN;
        state[at] = random.pick(&[
            -0.0,
            2.0,
            -1.0,
            f32::from_bits(1),
            1f32.next_down(),
            1f32.next_up(),
            f32::NAN,
            f32::INFINITY,
        ]);
    }
}

/// A state for a card: its start state, one that it ran to, or one that never was.
pub fn state(random: &mut Random, card: &Card) -> Vec<f32> {
    let mut state = table::start_state(card);
    if random.one_in(3) {
        for _ in 0..random.below(4) {
            if table::step(card, &mut state).is_err() {
                break;
            }
        }
    }
    match random.below(8) {
        0 => {
            for number in &mut state {
                *number = random.wild_finite().clamp(-4096.0, 4096.0);
            }
        }
        1 => {
            for number in &mut state {
                *number = random.ordinary();
            }
        }
        2 | 3 => {
            for _ in 0..=random.below(3) {
                let at = random.below(state.len());
                state[at] = match random.below(4) {
                    0 => random.nan(),
                    1 => random.pick(&[
                        f32::NAN,
                        f32::INFINITY,
                        f32::NEG_INFINITY,
                        4096.0,
                        4096f32.next_up(),
                        -4096f32.next_up(),
                    ]),
                    _ => random.wild(),
                };
            }
        }
        4 => {
            // Rotations of any length.
            for i in 0..card.bodies.len() {
                let stretch = random.pick(&[0.0, 1e-20, 0.5, 1.5, 30.0]);
                for number in &mut state[BODY_NUMBERS * i + 3..BODY_NUMBERS * i + 7] {
                    *number *= stretch;
                }
            }
        }
        5 => {
            // Totals of another run.
            for number in &mut state[BODY_NUMBERS * card.bodies.len()..] {
                *number = random.ordinary();
            }
        }
        6 => {
            // Some ticks before the first body passes 4,096, if all go on as they do.
            let (axis, way) = (random.below(3), random.sign());
            let velocity = random.between(16.0, 1024.0);
            let left = velocity * card.dt() * random.between(0.0, 5.0);
            let numbers = &mut state[..BODY_NUMBERS * card.bodies.len()];
            let first = numbers
                .chunks(BODY_NUMBERS)
                .map(|body| way * body[axis])
                .fold(f32::MIN, f32::max);
            for body in numbers.chunks_mut(BODY_NUMBERS) {
                body[axis] += way * (4096.0 - left - first);
                body[7 + axis] += way * velocity;
            }
        }
        _ => {}
    }
    if random.below(8) > 1 {
        mark_joints(random, card, &mut state);
    }
    match random.below(24) {
        0 => {
            state.pop();
        }
        1 => state.push(0.0),
        2 => state.clear(),
        _ => {}
    }
    state
}

#[cfg(test)]
mod tests {
    use super::*;

    #[test]
    fn cards_are_valid() {
        for case in 0..2000 {
            let card = card(&mut Random::of_case(1, case));
            assert!(card::check(&card.encode()).is_ok(), "{case} {card:?}");
        }
        for card in EDITIONS.iter().flat_map(each_kind) {
            assert!(card::check(&card.encode()).is_ok(), "{card:?}");
        }
    }

    #[test]
    fn joint_cases_come_back() {
        for case in 0..2000 {
            let case = joint_case(&mut Random::of_case(2, case));
            assert!(case.in_domain(), "{case:?}");
            let numbers = case.numbers();
            assert_eq!(numbers.len(), JointCase::NUMBERS);
            let again = JointCase::of_numbers(&numbers).numbers();
            let bits = |numbers: &[f32]| numbers.iter().map(|x| x.to_bits()).collect::<Vec<_>>();
            assert_eq!(bits(&numbers), bits(&again));
        }
    }

    #[test]
    fn linkages_run() {
        let mut whole = 0;
        for case in 0..60 {
            let card = linkage(&mut Random::of_case(3, case));
            let mut state = table::start_state(&card);
            let ticks = (0..300)
                .take_while(|_| table::step(&card, &mut state).is_ok())
                .count();
            whole += (ticks == 300) as u32;
        }
        assert!(whole >= 45, "{whole} of 60 ran 300 ticks");
    }

    #[test]
    fn damage_reaches_each_refusal() {
        for (edition, number) in EDITIONS
            .iter()
            .flat_map(|edition| card::REFUSALS.map(|number| (edition, number)))
        {
            let mut reached = 0;
            for case in 0..200 {
                let random = &mut Random::of_case(4, case);
                let mut bytes = each_kind(edition)[random.below(18)].encode();
                damage(random, &mut bytes, number);
                reached += (table::check(&bytes) == number) as u32;
            }
            assert!(reached > 40, "{number}: {reached} of 200");
        }
    }

    #[test]
    fn states_reach_each_refusal() {
        let mut seen = [0; 22];
        for case in 0..3000 {
            let random = &mut Random::of_case(5, case);
            let card = card(random);
            let mut state = state(random, &card);
            seen[table::tick(&card.encode(), &mut state) as usize] += 1;
        }
        assert!(
            seen[0] > 1000 && [11, 12, 13, 21].iter().all(|n| seen[*n] > 50),
            "{seen:?}"
        );
    }
}
