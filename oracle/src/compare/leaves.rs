//! Single operations and single joints: the oracle's answer to a list of numbers, and inputs for it.
//!
//! A leaf's input and output are lists of f32 in the order that the Rattle's crate `host_parts` gives. Whole numbers (a model, locks) come
//! first and as f32s.

use super::{all_same, in_hex, number_bytes, shrink, Difference, Hits};
use crate::above_one;
use crate::card::{finite, BALL, EDITION_2, HINGE, KINDS, SLIDE, TETHER};
use crate::generate::{joint_case, motion_numbers, ordered, right_angle_range, JointCase, Random};
use crate::math;
use crate::parts;
use crate::solver::{self, Inertia, Model, Motion, Motor, Pose};
use std::f32::consts::FRAC_PI_2;

pub struct Leaf {
    pub name: &'static str,
    /// Parts of the output, for reports.
    pub parts: &'static [(&'static str, usize)],
    pub generate: fn(&mut Random) -> Vec<f32>,
    /// Inputs on which document 01 and avian have an answer.
    pub in_domain: fn(&[f32]) -> bool,
    pub oracle: fn(&[f32]) -> Vec<f32>,
    /// Places of the output that document 01 leaves open.
    pub open: fn(&[f32]) -> Vec<usize>,
    pub classes: fn(&[f32], &[f32], &mut Hits),
}

fn everywhere(_: &[f32]) -> bool {
    true
}

fn none_open(_: &[f32]) -> Vec<usize> {
    Vec::new()
}

fn no_classes(_: &[f32], _: &[f32], _: &mut Hits) {}

const LEAF: Leaf = Leaf {
    name: "",
    parts: &[],
    generate: |_| Vec::new(),
    in_domain: everywhere,
    oracle: |_| Vec::new(),
    open: none_open,
    classes: no_classes,
};

fn v3(x: &[f32], at: usize) -> [f32; 3] {
    x[at..at + 3].try_into().unwrap()
}

fn v4(x: &[f32], at: usize) -> [f32; 4] {
    x[at..at + 4].try_into().unwrap()
}

fn v6(x: &[f32], at: usize) -> [f32; 6] {
    x[at..at + 6].try_into().unwrap()
}

fn pose(x: &[f32], at: usize) -> Pose {
    Pose {
        position: v3(x, at),
        rotation: v4(x, at + 3),
        center_of_mass: v3(x, at + 7),
    }
}

fn motion(x: &[f32], at: usize) -> Motion {
    Motion {
        linear_velocity: v3(x, at),
        angular_velocity: v3(x, at + 3),
        delta_position: v3(x, at + 6),
        delta_rotation: v4(x, at + 9),
    }
}

fn inertia(x: &[f32], at: usize, locks: f32) -> Inertia {
    let locks = locks as i32;
    Inertia {
        inv_mass: x[at],
        inv_inertia: v6(x, at + 1),
        dominance: 0,
        locks: [locks & 4 != 0, locks & 2 != 0, locks & 1 != 0],
    }
}

fn locks(random: &mut Random) -> f32 {
    let [x, y, z] = random.locks().map(|lock| lock as u32);
    (x << 2 | y << 1 | z) as f32
}

/// Ordinary numbers, or with some wild ones among them, or nothing else.
fn list(random: &mut Random, count: usize) -> Vec<f32> {
    let one_in = random.pick(&[1, 3, 10, 1000]);
    (0..count).map(|_| random.mixed(one_in)).collect()
}

/// The numbers of a joint case, which hang together, from their place among the 95.
fn of_joint(case: &JointCase, ranges: &[std::ops::Range<usize>]) -> Vec<f32> {
    let numbers = &case.numbers()[JointCase::WHOLE..];
    let parts = ranges.iter().map(|range| &numbers[range.clone()]);
    parts.collect::<Vec<_>>().concat()
}

fn spoil(random: &mut Random, mut numbers: Vec<f32>) -> Vec<f32> {
    if random.one_in(4) {
        for _ in 0..=random.below(3) {
            let at = random.below(numbers.len());
            numbers[at] = random.wild();
        }
    }
    numbers
}

fn angle(random: &mut Random) -> f32 {
    use std::f64::consts::PI;
    let near = |random: &mut Random, at: f64| {
        let bits = (at as f32).to_bits() as i64 + random.below(9) as i64 - 4;
        f32::from_bits(bits.max(0) as u32)
    };
    let size = match random.below(6) {
        0 => random.wild(),
        1 => {
            let step = random.below(10431) as f64;
            near(random, step * PI / 2048.0)
        }
        2 => {
            let quarter = random.below(11) as f64;
            near(random, quarter * PI / 2.0)
        }
        3 => {
            let border = random.pick(&[0.015625, 16.0]);
            near(random, border)
        }
        4 => random.between(0.0, 0.02),
        _ => random.between(0.0, 16.0),
    };
    size * random.pick(&[1.0, -1.0])
}

fn scalars() -> Leaf {
    Leaf {
        name: "scalars",
        parts: &[("abs", 1), ("sign bit", 1), ("clamp", 1), ("rem_euclid", 1)],
        generate: |random| {
            let x = random.wild();
            let divisor = random.pick(&[math::TAU, math::PI, 1.0]);
            match random.below(3) {
                0 => vec![x, random.wild(), random.wild()],
                1 => vec![random.between(-60.0, 60.0), divisor, 100.0],
                _ => {
                    let [low, high] = ordered([random.ordinary(), random.ordinary()]);
                    vec![random.mixed(10), low, high]
                }
            }
        },
        // A clamp's ends are ordered; the sign bit of a NaN is nobody's.
        in_domain: |x| x[1] <= x[2] && !x[0].is_nan(),
        oracle: |x| {
            vec![
                x[0].abs(),
                x[0].is_sign_negative() as u32 as f32,
                math::clamp(x[0], x[1], x[2]),
                math::rem_euclid(x[0], x[1]),
            ]
        },
        classes: |x, y, hits| {
            hits.look("clamp below", x[0] < x[1]);
            hits.look("clamp above", x[0] > x[2]);
            hits.look("rem_euclid of a negative", x[0] < 0.0 && y[3] > 0.0);
        },
        ..LEAF
    }
}

fn root() -> Leaf {
    Leaf {
        name: "root",
        parts: &[("root", 1)],
        generate: |random| {
            vec![match random.below(4) {
                0 => {
                    let root = random.wild_finite();
                    let square = root * root;
                    f32::from_bits(square.to_bits().wrapping_add(random.below(3) as u32))
                }
                1 => random.wild(),
                _ => f32::from_bits(random.bits() as u32 & 0x7fffffff),
            }]
        },
        oracle: |x| vec![math::sqrt(x[0])],
        classes: |x, _, hits| {
            hits.look("root of a subnormal", x[0].is_subnormal());
            hits.look("root of a negative", x[0] < 0.0);
            hits.look("root of -0.0", x[0].to_bits() == 0x80000000);
            hits.look("root of an infinity", x[0].is_infinite());
            hits.look("root of a NaN", x[0].is_nan());
        },
        ..LEAF
    }
}

fn sine() -> Leaf {
    Leaf {
        name: "sine",
        parts: &[("sine", 1), ("cosine", 1)],
        generate: |random| vec![angle(random)],
        oracle: |x| vec![math::sin(x[0]), math::cos(x[0])],
        classes: |x, _, hits| {
            let size = x[0].abs();
            hits.look("sine by two terms", size < 0.015625);
            hits.look("sine above 16", size > 16.0);
            hits.look("sine at 16", size == 16.0);
            hits.look("sine at 2^-6", size == 0.015625);
            if size <= 16.0 {
                let quadrant = (size / std::f32::consts::FRAC_PI_2) as u32 % 4;
                for q in 0..4 {
                    hits.look(format!("sine in quadrant {q}"), q == quadrant);
                }
            }
        },
        ..LEAF
    }
}

fn arctangent() -> Leaf {
    Leaf {
        name: "arctangent",
        parts: &[("atan2", 1)],
        generate: |random| {
            let x = match random.below(3) {
                0 => random.wild(),
                _ => random.ordinary(),
            };
            let ratio = match random.below(4) {
                0 => random.below(1026) as f32 / 1024.0,
                1 => {
                    let bits = random.pick(&[0.015625f32, 1.0]).to_bits();
                    f32::from_bits(bits + random.below(5) as u32 - 2)
                }
                2 => return vec![random.wild(), x],
                _ => random.between(0.0, 1.0),
            };
            let y = x * ratio * random.pick(&[1.0, -1.0]);
            match random.one_in(2) {
                true => vec![y, x],
                false => vec![x, y],
            }
        },
        oracle: |x| vec![math::atan2(x[0], x[1])],
        classes: |x, _, hits| {
            let (y, x) = (x[0], x[1]);
            let finite = y.is_finite() && x.is_finite();
            hits.look("arctangent not finite", !finite);
            hits.look("arctangent of the origin", y == 0.0 && x == 0.0);
            hits.look("arctangent on a diagonal", finite && y.abs() == x.abs());
            hits.look("arctangent steep", finite && y.abs() > x.abs());
            hits.look("arctangent of x below zero", finite && x < 0.0);
            hits.look("arctangent of y = -0.0", y.to_bits() == 0x80000000);
            hits.look(
                "arctangent of x = -0.0",
                x.to_bits() == 0x80000000 && y != 0.0,
            );
        },
        ..LEAF
    }
}

fn arc_sine() -> Leaf {
    Leaf {
        name: "arc sine",
        parts: &[("arc sine", 1)],
        generate: |random| {
            let near_one = random.below(200) as u32;
            vec![match random.below(4) {
                0 => random.wild(),
                1 => f32::from_bits(1f32.to_bits() + 100 - near_one) * random.pick(&[1.0, -1.0]),
                _ => random.between(-1.0, 1.0),
            }]
        },
        oracle: |x| vec![math::asin(x[0])],
        classes: |x, _, hits| {
            let size = x[0].abs();
            hits.look("arc sine of 1 in size", size == 1.0);
            hits.look("arc sine next above 1 in size", size == 1f32.next_up());
            hits.look(
                "arc sine far above 1 in size",
                size > 2.0 && size != f32::INFINITY,
            );
            hits.look("arc sine of an infinity", size == f32::INFINITY);
        },
        ..LEAF
    }
}

const MAX_ELEMENT: usize = 27;

fn vectors() -> Leaf {
    Leaf {
        name: "vectors",
        parts: &[
            ("sum", 3),
            ("difference", 3),
            ("product", 3),
            ("cross", 3),
            ("dot", 1),
            ("multiple", 3),
            ("quotient", 3),
            ("length clamp", 3),
            ("negation", 3),
            ("self dot", 1),
            ("length", 1),
            ("largest", 1),
            ("orthonormal", 3),
            ("orthogonal", 3),
        ],
        generate: |random| match random.below(3) {
            0 => {
                let mut x = random.direction().to_vec();
                x.extend(random.direction());
                x.push(random.between(0.0, 2.0));
                x
            }
            _ => list(random, 7),
        },
        oracle: |x| {
            let (a, b, k) = (v3(x, 0), v3(x, 3), x[6]);
            let mut y = Vec::new();
            y.extend(math::add(a, b));
            y.extend(math::sub(a, b));
            y.extend([0, 1, 2].map(|i| a[i] * b[i]));
            y.extend(math::cross(a, b));
            y.push(math::dot(a, b));
            y.extend(math::scale(a, k));
            y.extend(math::divide(a, k));
            y.extend(math::clamp_length_max(a, k));
            y.extend(math::neg(a));
            y.push(math::dot(a, a));
            y.push(math::length(a));
            y.push(math::max_element(a));
            y.extend(math::any_orthonormal(a));
            y.extend(math::any_orthogonal(a));
            y
        },
        // The largest is only taken of inverse masses: of a NaN, or of zeros of both signs, it is left open.
        open: |x| {
            let a = v3(x, 0);
            let zeros = math::max_element(a) == 0.0;
            match zeros || a.iter().any(|x| x.is_nan()) {
                true => vec![MAX_ELEMENT],
                false => Vec::new(),
            }
        },
        classes: |x, _, hits| {
            let a = v3(x, 0);
            let self_dot = math::dot(a, a);
            hits.look("length clamped", self_dot > x[6] * x[6]);
            hits.look("length not clamped", self_dot <= x[6] * x[6]);
            hits.look("length underflows", a != [0.0; 3] && self_dot == 0.0);
            hits.look("orthonormal of z = -0.0", a[2].to_bits() == 0x80000000);
            hits.look("orthonormal of z below zero", a[2] < 0.0);
            hits.look("orthogonal by x", a[0].abs() > a[1].abs());
        },
        ..LEAF
    }
}

fn rotations() -> Leaf {
    Leaf {
        name: "rotations",
        parts: &[
            ("product", 4),
            ("inverse", 4),
            ("turned vector", 3),
            ("length", 1),
            ("normalized", 4),
            ("about an axis", 4),
            ("of a scaled axis", 4),
        ],
        generate: |random| match random.below(3) {
            0 => list(random, 12),
            _ => {
                let mut x = random.rotation().to_vec();
                x.extend(random.rotation());
                x.extend(random.ordinary3());
                x.push(angle(random));
                spoil(random, x)
            }
        },
        oracle: |x| {
            let (a, b, v) = (v4(x, 0), v4(x, 4), v3(x, 8));
            let length = math::rotation_length(a);
            let mut y = Vec::new();
            y.extend(math::product(a, b));
            y.extend(math::inverse(a));
            y.extend(math::turn(a, v));
            y.push(length);
            y.extend(a.map(|x| x / length));
            y.extend(math::from_axis_angle(v, x[11]));
            y.extend(math::from_scaled_axis(v));
            y
        },
        classes: |x, _, hits| {
            let v = v3(x, 8);
            hits.look("scaled axis of length 0", math::length(v) == 0.0);
            hits.look("scaled axis above 32", math::length(v) > 32.0);
        },
        ..LEAF
    }
}

fn matrices() -> Leaf {
    Leaf {
        name: "matrices",
        parts: &[
            ("matrix", 9),
            ("by the matrix", 3),
            ("by the tensor", 3),
            ("turned tensor", 6),
        ],
        generate: |random| match random.below(3) {
            0 => list(random, 13),
            _ => {
                let mut x = random.rotation().to_vec();
                x.extend(random.inv_inertia());
                x.extend(random.ordinary3());
                spoil(random, x)
            }
        },
        oracle: |x| {
            let m = math::matrix(v4(x, 0));
            let v = v3(x, 10);
            let mut y = m.concat();
            y.extend(math::matrix_times(m, v));
            y.extend(math::tensor_times(v6(x, 4), v));
            y.extend(math::turned_tensor(v4(x, 0), v6(x, 4)));
            y
        },
        classes: |x, y, hits| {
            let matrix_finite = finite(&y[..9]);
            let all = finite(x) && matrix_finite;
            hits.look("turned tensor overflows", all && !finite(&y[15..]));
            let length = math::rotation_length(v4(x, 0));
            let other = (0.01..100.0).contains(&length) && (length - 1.0).abs() > 0.1;
            hits.look("turned by a rotation of another length", other && finite(y));
        },
        ..LEAF
    }
}

fn distance_limit() -> Leaf {
    Leaf {
        name: "distance limit",
        parts: &[("direction", 3), ("magnitude", 1), ("along the axis", 3)],
        generate: |random| {
            let mut x = random.distance_range().to_vec();
            match random.below(3) {
                0 => x.extend(list(random, 3)),
                1 => {
                    // Squared distances about 2^-23, which is twice the square of 2^-12.
                    let size = 1.0 / 4096.0;
                    let near = 1.0 + (random.below(9) as f32 - 4.0) * f32::EPSILON;
                    x.extend([size, size * near, 0.0]);
                }
                _ => {
                    let distance = random.between(0.0, 4.0);
                    x.extend(random.direction().map(|x| x * distance));
                }
            }
            x.extend(random.direction());
            match random.one_in(10) {
                true => {
                    let range = ordered([random.ordinary(), random.ordinary()]);
                    let mut x = list(random, 8);
                    x[..2].copy_from_slice(&range);
                    x
                }
                false => x,
            }
        },
        in_domain: |x| x[0] <= x[1],
        oracle: |x| {
            let range = [x[0], x[1]];
            let (direction, magnitude) = parts::distance_correction(range, v3(x, 2));
            let along = parts::distance_correction_along_axis(range, v3(x, 2), v3(x, 5));
            [&direction[..], &[magnitude], &along].concat()
        },
        classes: |x, y, hits| {
            let separation = v3(x, 2);
            let squared = math::dot(separation, separation);
            let distance = math::sqrt(squared);
            let along = math::dot(separation, v3(x, 5));
            hits.look(
                "distance too short for a limit",
                squared <= f32::EPSILON && squared > 0.0,
            );
            hits.look("squared distance at 2^-23", squared == f32::EPSILON);
            hits.look("distance below", distance < x[0] && y[3] > 0.0);
            hits.look("distance above", distance > x[1] && y[3] > 0.0);
            hits.look("distance within", y[3] == 0.0);
            hits.look("distance along the axis below", along < x[0]);
            hits.look("distance along the axis above", along > x[1]);
        },
        ..LEAF
    }
}

/// An angle limit's input whose sine, s·k, is next above 1 in size, above it, far above it or infinite, with axes of any length.
fn right_angle(random: &mut Random) -> Vec<f32> {
    let (s, k) = random.pick(&[(1.0, 1f32.next_up()), (1.0, 1.5), (1e3, 1e3), (1e20, 1e20)]);
    let along = random.pick(&[0.0, -0.0, 1e-3, -1e-3]);
    let mut x = right_angle_range(random).to_vec();
    x.extend([0.0, 0.0, 1.0]);
    x.extend([s, 0.0, 0.0]);
    x.extend([along, k * random.pick(&[1.0, -1.0]), 0.0]);
    x.push(math::PI);
    x
}

fn angle_limit() -> Leaf {
    Leaf {
        name: "angle limit",
        parts: &[("is some", 1), ("correction", 3)],
        generate: |random| {
            if random.one_in(8) {
                return right_angle(random);
            }
            let mut x = random.angle_range().to_vec();
            let axis = random.direction();
            let about = match random.below(4) {
                0 => random.direction(),
                _ => axis,
            };
            let first = match random.below(3) {
                0 => random.direction(),
                _ => math::any_orthonormal(axis),
            };
            let turn = random.angle();
            let mut second = math::turn(crate::generate::rotation_about(about, turn), first);
            if random.one_in(4) {
                let stretch = random.pick(&[1.0001, 0.999, 1.5, 1.0 + 1e-7]);
                second = second.map(|x| x * stretch);
            }
            x.extend(axis);
            x.extend(first);
            x.extend(second);
            x.push(random.pick(&[math::PI, 2.0 * math::PI, 1.0 / 64.0, 0.001]));
            spoil(random, x)
        },
        in_domain: |x| x[0] <= x[1] && x[0].abs() <= 7.0 && x[1].abs() <= 7.0,
        oracle: |x| {
            let correction =
                parts::angle_correction([x[0], x[1]], v3(x, 2), v3(x, 5), v3(x, 8), x[11]);
            match correction {
                Some([a, b, c]) => vec![1.0, a, b, c],
                None => vec![0.0; 4],
            }
        },
        classes: |x, y, hits| {
            let (axis, first, second) = (v3(x, 2), v3(x, 5), v3(x, 8));
            let sine = math::dot(math::cross(first, second), axis);
            let finite = x.iter().all(|x| x.is_finite());
            let acute = math::dot(first, second) >= 0.0;
            let widest = x[0] == 7.0 || x[1] == -7.0;
            hits.look("angle: clamped to 7 in size", y[0] == 1.0 && widest);
            let size = sine.abs();
            let above = finite && size > 1.0 && size != f32::INFINITY;
            hits.look("angle: sine next above 1", above && size == 1f32.next_up());
            hits.look("angle: sine far above 1", above && size > 2.0);
            hits.look("angle: sine infinite", finite && size == f32::INFINITY);
            hits.look("angle: sine above 1, corrected", above && y[0] == 1.0);
            hits.look("angle: sine above 1, within", above && y[0] == 0.0);
            let apart = above && sine < 0.0 && !acute;
            hits.look(
                "angle: sine below -1, axes apart: below -π/2",
                apart && x[0] == -FRAC_PI_2 && y[0] == 1.0,
            );
            hits.look("angle obtuse", finite && !acute);
            hits.look("angle within", y[0] == 0.0 && finite && sine.abs() <= 1.0);
            if y[0] == 1.0 && finite {
                // Which side: with the other end out of the way it is still corrected.
                let below =
                    parts::angle_correction([x[0], f32::INFINITY], axis, first, second, x[11]);
                hits.look("angle below", below.is_some());
                hits.look("angle above", below.is_none());
                let whole = parts::angle_correction([x[0], x[1]], axis, first, second, 100.0);
                let [a, b, c] = whole.unwrap();
                hits.look("angle correction clamped", [a, b, c] != y[1..4]);
            }
        },
        ..LEAF
    }
}

fn motor_of(x: &[f32]) -> Motor {
    let (first, second) = (x[4], x[5]);
    Motor {
        target_velocity: x[1],
        target_position: x[2],
        cap: x[3],
        model: match x[0] as i32 {
            1 => Model::SpringDamper {
                frequency: first,
                damping_ratio: second,
            },
            2 => Model::AccelerationBased {
                stiffness: first,
                damping: second,
            },
            _ => Model::ForceBased {
                stiffness: first,
                damping: second,
            },
        },
    }
}

fn motor() -> Leaf {
    Leaf {
        name: "motor",
        parts: &[("angular", 2), ("linear", 2)],
        generate: |random| {
            let model = 1 + random.below(3) as u32;
            let mut x = random.motor_numbers(model).to_vec();
            x.push(random.mixed(20));
            x.push(random.mixed(20));
            x.push(random.between(0.0, 10.0));
            x.push(1.0 / random.rate(EDITION_2.fastest) as f32);
            if random.one_in(10) {
                // An acceleration of the velocity error alone, whose correction is about 2^-23.
                let bits = f32::EPSILON.to_bits() + random.below(3) as u32 - 1;
                x[3..5].copy_from_slice(&[0.0, 1.0]);
                x[5] = f32::from_bits(bits) * 64.0;
                x[8] = 1.0 / 64.0;
            }
            let mut x = spoil(random, x);
            x.insert(0, model as f32);
            x
        },
        in_domain: |x| (1.0..=3.0).contains(&x[0]) && x[9].is_finite(),
        oracle: |x| {
            let lagrange = parts::motor_lagrange(motor_of(x), x[6], x[7], x[8], x[9]);
            let answer = match lagrange {
                Some(multiplier) => [1.0, multiplier],
                None => [0.0, 0.0],
            };
            [answer, answer].concat()
        },
        classes: |x, y, hits| {
            for model in 1..4 {
                hits.look(format!("motor model {model}"), x[0] as i32 == model);
            }
            hits.look("motor gives none", y[0] == 0.0);
            let free = parts::motor_lagrange(
                Motor {
                    cap: 0.0,
                    ..motor_of(x)
                },
                x[6],
                x[7],
                x[8],
                x[9],
            );
            let cap = x[3];
            let uncapped = free.is_some_and(|free| free == y[1]);
            hits.look("motor capped", free.is_some() && !uncapped);
            hits.look("motor under its cap", uncapped && cap > 0.0 && cap < 1e30);
            hits.look("motor with cap 0", cap == 0.0);
            hits.look("motor with cap f32::MAX", cap == f32::MAX);
        },
        ..LEAF
    }
}

fn multiplier() -> Leaf {
    Leaf {
        name: "multiplier",
        parts: &[("multiplier", 1)],
        generate: |random| {
            let [w1, w2] = match random.below(4) {
                0 => {
                    let bits = f32::EPSILON.to_bits() + random.below(3) as u32 - 1;
                    [f32::from_bits(bits), 0.0]
                }
                1 => [f32::EPSILON / 2.0, f32::EPSILON / 2.0],
                2 => [random.wild(), random.wild()],
                _ => [random.between(0.0, 10.0), random.between(0.0, 10.0)],
            };
            let lagrange = match random.one_in(4) {
                true => random.mixed(4),
                false => 0.0,
            };
            let c = random.mixed(10);
            let compliance = match random.one_in(10) {
                true => random.wild(),
                false => random.compliance(),
            };
            vec![
                lagrange,
                c,
                w1,
                w2,
                compliance,
                1.0 / random.rate(EDITION_2.fastest) as f32,
            ]
        },
        oracle: |x| {
            vec![parts::compute_lagrange_update(
                x[0],
                x[1],
                &[x[2], x[3]],
                x[4],
                x[5],
            )]
        },
        classes: |x, y, hits| {
            let w = x[2] + x[3];
            hits.look("w_sum at 2^-23", w == f32::EPSILON && y[0] == 0.0);
            let next = w == f32::EPSILON.next_up();
            hits.look("w_sum next above 2^-23", next && x[1] != 0.0 && y[0] != 0.0);
            hits.look("stiff", x[4] == 0.0);
            hits.look("soft", x[4] >= 1.0);
        },
        ..LEAF
    }
}

fn weights() -> Leaf {
    Leaf {
        name: "weights",
        parts: &[
            ("positional weight", 1),
            ("its generalized inverse mass", 1),
            ("angular weight", 1),
            ("positional turn", 4),
            ("angular turn", 4),
        ],
        generate: |random| {
            let mut x = vec![random.inv_mass()];
            x.extend(random.inv_inertia());
            x.extend(random.ordinary3());
            x.extend(random.direction());
            let mut x = spoil(random, x);
            x.insert(0, locks(random));
            x
        },
        in_domain: |x| x[1] >= 0.0,
        oracle: |x| {
            let body = inertia(x, 1, x[0]);
            let (r, n) = (v3(x, 8), v3(x, 11));
            let largest = math::max_element(parts::effective_inv_mass(&body));
            let mut y = vec![
                parts::positional_inverse_mass(largest, body.inv_inertia, r, n),
                parts::positional_inverse_mass(body.inv_mass, body.inv_inertia, r, n),
                parts::angular_inverse_mass(body.inv_inertia, n),
            ];
            y.extend(parts::positional_delta_rot(body.inv_inertia, r, n));
            y.extend(parts::angular_delta_rot(body.inv_inertia, n));
            y
        },
        // The sign of a weight of zero is the largest's, which is left open.
        open: |x| match x[1] == 0.0 {
            true => vec![0],
            false => Vec::new(),
        },
        classes: |x, _, hits| {
            for locks in 0..8 {
                hits.look(format!("locks {locks:03b}"), x[0] as i32 == locks);
            }
        },
    }
}

fn positional_impulse() -> Leaf {
    Leaf {
        name: "positional impulse",
        parts: &[("bodies", 26)],
        generate: |random| {
            let case = joint_case(random);
            let mut x = of_joint(&case, &[53..79, 79..93]);
            for _ in 0..3 {
                x.extend(random.ordinary3());
            }
            let x = spoil(random, x);
            [vec![locks(random), locks(random)], x].concat()
        },
        oracle: |x| {
            let (mut body1, mut body2) = (motion(x, 2), motion(x, 15));
            parts::apply_positional_impulse(
                &mut body1,
                &mut body2,
                &inertia(x, 28, x[0]),
                &inertia(x, 35, x[1]),
                v3(x, 42),
                v3(x, 45),
                v3(x, 48),
            );
            [motion_numbers(&body1), motion_numbers(&body2)].concat()
        },
        ..LEAF
    }
}

fn angular_impulse() -> Leaf {
    Leaf {
        name: "angular impulse",
        parts: &[("bodies", 26)],
        generate: |random| {
            let case = joint_case(random);
            let mut x = of_joint(&case, &[53..79, 80..86, 87..93]);
            x.extend(random.ordinary3());
            spoil(random, x)
        },
        oracle: |x| {
            let (mut body1, mut body2) = (motion(x, 0), motion(x, 13));
            parts::apply_angular_impulse(&mut body1, &mut body2, v6(x, 26), v6(x, 32), v3(x, 38));
            [motion_numbers(&body1), motion_numbers(&body2)].concat()
        },
        ..LEAF
    }
}

fn align_orientation() -> Leaf {
    Leaf {
        name: "align orientation",
        parts: &[("bodies", 26), ("multiplier times the axis", 3)],
        generate: |random| {
            let case = joint_case(random);
            let mut x = of_joint(&case, &[53..79, 80..86, 87..93]);
            match random.below(4) {
                0 => {
                    let bits = f32::EPSILON.to_bits() + random.below(3) as u32 - 1;
                    x.extend([f32::from_bits(bits), 0.0, 0.0]);
                }
                1 => x.extend(random.small3(0.01)),
                _ => x.extend(random.ordinary3()),
            }
            x.extend([random.compliance(), case.dt]);
            spoil(random, x)
        },
        oracle: |x| {
            let (mut body1, mut body2) = (motion(x, 0), motion(x, 13));
            let lagrange = parts::align_orientation(
                &mut body1,
                &mut body2,
                v6(x, 26),
                v6(x, 32),
                v3(x, 38),
                0.0,
                x[41],
                x[42],
            );
            let bodies = [motion_numbers(&body1), motion_numbers(&body2)].concat();
            [&bodies[..], &lagrange].concat()
        },
        classes: |x, _, hits| {
            let angle = math::length(v3(x, 38));
            hits.look("align at 2^-23", angle == f32::EPSILON);
            hits.look("align next above 2^-23", angle == f32::EPSILON.next_up());
        },
        ..LEAF
    }
}

fn point_constraint() -> Leaf {
    Leaf {
        name: "point constraint",
        parts: &[("prepared", 9), ("bodies", 26), ("total", 3)],
        generate: |random| {
            let case = joint_case(random);
            let mut x = of_joint(&case, &[30..50, 0..6, 53..93]);
            if random.one_in(10) {
                // A separation whose square underflows.
                x = vec![0.0; 66];
                for w in [6, 16, 38, 51] {
                    x[w] = 1.0;
                }
                x[10] = f32::from_bits((127 - 80 + 10 * random.below(2) as u32) << 23);
                x[52] = 1.0;
                x[59] = 1.0;
            }
            x.extend([random.compliance(), case.dt]);
            let x = spoil(random, x);
            [vec![locks(random), locks(random)], x].concat()
        },
        // The largest of a NaN is left open.
        in_domain: |x| !x[54].is_nan() && !x[61].is_nan(),
        oracle: |x| {
            let mut point =
                parts::PointConstraint::prepare(&pose(x, 2), &pose(x, 12), v3(x, 22), v3(x, 25));
            let (mut body1, mut body2) = (motion(x, 28), motion(x, 41));
            point.solve(
                &mut body1,
                &mut body2,
                &inertia(x, 54, x[0]),
                &inertia(x, 61, x[1]),
                x[68],
                x[69],
            );
            [
                &point.world_r1[..],
                &point.world_r2,
                &point.center_difference,
                &motion_numbers(&body1),
                &motion_numbers(&body2),
                &point.total_lagrange,
            ]
            .concat()
        },
        classes: |x, y, hits| {
            let before = &x[28..54];
            hits.look("point left alone", all_same(before, &y[9..35]));
            hits.look("point moved", !all_same(before, &y[9..35]));
        },
        ..LEAF
    }
}

fn fixed_angle_constraint() -> Leaf {
    Leaf {
        name: "fixed angle constraint",
        parts: &[("prepared", 4), ("bodies", 26), ("total", 3)],
        generate: |random| {
            let case = joint_case(random);
            let mut x = of_joint(&case, &[33..37, 43..47, 6..14, 53..79, 80..86, 87..93]);
            x.extend([random.compliance(), case.dt]);
            spoil(random, x)
        },
        oracle: |x| {
            let mut angle =
                parts::FixedAngleConstraint::prepare(v4(x, 0), v4(x, 4), v4(x, 8), v4(x, 12));
            let (mut body1, mut body2) = (motion(x, 16), motion(x, 29));
            let turning = |at: usize| Inertia {
                inv_inertia: v6(x, at),
                ..Inertia::dummy()
            };
            angle.solve(
                &mut body1,
                &mut body2,
                &turning(42),
                &turning(48),
                x[54],
                x[55],
            );
            [
                &angle.rotation_difference[..],
                &motion_numbers(&body1),
                &motion_numbers(&body2),
                &angle.total_lagrange,
            ]
            .concat()
        },
        classes: |x, y, hits| {
            let before = &x[16..42];
            hits.look("fixed angle left alone", all_same(before, &y[4..30]));
            hits.look("fixed angle turned", !all_same(before, &y[4..30]));
        },
        ..LEAF
    }
}

fn inertia_numbers(inertia: &Inertia) -> Vec<f32> {
    let locks = inertia.locks.map(|lock| lock as u32 as f32);
    [&[inertia.inv_mass][..], &inertia.inv_inertia, &locks].concat()
}

fn projection() -> Leaf {
    Leaf {
        name: "projection",
        parts: &[("body", 13)],
        generate: |random| {
            let case = joint_case(random);
            let mut x = of_joint(&case, &[53..66, 72..79]);
            x.push(case.dt);
            spoil(random, x)
        },
        oracle: |x| {
            let mut body = motion(x, 0);
            solver::project(&mut body, v3(x, 13), v4(x, 16), x[20]);
            motion_numbers(&body)
        },
        classes: |x, _, hits| {
            let delta = math::product(v4(x, 9), math::inverse(v4(x, 16)));
            hits.look("projection of w below zero", delta[3] < 0.0);
            hits.look("projection of w not below zero", delta[3] >= 0.0);
        },
        ..LEAF
    }
}

fn dummies() -> Leaf {
    Leaf {
        name: "dummies",
        parts: &[("body", 13), ("inertia", 10)],
        oracle: |_| {
            let mut y = motion_numbers(&Motion::DUMMY);
            y.extend(inertia_numbers(&Inertia::dummy()));
            y
        },
        ..LEAF
    }
}

// ----------------------------------------------------------------------------------------------------------------------------- any joint

fn all_finite(numbers: &[f32]) -> bool {
    numbers.iter().all(|number| number.is_finite())
}

/// How many prepared numbers a hinge and a ball have; other kinds have fewer.
const PREPARED: usize = 21;

fn case_body(anchored: bool, motion: &Motion, inertia: &Inertia) -> (Motion, Inertia) {
    match anchored {
        true => (Motion::DUMMY, Inertia::dummy()),
        false => (*motion, *inertia),
    }
}

/// The prepared numbers, zeros behind; both bodies after the warm start; after the solve 1 where refusal 13 finds each number of the joint and of both
/// bodies finite, their inverse inertias too, else 0, the totals and both bodies.
fn joint_answer(case: &JointCase) -> Vec<f32> {
    let joint = case.joint.solver_joint();
    let (motion1, inertia1) = case_body(case.anchored == 1, &case.motion1, &case.inertia1);
    let (motion2, inertia2) = case_body(case.anchored == 2, &case.motion2, &case.inertia2);
    let (chosen1, chosen2) = solver::choose(&inertia1, &inertia2);

    let warm_value = case.motor_total.map(|total| total / case.dt);
    let mut prepared = solver::prepare(&joint, &case.pose1, &case.pose2, warm_value);
    let mut answer = prepared.numbers();
    answer.resize(PREPARED, 0.0);
    let (mut body1, mut body2) = (motion1, motion2);
    solver::warm_start(
        &mut prepared,
        &mut body1,
        &mut body2,
        &chosen1,
        &chosen2,
        case.warm_coefficient,
    );
    answer.extend(motion_numbers(&body1));
    answer.extend(motion_numbers(&body2));

    // Of the bodies before the warm start.
    let (mut body1, mut body2) = (motion1, motion2);
    solver::solve(
        &mut prepared,
        &mut body1,
        &mut body2,
        &chosen1,
        &chosen2,
        case.dt,
    );
    let bodies = [motion_numbers(&body1), motion_numbers(&body2)].concat();
    let inertias = [inertia1.inv_inertia, inertia2.inv_inertia].concat();
    let finite = prepared.is_finite() && all_finite(&bodies) && all_finite(&inertias);
    answer.push(finite as u32 as f32);
    answer.extend(prepared.totals().concat());
    answer.extend(bodies);
    answer
}

/// What refusal 13 finds after the solve.
fn finite_classes(kind: &str, of_finite: bool, y: &[f32], hits: &mut Hits) {
    let solved = &y[PREPARED + 26..];
    let stopped = solved[0] == 0.0;
    let prepared = all_finite(&y[..PREPARED]);
    let totals = all_finite(&solved[1..13]);
    let bodies = all_finite(&solved[13..]);
    hits.look(format!("{kind} finite after its solve"), solved[0] == 1.0);
    hits.look(format!("{kind} not finite after its solve"), stopped);
    hits.look(
        format!("{kind} of finite numbers not finite after its solve"),
        of_finite && stopped,
    );
    hits.look(
        "joint not finite in prepared numbers alone",
        stopped && !prepared && totals && bodies,
    );
    hits.look(
        "joint not finite in bodies alone",
        stopped && prepared && totals,
    );
    hits.look(
        "joint not finite in totals, prepared numbers finite",
        stopped && prepared && !totals,
    );
}

/// Which arc sines above 1 in size a joint's one angle limit asks for. A swing's can't be infinite, nor a twist's far above 1: their axes are made unit.
fn above_one_classes(case: &JointCase, turns: bool, hits: &mut Hits) {
    let joint = &case.joint;
    let limit = match (joint.kind, joint.limit1, joint.limit2) {
        (HINGE, true, _) => "hinge",
        (BALL, true, false) => "swing",
        (BALL, false, true) => "twist",
        _ => return,
    };
    let (_, above) = above_one::of(|| joint_answer(case));
    let mut look = |what: &str, found| hits.look(format!("{limit}'s sine {what}"), found);
    look("next above 1", above.next > 0);
    if limit != "twist" {
        look("far above 1", above.far > 0);
    }
    if limit == "hinge" {
        look("infinite", above.infinite > 0);
    }
    let finite = above.all > above.infinite;
    look("above 1, corrected", finite && turns);
    look("above 1, not corrected", finite && !turns);
}

/// What a case reaches is seen by what becomes of the answer when a part is taken away.
fn joint_classes(x: &[f32], y: &[f32], hits: &mut Hits) {
    let case = JointCase::of_numbers(x);
    let joint = &case.joint;
    let kind = KINDS[joint.kind as usize];
    for name in KINDS {
        hits.look(format!("joint {name}"), name == kind);
    }
    hits.look("joint with no anchored body", case.anchored == 0);
    hits.look("joint with the first anchored", case.anchored == 1);
    hits.look("joint with the second anchored", case.anchored == 2);
    let finite = all_finite(x);
    hits.look("joint of wild numbers", !finite);
    hits.look("joint with an answer not finite", !all_finite(y));
    finite_classes(kind, finite, y, hits);
    if !finite {
        return;
    }
    let differs = |edit: &dyn Fn(&mut JointCase)| {
        let mut edited = case.clone();
        edit(&mut edited);
        !all_same(&joint_answer(&edited), y)
    };
    const OUT: f32 = f32::INFINITY;
    let totals = &y[y.len() - 38..y.len() - 26];
    let at_rest = totals.iter().all(|x| *x == 0.0);
    hits.look(format!("{kind} with totals of zero"), at_rest);
    hits.look(format!("{kind} with totals"), !at_rest);
    if joint.limit1 {
        hits.look(
            format!("{kind} first limit below"),
            differs(&|case| case.joint.limit1_range[0] = -OUT),
        );
        hits.look(
            format!("{kind} first limit above"),
            differs(&|case| case.joint.limit1_range[1] = OUT),
        );
        if joint.kind != TETHER {
            let off = !differs(&|case| case.joint.limit1 = false);
            hits.look(format!("{kind} first limit not reached"), off);
        }
        if matches!(joint.kind, HINGE | BALL) {
            // Any angle is outside of this limit: where that changes nothing there is no angle.
            let mut never = case.clone();
            never.joint.limit1_range = [3.9, 4.0];
            let mut off = case.clone();
            off.joint.limit1 = false;
            let no_angle = all_same(&joint_answer(&never), &joint_answer(&off));
            hits.look(format!("{kind} first limit skipped"), no_angle);
        }
    }
    if joint.limit2 {
        hits.look(
            "ball second limit below",
            differs(&|case| case.joint.limit2_range[0] = -OUT),
        );
        hits.look(
            "ball second limit above",
            differs(&|case| case.joint.limit2_range[1] = OUT),
        );
        let mut never = case.clone();
        never.joint.limit2_range = [3.9, 4.0];
        let mut off = case.clone();
        off.joint.limit2 = false;
        let no_angle = all_same(&joint_answer(&never), &joint_answer(&off));
        hits.look("ball second limit skipped", no_angle);
    }
    if matches!(joint.kind, HINGE | BALL) {
        let turns = differs(&|case| (case.joint.limit1, case.joint.limit2) = (false, false));
        above_one_classes(&case, turns, hits);
    }
    if joint.kind == BALL {
        let (swing1, swing2) = (v3(y, 9), v3(y, 12));
        let cosine = math::dot(
            math::turn(case.motion1.delta_rotation, swing1),
            math::turn(case.motion2.delta_rotation, swing2),
        );
        let wide = cosine < -0.51;
        hits.look(
            "ball swing vanishes",
            math::length(math::cross(swing1, swing2)) <= f32::EPSILON,
        );
        hits.look(
            "ball twist axis vanishes",
            math::length(math::add(swing1, swing2)) <= 1e-6,
        );
        if joint.limit2 {
            let twisted = differs(&|case| case.joint.limit2 = false);
            hits.look("ball twist corrected in a wide swing", wide && twisted);
            let swing = math::add(
                math::turn(case.motion1.delta_rotation, swing1),
                math::turn(case.motion2.delta_rotation, swing2),
            );
            let axis = math::divide(swing, math::length(swing));
            let vanishes = |twist: [f32; 3]| {
                let along = math::scale(axis, math::dot(axis, twist));
                math::length(math::sub(twist, along)) <= f32::EPSILON
            };
            let twist1 = math::turn(case.motion1.delta_rotation, v3(y, 15));
            let twist2 = math::turn(case.motion2.delta_rotation, v3(y, 18));
            let apart = math::length(swing) > f32::EPSILON;
            hits.look("ball first twist vanishes", apart && vanishes(twist1));
            hits.look("ball second twist vanishes", apart && vanishes(twist2));
        }
    }
    if joint.motor != 0 {
        let moves = differs(&|case| case.joint.motor = 0);
        hits.look(format!("{kind} motor {} moves", joint.motor), moves);
        hits.look(format!("{kind} motor idle"), !moves);
        let capped = differs(&|case| case.joint.motor_numbers[2] = 0.0);
        hits.look(format!("{kind} motor capped"), capped);
        let cap = joint.motor_numbers[2];
        hits.look(
            format!("{kind} motor under its cap"),
            !capped && moves && cap > 0.0 && cap < f32::MAX,
        );
        if joint.kind == HINGE {
            hits.look(
                "hinge motor with a wrapped error",
                moves && joint.motor_numbers[1].abs() > 7.0,
            );
        }
        let coefficient = case.warm_coefficient != 0.0;
        let warmed = differs(&|case| case.warm_coefficient = 0.0);
        hits.look(format!("{kind} warm started"), coefficient && warmed);
    }
    if case.anchored == 2 && joint.anchor1 == [0.0; 3] {
        let least = case.inertia1.inv_mass;
        hits.look(
            format!("{kind} with weights of 2^-23 does nothing"),
            least == f32::EPSILON && at_rest,
        );
        hits.look(
            format!("{kind} with weights next above 2^-23 does something"),
            least == f32::EPSILON.next_up() && !at_rest,
        );
    }
    let alone = joint.anchor1 == [0.0; 3] && case.pose1.position == [0.0; 3];
    if joint.kind == SLIDE && alone && joint.motor == 0 {
        let apart = case.pose2.position[1].abs();
        hits.look(
            "slide apart by 2^-23 does nothing",
            at_rest && apart == f32::EPSILON,
        );
        let more = apart == f32::EPSILON.next_up();
        hits.look("slide apart by more does something", !at_rest && more);
    }
    if matches!(joint.kind, HINGE | SLIDE) && alone && joint.motor == 2 {
        let correction = joint.motor_numbers[0] * case.dt;
        hits.look(
            format!("{kind} motor's correction of 2^-23 does nothing"),
            at_rest && correction == f32::EPSILON,
        );
        let more = correction == f32::EPSILON.next_up();
        hits.look(
            format!("{kind} motor's correction of more does something"),
            !at_rest && more,
        );
    }
}

fn joints() -> Leaf {
    Leaf {
        name: "joints",
        parts: &[
            ("prepared", PREPARED),
            ("warm started bodies", 26),
            ("finite", 1),
            ("totals", 12),
            ("solved bodies", 26),
        ],
        generate: |random| joint_case(random).numbers(),
        in_domain: |x| {
            let case = JointCase::of_numbers(x);
            case.in_domain() && all_same(&case.numbers(), x)
        },
        oracle: |x| joint_answer(&JointCase::of_numbers(x)),
        classes: joint_classes,
        ..LEAF
    }
}

/// Scalars, vectors, limits, motors, impulses, constraints.
pub fn leaves() -> Vec<Leaf> {
    vec![
        scalars(),
        root(),
        sine(),
        arctangent(),
        arc_sine(),
        vectors(),
        rotations(),
        matrices(),
        distance_limit(),
        angle_limit(),
        motor(),
        multiplier(),
        weights(),
        positional_impulse(),
        angular_impulse(),
        align_orientation(),
        point_constraint(),
        fixed_angle_constraint(),
        projection(),
        dummies(),
    ]
}

/// Each joint's prepare, warm start and solve.
pub fn any_joint() -> Vec<Leaf> {
    vec![joints()]
}

impl Leaf {
    fn place(&self, at: usize) -> String {
        let mut start = 0;
        for (part, size) in self.parts {
            if at < start + size {
                return format!("{part} [{}]", at - start);
            }
            start += size;
        }
        format!("[{at}]")
    }

    /// The first place where the answers differ, of those that are not open.
    fn first_difference(&self, x: &[f32], a: &[f32], b: &[f32]) -> Option<usize> {
        let open = (self.open)(x);
        if a.len() != b.len() {
            return Some(a.len().min(b.len()));
        }
        (0..a.len()).find(|i| !open.contains(i) && !super::same(a[*i], b[*i]))
    }

    /// Compares `count` inputs of a seed. `rattle` gives the other side's answer to a leaf by its name.
    pub fn compare(
        &self,
        rattle: fn(&str, &[f32]) -> Vec<f32>,
        seed: u64,
        count: u64,
        hits: &mut Hits,
    ) -> Result<u64, Box<Difference>> {
        let mut compared = 0;
        for case in 0..count {
            let x = (self.generate)(&mut Random::of_case(seed, case));
            if !(self.in_domain)(&x) {
                continue;
            }
            let a = (self.oracle)(&x);
            let b = rattle(self.name, &x);
            if self.first_difference(&x, &a, &b).is_some() {
                return Err(Box::new(self.difference(rattle, x, seed, case)));
            }
            (self.classes)(&x, &a, hits);
            compared += 1;
        }
        Ok(compared)
    }

    fn difference(
        &self,
        rattle: fn(&str, &[f32]) -> Vec<f32>,
        x: Vec<f32>,
        seed: u64,
        case: u64,
    ) -> Difference {
        let x = shrink::numbers(x, |x| {
            let differs = |a: &[f32]| self.first_difference(x, a, &rattle(self.name, x));
            (self.in_domain)(x) && differs(&(self.oracle)(x)).is_some()
        });
        let (a, b) = ((self.oracle)(&x), rattle(self.name, &x));
        let at = self.first_difference(&x, &a, &b).expect("it differs");
        let text = format!(
            "{}: {} differs (seed {seed}, case {case})\n  input: {}\n  oracle: {}\n  rattle: {}\n",
            self.name,
            self.place(at),
            in_hex(&x),
            in_hex(&a),
            in_hex(&b),
        );
        let name = self.name.replace(' ', "_");
        Difference {
            files: vec![
                (format!("{name}.input"), number_bytes(&x)),
                (format!("{name}.txt"), text.clone().into_bytes()),
            ],
            text,
        }
    }
}

/// Roots to store: all powers of two, the ends of the formats, squares and their neighbours, numbers without a root, and some at random.
pub fn roots() -> Vec<f32> {
    let mut list = vec![0.0, -0.0, f32::INFINITY, f32::NEG_INFINITY, f32::NAN, -1.0];
    list.extend([1, 2, 3, 0x7ffffe, 0x7fffff, 0x800000, 0x800001].map(f32::from_bits));
    list.extend([
        f32::MAX,
        f32::MAX.next_down(),
        -f32::MAX,
        -f32::from_bits(1),
    ]);
    list.extend((0..23).map(|bit| f32::from_bits(1 << bit)));
    list.extend((1..255).map(|exponent| f32::from_bits(exponent << 23)));
    for root in (1..64).chain([4095, 4096, 16777215]) {
        let square = root as f32 * root as f32;
        list.extend([square.next_down(), square, square.next_up()]);
    }
    let random = &mut Random::of_case(1, 0);
    list.extend((0..500).map(|_| f32::from_bits(random.bits() as u32 & 0x7fffffff)));
    list
}

/// y and x to store: all nodes of both tables and the middles between, both sides of each border, zeros, infinities, and some at random.
pub fn angles() -> Vec<[f32; 2]> {
    use std::f64::consts::{FRAC_PI_2, PI};
    let around = |x: f32| [x.next_down(), x, x.next_up()];
    let mut list = Vec::new();
    for half_step in 0..=2048 {
        // The sine's steps go round by turns through the quadrants.
        let quadrant = (half_step % 10) as f64;
        let angle = half_step as f64 * PI / 4096.0 + quadrant * FRAC_PI_2;
        list.push([angle as f32, -(half_step as f32) / 2048.0]);
        list.push([half_step as f32 / 2048.0, 1.0]);
    }
    for quarter in 1..=10 {
        for angle in around((quarter as f64 * FRAC_PI_2) as f32) {
            list.extend([[angle, angle], [-angle, 1.0], [angle, -0.25]]);
        }
    }
    for border in [0.015625, 16.0, 1.0, f32::EPSILON, f32::MIN_POSITIVE] {
        for x in around(border) {
            for x in [x, -x] {
                list.extend([[x, 1.0], [1.0, x], [x, -1.0], [-1.0, x], [x, x]]);
            }
        }
    }
    let ends = [
        0.0,
        -0.0,
        1.0,
        -1.0,
        f32::INFINITY,
        f32::NEG_INFINITY,
        f32::NAN,
    ];
    let sizes = [f32::MAX, f32::from_bits(1), -f32::MAX, -f32::from_bits(1)];
    for y in ends.into_iter().chain(sizes) {
        for x in ends.into_iter().chain(sizes) {
            list.push([y, x]);
        }
    }
    let random = &mut Random::of_case(2, 0);
    for _ in 0..500 {
        list.push([random.between(-16.0, 16.0), random.between(-16.0, 16.0)]);
        list.push([random.between(-1.0, 1.0), random.wild()]);
    }
    list
}

/// A function of one number over all bit patterns from one on, by its leaf.
pub struct Every {
    pub name: &'static str,
    leaf: Leaf,
    from: u32,
    to: u32,
    /// The leaf's input of a bit pattern.
    input: fn(f32) -> Vec<f32>,
}

/// The root, the sine and the cosine, the arc sine of every f32, and the arctangent of every slope from 0 to 1, and of its inverse.
pub fn every() -> Vec<Every> {
    let one = 1f32.to_bits();
    vec![
        Every {
            name: "root",
            leaf: root(),
            from: 0,
            to: u32::MAX,
            input: |x| vec![x],
        },
        Every {
            name: "sine and cosine",
            leaf: sine(),
            from: 0,
            to: u32::MAX,
            input: |x| vec![x],
        },
        Every {
            name: "arc sine",
            leaf: arc_sine(),
            from: 0,
            to: u32::MAX,
            input: |x| vec![x],
        },
        Every {
            name: "arctangent of a slope up to 1",
            leaf: arctangent(),
            from: 0,
            to: one,
            input: |x| vec![x, 1.0],
        },
        Every {
            name: "arctangent of a slope from 1",
            leaf: arctangent(),
            from: 0,
            to: one,
            input: |x| vec![-1.0, -x],
        },
    ]
}

impl Every {
    pub fn compare(&self, rattle: fn(&str, &[f32]) -> Vec<f32>) -> Result<u64, Box<Difference>> {
        for bits in self.from..=self.to {
            let x = (self.input)(f32::from_bits(bits));
            let (a, b) = ((self.leaf.oracle)(&x), rattle(self.leaf.name, &x));
            if !all_same(&a, &b) {
                return Err(Box::new(self.leaf.difference(rattle, x, 0, bits as u64)));
            }
        }
        Ok((self.to - self.from) as u64 + 1)
    }
}

#[cfg(test)]
mod tests {
    use super::*;

    /// The oracle's own answer, as if it were the Rattle's.
    fn right(name: &str, x: &[f32]) -> Vec<f32> {
        let mut all = leaves();
        all.extend(any_joint());
        let leaf = all.iter().find(|leaf| leaf.name == name).unwrap();
        (leaf.oracle)(x)
    }

    /// The last number is off by its lowest bit where it is finite.
    fn wrong(name: &str, x: &[f32]) -> Vec<f32> {
        let mut y = right(name, x);
        let last = y.last_mut().unwrap();
        if last.is_finite() {
            *last = f32::from_bits(last.to_bits() ^ 1);
        }
        y
    }

    #[test]
    fn every_class_comes_up() {
        let mut hits = Hits::default();
        for leaf in leaves() {
            leaf.compare(right, 7, 4000, &mut hits).unwrap();
        }
        for leaf in any_joint() {
            leaf.compare(right, 7, 20000, &mut hits).unwrap();
        }
        assert_eq!(hits.missed(), [""; 0], "{}", hits.lines());
    }

    #[test]
    fn a_wrong_bit_is_found() {
        for leaf in leaves() {
            let found = leaf.compare(wrong, 7, 400, &mut Hits::default());
            let text = found.expect_err(leaf.name).text;
            assert!(text.contains("differs"), "{text}");
        }
    }
}
