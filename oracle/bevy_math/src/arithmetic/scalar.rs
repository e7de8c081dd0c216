//! Document 01's scalar operations: root, sine, cosine, arctangent, arc sine, remainder and clamp.

use super::tables::{ARCTANGENT, SINE};

pub const PI: f32 = f32::from_bits(0x40490fdb);
pub const TAU: f32 = f32::from_bits(0x40c90fdb);
const HALF_PI: f32 = f32::from_bits(0x3fc90fdb);

/// 2^-6: below it, sine and arctangent are two terms of their series.
const SMALL: f32 = 0.015625;

/// The nearest f32, ties to even; NaN below zero; a zero, +infinity or NaN gives itself. The machine's root is that.
#[inline]
pub fn sqrt(a: f32) -> f32 {
    a.sqrt()
}

#[inline]
pub fn squared(a: f32) -> f32 {
    a * a
}

/// A fraction of 2^30 as f32: first over 2^24 toward zero, then exactly.
fn narrowed(a: i64) -> f32 {
    (a / 64) as f32 / 16777216.0
}

/// The quarter table carried over the 4,096 steps of a turn.
fn sine_at(step: u64) -> i64 {
    let step = (step % 4096) as usize;
    match step {
        0..=1024 => SINE[step],
        1025..=2048 => SINE[2048 - step],
        2049..=3072 => -SINE[step - 2048],
        _ => -SINE[4096 - step],
    }
}

/// The sine of |a| + `ahead` steps, for 2^-6 ≤ |a| ≤ 16.
fn sine_by_table(a: f32, ahead: u64) -> f32 {
    let k = (a.abs() * 16777216.0) as u64;
    let q = (k << 33) / 3373259426;
    let step = q / 65536 + ahead;
    let fraction = (q % 65536) as i64;
    let (at, next) = (sine_at(step), sine_at(step + 1));
    narrowed(at + (next - at) * fraction / 65536)
}

/// NaN where |a| is above 16.
pub fn sin(a: f32) -> f32 {
    if a.abs() < SMALL {
        a - a * a * a / 6.0
    } else if a.abs() <= 16.0 {
        let sine = sine_by_table(a, 0);
        if a < 0.0 {
            -sine
        } else {
            sine
        }
    } else {
        f32::NAN
    }
}

/// NaN where |a| is above 16.
pub fn cos(a: f32) -> f32 {
    if a.abs() < SMALL {
        1.0 - a * a / 2.0
    } else if a.abs() <= 16.0 {
        sine_by_table(a, 1024)
    } else {
        f32::NAN
    }
}

/// For 0 ≤ t ≤ 1.
fn arctangent(t: f32) -> f32 {
    if t < SMALL {
        return t - t * t * t / 3.0;
    }
    let k = (t * 16777216.0) as usize;
    let step = k / 16384;
    if step == 1024 {
        return narrowed(ARCTANGENT[1024]);
    }
    let fraction = (k % 16384) as i64;
    let (at, next) = (ARCTANGENT[step], ARCTANGENT[step + 1]);
    narrowed(at + (next - at) * fraction / 16384)
}

pub fn atan2(y: f32, x: f32) -> f32 {
    if !y.is_finite() || !x.is_finite() {
        return f32::NAN;
    }
    if y == 0.0 && x == 0.0 {
        return 0.0;
    }
    let mut angle = if y.abs() > x.abs() {
        HALF_PI - arctangent(x.abs() / y.abs())
    } else {
        arctangent(y.abs() / x.abs())
    };
    if x < 0.0 {
        angle = PI - angle;
    }
    if y.is_sign_negative() {
        -angle
    } else {
        angle
    }
}

/// A finite number above 1 in size is read as 1 with its sign (document 02, point 2). Of an infinity the root is NaN.
pub fn asin(v: f32) -> f32 {
    let v = if v.is_finite() && v.abs() > 1.0 {
        1f32.copysign(v)
    } else {
        v
    };
    atan2(v, sqrt((1.0 - v) * (1.0 + v)))
}

#[inline]
pub fn rem_euclid(a: f32, b: f32) -> f32 {
    let r = a % b;
    if r < 0.0 {
        r + b
    } else {
        r
    }
}

#[inline]
pub fn clamp(a: f32, min: f32, max: f32) -> f32 {
    if a < min {
        min
    } else if a > max {
        max
    } else {
        a
    }
}

#[cfg(test)]
mod tests {
    use super::*;

    /// 2^-20.
    const BOUND: f64 = 1.0 / 1048576.0;

    /// Every 97th float up to 16, and both neighbours of the places where the rule changes.
    fn angles() -> impl Iterator<Item = f32> {
        let edges = [0.0, SMALL, HALF_PI, PI, 1.5 * PI, TAU, 2.0 * TAU, 16.0];
        let around = edges
            .into_iter()
            .flat_map(|e: f32| [e.next_down(), e, e.next_up()])
            .filter(|a| a.abs() <= 16.0);
        (0..=16f32.to_bits())
            .step_by(97)
            .map(f32::from_bits)
            .chain(around)
    }

    #[test]
    fn sine_and_cosine_lie_within_the_bound() {
        for a in angles().flat_map(|a| [a, -a]) {
            assert!(
                (sin(a) as f64 - (a as f64).sin()).abs() <= BOUND,
                "sin {a:e}"
            );
            assert!(
                (cos(a) as f64 - (a as f64).cos()).abs() <= BOUND,
                "cos {a:e}"
            );
        }
    }

    #[test]
    fn arctangent_lies_within_the_bound() {
        let sizes = (0..=f32::MAX.to_bits())
            .step_by(0x10_0001)
            .map(f32::from_bits);
        for size in sizes {
            for other in [1.0f32, 0.7, 3.0e7, 1.0e-40, 0.0] {
                for (y, x) in [(size, other), (other, size)] {
                    for (y, x) in [(y, x), (-y, x), (y, -x), (-y, -x)] {
                        if y == 0.0 && x == 0.0 {
                            continue;
                        }
                        // x of -0.0 is not below zero here; y of -0.0 gives minus the value at +0.
                        let exact = (y as f64).atan2(if x == 0.0 { 0.0 } else { x as f64 });
                        assert!(
                            (atan2(y, x) as f64 - exact).abs() <= BOUND,
                            "atan2 {y:e} {x:e}"
                        );
                    }
                }
            }
        }
    }

    #[test]
    fn arctangent_over_the_flat_octant() {
        for t in (0..=1f32.to_bits()).step_by(101).map(f32::from_bits) {
            assert!(
                (atan2(t, 1.0) as f64 - (t as f64).atan()).abs() <= BOUND,
                "atan {t:e}"
            );
        }
    }

    #[test]
    fn special_cases() {
        let same = |a: f32, b: f32| {
            assert!(
                a.to_bits() == b.to_bits() || a.is_nan() && b.is_nan(),
                "{a} {b}"
            )
        };
        same(sin(0.0), 0.0);
        same(sin(-0.0), 0.0);
        same(cos(-0.0), 1.0);
        for a in [16f32.next_up(), -16f32.next_up(), f32::INFINITY, f32::NAN] {
            same(sin(a), f32::NAN);
            same(cos(a), f32::NAN);
        }
        same(atan2(0.0, 0.0), 0.0);
        same(atan2(-0.0, -0.0), 0.0);
        same(atan2(-0.0, 1.0), -0.0);
        same(atan2(0.0, -1.0), PI);
        same(atan2(-0.0, -1.0), -PI);
        same(atan2(1.0, -0.0), HALF_PI);
        same(atan2(1.0, f32::INFINITY), f32::NAN);
        same(atan2(f32::NAN, 1.0), f32::NAN);
        same(asin(1.0), HALF_PI);
        same(asin(-1.0), -HALF_PI);
        for above in [1f32.next_up(), 1.5, 1e20, f32::MAX] {
            same(asin(above), HALF_PI);
            same(asin(-above), -HALF_PI);
        }
        for v in [f32::INFINITY, f32::NEG_INFINITY, f32::NAN] {
            same(asin(v), f32::NAN);
        }
        same(asin(-0.0), -0.0);
        same(sqrt(-0.0), -0.0);
        same(sqrt(-1.0), f32::NAN);
        same(sqrt(f32::INFINITY), f32::INFINITY);
        same(rem_euclid(-0.0, TAU), -0.0);
        same(rem_euclid(-1e-30, TAU), TAU);
        same(clamp(f32::NAN, 0.0, 1.0), f32::NAN);
        same(clamp(-1.0, -0.0, 0.0), -0.0);
    }

    /// The root is the nearest: its neighbours' midpoints enclose it, in exact doubles.
    #[test]
    fn root_is_nearest() {
        for bits in (1..f32::INFINITY.to_bits()).step_by(1009) {
            let a = f32::from_bits(bits);
            let r = sqrt(a);
            let (down, up) = (
                (r.next_down() as f64 + r as f64) / 2.0,
                (r as f64 + r.next_up() as f64) / 2.0,
            );
            assert!(down * down < a as f64 && (a as f64) < up * up, "{a:e}");
        }
    }

    /// The text of avian calls these two of f32's own; they are the rules above.
    #[test]
    fn machine_remainder_and_clamp_are_the_rules() {
        for bits in (0..=u32::MAX).step_by(65537) {
            let a = f32::from_bits(bits);
            let pairs = [
                (a.rem_euclid(TAU), rem_euclid(a, TAU)),
                (a.clamp(-0.5, 2.0), clamp(a, -0.5, 2.0)),
                (a.clamp(-0.0, 0.0), clamp(a, -0.0, 0.0)),
            ];
            for (theirs, ours) in pairs {
                assert!(
                    theirs.to_bits() == ours.to_bits() || theirs.is_nan() && ours.is_nan(),
                    "{a:e}"
                );
            }
        }
    }
}
