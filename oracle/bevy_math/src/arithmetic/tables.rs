//! Document 01's two tables of 1,025 whole numbers, worked out by the compiler from whole numbers alone.
//!
//! A real number is enclosed between two fractions over a power of two: lower ends are rounded down and upper ends up.
//! An entry stands only where both ends have the same nearest whole number; else the build stops.

/// Nearest to 2^30·sin(i·π/2048).
#[allow(long_running_const_eval)]
pub static SINE: [i64; 1025] = sine_table();

/// Nearest to 2^30·atan(i/1024).
#[allow(long_running_const_eval)]
pub static ARCTANGENT: [i64; 1025] = arctangent_table();

const ENTRY_BITS: u32 = 30;

/// `low` / 2^bits ≤ x ≤ `high` / 2^bits.
#[derive(Clone, Copy)]
struct Enclosure {
    low: u128,
    high: u128,
}

const ARCTANGENT_BITS: u32 = 90;
const SINE_BITS: u32 = 60;

/// atan(i/1024) by Euler's series: with t = i/1024 and y = t²/(1 + t²), the terms are t/(1 + t²) and, from one to the
/// next, 2n/(2n + 1)·y. Each is at most half of the one before, so that all that follow a term amount to that term at most.
const fn arctangent(i: u128) -> Enclosure {
    let square = i * i;
    let whole = square + 1024 * 1024;
    let first = (i * 1024) << ARCTANGENT_BITS;
    let mut low_term = first / whole;
    let mut high_term = first.div_ceil(whole);
    let mut sum = Enclosure {
        low: low_term,
        high: high_term,
    };
    let mut n = 1;
    while high_term > 1 {
        let above = 2 * n * square;
        let below = (2 * n + 1) * whole;
        low_term = low_term * above / below;
        high_term = (high_term * above).div_ceil(below);
        sum = Enclosure {
            low: sum.low + low_term,
            high: sum.high + high_term,
        };
        n += 1;
    }
    Enclosure {
        low: sum.low,
        high: sum.high + high_term,
    }
}

/// sin(x) for 0 ≤ x < 2 by its series, whose terms alternate and fall from the first on: the next term bounds the rest.
const fn sine(x: Enclosure) -> Enclosure {
    let one = 1 << SINE_BITS;
    let square = Enclosure {
        low: x.low * x.low / one,
        high: (x.high * x.high).div_ceil(one),
    };
    let mut term = x;
    let mut sum = x;
    let mut n = 1;
    while term.high > 1 {
        let below = 2 * n * (2 * n + 1) * one;
        term = Enclosure {
            low: term.low * square.low / below,
            high: (term.high * square.high).div_ceil(below),
        };
        sum = if n % 2 == 1 {
            Enclosure {
                low: sum.low - term.high,
                high: sum.high - term.low,
            }
        } else {
            Enclosure {
                low: sum.low + term.low,
                high: sum.high + term.high,
            }
        };
        n += 1;
    }
    Enclosure {
        low: sum.low - term.high,
        high: sum.high + term.high,
    }
}

const fn nearest(x: Enclosure, bits: u32) -> i64 {
    let half = 1 << (bits - ENTRY_BITS - 1);
    let low = (x.low + half) >> (bits - ENTRY_BITS);
    let high = (x.high + half) >> (bits - ENTRY_BITS);
    assert!(low == high, "an entry is too close to a half");
    low as i64
}

const fn arctangent_table() -> [i64; 1025] {
    let mut table = [0; 1025];
    let mut i = 0;
    while i < 1025 {
        table[i] = nearest(arctangent(i as u128), ARCTANGENT_BITS);
        i += 1;
    }
    table
}

const fn sine_table() -> [i64; 1025] {
    // π is four times the arctangent of one.
    let quarter = arctangent(1024);
    let below = (2048 / 4) << (ARCTANGENT_BITS - SINE_BITS);
    let mut table = [0; 1025];
    let mut i = 0;
    while i < 1025 {
        let x = Enclosure {
            low: i as u128 * quarter.low / below,
            high: (i as u128 * quarter.high).div_ceil(below),
        };
        table[i] = nearest(sine(x), SINE_BITS);
        i += 1;
    }
    table
}

#[cfg(test)]
mod tests {
    use super::*;

    #[test]
    fn ends() {
        assert_eq!((SINE[0], SINE[1024]), (0, 1 << 30));
        // 2^30·sin(π/4) is the root of 2^59.
        let root = SINE[512];
        assert!((2 * root - 1).pow(2) < 1 << 61 && 1 << 61 < (2 * root + 1).pow(2));
        assert_eq!(ARCTANGENT[0], 0);
        // The whole part of 2^30·π is the number in document 01's sine.
        let quarter = arctangent(1024);
        assert_eq!((quarter.low >> (ARCTANGENT_BITS - 32)) as u64, 3373259426);
        assert_eq!((quarter.high >> (ARCTANGENT_BITS - 32)) as u64, 3373259426);
    }

    #[test]
    fn rising_and_bending_down() {
        for table in [&SINE, &ARCTANGENT] {
            for i in 1..1024 {
                assert!(table[i - 1] < table[i] && table[i] < table[i + 1]);
                assert!(table[i + 1] - table[i] <= table[i] - table[i - 1] + 2);
            }
        }
    }

    #[test]
    fn near_the_machine_functions() {
        for i in 0..1025 {
            let sine = (i as f64 * core::f64::consts::PI / 2048.0).sin() * (1u64 << 30) as f64;
            let arctangent = (i as f64 / 1024.0).atan() * (1u64 << 30) as f64;
            assert!((SINE[i] as f64 - sine).abs() < 0.500001, "sine {i}");
            assert!(
                (ARCTANGENT[i] as f64 - arctangent).abs() < 0.500001,
                "arctangent {i}"
            );
        }
    }

    /// sin² + cos² = 1 within the entries' rounding.
    #[test]
    fn on_the_circle() {
        for i in 0..1025 {
            let (sine, cosine) = (SINE[i] as i128, SINE[1024 - i] as i128);
            assert!((sine * sine + cosine * cosine - (1 << 60)).abs() <= sine + cosine + 1);
        }
    }
}
