//! The Rattle's own calls, by the static libraries of the crates `host` and `host_parts`. What each takes and gives is said there.

use crate::convert::Converted;
use crate::table::{Ran, Sizes};

#[link(name = "host_parts", kind = "static")]
extern "C" {
    fn linkage_abs(x: f32) -> f32;
    fn linkage_is_sign_negative(x: f32) -> bool;
    fn linkage_clamp(x: f32, low: f32, high: f32) -> f32;
    fn linkage_rem_euclid(x: f32, divisor: f32) -> f32;
    fn linkage_sqrt(x: f32) -> f32;
    fn linkage_sin(a: f32) -> f32;
    fn linkage_cos(a: f32) -> f32;
    fn linkage_atan2(y: f32, x: f32) -> f32;
    fn linkage_asin(v: f32) -> f32;
    fn linkage_vectors(i: *const f32, m: usize, o: *mut f32, n: usize) -> u32;
    fn linkage_rotations(i: *const f32, m: usize, o: *mut f32, n: usize) -> u32;
    fn linkage_matrices(i: *const f32, m: usize, o: *mut f32, n: usize) -> u32;
    fn linkage_distance_limit(i: *const f32, m: usize, o: *mut f32, n: usize) -> u32;
    fn linkage_angle_limit(i: *const f32, m: usize, o: *mut f32, n: usize) -> u32;
    fn linkage_motor(model: u32, i: *const f32, m: usize, o: *mut f32, n: usize) -> u32;
    fn linkage_lagrange_update(
        lagrange: f32,
        c: f32,
        w1: f32,
        w2: f32,
        compliance: f32,
        dt: f32,
    ) -> f32;
    fn linkage_weights(locks: u32, i: *const f32, m: usize, o: *mut f32, n: usize) -> u32;
    fn linkage_positional_impulse(
        locks1: u32,
        locks2: u32,
        i: *const f32,
        m: usize,
        o: *mut f32,
        n: usize,
    ) -> u32;
    fn linkage_angular_impulse(i: *const f32, m: usize, o: *mut f32, n: usize) -> u32;
    fn linkage_align_orientation(i: *const f32, m: usize, o: *mut f32, n: usize) -> u32;
    fn linkage_point_constraint(
        locks1: u32,
        locks2: u32,
        i: *const f32,
        m: usize,
        o: *mut f32,
        n: usize,
    ) -> u32;
    fn linkage_fixed_angle_constraint(i: *const f32, m: usize, o: *mut f32, n: usize) -> u32;
    fn linkage_prepare(
        kind: u32,
        limits: u32,
        motor: u32,
        i: *const f32,
        m: usize,
        o: *mut f32,
        n: usize,
    ) -> u32;
    fn linkage_warm_start(
        kind: u32,
        limits: u32,
        motor: u32,
        anchored: u32,
        locks1: u32,
        locks2: u32,
        i: *const f32,
        m: usize,
        o: *mut f32,
        n: usize,
    ) -> u32;
    fn linkage_solve(
        kind: u32,
        limits: u32,
        motor: u32,
        anchored: u32,
        locks1: u32,
        locks2: u32,
        i: *const f32,
        m: usize,
        o: *mut f32,
        n: usize,
    ) -> u32;
    fn linkage_project(i: *const f32, m: usize, o: *mut f32, n: usize) -> u32;
    fn linkage_dummy(o: *mut f32, n: usize) -> u32;
}

#[link(name = "host", kind = "static")]
extern "C" {
    pub fn linkage_check(card: *const u8, n: usize) -> u32;
    pub fn linkage_sizes(
        card: *const u8,
        n: usize,
        bodies: *mut u32,
        joints: *mut u32,
        numbers: *mut u32,
    ) -> u32;
    pub fn linkage_start(card: *const u8, n: usize, state: *mut f32, m: usize) -> u32;
    pub fn linkage_tick(card: *const u8, n: usize, state: *mut f32, m: usize) -> u32;
    pub fn linkage_run(
        card: *const u8,
        n: usize,
        state: *mut f32,
        m: usize,
        ticks: u32,
        done: *mut u32,
    ) -> u32;
    pub fn linkage_to_edition_1(
        card: *const u8,
        n: usize,
        out: *mut u8,
        m: usize,
        length: *mut u32,
    ) -> u32;
    pub fn linkage_to_edition_2(
        card: *const u8,
        n: usize,
        out: *mut u8,
        m: usize,
        length: *mut u32,
    ) -> u32;
}

/// A count before the call that is to write it: what no call answers.
const UNWRITTEN: u32 = u32::MAX;

fn sizes(card: &[u8]) -> Sizes {
    let [mut bodies, mut joints, mut numbers] = [UNWRITTEN; 3];
    // SAFETY: the card lives through the call, which writes the three counts.
    let number = unsafe {
        linkage_sizes(
            card.as_ptr(),
            card.len(),
            &mut bodies,
            &mut joints,
            &mut numbers,
        )
    };
    Sizes {
        number,
        bodies,
        joints,
        numbers,
    }
}

fn run(card: &[u8], state: &mut [f32], ticks: u32) -> Ran {
    let mut done = UNWRITTEN;
    // SAFETY: card and state live through the call, which writes the state and the count.
    let number = unsafe {
        linkage_run(
            card.as_ptr(),
            card.len(),
            state.as_mut_ptr(),
            state.len(),
            ticks,
            &mut done,
        )
    };
    Ran { number, done }
}

type Convert = unsafe extern "C" fn(*const u8, usize, *mut u8, usize, *mut u32) -> u32;

fn converted(call: Convert, card: &[u8], out: &mut [u8]) -> Converted {
    let mut length = UNWRITTEN;
    // SAFETY: card and slice live through the call, which writes the slice and the length.
    let number = unsafe {
        call(
            card.as_ptr(),
            card.len(),
            out.as_mut_ptr(),
            out.len(),
            &mut length,
        )
    };
    Converted { number, length }
}

/// The table's calls of the Rattle.
pub fn table() -> crate::compare::Table {
    crate::compare::Table {
        // SAFETY: each pointer and count is that of a slice that lives through the call, and only a state's is written.
        check: |card| unsafe { linkage_check(card.as_ptr(), card.len()) },
        sizes,
        start: |card, state| unsafe {
            linkage_start(card.as_ptr(), card.len(), state.as_mut_ptr(), state.len())
        },
        tick: |card, state| unsafe {
            linkage_tick(card.as_ptr(), card.len(), state.as_mut_ptr(), state.len())
        },
        run,
        to_edition_1: |card, out| converted(linkage_to_edition_1, card, out),
        to_edition_2: |card, out| converted(linkage_to_edition_2, card, out),
    }
}

/// A call with slices, whose lengths are those that the Rattle takes.
fn call(
    input: &[f32],
    outputs: usize,
    f: impl Fn(*const f32, usize, *mut f32, usize) -> u32,
) -> Vec<f32> {
    let mut output = vec![0.0; outputs];
    let answer = f(input.as_ptr(), input.len(), output.as_mut_ptr(), outputs);
    assert_eq!(answer, 0, "{} numbers to {outputs}", input.len());
    output
}

fn whole(x: f32) -> u32 {
    x as i32 as u32
}

/// The Rattle's answer to a leaf of [`crate::compare::leaves`], by the leaf's name.
pub fn answer(name: &str, x: &[f32]) -> Vec<f32> {
    // SAFETY: scalars go by value; `call` passes the pointers and counts of its slices, and only the output is written.
    unsafe {
        match name {
            "scalars" => vec![
                linkage_abs(x[0]),
                linkage_is_sign_negative(x[0]) as u32 as f32,
                linkage_clamp(x[0], x[1], x[2]),
                linkage_rem_euclid(x[0], x[1]),
            ],
            "root" => vec![linkage_sqrt(x[0])],
            "sine" => vec![linkage_sin(x[0]), linkage_cos(x[0])],
            "arctangent" => vec![linkage_atan2(x[0], x[1])],
            "arc sine" => vec![linkage_asin(x[0])],
            "vectors" => call(x, 34, |i, m, o, n| linkage_vectors(i, m, o, n)),
            "rotations" => call(x, 24, |i, m, o, n| linkage_rotations(i, m, o, n)),
            "matrices" => call(x, 21, |i, m, o, n| linkage_matrices(i, m, o, n)),
            "distance limit" => call(x, 7, |i, m, o, n| linkage_distance_limit(i, m, o, n)),
            "angle limit" => call(x, 4, |i, m, o, n| linkage_angle_limit(i, m, o, n)),
            "motor" => {
                let model = whole(x[0]);
                call(&x[1..], 4, |i, m, o, n| linkage_motor(model, i, m, o, n))
            }
            "multiplier" => vec![linkage_lagrange_update(x[0], x[1], x[2], x[3], x[4], x[5])],
            "weights" => {
                let locks = whole(x[0]);
                call(&x[1..], 11, |i, m, o, n| linkage_weights(locks, i, m, o, n))
            }
            "positional impulse" => {
                let [locks1, locks2] = [whole(x[0]), whole(x[1])];
                call(&x[2..], 26, |i, m, o, n| {
                    linkage_positional_impulse(locks1, locks2, i, m, o, n)
                })
            }
            "angular impulse" => call(x, 26, |i, m, o, n| linkage_angular_impulse(i, m, o, n)),
            "align orientation" => call(x, 29, |i, m, o, n| linkage_align_orientation(i, m, o, n)),
            "point constraint" => {
                let [locks1, locks2] = [whole(x[0]), whole(x[1])];
                call(&x[2..], 38, |i, m, o, n| {
                    linkage_point_constraint(locks1, locks2, i, m, o, n)
                })
            }
            "fixed angle constraint" => call(x, 33, |i, m, o, n| {
                linkage_fixed_angle_constraint(i, m, o, n)
            }),
            "projection" => call(x, 13, |i, m, o, n| linkage_project(i, m, o, n)),
            "dummies" => call(x, 23, |_, _, o, n| linkage_dummy(o, n)),
            "joints" => joint(x),
            _ => panic!("host_parts has no {name}"),
        }
    }
}

/// The prepared numbers, both bodies after the warm start, and what the solve leaves: whether all is finite, the totals and both bodies.
unsafe fn joint(x: &[f32]) -> Vec<f32> {
    let [kind, limits, motor, anchored] = [0, 1, 2, 3].map(|i| whole(x[i]));
    let [locks1, locks2] = [whole(x[4]), whole(x[5])];
    let x = &x[6..];
    let prepared = call(x, 21, |i, m, o, n| {
        linkage_prepare(kind, limits, motor, i, m, o, n)
    });
    let warmed = call(x, 26, |i, m, o, n| {
        linkage_warm_start(kind, limits, motor, anchored, locks1, locks2, i, m, o, n)
    });
    let solved = call(x, 39, |i, m, o, n| {
        linkage_solve(kind, limits, motor, anchored, locks1, locks2, i, m, o, n)
    });
    [prepared, warmed, solved].concat()
}
