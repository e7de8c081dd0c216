//! The package's own promises: no panic on wrong use, any number of threads, and the caller's floating-point environment kept.

use linkage::{
    Card, Refusal, RunRefused, State, BODY_NUMBERS, BROKEN, EDITIONS, MOST_CARD_BYTES,
    MOST_STATE_NUMBERS,
};
use std::arch::asm;
use std::thread;

/// Free bodies in a row along x, at a velocity along x, at 16 ticks a second.
fn row(bodies: usize, velocity: f32) -> Vec<u8> {
    let first = 1 << 24 | (bodies as u32) << 18 | 16 << 2;
    row_of(
        &[&first.to_be_bytes()[..], &[0; 8]].concat(),
        bodies,
        velocity,
    )
}

/// The same by edition 2, at any rate.
fn row_2(bodies: usize, velocity: f32, rate: u16) -> Vec<u8> {
    wide_row(2, bodies, velocity, rate)
}

/// By edition 2 or 3.
fn wide_row(edition: u8, bodies: usize, velocity: f32, rate: u16) -> Vec<u8> {
    let [high, low] = rate.to_be_bytes();
    let header = [&[edition, bodies as u8, 0, high, low][..], &[0; 11]].concat();
    row_of(&header, bodies, velocity)
}

fn row_of(header: &[u8], bodies: usize, velocity: f32) -> Vec<u8> {
    let mut card = [header, &vec![0; 94 * bodies]].concat();
    for (n, body) in card[header.len()..].chunks_mut(94).enumerate() {
        for (at, number) in [(2, n as f32), (26, 1.0), (42, velocity), (66, 1.0)] {
            body[at..at + 4].copy_from_slice(&number.to_be_bytes());
        }
    }
    card
}

#[test]
fn a_state_is_started_resumed_and_stopped() {
    let bytes = row(2, 64.0);
    let card = Card::new(&bytes).unwrap();
    assert_eq!(
        (card.bodies(), card.joints(), card.state_numbers()),
        (2, 0, 26)
    );
    let mut numbers = [0.0; 26];
    let mut state = State::start(card, &mut numbers).unwrap();
    state.tick().unwrap();
    let xs: Vec<f32> = state.bodies().map(|body| body.position[0]).collect();
    assert_eq!(xs, [4.0, 5.0]);
    assert_eq!(state.body(1).unwrap().rotation, [0.0, 0.0, 0.0, 1.0]);
    assert_eq!(state.body(1).unwrap().linear_velocity, [64.0, 0.0, 0.0]);
    assert!(state.body(2).is_none() && state.body(usize::MAX).is_none());

    let mut state = State::resume(card, &mut numbers).unwrap();
    let refusal = Refusal::Stopped;
    let before = state.numbers().to_vec();
    assert_eq!(
        state.run(2000),
        Err(RunRefused {
            refusal,
            done: 1022
        })
    );
    assert_eq!(state.numbers(), before);
    state.run(1022).unwrap();
    assert_eq!(state.tick(), Err(refusal));
    state.numbers_mut()[BODY_NUMBERS] = f32::NAN;
    assert_eq!(state.tick(), Err(Refusal::StateNumber));
}

#[test]
fn a_joint_breaks() {
    // A tether between two bodies that are a metre apart, whose limits are 0 and which bears 1 N.
    let mut bytes = wide_row(3, 2, 0.0, 16);
    bytes[2] = 1;
    bytes.extend([0x80, 0x00, 0x30]);
    bytes.extend([0; 120]);
    bytes.extend(1f32.to_be_bytes());
    let card = Card::new(&bytes).unwrap();
    let mut numbers = vec![0.0; card.state_numbers()];
    let mut state = State::start(card, &mut numbers).unwrap();
    assert_eq!([0, 1].map(|n| state.is_broken(n)), [Some(false), None]);
    state.tick().unwrap();
    assert_eq!(state.is_broken(0), Some(true));
    state.numbers_mut()[2 * BODY_NUMBERS + BROKEN] = 2.0;
    assert_eq!(state.tick(), Err(Refusal::JointMark));
}

#[test]
fn wrong_lengths_are_refused() {
    let bytes = row(2, 1.0);
    for length in 0..bytes.len() {
        let refusal = match length {
            0..12 => Refusal::ShortCard,
            _ => Refusal::WrongLength,
        };
        assert_eq!(Card::new(&bytes[..length]).unwrap_err(), refusal);
    }
    let card = Card::new(&bytes).unwrap();
    for length in (0..=30).filter(|length| *length != 26) {
        let mut numbers = vec![7.0; length];
        let started = State::start(card, &mut numbers).map(|_| ());
        assert_eq!(started, Err(Refusal::StateLength));
        let resumed = State::resume(card, &mut numbers).map(|_| ());
        assert_eq!(resumed, Err(Refusal::StateLength));
        assert!(numbers.iter().all(|number| *number == 7.0));
    }
}

#[test]
fn the_largest_card_is_as_large_as_said() {
    for edition in EDITIONS {
        let row = |bodies: usize| match edition.edition {
            1 => row(bodies, 1.0),
            wide => wide_row(wide, bodies, 1.0, 16),
        };
        let bytes = row(edition.most_bodies);
        let card = Card::new(&bytes).unwrap();
        assert_eq!(
            bytes.len(),
            edition.header_bytes + edition.body_bytes * edition.most_bodies
        );
        assert!(bytes.len() <= MOST_CARD_BYTES && card.state_numbers() <= MOST_STATE_NUMBERS);
        let more = row(edition.most_bodies + 1);
        assert_eq!(Card::new(&more).unwrap_err(), Refusal::WrongCounts);
    }
}

#[test]
fn cards_are_converted_over_and_back() {
    let bytes = row(2, 64.0);
    let card = Card::new(&bytes).unwrap();
    let (mut over, mut back) = ([7; 210], [7; 210]);
    let second = card.to_edition_2(&mut over).unwrap();
    assert_eq!(second.bytes(), row_2(2, 64.0, 16));
    assert_eq!((second.bodies(), second.state_numbers()), (2, 26));
    assert_eq!(second.to_edition_1(&mut back).unwrap().bytes(), bytes);
    assert_eq!(over[204..], [7; 6]);
    assert_eq!(back[200..], [7; 10]);

    let mut short = [7; 203];
    let refused = card.to_edition_2(&mut short).map(|_| ());
    assert_eq!(refused, Err(Refusal::Conversion));
    let refused = card.to_edition_1(&mut short).map(|_| ());
    assert_eq!(refused, Err(Refusal::WrongEdition));
    let third = wide_row(3, 2, 64.0, 16);
    let third = Card::new(&third).unwrap();
    let refused = [third.to_edition_1(&mut back), third.to_edition_2(&mut over)].map(Result::err);
    assert_eq!(refused, [Some(Refusal::WrongEdition); 2]);
    for large in [row_2(33, 1.0, 16), row_2(1, 1.0, 1001)] {
        let refused = Card::new(&large)
            .unwrap()
            .to_edition_1(&mut short)
            .map(|_| ());
        assert_eq!(refused, Err(Refusal::Conversion));
    }
    assert_eq!(short, [7; 203]);
}

#[test]
fn refusals_have_their_numbers() {
    assert_eq!(Refusal::from_number(0), None);
    for number in 1..=100 {
        assert_eq!(Refusal::from_number(number).unwrap().number(), number);
    }
}

#[test]
fn four_threads_share_a_card() {
    let bytes = row_2(200, 1.0 / 3.0, 16);
    let card = Card::new(&bytes).unwrap();
    let ran = || {
        let mut numbers = vec![0.0; card.state_numbers()];
        State::start(card, &mut numbers).unwrap().run(1000).unwrap();
        numbers
    };
    let alone = ran();
    thread::scope(|scope| {
        let threads = [(); 4].map(|()| scope.spawn(ran));
        for thread in threads {
            assert_eq!(thread.join().unwrap(), alone);
        }
    });
}

/// What MXCSR is after a call of the package that began with these bits in it.
fn mxcsr_after(bits: u32, call: impl FnOnce()) -> u32 {
    let (mut own, mut after) = (0u32, 0u32);
    // SAFETY: the register gets its own bits back, and the call between has no arithmetic outside of its own environment.
    unsafe {
        asm!("stmxcsr [{}]", "ldmxcsr [{}]", in(reg) &mut own, in(reg) &bits);
        call();
        asm!("stmxcsr [{}]", "ldmxcsr [{}]", in(reg) &mut after, in(reg) &own);
    }
    after
}

#[test]
fn the_environment_is_the_calls_own() {
    // Subnormal, and so gone where flush-to-zero or denormals-are-zero is on.
    let bytes = row(2, 1e-39);
    let card = Card::new(&bytes).unwrap();
    let mut expected = vec![0.0; card.state_numbers()];
    State::start(card, &mut expected).unwrap().run(3).unwrap();
    assert!(expected[0] > 0.0 && expected[0] < f32::MIN_POSITIVE);
    // Flush-to-zero and denormals-are-zero; upward; every exception unmasked; all of it.
    for bits in [0x9fc0, 0x5f80, 0x0000, 0xc040] {
        let mut numbers = vec![0.0; card.state_numbers()];
        let mut done = false;
        let after = mxcsr_after(bits, || {
            done = State::start(card, &mut numbers).is_ok_and(|mut state| state.run(3).is_ok())
        });
        assert_eq!((done, after), (true, bits));
        assert_eq!(numbers, expected);
    }
}
