//! The linkage table: a card of bodies and joints, and its state, which ticks move.
//!
//! No call panics, takes from the heap or keeps anything. Every call sets the floating-point environment that it needs and puts back the caller's, so that a
//! tick gives the same bits in any host. `linkage.h` says what holds of the calls beneath: threads, stack, what each refusal stands for.
//!
//! ```
//! use linkage::{Card, Refusal, State};
//!
//! fn first_tick(bytes: &[u8], numbers: &mut [f32]) -> Result<[f32; 3], Refusal> {
//!     let card = Card::new(bytes)?;
//!     let numbers = numbers.get_mut(..card.state_numbers()).ok_or(Refusal::StateLength)?;
//!     let mut state = State::start(card, numbers)?;
//!     state.tick()?;
//!     state.body(0).map(|body| body.position).ok_or(Refusal::WrongCounts)
//! }
//! assert_eq!(first_tick(b"no card", &mut []), Err(Refusal::ShortCard));
//! ```
#![no_std]

mod refusal;
mod sizes;

pub use refusal::{Refusal, RunRefused};
pub use sizes::*;

use linkage_sys::Environment;

/// 0 is done, any other number a refusal.
fn answer(number: u32) -> Result<(), Refusal> {
    match Refusal::from_number(number) {
        None => Ok(()),
        Some(refusal) => Err(refusal),
    }
}

type Convert = unsafe extern "C" fn(*const u8, usize, *mut u8, usize, *mut u32) -> u32;

/// A card that no check refuses.
#[derive(Clone, Copy, Debug)]
pub struct Card<'a> {
    bytes: &'a [u8],
    bodies: u32,
    joints: u32,
    state_numbers: u32,
}

impl<'a> Card<'a> {
    /// Refused by the card's own refusals: those up to 10, 17 and 19.
    pub fn new(bytes: &'a [u8]) -> Result<Card<'a>, Refusal> {
        let mut card = Card {
            bytes,
            bodies: 0,
            joints: 0,
            state_numbers: 0,
        };
        let _environment = Environment::enter();
        // SAFETY: pointer and length are those of a slice, and the counts are three numbers of their own.
        answer(unsafe {
            linkage_sys::linkage_sizes(
                bytes.as_ptr(),
                bytes.len(),
                &mut card.bodies,
                &mut card.joints,
                &mut card.state_numbers,
            )
        })?;
        Ok(card)
    }

    /// The card, of edition 2, as one of edition 1, written to the front of `out`. Refused by 2 where it is of another, and by 16 where it is too large or
    /// too fast for that or `out` is too short, and then nothing is written.
    pub fn to_edition_1<'b>(&self, out: &'b mut [u8]) -> Result<Card<'b>, Refusal> {
        self.converted(linkage_sys::linkage_to_edition_1, out)
    }

    /// The card, of edition 1, as one of edition 2, written to the front of `out`. Refused by 2 where it is of another, and by 16 where `out` is too
    /// short, and then nothing is written.
    pub fn to_edition_2<'b>(&self, out: &'b mut [u8]) -> Result<Card<'b>, Refusal> {
        self.converted(linkage_sys::linkage_to_edition_2, out)
    }

    fn converted<'b>(&self, call: Convert, out: &'b mut [u8]) -> Result<Card<'b>, Refusal> {
        let mut length = 0;
        let _environment = Environment::enter();
        // SAFETY: pointers and lengths are those of two slices, one of them lent for writing, and the length is a number of its own.
        answer(unsafe {
            call(
                self.bytes.as_ptr(),
                self.bytes.len(),
                out.as_mut_ptr(),
                out.len(),
                &mut length,
            )
        })?;
        // It fits, or it would have been refused.
        Ok(Card {
            bytes: out.get(..length as usize).ok_or(Refusal::Conversion)?,
            bodies: self.bodies,
            joints: self.joints,
            state_numbers: self.state_numbers,
        })
    }

    pub fn bytes(&self) -> &'a [u8] {
        self.bytes
    }

    pub fn bodies(&self) -> usize {
        self.bodies as usize
    }

    pub fn joints(&self) -> usize {
        self.joints as usize
    }

    /// How many numbers its state has.
    pub fn state_numbers(&self) -> usize {
        self.state_numbers as usize
    }
}

/// A body's numbers in the state.
#[derive(Clone, Copy, Debug, PartialEq)]
pub struct Body {
    pub position: [f32; 3],
    /// x, y, z, w.
    pub rotation: [f32; 4],
    pub linear_velocity: [f32; 3],
    pub angular_velocity: [f32; 3],
}

/// A card and its state, in numbers that are lent.
#[derive(Debug)]
pub struct State<'a> {
    card: Card<'a>,
    numbers: &'a mut [f32],
}

impl<'a> State<'a> {
    /// The start state, written to the numbers. Refused by 11 where these are not `card.state_numbers()`, and then not written.
    pub fn start(card: Card<'a>, numbers: &'a mut [f32]) -> Result<State<'a>, Refusal> {
        let _environment = Environment::enter();
        // SAFETY: pointers and lengths are those of two slices, one of them lent for writing, so that they don't overlap.
        answer(unsafe {
            linkage_sys::linkage_start(
                card.bytes.as_ptr(),
                card.bytes.len(),
                numbers.as_mut_ptr(),
                numbers.len(),
            )
        })?;
        Ok(State { card, numbers })
    }

    /// The state that the numbers are. Refused by 11.
    pub fn resume(card: Card<'a>, numbers: &'a mut [f32]) -> Result<State<'a>, Refusal> {
        let mut state = State { card, numbers };
        match state.run(0) {
            Ok(()) => Ok(state),
            Err(refused) => Err(refused.refusal),
        }
    }

    /// One tick. Refused by 12, 21 and 13, and then the state is as it was.
    pub fn tick(&mut self) -> Result<(), Refusal> {
        let _environment = Environment::enter();
        // SAFETY: as in `start`.
        answer(unsafe {
            linkage_sys::linkage_tick(
                self.card.bytes.as_ptr(),
                self.card.bytes.len(),
                self.numbers.as_mut_ptr(),
                self.numbers.len(),
            )
        })
    }

    /// Ticks in a row, all or none: where one is refused, by 12, 21 or 13, the state is as it was.
    pub fn run(&mut self, ticks: u32) -> Result<(), RunRefused> {
        let mut done = 0;
        let _environment = Environment::enter();
        // SAFETY: as in `start`, and `done` is a number of its own.
        answer(unsafe {
            linkage_sys::linkage_run(
                self.card.bytes.as_ptr(),
                self.card.bytes.len(),
                self.numbers.as_mut_ptr(),
                self.numbers.len(),
                ticks,
                &mut done,
            )
        })
        .map_err(|refusal| RunRefused { refusal, done })
    }

    pub fn card(&self) -> Card<'a> {
        self.card
    }

    /// The card's bodies in order.
    pub fn bodies(&self) -> impl Iterator<Item = Body> + '_ {
        (0..self.card.bodies()).map_while(|n| self.body(n))
    }

    /// None where the card has no such body.
    pub fn body(&self, n: usize) -> Option<Body> {
        if n >= self.card.bodies() {
            return None;
        }
        let numbers = self.numbers.get(BODY_NUMBERS * n..)?;
        let (position, numbers) = numbers.split_first_chunk()?;
        let (rotation, numbers) = numbers.split_first_chunk()?;
        let (linear_velocity, numbers) = numbers.split_first_chunk()?;
        let (angular_velocity, _) = numbers.split_first_chunk()?;
        Some(Body {
            position: *position,
            rotation: *rotation,
            linear_velocity: *linear_velocity,
            angular_velocity: *angular_velocity,
        })
    }

    /// Whether a joint is broken. None where the card has no such joint.
    pub fn is_broken(&self, n: usize) -> Option<bool> {
        if n >= self.card.joints() {
            return None;
        }
        let at = BODY_NUMBERS * self.card.bodies() + JOINT_NUMBERS * n + BROKEN;
        self.numbers.get(at).map(|number| *number == 1.0)
    }

    pub fn numbers(&self) -> &[f32] {
        self.numbers
    }

    /// For writing. The next tick refuses by 12 or 21 what it can't take.
    pub fn numbers_mut(&mut self) -> &mut [f32] {
        self.numbers
    }
}
