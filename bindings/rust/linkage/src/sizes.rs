//! The version, the editions of the card, and sizes.

pub const VERSION: &str = env!("CARGO_PKG_VERSION");

/// An edition of the card: how many bytes its records have, how many bodies and joints there may be, and the ticks a second.
#[derive(Clone, Copy, Debug, PartialEq, Eq)]
pub struct Edition {
    /// A card's first byte.
    pub edition: u8,
    pub header_bytes: usize,
    pub body_bytes: usize,
    pub joint_bytes: usize,
    pub most_bodies: usize,
    pub most_joints: usize,
    pub slowest: u32,
    pub fastest: u32,
}

/// The editions that the calls know.
pub const EDITIONS: [Edition; 3] = [
    Edition {
        edition: 1,
        header_bytes: 12,
        body_bytes: 94,
        joint_bytes: 123,
        most_bodies: 32,
        most_joints: 32,
        slowest: 16,
        fastest: 1000,
    },
    Edition {
        edition: 2,
        header_bytes: 16,
        body_bytes: 94,
        joint_bytes: 123,
        most_bodies: 200,
        most_joints: 200,
        slowest: 16,
        fastest: 4000,
    },
    Edition {
        edition: 3,
        header_bytes: 16,
        body_bytes: 94,
        joint_bytes: 127,
        most_bodies: 200,
        most_joints: 200,
        slowest: 16,
        fastest: 4000,
    },
];

/// The numbers of a body in the state.
pub const BODY_NUMBERS: usize = 13;

/// The numbers of a joint in the state, which follow those of all bodies.
pub const JOINT_NUMBERS: usize = 13;

/// Where 0 for whole or 1 for broken stands among a joint's numbers.
pub const BROKEN: usize = 12;

/// The longest card of all editions.
pub const MOST_CARD_BYTES: usize = 16 + 94 * 200 + 127 * 200;

/// The longest state of all editions.
pub const MOST_STATE_NUMBERS: usize = BODY_NUMBERS * 200 + JOINT_NUMBERS * 200;
