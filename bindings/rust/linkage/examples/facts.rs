//! The version, the editions, the sizes and every refusal's number and text.

use linkage::{
    Refusal, BODY_NUMBERS, EDITIONS, JOINT_NUMBERS, MOST_CARD_BYTES, MOST_STATE_NUMBERS, VERSION,
};

fn main() {
    println!("version {VERSION}");
    for e in EDITIONS {
        println!(
            "edition {}: {} {} {} bytes, {} bodies, {} joints, rate {} to {}",
            e.edition,
            e.header_bytes,
            e.body_bytes,
            e.joint_bytes,
            e.most_bodies,
            e.most_joints,
            e.slowest,
            e.fastest
        );
    }
    println!("state {BODY_NUMBERS} {JOINT_NUMBERS}, at most {MOST_STATE_NUMBERS}; card at most {MOST_CARD_BYTES}");
    for refusal in (1..=100).filter_map(Refusal::from_number) {
        println!("{} {refusal}", refusal.number());
    }
}
