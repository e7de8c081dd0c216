//! What docs/CARD.md says of the ticks in which the joints of failing_bridge.card break.

use oracle::card::{BODY_NUMBERS, BROKEN, JOINT_NUMBERS};
use oracle::{card, table};
use std::fs;

#[test]
fn the_bridge_fails_in_the_ticks_that_the_page_names() {
    let text = |path: &str| fs::read(format!("{}/../{path}", env!("CARGO_MANIFEST_DIR"))).unwrap();
    let card = card::check(&text("cards/failing_bridge.card")).unwrap();
    let mut state = table::start_state(&card);
    let mut broken = Vec::new();
    for tick in 1..=2000 {
        table::step(&card, &mut state).expect("the tick is done");
        let joints = state[BODY_NUMBERS * card.bodies.len()..].chunks(JOINT_NUMBERS);
        for (joint, numbers) in joints.enumerate() {
            if numbers[BROKEN] == 1.0 && broken.iter().all(|(_, other)| *other != joint) {
                broken.push((tick, joint));
            }
        }
    }
    // The planks are bodies 1 to 21, the weight the eleventh; each joint is on the body of its number and on the next.
    assert_eq!(broken, [(195, 0), (490, 11), (497, 21)]);
    let page = String::from_utf8(text("docs/CARD.md")).unwrap();
    for said in [
        "in tick 195 the hinge of the left abutment",
        "in ticks 490 and 497,",
    ] {
        assert!(page.contains(said), "{said}");
    }
}
