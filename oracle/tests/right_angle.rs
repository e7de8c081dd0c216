//! What cards/README.md says of the arc sine's arguments on right_angle.card.

use oracle::{above_one, card, table};
use std::fs;

#[test]
fn arguments_above_one() {
    let text = |path: &str| fs::read(format!("{}/../cards/{path}", env!("CARGO_MANIFEST_DIR")));
    let card = card::check(&text("right_angle.card").unwrap()).unwrap();
    let mut state = table::start_state(&card);
    let ticks = (0..2000).filter(|_| {
        let (done, above) = above_one::of(|| table::step(&card, &mut state));
        done.expect("the tick is done");
        above.all > 0
    });
    let said = format!("in {} of its 2,000 ticks", thousands(ticks.count()));
    let page = String::from_utf8(text("README.md").unwrap()).unwrap();
    assert!(page.contains(&said), "{said}");
}

fn thousands(count: usize) -> String {
    format!("{},{:03}", count / 1000, count % 1000)
}
