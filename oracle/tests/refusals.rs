//! Each example of docs/CARD.md's refusals gives the number of its row.

use oracle::{card, table};
use std::collections::BTreeSet;
use std::fs;

fn text(path: &str) -> Vec<u8> {
    fs::read(format!("{}/../{path}", env!("CARGO_MANIFEST_DIR"))).unwrap()
}

/// `cut 11`, or `4: 44 fa; 8: 00` with more than one place.
fn changed(card: &[u8], example: &str) -> Vec<u8> {
    let mut card = card.to_vec();
    if let Some(length) = example.strip_prefix("cut ") {
        card.truncate(length.parse().unwrap());
        return card;
    }
    for change in example.split("; ") {
        let (place, bytes) = change.split_once(": ").unwrap();
        let place: usize = place.parse().unwrap();
        for (i, byte) in bytes.split(' ').enumerate() {
            card[place + i] = u8::from_str_radix(byte, 16).unwrap();
        }
    }
    card
}

/// What the program writes for one tick of the card.
fn output(card: &[u8]) -> String {
    let input = [&[0, 1], card].concat();
    let mut output = Vec::new();
    table::program(&input, &mut output).unwrap();
    String::from_utf8(output).unwrap()
}

#[test]
fn examples_of_the_page() {
    let page = String::from_utf8(text("docs/CARD.md")).unwrap();
    let card = text("cards/stop.card");
    assert_eq!(output(&card).lines().count(), 2);
    let mut seen = BTreeSet::new();
    let (_, rows) = page.split_once("| number | sense | example |").unwrap();
    for row in rows.lines().skip(2).take_while(|row| !row.is_empty()) {
        let cells: Vec<&str> = row.split('|').map(str::trim).collect();
        for example in cells[3].split('`').skip(1).step_by(2) {
            let refused = format!("refused {}\n", cells[1]);
            assert_eq!(output(&changed(&card, example)), refused, "{example}");
            seen.insert(cells[1].parse::<u32>().unwrap());
        }
    }
    // 11, 12 and 21 are of a state, which the program makes itself.
    assert_eq!(seen, card::REFUSALS.into_iter().chain([13]).collect());
}
