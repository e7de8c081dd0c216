//! The Rattle against the oracle: every number and refusal, bit for bit. Any NaN equals any NaN.

pub mod breaking;
pub mod cards;
pub mod conversions;
pub mod families;
pub mod leaves;
pub mod lists;
pub mod shrink;
pub mod tables;

use crate::convert::Converted;
use crate::table::{Ran, Sizes};
use std::collections::BTreeMap;
use std::fmt::Write;

pub fn same(a: f32, b: f32) -> bool {
    a.to_bits() == b.to_bits() || a.is_nan() && b.is_nan()
}

pub fn all_same(a: &[f32], b: &[f32]) -> bool {
    a.len() == b.len() && a.iter().zip(b).all(|(a, b)| same(*a, *b))
}

/// The table's calls, of either side. An answer's number is 0 or a refusal's.
#[derive(Clone, Copy)]
pub struct Table {
    pub check: fn(&[u8]) -> u32,
    pub sizes: fn(&[u8]) -> Sizes,
    pub start: fn(&[u8], &mut [f32]) -> u32,
    pub tick: fn(&[u8], &mut [f32]) -> u32,
    pub run: fn(&[u8], &mut [f32], u32) -> Ran,
    pub to_edition_1: fn(&[u8], &mut [u8]) -> Converted,
    pub to_edition_2: fn(&[u8], &mut [u8]) -> Converted,
}

pub const ORACLE: Table = Table {
    check: crate::table::check,
    sizes: crate::table::sizes,
    start: crate::table::start,
    tick: crate::table::tick,
    run: crate::table::run,
    to_edition_1: crate::convert::to_edition_1,
    to_edition_2: crate::convert::to_edition_2,
};

/// How often each class of cases came up. A class that was looked for and never came up is missed.
#[derive(Default)]
pub struct Hits(BTreeMap<String, u64>);

impl Hits {
    pub fn count(&mut self, class: impl Into<String>, times: u64) {
        *self.0.entry(class.into()).or_insert(0) += times;
    }

    pub fn look(&mut self, class: impl Into<String>, found: bool) {
        self.count(class, found as u64);
    }

    pub fn hit(&mut self, class: impl Into<String>) {
        self.look(class, true);
    }

    pub fn missed(&self) -> Vec<&str> {
        let missed = self.0.iter().filter(|(_, count)| **count == 0);
        missed.map(|(class, _)| class.as_str()).collect()
    }

    pub fn lines(&self) -> String {
        let mut text = String::new();
        for (class, count) in &self.0 {
            writeln!(text, "  {class}: {count}").unwrap();
        }
        text
    }
}

/// The smallest input found on which the two sides differ.
#[derive(Debug)]
pub struct Difference {
    /// What was compared, with both answers.
    pub text: String,
    /// The input: a name and bytes for each file.
    pub files: Vec<(String, Vec<u8>)>,
}

pub fn in_hex(numbers: &[f32]) -> String {
    let words = numbers.iter().map(|number| {
        let bits = number.to_bits();
        format!("{bits:08x} ({number:e})")
    });
    words.collect::<Vec<_>>().join(" ")
}

/// Numbers as bits, high byte first, as a card has them.
pub fn number_bytes(numbers: &[f32]) -> Vec<u8> {
    let bytes = numbers.iter().flat_map(|x| x.to_bits().to_be_bytes());
    bytes.collect()
}
