//! Works out the tables of the Rattle from whole numbers: `tables sine`, `tables arctangent` and `tables root` print each as it stands in the files of `crates`.
//! The test holds the files to it.

use oracle::math::{ARCTANGENT, SINE};
use std::{env, process};

/// A part of a file, which stands there once, as it is.
struct Part {
    file: &'static str,
    text: String,
}

const DEFINITIONS: &str = "crates/series/specs/Tables.antt";
const STATICS: &str = "crates/trig_tables/src/lib.rt";
const CURVES: &str = "crates/root/src/lib.rt";
const STARTS: &str = "crates/root/specs/Start.antt";

/// A line of code with numbers has three spaces, and with the space before each number no more than this.
const INDENT: &str = "   ";
const WIDTH: usize = 99;

/// A table of 1,025 numbers: 16 rows of 64, and one number more.
struct Table {
    numbers: &'static [i64; 1025],
    /// Its list, and a row of it, in the definitions.
    list: &'static str,
    row: &'static str,
    /// Its name in the code.
    code: &'static str,
}

const SINES: Table = Table {
    numbers: &SINE,
    list: "sines",
    row: "sine_row",
    code: "SINES",
};

const ARCTANGENTS: Table = Table {
    numbers: &ARCTANGENT,
    list: "arcs",
    row: "arc_row",
    code: "ARCTANGENTS",
};

fn lines<T>(items: impl IntoIterator<Item = T>, line: impl Fn(T) -> String) -> String {
    items.into_iter().map(line).collect::<Vec<_>>().join("\n")
}

impl Table {
    fn rows(&self) -> impl Iterator<Item = (usize, &[i64])> {
        self.numbers[..1024].chunks(64).enumerate()
    }

    fn row_definition(&self, i: usize, numbers: &[i64]) -> String {
        let name = format!("{}{i}", self.row);
        let cells: String = numbers.iter().map(|n| format!("{n} ∷ ")).collect();
        format!("abbrev pub {name} : List ℕ\n{name} = {cells}[]\n")
    }

    fn list_definition(&self) -> String {
        let Self { list, row, .. } = self;
        let rows: String = (0..16).map(|i| format!("{row}{i} ++ ")).collect();
        let last = self.numbers[1024];
        format!("unfoldable pub {list} : List ℕ\n{list} = {rows}{last} ∷ []\n")
    }

    /// As many numbers to a line as fit it.
    fn static_item(&self) -> String {
        let mut rows = vec![String::new()];
        for number in self.numbers {
            let cell = format!(" {number},");
            match rows.last_mut() {
                Some(row) if row.len() + cell.len() <= WIDTH - INDENT.len() => row.push_str(&cell),
                _ => rows.push(cell),
            }
        }
        let cells = lines(rows.iter(), |row| format!("{INDENT}{row}"));
        format!("static {}: [u32; 1025] = [\n{cells}\n];\n", self.code)
    }

    fn parts(&self) -> Vec<Part> {
        let of = |file, text| Part { file, text };
        let definitions = self
            .rows()
            .map(|(i, row)| of(DEFINITIONS, self.row_definition(i, row)));
        definitions
            .chain([of(DEFINITIONS, self.list_definition())])
            .chain([of(STATICS, self.static_item())])
            .collect()
    }
}

/// The root's guess on the numbers at a place of the table of starting values: of an odd exponent at the first 128 places and of an even one after, by the
/// seven digits after the leading one. It is the root, raised by a half, as a parabola t + d·u - e·u² in the u from 0 to 1 that the next 16 digits say; t is
/// the starting value. t is in parts of 128, d of 64, e of 16.
struct Curve {
    place: usize,
}

/// Fractions have this many digits here, and the numbers below a root twice as many.
const DIGITS: u32 = 30;

impl Curve {
    /// The significand at u = 0, with its leading digit.
    fn significand(&self) -> u128 {
        (128 + self.place as u128 % 128) << 16
    }

    /// factor · the significand `m`, over 2^(2·DIGITS), as the root takes it: moved up so that the root has 24 digits.
    fn root(&self, factor: u128, m: u128) -> i128 {
        let up = if self.place < 128 { 24 } else { 23 };
        ((m * factor) << up).isqrt() as i128
    }

    /// The roots, times that of `factor`, at u = 1/2 ± √n/4.
    fn about_the_middle(&self, n: u128, factor: u128) -> [i128; 2] {
        let middle = (self.significand() + (1 << 15)) << (2 * DIGITS);
        // √n/4 of 2^16, with 36 digits of its fraction.
        let aside = (n << (28 + 72)).isqrt() << (2 * DIGITS - 36);
        [middle - aside, middle + aside].map(|m| self.root(factor, m))
    }

    /// Through the root at Chebyshev's three points: -(y₀ - 2·y₁ + y₂) / (2·(√3/4)²), rounded.
    fn e(&self) -> i128 {
        let [y0, y2] = self.about_the_middle(3, 1);
        let [y1, _] = self.about_the_middle(0, 1);
        rounded(128 * (2 * y1 - y0 - y2), 3)
    }

    /// With that e, the line at Chebyshev's two points, √2/2 apart: √2·(y₁ - y₀) + e, rounded.
    fn d(&self, e: i128) -> i128 {
        let [y0, y1] = self.about_the_middle(2, 1 << 13);
        rounded(y1 - y0, 1) + 4 * e
    }

    /// With those, the middle between the least and the greatest that is left of the raised root in the middles of 64 equal parts, rounded.
    fn t(&self, e: i128, d: i128) -> i128 {
        let left = (0..64).map(|part| {
            let w = 1024 * part + 512;
            let root = self.root(1 << 14, (self.significand() + w as u128) << (2 * DIGITS));
            root + (64 << DIGITS) - ((d * w) << (DIGITS - 15)) + ((e * w * w) << (DIGITS - 29))
        });
        let (least, greatest) = left.fold((i128::MAX, i128::MIN), |(least, greatest), x| {
            (least.min(x), greatest.max(x))
        });
        // Next to 1 the root lies just below the middle of two f32.
        let next_to_one = matches!(self.place, 127 | 128);
        rounded(least + greatest, 2) - 2 * i128::from(next_to_one)
    }

    /// t, e and d with 31, 11 and 22 digits.
    fn packed(&self) -> u64 {
        let e = self.e();
        let d = self.d(e);
        let t = self.t(e, d);
        assert!(t < 1 << 31 && e < 1 << 11 && d < 1 << 22);
        (t << 33 | e << 22 | d) as u64
    }
}

/// The whole number nearest to x / (2^DIGITS · n).
fn rounded(x: i128, n: i128) -> i128 {
    (2 * x + (n << DIGITS)).div_euclid(2 * n << DIGITS)
}

fn curves() -> Vec<Part> {
    let curves: Vec<u64> = (0..256).map(|place| Curve { place }.packed()).collect();
    let cells = lines(&curves, |curve| format!("    0x{curve:016x},"));
    let values = lines(curves.chunks(16), |row| {
        let cells: Vec<String> = row
            .iter()
            .map(|curve| format!("{} ∷", curve >> 33))
            .collect();
        format!("    {}", cells.join(" "))
    });
    let of = |file, text| Part { file, text };
    vec![
        of(
            CURVES,
            format!("static CURVES: [u64; 256] = [\n{cells}\n];\n"),
        ),
        of(STARTS, format!("starting_values =\n{values} []\n")),
    ]
}

fn main() {
    let parts = match env::args().nth(1).as_deref() {
        Some("sine") => SINES.parts(),
        Some("arctangent") => ARCTANGENTS.parts(),
        Some("root") => curves(),
        _ => {
            eprintln!("usage: tables sine | arctangent | root");
            process::exit(2);
        }
    };
    let mut file = "";
    for part in parts {
        if part.file != file {
            file = part.file;
            println!("// {file}");
        }
        println!("{}", part.text);
    }
}

#[cfg(test)]
mod tests {
    use super::*;

    #[test]
    fn the_files_have_the_tables() {
        for part in [SINES.parts(), ARCTANGENTS.parts(), curves()]
            .into_iter()
            .flatten()
        {
            let path = format!("{}/../{}", env!("CARGO_MANIFEST_DIR"), part.file);
            let text = std::fs::read_to_string(&path).unwrap();
            let first = part.text.lines().next().unwrap();
            assert_eq!(text.matches(&part.text).count(), 1, "{path}: {first}");
        }
    }
}
