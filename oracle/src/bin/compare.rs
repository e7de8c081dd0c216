//! Compares the Rattle with the oracle: `compare [--seed S]... [--count N] [WORD]...`, where a word is one of leaves, joints, cards, runs, states, families,
//! lists, conversions and every.
//!
//! Without a word it compares all but `every`, which goes through all 2^32 inputs of root, sine, cosine and arc sine, and every slope of the
//! arctangent. The count is of inputs to each leaf, of joints, of damaged cards, of runs, of states, of the families' cards, of lists of calls and of
//! conversions, for each seed. At a difference it writes the smallest input that it finds to target/differences; it fails at a difference, and where a
//! class of inputs that it looks for never came up with any seed. It first says the sum of the archive that it is linked with.

use oracle::compare::leaves::{any_joint, every, leaves, Leaf};
use oracle::compare::{Difference, Hits};
use oracle::host;
use std::path::Path;
use std::process::ExitCode;
use std::time::Instant;

const USUAL: &[&str] = &[
    "leaves",
    "joints",
    "cards",
    "runs",
    "states",
    "families",
    "lists",
    "conversions",
];

struct Options {
    seeds: Vec<u64>,
    count: u64,
    what: Vec<String>,
}

fn options() -> Option<Options> {
    let mut options = Options {
        seeds: Vec::new(),
        count: 20000,
        what: Vec::new(),
    };
    let mut words = std::env::args().skip(1);
    while let Some(word) = words.next() {
        match word.as_str() {
            "--seed" => options.seeds.push(words.next()?.parse().ok()?),
            "--count" => options.count = words.next()?.parse().ok()?,
            "every" => options.what.push(word),
            what if USUAL.contains(&what) => options.what.push(word),
            _ => return None,
        }
    }
    if options.what.is_empty() {
        options.what = USUAL.iter().map(|what| what.to_string()).collect();
    }
    if options.seeds.is_empty() {
        options.seeds.push(1);
    }
    (options.count > 0).then_some(options)
}

type Compared = Result<(), Box<Difference>>;

fn compare_leaves(list: &[Leaf], seed: u64, count: u64, hits: &mut Hits) -> Compared {
    for leaf in list {
        let begun = Instant::now();
        let compared = leaf.compare(host::answer, seed, count, hits)?;
        hits.count(format!("inputs of {}", leaf.name), compared);
        let seconds = begun.elapsed().as_secs_f32();
        println!("{}: {compared} inputs equal ({seconds:.1} s)", leaf.name);
    }
    Ok(())
}

fn compare_tables(what: &str, seed: u64, count: u64, hits: &mut Hits) -> Compared {
    let tables = oracle::compare::tables::Tables {
        oracle: oracle::compare::ORACLE,
        rattle: host::table(),
    };
    let begun = Instant::now();
    let (compared, of) = match what {
        "cards" => (tables.cards(seed, count, hits)?, "cards".to_string()),
        "runs" => (
            tables.runs(seed, count, hits)?,
            format!("ticks of {count} runs"),
        ),
        "families" => (
            tables.families(seed, count, hits)?,
            format!("ticks of {count} cards"),
        ),
        "lists" => (
            tables.lists(seed, count, hits)?,
            format!("steps of {count} lists"),
        ),
        "conversions" => (
            tables.conversions(seed, count, hits)?,
            "conversions".to_string(),
        ),
        _ => (tables.states(seed, count, hits)?, "states".to_string()),
    };
    hits.count("compared", compared);
    let seconds = begun.elapsed().as_secs_f32();
    println!("{what}: {compared} {of} equal ({seconds:.1} s)");
    Ok(())
}

fn compare_every() -> Compared {
    for scan in every() {
        let begun = Instant::now();
        let compared = scan.compare(host::answer)?;
        let seconds = begun.elapsed().as_secs_f32();
        println!(
            "{}: all {compared} inputs equal ({seconds:.1} s)",
            scan.name
        );
    }
    Ok(())
}

fn compare(what: &str, options: &Options, hits: &mut Hits) -> Compared {
    if what == "every" {
        return compare_every();
    }
    for &seed in &options.seeds {
        println!("{what}: seed {seed}");
        match what {
            "leaves" => compare_leaves(&leaves(), seed, options.count, hits)?,
            "joints" => compare_leaves(&any_joint(), seed, options.count, hits)?,
            _ => compare_tables(what, seed, options.count, hits)?,
        }
    }
    Ok(())
}

fn report(difference: &Difference) {
    print!("DIFFERENCE in {}", difference.text);
    let folder = Path::new(env!("CARGO_MANIFEST_DIR")).join("target/differences");
    std::fs::create_dir_all(&folder).expect("the folder can be made");
    for (name, bytes) in &difference.files {
        let path = folder.join(name);
        std::fs::write(&path, bytes).expect("the file can be written");
        println!("  written to {}", path.display());
    }
}

fn main() -> ExitCode {
    let Some(options) = options() else {
        let words = USUAL.join("] [");
        eprintln!("usage: compare [--seed S]... [--count N] [{words}] [every], N over 0");
        return ExitCode::from(2);
    };
    println!("libhost.a {}", env!("LIBHOST_SHA256"));
    println!("seeds {:?}, count {}", options.seeds, options.count);
    let mut equal = true;
    for what in &options.what {
        let mut hits = Hits::default();
        match compare(what, &options, &mut hits) {
            Ok(()) => {
                print!("{what}: classes\n{}", hits.lines());
                for class in hits.missed() {
                    println!("{what}: nothing reached `{class}`");
                    equal = false;
                }
            }
            Err(difference) => {
                report(&difference);
                equal = false;
            }
        }
    }
    match equal {
        true => ExitCode::SUCCESS,
        false => ExitCode::FAILURE,
    }
}
