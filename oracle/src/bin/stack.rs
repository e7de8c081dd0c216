//! The deepest stack of the Rattle's calls, as a table in Markdown: `stack LIBRARY`.
//!
//! Three figures for each call, all from the caller's stack pointer, return address and all. Measured, on cards that edition 1 has room for and on larger ones:
//! the call runs on a stack of its own that is filled with a pattern, and the lowest byte that it wrote is looked for; that covers the ways that were taken.
//! From the code: the disassembly (objdump) gives how deep each function is at each of its calls; the deepest chain covers every way. The C library's
//! functions count there as a return address alone.

use oracle::card::{self, Card};
use oracle::generate::{self, Random};
use oracle::{host, large, table};
use std::arch::asm;
use std::collections::BTreeMap;
use std::env;
use std::process::Command;

// ----------------------------------------------------------------------------------------------------------------------------- measured

/// The stack in words of 16 bytes, over twice what a call takes; that the lowest quarter stays untouched is looked at.
const WORDS: usize = 1 << 14;

/// Calls a function of C on a stack filled with a pattern, and gives the bytes from the stack's end to the lowest one that changed.
///
/// # Safety
/// The function takes the arguments by C's rules, or fewer of them.
unsafe fn depth(stack: &mut [u128], pattern: u8, function: usize, arguments: [usize; 6]) -> usize {
    let pattern = u128::from_ne_bytes([pattern; 16]);
    stack.fill(pattern);
    let [a, b, c, d, e, f] = arguments;
    // A function of C keeps r12 and leaves the stack pointer as it was.
    asm!(
        "mov r12, rsp",
        "mov rsp, r13",
        "call r14",
        "mov rsp, r12",
        out("r12") _,
        in("r13") stack.as_mut_ptr_range().end,
        in("r14") function,
        in("rdi") a,
        in("rsi") b,
        in("rdx") c,
        in("rcx") d,
        in("r8") e,
        in("r9") f,
        clobber_abi("C"),
    );
    let untouched = stack.iter().take_while(|word| **word == pattern).count();
    assert!(untouched > stack.len() / 4, "the stack is too small");
    let changed = (stack[untouched] ^ pattern).to_ne_bytes();
    16 * (stack.len() - untouched) - changed.iter().take_while(|byte| **byte == 0).count()
}

const CALLS: [&str; 7] = [
    "linkage_check",
    "linkage_sizes",
    "linkage_start",
    "linkage_tick",
    "linkage_run",
    "linkage_to_edition_1",
    "linkage_to_edition_2",
];

/// Linkages of up to 32 joints of all kinds with limits and motors, single joints in any pose, numbers anywhere in their ranges.
fn small(random: &mut Random) -> Card {
    match random.below(4) {
        0 => generate::linkage(random),
        1 => generate::any_card(random),
        _ => generate::pair(random),
    }
}

/// The deepest of each call over random cards, some of them damaged, and states.
fn measured(cases: u64, draw: fn(&mut Random) -> Card) -> [usize; CALLS.len()] {
    let functions = [
        host::linkage_check as *const () as usize,
        host::linkage_sizes as *const () as usize,
        host::linkage_start as *const () as usize,
        host::linkage_tick as *const () as usize,
        host::linkage_run as *const () as usize,
        host::linkage_to_edition_1 as *const () as usize,
        host::linkage_to_edition_2 as *const () as usize,
    ];
    let mut stack = vec![0; WORDS];
    let mut deepest = [0; CALLS.len()];
    for case in 0..cases {
        let random = &mut Random::of_case(1, case);
        let card = draw(random);
        let mut bytes = card.encode();
        if random.one_in(8) {
            let number = random.pick(&card::REFUSALS);
            generate::damage(random, &mut bytes, number);
        }
        let state = match random.one_in(2) {
            true => table::start_state(&card),
            false => generate::state(random, &card),
        };
        for ((name, function), deepest) in CALLS.iter().zip(functions).zip(&mut deepest) {
            // A byte that is written as it was in one pattern shows in the other.
            for pattern in [0x5a, 0xa5] {
                let mut numbers = state.clone();
                let mut out = vec![0u8; bytes.len() + 4];
                let mut counts = [0u32; 3];
                let [a, b, c] = counts.each_mut().map(|count| count as *mut u32 as usize);
                let (from, to) = (bytes.as_ptr() as usize, numbers.as_mut_ptr() as usize);
                let result = out.as_mut_ptr() as usize;
                let arguments = match *name {
                    "linkage_sizes" => [from, bytes.len(), a, b, c, 0],
                    "linkage_to_edition_1" | "linkage_to_edition_2" => {
                        [from, bytes.len(), result, out.len(), a, 0]
                    }
                    _ => [from, bytes.len(), to, numbers.len(), 20, a],
                };
                // SAFETY: card, state, result and counts live through the call. The others take the first of card, state, ticks and count.
                let depth = unsafe { depth(&mut stack, pattern, function, arguments) };
                *deepest = depth.max(*deepest);
            }
        }
    }
    deepest
}

// ------------------------------------------------------------------------------------------------------------------------ from the code

const RETURN_ADDRESS: i64 = 8;

/// A line of the disassembly, and the other function that it calls or jumps to.
struct Line {
    address: i64,
    instruction: String,
    operands: String,
    other: Option<String>,
}

/// The deepest that a function gets by itself, and what it calls at which depth, return address included.
#[derive(Default)]
struct Function {
    own: i64,
    calls: Vec<(String, i64)>,
}

fn number(text: &str) -> i64 {
    let digits = text.trim_start_matches("0x");
    u64::from_str_radix(digits, 16).expect("a hexadecimal number") as i64
}

/// By how much an instruction deepens the stack. It stops at a stack pointer that is set in another way.
fn deepens(instruction: &str, operands: &str) -> i64 {
    if instruction == "push" {
        return 8;
    }
    if instruction == "pop" {
        return -8;
    }
    let Some(from) = operands.strip_suffix(",%rsp") else {
        return 0;
    };
    match (
        instruction,
        from.strip_prefix('$'),
        from.strip_suffix("(%rsp)"),
    ) {
        ("cmp" | "test", _, _) => 0,
        ("sub", Some(by), _) => number(by),
        ("add", Some(by), _) => -number(by),
        ("lea", _, Some(by)) => by.strip_prefix('-').map_or_else(|| -number(by), number),
        _ => panic!("not followed: {instruction} {operands}"),
    }
}

/// How far an operand reaches below the stack pointer.
fn below(operands: &str) -> i64 {
    let Some((before, _)) = operands.split_once("(%rsp") else {
        return 0;
    };
    let from = before.rfind([',', ' ']).map_or(0, |at| at + 1);
    before[from..].strip_prefix('-').map_or(0, number)
}

impl Line {
    fn jumps(&self) -> bool {
        self.instruction.starts_with('j')
    }

    /// The address of a jump, where it is one and not read from a table.
    fn target(&self) -> Option<i64> {
        let (address, _) = self.operands.split_once(' ').filter(|_| self.jumps())?;
        Some(number(address))
    }

    fn goes_on(&self) -> bool {
        !matches!(self.instruction.as_str(), "jmp" | "ret" | "ud2")
    }
}

/// The functions in what `objdump -dr --no-show-raw-insn` writes.
fn functions(text: &str) -> BTreeMap<String, Vec<Line>> {
    let mut functions = BTreeMap::new();
    let mut lines: &mut Vec<Line> = &mut Vec::new();
    for line in text.lines().map(str::trim) {
        if let Some((_, name)) = line
            .strip_suffix(">:")
            .and_then(|line| line.split_once(" <"))
        {
            lines = functions.entry(name.to_string()).or_default();
        } else if let Some((_, to)) = line.split_once(": R_X86_64_") {
            // A local function goes by its section's name. Other lines have the places of constants here.
            let last = lines.last_mut().expect("a line before");
            if last.instruction == "call" || last.jumps() {
                let to = to
                    .strip_prefix("PLT32\t")
                    .and_then(|to| to.strip_suffix("-0x4"));
                let to = to.expect("a function to call");
                last.other = Some(to.strip_prefix(".text.").unwrap_or(to).to_string());
            }
        } else if let Some((address, rest)) = line.split_once(":\t") {
            let rest = rest.split('#').next().unwrap().trim();
            let (instruction, operands) = rest.split_once(' ').unwrap_or((rest, ""));
            lines.push(Line {
                address: number(address),
                instruction: instruction.to_string(),
                operands: operands.trim().to_string(),
                other: None,
            });
        }
    }
    functions
}

/// A frame of many pages is taken page by page, in a loop up to where `r11` is: made one step of the whole.
fn take_whole_frames(lines: &mut [Line]) {
    for i in 5..lines.len() {
        let [from, whole, page, _, end, back] = &mut lines[i - 5..=i] else {
            unreachable!("six lines");
        };
        if (from.operands.as_str(), end.operands.as_str()) == ("%rsp,%r11", "%r11,%rsp") {
            assert_eq!(back.target(), Some(page.address), "a loop over pages");
            page.operands = whole.operands.replace("%r11", "%rsp");
            back.instruction = "nop".to_string();
        }
    }
}

/// Follows the depth along the lines and jumps of a function; where two ways lead to a line, the deeper counts. A jump by a table may lead to any line that
/// nothing else leads to. A line that is not come by even so counts as deep as the deepest.
fn follow(lines: &[Line]) -> Function {
    let places: BTreeMap<i64, usize> = lines.iter().map(|line| line.address).zip(0..).collect();
    let mut led_to = vec![false; lines.len()];
    led_to[0] = true;
    for (i, line) in lines.iter().enumerate() {
        if line.goes_on() && i + 1 < lines.len() {
            led_to[i + 1] = true;
        }
        if let (Some(target), None) = (line.target(), &line.other) {
            led_to[places[&target]] = true;
        }
    }
    let by_table: Vec<usize> = (0..lines.len()).filter(|i| !led_to[*i]).collect();

    let mut function = Function::default();
    let mut depths: Vec<Option<i64>> = vec![None; lines.len()];
    let mut ways = vec![(0, 0)];
    loop {
        let Some((i, depth)) = ways.pop() else {
            match depths.iter().position(Option::is_none) {
                Some(i) => ways.push((i, function.own)),
                None => return function,
            }
            continue;
        };
        if depths[i].is_some_and(|known| known >= depth) {
            continue;
        }
        assert!(depth < 1 << 20, "a loop that deepens the stack");
        depths[i] = Some(depth);
        let line = &lines[i];
        let after = depth + deepens(&line.instruction, &line.operands);
        function.own = function.own.max(after).max(depth + below(&line.operands));
        if line.goes_on() && i + 1 < lines.len() {
            ways.push((i + 1, after));
        }
        match (&line.other, line.target()) {
            (Some(other), _) => {
                let address = if line.jumps() { 0 } else { RETURN_ADDRESS };
                function.calls.push((other.clone(), depth + address));
            }
            (None, Some(target)) => ways.push((places[&target], depth)),
            (None, None) if line.jumps() => ways.extend(by_table.iter().map(|to| (*to, depth))),
            (None, None) => assert_ne!(line.instruction, "call", "a call by a pointer"),
        }
    }
}

/// The deepest that a function and its calls get, and the functions on the way there, each with what it adds.
fn deepest(
    functions: &BTreeMap<String, Function>,
    name: &str,
    above: &[&str],
) -> (i64, Vec<(String, i64)>) {
    assert!(!above.contains(&name), "{name} calls itself");
    let Some(function) = functions.get(name) else {
        return (0, Vec::new());
    };
    let mut found = (function.own, vec![(name.to_string(), function.own)]);
    for (to, depth) in &function.calls {
        let (more, mut way) = deepest(functions, to, &[above, &[name]].concat());
        if depth + more > found.0 {
            way.insert(0, (name.to_string(), *depth));
            found = (depth + more, way);
        }
    }
    found
}

fn main() {
    let library = env::args().nth(1).expect("stack LIBRARY");
    let output = Command::new("objdump")
        .args(["-dr", "--no-show-raw-insn", &library])
        .output()
        .expect("objdump is installed");
    assert!(output.status.success(), "objdump can't read {library}");
    let functions = functions(&String::from_utf8_lossy(&output.stdout));
    let functions = functions
        .into_iter()
        .map(|(name, mut lines)| {
            take_whole_frames(&mut lines);
            (name, follow(&lines))
        })
        .collect();
    println!("| call | bytes, measured on cards of up to 32 bodies and joints | on larger ones | bytes, from the code | the deepest way, with what each function adds |");
    println!("|---|---:|---:|---:|---|");
    let measured = measured(4000, small)
        .into_iter()
        .zip(measured(200, large::card));
    for (name, (up_to_32, larger)) in CALLS.iter().zip(measured) {
        let (depth, way) = deepest(&functions, name, &[]);
        let way: Vec<String> = way
            .iter()
            .map(|(name, bytes)| format!("`{name}` {bytes}"))
            .collect();
        println!(
            "| `{name}` | {up_to_32} | {larger} | {} | {} |",
            RETURN_ADDRESS + depth,
            way.join(", ")
        );
    }
}
