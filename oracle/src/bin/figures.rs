//! The figures of docs/CARD.md: `figures DIR`, where DIR has the sample cards. Lengths are in metres, masses in kilograms.

use oracle::card::{self, Body, Card, Joint, BALL, BODY_NUMBERS, HINGE, TETHER};
use oracle::{math, table};
use std::{env, fs, process};

const RATES: [u32; 5] = [60, 120, 240, 500, 1000];

/// The most ticks that the program makes.
const LONG: u32 = 65535;

fn sample(folder: &str, name: &str) -> Card {
    let path = format!("{folder}/{name}.card");
    let bytes = fs::read(&path).unwrap_or_else(|e| {
        eprintln!("{path}: {e}");
        process::exit(1);
    });
    card::check(&bytes).expect("a sample card")
}

/// Makes the card's ticks up to the count, with a look at the state after each. The tick that was refused, if any.
fn run(card: &Card, ticks: u32, mut look: impl FnMut(&[f32])) -> Option<u32> {
    let mut state = table::start_state(card);
    for tick in 1..=ticks {
        if table::step(card, &mut state).is_err() {
            return Some(tick);
        }
        look(&state);
    }
    None
}

fn vector(state: &[f32], body: u32, place: usize) -> [f32; 3] {
    let at = BODY_NUMBERS * body as usize + place;
    state[at..at + 3].try_into().unwrap()
}

fn rotation(state: &[f32], body: u32) -> [f32; 4] {
    let at = BODY_NUMBERS * body as usize + 3;
    state[at..at + 4].try_into().unwrap()
}

fn angular_velocity(state: &[f32], body: u32) -> [f32; 3] {
    vector(state, body, 10)
}

/// Where a point of a body is.
fn point(state: &[f32], body: u32, anchor: [f32; 3]) -> [f32; 3] {
    math::add(
        vector(state, body, 0),
        math::turn(rotation(state, body), anchor),
    )
}

/// How far apart the anchors of a card's joints are at most.
fn gap(card: &Card, state: &[f32]) -> f32 {
    let gap = |joint: &Joint| {
        let from = point(state, joint.body1, joint.anchor1);
        math::length(math::sub(point(state, joint.body2, joint.anchor2), from))
    };
    card.joints.iter().map(gap).fold(0.0, f32::max)
}

/// The widest gap of the card in ten seconds, in millimetres.
fn widest(card: &Card) -> f32 {
    let mut widest = 0f32;
    run(card, 10 * card.rate, |state| {
        widest = widest.max(gap(card, state))
    });
    1000.0 * widest
}

fn listed(card: &Card, order: impl IntoIterator<Item = usize>) -> Card {
    Card {
        joints: order.into_iter().map(|i| card.joints[i].clone()).collect(),
        ..card.clone()
    }
}

fn even_then_odd(card: &Card) -> Card {
    let n = card.joints.len();
    listed(card, (0..n).step_by(2).chain((1..n).step_by(2)))
}

/// 31 bars of 1 kg and 0.25 m on joints of a kind, level, with the inertia of rods times a factor.
fn chain(kind: u32, rate: u32, factor: f32) -> Card {
    let length = 0.25;
    let inverse = 12.0 / (length * length) / factor;
    let bar = |i: u32| Body {
        position: [(i as f32 + 0.5) * length, 0.0, 0.0],
        inv_inertia: [inverse, 0.0, 0.0, inverse, 0.0, inverse],
        ..Body::UNIT
    };
    let joint = |i: u32| Joint {
        anchor1: [if i == 0 { 0.0 } else { length / 2.0 }, 0.0, 0.0],
        anchor2: [-length / 2.0, 0.0, 0.0],
        ..Joint::plain(kind, i, i + 1)
    };
    Card {
        edition: 1,
        rate,
        zero: 0,
        gravity: -9.81,
        warm_coefficient: 0.0,
        bodies: [Body::ANCHORED]
            .into_iter()
            .chain((0..31).map(bar))
            .collect(),
        joints: (0..31).map(joint).collect(),
    }
}

fn rates_of_gaps(cards: &str) {
    for rate in RATES {
        let card = Card {
            rate,
            ..sample(cards, "chebyshev")
        };
        println!("chebyshev at {rate}: gap {:.2} mm", widest(&card));
    }
}

fn slower_motor(cards: &str) {
    let mut card = Card {
        rate: 240,
        ..sample(cards, "chebyshev")
    };
    card.joints[0].motor_numbers[0] /= 2.0;
    println!(
        "chebyshev at 240, half as fast: gap {:.2} mm",
        widest(&card)
    );
}

fn orders_of_a_loop(cards: &str) {
    let card = Card {
        rate: 240,
        ..sample(cards, "chebyshev")
    };
    for order in [[0, 3, 2, 1], [0, 1, 2, 3], [1, 2, 3, 0]] {
        let gap = widest(&listed(&card, order));
        println!("chebyshev at 240, joints {order:?}: gap {gap:.2} mm");
    }
}

fn end_of(name: &str, card: &Card) {
    let mut widest = 0f32;
    let refused = run(card, LONG, |state| widest = widest.max(gap(card, state)));
    match refused {
        Some(tick) => println!("{name} at {}: stopped in tick {tick}", card.rate),
        None => println!("{name} at {}: gap {:.1} mm", card.rate, 1000.0 * widest),
    }
}

fn hinge_chains() {
    for rate in [240, 360, 500, 1000] {
        let card = chain(HINGE, rate, 1.0);
        end_of("31 hinges from the anchor on", &card);
        end_of("31 hinges from the tip on", &listed(&card, (0..31).rev()));
        end_of("31 hinges even, then odd", &even_then_odd(&card));
    }
    end_of("31 hinges of twice the inertia", &chain(HINGE, 240, 2.0));
    let mut soft = chain(HINGE, 240, 1.0);
    for joint in &mut soft.joints {
        joint.compliances[0] = 1e-4;
    }
    end_of("31 hinges of compliance 0.0001", &soft);
}

/// The samples of 200 bodies, as they are listed and joint after joint.
fn large_samples(cards: &str) {
    for name in ["chain_199", "bridge"] {
        for rate in [500, 1000, 2000, 4000] {
            let mut card = Card {
                rate,
                ..sample(cards, name)
            };
            end_of(&format!("{name} as listed"), &card);
            card.joints.sort_by_key(|joint| joint.body1);
            end_of(&format!("{name} from the first on"), &card);
        }
    }
}

/// When a body's coordinate first turns round, and when it does so again, in seconds, and where.
fn turns(cards: &str, name: &str, body: u32, axis: usize) {
    let card = sample(cards, name);
    let mut way = Vec::new();
    run(&card, LONG, |state| way.push(vector(state, body, 0)[axis]));
    // Where it is farther out than half a second before and after.
    let half = card.rate as usize / 2;
    let turned = (half..way.len() - half).filter(|&i| {
        let around = &way[i - half..=i + half];
        let first = around.iter().position(|x| *x == way[i]) == Some(half);
        first && (around.iter().all(|x| *x >= way[i]) || around.iter().all(|x| *x <= way[i]))
    });
    for i in turned.take(4) {
        let at = (i + 1) as f32 / card.rate as f32;
        println!(
            "{name}: body {body} turns round at {:.3} after {at:.3} s",
            way[i]
        );
    }
}

/// The fastest turn of a bar about its own length.
fn spin(card: &Card, state: &[f32]) -> f32 {
    let spin = |body: u32| {
        let along = math::turn(rotation(state, body), [1.0, 0.0, 0.0]);
        math::dot(angular_velocity(state, body), along).abs()
    };
    (1..card.bodies.len() as u32).map(spin).fold(0.0, f32::max)
}

fn spin_of(name: &str, card: &Card) {
    let mut fastest = 0f32;
    let refused = run(card, 60 * card.rate, |state| {
        fastest = fastest.max(spin(card, state))
    });
    let end = refused.map_or("in a minute".into(), |tick| {
        format!("stopped in tick {tick}")
    });
    println!("{name} at {}: spin {fastest:.1}, {end}", card.rate);
}

/// Each is pushed aside at its end by 1 m/s.
fn ball_chains(cards: &str) {
    for rate in [240, 500, 1000] {
        let five = sample(cards, "chain");
        spin_of("5 balls", &Card { rate, ..five });
        for factor in [1.0, 4.0, 16.0] {
            let mut card = chain(BALL, rate, factor);
            card.bodies[31].linear_velocity = [0.0, 0.0, 1.0];
            spin_of(&format!("31 balls, inertia by {factor}"), &card);
        }
        spin_of("31 balls, not pushed", &chain(BALL, rate, 1.0));
    }
}

fn limited_balls(cards: &str) {
    let mut card = sample(cards, "chain");
    for joint in &mut card.joints {
        joint.axis = [0.0, 1.0, 0.0];
        joint.limit2 = true;
        joint.limit2_range = [-0.5, 0.5];
    }
    spin_of("5 balls with a twist limit", &card);
}

/// Of the flap's speed when it first meets its stop, what comes back within a twentieth of a second, in hundredths.
fn given_back(card: &Card) -> f32 {
    let mut speeds = Vec::new();
    run(card, 2 * card.rate, |state| {
        speeds.push(angular_velocity(state, 1)[2])
    });
    let mut fastest = 0f32;
    let met = speeds.iter().position(|&speed| {
        fastest = fastest.min(speed);
        fastest < -1.0 && speed > fastest / 2.0
    });
    let after = speeds.iter().skip(met.expect("a stop"));
    let soon = after.take(4.max(card.rate as usize / 20));
    -100.0 * soon.copied().fold(f32::MIN, f32::max) / fastest
}

fn stops(cards: &str) {
    for rate in RATES {
        let plain = Card {
            rate,
            ..sample(cards, "stop")
        };
        let mut heavy = plain.clone();
        heavy.bodies[1].inv_inertia = heavy.bodies[1].inv_inertia.map(|x| x / 4.0);
        let mut soft = plain.clone();
        soft.joints[0].compliances[2] = 1e-4;
        let mut balanced = plain.clone();
        balanced.bodies[1].center_of_mass = [-0.5, 0.0, 0.0];
        balanced.bodies[1].angular_velocity = [0.0, 0.0, -3.0];
        let [plain, heavy, soft, balanced] = [&plain, &heavy, &soft, &balanced].map(given_back);
        println!("stop at {rate}: {plain:.1} %; inertia by 4 {heavy:.1} %; limit's compliance 0.0001 {soft:.1} %; balanced {balanced:.1} %");
    }
}

/// How far a weight of 1 kg stretches its tether, after a minute.
fn stretches() {
    for rate in [60, 1000] {
        for compliance in [0.0, 1e-5, 1e-4, 1e-3] {
            let mut card = chain(TETHER, rate, 1.0);
            card.bodies.truncate(2);
            card.joints.truncate(1);
            card.bodies[1].position = [0.0, -2.0, 0.0];
            card.joints[0].anchor2 = [0.0; 3];
            card.joints[0].limit1_range = [0.0, 2.0];
            card.joints[0].compliances[0] = compliance;
            let mut y = 0.0;
            run(&card, 60 * rate, |state| y = vector(state, 1, 0)[1]);
            let stretch = 1000.0 * (-2.0 - y);
            println!("1 kg on a tether of {compliance} at {rate}: {stretch:.3} mm");
        }
    }
}

/// How fast a bar flies off whose hinge was drawn a centimetre open.
fn drawn_open() {
    for rate in RATES {
        let mut card = chain(HINGE, rate, 1.0);
        card.bodies.truncate(2);
        card.joints.truncate(1);
        card.gravity = 0.0;
        card.bodies[1].position[1] = 0.01;
        run(&card, 1, |state| {
            let speed = math::length(vector(state, 1, 7));
            let turn = math::length(angular_velocity(state, 1));
            println!("a hinge drawn 10 mm open at {rate}: {speed:.2} m/s, {turn:.1} rad/s");
        });
    }
}

fn main() {
    let Some(cards) = env::args().nth(1) else {
        eprintln!("usage: figures DIR");
        process::exit(2);
    };
    rates_of_gaps(&cards);
    slower_motor(&cards);
    orders_of_a_loop(&cards);
    hinge_chains();
    ball_chains(&cards);
    limited_balls(&cards);
    stops(&cards);
    stretches();
    drawn_open();
    large_samples(&cards);
    turns(&cards, "chain_199", 199, 0);
    turns(&cards, "bridge", 100, 1);
}
