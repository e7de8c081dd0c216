//! Draws the sample cards: `cards DIR` writes DIR/NAME.card for each of them.
//!
//! Lengths are in metres, masses in kilograms, angles in radians. The linkages lie in the x-y plane, with gravity along -y; body 0 is the frame.

use oracle::card::{Body, Card, Joint, BALL, EDITION_2, EDITION_3, HINGE, SLIDE, TETHER};
use oracle::generate::held;
use std::f32::consts::FRAC_PI_2;
use std::f64::consts::{FRAC_1_SQRT_2, FRAC_PI_4};
use std::{env, fs, path::Path, process};

type Point = [f64; 2];

const RATE: u32 = 500;

/// The numbers of a motor that keeps a speed: target velocity, target position, cap, stiffness, damping.
fn speed(velocity: f32, cap: f32) -> [f32; 5] {
    [velocity, 0.0, cap, 0.0, 1.0]
}

/// The motor whose model gives an acceleration.
const ACCELERATION: u32 = 2;

fn frame() -> Body {
    Body::ANCHORED
}

/// A bar of 1 kg from a to b, its origin in the middle and its x axis along it. The inverse inertia is that of a rod of some width about each axis.
fn bar(a: Point, b: Point) -> Body {
    let [x, y] = [b[0] - a[0], b[1] - a[1]];
    let length = x.hypot(y);
    let half = y.atan2(x) / 2.0;
    let inverse = (12.0 / (length * length)) as f32;
    Body {
        position: [
            ((a[0] + b[0]) / 2.0) as f32,
            ((a[1] + b[1]) / 2.0) as f32,
            0.0,
        ],
        rotation: [0.0, 0.0, half.sin() as f32, half.cos() as f32],
        inv_mass: 1.0,
        inv_inertia: [inverse, 0.0, 0.0, inverse, 0.0, inverse],
        ..Body::UNIT
    }
}

/// Where a point of the plane is in a body's own axes.
fn local(body: &Body, p: Point) -> [f32; 3] {
    let [_, _, z, w] = body.rotation.map(f64::from);
    let (sine, cosine) = (2.0 * z * w, 1.0 - 2.0 * z * z);
    let [x, y] = [
        p[0] - f64::from(body.position[0]),
        p[1] - f64::from(body.position[1]),
    ];
    [
        (cosine * x + sine * y) as f32,
        (cosine * y - sine * x) as f32,
        0.0,
    ]
}

/// A joint of two bodies at a point of the plane.
fn at(kind: u32, bodies: &[Body], body1: u32, body2: u32, p: Point) -> Joint {
    Joint {
        anchor1: local(&bodies[body1 as usize], p),
        anchor2: local(&bodies[body2 as usize], p),
        ..Joint::plain(kind, body1, body2)
    }
}

fn driven(joint: Joint, velocity: f32, cap: f32) -> Joint {
    Joint {
        motor: ACCELERATION,
        motor_numbers: speed(velocity, cap),
        ..joint
    }
}

fn card(gravity: f32, bodies: Vec<Body>, joints: Vec<Joint>) -> Card {
    Card {
        edition: 1,
        rate: RATE,
        zero: 0,
        gravity,
        warm_coefficient: 0.0,
        bodies,
        joints,
    }
}

/// Where two circles meet, on the left of the way from one centre to the other.
fn meet(a: Point, ra: f64, b: Point, rb: f64) -> Point {
    let [x, y] = [b[0] - a[0], b[1] - a[1]];
    let d = x.hypot(y);
    let along = (ra * ra - rb * rb + d * d) / (2.0 * d);
    let aside = (ra * ra - along * along).sqrt();
    [
        a[0] + (x * along - y * aside) / d,
        a[1] + (y * along + x * aside) / d,
    ]
}

/// On the pivots o and q: a driven crank from o to a, a coupler from a by way of b to its end, and a rocker from q to b.
fn crank_rocker(o: Point, q: Point, a: Point, b: Point, end: Point) -> Card {
    let bodies = vec![frame(), bar(o, a), bar(a, end), bar(q, b)];
    let joints = vec![
        driven(at(HINGE, &bodies, 0, 1, o), 2.0, 500.0),
        at(HINGE, &bodies, 1, 2, a),
        at(HINGE, &bodies, 2, 3, b),
        at(HINGE, &bodies, 0, 3, q),
    ];
    card(0.0, bodies, joints)
}

/// A crank of 1, a coupler of 3.5 and a rocker of 2.5 on pivots 4 apart.
fn four_bar() -> Card {
    let (o, q, a) = ([0.0, 0.0], [4.0, 0.0], [0.0, 1.0]);
    let b = meet(a, 3.5, q, 2.5);
    crank_rocker(o, q, a, b, b)
}

/// A crank of 1 and a rod of 3, which moves a block along x.
fn slider_crank() -> Card {
    let (o, a) = ([0.0, 0.0], [0.0, 1.0]);
    let b = [8f64.sqrt(), 0.0];
    let block = Body {
        position: [b[0] as f32, 0.0, 0.0],
        inv_mass: 0.5,
        ..Body::UNIT
    };
    let bodies = vec![frame(), bar(o, a), bar(a, b), block];
    let slide = Joint {
        axis: [1.0, 0.0, 0.0],
        ..at(SLIDE, &bodies, 0, 3, o)
    };
    let slide = Joint {
        anchor2: [0.0; 3],
        ..slide
    };
    let joints = vec![
        driven(at(HINGE, &bodies, 0, 1, o), 3.0, 500.0),
        at(HINGE, &bodies, 1, 2, a),
        at(HINGE, &bodies, 2, 3, b),
        slide,
    ];
    card(0.0, bodies, joints)
}

/// A card of edition 2 at its fastest rate. Its joints, which come in a row, are listed even ones first, so that neighbours are not solved one after the
/// other.
fn large_card(bodies: Vec<Body>, joints: Vec<Joint>) -> Card {
    let even_then_odd = [0, 1].map(|first| joints.iter().skip(first).step_by(2));
    Card {
        edition: EDITION_2.number,
        rate: EDITION_2.fastest,
        ..card(
            -9.81,
            bodies,
            even_then_odd.into_iter().flatten().cloned().collect(),
        )
    }
}

/// 199 bars of 0.25 on hinges, let go 0.2 radians from the vertical.
fn chain_199() -> Card {
    let (sine, cosine) = 0.2f64.sin_cos();
    let joint_at = |i: usize| [0.25 * i as f64 * sine, -0.25 * i as f64 * cosine];
    let mut bodies = vec![frame()];
    let mut joints = Vec::new();
    for i in 0..199 {
        bodies.push(bar(joint_at(i), joint_at(i + 1)));
        joints.push(at(HINGE, &bodies, i as u32, i as u32 + 1, joint_at(i)));
    }
    large_card(bodies, joints)
}

/// The bodies and the hinges of a bridge: the frame, and an odd number of planks of 0.25 between two abutments, which are the frame. Each plank hangs as
/// steeply as the planks from it to the middle pull, half as steep as 45 degrees at the ends, so that all would stay; but the one in the middle weighs more.
fn bridge(planks: usize, middle_kg: f32) -> (Vec<Body>, Vec<Joint>) {
    let middle = planks / 2;
    let mut ends = vec![[0.0, 0.0]];
    for i in 0..planks {
        let [x, y]: Point = ends[i];
        let (sine, cosine) = (0.5 * (i as f64 - middle as f64) / middle as f64)
            .atan()
            .sin_cos();
        ends.push([x + 0.25 * cosine, y + 0.25 * sine]);
    }
    let mut bodies = vec![frame()];
    bodies.extend((0..planks).map(|i| bar(ends[i], ends[i + 1])));
    let load = &mut bodies[1 + middle];
    load.inv_mass /= middle_kg;
    load.inv_inertia = load.inv_inertia.map(|x| x / middle_kg);
    let count = planks as u32 + 1;
    let joint = |i: u32| at(HINGE, &bodies, i, (i + 1) % count, ends[i as usize]);
    let joints = (0..count).map(joint).collect();
    (bodies, joints)
}

/// As many planks as there can be, and 20 kg in their middle.
fn long_bridge() -> Card {
    let (bodies, joints) = bridge(199, 20.0);
    large_card(bodies, joints)
}

/// 21 planks, 40 kg in their middle, and hinges that bear no more than 4,000 N.
fn failing_bridge() -> Card {
    let (bodies, mut joints) = bridge(21, 40.0);
    for joint in &mut joints {
        joint.breaking_load = 4000.0;
    }
    Card {
        edition: EDITION_3.number,
        ..card(-9.81, bodies, joints)
    }
}

/// Five bars on ball joints, let go from the level.
fn chain() -> Card {
    let joint_at = |i: usize| [i as f64 * 0.5, 0.0];
    let mut bodies = vec![frame()];
    let mut joints = Vec::new();
    for i in 0..5 {
        bodies.push(bar(joint_at(i), joint_at(i + 1)));
        joints.push(at(BALL, &bodies, i as u32, i as u32 + 1, joint_at(i)));
    }
    bodies[5].linear_velocity = [0.0, 0.0, 1.0];
    card(-9.81, bodies, joints)
}

/// A rod of 2 and radius 0.05 on a ball joint at its end, let go half a radian from the vertical across the plane. Its x axis is along it.
fn rod() -> Card {
    let (length, radius, angle) = (2f64, 0.05f64, 0.5f64);
    let along = 2.0 / (radius * radius);
    let across = 12.0 / (3.0 * radius * radius + length * length);
    let middle = [0.0, -angle.cos(), angle.sin()].map(|x| x * length / 2.0);
    // A quarter turn takes x to z, and one about x takes that to the rod's direction.
    let (sine, cosine) = (FRAC_PI_4 - angle / 2.0).sin_cos();
    let rotation = [sine, -cosine, -sine, cosine].map(|x| x * FRAC_1_SQRT_2);
    let rod = Body {
        position: middle.map(|x| x as f32),
        rotation: rotation.map(|x| x as f32),
        inv_inertia: [along, 0.0, 0.0, across, 0.0, across].map(|x| x as f32),
        ..Body::UNIT
    };
    let joint = Joint {
        anchor2: [-length as f32 / 2.0, 0.0, 0.0],
        ..Joint::plain(BALL, 0, 1)
    };
    card(-9.81, vec![frame(), rod], vec![joint])
}

/// Chebyshev's lambda linkage: pivots 2 apart, a crank of 1, a rocker of 2.5 and a coupler of 5, whose far end moves along a nearly straight line.
fn chebyshev() -> Card {
    let (o, q, a) = ([0.0, 0.0], [2.0, 0.0], [1.0, 0.0]);
    let b = meet(a, 2.5, q, 2.5);
    let end = [2.0 * b[0] - a[0], 2.0 * b[1] - a[1]];
    crank_rocker(o, q, a, b, end)
}

/// A bob on a string that is slack below 2 and can't come nearer than 0.5.
fn tether() -> Card {
    let bob = Body {
        position: [0.25, 1.5, 0.0],
        linear_velocity: [0.0, 0.0, 0.5],
        ..Body::UNIT
    };
    let bodies = vec![frame(), bob];
    let joints = vec![Joint {
        limit1_range: [0.5, 2.0],
        ..Joint::plain(TETHER, 0, 1)
    }];
    card(-9.81, bodies, joints)
}

/// A flap that falls on its stops, half a radian below and above the level.
fn stop() -> Card {
    let (o, a) = ([0.0, 0.0], [1.0, 0.0]);
    let bodies = vec![frame(), bar(o, a)];
    let joints = vec![Joint {
        limit1: true,
        limit1_range: [-0.5, 0.5],
        ..at(HINGE, &bodies, 0, 1, o)
    }];
    card(-9.81, bodies, joints)
}

fn main() {
    let Some(folder) = env::args().nth(1) else {
        eprintln!("usage: cards DIR");
        process::exit(2);
    };
    let cards = [
        ("four_bar", four_bar()),
        ("slider_crank", slider_crank()),
        ("chain", chain()),
        ("chebyshev", chebyshev()),
        ("tether", tether()),
        ("stop", stop()),
        ("right_angle", held(HINGE, FRAC_PI_2)),
        ("rod", rod()),
        ("chain_199", chain_199()),
        ("bridge", long_bridge()),
        ("failing_bridge", failing_bridge()),
    ];
    for (name, card) in cards {
        let path = Path::new(&folder).join(format!("{name}.card"));
        fs::write(&path, card.encode()).unwrap_or_else(|e| {
            eprintln!("{}: {e}", path.display());
            process::exit(1);
        });
    }
}
