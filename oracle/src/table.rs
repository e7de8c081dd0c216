//! Document 01, 'One tick', 'Turned back' 13 and 'Examples': a state's size, start, tick, run, and the program's output.

use crate::card::{self, Card, BODY_NUMBERS, BROKEN, JOINT_NUMBERS};
use crate::math;
use crate::solver::{self, Inertia, Motion, Pose};
use std::io::{self, Write};

fn number(answer: Result<(), u32>) -> u32 {
    match answer {
        Ok(()) => 0,
        Err(refusal) => refusal,
    }
}

/// 0 where the card is accepted, else the number of the first refusal.
pub fn check(card: &[u8]) -> u32 {
    number(card::check(card).map(|_| ()))
}

/// Writes the start state.
pub fn start(card: &[u8], state: &mut [f32]) -> u32 {
    number(started(card, state))
}

/// One tick.
pub fn tick(card: &[u8], state: &mut [f32]) -> u32 {
    number(ticked(card, state))
}

/// What a card's state needs: 0 and the counts of bodies, joints and floats, or the card's refusal and zeros.
#[derive(Clone, Copy, Debug, Default, PartialEq)]
pub struct Sizes {
    pub number: u32,
    pub bodies: u32,
    pub joints: u32,
    pub numbers: u32,
}

pub fn sizes(card: &[u8]) -> Sizes {
    match card::check(card) {
        Ok(card) => Sizes {
            number: 0,
            bodies: card.bodies.len() as u32,
            joints: card.joints.len() as u32,
            numbers: card.state_length() as u32,
        },
        Err(number) => Sizes {
            number,
            ..Sizes::default()
        },
    }
}

/// What a run answers: 0 and its ticks, or the refusal and how many ticks were done before it.
#[derive(Clone, Copy, Debug, PartialEq)]
pub struct Ran {
    pub number: u32,
    pub done: u32,
}

/// Ticks in a row, all of them or none: a refusal in any leaves the state as it was.
pub fn run(card: &[u8], state: &mut [f32], ticks: u32) -> Ran {
    let card = match accepted(card, state) {
        Ok(card) => card,
        Err(number) => return Ran { number, done: 0 },
    };
    let mut next = state.to_vec();
    for done in 0..ticks {
        if let Err(number) = step(&card, &mut next) {
            return Ran { number, done };
        }
    }
    state.copy_from_slice(&next);
    Ran {
        number: 0,
        done: ticks,
    }
}

/// The card, where no check from 1 to 11 refuses it and the state.
fn accepted(card: &[u8], state: &[f32]) -> Result<Card, u32> {
    let card = card::check(card)?;
    card::check_state_length(&card, state)?;
    Ok(card)
}

fn started(card: &[u8], state: &mut [f32]) -> Result<(), u32> {
    let card = accepted(card, state)?;
    state.copy_from_slice(&start_state(&card));
    Ok(())
}

fn ticked(card: &[u8], state: &mut [f32]) -> Result<(), u32> {
    let card = accepted(card, state)?;
    step(&card, state)
}

pub fn start_state(card: &Card) -> Vec<f32> {
    let mut state = Vec::new();
    for body in &card.bodies {
        state.extend(body.position);
        state.extend(body.rotation);
        state.extend(body.linear_velocity);
        state.extend(body.angular_velocity);
    }
    state.resize(card.state_length(), 0.0);
    state
}

fn array<const N: usize>(numbers: &[f32]) -> [f32; N] {
    numbers.try_into().unwrap()
}

/// Refusal 13's look at a body, with the inverse inertia that the tick turned; an anchored body's is the dummy's.
fn body_finite(motion: &Motion, inertia: &Inertia) -> bool {
    motion_finite(motion) && card::finite(&inertia.inv_inertia)
}

fn motion_finite(motion: &Motion) -> bool {
    motion
        .linear_velocity
        .iter()
        .chain(&motion.angular_velocity)
        .chain(&motion.delta_position)
        .chain(&motion.delta_rotation)
        .all(|number| number.is_finite())
}

/// One tick of a card and a state that no check from 1 to 11 refuses.
pub fn step(card: &Card, state: &mut [f32]) -> Result<(), u32> {
    card::check_state_numbers(card, state)?;
    let dt = card.dt();
    let (body_numbers, joint_numbers) = state.split_at(BODY_NUMBERS * card.bodies.len());
    let broken: Vec<bool> = joint_numbers
        .chunks(JOINT_NUMBERS)
        .map(|numbers| numbers[BROKEN] == 1.0)
        .collect();

    let poses: Vec<Pose> = card
        .bodies
        .iter()
        .zip(body_numbers.chunks(BODY_NUMBERS))
        .map(|(body, numbers)| Pose {
            position: array(&numbers[..3]),
            rotation: array(&numbers[3..7]),
            center_of_mass: body.center_of_mass,
        })
        .collect();
    // An anchored body's entry is the dummy and stays so: each use of it is a copy.
    let mut motions: Vec<Motion> = card
        .bodies
        .iter()
        .zip(body_numbers.chunks(BODY_NUMBERS))
        .map(|(body, numbers)| match body.anchored {
            true => Motion::DUMMY,
            false => Motion {
                linear_velocity: array(&numbers[7..10]),
                angular_velocity: array(&numbers[10..13]),
                delta_position: [0.0; 3],
                delta_rotation: [0.0, 0.0, 0.0, 1.0],
            },
        })
        .collect();
    let turned: Vec<Inertia> = card
        .bodies
        .iter()
        .zip(&poses)
        .map(|(body, pose)| body.inertia(pose.rotation))
        .collect();
    let inertias: Vec<(Inertia, Inertia)> = card
        .joints
        .iter()
        .map(|joint| solver::choose(&turned[joint.body1 as usize], &turned[joint.body2 as usize]))
        .collect();

    let mut prepared: Vec<solver::Prepared> = card
        .joints
        .iter()
        .zip(joint_numbers.chunks(JOINT_NUMBERS))
        .map(|(joint, numbers)| {
            let warm = match joint.motor_total() {
                Some(place) => array::<3>(&numbers[3 * place..3 * place + 3]).map(|t| t / dt),
                None => [0.0; 3],
            };
            solver::prepare(
                &joint.solver_joint(),
                &poses[joint.body1 as usize],
                &poses[joint.body2 as usize],
                warm,
            )
        })
        .collect();

    for (i, joint) in card.joints.iter().enumerate() {
        if broken[i] {
            continue;
        }
        let (body1, body2) = (joint.body1 as usize, joint.body2 as usize);
        let (mut motion1, mut motion2) = (motions[body1], motions[body2]);
        let (inertia1, inertia2) = &inertias[i];
        solver::warm_start(
            &mut prepared[i],
            &mut motion1,
            &mut motion2,
            inertia1,
            inertia2,
            card.warm_coefficient,
        );
        keep(card, &mut motions, body1, motion1);
        keep(card, &mut motions, body2, motion2);
    }

    for (body, motion) in card.bodies.iter().zip(&mut motions) {
        if body.anchored {
            continue;
        }
        motion.linear_velocity[1] += card.gravity * dt;
        for (velocity, locked) in motion.linear_velocity.iter_mut().zip(body.locks) {
            if locked {
                *velocity = 0.0;
            }
        }
        motion.delta_position = math::scale(motion.linear_velocity, dt);
        motion.delta_rotation = math::from_scaled_axis(math::scale(motion.angular_velocity, dt));
    }
    let before_solve = motions.clone();

    for (i, joint) in card.joints.iter().enumerate() {
        if broken[i] {
            continue;
        }
        let (body1, body2) = (joint.body1 as usize, joint.body2 as usize);
        let (mut motion1, mut motion2) = (motions[body1], motions[body2]);
        let (inertia1, inertia2) = &inertias[i];
        solver::solve(
            &mut prepared[i],
            &mut motion1,
            &mut motion2,
            inertia1,
            inertia2,
            dt,
        );
        if !(prepared[i].is_finite()
            && body_finite(&motion1, &turned[body1])
            && body_finite(&motion2, &turned[body2]))
        {
            return Err(13);
        }
        keep(card, &mut motions, body1, motion1);
        keep(card, &mut motions, body2, motion2);
    }

    let mut next = Vec::with_capacity(state.len());
    for (i, body) in card.bodies.iter().enumerate() {
        if body.anchored {
            next.extend(&body_numbers[BODY_NUMBERS * i..BODY_NUMBERS * (i + 1)]);
            continue;
        }
        let mut motion = motions[i];
        solver::project(
            &mut motion,
            before_solve[i].delta_position,
            before_solve[i].delta_rotation,
            dt,
        );
        let pose = &poses[i];
        let product = math::product(motion.delta_rotation, pose.rotation);
        let length = math::rotation_length(product);
        let rotation = product.map(|number| number / length);
        let center = math::turn(pose.rotation, pose.center_of_mass);
        let moved = math::add(math::add(pose.position, center), motion.delta_position);
        let position = math::sub(moved, math::turn(rotation, pose.center_of_mass));
        if !card::position_in_range(&position) {
            return Err(13);
        }
        next.extend(position);
        next.extend(rotation);
        next.extend(motion.linear_velocity);
        next.extend(motion.angular_velocity);
    }
    for ((joint, prepared), broken) in card.joints.iter().zip(&prepared).zip(broken) {
        let totals = match broken {
            true => [[0.0; 3]; 4],
            false => prepared.totals(),
        };
        next.extend(totals.iter().flatten());
        let breaks = breaks(joint.breaking_load, totals[0], dt);
        next.push((broken || breaks) as u32 as f32);
    }
    if !next.iter().all(|number| number.is_finite()) {
        return Err(13);
    }
    state.copy_from_slice(&next);
    Ok(())
}

/// Document 02, point 11: whether a whole joint that ends a tick with this first total breaks.
pub fn breaks(load: f32, total: [f32; 3], dt: f32) -> bool {
    load != 0.0 && math::length(total) / (dt * dt) > load
}

fn keep(card: &Card, motions: &mut [Motion], body: usize, motion: Motion) {
    if !card.bodies[body].anchored {
        motions[body] = motion;
    }
}

/// The program: the tick count in two bytes, high one first, and then the card.
pub fn program(input: &[u8], output: &mut impl Write) -> io::Result<()> {
    match program_lines(input, output)? {
        0 => Ok(()),
        refusal => writeln!(output, "refused {refusal}"),
    }
}

fn program_lines(input: &[u8], output: &mut impl Write) -> io::Result<u32> {
    if input.len() < 2 {
        return Ok(1);
    }
    let ticks = u16::from_be_bytes([input[0], input[1]]);
    let card = match card::check(&input[2..]) {
        Ok(card) => card,
        Err(refusal) => return Ok(refusal),
    };
    let mut state = start_state(&card);
    for tick in 1..=ticks {
        if let Err(refusal) = step(&card, &mut state) {
            return Ok(refusal);
        }
        for (body, numbers) in state
            .chunks(BODY_NUMBERS)
            .take(card.bodies.len())
            .enumerate()
        {
            write!(output, "{tick} {body}")?;
            for number in &numbers[..7] {
                write!(output, " {:08x}", number.to_bits())?;
            }
            writeln!(output)?;
        }
    }
    Ok(0)
}

#[cfg(test)]
mod tests {
    use super::*;
    use crate::card::{Body, Joint};

    fn output(input: &[u8]) -> String {
        let mut output = Vec::new();
        program(input, &mut output).unwrap();
        String::from_utf8(output).unwrap()
    }

    fn of(ticks: u16, card: &Card) -> String {
        let mut input = ticks.to_be_bytes().to_vec();
        input.extend(card.encode());
        output(&input)
    }

    #[test]
    fn the_documents_line() {
        assert_eq!(
            of(1, &Card::example()),
            "1 0 3f800000 00000000 00000000 00000000 00000000 00000000 3f800000\n"
        );
        assert_eq!(of(0, &Card::example()), "");
    }

    #[test]
    fn the_count_goes_first() {
        assert_eq!(output(&[]), "refused 1\n");
        assert_eq!(output(&[0]), "refused 1\n");
        assert_eq!(output(&[0, 1]), "refused 1\n");
        assert_eq!(
            of(
                0,
                &Card {
                    edition: 4,
                    ..Card::example()
                }
            ),
            "refused 2\n"
        );
        assert_eq!(of(258, &Card::example()).lines().count(), 258);
    }

    #[test]
    fn a_refused_tick_prints_only_the_refusal() {
        // At 16 a tick of 1/16 moves 1: from 1,024 the 3,073rd passes 4,096.
        let mut card = Card::example();
        card.bodies[0].position[0] = 1024.0;
        let text = of(4000, &card);
        assert_eq!(text.lines().count(), 3073);
        assert!(text.ends_with("refused 13\n"));
        let mut state = start_state(&card);
        let bytes = card.encode();
        assert_eq!(run(&bytes, &mut state, 3072), ran(0, 3072));
        assert_eq!(state[0], 4096.0);
        let before = state.clone();
        assert_eq!(tick(&bytes, &mut state), 13);
        assert_eq!(state, before);
    }

    #[test]
    fn refusals_leave_the_state() {
        let card = Card::example();
        let bytes = card.encode();
        for refused in [&bytes[..105], &[], &bytes[1..]] {
            let mut state = vec![7.0; 13];
            assert_ne!(start(refused, &mut state), 0);
            assert_ne!(tick(refused, &mut state), 0);
            assert_eq!(run(refused, &mut state, 0), ran(check(refused), 0));
            assert_eq!(run(refused, &mut state, 3), ran(check(refused), 0));
            assert_eq!(state, [7.0; 13]);
        }
        let mut long = vec![7.0; 14];
        assert_eq!(start(&bytes, &mut long), 11);
        assert_eq!(tick(&bytes, &mut long), 11);
        assert_eq!(run(&bytes, &mut long, 0), ran(11, 0));
        assert_eq!(run(&bytes, &mut long, 3), ran(11, 0));
        assert_eq!(long, [7.0; 14]);
    }

    fn ran(number: u32, done: u32) -> Ran {
        Ran { number, done }
    }

    #[test]
    fn a_run_is_all_or_nothing() {
        // Its one body moves 64 in a tick: tick 1 ends at 4,064, tick 2 beyond 4,096.
        let card = Card::example();
        let bytes = card.encode();
        let mut state = start_state(&card);
        state[0] = 4000.0;
        state[7] = 1024.0;
        let before = state.clone();
        assert_eq!(run(&bytes, &mut state, 2), ran(13, 1));
        assert_eq!(state, before);
        assert_eq!(run(&bytes, &mut state, u32::MAX), ran(13, 1));
        assert_eq!(state, before);
        assert_eq!(run(&bytes, &mut state, 1), ran(0, 1));
        assert_eq!(state[0], 4064.0);
        assert_eq!(run(&bytes, &mut state, 1), ran(13, 0));
        assert_eq!(state[0], 4064.0);
    }

    #[test]
    fn a_run_of_no_ticks_looks_at_no_number() {
        let card = Card::example();
        let bytes = card.encode();
        let mut state = start_state(&card);
        state[12] = f32::INFINITY;
        state[0] = 5000.0;
        let before = state.clone();
        assert_eq!(run(&bytes, &mut state, 0), ran(0, 0));
        assert_eq!(run(&bytes, &mut state, 1), ran(12, 0));
        assert_eq!(state, before);
        assert_eq!(run(&bytes, &mut state[..12], 0), ran(11, 0));
        assert_eq!(state, before);
    }

    #[test]
    fn sizes_of_cards() {
        let mut card = Card::example();
        let of = |bodies, joints, numbers| Sizes {
            number: 0,
            bodies,
            joints,
            numbers,
        };
        assert_eq!(sizes(&card.encode()), of(1, 0, 13));
        card.bodies.push(Body::ANCHORED);
        card.joints = vec![Joint::plain(card::HINGE, 0, 1)];
        assert_eq!(sizes(&card.encode()), of(2, 1, 39));
        card.bodies = vec![Body::UNIT; 32];
        card.joints = vec![Joint::plain(card::HINGE, 0, 1); 32];
        assert_eq!(sizes(&card.encode()), of(32, 32, 832));
        card.joints[31].body2 = 0;
        let refused = Sizes {
            number: 10,
            ..of(0, 0, 0)
        };
        assert_eq!(sizes(&card.encode()), refused);
        assert_eq!(sizes(&[]).number, 1);
    }

    #[test]
    fn gravity_and_locks() {
        let mut card = Card::example();
        card.gravity = -16.0;
        card.bodies.push(Body {
            locks: [true, false, false],
            ..card.bodies[0].clone()
        });
        card.bodies.push(Body::ANCHORED);
        let mut state = start_state(&card);
        assert_eq!(step(&card, &mut state), Ok(()));
        assert_eq!(state[..3], [1.0, -0.0625, 0.0]);
        assert_eq!(state[7..10], [16.0, -1.0, 0.0]);
        assert_eq!(state[13..16], [0.0, -0.0625, 0.0]);
        assert_eq!(state[20..23], [0.0, -1.0, 0.0]);
        assert_eq!(state[26..39], start_state(&card)[26..39]);
    }

    #[test]
    fn inertia_along_the_bodys_own_axes() {
        // A rod along its own x, and a ball joint that pulls its end along z: it turns about y. Turned to lie along y, and pulled along x, it turns about z by the same.
        let mut card = Card::example();
        card.bodies = vec![Body::UNIT, Body::ANCHORED];
        card.bodies[0].inv_inertia = [1024.0, 0.0, 0.0, 1.0, 0.0, 2.0];
        card.joints = vec![Joint::plain(card::BALL, 0, 1)];
        let turned = |card: &Card| {
            let mut state = start_state(card);
            assert_eq!(step(card, &mut state), Ok(()));
            state[10..13].to_vec()
        };
        card.bodies[0].position = [-1.0, 0.0, 0.25];
        card.joints[0].anchor1 = [1.0, 0.0, 0.0];
        let along_x = turned(&card);
        assert!(along_x[1].abs() > 0.1 && along_x[0] == 0.0 && along_x[2] == 0.0);
        // A third of a turn about (1, 1, 1) takes x to y, y to z and z to x, exactly.
        card.bodies[0].rotation = [0.5; 4];
        card.bodies[0].position = [0.25, -1.0, 0.0];
        assert_eq!(turned(&card), [along_x[2], along_x[0], along_x[1]]);
    }

    #[test]
    fn an_inertia_that_overflows() {
        for kind in 0..5 {
            let mut card = Card::example();
            card.bodies = vec![Body::UNIT; 3];
            card.joints = vec![Joint::plain(kind, 0, 1)];
            let long = |card: &Card, bodies: &[usize]| {
                let mut state = start_state(card);
                for i in bodies {
                    state[BODY_NUMBERS * i + 3..BODY_NUMBERS * i + 7]
                        .copy_from_slice(&[0.0, 0.0, 5e9, 0.0]);
                }
                step(card, &mut state)
            };
            assert_eq!(long(&card, &[0, 1]), Err(13), "{kind}");
            assert_eq!(long(&card, &[2]), Ok(()), "{kind}");
            card.bodies[0].inv_inertia = [0.0, 0.0, 0.0, 0.0, 0.0, 1.0];
            assert_eq!(long(&card, &[0, 1]), Err(13), "{kind}");
            card.bodies[1] = Body::ANCHORED;
            assert_eq!(long(&card, &[0, 1]), Ok(()), "{kind}");
        }
    }

    #[test]
    fn a_pendulum_keeps_its_anchor() {
        for kind in 0..5 {
            let mut card = Card::example();
            card.rate = 64;
            card.gravity = -9.75;
            card.bodies = vec![Body::UNIT, Body::ANCHORED];
            card.bodies[0].position = [1.0, 0.0, 0.0];
            card.joints = vec![Joint::plain(kind, 0, 1)];
            if kind != card::TETHER {
                card.joints[0].anchor1 = [-1.0, 0.0, 0.0];
            } else {
                card.joints[0].limit1_range = [0.0, 1.0];
            }
            let mut state = start_state(&card);
            for _ in 0..300 {
                assert_eq!(step(&card, &mut state), Ok(()), "{kind}");
                assert_eq!(state[13..26], start_state(&card)[13..26]);
                let distance = (state[0] * state[0] + state[1] * state[1]).sqrt();
                if kind != card::SLIDE {
                    assert!(distance < 1.1, "{kind} {distance}");
                }
            }
        }
    }

    /// One product of dt with itself, one division, and above the load: the rate's square or two divisions would be a bit off here.
    #[test]
    fn a_push_is_divided_by_dt_squared() {
        let dt = 1.0 / 240.0;
        let total = [3.0 / 1024.0, 0.0, 0.0];
        let borne = f32::from_bits(0x4328bfff);
        assert_eq!(total[0] * (240.0 * 240.0), borne.next_up());
        assert_eq!(total[0] / dt / dt, borne.next_down());
        assert!(!breaks(borne, total, dt) && breaks(borne.next_down(), total, dt));
        let dt = 1.0 / 64.0;
        let total = [3.0 / 4096.0, 4.0 / 4096.0, 0.0];
        assert!(!breaks(5.0, total, dt) && breaks(5f32.next_down(), total, dt));
        // The squares overflow, and underflow.
        assert!(breaks(f32::MAX, [2f32.powi(80), 0.0, 0.0], dt));
        assert!(!breaks(f32::from_bits(1), [2f32.powi(-80), 0.0, 0.0], dt));
        assert!(!breaks(0.0, [1.0; 3], dt) && !breaks(-0.0, [1.0; 3], dt));
    }

    /// A body that hangs on a joint, whose first total is what holds it for a tick.
    #[test]
    fn a_joint_breaks_above_its_load() {
        let mut card = Card {
            edition: 3,
            rate: 64,
            gravity: -8.0,
            bodies: vec![Body::UNIT, Body::ANCHORED],
            joints: vec![Joint::plain(card::BALL, 0, 1)],
            ..Card::example()
        };
        let mut held = start_state(&card);
        assert_eq!(step(&card, &mut held), Ok(()));
        let total = array(&held[26..29]);
        let borne = math::length(total) / (card.dt() * card.dt());
        assert_eq!(borne, 8.0);
        for (load, broken) in [
            (0.0, 0.0),
            (-0.0, 0.0),
            (borne.next_down(), 1.0),
            (borne, 0.0),
            (borne.next_up(), 0.0),
        ] {
            card.joints[0].breaking_load = load;
            let mut state = start_state(&card);
            assert_eq!(step(&card, &mut state), Ok(()));
            assert_eq!((&state[..38], state[38]), (&held[..38], broken));
            assert_eq!(step(&card, &mut state), Ok(()));
            let falls = state[1] < -1e-3;
            assert_eq!((falls, state[38]), (broken == 1.0, broken));
            assert_eq!(state[26..38] == [0.0; 12], falls);
        }
    }
}
