//! Document 01's tick in lean Rust: a card decoded once, avian's functions on components that are kept over the ticks of a run, and nothing taken from the
//! heap. The benchmark times it beside the Rattle. `table` says what is right.

use crate::card::{self, finite, Card, BODY_NUMBERS, BROKEN, EDITION_2, JOINT_NUMBERS};
use crate::compare::{Table, ORACLE};
use crate::math;
use crate::solver::{for_any_joint, AnyJoint};
use crate::table::{self, Ran};
use avian::dynamics::solver::solver_body::{
    SolverBodies, SolverBody, SolverBodyIndex, SolverBodyInertia,
};
use avian::dynamics::solver::xpbd::joints::State;
use avian::dynamics::solver::xpbd::plugin::{project_angular_velocity, project_linear_velocity};
use avian::dynamics::solver::xpbd::{XpbdConstraint, XpbdConstraintSolverData};
use avian::physics_transform::{Position, PreSolveDeltaPosition, PreSolveDeltaRotation, Rotation};
use avian::rigid_body::{ComputedCenterOfMass, RigidBodyQueryReadOnly};
use bevy::prelude::{Entity, Query, Res, ResMut, Time};
use bevy::query::QueryData;
use bevy_math::Quat;
use std::cell::RefCell;

/// Check, sizes and start are the oracle's.
pub const LEAN: Table = Table {
    tick,
    run,
    ..ORACLE
};

/// The most bodies, and the most joints, of any edition.
const CAPACITY: usize = EDITION_2.most;

thread_local! {
    static LINKAGE: RefCell<Linkage> = RefCell::new(Linkage::new());
}

/// One tick.
pub fn tick(card: &[u8], state: &mut [f32]) -> u32 {
    run(card, state, 1).number
}

/// Ticks in a row, all of them or none. A thread's first call takes room for the largest card from the heap, and no other takes any.
pub fn run(card: &[u8], state: &mut [f32], ticks: u32) -> Ran {
    LINKAGE.with_borrow_mut(|linkage| linkage.run(card, state, ticks))
}

struct Linkage {
    card: Card,
    time: Time,
    bodies: Vec<Body>,
    /// One for each body, at its place; an anchored body's is not used.
    solver_bodies: SolverBodies,
    /// One for each body, turned at each tick's start.
    inertias: Vec<SolverBodyInertia>,
    joints: Vec<Joint>,
}

struct Body {
    anchored: bool,
    locks: [bool; 3],
    pose: RigidBodyQueryReadOnly,
    pre_solve_position: PreSolveDeltaPosition,
    pre_solve_rotation: PreSolveDeltaRotation,
}

struct Joint {
    bodies: [usize; 2],
    anchored: [bool; 2],
    component: AnyJoint,
    breaking_load: f32,
    broken: bool,
}

impl From<&card::Body> for Body {
    fn from(body: &card::Body) -> Body {
        Body {
            anchored: body.anchored,
            locks: body.locks,
            pose: RigidBodyQueryReadOnly {
                position: Position(body.position.into()),
                rotation: Rotation(body.rotation.into()),
                center_of_mass: ComputedCenterOfMass(body.center_of_mass.into()),
            },
            pre_solve_position: PreSolveDeltaPosition(SolverBody::DUMMY.delta_position),
            pre_solve_rotation: PreSolveDeltaRotation(SolverBody::DUMMY.delta_rotation),
        }
    }
}

impl Joint {
    fn new(joint: &card::Joint, bodies: &[Body]) -> Joint {
        let [body1, body2] = [joint.body1 as usize, joint.body2 as usize];
        Joint {
            bodies: [body1, body2],
            anchored: [bodies[body1].anchored, bodies[body2].anchored],
            component: (&joint.solver_joint()).into(),
            breaking_load: joint.breaking_load,
            broken: false,
        }
    }
}

// ------------------------------------------------------------------------------------------------------------------------ card and state

impl Linkage {
    fn new() -> Linkage {
        let mut solver_bodies = SolverBodies::new();
        for _ in 0..CAPACITY {
            solver_bodies.push(BODY, SolverBody::DUMMY, SolverBodyInertia::DUMMY);
        }
        Linkage {
            card: Card {
                bodies: Vec::with_capacity(CAPACITY),
                joints: Vec::with_capacity(CAPACITY),
                ..Card::default()
            },
            time: Time { delta_secs: 0.0 },
            bodies: Vec::with_capacity(CAPACITY),
            solver_bodies,
            inertias: Vec::with_capacity(CAPACITY),
            joints: Vec::with_capacity(CAPACITY),
        }
    }

    fn run(&mut self, card: &[u8], state: &mut [f32], ticks: u32) -> Ran {
        if let Err(number) = self.accept(card, state, ticks) {
            return Ran { number, done: 0 };
        }
        for done in 0..ticks {
            if self.tick().is_none() {
                return Ran { number: 13, done };
            }
        }
        if ticks > 0 {
            self.store_bodies(state);
            self.store_joints(state);
        }
        Ran {
            number: 0,
            done: ticks,
        }
    }

    /// Takes a card and a state, or gives the first refusal of 1 to 12 and 21. For no ticks it does not look at the state's numbers.
    fn accept(&mut self, card: &[u8], state: &[f32], ticks: u32) -> Result<(), u32> {
        card::check_into(&mut self.card, card)?;
        card::check_state_length(&self.card, state)?;
        if ticks > 0 {
            card::check_state_numbers(&self.card, state)?;
            self.make_components();
            self.load_bodies(state);
            self.load_joints(state);
        }
        Ok(())
    }

    fn make_components(&mut self) {
        let card = &self.card;
        self.time.delta_secs = card.dt();
        self.bodies.clear();
        self.bodies.extend(card.bodies.iter().map(Body::from));
        self.inertias.clear();
        self.inertias
            .resize(card.bodies.len(), SolverBodyInertia::DUMMY);
        let joint = |joint| Joint::new(joint, &self.bodies);
        self.joints.clear();
        self.joints.extend(card.joints.iter().map(joint));
    }

    fn load_bodies(&mut self, state: &[f32]) {
        let solver_bodies = self.solver_bodies.bodies_mut();
        for ((body, solver_body), numbers) in self
            .bodies
            .iter_mut()
            .zip(solver_bodies)
            .zip(state.chunks_exact(BODY_NUMBERS))
        {
            body.pose.position.0 = array(&numbers[..3]).into();
            body.pose.rotation.0 = array(&numbers[3..7]).into();
            solver_body.linear_velocity = array(&numbers[7..10]).into();
            solver_body.angular_velocity = array(&numbers[10..13]).into();
        }
    }

    /// No total is read but a motor's.
    fn load_joints(&mut self, state: &[f32]) {
        let joints = state[BODY_NUMBERS * self.bodies.len()..].chunks_exact(JOINT_NUMBERS);
        for ((joint, of), numbers) in self.joints.iter_mut().zip(&self.card.joints).zip(joints) {
            joint.broken = numbers[BROKEN] == 1.0;
            if let Some(place) = of.motor_total() {
                let total = array(&numbers[3 * place..3 * place + 3]);
                for_any_joint!(&mut joint.component, s => s.data.set_motor_total(total));
            }
        }
    }

    fn store_bodies(&self, state: &mut [f32]) {
        for ((body, solver_body), numbers) in self
            .bodies
            .iter()
            .zip(self.solver_bodies.bodies())
            .zip(state.chunks_exact_mut(BODY_NUMBERS))
        {
            if body.anchored {
                continue;
            }
            numbers[..3].copy_from_slice(&body.pose.position.0.to_array());
            numbers[3..7].copy_from_slice(&body.pose.rotation.0.to_array());
            numbers[7..10].copy_from_slice(&solver_body.linear_velocity.to_array());
            numbers[10..13].copy_from_slice(&solver_body.angular_velocity.to_array());
        }
    }

    fn store_joints(&self, state: &mut [f32]) {
        let joints = state[BODY_NUMBERS * self.bodies.len()..].chunks_exact_mut(JOINT_NUMBERS);
        for (joint, numbers) in self.joints.iter().zip(joints) {
            let totals = for_any_joint!(&joint.component, s => s.data.totals());
            numbers[..BROKEN].copy_from_slice(totals.as_flattened());
            numbers[BROKEN] = joint.broken as u32 as f32;
        }
    }
}

fn array<const N: usize>(numbers: &[f32]) -> [f32; N] {
    numbers.try_into().unwrap()
}

// -------------------------------------------------------------------------------------------------------------------------------- a tick

impl Linkage {
    /// One tick, or none where 13 stops it; what is kept then has no meaning.
    fn tick(&mut self) -> Option<()> {
        self.clear_deltas();
        self.turn_inertias();
        self.prepare();
        self.warm_start();
        self.integrate();
        self.solve()?;
        self.finish()?;
        self.break_joints();
        Some(())
    }

    fn clear_deltas(&mut self) {
        let solver_bodies = self.solver_bodies.bodies_mut();
        for solver_body in &mut solver_bodies[..self.bodies.len()] {
            solver_body.delta_position = SolverBody::DUMMY.delta_position;
            solver_body.delta_rotation = SolverBody::DUMMY.delta_rotation;
        }
    }

    fn turn_inertias(&mut self) {
        let bodies = self.card.bodies.iter().zip(&self.bodies);
        for ((of, body), inertia) in bodies.zip(&mut self.inertias) {
            if !body.anchored {
                *inertia = (&of.inertia(body.pose.rotation.0.to_array())).into();
            }
        }
    }

    /// avian's `prepare_xpbd_joint`, from the warm value.
    fn prepare(&mut self) {
        let dt = self.time.delta_secs();
        for joint in &mut self.joints {
            if joint.broken {
                for_any_joint!(&mut joint.component, s => {
                    s.data.clear_lagrange_multipliers();
                    s.data.set_motor_total([0.0; 3]);
                });
                continue;
            }
            let [body1, body2] = joint.bodies.map(|i| self.bodies[i].pose.read());
            for_any_joint!(&mut joint.component, s => {
                s.data.set_motor_total(s.data.motor_total().map(|total| total / dt));
                s.data.clear_lagrange_multipliers();
                s.joint.prepare([&body1, &body2], &mut s.data);
            });
        }
    }

    fn warm_start(&mut self) {
        let dt = self.time.delta_secs();
        let coefficient = self.card.warm_coefficient;
        let solver_bodies = self.solver_bodies.bodies_mut();
        for joint in self.joints.iter_mut().filter(|joint| !joint.broken) {
            let mut dummy = SolverBody::DUMMY;
            let bodies = two_of(solver_bodies, joint.bodies, joint.anchored, &mut dummy);
            let inertias = joint.bodies.map(|i| &self.inertias[i]);
            for_any_joint!(
                &mut joint.component,
                s => s.joint.warm_start_motors(bodies, inertias, &mut s.data, dt, coefficient)
            );
        }
    }

    fn integrate(&mut self) {
        let dt = self.time.delta_secs();
        let gravity = self.card.gravity * dt;
        let solver_bodies = self.solver_bodies.bodies_mut();
        for (body, solver_body) in self.bodies.iter_mut().zip(solver_bodies) {
            if body.anchored {
                continue;
            }
            let mut velocity = solver_body.linear_velocity.to_array();
            velocity[1] += gravity;
            for (velocity, locked) in velocity.iter_mut().zip(body.locks) {
                if locked {
                    *velocity = 0.0;
                }
            }
            solver_body.linear_velocity = velocity.into();
            solver_body.delta_position = solver_body.linear_velocity * dt;
            solver_body.delta_rotation = Quat::from_scaled_axis(solver_body.angular_velocity * dt);
            body.pre_solve_position.0 = solver_body.delta_position;
            body.pre_solve_rotation.0 = solver_body.delta_rotation;
        }
    }

    fn solve(&mut self) -> Option<()> {
        let dt = self.time.delta_secs();
        let solver_bodies = self.solver_bodies.bodies_mut();
        for joint in self.joints.iter_mut().filter(|joint| !joint.broken) {
            let mut dummy = SolverBody::DUMMY;
            let [body1, body2] = two_of(solver_bodies, joint.bodies, joint.anchored, &mut dummy);
            let inertias = joint.bodies.map(|i| &self.inertias[i]);
            let joint_finite = for_any_joint!(&mut joint.component, s => {
                s.joint.solve([body1, body2], inertias, &mut s.data, dt);
                let mut all = finite(s.data.totals().as_flattened());
                s.data.for_each_number(|number| all &= number.is_finite());
                all
            });
            let all = joint_finite && body_finite(body1) && body_finite(body2);
            if !(all && inertias.into_iter().all(inertia_finite)) {
                return None;
            }
        }
        Some(())
    }

    fn finish(&mut self) -> Option<()> {
        for (i, body) in self.bodies.iter_mut().enumerate() {
            if body.anchored {
                continue;
            }
            project(&mut self.solver_bodies, i, body, &self.time);
            let solver_body = &self.solver_bodies.bodies()[i];
            move_body(&mut body.pose, solver_body);
            let in_range = card::position_in_range(&body.pose.position.0.to_array())
                && finite(&body.pose.rotation.0.to_array())
                && velocities_finite(solver_body);
            if !in_range {
                return None;
            }
        }
        Some(())
    }

    fn break_joints(&mut self) {
        let dt = self.time.delta_secs();
        for joint in self
            .joints
            .iter_mut()
            .filter(|joint| joint.breaking_load != 0.0)
        {
            let totals = for_any_joint!(&joint.component, s => s.data.totals());
            joint.broken |= table::breaks(joint.breaking_load, totals[0], dt);
        }
    }
}

/// A joint's two bodies. An anchored one is the dummy; no joint has two.
fn two_of<'a>(
    solver_bodies: &'a mut [SolverBody],
    bodies: [usize; 2],
    anchored: [bool; 2],
    dummy: &'a mut SolverBody,
) -> [&'a mut SolverBody; 2] {
    let [body1, body2] = solver_bodies
        .get_disjoint_mut(bodies)
        .expect("a joint names two bodies");
    match anchored {
        [true, _] => [dummy, body2],
        [_, true] => [body1, dummy],
        _ => [body1, body2],
    }
}

fn velocities_finite(body: &SolverBody) -> bool {
    finite(&body.linear_velocity.to_array()) && finite(&body.angular_velocity.to_array())
}

fn body_finite(body: &SolverBody) -> bool {
    velocities_finite(body)
        && finite(&body.delta_position.to_array())
        && finite(&body.delta_rotation.to_array())
}

fn inertia_finite(inertia: &SolverBodyInertia) -> bool {
    finite(&<[f32; 6]>::from(inertia.effective_inv_angular_inertia()))
}

const BODY: Entity = Entity(0);

/// avian's two projections, linear and then angular.
fn project(solver_bodies: &mut SolverBodies, i: usize, body: &Body, time: &Time) {
    let index = SolverBodyIndex(i as u32);
    project_linear_velocity(
        ResMut::new(solver_bodies),
        Query::of_one(BODY, (&index, &body.pre_solve_position)),
        Res::new(time),
    );
    project_angular_velocity(
        ResMut::new(solver_bodies),
        Query::of_one(BODY, (&index, &body.pre_solve_rotation)),
        Res::new(time),
    );
}

fn move_body(pose: &mut RigidBodyQueryReadOnly, solver_body: &SolverBody) {
    let center = pose.center_of_mass.0;
    let product = (solver_body.delta_rotation * pose.rotation.0).to_array();
    let length = math::rotation_length(product);
    let rotation = Quat::from(product.map(|number| number / length));
    let moved = pose.position.0 + pose.rotation.0 * center + solver_body.delta_position;
    pose.position.0 = moved - rotation * center;
    pose.rotation.0 = rotation;
}

#[cfg(test)]
mod tests {
    use super::*;
    use crate::compare::tables::Tables;
    use crate::compare::Hits;

    /// Each kind, limits, motors, and the refusals of card, state and tick: none may be missed.
    #[test]
    fn it_equals_the_oracle() {
        let tables = Tables {
            oracle: ORACLE,
            rattle: LEAN,
        };
        let mut hits = Hits::default();
        tables.runs(2, 2000, &mut hits).unwrap();
        assert_eq!(hits.missed(), [""; 0], "{}", hits.lines());
        let mut hits = Hits::default();
        tables.states(2, 4000, &mut hits).unwrap();
        assert_eq!(hits.missed(), [""; 0], "{}", hits.lines());
    }
}
