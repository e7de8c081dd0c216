//! One joint between two bodies: avian's `prepare`, `warm_start_motors`, `solve`, dominance choice and projections over plain arrays.

use core::cell::RefCell;

use avian::dynamics::joints::{
    AngleLimit, AngularMotor, DistanceJoint, DistanceLimit, EntityConstraint, FixedJoint,
    JointAnchor, LinearMotor, MotorModel, PrismaticJoint, RevoluteJoint, SphericalJoint,
};
use avian::dynamics::solver::solver_body::{
    InertiaFlags, SolverBodies, SolverBody, SolverBodyFlags, SolverBodyInertia,
};
use avian::dynamics::solver::xpbd::joints::State;
use avian::dynamics::solver::xpbd::plugin::{project_angular_velocity, project_linear_velocity};
use avian::dynamics::solver::xpbd::{
    prepare_xpbd_joint, solve_xpbd_joint, XpbdConstraint, XpbdConstraintSolverData,
};
use avian::physics_transform::{Position, PreSolveDeltaPosition, PreSolveDeltaRotation, Rotation};
use avian::rigid_body::{
    ComputedCenterOfMass, LockedAxes, RigidBodyQueryReadOnly, RigidBodyQueryReadOnlyItem,
};
use bevy::ecs::entity::{EntityMapper, MapEntities};
use bevy::prelude::{Entity, Query, Res, ResMut, Time};

use crate::parts::with_bodies;

#[derive(Clone, Copy, Debug)]
pub struct Pose {
    pub position: [f32; 3],
    /// x, y, z, w.
    pub rotation: [f32; 4],
    pub center_of_mass: [f32; 3],
}

#[derive(Clone, Copy, Debug)]
pub struct Motion {
    pub linear_velocity: [f32; 3],
    pub angular_velocity: [f32; 3],
    pub delta_position: [f32; 3],
    pub delta_rotation: [f32; 4],
}

impl Motion {
    /// avian's `SolverBody::DUMMY`.
    pub const DUMMY: Motion = Motion {
        linear_velocity: [0.0; 3],
        angular_velocity: [0.0; 3],
        delta_position: [0.0; 3],
        delta_rotation: [0.0, 0.0, 0.0, 1.0],
    };
}

#[derive(Clone, Copy, Debug)]
pub struct Inertia {
    pub inv_mass: f32,
    /// xx, xy, xz, yy, yz, zz.
    pub inv_inertia: [f32; 6],
    /// -128 to 127, and 128 of a body that never moves.
    pub dominance: i16,
    /// Translation along x, y, z.
    pub locks: [bool; 3],
}

impl Inertia {
    /// avian's `SolverBodyInertia::DUMMY`.
    pub fn dummy() -> Inertia {
        (&SolverBodyInertia::DUMMY).into()
    }
}

#[derive(Clone, Copy, Debug)]
pub enum Model {
    SpringDamper { frequency: f32, damping_ratio: f32 },
    AccelerationBased { stiffness: f32, damping: f32 },
    ForceBased { stiffness: f32, damping: f32 },
}

#[derive(Clone, Copy, Debug)]
pub struct Motor {
    pub target_velocity: f32,
    pub target_position: f32,
    pub cap: f32,
    pub model: Model,
}

#[derive(Clone, Copy, Debug)]
pub enum Kind {
    Fixed,
    Hinge,
    Slide,
    Ball,
    Tether,
}

#[derive(Clone, Copy, Debug)]
pub struct Joint {
    pub kind: Kind,
    pub anchor1: [f32; 3],
    pub anchor2: [f32; 3],
    pub basis1: [f32; 4],
    pub basis2: [f32; 4],
    pub axis: [f32; 3],
    /// In document 01's order for the kind.
    pub compliances: [f32; 4],
    pub limit1: Option<[f32; 2]>,
    pub limit2: Option<[f32; 2]>,
    pub motor: Option<Motor>,
}

impl From<&Motion> for SolverBody {
    #[inline]
    fn from(motion: &Motion) -> SolverBody {
        SolverBody {
            linear_velocity: motion.linear_velocity.into(),
            angular_velocity: motion.angular_velocity.into(),
            delta_position: motion.delta_position.into(),
            delta_rotation: motion.delta_rotation.into(),
            flags: SolverBodyFlags::empty(),
        }
    }
}

impl From<&SolverBody> for Motion {
    #[inline]
    fn from(body: &SolverBody) -> Motion {
        Motion {
            linear_velocity: body.linear_velocity.into(),
            angular_velocity: body.angular_velocity.into(),
            delta_position: body.delta_position.into(),
            delta_rotation: body.delta_rotation.into(),
        }
    }
}

impl From<&Inertia> for SolverBodyInertia {
    #[inline]
    fn from(inertia: &Inertia) -> SolverBodyInertia {
        let [x, y, z] = inertia.locks.map(u8::from);
        let dominance = i8::try_from(inertia.dominance);
        SolverBodyInertia::new(
            inertia.inv_mass,
            inertia.inv_inertia.into(),
            LockedAxes::from_bits(x << 5 | y << 4 | z << 3),
            dominance.unwrap_or_default(),
            dominance.is_ok(),
        )
    }
}

impl From<&SolverBodyInertia> for Inertia {
    #[inline]
    fn from(inertia: &SolverBodyInertia) -> Inertia {
        let flags = inertia.flags();
        Inertia {
            inv_mass: inertia.inv_mass(),
            inv_inertia: inertia.effective_inv_angular_inertia().into(),
            dominance: inertia.dominance(),
            locks: [
                InertiaFlags::TRANSLATION_X_LOCKED,
                InertiaFlags::TRANSLATION_Y_LOCKED,
                InertiaFlags::TRANSLATION_Z_LOCKED,
            ]
            .map(|lock| flags.contains(lock)),
        }
    }
}

impl From<&Pose> for RigidBodyQueryReadOnly {
    #[inline]
    fn from(pose: &Pose) -> RigidBodyQueryReadOnly {
        RigidBodyQueryReadOnly {
            position: Position(pose.position.into()),
            rotation: Rotation(pose.rotation.into()),
            center_of_mass: ComputedCenterOfMass(pose.center_of_mass.into()),
        }
    }
}

impl From<Model> for MotorModel {
    fn from(model: Model) -> MotorModel {
        match model {
            Model::SpringDamper {
                frequency,
                damping_ratio,
            } => MotorModel::SpringDamper {
                frequency,
                damping_ratio,
            },
            Model::AccelerationBased { stiffness, damping } => {
                MotorModel::AccelerationBased { stiffness, damping }
            }
            Model::ForceBased { stiffness, damping } => {
                MotorModel::ForceBased { stiffness, damping }
            }
        }
    }
}

impl From<Motor> for AngularMotor {
    fn from(motor: Motor) -> AngularMotor {
        AngularMotor::new(motor.model.into())
            .with_target_velocity(motor.target_velocity)
            .with_target_position(motor.target_position)
            .with_max_torque(motor.cap)
    }
}

impl From<Motor> for LinearMotor {
    fn from(motor: Motor) -> LinearMotor {
        LinearMotor::new(motor.model.into())
            .with_target_velocity(motor.target_velocity)
            .with_target_position(motor.target_position)
            .with_max_force(motor.cap)
    }
}

const BODY1: Entity = Entity(0);
const BODY2: Entity = Entity(1);
const JOINT: Entity = Entity(2);

/// avian's component of a joint with its solver data.
pub(crate) struct Solved<C: XpbdConstraint<2>> {
    pub(crate) joint: C,
    pub(crate) data: C::SolverData,
}

impl<C> Solved<C>
where
    C: XpbdConstraint<2> + EntityConstraint<2>,
    C::SolverData: State,
{
    fn new(joint: C) -> Self {
        Self {
            joint,
            data: Default::default(),
        }
    }

    fn prepare(&mut self, body1: &Pose, body2: &Pose, warm: [f32; 3]) {
        self.data.set_motor_total(warm);
        prepare_xpbd_joint::<C>(
            Query::of_two((BODY1, body1.into()), (BODY2, body2.into())),
            Query::of_one(JOINT, (&mut self.joint, &mut self.data)),
        );
    }
}

pub(crate) enum AnyJoint {
    Fixed(Solved<FixedJoint>),
    Hinge(Solved<RevoluteJoint>),
    Slide(Solved<PrismaticJoint>),
    Ball(Solved<SphericalJoint>),
    Tether(Solved<DistanceJoint>),
}

macro_rules! for_any_joint {
    ($any:expr, $solved:ident => $body:expr) => {
        match $any {
            AnyJoint::Fixed($solved) => $body,
            AnyJoint::Hinge($solved) => $body,
            AnyJoint::Slide($solved) => $body,
            AnyJoint::Ball($solved) => $body,
            AnyJoint::Tether($solved) => $body,
        }
    };
}
pub(crate) use for_any_joint;

impl From<&Joint> for AnyJoint {
    fn from(joint: &Joint) -> AnyJoint {
        let (anchor1, anchor2) = (joint.anchor1.into(), joint.anchor2.into());
        let [first, second, third, _] = joint.compliances;
        macro_rules! framed {
            ($Joint:ident) => {
                $Joint::new(BODY1, BODY2)
                    .with_local_anchor1(anchor1)
                    .with_local_anchor2(anchor2)
                    .with_local_basis1(joint.basis1)
                    .with_local_basis2(joint.basis2)
            };
        }
        let angle_limit = |limit: [f32; 2]| AngleLimit::from(limit);
        match joint.kind {
            Kind::Fixed => {
                let fixed = framed!(FixedJoint)
                    .with_point_compliance(first)
                    .with_angle_compliance(second);
                AnyJoint::Fixed(Solved::new(fixed))
            }
            Kind::Hinge => {
                let mut hinge = framed!(RevoluteJoint)
                    .with_hinge_axis(joint.axis.into())
                    .with_point_compliance(first)
                    .with_align_compliance(second)
                    .with_limit_compliance(third);
                hinge.angle_limit = joint.limit1.map(angle_limit);
                if let Some(motor) = joint.motor {
                    hinge.motor = motor.into();
                }
                AnyJoint::Hinge(Solved::new(hinge))
            }
            Kind::Slide => {
                let mut slide = framed!(PrismaticJoint)
                    .with_slider_axis(joint.axis.into())
                    .with_angle_compliance(first)
                    .with_align_compliance(second);
                slide.limits = joint.limit1.map(DistanceLimit::from);
                if let Some(motor) = joint.motor {
                    slide.motor = motor.into();
                }
                AnyJoint::Slide(Solved::new(slide))
            }
            Kind::Ball => {
                let mut ball = framed!(SphericalJoint)
                    .with_twist_axis(joint.axis.into())
                    .with_point_compliance(first)
                    .with_swing_compliance(second)
                    .with_twist_compliance(third);
                ball.swing_limit = joint.limit1.map(angle_limit);
                ball.twist_limit = joint.limit2.map(angle_limit);
                AnyJoint::Ball(Solved::new(ball))
            }
            Kind::Tether => AnyJoint::Tether(Solved::new(DistanceJoint {
                body1: BODY1,
                body2: BODY2,
                anchor1: JointAnchor::Local(anchor1),
                anchor2: JointAnchor::Local(anchor2),
                limits: joint.limit1.expect("a tether has its first limit").into(),
                compliance: first,
            })),
        }
    }
}

/// avian's joint component and its solver data.
pub struct Prepared(AnyJoint);

/// avian's `prepare`. `warm` is the motor's warm value; a slide's is in x.
pub fn prepare(joint: &Joint, body1: &Pose, body2: &Pose, warm: [f32; 3]) -> Prepared {
    let mut any = AnyJoint::from(joint);
    for_any_joint!(&mut any, s => s.prepare(body1, body2, warm));
    Prepared(any)
}

/// avian's `warm_start_motors`.
pub fn warm_start(
    p: &mut Prepared,
    b1: &mut Motion,
    b2: &mut Motion,
    i1: &Inertia,
    i2: &Inertia,
    coefficient: f32,
) {
    let inertias = [&i1.into(), &i2.into()];
    // No joint reads the time step here.
    let dt = f32::NAN;
    with_bodies(
        b1,
        b2,
        |b1, b2| for_any_joint!(&mut p.0, s => s.joint.warm_start_motors([b1, b2], inertias, &mut s.data, dt, coefficient)),
    );
}

/// avian's `solve`.
pub fn solve(
    p: &mut Prepared,
    b1: &mut Motion,
    b2: &mut Motion,
    i1: &Inertia,
    i2: &Inertia,
    dt: f32,
) {
    let inertias = [&i1.into(), &i2.into()];
    with_bodies(
        b1,
        b2,
        |b1, b2| for_any_joint!(&mut p.0, s => s.joint.solve([b1, b2], inertias, &mut s.data, dt)),
    );
}

impl Prepared {
    /// Document 01's four places, unused ones +0.0.
    pub fn totals(&self) -> [[f32; 3]; 4] {
        for_any_joint!(&self.0, s => s.data.totals())
    }

    /// The prepared numbers but the totals and the warm value.
    pub fn numbers(&self) -> Vec<f32> {
        let mut numbers = Vec::new();
        for_any_joint!(&self.0, s => s.data.for_each_number(|number| numbers.push(number)));
        numbers
    }

    /// Whether every prepared number and total is finite.
    pub fn is_finite(&self) -> bool {
        let mut finite = self
            .totals()
            .as_flattened()
            .iter()
            .all(|total| total.is_finite());
        for_any_joint!(&self.0, s => s.data.for_each_number(|number| finite &= number.is_finite()));
        finite
    }
}

/// A joint whose solve records the inertias that it is given.
struct Recorder;

#[derive(Default)]
struct Recorded(Option<(Inertia, Inertia)>);

impl XpbdConstraintSolverData for Recorded {}

impl MapEntities for Recorder {
    fn map_entities<M: EntityMapper>(&mut self, _: &mut M) {}
}

impl EntityConstraint<2> for Recorder {
    fn entities(&self) -> [Entity; 2] {
        [BODY1, BODY2]
    }
}

impl XpbdConstraint<2> for Recorder {
    type SolverData = Recorded;

    fn prepare(&mut self, _: [&RigidBodyQueryReadOnlyItem; 2], _: &mut Recorded) {}

    fn solve(
        &mut self,
        _: [&mut SolverBody; 2],
        inertias: [&SolverBodyInertia; 2],
        recorded: &mut Recorded,
        _: f32,
    ) {
        recorded.0 = Some((inertias[0].into(), inertias[1].into()));
    }
}

thread_local! {
    static SOLVER_BODIES: RefCell<SolverBodies> = const { RefCell::new(SolverBodies::new()) };
}

/// The dominance choice of avian's `solve_xpbd_joint`.
pub fn choose(inertia1: &Inertia, inertia2: &Inertia) -> (Inertia, Inertia) {
    let mut recorded = Recorded::default();
    SOLVER_BODIES.with_borrow_mut(|solver_bodies| {
        solver_bodies.clear();
        let index1 = solver_bodies.push(BODY1, SolverBody::DUMMY, inertia1.into());
        let index2 = solver_bodies.push(BODY2, SolverBody::DUMMY, inertia2.into());
        solve_xpbd_joint::<Recorder>(
            ResMut::new(solver_bodies),
            Query::of_two((BODY1, &index1), (BODY2, &index2)),
            Query::of_one(JOINT, (&mut Recorder, &mut recorded)),
            Res::new(&Time { delta_secs: 0.0 }),
        );
    });
    recorded.0.expect("the joint is solved")
}

/// avian's two projections, linear and then angular.
pub fn project(
    b: &mut Motion,
    pre_delta_position: [f32; 3],
    pre_delta_rotation: [f32; 4],
    dt: f32,
) {
    let time = Time { delta_secs: dt };
    SOLVER_BODIES.with_borrow_mut(|solver_bodies| {
        solver_bodies.clear();
        let index = solver_bodies.push(BODY1, (&*b).into(), SolverBodyInertia::DUMMY);
        project_linear_velocity(
            ResMut::new(solver_bodies),
            Query::of_one(
                BODY1,
                (&index, &PreSolveDeltaPosition(pre_delta_position.into())),
            ),
            Res::new(&time),
        );
        project_angular_velocity(
            ResMut::new(solver_bodies),
            Query::of_one(
                BODY1,
                (&index, &PreSolveDeltaRotation(pre_delta_rotation.into())),
            ),
            Res::new(&time),
        );
        *b = (&solver_bodies.bodies()[0]).into();
    });
}

#[cfg(test)]
mod tests {
    use super::*;
    use crate::math::from_scaled_axis;
    use crate::parts;
    use avian::dynamics::solver::solver_body::SolverBodyIndex;
    use avian::dynamics::solver::xpbd::warm_start_xpbd_motors;
    use avian::dynamics::solver::SolverConfig;

    const DT: f32 = 1.0 / 16.0;
    const IDENTITY: [f32; 4] = [0.0, 0.0, 0.0, 1.0];

    fn at(x: f32) -> Pose {
        Pose {
            position: [x, 0.0, 0.0],
            rotation: IDENTITY,
            center_of_mass: [0.0; 3],
        }
    }

    fn inertia(dominance: i16) -> Inertia {
        Inertia {
            inv_mass: 1.0,
            inv_inertia: [1.0, 0.0, 0.0, 1.0, 0.0, 1.0],
            dominance,
            locks: [false; 3],
        }
    }

    fn joint(kind: Kind) -> Joint {
        Joint {
            kind,
            anchor1: [0.0; 3],
            anchor2: [0.0; 3],
            basis1: IDENTITY,
            basis2: IDENTITY,
            axis: [1.0, 0.0, 0.0],
            compliances: [0.0; 4],
            limit1: None,
            limit2: None,
            motor: None,
        }
    }

    fn motor(model: Model) -> Motor {
        Motor {
            target_velocity: 3.0,
            target_position: 1.0,
            cap: 0.0,
            model,
        }
    }

    #[test]
    fn dummies() {
        let motion = Motion::from(&SolverBody::DUMMY);
        assert_eq!(motion.delta_rotation, Motion::DUMMY.delta_rotation);
        assert_eq!(motion.delta_position, Motion::DUMMY.delta_position);
        assert_eq!(motion.linear_velocity, Motion::DUMMY.linear_velocity);
        assert_eq!(motion.angular_velocity, Motion::DUMMY.angular_velocity);
        let dummy = Inertia::dummy();
        assert_eq!(
            (dummy.inv_mass, dummy.inv_inertia, dummy.dominance),
            (0.0, [0.0; 6], 128)
        );
    }

    #[test]
    fn the_dominant_body_is_the_dummy() {
        let masses = |a: i16, b: i16| {
            let (a, b) = choose(&inertia(a), &inertia(b));
            (a.inv_mass, b.inv_mass)
        };
        assert_eq!(masses(0, 0), (1.0, 1.0));
        assert_eq!(masses(1, 0), (0.0, 1.0));
        assert_eq!(masses(-128, 127), (1.0, 0.0));
        let (a, b) = choose(&Inertia::dummy(), &inertia(127));
        assert_eq!(
            (a.dominance, a.inv_mass, b.dominance, b.inv_mass),
            (128, 0.0, 127, 1.0)
        );
    }

    #[test]
    fn projection_adds_what_the_solve_moved() {
        let mut b = Motion {
            linear_velocity: [1.0, 0.0, 0.0],
            delta_position: [0.5, 0.0, 0.0],
            ..Motion::DUMMY
        };
        b.delta_rotation = [0.25, 0.0, 0.0, -1.0];
        project(&mut b, [0.25, 0.0, 0.0], IDENTITY, DT);
        assert_eq!(b.linear_velocity, [5.0, 0.0, 0.0]);
        // 2·0.25·16, and negated because w is below zero.
        assert_eq!(b.angular_velocity, [-8.0, 0.0, 0.0]);
    }

    /// A slide's motor has the hinge's text in its own solve: with no arms, both are entered with these errors.
    #[test]
    fn both_motors_have_one_rule() {
        let models = [
            Model::SpringDamper {
                frequency: 1.5,
                damping_ratio: 0.7,
            },
            Model::AccelerationBased {
                stiffness: 5.0,
                damping: 0.3,
            },
            Model::ForceBased {
                stiffness: 5.0,
                damping: 0.3,
            },
        ];
        for model in models {
            for cap in [0.0, 0.25, f32::MAX] {
                let motor = Motor {
                    cap,
                    ..motor(model)
                };
                let slide = Joint {
                    motor: Some(motor),
                    ..joint(Kind::Slide)
                };
                let mut p = prepare(&slide, &at(0.0), &at(0.3), [0.0; 3]);
                let (mut b1, mut b2) = (
                    Motion::DUMMY,
                    Motion {
                        linear_velocity: [0.7, 0.0, 0.0],
                        ..Motion::DUMMY
                    },
                );
                solve(&mut p, &mut b1, &mut b2, &inertia(0), &inertia(0), DT);
                let alone = parts::motor_lagrange(motor, 3.0 - 0.7, 1.0 - 0.3, 2.0, DT).unwrap();
                assert_eq!(p.totals()[2], [alone, 0.0, 0.0]);
                assert_eq!(b1.delta_position[0], -alone);
                assert_eq!(b2.delta_position[0], alone);
            }
        }
    }

    #[test]
    fn the_warm_value_goes_to_the_velocities_once() {
        let coast = motor(Model::ForceBased {
            stiffness: 0.0,
            damping: 0.0,
        });
        for (kind, warm) in [
            (Kind::Hinge, [8.0, 0.0, 0.0]),
            (Kind::Slide, [8.0, 9.0, 9.0]),
        ] {
            let mut p = prepare(
                &Joint {
                    motor: Some(coast),
                    ..joint(kind)
                },
                &at(0.0),
                &at(0.0),
                warm,
            );
            assert_eq!(p.totals(), [[0.0; 3]; 4]);
            for expected in [[-4.0, 4.0], [0.0, 0.0]] {
                let (mut b1, mut b2) = (Motion::DUMMY, Motion::DUMMY);
                warm_start(&mut p, &mut b1, &mut b2, &inertia(0), &inertia(0), 0.5);
                let velocities = match kind {
                    Kind::Hinge => [b1.angular_velocity[0], b2.angular_velocity[0]],
                    _ => [b1.linear_velocity[0], b2.linear_velocity[0]],
                };
                assert_eq!(velocities, expected);
                solve(&mut p, &mut b1, &mut b2, &inertia(0), &inertia(0), DT);
            }
        }
    }

    #[test]
    fn a_joint_without_a_motor_has_no_warm_start() {
        for kind in [Kind::Fixed, Kind::Hinge, Kind::Slide, Kind::Ball] {
            let mut p = prepare(&joint(kind), &at(0.0), &at(0.0), [8.0; 3]);
            let (mut b1, mut b2) = (Motion::DUMMY, Motion::DUMMY);
            warm_start(&mut p, &mut b1, &mut b2, &inertia(0), &inertia(0), 1.0);
            assert_eq!(
                (b1.linear_velocity, b1.angular_velocity),
                ([0.0; 3], [0.0; 3])
            );
            assert_eq!(
                (b2.linear_velocity, b2.angular_velocity),
                ([0.0; 3], [0.0; 3])
            );
        }
    }

    #[test]
    fn prepared_numbers_of_each_kind() {
        let count = |joint: Joint| {
            prepare(&joint, &at(0.0), &at(0.0), [0.0; 3])
                .numbers()
                .len()
        };
        assert_eq!(count(joint(Kind::Fixed)), 13);
        assert_eq!(count(joint(Kind::Hinge)), 21);
        assert_eq!(count(joint(Kind::Slide)), 16);
        assert_eq!(count(joint(Kind::Ball)), 21);
        assert_eq!(
            count(Joint {
                limit1: Some([0.0, 1.0]),
                ..joint(Kind::Tether)
            }),
            9
        );
    }

    #[test]
    fn a_tether_pulls_both_ends() {
        let tether = Joint {
            limit1: Some([0.0, 1.0]),
            ..joint(Kind::Tether)
        };
        let mut p = prepare(&tether, &at(0.0), &at(3.0), [0.0; 3]);
        let (mut b1, mut b2) = (Motion::DUMMY, Motion::DUMMY);
        solve(&mut p, &mut b1, &mut b2, &inertia(0), &inertia(0), DT);
        assert_eq!((b1.delta_position[0], b2.delta_position[0]), (1.0, -1.0));
        assert_eq!(p.totals()[0][0], 1.0);
        assert!(p.is_finite());
    }

    /// avian's systems over one joint; a body without inertia is anchored.
    fn by_systems(p: &mut Prepared, bodies: [(Motion, Option<Inertia>); 2]) -> [Motion; 2] {
        let mut solver_bodies = SolverBodies::new();
        let [index1, index2] = bodies.map(|(motion, inertia)| match inertia {
            Some(inertia) => solver_bodies.push(JOINT, (&motion).into(), (&inertia).into()),
            None => SolverBodyIndex::INVALID,
        });
        let indexes = || Query::of_two((BODY1, &index1), (BODY2, &index2));
        let time = Time { delta_secs: DT };
        let config = SolverConfig {
            warm_start_coefficient: 0.5,
        };
        for_any_joint!(&mut p.0, s => {
            warm_start_xpbd_motors(
                ResMut::new(&mut solver_bodies),
                indexes(),
                Query::of_one(JOINT, (&s.joint, &mut s.data)),
                Res::new(&time),
                Res::new(&config),
            );
            solve_xpbd_joint(
                ResMut::new(&mut solver_bodies),
                indexes(),
                Query::of_one(JOINT, (&mut s.joint, &mut s.data)),
                Res::new(&time),
            );
        });
        [index1, index2].map(|index| match solver_bodies.get(index) {
            Some(body) => body.into(),
            None => Motion::DUMMY,
        })
    }

    fn by_steps(p: &mut Prepared, bodies: [(Motion, Option<Inertia>); 2]) -> [Motion; 2] {
        let [(mut b1, i1), (mut b2, i2)] = bodies;
        let (i1, i2) = choose(
            &i1.unwrap_or_else(Inertia::dummy),
            &i2.unwrap_or_else(Inertia::dummy),
        );
        warm_start(p, &mut b1, &mut b2, &i1, &i2, 0.5);
        solve(p, &mut b1, &mut b2, &i1, &i2, DT);
        [b1, b2]
    }

    fn bits(motion: &Motion) -> [u32; 13] {
        let mut bits = [0; 13];
        let numbers = [
            &motion.linear_velocity[..],
            &motion.angular_velocity,
            &motion.delta_position,
            &motion.delta_rotation,
        ];
        for (bits, number) in bits.iter_mut().zip(numbers.concat()) {
            *bits = number.to_bits();
        }
        bits
    }

    #[test]
    fn the_steps_are_those_of_the_systems() {
        let turned = |v| Pose {
            position: [0.5, 0.25, -1.0],
            rotation: from_scaled_axis(v),
            center_of_mass: [0.125, 0.0, 0.5],
        };
        let (pose1, pose2) = (turned([0.3, -0.2, 0.9]), turned([-0.4, 0.8, 0.1]));
        let moving = Motion {
            linear_velocity: [1.0, -2.0, 0.5],
            angular_velocity: [0.5, 0.25, -3.0],
            delta_position: [0.0625, 0.0, 0.03125],
            delta_rotation: from_scaled_axis([0.01, 0.02, -0.05]),
        };
        let spring = Model::SpringDamper {
            frequency: 2.0,
            damping_ratio: 0.5,
        };
        let locked = Inertia {
            locks: [false, true, false],
            ..inertia(0)
        };
        let pairs = [
            [Some(inertia(0)), Some(locked)],
            [Some(inertia(-3)), Some(inertia(2))],
            [Some(inertia(2)), Some(locked)],
            [None, Some(inertia(127))],
            [Some(locked), None],
        ];
        for kind in [
            Kind::Fixed,
            Kind::Hinge,
            Kind::Slide,
            Kind::Ball,
            Kind::Tether,
        ] {
            let joint = Joint {
                anchor1: [1.0, 0.0, 0.5],
                basis2: from_scaled_axis([0.0, 0.5, 0.0]),
                axis: [0.6, 0.0, 0.8],
                compliances: [0.001, 0.0, 0.01, 0.0],
                limit1: Some([-0.1, 0.1]),
                limit2: Some([0.1, 0.2]),
                motor: Some(motor(spring)),
                ..joint(kind)
            };
            for inertias in pairs {
                let bodies = inertias.map(|inertia| match inertia {
                    Some(_) => (moving, inertia),
                    None => (Motion::DUMMY, inertia),
                });
                let warm = [0.5, -0.25, 1.0];
                let mut by_one = prepare(&joint, &pose1, &pose2, warm);
                let mut by_other = prepare(&joint, &pose1, &pose2, warm);
                let ends = by_systems(&mut by_one, bodies);
                let others = by_steps(&mut by_other, bodies);
                assert_eq!(ends.each_ref().map(bits), others.each_ref().map(bits));
                assert_eq!(by_one.totals(), by_other.totals());
                assert_ne!(bits(&ends[0]), bits(&ends[1]));
            }
        }
    }
}
