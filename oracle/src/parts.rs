//! Entry points to avian's own leaves over plain arrays, under its names, for comparisons layer by layer.

use avian::dynamics::joints::{AngleLimit, DistanceLimit, RevoluteJoint};
use avian::dynamics::solver::solver_body::{SolverBody, SolverBodyInertia};
use avian::dynamics::solver::xpbd::joints::{FixedAngleConstraintShared, PointConstraintShared};
use avian::dynamics::solver::xpbd::{self, AngularConstraint, PositionConstraint};
use avian::rigid_body::RigidBodyQueryReadOnly;
use bevy::query::QueryData;
use bevy_math::Vec3;

use crate::solver::{Inertia, Motion, Motor, Pose};

/// Calls `f` with the two bodies as avian's, and writes them back.
pub(crate) fn with_bodies<R>(
    b1: &mut Motion,
    b2: &mut Motion,
    f: impl FnOnce(&mut SolverBody, &mut SolverBody) -> R,
) -> R {
    let (mut body1, mut body2) = (SolverBody::from(&*b1), SolverBody::from(&*b2));
    let answer = f(&mut body1, &mut body2);
    (*b1, *b2) = ((&body1).into(), (&body2).into());
    answer
}

pub fn compute_lagrange_update(
    lagrange: f32,
    c: f32,
    inverse_masses: &[f32],
    compliance: f32,
    dt: f32,
) -> f32 {
    xpbd::compute_lagrange_update(lagrange, c, inverse_masses, compliance, dt)
}

/// `DistanceLimit::compute_correction`: direction and amount.
pub fn distance_correction([min, max]: [f32; 2], separation: [f32; 3]) -> ([f32; 3], f32) {
    let (direction, amount) = DistanceLimit::new(min, max).compute_correction(separation.into());
    (direction.into(), amount)
}

/// `DistanceLimit::compute_correction_along_axis`.
pub fn distance_correction_along_axis(
    [min, max]: [f32; 2],
    separation: [f32; 3],
    axis: [f32; 3],
) -> [f32; 3] {
    DistanceLimit::new(min, max)
        .compute_correction_along_axis(separation.into(), axis.into())
        .into()
}

/// The 3D `AngleLimit::compute_correction`.
pub fn angle_correction(
    [min, max]: [f32; 2],
    limit_axis: [f32; 3],
    axis1: [f32; 3],
    axis2: [f32; 3],
    max_correction: f32,
) -> Option<[f32; 3]> {
    AngleLimit::new(min, max)
        .compute_correction(
            limit_axis.into(),
            axis1.into(),
            axis2.into(),
            max_correction,
        )
        .map(Vec3::into)
}

/// `RevoluteJoint::compute_angular_motor_lagrange`. The slide's motor has the same text within its solve.
pub fn motor_lagrange(
    motor: Motor,
    velocity_error: f32,
    position_error: f32,
    w_sum: f32,
    dt: f32,
) -> Option<f32> {
    RevoluteJoint::compute_angular_motor_lagrange(
        velocity_error,
        position_error,
        w_sum,
        &motor.into(),
        dt,
    )
}

/// `SolverBodyInertia::effective_inv_mass`.
pub fn effective_inv_mass(inertia: &Inertia) -> [f32; 3] {
    SolverBodyInertia::from(inertia).effective_inv_mass().into()
}

/// `PositionConstraint::compute_generalized_inverse_mass`.
pub fn positional_inverse_mass(
    inverse_mass: f32,
    inv_inertia: [f32; 6],
    r: [f32; 3],
    n: [f32; 3],
) -> f32 {
    let any = PointConstraintShared::default();
    any.compute_generalized_inverse_mass(inverse_mass, inv_inertia.into(), r.into(), n.into())
}

/// `AngularConstraint::compute_generalized_inverse_mass`.
pub fn angular_inverse_mass(inv_inertia: [f32; 6], axis: [f32; 3]) -> f32 {
    let any = FixedAngleConstraintShared::default();
    any.compute_generalized_inverse_mass(inv_inertia.into(), axis.into())
}

/// `PositionConstraint::get_delta_rot`.
pub fn positional_delta_rot(inv_inertia: [f32; 6], r: [f32; 3], p: [f32; 3]) -> [f32; 4] {
    <PointConstraintShared as PositionConstraint>::get_delta_rot(
        inv_inertia.into(),
        r.into(),
        p.into(),
    )
    .into()
}

/// `AngularConstraint::get_delta_rot`.
pub fn angular_delta_rot(inv_inertia: [f32; 6], p: [f32; 3]) -> [f32; 4] {
    <FixedAngleConstraintShared as AngularConstraint>::get_delta_rot(inv_inertia.into(), p.into())
        .into()
}

#[allow(clippy::too_many_arguments)]
pub fn apply_positional_impulse(
    b1: &mut Motion,
    b2: &mut Motion,
    i1: &Inertia,
    i2: &Inertia,
    impulse: [f32; 3],
    r1: [f32; 3],
    r2: [f32; 3],
) {
    let any = PointConstraintShared::default();
    with_bodies(b1, b2, |b1, b2| {
        any.apply_positional_impulse(
            b1,
            b2,
            &i1.into(),
            &i2.into(),
            impulse.into(),
            r1.into(),
            r2.into(),
        )
    });
}

pub fn apply_angular_impulse(
    b1: &mut Motion,
    b2: &mut Motion,
    inv_inertia1: [f32; 6],
    inv_inertia2: [f32; 6],
    impulse: [f32; 3],
) -> [f32; 3] {
    let any = FixedAngleConstraintShared::default();
    with_bodies(b1, b2, |b1, b2| {
        any.apply_angular_impulse(
            b1,
            b2,
            inv_inertia1.into(),
            inv_inertia2.into(),
            impulse.into(),
        )
        .into()
    })
}

pub fn apply_angular_lagrange_update(
    b1: &mut Motion,
    b2: &mut Motion,
    inv_inertia1: [f32; 6],
    inv_inertia2: [f32; 6],
    delta_lagrange: f32,
    axis: [f32; 3],
) -> [f32; 3] {
    let any = FixedAngleConstraintShared::default();
    let (inv_inertia1, inv_inertia2) = (inv_inertia1.into(), inv_inertia2.into());
    with_bodies(b1, b2, |b1, b2| {
        any.apply_angular_lagrange_update(
            b1,
            b2,
            inv_inertia1,
            inv_inertia2,
            delta_lagrange,
            axis.into(),
        )
        .into()
    })
}

#[allow(clippy::too_many_arguments)]
pub fn align_orientation(
    b1: &mut Motion,
    b2: &mut Motion,
    inv_inertia1: [f32; 6],
    inv_inertia2: [f32; 6],
    rotation_difference: [f32; 3],
    lagrange: f32,
    compliance: f32,
    dt: f32,
) -> [f32; 3] {
    let any = FixedAngleConstraintShared::default();
    let (inv_inertia1, inv_inertia2) = (inv_inertia1.into(), inv_inertia2.into());
    let difference = rotation_difference.into();
    with_bodies(b1, b2, |b1, b2| {
        any.align_orientation(
            b1,
            b2,
            inv_inertia1,
            inv_inertia2,
            difference,
            lagrange,
            compliance,
            dt,
        )
        .into()
    })
}

/// `PointConstraintShared`.
#[derive(Clone, Copy, Debug, Default)]
pub struct PointConstraint {
    pub world_r1: [f32; 3],
    pub world_r2: [f32; 3],
    pub center_difference: [f32; 3],
    pub total_lagrange: [f32; 3],
}

impl From<&PointConstraintShared> for PointConstraint {
    fn from(point: &PointConstraintShared) -> Self {
        Self {
            world_r1: point.world_r1.into(),
            world_r2: point.world_r2.into(),
            center_difference: point.center_difference.into(),
            total_lagrange: point.total_lagrange.into(),
        }
    }
}

impl From<&PointConstraint> for PointConstraintShared {
    fn from(point: &PointConstraint) -> Self {
        Self {
            world_r1: point.world_r1.into(),
            world_r2: point.world_r2.into(),
            center_difference: point.center_difference.into(),
            total_lagrange: point.total_lagrange.into(),
        }
    }
}

impl PointConstraint {
    pub fn prepare(body1: &Pose, body2: &Pose, anchor1: [f32; 3], anchor2: [f32; 3]) -> Self {
        let mut point = PointConstraintShared::default();
        let (body1, body2) = (
            RigidBodyQueryReadOnly::from(body1),
            RigidBodyQueryReadOnly::from(body2),
        );
        let bodies = [&QueryData::read(&body1), &QueryData::read(&body2)];
        point.prepare(bodies, anchor1.into(), anchor2.into());
        (&point).into()
    }

    #[allow(clippy::too_many_arguments)]
    pub fn solve(
        &mut self,
        b1: &mut Motion,
        b2: &mut Motion,
        i1: &Inertia,
        i2: &Inertia,
        compliance: f32,
        dt: f32,
    ) {
        let mut point = PointConstraintShared::from(&*self);
        with_bodies(b1, b2, |b1, b2| {
            point.solve([b1, b2], [&i1.into(), &i2.into()], compliance, dt)
        });
        *self = (&point).into();
    }
}

/// `FixedAngleConstraintShared`.
#[derive(Clone, Copy, Debug, Default)]
pub struct FixedAngleConstraint {
    pub rotation_difference: [f32; 4],
    pub total_lagrange: [f32; 3],
}

impl From<&FixedAngleConstraintShared> for FixedAngleConstraint {
    fn from(angle: &FixedAngleConstraintShared) -> Self {
        Self {
            rotation_difference: angle.rotation_difference.into(),
            total_lagrange: angle.total_lagrange.into(),
        }
    }
}

impl From<&FixedAngleConstraint> for FixedAngleConstraintShared {
    fn from(angle: &FixedAngleConstraint) -> Self {
        Self {
            rotation_difference: angle.rotation_difference.into(),
            total_lagrange: angle.total_lagrange.into(),
        }
    }
}

impl FixedAngleConstraint {
    pub fn prepare(
        rotation1: [f32; 4],
        rotation2: [f32; 4],
        basis1: [f32; 4],
        basis2: [f32; 4],
    ) -> Self {
        let mut angle = FixedAngleConstraintShared::default();
        angle.prepare(
            rotation1.into(),
            rotation2.into(),
            basis1.into(),
            basis2.into(),
        );
        (&angle).into()
    }

    #[allow(clippy::too_many_arguments)]
    pub fn solve(
        &mut self,
        b1: &mut Motion,
        b2: &mut Motion,
        i1: &Inertia,
        i2: &Inertia,
        compliance: f32,
        dt: f32,
    ) {
        let mut angle = FixedAngleConstraintShared::from(&*self);
        with_bodies(b1, b2, |b1, b2| {
            angle.solve([b1, b2], [&i1.into(), &i2.into()], compliance, dt)
        });
        *self = (&angle).into();
    }
}

#[cfg(test)]
mod tests {
    use super::*;
    use crate::solver::Model;

    const SIXTEENTH: f32 = 1.0 / 16.0;

    fn unit_mass() -> Inertia {
        Inertia {
            inv_mass: 1.0,
            inv_inertia: [0.0; 6],
            dominance: 0,
            locks: [false; 3],
        }
    }

    #[test]
    fn multiplier() {
        assert_eq!(
            compute_lagrange_update(0.0, 0.75, &[1.0, 1.0], 0.0, SIXTEENTH),
            -0.375
        );
        assert_eq!(
            compute_lagrange_update(0.0, 0.75, &[1.0, 1.0], 1.0 / 256.0, SIXTEENTH),
            -0.25
        );
    }

    #[test]
    fn least_weight() {
        let least = f32::from_bits(0x34000000);
        assert_eq!(least, 1.0 / 8388608.0);
        assert_eq!(
            compute_lagrange_update(0.0, 0.75, &[least, 0.0], 0.0, SIXTEENTH),
            0.0
        );
        assert_ne!(
            compute_lagrange_update(0.0, 0.75, &[least.next_up(), 0.0], 0.0, SIXTEENTH),
            0.0
        );
    }

    #[test]
    fn distance_limits() {
        assert_eq!(
            distance_correction([0.0, 4.0], [3.0, 4.0, 0.0]),
            ([-0.6, -0.8, -0.0], 1.0)
        );
        assert_eq!(
            distance_correction([0.0, 4.0], [0.0, 4.0, 0.0]),
            ([0.0; 3], 0.0)
        );
    }

    fn moved(separation: f32) -> (Motion, Motion) {
        let (mut b1, mut b2) = (Motion::DUMMY, Motion::DUMMY);
        let mut point = PointConstraint {
            center_difference: [separation, 0.0, 0.0],
            ..Default::default()
        };
        point.solve(&mut b1, &mut b2, &unit_mass(), &unit_mass(), 0.0, SIXTEENTH);
        (b1, b2)
    }

    #[test]
    fn point_separation() {
        let (b1, b2) = moved(2.0);
        assert_eq!(
            (b1.delta_position, b2.delta_position),
            ([1.0, 0.0, 0.0], [-1.0, 0.0, 0.0])
        );
        let (b1, b2) = moved(f32::from_bits((127 - 80) << 23));
        assert_eq!((b1.delta_position, b2.delta_position), ([0.0; 3], [0.0; 3]));
    }

    fn capped(cap: f32) -> Option<f32> {
        let model = Model::AccelerationBased {
            stiffness: 0.0,
            damping: 1.0,
        };
        let motor = Motor {
            target_velocity: 0.0,
            target_position: 0.0,
            cap,
            model,
        };
        motor_lagrange(motor, 80.0, 0.0, 1.0, SIXTEENTH)
    }

    #[test]
    fn caps() {
        assert_eq!(capped(0.0), Some(5.0));
        assert_eq!(capped(f32::MAX), Some(5.0));
        assert_eq!(capped(256.0), Some(1.0));
    }

    #[test]
    fn motor_at_rest_gives_none() {
        let model = Model::ForceBased {
            stiffness: 1.0,
            damping: 0.0,
        };
        let motor = Motor {
            target_velocity: 0.0,
            target_position: 0.0,
            cap: 0.0,
            model,
        };
        // The correction is position_error / 16: 2^-23 gives none, the next f32 does.
        let least = f32::EPSILON * 16.0;
        assert_eq!(motor_lagrange(motor, 0.0, least, 1.0, SIXTEENTH), None);
        assert!(motor_lagrange(motor, 0.0, least.next_up(), 1.0, SIXTEENTH).is_some());
    }

    #[test]
    fn angle_limits() {
        let (x, y, z) = ([1.0, 0.0, 0.0], [0.0, 1.0, 0.0], [0.0, 0.0, 1.0]);
        assert_eq!(angle_correction([-2.0, 2.0], z, x, y, 4.0), None);
        let [cx, cy, cz] = angle_correction([-1.0, 1.0], z, x, y, 4.0).unwrap();
        assert!(cx == 0.0 && cy == 0.0 && (cz - 1f32.cos()).abs() < 1e-6);
        // A sine above 1 in size is a right angle's; an infinite one is NaN, and the limit is skipped.
        let right = std::f32::consts::FRAC_PI_2;
        let corrects = |range, to| angle_correction(range, z, x, to, 4.0).is_some();
        for sine in [1f32.next_up(), 1.5, 1e30] {
            assert!(corrects([-1.0, 1.0], [0.0, sine, 0.0]));
            assert!(!corrects([-right, right], [0.0, sine, 0.0]));
            assert!(corrects([-right, right.next_down()], [0.0, sine, 0.0]));
            // With the axes apart -π/2 goes by 3π/2 to one step below itself.
            assert!(!corrects([-right, right], [0.5, -sine, 0.0]));
            assert!(corrects([-right, right], [-0.5, -sine, 0.0]));
            assert!(!corrects([-right.next_up(), right], [-0.5, -sine, 0.0]));
        }
        let (far1, far2) = ([1e20, 0.0, 0.0], [0.0, 1e20, 0.0]);
        assert_eq!(angle_correction([-1.0, 1.0], z, far1, far2, 4.0), None);
    }

    #[test]
    fn locks_clear_the_inverse_mass() {
        let inertia = Inertia {
            inv_mass: 2.0,
            locks: [false, true, false],
            ..unit_mass()
        };
        assert_eq!(effective_inv_mass(&inertia), [2.0, 0.0, 2.0]);
    }
}
