//! Document 01, 'Arithmetic beneath', over plain arrays: every operation rounds once, sums run left to right.
//!
//! A rotation is x, y, z, w; a tensor xx, xy, xz, yy, yz, zz; a matrix its columns.

mod scalar;
mod tables;

pub use scalar::{asin, atan2, clamp, cos, rem_euclid, sin, sqrt, squared, PI, TAU};
pub use tables::{ARCTANGENT, SINE};

#[inline]
pub fn add(a: [f32; 3], b: [f32; 3]) -> [f32; 3] {
    [a[0] + b[0], a[1] + b[1], a[2] + b[2]]
}

#[inline]
pub fn sub(a: [f32; 3], b: [f32; 3]) -> [f32; 3] {
    [a[0] - b[0], a[1] - b[1], a[2] - b[2]]
}

#[inline]
pub fn neg(v: [f32; 3]) -> [f32; 3] {
    [-v[0], -v[1], -v[2]]
}

#[inline]
pub fn scale(v: [f32; 3], s: f32) -> [f32; 3] {
    [v[0] * s, v[1] * s, v[2] * s]
}

#[inline]
pub fn divide(v: [f32; 3], s: f32) -> [f32; 3] {
    [v[0] / s, v[1] / s, v[2] / s]
}

#[inline]
pub fn dot(a: [f32; 3], b: [f32; 3]) -> f32 {
    a[0] * b[0] + a[1] * b[1] + a[2] * b[2]
}

/// The dot of two rotations: w last.
#[inline]
pub fn rotation_dot(a: [f32; 4], b: [f32; 4]) -> f32 {
    a[0] * b[0] + a[1] * b[1] + a[2] * b[2] + a[3] * b[3]
}

#[inline]
pub fn cross(a: [f32; 3], b: [f32; 3]) -> [f32; 3] {
    [
        a[1] * b[2] - b[1] * a[2],
        a[2] * b[0] - b[2] * a[0],
        a[0] * b[1] - b[0] * a[1],
    ]
}

#[inline]
pub fn length(v: [f32; 3]) -> f32 {
    sqrt(dot(v, v))
}

#[inline]
pub fn rotation_length(q: [f32; 4]) -> f32 {
    sqrt(rotation_dot(q, q))
}

#[inline]
pub fn tensor_times(t: [f32; 6], v: [f32; 3]) -> [f32; 3] {
    let [xx, xy, xz, yy, yz, zz] = t;
    [
        dot([xx, xy, xz], v),
        dot([xy, yy, yz], v),
        dot([xz, yz, zz], v),
    ]
}

#[inline]
pub fn product(a: [f32; 4], b: [f32; 4]) -> [f32; 4] {
    let [ax, ay, az, aw] = a;
    let [bx, by, bz, bw] = b;
    [
        aw * bx + ax * bw + ay * bz - az * by,
        aw * by - ax * bz + ay * bw + az * bx,
        aw * bz + ax * by - ay * bx + az * bw,
        aw * bw - ax * bx - ay * by - az * bz,
    ]
}

#[inline]
pub fn inverse(q: [f32; 4]) -> [f32; 4] {
    [-q[0], -q[1], -q[2], q[3]]
}

/// Turns v by q.
#[inline]
pub fn turn(q: [f32; 4], v: [f32; 3]) -> [f32; 3] {
    let [x, y, z, w] = q;
    let b = [x, y, z];
    add(
        add(scale(v, w * w - dot(b, b)), scale(b, dot(v, b) * 2.0)),
        scale(cross(b, v), w * 2.0),
    )
}

#[inline]
pub fn matrix(q: [f32; 4]) -> [[f32; 3]; 3] {
    let [x, y, z, w] = q;
    let (x2, y2, z2) = (x + x, y + y, z + z);
    [
        [1.0 - (y * y2 + z * z2), x * y2 + w * z2, x * z2 - w * y2],
        [x * y2 - w * z2, 1.0 - (x * x2 + z * z2), y * z2 + w * x2],
        [x * z2 + w * y2, y * z2 - w * x2, 1.0 - (x * x2 + y * y2)],
    ]
}

#[inline]
pub fn matrix_times(m: [[f32; 3]; 3], v: [f32; 3]) -> [f32; 3] {
    add(add(scale(m[0], v[0]), scale(m[1], v[1])), scale(m[2], v[2]))
}

/// Document 02, point 1: R T Rᵀ, with R the matrix of q and T a symmetric tensor. The left product first, and of the nine numbers the upper six.
#[inline]
pub fn turned_tensor(q: [f32; 4], t: [f32; 6]) -> [f32; 6] {
    let columns = matrix(q);
    let r = |i: usize, k: usize| columns[k][i];
    let [xx, xy, xz, yy, yz, zz] = t;
    let t = [[xx, xy, xz], [xy, yy, yz], [xz, yz, zz]];
    let left = |i: usize, k: usize| r(i, 0) * t[0][k] + r(i, 1) * t[1][k] + r(i, 2) * t[2][k];
    let m = [0, 1, 2].map(|i| [0, 1, 2].map(|k| left(i, k)));
    let n = |i: usize, j: usize| m[i][0] * r(j, 0) + m[i][1] * r(j, 1) + m[i][2] * r(j, 2);
    [n(0, 0), n(0, 1), n(0, 2), n(1, 1), n(1, 2), n(2, 2)]
}

#[inline]
pub fn any_orthonormal(v: [f32; 3]) -> [f32; 3] {
    let [x, y, z] = v;
    let s = if z.is_sign_negative() { -1.0 } else { 1.0 };
    let a = -1.0 / (s + z);
    let b = x * y * a;
    [b, s + y * y * a, -y]
}

#[inline]
pub fn any_orthogonal(v: [f32; 3]) -> [f32; 3] {
    let [x, y, z] = v;
    if x.abs() > y.abs() {
        [-z, 0.0, x]
    } else {
        [0.0, z, -y]
    }
}

#[inline]
pub fn clamp_length_max(v: [f32; 3], m: f32) -> [f32; 3] {
    if dot(v, v) > m * m {
        scale(divide(v, length(v)), m)
    } else {
        v
    }
}

#[inline]
pub fn from_axis_angle(axis: [f32; 3], angle: f32) -> [f32; 4] {
    let h = angle * 0.5;
    let [x, y, z] = scale(axis, sin(h));
    [x, y, z, cos(h)]
}

#[inline]
pub fn from_scaled_axis(v: [f32; 3]) -> [f32; 4] {
    let length = length(v);
    if length == 0.0 {
        [0.0, 0.0, 0.0, 1.0]
    } else {
        from_axis_angle(divide(v, length), length)
    }
}

/// The largest of the three.
#[inline]
pub fn max_element(v: [f32; 3]) -> f32 {
    let max = |a, b| if a > b { a } else { b };
    max(v[0], max(v[1], v[2]))
}

#[cfg(test)]
mod tests {
    use super::*;

    const IDENTITY: [f32; 4] = [0.0, 0.0, 0.0, 1.0];

    #[test]
    fn quarter_turn() {
        let r = sqrt(0.5);
        let about_z = [0.0, 0.0, r, r];
        let turned = turn(about_z, [1.0, 0.0, 0.0]);
        assert!(length(sub(turned, [0.0, 1.0, 0.0])) < 1e-6);
        assert!(length(sub(matrix_times(matrix(about_z), [1.0, 0.0, 0.0]), turned)) < 1e-6);
        let half = product(about_z, about_z);
        assert!((half[2] - 1.0).abs() < 1e-6 && half[3].abs() < 1e-6);
    }

    #[test]
    fn inverse_undoes() {
        let q = from_scaled_axis([0.3, -1.2, 0.7]);
        let p = product(q, inverse(q));
        assert!((0..4).all(|i| (p[i] - IDENTITY[i]).abs() < 1e-5));
        let v = [1.0, 2.0, 3.0];
        assert!(length(sub(turn(inverse(q), turn(q, v)), v)) < 1e-4);
    }

    #[test]
    fn scaled_axis_of_nothing_is_the_identity() {
        assert_eq!(from_scaled_axis([0.0; 3]), IDENTITY);
        // The self dot underflows to zero.
        assert_eq!(
            from_scaled_axis([f32::from_bits(1 << 20), 0.0, 0.0]),
            IDENTITY
        );
    }

    #[test]
    fn orthonormal_and_orthogonal() {
        for v in [
            [1.0, 0.0, 0.0],
            [0.0, 1.0, 0.0],
            [0.0, 0.0, 1.0],
            [0.0, 0.0, -1.0],
            [0.6, 0.0, -0.8],
        ] {
            let n = any_orthonormal(v);
            assert!(dot(n, v).abs() < 1e-6 && (length(n) - 1.0).abs() < 1e-6);
            assert!(dot(any_orthogonal(v), v) == 0.0);
        }
        // By z's sign bit.
        assert_eq!(any_orthonormal([1.0, 0.0, -0.0])[1], -1.0);
        assert_eq!(any_orthogonal([1.0, -1.0, 2.0]), [0.0, 2.0, 1.0]);
    }

    #[test]
    fn length_clamp() {
        assert_eq!(clamp_length_max([3.0, 4.0, 0.0], 5.0), [3.0, 4.0, 0.0]);
        assert_eq!(clamp_length_max([6.0, 8.0, 0.0], 5.0), [3.0, 4.0, 0.0]);
    }

    #[test]
    fn a_turned_tensor() {
        let rod = [12.0, 0.0, 0.0, 0.5, 0.0, 0.5];
        assert_eq!(turned_tensor(IDENTITY, rod), rod);
        // A third of a turn about (1, 1, 1) takes x to y, y to z and z to x, exactly.
        let third = [0.5; 4];
        let t = [1.0, 2.0, 3.0, 4.0, 5.0, 6.0];
        assert_eq!(turned_tensor(third, t), [6.0, 3.0, 5.0, 1.0, 2.0, 4.0]);
        // As a rotation does: the tensor of a turned vector is the turned vector of the tensor.
        let q = from_scaled_axis([0.3, -1.2, 0.7]);
        let v = [1.0, -2.0, 0.5];
        let turned = tensor_times(turned_tensor(q, t), turn(q, v));
        assert!(length(sub(turned, turn(q, tensor_times(t, v)))) < 1e-4);
        // A rotation twice as long: (0, 0, 0, 2) has the identity's matrix, (0, 0, 1, 1) has not a quarter turn's.
        assert_eq!(turned_tensor([0.0, 0.0, 0.0, 2.0], t), t);
        let long = turned_tensor([0.0, 0.0, 1.0, 1.0], rod);
        assert_eq!(long, [14.0, -23.0, 0.0, 48.5, 0.0, 0.5]);
    }

    #[test]
    fn tensor_is_symmetric() {
        assert_eq!(
            tensor_times([1.0, 2.0, 3.0, 4.0, 5.0, 6.0], [1.0, 10.0, 100.0]),
            [321.0, 542.0, 653.0]
        );
    }
}
