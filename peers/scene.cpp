// The chains and the mechanisms, and what is measured of them. Lengths are in metres, masses in kilograms, angles in radians.
#include "scene.h"

#include <cmath>

namespace {

constexpr uint32_t LINKS = 31;
constexpr double LINK = 1;
constexpr float GRAVITY = -9.81F;
/// How fast a hung chain swings about its upper end at the start.
constexpr float SWING = 0.25F;

Body frame() {
    Body body;
    body.anchored = true;
    body.inv_mass = body.inv_inertia = 0;
    return body;
}

/// A bar of 1 kg from a to b, its origin in the middle and its x axis along it.
Body bar(Point a, Point b) {
    double x = b[0] - a[0], y = b[1] - a[1];
    double half = std::atan2(y, x) / 2;
    double length = std::hypot(x, y);
    Body body;
    body.position = {float((a[0] + b[0]) / 2), float((a[1] + b[1]) / 2), 0};
    body.rotation = {0, 0, float(std::sin(half)), float(std::cos(half))};
    body.inv_inertia = float(12 / (length * length));
    return body;
}

/// Where a point of the plane is in a body's own axes.
std::array<float, 3> local(const Body &body, Point p) {
    double z = body.rotation[2], w = body.rotation[3];
    double sine = 2 * z * w, cosine = 1 - 2 * z * z;
    double x = p[0] - body.position[0], y = p[1] - body.position[1];
    return {float(cosine * x + sine * y), float(cosine * y - sine * x), 0};
}

Joint joint_at(Kind kind, const std::vector<Body> &bodies, uint32_t body1, uint32_t body2, Point p) {
    Joint joint{kind, body1, body2};
    joint.anchor1 = local(bodies[body1], p);
    joint.anchor2 = local(bodies[body2], p);
    return joint;
}

Joint driven(Joint joint, float velocity) {
    joint.driven = true;
    joint.motor_velocity = velocity;
    joint.motor_cap = 500;
    return joint;
}

/// Where two circles meet, on the left of the way from one centre to the other.
Point meet(Point a, double ra, Point b, double rb) {
    double x = b[0] - a[0], y = b[1] - a[1];
    double d = std::hypot(x, y);
    double along = (ra * ra - rb * rb + d * d) / (2 * d);
    double aside = std::sqrt(ra * ra - along * along);
    return {a[0] + (x * along - y * aside) / d, a[1] + (y * along + x * aside) / d};
}

constexpr double FOUR_BAR_COUPLER = 3.5, FOUR_BAR_ROCKER = 2.5, CHEBYSHEV_BAR = 2.5, ROD = 3;
constexpr Point ORIGIN{0, 0}, FOUR_BAR_PIVOT{4, 0}, CHEBYSHEV_PIVOT{2, 0};

/// The end of the crank, which is 1 long in each mechanism.
Point crank_end(double angle) { return {std::cos(angle), std::sin(angle)}; }

Point four_bar_exact(double angle) { return meet(crank_end(angle), FOUR_BAR_COUPLER, FOUR_BAR_PIVOT, FOUR_BAR_ROCKER); }

/// As far beyond the rocker's end as the crank's end is before it.
Point beyond(Point a, Point b) { return {2 * b[0] - a[0], 2 * b[1] - a[1]}; }

Point chebyshev_exact(double angle) {
    Point a = crank_end(angle);
    return beyond(a, meet(a, CHEBYSHEV_BAR, CHEBYSHEV_PIVOT, CHEBYSHEV_BAR));
}

Point slider_exact(double angle) {
    Point a = crank_end(angle);
    return {a[0] + std::sqrt(ROD * ROD - a[1] * a[1]), 0};
}

/// On the pivots at the origin and q: a driven crank to a, a coupler from a by way of b to its end, and a rocker from q to b.
Mechanism crank_rocker(std::string name, std::string card, uint32_t rate, Point q, Point a, Point b, Point end, Point (*exact)(double)) {
    std::vector<Body> bodies{frame(), bar(ORIGIN, a), bar(a, end), bar(q, b)};
    std::vector<Joint> joints{
        driven(joint_at(HINGE, bodies, 0, 1, ORIGIN), 2),
        joint_at(HINGE, bodies, 1, 2, a),
        joint_at(HINGE, bodies, 2, 3, b),
        joint_at(HINGE, bodies, 0, 3, q),
    };
    std::array<float, 3> point = local(bodies[2], end);
    return {name, card, {rate, 0, bodies, joints}, 1, 2, point, exact};
}

Mechanism four_bar(uint32_t rate) {
    Point a{0, 1}, b = meet(a, FOUR_BAR_COUPLER, FOUR_BAR_PIVOT, FOUR_BAR_ROCKER);
    return crank_rocker("Four-bar", "four_bar", rate, FOUR_BAR_PIVOT, a, b, b, four_bar_exact);
}

Mechanism chebyshev(uint32_t rate) {
    Point a{1, 0}, b = meet(a, CHEBYSHEV_BAR, CHEBYSHEV_PIVOT, CHEBYSHEV_BAR);
    return crank_rocker("Chebyshev's lambda linkage", "chebyshev", rate, CHEBYSHEV_PIVOT, a, b, beyond(a, b), chebyshev_exact);
}

Mechanism slider_crank(uint32_t rate) {
    Point a{0, 1}, b{std::sqrt(8.0), 0};
    Body block;
    block.position = {float(b[0]), 0, 0};
    block.inv_mass = 0.5F;
    std::vector<Body> bodies{frame(), bar(ORIGIN, a), bar(a, b), block};
    Joint slide{SLIDE, 0, 3};
    slide.axis = {1, 0, 0};
    std::vector<Joint> joints{
        driven(joint_at(HINGE, bodies, 0, 1, ORIGIN), 3),
        joint_at(HINGE, bodies, 1, 2, a),
        joint_at(HINGE, bodies, 2, 3, b),
        slide,
    };
    return {"Slider-crank", "slider_crank", {rate, 0, bodies, joints}, 1, 3, {}, slider_exact};
}

} // namespace

/// Bars in a row from the frame, down and swinging about the upper end as one, or level and at rest.
Scene chain(Kind kind, bool hung, uint32_t rate) {
    auto place = [hung](uint32_t i) { return hung ? Point{0, -LINK * i} : Point{LINK * i, 0}; };
    Scene scene{rate, GRAVITY, {frame()}, {}};
    for (uint32_t i = 0; i < LINKS; i++) {
        Body body = bar(place(i), place(i + 1));
        if (hung) {
            body.linear_velocity = {-body.position[1] * SWING, 0, 0};
            body.angular_velocity = {0, 0, SWING};
        }
        scene.bodies.push_back(body);
        scene.joints.push_back(joint_at(kind, scene.bodies, i, i + 1, place(i)));
    }
    return scene;
}

std::vector<Mechanism> mechanisms(uint32_t rate) { return {four_bar(rate), slider_crank(rate), chebyshev(rate)}; }

Motion start_of(const Body &body) {
    auto wide = [](const std::array<float, 3> &v) { return Vec3{v[0], v[1], v[2]}; };
    const auto &r = body.rotation;
    return {wide(body.position), {r[0], r[1], r[2], r[3]}, wide(body.linear_velocity), wide(body.angular_velocity)};
}

Vec3 world_point(const Motion &motion, const std::array<float, 3> &local) {
    auto [x, y, z, w] = motion.rotation;
    double lx = local[0], ly = local[1], lz = local[2];
    double tx = 2 * (y * lz - z * ly), ty = 2 * (z * lx - x * lz), tz = 2 * (x * ly - y * lx);
    return {motion.position[0] + lx + w * tx + y * tz - z * ty, motion.position[1] + ly + w * ty + z * tx - x * tz,
            motion.position[2] + lz + w * tz + x * ty - y * tx};
}

double gap(const Joint &joint, const Motion &motion1, const Motion &motion2) {
    Vec3 a = world_point(motion1, joint.anchor1), b = world_point(motion2, joint.anchor2);
    return std::hypot(b[0] - a[0], b[1] - a[1], b[2] - a[2]);
}

double energy(const Body &body, const Motion &motion, float gravity) {
    if (body.anchored)
        return 0;
    auto square = [](const Vec3 &v) { return v[0] * v[0] + v[1] * v[1] + v[2] * v[2]; };
    double mass = 1.0 / body.inv_mass, inertia = 1.0 / body.inv_inertia;
    return mass * square(motion.linear_velocity) / 2 + inertia * square(motion.angular_velocity) / 2 - mass * gravity * motion.position[1];
}
