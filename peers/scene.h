// A linkage as a card has it, in the card's own 32-bit numbers: every program is built from these. All lie in the x-y plane, with gravity along y.
#ifndef PEERS_SCENE_H
#define PEERS_SCENE_H

#include <array>
#include <cstdint>
#include <string>
#include <vector>

using Point = std::array<double, 2>;
using Vec3 = std::array<double, 3>;

enum Kind : uint32_t { HINGE = 1, SLIDE = 2, BALL = 3 };

/// The inertia is the same about each axis.
struct Body {
    bool anchored = false;
    std::array<float, 3> position{};
    std::array<float, 4> rotation{0, 0, 0, 1};
    std::array<float, 3> linear_velocity{};
    std::array<float, 3> angular_velocity{};
    float inv_mass = 1;
    float inv_inertia = 1;
};

struct Joint {
    Kind kind;
    uint32_t body1, body2;
    std::array<float, 3> anchor1{}, anchor2{};
    std::array<float, 3> axis{0, 0, 1};
    bool driven = false;
    float motor_velocity = 0;
    float motor_cap = 0;
};

struct Scene {
    uint32_t rate;
    float gravity;
    std::vector<Body> bodies;
    std::vector<Joint> joints;
};

/// A body's pose and velocities in some step.
struct Motion {
    Vec3 position;
    std::array<double, 4> rotation;
    Vec3 linear_velocity, angular_velocity;
};

/// A mechanism with a driven crank on the pivot at the origin, and the one point of it that is watched.
struct Mechanism {
    std::string name;
    /// The sample card's.
    std::string card;
    Scene scene;
    uint32_t crank;
    uint32_t watched;
    std::array<float, 3> point;
    /// Where exact kinematics has the watched point for an angle of the crank.
    Point (*exact)(double angle);
};

Scene chain(Kind kind, bool hung, uint32_t rate);
std::vector<Mechanism> mechanisms(uint32_t rate);

Motion start_of(const Body &body);
Vec3 world_point(const Motion &motion, const std::array<float, 3> &local);

/// How far a hinge's or a ball's two anchors are apart, in metres.
double gap(const Joint &joint, const Motion &motion1, const Motion &motion2);

/// A body's kinetic and potential energy, in joules.
double energy(const Body &body, const Motion &motion, float gravity);

#endif
