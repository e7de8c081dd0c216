// The Open Dynamics Engine, without its collision detection. An anchored body is the world, as ODE's manual has it.
#include "world.h"

#include <ode/ode.h>

namespace {

constexpr int ITERATIONS = 20;

class Ode : public World {
  public:
    Ode(const Scene &scene, bool quick) : world(dWorldCreate()), dt(1.0 / scene.rate), quick(quick) {
        dRandSetSeed(0); // QuickStep shuffles its rows
        dWorldSetGravity(world, 0, scene.gravity, 0);
        dWorldSetQuickStepNumIterations(world, ITERATIONS);
        for (const Body &body : scene.bodies)
            add(body);
        for (const Joint &joint : scene.joints)
            add(joint);
    }

    ~Ode() override { dWorldDestroy(world); }

    void run(uint32_t steps) override {
        for (uint32_t i = 0; i < steps; i++)
            quick ? dWorldQuickStep(world, dt) : dWorldStep(world, dt);
    }

    Motion motion(uint32_t body) const override {
        dBodyID id = ids[body];
        if (!id)
            return starts[body];
        auto vec = [](const dReal *v) { return Vec3{v[0], v[1], v[2]}; };
        const dReal *q = dBodyGetQuaternion(id); // w first
        return {vec(dBodyGetPosition(id)), {q[1], q[2], q[3], q[0]}, vec(dBodyGetLinearVel(id)), vec(dBodyGetAngularVel(id))};
    }

  private:
    dWorldID world;
    double dt;
    bool quick;
    std::vector<dBodyID> ids;
    std::vector<Motion> starts;

    void add(const Body &body) {
        starts.push_back(start_of(body));
        if (body.anchored) {
            ids.push_back(nullptr);
            return;
        }
        dBodyID id = dBodyCreate(world);
        auto [x, y, z] = starts.back().position;
        auto [vx, vy, vz] = starts.back().linear_velocity;
        auto [wx, wy, wz] = starts.back().angular_velocity;
        const auto &r = starts.back().rotation;
        const dQuaternion q{r[3], r[0], r[1], r[2]};
        dBodySetPosition(id, x, y, z);
        dBodySetQuaternion(id, q);
        dBodySetLinearVel(id, vx, vy, vz);
        dBodySetAngularVel(id, wx, wy, wz);
        double inertia = 1.0 / body.inv_inertia;
        dMass mass;
        dMassSetParameters(&mass, 1.0 / body.inv_mass, 0, 0, 0, inertia, inertia, inertia, 0, 0, 0);
        dBodySetMass(id, &mass);
        ids.push_back(id);
    }

    void add(const Joint &joint) {
        auto [x, y, z] = world_point(starts[joint.body1], joint.anchor1);
        const auto &axis = joint.axis;
        dBodyID body1 = ids[joint.body1], body2 = ids[joint.body2];
        if (joint.kind == BALL) {
            dJointID id = dJointCreateBall(world, nullptr);
            dJointAttach(id, body1, body2);
            dJointSetBallAnchor(id, x, y, z);
        } else if (joint.kind == HINGE) {
            dJointID id = dJointCreateHinge(world, nullptr);
            // The rates that ODE drives are those of the first body against the second.
            dJointAttach(id, body2, body1);
            dJointSetHingeAnchor(id, x, y, z);
            dJointSetHingeAxis(id, axis[0], axis[1], axis[2]);
            if (joint.driven) {
                dJointSetHingeParam(id, dParamVel, joint.motor_velocity);
                dJointSetHingeParam(id, dParamFMax, joint.motor_cap);
            }
        } else {
            dJointID id = dJointCreateSlider(world, nullptr);
            dJointAttach(id, body2, body1);
            dJointSetSliderAxis(id, axis[0], axis[1], axis[2]);
        }
    }
};

/// ODE is begun before the first world and never ended.
std::unique_ptr<World> make(const Scene &scene, bool quick) {
    static const int begun = dInitODE2(0);
    (void)begun;
    return std::make_unique<Ode>(scene, quick);
}

} // namespace

std::unique_ptr<World> ode_quick_step(const Scene &scene) { return make(scene, true); }
std::unique_ptr<World> ode_step(const Scene &scene) { return make(scene, false); }
