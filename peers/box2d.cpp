// Box2D: the same linkages in its plane, without shapes. It has no ball.
#include "world.h"

#include <box2d/box2d.h>

#include <cmath>

namespace {

constexpr int VELOCITY_ITERATIONS = 8, POSITION_ITERATIONS = 3;

b2Vec2 flat(const std::array<float, 3> &v) { return {v[0], v[1]}; }

class Box2d : public World {
  public:
    explicit Box2d(const Scene &scene) : world({0, scene.gravity}), dt(1.0F / float(scene.rate)) {
        world.SetAllowSleeping(false);
        for (const Body &body : scene.bodies)
            add(body);
        for (const Joint &joint : scene.joints)
            add(joint);
    }

    void run(uint32_t steps) override {
        for (uint32_t i = 0; i < steps; i++)
            world.Step(dt, VELOCITY_ITERATIONS, POSITION_ITERATIONS);
    }

    Motion motion(uint32_t body) const override {
        const b2Body &b = *bodies[body];
        double half = b.GetAngle() / 2;
        b2Vec2 p = b.GetPosition(), v = b.GetLinearVelocity();
        return {{p.x, p.y, 0}, {0, 0, std::sin(half), std::cos(half)}, {v.x, v.y, 0}, {0, 0, b.GetAngularVelocity()}};
    }

  private:
    b2World world;
    float dt;
    std::vector<b2Body *> bodies;

    void add(const Body &body) {
        b2BodyDef def;
        def.type = body.anchored ? b2_staticBody : b2_dynamicBody;
        def.position = flat(body.position);
        def.angle = 2 * std::atan2(body.rotation[2], body.rotation[3]);
        def.linearVelocity = flat(body.linear_velocity);
        def.angularVelocity = body.angular_velocity[2];
        bodies.push_back(world.CreateBody(&def));
        if (!body.anchored) {
            b2MassData mass{1 / body.inv_mass, {0, 0}, 1 / body.inv_inertia};
            bodies.back()->SetMassData(&mass);
        }
    }

    template <class Def> void create(Def &def, const Joint &joint) {
        def.bodyA = bodies[joint.body1];
        def.bodyB = bodies[joint.body2];
        def.localAnchorA = flat(joint.anchor1);
        def.localAnchorB = flat(joint.anchor2);
        def.referenceAngle = def.bodyB->GetAngle() - def.bodyA->GetAngle();
        world.CreateJoint(&def);
    }

    void add(const Joint &joint) {
        if (joint.kind == SLIDE) {
            b2PrismaticJointDef def;
            def.localAxisA = flat(joint.axis);
            create(def, joint);
        } else {
            b2RevoluteJointDef def;
            def.enableMotor = joint.driven;
            def.motorSpeed = joint.motor_velocity;
            def.maxMotorTorque = joint.motor_cap;
            create(def, joint);
        }
    }
};

} // namespace

std::unique_ptr<World> box2d(const Scene &scene) { return std::make_unique<Box2d>(scene); }
