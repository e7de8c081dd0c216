// Bullet's rigid bodies with its sequential-impulse solver, as its defaults have it, but for sleep and collision detection.
#include "world.h"

#include <btBulletDynamicsCommon.h>

namespace {

/// Nothing here touches, so that not even bounding boxes are kept up to date.
class JointsOnly : public btDiscreteDynamicsWorld {
  public:
    using btDiscreteDynamicsWorld::btDiscreteDynamicsWorld;
    void performDiscreteCollisionDetection() override {}
};

btVector3 vector_of(const std::array<float, 3> &v) { return {v[0], v[1], v[2]}; }
Vec3 vec_of(const btVector3 &v) { return {v.x(), v.y(), v.z()}; }

/// A frame at an anchor whose x axis is the joint's.
btTransform frame_of(const std::array<float, 3> &anchor, const std::array<float, 3> &axis) {
    return btTransform(shortestArcQuat(btVector3(1, 0, 0), vector_of(axis)), vector_of(anchor));
}

class Bullet : public World {
  public:
    explicit Bullet(const Scene &scene) : dt(btScalar(1) / btScalar(scene.rate)) {
        world.setGravity({0, scene.gravity, 0});
        for (const Body &body : scene.bodies)
            add(body);
        for (const Joint &joint : scene.joints)
            add(joint);
    }

    ~Bullet() override {
        for (const auto &constraint : constraints)
            world.removeConstraint(constraint.get());
        for (const auto &body : bodies)
            world.removeRigidBody(body.get());
    }

    void run(uint32_t steps) override {
        for (uint32_t i = 0; i < steps; i++)
            world.stepSimulation(dt, 0);
    }

    Motion motion(uint32_t body) const override {
        const btRigidBody &b = *bodies[body];
        btQuaternion q = b.getOrientation();
        return {vec_of(b.getCenterOfMassPosition()), {q.x(), q.y(), q.z(), q.w()}, vec_of(b.getLinearVelocity()), vec_of(b.getAngularVelocity())};
    }

  private:
    btScalar dt;
    btDefaultCollisionConfiguration configuration;
    btCollisionDispatcher dispatcher{&configuration};
    btDbvtBroadphase broadphase;
    btSequentialImpulseConstraintSolver solver;
    JointsOnly world{&dispatcher, &broadphase, &solver, &configuration};
    btEmptyShape shape;
    std::vector<std::unique_ptr<btRigidBody>> bodies;
    std::vector<std::unique_ptr<btTypedConstraint>> constraints;

    void add(const Body &body) {
        btScalar mass = body.anchored ? 0 : 1 / body.inv_mass;
        btScalar inertia = body.anchored ? 0 : 1 / body.inv_inertia;
        btRigidBody::btRigidBodyConstructionInfo info(mass, nullptr, &shape, {inertia, inertia, inertia});
        const auto &r = body.rotation;
        info.m_startWorldTransform = btTransform({r[0], r[1], r[2], r[3]}, vector_of(body.position));
        bodies.push_back(std::make_unique<btRigidBody>(info));
        btRigidBody &added = *bodies.back();
        added.setLinearVelocity(vector_of(body.linear_velocity));
        added.setAngularVelocity(vector_of(body.angular_velocity));
        added.setActivationState(DISABLE_DEACTIVATION);
        world.addRigidBody(&added, 0, 0);
    }

    void add(const Joint &joint) {
        btRigidBody &body1 = *bodies[joint.body1], &body2 = *bodies[joint.body2];
        btVector3 pivot1 = vector_of(joint.anchor1), pivot2 = vector_of(joint.anchor2), axis = vector_of(joint.axis);
        if (joint.kind == BALL) {
            constraints.push_back(std::make_unique<btPoint2PointConstraint>(body1, body2, pivot1, pivot2));
        } else if (joint.kind == HINGE) {
            // The motor drives the first body against the second.
            auto hinge = std::make_unique<btHingeConstraint>(body2, body1, pivot2, pivot1, axis, axis);
            if (joint.driven)
                hinge->enableAngularMotor(true, joint.motor_velocity, joint.motor_cap * dt);
            constraints.push_back(std::move(hinge));
        } else {
            auto slider = std::make_unique<btSliderConstraint>(body1, body2, frame_of(joint.anchor1, joint.axis), frame_of(joint.anchor2, joint.axis), true);
            slider->setLowerLinLimit(1); // above the upper: free
            slider->setUpperLinLimit(-1);
            slider->setLowerAngLimit(0);
            slider->setUpperAngLimit(0);
            constraints.push_back(std::move(slider));
        }
        world.addConstraint(constraints.back().get(), true);
    }
};

} // namespace

std::unique_ptr<World> bullet(const Scene &scene) { return std::make_unique<Bullet>(scene); }
