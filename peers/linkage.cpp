// The product: document 01's card of a scene, and its calls.
#include "world.h"

extern "C" {
#include "../bindings/linkage.h"
}

#include <cstdlib>
#include <cstring>
#include <iostream>

namespace {

constexpr uint32_t EDITION = 1;
/// The motor whose model gives an acceleration.
constexpr uint32_t ACCELERATION = 2;

/// Bits, most significant first.
class Bits {
  public:
    std::vector<uint8_t> bytes;

    void put(unsigned width, uint32_t value) {
        for (unsigned i = width; i-- > 0; count++) {
            if (count % 8 == 0)
                bytes.push_back(0);
            bytes.back() |= uint8_t((value >> i & 1) << (7 - count % 8));
        }
    }

    void put_float(float number) {
        uint32_t bits;
        std::memcpy(&bits, &number, sizeof bits);
        put(32, bits);
    }

    template <class Numbers> void put_floats(const Numbers &numbers) {
        for (float number : numbers)
            put_float(number);
    }

  private:
    size_t count = 0;
};

void put_body(Bits &card, const Body &body) {
    float i = body.inv_inertia;
    card.put(1, body.anchored);
    card.put(15, 0); // no locks, dominance 0
    card.put_floats(body.position);
    card.put_floats(body.rotation);
    card.put_floats(std::array<float, 3>{}); // centre of mass
    card.put_floats(body.linear_velocity);
    card.put_floats(body.angular_velocity);
    card.put_float(body.inv_mass);
    card.put_floats(std::array<float, 6>{i, 0, 0, i, 0, i});
}

void put_joint(Bits &card, const Joint &joint) {
    std::array<float, 5> motor{};
    if (joint.driven)
        motor = {joint.motor_velocity, 0, joint.motor_cap, 0, 1}; // stiffness 0, damping 1
    card.put(3, joint.kind);
    card.put(5, joint.body1);
    card.put(5, joint.body2);
    card.put(2, 0); // no limits
    card.put(2, joint.driven ? ACCELERATION : 0);
    card.put(7, 0);
    card.put_floats(joint.anchor1);
    card.put_floats(joint.anchor2);
    card.put_floats(std::array<float, 4>{0, 0, 0, 1});
    card.put_floats(std::array<float, 4>{0, 0, 0, 1});
    card.put_floats(joint.axis);
    card.put_floats(std::array<float, 8>{}); // compliances, limits
    card.put_floats(motor);
}

class Linkage : public World {
  public:
    explicit Linkage(const Scene &scene) : card(card_of(scene)) {
        uint32_t bodies, joints, numbers;
        accept(linkage_sizes(card.data(), card.size(), &bodies, &joints, &numbers));
        state.resize(numbers);
        accept(linkage_start(card.data(), card.size(), state.data(), state.size()));
    }

    Motion motion(uint32_t body) const override {
        const float *n = &state[13 * body];
        return {{n[0], n[1], n[2]}, {n[3], n[4], n[5], n[6]}, {n[7], n[8], n[9]}, {n[10], n[11], n[12]}};
    }

  protected:
    std::vector<uint8_t> card;
    std::vector<float> state;

    static void accept(uint32_t refusal) {
        if (refusal) {
            std::cerr << "peers: refused " << refusal << "\n";
            std::exit(1);
        }
    }
};

class LinkageByTick : public Linkage {
  public:
    using Linkage::Linkage;

    void run(uint32_t steps) override {
        for (uint32_t i = 0; i < steps; i++)
            accept(linkage_tick(card.data(), card.size(), state.data(), state.size()));
    }
};

class LinkageByRun : public Linkage {
  public:
    using Linkage::Linkage;

    void run(uint32_t steps) override {
        uint32_t done;
        accept(linkage_run(card.data(), card.size(), state.data(), state.size(), steps, &done));
    }
};

} // namespace

std::vector<uint8_t> card_of(const Scene &scene) {
    Bits card;
    card.put(8, EDITION);
    card.put(6, uint32_t(scene.bodies.size()));
    card.put(6, uint32_t(scene.joints.size()));
    card.put(10, scene.rate);
    card.put(2, 0);
    card.put_floats(std::array<float, 2>{scene.gravity, 0}); // no warm start
    for (const Body &body : scene.bodies)
        put_body(card, body);
    for (const Joint &joint : scene.joints)
        put_joint(card, joint);
    return card.bytes;
}

std::unique_ptr<World> linkage_by_tick(const Scene &scene) { return std::make_unique<LinkageByTick>(scene); }
std::unique_ptr<World> linkage_by_run(const Scene &scene) { return std::make_unique<LinkageByRun>(scene); }
