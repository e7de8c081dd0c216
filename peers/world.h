// One program's form of a scene, and the programs that are measured.
#ifndef PEERS_WORLD_H
#define PEERS_WORLD_H

#include "scene.h"

#include <memory>

class World {
  public:
    World() = default;
    World(const World &) = delete;
    World &operator=(const World &) = delete;
    virtual ~World() = default;
    virtual void run(uint32_t steps) = 0;
    virtual Motion motion(uint32_t body) const = 0;
};

using Maker = std::unique_ptr<World> (*)(const Scene &scene);

/// The card that the product gets.
std::vector<uint8_t> card_of(const Scene &scene);

std::unique_ptr<World> linkage_by_tick(const Scene &scene);
std::unique_ptr<World> linkage_by_run(const Scene &scene);
std::unique_ptr<World> ode_quick_step(const Scene &scene);
std::unique_ptr<World> ode_step(const Scene &scene);
std::unique_ptr<World> bullet(const Scene &scene);
std::unique_ptr<World> box2d(const Scene &scene);

#endif
