// peers ROUNDS: what a step costs, how far joints gape and how energy drifts, of the product and of its peers, as tables in Markdown. It runs in the
// repository's root, whose sample cards must be the mechanisms' own.
#include "world.h"

#include <algorithm>
#include <cmath>
#include <cstdio>
#include <cstdlib>
#include <fstream>
#include <iterator>
#include <limits>
#include <time.h>

namespace {

/// In a chain's time it makes 2,000 steps at the first rate.
constexpr uint32_t CHAIN_RATES[] = {240, 480, 960};
constexpr uint32_t CHAIN_STEPS = 2000;
/// Times are taken of so many steps at once.
constexpr uint32_t TIMED = 100;

constexpr uint32_t CARDS_RATE = 500;
constexpr uint32_t MECHANISM_RATES[] = {240, CARDS_RATE, 1000};
constexpr uint32_t MECHANISM_SECONDS = 8;

struct Program {
    const char *name;
    Maker make;
    bool balls;
};

const Program BY_TICK{"the linkage table, by `tick`", linkage_by_tick, true};
const Program OTHERS[] = {
    {"the linkage table, by `run`", linkage_by_run, true},
    {"ODE, QuickStep", ode_quick_step, true},
    {"ODE, Step", ode_step, true},
    {"Bullet", bullet, true},
    {"Box2D", box2d, false},
};

struct Chain {
    const char *name;
    Kind kind;
    bool hung;
};

const Chain CHAINS[] = {
    {"31 balls, hung and swinging", BALL, true},
    {"31 hinges, hung and swinging", HINGE, true},
    {"31 balls, level and let go", BALL, false},
    {"31 hinges, level and let go", HINGE, false},
};

[[noreturn]] void stop(const std::string &why) {
    std::fprintf(stderr, "peers: %s\n", why.c_str());
    std::exit(1);
}

/// NaN where either is.
double larger(double a, double b) { return a > b || std::isnan(a) ? a : b; }

/// Three digits that tell, or thousandths.
std::string figure(double number) {
    double size = std::abs(number);
    char text[32];
    std::snprintf(text, sizeof text, "%.*f", size >= 99.95 ? 0 : size >= 9.995 ? 1 : size >= 0.9995 ? 2 : 3, number);
    return text;
}

// -------------------------------------------------------------------------------------------------------------------------------- chains

/// What a chain does in its time: gaps in metres, energies in joules, less that of the start.
struct Course {
    double end_gap = 0, largest_gap = 0;
    double end_energy = 0, highest_energy = 0;
};

double largest_gap(const Scene &scene, const World &world) {
    double largest = 0;
    for (const Joint &joint : scene.joints)
        largest = larger(largest, gap(joint, world.motion(joint.body1), world.motion(joint.body2)));
    return largest;
}

double whole_energy(const Scene &scene, const World &world) {
    double sum = 0;
    for (uint32_t i = 0; i < scene.bodies.size(); i++)
        sum += energy(scene.bodies[i], world.motion(i), scene.gravity);
    return sum;
}

uint32_t chain_steps(uint32_t rate) { return CHAIN_STEPS * rate / CHAIN_RATES[0]; }

Course course(const Scene &scene, Maker make) {
    std::unique_ptr<World> world = make(scene);
    double start = whole_energy(scene, *world);
    Course course;
    for (uint32_t i = 0; i < chain_steps(scene.rate); i++) {
        world->run(1);
        course.end_gap = largest_gap(scene, *world);
        course.largest_gap = larger(course.largest_gap, course.end_gap);
        course.end_energy = whole_energy(scene, *world) - start;
        course.highest_energy = larger(course.highest_energy, course.end_energy);
    }
    return course;
}

double cpu_nanoseconds() {
    timespec time;
    clock_gettime(CLOCK_PROCESS_CPUTIME_ID, &time);
    return 1e9 * double(time.tv_sec) + double(time.tv_nsec);
}

/// A chain in one program, and the least time of each of its stretches over the rounds so far.
struct Case {
    const Program *program;
    Scene scene;
    std::vector<double> least;
};

void time_round(Case &timed) {
    std::unique_ptr<World> world = timed.program->make(timed.scene);
    for (double &least : timed.least) {
        double begun = cpu_nanoseconds();
        world->run(TIMED);
        least = std::min(least, cpu_nanoseconds() - begun);
    }
}

double for_step_and_joint(const Case &timed) {
    double sum = 0;
    for (double least : timed.least)
        sum += least;
    return sum / double(chain_steps(timed.scene.rate)) / double(timed.scene.joints.size());
}

void add_rates(const Chain &of, const Program &program, std::vector<Case> &cases) {
    for (uint32_t rate : CHAIN_RATES) {
        std::vector<double> least(chain_steps(rate) / TIMED, std::numeric_limits<double>::infinity());
        cases.push_back({&program, chain(of.kind, of.hung, rate), least});
    }
}

std::vector<Case> cases_of(const Chain &of) {
    std::vector<Case> cases;
    add_rates(of, BY_TICK, cases);
    for (const Program &program : OTHERS)
        if (program.balls || of.kind != BALL)
            add_rates(of, program, cases);
    return cases;
}

void time_cases(std::vector<Case> &cases) {
    for (Case &timed : cases)
        time_round(timed);
}

void print_chain(const Chain &of, const std::vector<Case> &cases) {
    std::printf("\n### %s\n\n", of.name);
    std::printf("| | steps a second | ns a step and joint | µs a second and joint | gap at the end, mm | largest gap, mm "
                "| energy at the end, J | highest energy, J |\n|---|---:|---:|---:|---:|---:|---:|---:|\n");
    for (const Case &timed : cases) {
        Course found = course(timed.scene, timed.program->make);
        double time = for_step_and_joint(timed);
        std::printf("| %s | %u | %.0f | %.0f | %s | %s | %+.1f | %+.1f |\n", timed.program->name, timed.scene.rate, time, time * timed.scene.rate / 1e3,
                    figure(1e3 * found.end_gap).c_str(), figure(1e3 * found.largest_gap).c_str(), found.end_energy, found.highest_energy);
    }
}

double farthest(const Scene &scene, const World &one, const World &other) {
    double farthest = 0;
    for (uint32_t i = 0; i < scene.bodies.size(); i++) {
        Vec3 a = one.motion(i).position, b = other.motion(i).position;
        farthest = larger(farthest, std::hypot(b[0] - a[0], b[1] - a[1], b[2] - a[2]));
    }
    return farthest;
}

/// A second on, each program has every link within a twentieth of a link of where ODE's most accurate method has it.
void assert_same_chain(bool hung) {
    Scene scene = chain(HINGE, hung, CHAIN_RATES[2]);
    std::unique_ptr<World> reference = ode_step(scene);
    reference->run(scene.rate);
    for (const Program &program : OTHERS) {
        std::unique_ptr<World> world = program.make(scene);
        world->run(scene.rate);
        double apart = farthest(scene, *world, *reference);
        if (!(apart < 0.05))
            stop(std::string(program.name) + ": a link is " + figure(apart) + " m from where ODE has it");
    }
}

void print_chains(int rounds) {
    std::vector<std::vector<Case>> cases;
    for (const Chain &of : CHAINS)
        cases.push_back(cases_of(of));
    for (int round = 0; round < rounds; round++)
        std::for_each(cases.begin(), cases.end(), time_cases);
    std::printf("\n## Chains\n\nTimes are the least of %d rounds.\n", rounds);
    for (size_t i = 0; i < cases.size(); i++)
        print_chain(CHAINS[i], cases[i]);
}

// ---------------------------------------------------------------------------------------------------------------------------- mechanisms

/// The mechanisms here are those of the sample cards, bit for bit.
void assert_sample_cards() {
    for (const Mechanism &mechanism : mechanisms(CARDS_RATE)) {
        std::string path = "cards/" + mechanism.card + ".card";
        std::ifstream file(path, std::ios::binary);
        std::vector<uint8_t> bytes{std::istreambuf_iterator<char>(file), {}};
        if (bytes != card_of(mechanism.scene))
            stop(path + " is not the card of the mechanism here");
    }
}

double crank_angle(const Mechanism &mechanism, const World &world) {
    const auto rotation = world.motion(mechanism.crank).rotation;
    return 2 * std::atan2(rotation[2], rotation[3]);
}

/// How far the watched point is from where exact kinematics has it for the crank's angle, in metres.
double error(const Mechanism &mechanism, const World &world) {
    Point exact = mechanism.exact(crank_angle(mechanism, world));
    Vec3 point = world_point(world.motion(mechanism.watched), mechanism.point);
    return std::hypot(point[0] - exact[0], point[1] - exact[1], point[2]);
}

/// What a driven mechanism does in its time: the largest errors in metres, while it comes to speed and then, and by what angle the crank turned.
struct Turning {
    double first_error = 0, later_error = 0;
    double angle = 0;
};

Turning turning(const Mechanism &mechanism, Maker make) {
    std::unique_ptr<World> world = make(mechanism.scene);
    Turning turning;
    double angle = crank_angle(mechanism, *world);
    for (uint32_t i = 0; i < MECHANISM_SECONDS * mechanism.scene.rate; i++) {
        world->run(1);
        double &largest = i < mechanism.scene.rate ? turning.first_error : turning.later_error;
        largest = larger(largest, error(mechanism, *world));
        double next = crank_angle(mechanism, *world);
        turning.angle += std::remainder(next - angle, 2 * M_PI);
        angle = next;
    }
    return turning;
}

void print_turning(const Program &program, const Mechanism &mechanism) {
    Turning found = turning(mechanism, program.make);
    double speed = found.angle / MECHANISM_SECONDS / mechanism.scene.joints[0].motor_velocity;
    if (!(speed > 0.5))
        stop(std::string(program.name) + ": the crank of " + mechanism.card + " is not driven");
    std::printf("| %s | %u | %s | %s | %.1f |\n", program.name, mechanism.scene.rate, figure(1e3 * found.first_error).c_str(),
                figure(1e3 * found.later_error).c_str(), 100 * speed);
}

void print_rates(const Program &program, size_t which) {
    for (uint32_t rate : MECHANISM_RATES)
        print_turning(program, mechanisms(rate)[which]);
}

/// By `tick` the states are those by `run`.
void print_mechanism(size_t which) {
    std::printf("\n### %s\n\n", mechanisms(CARDS_RATE)[which].name.c_str());
    std::printf("| | steps a second | error in the first second, mm | error then, mm | crank's speed, %% of the motor's |\n|---|---:|---:|---:|---:|\n");
    for (const Program &program : OTHERS)
        print_rates(program, which);
}

void print_mechanisms() {
    std::printf("\n## Mechanisms\n");
    for (size_t which = 0; which < mechanisms(CARDS_RATE).size(); which++)
        print_mechanism(which);
}

} // namespace

int main(int count, char **words) {
    int rounds = count == 2 ? std::atoi(words[1]) : 0;
    if (rounds < 1)
        stop("usage: peers ROUNDS");
    assert_sample_cards();
    assert_same_chain(true);
    assert_same_chain(false);
    print_chains(rounds);
    print_mechanisms();
}
