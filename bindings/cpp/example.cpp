// example CARD: the poses of a card's bodies after one tick and after 99 more, or as many as are not refused, as the program writes them.
// The status is 1 where the card or a tick is refused, 2 where the card can't be read or the poses can't be written.
#include <linkage.h>

#include <cstdio>
#include <cstring>
#include <fstream>
#include <vector>

static void print_poses(uint32_t tick, const std::vector<float> &state, uint32_t bodies) {
    for (uint32_t body = 0; body < bodies; body++) {
        std::printf("%u %u", tick, body);
        for (unsigned n = 0; n < LINKAGE_LINEAR_VELOCITY; n++) {
            uint32_t bits;
            std::memcpy(&bits, &state[LINKAGE_BODY_NUMBERS * body + n], sizeof bits);
            std::printf(" %08x", bits);
        }
        std::printf("\n");
    }
}

static uint32_t run_card(const std::vector<uint8_t> &card) {
    const linkage_environment environment;
    uint32_t bodies, joints, numbers, done;
    if (uint32_t refusal = linkage_sizes(card.data(), card.size(), &bodies, &joints, &numbers))
        return refusal;
    std::vector<float> state(numbers);
    if (uint32_t refusal = linkage_start(card.data(), card.size(), state.data(), state.size()))
        return refusal;
    if (uint32_t refusal = linkage_tick(card.data(), card.size(), state.data(), state.size()))
        return refusal;
    print_poses(1, state, bodies);
    uint32_t refusal = linkage_run(card.data(), card.size(), state.data(), state.size(), 99, &done);
    if (refusal) // None of the 99 is in the state: make those before the refused one.
        linkage_run(card.data(), card.size(), state.data(), state.size(), done, &done);
    if (done)
        print_poses(1 + done, state, bodies);
    return refusal;
}

int main(int count, char **words) {
    std::vector<uint8_t> card(LINKAGE_MOST_CARD_BYTES + 1); // Of a longer file this is enough to be refused.
    std::ifstream file;
    if (count == 2)
        file.open(words[1], std::ios::binary);
    file.read(reinterpret_cast<char *>(card.data()), static_cast<std::streamsize>(card.size()));
    if (!file.is_open() || file.bad()) {
        std::fprintf(stderr, "usage: example CARD\n");
        return 2;
    }
    card.resize(static_cast<size_t>(file.gcount()));
    const uint32_t refusal = run_card(card);
    if (refusal) {
        std::printf("refused %u\n", refusal);
        std::fprintf(stderr, "example: %s\n", linkage_text(refusal));
    }
    if (std::fflush(stdout) || std::ferror(stdout))
        return 2;
    return refusal ? 1 : 0;
}
