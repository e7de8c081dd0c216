/* example CARD: the poses of a card's bodies after one tick and after 99 more, or as many as are not refused, as the program writes them.
 * The status is 1 where the card or a tick is refused, 2 where the card can't be read or the poses can't be written. */
#include <linkage.h>

#include <inttypes.h>
#include <stdio.h>
#include <string.h>

static void print_poses(uint32_t tick, const float *state, uint32_t bodies) {
    for (uint32_t body = 0; body < bodies; body++) {
        printf("%" PRIu32 " %" PRIu32, tick, body);
        for (unsigned n = 0; n < LINKAGE_LINEAR_VELOCITY; n++) {
            uint32_t bits;
            memcpy(&bits, &state[LINKAGE_BODY_NUMBERS * body + n], sizeof bits);
            printf(" %08" PRIx32, bits);
        }
        printf("\n");
    }
}

static uint32_t run_card(const uint8_t *card, size_t bytes) {
    float state[LINKAGE_MOST_STATE_NUMBERS];
    uint32_t bodies, joints, numbers, done;
    uint32_t refusal = linkage_sizes(card, bytes, &bodies, &joints, &numbers);
    if (!refusal)
        refusal = linkage_start(card, bytes, state, numbers);
    if (!refusal)
        refusal = linkage_tick(card, bytes, state, numbers);
    if (refusal)
        return refusal;
    print_poses(1, state, bodies);
    refusal = linkage_run(card, bytes, state, numbers, 99, &done);
    if (refusal) /* None of the 99 is in the state: make those before the refused one. */
        linkage_run(card, bytes, state, numbers, done, &done);
    if (done)
        print_poses(1 + done, state, bodies);
    return refusal;
}

int main(int count, char **words) {
    static uint8_t card[LINKAGE_MOST_CARD_BYTES + 1]; /* Of a longer file this is enough to be refused. */
    FILE *file = count == 2 ? fopen(words[1], "rb") : NULL;
    size_t bytes = file ? fread(card, 1, sizeof card, file) : 0;
    if (!file || ferror(file)) {
        fprintf(stderr, "usage: example CARD\n");
        return 2;
    }
    fclose(file);
    uint32_t before = linkage_enter_environment();
    uint32_t refusal = run_card(card, bytes);
    linkage_leave_environment(before);
    if (refusal) {
        printf("refused %" PRIu32 "\n", refusal);
        fprintf(stderr, "example: %s\n", linkage_text(refusal));
    }
    if (fflush(stdout) || ferror(stdout))
        return 2;
    return refusal ? 1 : 0;
}
