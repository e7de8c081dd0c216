/* bare CARD: the bits of a card's state after 100 ticks in whatever environment the program is in. */
#include <linkage.h>

#include <inttypes.h>
#include <stdio.h>
#include <string.h>

int main(int count, char **words) {
    static uint8_t card[LINKAGE_MOST_CARD_BYTES];
    float state[LINKAGE_MOST_STATE_NUMBERS];
    uint32_t bodies, joints, numbers, done, bits;
    FILE *file = count == 2 ? fopen(words[1], "rb") : NULL;
    if (!file)
        return 2;
    size_t bytes = fread(card, 1, sizeof card, file);
    if (linkage_sizes(card, bytes, &bodies, &joints, &numbers) || linkage_start(card, bytes, state, numbers))
        return 1;
    if (linkage_run(card, bytes, state, numbers, 100, &done))
        return 1;
    for (uint32_t n = 0; n < numbers; n++) {
        memcpy(&bits, &state[n], sizeof bits);
        printf("%08" PRIx32 "\n", bits);
    }
    return 0;
}
