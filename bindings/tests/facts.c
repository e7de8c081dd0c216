/* The version, the editions, the sizes and every answer's number and text by linkage.h, which the Rust package's example `facts` writes too. */
#include <linkage.h>

#include <inttypes.h>
#include <stdio.h>

int main(void) {
    printf("version %s\n", LINKAGE_VERSION);
    for (size_t n = 0; n < LINKAGE_EDITIONS; n++) {
        const struct linkage_edition *e = &linkage_editions[n];
        printf("edition %" PRIu32 ": %" PRIu32 " %" PRIu32 " %" PRIu32 " bytes, %" PRIu32 " bodies, %" PRIu32 " joints, rate %" PRIu32 " to %" PRIu32 "\n",
               e->edition, e->header_bytes, e->body_bytes, e->joint_bytes, e->most_bodies, e->most_joints, e->slowest, e->fastest);
    }
    printf("state %d %d, at most %d; card at most %d\n", LINKAGE_BODY_NUMBERS, LINKAGE_JOINT_NUMBERS, LINKAGE_MOST_STATE_NUMBERS, LINKAGE_MOST_CARD_BYTES);
    for (uint32_t answer = 1; answer <= 100; answer++)
        printf("%" PRIu32 " %s\n", answer, linkage_text(answer));
    return 0;
}
