/* The linkage table's calls for C and C++ on x86-64: link liblinkage.a and -lm.
 *
 * Card and state. A card is any bytes, of any edition. A state has LINKAGE_BODY_NUMBERS floats for each of the card's bodies (position, rotation x y z w, linear
 * and angular velocity) and then LINKAGE_JOINT_NUMBERS for each of its joints (its pushes, and last 0 for whole or 1 for broken); linkage_sizes says how many that
 * is for a card, and another length is refused by 11.
 *
 * Answers. Each call takes any bytes and any floats, ends, and answers 0 or the number of a refusal (docs/CARD.md), and then the state, or the slice for a result, is as
 * it was. A count that a pointer leads to is written by every call that takes it, refused or not, and is not read; that pointer must not be null. errno may change.
 *
 * Null. The pointer of a card of 0 bytes, a state of 0 floats or a slice of 0 bytes for a result is not followed and may be null: the answers are 1 and, after the
 * card's refusals, 11 and 16.
 *
 * Threads. The library has no variables and takes nothing from the heap: any number of threads may be in it at a time, each with its own state. They may share a
 * card, as long as nobody writes it meanwhile.
 *
 * Overlap. What a call writes, a state, a result and counts, must not overlap with each other or with the card. The calls do not look at this.
 *
 * Alignment. A card and a result may stand at any address. States and counts are aligned as float and uint32_t are.
 *
 * Stack. A call takes less than LINKAGE_STACK_BYTES of the caller's stack, and for a card of up to 32 bodies and 32 joints less than LINKAGE_SMALL_STACK_BYTES.
 *
 * Environment. The calls need the floating-point environment with which a C program begins: round to nearest, flush-to-zero and denormals-are-zero off (a program
 * that is linked with -Ofast or -ffast-math has them on), and exceptions masked, since a quotient may be worked out where it is not taken. They do not look at it:
 * in another environment a state has other bits, or the program ends by SIGFPE. linkage_enter_environment and linkage_leave_environment, or in C++ a variable of
 * the class linkage_environment, put a call into its environment and the host back into its own.
 */
#ifndef LINKAGE_H
#define LINKAGE_H

#ifndef __x86_64__
#error "liblinkage.a is for x86-64"
#endif

#include <stddef.h>
#include <stdint.h>
#include <xmmintrin.h>

#define LINKAGE_VERSION "0.1.0"

/* An edition of the card, which is a card's first byte: the bytes of a header, a body and a joint, how many bodies and joints there may be, and the ticks a
 * second. */
struct linkage_edition {
    uint32_t edition, header_bytes, body_bytes, joint_bytes, most_bodies, most_joints, slowest, fastest;
};

/* The editions that the calls know, LINKAGE_EDITIONS of them. */
static const struct linkage_edition linkage_editions[] = {
    {1, 12, 94, 123, 32, 32, 16, 1000},
    {2, 16, 94, 123, 200, 200, 16, 4000},
    {3, 16, 94, 127, 200, 200, 16, 4000},
};

enum {
    LINKAGE_EDITIONS = sizeof linkage_editions / sizeof linkage_editions[0],
    /* The floats of a body and of a joint in the state. */
    LINKAGE_BODY_NUMBERS = 13,
    LINKAGE_JOINT_NUMBERS = 13,
    /* Where they begin among a body's. */
    LINKAGE_POSITION = 0,
    LINKAGE_ROTATION = 3,
    LINKAGE_LINEAR_VELOCITY = 7,
    LINKAGE_ANGULAR_VELOCITY = 10,
    /* Where 0 for whole or 1 for broken stands among a joint's. */
    LINKAGE_BROKEN = 12,
    /* The largest of all editions. */
    LINKAGE_MOST_CARD_BYTES = 16 + 94 * 200 + 127 * 200,
    LINKAGE_MOST_STATE_NUMBERS = LINKAGE_BODY_NUMBERS * 200 + LINKAGE_JOINT_NUMBERS * 200,
    LINKAGE_STACK_BYTES = 120 * 1024,
    LINKAGE_SMALL_STACK_BYTES = 28 * 1024
};

/* What a call answers: the first that applies. */
enum linkage_answer {
    LINKAGE_DONE = 0,
    LINKAGE_SHORT_CARD = 1,         /* The card has under 12 bytes. */
    LINKAGE_WRONG_EDITION = 2,      /* Its edition is none of linkage_editions, or not the one that a conversion starts from. */
    LINKAGE_WRONG_COUNTS = 3,       /* There are no bodies, or over as many bodies or joints as its edition has. */
    LINKAGE_WRONG_RATE = 4,         /* The rate is outside its edition's slowest to fastest. */
    LINKAGE_WRONG_LENGTH = 5,       /* The length is not that of its edition's header, its bodies and its joints. */
    LINKAGE_UNUSED_BITS = 6,        /* A zero bit, or a bit of a field without use in its record, is set, or a kind, limit or motor bit does not fit. */
    LINKAGE_FLOAT_OUT_OF_RANGE = 7, /* A float is not finite or over 1,024 in size (a cap and a breaking load: FLT_MAX), or one that may not be is below zero: a
                                       compliance, an inverse mass, a cap, a breaking load, the warm coefficient. */
    LINKAGE_LIMIT_ORDER = 8,        /* A limit's min is above its max. */
    LINKAGE_NOT_UNIT = 9,           /* The squares of a used rotation, basis or axis do not sum to 1, give or take 2^-10. */
    LINKAGE_WRONG_BODIES = 10,      /* A joint names a missing body, one body twice, or two anchored ones. */
    LINKAGE_STATE_LENGTH = 11,      /* The state has a wrong length. */
    LINKAGE_STATE_NUMBER = 12,      /* On a tick, a number of the state is not finite, or a position coordinate is over 4,096 in size. */
    LINKAGE_STOPPED = 13,           /* The tick is stopped: after a joint's solve one of its numbers or of its two bodies', or at the end a new number of the
                                       state, is not finite, or a new position coordinate is over 4,096 in size. */
    LINKAGE_CONVERSION = 16,        /* Asked by a conversion alone, after the card's refusals. The card has over 32 bodies or joints or a rate over 1,000 and is to
                                       be of edition 1, or the slice is too short for the result. */
    LINKAGE_DOMINANCE = 17,         /* Asked directly after 6. A moving body's dominance is not zero: the card is to be redrawn with an anchored body. */
    LINKAGE_ANGLE_LIMIT = 19,       /* Asked directly after 7. A limit of a hinge or a ball has a min or max over 7 in size. */
    LINKAGE_JOINT_MARK = 21         /* Asked directly after 12. A joint's last number in the state has other bits than those of 0 and 1. */
};

/* An answer in words. */
static inline const char *linkage_text(uint32_t answer) {
    switch (answer) {
    case LINKAGE_DONE: return "done";
    case LINKAGE_SHORT_CARD: return "the card is shorter than its header";
    case LINKAGE_WRONG_EDITION: return "the card's edition is not known, or not the one that is converted";
    case LINKAGE_WRONG_COUNTS: return "the card has no bodies, or too many bodies or joints";
    case LINKAGE_WRONG_RATE: return "the card's rate is too low or too high";
    case LINKAGE_WRONG_LENGTH: return "the card is not as long as its bodies and joints ask for";
    case LINKAGE_UNUSED_BITS: return "a field of the card that has no use here is not zero, or a joint's kind, limits and motor do not go together";
    case LINKAGE_FLOAT_OUT_OF_RANGE: return "a number of the card is not finite, too large, or below zero where it may not be";
    case LINKAGE_LIMIT_ORDER: return "a joint's lower limit is above its upper one";
    case LINKAGE_NOT_UNIT: return "a rotation, basis or axis of the card does not have length 1";
    case LINKAGE_WRONG_BODIES: return "a joint's two bodies are not two, are not there, or are both anchored";
    case LINKAGE_STATE_LENGTH: return "the state is not as long as the card's bodies and joints ask for";
    case LINKAGE_STATE_NUMBER: return "a number of the state is not finite, or a body is too far out";
    case LINKAGE_STOPPED: return "the tick would leave a number that is not finite, or a body too far out";
    case LINKAGE_CONVERSION: return "the card is too large or too fast for the other edition, or the slice too short for its bytes";
    case LINKAGE_DOMINANCE: return "a body of the card has a dominance, which is no longer known: an anchored body is to take its place";
    case LINKAGE_ANGLE_LIMIT: return "an angle limit of a hinge or a ball is over 7 radians in size";
    case LINKAGE_JOINT_MARK: return "a joint of the state is neither whole nor broken";
    default: return "an answer that this version does not know";
    }
}

#ifdef __cplusplus
extern "C" {
#endif

/* A card's refusals: those up to 10, 17 and 19. */
uint32_t linkage_check(const uint8_t *card, size_t card_bytes);

/* A card's bodies and joints, and the floats of its state; zeros where the card is refused. */
uint32_t linkage_sizes(const uint8_t *card, size_t card_bytes, uint32_t *bodies, uint32_t *joints, uint32_t *numbers);

/* The start state of a card. */
uint32_t linkage_start(const uint8_t *card, size_t card_bytes, float *state, size_t state_numbers);

/* One tick. */
uint32_t linkage_tick(const uint8_t *card, size_t card_bytes, float *state, size_t state_numbers);

/* Ticks in a row, all or none: where one is refused, the state is as it was, and done is how many were made before it. 0 ticks are refused by 1 to 11 alone. */
uint32_t linkage_run(const uint8_t *card, size_t card_bytes, float *state, size_t state_numbers, uint32_t ticks, uint32_t *done);

/* A card of edition 2 as one of edition 1, or the other way, with every other field as it is, written to the front of a slice, and its length in bytes; 0 where
 * it is refused. A card converted and converted back has the same bytes. */
uint32_t linkage_to_edition_1(const uint8_t *card, size_t card_bytes, uint8_t *out, size_t out_bytes, uint32_t *length);
uint32_t linkage_to_edition_2(const uint8_t *card, size_t card_bytes, uint8_t *out, size_t out_bytes, uint32_t *length);

#ifdef __cplusplus
}
#endif

/* Sets the environment that the calls need, and gives the one before. The compiler does not know that arithmetic depends on it: have none of your own between
 * entering and leaving. */
static inline uint32_t linkage_enter_environment(void) {
    uint32_t before = _mm_getcsr();
    _mm_setcsr(0x1f80); /* Every exception masked and none raised, round to nearest, flush-to-zero and denormals-are-zero off. */
    return before;
}

static inline void linkage_leave_environment(uint32_t before) {
    _mm_setcsr(before);
}

#ifdef __cplusplus
/* Enters the environment, and leaves it at the end of its scope. */
class linkage_environment {
    const uint32_t before = linkage_enter_environment();

public:
    linkage_environment() = default;
    linkage_environment(const linkage_environment &) = delete;
    linkage_environment &operator=(const linkage_environment &) = delete;
    ~linkage_environment() {
        linkage_leave_environment(before);
    }
};
#endif

#endif
