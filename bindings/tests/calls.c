/* What linkage.h says of the calls, asked of the library: every refusal, the sizes, wrong lengths, conversions, null, alignment, threads, stack, environment. */
#define _XOPEN_SOURCE 700
#include <linkage.h>

#include <pthread.h>
#include <stdio.h>
#include <stdlib.h>
#include <string.h>
#include <ucontext.h>

#define EXPECT(fact) ((fact) ? (void)0 : fail(#fact, __LINE__))

static void fail(const char *fact, int line) {
    fprintf(stderr, "calls.c:%d: not so: %s\n", line, fact);
    exit(1);
}

/* A card: stars of tethers about body 0, which is anchored. */

enum { BODY = 94, JOINT = 123 };

struct card {
    uint8_t bytes[LINKAGE_MOST_CARD_BYTES + BODY + JOINT];
    size_t count;
};

static void put(uint8_t *at, uint32_t word, int bytes) {
    for (int n = 0; n < bytes; n++)
        at[n] = (uint8_t)(word >> 8 * (bytes - 1 - n));
}

static void put_float(uint8_t *at, float number) {
    uint32_t bits;
    memcpy(&bits, &number, sizeof bits);
    put(at, bits, 4);
}

/* Whether an edition has bodies' numbers of 8 bits, as 2 and 3 have. */
static int is_wide(uint32_t edition) {
    return edition == 2 || edition == 3;
}

/* A joint's bytes by the card's edition. */
static size_t joint_bytes(const struct card *card) {
    return card->bytes[0] == 3 ? JOINT + 4 : JOINT;
}

/* The header's bytes by its edition. */
static size_t header_of(const struct card *card) {
    return is_wide(card->bytes[0]) ? 16 : 12;
}

static void put_header(struct card *card, uint32_t edition, uint32_t bodies, uint32_t joints, uint32_t rate) {
    if (is_wide(edition)) {
        put(card->bytes, edition << 24 | bodies << 16 | joints << 8 | rate >> 8, 4);
        put(card->bytes + 4, rate << 24, 4);
    } else {
        put(card->bytes, edition << 24 | bodies << 18 | joints << 12 | rate << 2, 4);
    }
    card->count = header_of(card) + BODY * bodies + joint_bytes(card) * joints;
}

static uint8_t *gravity_of(struct card *card) {
    return card->bytes + header_of(card) - 8;
}

static uint8_t *body_of(struct card *card, uint32_t n) {
    return card->bytes + header_of(card) + BODY * n;
}

static uint8_t *joint_of(struct card *card, uint32_t bodies, uint32_t n) {
    return body_of(card, bodies) + joint_bytes(card) * n;
}

static void put_tether(const struct card *card, uint8_t *joint, uint32_t body1, uint32_t body2) {
    uint32_t edition_1 = body1 << 16 | body2 << 11 | UINT32_C(1) << 10;
    uint32_t edition_2 = body1 << 13 | body2 << 5 | UINT32_C(1) << 4;
    put(joint, UINT32_C(4) << 21 | (is_wide(card->bytes[0]) ? edition_2 : edition_1), 3);
    put_float(joint + 91, 1.5f); /* The limit's max. */
}

static struct card star(uint32_t edition, uint32_t bodies, uint32_t joints, uint32_t rate) {
    struct card card = {{0}, 0};
    put_header(&card, edition, bodies, joints, rate);
    put_float(gravity_of(&card), -9.75f);
    for (uint32_t n = 0; n < bodies; n++) {
        uint8_t *body = body_of(&card, n);
        put(body, n ? 0 : 0x8000, 2);
        put_float(body + 2, (float)n);
        put_float(body + 26, 1);
        put_float(body + 66, n ? 0.5f : 0);
    }
    for (uint32_t n = 0; n < joints; n++)
        put_tether(&card, joint_of(&card, bodies, n), 0, 1 + n % (bodies - 1));
    return card;
}

/* Each call on a card and a state. The counts begin as no call writes them. */

enum { UNWRITTEN = 0x5a5a5a5a };

static uint32_t run(const struct card *card, float *state, size_t numbers, uint32_t ticks, uint32_t *done) {
    *done = UNWRITTEN;
    return linkage_run(card->bytes, card->count, state, numbers, ticks, done);
}

/* A conversion of a card that is refused: the slice is as it was. */
static void conversion_refused(const struct card *card, uint32_t edition, size_t bytes, uint32_t refusal) {
    static uint8_t out[LINKAGE_MOST_CARD_BYTES + 8], before[sizeof out];
    uint32_t length = UNWRITTEN;
    memset(out, 0xa5, sizeof out);
    memset(before, 0xa5, sizeof before);
    uint32_t (*convert)(const uint8_t *, size_t, uint8_t *, size_t, uint32_t *) = edition == 1 ? linkage_to_edition_1 : linkage_to_edition_2;
    EXPECT(convert(card->bytes, card->count, out, bytes, &length) == refusal && length == 0);
    EXPECT(memcmp(out, before, sizeof out) == 0);
}

static void card_refused(const struct card *card, uint32_t refusal) {
    float state[25] = {0}, before[25] = {0};
    uint32_t bodies = UNWRITTEN, joints = UNWRITTEN, numbers = UNWRITTEN, done;
    EXPECT(linkage_check(card->bytes, card->count) == refusal);
    EXPECT(linkage_sizes(card->bytes, card->count, &bodies, &joints, &numbers) == refusal);
    EXPECT(bodies == 0 && joints == 0 && numbers == 0);
    EXPECT(linkage_start(card->bytes, card->count, state, 25) == refusal);
    EXPECT(linkage_tick(card->bytes, card->count, state, 25) == refusal);
    EXPECT(run(card, state, 25, 3, &done) == refusal && done == 0);
    EXPECT(memcmp(state, before, sizeof state) == 0);
    for (uint32_t edition = 1; edition <= 2; edition++) {
        uint32_t from = 3 - edition;
        uint32_t conversion = card->count < 12 || card->bytes[0] == from ? refusal : LINKAGE_WRONG_EDITION;
        conversion_refused(card, edition, LINKAGE_MOST_CARD_BYTES, conversion);
    }
}

static uint32_t numbers_of(const struct card *card) {
    uint32_t bodies, joints, numbers;
    EXPECT(linkage_sizes(card->bytes, card->count, &bodies, &joints, &numbers) == LINKAGE_DONE);
    EXPECT(numbers == LINKAGE_BODY_NUMBERS * bodies + LINKAGE_JOINT_NUMBERS * joints);
    return numbers;
}

/* Refusals. */

static void header_refusals(uint32_t edition) {
    struct card card = star(edition, 2, 1, 240);
    for (card.count = 0; card.count < 12; card.count++)
        card_refused(&card, LINKAGE_SHORT_CARD);
    for (; card.count < header_of(&card) + 2 * BODY + joint_bytes(&card); card.count++)
        card_refused(&card, LINKAGE_WRONG_LENGTH);
    EXPECT(linkage_check(card.bytes, card.count) == LINKAGE_DONE);
    card.count++;
    card_refused(&card, LINKAGE_WRONG_LENGTH);
    put_header(&card, edition, 0, 1, 240);
    card_refused(&card, LINKAGE_WRONG_COUNTS);
}

static void record_refusals(uint32_t edition) {
    struct card card = star(edition, 3, 1, 240);
    uint8_t *joint = joint_of(&card, 3, 0);
    joint[2] |= 1;
    card_refused(&card, LINKAGE_UNUSED_BITS);
    joint[2] ^= 1;
    body_of(&card, 1)[0] |= 1;
    card_refused(&card, LINKAGE_DOMINANCE);
    body_of(&card, 1)[0] ^= 1;
    put(gravity_of(&card), 0x7fc00000, 4);
    card_refused(&card, LINKAGE_FLOAT_OUT_OF_RANGE);
    put_float(gravity_of(&card), 0);
    joint[0] ^= 0xa0; /* A hinge. */
    put_float(joint + 91, 8);
    card_refused(&card, LINKAGE_ANGLE_LIMIT);
    joint[0] ^= 0xa0;
    put_float(joint + 91, 1.5f);
    put_float(joint + 87, 1.75f);
    card_refused(&card, LINKAGE_LIMIT_ORDER);
    put_float(joint + 87, 0);
    put_float(body_of(&card, 1) + 26, 1.5f);
    card_refused(&card, LINKAGE_NOT_UNIT);
    put_float(body_of(&card, 1) + 26, 1);
    for (uint32_t body2 = 0; body2 < 4; body2 += 3) {
        put_tether(&card, joint, 0, body2);
        card_refused(&card, LINKAGE_WRONG_BODIES);
    }
    put_tether(&card, joint, 2, 1);
    EXPECT(linkage_check(card.bytes, card.count) == LINKAGE_DONE);
}

/* A card of edition 1 or 2 as it is drawn in both: over, back, a byte too short, past the result, and what edition 1 has no room for. One of edition 3. */
static void conversions(void) {
    const struct card first = star(1, 32, 32, 1000), second = star(2, 32, 32, 1000), third = star(3, 32, 32, 1000);
    static uint8_t out[LINKAGE_MOST_CARD_BYTES];
    uint32_t length = UNWRITTEN;
    memset(out, 0xa5, sizeof out);
    EXPECT(linkage_to_edition_2(first.bytes, first.count, out, sizeof out, &length) == LINKAGE_DONE && length == second.count);
    EXPECT(memcmp(out, second.bytes, length) == 0 && out[length] == 0xa5);
    EXPECT(linkage_to_edition_1(second.bytes, second.count, out, first.count, &length) == LINKAGE_DONE && length == first.count);
    EXPECT(memcmp(out, first.bytes, length) == 0);
    conversion_refused(&first, 2, second.count - 1, LINKAGE_CONVERSION);
    conversion_refused(&second, 1, first.count - 1, LINKAGE_CONVERSION);
    conversion_refused(&first, 1, LINKAGE_MOST_CARD_BYTES, LINKAGE_WRONG_EDITION);
    conversion_refused(&second, 2, LINKAGE_MOST_CARD_BYTES, LINKAGE_WRONG_EDITION);
    conversion_refused(&third, 1, LINKAGE_MOST_CARD_BYTES, LINKAGE_WRONG_EDITION);
    conversion_refused(&third, 2, LINKAGE_MOST_CARD_BYTES, LINKAGE_WRONG_EDITION);
    const struct card large[] = {star(2, 33, 32, 1000), star(2, 32, 33, 1000), star(2, 32, 32, 1001), star(2, 200, 200, 4000)};
    for (size_t n = 0; n < sizeof large / sizeof *large; n++)
        conversion_refused(&large[n], 1, LINKAGE_MOST_CARD_BYTES, LINKAGE_CONVERSION);
}

static void state_refusals(void) {
    struct card card = star(1, 2, 1, 240);
    float state[39], before[39];
    uint32_t done;
    for (uint32_t numbers = 0; numbers <= 40; numbers++) {
        float foreign[40] = {1}, kept[40] = {1};
        uint32_t refusal = numbers == 39 ? LINKAGE_DONE : LINKAGE_STATE_LENGTH;
        EXPECT(run(&card, foreign, numbers, 0, &done) == refusal && done == 0);
        if (!refusal)
            continue;
        EXPECT(linkage_start(card.bytes, card.count, foreign, numbers) == refusal);
        EXPECT(linkage_tick(card.bytes, card.count, foreign, numbers) == refusal);
        EXPECT(run(&card, foreign, numbers, 3, &done) == refusal && done == 0);
        EXPECT(memcmp(foreign, kept, sizeof foreign) == 0);
    }
    EXPECT(linkage_start(card.bytes, card.count, state, 39) == LINKAGE_DONE);
    state[2 * LINKAGE_BODY_NUMBERS + LINKAGE_BROKEN] = 2;
    EXPECT(linkage_tick(card.bytes, card.count, state, 39) == LINKAGE_JOINT_MARK);
    EXPECT(run(&card, state, 39, 3, &done) == LINKAGE_JOINT_MARK && done == 0);
    EXPECT(run(&card, state, 39, 0, &done) == LINKAGE_DONE && done == 0);
    state[LINKAGE_BODY_NUMBERS + LINKAGE_POSITION] = 4097;
    EXPECT(linkage_tick(card.bytes, card.count, state, 39) == LINKAGE_STATE_NUMBER);
    EXPECT(run(&card, state, 39, 3, &done) == LINKAGE_STATE_NUMBER && done == 0);
    struct card free_bodies = star(1, 2, 0, 16);
    EXPECT(linkage_start(free_bodies.bytes, free_bodies.count, state, 26) == LINKAGE_DONE);
    state[LINKAGE_BODY_NUMBERS + LINKAGE_POSITION] = 4090;
    state[LINKAGE_BODY_NUMBERS + LINKAGE_LINEAR_VELOCITY] = 64;
    memcpy(before, state, sizeof before);
    EXPECT(run(&free_bodies, state, 26, 2, &done) == LINKAGE_STOPPED && done == 1);
    EXPECT(memcmp(state, before, 26 * sizeof *state) == 0);
    EXPECT(run(&free_bodies, state, 26, 1, &done) == LINKAGE_DONE && done == 1);
    EXPECT(linkage_tick(free_bodies.bytes, free_bodies.count, state, 26) == LINKAGE_STOPPED);
}

/* The rows of linkage_editions. */

static int is_known(uint32_t edition) {
    for (size_t n = 0; n < LINKAGE_EDITIONS; n++)
        if (linkage_editions[n].edition == edition)
            return 1;
    return 0;
}

static void edition_limits(const struct linkage_edition *e) {
    struct card largest = star(e->edition, e->most_bodies, e->most_joints, e->fastest);
    EXPECT(e->body_bytes == BODY && e->joint_bytes == joint_bytes(&largest));
    EXPECT(header_of(&largest) == e->header_bytes && largest.count <= LINKAGE_MOST_CARD_BYTES);
    EXPECT(numbers_of(&largest) <= LINKAGE_MOST_STATE_NUMBERS);
    for (uint32_t more = 0; more < 2; more++) {
        put_header(&largest, e->edition, e->most_bodies + more, e->most_joints + 1 - more, e->slowest);
        card_refused(&largest, LINKAGE_WRONG_COUNTS);
        put_header(&largest, e->edition, e->most_bodies, e->most_joints, more ? e->fastest + 1 : e->slowest - 1);
        card_refused(&largest, LINKAGE_WRONG_RATE);
    }
}

static void editions(void) {
    struct card largest = star(3, 200, 200, 4000);
    EXPECT(LINKAGE_EDITIONS == 3 && largest.count == LINKAGE_MOST_CARD_BYTES && numbers_of(&largest) == LINKAGE_MOST_STATE_NUMBERS);
    for (size_t n = 0; n < LINKAGE_EDITIONS; n++)
        edition_limits(&linkage_editions[n]);
    for (uint32_t edition = 0; edition < 256; edition++) {
        struct card card = star(edition, 2, 1, 240);
        EXPECT(linkage_check(card.bytes, card.count) == (is_known(edition) ? LINKAGE_DONE : LINKAGE_WRONG_EDITION));
    }
}

/* Null with length 0, and cards at any address. */

static void nulls(void) {
    struct card card = star(1, 2, 1, 240);
    float state[39];
    uint32_t bodies, joints, numbers, done, length;
    EXPECT(linkage_check(NULL, 0) == LINKAGE_SHORT_CARD);
    EXPECT(linkage_sizes(NULL, 0, &bodies, &joints, &numbers) == LINKAGE_SHORT_CARD);
    EXPECT(linkage_start(NULL, 0, state, 39) == LINKAGE_SHORT_CARD);
    EXPECT(linkage_start(NULL, 0, NULL, 0) == LINKAGE_SHORT_CARD);
    EXPECT(linkage_tick(NULL, 0, NULL, 0) == LINKAGE_SHORT_CARD);
    EXPECT(linkage_run(NULL, 0, NULL, 0, 3, &done) == LINKAGE_SHORT_CARD);
    EXPECT(linkage_start(card.bytes, card.count, NULL, 0) == LINKAGE_STATE_LENGTH);
    EXPECT(linkage_tick(card.bytes, card.count, NULL, 0) == LINKAGE_STATE_LENGTH);
    EXPECT(linkage_run(card.bytes, card.count, NULL, 0, 0, &done) == LINKAGE_STATE_LENGTH);
    EXPECT(linkage_run(card.bytes, card.count, NULL, 0, 3, &done) == LINKAGE_STATE_LENGTH);
    EXPECT(linkage_to_edition_1(NULL, 0, NULL, 0, &length) == LINKAGE_SHORT_CARD);
    EXPECT(linkage_to_edition_2(NULL, 0, NULL, 0, &length) == LINKAGE_SHORT_CARD);
    EXPECT(linkage_to_edition_2(card.bytes, card.count, NULL, 0, &length) == LINKAGE_CONVERSION);
}

/* The state after so many ticks. */
static void ran(const struct card *card, uint32_t ticks, float *state) {
    uint32_t numbers = numbers_of(card), done;
    EXPECT(linkage_start(card->bytes, card->count, state, numbers) == LINKAGE_DONE);
    EXPECT(run(card, state, numbers, ticks, &done) == LINKAGE_DONE && done == ticks);
}

/* The second tether is taut from the start, and bears 1 N; the first is slack. */
static void breaking(void) {
    struct card card = star(3, 3, 2, 240);
    put_float(joint_of(&card, 3, 1) + JOINT, 1);
    float state[65], none[LINKAGE_BROKEN] = {0};
    const float *first = state + 3 * LINKAGE_BODY_NUMBERS, *second = first + LINKAGE_JOINT_NUMBERS;
    ran(&card, 0, state);
    EXPECT(first[LINKAGE_BROKEN] == 0 && second[LINKAGE_BROKEN] == 0);
    ran(&card, 1, state);
    EXPECT(first[LINKAGE_BROKEN] == 0 && second[LINKAGE_BROKEN] == 1 && second[0] != 0);
    for (uint32_t ticks = 2; ticks < 10; ticks++) {
        ran(&card, ticks, state);
        EXPECT(first[LINKAGE_BROKEN] == 0 && second[LINKAGE_BROKEN] == 1 && memcmp(second, none, sizeof none) == 0);
    }
    put_float(joint_of(&card, 3, 1) + JOINT, -1);
    EXPECT(linkage_check(card.bytes, card.count) == LINKAGE_FLOAT_OUT_OF_RANGE);
}

static void addresses(void) {
    struct card card = star(1, 5, 4, 240);
    float state[LINKAGE_MOST_STATE_NUMBERS], other[LINKAGE_MOST_STATE_NUMBERS];
    uint32_t numbers = numbers_of(&card), done;
    ran(&card, 50, state);
    for (size_t n = 0; n < 16; n++) {
        uint8_t moved[LINKAGE_MOST_CARD_BYTES + 16];
        memcpy(moved + n, card.bytes, card.count);
        EXPECT(linkage_start(moved + n, card.count, other, numbers) == LINKAGE_DONE);
        EXPECT(linkage_run(moved + n, card.count, other, numbers, 50, &done) == LINKAGE_DONE);
        EXPECT(memcmp(state, other, numbers * sizeof *state) == 0);
    }
}

/* Four threads, each with its own state, by turns on two cards. */

struct job {
    const struct card *card;
    float state[LINKAGE_MOST_STATE_NUMBERS];
};

static void *work(void *job) {
    for (int round = 0; round < 50; round++)
        ran(((struct job *)job)->card, 200, ((struct job *)job)->state);
    return NULL;
}

static void threads(void) {
    struct card cards[2] = {star(3, 40, 40, 4000), star(1, 3, 2, 500)};
    static struct job jobs[4];
    pthread_t thread[4];
    for (int n = 0; n < 4; n++) {
        jobs[n].card = &cards[n % 2];
        EXPECT(pthread_create(&thread[n], NULL, work, &jobs[n]) == 0);
    }
    for (int n = 0; n < 4; n++) {
        float alone[LINKAGE_MOST_STATE_NUMBERS];
        EXPECT(pthread_join(thread[n], NULL) == 0);
        ran(&cards[n % 2], 200, alone);
        EXPECT(memcmp(jobs[n].state, alone, numbers_of(&cards[n % 2]) * sizeof *alone) == 0);
    }
}

/* Stack: every call on one that is filled with a pattern. */

static uint8_t stack[2 * LINKAGE_STACK_BYTES];
static struct card stack_card;

static void on_stack(void) {
    static float state[LINKAGE_MOST_STATE_NUMBERS];
    static uint8_t out[LINKAGE_MOST_CARD_BYTES];
    uint32_t bodies, joints, numbers, done, length;
    linkage_check(stack_card.bytes, stack_card.count);
    linkage_sizes(stack_card.bytes, stack_card.count, &bodies, &joints, &numbers);
    linkage_start(stack_card.bytes, stack_card.count, state, numbers);
    linkage_tick(stack_card.bytes, stack_card.count, state, numbers);
    linkage_run(stack_card.bytes, stack_card.count, state, numbers, 5, &done);
    linkage_to_edition_1(stack_card.bytes, stack_card.count, out, sizeof out, &length);
    linkage_to_edition_2(stack_card.bytes, stack_card.count, out, sizeof out, &length);
}

/* The most that the calls take for a card. */
static size_t stack_of(struct card card) {
    ucontext_t here, there;
    stack_card = card;
    memset(stack, 0x5a, sizeof stack);
    EXPECT(getcontext(&there) == 0);
    there.uc_stack.ss_sp = stack;
    there.uc_stack.ss_size = sizeof stack;
    there.uc_link = &here;
    makecontext(&there, on_stack, 0);
    EXPECT(swapcontext(&here, &there) == 0);
    size_t untouched = 0;
    while (untouched < sizeof stack && stack[untouched] == 0x5a)
        untouched++;
    return sizeof stack - untouched;
}

static void stack_depth(void) {
    size_t any = stack_of(star(3, 200, 200, 4000));
    EXPECT(any > LINKAGE_STACK_BYTES / 2 && any < LINKAGE_STACK_BYTES);
    for (uint32_t edition = 1; edition <= LINKAGE_EDITIONS; edition++) {
        size_t small = stack_of(star(edition, 32, 32, 240));
        EXPECT(small > LINKAGE_SMALL_STACK_BYTES / 2 && small < LINKAGE_SMALL_STACK_BYTES);
    }
}

static void environment(void) {
    const uint32_t own = _mm_getcsr(), wrong = 0xffc0 & ~UINT32_C(0x1f80);
    _mm_setcsr(wrong);
    uint32_t before = linkage_enter_environment();
    uint32_t inside = _mm_getcsr();
    linkage_leave_environment(before);
    uint32_t after = _mm_getcsr();
    _mm_setcsr(own);
    EXPECT(before == wrong && inside == 0x1f80 && after == wrong);
}

int main(void) {
    for (uint32_t edition = 1; edition <= LINKAGE_EDITIONS; edition++) {
        header_refusals(edition);
        record_refusals(edition);
    }
    state_refusals();
    editions();
    conversions();
    nulls();
    breaking();
    addresses();
    threads();
    stack_depth();
    environment();
    return 0;
}
