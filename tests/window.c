/*
 * The judge of examples/window.c on damaged pickups. A pair of inverted bits of a time word may
 * make it unsure; it never calls a resend fresh, nor a fresh order a resend. With at most one
 * inverted bit in each frame, and a time frame without any, it is sure and right, so it does not
 * hold every order. Messages in a pickup never make it sure.
 */
#define main window_main
#include "../examples/window.c"
#undef main

#include <stdlib.h>

#define PLACES 31u
#define PAIRS 465u /* of 31 places */

static uint32_t pair_mask[PAIRS]; /* bit p - 1: place p is inverted */
static unsigned long judged, unsure;

/* The bit of a frame at a place, 1 to 31, of its time word. */
static unsigned bit_of_place(unsigned place)
{
    return 12 + place + (place > 6) + (place > 15) + (place > 24);
}

/* Inverts the places of a mask in the frame that begins at a bit. */
static void invert(struct pickup *p, size_t start, uint32_t mask)
{
    unsigned place;

    for (place = 1; place <= PLACES; place++)
        if (mask >> (place - 1) & 1)
            p->bits[start + bit_of_place(place)] ^= 1;
}

static enum verdict verdict_of(const struct pickup *first, const struct pickup *second)
{
    const struct pickup *which = NULL;
    const char *why = NULL;
    uint32_t apart = 0;
    enum verdict v = judge(first, second, &apart, &which, &why);

    judged++;
    if (v == NOT_SURE) {
        unsure++;
        if (which == NULL || why == NULL) {
            fprintf(stderr, "window: not sure, and nothing says why\n");
            exit(1);
        }
    }
    return v;
}

static void fail(const char *what, uint32_t first, uint32_t second, enum verdict v)
{
    static const char *const names[] = {"resend", "fresh", "not sure"};

    fprintf(stderr, "window: %s: minutes %u and %u are judged: %s\n", what, (unsigned)first,
            (unsigned)second, names[v]);
    exit(1);
}

static enum verdict truth(uint32_t a, uint32_t b)
{
    return (a < b ? b - a : a - b) < 10 ? RESEND : FRESH;
}

/* A damaged pickup is judged by a whole one, and the whole one by it: right or not sure. */
static void right_or_unsure(const char *what, const struct pickup *damaged, uint32_t damaged_minute,
                            const struct pickup *whole, uint32_t whole_minute)
{
    enum verdict v = verdict_of(whole, damaged);

    if (v != NOT_SURE && v != truth(whole_minute, damaged_minute))
        fail(what, whole_minute, damaged_minute, v);
    v = verdict_of(damaged, whole);
    if (v != NOT_SURE && v != truth(whole_minute, damaged_minute))
        fail(what, damaged_minute, whole_minute, v);
}

static void must_be(const char *what, enum verdict want, const struct pickup *damaged,
                    uint32_t damaged_minute, const struct pickup *whole, uint32_t whole_minute)
{
    enum verdict v = verdict_of(whole, damaged);

    if (v != want)
        fail(what, whole_minute, damaged_minute, v);
    v = verdict_of(damaged, whole);
    if (v != want)
        fail(what, damaged_minute, whole_minute, v);
}

/* The minute that a pickup's first frame is read as, repaired or not; 0 if it is refused. */
static int read_as(const struct pickup *p, uint32_t *minute)
{
    uint8_t entry[WWVB_ENTRY_SIZE];
    wwvb_read_reply r = wwvb_read_recording(p->bits, p->length, entry, sizeof entry);

    if (r.entries == 0)
        return 0;
    *minute = wwvb_entry_at(entry, 0).minute;
    return 1;
}

/* Whole pickups near and far, before and after. */
static void clean(uint32_t minute)
{
    static const int32_t apart[] = {0, 1, 9, 10, 11, 1000};
    unsigned i, frames;

    for (frames = 1; frames <= 3; frames += 2) {
        struct pickup a = take("a", minute, frames);

        for (i = 0; i < sizeof apart / sizeof *apart; i++) {
            uint32_t after = minute + (uint32_t)apart[i], before = minute - (uint32_t)apart[i];
            struct pickup b = take("b", after, frames), c = take("c", before, frames);

            must_be("whole pickups", truth(minute, after), &a, minute, &b, after);
            must_be("whole pickups", truth(minute, before), &a, minute, &c, before);
        }
    }
}

/* One frame, all pairs: not sure, by a near order, by a far one, and by one that the false minute
   would put inside the window, or outside it. */
static void pairs_in_one_frame(uint32_t minute)
{
    struct pickup near = take("near", minute - 3, 1), far = take("far", minute + 50, 1);
    unsigned i, far_away = 0, trapped = 0;

    for (i = 0; i < PAIRS; i++) {
        struct pickup damaged = take("damaged", minute, 1), trap;
        uint32_t false_minute;

        invert(&damaged, 0, pair_mask[i]);
        must_be("a pair in one frame", NOT_SURE, &damaged, minute, &near, minute - 3);
        must_be("a pair in one frame", NOT_SURE, &damaged, minute, &far, minute + 50);
        if (!read_as(&damaged, &false_minute))
            continue;
        if (false_minute == minute)
            fail("a pair in one frame is read as sent", minute, minute, NOT_SURE);
        far_away += truth(minute, false_minute) == FRESH;
        trap = take("trap", false_minute, 1);
        must_be("a pair in one frame", NOT_SURE, &damaged, minute, &trap, false_minute);
        trapped++;
    }
    /* the pairs are a real danger: a judge that looks at minutes alone gets these wrong */
    if (far_away < 150 || trapped < 150)
        fail("too few pairs make a false minute", minute, minute, NOT_SURE);
}

/* One inverted bit, or none, in each of three frames: sure and right if a frame has none. */
static void singles_in_three_frames(uint32_t minute)
{
    struct pickup near = take("near", minute + 9, 3), far = take("far", minute + 10, 3);
    unsigned a, b, c;

    for (a = 0; a <= PLACES; a++)
        for (b = 0; b <= PLACES; b++)
            for (c = 0; c <= PLACES; c++) {
                struct pickup damaged = take("damaged", minute, 3);
                int none = a == 0 || b == 0 || c == 0;

                invert(&damaged, 0, a == 0 ? 0 : 1u << (a - 1));
                invert(&damaged, 60, b == 0 ? 0 : 1u << (b - 1));
                invert(&damaged, 120, c == 0 ? 0 : 1u << (c - 1));
                must_be("single bits", none ? RESEND : NOT_SURE, &damaged, minute, &near,
                        minute + 9);
                must_be("single bits", none ? FRESH : NOT_SURE, &damaged, minute, &far,
                        minute + 10);
            }
}

/* A pair in one of three frames, with one inverted bit or none in each of the others: the reading is
   refused there or at the next frame. Then pairs in two frames, and in all three. */
static void pairs_in_three_frames(uint32_t minute)
{
    struct pickup near = take("near", minute + 9, 3), far = take("far", minute + 10, 3);
    struct pickup whole = take("whole", minute, 3);
    unsigned rank, i, j, a, b;

    for (rank = 0; rank < 3; rank++)
        for (i = 0; i < PAIRS; i++)
            for (a = 0; a <= PLACES; a++)
                for (b = 0; b <= PLACES; b++) {
                    struct pickup damaged = whole;
                    uint32_t false_minute;

                    if (a > 1 && b > 1 && (a + b + i) % 7 != 0)
                        continue; /* a seventh of those with three damaged frames */
                    invert(&damaged, rank * 60, pair_mask[i]);
                    invert(&damaged, (rank + 1) % 3 * 60, a == 0 ? 0 : 1u << (a - 1));
                    invert(&damaged, (rank + 2) % 3 * 60, b == 0 ? 0 : 1u << (b - 1));
                    must_be("a pair in three frames", NOT_SURE, &damaged, minute, &near,
                            minute + 9);
                    must_be("a pair in three frames", NOT_SURE, &damaged, minute, &far,
                            minute + 10);
                    if (a == 0 && b == 0 && read_as(&damaged, &false_minute)) {
                        struct pickup trap = take("trap", false_minute, 3);

                        must_be("a pair in three frames", NOT_SURE, &damaged, minute, &trap,
                                false_minute);
                    }
                }
    for (rank = 0; rank < 3; rank++)
        for (i = 0; i < PAIRS; i++)
            for (j = 0; j < PAIRS; j++) {
                struct pickup damaged = whole;

                invert(&damaged, rank * 60, pair_mask[i]);
                invert(&damaged, (rank + 1) % 3 * 60, pair_mask[j]);
                right_or_unsure("two pairs", &damaged, minute, &near, minute + 9);
                invert(&damaged, (rank + 2) % 3 * 60, pair_mask[i]);
                right_or_unsure("three pairs", &damaged, minute, &far, minute + 10);
            }
}

/* Three frames from a minute on, those of a set as messages; bit k is the frame of rank k. */
static struct pickup take_messages(uint32_t minute, unsigned set)
{
    wwvb_plan plan = wwvb_us_plan();
    uint32_t k;

    for (k = 0; k < 3; k++)
        if (set >> k & 1) {
            plan.messages[plan.message_count].minute = minute + k;
            plan.messages[plan.message_count].data = 0x123456789abull >> k;
            plan.message_count++;
        }
    return take_by(&plan, "with messages", minute, 3);
}

/* Inverts one mask in the first time frame, and another in the others. */
static void invert_times(struct pickup *p, unsigned set, uint32_t first, uint32_t others)
{
    unsigned k;

    for (k = 0; k < 3; k++)
        if (!(set >> k & 1))
            invert(p, k * 60, k == 0 ? first : others);
}

/* Three frames, the first a time frame. Whole they are sure and right; with each time frame
   repaired, by single bits or by pairs, they are not, though a message has place 0. */
static void messages_in_three_frames(uint32_t minute, unsigned set)
{
    struct pickup near = take("near", minute + 9, 3), far = take("far", minute + 10, 3);
    struct pickup whole = take_messages(minute, set);
    unsigned i, j, last = set == 6 ? 1 : PAIRS; /* 6: the first frame is the only time frame */

    must_be("with messages", RESEND, &whole, minute, &near, minute + 9);
    must_be("with messages", FRESH, &whole, minute, &far, minute + 10);
    for (i = 0; i < PLACES; i++)
        for (j = 0; j < PLACES; j++) {
            struct pickup damaged = whole;

            invert_times(&damaged, set, 1u << i, 1u << j);
            must_be("messages and single bits", NOT_SURE, &damaged, minute, &near, minute + 9);
        }
    for (i = 0; i < PAIRS; i++)
        for (j = 0; j < last; j++) {
            struct pickup damaged = whole;
            uint32_t false_minute;

            invert_times(&damaged, set, pair_mask[i], pair_mask[j]);
            must_be("messages and pairs", NOT_SURE, &damaged, minute, &far, minute + 10);
            if (j == 0 && read_as(&damaged, &false_minute)) {
                struct pickup trap = take("trap", false_minute, 3);

                must_be("messages and pairs", NOT_SURE, &damaged, minute, &trap, false_minute);
            }
        }
}

/* A message as the first frame: the minute is not known. */
static void messages_first(uint32_t minute)
{
    struct pickup near = take("near", minute + 9, 3);
    unsigned set;

    for (set = 1; set < 8; set += 2) {
        struct pickup damaged = take_messages(minute, set);

        must_be("a message first", NOT_SURE, &damaged, minute, &near, minute + 9);
    }
}

int main(void)
{
    /* A summer's noon, near both ends of the range, and before a carry through 24 bits. */
    static const uint32_t minutes[] = {6578640, 1000, 52594000, 16777214};
    unsigned a, b, n = 0, i;

    for (a = 0; a < PLACES; a++)
        for (b = a + 1; b < PLACES; b++)
            pair_mask[n++] = 1u << a | 1u << b;
    if (n != PAIRS)
        return 1;
    for (i = 0; i < sizeof minutes / sizeof *minutes; i++) {
        clean(minutes[i]);
        pairs_in_one_frame(minutes[i]);
    }
    singles_in_three_frames(minutes[0]);
    pairs_in_three_frames(minutes[0]);
    pairs_in_three_frames(minutes[3]);
    for (i = 2; i <= 6; i += 2)
        messages_in_three_frames(minutes[0], i);
    messages_first(minutes[0]);
    printf("window: %lu judgements, %lu not sure, none wrong\n", judged, unsure);
    return 0;
}
