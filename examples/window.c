/*
 * window: is a pickup order fresh, or an earlier order sent again? A chat server judges by the
 * recordings that come with its messages. A pickup is a recording that a client's radio took; its
 * minute is that of its first frame. Two pickups less than ten minutes apart are one order,
 * whichever of them is the earlier.
 *
 * The answer is one of three:
 *   resend    the order is known already: drop it
 *   fresh     a new order: send a truck
 *   not sure  hold the order and read again, with more minutes; never send a truck on it
 *
 * A pickup counts only if its recording was read completely and at least one of its time frames
 * has place 0, that is, had nothing to repair. Two inverted bits of a time word look like one
 * inverted bit of another minute far away, and they are repaired to it. But two minutes' words
 * differ in at least three places, so such a frame never has place 0, and the minutes of a
 * recording count up by one. In a recording read completely from a frame's first bit, a false
 * minute takes two wrong time bits in every frame that is read as a time frame, and three in each
 * of them with place 0. A message has place 0 too, but no time word: it tells no minute, and makes
 * no pickup count.
 *
 * A pickup begins at a frame's first bit: the client's radio finds it as receive.c does, with two
 * time frames in order, or more where others choose the data of messages.
 *
 * cc window.c $(pkg-config --cflags --libs wwvb) -o window
 */
#include <stdio.h>
#include <string.h>
#include <wwvb.h>

#define WINDOW 10u /* minutes */
#define FRAMES 16u /* of the longest pickup */

enum verdict { RESEND, FRESH, NOT_SURE };

struct pickup {
    const char *name;
    uint8_t bits[WWVB_MAX_FRAME * FRAMES];
    size_t length;
};

/* The minute of a pickup. Returns 1, or 0 if the pickup does not count, and says why. */
static int minute_of(const struct pickup *p, uint32_t *minute, const char **why)
{
    uint8_t entries[FRAMES * WWVB_ENTRY_SIZE];
    wwvb_read_reply r = wwvb_read_recording(p->bits, p->length, entries, sizeof entries);
    size_t i;

    if (r.refusal != WWVB_OK) {
        *why = wwvb_refusal_text((uint32_t)r.refusal);
        return 0;
    }
    if (r.entries == 0) {
        *why = "It has no frame.";
        return 0;
    }
    for (i = 0; i < r.entries; i++) {
        wwvb_entry e = wwvb_entry_at(entries, i);

        if (e.kind == WWVB_ENTRY_TIME && e.place == 0) {
            *minute = wwvb_entry_at(entries, 0).minute;
            return 1;
        }
    }
    *why = "Every time frame was repaired.";
    return 0;
}

/* Judges the second of two pickups by the first. `apart` is the distance in minutes; not sure,
   `which` is the pickup that does not count, and `why` the reason. */
static enum verdict judge(const struct pickup *first, const struct pickup *second, uint32_t *apart,
                          const struct pickup **which, const char **why)
{
    uint32_t a, b;

    *which = first;
    if (!minute_of(first, &a, why))
        return NOT_SURE;
    *which = second;
    if (!minute_of(second, &b, why))
        return NOT_SURE;
    *apart = a < b ? b - a : a - b;
    return *apart < WINDOW ? RESEND : FRESH;
}

static void say(const struct pickup *first, const struct pickup *second)
{
    const struct pickup *which = NULL;
    const char *why = NULL;
    uint32_t apart = 0;

    switch (judge(first, second, &apart, &which, &why)) {
    case RESEND:
        printf("resend: %s is %u minutes from %s\n", second->name, (unsigned)apart, first->name);
        break;
    case FRESH:
        printf("fresh: %s is %u minutes from %s\n", second->name, (unsigned)apart, first->name);
        break;
    case NOT_SURE:
        printf("not sure, hold the order: %s does not count. %s\n", which->name, why);
        break;
    }
}

/* Frames from a minute on by a plan; this stands for the radio. A writing that is refused leaves a
   pickup without bits, which does not count. */
static struct pickup take_by(const wwvb_plan *plan, const char *name, uint32_t minute,
                             uint32_t frames)
{
    struct pickup p;

    memset(&p, 0, sizeof p);
    p.name = name;
    p.length = wwvb_write(plan, minute, frames, p.bits, sizeof p.bits).bits;
    return p;
}

/* The same by the plan of the United States. */
static struct pickup take(const char *name, uint32_t minute, uint32_t frames)
{
    wwvb_plan plan = wwvb_us_plan();

    return take_by(&plan, name, minute, frames);
}

int main(void)
{
    wwvb_minute_reply noon = wwvb_date_to_minute(2012, 7, 4, 12, 0);
    wwvb_plan plan = wwvb_us_plan();
    struct pickup first, next;

    if (noon.refusal != WWVB_OK) {
        fprintf(stderr, "window: %s\n", wwvb_refusal_text(noon.refusal));
        return 1;
    }
    first = take("the first", noon.minute, 3);
    next = take("one 9 minutes later", noon.minute + 9, 3);
    say(&first, &next);
    next.bits[46] ^= 1; /* the last bit of a time word is heard wrong, and repaired */
    next.bits[19] ^= 1; /* the echo is heard wrong too, and the entry's echo byte is 0 */
    say(&first, &next);
    next = take("one 10 minutes later", noon.minute + 10, 3);
    say(&first, &next);
    next = take("one 9 minutes earlier", noon.minute - 9, 3);
    say(&first, &next);
    next = take("one 10 minutes earlier", noon.minute - 10, 3);
    say(&first, &next);

    next = take("one with two bits inverted in its only frame", noon.minute + 3, 1);
    next.bits[44] ^= 1; /* two bits of the time word: it is read as a minute far away */
    next.bits[45] ^= 1;
    say(&first, &next);
    next = take("one with two bits inverted in one of three frames", noon.minute + 3, 3);
    next.bits[44] ^= 1;
    next.bits[45] ^= 1;
    say(&first, &next);

    plan.message_count = 1; /* the frame of 12:04 is a message */
    plan.messages[0].minute = noon.minute + 4;
    plan.messages[0].data = 42;
    next = take_by(&plan, "one with a message", noon.minute + 3, 3);
    say(&first, &next);
    next.name = "one with a message between repaired frames";
    next.bits[46] ^= 1;
    next.bits[2 * 60 + 46] ^= 1;
    say(&first, &next);
    next = take_by(&plan, "one that begins with a message", noon.minute + 4, 3);
    say(&first, &next);

    next = take("one with noise", noon.minute + 3, 3);
    next.bits[60 + 2] ^= 1; /* the sync word of its second frame */
    say(&first, &next);
    next = take("one cut short", noon.minute + 3, 1);
    next.length = 58;
    say(&first, &next);
    next.name = "an empty one";
    next.length = 0;
    say(&first, &next);
    if (fflush(stdout) != 0) {
        fprintf(stderr, "window: the output cannot be written\n");
        return 1;
    }
    return 0;
}
