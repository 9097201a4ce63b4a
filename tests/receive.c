/*
 * The receiver of examples/receive.c on streams with noise before the first frame and in the
 * middle: what it hands out is compared with what was put into the stream, minute by minute.
 */
#define main receive_main
#include "../examples/receive.c"
#undef main

#include <stdlib.h>

#define SPACE 3000000u
#define FRAMES 2000u

/* A stream, what is to be handed out of it, and what is. `due` is the number of bits after which a
   frame is due: those up to its last one, or of a message up to that of the next time frame; 0
   where the test does not say. */
struct frame {
    uint32_t minute, length, place, kind;
    uint64_t data;
    int sure;
    size_t due;
};

static uint8_t stream[SPACE];
static size_t length, seconds;
static struct frame want[FRAMES], got[FRAMES];
static size_t wanted, handed;
static const char *name;
static unsigned long streams, frames;
static uint64_t seed = 1;

static void fail(const char *what)
{
    fprintf(stderr, "receive: %s: %s (bit %lu of %lu, frame %lu)\n", name, what,
            (unsigned long)seconds, (unsigned long)length, (unsigned long)handed);
    exit(1);
}

static void begin(const char *what)
{
    name = what;
    length = wanted = handed = 0;
}

static void collect(void *context, const wwvb_entry *entry, int sure)
{
    struct frame f;

    (void)context;
    f.minute = entry->minute;
    f.length = entry->length;
    f.place = entry->place;
    f.kind = entry->kind;
    f.data = entry->data;
    f.sure = sure;
    f.due = seconds;
    if (handed == FRAMES)
        fail("too many frames");
    got[handed++] = f;
}

/* Gives the stream to a new receiver, from a bit on, one bit a second. */
static void run(size_t from)
{
    struct receiver r;
    size_t i;

    start(&r);
    handed = 0;
    for (i = from; i < length; i++) {
        seconds = i + 1;
        receive(&r, stream[i], collect, NULL);
        if (r.count >= sizeof r.bits)
            fail("the buffer is full");
    }
    for (i = 0; i < handed && i < wanted; i++) {
        if (got[i].minute != want[i].minute || got[i].length != want[i].length ||
            got[i].place != want[i].place)
            fail("another frame");
        if (got[i].kind != want[i].kind || got[i].data != want[i].data)
            fail("another kind of frame, or other data");
        if (got[i].sure != want[i].sure)
            fail("sure, or not");
        if (want[i].due != 0 && got[i].due != want[i].due)
            fail("not with its last bit");
    }
    if (handed != wanted)
        fail(handed < wanted ? "a frame is missing" : "a frame too many");
    streams++;
    frames += handed;
}

static void noise(size_t n)
{
    for (; n > 0; n--) {
        seed = seed * 6364136223846793005u + 1442695040888963407u;
        stream[length++] = (uint8_t)(seed >> 40 & 1);
    }
}

/* Whether the frame of its minute is a message, by the plan, and its data. */
static void set_kind(struct frame *f, const wwvb_plan *plan)
{
    uint32_t i;

    f->kind = WWVB_ENTRY_TIME;
    f->data = 0;
    for (i = 0; i < plan->message_count; i++)
        if (plan->messages[i].minute == f->minute) {
            f->kind = WWVB_ENTRY_MESSAGE;
            f->data = plan->messages[i].data;
        }
}

/* Appends a minute's frame by a plan, expected or not; returns where it begins. */
static size_t frame(const wwvb_plan *plan, uint32_t minute, int expected)
{
    size_t at = length;
    wwvb_write_reply w = wwvb_write(plan, minute, 1, stream + length, SPACE - length);

    if (w.refusal != WWVB_OK)
        fail(wwvb_refusal_name((uint32_t)w.refusal));
    length += w.bits;
    if (expected) {
        want[wanted].minute = minute;
        want[wanted].length = (uint32_t)w.bits;
        want[wanted].place = 0;
        set_kind(&want[wanted], plan);
        want[wanted].sure = 1;
        want[wanted].due = length;
        wanted++;
    }
    return at;
}

/* Frames in order, a time frame first and last. A message comes with the time frame after it, and
   the first frame of all with the second time frame. */
static void frame_run(const wwvb_plan *plan, uint32_t minute, uint32_t count)
{
    size_t first = wanted, i;

    for (; count > 0; count--)
        frame(plan, minute++, 1);
    for (i = wanted; i-- > first;)
        if (i + 1 < wanted && (i == first || want[i].kind == WWVB_ENTRY_MESSAGE))
            want[i].due = want[i + 1].due;
}

/* The plan of the United States with messages in so many minutes from one on. */
static wwvb_plan with_messages(uint32_t minute, uint32_t count)
{
    wwvb_plan plan = wwvb_us_plan();
    uint32_t i;

    plan.message_count = count;
    for (i = 0; i < count; i++) {
        plan.messages[i].minute = minute + i;
        plan.messages[i].data = 0x123456789abull * (i + 1) % WWVB_DATA_LIMIT;
    }
    return plan;
}

/* One to four messages in a row, at each rank of a run after the first, with noise before. From
   the second rank on they are also heard from the middle of the first frame. */
static void messages_in_a_run(uint32_t m)
{
    uint32_t n, rank;
    size_t i;

    for (n = 1; n <= 4; n++)
        for (rank = 1; rank < 4; rank++) {
            wwvb_plan plan = with_messages(m + rank, n);

            for (i = 0; i < 70; i++) {
                begin("messages");
                noise(i);
                frame_run(&plan, m, n + rank + 2);
                run(0);
            }
            for (i = 1; i < 60 && rank > 1; i++) {
                begin("messages, from the middle of a frame");
                frame(&plan, m, 0);
                frame_run(&plan, m + 1, n + rank + 1);
                run(i);
            }
        }
}

/* A message before any time frame is not handed out, nor one with noise after it, nor one of five
   in a row. */
static void messages_alone(uint32_t m)
{
    wwvb_plan plan = with_messages(m, 1), more = with_messages(m + 2, 4);
    size_t i;

    for (i = 0; i < 100; i++) {
        begin("a message first");
        noise(i);
        frame(&plan, m, 0);
        frame_run(&plan, m + 1, 3);
        run(0);

        begin("noise after a message");
        frame_run(&more, m, 2);
        frame(&more, m + 2, 0);
        noise(i + 1);
        frame_run(&plan, m + 6, 3);
        run(0);
    }
    begin("five messages in a row");
    plan = with_messages(m + 6, 1);
    frame_run(&more, m, 2);
    for (i = 2; i < 6; i++)
        frame(&more, m + (uint32_t)i, 0);
    frame(&plan, m + 6, 0);
    frame_run(&plan, m + 7, 3);
    run(0);
}

/* The minutes of 61 and 59 seconds, and those about them, as messages. */
static void messages_at_the_end_of_june(void)
{
    uint32_t first, n;
    int32_t sign;

    for (sign = -1; sign <= 1; sign++)
        for (n = 1; n <= 4; n++)
            for (first = 6573596; first <= 6573600; first++) {
                wwvb_plan plan = with_messages(first, n);

                plan.leap_month = sign ? 149 : 0;
                plan.leap_sign = sign;
                begin("messages at the end of June");
                noise(30);
                frame_run(&plan, 6573595, 12);
                run(0);
            }
}

/* A message has place 0, but does not make the repaired time frames beside it sure. */
static void messages_make_nothing_sure(uint32_t m)
{
    wwvb_plan plan = with_messages(m + 1, 2);
    size_t i, at;

    begin("messages between repaired frames");
    for (i = 0; i < 8; i++) {
        at = frame(&plan, m + (uint32_t)i, 1);
        if (want[i].kind == WWVB_ENTRY_TIME && i < 6) {
            stream[at + 40 + i % 7] ^= 1;
            want[i].place = (uint32_t)(25 + i % 7);
        }
        want[i].sure = i >= 6;
    }
    want[0].due = want[1].due = want[2].due = want[3].due;
    run(0);
}

int main(void)
{
    wwvb_plan us = wwvb_us_plan(), leap = wwvb_us_plan();
    uint32_t m = 6578970;
    size_t i, k, at;

    begin("frames alone");
    frame_run(&us, m, 50);
    run(0);

    /* Listening begins at any bit of the first frame, which is then lost unless it is whole. */
    for (i = 1; i < 60; i++) {
        begin("from the middle of a frame");
        frame(&us, m, 0);
        frame_run(&us, m + 1, 5);
        run(i);
    }

    for (i = 0; i < 400; i++) {
        begin("noise before the first frame");
        noise(i);
        frame_run(&us, m + (uint32_t)i, 4);
        run(0);
    }
    for (i = 1; i < 400; i++) {
        begin("noise in the middle and at the end");
        noise(i % 7 * 50);
        frame_run(&us, m, 4);
        noise(i);
        frame_run(&us, m + 4 + (uint32_t)(i / 60), 4);
        noise(i);
        run(0);
    }

    /* One frame of six is lost: every bit that refuses it, then every second that was not heard. */
    for (i = 0; i < 120; i++) {
        unsigned bit = (unsigned)i % 60;

        if (i < 60 && ((bit >= 13 && bit <= 46) || bit == 49))
            continue; /* repaired, or not looked at */
        begin(i < 60 ? "a frame is refused" : "a second is not heard");
        frame_run(&us, m, 3);
        at = frame(&us, m + 3, 0);
        if (i < 60)
            stream[at + bit] ^= 1;
        else
            stream[at + bit] = 2;
        frame_run(&us, m + 4, 2);
        run(0);
    }

    /* A second is left out, or comes twice: the frame is lost. But a frame begins with 0 0 and ends
       with 0, so one of these bits may be gone, or there twice, and no frame is. Without bit 54 or
       55 row 37's word, 011011, with the 0 after it becomes that of row 28; the minute is right. */
    for (i = 0; i < 60; i++)
        for (k = 0; k < 2; k++) {
            int kept = i < 2 || i == 59 || (k == 0 && (i == 54 || i == 55));

            begin(k == 0 ? "a second is left out" : "a second comes twice");
            frame_run(&us, m, 3);
            at = frame(&us, m + 3, kept);
            if (k == 0) {
                memmove(stream + at + i, stream + at + i + 1, length - at - i - 1);
                length--;
            } else {
                memmove(stream + at + i + 1, stream + at + i, length - at - i);
                length++;
            }
            frame_run(&us, m + 4, 2);
            if (i < 2)
                want[3].due = want[4].due = at + 120 - 1 + 2 * k; /* found again, with the next */
            run(0);
        }

    /* The minutes of 61 and 59 seconds. */
    leap.leap_month = 149;
    for (i = 0; i < 2; i++) {
        leap.leap_sign = i == 0 ? 1 : -1;
        for (k = 0; k < 130; k++) {
            begin(i == 0 ? "61 seconds" : "59 seconds");
            noise(k);
            frame_run(&leap, 6573597, 6);
            run(0);
        }
    }

    /* The clock jumps: both runs are in order. */
    begin("a jump");
    frame_run(&us, m, 3);
    frame_run(&us, m + 1000, 3);
    frame_run(&us, m + 5, 3);
    run(0);

    /* A frame alone is not handed out, nor are two that are not in order. */
    for (i = 60; i < 200; i++) {
        begin("a frame alone");
        noise(i);
        frame(&us, m, 0);
        noise(i);
        frame(&us, m + 2, 0);
        frame(&us, m + 2, 0);
        frame(&us, m + 4, 0);
        noise(i);
        run(0);
    }
    begin("noise alone");
    noise(2500000);
    run(0);

    /* One inverted bit in each frame: repaired, and not sure until a frame has none. */
    begin("repaired frames");
    for (i = 0; i < 8; i++) {
        at = frame(&us, m + (uint32_t)i, 1);
        if (i != 5) {
            stream[at + 40 + i % 7] ^= 1;
            want[i].place = (uint32_t)(25 + i % 7);
        }
        want[i].sure = i >= 5;
    }
    want[0].due = want[1].due;
    run(0);
    begin("a loss, and not sure again");
    frame_run(&us, m, 2);
    noise(100);
    for (i = 2; i < 4; i++) {
        at = frame(&us, m + (uint32_t)i, 1);
        stream[at + 13] ^= 1;
        want[i].place = 1;
        want[i].sure = 0;
        want[i].due = length;
    }
    want[2].due = want[3].due;
    run(0);

    /* The one place of the century where two false frames stand in order: they are not sure. The
       frame after them is lost with them. */
    begin("two false frames");
    for (i = 0; i < 2; i++) {
        want[i].minute = 859588 + (uint32_t)i;
        want[i].length = 60;
        want[i].place = i == 0 ? 31 : 2;
        want[i].kind = WWVB_ENTRY_TIME;
        want[i].data = 0;
        want[i].sure = 0;
        want[i].due = 0;
    }
    frame(&us, 36337310, 0);
    wanted = 2;
    frame(&us, 36337311, 0);
    frame_run(&us, 36337312, 5);
    want[2].due = want[3].due = 0;
    run(29);

    messages_in_a_run(m);
    messages_alone(m);
    messages_at_the_end_of_june();
    messages_make_nothing_sure(m);

    printf("receive: %lu streams, %lu frames handed out, each as it was sent\n", streams, frames);
    return 0;
}
