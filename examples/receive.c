/*
 * receive: minutes from bits that come one a second, with noise before, between and in the frames.
 *
 * Standard input has a character for each second: 0 or 1, or ? for a second in which the radio
 * could not tell. Blanks and line ends are passed over. Standard output gets a line a frame:
 *
 *     2012-07-04 17:30 UTC, minute 6578970, 60 seconds, place 0
 *     2012-07-04 17:31 UTC, minute 6578971, 60 seconds, message 123456789ab
 *
 * The line of a time frame comes as soon as its last bit is there. A message comes with the time
 * frame after it, and the first frame after noise with the second time frame.
 *
 * How it works: the buffer begins where a time frame may begin. After each bit it is read as a
 * recording, with space for the entries of a time frame, four messages and another time frame:
 *
 *   a time frame among the entries after the first
 *                      these frames are good and in order: use all up to the last time frame, and
 *                      drop those before it; the first was used already if it was the last of the
 *                      time before, that is, if no bit was dropped since
 *   refusal 0 or 6     the bits end with a frame or in one: wait for more
 *   refusal 13, and fewer than 61 bits from bits[used] on
 *                      the frame may be longer than what is there: wait for more
 *   any other refusal  no time frame begins here, none follows in order, or too many messages
 *                      follow (refusal 5): drop one bit, try again
 *
 * A frame is handed out only with two time frames in order. Alone a time frame is weak: the bits
 * inside frames look like a frame here and there, even without noise. With wwvb_us_plan() that
 * happens at 23,147 places from 2000 to 2099, at 903 of them with place 0 (tests/starts.c). A
 * message has no time word, so it confirms nothing: it is handed out between two time frames.
 *
 * The last time frame stays in the buffer, so the library itself checks that the next minute is
 * one more (refusal 14). A call has no memory of the call before.
 *
 * A line ends in the words not sure until one of the time frames in order has place 0. Such a
 * minute may be shown, but is not to be acted on (see window.c): two false frames in order, both
 * repaired, stand at one of those places. Messages that are made for it can hold false frames with
 * place 0: see LIVE INPUT in wwvb(3).
 *
 * cc receive.c $(pkg-config --cflags --libs wwvb) -o receive
 */
#include <inttypes.h>
#include <stdio.h>
#include <string.h>
#include <wwvb.h>

#define KEPT (WWVB_MAX_MESSAGES + 2u) /* frames: a time frame, messages and a time frame */

struct receiver {
    uint8_t bits[KEPT * WWVB_MAX_FRAME]; /* the first frame begins at bits[0], if it is one */
    size_t count;
    int in_step; /* 1: the first frame has been handed out already */
    int sure;    /* 1: one of the time frames in order has place 0 */
};

/* What is done with a frame; `sure` is 0 as long as every time frame in order was repaired. */
typedef void frame_handler(void *context, const wwvb_entry *entry, int sure);

static void start(struct receiver *r)
{
    r->count = 0;
    r->in_step = 0;
    r->sure = 0;
}

static void drop(struct receiver *r, size_t n)
{
    r->count -= n;
    memmove(r->bits, r->bits + n, r->count);
}

/* The index of the last time frame among n entries; 0 if that is the first, or there is none. */
static size_t last_time_frame(const uint8_t *entries, size_t n)
{
    while (n > 1 && wwvb_entry_at(entries, n - 1).kind != WWVB_ENTRY_TIME)
        n--;
    return n > 1 ? n - 1 : 0;
}

/* Frames in order stand in the buffer, with a time frame first and one, at `last`, at the end. */
static void take_frames(struct receiver *r, const uint8_t *entries, size_t last,
                        frame_handler *handle, void *context)
{
    size_t i, used = 0;

    for (i = 0; i <= last; i++) {
        wwvb_entry e = wwvb_entry_at(entries, i);

        r->sure = r->sure || (e.kind == WWVB_ENTRY_TIME && e.place == 0);
        if (i < last)
            used += e.length;
    }
    for (i = r->in_step ? 1 : 0; i <= last; i++) {
        wwvb_entry e = wwvb_entry_at(entries, i);

        handle(context, &e, r->sure);
    }
    r->in_step = 1;
    drop(r, used);
}

/* One second: 0 or 1, or any other value for a second that was not heard. No frame is read over
   such a second (refusal 7, after bit 58 refusal 13). The buffer is never full: it waits with
   KEPT frames at most, and no more than one of them has 61 bits. */
static void receive(struct receiver *r, uint8_t bit, frame_handler *handle, void *context)
{
    uint8_t entries[KEPT * WWVB_ENTRY_SIZE];

    r->bits[r->count++] = bit;
    for (;;) {
        wwvb_read_reply got = wwvb_read_recording(r->bits, r->count, entries, sizeof entries);
        size_t left = r->count - got.used, last = last_time_frame(entries, got.entries);

        if (last > 0) {
            take_frames(r, entries, last, handle, context);
            continue;
        }
        if (got.refusal == WWVB_OK || got.refusal == WWVB_TOO_SHORT)
            return;
        if (got.refusal == WWVB_BAD_LENGTH && left < WWVB_MAX_FRAME)
            return;
        drop(r, 1);
        r->in_step = 0;
        r->sure = 0;
    }
}

static void print(void *context, const wwvb_entry *entry, int sure)
{
    wwvb_date_reply d = wwvb_minute_to_date(entry->minute);

    (void)context;
    printf("%04u-%02u-%02u %02u:%02u UTC, minute %u, %u seconds, ", (unsigned)d.year,
           (unsigned)d.month, (unsigned)d.day, (unsigned)d.hour, (unsigned)d.minute,
           (unsigned)entry->minute, (unsigned)entry->length);
    if (entry->kind == WWVB_ENTRY_MESSAGE)
        printf("message %011" PRIx64, entry->data);
    else
        printf("place %u", (unsigned)entry->place);
    printf("%s\n", sure ? "" : ", not sure");
    fflush(stdout); /* a line a minute: it is wanted now */
}

int main(void)
{
    struct receiver r;
    int c;

    start(&r);
    while ((c = getchar()) != EOF) {
        if (c == '0' || c == '1')
            receive(&r, (uint8_t)(c - '0'), print, NULL);
        else if (c == '?')
            receive(&r, 2, print, NULL);
        else if (c != ' ' && c != '\t' && c != '\r' && c != '\n') {
            fprintf(stderr, "receive: the input has a character that is not 0, 1 or ?\n");
            return 2;
        }
    }
    if (ferror(stdin) || ferror(stdout)) {
        fprintf(stderr, "receive: the input cannot be read, or the output cannot be written\n");
        return 1;
    }
    return 0;
}
