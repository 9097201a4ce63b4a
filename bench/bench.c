/*
 * Measures the library and plain C codecs in one run and prints a table in Markdown: nanoseconds an item, and for each plain
 * codec the library's time divided by its own. All are measured in turn, round by round, by CPU time; the least time of each
 * counts. Before that, all of them must give the same. The last line names the rows in which the library is not ahead of all.
 *
 * PLAINS lists the codecs, as in PLAINS='CODEC(one) CODEC(two)'; bench/run builds them.
 */
#define _POSIX_C_SOURCE 200809L
#include "plain.h"

#include <stdio.h>
#include <stdlib.h>
#include <string.h>
#include <time.h>

#ifndef PLAINS
#define PLAINS CODEC(plain)
#endif

#define ROUNDS 400
#define FRAMES 10000u

static const struct codec library = {
    "library", wwvb_write_recording, wwvb_read_frame, wwvb_read_recording, wwvb_print_pages,
    wwvb_print_pages, wwvb_minute_to_date, wwvb_minute_to_date, wwvb_date_to_minute,
    wwvb_local_date, wwvb_write_amplitude, wwvb_write_amplitude, wwvb_read_amplitude,
    wwvb_read_amplitude, wwvb_write_irig, wwvb_write_irig, wwvb_read_irig, wwvb_read_irig,
};

#define CODEC(name) extern const struct codec name;
PLAINS
#undef CODEC

#define CODEC(name) &name,
static const struct codec *const codecs[] = {&library, PLAINS};
#undef CODEC

#define CODECS (sizeof codecs / sizeof codecs[0])

static uint8_t input[WWVB_MAX_RECORDING];
static uint8_t bits[2][WWVB_MAX_RECORDING];
static uint8_t entries[2][WWVB_MAX_COUNT * WWVB_ENTRY_SIZE];
static uint8_t pages[2][WWVB_MAX_COUNT / WWVB_PAGE_ENTRIES * WWVB_PAGE_SIZE + 1];
static uint32_t sink;

static double now(void)
{
    struct timespec t;
    clock_gettime(CLOCK_PROCESS_CPUTIME_ID, &t);
    return (double)t.tv_sec * 1e9 + (double)t.tv_nsec;
}

/* Each of these does about FRAMES items by a codec and gives how many. The call is taken from the codec before the loop, so
   that all go the same way through it. */

typedef size_t work(const struct codec *c, uint32_t n);

/* What is written: the plan's kind, its leap month and sign, and the first minute. */
static uint32_t kind, leap_month, first_minute = 6412320 - 20000;
static int32_t leap_sign;

static size_t write_frames(const struct codec *c, uint32_t n)
{
    uint32_t done, minute = first_minute;
    write_recording_call *call = c->write_recording;

    for (done = 0; done < FRAMES; done += n, minute += n) {
        wwvb_write_reply r = call(kind, 10, 37, leap_month, leap_sign, 0, NULL, 0, minute, n,
                                  bits[0], sizeof bits[0]);
        sink += (uint32_t)r.bits + r.refusal;
    }
    return done;
}

/* The messages of a plan, as the calls take them. */
static uint8_t messages[WWVB_MAX_MESSAGES * WWVB_MESSAGE_SIZE];

/* The same recording each time, with all four messages in it. */
static size_t write_messages(const struct codec *c, uint32_t n)
{
    uint32_t done;
    write_recording_call *call = c->write_recording;

    for (done = 0; done < FRAMES; done += n) {
        wwvb_write_reply r = call(kind, 10, 37, leap_month, leap_sign, 0, messages,
                                  sizeof messages, first_minute, n, bits[0], sizeof bits[0]);
        sink += (uint32_t)r.bits + r.refusal;
    }
    return done;
}

static size_t read_frames(const struct codec *c, uint32_t n)
{
    uint32_t done;
    wwvb_read_reply (*call)(const uint8_t *, size_t, uint8_t *, size_t) = c->read_recording;

    for (done = 0; done < FRAMES; done += n) {
        wwvb_read_reply r = call(input, n * 60, entries[0], sizeof entries[0]);
        sink += (uint32_t)r.used + r.refusal;
    }
    return done;
}

/* Fewer frames than for the other items: snprintf takes its time. */
static size_t pages_printed_by(print_pages_call *call, uint32_t n)
{
    uint32_t done;

    for (done = 0; done < FRAMES / 5; done += n) {
        wwvb_print_reply r = call(input, n * 60, pages[0], sizeof pages[0]);
        sink += (uint32_t)r.bytes + r.refusal + pages[0][done % WWVB_PAGE_SIZE];
    }
    return done;
}

static size_t print_frames(const struct codec *c, uint32_t n)
{
    return pages_printed_by(c->print_pages, n);
}

static size_t print_frames_by_hand(const struct codec *c, uint32_t n)
{
    return pages_printed_by(c->hand_print_pages, n);
}

static size_t read_alone(const struct codec *c, uint32_t n)
{
    uint32_t i;
    uint32_t (*call)(const uint8_t *, size_t, uint8_t *, size_t) = c->read_frame;

    (void)n;
    for (i = 0; i < FRAMES; i++)
        sink += call(input, 60, entries[0], WWVB_ENTRY_SIZE) + entries[0][3];
    return FRAMES;
}

/* The dates and minutes that are turned into each other, and how to show them as local dates, made beforehand. */
static struct {
    uint32_t year, month, day, hour, minute, number;
    uint32_t state, change_hour;
    int32_t offset;
} dates[FRAMES];

static void prepare_dates(void)
{
    uint32_t i, x = 0;

    for (i = 0; i < FRAMES; i++, x = x * 1664525 + 1013904223) {
        dates[i].year = 2000 + (x >> 8) % 100;
        dates[i].month = 1 + (x >> 16) % 12;
        dates[i].day = 1 + (x >> 20) % 28;
        dates[i].hour = i % 24;
        dates[i].minute = i % 60;
        dates[i].number = x % WWVB_MINUTES;
        dates[i].state = (x >> 12) % 4;
        dates[i].change_hour = 1 + (x >> 14) % 3;
        dates[i].offset = -600 + 60 * (int32_t)((x >> 18) % 7);
    }
}

static size_t dates_by(wwvb_date_reply (*call)(uint32_t))
{
    uint32_t i;

    for (i = 0; i < FRAMES; i++) {
        wwvb_date_reply r = call(dates[i].number);
        sink += r.year + r.month + r.day + r.hour + r.minute + r.weekday;
    }
    return FRAMES;
}

static size_t make_dates(const struct codec *c, uint32_t n)
{
    (void)n;
    return dates_by(c->minute_to_date);
}

static size_t make_dates_fast(const struct codec *c, uint32_t n)
{
    (void)n;
    return dates_by(c->fast_minute_to_date);
}

static size_t make_local_dates(const struct codec *c, uint32_t n)
{
    uint32_t i;
    wwvb_date_reply (*call)(uint32_t, uint32_t, int32_t, uint32_t) = c->local_date;

    (void)n;
    for (i = 0; i < FRAMES; i++) {
        wwvb_date_reply r = call(dates[i].number, dates[i].state, dates[i].offset, dates[i].change_hour);
        sink += r.year + r.month + r.day + r.hour + r.minute + r.weekday;
    }
    return FRAMES;
}

static size_t make_minutes(const struct codec *c, uint32_t n)
{
    uint32_t i;
    wwvb_minute_reply (*call)(uint32_t, uint32_t, uint32_t, uint32_t, uint32_t) = c->date_to_minute;

    (void)n;
    for (i = 0; i < FRAMES; i++) {
        wwvb_minute_reply r = call(dates[i].year, dates[i].month, dates[i].day, dates[i].hour, dates[i].minute);
        sink += r.minute;
    }
    return FRAMES;
}

/* A writing of the amplitude code: what the call takes, and the refusal that is due. */
struct writing {
    uint32_t kind, spring, autumn, leap_month;
    int32_t leap_sign;
    uint32_t notice, minute;
    int32_t ut1_sign;
    uint32_t ut1_tenths;
    size_t space, refusal;
};

static uint8_t symbols[2][WWVB_MAX_FRAME + 1];

static wwvb_write_reply write_minute(write_amplitude_call *call, const struct writing *w, uint8_t *out)
{
    return call(w->kind, w->spring, w->autumn, w->leap_month, w->leap_sign, w->notice, NULL, 0,
                w->minute, w->ut1_sign, w->ut1_tenths, out, w->space);
}

/* The minutes that are written are those above, each with other UT1. */
static struct writing measured(uint32_t i)
{
    struct writing w = {0, 10, 37, 149, 1, 0, 0, 0, 0, WWVB_MAX_FRAME, WWVB_OK};

    w.minute = dates[i].number;
    w.ut1_sign = i % 2 ? 1 : -1;
    w.ut1_tenths = i % 10;
    return w;
}

static size_t minutes_written_by(write_amplitude_call *call)
{
    uint32_t i;

    for (i = 0; i < FRAMES; i++) {
        struct writing w = measured(i);
        wwvb_write_reply r = write_minute(call, &w, symbols[0]);
        sink += (uint32_t)r.bits + r.refusal + symbols[0][i % 59];
    }
    return FRAMES;
}

static size_t write_minutes(const struct codec *c, uint32_t n)
{
    (void)n;
    return minutes_written_by(c->write_amplitude);
}

static size_t write_minutes_fast(const struct codec *c, uint32_t n)
{
    (void)n;
    return minutes_written_by(c->fast_write_amplitude);
}

/* The first of them are read, as they were written beforehand. */
#define MINUTES 1000u
static struct {
    uint8_t symbols[WWVB_MAX_FRAME];
    size_t length;
} minutes[MINUTES];

static size_t minutes_read_by(read_amplitude_call *call)
{
    uint32_t i, k;

    for (i = 0, k = 0; i < FRAMES; i++, k = k + 1 < MINUTES ? k + 1 : 0) {
        wwvb_amplitude_reply r = call(minutes[k].symbols, minutes[k].length);
        sink += r.refusal + r.year + r.month + r.day + r.hour + r.minute + r.weekday;
        sink += (uint32_t)r.ut1_sign + r.ut1_tenths + r.warning + r.daylight + r.length;
    }
    return FRAMES;
}

static size_t read_minutes(const struct codec *c, uint32_t n)
{
    (void)n;
    return minutes_read_by(c->read_amplitude);
}

static size_t read_minutes_fast(const struct codec *c, uint32_t n)
{
    (void)n;
    return minutes_read_by(c->fast_read_amplitude);
}

/* A second of IRIG B is written by a writing as above, without its UT1. */

static uint8_t elements[2][WWVB_IRIG_ELEMENTS + 1];

static wwvb_irig_write_reply write_second(write_irig_call *call, const struct writing *w,
                                          uint32_t second, uint8_t *out)
{
    return call(w->kind, w->spring, w->autumn, w->leap_month, w->leap_sign, w->notice, NULL, 0,
                w->minute, second, out, w->space);
}

/* The minutes are those above, each with another second. */
static struct writing measured_irig(uint32_t i)
{
    struct writing w = measured(i);

    w.space = WWVB_IRIG_ELEMENTS;
    return w;
}

static size_t seconds_written_by(write_irig_call *call)
{
    uint32_t i;

    for (i = 0; i < FRAMES; i++) {
        struct writing w = measured_irig(i);
        wwvb_irig_write_reply r = write_second(call, &w, i % 60, elements[0]);
        sink += (uint32_t)r.elements + (uint32_t)r.refusal + elements[0][i % WWVB_IRIG_ELEMENTS];
    }
    return FRAMES;
}

static size_t write_seconds(const struct codec *c, uint32_t n)
{
    (void)n;
    return seconds_written_by(c->write_irig);
}

static size_t write_seconds_fast(const struct codec *c, uint32_t n)
{
    (void)n;
    return seconds_written_by(c->fast_write_irig);
}

/* The first of them are read, as they were written beforehand. */
#define SECONDS 1000u
static uint8_t seconds[SECONDS][WWVB_IRIG_ELEMENTS];

static size_t seconds_read_by(read_irig_call *call)
{
    uint32_t i, k;

    for (i = 0, k = 0; i < FRAMES; i++, k = k + 1 < SECONDS ? k + 1 : 0) {
        wwvb_irig_reply r = call(seconds[k], WWVB_IRIG_ELEMENTS);
        sink += r.refusal + r.day_of_year + r.second_of_day;
    }
    return FRAMES;
}

static size_t read_seconds(const struct codec *c, uint32_t n)
{
    (void)n;
    return seconds_read_by(c->read_irig);
}

static size_t read_seconds_fast(const struct codec *c, uint32_t n)
{
    (void)n;
    return seconds_read_by(c->fast_read_irig);
}

/* The rows in which the library takes longer than some plain codec. */
static char slower[2000];

/* How a row is named that measures another function than the row before; below the table it bears that row's name. */
#define THE_SAME "the same"

/* A row of the table; n is the frames in a recording, or 0. */
static void measure(const char *what, work *w, uint32_t n)
{
    static const char *before;
    double best[CODECS];
    size_t k;
    int round, behind = 0, same = strncmp(what, THE_SAME, strlen(THE_SAME)) == 0;

    for (k = 0; k < CODECS; k++)
        best[k] = 1e18;
    for (round = 0; round < ROUNDS; round++)
        for (k = 0; k < CODECS; k++) {
            double t = now();
            size_t items = w(codecs[k], n);
            t = (now() - t) / (double)items;
            if (t < best[k])
                best[k] = t;
        }
    printf("| %s |", what);
    if (n)
        printf(" %u", (unsigned)n);
    printf(" | %.1f |", best[0]);
    for (k = 1; k < CODECS; k++) {
        printf(" %.1f (%.2f) |", best[k], best[0] / best[k]);
        behind |= best[0] / best[k] >= 1.005; /* printed as 1.01 or more */
    }
    printf("\n");
    fflush(stdout);
    if (behind) {
        size_t used = strlen(slower);

        if (n)
            snprintf(slower + used, sizeof slower - used, "; %s, %u", what, (unsigned)n);
        else if (same)
            snprintf(slower + used, sizeof slower - used, "; %s%s", before, what + strlen(THE_SAME));
        else
            snprintf(slower + used, sizeof slower - used, "; %s", what);
    }
    if (!same)
        before = what;
}

static void differ(const struct codec *c, const char *where)
{
    fprintf(stderr, "bench: %s and the library differ: %s\n", c->label, where);
    exit(1);
}

/* The rows of a plan of each kind. */
static uint32_t spring_of(uint32_t of_kind)
{
    return of_kind == 0 || of_kind == 3 ? 10 : 0;
}

static uint32_t autumn_of(uint32_t of_kind)
{
    return of_kind == 0 || of_kind == 3 ? 37 : 0;
}

/* Writes by each codec, the library first, to `input`, with so many bytes of messages. */
static void write_all_with(size_t length, uint32_t of_kind, uint32_t month, int32_t sign,
                           uint32_t minute, uint32_t n)
{
    size_t k;

    for (k = 0; k < CODECS; k++) {
        uint8_t *out = memset(bits[k > 0], 0, sizeof bits[0]);
        wwvb_write_reply r = codecs[k]->write_recording(of_kind, spring_of(of_kind),
                                                        autumn_of(of_kind), month, sign, 0,
                                                        messages, length, minute, n, out,
                                                        sizeof bits[0]);
        if (r.refusal || r.bits != n * 60 || memcmp(bits[0], out, sizeof bits[0]))
            differ(codecs[k], "writing");
    }
    memcpy(input, bits[0], sizeof input);
}

static void write_all(uint32_t of_kind, uint32_t month, int32_t sign, uint32_t minute, uint32_t n)
{
    write_all_with(0, of_kind, month, sign, minute, n);
}

/* Reads `input` by each codec, and its first frame alone. */
static void read_all(uint32_t n)
{
    size_t k;

    memset(entries, 0, sizeof entries);
    for (k = 0; k < CODECS; k++) {
        wwvb_read_reply r = codecs[k]->read_recording(input, n * 60, entries[k > 0], sizeof entries[0]);
        uint8_t alone[WWVB_ENTRY_SIZE];

        if (r.refusal || r.entries != n || r.used != n * 60 || memcmp(entries[0], entries[k > 0], sizeof entries[0]))
            differ(codecs[k], "reading");
        if (codecs[k]->read_frame(input, 60, alone, sizeof alone)
            || memcmp(alone, entries[0], sizeof alone))
            differ(codecs[k], "reading a frame alone");
    }
}

/* The messages of four minutes. */
static void set_messages(const uint32_t minutes[WWVB_MAX_MESSAGES])
{
    wwvb_plan plan = wwvb_us_plan();
    uint32_t i;

    plan.message_count = WWVB_MAX_MESSAGES;
    for (i = 0; i < WWVB_MAX_MESSAGES; i++) {
        plan.messages[i].minute = minutes[i];
        plan.messages[i].data = 0x123456789abu * (uint64_t)(i + 1) % WWVB_DATA_LIMIT;
    }
    if (wwvb_message_bytes(&plan, messages) != sizeof messages)
        differ(&library, "messages as bytes");
}

/* Bits read by each codec, refused or not. */
static void read_any(size_t length)
{
    wwvb_read_reply r[2];
    size_t k, space = 8 * WWVB_ENTRY_SIZE;

    memset(entries, 0, sizeof entries);
    for (k = 0; k < CODECS; k++) {
        size_t j = k > 0;

        r[j] = codecs[k]->read_recording(input, length, entries[j], space);
        if (memcmp(&r[0], &r[j], sizeof r[0]) || memcmp(entries[0], entries[j], space))
            differ(codecs[k], "reading messages");
    }
}

/* Six minutes by each codec, to `input`, with so many bytes of messages and a leap second of a
   sign in a month; gives the number of bits. */
static size_t write_six(size_t length, uint32_t month, int32_t sign, uint32_t minute)
{
    wwvb_write_reply r[2];
    size_t k;

    for (k = 0; k < CODECS; k++) {
        size_t j = k > 0;

        memset(bits[j], 9, 400);
        r[j] = codecs[k]->write_recording(0, 10, 37, sign ? month : 0, sign, 1, messages, length,
                                          minute, 6, bits[j], sizeof bits[j]);
        if (r[j].refusal || r[j].bits != r[0].bits || memcmp(bits[0], bits[j], 400))
            differ(codecs[k], "writing messages");
    }
    memcpy(input, bits[0], 400);
    return r[0].bits;
}

/* Messages by each codec: minutes about the end of months with a leap second of each sign and
   without, written, read, and read with each bit inverted. */
static void messages_all(void)
{
    uint32_t month, next, k, i, minutes[WWVB_MAX_MESSAGES];

    for (month = 0; month < 1199; month += 11)
        for (k = 0; k < 12; k++) {
            size_t length;

            next = month + 1;
            minutes[0] = wwvb_date_to_minute(2000 + next / 12, 1 + next % 12, 1, 0, 0).minute - 3;
            for (i = 1; i < WWVB_MAX_MESSAGES; i++)
                minutes[i] = minutes[0] + k / 3 + i;
            set_messages(minutes);
            length = write_six(k % 5 * 10, month, (int32_t)(k % 3) - 1, minutes[0] - k % 2);
            read_any(length);
            for (i = 0; i < length; i++) {
                input[i] ^= 1;
                read_any(length);
                input[i] ^= 1;
            }
        }
}

/* Bytes that are no messages by each codec, in both codes and in IRIG B. */
static void refused_messages_all(void)
{
    static const uint32_t minutes[WWVB_MAX_MESSAGES] = {7, 8, 9, WWVB_MINUTES - 1};
    uint8_t bytes[2 * sizeof messages];
    size_t length, k, i;

    set_messages(minutes);
    for (i = 0; i < 4 * sizeof messages; i++) {
        memset(bytes, 0, sizeof bytes);
        memcpy(bytes, messages, sizeof messages);
        bytes[i / 4] = (uint8_t)(i % 4 * 85);
        for (length = 30; length <= sizeof bytes; length += i ? 10 : 1)
            for (k = 0; k < CODECS; k++) {
                const struct codec *c = codecs[k];
                wwvb_write_reply a, b, first;
                wwvb_irig_write_reply s;

                first = library.write_recording(1, 0, 0, 0, 0, 0, bytes, length, 0, 1, bits[0],
                                                60);
                a = c->write_recording(1, 0, 0, 0, 0, 0, bytes, length, 0, 1, bits[1], 60);
                b = c->write_amplitude(1, 0, 0, 0, 0, 0, bytes, length, 0, 1, 0, symbols[0], 60);
                s = c->write_irig(1, 0, 0, 0, 0, 0, bytes, length, 0, 0, elements[0],
                                  WWVB_IRIG_ELEMENTS);
                if (a.refusal != first.refusal || b.refusal != first.refusal
                    || s.refusal != first.refusal)
                    differ(c, "messages that are refused");
            }
    }
}

/* Prints `input` by each codec, with snprintf and by hand, the library first, with so many bytes
   of space; gives the library's answer. */
static wwvb_print_reply print_all(size_t length, size_t space)
{
    wwvb_print_reply r[2];
    size_t k;

    for (k = 0; k < 2 * CODECS; k++) {
        const struct codec *c = codecs[k / 2];
        size_t j = k > 0;

        memset(pages[j], 9, sizeof pages[j]);
        r[j] = (k % 2 ? c->hand_print_pages : c->print_pages)(input, length, pages[j], space);
        if (memcmp(&r[0], &r[j], sizeof r[0]) || memcmp(pages[0], pages[j], sizeof pages[0]))
            differ(c, k % 2 ? "printing by hand" : "printing");
    }
    return r[0];
}

/* The same with space for all the pages, with a byte more and less, and without a page. */
static void print_spaces(size_t length, size_t entries_due)
{
    size_t enough = wwvb_pages_size(entries_due);

    if (print_all(length, enough).bytes != enough || print_all(length, enough + 1).bytes != enough
        || (enough && print_all(length, enough - 1).refusal != WWVB_NO_BIT_SPACE)
        || (enough && print_all(length, 0).refusal != WWVB_NO_BIT_SPACE))
        differ(&library, "the pages of a number of entries");
}

/* Pages by each codec. `input` has 1,000 frames: the first n of them, for many n. Then six
   minutes with messages at a month's end, with each bit inverted and cut off after each. */
static void pages_all(void)
{
    uint32_t n, i, k, minutes[WWVB_MAX_MESSAGES];
    size_t length;

    for (n = 0; n <= 1000; n += n < 110 || n >= 990 ? 1 : 10)
        print_spaces(n * 60, n);
    for (k = 0; k < 12; k++) {
        for (i = 0; i < WWVB_MAX_MESSAGES; i++)
            minutes[i] = 6573597 + k / 3 + i;
        set_messages(minutes);
        length = write_six(k % 5 * 10, 149, (int32_t)(k % 3) - 1, 6573596);
        print_spaces(length, 6);
        for (i = 0; i < length; i++) {
            print_all(i, i % 2 ? WWVB_PAGE_SIZE : 0);
            input[i] ^= 1;
            print_all(length, i % 2 ? WWVB_PAGE_SIZE : 0);
            print_all(length, i % 2 ? 0 : WWVB_PAGE_SIZE);
            input[i] ^= 1;
        }
    }
}

static void date_all(void)
{
    uint32_t i;
    size_t k;

    for (i = 0; i < FRAMES; i++)
        for (k = 1; k < CODECS; k++) {
            wwvb_date_reply a[2], b[2], q[2];
            wwvb_minute_reply m[2];
            size_t j;

            for (j = 0; j < 2; j++) {
                const struct codec *c = codecs[j ? k : 0];

                a[j] = c->minute_to_date(dates[i].number);
                q[j] = c->fast_minute_to_date(dates[i].number);
                b[j] = c->local_date(dates[i].number, dates[i].state, dates[i].offset, dates[i].change_hour);
                m[j] = c->date_to_minute(dates[i].year, dates[i].month, dates[i].day, dates[i].hour, dates[i].minute);
            }
            if (memcmp(&a[0], &a[1], sizeof a[0]) || memcmp(&q[0], &q[1], sizeof q[0]) || memcmp(&b[0], &b[1], sizeof b[0])
                || memcmp(&m[0], &m[1], sizeof m[0]))
                differ(codecs[k], "dates");
        }
}

/* Writes by each codec, straightforwardly and for speed alone, the library first, to `symbols`. */
static size_t write_minute_all(const struct writing *w)
{
    wwvb_write_reply r[2];
    size_t k;

    for (k = 0; k < 2 * CODECS; k++) {
        const struct codec *c = codecs[k / 2];
        size_t j = k > 0;

        memset(symbols[j], 9, sizeof symbols[j]);
        r[j] = write_minute(k % 2 ? c->fast_write_amplitude : c->write_amplitude, w, symbols[j]);
        if (r[j].refusal != w->refusal || r[j].bits != r[0].bits || memcmp(symbols[0], symbols[j], sizeof symbols[0]))
            differ(c, k % 2 ? "writing the amplitude code for speed alone" : "writing the amplitude code");
    }
    return r[0].bits;
}

/* Reads by each codec, straightforwardly and for speed alone, the library first. */
static uint32_t read_minute_all(const uint8_t *s, size_t length)
{
    wwvb_amplitude_reply r[2];
    size_t k;

    for (k = 0; k < 2 * CODECS; k++) {
        const struct codec *c = codecs[k / 2];
        size_t j = k > 0;

        r[j] = (k % 2 ? c->fast_read_amplitude : c->read_amplitude)(s, length);
        if (memcmp(&r[0], &r[j], sizeof r[0]))
            differ(c, k % 2 ? "reading the amplitude code for speed alone" : "reading the amplitude code");
    }
    return r[0].refusal;
}

/* Reads a minute with each symbol changed, once with its UT1 sign and once with a wrong one. */
static void read_changed(uint8_t *s, size_t length)
{
    static const uint8_t others[] = {0, 1, 2, 3, 255};
    size_t i, k;
    int wrong;

    for (wrong = 0; wrong < 2; wrong++) {
        for (i = 0; i < length; i++) {
            uint8_t kept = s[i];

            for (k = 0; k < sizeof others; k++) {
                s[i] = others[k];
                read_minute_all(s, length);
            }
            s[i] = kept;
        }
        s[36] ^= 1;
    }
}

/* A writing of the last minute of a month, with a plan of one kind or another. */
static struct writing month_end(uint32_t month)
{
    uint32_t next = month + 1;
    struct writing w = {0, 0, 0, 0, 0, 0, 0, 1, 0, 0, 0};

    w.kind = (month + month / 12) % 4;
    w.spring = spring_of(w.kind);
    w.autumn = autumn_of(w.kind);
    w.minute = next < 1200 ? wwvb_date_to_minute(2000 + next / 12, 1 + next % 12, 1, 0, 0).minute : WWVB_MINUTES;
    w.minute--;
    return w;
}

/* The last minute of a month with a leap second of each sign and without: written with space enough and without, read
   in each length, right or not, with the warning and without, and with a last symbol that is wrong. */
static void month_end_all(uint32_t month)
{
    struct writing w = month_end(month);
    size_t length;

    for (w.leap_sign = -1; w.leap_sign <= 1; w.leap_sign++) {
        w.leap_month = w.leap_sign ? month : 0;
        for (w.space = WWVB_MIN_FRAME - 1; w.space <= WWVB_MAX_FRAME; w.space++) {
            w.refusal = w.space < (size_t)(60 + w.leap_sign) ? WWVB_NO_BIT_SPACE : WWVB_OK;
            write_minute_all(&w);
        }
        memset(symbols[0] + WWVB_MIN_FRAME, 9, sizeof symbols[0] - WWVB_MIN_FRAME);
        for (length = WWVB_MIN_FRAME - 1; length <= sizeof symbols[0]; length++) {
            uint8_t *last = &symbols[0][length - 1];

            if (length > WWVB_MIN_FRAME)
                *last = 2;
            read_minute_all(symbols[0], length);
            symbols[0][56] ^= 1;
            read_minute_all(symbols[0], length);
            symbols[0][56] ^= 1;
            *last ^= 3;
            read_minute_all(symbols[0], length);
            *last ^= 3;
        }
    }
}

/* Writings that are refused. The last three have more than one reason, and the first of the order counts. */
static const struct writing refused[] = {
    {4, 0, 0, 0, 0, 0, 0, 1, 0, 61, WWVB_ILLEGAL_PLAN},
    {4, 10, 37, 0, 0, 0, 0, 1, 0, 61, WWVB_ILLEGAL_PLAN},
    {3, 0, 0, 0, 0, 0, 0, 1, 0, 61, WWVB_ILLEGAL_PLAN},
    {3, 25, 37, 0, 0, 0, 0, 1, 0, 61, WWVB_ILLEGAL_PLAN},
    {3, 10, 49, 0, 0, 0, 0, 1, 0, 61, WWVB_ILLEGAL_PLAN},
    {0, 0, 37, 0, 0, 0, 0, 1, 0, 61, WWVB_ILLEGAL_PLAN},
    {0, 25, 37, 0, 0, 0, 0, 1, 0, 61, WWVB_ILLEGAL_PLAN},
    {0, 10, 24, 0, 0, 0, 0, 1, 0, 61, WWVB_ILLEGAL_PLAN},
    {0, 10, 49, 0, 0, 0, 0, 1, 0, 61, WWVB_ILLEGAL_PLAN},
    {1, 10, 0, 0, 0, 0, 0, 1, 0, 61, WWVB_ILLEGAL_PLAN},
    {2, 0, 37, 0, 0, 0, 0, 1, 0, 61, WWVB_ILLEGAL_PLAN},
    {0, 10, 37, 1200, 1, 0, 0, 1, 0, 61, WWVB_ILLEGAL_PLAN},
    {0, 10, 37, 1, 0, 0, 0, 1, 0, 61, WWVB_ILLEGAL_PLAN},
    {0, 10, 37, 0, 2, 0, 0, 1, 0, 61, WWVB_ILLEGAL_PLAN},
    {0, 10, 37, 0, -2, 0, 0, 1, 0, 61, WWVB_ILLEGAL_PLAN},
    {0, 10, 37, 0, 0, 2, 0, 1, 0, 61, WWVB_ILLEGAL_PLAN},
    {0, 10, 37, 0, 0, 0, WWVB_MINUTES, 1, 0, 61, WWVB_MINUTE_TOO_LARGE},
    {0, 10, 37, 0, 0, 0, UINT32_MAX, 1, 0, 61, WWVB_MINUTE_TOO_LARGE},
    {0, 10, 37, 0, 0, 0, 0, 0, 0, 61, WWVB_BAD_VALUE},
    {0, 10, 37, 0, 0, 0, 0, 2, 0, 61, WWVB_BAD_VALUE},
    {0, 10, 37, 0, 0, 0, 0, -2, 0, 61, WWVB_BAD_VALUE},
    {0, 10, 37, 0, 0, 0, 0, 1, 10, 61, WWVB_BAD_VALUE},
    {0, 10, 37, 0, 0, 0, 0, 1, 0, 0, WWVB_NO_BIT_SPACE},
    {4, 0, 0, 0, 0, 0, WWVB_MINUTES, 0, 10, 0, WWVB_ILLEGAL_PLAN},
    {0, 10, 37, 0, 0, 0, WWVB_MINUTES, 0, 10, 0, WWVB_MINUTE_TOO_LARGE},
    {0, 10, 37, 0, 0, 0, 0, 0, 10, 0, WWVB_BAD_VALUE},
};

/* The amplitude code by each codec: what is measured, which is kept to be read, and what is refused. */
static void amplitude_all(void)
{
    uint32_t i;

    for (i = 0; i < FRAMES; i++) {
        struct writing w = measured(i);
        size_t length = write_minute_all(&w);

        if (read_minute_all(symbols[0], length))
            differ(&library, "reading the amplitude code");
        if (i < MINUTES) {
            memcpy(minutes[i].symbols, symbols[0], sizeof minutes[i].symbols);
            minutes[i].length = length;
            read_changed(symbols[0], length);
        }
    }
    for (i = 0; i < 1200; i++)
        month_end_all(i);
    for (i = 0; i < sizeof refused / sizeof refused[0]; i++)
        write_minute_all(&refused[i]);
    read_minute_all(symbols[0], 0);
}

/* Writes by each codec, straightforwardly and for speed alone, the library first, to `elements`. */
static void write_second_all(const struct writing *w, uint32_t second, size_t refusal)
{
    size_t k;

    for (k = 0; k < 2 * CODECS; k++) {
        const struct codec *c = codecs[k / 2];
        uint8_t *out = memset(elements[k > 0], 9, sizeof elements[0]);
        wwvb_irig_write_reply r = write_second(k % 2 ? c->fast_write_irig : c->write_irig, w,
                                               second, out);

        if (r.refusal != refusal || r.elements != (refusal ? 0 : WWVB_IRIG_ELEMENTS)
            || memcmp(elements[0], out, sizeof elements[0]))
            differ(c, k % 2 ? "writing IRIG B for speed alone" : "writing IRIG B");
    }
}

/* Reads by each codec, straightforwardly and for speed alone, the library first. */
static wwvb_irig_reply read_second_all(const uint8_t *e, size_t length)
{
    wwvb_irig_reply r[2];
    size_t k;

    for (k = 0; k < 2 * CODECS; k++) {
        const struct codec *c = codecs[k / 2];
        size_t j = k > 0;

        r[j] = (k % 2 ? c->fast_read_irig : c->read_irig)(e, length);
        if (memcmp(&r[0], &r[j], sizeof r[0]))
            differ(c, k % 2 ? "reading IRIG B for speed alone" : "reading IRIG B");
    }
    return r[0];
}

/* The last seconds of a month with a leap second of each sign and without, written with space
   enough and without, and read. */
static void month_end_irig(uint32_t month)
{
    struct writing w = month_end(month);
    uint32_t second;

    for (w.leap_sign = -1; w.leap_sign <= 1; w.leap_sign++) {
        uint32_t length = (uint32_t)(60 + w.leap_sign);

        w.leap_month = w.leap_sign ? month : 0;
        for (second = 57; second <= 62; second++) {
            w.space = WWVB_IRIG_ELEMENTS - 1;
            write_second_all(&w, second, second < length ? WWVB_NO_BIT_SPACE : WWVB_BAD_SECOND);
            for (w.space++; w.space <= sizeof elements[0]; w.space++)
                write_second_all(&w, second, second < length ? WWVB_OK : WWVB_BAD_SECOND);
            if (second < length
                && read_second_all(elements[0], WWVB_IRIG_ELEMENTS).second_of_day != 86340 + second)
                differ(&library, "reading IRIG B at the end of a month");
        }
    }
}

static void put_low_first(uint8_t *out, uint32_t number, int n)
{
    int i;

    for (i = 0; i < n; i++)
        out[i] = number >> i & 1;
}

/* Reads the second of decimal digits that have four bits each, and that may be above 9. */
static void read_digits(uint32_t day, uint32_t hour, uint32_t minute, uint32_t second)
{
    uint8_t *e = elements[0];
    uint32_t of_day = ((hour >> 4) * 10 + hour % 16) * 3600
        + ((minute >> 4) * 10 + minute % 16) * 60 + (second >> 4) * 10 + second % 16;

    put_low_first(e + 1, second, 4);
    put_low_first(e + 6, second >> 4, 3);
    put_low_first(e + 10, minute, 4);
    put_low_first(e + 15, minute >> 4, 3);
    put_low_first(e + 20, hour, 4);
    put_low_first(e + 25, hour >> 4, 2);
    put_low_first(e + 30, day, 4);
    put_low_first(e + 35, day >> 4, 4);
    put_low_first(e + 40, day >> 8, 2);
    put_low_first(e + 80, of_day, 9);
    put_low_first(e + 90, of_day >> 9, 8);
    read_second_all(e, WWVB_IRIG_ELEMENTS);
}

/* Every second and minute that digits can say, every hour, and every day. The other elements are
   those of a second. */
static void read_all_digits(void)
{
    uint32_t i, k;

    for (i = 0; i < 0x80; i++)
        for (k = 0; k < 0x80; k++)
            read_digits(0x182, 0x23, i, k);
    for (i = 0; i < 0x40; i++)
        for (k = 0x58; k <= 0x60; k++)
            read_digits(0x182, i, 0x59, k);
    for (i = 0; i < 0x400; i++)
        for (k = 0x58; k <= 0x60; k++)
            read_digits(i, 0x23, 0x59, k);
}

/* Reads a second with each element changed. */
static void read_changed_elements(uint8_t *e)
{
    static const uint8_t others[] = {0, 1, 2, 3, 255};
    size_t i, k;

    for (i = 0; i < WWVB_IRIG_ELEMENTS; i++) {
        uint8_t kept = e[i];

        for (k = 0; k < sizeof others; k++) {
            e[i] = others[k];
            read_second_all(e, WWVB_IRIG_ELEMENTS);
        }
        e[i] = kept;
    }
}

/* IRIG B by each codec: what is measured, which is kept to be read, and what is refused. */
static void irig_all(void)
{
    struct writing w;
    uint32_t i;

    for (i = 0; i < FRAMES; i++) {
        wwvb_irig_reply r;

        w = measured_irig(i);
        write_second_all(&w, i % 60, WWVB_OK);
        r = read_second_all(elements[0], WWVB_IRIG_ELEMENTS);
        if (r.refusal || r.second_of_day != w.minute % 1440 * 60 + i % 60)
            differ(&library, "reading IRIG B");
        if (i < SECONDS) {
            memcpy(seconds[i], elements[0], sizeof seconds[i]);
            read_changed_elements(elements[0]);
        }
    }
    for (i = 0; i < 1200; i++)
        month_end_irig(i);
    memcpy(elements[0], seconds[0], sizeof seconds[0]);
    for (i = 0; i <= sizeof elements[0]; i++)
        read_second_all(elements[0], i);
    read_all_digits();

    /* illegal plans, alone and with all else refused too; then the other refusals */
    for (i = 0; i < sizeof refused / sizeof refused[0]; i++)
        if (refused[i].refusal == WWVB_ILLEGAL_PLAN) {
            w = refused[i];
            w.space = WWVB_IRIG_ELEMENTS;
            write_second_all(&w, 0, WWVB_ILLEGAL_PLAN);
            w.minute = WWVB_MINUTES;
            w.space = 0;
            write_second_all(&w, 60, WWVB_ILLEGAL_PLAN);
        }
    w = measured_irig(0);
    w.space = 0;
    write_second_all(&w, 59, WWVB_NO_BIT_SPACE);
    write_second_all(&w, 60, WWVB_BAD_SECOND);
    write_second_all(&w, UINT32_MAX, WWVB_BAD_SECOND);
    w.minute = WWVB_MINUTES;
    write_second_all(&w, 0, WWVB_MINUTE_TOO_LARGE);
    write_second_all(&w, 60, WWVB_MINUTE_TOO_LARGE);
    w.minute = UINT32_MAX;
    write_second_all(&w, 0, WWVB_MINUTE_TOO_LARGE);
}

/* Kind 3 by each codec, in both codes: each day of 2000 to 2008 but the first, with the minute
   before it. */
static void earlier_law_all(void)
{
    struct writing w = {3, 10, 37, 0, 0, 0, 0, 1, 0, WWVB_MAX_FRAME, WWVB_OK};
    uint32_t day, end = wwvb_date_to_minute(2009, 1, 1, 0, 0).minute / 1440;

    for (day = 1; day < end; day++) {
        write_all(3, 0, 0, day * 1440 - 1, 2);
        for (w.minute = day * 1440 - 1; w.minute <= day * 1440; w.minute++)
            write_minute_all(&w);
    }
}

/* A recording of 1,000 frames with four messages, the second frame the first of them. */
static void write_four_messages(void)
{
    uint32_t minutes[WWVB_MAX_MESSAGES], i;

    for (i = 0; i < WWVB_MAX_MESSAGES; i++)
        minutes[i] = first_minute + 1 + 332 * i;
    set_messages(minutes);
    write_all_with(sizeof messages, kind, leap_month, leap_sign, first_minute, 1000);
}

/* What is read: the plan's kind, its leap month and sign, the first minute, and whether one bit of each frame is inverted. */
static const struct {
    const char *what;
    uint32_t kind, month;
    int32_t sign;
    uint32_t minute, inverted;
} readings[4] = {
    {"frame read", 0, 149, 1, 6412320, 0},
    {"read, one bit inverted", 0, 149, 1, 6412320, 1},
    {"read, row 50 (no daylight time)", 1, 0, 0, 6412320, 0},
    {"read, leap month", 0, 149, 1, 6573599 - 1001, 0},
};

int main(void)
{
    static const uint32_t sizes[] = {1, 10, 1000};
    size_t i, k;
    uint32_t f;

    printf("| what | frames | library |");
    for (k = 1; k < CODECS; k++)
        printf(" %s |", codecs[k]->label);
    printf("\n|---|---|---|");
    for (k = 1; k < CODECS; k++)
        printf("---|");
    printf("\n");

    write_all(0, 0, 0, 6412320 - 20000, 1000);
    for (i = 0; i < 3; i++)
        measure("frame written", write_frames, sizes[i]);
    leap_month = 149;
    leap_sign = 1;
    write_all(0, leap_month, leap_sign, 6412320 - 20000, 1000);
    for (i = 0; i < 3; i++)
        measure("written, leap month set", write_frames, sizes[i]);
    earlier_law_all();
    kind = 3;
    leap_month = 0;
    leap_sign = 0;
    first_minute = 1715040 - 20000; /* before the first Sunday in April of 2003 */
    write_all(kind, leap_month, leap_sign, first_minute, 1000);
    measure("written, kind 3 in 2003", write_frames, 1);

    messages_all();
    refused_messages_all();
    kind = 0;
    first_minute = 6412320 - 20000;
    write_four_messages();
    measure("written, four messages", write_messages, 1000);

    for (k = 0; k < 4; k++) {
        write_all(readings[k].kind, readings[k].month, readings[k].sign, readings[k].minute, 1000);
        for (f = 0; f < 1000 && readings[k].inverted; f++)
            input[f * 60 + 40 + f % 7] ^= 1;
        read_all(1000);
        measure(readings[k].what, read_frames, 1);
        if (k == 0)
            measure(readings[k].what, read_frames, 10);
        measure(readings[k].what, read_frames, 1000);
        if (k == 0)
            measure("frame read alone", read_alone, 0);
    }
    write_four_messages();
    read_all(1000);
    measure("read, four messages", read_frames, 1000);

    pages_all();
    write_four_messages();
    for (f = 50; f <= 1000; f += 950) {
        measure("frame printed, C with snprintf", print_frames, f);
        measure("frame printed, C by hand", print_frames_by_hand, f);
    }

    prepare_dates();
    date_all();
    measure("minute to date", make_dates, 0);
    measure(THE_SAME ", C for speed alone", make_dates_fast, 0);
    measure("date to minute", make_minutes, 0);
    measure("local date", make_local_dates, 0);

    amplitude_all();
    measure("write a minute, amplitude", write_minutes, 0);
    measure(THE_SAME ", C for speed alone", write_minutes_fast, 0);
    measure("read a minute, amplitude", read_minutes, 0);
    measure(THE_SAME ", C for speed alone", read_minutes_fast, 0);

    irig_all();
    measure("write a second, IRIG B", write_seconds, 0);
    measure(THE_SAME ", C for speed alone", write_seconds_fast, 0);
    measure("read a second, IRIG B", read_seconds, 0);
    measure(THE_SAME ", C for speed alone", read_seconds_fast, 0);
    printf("\nThe library takes longer than some plain codec in: %s.\n", slower[0] ? slower + 2 : "no row");
    return sink == 1; /* keeps the sums from being dropped */
}
