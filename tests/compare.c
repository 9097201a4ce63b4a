/*
 * Compares every call of the library with the plain C reference: on boundary cases, and on seeded
 * random ones, valid and damaged. Each buffer stands between guard bytes and a page that may not
 * be touched; buffer and guards are compared whole after the call, refused or not. Each number
 * that a call can give is seen, and no other; no call gives 12. Plans of each kind are written,
 * those of kind 3 by the earlier law and by their own rows, and plans with none to four messages.
 * Pages are printed of none to a month of entries, with every value of the narrow columns and
 * minutes of one to eight digits. Every second of a minute and every day of a year is written and
 * read in IRIG B.
 *
 * usage: compare [CASES [SEED [exact]]]
 *   exact: buffers are blocks of malloc of just their length, for valgrind
 */
#define _DEFAULT_SOURCE
#include "reference.h"
#include "wwvb.h"

#include <inttypes.h>
#include <stdio.h>
#include <stdlib.h>
#include <string.h>
#include <sys/mman.h>

#define GUARD 64
#define ROOM (WWVB_MAX_RECORDING + 4096)
#define LONG_ROOM (60 * 50010) /* bytes of the longest buffer: the frames of 1,001 pages */
#define MINUTES WWVB_MINUTES

enum call {
    TO_DATE, TO_MINUTE, LOCAL, WRITE, ONE, READ, PRINT, WRITE_AMPLITUDE, READ_AMPLITUDE,
    WRITE_IRIG, READ_IRIG, CALLS
};
#define NUMBERS 22

static const char *const call_names[CALLS] = {
    "wwvb_minute_to_date", "wwvb_date_to_minute", "wwvb_local_date",
    "wwvb_write_recording", "wwvb_read_frame", "wwvb_read_recording", "wwvb_print_pages",
    "wwvb_write_amplitude", "wwvb_read_amplitude", "wwvb_write_irig", "wwvb_read_irig",
};

/* The numbers that a call can give. */
static int can_give(enum call c, unsigned n)
{
    if (n == 12) /* no longer returned */
        return 0;
    switch (c) {
    case TO_DATE: return n == 0 || n == 3;
    case TO_MINUTE: return n == 0 || n == 15;
    case LOCAL: return n == 0 || n == 3 || n == 16;
    case WRITE: return n <= 4;
    case ONE: return n == 0 || (n >= 5 && n <= 13) || n == 19;
    case READ: return n == 0 || (n >= 5 && n <= 14) || n == 19 || n == 20;
    case PRINT: return n == 4 || (n != 5 && can_give(READ, n));
    case WRITE_AMPLITUDE: return n == 0 || n == 1 || n == 3 || n == 4 || n == 18;
    case READ_AMPLITUDE: return n == 0 || n == 17 || n == 18;
    case WRITE_IRIG: return n == 0 || n == 1 || n == 3 || n == 4 || n == 21;
    default: return n == 0 || n == 21;
    }
}

static unsigned long seen[CALLS][NUMBERS]; /* by call and number */
static unsigned long later[NUMBERS];       /* refusals of a recording's later frames */
static unsigned long lengths[CALLS][62];
static unsigned long message_lengths[62]; /* of messages that are read */
static unsigned long page_digits[5];      /* pages by the digits of their number */
static unsigned long minute_digits[9];    /* printed lines by the digits of their minute */
static unsigned long leap_marks[4];       /* printed lines by the character under leap */
static unsigned long lines_left[50];      /* accepted printings by their blank lines */
static unsigned long irig_days[CALLS][367];   /* accepted seconds of IRIG B by day of year */
static unsigned long irig_seconds[CALLS][61]; /* and by second of the minute */
static unsigned long irig_limits[62];         /* 21 at the first second that a minute lacks */
static unsigned long message_counts[5];   /* accepted writings by the plan's number of messages */
static unsigned long kinds[4]; /* accepted writings by the plan's kind */
static unsigned long own_rows; /* those of kind 3 from 2007 on, by the plan's own rows */
static unsigned long cases;
static uint64_t seed = 1;
static int exact;

static void fail(enum call c, const char *what)
{
    fprintf(stderr, "compare: %s, case %lu: %s differs\n", call_names[c], cases, what);
    exit(1);
}

static void count(enum call c, size_t n)
{
    cases++;
    if (n >= NUMBERS || !can_give(c, (unsigned)n))
        fail(c, "the set of numbers that it can give");
    seen[c][n]++;
}

/* ---- random numbers (splitmix64) */

static uint64_t rnd(void)
{
    uint64_t z = seed += 0x9e3779b97f4a7c15u;
    z = (z ^ z >> 30) * 0xbf58476d1ce4e5b9u;
    z = (z ^ z >> 27) * 0x94d049bb133111ebu;
    return z ^ z >> 31;
}

static uint32_t below(uint32_t n)
{
    return (uint32_t)(rnd() % n);
}

static int one_in(uint32_t n)
{
    return below(n) == 0;
}

/* ---- guarded buffers */

/* A buffer of any length up to LONG_ROOM, its bytes as they should be after the call, and its
   guard bytes. */
struct buffer {
    uint8_t *base; /* the pages between two that may not be touched, or the block of malloc */
    uint8_t *at;   /* the buffer */
    size_t length;
    int at_end; /* whether it ends at the page after it, or begins at the page before */
    uint8_t *want;
};

static struct buffer in_buffer, out_buffer, message_buffer;

static size_t area(void)
{
    return (LONG_ROOM + 2 * GUARD + 4095) / 4096 * 4096;
}

static void make(struct buffer *b)
{
    size_t page = 4096;

    b->want = malloc(LONG_ROOM);
    if (!b->want)
        abort();
    if (exact)
        return;
    b->base = mmap(NULL, area() + 2 * page, PROT_NONE, MAP_PRIVATE | MAP_ANONYMOUS, -1, 0);
    if (b->base == MAP_FAILED || mprotect(b->base + page, area(), PROT_READ | PROT_WRITE) != 0)
        abort();
    b->base += page;
}

static uint8_t guard_byte(size_t i)
{
    return (uint8_t)(0xa5 ^ i * 29);
}

/* A buffer of so many bytes, which it wants unchanged. */
static void lay(struct buffer *b, const uint8_t *bytes, size_t length)
{
    size_t i;

    b->length = length;
    if (exact) {
        free(b->base);
        b->at = b->base = malloc(length ? length : 1);
        if (!b->base)
            abort();
        if (length == 0)
            b->at = one_in(2) ? NULL : b->base + 1;
    } else {
        b->at_end = one_in(2);
        b->at = b->at_end ? b->base + area() - length : b->base;
        for (i = 0; i < GUARD; i++)
            *(b->at_end ? b->at - 1 - i : b->at + length + i) = guard_byte(i);
        if (length == 0 && one_in(2))
            b->at = NULL;
    }
    if (length) {
        memcpy(b->at, bytes, length);
        memcpy(b->want, bytes, length);
    }
}

static void check(enum call c, const struct buffer *b, const char *what)
{
    size_t i;

    if (b->length && memcmp(b->at, b->want, b->length) != 0)
        fail(c, what);
    if (exact)
        return;
    for (i = 0; i < GUARD; i++) {
        const uint8_t *end = b->base + area() - b->length;
        if (*(b->at_end ? end - 1 - i : b->base + b->length + i) != guard_byte(i))
            fail(c, "a guard byte");
    }
}

/* Random bytes, to stand in a buffer before a call writes it. */
static uint8_t noise[LONG_ROOM];

static void lay_noise(struct buffer *b, size_t length)
{
    lay(b, noise + (length < ROOM ? below((uint32_t)(ROOM - length + 1)) : 0), length);
}

/* ---- messages */

/* The messages of a plan as the calls take them. */
struct messages {
    uint8_t bytes[6 * WWVB_MESSAGE_SIZE];
    size_t length;
};

static const struct messages no_messages;

static void set_minute(struct messages *m, size_t i, uint32_t minute)
{
    uint8_t *bytes = m->bytes + i * WWVB_MESSAGE_SIZE;
    int k;

    for (k = 3; k >= 0; k--, minute >>= 8)
        bytes[k] = (uint8_t)(minute & 255);
}

static void set_data(struct messages *m, size_t i, uint64_t data)
{
    uint8_t *bytes = m->bytes + i * WWVB_MESSAGE_SIZE + 4;
    int k;

    for (k = 5; k >= 0; k--, data >>= 8)
        bytes[k] = (uint8_t)(data & 255);
}

static uint32_t minute_at(const struct messages *m, size_t i)
{
    const uint8_t *b = m->bytes + i * WWVB_MESSAGE_SIZE;

    return (uint32_t)b[0] << 24 | (uint32_t)b[1] << 16 | (uint32_t)b[2] << 8 | b[3];
}

static uint64_t data_at(const struct messages *m, size_t i)
{
    uint64_t data = 0;
    int k;

    for (k = 4; k < 10; k++)
        data = data << 8 | m->bytes[i * WWVB_MESSAGE_SIZE + k];
    return data;
}

/* Adds a message after the others. */
static void add_message(struct messages *m, uint32_t minute, uint64_t data)
{
    size_t i = m->length / WWVB_MESSAGE_SIZE;

    set_minute(m, i, minute);
    set_data(m, i, data);
    m->length += WWVB_MESSAGE_SIZE;
}

/* Whether there is a message for a minute, and which. */
static int has_message(const struct messages *m, uint32_t minute, size_t *which)
{
    size_t i;

    for (i = 0; i < m->length / WWVB_MESSAGE_SIZE; i++)
        if (minute_at(m, i) == minute) {
            *which = i;
            return 1;
        }
    return 0;
}

/* ---- the calls, each beside the reference */

static void check_date(enum call c, wwvb_date_reply r, unsigned refusal, const struct ref_date *d)
{
    count(c, r.refusal);
    if (r.refusal != refusal)
        fail(c, "the number");
    if (r.year != d->year || r.month != d->month || r.day != d->day || r.hour != d->hour || r.minute != d->minute
        || r.weekday != d->weekday)
        fail(c, "the date");
}

static void try_to_date(uint32_t minute)
{
    struct ref_date d = {0, 0, 0, 0, 0, 0};
    unsigned refusal = ref_minute_to_date(minute, &d);

    check_date(TO_DATE, wwvb_minute_to_date(minute), refusal, &d);
}

static void try_local(uint32_t minute, uint32_t state, int32_t offset, uint32_t hour)
{
    struct ref_date d = {0, 0, 0, 0, 0, 0};
    unsigned refusal = ref_local_date(minute, state, offset, hour, &d);

    check_date(LOCAL, wwvb_local_date(minute, state, offset, hour), refusal, &d);
}

static void try_to_minute(uint32_t year, uint32_t month, uint32_t day, uint32_t hour, uint32_t minute)
{
    struct ref_date d = {year, month, day, hour, minute, 0};
    uint32_t want = 0;
    unsigned refusal = ref_date_to_minute(&d, &want);
    wwvb_minute_reply r = wwvb_date_to_minute(year, month, day, hour, minute);

    count(TO_MINUTE, r.refusal);
    if (r.refusal != refusal)
        fail(TO_MINUTE, "the number");
    if (r.minute != want)
        fail(TO_MINUTE, "the minute");
}

/* 2007-01-01 00:00. */
#define OWN_ROWS_BEGIN 3682080u

/* Counts an accepted writing by the plan's kind. */
static void count_kind(const struct ref_plan *p, uint32_t first)
{
    if (p->kind == 3 && first >= OWN_ROWS_BEGIN)
        own_rows++;
    else
        kinds[p->kind]++;
}

/* The library's call of writing by a plan. */
static wwvb_write_reply write_by(const struct ref_plan *p, const uint8_t *messages,
                                 size_t messages_length, uint32_t first, uint32_t n, uint8_t *out,
                                 size_t space)
{
    return wwvb_write_recording(p->kind, p->spring, p->autumn, p->leap_month, p->leap_sign,
                                p->notice, messages, messages_length, first, n, out, space);
}

/* Gives the number of bits; they stand in out_buffer. */
static size_t try_messages(const struct ref_plan *p, const struct messages *m, uint32_t first,
                           uint32_t n, size_t space)
{
    size_t bits = 0;
    unsigned refusal;
    wwvb_write_reply r;

    lay(&message_buffer, m->bytes, m->length);
    lay_noise(&out_buffer, space);
    refusal = ref_write(p, m->bytes, m->length, first, n, out_buffer.want, space, &bits);
    r = write_by(p, message_buffer.at, m->length, first, n, out_buffer.at, space);
    count(WRITE, r.refusal);
    if (r.refusal != refusal)
        fail(WRITE, "the number");
    if (r.bits != bits)
        fail(WRITE, "the number of bits");
    check(WRITE, &out_buffer, "the buffer");
    check(WRITE, &message_buffer, "a message");
    if (refusal != 0)
        return 0;
    count_kind(p, first);
    message_counts[m->length / WWVB_MESSAGE_SIZE]++;
    if (n == 1)
        lengths[WRITE][bits]++;
    return bits;
}

static void try_write(const struct ref_plan *p, uint32_t first, uint32_t n, size_t space)
{
    try_messages(p, &no_messages, first, n, space);
}

static unsigned try_one(const uint8_t *bits, size_t length, size_t space)
{
    unsigned refusal;
    uint32_t r;

    lay(&in_buffer, bits, length);
    lay_noise(&out_buffer, space);
    refusal = ref_read_frame(in_buffer.want, length, out_buffer.want, space);
    r = wwvb_read_frame(in_buffer.at, length, out_buffer.at, space);
    count(ONE, r);
    if (r != refusal)
        fail(ONE, "the number");
    check(ONE, &in_buffer, "the bits");
    check(ONE, &out_buffer, "the entry buffer");
    if (r == 0)
        lengths[ONE][length]++;
    return refusal;
}

/* Gives the number. */
static unsigned try_read(const uint8_t *bits, size_t length, size_t space)
{
    size_t n, used, i;
    unsigned refusal;
    wwvb_read_reply r;

    lay(&in_buffer, bits, length);
    lay_noise(&out_buffer, space);
    refusal = ref_read(in_buffer.want, length, out_buffer.want, space, &n, &used);
    r = wwvb_read_recording(in_buffer.at, length, out_buffer.at, space);
    count(READ, r.refusal);
    if (r.refusal != refusal)
        fail(READ, "the number");
    if (r.entries != n)
        fail(READ, "the number of entries");
    if (r.used != used)
        fail(READ, "the number of bits used");
    check(READ, &in_buffer, "the bits");
    check(READ, &out_buffer, "the entry buffer");
    if (n)
        later[refusal]++;
    for (i = 0; i < n; i++) {
        const uint8_t *entry = out_buffer.at + i * WWVB_ENTRY_SIZE;

        lengths[READ][entry[WWVB_ENTRY_LENGTH]]++;
        message_lengths[entry[WWVB_ENTRY_LENGTH]] += entry[WWVB_ENTRY_KIND];
    }
    return refusal;
}

static const char marks[] = " -+M";

/* Counts what a line of an entry shows. */
static void count_line(const uint8_t *line)
{
    unsigned digits = 8;

    while (line[8 - digits] == ' ')
        digits--;
    minute_digits[digits]++;
    leap_marks[strchr(marks, line[32]) - marks]++;
    lengths[PRINT][line[26] * 10 + line[27] - '0' * 11]++;
}

/* Counts what the pages show that the reference has printed. */
static void count_pages(const uint8_t *text, size_t pages)
{
    size_t left = 0, i, k;

    for (i = 0; i < pages; i++, text += REF_PAGE) {
        page_digits[i < 9 ? 1 : i < 99 ? 2 : i < 999 ? 3 : 4]++;
        for (k = 2; k < 52; k++)
            if (text[k * REF_LINE + 7] != ' ')
                count_line(text + k * REF_LINE);
            else
                left++;
    }
    lines_left[left]++;
}

/* Gives the number. */
static unsigned try_print(const uint8_t *bits, size_t length, size_t space)
{
    size_t bytes = 0;
    unsigned refusal;
    wwvb_print_reply r;

    lay(&in_buffer, bits, length);
    lay_noise(&out_buffer, space);
    refusal = ref_print_pages(in_buffer.want, length, out_buffer.want, space, &bytes);
    r = wwvb_print_pages(in_buffer.at, length, out_buffer.at, space);
    count(PRINT, r.refusal);
    if (r.refusal != refusal)
        fail(PRINT, "the number");
    if (r.bytes != bytes)
        fail(PRINT, "the number of bytes");
    check(PRINT, &in_buffer, "the bits");
    check(PRINT, &out_buffer, "the buffer");
    if (refusal == 0)
        count_pages(out_buffer.at, bytes / REF_PAGE);
    return refusal;
}

/* A recording of so many entries with just enough space, a byte less and more, none, and any up to
   a page more. Accepted, it needs all of it; refused, the refusal is the same with each. */
static void try_spaces(const uint8_t *bits, size_t length, size_t entries)
{
    size_t enough = wwvb_pages_size(entries), i;
    unsigned refusal = try_print(bits, length, enough);
    size_t spaces[4] = {0, enough + 1, enough + below(REF_PAGE), 0};

    spaces[3] = enough ? enough - 1 : 0;
    for (i = 0; i < 4; i++)
        if (try_print(bits, length, spaces[i])
            != (refusal == 0 && spaces[i] < enough ? WWVB_NO_BIT_SPACE : refusal))
            fail(PRINT, "the number with another space");
}

static void try_amplitude(const struct ref_plan *p, const struct messages *m, uint32_t minute,
                          int32_t sign, uint32_t tenths, size_t space)
{
    size_t symbols = 0;
    unsigned refusal;
    wwvb_write_reply r;

    lay(&message_buffer, m->bytes, m->length);
    lay_noise(&out_buffer, space);
    refusal = ref_write_amplitude(p, m->bytes, m->length, minute, sign, tenths, out_buffer.want,
                                  space, &symbols);
    r = wwvb_write_amplitude(p->kind, p->spring, p->autumn, p->leap_month, p->leap_sign, p->notice,
                             message_buffer.at, m->length, minute, sign, tenths, out_buffer.at,
                             space);
    count(WRITE_AMPLITUDE, r.refusal);
    if (r.refusal != refusal)
        fail(WRITE_AMPLITUDE, "the number");
    if (r.bits != symbols)
        fail(WRITE_AMPLITUDE, "the number of symbols");
    check(WRITE_AMPLITUDE, &out_buffer, "the buffer");
    check(WRITE_AMPLITUDE, &message_buffer, "a message");
    if (refusal == 0) {
        count_kind(p, minute);
        lengths[WRITE_AMPLITUDE][symbols]++;
    }
}

static void try_write_amplitude(const struct ref_plan *p, uint32_t minute, int32_t sign,
                                uint32_t tenths, size_t space)
{
    try_amplitude(p, &no_messages, minute, sign, tenths, space);
}

static unsigned try_read_amplitude(const uint8_t *symbols, size_t length)
{
    struct ref_amplitude a = {{0, 0, 0, 0, 0, 0}, 0, 0, 0, 0, 0};
    unsigned refusal;
    wwvb_amplitude_reply r;

    lay(&in_buffer, symbols, length);
    refusal = ref_read_amplitude(in_buffer.want, length, &a);
    r = wwvb_read_amplitude(in_buffer.at, length);
    count(READ_AMPLITUDE, r.refusal);
    if (r.refusal != refusal)
        fail(READ_AMPLITUDE, "the number");
    if (r.year != a.date.year || r.month != a.date.month || r.day != a.date.day
        || r.hour != a.date.hour || r.minute != a.date.minute || r.weekday != a.date.weekday)
        fail(READ_AMPLITUDE, "the date");
    if (r.ut1_sign != a.ut1_sign || r.ut1_tenths != a.ut1_tenths)
        fail(READ_AMPLITUDE, "UT1");
    if (r.warning != a.warning || r.daylight != a.daylight || r.length != a.length)
        fail(READ_AMPLITUDE, "the warning, the daylight state or the length");
    check(READ_AMPLITUDE, &in_buffer, "the symbols");
    if (refusal == 0)
        lengths[READ_AMPLITUDE][length]++;
    return refusal;
}

/* Counts an accepted second of IRIG B. */
static void count_irig(enum call c, uint32_t day_of_year, uint32_t second_of_day)
{
    irig_days[c][day_of_year]++;
    irig_seconds[c][second_of_day == 86400 ? 60 : second_of_day % 60]++;
}

static wwvb_irig_reply try_read_irig(const uint8_t *elements, size_t length)
{
    struct ref_irig want = {0, 0};
    unsigned refusal;
    wwvb_irig_reply r;

    lay(&in_buffer, elements, length);
    refusal = ref_read_irig(in_buffer.want, length, &want);
    r = wwvb_read_irig(in_buffer.at, length);
    count(READ_IRIG, r.refusal);
    if (r.refusal != refusal)
        fail(READ_IRIG, "the number");
    if (r.day_of_year != want.day_of_year)
        fail(READ_IRIG, "the day of the year");
    if (r.second_of_day != want.second_of_day)
        fail(READ_IRIG, "the second of the day");
    check(READ_IRIG, &in_buffer, "the elements");
    if (refusal == 0)
        count_irig(READ_IRIG, want.day_of_year, want.second_of_day);
    return r;
}

/* The day of the year of a minute, from 1. */
static uint32_t day_of_year(uint32_t minute)
{
    struct ref_date d = {0, 0, 0, 0, 0, 0}, first = {0, 1, 1, 0, 0, 0};
    uint32_t begin = 0;

    ref_minute_to_date(minute, &d);
    first.year = d.year;
    ref_date_to_minute(&first, &begin);
    return (minute - begin) / 1440 + 1;
}

/* What is written is read too, and gives the day and the second as sent. */
static void try_irig(const struct ref_plan *p, const struct messages *m, uint32_t minute,
                     uint32_t second, size_t space)
{
    uint8_t elements[REF_IRIG];
    size_t n = 0;
    unsigned refusal;
    wwvb_irig_write_reply r;
    wwvb_irig_reply read;

    lay(&message_buffer, m->bytes, m->length);
    lay_noise(&out_buffer, space);
    refusal = ref_write_irig(p, m->bytes, m->length, minute, second, out_buffer.want, space, &n);
    r = wwvb_write_irig(p->kind, p->spring, p->autumn, p->leap_month, p->leap_sign, p->notice,
                        message_buffer.at, m->length, minute, second, out_buffer.at, space);
    count(WRITE_IRIG, r.refusal);
    if (r.refusal != refusal)
        fail(WRITE_IRIG, "the number");
    if (r.elements != n)
        fail(WRITE_IRIG, "the number of elements");
    check(WRITE_IRIG, &out_buffer, "the buffer");
    check(WRITE_IRIG, &message_buffer, "a message");
    if (refusal == WWVB_BAD_SECOND && second >= 59 && second <= 61
        && ref_write_irig(p, m->bytes, m->length, minute, second - 1, elements, REF_IRIG, &n) == 0)
        irig_limits[second]++;
    if (refusal != 0)
        return;
    count_kind(p, minute);
    memcpy(elements, out_buffer.at, REF_IRIG);
    read = try_read_irig(elements, REF_IRIG);
    if (read.refusal != 0)
        fail(READ_IRIG, "the number for a second as sent");
    if (read.day_of_year != day_of_year(minute)
        || read.second_of_day != minute % 1440 * 60 + second)
        fail(READ_IRIG, "the day or the second as sent");
    count_irig(WRITE_IRIG, read.day_of_year, read.second_of_day);
}

static void try_write_irig(const struct ref_plan *p, uint32_t minute, uint32_t second,
                           size_t space)
{
    try_irig(p, &no_messages, minute, second, space);
}

/* ---- inputs */

static uint32_t month_end(uint32_t month) /* the last minute of a month, counted from January 2000 */
{
    struct ref_date d = {2000 + month / 12, month % 12 + 1, 28, 23, 59, 0};
    uint32_t minute = 0;

    ref_date_to_minute(&d, &minute);
    while (!ref_last_of_month(minute))
        minute += 1440;
    return minute;
}

static struct ref_plan random_plan(void)
{
    struct ref_plan p = {0, 0, 0, 0, 0, 0};

    p.kind = one_in(4) ? 1 + below(2) : one_in(2) ? 3 : 0;
    if (p.kind == 0 || p.kind == 3) {
        p.spring = 1 + below(24);
        p.autumn = 25 + below(24);
    }
    p.leap_sign = (int32_t)below(3) - 1;
    p.leap_month = p.leap_sign ? below(p.kind == 3 && one_in(2) ? 108 : 1200) : 0;
    p.notice = below(2);
    return p;
}

/* A number that may be just beyond a limit, or anything. */
static uint32_t odd_number(uint32_t limit)
{
    switch (below(5)) {
    case 0: return limit + 1;
    case 1: return limit;
    case 2: return below(limit + 1);
    case 3: return 0u - below(3);
    default: return (uint32_t)rnd();
    }
}

static void spoil(struct ref_plan *p)
{
    switch (below(7)) {
    case 0: p->kind = odd_number(3); break;
    case 1: p->spring = odd_number(one_in(2) ? 24 : 48); break;
    case 2: p->autumn = odd_number(one_in(2) ? 24 : 48); break;
    case 3: p->leap_month = odd_number(1199); break;
    case 4: p->leap_sign = (int32_t)odd_number(1); break;
    case 5: p->notice = odd_number(1); break;
    default: p->leap_sign = 0; break;
    }
}

/* A minute of 2000 to 2008 at which a state or a row may change: the first of a Sunday, of a
   Monday or of a year. */
static uint32_t early_change(void)
{
    return one_in(8) ? month_end(12 * below(9) + 11) + 1 : (1 + 7 * below(469) + below(2)) * 1440;
}

/* A minute near something: a month's end, the leap month's, a change of state, a limit; or any.
   With kind 3 every other one is near a change of 2000 to 2008. */
static uint32_t random_minute(const struct ref_plan *p)
{
    uint32_t m;

    if (p->kind == 3 && one_in(2))
        return early_change() + below(5) - 2;
    switch (below(6)) {
    case 0: m = month_end(p->leap_month); break;
    case 1: m = month_end(below(1200)); break;
    case 2: m = below(36525) * 1440; break;
    case 3: m = one_in(2) ? 0 : MINUTES - 1; break;
    default: return below(MINUTES);
    }
    m += below(5) - 2;
    return m < MINUTES ? m : below(MINUTES);
}

/* Data of a message: none, all or one of the bits, or any. */
static uint64_t random_data(void)
{
    switch (below(6)) {
    case 0: return 0;
    case 1: return WWVB_DATA_LIMIT - 1;
    case 2: return (uint64_t)1 << below(42);
    default: return rnd() % WWVB_DATA_LIMIT;
    }
}

/* Up to four messages, in a recording of n minutes from `first` on or about it; the first of them
   may be long before, and the last long after. */
static struct messages random_messages(uint32_t first, uint32_t n)
{
    struct messages m = no_messages;
    uint32_t minute = one_in(8) ? below(first + 1) : first + below(5) - 1, left;

    for (left = below(5); left > 0 && minute < MINUTES; left--) {
        add_message(&m, minute, random_data());
        if (minute + 8 < first)
            minute = first + below(3) - 1;
        else
            minute += one_in(2) ? 1 : one_in(8) ? 1 + below(MINUTES) : 1 + below(n + 1);
    }
    return m;
}

/* One thing wrong with the messages, or nearly. */
static void spoil_messages(struct messages *m)
{
    size_t i = below(4);

    while (m->length < 2 * WWVB_MESSAGE_SIZE || m->length <= i * WWVB_MESSAGE_SIZE)
        add_message(m, MINUTES - 5 + (uint32_t)(m->length / WWVB_MESSAGE_SIZE), random_data());
    switch (below(6)) {
    case 0: m->length = below(sizeof m->bytes + 1); break;
    case 1: m->length = 50 + below(2) * 10; break;
    case 2: set_minute(m, i, minute_at(m, i == 0 ? 1 : i - 1) + below(3) - 1); break;
    case 3: set_minute(m, i, odd_number(MINUTES - 1)); break;
    case 4: set_data(m, i, data_at(m, i) | (uint64_t)1 << (41 + below(7))); break;
    default: m->bytes[below((uint32_t)m->length)] = (uint8_t)rnd(); break;
    }
}

static uint32_t few(void)
{
    return one_in(2000) ? 1000 - below(2) : one_in(60) ? 1 + below(40) : 1 + below(4);
}

/* A recording of the reference's in `bits`; gives its length. */
static size_t recording_with(const struct ref_plan *p, const struct messages *m, uint32_t first,
                             uint32_t n, uint8_t *bits)
{
    size_t length = 0;

    if (first > MINUTES - n)
        first = MINUTES - n;
    if (ref_write(p, m->bytes, m->length, first, n, bits, ROOM, &length) != 0)
        abort();
    return length;
}

static size_t recording(const struct ref_plan *p, uint32_t first, uint32_t n, uint8_t *bits)
{
    return recording_with(p, &no_messages, first, n, bits);
}

#define TIME_SYNC 0x768     /* 0011101101000 */
#define MESSAGE_SYNC 0x1a3a /* 1101000111010 */

static void set_word(uint8_t *bits, unsigned value, unsigned n)
{
    while (n--) {
        bits[n] = value & 1;
        value >>= 1;
    }
}

static void set_state(uint8_t *frame, unsigned word)
{
    set_word(frame + 47, word >> 3, 2);
    set_word(frame + 50, word & 7, 3);
}

/* Bits 19, 29 and 39, from a number below 8. */
static void set_at_will(uint8_t *frame, unsigned value)
{
    frame[19] = value >> 2;
    frame[29] = value >> 1 & 1;
    frame[39] = value & 1;
}

/* One damage to the frame at bits[at]; gives the recording's new length. */
static size_t damage(uint8_t *bits, size_t length, size_t at)
{
    uint8_t *f = bits + at;
    size_t left = length - at;
    unsigned i;

    switch (below(14)) {
    case 0: /* one bit of the time word */
    case 1: f[ref_bit_of_place(1 + below(31))] ^= 1; break;
    case 2: /* two bits of it */
        f[ref_bit_of_place(1 + below(31))] ^= 1;
        f[ref_bit_of_place(1 + below(31))] ^= 1;
        break;
    case 3: bits[below((uint32_t)length)] ^= 1; break;
    case 4: f[19] ^= 1; break;
    case 5: f[below((uint32_t)left)] = (uint8_t)rnd(); break;
    case 6: set_state(f, below(32)); break;
    case 7: set_word(f + 53, below(64), 6); break;
    case 8: return below((uint32_t)length + 1);
    case 9: /* bytes after the bits */
        for (i = 1 + below(62); i; i--)
            bits[length++] = one_in(3) ? (uint8_t)rnd() : 0;
        break;
    case 10: /* any time word */
        for (i = 1; i <= 31; i++)
            f[ref_bit_of_place(i)] = below(2);
        break;
    case 11: /* any bits after the sync word */
        for (i = 13; i < 59; i++)
            f[i] = below(2);
        break;
    case 12: /* the sync word of a message, or of a time frame */
        set_word(f, one_in(3) ? TIME_SYNC : MESSAGE_SYNC, 13);
        break;
    default: /* a bit lost, or one more */
        i = below((uint32_t)left);
        if (one_in(2)) {
            memmove(f + i, f + i + 1, left - i - 1);
            return length - 1;
        }
        memmove(f + i + 1, f + i, left - i);
        return length + 1;
    }
    return length;
}

/* ---- inputs of the amplitude code */

static const unsigned markers[8] = {0, 9, 19, 29, 39, 49, 59, 60};

/* The fields of a minute, each as its seconds hold it, in or out of range. */
struct fields {
    unsigned minute[2], hour[2], day[3], sign, tenths, year[2], leap_year, warning, daylight;
};

/* A number in so many decimal digits, the first the highest. */
static void set_digits(unsigned *digits, unsigned n, uint32_t number)
{
    while (n--) {
        digits[n] = number % 10;
        number /= 10;
    }
}

/* The symbols of the fields, with markers at both of the last seconds. */
static void put_fields(const struct fields *f, uint8_t symbols[61])
{
    unsigned i;

    memset(symbols, 0, 61);
    for (i = 0; i < 8; i++)
        symbols[markers[i]] = 2;
    set_word(symbols + 1, f->minute[0], 3);
    set_word(symbols + 5, f->minute[1], 4);
    set_word(symbols + 12, f->hour[0], 2);
    set_word(symbols + 15, f->hour[1], 4);
    set_word(symbols + 22, f->day[0], 2);
    set_word(symbols + 25, f->day[1], 4);
    set_word(symbols + 30, f->day[2], 4);
    set_word(symbols + 36, f->sign, 3);
    set_word(symbols + 40, f->tenths, 4);
    set_word(symbols + 45, f->year[0], 4);
    set_word(symbols + 50, f->year[1], 4);
    symbols[55] = (uint8_t)f->leap_year;
    symbols[56] = (uint8_t)f->warning;
    set_word(symbols + 57, f->daylight, 2);
}

/* Fields that are right, of a day, from 1, of a year, from 2000. */
static struct fields fields_of(uint32_t year, uint32_t day, uint32_t hour, uint32_t minute)
{
    struct fields f;

    set_digits(f.minute, 2, minute);
    set_digits(f.hour, 2, hour);
    set_digits(f.day, 3, day);
    set_digits(f.year, 2, year);
    f.sign = one_in(2) ? 5 : 2;
    f.tenths = below(10);
    f.leap_year = year % 4 == 0;
    f.warning = below(2);
    f.daylight = below(4);
    return f;
}

/* The last day of a month, from 0, as the day of a year, from 2000. */
static uint32_t last_day(uint32_t year, uint32_t month)
{
    struct ref_date d = {0, 1, 1, 0, 0, 0};
    uint32_t first = 0;

    d.year = 2000 + year;
    ref_date_to_minute(&d, &first);
    return (month_end(year * 12 + month) - first) / 1440 + 1;
}

static struct fields random_fields(void)
{
    uint32_t year = below(100), day = 1 + below(365), hour = below(24), minute = below(60);
    struct fields f;

    if (one_in(3)) { /* the last day of a month, or one beside it */
        day = last_day(year, below(12));
        day += below(3) - 1;
        hour = one_in(4) ? hour : 23;
        minute = one_in(4) ? minute : 59;
    }
    f = fields_of(year, day, hour, minute);
    while (one_in(3))
        switch (below(9)) {
        case 0: set_digits(f.minute, 2, 55 + below(25)); break;
        case 1: set_digits(f.hour, 2, 19 + below(21)); break;
        case 2: set_digits(f.day, 3, one_in(2) ? below(3) : 364 + below(5)); break;
        case 3: f.sign = below(8); break;
        case 4: f.tenths = 8 + below(8); break;
        case 5: f.leap_year = below(2); break;
        case 6: f.year[one_in(2)] = 8 + below(8); break;
        case 7: f.day[1 + one_in(2)] = 8 + below(8); break;
        default: *(one_in(2) ? &f.minute[1] : &f.hour[1]) = 8 + below(8); break;
        }
    return f;
}

/* One damage to a minute's symbols; gives their new number. */
static size_t spoil_symbols(uint8_t *symbols, size_t length)
{
    size_t i = length ? below((uint32_t)length) : 0;

    switch (below(7)) {
    case 0: symbols[i] ^= 1; break;
    case 1: symbols[i] = below(3); break;
    case 2: symbols[i] = (uint8_t)rnd(); break;
    case 3: symbols[markers[below(8)]] = below(3); break;
    case 4: return below(71);
    case 5: return 59 + below(3);
    default: /* a symbol lost, or one more */
        if (one_in(2)) {
            memmove(symbols + i, symbols + i + 1, 70 - i);
            return length ? length - 1 : 0;
        }
        memmove(symbols + i + 1, symbols + i, 70 - i);
        return length + 1;
    }
    return length;
}

/* ---- inputs of IRIG B */

/* The digits of a second, the highest first, each as its elements hold it, in or out of range. */
struct irig_fields {
    unsigned second[2], minute[2], hour[2], day[3];
    uint32_t straight;
};

static void set_low_first(uint8_t *elements, uint32_t value, unsigned n)
{
    for (; n--; value >>= 1)
        *elements++ = value & 1;
}

static void put_irig(const struct irig_fields *f, uint8_t elements[REF_IRIG])
{
    unsigned i;

    memset(elements, 0, REF_IRIG);
    elements[0] = 2;
    for (i = 9; i < REF_IRIG; i += 10)
        elements[i] = 2;
    set_low_first(elements + 1, f->second[1], 4);
    set_low_first(elements + 6, f->second[0], 3);
    set_low_first(elements + 10, f->minute[1], 4);
    set_low_first(elements + 15, f->minute[0], 3);
    set_low_first(elements + 20, f->hour[1], 4);
    set_low_first(elements + 25, f->hour[0], 2);
    set_low_first(elements + 30, f->day[2], 4);
    set_low_first(elements + 35, f->day[1], 4);
    set_low_first(elements + 40, f->day[0], 2);
    set_low_first(elements + 80, f->straight, 9);
    set_low_first(elements + 90, f->straight >> 9, 8);
}

/* The straight seconds that fit the digits, also where these are out of range. */
static void set_straight(struct irig_fields *f)
{
    f->straight = (f->hour[0] * 10 + f->hour[1]) * 3600 + (f->minute[0] * 10 + f->minute[1]) * 60
        + f->second[0] * 10 + f->second[1];
}

static struct irig_fields irig_of(uint32_t day, uint32_t hour, uint32_t minute, uint32_t second)
{
    struct irig_fields f;

    set_digits(f.day, 3, day);
    set_digits(f.hour, 2, hour);
    set_digits(f.minute, 2, minute);
    set_digits(f.second, 2, second);
    set_straight(&f);
    return f;
}

/* The straight seconds may fit digits that are out of range, or be any. */
static struct irig_fields random_irig(void)
{
    struct irig_fields f = irig_of(1 + below(366), below(24), below(60), below(60));

    if (one_in(3)) /* the last second of a month, or one beside it */
        f = irig_of(last_day(below(2) * 3, below(12)) + below(3) - 1, one_in(8) ? 22 : 23,
                    one_in(8) ? 58 : 59, 59 + below(3));
    while (one_in(3)) {
        switch (below(7)) {
        case 0: set_digits(f.second, 2, 55 + below(25)); break;
        case 1: set_digits(f.minute, 2, 55 + below(25)); break;
        case 2: set_digits(f.hour, 2, 19 + below(21)); break;
        case 3: set_digits(f.day, 3, one_in(2) ? below(3) : 364 + below(36)); break;
        case 4: f.day[1 + one_in(2)] = 8 + below(8); break;
        case 5: *(one_in(2) ? &f.second[1] : &f.minute[1]) = 8 + below(8); break;
        default: f.hour[1] = 8 + below(8); break;
        }
        set_straight(&f);
    }
    if (one_in(6))
        f.straight = one_in(2) ? f.straight ^ (uint32_t)1 << below(17) : below(131072);
    return f;
}

#define MOST_ELEMENTS 131

/* One damage to the elements of a second, which have space for MOST_ELEMENTS; gives their new
   number. */
static size_t spoil_elements(uint8_t *elements, size_t length)
{
    size_t i = length ? below((uint32_t)length) : 0;

    switch (below(7)) {
    case 0: elements[i] ^= 1; break;
    case 1: elements[i] = below(3); break;
    case 2: elements[i] = (uint8_t)rnd(); break;
    case 3: elements[one_in(11) ? 0 : 9 + 10 * below(10)] = below(3); break;
    case 4: return below(MOST_ELEMENTS);
    case 5: return 99 + below(3);
    default: /* an element lost, or one more */
        if (one_in(2)) {
            memmove(elements + i, elements + i + 1, MOST_ELEMENTS - 1 - i);
            return length ? length - 1 : 0;
        }
        memmove(elements + i + 1, elements + i, MOST_ELEMENTS - 1 - i);
        return length + 1;
    }
    return length;
}

/* ---- random cases */

static void random_dates(void)
{
    struct ref_date d = {0, 0, 0, 0, 0, 0};

    try_to_date(one_in(8) ? odd_number(MINUTES - 1) : below(MINUTES));
    ref_minute_to_date(one_in(4) ? month_end(below(1200)) : below(MINUTES), &d);
    switch (one_in(2) ? below(6) : 99) {
    case 0: d.year = one_in(2) ? odd_number(2099) : odd_number(1999); break;
    case 1: d.month = odd_number(12); break;
    case 2: d.day = odd_number(28 + below(4)); break;
    case 3: d.hour = odd_number(23); break;
    case 4: d.minute = odd_number(59); break;
    case 5: d.day++; break;
    default: break;
    }
    try_to_minute(d.year, d.month, d.day, d.hour, d.minute);
}

static void random_local(void)
{
    uint32_t minute = one_in(3) ? below(36525) * 1440 + below(900) : one_in(3) ? below(1500) : below(MINUTES);
    uint32_t state = below(4), hour = 1 + below(3);
    int32_t offset = -240 - (int32_t)below(361);

    if (one_in(4))
        switch (below(4)) {
        case 0: minute = odd_number(MINUTES - 1); break;
        case 1: state = odd_number(3); break;
        case 2: offset = one_in(2) ? (int32_t)odd_number(600) : -239 + (int32_t)below(3) - 362 * (int32_t)below(2); break;
        default: hour = odd_number(3); break;
        }
    try_local(minute, state, offset, hour);
}

static void random_write(void)
{
    struct ref_plan p = random_plan();
    uint32_t first = random_minute(&p), n = few();
    struct messages m = one_in(2) ? no_messages : random_messages(first, n);
    size_t space = (size_t)n * 60;

    if (one_in(16))
        spoil_messages(&m);
    if (one_in(8))
        spoil(&p);
    if (one_in(16))
        n = odd_number(1000);
    if (one_in(16))
        first = odd_number(MINUTES - 1);
    if (space > WWVB_MAX_RECORDING)
        space = WWVB_MAX_RECORDING;
    switch (below(8)) {
    case 0: space = below((uint32_t)space + 1); break;
    case 1: space += below(100); break;
    case 2: space = 0; break;
    case 3: space -= 1; break;
    case 4: space += 1; break;
    default: break;
    }
    try_messages(&p, &m, first, n, space);
}

static uint8_t scratch[ROOM + 4096];

static void random_one(void)
{
    struct ref_plan p = random_plan();
    uint32_t minute = random_minute(&p);
    struct messages m = one_in(2) ? no_messages : random_messages(minute, 1);
    size_t length = recording_with(&p, &m, minute, 1, scratch), space = WWVB_ENTRY_SIZE;

    while (one_in(2) && length >= 59)
        length = damage(scratch, length, 0);
    if (one_in(10))
        space = below(2 * WWVB_ENTRY_SIZE + 1);
    try_one(scratch, length, space);
}

/* A recording of about n frames in `scratch`, whole or damaged; gives its length, and the most
   entries that it was made for. */
static size_t random_recording(uint32_t n, size_t *most)
{
    struct ref_plan p = random_plan();
    uint32_t first = random_minute(&p), i;
    struct messages m = one_in(2) ? no_messages : random_messages(first, n);
    size_t length = recording_with(&p, &m, first, n, scratch);

    *most = n;
    if (one_in(3)) /* one bit of the time word in each frame, and any bits at 19, 29 and 39, while the frames have 60 bits */
        for (i = 0; i < n && (size_t)i * 60 + 60 <= length; i++) {
            if (one_in(2))
                scratch[i * 60 + ref_bit_of_place(1 + below(31))] ^= 1;
            if (one_in(2))
                set_at_will(scratch + i * 60, below(8));
        }
    if (one_in(4)) { /* more frames, in order or not, by the same plan or another */
        if (one_in(2))
            p = random_plan();
        if (length + 61 * 4 < ROOM) {
            i = first + n + (one_in(2) ? 0 : below(3) - 1);
            length += recording_with(&p, &m, i, 1 + below(3), scratch + length);
            *most += 3;
        }
    }
    while (one_in(2) && length >= 61 && length + 128 < ROOM)
        length = damage(scratch, length, below((uint32_t)(length / 60)) * 60 + 59 <= length - 1 ? below((uint32_t)((length - 59) / 60 + 1)) * 60 : 0);
    return length;
}

static void random_read(void)
{
    size_t most, length = random_recording(few(), &most), space = most * WWVB_ENTRY_SIZE;

    switch (below(12)) {
    case 0: space = below((uint32_t)space + 1); break;
    case 1: space += below(40); break;
    case 2: space -= 1; break;
    default: break;
    }
    try_read(scratch, length, space);
}

/* Some recordings have a page or two. */
static void random_print(void)
{
    uint32_t n = one_in(100) ? 48 + below(6) + 50 * below(2) : few();
    size_t most, length = random_recording(n, &most), space = wwvb_pages_size(most);

    switch (below(8)) {
    case 0: space = below((uint32_t)space + 1); break;
    case 1: space += below(100); break;
    case 2: space = wwvb_pages_size(n); break;
    case 3: space = wwvb_pages_size(n) - 1; break;
    default: break;
    }
    try_print(scratch, length, space);
}

static int32_t random_sign(void)
{
    return one_in(16) ? (int32_t)odd_number(1) : one_in(2) ? 1 : -1;
}

static void random_write_amplitude(void)
{
    struct ref_plan p = random_plan();
    uint32_t minute = random_minute(&p);
    struct messages m = one_in(2) ? no_messages : random_messages(minute, 1);
    int32_t sign = random_sign();
    uint32_t tenths = one_in(16) ? odd_number(9) : below(10);
    size_t space = one_in(3) ? below(71) : one_in(2) ? 59 + below(3) : one_in(4) ? below(500) : 61;

    if (one_in(16))
        spoil_messages(&m);
    if (one_in(8))
        spoil(&p);
    if (one_in(16))
        minute = odd_number(MINUTES - 1);
    try_amplitude(&p, &m, minute, sign, tenths, space);
}

/* A minute as it is written, or of random fields; whole or spoiled. */
static void random_read_amplitude(void)
{
    uint8_t symbols[72];
    size_t length = 60;

    memset(symbols, (int)below(3), sizeof symbols);
    if (one_in(2)) {
        struct ref_plan p = random_plan();
        uint32_t minute = random_minute(&p), tenths = below(10);
        if (ref_write_amplitude(&p, NULL, 0, minute, one_in(2) ? 1 : -1, tenths, symbols, 61,
                                &length))
            abort();
    } else {
        struct fields f = random_fields();
        put_fields(&f, symbols);
        if (one_in(2))
            length = 59 + below(3);
    }
    while (one_in(3) && length < 71)
        length = spoil_symbols(symbols, length);
    try_read_amplitude(symbols, length);
}

static void random_write_irig(void)
{
    struct ref_plan p = random_plan();
    uint32_t minute = random_minute(&p);
    struct messages m = one_in(2) ? no_messages : random_messages(minute, 1);
    uint32_t second = one_in(3) ? 58 + below(4) : one_in(8) ? odd_number(60) : below(60);
    size_t space = one_in(8) ? 99 + below(3) : one_in(8) ? below(500) : 100;

    if (one_in(16))
        spoil_messages(&m);
    if (one_in(8))
        spoil(&p);
    if (one_in(16))
        minute = odd_number(MINUTES - 1);
    try_irig(&p, &m, minute, second, space);
}

/* A second as it is written, of random fields, or of any elements; whole or spoiled. */
static void random_read_irig(void)
{
    uint8_t elements[MOST_ELEMENTS];
    size_t length = 100, i;

    memset(elements, (int)below(3), sizeof elements);
    if (one_in(2)) {
        struct ref_plan p = random_plan();
        uint32_t minute = random_minute(&p);
        if (ref_write_irig(&p, NULL, 0, minute, below(59), elements, 100, &length))
            abort();
    } else if (one_in(16)) {
        for (i = 0; i < sizeof elements; i++)
            elements[i] = below(3);
    } else {
        struct irig_fields f = random_irig();
        put_irig(&f, elements);
    }
    while (one_in(3) && length < MOST_ELEMENTS - 1)
        length = spoil_elements(elements, length);
    try_read_irig(elements, length);
}

/* ---- boundary cases */

static void boundary_dates(void)
{
    static const uint32_t parts[] = {0, 1, 2, 12, 13, 23, 24, 28, 29, 30, 31, 32, 59, 60, 0xffffffffu};
    uint32_t day, y, m, d;
    size_t i, k, n = sizeof parts / sizeof *parts;

    for (day = 0; day < 36526; day++) {
        try_to_date(day * 1440);
        try_to_date(day * 1440 + 1439);
    }
    try_to_date(MINUTES);
    try_to_date(0xffffffffu);
    for (y = 1999; y <= 2100; y++)
        for (m = 0; m <= 13; m++)
            for (d = 0; d <= 32; d++)
                try_to_minute(y, m, d, d % 24, d);
    for (i = 0; i < n; i++)
        for (k = 0; k < n; k++) {
            try_to_minute(2000, parts[i], parts[k], 0, 0);
            try_to_minute(2099, 2, 28, parts[i], parts[k]);
            try_to_minute(parts[i], 1, 1, 0, parts[k]);
        }
}

/* Around each limit in some days, the first and the last among them, by each state, offset and hour, also one too low and one
   too high; every minute of the first day; far numbers. */
static void boundary_local(void)
{
    static const uint32_t days[] = {0, 1, 59, 60, 365, 366, 4453, 36524};
    static const int32_t offsets[] = {-601, -600, -599, -540, -480, -420, -360, -330, -300, -241, -240, -239};
    uint32_t state, hour;
    size_t d, o;
    int32_t k;

    for (d = 0; d < sizeof days / sizeof *days; d++)
        for (o = 0; o < sizeof offsets / sizeof *offsets; o++)
            for (state = 0; state <= 4; state++)
                for (hour = 0; hour <= 4; hour++) {
                    static const int32_t around[] = {-60, 0, 60, 120, 180, 240};
                    for (k = 0; k < 18; k++) {
                        int32_t minute = around[k / 3] - offsets[o] + k % 3 - 1;
                        try_local(days[d] * 1440 + (uint32_t)minute, state, offsets[o], hour);
                    }
                    try_local(days[d] * 1440, state, offsets[o], hour);
                    try_local(days[d] * 1440 + 1439, state, offsets[o], hour);
                }
    for (k = 0; k < 1440; k++)
        try_local((uint32_t)k, 0, -600, 2);
    try_local(MINUTES, 4, 0, 0);
    try_local(0xffffffffu, 0, -240, 1);
    try_local(0, 0xffffffffu, -240, 1);
    try_local(0, 0, INT32_MIN, 1);
    try_local(0, 0, INT32_MAX, 1);
    try_local(0, 0, -240, 0xffffffffu);
}

/* Whether a date is the Sunday among seven days of a month. */
static int is_sunday(const wwvb_date_reply *d, uint32_t month, uint32_t from)
{
    return d->weekday == 1 && d->month == month && d->day >= from && d->day < from + 7;
}

/* The daylight state of the frame of a minute, as the library writes and reads it. */
static uint32_t state_sent(const struct ref_plan *p, uint32_t minute)
{
    uint8_t frame[WWVB_MAX_FRAME], entry[WWVB_ENTRY_SIZE];
    wwvb_write_reply w = write_by(p, NULL, 0, minute, 1, frame, sizeof frame);

    if (w.refusal != 0 || wwvb_read_frame(frame, w.bits, entry, sizeof entry) != 0)
        fail(WRITE, "a frame of the clock");
    return entry[WWVB_ENTRY_DAYLIGHT];
}

/* A local clock through a year, by the frames of a plan of the United States of kind 0 or 3: minute
   by minute it moves by one, but for one hour forward and one back, each on its Sunday. */
static void boundary_clock(uint32_t kind, int32_t offset, uint32_t hour, uint32_t year)
{
    struct ref_plan p = {0, 10, 37, 0, 0, 0};
    struct ref_date d = {0, 1, 1, 0, 0, 0};
    int earlier = kind == 3 && year < 2007;
    /* the first in April and the last in October; the second in March and the first in November */
    uint32_t spring_month = earlier ? 4 : 3, spring_from = earlier ? 1 : 8;
    uint32_t autumn_month = earlier ? 10 : 11, autumn_from = earlier ? 25 : 1;
    uint32_t first, last, t, forward = 0, back = 0;
    int64_t before = 0;

    p.kind = kind;
    d.year = year;
    ref_date_to_minute(&d, &first);
    d.year = year + 1;
    if (ref_date_to_minute(&d, &last) != 0)
        last = MINUTES;
    for (t = first; t < last; t++) {
        wwvb_date_reply r = wwvb_local_date(t, state_sent(&p, t), offset, hour);
        struct ref_date local = {r.year, r.month, r.day, r.hour, r.minute, 0};
        uint32_t clock = 0;
        int64_t now;

        count(LOCAL, r.refusal);
        now = ref_date_to_minute(&local, &clock) == 0 ? (int64_t)clock : (int64_t)r.hour * 60 + r.minute - 1440;
        if (t > first && now != before + 1) {
            forward += now == before + 61 && r.hour == hour + 1 && r.minute == 0
                && is_sunday(&r, spring_month, spring_from);
            back += now == before - 59 && r.hour == hour - 1 && r.minute == 0
                && is_sunday(&r, autumn_month, autumn_from);
            if (now != before + 61 && now != before - 59)
                fail(LOCAL, "the step of the clock");
        }
        before = now;
    }
    if (forward != 1 || back != 1)
        fail(LOCAL, "the number of changes in a year");
}

static void boundary_plans(void)
{
    static const uint32_t rows[] = {0, 1, 8, 9, 16, 17, 24, 25, 32, 33, 40, 41, 48, 49, 50, 51, 52, 0xffffffffu};
    size_t i, k, n = sizeof rows / sizeof *rows;
    uint32_t kind, month;
    int32_t sign;

    for (kind = 0; kind <= 5; kind++)
        for (i = 0; i < n; i++)
            for (k = 0; k < n; k++) {
                struct ref_plan p = {0, 0, 0, 0, 0, 0};
                p.kind = kind < 5 ? kind : 0xffffffffu;
                p.spring = rows[i];
                p.autumn = rows[k];
                try_write(&p, below(MINUTES), 1, 60);
                p.leap_sign = 2;
                try_write(&p, below(MINUTES), 0, 60);
            }
    for (month = 0; month <= 1201; month++)
        for (sign = -2; sign <= 2; sign++) {
            struct ref_plan p = {1, 0, 0, 0, 0, 0};
            uint32_t end = month_end(month < 1200 ? month : 1199), m;
            size_t space;
            p.leap_month = month;
            p.leap_sign = sign;
            p.notice = month % 3;
            for (m = end < 1 ? 0 : end - 1; m <= end + 1; m++)
                for (space = 58; space <= 62; space++)
                    try_write(&p, m, 1, space);
            try_write(&p, end - 1, 3, 179);
            try_write(&p, end - 1, 3, 181);
        }
}

/* The four daylight states of each pair of rows, around each change. */
static void boundary_changes(void)
{
    uint32_t row, year, day, first, last;

    for (row = 0; row < 24; row++)
        for (year = 2000; year < 2100; year += 1 + row % 3) {
            struct ref_plan p = {0, 0, 0, 0, 0, 0};
            struct ref_date d = {0, 3, 1, 0, 0, 0};
            p.spring = 1 + row;
            p.autumn = 48 - row;
            d.year = year;
            ref_date_to_minute(&d, &first);
            d.month = 12;
            ref_date_to_minute(&d, &last);
            for (day = first / 1440; day <= last / 1440; day += day % 7 == 3 ? 3 : 1) {
                if (day * 1440 - first > 70 * 1440 && last - day * 1440 > 70 * 1440)
                    continue;
                try_write(&p, day * 1440 - 1, 2, 120);
            }
        }
}

/* Kind 3 by pairs of own rows: each day of 2000 to 2008, from the minute before it, and Saturdays
   to Mondays in the amplitude code too; and the first and the last minutes of all. */
static void boundary_earlier_law(void)
{
    struct ref_plan p = {3, 0, 0, 0, 0, 0};
    uint32_t row, day, days = month_end(107) / 1440 + 1;

    for (row = 0; row < 24; row++) {
        p.spring = 1 + row;
        p.autumn = 48 - row;
        p.notice = row % 2;
        try_write(&p, 0, 2, 120);
        try_write(&p, MINUTES - 2, 2, 120);
        for (day = 1; day <= days; day++) {
            try_write(&p, day * 1440 - 1, 2, 120);
            if (day % 7 < 3)
                try_write_amplitude(&p, day * 1440 - row % 2, 1, row % 10, 61);
        }
    }
}

static void boundary_counts(void)
{
    static const uint32_t counts[] = {0, 1, 2, 999, 1000, 1001, 0x7fffffffu, 0x80000000u, 0xffffffffu};
    struct ref_plan p = {0, 10, 37, 149, 1, 0};
    size_t i;
    uint32_t k;

    for (i = 0; i < sizeof counts / sizeof *counts; i++) {
        uint32_t n = counts[i];
        for (k = 0; k < 5; k++) {
            try_write(&p, MINUTES - n + k - 2, n, ROOM);
            try_write(&p, 0u - n + k - 2, n, ROOM);
            try_write(&p, 6573599 - 500 + k, n, 60000 + k - 2);
            try_write(&p, k, n, (size_t)n % 1001 * 60 + k - 2 < ROOM ? (size_t)n % 1001 * 60 + k - 2 : 0);
        }
    }
}

static void boundary_frames(void)
{
    struct ref_plan p = {0, 10, 37, 149, 1, 1};
    uint8_t frame[128];
    unsigned state, next, place, other, length, space, i;
    int32_t sign;

    /* every state word with every next-change word, in an ordinary minute and in the last of a month */
    for (state = 0; state < 32; state++)
        for (next = 0; next < 64; next++)
            for (length = 58; length <= 62; length++) {
                memset(frame, 0, sizeof frame);
                recording(&p, 6573599 + next % 2, 1, frame);
                set_state(frame, state);
                set_word(frame + 53, next, 6);
                try_one(frame, length, WWVB_ENTRY_SIZE);
                try_read(frame, length, WWVB_ENTRY_SIZE);
            }
    /* every one and two places inverted, the echo right and wrong */
    for (place = 0; place <= 31; place++)
        for (other = place; other <= 31; other++)
            for (i = 0; i < 8; i++) {
                static const uint32_t minutes[4] = {0, 1, 6578970, MINUTES - 1};
                length = (unsigned)recording(&p, minutes[i % 4], 1, frame);
                if (place)
                    frame[ref_bit_of_place(place)] ^= 1;
                if (other > place)
                    frame[ref_bit_of_place(other)] ^= 1;
                frame[19] ^= i / 4;
                try_one(frame, length, WWVB_ENTRY_SIZE);
                try_read(frame, length, WWVB_ENTRY_SIZE);
            }
    /* every byte at other values, each length and space */
    for (sign = -1; sign <= 1; sign++) {
        p.leap_sign = sign;
        p.leap_month = sign ? 149 : 0;
        for (i = 0; i < 61; i++)
            for (other = 0; other < 5; other++) {
                static const uint8_t values[5] = {0, 1, 2, 128, 255};
                memset(frame, 0, sizeof frame);
                length = (unsigned)recording(&p, 6573599, 1, frame);
                frame[i] = values[other];
                try_one(frame, length, WWVB_ENTRY_SIZE);
                try_read(frame, length, WWVB_ENTRY_SIZE);
            }
        for (length = 0; length <= 64; length++)
            for (space = 0; space <= 2 * WWVB_ENTRY_SIZE + 2; space++) {
                memset(frame, 0, sizeof frame);
                recording(&p, 6573599, 1, frame);
                try_one(frame, length, space);
                try_read(frame, length, space);
            }
    }
}

/* A frame with the place of its time word inverted, or none for 0, bit 19 by the echo byte, and any bits at 29 and 39; gives
   its entry as sent. */
static void hear(const struct ref_plan *p, uint32_t minute, unsigned place, unsigned echo, uint8_t *frame, uint8_t *entry)
{
    if (place)
        frame[ref_bit_of_place(place)] ^= 1;
    set_at_will(frame, (echo == (minute & 1)) * 4 + below(4));
    ref_entry_as_sent(p, minute, place, echo, entry);
}

/* The last minute of each month in 59 and in 61 bits, and as many minutes in 60: one frame with each place inverted and
   both echoes, and three as a recording, with other places and echoes. Each is accepted, and the entries are those sent,
   the echo byte alone following bit 19. */
static void boundary_echoes(void)
{
    uint8_t bits[3 * WWVB_MAX_FRAME], sent[3 * WWVB_ENTRY_SIZE];
    uint32_t month, k;
    int32_t sign;
    unsigned i;

    for (month = 0; month < 1200; month++)
        for (sign = -1; sign <= 1; sign++) {
            struct ref_plan p = random_plan();
            uint32_t minute = sign ? month_end(month) : random_minute(&p);
            uint32_t first = minute ? minute - 1 : 0;
            size_t at, length;
            if (first > MINUTES - 3)
                first = MINUTES - 3;
            p.leap_sign = sign;
            p.leap_month = sign ? month : 0;
            for (i = 0; i < 64; i++) {
                length = recording(&p, minute, 1, bits);
                hear(&p, minute, i / 2, i % 2, bits, sent);
                try_one(bits, length, WWVB_ENTRY_SIZE);
                if (memcmp(out_buffer.at, sent, WWVB_ENTRY_SIZE) != 0)
                    fail(ONE, "the entry as sent");
            }
            for (i = 0; i < 8; i++) {
                length = recording(&p, first, 3, bits);
                for (k = 0, at = 0; k < 3; k++) {
                    uint8_t *entry = sent + k * WWVB_ENTRY_SIZE;
                    hear(&p, first + k, (month * 8 + i + k * 11) % 32, below(2), bits + at, entry);
                    at += entry[WWVB_ENTRY_LENGTH];
                }
                try_read(bits, length, sizeof sent);
                if (memcmp(out_buffer.at, sent, sizeof sent) != 0)
                    fail(READ, "the entries as sent");
            }
        }
}

/* What document 02, 3, says of the frame of a minute with bit k inverted: the number, and with 0 the entry. */
static unsigned inverted_answer(const struct ref_plan *p, uint32_t minute, unsigned k, uint8_t *entry)
{
    unsigned place;

    ref_entry_as_sent(p, minute, 0, k != 19, entry);
    for (place = 1; place <= 31; place++)
        if (ref_bit_of_place(place) == k)
            entry[WWVB_ENTRY_PLACE] = (uint8_t)place;
    if (k == 49)
        entry[WWVB_ENTRY_NOTICE] ^= 1;
    return k < 13 ? 8 : k < 47 || k == 49 ? 0 : k < 53 ? 9 : k < 59 ? 10 : 13;
}

/* Each bit of a frame that the library writes inverted, and the frame read alone: the last minute of each month in 59 and
   in 61 bits, and as many minutes in 60. */
static void boundary_inversions(void)
{
    uint8_t bits[WWVB_MAX_FRAME], entry[WWVB_ENTRY_SIZE];
    unsigned long frames[3] = {0, 0, 0};
    uint32_t month;
    int32_t sign;
    unsigned k;

    for (month = 0; month < 1200; month++)
        for (sign = -1; sign <= 1; sign++) {
            struct ref_plan p = random_plan();
            uint32_t minute = sign ? month_end(month) : random_minute(&p);
            wwvb_write_reply w;
            size_t length;
            p.leap_sign = sign;
            p.leap_month = sign ? month : 0;
            w = write_by(&p, NULL, 0, minute, 1, bits, sizeof bits);
            if (w.refusal != 0)
                fail(WRITE, "the number for a legal plan");
            length = w.bits;
            frames[length - 59]++;
            for (k = 0; k < length; k++) {
                unsigned number = inverted_answer(&p, minute, k, entry);
                bits[k] ^= 1;
                if (try_one(bits, length, WWVB_ENTRY_SIZE) != number)
                    fail(ONE, "the number for an inverted bit");
                if (number == 0 && memcmp(out_buffer.at, entry, WWVB_ENTRY_SIZE) != 0)
                    fail(ONE, "the entry for an inverted bit");
                bits[k] ^= 1;
            }
        }
    printf("compare: each bit inverted in frames of 59:%lu 60:%lu 61:%lu bits\n", frames[0], frames[1], frames[2]);
}

static void boundary_recordings(void)
{
    static uint8_t bits[ROOM];
    int32_t sign;
    size_t length, space, enough = 1000 * WWVB_ENTRY_SIZE;
    uint32_t k;

    for (sign = -1; sign <= 1; sign++) {
        struct ref_plan p = {0, 10, 37, 0, 0, 0};
        p.leap_sign = sign;
        p.leap_month = sign ? 149 : 0;
        for (k = 0; k < 1000; k += 333) {
            length = recording(&p, 6573599 - k, 1000, bits);
            for (space = enough - WWVB_ENTRY_SIZE - 1; space <= enough + 1; space++)
                try_read(bits, length, space);
            for (space = 0; space < 3; space++)
                try_read(bits, length - space, enough);
        }
        /* three frames: cut at each bit, the bits before the cut and those from it on */
        length = recording(&p, 6573598, 3, bits);
        for (space = 0; space <= length; space++) {
            try_read(bits, space, 3 * WWVB_ENTRY_SIZE);
            try_read(bits, space, 2 * WWVB_ENTRY_SIZE);
            try_read(bits + space, length - space, 3 * WWVB_ENTRY_SIZE);
        }
    }
    try_read(bits, 0, 0);
    try_read(bits, 0, WWVB_ENTRY_SIZE);
}

/* The time-word places, of 31, in which two frames differ. */
static unsigned distance(const uint8_t *frame, const uint8_t *other)
{
    unsigned place, n = 0;

    for (place = 1; place <= 31; place++)
        n += frame[ref_bit_of_place(place)] != other[ref_bit_of_place(place)];
    return n;
}

#define RANKS 3u

/* A recording of RANKS frames, by rank: as the library writes it, as it is received, and the
   entries as sent. */
struct pair_half {
    uint8_t written[RANKS * WWVB_MAX_FRAME], received[RANKS * WWVB_MAX_FRAME];
    uint8_t sent[RANKS * WWVB_ENTRY_SIZE];
    size_t at[RANKS + 1]; /* where each frame begins, and the last ends */
};

/* Whether the frame at a rank is a message. */
static int is_message(const struct pair_half *h, uint32_t rank)
{
    return h->sent[rank * WWVB_ENTRY_SIZE + WWVB_ENTRY_KIND] == WWVB_ENTRY_MESSAGE;
}

/* Each time frame is received with one place of its time word inverted or none, and any bits at
   19, 29 and 39, and each message as written. The recording is read as sent, unless its first
   frame is a message. */
static void try_half(const struct ref_plan *p, const struct messages *m, uint32_t first,
                     struct pair_half *h)
{
    wwvb_write_reply w = write_by(p, m->bytes, m->length, first, RANKS, h->written,
                                  sizeof h->written);
    unsigned refusal;
    size_t which;
    uint32_t k;

    if (w.refusal != 0)
        fail(WRITE, "the number for a legal plan");
    memcpy(h->received, h->written, w.bits);
    h->at[0] = 0;
    for (k = 0; k < RANKS; k++) {
        uint8_t *entry = h->sent + k * WWVB_ENTRY_SIZE;
        if (has_message(m, first + k, &which))
            ref_message_as_sent(p, first + k, data_at(m, which), entry);
        else
            hear(p, first + k, below(32), below(2), h->received + h->at[k], entry);
        h->at[k + 1] = h->at[k] + entry[WWVB_ENTRY_LENGTH];
    }
    if (h->at[RANKS] != w.bits)
        fail(WRITE, "the number of bits");
    refusal = try_read(h->received, w.bits, sizeof h->sent);
    if (refusal != (is_message(h, 0) ? 19 : 0))
        fail(READ, "the number for a recording as received");
    if (!is_message(h, 0) && memcmp(out_buffer.at, h->sent, sizeof h->sent) != 0)
        fail(READ, "the entries as sent");
}

/* Two recordings by plans of every pair of kinds, with messages or without, and with different
   first minutes. At each rank without a message the frames differ in three places or more as
   written, and are not equal as received. */
static void boundary_pairs(void)
{
    struct pair_half half[2];
    uint32_t i, j, k;

    for (i = 0; i < 16000; i++) {
        uint32_t first[2];

        for (j = 0; j < 2; j++) {
            struct messages m = no_messages;
            struct ref_plan p;

            do
                p = random_plan();
            while (p.kind != (j ? i / 4 % 4 : i % 4));
            first[j] = j && one_in(2) ? first[0] + 1 : random_minute(&p);
            if (first[j] > MINUTES - RANKS - 1)
                first[j] = MINUTES - RANKS - 1;
            if (j && first[1] == first[0])
                first[1]++;
            if (one_in(2))
                m = random_messages(first[j], RANKS);
            try_half(&p, &m, first[j], &half[j]);
        }
        for (k = 0; k < RANKS; k++) {
            size_t a = half[0].at[k], b = half[1].at[k], length = half[0].at[k + 1] - a;

            if (is_message(&half[0], k) || is_message(&half[1], k))
                continue;
            if (distance(half[0].written + a, half[1].written + b) < 3)
                fail(WRITE, "the least number of places between two minutes");
            if (length == half[1].at[k + 1] - b
                && memcmp(half[0].received + a, half[1].received + b, length) == 0)
                fail(WRITE, "the frame of another minute");
        }
    }
}

/* Writing in the amplitude code by every kind, and by rows in and out of range. */
static void boundary_write_amplitude_rows(void)
{
    static const uint32_t rows[] = {0, 1, 24, 25, 48, 49, 0xffffffffu};
    uint32_t kind;
    size_t i, k;

    for (kind = 0; kind <= 5; kind++)
        for (i = 0; i < sizeof rows / sizeof *rows; i++)
            for (k = 0; k < sizeof rows / sizeof *rows; k++) {
                struct ref_plan q = {0, 0, 0, 0, 0, 0};
                q.kind = kind < 5 ? kind : 0xffffffffu;
                q.spring = rows[i];
                q.autumn = rows[k];
                try_write_amplitude(&q, below(MINUTES), 1, 0, 61);
                q.notice = 1 + below(2);
                try_write_amplitude(&q, below(MINUTES), -1, 9, 61);
            }
}

/* Each month's end, by every leap sign. */
static void boundary_write_amplitude_months(void)
{
    uint32_t month, m;
    int32_t sign;
    size_t space;

    for (month = 0; month <= 1201; month++)
        for (sign = -2; sign <= 2; sign++) {
            struct ref_plan q = {1, 0, 0, 0, 0, 0};
            uint32_t end = month_end(month < 1200 ? month : 1199);
            q.leap_month = month;
            q.leap_sign = sign;
            q.notice = month % 3;
            for (m = end - 1; m <= end + 1; m++)
                for (space = 58; space <= 62; space++)
                    try_write_amplitude(&q, m, month % 2 ? 1 : -1, month % 10, space);
        }
}

/* UT1 signs, tenths and minutes, in and out of range. */
static void boundary_write_amplitude_ut1(void)
{
    static const int32_t signs[] = {
        INT32_MIN, INT32_MIN + 1, -65537, -65535, -257, -256, -255, -129, -128, -127, -2, -1,
        0, 1, 2, 5, 127, 128, 255, 256, 257, 65535, 65537, INT32_MAX - 1, INT32_MAX,
    };
    static const uint32_t tenths[] = {
        0, 1, 2, 3, 4, 5, 6, 7, 8, 9, 10, 11, 15, 16, 25, 255, 256, 265, 65536,
        0x7fffffffu, 0x80000000u, 0xfffffffeu, 0xffffffffu,
    };
    static const uint32_t minutes[] = {
        0, 1, 59, 60, 1439, 1440, 6573598, 6573599, 6573600, MINUTES - 1, MINUTES, MINUTES + 1,
        67108863, 0x7fffffffu, 0x80000000u, 0xffffffffu,
    };
    struct ref_plan p = {0, 10, 37, 149, 1, 0};
    size_t i, k, m;

    for (i = 0; i < sizeof signs / sizeof *signs; i++)
        for (k = 0; k < sizeof tenths / sizeof *tenths; k++)
            for (m = 0; m < sizeof minutes / sizeof *minutes; m++)
                try_write_amplitude(&p, minutes[m], signs[i], tenths[k], below(2) * 61);
}

/* Every length of the buffer, and two checks that would fail, to see their order. */
static void boundary_write_amplitude_space(void)
{
    struct ref_plan p = {0, 10, 37, 149, 1, 0};
    int32_t sign;
    size_t space;

    for (sign = -1; sign <= 1; sign++)
        for (space = 0; space <= 70; space++) {
            p.leap_sign = sign;
            p.leap_month = sign ? 149 : 0;
            try_write_amplitude(&p, 6573599, 1, 3, space);
            try_write_amplitude(&p, 6573599, 1, 10, space);
            try_write_amplitude(&p, 6573599, 0, 3, space);
            try_write_amplitude(&p, MINUTES, 1, 3, space);
            try_write_amplitude(&p, MINUTES, 1, 10, space);
            p.notice = 2;
            try_write_amplitude(&p, 6573599, 1, 3, space);
            try_write_amplitude(&p, MINUTES, 0, 10, space);
            p.notice = 0;
        }
}

/* A day of every minute, and every day. */
static void boundary_write_amplitude_days(void)
{
    struct ref_plan p = {0, 10, 37, 149, 1, 0};
    uint32_t m;

    for (m = 0; m < 1440; m++)
        try_write_amplitude(&p, 6573600 - 1440 + m, 1, m % 10, 61);
    for (m = 0; m < MINUTES / 1440; m++)
        try_write_amplitude(&p, m * 1440 + m % 1440, -1, m % 10, 61);
}

/* Reading the amplitude code, the last minute of June 2012 and the one before, with the warning and
   without: all lengths, and each symbol, and each two of them, at other values. */
static void boundary_read_amplitude_symbols(void)
{
    static const uint8_t values[] = {0, 1, 2, 3, 4, 127, 128, 130, 254, 255};
    uint8_t symbols[72];
    struct fields f;
    uint32_t n, k;
    size_t length, i, v;

    for (n = 0; n < 4; n++) {
        f = fields_of(12, 182, 23, 58 + n % 2);
        f.warning = n / 2;
        for (k = 0; k < 4; k++) { /* what stands after the symbols */
            memset(symbols, (int)k, sizeof symbols);
            put_fields(&f, symbols);
            for (length = 0; length <= 70; length++)
                try_read_amplitude(symbols, length);
        }
        for (length = 59; length <= 61; length++)
            for (i = 0; i < 61; i++)
                for (v = 0; v < sizeof values; v++) {
                    uint8_t was = symbols[i];
                    symbols[i] = values[v];
                    try_read_amplitude(symbols, length);
                    for (k = 0; k < 61 && v < 4; k++) {
                        uint8_t was_too = symbols[k];
                        symbols[k] ^= 1;
                        try_read_amplitude(symbols, length);
                        symbols[k] = was_too;
                    }
                    symbols[i] = was;
                }
    }
}

/* Every value of minute and hour, of the UT1 sign and the tenths. */
static void boundary_read_amplitude_fields(void)
{
    uint8_t symbols[61];
    struct fields f;
    uint32_t n;
    size_t length;

    for (n = 0; n < 8 * 16 * 4 * 16; n++) {
        f = fields_of(n % 100, 1 + n % 365, 0, 0);
        f.minute[0] = n & 7;
        f.minute[1] = n >> 3 & 15;
        f.hour[0] = n >> 7 & 3;
        f.hour[1] = n >> 9 & 15;
        f.warning = 0;
        put_fields(&f, symbols);
        try_read_amplitude(symbols, 60);
    }
    for (n = 0; n < 8 * 16 * 2 * 2 * 4; n++) {
        f = fields_of(n % 100, 59, 23, 59);
        f.sign = n & 7;
        f.tenths = n >> 3 & 15;
        f.leap_year = n >> 7 & 1;
        f.warning = n >> 8 & 1;
        f.daylight = n >> 9 & 3;
        put_fields(&f, symbols);
        for (length = 59; length <= 61; length++)
            try_read_amplitude(symbols, length);
    }
}

/* Every value of the year with either mark, and of the day in eight years. */
static void boundary_read_amplitude_days(void)
{
    uint8_t symbols[61];
    struct fields f;
    uint32_t n, k;

    for (n = 0; n < 256 * 2; n++)
        for (k = 0; k < 10; k++) {
            static const uint32_t days[5] = {1, 59, 60, 365, 366};
            f = fields_of(0, days[k / 2], k % 2 * 12, 0);
            f.year[0] = n >> 4 & 15;
            f.year[1] = n & 15;
            f.leap_year = n >> 8;
            put_fields(&f, symbols);
            try_read_amplitude(symbols, 60);
        }
    for (n = 0; n < 4 * 16 * 16; n++)
        for (k = 0; k < 16; k++) {
            static const uint32_t years[8] = {0, 1, 2, 3, 4, 96, 98, 99};
            f = fields_of(years[k / 2], 1, k % 2 * 12, 0);
            f.day[0] = n >> 8;
            f.day[1] = n >> 4 & 15;
            f.day[2] = n & 15;
            put_fields(&f, symbols);
            try_read_amplitude(symbols, 60);
        }
}

/* The last minute of every month, and those beside it by a minute, an hour or a day: all lengths,
   with the warning and without. */
static void boundary_read_amplitude_months(void)
{
    uint8_t symbols[61];
    struct fields f;
    uint32_t year, day, month, hour, minute, n;

    for (year = 0; year < 100; year++)
        for (month = 0; month < 12; month++)
            for (n = 0; n < 12 * 6; n++) {
                day = last_day(year, month) + n / 6 % 3 - 1;
                hour = n / 18 % 2 ? 22 : 23;
                minute = n / 36 ? 58 : 59;
                f = fields_of(year, day, hour, minute);
                f.warning = n % 2;
                put_fields(&f, symbols);
                try_read_amplitude(symbols, 59 + n % 6 / 2);
            }
}

static void boundary_amplitude(void)
{
    boundary_write_amplitude_rows();
    boundary_write_amplitude_months();
    boundary_write_amplitude_ut1();
    boundary_write_amplitude_space();
    boundary_write_amplitude_days();
    boundary_read_amplitude_symbols();
    boundary_read_amplitude_fields();
    boundary_read_amplitude_days();
    boundary_read_amplitude_months();
}

/* Whether the readings of a minute in the two codes have the same date, daylight state and
   length. */
static int same_reading(const wwvb_amplitude_reply *a, const wwvb_entry *e)
{
    wwvb_date_reply d = wwvb_minute_to_date(e->minute);

    return a->year == d.year && a->month == d.month && a->day == d.day && a->hour == d.hour
        && a->minute == d.minute && a->weekday == d.weekday && a->daylight == e->daylight
        && a->length == e->length;
}

/* For one plan and minute without a message both codes of the library read to the same date,
   daylight state and length: the last minute of each month in 59 and in 61 seconds, and as many
   minutes in 60. */
static void boundary_codes(void)
{
    uint8_t symbols[WWVB_MAX_FRAME], bits[WWVB_MAX_FRAME], entry[WWVB_ENTRY_SIZE];
    uint32_t month;
    int32_t sign;

    for (month = 0; month < 1200; month++)
        for (sign = -1; sign <= 1; sign++) {
            struct ref_plan p = random_plan();
            uint32_t minute = sign ? month_end(month) : random_minute(&p), tenths = below(10);
            struct messages m = random_messages(minute, 1);
            wwvb_write_reply w, v;
            wwvb_amplitude_reply a;
            wwvb_entry e;
            size_t which;
            if (has_message(&m, minute, &which))
                m = no_messages;
            p.leap_sign = sign;
            p.leap_month = sign ? month : 0;
            w = wwvb_write_amplitude(p.kind, p.spring, p.autumn, p.leap_month, p.leap_sign,
                                     p.notice, m.bytes, m.length, minute, sign ? sign : 1, tenths,
                                     symbols, sizeof symbols);
            v = write_by(&p, m.bytes, m.length, minute, 1, bits, sizeof bits);
            count(WRITE_AMPLITUDE, w.refusal);
            if (w.refusal != 0 || v.refusal != 0)
                fail(WRITE_AMPLITUDE, "the number for a legal plan");
            if (w.bits != v.bits || w.bits != (size_t)(60 + sign))
                fail(WRITE_AMPLITUDE, "the length in the two codes");
            a = wwvb_read_amplitude(symbols, w.bits);
            count(READ_AMPLITUDE, a.refusal);
            if (a.refusal != 0 || wwvb_read_frame(bits, v.bits, entry, sizeof entry) != 0)
                fail(READ_AMPLITUDE, "the number for a minute that the library wrote");
            e = wwvb_entry_at(entry, 0);
            if (!same_reading(&a, &e))
                fail(READ_AMPLITUDE, "the reading of the other code");
            if (a.ut1_sign != (sign ? sign : 1) || a.ut1_tenths != tenths
                || a.warning != (e.leap != WWVB_LEAP_NONE))
                fail(READ_AMPLITUDE, "UT1 or the warning as sent");
        }
}

/* ---- boundary cases of messages */

#define AFTERNOON 6578970u  /* 2012-07-04 17:30 */
#define JUNE 149u           /* June 2012 as a month */
#define JUNE_ENDS 6573599u  /* its last minute */

/* So many messages in the minutes after one. */
static struct messages messages_after(uint32_t minute, size_t n)
{
    struct messages m = no_messages;
    size_t i;

    for (i = 1; i <= n; i++)
        add_message(&m, minute + (uint32_t)i, random_data());
    return m;
}

/* The three writings with these messages. */
static void try_writings(const struct messages *m)
{
    struct ref_plan p = {0, 10, 37, 0, 0, 0};

    try_messages(&p, m, AFTERNOON, 6, 360);
    try_amplitude(&p, m, AFTERNOON + 1, 1, 4, 60);
    try_irig(&p, m, AFTERNOON + 1, 59, 100);
}

/* Every length of the messages' bytes from 0 to 60, also where later checks would fail. */
static void boundary_message_lengths(void)
{
    struct messages m = messages_after(AFTERNOON, 6);
    struct ref_plan p = {0, 10, 37, 0, 0, 0};

    for (m.length = 0; m.length <= sizeof m.bytes; m.length++) {
        try_writings(&m);
        try_messages(&p, &m, AFTERNOON, 0, 0);
        try_messages(&p, &m, AFTERNOON, 1001, 0);
        try_messages(&p, &m, MINUTES, 1, 60);
        try_messages(&p, &m, AFTERNOON, 6, 359);
        try_amplitude(&p, &m, MINUTES, 0, 10, 0);
        try_amplitude(&p, &m, AFTERNOON, 1, 10, 60);
        try_amplitude(&p, &m, AFTERNOON, 1, 4, 59);
        try_irig(&p, &m, MINUTES, 60, 0);
        try_irig(&p, &m, AFTERNOON, 60, 100);
        try_irig(&p, &m, AFTERNOON, 59, 99);
    }
}

/* Minutes and data at their limits, and minutes that are equal or falling, at each of one to four
   messages. */
static void boundary_message_limits(void)
{
    static const uint32_t minutes[] = {
        0, 1, AFTERNOON - 1, AFTERNOON, AFTERNOON + 9, MINUTES - 1, MINUTES, MINUTES + 1, 67108863,
        0x7fffffffu, 0x80000000u, 0xffffffffu,
    };
    static const uint64_t data[] = {
        0, 1, WWVB_DATA_LIMIT / 2, WWVB_DATA_LIMIT - 1, WWVB_DATA_LIMIT, WWVB_DATA_LIMIT + 1,
        2 * WWVB_DATA_LIMIT, 32 * WWVB_DATA_LIMIT, 64 * WWVB_DATA_LIMIT - 1,
    };
    size_t n, i, k;

    for (n = 1; n <= 4; n++)
        for (i = 0; i < n; i++) {
            struct messages m = messages_after(AFTERNOON, n), other;

            for (k = 0; k < sizeof minutes / sizeof *minutes; k++) {
                other = m;
                set_minute(&other, i, minutes[k]);
                try_writings(&other);
            }
            for (k = 0; k < sizeof data / sizeof *data; k++) {
                other = m;
                set_data(&other, i, data[k]);
                try_writings(&other);
            }
            for (k = 0; k < 3 * n; k++) { /* that of another, and those beside it */
                other = m;
                set_minute(&other, i, minute_at(&m, k / 3) + (uint32_t)(k % 3) - 1);
                try_writings(&other);
            }
        }
}

/* Each byte of four messages at other values. */
static void boundary_message_bytes(void)
{
    static const uint8_t values[] = {0, 1, 3, 4, 100, 127, 128, 254, 255};
    struct messages m = messages_after(AFTERNOON, 4);
    size_t i, v;

    for (i = 0; i < m.length; i++)
        for (v = 0; v < sizeof values; v++) {
            struct messages other = m;

            other.bytes[i] = values[v];
            try_writings(&other);
        }
}

/* Writes a recording and reads it: the entries are those sent, or the first frame is a message and
   nothing is read. */
static void try_as_sent(const struct ref_plan *p, const struct messages *m, uint32_t first,
                        uint32_t n)
{
    uint8_t bits[8 * WWVB_MAX_FRAME], sent[8 * WWVB_ENTRY_SIZE];
    size_t length = try_messages(p, m, first, n, sizeof bits), which;
    uint32_t k;

    memcpy(bits, out_buffer.at, length);
    for (k = 0; k < n; k++) {
        uint8_t *entry = sent + k * WWVB_ENTRY_SIZE;

        if (has_message(m, first + k, &which))
            ref_message_as_sent(p, first + k, data_at(m, which), entry);
        else
            ref_entry_as_sent(p, first + k, 0, 1, entry);
    }
    if (try_read(bits, length, n * WWVB_ENTRY_SIZE)
        != (has_message(m, first, &which) ? WWVB_FIRST_MESSAGE : WWVB_OK))
        fail(READ, "the number for a recording as sent");
    if (!has_message(m, first, &which) && memcmp(out_buffer.at, sent, n * WWVB_ENTRY_SIZE) != 0)
        fail(READ, "the entries as sent");
}

/* Each bit of the data alone and each missing, by both notices, in an even and an odd minute. */
static void boundary_message_data(void)
{
    struct ref_plan p = {0, 10, 37, 0, 0, 0};
    uint32_t i, k;

    for (i = 0; i <= 42; i++)
        for (k = 0; k < 8; k++) {
            struct messages m = no_messages;
            uint64_t data = i < 42 ? (uint64_t)1 << i : 0;

            p.notice = k / 2 % 2;
            add_message(&m, AFTERNOON + 1 + k % 2, k < 4 ? data : WWVB_DATA_LIMIT - 1 - data);
            try_as_sent(&p, &m, AFTERNOON, 4);
        }
}

/* The four minutes about the end of months, by each leap sign, with every set of them as
   messages. */
static void boundary_message_months(void)
{
    uint32_t month, set, k;
    int32_t sign;

    for (month = 0; month < 1200; month += month < 24 || month > 1190 ? 1 : 7)
        for (sign = -1; sign <= 1; sign++)
            for (set = 0; set < 16; set++) {
                struct ref_plan p = random_plan();
                struct messages m = no_messages;
                uint32_t first = month_end(month) - 2;

                p.leap_sign = sign;
                p.leap_month = sign ? month : 0;
                for (k = 0; k < 4; k++)
                    if (set >> k & 1 && first + k < MINUTES)
                        add_message(&m, first + k, random_data());
                try_as_sent(&p, &m, first, month < 1199 ? 4 : 3);
            }
}

/* A frame by a plan of the United States with a leap second of a sign in June 2012, or none; as a
   message, or as a time frame. Gives its length. */
static size_t june_frame(int32_t sign, uint32_t minute, int message, uint8_t *bits)
{
    struct ref_plan p = {0, 10, 37, 0, 0, 1};
    struct messages m = messages_after(minute - 1, message ? 1 : 0);

    p.leap_sign = sign;
    p.leap_month = sign ? JUNE : 0;
    return recording_with(&p, &m, minute, 1, bits);
}

/* The leap states of two time frames, each after each, or of one before a message; then a message
   in the last minute of each length, whole and wrong, and a frame after it. */
static void boundary_message_leaps(void)
{
    uint8_t bits[5 * WWVB_MAX_FRAME];
    uint32_t i, k;

    for (i = 0; i < 3 * 4 * 3 * 3; i++) {
        int32_t a = (int32_t)(i % 3) - 1, b = (int32_t)(i / 3 % 4) - 1; /* b 2: a message */
        int32_t c = (int32_t)(i / 12 % 3) - 1;
        size_t last = june_frame(a, JUNE_ENDS - 2, 0, bits), length;

        last += june_frame(b == 2 ? 0 : b, JUNE_ENDS - 1, b == 2, bits + last);
        length = last + june_frame(c, JUNE_ENDS, 1, bits + last);
        if (i / 36)
            length += june_frame(c, JUNE_ENDS + 1, i / 36 == 2, bits + length);
        for (k = 0; k < 4; k++) { /* time[0] wrong, and a last bit that is not 0 */
            bits[last + 19] ^= k & 1;
            bits[last + 59] ^= k >> 1;
            try_read(bits, length, 4 * WWVB_ENTRY_SIZE);
            bits[last + 19] ^= k & 1;
            bits[last + 59] ^= k >> 1;
        }
    }
}

/* A message between two time frames, in the last minute of June by each leap sign: each byte at
   other values, cut at each bit, and each entry space. Then the message alone, and before a time
   frame. */
static void boundary_message_changes(void)
{
    static const uint8_t values[] = {0, 1, 2, 128, 255};
    uint8_t bits[4 * WWVB_MAX_FRAME];
    size_t i, v, length, space;
    int32_t sign;

    for (sign = -1; sign <= 1; sign++) {
        memset(bits, 0, sizeof bits);
        length = june_frame(sign, JUNE_ENDS - 1, 0, bits);
        length += june_frame(sign, JUNE_ENDS, 1, bits + length);
        length += june_frame(sign, JUNE_ENDS + 1, 0, bits + length);
        for (i = 0; i < length; i++)
            for (v = 0; v < sizeof values; v++) {
                uint8_t was = bits[i];

                bits[i] = values[v];
                try_read(bits, length, 3 * WWVB_ENTRY_SIZE);
                try_read(bits + 60, length - 60, 2 * WWVB_ENTRY_SIZE);
                if (i >= 60)
                    try_one(bits + 60, (size_t)(60 + sign), WWVB_ENTRY_SIZE);
                bits[i] = was;
            }
        for (i = 0; i <= length; i++) {
            try_read(bits, i, 3 * WWVB_ENTRY_SIZE);
            try_read(bits + i, length - i, 3 * WWVB_ENTRY_SIZE);
            try_one(bits + 60, i, WWVB_ENTRY_SIZE);
        }
        for (space = 0; space <= 3 * WWVB_ENTRY_SIZE + 1; space++) {
            try_read(bits, length, space);
            try_read(bits + 60, length - 60, space);
            try_one(bits + 60, 60, space);
        }
    }
}

/* A frame after the last minute of all, as a message and as a time frame, by each leap sign of
   that month: in each length, with bit 19 either way, and with a last bit that is not 0. */
static void boundary_message_range(void)
{
    uint8_t bits[4 * WWVB_MAX_FRAME];
    uint32_t i, k;
    size_t at, length;

    for (i = 0; i < 3 * 4; i++) {
        struct ref_plan p = {0, 10, 37, 1199, 0, 0};
        struct messages m = no_messages;

        p.leap_sign = (int32_t)(i % 3) - 1;
        p.leap_month = p.leap_sign ? 1199 : 0;
        if (i / 3 % 2)
            add_message(&m, MINUTES - 1, random_data());
        memset(bits, 0, sizeof bits);
        at = recording_with(&p, &m, MINUTES - 2, 2, bits);
        june_frame(0, JUNE_ENDS, i / 6 == 0, bits + at);
        for (k = 0; k < 4; k++)
            for (length = 57; length <= 62; length++) {
                bits[at + 19] = k & 1;
                bits[at + 59] = k >> 1;
                try_read(bits, at + length, 3 * WWVB_ENTRY_SIZE);
            }
    }
}

static void boundary_messages(void)
{
    boundary_message_lengths();
    boundary_message_limits();
    boundary_message_bytes();
    boundary_message_data();
    boundary_message_months();
    boundary_message_leaps();
    boundary_message_range();
    boundary_message_changes();
}

/* ---- boundary cases of IRIG B */

/* By every kind, and by rows in and out of range. */
static void boundary_write_irig_rows(void)
{
    static const uint32_t rows[] = {0, 1, 24, 25, 48, 49, 0xffffffffu};
    uint32_t kind;
    size_t i, k;

    for (kind = 0; kind <= 5; kind++)
        for (i = 0; i < sizeof rows / sizeof *rows; i++)
            for (k = 0; k < sizeof rows / sizeof *rows; k++) {
                struct ref_plan q = {0, 0, 0, 0, 0, 0};
                q.kind = kind < 5 ? kind : 0xffffffffu;
                q.spring = rows[i];
                q.autumn = rows[k];
                try_write_irig(&q, below(MINUTES), below(60), 100);
                q.notice = 1 + below(2);
                try_write_irig(&q, below(MINUTES), below(60), 100);
            }
}

/* The seconds from one to another of the last minute of a month, and of the two beside it, by a
   leap second of each sign in that month and by none. */
static void try_month_end(uint32_t month, uint32_t from, uint32_t to)
{
    uint32_t end = month_end(month), m, second;
    int32_t sign;

    for (sign = -1; sign <= 1; sign++)
        for (m = end - 1; m <= end + 1; m++) {
            struct ref_plan p = random_plan();
            struct messages messages = one_in(2) ? no_messages : random_messages(end, 1);

            p.leap_sign = sign;
            p.leap_month = sign ? month : 0;
            for (second = from; second <= to; second++)
                try_irig(&p, &messages, m, second, 100);
        }
}

/* Every second at the month ends of some years, and the last ones at all of them. */
static void boundary_write_irig_months(void)
{
    static const uint32_t years[] = {0, 1, 4, 11, 12, 50, 98, 99};
    uint32_t month;
    size_t i;

    for (i = 0; i < sizeof years / sizeof *years; i++)
        for (month = 0; month < 12; month++)
            try_month_end(years[i] * 12 + month, 0, 63);
    for (month = 0; month < 1200; month++)
        try_month_end(month, 58, 61);
}

/* Leap months and signs, in and out of range. */
static void boundary_write_irig_leaps(void)
{
    uint32_t month;
    int32_t sign;

    for (month = 1190; month <= 1201; month++)
        for (sign = -2; sign <= 2; sign++) {
            struct ref_plan q = {1, 0, 0, 0, 0, 0};

            q.leap_month = sign ? month : month % 2;
            q.leap_sign = sign;
            q.notice = month % 3;
            try_write_irig(&q, month_end(1199), 60, 100);
            try_write_irig(&q, month_end(1199), 58, 100);
            q.notice = 0;
            try_write_irig(&q, month_end(1199), 59, 100);
            try_write_irig(&q, month_end(1190), 60, 100);
        }
}

/* Minutes and seconds, in and out of range, by each leap sign. */
static void boundary_write_irig_limits(void)
{
    static const uint32_t minutes[] = {
        0, 1, 59, 60, 1439, 1440, JUNE_ENDS - 1, JUNE_ENDS, JUNE_ENDS + 1, MINUTES - 1, MINUTES,
        MINUTES + 1, 67108863, 0x7fffffffu, 0x80000000u, 0xfffffffeu, 0xffffffffu,
    };
    static const uint32_t seconds[] = {
        0, 1, 9, 10, 57, 58, 59, 60, 61, 62, 63, 64, 99, 100, 127, 128, 255, 256, 314, 315, 316,
        65535, 65536, 65594, 65595, 65596, 0x7fffffffu, 0x80000000u, 0x8000003bu, 0xfffffffeu,
        0xffffffffu,
    };
    struct ref_plan p = {0, 10, 37, 0, 0, 0};
    int32_t sign;
    size_t i, k;

    for (sign = -1; sign <= 1; sign++)
        for (i = 0; i < sizeof minutes / sizeof *minutes; i++)
            for (k = 0; k < sizeof seconds / sizeof *seconds; k++) {
                p.leap_sign = sign;
                p.leap_month = sign ? JUNE : 0;
                try_write_irig(&p, minutes[i], seconds[k], 100);
                try_write_irig(&p, minutes[i], seconds[k], below(100));
            }
}

/* Each set of the four checks fails, the plan by a number or by its messages, and the buffer by a
   byte or by all; by each leap sign. */
static void boundary_write_irig_order(void)
{
    uint32_t set, how;

    for (set = 0; set < 16; set++)
        for (how = 0; how < 2 * 2 * 3; how++) {
            struct ref_plan p = {0, 10, 37, 0, 0, 0};
            struct messages m = messages_after(JUNE_ENDS, 1);
            uint32_t minute = set & 2 ? MINUTES : JUNE_ENDS, second;

            p.leap_sign = (int32_t)(how / 4) - 1;
            p.leap_month = p.leap_sign ? JUNE : 0;
            second = (uint32_t)(59 + p.leap_sign);
            if (set & 1 && how & 1)
                p.notice = 2;
            else if (set & 1)
                m.length--;
            try_irig(&p, &m, minute, set & 4 ? second + 1 : second,
                     !(set & 8) ? 100 : how & 2 ? 99 : 0);
        }
}

/* Every length of the buffer. */
static void boundary_write_irig_space(void)
{
    struct ref_plan p = {0, 10, 37, 0, 0, 0};
    int32_t sign;
    size_t space;

    for (sign = -1; sign <= 1; sign++)
        for (space = 0; space <= 130; space++) {
            p.leap_sign = sign;
            p.leap_month = sign ? JUNE : 0;
            try_write_irig(&p, JUNE_ENDS, 0, space);
            try_write_irig(&p, JUNE_ENDS, 59, space);
            try_write_irig(&p, JUNE_ENDS, 60, space);
            try_write_irig(&p, MINUTES, 0, space);
            p.notice = 2;
            try_write_irig(&p, JUNE_ENDS, 0, space);
            p.notice = 0;
        }
}

/* Every day of a leap year, and every second of a minute that has 61. */
static void boundary_irig_year(void)
{
    struct ref_plan p = {0, 10, 37, JUNE, 1, 0};
    uint32_t i;

    for (i = 0; i < 366; i++)
        try_write_irig(&p, i * 1440 + i % 1440, i % 60, 100);
    for (i = 0; i <= 61; i++)
        try_write_irig(&p, JUNE_ENDS, i, 100);
}

/* Every second of a day that has 86,401, and every day of all. */
static void boundary_write_irig_days(void)
{
    struct ref_plan p = {0, 10, 37, JUNE, 1, 0};
    uint32_t i;

    for (i = 0; i < 86400; i++)
        try_write_irig(&p, JUNE_ENDS - 1439 + i / 60, i % 60, 100);
    try_write_irig(&p, JUNE_ENDS, 60, 100);
    for (i = 0; i < MINUTES / 1440; i++)
        try_write_irig(&p, i * 1440 + i * 7 % 1440, i % 60, 100);
}

/* Seconds of all kinds: each element at other values, and each two of them. */
static void boundary_read_irig_elements(void)
{
    static const uint8_t values[] = {0, 1, 2, 3, 4, 127, 128, 130, 254, 255};
    static const uint32_t rows[][4] = {
        {186, 17, 30, 0}, {182, 23, 59, 60}, {1, 0, 0, 0}, {366, 23, 59, 59}, {365, 23, 59, 60},
        {59, 23, 59, 60}, {99, 9, 9, 9}, {299, 19, 19, 19}, {100, 20, 40, 50}, {48, 8, 48, 8},
    };
    uint8_t elements[REF_IRIG];
    size_t n, i, k, v;

    for (n = 0; n < sizeof rows / sizeof *rows; n++) {
        struct irig_fields f = irig_of(rows[n][0], rows[n][1], rows[n][2], rows[n][3]);

        put_irig(&f, elements);
        for (i = 0; i < REF_IRIG; i++)
            for (v = 0; v < sizeof values; v++) {
                uint8_t was = elements[i];

                elements[i] = values[v];
                try_read_irig(elements, REF_IRIG);
                for (k = 0; k < REF_IRIG && v < 3 && n < 4; k++) {
                    uint8_t was_too = elements[k];

                    elements[k] ^= 1;
                    try_read_irig(elements, REF_IRIG);
                    elements[k] = was_too;
                }
                elements[i] = was;
            }
    }
}

/* Every length, with other bytes after the elements. */
static void boundary_read_irig_lengths(void)
{
    struct irig_fields f = irig_of(186, 17, 30, 0);
    uint8_t elements[MOST_ELEMENTS];
    size_t length;
    int after;

    for (after = 0; after < 4; after++) {
        memset(elements, after, sizeof elements);
        put_irig(&f, elements);
        for (length = 0; length < MOST_ELEMENTS; length++) {
            try_read_irig(elements, length);
            try_read_irig(elements + MOST_ELEMENTS - length, length);
        }
    }
}

/* Day 0 to 399, and every value of the day's elements, at the last seconds of a day and of other
   minutes. The straight seconds fit. */
static void boundary_read_irig_days(void)
{
    static const uint32_t times[][2] = {{23, 59}, {23, 58}, {22, 59}, {0, 0}};
    uint8_t elements[REF_IRIG];
    struct irig_fields f;
    uint32_t day, n;

    for (day = 0; day < 400; day++)
        for (n = 0; n < 12; n++) {
            f = irig_of(day, times[n / 3][0], times[n / 3][1], 59 + n % 3);
            put_irig(&f, elements);
            try_read_irig(elements, REF_IRIG);
        }
    for (day = 0; day < 4 * 16 * 16; day++)
        for (n = 59; n <= 60; n++) {
            f = irig_of(0, 23, 59, n);
            f.day[0] = day >> 8;
            f.day[1] = day >> 4 & 15;
            f.day[2] = day & 15;
            put_irig(&f, elements);
            try_read_irig(elements, REF_IRIG);
        }
}

/* Every value of the elements of minute and hour, and of those of the second at some times of some
   days. The straight seconds fit. */
static void boundary_read_irig_times(void)
{
    static const uint32_t days[8] = {1, 58, 59, 60, 61, 182, 183, 366};
    static const uint32_t hours[3] = {0, 22, 23}, minutes[3] = {0, 58, 59};
    uint8_t elements[REF_IRIG];
    struct irig_fields f;
    uint32_t n, k;

    for (n = 0; n < 8 * 16 * 4 * 16; n++) {
        f = irig_of(1 + n % 366, 0, 0, n % 60);
        f.minute[0] = n & 7;
        f.minute[1] = n >> 3 & 15;
        f.hour[0] = n >> 7 & 3;
        f.hour[1] = n >> 9 & 15;
        set_straight(&f);
        put_irig(&f, elements);
        try_read_irig(elements, REF_IRIG);
    }
    for (n = 0; n < 8 * 16; n++)
        for (k = 0; k < 8 * 9; k++) {
            f = irig_of(days[k / 9], hours[k / 3 % 3], minutes[k % 3], 0);
            f.second[0] = n & 7;
            f.second[1] = n >> 3;
            set_straight(&f);
            put_irig(&f, elements);
            try_read_irig(elements, REF_IRIG);
        }
}

/* Every value of the straight seconds with the digits of a leap second, and values that may be
   taken for right with those of other times. */
static void boundary_read_irig_straight(void)
{
    static const int32_t apart[] = {-86400, -3600, -60, -1, 0, 1, 60, 3600, 43200, 86400, 131072};
    uint8_t elements[REF_IRIG];
    struct irig_fields f = irig_of(182, 23, 59, 60);
    uint32_t n;
    size_t i;

    for (n = 0; n < 131072; n++) {
        f.straight = n;
        put_irig(&f, elements);
        try_read_irig(elements, REF_IRIG);
    }
    for (n = 0; n < 86400; n += 59)
        for (i = 0; i < sizeof apart / sizeof *apart; i++) {
            f = irig_of(1 + n % 366, n / 3600, n / 60 % 60, n % 60);
            f.straight += (uint32_t)apart[i];
            put_irig(&f, elements);
            try_read_irig(elements, REF_IRIG);
        }
}

static void boundary_irig(void)
{
    if (!exact) {
        boundary_write_irig_rows();
        boundary_write_irig_months();
        boundary_write_irig_leaps();
        boundary_write_irig_limits();
        boundary_write_irig_days();
        boundary_read_irig_elements();
        boundary_read_irig_times();
        boundary_read_irig_straight();
    }
    boundary_irig_year();
    boundary_write_irig_order();
    boundary_write_irig_space();
    boundary_read_irig_lengths();
    boundary_read_irig_days();
}

/* A month of messages after a time frame in the last minute of the month before. */
struct month {
    uint32_t first, end; /* the minute of the time frame, and the last minute of the month */
    size_t last;         /* where the last message begins */
    size_t length;
    size_t space; /* for all entries */
};

static uint8_t month_bits[LONG_ROOM];

/* Where a minute's frame begins; all messages have 60 bits. */
static size_t start_of(const struct month *m, uint32_t minute)
{
    return m->last - (size_t)60 * (m->end - minute);
}

/* The time frame has a leap second of its month, which tells nothing of the next. */
static struct month lay_month(uint32_t month, int32_t sign)
{
    struct ref_plan p = {1, 0, 0, 0, 0, 0};
    struct messages one = no_messages;
    struct month m;
    uint32_t minute;
    size_t at;

    m.first = month_end(month - 1);
    m.end = month_end(month);
    p.leap_sign = sign;
    p.leap_month = sign ? month - 1 : 0;
    at = recording(&p, m.first, 1, month_bits);
    add_message(&one, m.first + 1, random_data());
    for (minute = m.first + 1; minute <= m.end; minute++, at += 60) {
        if (minute == m.first + 1)
            recording_with(&p, &one, minute, 1, month_bits + at);
        else
            memcpy(month_bits + at, month_bits + at - 60, 60);
        month_bits[at + 19] = minute & 1;
    }
    m.last = at - 60;
    m.length = at;
    m.space = (size_t)(m.end - m.first + 1) * WWVB_ENTRY_SIZE;
    return m;
}

static void expect_month(size_t length, size_t space, unsigned number)
{
    if (try_read(month_bits, length, space) != number)
        fail(READ, "the number for a month of messages");
}

/* The checks before 20 and after it, at the last message. */
static void try_unknown(const struct month *m)
{
    uint8_t *last = month_bits + m->last;

    expect_month(m->length, m->space, WWVB_UNKNOWN_LENGTH);
    expect_month(m->length - 1, m->space, WWVB_UNKNOWN_LENGTH);
    last[59] = 1;
    expect_month(m->length, m->space, WWVB_UNKNOWN_LENGTH);
    last[59] = 0;
    last[19] ^= 1;
    expect_month(m->length, m->space, WWVB_UNKNOWN_LENGTH);
    last[19] ^= 1;
    expect_month(m->length, m->space - 1, WWVB_NO_ENTRY_SPACE);
    expect_month(m->length - 2, m->space, WWVB_TOO_SHORT);
    last[49] = 2;
    expect_month(m->length, m->space, WWVB_NOT_BITS);
    last[49] = 0;
    last[12] ^= 1;
    expect_month(m->length, m->space, WWVB_BAD_SYNC);
    last[12] ^= 1;
}

/* One time frame of the month, in a minute, with a leap state: the length of the last message
   follows it. */
static void try_known(const struct month *m, uint32_t minute, uint32_t month, int32_t sign)
{
    struct ref_plan p = {1, 0, 0, 0, 0, 0};
    uint8_t *frame = month_bits + start_of(m, minute), was[WWVB_MAX_FRAME];
    size_t length = m->last + (size_t)(60 + sign);

    p.leap_sign = sign;
    p.leap_month = sign ? month : 0;
    memcpy(was, frame, sizeof was);
    if (recording(&p, minute, 1, frame) != 60)
        abort();
    month_bits[m->last + 60] = 0;
    expect_month(length, m->space, WWVB_OK);
    expect_month(length - 1, m->space, sign < 0 ? WWVB_TOO_SHORT : WWVB_BAD_LENGTH);
    memcpy(frame, was, sizeof was);
}

/* The message in a month's last minute with no time frame of the month read: February 2001, and
   months of each length, the last of all among them. For valgrind once. */
static void boundary_unknown_length(void)
{
    static const uint32_t months[] = {13, 1, 3, 1199};
    size_t i;
    int32_t sign;

    for (i = 0; i < sizeof months / sizeof *months; i++) {
        struct month m = lay_month(months[i], (int32_t)(i % 3) - 1);

        if (exact) {
            expect_month(m.length, m.space, WWVB_UNKNOWN_LENGTH);
            return;
        }
        if (i == 0)
            try_unknown(&m);
        else
            expect_month(m.length, m.space, WWVB_UNKNOWN_LENGTH);
        for (sign = -1; sign <= 1; sign++)
            if (i == 0 || sign == 1) {
                try_known(&m, m.first + 1, months[i], sign);
                try_known(&m, m.end - 1, months[i], sign);
            }
    }
}

/* ---- boundary cases of pages */

/* So many frames, in order, from a minute on, in `month_bits`, by parts that can be written. One
   bit of each time word may be inverted, and bit 19; messages stand in each part. Gives the
   length. */
static size_t long_recording(uint32_t first, uint32_t n, int whole)
{
    struct ref_plan p = random_plan();
    size_t length = 0, at;
    uint32_t i, part;

    for (i = 0; i < n; i += part) {
        struct messages m = no_messages;
        uint32_t k;

        part = n - i < 997 ? n - i : 997;
        for (k = 1; k < 5 && k * 7 < part; k++)
            add_message(&m, first + i + k * 7, random_data());
        at = length;
        length += recording_with(&p, &m, first + i, part, month_bits + length);
        for (; !whole && at + 60 <= length; at += 60)
            if (month_bits[at] == 0 && one_in(2)) { /* a time frame's sync word begins with 0 */
                month_bits[at + ref_bit_of_place(1 + below(31))] ^= 1;
                month_bits[at + 19] = below(2);
            }
    }
    return length;
}

/* None to fifty thousand entries, about the limits of pages and of the digits of their numbers; for
   valgrind up to some hundred. */
static void boundary_page_counts(void)
{
    static const uint32_t counts[] = {
        0, 1, 2, 48, 49, 50, 51, 52, 98, 99, 100, 101, 149, 150, 151, 449, 450, 451, 499, 500, 501,
        999, 1000, 1001, 2500, 4949, 4950, 4951, 4999, 5000, 5001, 49950, 50001,
    };
    size_t i, n = sizeof counts / sizeof *counts;

    for (i = 0; i < n && !(exact && counts[i] > 151); i++) {
        size_t length = long_recording(below(MINUTES - 60000), counts[i], 1);

        try_spaces(month_bits, length, counts[i]);
        if (counts[i] > 0) { /* a bit lost, and one wrong, in the last frame */
            try_spaces(month_bits, length - 1, counts[i]);
            month_bits[length - 60] ^= 1;
            try_spaces(month_bits, length, counts[i]);
        }
    }
    for (i = 0; i < 120; i++) /* each number of blank lines, and damaged bits */
        try_spaces(month_bits, long_recording(below(MINUTES - 200), (uint32_t)i, 0), i);
}

/* Minutes about each power of ten, and the first and the last. */
static void boundary_page_minutes(void)
{
    uint32_t power, n;

    for (power = 1; power < MINUTES; power *= 10)
        for (n = 1; n <= 3; n++)
            try_spaces(month_bits, long_recording(power - 1, n, 0), n);
    try_spaces(month_bits, long_recording(0, 51, 0), 51);
    try_spaces(month_bits, long_recording(MINUTES - 51, 51, 0), 51);
}

/* Every day, of every month and year, with the minute before it. */
static void boundary_page_dates(void)
{
    struct ref_plan p = {0, 10, 37, 0, 0, 0};
    uint32_t day;

    for (day = 1; day < MINUTES / 1440; day++)
        try_print(scratch, recording(&p, day * 1440 - 1, 2, scratch), REF_PAGE);
    for (day = 0; day < 1440; day++) /* every minute of a day */
        try_print(scratch, recording(&p, AFTERNOON + day, 1, scratch), REF_PAGE);
}

/* Every state word with every next-change word, in an ordinary minute and in the last of a month;
   every place, with either echo; the three lengths, as a time frame and as a message. */
static void boundary_page_columns(void)
{
    struct ref_plan p = {0, 10, 37, 149, 1, 1};
    uint8_t bits[3 * WWVB_MAX_FRAME];
    unsigned state, next, i;
    size_t length;

    for (state = 0; state < 32; state++)
        for (next = 0; next < 64; next++)
            for (length = 59; length <= 61; length++) {
                memset(bits, 0, sizeof bits);
                recording(&p, JUNE_ENDS + next % 2, 1, bits);
                set_state(bits, state);
                set_word(bits + 53, next, 6);
                try_print(bits, length, REF_PAGE);
            }
    for (i = 0; i < 64; i++) {
        length = recording(&p, AFTERNOON, 1, bits);
        if (i / 2)
            bits[ref_bit_of_place(i / 2)] ^= 1;
        bits[19] ^= i % 2;
        try_print(bits, length, REF_PAGE);
    }
    for (i = 0; i < 6; i++) {
        int32_t sign = (int32_t)(i % 3) - 1;

        length = june_frame(sign, JUNE_ENDS - 1, 0, bits);
        length += june_frame(sign, JUNE_ENDS, i / 3 == 1, bits + length);
        length += june_frame(sign, JUNE_ENDS + 1, 0, bits + length);
        try_spaces(bits, length, 3);
    }
}

/* Three frames, the second a message: each byte at other values, cut off after each, and without
   the first bytes, with space enough and without. */
static void boundary_page_refusals(void)
{
    static const uint8_t values[] = {0, 1, 2, 48, 255};
    uint8_t bits[3 * WWVB_MAX_FRAME];
    size_t i, v, length;
    int32_t sign;

    for (sign = -1; sign <= 1; sign++) {
        length = june_frame(sign, JUNE_ENDS - 1, 0, bits);
        length += june_frame(sign, JUNE_ENDS, 1, bits + length);
        length += june_frame(sign, JUNE_ENDS + 1, 0, bits + length);
        for (i = 0; i < length; i++)
            for (v = 0; v < sizeof values; v++) {
                uint8_t was = bits[i];

                bits[i] = values[v];
                try_print(bits, length, REF_PAGE);
                try_print(bits, length, REF_PAGE - 1);
                bits[i] = was;
            }
        for (i = 0; i <= length; i++)
            for (v = 0; v < 2; v++) {
                try_print(bits, i, v * REF_PAGE);
                try_print(bits + i, length - i, v * REF_PAGE);
            }
    }
}

/* A month of messages: some 900 pages, and refused by 20. For valgrind once. */
static void boundary_page_months(void)
{
    struct month m = lay_month(13, 1);
    size_t entries = m.end - m.first;

    try_print(month_bits, m.length, 0);
    try_print(month_bits, m.last, wwvb_pages_size(entries));
    if (exact)
        return;
    try_print(month_bits, m.length, wwvb_pages_size(entries + 1));
    try_print(month_bits, m.last, wwvb_pages_size(entries) - 1);
}

static void boundary_pages(void)
{
    if (!exact) {
        boundary_page_dates();
        boundary_page_columns();
        boundary_page_refusals();
    }
    boundary_page_minutes();
    boundary_page_counts();
    boundary_page_months();
}

/* ---- the bench table of document 01, with the row of document 02 that takes the place of 12 */

static void expect(int ok, const char *what)
{
    if (!ok) {
        fprintf(stderr, "compare: the bench table: %s\n", what);
        exit(1);
    }
}

static int is_date(uint32_t t, uint32_t year, uint32_t month, uint32_t day, uint32_t hour, uint32_t minute)
{
    wwvb_date_reply r = wwvb_minute_to_date(t);
    wwvb_minute_reply back = wwvb_date_to_minute(year, month, day, hour, minute);

    return r.refusal == 0 && r.year == year && r.month == month && r.day == day && r.hour == hour
        && r.minute == minute && back.refusal == 0 && back.minute == t;
}

static size_t frame_of(uint32_t month, int32_t sign, uint32_t minute, uint8_t f[61])
{
    struct ref_plan p = {0, 10, 37, 0, 0, 0};

    p.leap_month = month;
    p.leap_sign = sign;
    return write_by(&p, NULL, 0, minute, 1, f, 61).bits;
}

/* Whether a frame of 60 bits is accepted; gives its entry. */
static int reads(const uint8_t *f, uint8_t entry[WWVB_ENTRY_SIZE])
{
    return wwvb_read_frame(f, 60, entry, WWVB_ENTRY_SIZE) == WWVB_OK;
}

static int is_daylight(uint32_t minute, unsigned state)
{
    uint8_t f[61], e[WWVB_ENTRY_SIZE];
    return frame_of(0, 0, minute, f) == 60 && reads(f, e) && e[WWVB_ENTRY_DAYLIGHT] == state;
}

static uint32_t minute_in(const uint8_t *e)
{
    return (uint32_t)e[0] << 24 | (uint32_t)e[1] << 16 | (uint32_t)e[2] << 8 | e[3];
}

static int has_parity(uint32_t minute, const char *parity)
{
    uint8_t f[61];
    unsigned i;

    frame_of(0, 0, minute, f);
    for (i = 0; i < 5; i++)
        if (f[13 + i] != parity[i] - '0')
            return 0;
    return 1;
}

static void document(void)
{
    static const char text[] = "001110110100010010000011001000011000110000110100000110110110";
    uint8_t f[61], e[WWVB_ENTRY_SIZE];
    unsigned i;

    expect(is_date(0, 2000, 1, 1, 0, 0) && wwvb_minute_to_date(0).weekday == 0, "minute 0");
    expect(has_parity(0, "00000") && has_parity(1, "01001") && has_parity(6578970, "10010"), "parity");
    expect(is_date(84960, 2000, 2, 29, 0, 0), "84,960");
    expect(is_date(6578970, 2012, 7, 4, 17, 30), "6,578,970");
    expect(is_date(8717610, 2016, 7, 28, 21, 30), "8,717,610");
    expect(is_date(52595999, 2099, 12, 31, 23, 59), "52,595,999");
    expect(wwvb_minute_to_date(52596000).refusal == WWVB_MINUTE_TOO_LARGE, "52,596,000");
    expect(is_daylight(6412319, 0) && is_daylight(6412320, 2) && is_daylight(6413760, 3), "rows 10, 37 in spring");
    expect(is_daylight(6755039, 3) && is_daylight(6755040, 1) && is_daylight(6756480, 0), "rows 10, 37 in autumn");
    expect(frame_of(149, 1, 6573599, f) == 61 && frame_of(149, -1, 6573599, f) == 59, "the leap minute");
    expect(frame_of(149, 1, 6573600, f) == 60 && reads(f, e) && e[WWVB_ENTRY_LEAP] == 0,
           "the minute after it");
    frame_of(0, 0, 0, f);
    f[46] ^= 1;
    expect(reads(f, e) && minute_in(e) == 0 && e[WWVB_ENTRY_PLACE] == 31
               && e[WWVB_ENTRY_ECHO] == 1,
           "time[0] inverted");
    f[45] ^= 1;
    expect(reads(f, e) && minute_in(e) == 16387 && e[WWVB_ENTRY_PLACE] == 17
               && e[WWVB_ENTRY_ECHO] == 0,
           "time[0] and time[1] inverted");
    f[46] ^= 1;
    f[44] ^= 1;
    expect(reads(f, e) && minute_in(e) == 32774, "time[1] and time[2] inverted");
    frame_of(0, 0, 0, f);
    set_state(f, 2);
    expect(wwvb_read_frame(f, 60, e, sizeof e) == WWVB_BAD_STATE, "state word 00010");
    expect(frame_of(0, 0, 6578970, f) == 60, "the frame of station's example");
    for (i = 0; i < 60; i++)
        expect(f[i] == text[i] - '0', "the frame of station's example");
}

/* ---- */

static int report(void)
{
    int c, missing = 0;
    unsigned n;

    for (c = 0; c < CALLS; c++) {
        printf("%-22s", call_names[c]);
        for (n = 0; n < NUMBERS; n++)
            if (can_give((enum call)c, n)) {
                printf(" %u:%lu", n, seen[c][n]);
                missing += seen[c][n] == 0;
            }
        printf("\n");
    }
    printf("%-22s", "  after a frame read");
    for (n = 5; n < NUMBERS; n++)
        if (can_give(READ, n) && n != 19) { /* 19 is about the first frame alone */
            printf(" %u:%lu", n, later[n]);
            missing += later[n] == 0;
        }
    printf("\n");
    missing += later[19] != 0;
    printf("%-22s", "  pages by digits");
    for (n = 1; n < 5; n++) {
        printf(" %u:%lu", n, page_digits[n]);
        missing += page_digits[n] == 0 && !(exact && n == 4); /* too long for valgrind */
    }
    printf("\n%-22s", "  lines by digits");
    for (n = 1; n < 9; n++) {
        printf(" %u:%lu", n, minute_digits[n]);
        missing += minute_digits[n] == 0;
    }
    printf("\n%-22s", "  lines by leap");
    for (n = 0; n < 4; n++) {
        printf(" '%c':%lu", marks[n], leap_marks[n]);
        missing += leap_marks[n] == 0;
    }
    printf("\n");
    for (n = 0; n < 50; n++)
        missing += lines_left[n] == 0;
    for (c = WRITE; c <= READ_AMPLITUDE; c++) {
        printf("%-22s lengths", call_names[c]);
        for (n = 59; n <= 61; n++) {
            printf(" %u:%lu", n, lengths[c][n]);
            missing += lengths[c][n] == 0;
        }
        printf("\n");
    }
    for (c = WRITE_IRIG; c <= READ_IRIG; c++) {
        printf("%-22s seconds", call_names[c]);
        for (n = 0; n <= 60; n++) {
            if (n == 0 || n >= 58)
                printf(" %u:%lu", n, irig_seconds[c][n]);
            missing += irig_seconds[c][n] == 0;
        }
        printf(", days");
        for (n = 1; n <= 366; n++) {
            if (n == 1 || n == 60 || n >= 365)
                printf(" %u:%lu", n, irig_days[c][n]);
            missing += irig_days[c][n] == 0;
        }
        printf("\n");
    }
    printf("%-22s", "  seconds refused");
    for (n = 59; n <= 61; n++) { /* the first that minutes of each length lack */
        printf(" %u:%lu", n, irig_limits[n]);
        missing += irig_limits[n] == 0;
    }
    printf("\n");
    printf("%-22s lengths", "messages read");
    for (n = 59; n <= 61; n++) {
        printf(" %u:%lu", n, message_lengths[n]);
        missing += message_lengths[n] == 0;
    }
    printf("\n%-22s", "accepted plans");
    for (n = 0; n < 5; n++) {
        printf(" %u messages:%lu", n, message_counts[n]);
        missing += message_counts[n] == 0;
    }
    printf("\n%-22s", "accepted plans");
    for (n = 0; n < 4; n++) {
        printf(" kind %u:%lu", n, kinds[n]);
        missing += kinds[n] == 0;
    }
    printf(" kind 3 from 2007:%lu\n", own_rows);
    missing += own_rows == 0;
    if (missing)
        fprintf(stderr, "compare: %d numbers, lengths, plans, seconds or days were never seen\n",
                missing);
    return missing;
}

int main(int argc, char **argv)
{
    unsigned long wanted = argc > 1 ? strtoul(argv[1], NULL, 10) : 1000000, boundary;
    uint64_t first_seed = argc > 2 ? strtoull(argv[2], NULL, 10) : 1;
    size_t i;

    exact = argc > 3 && strcmp(argv[3], "exact") == 0;
    seed = first_seed;
    for (i = 0; i < sizeof noise; i++)
        noise[i] = (uint8_t)rnd();
    make(&in_buffer);
    make(&out_buffer);
    make(&message_buffer);
    document();
    boundary_dates();
    boundary_local();
    if (!exact) {
        boundary_clock(0, -600, 1, 2000);
        boundary_clock(0, -360, 2, 2026);
        boundary_clock(0, -240, 3, 2099);
        boundary_clock(3, -300, 2, 2002);
        boundary_clock(3, -600, 2, 2006);
        boundary_clock(3, -360, 2, 2007);
        boundary_plans();
        boundary_changes();
        boundary_earlier_law();
        boundary_counts();
        boundary_frames();
        boundary_echoes();
        boundary_inversions();
        boundary_pairs();
        boundary_amplitude();
        boundary_codes();
        boundary_messages();
    }
    boundary_recordings();
    boundary_unknown_length();
    boundary_pages();
    boundary_irig();
    boundary = cases;
    while (cases - boundary < wanted) {
        random_dates();
        random_local();
        random_write();
        random_one();
        random_read();
        random_print();
        random_write_amplitude();
        random_read_amplitude();
        random_write_irig();
        random_read_irig();
    }
    printf("compare: %lu boundary cases, %lu random cases, seed %" PRIu64 "\n", boundary, cases - boundary, first_seed);
    return report() ? 1 : 0;
}
