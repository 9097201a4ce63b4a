/*
 * Straightforward code: parity by masks and the compiler's parity of a word, correction by a table of syndromes, code
 * words by tables and their inverses, bits moved one at a time, the calendar by cycles of four years, and the plan
 * asked anew for each frame. The writer keeps the next message, and the reader the last leap
 * state. In the amplitude code one table has what each second is, and symbols are checked and moved
 * one at a time; IRIG B has such a table of its elements. Pages are printed in two passes over the
 * bits, without space for the entries, once with snprintf and once by hand. The functions fast_..
 * are other versions, written for speed alone, with rows of their own.
 *
 * PLAIN names the codec that this file makes and PLAIN_LABEL is its column's heading, so that one program can hold it
 * several times, each built by another compiler or with other flags.
 */
#include "plain.h"

#include <stdio.h>
#include <string.h>

#define SYNC 0x768u          /* 0011101101000 */
#define MESSAGE_SYNC 0x1a3au /* 1101000111010 */

struct plan {
    uint32_t kind, spring, autumn, leap_month;
    int32_t leap_sign;
    uint32_t notice;
};

/* The messages of a plan, and after the last one a minute that no frame has. */
struct messages {
    uint32_t minute[WWVB_MAX_MESSAGES + 1];
    uint64_t data[WWVB_MAX_MESSAGES];
};

/* ---- dates; every fourth year of 2000 to 2099 is a leap year */

static const uint16_t month_starts[2][13] = {
    {0, 31, 59, 90, 120, 151, 181, 212, 243, 273, 304, 334, 365},
    {0, 31, 60, 91, 121, 152, 182, 213, 244, 274, 305, 335, 366},
};

struct day {
    uint32_t year; /* from 2000 */
    uint32_t of_year;
    uint32_t month; /* from 0 */
};

static uint32_t month_of(uint32_t of_year, const uint16_t *starts)
{
    uint32_t month = of_year / 31;

    if (of_year >= starts[month + 1])
        month++;
    return month;
}

static struct day day_at(uint32_t number)
{
    struct day d;
    uint32_t rest = number % 1461, year = rest < 366 ? 0 : (rest - 1) / 365;

    d.year = number / 1461 * 4 + year;
    d.of_year = year == 0 ? rest : (rest - 1) % 365;
    d.month = month_of(d.of_year, month_starts[year == 0]);
    return d;
}

static uint32_t year_start(uint32_t year)
{
    return year * 365 + (year + 3) / 4;
}

static wwvb_date_reply minute_to_date(uint32_t minute)
{
    wwvb_date_reply r = {0, 0, 0, 0, 0, 0, 0};
    struct day d;

    if (minute >= WWVB_MINUTES) {
        r.refusal = WWVB_MINUTE_TOO_LARGE;
        return r;
    }
    d = day_at(minute / 1440);
    r.year = 2000 + d.year;
    r.month = d.month + 1;
    r.day = d.of_year - month_starts[d.year % 4 == 0][d.month] + 1;
    r.hour = minute % 1440 / 60;
    r.minute = minute % 60;
    r.weekday = minute / 1440 % 7;
    return r;
}

/* The same for speed alone, as Neri and Schneider do it: years from March on, quotients in place of tables and branches. */
static wwvb_date_reply fast_minute_to_date(uint32_t minute)
{
    wwvb_date_reply r = {0, 0, 0, 0, 0, 0, 0};
    uint32_t quarters, months, after;

    if (minute >= WWVB_MINUTES) {
        r.refusal = WWVB_MINUTE_TOO_LARGE;
        return r;
    }
    quarters = 4 * (minute / 1440 + 1401) + 3; /* from 1996-03-01 */
    months = 2141 * (quarters % 1461 / 4) + 197913;
    after = quarters % 1461 / 4 >= 306;
    r.year = 1996 + quarters / 1461 + after;
    r.month = months / 65536 - 12 * after;
    r.day = months % 65536 / 2141 + 1;
    r.hour = minute % 1440 / 60;
    r.minute = minute % 60;
    r.weekday = minute / 1440 % 7;
    return r;
}

static wwvb_date_reply local_date(uint32_t minute, uint32_t state, int32_t offset, uint32_t hour)
{
    wwvb_date_reply r = {0, 0, 0, 0, 0, 0, 0};
    int32_t in_day = (int32_t)(minute % 1440), change = 60 * (int32_t)hour - offset, local;

    if (minute >= WWVB_MINUTES)
        r.refusal = WWVB_MINUTE_TOO_LARGE;
    else if (state > 3 || offset < -600 || offset > -240 || hour < 1 || hour > 3)
        r.refusal = WWVB_BAD_SETTING;
    if (r.refusal)
        return r;
    local = (int32_t)minute + offset;
    if (state == 3 || (state == 2 && in_day >= change) || (state == 1 && in_day < change - 60))
        local += 60;
    if (local >= 0)
        return minute_to_date((uint32_t)local);
    r.year = 1999;
    r.month = 12;
    r.day = 31;
    r.hour = (uint32_t)(local + 1440) / 60;
    r.minute = (uint32_t)(local + 1440) % 60;
    r.weekday = 6;
    return r;
}

static wwvb_minute_reply date_to_minute(uint32_t year, uint32_t month, uint32_t day, uint32_t hour, uint32_t minute)
{
    wwvb_minute_reply r = {WWVB_NOT_A_DATE, 0};
    const uint16_t *starts = month_starts[year % 4 == 0];

    if (year < 2000 || year > 2099 || month < 1 || month > 12 || day < 1
        || day > (uint32_t)(starts[month] - starts[month - 1]) || hour > 23 || minute > 59)
        return r;
    r.refusal = WWVB_OK;
    r.minute = ((year_start(year - 2000) + starts[month - 1] + day - 1) * 24 + hour) * 60 + minute;
    return r;
}

/* ---- the time word */

static const uint32_t parity_masks[5] = {0x0b3e375, 0x167c6ea, 0x2cf8dd4, 0x12cf8dd, 0x259f1ba};

/* The place that each syndrome tells of. */
static uint8_t place_of_syndrome[32];

static uint32_t code_word(uint32_t minute)
{
    uint32_t word = minute;
    int i;

    for (i = 0; i < 5; i++)
        word |= (uint32_t)__builtin_parity(minute & parity_masks[i]) << (26 + i);
    return word;
}

/* ---- code words */

static const uint8_t state_words[3][4] = {{8, 21, 22, 3}, {4, 14, 16, 13}, {25, 28, 26, 31}};
static const uint8_t next_words[52] = {
    0,
    49, 38, 37, 21, 62, 22, 55, 61, 42, 27, 14, 1, 2, 8, 13, 41, 4, 32, 52, 44, 56, 16, 50, 28,
    55, 21, 49, 22, 38, 62, 37, 61, 13, 1, 42, 8, 27, 2, 14, 41, 50, 44, 4, 16, 32, 56, 52, 28,
    35, 7, 47,
};
static uint8_t state_of_word[32];  /* 4 * leap + daylight, or 99 */
static uint8_t row_of_word[2][64]; /* by dst_on[1]; 0: unassigned */
static int ready;

static void fill_tables(void)
{
    int i;

    memset(state_of_word, 99, sizeof state_of_word);
    for (i = 0; i < 12; i++)
        state_of_word[state_words[i / 4][i % 4]] = (uint8_t)i;
    for (i = 1; i < 52; i++) {
        if (i <= 24 || i > 48)
            row_of_word[0][next_words[i]] = (uint8_t)i;
        if (i > 24)
            row_of_word[1][next_words[i]] = (uint8_t)i;
    }
    for (i = 1; i <= 31; i++) {
        uint32_t word = 1u << (31 - i);
        place_of_syndrome[(code_word(word & 0x3ffffff) ^ word) >> 26] = (uint8_t)i;
    }
    ready = 1;
}

/* ---- plans */

static int is_legal(const struct plan *p)
{
    if (p->kind == 0 || p->kind == 3) {
        if (p->spring < 1 || p->spring > 24 || p->autumn < 25 || p->autumn > 48)
            return 0;
    } else if (p->kind > 2 || p->spring || p->autumn) {
        return 0;
    }
    if (p->leap_sign < -1 || p->leap_sign > 1 || p->leap_month > 1199 || (p->leap_sign == 0 && p->leap_month))
        return 0;
    return p->notice <= 1;
}

static uint64_t number_in(const uint8_t *bytes, int n)
{
    uint64_t number = 0;

    while (n--)
        number = number << 8 | *bytes++;
    return number;
}

/* Takes the messages from their bytes; gives whether they are legal. */
static int take_messages(const uint8_t *bytes, size_t length, struct messages *m)
{
    size_t i, n = length / WWVB_MESSAGE_SIZE;

    if (n > WWVB_MAX_MESSAGES || n * WWVB_MESSAGE_SIZE != length)
        return 0;
    for (i = 0; i < n; i++, bytes += WWVB_MESSAGE_SIZE) {
        m->minute[i] = (uint32_t)number_in(bytes, 4);
        m->data[i] = number_in(bytes + 4, 6);
        if (m->minute[i] >= WWVB_MINUTES || m->data[i] >= WWVB_DATA_LIMIT
            || (i > 0 && m->minute[i] <= m->minute[i - 1]))
            return 0;
    }
    m->minute[n] = WWVB_MINUTES;
    return 1;
}

static uint32_t first_sunday(uint32_t day)
{
    return day + (8 - day % 7) % 7;
}

/* The days of a year's changes. Kind 3 has those of the earlier law up to 2006: the first Sunday
   in April, and the last in October, which is the one before the first in November. */
static void changes_of(const struct plan *p, uint32_t year, uint32_t *from, uint32_t *to)
{
    const uint16_t *starts = month_starts[year % 4 == 0];
    uint32_t start = year_start(year), november = first_sunday(start + starts[10]);

    if (p->kind == 3 && year <= 6) {
        *from = first_sunday(start + starts[3]);
        *to = november - 7;
    } else {
        *from = first_sunday(start + starts[2]) + (p->spring - 1) % 8 * 7;
        *to = november + (p->autumn - 25) % 8 * 7 - 28;
    }
}

/* Both bits change within one year, so the year of the day serves for the day before too. */
static unsigned daylight_of(const struct plan *p, uint32_t day, const struct day *d)
{
    uint32_t from, to;

    if (p->kind == 1 || p->kind == 2)
        return p->kind == 1 ? 0 : 3;
    changes_of(p, d->year, &from, &to);
    return (day >= from && day < to) * 2u + (day > from && day <= to);
}

/* The row in spring of a year up to 2006 by the earlier law: 13 where the first Sunday in April is
   four weeks after that in March, and 14 where it is five. */
static unsigned earlier_row(uint32_t year)
{
    uint32_t start = year_start(year);
    const uint16_t *starts = month_starts[year % 4 == 0];

    return first_sunday(start + starts[3]) - first_sunday(start + starts[2]) == 28 ? 13 : 14;
}

/* The row by the daylight state. Without daylight time it is that of this year's spring, or, after
   June, that of next year's. */
static unsigned row_of(const struct plan *p, unsigned daylight, const struct day *d)
{
    uint32_t year = d->year + (d->month > 5);

    if (p->kind == 1 || p->kind == 2)
        return p->kind == 1 ? 50 : 51;
    if (daylight >= 2)
        return p->kind == 3 && d->year <= 6 ? 36 : p->autumn;
    return p->kind == 3 && year <= 6 ? earlier_row(year) : p->spring;
}

static int ends_month(uint32_t minute, const struct day *d)
{
    return minute % 1440 == 1439 && d->of_year + 1 == month_starts[d->year % 4 == 0][d->month + 1];
}

static unsigned length_of(unsigned leap, uint32_t minute, const struct day *d)
{
    if (leap == 0 || !ends_month(minute, d))
        return 60;
    return leap == 1 ? 59 : 61;
}

static unsigned leap_of(const struct plan *p, const struct day *d)
{
    if (p->leap_sign == 0 || d->year * 12 + d->month != p->leap_month)
        return 0;
    return p->leap_sign < 0 ? 1 : 2;
}

/* ---- writing */

static uint8_t *put(uint8_t *out, uint32_t value, int n)
{
    while (n--)
        *out++ = value >> n & 1;
    return out;
}

static size_t write_frame(const struct plan *p, uint32_t minute, uint8_t *out)
{
    uint32_t day = minute / 1440, word = code_word(minute);
    struct day d = day_at(day);
    unsigned daylight = daylight_of(p, day, &d), leap = leap_of(p, &d), length = length_of(leap, minute, &d);
    unsigned state = state_words[leap][daylight];
    unsigned row = row_of(p, daylight, &d);

    out = put(out, SYNC, 13);
    out = put(out, word >> 25, 6);
    out = put(out, minute & 1, 1);
    out = put(out, word >> 16, 9);
    *out++ = 0;
    out = put(out, word >> 7, 9);
    *out++ = 0;
    out = put(out, word, 7);
    out = put(out, state >> 3, 2);
    *out++ = (uint8_t)p->notice;
    out = put(out, state, 3);
    out = put(out, next_words[row], 6);
    put(out, 0, (int)length - 59);
    return length;
}

static size_t write_message(const struct plan *p, uint32_t minute, uint64_t data, uint8_t *out)
{
    struct day d = day_at(minute / 1440);
    unsigned length = length_of(leap_of(p, &d), minute, &d);

    out = put(out, MESSAGE_SYNC, 13);
    out = put(out, (uint32_t)(data >> 36), 6);
    out = put(out, minute & 1, 1);
    out = put(out, (uint32_t)(data >> 27), 9);
    *out++ = 0;
    out = put(out, (uint32_t)(data >> 18), 9);
    *out++ = 0;
    out = put(out, (uint32_t)(data >> 9), 9);
    *out++ = (uint8_t)p->notice;
    out = put(out, (uint32_t)data, 9);
    put(out, 0, (int)length - 59);
    return length;
}

static wwvb_write_reply write_recording(uint32_t kind, uint32_t spring, uint32_t autumn,
                                        uint32_t leap_month, int32_t leap_sign, uint32_t notice,
                                        const uint8_t *messages, size_t messages_length,
                                        uint32_t first, uint32_t count, uint8_t *out,
                                        size_t out_length)
{
    struct plan p = {kind, spring, autumn, leap_month, leap_sign, notice};
    struct messages m;
    wwvb_write_reply r = {0, 0};
    size_t needed = 0, next = 0;
    uint32_t i;

    if (!is_legal(&p) || !take_messages(messages, messages_length, &m))
        r.refusal = WWVB_ILLEGAL_PLAN;
    else if (count < 1 || count > WWVB_MAX_COUNT)
        r.refusal = WWVB_BAD_COUNT;
    else if (first > WWVB_MINUTES - count)
        r.refusal = WWVB_MINUTE_TOO_LARGE;
    if (r.refusal)
        return r;
    for (i = 0; i < count; i++) {
        struct day d = day_at((first + i) / 1440);
        needed += length_of(leap_of(&p, &d), first + i, &d);
    }
    if (needed > out_length) {
        r.refusal = WWVB_NO_BIT_SPACE;
        return r;
    }
    while (m.minute[next] < first)
        next++;
    for (i = 0; i < count; i++) {
        if (first + i == m.minute[next])
            out += write_message(&p, first + i, m.data[next++], out);
        else
            out += write_frame(&p, first + i, out);
    }
    r.bits = needed;
    return r;
}

/* ---- reading */

static uint32_t get(const uint8_t *bits, int n)
{
    uint32_t value = 0;

    while (n--)
        value = value << 1 | *bits++;
    return value;
}

/* What is known before a frame: whether there was one, the minute expected, and of the last time
   frame the leap state and the minute. */
struct due {
    int begun;
    uint32_t minute;
    unsigned leap;
    uint32_t told;
};

static int has_length(const uint8_t *f, size_t left, int alone, unsigned length)
{
    if (alone ? left != length : left < length)
        return 0;
    return (length < 60 || f[59] == 0) && (length < 61 || f[60] == 0);
}

static void put_entry(uint8_t *entry, uint32_t minute, unsigned length, unsigned notice)
{
    entry[0] = (uint8_t)(minute >> 24);
    entry[1] = (uint8_t)(minute >> 16);
    entry[2] = (uint8_t)(minute >> 8);
    entry[3] = (uint8_t)minute;
    entry[4] = (uint8_t)length;
    entry[8] = (uint8_t)notice;
}

/* The length of a message by the leap state of its month, or 0 if it is not known. */
static unsigned message_length(const struct due *due)
{
    struct day d = day_at(due->minute / 1440), told = day_at(due->told / 1440);

    if (!ends_month(due->minute, &d))
        return 60;
    if (d.year != told.year || d.month != told.month)
        return 0;
    return length_of(due->leap, due->minute, &d);
}

static unsigned read_message(const uint8_t *f, size_t left, uint8_t *entry, struct due *due)
{
    uint32_t minute = due->minute;
    unsigned length = 60;
    uint64_t data;
    int i;

    if (!due->begun)
        return WWVB_FIRST_MESSAGE;
    if (minute % 1440 == 1439)
        length = message_length(due);
    if (length == 0)
        return WWVB_UNKNOWN_LENGTH;
    if (minute >= WWVB_MINUTES)
        return WWVB_BAD_MINUTE;
    if (!has_length(f, left, 0, length))
        return WWVB_BAD_LENGTH;
    if (f[19] != (minute & 1))
        return WWVB_OUT_OF_ORDER;
    data = (uint64_t)get(f + 13, 6) << 36 | (uint64_t)get(f + 20, 9) << 27 | get(f + 30, 9) << 18
        | get(f + 40, 9) << 9 | get(f + 50, 9);
    put_entry(entry, minute, length, f[49]);
    entry[5] = entry[6] = entry[7] = entry[9] = 0;
    entry[10] = entry[11] = 1;
    for (i = 17; i >= 12; i--, data >>= 8)
        entry[i] = (uint8_t)data;
    due->minute = minute + 1;
    return WWVB_OK;
}

static unsigned read_next(const uint8_t *f, size_t left, int alone, uint8_t *entry,
                          struct due *due)
{
    uint32_t word, minute, sync;
    unsigned i, state, row, place, length = 60;

    if (left < 59)
        return WWVB_TOO_SHORT;
    for (i = 0; i < 59; i++)
        if (f[i] > 1)
            return WWVB_NOT_BITS;
    sync = get(f, 13);
    if (sync == MESSAGE_SYNC)
        return read_message(f, left, entry, due);
    if (sync != SYNC)
        return WWVB_BAD_SYNC;
    state = state_of_word[get(f + 47, 2) << 3 | get(f + 50, 3)];
    if (state > 11)
        return WWVB_BAD_STATE;
    row = row_of_word[state % 4 >= 2][get(f + 53, 6)];
    if (row == 0)
        return WWVB_BAD_NEXT_CHANGE;
    word = get(f + 13, 6) << 25 | get(f + 20, 9) << 16 | get(f + 30, 9) << 7 | get(f + 40, 7);
    place = place_of_syndrome[(code_word(word & 0x3ffffff) ^ word) >> 26];
    if (place)
        word ^= 1u << (31 - place);
    minute = word & 0x3ffffff;
    if (minute >= WWVB_MINUTES)
        return WWVB_BAD_MINUTE;
    if (state >= 4) {
        struct day d = day_at(minute / 1440);
        length = length_of(state / 4, minute, &d);
    }
    if (!has_length(f, left, alone, length))
        return WWVB_BAD_LENGTH;
    if (due->begun && minute != due->minute)
        return WWVB_OUT_OF_ORDER;
    put_entry(entry, minute, length, f[49]);
    entry[5] = state % 4;
    entry[6] = (uint8_t)(state / 4);
    entry[7] = (uint8_t)row;
    entry[9] = (uint8_t)place;
    entry[10] = f[19] == (minute & 1);
    memset(entry + 11, 0, 7);
    due->begun = 1;
    due->minute = minute + 1;
    due->leap = state / 4;
    due->told = minute;
    return WWVB_OK;
}

static uint32_t read_frame(const uint8_t *bits, size_t bits_length, uint8_t *entry,
                           size_t entry_length)
{
    struct due due = {0, 0, 0, 0};

    if (!ready)
        fill_tables();
    if (entry_length < WWVB_ENTRY_SIZE)
        return WWVB_NO_ENTRY_SPACE;
    return read_next(bits, bits_length, 1, entry, &due);
}

static wwvb_read_reply read_recording(const uint8_t *bits, size_t bits_length, uint8_t *entries, size_t entries_length)
{
    wwvb_read_reply r = {0, 0, 0};
    struct due due = {0, 0, 0, 0};

    if (!ready)
        fill_tables();
    while (r.used < bits_length) {
        uint8_t *entry = entries + r.entries * WWVB_ENTRY_SIZE;

        if (entries_length - r.entries * WWVB_ENTRY_SIZE < WWVB_ENTRY_SIZE) {
            r.refusal = WWVB_NO_ENTRY_SPACE;
            return r;
        }
        r.refusal = read_next(bits + r.used, bits_length - r.used, 0, entry, &due);
        if (r.refusal)
            return r;
        r.used += entry[4];
        r.entries++;
    }
    return r;
}

/* ---- pages: one pass over the bits counts and refuses, and another prints */

#define LINE 42u /* 41 characters and a line feed */

/* Counts the entries of a recording, and gives the refusal. */
static unsigned count_entries(const uint8_t *bits, size_t bits_length, size_t *n)
{
    struct due due = {0, 0, 0, 0};
    uint8_t entry[WWVB_ENTRY_SIZE];
    size_t used = 0;
    unsigned refusal;

    if (!ready)
        fill_tables();
    for (*n = 0; used < bits_length; ++*n) {
        refusal = read_next(bits + used, bits_length - used, 0, entry, &due);
        if (refusal)
            return refusal;
        used += entry[4];
    }
    return WWVB_OK;
}

/* The page's number, the dashes, and blanks for all its entries. */
typedef void put_empty_page(uint8_t *page, size_t number);
typedef void put_line(uint8_t *line, const uint8_t *entry);

static inline wwvb_print_reply print_by(put_empty_page *empty_page, put_line *line,
                                        const uint8_t *bits, size_t bits_length, uint8_t *out,
                                        size_t out_length)
{
    wwvb_print_reply r = {0, 0};
    struct due due = {0, 0, 0, 0};
    uint8_t entry[WWVB_ENTRY_SIZE];
    size_t n, i, used = 0;

    r.refusal = count_entries(bits, bits_length, &n);
    if (r.refusal == WWVB_OK && wwvb_pages_size(n) > out_length)
        r.refusal = WWVB_NO_BIT_SPACE;
    if (r.refusal)
        return r;
    for (i = 0; i < n; i++) {
        if (i % WWVB_PAGE_ENTRIES == 0) {
            empty_page(out, i / WWVB_PAGE_ENTRIES + 1);
            out += 2 * LINE;
        }
        read_next(bits + used, bits_length - used, 0, entry, &due);
        used += entry[4];
        line(out, entry);
        out += LINE;
    }
    r.bytes = wwvb_pages_size(n);
    return r;
}

static void snprintf_empty_page(uint8_t *page, size_t number)
{
    char line[64];
    size_t i;

    snprintf(line, sizeof line, "%41lu\n", (unsigned long)number);
    memcpy(page, line, LINE);
    memcpy(page + LINE, "-----------------------------------------\n", LINE);
    snprintf(line, sizeof line, "%41s\n", "");
    for (i = 2; i < WWVB_PAGE_ENTRIES + 2; i++)
        memcpy(page + i * LINE, line, LINE);
}

static void snprintf_line(uint8_t *out, const uint8_t *e)
{
    uint32_t minute = (uint32_t)number_in(e, 4);
    wwvb_date_reply d = minute_to_date(minute);
    char line[128];

    if (e[11])
        snprintf(line, sizeof line, "%8u %04u-%02u-%02u %02u:%02u %2u    M        \n",
                 (unsigned)minute, (unsigned)d.year, (unsigned)d.month, (unsigned)d.day,
                 (unsigned)d.hour, (unsigned)d.minute, e[4]);
    else
        snprintf(line, sizeof line, "%8u %04u-%02u-%02u %02u:%02u %2u %u%u %c %2u %2u %u\n",
                 (unsigned)minute, (unsigned)d.year, (unsigned)d.month, (unsigned)d.day,
                 (unsigned)d.hour, (unsigned)d.minute, e[4], e[5] / 2u, e[5] % 2u, " -+"[e[6]],
                 e[7], e[9], e[10]);
    memcpy(out, line, LINE);
}

static wwvb_print_reply print_pages(const uint8_t *bits, size_t bits_length, uint8_t *out,
                                    size_t out_length)
{
    return print_by(snprintf_empty_page, snprintf_line, bits, bits_length, out, out_length);
}

/* The same by hand: digits by division. */

/* A number that ends before a byte; blanks before it are there already. */
static void put_number(uint8_t *end, size_t number)
{
    do {
        *--end = (uint8_t)('0' + number % 10);
        number /= 10;
    } while (number);
}

/* Two digits, with a zero before one. */
static void put_two(uint8_t *out, uint32_t number)
{
    out[0] = (uint8_t)('0' + number / 10);
    out[1] = (uint8_t)('0' + number % 10);
}

static void hand_empty_page(uint8_t *page, size_t number)
{
    size_t i;

    memset(page, ' ', WWVB_PAGE_SIZE);
    memset(page + LINE, '-', LINE);
    put_number(page + LINE - 1, number);
    for (i = 1; i <= WWVB_PAGE_ENTRIES + 2; i++)
        page[i * LINE - 1] = '\n';
}

static void hand_line(uint8_t *out, const uint8_t *e)
{
    uint32_t minute = (uint32_t)number_in(e, 4);
    wwvb_date_reply d = minute_to_date(minute);

    put_number(out + 8, minute);
    put_two(out + 9, d.year / 100);
    put_two(out + 11, d.year % 100);
    out[13] = '-';
    put_two(out + 14, d.month);
    out[16] = '-';
    put_two(out + 17, d.day);
    put_two(out + 20, d.hour);
    out[22] = ':';
    put_two(out + 23, d.minute);
    put_two(out + 26, e[4]);
    if (e[11]) {
        out[32] = 'M';
        return;
    }
    out[29] = (uint8_t)('0' + e[5] / 2);
    out[30] = (uint8_t)('0' + e[5] % 2);
    out[32] = (uint8_t)" -+"[e[6]];
    put_number(out + 36, e[7]);
    put_number(out + 39, e[9]);
    out[40] = (uint8_t)('0' + e[10]);
}

static wwvb_print_reply hand_print_pages(const uint8_t *bits, size_t bits_length, uint8_t *out,
                                         size_t out_length)
{
    return print_by(hand_empty_page, hand_line, bits, bits_length, out, out_length);
}

/* ---- the amplitude code */

/* What a second is; the number is the largest symbol that may stand there. */
enum { ZERO, BIT, MARKER };

/* What each second is in Table 1, ten seconds a line, with second 60 at the end. */
static const uint8_t seconds[61] = {
    MARKER, BIT,  BIT, BIT, ZERO, BIT,  BIT, BIT, BIT, MARKER,
    ZERO,   ZERO, BIT, BIT, ZERO, BIT,  BIT, BIT, BIT, MARKER,
    ZERO,   ZERO, BIT, BIT, ZERO, BIT,  BIT, BIT, BIT, MARKER,
    BIT,    BIT,  BIT, BIT, ZERO, ZERO, BIT, BIT, BIT, MARKER,
    BIT,    BIT,  BIT, BIT, ZERO, BIT,  BIT, BIT, BIT, MARKER,
    BIT,    BIT,  BIT, BIT, ZERO, BIT,  BIT, BIT, BIT, MARKER,
    MARKER,
};

#define PLUS 5u  /* 101 */
#define MINUS 2u /* 010 */

static wwvb_write_reply write_amplitude(uint32_t kind, uint32_t spring, uint32_t autumn,
                                        uint32_t leap_month, int32_t leap_sign, uint32_t notice,
                                        const uint8_t *messages, size_t messages_length,
                                        uint32_t minute, int32_t ut1_sign, uint32_t ut1_tenths,
                                        uint8_t *out, size_t out_length)
{
    struct plan p = {kind, spring, autumn, leap_month, leap_sign, notice};
    struct messages m;
    wwvb_write_reply r = {0, 0};
    struct day d;
    uint32_t day, hour, of_hour, of_year;
    unsigned leap, length, i;

    if (!is_legal(&p) || !take_messages(messages, messages_length, &m))
        r.refusal = WWVB_ILLEGAL_PLAN;
    else if (minute >= WWVB_MINUTES)
        r.refusal = WWVB_MINUTE_TOO_LARGE;
    else if ((ut1_sign != 1 && ut1_sign != -1) || ut1_tenths > 9)
        r.refusal = WWVB_BAD_VALUE;
    if (r.refusal)
        return r;
    day = minute / 1440;
    d = day_at(day);
    leap = leap_of(&p, &d);
    length = length_of(leap, minute, &d);
    if (length > out_length) {
        r.refusal = WWVB_NO_BIT_SPACE;
        return r;
    }
    hour = minute % 1440 / 60;
    of_hour = minute % 60;
    of_year = d.of_year + 1;
    for (i = 0; i < length; i++)
        out[i] = seconds[i] == MARKER ? MARKER : 0;
    put(out + 1, of_hour / 10, 3);
    put(out + 5, of_hour % 10, 4);
    put(out + 12, hour / 10, 2);
    put(out + 15, hour % 10, 4);
    put(out + 22, of_year / 100, 2);
    put(out + 25, of_year / 10 % 10, 4);
    put(out + 30, of_year % 10, 4);
    put(out + 36, ut1_sign > 0 ? PLUS : MINUS, 3);
    put(out + 40, ut1_tenths, 4);
    put(out + 45, d.year / 10, 4);
    put(out + 50, d.year % 10, 4);
    put(out + 55, d.year % 4 == 0, 1);
    put(out + 56, leap != 0, 1);
    put(out + 57, daylight_of(&p, day, &d), 2);
    r.bits = length;
    return r;
}

static wwvb_amplitude_reply read_amplitude(const uint8_t *s, size_t length)
{
    wwvb_amplitude_reply r = {0, 0, 0, 0, 0, 0, 0, 0, 0, 0, 0, 0};
    uint32_t minute_units, hour_units, day_tens, day_units, sign, tenths, year_tens, year_units;
    uint32_t minute, hour, of_year, year, leap_year, warning;
    const uint16_t *starts;
    struct day d;
    size_t i;

    r.refusal = WWVB_BAD_SYMBOLS;
    if (length < 59 || length > 61)
        return r;
    for (i = 0; i < length; i++)
        if (seconds[i] == MARKER ? s[i] != MARKER : s[i] > seconds[i])
            return r;

    r.refusal = WWVB_BAD_VALUE;
    minute_units = get(s + 5, 4);
    hour_units = get(s + 15, 4);
    day_tens = get(s + 25, 4);
    day_units = get(s + 30, 4);
    sign = get(s + 36, 3);
    tenths = get(s + 40, 4);
    year_tens = get(s + 45, 4);
    year_units = get(s + 50, 4);
    if (minute_units > 9 || hour_units > 9 || day_tens > 9 || day_units > 9 || tenths > 9
        || year_tens > 9 || year_units > 9 || (sign != PLUS && sign != MINUS))
        return r;
    minute = get(s + 1, 3) * 10 + minute_units;
    hour = get(s + 12, 2) * 10 + hour_units;
    of_year = get(s + 22, 2) * 100 + day_tens * 10 + day_units;
    year = year_tens * 10 + year_units;
    leap_year = year % 4 == 0;
    warning = get(s + 56, 1);
    if (minute > 59 || hour > 23 || of_year < 1 || of_year > 365 + leap_year || get(s + 55, 1) != leap_year)
        return r;
    starts = month_starts[leap_year];
    d.year = year;
    d.of_year = of_year - 1;
    d.month = month_of(d.of_year, starts);
    if (warning && ends_month(hour * 60 + minute, &d) ? length == 60 : length != 60)
        return r;

    r.refusal = WWVB_OK;
    r.year = 2000 + year;
    r.month = d.month + 1;
    r.day = of_year - starts[d.month];
    r.hour = hour;
    r.minute = minute;
    r.weekday = (year_start(year) + d.of_year) % 7;
    r.ut1_sign = sign == PLUS ? 1 : -1;
    r.ut1_tenths = tenths;
    r.warning = warning;
    r.daylight = get(s + 57, 2);
    r.length = (uint32_t)length;
    return r;
}

/* ---- the same for speed alone: symbols checked eight at a time by masks, digits written from a table */

/* A minute with 0 in every field: what stands at the fixed seconds. */
static const uint8_t blank[61] = {
    2, 0, 0, 0, 0, 0, 0, 0, 0, 2, 0, 0, 0, 0, 0, 0, 0, 0, 0, 2, 0, 0, 0, 0, 0, 0, 0, 0, 0, 2,
    0, 0, 0, 0, 0, 0, 0, 0, 0, 2, 0, 0, 0, 0, 0, 0, 0, 0, 0, 2, 0, 0, 0, 0, 0, 0, 0, 0, 0, 2, 2,
};

/* The bits of a symbol that are as in `blank`: all, or in a field all but the lowest. */
#define A 0xff
#define F 0xfe
static const uint8_t fixed[61] = {
    A, F, F, F, A, F, F, F, F, A, A, A, F, F, A, F, F, F, F, A, A, A, F, F, A, F, F, F, F, A,
    F, F, F, F, A, A, F, F, F, A, F, F, F, F, A, F, F, F, F, A, F, F, F, F, A, F, F, F, F, A, A,
};
#undef A
#undef F

/* The four symbols of a digit. */
static const uint8_t digits[16][4] = {
    {0, 0, 0, 0}, {0, 0, 0, 1}, {0, 0, 1, 0}, {0, 0, 1, 1}, {0, 1, 0, 0}, {0, 1, 0, 1},
    {0, 1, 1, 0}, {0, 1, 1, 1}, {1, 0, 0, 0}, {1, 0, 0, 1}, {1, 0, 1, 0}, {1, 0, 1, 1},
    {1, 1, 0, 0}, {1, 1, 0, 1}, {1, 1, 1, 0}, {1, 1, 1, 1},
};

static wwvb_write_reply fast_write_amplitude(uint32_t kind, uint32_t spring, uint32_t autumn,
                                             uint32_t leap_month, int32_t leap_sign, uint32_t notice,
                                             const uint8_t *messages, size_t messages_length,
                                             uint32_t minute, int32_t ut1_sign, uint32_t ut1_tenths,
                                             uint8_t *out, size_t out_length)
{
    struct plan p = {kind, spring, autumn, leap_month, leap_sign, notice};
    struct messages m;
    wwvb_write_reply r = {0, 0};
    struct day d;
    uint32_t day, hour, rest, of_year;
    unsigned leap, length;

    if (!is_legal(&p) || !take_messages(messages, messages_length, &m))
        r.refusal = WWVB_ILLEGAL_PLAN;
    else if (minute >= WWVB_MINUTES)
        r.refusal = WWVB_MINUTE_TOO_LARGE;
    else if ((ut1_sign != 1 && ut1_sign != -1) || ut1_tenths > 9)
        r.refusal = WWVB_BAD_VALUE;
    if (r.refusal)
        return r;
    day = minute / 1440;
    d = day_at(day);
    leap = leap_of(&p, &d);
    length = length_of(leap, minute, &d);
    if (length > out_length) {
        r.refusal = WWVB_NO_BIT_SPACE;
        return r;
    }
    hour = minute % 1440 / 60;
    rest = minute % 60;
    of_year = d.of_year + 1;
    memcpy(out, blank, 59);
    memcpy(out + 1, digits[rest / 10] + 1, 3);
    memcpy(out + 5, digits[rest % 10], 4);
    memcpy(out + 12, digits[hour / 10] + 2, 2);
    memcpy(out + 15, digits[hour % 10], 4);
    memcpy(out + 22, digits[of_year / 100] + 2, 2);
    memcpy(out + 25, digits[of_year / 10 % 10], 4);
    memcpy(out + 30, digits[of_year % 10], 4);
    memcpy(out + 36, digits[ut1_sign > 0 ? 5 : 2] + 1, 3);
    memcpy(out + 40, digits[ut1_tenths], 4);
    memcpy(out + 45, digits[d.year / 10], 4);
    memcpy(out + 50, digits[d.year % 10], 4);
    out[55] = d.year % 4 == 0;
    out[56] = leap != 0;
    memcpy(out + 57, digits[daylight_of(&p, day, &d)] + 2, 2);
    if (length > 59)
        out[59] = 2;
    if (length > 60)
        out[60] = 2;
    r.bits = length;
    return r;
}

/* Whether eight symbols from a second on have what is fixed there. */
static int eight_fit(const uint8_t *symbols, size_t at)
{
    uint64_t got, want, mask;

    memcpy(&got, symbols + at, 8);
    memcpy(&want, blank + at, 8);
    memcpy(&mask, fixed + at, 8);
    return ((got ^ want) & mask) == 0;
}

/* The digit of four symbols that are 0 or 1. */
static uint32_t digit(const uint8_t *s)
{
    return (uint32_t)s[0] << 3 | (uint32_t)s[1] << 2 | (uint32_t)s[2] << 1 | s[3];
}

static wwvb_amplitude_reply fast_read_amplitude(const uint8_t *s, size_t length)
{
    wwvb_amplitude_reply r = {0, 0, 0, 0, 0, 0, 0, 0, 0, 0, 0, 0};
    uint32_t minute_units, hour_units, day_tens, day_units, tenths, year_tens, year_units;
    uint32_t minute, hour, day, year, month, sign, last;
    const uint16_t *starts;

    r.refusal = WWVB_BAD_SYMBOLS;
    if (length < 59 || length > 61)
        return r;
    if (!eight_fit(s, 0) || !eight_fit(s, 8) || !eight_fit(s, 16) || !eight_fit(s, 24) || !eight_fit(s, 32)
        || !eight_fit(s, 40) || !eight_fit(s, 48) || !eight_fit(s, 51))
        return r;
    if ((length > 59 && s[59] != 2) || (length > 60 && s[60] != 2))
        return r;

    r.refusal = WWVB_BAD_VALUE;
    minute_units = digit(s + 5);
    hour_units = digit(s + 15);
    day_tens = digit(s + 25);
    day_units = digit(s + 30);
    tenths = digit(s + 40);
    year_tens = digit(s + 45);
    year_units = digit(s + 50);
    sign = (uint32_t)s[36] << 2 | (uint32_t)s[37] << 1 | s[38];
    if (minute_units > 9 || hour_units > 9 || day_tens > 9 || day_units > 9 || tenths > 9
        || year_tens > 9 || year_units > 9 || (sign != 5 && sign != 2))
        return r;
    minute = ((uint32_t)s[1] << 2 | (uint32_t)s[2] << 1 | s[3]) * 10 + minute_units;
    hour = ((uint32_t)s[12] << 1 | s[13]) * 10 + hour_units;
    day = ((uint32_t)s[22] << 1 | s[23]) * 100 + day_tens * 10 + day_units - 1;
    year = year_tens * 10 + year_units;
    starts = month_starts[year % 4 == 0];
    if (minute > 59 || hour > 23 || day >= starts[12] || s[55] != (year % 4 == 0))
        return r;
    month = day / 31;
    if (day >= starts[month + 1])
        month++;
    last = s[56] && minute == 59 && hour == 23 && day + 1 == starts[month + 1];
    if (last ? length == 60 : length != 60)
        return r;

    r.refusal = WWVB_OK;
    r.year = 2000 + year;
    r.month = month + 1;
    r.day = day - starts[month] + 1;
    r.hour = hour;
    r.minute = minute;
    r.weekday = (year_start(year) + day) % 7;
    r.ut1_sign = sign == 5 ? 1 : -1;
    r.ut1_tenths = tenths;
    r.warning = s[56];
    r.daylight = (uint32_t)s[57] << 1 | s[58];
    r.length = (uint32_t)length;
    return r;
}

/* ---- IRIG B: identifiers are markers, and each number has its lowest bit first */

/* What each element is, ten elements a line. */
static const uint8_t elements[WWVB_IRIG_ELEMENTS] = {
    MARKER, BIT,  BIT,  BIT,  BIT,  ZERO, BIT,  BIT,  BIT,  MARKER,
    BIT,    BIT,  BIT,  BIT,  ZERO, BIT,  BIT,  BIT,  ZERO, MARKER,
    BIT,    BIT,  BIT,  BIT,  ZERO, BIT,  BIT,  ZERO, ZERO, MARKER,
    BIT,    BIT,  BIT,  BIT,  ZERO, BIT,  BIT,  BIT,  BIT,  MARKER,
    BIT,    BIT,  ZERO, ZERO, ZERO, ZERO, ZERO, ZERO, ZERO, MARKER,
    ZERO,   ZERO, ZERO, ZERO, ZERO, ZERO, ZERO, ZERO, ZERO, MARKER,
    ZERO,   ZERO, ZERO, ZERO, ZERO, ZERO, ZERO, ZERO, ZERO, MARKER,
    ZERO,   ZERO, ZERO, ZERO, ZERO, ZERO, ZERO, ZERO, ZERO, MARKER,
    BIT,    BIT,  BIT,  BIT,  BIT,  BIT,  BIT,  BIT,  BIT,  MARKER,
    BIT,    BIT,  BIT,  BIT,  BIT,  BIT,  BIT,  BIT,  ZERO, MARKER,
};

static void put_low(uint8_t *out, uint32_t value, int n)
{
    while (n--) {
        *out++ = value & 1;
        value >>= 1;
    }
}

static uint32_t get_low(const uint8_t *bits, int n)
{
    uint32_t value = 0;

    while (n--)
        value = value << 1 | bits[n];
    return value;
}

/* The refusal of a writing, and the day of its minute. */
static size_t refuse_irig(const struct plan *p, const uint8_t *messages, size_t messages_length,
                          uint32_t minute, uint32_t second, size_t out_length, struct day *d)
{
    struct messages m;

    if (!is_legal(p) || !take_messages(messages, messages_length, &m))
        return WWVB_ILLEGAL_PLAN;
    if (minute >= WWVB_MINUTES)
        return WWVB_MINUTE_TOO_LARGE;
    *d = day_at(minute / 1440);
    if (second >= length_of(leap_of(p, d), minute, d))
        return WWVB_BAD_SECOND;
    return out_length < WWVB_IRIG_ELEMENTS ? WWVB_NO_BIT_SPACE : WWVB_OK;
}

static wwvb_irig_write_reply write_irig(uint32_t kind, uint32_t spring, uint32_t autumn,
                                        uint32_t leap_month, int32_t leap_sign, uint32_t notice,
                                        const uint8_t *messages, size_t messages_length,
                                        uint32_t minute, uint32_t second, uint8_t *out,
                                        size_t out_length)
{
    struct plan p = {kind, spring, autumn, leap_month, leap_sign, notice};
    wwvb_irig_write_reply r = {0, 0};
    struct day d;
    uint32_t hour, of_hour, of_year, of_day;
    unsigned i;

    r.refusal = refuse_irig(&p, messages, messages_length, minute, second, out_length, &d);
    if (r.refusal)
        return r;
    hour = minute % 1440 / 60;
    of_hour = minute % 60;
    of_year = d.of_year + 1;
    of_day = minute % 1440 * 60 + second;
    for (i = 0; i < WWVB_IRIG_ELEMENTS; i++)
        out[i] = elements[i] == MARKER ? MARKER : 0;
    put_low(out + 1, second % 10, 4);
    put_low(out + 6, second / 10, 3);
    put_low(out + 10, of_hour % 10, 4);
    put_low(out + 15, of_hour / 10, 3);
    put_low(out + 20, hour % 10, 4);
    put_low(out + 25, hour / 10, 2);
    put_low(out + 30, of_year % 10, 4);
    put_low(out + 35, of_year / 10 % 10, 4);
    put_low(out + 40, of_year / 100, 2);
    put_low(out + 80, of_day, 9);
    put_low(out + 90, of_day >> 9, 8);
    r.elements = WWVB_IRIG_ELEMENTS;
    return r;
}

/* Whether a day of the year, from 1 on, ends a month in a common year or in a leap year. */
static int may_end_month(uint32_t of_year)
{
    int month;

    for (month = 1; month <= 12; month++)
        if (of_year == month_starts[0][month] || of_year == month_starts[1][month])
            return 1;
    return 0;
}

static wwvb_irig_reply read_irig(const uint8_t *e, size_t length)
{
    wwvb_irig_reply r = {WWVB_BAD_SECOND, 0, 0};
    uint32_t second_units, minute_units, hour_units, day_units, day_tens;
    uint32_t second, minute, hour, of_year, of_day;
    size_t i;

    if (length != WWVB_IRIG_ELEMENTS)
        return r;
    for (i = 0; i < length; i++)
        if (elements[i] == MARKER ? e[i] != MARKER : e[i] > elements[i])
            return r;
    second_units = get_low(e + 1, 4);
    minute_units = get_low(e + 10, 4);
    hour_units = get_low(e + 20, 4);
    day_units = get_low(e + 30, 4);
    day_tens = get_low(e + 35, 4);
    if (second_units > 9 || minute_units > 9 || hour_units > 9 || day_units > 9 || day_tens > 9)
        return r;
    second = get_low(e + 6, 3) * 10 + second_units;
    minute = get_low(e + 15, 3) * 10 + minute_units;
    hour = get_low(e + 25, 2) * 10 + hour_units;
    of_year = get_low(e + 40, 2) * 100 + day_tens * 10 + day_units;
    of_day = (hour * 60 + minute) * 60 + second;
    if (second > 60 || minute > 59 || hour > 23 || of_year < 1 || of_year > 366)
        return r;
    if (second == 60 && (minute != 59 || hour != 23 || !may_end_month(of_year)))
        return r;
    if ((get_low(e + 90, 8) << 9 | get_low(e + 80, 9)) != of_day)
        return r;
    r.refusal = WWVB_OK;
    r.day_of_year = of_year;
    r.second_of_day = of_day;
    return r;
}

/* ---- the same for speed alone: eight elements at a time, by masks and products. The lowest byte
   of a number is taken to be the first in memory, as on x86-64. */

/* A second with 0 in every field: what stands at the fixed elements. */
static const uint8_t blank_second[WWVB_IRIG_ELEMENTS] = {
    2, 0, 0, 0, 0, 0, 0, 0, 0, 2, 0, 0, 0, 0, 0, 0, 0, 0, 0, 2, 0, 0, 0, 0, 0, 0, 0, 0, 0, 2,
    0, 0, 0, 0, 0, 0, 0, 0, 0, 2, 0, 0, 0, 0, 0, 0, 0, 0, 0, 2, 0, 0, 0, 0, 0, 0, 0, 0, 0, 2,
    0, 0, 0, 0, 0, 0, 0, 0, 0, 2, 0, 0, 0, 0, 0, 0, 0, 0, 0, 2, 0, 0, 0, 0, 0, 0, 0, 0, 0, 2,
    0, 0, 0, 0, 0, 0, 0, 0, 0, 2,
};

/* The bits of an element that are as in `blank_second`: all, or in a field all but the lowest. */
#define A 0xff
#define F 0xfe
static const uint8_t fixed_elements[WWVB_IRIG_ELEMENTS] = {
    A, F, F, F, F, A, F, F, F, A, F, F, F, F, A, F, F, F, A, A, F, F, F, F, A, F, F, A, A, A,
    F, F, F, F, A, F, F, F, F, A, F, F, A, A, A, A, A, A, A, A, A, A, A, A, A, A, A, A, A, A,
    A, A, A, A, A, A, A, A, A, A, A, A, A, A, A, A, A, A, A, A, F, F, F, F, F, F, F, F, F, A,
    F, F, F, F, F, F, F, F, A, A,
};
#undef A
#undef F

/* Eight elements with the bits of a number below 256. */
static void put_eight(uint8_t *out, uint32_t number)
{
    uint64_t halves = (number & 15) | (uint64_t)(number >> 4) << 32;
    uint64_t eight = halves * 0x204081 & 0x0101010101010101;

    memcpy(out, &eight, 8);
}

/* The number of eight elements that are 0 or 1. */
static uint32_t get_eight(const uint8_t *bits)
{
    uint64_t eight;

    memcpy(&eight, bits, 8);
    return (uint32_t)(eight * 0x0102040810204080 >> 56);
}

/* Two decimal digits with an element between them, as eight elements have them. */
static uint32_t two_digits(uint32_t number)
{
    return number % 10 | number / 10 << 5;
}

static wwvb_irig_write_reply fast_write_irig(uint32_t kind, uint32_t spring, uint32_t autumn,
                                             uint32_t leap_month, int32_t leap_sign,
                                             uint32_t notice, const uint8_t *messages,
                                             size_t messages_length, uint32_t minute,
                                             uint32_t second, uint8_t *out, size_t out_length)
{
    struct plan p = {kind, spring, autumn, leap_month, leap_sign, notice};
    wwvb_irig_write_reply r = {0, 0};
    struct day d;
    uint32_t of_year, of_day, day_digits;

    r.refusal = refuse_irig(&p, messages, messages_length, minute, second, out_length, &d);
    if (r.refusal)
        return r;
    of_year = d.of_year + 1;
    of_day = minute % 1440 * 60 + second;
    day_digits = two_digits(of_year % 100);
    memcpy(out, blank_second, sizeof blank_second);
    put_eight(out + 1, two_digits(second));
    put_eight(out + 10, two_digits(minute % 60));
    put_eight(out + 20, two_digits(minute % 1440 / 60));
    put_eight(out + 30, day_digits & 255);
    out[38] = (uint8_t)(day_digits >> 8);
    out[40] = of_year / 100 & 1;
    out[41] = (uint8_t)(of_year / 200);
    put_eight(out + 80, of_day & 255);
    out[88] = of_day >> 8 & 1;
    put_eight(out + 90, of_day >> 9);
    r.elements = WWVB_IRIG_ELEMENTS;
    return r;
}

/* What of eight elements is not as it is fixed; 0 where all is. */
static uint64_t misfit(const uint8_t *e, size_t at)
{
    uint64_t got, want, mask;

    memcpy(&got, e + at, 8);
    memcpy(&want, blank_second + at, 8);
    memcpy(&mask, fixed_elements + at, 8);
    return (got ^ want) & mask;
}

static wwvb_irig_reply fast_read_irig(const uint8_t *e, size_t length)
{
    wwvb_irig_reply r = {WWVB_BAD_SECOND, 0, 0};
    uint32_t s, m, h, days, tens, second, minute, hour, of_year, of_day;
    uint64_t wrong;

    if (length != WWVB_IRIG_ELEMENTS)
        return r;
    wrong = misfit(e, 0) | misfit(e, 8) | misfit(e, 16) | misfit(e, 24) | misfit(e, 32)
        | misfit(e, 40) | misfit(e, 48) | misfit(e, 56) | misfit(e, 64) | misfit(e, 72)
        | misfit(e, 80) | misfit(e, 88) | misfit(e, 92);
    if (wrong)
        return r;
    s = get_eight(e + 1);
    m = get_eight(e + 10);
    h = get_eight(e + 20);
    days = get_eight(e + 30);
    tens = days >> 5 | (uint32_t)e[38] << 3;
    if ((s & 15) > 9 || (m & 15) > 9 || (h & 15) > 9 || (days & 15) > 9 || tens > 9)
        return r;
    second = (s >> 5) * 10 + (s & 15);
    minute = (m >> 5) * 10 + (m & 15);
    hour = (h >> 5) * 10 + (h & 15);
    of_year = (e[40] + 2u * e[41]) * 100 + tens * 10 + (days & 15);
    of_day = (hour * 60 + minute) * 60 + second;
    if (second > 60 || minute > 59 || hour > 23 || of_year - 1 > 365)
        return r;
    if (second == 60 && (minute != 59 || hour != 23 || !may_end_month(of_year)))
        return r;
    if ((get_eight(e + 90) << 9 | (uint32_t)e[88] << 8 | get_eight(e + 80)) != of_day)
        return r;
    r.refusal = WWVB_OK;
    r.day_of_year = of_year;
    r.second_of_day = of_day;
    return r;
}

const struct codec PLAIN = {
    PLAIN_LABEL, write_recording, read_frame, read_recording, print_pages, hand_print_pages,
    minute_to_date, fast_minute_to_date, date_to_minute, local_date, write_amplitude,
    fast_write_amplitude, read_amplitude, fast_read_amplitude, write_irig, fast_write_irig,
    read_irig, fast_read_irig,
};
