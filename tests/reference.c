#include "reference.h"

#include <stdio.h>
#include <stdlib.h>
#include <string.h>

#define MINUTES 52596000u
#define SYNC "0011101101000"
#define MESSAGE_SYNC "1101000111010"

/* ---- minutes and dates */

static const unsigned month_lengths[2][12] = {
    {31, 28, 31, 30, 31, 30, 31, 31, 30, 31, 30, 31},
    {31, 29, 31, 30, 31, 30, 31, 31, 30, 31, 30, 31},
};

static int leap_year(unsigned year)
{
    return year % 4 == 0 && (year % 100 != 0 || year % 400 == 0);
}

/* Counts up from 2000-01-01, a year and then a month at a time. */
static struct ref_date date_of(uint32_t minute)
{
    struct ref_date d = {2000, 1, 1, 0, 0, 0};
    uint32_t days = minute / 1440;

    d.hour = minute % 1440 / 60;
    d.minute = minute % 60;
    d.weekday = days % 7;
    while (days >= (leap_year(d.year) ? 366u : 365u)) {
        days -= leap_year(d.year) ? 366 : 365;
        d.year++;
    }
    while (days >= month_lengths[leap_year(d.year)][d.month - 1]) {
        days -= month_lengths[leap_year(d.year)][d.month - 1];
        d.month++;
    }
    d.day = days + 1;
    return d;
}

static uint32_t day_of(unsigned year, unsigned month, unsigned day)
{
    uint32_t days = day - 1;
    unsigned y, m;

    for (y = 2000; y < year; y++)
        days += leap_year(y) ? 366 : 365;
    for (m = 1; m < month; m++)
        days += month_lengths[leap_year(year)][m - 1];
    return days;
}

unsigned ref_minute_to_date(uint32_t minute, struct ref_date *date)
{
    if (minute >= MINUTES)
        return 3;
    *date = date_of(minute);
    return 0;
}

unsigned ref_date_to_minute(const struct ref_date *d, uint32_t *minute)
{
    if (d->year < 2000 || d->year > 2099 || d->month < 1 || d->month > 12 || d->day < 1
        || d->day > month_lengths[leap_year(d->year)][d->month - 1] || d->hour > 23 || d->minute > 59)
        return 15;
    *minute = day_of(d->year, d->month, d->day) * 1440 + d->hour * 60 + d->minute;
    return 0;
}

/* Counts in 64 signed bits, and steps back from 2000 where the local minute lies before it. */
unsigned ref_local_date(uint32_t minute, uint32_t state, int32_t offset, uint32_t hour, struct ref_date *date)
{
    int64_t in_day = minute % 1440, local = (int64_t)minute + offset;
    int64_t begins = 60 * (int64_t)hour - offset, ends = 60 * ((int64_t)hour - 1) - offset;

    if (minute >= MINUTES)
        return 3;
    if (state > 3 || offset < -600 || offset > -240 || hour < 1 || hour > 3)
        return 16;
    if (state == 3 || (state == 2 && in_day >= begins) || (state == 1 && in_day < ends))
        local += 60;
    if (local >= 0) {
        *date = date_of((uint32_t)local);
    } else {
        struct ref_date eve = {1999, 12, 31, 0, 0, 6};
        eve.hour = (uint32_t)(local + 1440) / 60;
        eve.minute = (uint32_t)(local + 1440) % 60;
        *date = eve;
    }
    return 0;
}

int ref_last_of_month(uint32_t minute)
{
    struct ref_date d = date_of(minute);
    return d.hour == 23 && d.minute == 59 && d.day == month_lengths[leap_year(d.year)][d.month - 1];
}

/* ---- the time word */

/* The time bits of par[0] to par[4]. */
static const unsigned char parity_bits[5][15] = {
    {23, 21, 20, 17, 16, 15, 14, 13, 9, 8, 6, 5, 4, 2, 0},
    {24, 22, 21, 18, 17, 16, 15, 14, 10, 9, 7, 6, 5, 3, 1},
    {25, 23, 22, 19, 18, 17, 16, 15, 11, 10, 8, 7, 6, 4, 2},
    {24, 21, 19, 18, 15, 14, 13, 12, 11, 7, 6, 4, 3, 2, 0},
    {25, 22, 20, 19, 16, 15, 14, 13, 12, 8, 7, 5, 4, 3, 1},
};

/* par[4..0] then time[25..0], one bit a byte, as places 1 to 31 at word[0] to word[30]. */
static void code_word(uint32_t minute, uint8_t word[31])
{
    int i, k;

    for (i = 0; i < 5; i++) {
        unsigned sum = 0;
        for (k = 0; k < 15; k++)
            sum += minute >> parity_bits[i][k] & 1;
        word[4 - i] = sum % 2;
    }
    for (i = 0; i < 26; i++)
        word[5 + i] = minute >> (25 - i) & 1;
}

static uint32_t time_of(const uint8_t word[31])
{
    uint32_t minute = 0;
    int i;

    for (i = 5; i < 31; i++)
        minute = minute * 2 + word[i];
    return minute;
}

/* The one code word that differs from the word in at most one place: the place, or 0; the word becomes that one. */
static unsigned correct(uint8_t word[31])
{
    unsigned place;
    uint8_t code[31];

    for (place = 0; place <= 31; place++) {
        if (place)
            word[place - 1] ^= 1;
        code_word(time_of(word), code);
        if (memcmp(code, word, 31) == 0)
            return place;
        if (place)
            word[place - 1] ^= 1;
    }
    return 99; /* no word is left without a code word beside it */
}

unsigned ref_bit_of_place(unsigned place)
{
    if (place <= 6)
        return 12 + place; /* bits 13 to 18 */
    if (place <= 15)
        return 13 + place; /* bits 20 to 28 */
    if (place <= 24)
        return 14 + place; /* bits 30 to 38 */
    return 15 + place;     /* bits 40 to 46 */
}

/* ---- the state word and the next-change word */

/* By leap state (none, negative, positive) and by the number of dst_on[1] dst_on[0]: 00, 01, 10, 11. */
static const char *const state_words[3][4] = {
    {"01000", "10101", "10110", "00011"},
    {"00100", "01110", "10000", "01101"},
    {"11001", "11100", "11010", "11111"},
};

static const char *const next_words[52] = {
    "",
    "110001", "100110", "100101", "010101", "111110", "010110", "110111", "111101",
    "101010", "011011", "001110", "000001", "000010", "001000", "001101", "101001",
    "000100", "100000", "110100", "101100", "111000", "010000", "110010", "011100",
    "110111", "010101", "110001", "010110", "100110", "111110", "100101", "111101",
    "001101", "000001", "101010", "001000", "011011", "000010", "001110", "101001",
    "110010", "101100", "000100", "010000", "100000", "111000", "110100", "011100",
    "100011", "000111", "101111",
};

static int says(const uint8_t *bits, const char *word, size_t n)
{
    size_t i;

    for (i = 0; i < n; i++)
        if (bits[i] != word[i] - '0')
            return 0;
    return 1;
}

/* ---- plans */

static int legal(const struct ref_plan *p)
{
    if (p->kind == 0 || p->kind == 3) {
        if (p->spring < 1 || p->spring > 24 || p->autumn < 25 || p->autumn > 48)
            return 0;
    } else if (p->kind > 2 || p->spring != 0 || p->autumn != 0) {
        return 0;
    }
    if (p->leap_sign == 0) {
        if (p->leap_month != 0)
            return 0;
    } else if ((p->leap_sign != 1 && p->leap_sign != -1) || p->leap_month > 1199) {
        return 0;
    }
    return p->notice <= 1;
}

/* A message of a plan. */
struct message {
    uint32_t minute;
    uint64_t data;
};

/* The message at an index: four bytes of minute and six of data, each the highest first. */
static struct message message_at(const uint8_t *messages, size_t index)
{
    const uint8_t *bytes = messages + index * 10;
    struct message m = {0, 0};
    int i;

    for (i = 0; i < 4; i++)
        m.minute = m.minute * 256 + bytes[i];
    for (i = 4; i < 10; i++)
        m.data = m.data * 256 + bytes[i];
    return m;
}

/* Whole messages, at most four, with minutes in range and strictly rising, and data below 2^42. */
static int legal_messages(const uint8_t *messages, size_t length)
{
    size_t i;

    if (length % 10 != 0 || length > 40)
        return 0;
    for (i = 0; i < length / 10; i++) {
        struct message m = message_at(messages, i);

        if (m.minute >= MINUTES || m.data >> 42 != 0)
            return 0;
        if (i > 0 && m.minute <= message_at(messages, i - 1).minute)
            return 0;
    }
    return 1;
}

/* Whether there is a message for a minute, and its data. */
static int has_message(const uint8_t *messages, size_t length, uint32_t minute, uint64_t *data)
{
    size_t i;

    for (i = 0; i < length / 10; i++)
        if (message_at(messages, i).minute == minute) {
            *data = message_at(messages, i).data;
            return 1;
        }
    return 0;
}

static uint32_t first_sunday(unsigned year, unsigned month)
{
    uint32_t day = day_of(year, month, 1);

    while (day % 7 != 1)
        day++;
    return day;
}

static uint32_t last_sunday(unsigned year, unsigned month)
{
    uint32_t day = day_of(year, month, month_lengths[leap_year(year)][month - 1]);

    while (day % 7 != 1)
        day--;
    return day;
}

/* The day of a row's change in a year. */
static uint32_t day_of_row(unsigned row, unsigned year)
{
    if (row <= 24)
        return first_sunday(year, 3) + (row - 1) % 8 * 7;
    return first_sunday(year, 11) + (row - 25) % 8 * 7 - 28;
}

/* Whether a year has the earlier law of the United States: with kind 3, up to 2006. */
static int earlier_law(const struct ref_plan *p, unsigned year)
{
    return p->kind == 3 && year <= 2006;
}

static uint32_t spring_day(const struct ref_plan *p, unsigned year)
{
    return earlier_law(p, year) ? first_sunday(year, 4) : day_of_row(p->spring, year);
}

static uint32_t autumn_day(const struct ref_plan *p, unsigned year)
{
    return earlier_law(p, year) ? last_sunday(year, 10) : day_of_row(p->autumn, year);
}

/* The row of a year's change in spring; of the earlier law it is 13 or 14, whichever falls on the
   day. */
static unsigned spring_row(const struct ref_plan *p, unsigned year)
{
    if (!earlier_law(p, year))
        return p->spring;
    return day_of_row(13, year) == spring_day(p, year) ? 13 : 14;
}

static unsigned autumn_row(const struct ref_plan *p, unsigned year)
{
    return earlier_law(p, year) ? 36 : p->autumn;
}

/* dst_on[1] as a day has it: 1 from the spring day on, 0 from the autumn day on. */
static unsigned on(const struct ref_plan *p, uint32_t day)
{
    unsigned year = date_of(day * 1440).year;

    return day >= spring_day(p, year) && day < autumn_day(p, year);
}

unsigned ref_daylight(const struct ref_plan *p, uint32_t minute)
{
    uint32_t day = minute / 1440;

    if (p->kind == 1 || p->kind == 2)
        return p->kind == 1 ? 0 : 3;
    return on(p, day) * 2 + (day == 0 ? 0 : on(p, day - 1));
}

static unsigned leap(const struct ref_plan *p, uint32_t minute)
{
    struct ref_date d = date_of(minute);

    if (p->leap_sign == 0 || (d.year - 2000) * 12 + d.month - 1 != p->leap_month)
        return 0;
    return p->leap_sign < 0 ? 1 : 2;
}

/* The row of the next change: while dst_on[1] is 1, that of the year's autumn; else that of
   spring, of this year before its spring day, and of the following year from the autumn day on. */
static unsigned row(const struct ref_plan *p, uint32_t minute)
{
    uint32_t day = minute / 1440;
    unsigned year = date_of(minute).year;

    if (p->kind == 1 || p->kind == 2)
        return p->kind == 1 ? 50 : 51;
    if (on(p, day))
        return autumn_row(p, year);
    return spring_row(p, day < spring_day(p, year) ? year : year + 1);
}

static unsigned length_for(unsigned leap_state, uint32_t minute)
{
    if (leap_state == 0 || !ref_last_of_month(minute))
        return 60;
    return leap_state == 1 ? 59 : 61;
}

/* ---- writing */

static void put(uint8_t *out, const char *word)
{
    for (; *word; word++)
        *out++ = *word - '0';
}

static unsigned write_frame(const struct ref_plan *p, uint32_t minute, uint8_t *out)
{
    unsigned state = ref_daylight(p, minute), leap_state = leap(p, minute), length = length_for(leap_state, minute), place;
    const char *word = state_words[leap_state][state];
    uint8_t frame[61] = {0}, code[31];

    put(frame, SYNC);
    code_word(minute, code);
    for (place = 1; place <= 31; place++)
        frame[ref_bit_of_place(place)] = code[place - 1];
    frame[19] = minute & 1;
    frame[47] = word[0] - '0';
    frame[48] = word[1] - '0';
    frame[49] = p->notice;
    put(frame + 50, word + 2);
    put(frame + 53, next_words[row(p, minute)]);
    memcpy(out, frame, length);
    return length;
}

unsigned ref_bit_of_data(unsigned i)
{
    if (i > 35)
        return 54 - i; /* bits 13 to 18 */
    if (i > 26)
        return 55 - i; /* bits 20 to 28 */
    if (i > 17)
        return 56 - i; /* bits 30 to 38 */
    if (i > 8)
        return 57 - i; /* bits 40 to 48 */
    return 58 - i;     /* bits 50 to 58 */
}

static unsigned write_message(const struct ref_plan *p, uint32_t minute, uint64_t data,
                              uint8_t *out)
{
    unsigned length = length_for(leap(p, minute), minute), i;
    uint8_t frame[61] = {0};

    put(frame, MESSAGE_SYNC);
    for (i = 0; i < 42; i++)
        frame[ref_bit_of_data(i)] = data >> i & 1;
    frame[19] = minute & 1;
    frame[49] = p->notice;
    memcpy(out, frame, length);
    return length;
}

unsigned ref_write(const struct ref_plan *p, const uint8_t *messages, size_t messages_length,
                   uint32_t first, uint32_t count, uint8_t *out, size_t space, size_t *bits)
{
    size_t needed = 0;
    uint64_t data;
    uint32_t i;

    if (!legal(p) || !legal_messages(messages, messages_length))
        return 1;
    if (count < 1 || count > 1000)
        return 2;
    if ((uint64_t)first + count - 1 > MINUTES - 1)
        return 3;
    for (i = 0; i < count; i++)
        needed += length_for(leap(p, first + i), first + i);
    if (needed > space)
        return 4;
    for (i = 0; i < count; i++) {
        if (has_message(messages, messages_length, first + i, &data))
            out += write_message(p, first + i, data, out);
        else
            out += write_frame(p, first + i, out);
    }
    *bits = needed;
    return 0;
}

/* What every entry has: minute, length and notice; all else 0. */
static void begin_entry(uint8_t entry[REF_ENTRY], uint32_t minute, unsigned length,
                        unsigned notice)
{
    memset(entry, 0, REF_ENTRY);
    entry[0] = minute >> 24;
    entry[1] = minute >> 16 & 255;
    entry[2] = minute >> 8 & 255;
    entry[3] = minute & 255;
    entry[4] = length;
    entry[8] = notice;
}

/* The rest of a message's entry. */
static void put_data(uint8_t entry[REF_ENTRY], uint64_t data)
{
    int i;

    entry[10] = 1;
    entry[11] = 1;
    for (i = 17; i >= 12; i--, data /= 256)
        entry[i] = data % 256;
}

void ref_entry_as_sent(const struct ref_plan *p, uint32_t minute, unsigned place, unsigned echo,
                       uint8_t entry[REF_ENTRY])
{
    unsigned leap_state = leap(p, minute);

    begin_entry(entry, minute, length_for(leap_state, minute), p->notice);
    entry[5] = ref_daylight(p, minute);
    entry[6] = leap_state;
    entry[7] = row(p, minute);
    entry[9] = place;
    entry[10] = echo;
}

void ref_message_as_sent(const struct ref_plan *p, uint32_t minute, uint64_t data,
                         uint8_t entry[REF_ENTRY])
{
    begin_entry(entry, minute, length_for(leap(p, minute), minute), p->notice);
    put_data(entry, data);
}

/* ---- reading */

/* What the reader knows before a frame: whether there was one, and then the minute expected, and
   the leap state last read in that minute's month. */
struct due {
    int begun;
    uint32_t minute;
    unsigned leap_state; /* or UNKNOWN */
};

#define UNKNOWN 3

static uint32_t minute_of(const uint8_t entry[REF_ENTRY])
{
    uint32_t minute = 0;
    int i;

    for (i = 0; i < 4; i++)
        minute = minute * 256 + entry[i];
    return minute;
}

/* What it knows after an accepted frame, by its entry. */
static struct due after(struct due before, const uint8_t entry[REF_ENTRY])
{
    uint32_t minute = minute_of(entry);
    struct due d = {1, 0, UNKNOWN};

    d.minute = minute + 1;
    if (!ref_last_of_month(minute))
        d.leap_state = entry[11] ? before.leap_state : entry[6];
    return d;
}

/* Question 13; alone: one frame and nothing after it. */
static int has_length(const uint8_t *f, size_t length, int alone, unsigned seconds)
{
    unsigned i;

    if (alone ? length != seconds : length < seconds)
        return 0;
    for (i = 59; i < seconds; i++)
        if (f[i] != 0)
            return 0;
    return 1;
}

/* Questions 9, 10, 11, 13 and 14 of a time frame at the front of the bits. */
static unsigned read_time(const uint8_t *f, size_t length, int alone, struct due due,
                          uint8_t entry[REF_ENTRY])
{
    unsigned i, state = 99, leap_state = 0, found = 0, place, seconds;
    uint8_t word[31], five[5];
    uint32_t minute;

    memcpy(five, f + 47, 2);
    memcpy(five + 2, f + 50, 3);
    for (i = 0; i < 12; i++)
        if (says(five, state_words[i / 4][i % 4], 5)) {
            leap_state = i / 4;
            state = i % 4;
        }
    if (state == 99)
        return 9;
    for (i = 1; i <= 51; i++)
        if ((i > 48 || (i > 24) == (state >= 2)) && says(f + 53, next_words[i], 6))
            found = i;
    if (!found)
        return 10;
    for (i = 1; i <= 31; i++)
        word[i - 1] = f[ref_bit_of_place(i)];
    place = correct(word);
    minute = time_of(word);
    if (minute >= MINUTES)
        return 11;
    seconds = length_for(leap_state, minute);
    if (!has_length(f, length, alone, seconds))
        return 13;
    if (due.begun && minute != due.minute)
        return 14;
    begin_entry(entry, minute, seconds, f[49]);
    entry[5] = state;
    entry[6] = leap_state;
    entry[7] = found;
    entry[9] = place;
    entry[10] = f[19] == (minute & 1);
    return 0;
}

/* Questions 19, 20, 11, 13 and 14 of a message at the front of the bits. */
static unsigned read_message(const uint8_t *f, size_t length, struct due due,
                             uint8_t entry[REF_ENTRY])
{
    uint64_t data = 0;
    unsigned i, seconds;

    if (!due.begun)
        return 19;
    if (due.leap_state == UNKNOWN && ref_last_of_month(due.minute))
        return 20;
    if (due.minute >= MINUTES)
        return 11;
    seconds = due.leap_state == UNKNOWN ? 60 : length_for(due.leap_state, due.minute);
    if (!has_length(f, length, 0, seconds))
        return 13;
    if (f[19] != (due.minute & 1))
        return 14;
    for (i = 0; i < 42; i++)
        data |= (uint64_t)f[ref_bit_of_data(i)] << i;
    begin_entry(entry, due.minute, seconds, f[49]);
    put_data(entry, data);
    return 0;
}

/* All questions but 5 of the frame at the front of the bits. */
static unsigned read_one(const uint8_t *f, size_t length, int alone, struct due due,
                         uint8_t entry[REF_ENTRY])
{
    unsigned i;

    if (length < 59)
        return 6;
    for (i = 0; i < 59; i++)
        if (f[i] > 1)
            return 7;
    if (says(f, MESSAGE_SYNC, 13))
        return read_message(f, length, due, entry);
    return says(f, SYNC, 13) ? read_time(f, length, alone, due, entry) : 8;
}

unsigned ref_read_frame(const uint8_t *bits, size_t length, uint8_t *entry, size_t space)
{
    struct due none = {0, 0, UNKNOWN};
    uint8_t bytes[REF_ENTRY];
    unsigned refusal;

    if (space < REF_ENTRY)
        return 5;
    refusal = read_one(bits, length, 1, none, bytes);
    if (refusal == 0)
        memcpy(entry, bytes, REF_ENTRY);
    return refusal;
}

unsigned ref_read(const uint8_t *bits, size_t length, uint8_t *entries, size_t space,
                  size_t *count, size_t *used)
{
    struct due due = {0, 0, UNKNOWN};

    *count = *used = 0;
    while (*used < length) {
        uint8_t bytes[REF_ENTRY];
        unsigned refusal;

        if (space - *count * REF_ENTRY < REF_ENTRY)
            return 5;
        refusal = read_one(bits + *used, length - *used, 0, due, bytes);
        if (refusal)
            return refusal;
        memcpy(entries + *count * REF_ENTRY, bytes, REF_ENTRY);
        due = after(due, bytes);
        *used += bytes[4];
        ++*count;
    }
    return 0;
}

/* ---- pages */

/* A line of a page: the text, which has 41 characters, and a line feed. */
static uint8_t *put_text(uint8_t *out, const char *text)
{
    if (strlen(text) != REF_LINE - 1)
        abort();
    memcpy(out, text, REF_LINE - 1);
    out[REF_LINE - 1] = '\n';
    return out + REF_LINE;
}

/* The nine columns of an entry, one space between them; for a message, blanks after the length but
   for the M. */
static uint8_t *put_entry(uint8_t *out, const uint8_t entry[REF_ENTRY])
{
    static const char *const two_bits[4] = {"00", "01", "10", "11"};
    uint32_t minute = minute_of(entry);
    struct ref_date d = date_of(minute);
    char date[40], time[40], text[200];

    snprintf(date, sizeof date, "%04u-%02u-%02u", (unsigned)d.year, (unsigned)d.month,
             (unsigned)d.day);
    snprintf(time, sizeof time, "%02u:%02u", (unsigned)d.hour, (unsigned)d.minute);
    if (entry[11] == 1)
        snprintf(text, sizeof text, "%8u %10s %5s %2u %2s %c %2s %2s %1s", (unsigned)minute, date,
                 time, entry[4], "", 'M', "", "", "");
    else
        snprintf(text, sizeof text, "%8u %10s %5s %2u %2s %c %2u %2u %1u", (unsigned)minute, date,
                 time, entry[4], two_bits[entry[5]], " -+"[entry[6]], entry[7], entry[9],
                 entry[10]);
    return put_text(out, text);
}

/* A page by its number, from 1, of so many entries, at most 50. */
static uint8_t *put_page(uint8_t *out, size_t number, const uint8_t *entries, size_t n)
{
    char text[60];
    size_t i;

    snprintf(text, sizeof text, "%41zu", number);
    out = put_text(out, text);
    out = put_text(out, "-----------------------------------------");
    snprintf(text, sizeof text, "%41s", "");
    for (i = 0; i < REF_PAGE_ENTRIES; i++)
        out = i < n ? put_entry(out, entries + i * REF_ENTRY) : put_text(out, text);
    return out;
}

/* Reads the whole recording first, with space for as many entries as its bits can give. */
unsigned ref_print_pages(const uint8_t *bits, size_t length, uint8_t *out, size_t space,
                         size_t *bytes)
{
    size_t most = (length / 59 + 1) * REF_ENTRY, count, used, pages, i;
    uint8_t *entries = malloc(most);
    unsigned refusal;

    if (!entries)
        abort();
    refusal = ref_read(bits, length, entries, most, &count, &used);
    pages = (count + REF_PAGE_ENTRIES - 1) / REF_PAGE_ENTRIES;
    if (refusal == 0 && pages * REF_PAGE > space)
        refusal = 4;
    for (i = 0; i < pages && refusal == 0; i++) {
        size_t from = i * REF_PAGE_ENTRIES, left = count - from;

        out = put_page(out, i + 1, entries + from * REF_ENTRY,
                       left < REF_PAGE_ENTRIES ? left : REF_PAGE_ENTRIES);
    }
    if (refusal == 0)
        *bytes = pages * REF_PAGE;
    free(entries);
    return refusal;
}

/* ---- the amplitude code */

/* What stands at a second: a marker, a fixed 0, or a part of a field. */
enum field {
    MARKER, ZERO, MINUTE, HOUR, DAY, UT1_SIGN, UT1_TENTHS, YEAR, LEAP_YEAR, WARNING, DAYLIGHT,
    FIELDS
};

/* Table 1, ten seconds a row, with second 60 at the end; the number is what a 1 there is worth. */
static const struct {
    enum field field;
    unsigned worth;
} table_1[61] = {
    {MARKER, 0}, {MINUTE, 40}, {MINUTE, 20}, {MINUTE, 10}, {ZERO, 0},
    {MINUTE, 8}, {MINUTE, 4}, {MINUTE, 2}, {MINUTE, 1}, {MARKER, 0},

    {ZERO, 0}, {ZERO, 0}, {HOUR, 20}, {HOUR, 10}, {ZERO, 0},
    {HOUR, 8}, {HOUR, 4}, {HOUR, 2}, {HOUR, 1}, {MARKER, 0},

    {ZERO, 0}, {ZERO, 0}, {DAY, 200}, {DAY, 100}, {ZERO, 0},
    {DAY, 80}, {DAY, 40}, {DAY, 20}, {DAY, 10}, {MARKER, 0},

    {DAY, 8}, {DAY, 4}, {DAY, 2}, {DAY, 1}, {ZERO, 0},
    {ZERO, 0}, {UT1_SIGN, 4}, {UT1_SIGN, 2}, {UT1_SIGN, 1}, {MARKER, 0},

    {UT1_TENTHS, 8}, {UT1_TENTHS, 4}, {UT1_TENTHS, 2}, {UT1_TENTHS, 1}, {ZERO, 0},
    {YEAR, 80}, {YEAR, 40}, {YEAR, 20}, {YEAR, 10}, {MARKER, 0},

    {YEAR, 8}, {YEAR, 4}, {YEAR, 2}, {YEAR, 1}, {ZERO, 0},
    {LEAP_YEAR, 1}, {WARNING, 1}, {DAYLIGHT, 2}, {DAYLIGHT, 1}, {MARKER, 0},

    {MARKER, 0},
};

#define PLUS 5  /* 101 */
#define MINUS 2 /* 010 */

/* The unit of the decimal digit that a worth belongs to: 1, 10 or 100. */
static unsigned unit_of(unsigned worth)
{
    return worth >= 100 ? 100 : worth >= 10 ? 10 : 1;
}

unsigned ref_write_amplitude(const struct ref_plan *p, const uint8_t *messages,
                             size_t messages_length, uint32_t minute, int32_t ut1_sign,
                             uint32_t ut1_tenths, uint8_t *out, size_t space, size_t *symbols)
{
    unsigned value[FIELDS] = {0}, length, s;
    struct ref_date d;

    if (!legal(p) || !legal_messages(messages, messages_length))
        return 1;
    if (minute >= MINUTES)
        return 3;
    if ((ut1_sign != 1 && ut1_sign != -1) || ut1_tenths > 9)
        return 18;
    length = length_for(leap(p, minute), minute);
    if (length > space)
        return 4;
    d = date_of(minute);
    value[MINUTE] = d.minute;
    value[HOUR] = d.hour;
    value[DAY] = day_of(d.year, d.month, d.day) - day_of(d.year, 1, 1) + 1;
    value[UT1_SIGN] = ut1_sign > 0 ? PLUS : MINUS;
    value[UT1_TENTHS] = ut1_tenths;
    value[YEAR] = d.year - 2000;
    value[LEAP_YEAR] = leap_year(d.year);
    value[WARNING] = leap(p, minute) != 0;
    value[DAYLIGHT] = ref_daylight(p, minute);
    for (s = 0; s < length; s++) {
        unsigned worth = table_1[s].worth, unit = unit_of(worth);
        unsigned digit = value[table_1[s].field] / unit % 10;

        out[s] = table_1[s].field == MARKER ? 2 : (digit & worth / unit) != 0;
    }
    *symbols = length;
    return 0;
}

unsigned ref_read_amplitude(const uint8_t *symbols, size_t length, struct ref_amplitude *read)
{
    unsigned digits[FIELDS][101] = {{0}}, value[FIELDS], s, f; /* digits by their unit */
    struct ref_date d = {0, 1, 0, 0, 0, 0};
    const unsigned *months;
    int last;

    if (length < 59 || length > 61)
        return 17;
    for (s = 0; s < length; s++) {
        unsigned most = table_1[s].field == MARKER ? 2 : table_1[s].field == ZERO ? 0 : 1;

        if (symbols[s] > most || (most == 2 && symbols[s] != 2))
            return 17;
    }

    for (s = 0; s < length; s++) {
        unsigned worth = table_1[s].worth, unit = unit_of(worth);

        digits[table_1[s].field][unit] += symbols[s] * (worth / unit);
    }
    for (f = MINUTE; f < FIELDS; f++) {
        if (digits[f][1] > 9 || digits[f][10] > 9 || digits[f][100] > 9)
            return 18;
        value[f] = digits[f][1] + digits[f][10] * 10 + digits[f][100] * 100;
    }
    if (value[UT1_SIGN] != PLUS && value[UT1_SIGN] != MINUS)
        return 18;
    d.year = 2000 + value[YEAR];
    d.hour = value[HOUR];
    d.minute = value[MINUTE];
    if (d.minute > 59 || d.hour > 23)
        return 18;
    if (value[DAY] < 1 || value[DAY] > (leap_year(d.year) ? 366u : 365u))
        return 18;
    if (value[LEAP_YEAR] != (unsigned)leap_year(d.year))
        return 18;
    months = month_lengths[leap_year(d.year)];
    for (d.day = value[DAY]; d.day > months[d.month - 1]; d.month++)
        d.day -= months[d.month - 1];
    d.weekday = day_of(d.year, d.month, d.day) % 7;
    last = d.hour == 23 && d.minute == 59 && d.day == months[d.month - 1];
    if (last && value[WARNING] ? length == 60 : length != 60)
        return 18;
    read->date = d;
    read->ut1_sign = value[UT1_SIGN] == PLUS ? 1 : -1;
    read->ut1_tenths = value[UT1_TENTHS];
    read->warning = value[WARNING];
    read->daylight = value[DAYLIGHT];
    read->length = (uint32_t)length;
    return 0;
}

/* ---- IRIG B */

enum irig_field { IRIG_SECOND, IRIG_MINUTE, IRIG_HOUR, IRIG_DAY, IRIG_STRAIGHT, IRIG_FIELDS };

/* Where the fields stand: from an element on so many bits, the lowest first, as a digit that is
   worth `unit` and takes so many values. The straight seconds are not decimal, and an identifier
   parts them in two. */
static const struct {
    enum irig_field field;
    unsigned unit, values, from, bits;
} irig_digits[] = {
    {IRIG_SECOND, 1, 10, 1, 4}, {IRIG_SECOND, 10, 10, 6, 3},
    {IRIG_MINUTE, 1, 10, 10, 4}, {IRIG_MINUTE, 10, 10, 15, 3},
    {IRIG_HOUR, 1, 10, 20, 4}, {IRIG_HOUR, 10, 10, 25, 2},
    {IRIG_DAY, 1, 10, 30, 4}, {IRIG_DAY, 10, 10, 35, 4}, {IRIG_DAY, 100, 10, 40, 2},
    {IRIG_STRAIGHT, 1, 512, 80, 9}, {IRIG_STRAIGHT, 512, 256, 90, 8},
};

#define IRIG_DIGITS (sizeof irig_digits / sizeof *irig_digits)

/* Identifiers: 0, 9, 19 and so on to 99. */
static int irig_identifier(size_t element)
{
    return element == 0 || element % 10 == 9;
}

/* Whether a day of the year is the last of a month in a common or a leap year. */
static int ends_a_month(unsigned day)
{
    unsigned leap_too, month, end;

    for (leap_too = 0; leap_too < 2; leap_too++)
        for (month = 0, end = 0; month < 12; month++) {
            end += month_lengths[leap_too][month];
            if (day == end)
                return 1;
        }
    return 0;
}

unsigned ref_write_irig(const struct ref_plan *p, const uint8_t *messages, size_t messages_length,
                        uint32_t minute, uint32_t second, uint8_t *out, size_t space,
                        size_t *elements)
{
    unsigned value[IRIG_FIELDS], i, k;
    struct ref_date d;

    if (!legal(p) || !legal_messages(messages, messages_length))
        return 1;
    if (minute >= MINUTES)
        return 3;
    if (second >= length_for(leap(p, minute), minute))
        return 21;
    if (space < REF_IRIG)
        return 4;
    d = date_of(minute);
    value[IRIG_SECOND] = second;
    value[IRIG_MINUTE] = d.minute;
    value[IRIG_HOUR] = d.hour;
    value[IRIG_DAY] = day_of(d.year, d.month, d.day) - day_of(d.year, 1, 1) + 1;
    value[IRIG_STRAIGHT] = minute % 1440 * 60 + second;
    for (i = 0; i < REF_IRIG; i++)
        out[i] = irig_identifier(i) ? 2 : 0;
    for (i = 0; i < IRIG_DIGITS; i++) {
        unsigned digit = value[irig_digits[i].field] / irig_digits[i].unit % irig_digits[i].values;

        for (k = 0; k < irig_digits[i].bits; k++)
            out[irig_digits[i].from + k] = digit >> k & 1;
    }
    *elements = REF_IRIG;
    return 0;
}

/* Takes the bits of each digit out of a copy. What is left are the identifiers, and zeros. */
unsigned ref_read_irig(const uint8_t *elements, size_t length, struct ref_irig *read)
{
    unsigned value[IRIG_FIELDS] = {0}, i, k;
    uint8_t left[REF_IRIG];

    if (length != REF_IRIG)
        return 21;
    memcpy(left, elements, REF_IRIG);
    for (i = 0; i < IRIG_DIGITS; i++) {
        unsigned digit = 0;

        for (k = 0; k < irig_digits[i].bits; k++) {
            uint8_t *element = &left[irig_digits[i].from + k];

            if (*element > 1)
                return 21;
            digit += (unsigned)*element << k;
            *element = 0;
        }
        if (digit >= irig_digits[i].values)
            return 21;
        value[irig_digits[i].field] += digit * irig_digits[i].unit;
    }
    for (i = 0; i < REF_IRIG; i++)
        if (left[i] != (irig_identifier(i) ? 2 : 0))
            return 21;

    if (value[IRIG_DAY] < 1 || value[IRIG_DAY] > 366 || value[IRIG_HOUR] > 23
        || value[IRIG_MINUTE] > 59 || value[IRIG_SECOND] > 60)
        return 21;
    if (value[IRIG_SECOND] == 60 && (value[IRIG_HOUR] != 23 || value[IRIG_MINUTE] != 59
                                     || !ends_a_month(value[IRIG_DAY])))
        return 21;
    if (value[IRIG_STRAIGHT]
        != value[IRIG_HOUR] * 3600 + value[IRIG_MINUTE] * 60 + value[IRIG_SECOND])
        return 21;
    read->day_of_year = value[IRIG_DAY];
    read->second_of_day = value[IRIG_STRAIGHT];
    return 0;
}
