/*
 * Each constant of the header is what the library does: with one raised by one this program fails
 * (tests/constants tries each). Inputs are plain numbers and bits; what is expected is a name.
 */
#include "wwvb.h"

#include <stdio.h>
#include <string.h>

static int failures;

#define CHECK(test) \
    do { \
        if (!(test)) { \
            fprintf(stderr, "constants: line %d: %s\n", __LINE__, #test); \
            failures++; \
        } \
    } while (0)

/* The last minute of June 2012, which is month 149. */
#define JUNE_ENDS 6573599u

static uint8_t bits[60100], entries[18 * 1001];

/* Messages as the calls take them: minute 6,578,971 with data 0x3210fedcba9, and more with rising
   minutes. There is one too many. */
static const uint8_t messages[5 * 10] = {
    0, 0x64, 0x63, 0x1b, 0x03, 0x21, 0x0f, 0xed, 0xcb, 0xa9,
    0, 0x64, 0x63, 0x1c, 0, 0, 0, 0, 0, 0,
    0, 0x64, 0x63, 0x1d, 0x03, 0xff, 0xff, 0xff, 0xff, 0xff,
    0, 0x64, 0x63, 0x1e, 0, 0, 0, 0, 0, 1,
    0, 0x64, 0x63, 0x1f, 0, 0, 0, 0, 0, 2,
};

/* Writes a frame by the plan of six numbers; returns its bits. */
static size_t frame_of(uint32_t kind, uint32_t spring, uint32_t autumn, uint32_t leap_month,
                       int32_t leap_sign, uint32_t notice, uint32_t minute)
{
    wwvb_write_reply w = wwvb_write_recording(kind, spring, autumn, leap_month, leap_sign, notice,
                                              NULL, 0, minute, 1, bits, sizeof bits);

    return w.bits;
}

/* Writes frames by a plan without daylight time, and by so many bytes of messages. */
static wwvb_write_reply written(size_t length, uint32_t first, uint32_t count, size_t space)
{
    return wwvb_write_recording(1, 0, 0, 0, 0, 0, messages, length, first, count, bits, space);
}

/* The same in the amplitude code. */
static wwvb_write_reply sent(size_t length, uint32_t minute, int32_t ut1_sign, uint32_t ut1_tenths,
                             size_t space)
{
    return wwvb_write_amplitude(1, 0, 0, 0, 0, 0, messages, length, minute, ut1_sign, ut1_tenths,
                                bits, space);
}

/* Writes a minute in the amplitude code, with a leap second in June 2012 or with sign 0 none;
   returns its symbols. */
static size_t minute_of(int32_t leap_sign, uint32_t minute, int32_t ut1_sign, uint32_t ut1_tenths)
{
    wwvb_write_reply w = wwvb_write_amplitude(0, 10, 37, leap_sign ? 149 : 0, leap_sign, 0, NULL,
                                              0, minute, ut1_sign, ut1_tenths, bits, sizeof bits);

    return w.bits;
}

/* Writes a second of IRIG B by a plan without daylight time, and by so many bytes of messages. */
static wwvb_irig_write_reply recorded(size_t length, uint32_t minute, uint32_t second,
                                      size_t space)
{
    return wwvb_write_irig(1, 0, 0, 0, 0, 0, messages, length, minute, second, bits, space);
}

/* Writes a second of IRIG B, with a leap second in June 2012 or with sign 0 none; returns its
   elements. */
static size_t second_of(int32_t leap_sign, uint32_t minute, uint32_t second)
{
    wwvb_irig_write_reply w = wwvb_write_irig(0, 10, 37, leap_sign ? 149 : 0, leap_sign, 0, NULL,
                                              0, minute, second, bits, sizeof bits);

    return w.elements;
}

/* The refusal of a second of IRIG B in which an element stands at a place. */
static uint32_t with_element(uint8_t element, size_t at)
{
    size_t n = second_of(0, 6578970, 0);

    bits[at] = element;
    return wwvb_read_irig(bits, n).refusal;
}

/* The refusal of a minute of 60 symbols in which one stands at a second. */
static uint32_t with_symbol(uint8_t symbol, size_t at)
{
    size_t n = minute_of(0, 6578970, 1, 4);

    bits[at] = symbol;
    return wwvb_read_amplitude(bits, n).refusal;
}

/* The refusal of a frame of 60 bits in which a word, first bit first, stands from a bit on. */
static uint32_t with_word(const char *word, size_t at)
{
    uint8_t entry[18];
    size_t n = frame_of(0, 10, 37, 0, 0, 0, 6578970), i;

    for (i = 0; word[i] != 0; i++)
        bits[at + i] = (uint8_t)(word[i] - '0');
    return wwvb_read_frame(bits, n, entry, sizeof entry);
}

static wwvb_entry entry_of(size_t n)
{
    wwvb_entry none;
    uint8_t entry[18];

    memset(&none, 255, sizeof none);
    return wwvb_read_frame(bits, n, entry, sizeof entry) == 0 ? wwvb_entry_at(entry, 0) : none;
}

static void limits(void)
{
    wwvb_write_reply w;
    wwvb_read_reply r;
    size_t n, i;

    CHECK(wwvb_minute_to_date(WWVB_MINUTES - 1).year == 2099);
    CHECK(wwvb_minute_to_date(WWVB_MINUTES).year == 0);
    CHECK(written(0, 0, WWVB_MAX_COUNT, sizeof bits).refusal == 0);
    CHECK(written(0, 0, WWVB_MAX_COUNT + 1, sizeof bits).bits == 0);

    /* the longest recording: 1,000 frames with a minute of 61 seconds */
    w = wwvb_write_recording(1, 0, 0, 149, 1, 0, NULL, 0, JUNE_ENDS, 1000, bits,
                             WWVB_MAX_RECORDING);
    CHECK(w.bits == WWVB_MAX_RECORDING);
    w = wwvb_write_recording(1, 0, 0, 149, 1, 0, NULL, 0, JUNE_ENDS, 1000, bits,
                             WWVB_MAX_RECORDING - 1);
    CHECK(w.refusal == WWVB_NO_BIT_SPACE);

    CHECK(frame_of(1, 0, 0, 149, 1, 0, JUNE_ENDS) == WWVB_MAX_FRAME);
    n = frame_of(1, 0, 0, 149, -1, 0, JUNE_ENDS);
    CHECK(n == WWVB_MIN_FRAME);
    CHECK(wwvb_read_frame(bits, WWVB_MIN_FRAME - 1, entries, sizeof entries) == WWVB_TOO_SHORT);
    CHECK(wwvb_read_frame(bits, WWVB_MIN_FRAME, entries, sizeof entries) == WWVB_OK);

    /* the longest and the shortest minute of the amplitude code */
    CHECK(minute_of(1, JUNE_ENDS, 1, 0) == WWVB_MAX_FRAME);
    CHECK(wwvb_read_amplitude(bits, WWVB_MAX_FRAME).length == WWVB_MAX_FRAME);
    CHECK(wwvb_read_amplitude(bits, WWVB_MAX_FRAME + 1).refusal == WWVB_BAD_SYMBOLS);
    CHECK(minute_of(-1, JUNE_ENDS, 1, 0) == WWVB_MIN_FRAME);
    CHECK(wwvb_read_amplitude(bits, WWVB_MIN_FRAME).length == WWVB_MIN_FRAME);
    CHECK(wwvb_read_amplitude(bits, WWVB_MIN_FRAME - 1).refusal == WWVB_BAD_SYMBOLS);
    n = frame_of(1, 0, 0, 149, -1, 0, JUNE_ENDS);

    /* an entry takes so many bytes, and no fewer */
    memset(entries, 99, sizeof entries);
    CHECK(wwvb_read_frame(bits, n, entries, WWVB_ENTRY_SIZE - 1) == WWVB_NO_ENTRY_SPACE);
    CHECK(wwvb_read_frame(bits, n, entries, WWVB_ENTRY_SIZE) == WWVB_OK);
    for (i = 0; i < 30; i++)
        CHECK((entries[i] == 99) == (i >= WWVB_ENTRY_SIZE));
    n = written(0, 5, 3, sizeof bits).bits;
    r = wwvb_read_recording(bits, n, entries, 3 * WWVB_ENTRY_SIZE);
    CHECK(r.entries == 3 && r.used == 180 && r.refusal == WWVB_OK);
    CHECK(wwvb_entry_at(entries, 2).minute == 7);
}

/* How many messages there may be, their bytes, and their data. */
static void message_limits(void)
{
    wwvb_plan plan = wwvb_plan_by_rows(10, 37);
    size_t length;

    CHECK(written(WWVB_MAX_MESSAGES * WWVB_MESSAGE_SIZE, 0, 1, 60).refusal == WWVB_OK);
    CHECK(written((WWVB_MAX_MESSAGES + 1) * 10, 0, 1, 60).refusal == WWVB_ILLEGAL_PLAN);
    for (length = 0; length <= sizeof messages; length++)
        CHECK((written(length, 0, 1, 60).refusal == WWVB_OK) ==
              (length % WWVB_MESSAGE_SIZE == 0 && length <= 40));
    plan.message_count = 1;
    plan.messages[0].data = WWVB_DATA_LIMIT - 1;
    CHECK(wwvb_write(&plan, 0, 1, bits, sizeof bits).refusal == WWVB_OK);
    plan.messages[0].data = WWVB_DATA_LIMIT;
    CHECK(wwvb_write(&plan, 0, 1, bits, sizeof bits).refusal == WWVB_ILLEGAL_PLAN);
}

/* The page of one entry, and how many entries there are on a page. */
static void page_limits(void)
{
    static uint8_t text[3 * 2184];
    size_t n = written(0, 6578970, 101, sizeof bits).bits, i;

    CHECK(n == 101 * 60);
    memset(text, 99, sizeof text);
    CHECK(wwvb_print_pages(bits, 60, text, WWVB_PAGE_SIZE - 1).refusal == WWVB_NO_BIT_SPACE);
    CHECK(text[0] == 99);
    CHECK(wwvb_print_pages(bits, 60, text, sizeof text).refusal == WWVB_OK);
    for (i = 0; i < sizeof text; i++)
        CHECK((text[i] == 99) == (i >= WWVB_PAGE_SIZE));
    CHECK(memcmp(text + 84, " 6578970 2012-07-04 17:30 60 00   50  0 1\n", 42) == 0);
    CHECK(wwvb_print_pages(bits, 60 * WWVB_PAGE_ENTRIES, text, sizeof text).bytes ==
          WWVB_PAGE_SIZE);
    CHECK(wwvb_print_pages(bits, 60 * (WWVB_PAGE_ENTRIES + 1), text, sizeof text).bytes ==
          2 * WWVB_PAGE_SIZE);
    for (i = 0; i <= 101; i++) {
        size_t size = wwvb_pages_size(i);

        CHECK(size == (i + 49) / 50 * 2184);
        CHECK(wwvb_print_pages(bits, i * 60, text, size).bytes == size);
        CHECK(size == 0 ||
              wwvb_print_pages(bits, i * 60, text, size - 1).refusal == WWVB_NO_BIT_SPACE);
    }
    /* the most that a recording can have: the product is still exact */
    CHECK(wwvb_pages_size(SIZE_MAX / 59) / 2184 == (SIZE_MAX / 59 + 49) / 50);
}

/* The refusals of printing: those of reading come first, whatever the space. */
static void page_refusals(void)
{
    uint8_t text[2184];
    wwvb_print_reply p;
    size_t n = written(0, 5, 2, sizeof bits).bits, i;

    memset(text, 99, sizeof text);
    bits[119] = 1;
    p = wwvb_print_pages(bits, n, text, 0);
    CHECK(p.refusal == WWVB_BAD_LENGTH && p.bytes == 0);
    p = wwvb_print_pages(bits, n, text, sizeof text);
    CHECK(p.refusal == WWVB_BAD_LENGTH && p.bytes == 0);
    p = wwvb_print_pages(bits, n - 2, text, sizeof text);
    CHECK(p.refusal == WWVB_TOO_SHORT && p.bytes == 0);
    p = wwvb_print_pages(bits, 60, text, sizeof text - 1);
    CHECK(p.refusal == WWVB_NO_BIT_SPACE && p.bytes == 0);
    p = wwvb_print_pages(bits, 0, text, sizeof text);
    CHECK(p.refusal == WWVB_OK && p.bytes == 0);
    for (i = 0; i < sizeof text; i++)
        CHECK(text[i] == 99);
    p = wwvb_print_pages(bits, 60, text, sizeof text);
    CHECK(p.refusal == WWVB_OK && p.bytes == sizeof text);
}

static void refusals(void)
{
    uint8_t entry[18];
    wwvb_write_reply w;
    size_t n;

    CHECK(wwvb_minute_to_date(0).refusal == WWVB_OK);
    w = wwvb_write_recording(0, 0, 0, 0, 0, 0, NULL, 0, 0, 1, bits, sizeof bits);
    CHECK(w.refusal == WWVB_ILLEGAL_PLAN);
    w = wwvb_write_recording(4, 10, 37, 0, 0, 0, NULL, 0, 0, 1, bits, sizeof bits);
    CHECK(w.refusal == WWVB_ILLEGAL_PLAN);
    CHECK(written(0, 0, 0, sizeof bits).refusal == WWVB_BAD_COUNT);
    CHECK(written(0, 52595999, 2, sizeof bits).refusal == WWVB_MINUTE_TOO_LARGE);
    CHECK(wwvb_minute_to_date(52596000).refusal == WWVB_MINUTE_TOO_LARGE);
    CHECK(written(0, 0, 1, 59).refusal == WWVB_NO_BIT_SPACE);

    n = frame_of(0, 10, 37, 0, 0, 0, 6578970);
    CHECK(wwvb_read_frame(bits, n, entry, 17) == WWVB_NO_ENTRY_SPACE);
    CHECK(wwvb_read_frame(bits, 58, entry, 18) == WWVB_TOO_SHORT);
    CHECK(wwvb_read_frame(bits, 59, entry, 18) == WWVB_BAD_LENGTH);
    CHECK(with_word("2", 29) == WWVB_NOT_BITS);
    CHECK(with_word("1", 0) == WWVB_BAD_SYNC);
    CHECK(with_word("000010", 47) == WWVB_BAD_STATE); /* 00010; the third 0 is the notice */
    CHECK(with_word("111111", 53) == WWVB_BAD_NEXT_CHANGE);
    CHECK(with_word("1", 59) == WWVB_BAD_LENGTH);
    /* bits 13 to 46 all 1 are the time word of 67,108,863: each parity bit sums 15 time bits */
    CHECK(with_word("1111111111111111111111111111111111", 13) == WWVB_BAD_MINUTE);

    n = frame_of(1, 0, 0, 0, 0, 0, 5);
    CHECK(wwvb_write_recording(1, 0, 0, 0, 0, 0, NULL, 0, 7, 1, bits + n, 60).bits == 60);
    CHECK(wwvb_read_recording(bits, n + 60, entries, sizeof entries).refusal == WWVB_OUT_OF_ORDER);
    CHECK(wwvb_date_to_minute(2011, 2, 29, 0, 0).refusal == WWVB_NOT_A_DATE);
    CHECK(wwvb_local_date(0, 0, -601, 2).refusal == WWVB_BAD_SETTING);
    CHECK(wwvb_local_date(0, 4, -600, 2).refusal == WWVB_BAD_SETTING);
    CHECK(wwvb_local_date(0, 0, -600, 4).refusal == WWVB_BAD_SETTING);
}

/* Two frames, the second with the sync word and the time[0] of a message, and one bit of it
   inverted. */
static size_t refusal_of_message(uint32_t first, size_t length, size_t inverted)
{
    static const char sync[] = "1101000111010";
    size_t i;

    CHECK(written(0, first, 1, 60).bits == 60);
    memset(bits + 60, 0, 61);
    for (i = 0; i < 13; i++)
        bits[60 + i] = (uint8_t)(sync[i] - '0');
    bits[60 + 19] = (first + 1) & 1;
    bits[60 + inverted] ^= 1;
    return wwvb_read_recording(bits, 60 + length, entries, sizeof entries).refusal;
}

/* A message as the first frame, alone, and as a later frame with each check that it has. */
static void message_refusals(void)
{
    wwvb_read_reply r;

    CHECK(refusal_of_message(5, 60, 29) == WWVB_OK);
    r = wwvb_read_recording(bits + 60, 60, entries, sizeof entries);
    CHECK(r.refusal == WWVB_FIRST_MESSAGE && r.entries == 0 && r.used == 0);
    CHECK(wwvb_read_frame(bits + 60, 60, entries, sizeof entries) == WWVB_FIRST_MESSAGE);
    CHECK(wwvb_read_frame(bits + 60, 61, entries, sizeof entries) == WWVB_FIRST_MESSAGE);
    CHECK(refusal_of_message(5, 58, 19) == WWVB_TOO_SHORT);
    CHECK(refusal_of_message(5, 60, 0) == WWVB_BAD_SYNC);
    CHECK(refusal_of_message(52595999, 59, 19) == WWVB_BAD_MINUTE);
    CHECK(refusal_of_message(5, 59, 19) == WWVB_BAD_LENGTH);
    CHECK(refusal_of_message(5, 60, 59) == WWVB_BAD_LENGTH);
    CHECK(refusal_of_message(5, 60, 19) == WWVB_OUT_OF_ORDER);
}

#define FEBRUARY 571680u /* 2001-02-01 00:00, of a month of 40,320 minutes */

/* A message in the last minute of a month, and all frames of that month are messages: its length
   is not known. With a time frame among them it is. */
static void unknown_length(void)
{
    static uint8_t month[40321 * 60], read[40321 * 18];
    wwvb_plan plan = wwvb_us_plan();
    wwvb_read_reply r;
    size_t i;

    plan.message_count = 1;
    plan.messages[0].minute = FEBRUARY;
    CHECK(wwvb_write(&plan, FEBRUARY - 1, 2, month, 120).bits == 120);
    for (i = 2; i < 40321; i++) {
        memcpy(month + i * 60, month + 60, 60);
        month[i * 60 + 19] = (FEBRUARY + i - 1) & 1;
    }
    r = wwvb_read_recording(month, sizeof month, read, sizeof read);
    CHECK(r.refusal == WWVB_UNKNOWN_LENGTH && r.entries == 40320 && r.used == 40320 * 60);
    plan.message_count = 0;
    CHECK(wwvb_write(&plan, FEBRUARY + 999, 1, month + 1000 * 60, 60).bits == 60);
    r = wwvb_read_recording(month, sizeof month, read, sizeof read);
    CHECK(r.refusal == WWVB_OK && r.entries == 40321 && r.used == sizeof month);
}

/* The checks of the amplitude code in their order: most refused calls would fail later ones. */
static void amplitude_refusals(void)
{
    wwvb_write_reply w;
    wwvb_amplitude_reply a;
    size_t n, i;

    memset(bits, 99, 70);
    w = wwvb_write_amplitude(3, 0, 0, 0, 0, 0, NULL, 0, 52596000, 0, 10, bits, 0);
    CHECK(w.refusal == WWVB_ILLEGAL_PLAN && w.bits == 0);
    w = wwvb_write_amplitude(4, 10, 37, 0, 0, 0, NULL, 0, 52596000, 0, 10, bits, 0);
    CHECK(w.refusal == WWVB_ILLEGAL_PLAN && w.bits == 0);
    w = sent(9, 52596000, 0, 10, 0);
    CHECK(w.refusal == WWVB_ILLEGAL_PLAN && w.bits == 0);
    w = sent(50, 52596000, 0, 10, 0);
    CHECK(w.refusal == WWVB_ILLEGAL_PLAN && w.bits == 0);
    w = sent(40, 52596000, 0, 10, 0);
    CHECK(w.refusal == WWVB_MINUTE_TOO_LARGE && w.bits == 0);
    w = sent(0, 52595999, 0, 9, 59);
    CHECK(w.refusal == WWVB_BAD_VALUE && w.bits == 0);
    w = sent(0, 52595999, 1, 10, 59);
    CHECK(w.refusal == WWVB_BAD_VALUE && w.bits == 0);
    w = sent(0, 52595999, -1, 9, 59);
    CHECK(w.refusal == WWVB_NO_BIT_SPACE && w.bits == 0);
    for (i = 0; i < 70; i++)
        CHECK(bits[i] == 99);
    w = sent(0, 52595999, -1, 9, 60);
    CHECK(w.refusal == WWVB_OK && w.bits == 60);
    for (i = 60; i < 70; i++)
        CHECK(bits[i] == 99);

    CHECK(with_symbol(0, 4) == WWVB_OK);
    CHECK(with_symbol(1, 4) == WWVB_BAD_SYMBOLS);  /* a fixed 0 */
    CHECK(with_symbol(0, 19) == WWVB_BAD_SYMBOLS); /* a marker */
    CHECK(with_symbol(2, 20) == WWVB_BAD_SYMBOLS);
    CHECK(with_symbol(3, 58) == WWVB_BAD_SYMBOLS);
    CHECK(with_symbol(1, 1) == WWVB_BAD_VALUE);  /* minute 70 */
    CHECK(with_symbol(0, 36) == WWVB_BAD_VALUE); /* UT1 sign 001 */
    CHECK(with_symbol(0, 55) == WWVB_BAD_VALUE); /* no leap year, and it is 2012 */
    n = minute_of(0, 6578970, 1, 4);
    CHECK(wwvb_read_amplitude(bits, n - 1).refusal == WWVB_BAD_VALUE);
    bits[1] = 1;
    bits[59] = 1;
    a = wwvb_read_amplitude(bits, n);
    CHECK(a.refusal == WWVB_BAD_SYMBOLS && a.year == 0 && a.ut1_sign == 0 && a.length == 0);
    bits[59] = 2;
    a = wwvb_read_amplitude(bits, n);
    CHECK(a.refusal == WWVB_BAD_VALUE && a.year == 0 && a.ut1_sign == 0 && a.length == 0);
}

/* Every field of an amplitude reply, and the symbols of 2012-07-04 17:30. */
static void amplitude(void)
{
    static const char text[] = "201100000200010011120001010002011000101201000000120010010112";
    wwvb_amplitude_reply a;
    size_t n = minute_of(0, 6578970, 1, 4), i;

    CHECK(n == 60);
    for (i = 0; i < 60; i++)
        CHECK(bits[i] == text[i] - '0');
    a = wwvb_read_amplitude(bits, n);
    CHECK(a.refusal == WWVB_OK && a.year == 2012 && a.month == 7 && a.day == 4);
    CHECK(a.hour == 17 && a.minute == 30 && a.weekday == 4);
    CHECK(a.ut1_sign == 1 && a.ut1_tenths == 4 && a.warning == 0 && a.length == 60);
    CHECK(a.daylight == WWVB_DAYLIGHT_ON);
    n = minute_of(-1, JUNE_ENDS, -1, 0);
    a = wwvb_read_amplitude(bits, n);
    CHECK(a.refusal == WWVB_OK && a.month == 6 && a.day == 30 && a.hour == 23 && a.minute == 59);
    CHECK(a.ut1_sign == -1 && a.ut1_tenths == 0 && a.warning == 1 && a.length == 59);
    n = minute_of(0, 6412320, 1, 0);
    CHECK(wwvb_read_amplitude(bits, n).daylight == WWVB_DAYLIGHT_BEGINS);
    n = minute_of(0, 6755040, 1, 0);
    CHECK(wwvb_read_amplitude(bits, n).daylight == WWVB_DAYLIGHT_ENDS);
    n = minute_of(0, 6756480, 1, 0);
    CHECK(wwvb_read_amplitude(bits, n).daylight == WWVB_DAYLIGHT_OFF);
}

/* The checks of IRIG B in their order: each refused writing would fail the later ones. */
static void irig_refusals(void)
{
    wwvb_irig_write_reply w;
    wwvb_irig_reply r;
    size_t i;

    memset(bits, 99, 110);
    w = wwvb_write_irig(3, 0, 0, 0, 0, 0, NULL, 0, 52596000, 61, bits, 0);
    CHECK(w.refusal == WWVB_ILLEGAL_PLAN && w.elements == 0);
    w = recorded(9, 52596000, 61, 0);
    CHECK(w.refusal == WWVB_ILLEGAL_PLAN && w.elements == 0);
    w = recorded(50, 52596000, 61, 0);
    CHECK(w.refusal == WWVB_ILLEGAL_PLAN && w.elements == 0);
    w = recorded(40, 52596000, 61, 0);
    CHECK(w.refusal == WWVB_MINUTE_TOO_LARGE && w.elements == 0);
    w = recorded(40, 52595999, 60, 0);
    CHECK(w.refusal == WWVB_BAD_SECOND && w.elements == 0);
    w = recorded(40, 52595999, 59, WWVB_IRIG_ELEMENTS - 1);
    CHECK(w.refusal == WWVB_NO_BIT_SPACE && w.elements == 0);
    for (i = 0; i < 110; i++)
        CHECK(bits[i] == 99);
    w = recorded(40, 52595999, 59, WWVB_IRIG_ELEMENTS);
    CHECK(w.refusal == WWVB_OK && w.elements == WWVB_IRIG_ELEMENTS);
    for (i = 0; i < 110; i++)
        CHECK((bits[i] == 99) == (i >= WWVB_IRIG_ELEMENTS));

    /* a second that is not below the minute's length, at all three lengths */
    CHECK(second_of(-1, JUNE_ENDS, 58) == 100 && second_of(-1, JUNE_ENDS, 59) == 0);
    CHECK(second_of(0, JUNE_ENDS, 59) == 100 && second_of(0, JUNE_ENDS, 60) == 0);
    CHECK(second_of(1, JUNE_ENDS, 60) == 100 && second_of(1, JUNE_ENDS, 61) == 0);

    CHECK(with_element(0, 5) == WWVB_OK);
    CHECK(with_element(1, 5) == WWVB_BAD_SECOND);  /* a fixed 0 */
    CHECK(with_element(0, 99) == WWVB_BAD_SECOND); /* an identifier */
    CHECK(with_element(2, 5) == WWVB_BAD_SECOND);
    CHECK(with_element(3, 98) == WWVB_BAD_SECOND);
    CHECK(with_element(1, 1) == WWVB_BAD_SECOND);  /* second 1, and the straight seconds are not */
    CHECK(with_element(1, 30) == WWVB_OK);         /* day 187 */
    CHECK(with_element(1, 41) == WWVB_BAD_SECOND); /* day 386 */
    CHECK(second_of(0, 6578970, 0) == WWVB_IRIG_ELEMENTS);
    r = wwvb_read_irig(bits, WWVB_IRIG_ELEMENTS - 1);
    CHECK(r.refusal == WWVB_BAD_SECOND && r.day_of_year == 0 && r.second_of_day == 0);
    bits[100] = 0;
    r = wwvb_read_irig(bits, WWVB_IRIG_ELEMENTS + 1);
    CHECK(r.refusal == WWVB_BAD_SECOND && r.day_of_year == 0 && r.second_of_day == 0);
}

/* The elements of 2012-07-04 17:30:00, and readings: a day that one element changes, the leap
   second of 2012-06-30, and day 366. */
static void irig(void)
{
    static const char text[] =
        "20000000020000011002111001000201100000121000000002"
        "00000000020000000002000000000200011000021101111002";
    wwvb_irig_reply r;
    size_t i;

    CHECK(second_of(0, 6578970, 0) == 100);
    for (i = 0; i < 100; i++)
        CHECK(bits[i] == text[i] - '0');
    r = wwvb_read_irig(bits, 100);
    CHECK(r.refusal == WWVB_OK && r.day_of_year == 186 && r.second_of_day == 63000);
    bits[30] = 1;
    r = wwvb_read_irig(bits, 100);
    CHECK(r.refusal == WWVB_OK && r.day_of_year == 187 && r.second_of_day == 63000);
    CHECK(second_of(1, JUNE_ENDS, 60) == 100);
    r = wwvb_read_irig(bits, 100);
    CHECK(r.refusal == WWVB_OK && r.day_of_year == 182 && r.second_of_day == 86400);
    bits[30] = 1; /* day 183, which ends no month */
    CHECK(wwvb_read_irig(bits, 100).refusal == WWVB_BAD_SECOND);
    CHECK(second_of(0, 366 * 1440 - 1, 59) == 100);
    r = wwvb_read_irig(bits, 100);
    CHECK(r.refusal == WWVB_OK && r.day_of_year == 366 && r.second_of_day == 86399);
}

/* Every byte of an entry with a value that its neighbours do not have. */
static void fields(void)
{
    uint8_t entry[18];
    size_t n = frame_of(0, 10, 37, 149, 1, 1, JUNE_ENDS); /* 0x00644e1f */
    wwvb_entry e;

    bits[46] ^= 1; /* place 31 */
    CHECK(wwvb_read_frame(bits, n, entry, sizeof entry) == WWVB_OK);
    CHECK(entry[WWVB_ENTRY_MINUTE] == 0 && entry[WWVB_ENTRY_MINUTE + 1] == 0x64 &&
          entry[WWVB_ENTRY_MINUTE + 2] == 0x4e && entry[WWVB_ENTRY_MINUTE + 3] == 0x1f);
    CHECK(entry[WWVB_ENTRY_LENGTH] == 61);
    CHECK(entry[WWVB_ENTRY_DAYLIGHT] == 3);
    CHECK(entry[WWVB_ENTRY_LEAP] == 2);
    CHECK(entry[WWVB_ENTRY_ROW] == 37);
    CHECK(entry[WWVB_ENTRY_NOTICE] == 1);
    CHECK(entry[WWVB_ENTRY_PLACE] == 31);
    CHECK(entry[WWVB_ENTRY_ECHO] == 1);
    CHECK(entry[WWVB_ENTRY_KIND] == WWVB_ENTRY_TIME);
    for (n = WWVB_ENTRY_DATA; n < sizeof entry; n++)
        CHECK(entry[n] == 0);

    e = wwvb_entry_at(entry, 0);
    CHECK(e.minute == JUNE_ENDS && e.length == 61 && e.daylight == 3 && e.leap == 2 && e.row == 37);
    CHECK(e.notice == 1 && e.place == 31 && e.echo == 1);
    CHECK(e.kind == WWVB_ENTRY_TIME && e.data == 0);
}

/* The same of a message: 2012-07-04 17:31, after a time frame. */
static void message_fields(void)
{
    static const uint8_t data[6] = {0x03, 0x21, 0x0f, 0xed, 0xcb, 0xa9};
    uint8_t read[2 * 18], *entry = read + 18;
    wwvb_write_reply w = wwvb_write_recording(0, 10, 37, 0, 0, 1, messages, WWVB_MESSAGE_SIZE,
                                              6578970, 2, bits, sizeof bits);
    wwvb_entry e;

    CHECK(wwvb_read_recording(bits, w.bits, read, sizeof read).entries == 2);
    CHECK(entry[WWVB_ENTRY_MINUTE] == 0 && entry[WWVB_ENTRY_MINUTE + 1] == 0x64 &&
          entry[WWVB_ENTRY_MINUTE + 2] == 0x63 && entry[WWVB_ENTRY_MINUTE + 3] == 0x1b);
    CHECK(entry[WWVB_ENTRY_LENGTH] == 60 && entry[WWVB_ENTRY_NOTICE] == 1);
    CHECK(entry[WWVB_ENTRY_DAYLIGHT] == 0 && entry[WWVB_ENTRY_LEAP] == 0);
    CHECK(entry[WWVB_ENTRY_ROW] == 0 && entry[WWVB_ENTRY_PLACE] == 0);
    CHECK(entry[WWVB_ENTRY_ECHO] == 1 && entry[WWVB_ENTRY_KIND] == WWVB_ENTRY_MESSAGE);
    CHECK(memcmp(entry + WWVB_ENTRY_DATA, data, sizeof data) == 0);

    e = wwvb_entry_at(read, 1);
    CHECK(e.minute == 6578971 && e.length == 60 && e.daylight == 0 && e.leap == 0 && e.row == 0);
    CHECK(e.notice == 1 && e.place == 0 && e.echo == 1);
    CHECK(e.kind == WWVB_ENTRY_MESSAGE && e.data == 0x3210fedcba9ull);

    /* it tells no daylight state, so it has no local date; its neighbour has */
    CHECK(wwvb_entry_local_date(&e, -300).refusal == WWVB_BAD_SETTING);
    CHECK(wwvb_entry_local_date(&e, -300).hour == 0);
    e.minute = 52596000;
    CHECK(wwvb_entry_local_date(&e, -300).refusal == WWVB_MINUTE_TOO_LARGE);
    e = wwvb_entry_at(read, 0);
    CHECK(wwvb_entry_local_date(&e, -300).hour == 13);
    e.kind = 2;
    CHECK(wwvb_entry_local_date(&e, -300).refusal == WWVB_BAD_SETTING);
}

static void numbers(void)
{
    wwvb_plan us = wwvb_us_plan();
    size_t n;
    uint32_t row;

    /* kinds, by the state and the row that they send on a summer day and on a winter day */
    CHECK(entry_of(frame_of(WWVB_KIND_ROWS, 10, 37, 0, 0, 0, 6578970)).row == 37);
    CHECK(entry_of(frame_of(WWVB_KIND_NONE, 0, 0, 0, 0, 0, 6578970)).row == WWVB_ROW_NO_DAYLIGHT);
    CHECK(entry_of(frame_of(WWVB_KIND_NONE, 0, 0, 0, 0, 0, 6578970)).daylight == WWVB_DAYLIGHT_OFF);
    CHECK(entry_of(frame_of(WWVB_KIND_WHOLE_YEAR, 0, 0, 0, 0, 0, 0)).row == WWVB_ROW_WHOLE_YEAR);
    CHECK(entry_of(frame_of(WWVB_KIND_WHOLE_YEAR, 0, 0, 0, 0, 0, 0)).daylight == WWVB_DAYLIGHT_ON);
    n = frame_of(1, 0, 0, 0, 0, 0, 0);
    memcpy(bits + 53, "\1\0\0\0\1\1", 6); /* 100011, other time */
    CHECK(entry_of(n).row == WWVB_ROW_OTHER_TIME);

    /* the rows of the United States: 2012-03-11 and 2012-11-04; 2 o'clock */
    CHECK(entry_of(frame_of(0, WWVB_US_SPRING_ROW, 37, 0, 0, 0, 6412319)).daylight == WWVB_DAYLIGHT_OFF);
    CHECK(entry_of(frame_of(0, WWVB_US_SPRING_ROW, 37, 0, 0, 0, 6412320)).daylight ==
          WWVB_DAYLIGHT_BEGINS);
    CHECK(entry_of(frame_of(0, WWVB_US_SPRING_ROW, 37, 0, 0, 0, 6413760)).daylight == WWVB_DAYLIGHT_ON);
    CHECK(entry_of(frame_of(0, 10, WWVB_US_AUTUMN_ROW, 0, 0, 0, 6755039)).daylight == WWVB_DAYLIGHT_ON);
    CHECK(entry_of(frame_of(0, 10, WWVB_US_AUTUMN_ROW, 0, 0, 0, 6755040)).daylight ==
          WWVB_DAYLIGHT_ENDS);
    CHECK(entry_of(frame_of(0, 10, WWVB_US_AUTUMN_ROW, 0, 0, 0, 6756480)).daylight == WWVB_DAYLIGHT_OFF);
    CHECK(us.kind == 0 && us.spring == 10 && us.autumn == 37);
    CHECK(us.leap_month == 0 && us.leap_sign == 0 && us.notice == 0 && us.message_count == 0);
    for (row = 0; row < 100; row++) {
        static const uint32_t hours[3] = {1, 2, 3};
        uint32_t want = row < 1 || row > 48 ? 0 : hours[(row - 1) / 8 % 3];

        CHECK(wwvb_change_hour(row) == want);
    }
    CHECK(wwvb_change_hour(0xffffffffu) == 0);

    /* leap states */
    CHECK(entry_of(frame_of(1, 0, 0, 149, 1, 0, JUNE_ENDS)).leap == WWVB_LEAP_POSITIVE);
    CHECK(entry_of(frame_of(1, 0, 0, 149, -1, 0, JUNE_ENDS)).leap == WWVB_LEAP_NEGATIVE);
    CHECK(entry_of(frame_of(1, 0, 0, 149, 1, 0, JUNE_ENDS + 1)).leap == WWVB_LEAP_NONE);
}

/* Whether a plan sends a row and a daylight state in the frame of a minute. */
static int sends(const wwvb_plan *plan, uint32_t minute, uint32_t row, uint32_t daylight)
{
    size_t n = wwvb_write(plan, minute, 1, bits, sizeof bits).bits;
    wwvb_entry e = entry_of(n);

    return e.minute == minute && e.row == row && e.daylight == daylight;
}

/* The law of 2000 to 2006, and the rows from then on, by what is sent: in 2003 from 04-06 to
   10-26, in 2006 to 10-29, and in 2007 from 03-11 to 11-04. */
static void earlier_law(void)
{
    wwvb_plan us = wwvb_us_plan_since_2000();

    CHECK(us.kind == WWVB_KIND_EARLIER_LAW && us.spring == 10 && us.autumn == 37);
    CHECK(us.leap_month == 0 && us.leap_sign == 0 && us.notice == 0 && us.message_count == 0);
    CHECK(sends(&us, 0, 13, WWVB_DAYLIGHT_OFF));
    CHECK(sends(&us, 1715039, 14, WWVB_DAYLIGHT_OFF));
    CHECK(sends(&us, 1715040, 36, WWVB_DAYLIGHT_BEGINS));
    CHECK(sends(&us, 1716480, 36, WWVB_DAYLIGHT_ON));
    CHECK(sends(&us, 2007359, 36, WWVB_DAYLIGHT_ON));
    CHECK(sends(&us, 2007360, 13, WWVB_DAYLIGHT_ENDS));
    CHECK(sends(&us, 2008800, 13, WWVB_DAYLIGHT_OFF));
    CHECK(sends(&us, 3589919, 36, WWVB_DAYLIGHT_ON));
    CHECK(sends(&us, 3589920, WWVB_US_SPRING_ROW, WWVB_DAYLIGHT_ENDS));
    CHECK(sends(&us, 3781439, WWVB_US_SPRING_ROW, WWVB_DAYLIGHT_OFF));
    CHECK(sends(&us, 3781440, WWVB_US_AUTUMN_ROW, WWVB_DAYLIGHT_BEGINS));
    CHECK(sends(&us, 4124159, WWVB_US_AUTUMN_ROW, WWVB_DAYLIGHT_ON));
    CHECK(sends(&us, 4124160, WWVB_US_SPRING_ROW, WWVB_DAYLIGHT_ENDS));

    /* the same by numbers, and what the rows alone send on that day */
    CHECK(entry_of(frame_of(WWVB_KIND_EARLIER_LAW, 10, 37, 0, 0, 0, 1715040)).row == 36);
    CHECK(entry_of(frame_of(WWVB_KIND_ROWS, 10, 37, 0, 0, 0, 1715040)).daylight ==
          WWVB_DAYLIGHT_ON);
    CHECK(frame_of(WWVB_KIND_EARLIER_LAW, 0, 0, 0, 0, 0, 1715040) == 0);
}

/* Local dates on the last change of the earlier law, 2006-10-29 in New York: back from 2 to 1
   o'clock at 06:00 UTC. The row is the plan's own in spring, so the hour is that row's. */
static void earlier_law_clock(void)
{
    wwvb_plan us = wwvb_us_plan_since_2000();
    wwvb_entry e = entry_of(wwvb_write(&us, 3589920 + 359, 1, bits, sizeof bits).bits);
    wwvb_date_reply d = wwvb_entry_local_date(&e, -300);

    CHECK(d.refusal == WWVB_OK && d.month == 10 && d.day == 29 && d.hour == 1 && d.minute == 59);
    e = entry_of(wwvb_write(&us, 3589920 + 360, 1, bits, sizeof bits).bits);
    d = wwvb_entry_local_date(&e, -300);
    CHECK(d.refusal == WWVB_OK && d.month == 10 && d.day == 29 && d.hour == 1 && d.minute == 0);
    us.spring = 2; /* second Sunday in March at 1 o'clock */
    e = entry_of(wwvb_write(&us, 3589920 + 359, 1, bits, sizeof bits).bits);
    d = wwvb_entry_local_date(&e, -300);
    CHECK(e.row == 2 && d.hour == 0 && d.minute == 59);
    d = wwvb_local_date(e.minute, e.daylight, -300, wwvb_change_hour(36)); /* of the day before */
    CHECK(d.refusal == WWVB_OK && d.hour == 1 && d.minute == 59);
}

/* The structs' calls beside those with numbers. */
static void structs(void)
{
    wwvb_plan plan = wwvb_plan_by_rows(3, 44);
    uint8_t other[200];
    wwvb_write_reply a, b;
    wwvb_irig_write_reply i, k;
    wwvb_entry e;
    wwvb_date_reply d;

    plan.leap_month = 149;
    plan.leap_sign = -1;
    plan.notice = 1;
    a = wwvb_write(&plan, JUNE_ENDS - 1, 3, other, sizeof other);
    b = wwvb_write_recording(0, 3, 44, 149, -1, 1, NULL, 0, JUNE_ENDS - 1, 3, bits, sizeof bits);
    CHECK(a.refusal == WWVB_OK && a.bits == 179 && b.bits == a.bits);
    CHECK(memcmp(bits, other, a.bits) == 0);
    CHECK(wwvb_write(&plan, JUNE_ENDS - 1, 3, other, 178).refusal == WWVB_NO_BIT_SPACE);

    a = wwvb_write_amplitude_by_plan(&plan, JUNE_ENDS, -1, 7, other, sizeof other);
    b = wwvb_write_amplitude(0, 3, 44, 149, -1, 1, NULL, 0, JUNE_ENDS, -1, 7, bits, sizeof bits);
    CHECK(a.refusal == WWVB_OK && a.bits == 59 && b.refusal == WWVB_OK && b.bits == 59);
    CHECK(memcmp(bits, other, a.bits) == 0);
    CHECK(wwvb_write_amplitude_by_plan(&plan, JUNE_ENDS, -1, 7, other, 58).refusal ==
          WWVB_NO_BIT_SPACE);
    CHECK(wwvb_write_amplitude_by_plan(&plan, 0, 0, 7, other, 61).refusal == WWVB_BAD_VALUE);
    CHECK(wwvb_write_amplitude_by_plan(&plan, 0, 1, 10, other, 61).refusal == WWVB_BAD_VALUE);

    i = wwvb_write_irig_by_plan(&plan, JUNE_ENDS, 58, other, sizeof other);
    k = wwvb_write_irig(0, 3, 44, 149, -1, 1, NULL, 0, JUNE_ENDS, 58, bits, sizeof bits);
    CHECK(i.refusal == WWVB_OK && i.elements == 100 && k.refusal == WWVB_OK && k.elements == 100);
    CHECK(memcmp(bits, other, 100) == 0);
    CHECK(wwvb_write_irig_by_plan(&plan, JUNE_ENDS, 58, other, 99).refusal == WWVB_NO_BIT_SPACE);
    CHECK(wwvb_write_irig_by_plan(&plan, JUNE_ENDS, 59, other, 100).refusal == WWVB_BAD_SECOND);
    CHECK(wwvb_write_irig_by_plan(&plan, 52596000, 0, other, 100).refusal ==
          WWVB_MINUTE_TOO_LARGE);
    plan.leap_sign = 1;
    CHECK(wwvb_write_irig_by_plan(&plan, JUNE_ENDS, 60, other, 100).refusal == WWVB_OK);
    plan.leap_month = 148;
    CHECK(wwvb_write_irig_by_plan(&plan, JUNE_ENDS, 60, other, 100).refusal == WWVB_BAD_SECOND);

    /* each field of the plan on its own */
    plan = wwvb_plan_by_rows(3, 44);
    CHECK(wwvb_write_amplitude_by_plan(&plan, 0, 1, 0, other, sizeof other).refusal == WWVB_OK);
    CHECK(wwvb_write_irig_by_plan(&plan, 0, 0, other, sizeof other).refusal == WWVB_OK);
    plan.notice = 2;
    CHECK(wwvb_write_amplitude_by_plan(&plan, 0, 1, 0, other, 61).refusal == WWVB_ILLEGAL_PLAN);
    CHECK(wwvb_write_irig_by_plan(&plan, 0, 0, other, 100).refusal == WWVB_ILLEGAL_PLAN);
    plan = wwvb_plan_by_rows(25, 44);
    CHECK(wwvb_write_amplitude_by_plan(&plan, 0, 1, 0, other, 61).refusal == WWVB_ILLEGAL_PLAN);
    CHECK(wwvb_write_irig_by_plan(&plan, 0, 0, other, 100).refusal == WWVB_ILLEGAL_PLAN);
    plan = wwvb_plan_by_rows(3, 24);
    CHECK(wwvb_write_amplitude_by_plan(&plan, 0, 1, 0, other, 61).refusal == WWVB_ILLEGAL_PLAN);
    CHECK(wwvb_write_irig_by_plan(&plan, 0, 0, other, 100).refusal == WWVB_ILLEGAL_PLAN);
    plan = wwvb_plan_by_rows(3, 44);
    plan.kind = WWVB_KIND_NONE;
    CHECK(wwvb_write_amplitude_by_plan(&plan, 0, 1, 0, other, 61).refusal == WWVB_ILLEGAL_PLAN);
    CHECK(wwvb_write_irig_by_plan(&plan, 0, 0, other, 100).refusal == WWVB_ILLEGAL_PLAN);
    CHECK(wwvb_write(&plan, 0, 1, other, sizeof other).refusal == WWVB_ILLEGAL_PLAN);

    /* 2012-03-11 07:00 UTC is 03:00 in New York: the clocks have just changed at 2 */
    e = entry_of(frame_of(0, 10, 37, 0, 0, 0, 6412740));
    d = wwvb_entry_local_date(&e, -300);
    CHECK(d.refusal == WWVB_OK && d.month == 3 && d.day == 11 && d.hour == 3 && d.minute == 0);
    CHECK(e.row == WWVB_US_AUTUMN_ROW); /* the row is that of the change after today's */
    e.minute--;
    d = wwvb_entry_local_date(&e, -300);
    CHECK(d.refusal == WWVB_OK && d.hour == 1 && d.minute == 59);
    CHECK(wwvb_entry_local_date(&e, -239).refusal == WWVB_BAD_SETTING);
    e.row = WWVB_ROW_OTHER_TIME; /* a change today at an hour that no row gives */
    CHECK(wwvb_entry_local_date(&e, -300).refusal == WWVB_BAD_SETTING);
    CHECK(entry_of(frame_of(0, 10, 37, 0, 0, 0, 6755040)).row == WWVB_US_SPRING_ROW);
    e = entry_of(frame_of(1, 0, 0, 0, 0, 0, 6578970));
    d = wwvb_entry_local_date(&e, -300);
    CHECK(d.refusal == WWVB_OK && d.day == 4 && d.hour == 12 && d.minute == 30);
    e = entry_of(frame_of(2, 0, 0, 0, 0, 0, 6578970));
    d = wwvb_entry_local_date(&e, -300);
    CHECK(d.refusal == WWVB_OK && d.day == 4 && d.hour == 13 && d.minute == 30);
}

/* Whether each inline form accepts the plan. */
static int accepted(const wwvb_plan *plan)
{
    return wwvb_write(plan, 0, 1, bits, sizeof bits).refusal == WWVB_OK &&
           wwvb_write_amplitude_by_plan(plan, 0, 1, 0, bits, 61).refusal == WWVB_OK &&
           wwvb_write_irig_by_plan(plan, 0, 0, bits, 100).refusal == WWVB_OK;
}

/* Whether each refuses it. */
static int illegal(const wwvb_plan *plan)
{
    return wwvb_write(plan, 0, 1, bits, sizeof bits).refusal == WWVB_ILLEGAL_PLAN &&
           wwvb_write_amplitude_by_plan(plan, 0, 1, 0, bits, 61).refusal == WWVB_ILLEGAL_PLAN &&
           wwvb_write_irig_by_plan(plan, 0, 0, bits, 100).refusal == WWVB_ILLEGAL_PLAN;
}

/* Messages in a struct beside those in bytes: none to four of them. */
static void message_structs(void)
{
    wwvb_plan plan = wwvb_us_plan();
    uint8_t other[400], bytes[WWVB_MAX_MESSAGES * WWVB_MESSAGE_SIZE];
    wwvb_write_reply a, b;
    wwvb_irig_write_reply i;
    uint32_t n;

    for (n = 0; n < 4; n++)
        plan.messages[n].minute = 6578971 + n;
    plan.messages[0].data = 0x3210fedcba9ull;
    plan.messages[1].data = 0;
    plan.messages[2].data = 0x3ffffffffffull;
    plan.messages[3].data = 1;
    for (n = 0; n <= 4; n++) {
        plan.message_count = n;
        CHECK(wwvb_message_bytes(&plan, bytes) == n * 10);
        CHECK(memcmp(bytes, messages, n * 10) == 0);
        a = wwvb_write(&plan, 6578970, 6, other, sizeof other);
        b = wwvb_write_recording(0, 10, 37, 0, 0, 0, messages, n * 10, 6578970, 6, bits, 360);
        CHECK(a.refusal == WWVB_OK && b.refusal == WWVB_OK && a.bits == 360 && b.bits == 360);
        CHECK(memcmp(bits, other, 360) == 0);
        a = wwvb_write_amplitude_by_plan(&plan, 6578971, 1, 4, other, sizeof other);
        CHECK(a.refusal == WWVB_OK && a.bits == minute_of(0, 6578971, 1, 4));
        CHECK(memcmp(bits, other, 60) == 0);
        i = wwvb_write_irig_by_plan(&plan, 6578971, 7, other, sizeof other);
        CHECK(i.refusal == WWVB_OK && i.elements == second_of(0, 6578971, 7));
        CHECK(memcmp(bits, other, 100) == 0);
    }
}

/* What a plan's messages may not be, in a struct: too many, equal, falling, out of range, and data
   that six bytes hold or do not. What stands after the last of them does not matter. */
static void message_plans(void)
{
    wwvb_plan plan = wwvb_us_plan();
    static const uint64_t data[] = {
        WWVB_DATA_LIMIT, 0xffffffffffffull, 0x1000000000000ull, 0x1000000000001ull,
        0x8000000000000000ull, 0xffffffffffffffffull,
    };
    size_t i;

    plan.messages[1].minute = 1;
    plan.messages[2].minute = 2;
    plan.messages[3].minute = 52595999;
    plan.message_count = 4;
    CHECK(accepted(&plan));
    plan.message_count = 5;
    CHECK(illegal(&plan));
    plan.message_count = 0xffffffffu;
    CHECK(illegal(&plan));
    plan.message_count = 4;
    plan.messages[3].minute = 52596000;
    CHECK(illegal(&plan));
    plan.messages[3].minute = 2;
    CHECK(illegal(&plan));
    plan.messages[3].minute = 1;
    CHECK(illegal(&plan));
    plan.message_count = 3;
    CHECK(accepted(&plan));
    for (i = 0; i < sizeof data / sizeof *data; i++) {
        plan.messages[2].data = data[i];
        CHECK(illegal(&plan));
    }
    plan.message_count = 2;
    CHECK(accepted(&plan));
}

/* Each refusal has its name and a sentence of its own; other numbers have neither. */
static void names(void)
{
    static const char *const name[] = {
        "WWVB_OK", "WWVB_ILLEGAL_PLAN", "WWVB_BAD_COUNT", "WWVB_MINUTE_TOO_LARGE", "WWVB_NO_BIT_SPACE",
        "WWVB_NO_ENTRY_SPACE", "WWVB_TOO_SHORT", "WWVB_NOT_BITS", "WWVB_BAD_SYNC", "WWVB_BAD_STATE",
        "WWVB_BAD_NEXT_CHANGE", "WWVB_BAD_MINUTE", "unknown refusal", "WWVB_BAD_LENGTH",
        "WWVB_OUT_OF_ORDER", "WWVB_NOT_A_DATE", "WWVB_BAD_SETTING", "WWVB_BAD_SYMBOLS",
        "WWVB_BAD_VALUE", "WWVB_FIRST_MESSAGE", "WWVB_UNKNOWN_LENGTH", "WWVB_BAD_SECOND",
        "unknown refusal",
    };
    uint32_t i, j, known = sizeof name / sizeof *name - 1;

    for (i = 0; i <= known; i++) {
        const char *text = wwvb_refusal_text(i);

        CHECK(strcmp(wwvb_refusal_name(i), name[i]) == 0);
        CHECK(strlen(text) > 10 && text[strlen(text) - 1] == '.');
        for (j = 0; j < i; j++)
            CHECK(strcmp(text, wwvb_refusal_text(j)) != 0 || (j == 12 && i == known));
    }
    CHECK(strcmp(wwvb_refusal_name(0xffffffffu), "unknown refusal") == 0);
    CHECK(strcmp(wwvb_refusal_text(0xffffffffu), wwvb_refusal_text(12)) == 0);
}

#define TEXT(x) #x
#define TEXT_OF(x) TEXT(x)

static void version(void)
{
    CHECK(strcmp(WWVB_VERSION, TEXT_OF(WWVB_VERSION_MAJOR) "." TEXT_OF(WWVB_VERSION_MINOR) "."
                               TEXT_OF(WWVB_VERSION_PATCH)) == 0);
}

int main(void)
{
    limits();
    message_limits();
    page_limits();
    refusals();
    page_refusals();
    message_refusals();
    unknown_length();
    amplitude_refusals();
    amplitude();
    irig_refusals();
    irig();
    fields();
    message_fields();
    numbers();
    earlier_law();
    earlier_law_clock();
    structs();
    message_structs();
    message_plans();
    names();
    version();
    return failures != 0;
}
