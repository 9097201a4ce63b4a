/*
 * wwvb.h: the two codes of WWVB, written and read, IRIG B for recorders, dates and local dates.
 * The phase code has one bit a second and comes in recordings of frames, which can be printed as
 * pages. The amplitude code is written and read one minute a call, and IRIG B one second a call.
 * C99 or later, C++11 or later.
 * SPDX-License-Identifier: Apache-2.0
 *
 * A bit is a byte of value 0 or 1, the first sent first. A frame is one minute: 60 bits, or 59 or
 * 61 in the last minute of a month with a leap second. A minute number counts minutes from
 * 2000-01-01 00:00 UTC, leap seconds ignored.
 *
 * A time frame has its minute in a time word. A message frame takes the place of a minute's time
 * frame: it has 42 bits of data and no time word. Its minute is counted on from the frame before.
 *
 * A symbol is one second of the amplitude code: a byte of value 0, 1 or 2, the first sent first,
 * and 2 is a marker. A minute has as many symbols as its frame has bits.
 *
 * IRIG B is a time code for recorders, IRIG 200 format B, with 100 elements a second. An element
 * is a byte of value 0, 1 or 2, the first sent first, and 2 is an identifier.
 *
 * Every call takes any value of its arguments. Nothing is undefined but a buffer that breaks these
 * terms:
 *   - a pointer is valid for as many bytes as its length says; with length 0 it may be NULL;
 *   - a buffer that a call writes overlaps no other buffer of that call;
 *   - no other thread touches the buffers during the call.
 * A length of 0 is an ordinary input. The library allocates nothing, keeps no state and calls no
 * other library. Any number of threads may call it at the same time.
 *
 * Each call makes its checks in a fixed order; its comment lists the refusals in that order. The
 * first check that fails gives the refusal, and later ones are not made. WWVB_OK, 0, means that
 * all passed.
 *
 * Which minutes to trust: this is about the phase code. In a recording read completely from a
 * frame's first bit, a false minute takes two wrong time bits in every frame that is read as a
 * time frame, and three in each of them with place 0. Judge by a minute only if the reading is
 * complete (refusal 0) and at least one of its time frames has place 0. A message has place 0 too,
 * but no time word, so it makes no minute sure. Its own minute is counted: use it only with a time
 * frame after it in the same reading. Where the start was searched for, use two time frames in
 * order, and more where others choose the data of messages: LIVE INPUT in wwvb(3) says how.
 * The data of a message have no check bits: an inverted bit of them is not noticed.
 * The amplitude code has no check bits: one wrong symbol can make another legal minute, which is
 * not refused. It is for wall clocks; do not base decisions on its minutes.
 * IRIG B has no check bits: one wrong element can make another legal day, and two another legal
 * time of day, which are not refused. It is for recorders; do not base decisions on it.
 *
 * The library has eleven calls. Everything else is static inline in this file: structs for plans
 * and entries, the size of pages, names and texts of refusals.
 */
#ifndef WWVB_H
#define WWVB_H

#include <stddef.h>
#include <stdint.h>

/*
 * The version. A break raises MAJOR, and with it the soname of the shared library (libwwvb.so.1).
 * A break is another size or layout of an entry or a reply, another number for a refusal, another
 * signature of a call, or another answer of a call. An added kind of plan, which was refused
 * before, is not a break. Added calls, names, kinds of plan and refusals of added calls raise
 * MINOR, and so do fields added to the end of wwvb_plan or wwvb_entry. The library itself takes
 * neither, so it is enough to compile again. Anything else raises PATCH.
 */
#define WWVB_VERSION_MAJOR 1
#define WWVB_VERSION_MINOR 2
#define WWVB_VERSION_PATCH 0
#define WWVB_VERSION "1.2.0"

/* A result that must not be ignored; the compiler warns where it can. */
#if (defined(__cplusplus) && __cplusplus >= 201703L) || \
    (defined(__STDC_VERSION__) && __STDC_VERSION__ >= 202311L)
#define WWVB_MUST_USE [[nodiscard]]
#elif defined(__GNUC__)
#define WWVB_MUST_USE __attribute__((warn_unused_result))
#else
#define WWVB_MUST_USE
#endif

#ifdef __cplusplus
extern "C" {
#endif

/* ------------------------------------------------------------------------------------------------
 * Limits
 */

/* Minutes are 0 to WWVB_MINUTES - 1, 2099-12-31 23:59. */
#define WWVB_MINUTES 52596000u
/* Frames of one written recording: 1 to WWVB_MAX_COUNT. */
#define WWVB_MAX_COUNT 1000u
/* Bits of a frame, and symbols of a minute: at least WWVB_MIN_FRAME, at most WWVB_MAX_FRAME. */
#define WWVB_MIN_FRAME 59u
#define WWVB_MAX_FRAME 61u
/* Bits of the longest written recording: 60 for each of 1,000 frames, and a leap second. */
#define WWVB_MAX_RECORDING 60001u
/* Bytes of an entry. */
#define WWVB_ENTRY_SIZE 18u
/* Entries on a page, and bytes of a page: 52 lines of 41 characters and a line feed. */
#define WWVB_PAGE_ENTRIES 50u
#define WWVB_PAGE_SIZE 2184u
/* Elements of a second of IRIG B. */
#define WWVB_IRIG_ELEMENTS 100u
/* Messages of a plan: at most WWVB_MAX_MESSAGES. */
#define WWVB_MAX_MESSAGES 4u
/* Bytes of a message, as the calls that write take it. */
#define WWVB_MESSAGE_SIZE 10u
/* The data of a message are 0 to WWVB_DATA_LIMIT - 1; the limit is 2^42. */
#define WWVB_DATA_LIMIT 4398046511104ull

/* ------------------------------------------------------------------------------------------------
 * Refusals
 */

/* Writing means wwvb_write_recording, wwvb_write_amplitude, wwvb_write_irig and their inline
   forms. Only wwvb_write_recording and wwvb_write make check 2. Reading means wwvb_read_frame and
   wwvb_read_recording. The latter makes the checks for each frame. Printing means
   wwvb_print_pages; it makes the checks of wwvb_read_recording but 5, and then 4. Comments name
   the amplitude code and IRIG B where they are about them. */
enum wwvb_refusal {
    WWVB_OK = 0,               /* every check passed */
    WWVB_ILLEGAL_PLAN = 1,     /* writing: the plan, or one of its messages, is not legal */
    WWVB_BAD_COUNT = 2,        /* writing a recording: the count is not 1 to 1,000 */
    WWVB_MINUTE_TOO_LARGE = 3, /* writing: the minute, or the last of a recording, is past
                                  52,595,999; minute to date, local date: the minute is */
    WWVB_NO_BIT_SPACE = 4,     /* writing: the buffer does not hold all the bits, symbols or
                                  elements; printing: it does not hold all the pages */
    WWVB_NO_ENTRY_SPACE = 5,   /* reading: fewer than WWVB_ENTRY_SIZE entry bytes are free */
    WWVB_TOO_SHORT = 6,        /* reading: fewer than 59 bits are left */
    WWVB_NOT_BITS = 7,         /* reading: one of the first 59 bytes is not 0 or 1 */
    WWVB_BAD_SYNC = 8,         /* reading: the sync word is neither that of a time frame nor that
                                  of a message */
    WWVB_BAD_STATE = 9,        /* reading a time frame: the state word is illegal */
    WWVB_BAD_NEXT_CHANGE = 10, /* reading a time frame: the next-change word is not assigned */
    WWVB_BAD_MINUTE = 11,      /* reading: the minute read, or counted for a message, is past
                                  52,595,999 */
    /* 12 is no longer returned */
    WWVB_BAD_LENGTH = 13,      /* reading: fewer bits are left than the frame has, or a byte of it
                                  after bit 58 is not 0; wwvb_read_frame: also more bits */
    WWVB_OUT_OF_ORDER = 14,    /* reading a recording: the minute is not one more than that of the
                                  frame before; of a message: bit 19 is not time[0] of the minute
                                  counted */
    WWVB_NOT_A_DATE = 15,      /* date to minute: no real date of 2000 to 2099 */
    WWVB_BAD_SETTING = 16,     /* local date: the state is above 3, the offset not -600 to -240, or
                                  the hour not 1 to 3 */
    WWVB_BAD_SYMBOLS = 17,     /* reading the amplitude code: not 59 to 61 symbols, a byte above 2,
                                  a marker missing or elsewhere, or a fixed 0 that is not 0 */
    WWVB_BAD_VALUE = 18,       /* writing the amplitude code: the UT1 sign is not +1 or -1, or the
                                  tenths are above 9. Reading it: a digit, the UT1 sign or a field
                                  is out of range, or the leap-year mark or the length does not fit
                                  the rest. */
    WWVB_FIRST_MESSAGE = 19,   /* reading: the first frame is a message, so its minute is not
                                  known; wwvb_read_frame: every message */
    WWVB_UNKNOWN_LENGTH = 20,  /* reading a recording: a message in a month's last minute, and no
                                  time frame of that month was read, so its length is not known */
    WWVB_BAD_SECOND = 21       /* writing IRIG B: the second is not below the minute's length.
                                  Reading it: elements that no legal plan, minute and second
                                  give. */
};

/* Each refusal with a sentence for people. A new refusal takes a line above and a line here. */
#define WWVB_REFUSALS(X) \
    X(WWVB_OK, "The call was accepted.") \
    X(WWVB_ILLEGAL_PLAN, "The plan, or one of its messages, is not legal.") \
    X(WWVB_BAD_COUNT, "The number of frames is not 1 to 1,000.") \
    X(WWVB_MINUTE_TOO_LARGE, "The minute is after 2099-12-31 23:59.") \
    X(WWVB_NO_BIT_SPACE, "The buffer does not hold all the bits, symbols, elements or pages.") \
    X(WWVB_NO_ENTRY_SPACE, "The buffer has no space for another entry.") \
    X(WWVB_TOO_SHORT, "Fewer than 59 bits are left, and a frame has at least 59.") \
    X(WWVB_NOT_BITS, "A byte of the frame is neither 0 nor 1.") \
    X(WWVB_BAD_SYNC, "The sync word of the frame is wrong.") \
    X(WWVB_BAD_STATE, "The state word of the frame is illegal.") \
    X(WWVB_BAD_NEXT_CHANGE, "The next-change word of the frame is not assigned.") \
    X(WWVB_BAD_MINUTE, "The minute of the frame is after 2099-12-31 23:59.") \
    X(WWVB_BAD_LENGTH, "The frame has the wrong number of bits, or one after bit 58 is not 0.") \
    X(WWVB_OUT_OF_ORDER, "The frame is not that of the next minute.") \
    X(WWVB_NOT_A_DATE, "There is no such date from 2000 to 2099.") \
    X(WWVB_BAD_SETTING, "The daylight state, the offset or the change hour is out of range.") \
    X(WWVB_BAD_SYMBOLS, "The minute has the wrong number of symbols, or a wrong one.") \
    X(WWVB_BAD_VALUE, "A value of the amplitude code is out of range or does not fit the rest.") \
    X(WWVB_FIRST_MESSAGE, "The first frame is a message, and its minute is not known.") \
    X(WWVB_UNKNOWN_LENGTH, \
      "A message's length is not known: no time frame of its month was read.") \
    X(WWVB_BAD_SECOND, "The minute has no such second, or the elements are those of no second.")

/* The name of a refusal as it stands above, or the words unknown refusal for any other number. */
static inline const char *wwvb_refusal_name(uint32_t refusal)
{
#define WWVB_REFUSAL_NAME(name, text) case name: return #name;
    switch (refusal) {
    WWVB_REFUSALS(WWVB_REFUSAL_NAME)
    default: return "unknown refusal";
    }
#undef WWVB_REFUSAL_NAME
}

/* What a refusal says, in one sentence; a sentence that says so for any other number. */
static inline const char *wwvb_refusal_text(uint32_t refusal)
{
#define WWVB_REFUSAL_TEXT(name, text) case name: return text;
    switch (refusal) {
    WWVB_REFUSALS(WWVB_REFUSAL_TEXT)
    default: return "This number is not a refusal.";
    }
#undef WWVB_REFUSAL_TEXT
}

/* ------------------------------------------------------------------------------------------------
 * Numbers of plans and entries
 */

/* The kinds of a plan. */
enum wwvb_kind {
    WWVB_KIND_ROWS = 0,       /* daylight time by a spring row and an autumn row */
    WWVB_KIND_NONE = 1,       /* no daylight time */
    WWVB_KIND_WHOLE_YEAR = 2, /* daylight time the whole year */
    WWVB_KIND_EARLIER_LAW = 3 /* the United States law of 2000 to 2006, then daylight time by two
                                 rows from 2007 on */
};

/* The daylight states of an entry or an amplitude reply: dst_on[1] dst_on[0] as a number. */
enum wwvb_daylight {
    WWVB_DAYLIGHT_OFF = 0,    /* standard time */
    WWVB_DAYLIGHT_ENDS = 1,   /* daylight time ends today */
    WWVB_DAYLIGHT_BEGINS = 2, /* daylight time begins today */
    WWVB_DAYLIGHT_ON = 3      /* daylight time */
};

/* The leap states of an entry: the leap second at the end of the month. */
enum wwvb_leap {
    WWVB_LEAP_NONE = 0,
    WWVB_LEAP_NEGATIVE = 1,
    WWVB_LEAP_POSITIVE = 2
};

/* The rows of the next-change word (NIST Table 8) that have a name: 1 to 24 are changes in spring,
   25 to 48 changes in autumn. */
enum wwvb_row {
    WWVB_US_SPRING_ROW = 10,   /* second Sunday in March at 2 o'clock */
    WWVB_US_AUTUMN_ROW = 37,   /* first Sunday in November at 2 o'clock */
    WWVB_ROW_OTHER_TIME = 49,  /* the next change is at a time that no row names */
    WWVB_ROW_NO_DAYLIGHT = 50, /* no daylight time */
    WWVB_ROW_WHOLE_YEAR = 51   /* daylight time the whole year */
};

/* The local hour of a row's change: 1, 2 or 3, or 0 for rows 49 to 51 and any number that is no
   row. */
static inline uint32_t wwvb_change_hour(uint32_t row)
{
    return row >= 1 && row <= 48 ? (row - 1) % 24 / 8 + 1 : 0u;
}

/* What an entry tells of. */
enum wwvb_entry_kind {
    WWVB_ENTRY_TIME = 0,   /* a time frame */
    WWVB_ENTRY_MESSAGE = 1 /* a message frame */
};

/* Where the fields of an entry stand. An entry has WWVB_ENTRY_SIZE bytes. That of a message has
   the minute counted, length, notice, kind and data; its daylight state, leap state, row and place
   are 0 and tell nothing, and its echo is 1. */
enum wwvb_entry_byte {
    WWVB_ENTRY_MINUTE = 0,   /* 4 bytes, the most significant first */
    WWVB_ENTRY_LENGTH = 4,   /* bits of the frame: 59, 60 or 61 */
    WWVB_ENTRY_DAYLIGHT = 5, /* enum wwvb_daylight */
    WWVB_ENTRY_LEAP = 6,     /* enum wwvb_leap */
    WWVB_ENTRY_ROW = 7,      /* row of the next-change word, 1 to 51; 0 for a message */
    WWVB_ENTRY_NOTICE = 8,   /* 0 or 1 */
    WWVB_ENTRY_PLACE = 9,    /* place of the time word that was repaired, 1 to 31, or 0 for none */
    WWVB_ENTRY_ECHO = 10,    /* 1 if bit 19 equals time[0] of the minute read, else 0; a time frame
                                is accepted either way */
    WWVB_ENTRY_KIND = 11,    /* enum wwvb_entry_kind */
    WWVB_ENTRY_DATA = 12     /* 6 bytes, the most significant first; of a time frame all 0 */
};

/* ------------------------------------------------------------------------------------------------
 * Replies
 */

/* The refusal (0 or 3; local date: 0, 3 or 16), and the date; refused, every other field is 0.
   Weekday 0 is Saturday, 6 is Friday. */
typedef struct wwvb_date_reply {
    uint32_t refusal;
    uint32_t year;
    uint32_t month;
    uint32_t day;
    uint32_t hour;
    uint32_t minute;
    uint32_t weekday;
} wwvb_date_reply;

/* The refusal (0 or 15), and the minute number; refused, the minute is 0. */
typedef struct wwvb_minute_reply {
    uint32_t refusal;
    uint32_t minute;
} wwvb_minute_reply;

/* The refusal (0 to 4; amplitude code: 0, 1, 3, 4 or 18), and the number of bits written; by
   wwvb_write_amplitude, the number of symbols. Refused, the bits are 0. */
typedef struct wwvb_write_reply {
    size_t refusal;
    size_t bits;
} wwvb_write_reply;

/* The number of entries, the bits of the frames that they describe, and the refusal (0, 5 to 11,
   13, 14, 19 or 20). Refused, entries and used are those of the frames before the refused one,
   which begins at bits[used]. */
typedef struct wwvb_read_reply {
    size_t entries;
    size_t used;
    size_t refusal;
} wwvb_read_reply;

/* The refusal (0, 4, 6 to 11, 13, 14, 19 or 20), and the number of bytes of all pages; refused,
   the bytes are 0. */
typedef struct wwvb_print_reply {
    size_t refusal;
    size_t bytes;
} wwvb_print_reply;

/* The refusal (0, 17 or 18), and what a minute of the amplitude code says; refused, every other
   field is 0. */
typedef struct wwvb_amplitude_reply {
    uint32_t refusal;
    uint32_t year; /* 2000 to 2099 */
    uint32_t month;
    uint32_t day;
    uint32_t hour;
    uint32_t minute;     /* of the hour, 0 to 59 */
    uint32_t weekday;    /* 0 is Saturday, 6 is Friday */
    int32_t ut1_sign;    /* the sign of UT1 minus UTC: +1 or -1 */
    uint32_t ut1_tenths; /* its tenths of a second, 0 to 9 */
    uint32_t warning;    /* 1 if the month ends with a leap second, of either sign; else 0 */
    uint32_t daylight;   /* enum wwvb_daylight */
    uint32_t length;     /* symbols of the minute: 59, 60 or 61 */
} wwvb_amplitude_reply;

/* The refusal (0, 1, 3, 4 or 21), and the number of elements written, which is 100; refused, the
   elements are 0. */
typedef struct wwvb_irig_write_reply {
    size_t refusal;
    size_t elements;
} wwvb_irig_write_reply;

/* The refusal (0 or 21), and what a second of IRIG B says; refused, both other fields are 0. */
typedef struct wwvb_irig_reply {
    uint32_t refusal;
    uint32_t day_of_year;   /* 1 to 366 */
    uint32_t second_of_day; /* 0 to 86,399; 86,400 in a leap second, 23:59:60 */
} wwvb_irig_reply;

/* ------------------------------------------------------------------------------------------------
 * The calls
 */

/* The date of a minute number. Refusal: WWVB_MINUTE_TOO_LARGE (3). */
WWVB_MUST_USE wwvb_date_reply wwvb_minute_to_date(uint32_t minute);

/* The minute number of a date. Year 2000 to 2099, month and day from 1, hour and minute from 0.
   Refusal: WWVB_NOT_A_DATE (15). */
WWVB_MUST_USE wwvb_minute_reply wwvb_date_to_minute(uint32_t year, uint32_t month, uint32_t day,
                                                    uint32_t hour, uint32_t minute);

/*
 * The local date of a minute number:
 *   state   the minute's daylight state, as a time frame's entry or an amplitude reply has it,
 *           0 to 3
 *   offset  standard time less UTC in minutes, -600 to -240; it need not be whole hours
 *   hour    the local hour at which the clocks change on a day of state 1 or 2, 1 to 3
 * Daylight time is standard time plus 60 minutes: in state 3 all day, in state 2 from `hour` of
 * standard time on, in state 1 until `hour` of daylight time, in state 0 never. The state is not
 * checked against any plan. Year, month, day, hour, minute and weekday are all local; the first
 * minutes of 2000 fall on 1999-12-31, a Friday. Refusals: WWVB_MINUTE_TOO_LARGE (3), then
 * WWVB_BAD_SETTING (16).
 */
WWVB_MUST_USE wwvb_date_reply wwvb_local_date(uint32_t minute, uint32_t state, int32_t offset,
                                              uint32_t hour);

/*
 * Writes the frames of `count` minutes from `first` on, each directly after the one before, by a
 * plan of six numbers and its messages:
 *   kind        enum wwvb_kind
 *   spring      kinds 0 and 3: row 1 to 24; else 0
 *   autumn      kinds 0 and 3: row 25 to 48; else 0
 *   leap_month  month with a leap second at its end, 0 (January 2000) to 1199; 0 if the sign is 0
 *   leap_sign   -1, 0 or +1
 *   notice      0 or 1
 *   messages    up to WWVB_MAX_MESSAGES, WWVB_MESSAGE_SIZE bytes each: the minute in 4 bytes, then
 *               the data in 6, both with the most significant byte first. The minutes are in range
 *               and strictly rising, and the data below WWVB_DATA_LIMIT.
 * The frame of a message's minute is a message frame. Messages of minutes that are not written are
 * checked and not sent. A `messages_length` of 0 is a plan without messages. One that is not a
 * multiple of WWVB_MESSAGE_SIZE, or is above four messages, gives WWVB_ILLEGAL_PLAN (1).
 * With WWVB_KIND_EARLIER_LAW (3), daylight time up to 2006 is from the first Sunday in April to
 * the last Sunday in October, at 2 o'clock local. The rows sent for these changes are 13 or 14,
 * and 36. The plan's own spring row is sent from 2006-10-29 00:00 UTC on. Its rows are needed even
 * if all minutes are before that.
 * Refusals: WWVB_ILLEGAL_PLAN (1), WWVB_BAD_COUNT (2), WWVB_MINUTE_TOO_LARGE (3) for the last
 * minute, WWVB_NO_BIT_SPACE (4). A refused writing does not report how many bytes it needs; an
 * `out_length` of WWVB_MAX_RECORDING is always enough.
 * After the call `out` holds the bits from out[0] on, and every byte after the last bit is as
 * before. Refused, every byte of `out` is as before.
 */
WWVB_MUST_USE wwvb_write_reply wwvb_write_recording(uint32_t kind, uint32_t spring,
                                                    uint32_t autumn, uint32_t leap_month,
                                                    int32_t leap_sign, uint32_t notice,
                                                    const uint8_t *messages,
                                                    size_t messages_length, uint32_t first,
                                                    uint32_t count, uint8_t *out,
                                                    size_t out_length);

/*
 * Reads one time frame, which is all of `bits`. Returns the refusal, or WWVB_OK. Refusals:
 * WWVB_NO_ENTRY_SPACE (5), WWVB_TOO_SHORT (6), WWVB_NOT_BITS (7), WWVB_BAD_SYNC (8),
 * WWVB_FIRST_MESSAGE (19) for every message frame, WWVB_BAD_STATE (9), WWVB_BAD_NEXT_CHANGE (10),
 * WWVB_BAD_MINUTE (11), WWVB_BAD_LENGTH (13).
 * After the call the first WWVB_ENTRY_SIZE bytes of `entry` are the frame's entry, and every byte
 * after them is as before. Refused, every byte of `entry` is as before. Bits 19, 29 and 39 may be
 * 0 or 1. Bit 19, the echo, changes the entry's echo byte alone. Bits 29 and 39 change nothing.
 * Of a time frame that wwvb_write_recording writes any one bit may be inverted. The result then:
 *   time word (13 to 18, 20 to 28, 30 to 38, 40 to 46)  the entry as sent, with the place repaired
 *   19, 29 or 39                                        as said above
 *   49                                                  the notice byte alone differs
 *   sync word (0 to 12)                                 refusal 8
 *   state word (47, 48, 50 to 52)                       refusal 9
 *   next-change word (53 to 58)                         refusal 10
 *   after bit 58                                        refusal 13
 */
WWVB_MUST_USE uint32_t wwvb_read_frame(const uint8_t *bits, size_t bits_length, uint8_t *entry,
                                       size_t entry_length);

/*
 * Reads the frames of a recording, which begins at a frame's first bit, until no bits are left or
 * a frame is refused. No bits at all give no entries and WWVB_OK. Refusals, frame by frame:
 *   time frame  WWVB_NO_ENTRY_SPACE (5), WWVB_TOO_SHORT (6), WWVB_NOT_BITS (7), WWVB_BAD_SYNC (8),
 *               WWVB_BAD_STATE (9), WWVB_BAD_NEXT_CHANGE (10), WWVB_BAD_MINUTE (11),
 *               WWVB_BAD_LENGTH (13), WWVB_OUT_OF_ORDER (14)
 *   message     5, 6, 7 and 8, then WWVB_FIRST_MESSAGE (19) if it is the first frame,
 *               WWVB_UNKNOWN_LENGTH (20), WWVB_BAD_MINUTE (11) for the minute counted,
 *               WWVB_BAD_LENGTH (13), WWVB_OUT_OF_ORDER (14) for its bit 19
 * Bits 19, 29 and 39 of each time frame may be 0 or 1 as above, and so may bits 29 and 39 of each
 * message.
 * A message's length is that of its minute by the leap state that was read last in the same month.
 * In a month's last minute it is not known (20) if no time frame of that month was read before.
 * The reader takes more messages than a plan can have.
 * After the call `entries` holds the entries read, WWVB_ENTRY_SIZE bytes each, from entries[0] on,
 * and every byte after them is as before, refused or not.
 * The first frame of a call is compared with no other: a call has no memory of the call before.
 * Bits that come one a second are read by this call too; LIVE INPUT in wwvb(3) says how.
 */
WWVB_MUST_USE wwvb_read_reply wwvb_read_recording(const uint8_t *bits, size_t bits_length,
                                                  uint8_t *entries, size_t entries_length);

/*
 * Prints the entries of a recording, which begins at a frame's first bit, as pages of text. A page
 * has 52 lines of 41 characters and a line feed each, WWVB_PAGE_SIZE bytes, all of them ASCII:
 *   its number from 1, right-aligned; then 41 dashes; then 50 lines, one for each entry in order
 * Lines without an entry, on the last page, are blanks. The columns, with one space between:
 *   minute    8 characters
 *   date     10, as in 2012-07-04
 *   time      5, as in 17:30, in UTC like the date
 *   length    2
 *   daylight  2, the bits dst_on[1] and dst_on[0]
 *   leap      1: a blank for none, - for negative, + for positive, M for a message
 *   row       2
 *   place     2, 0 if nothing was repaired
 *   echo      1
 * Numbers are right-aligned, and filled with zeros in date and time alone. In the line of a
 * message daylight, row, place and echo are blank. Notice and data are not printed.
 * The recording may have any number of frames. No bits at all give no page, 0 bytes and WWVB_OK,
 * also with an `out_length` of 0.
 * Refusals: first those of wwvb_read_recording, frame by frame in the same order, without
 * WWVB_NO_ENTRY_SPACE (5); a recording that is refused in any frame is not printed. Then
 * WWVB_NO_BIT_SPACE (4) if `out` does not hold all the pages. wwvb_pages_size gives the bytes for
 * a number of entries; `wwvb_pages_size(bits_length / WWVB_MIN_FRAME)` is always enough.
 * After the call `out` holds the pages from out[0] on, with no 0 after them, and every later byte
 * is as before. Refused, every byte of `out` is as before.
 */
WWVB_MUST_USE wwvb_print_reply wwvb_print_pages(const uint8_t *bits, size_t bits_length,
                                                uint8_t *out, size_t out_length);

/*
 * Writes one minute in the amplitude code, a symbol a second, by a plan as above, and
 *   minute      the minute number
 *   ut1_sign    the sign of UT1 minus UTC: +1 or -1
 *   ut1_tenths  its tenths of a second, 0 to 9; plus 0 and minus 0 are written differently
 * The plan's daylight state is sent, and the warning in every minute of the leap month. Rows, leap
 * sign, notice and messages are checked but not sent: the symbols of a message's minute are those
 * of any other. The reply's field `bits` is the number of symbols, 59, 60 or 61, as many as the
 * minute's frame has bits. AMPLITUDE CODE in wwvb(3) has the seconds of each field.
 * Refusals: WWVB_ILLEGAL_PLAN (1), WWVB_MINUTE_TOO_LARGE (3), WWVB_BAD_VALUE (18) for the UT1 sign
 * or the tenths, WWVB_NO_BIT_SPACE (4). An `out_length` of WWVB_MAX_FRAME is always enough.
 * After the call `out` holds the symbols from out[0] on, and every byte after the last symbol is
 * as before. Refused, every byte of `out` is as before.
 */
WWVB_MUST_USE wwvb_write_reply wwvb_write_amplitude(uint32_t kind, uint32_t spring,
                                                    uint32_t autumn, uint32_t leap_month,
                                                    int32_t leap_sign, uint32_t notice,
                                                    const uint8_t *messages,
                                                    size_t messages_length, uint32_t minute,
                                                    int32_t ut1_sign, uint32_t ut1_tenths,
                                                    uint8_t *out, size_t out_length);

/*
 * Reads one minute of the amplitude code, which is all of `symbols`. Refusals: WWVB_BAD_SYMBOLS
 * (17), checked over the whole minute, then WWVB_BAD_VALUE (18):
 *   17  the length is not 59 to 61, or a byte is above 2
 *   17  a marker is missing, at seconds 59 and 60 too, or stands elsewhere
 *   17  a second that is always 0 is not 0
 *   18  a decimal digit is above 9, or the UT1 sign is neither 101 nor 010
 *   18  the minute is above 59, the hour above 23, or the year has no such day
 *   18  the leap-year mark does not fit the year, or the length does not fit date and warning
 * With the warning the last minute of a month has 59 or 61 symbols, never 60; every other minute
 * has 60. Daylight state and warning are not compared with a plan, so a warning may come in any
 * month. Two digits of the year are sent, and the year given is 2000 to 2099. wwvb_date_to_minute
 * gives the minute number of the date.
 * A minute that wwvb_write_amplitude writes is read as sent: it has the date, the daylight state
 * and the length of the same minute's time frame. But the code has no check bits: one wrong symbol
 * can make another legal minute.
 */
WWVB_MUST_USE wwvb_amplitude_reply wwvb_read_amplitude(const uint8_t *symbols,
                                                       size_t symbols_length);

/*
 * Writes one second of IRIG B, WWVB_IRIG_ELEMENTS elements, by a plan as above, and
 *   minute  the minute number
 *   second  the second of the minute, from 0; it is below the minute's length, which is 59, 60 or
 *           61 by the plan
 * Identifiers stand at elements 0, 9, 19 and so on to 99. Second, minute, hour and day of year are
 * sent as decimal digits, all in UTC, and the straight seconds as one number: the second of the
 * day. Second 60 is sent as 60, and as 86,400 in the straight seconds. Every other element is 0.
 * IRIG B in wwvb(3) has the elements of each field.
 * The elements depend on minute and second alone. Of the plan only the minute's length matters;
 * daylight time, notice and messages are checked but not sent.
 * Refusals: WWVB_ILLEGAL_PLAN (1), WWVB_MINUTE_TOO_LARGE (3), WWVB_BAD_SECOND (21),
 * WWVB_NO_BIT_SPACE (4). An `out_length` of WWVB_IRIG_ELEMENTS is always enough.
 * After the call out[0] to out[99] are the elements, and every byte after them is as before.
 * Refused, every byte of `out` is as before.
 */
WWVB_MUST_USE wwvb_irig_write_reply wwvb_write_irig(uint32_t kind, uint32_t spring,
                                                    uint32_t autumn, uint32_t leap_month,
                                                    int32_t leap_sign, uint32_t notice,
                                                    const uint8_t *messages,
                                                    size_t messages_length, uint32_t minute,
                                                    uint32_t second, uint8_t *out,
                                                    size_t out_length);

/*
 * Reads one second of IRIG B, which is all of `elements`, and gives the day of the year and the
 * second of the day. Refusal: WWVB_BAD_SECOND (21) for what no legal plan, minute and second give:
 *   the length is not WWVB_IRIG_ELEMENTS, or a byte is above 2
 *   an identifier is missing or stands elsewhere, or an element that is always 0 is not 0
 *   a decimal digit is above 9, or the day of year is not 1 to 366
 *   the hour is above 23, the minute above 59, or the second above 60
 *   the second is 60 elsewhere than at 23:59 of a day of the year that ends a month
 *   the straight seconds are not those of hour, minute and second
 * No year is sent. So day 366 is read in any year, and second 60 on each of 23 days: those that
 * end a month in a common year, and those that do in a leap year.
 * A second that wwvb_write_irig writes is read as sent. But the code has no check bits: one wrong
 * element can make another legal day, and two another legal time of day.
 */
WWVB_MUST_USE wwvb_irig_reply wwvb_read_irig(const uint8_t *elements, size_t elements_length);

/* ------------------------------------------------------------------------------------------------
 * Plans and entries as structs
 *
 * Fields may be added at the end. Make a plan from one of the three below, or from one that is all
 * 0 (which is not legal until it has rows), and set fields by name.
 */

/* A message: its minute, and its data, below WWVB_DATA_LIMIT. */
typedef struct wwvb_message {
    uint32_t minute;
    uint64_t data;
} wwvb_message;

/* A plan, as the calls that write take it in six numbers and bytes. The messages are the first
   `message_count` of the array; the others may hold anything. */
typedef struct wwvb_plan {
    uint32_t kind;
    uint32_t spring;
    uint32_t autumn;
    uint32_t leap_month;
    int32_t leap_sign;
    uint32_t notice;
    uint32_t message_count; /* 0 to WWVB_MAX_MESSAGES */
    wwvb_message messages[WWVB_MAX_MESSAGES];
} wwvb_plan;

/* A plan with daylight time by two rows, without a leap second, a notice or messages. */
WWVB_MUST_USE static inline wwvb_plan wwvb_plan_by_rows(uint32_t spring, uint32_t autumn)
{
    wwvb_plan plan;
    uint32_t i;

    plan.kind = WWVB_KIND_ROWS;
    plan.spring = spring;
    plan.autumn = autumn;
    plan.leap_month = 0;
    plan.leap_sign = 0;
    plan.notice = 0;
    plan.message_count = 0;
    for (i = 0; i < WWVB_MAX_MESSAGES; i++) {
        plan.messages[i].minute = 0;
        plan.messages[i].data = 0;
    }
    return plan;
}

/* The plan of the United States since 2007, without a leap second, a notice or messages. */
WWVB_MUST_USE static inline wwvb_plan wwvb_us_plan(void)
{
    return wwvb_plan_by_rows(WWVB_US_SPRING_ROW, WWVB_US_AUTUMN_ROW);
}

/* The plan of the United States since 2000, by the law of each year, without a leap second, a
   notice or messages. */
WWVB_MUST_USE static inline wwvb_plan wwvb_us_plan_since_2000(void)
{
    wwvb_plan plan = wwvb_us_plan();

    plan.kind = WWVB_KIND_EARLIER_LAW;
    return plan;
}

/*
 * The messages of a plan as the calls that write take them. `bytes` has space for
 * WWVB_MAX_MESSAGES * WWVB_MESSAGE_SIZE. Returns the length. A plan with too many messages, or
 * with data that 6 bytes do not hold, gives a length of 1. Messages cannot have that length, so
 * these calls refuse it with WWVB_ILLEGAL_PLAN (1), and nothing is cut off.
 */
WWVB_MUST_USE static inline size_t wwvb_message_bytes(const wwvb_plan *plan, uint8_t *bytes)
{
    uint32_t i, k;

    bytes[0] = 0;
    if (plan->message_count > WWVB_MAX_MESSAGES)
        return 1;
    for (i = 0; i < plan->message_count; i++) {
        const wwvb_message *message = &plan->messages[i];
        uint8_t *b = bytes + i * WWVB_MESSAGE_SIZE;

        if (message->data >> 48 != 0)
            return 1;
        for (k = 0; k < 4; k++)
            b[k] = (uint8_t)(message->minute >> (24 - 8 * k) & 255);
        for (k = 0; k < 6; k++)
            b[4 + k] = (uint8_t)(message->data >> (40 - 8 * k) & 255);
    }
    return (size_t)plan->message_count * WWVB_MESSAGE_SIZE;
}

/* wwvb_write_recording by a plan that is a struct. */
WWVB_MUST_USE static inline wwvb_write_reply wwvb_write(const wwvb_plan *plan, uint32_t first,
                                                        uint32_t count, uint8_t *out,
                                                        size_t out_length)
{
    uint8_t messages[WWVB_MAX_MESSAGES * WWVB_MESSAGE_SIZE];
    size_t messages_length = wwvb_message_bytes(plan, messages);

    return wwvb_write_recording(plan->kind, plan->spring, plan->autumn, plan->leap_month,
                                plan->leap_sign, plan->notice, messages, messages_length, first,
                                count, out, out_length);
}

/* wwvb_write_amplitude by a plan that is a struct. */
WWVB_MUST_USE static inline wwvb_write_reply wwvb_write_amplitude_by_plan(const wwvb_plan *plan,
                                                                          uint32_t minute,
                                                                          int32_t ut1_sign,
                                                                          uint32_t ut1_tenths,
                                                                          uint8_t *out,
                                                                          size_t out_length)
{
    uint8_t messages[WWVB_MAX_MESSAGES * WWVB_MESSAGE_SIZE];
    size_t messages_length = wwvb_message_bytes(plan, messages);

    return wwvb_write_amplitude(plan->kind, plan->spring, plan->autumn, plan->leap_month,
                                plan->leap_sign, plan->notice, messages, messages_length, minute,
                                ut1_sign, ut1_tenths, out, out_length);
}

/* wwvb_write_irig by a plan that is a struct. */
WWVB_MUST_USE static inline wwvb_irig_write_reply wwvb_write_irig_by_plan(const wwvb_plan *plan,
                                                                          uint32_t minute,
                                                                          uint32_t second,
                                                                          uint8_t *out,
                                                                          size_t out_length)
{
    uint8_t messages[WWVB_MAX_MESSAGES * WWVB_MESSAGE_SIZE];
    size_t messages_length = wwvb_message_bytes(plan, messages);

    return wwvb_write_irig(plan->kind, plan->spring, plan->autumn, plan->leap_month,
                           plan->leap_sign, plan->notice, messages, messages_length, minute,
                           second, out, out_length);
}

/* An entry; the fields are those of enum wwvb_entry_byte. */
typedef struct wwvb_entry {
    uint32_t minute;
    uint32_t length;
    uint32_t daylight;
    uint32_t leap;
    uint32_t row;
    uint32_t notice;
    uint32_t place;
    uint32_t echo;
    uint32_t kind; /* enum wwvb_entry_kind */
    uint64_t data;
} wwvb_entry;

/* The entry at `index`, from 0, of a buffer that a reading filled; `index` is less than the number
   of entries that it gave. */
WWVB_MUST_USE static inline wwvb_entry wwvb_entry_at(const uint8_t *entries, size_t index)
{
    const uint8_t *e = entries + index * WWVB_ENTRY_SIZE;
    const uint8_t *m = e + WWVB_ENTRY_MINUTE;
    const uint8_t *d = e + WWVB_ENTRY_DATA;
    wwvb_entry entry;
    int i;

    entry.minute = m[0];
    entry.minute = entry.minute << 8 | m[1];
    entry.minute = entry.minute << 8 | m[2];
    entry.minute = entry.minute << 8 | m[3];
    entry.length = e[WWVB_ENTRY_LENGTH];
    entry.daylight = e[WWVB_ENTRY_DAYLIGHT];
    entry.leap = e[WWVB_ENTRY_LEAP];
    entry.row = e[WWVB_ENTRY_ROW];
    entry.notice = e[WWVB_ENTRY_NOTICE];
    entry.place = e[WWVB_ENTRY_PLACE];
    entry.echo = e[WWVB_ENTRY_ECHO];
    entry.kind = e[WWVB_ENTRY_KIND];
    entry.data = 0;
    for (i = 0; i < 6; i++)
        entry.data = entry.data << 8 | d[i];
    return entry;
}

/* The bytes of the pages of so many entries. A recording has at most SIZE_MAX / WWVB_MIN_FRAME
   entries, and up to that number the result is exact. */
WWVB_MUST_USE static inline size_t wwvb_pages_size(size_t entries)
{
    size_t pages = entries / WWVB_PAGE_ENTRIES + (entries % WWVB_PAGE_ENTRIES != 0);

    return pages * WWVB_PAGE_SIZE;
}

/*
 * The local date of an entry: wwvb_local_date by its minute, its state and the hour of its row.
 * Refusal: 16 for an offset that is not -600 to -240, and on the day of a change if the entry's
 * row has no hour. The entry of a message gives 16 too: its daylight state is not known, and the 0
 * in its place does not mean standard time. Call wwvb_local_date with the state and the hour of a
 * time frame of the same UTC day. An entry that the caller made may also give 3, for its minute,
 * or 16, for its state.
 * On the day of a change the row is that of the change after today's. So the hour is right if both
 * changes of a year come at the same hour, as in the United States. With WWVB_KIND_EARLIER_LAW the
 * row of 2006-10-29 is the plan's own spring row. On that day the hour is right only if that row
 * is one for 2 o'clock. Where the hours differ, keep the row of the day before and call
 * wwvb_local_date with its hour.
 */
WWVB_MUST_USE static inline wwvb_date_reply wwvb_entry_local_date(const wwvb_entry *entry,
                                                                  int32_t offset)
{
    uint32_t hour = wwvb_change_hour(entry->row);
    uint32_t state = entry->kind == WWVB_ENTRY_TIME ? entry->daylight : 4u; /* 4 is no state */

    /* without a change today the hour does not matter */
    if (hour == 0 && (state == WWVB_DAYLIGHT_OFF || state == WWVB_DAYLIGHT_ON))
        hour = 1;
    return wwvb_local_date(entry->minute, state, offset, hour);
}

#ifdef __cplusplus
}
#endif

#endif
