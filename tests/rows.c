/*
 * Tries a library in whose row list the words of two rows of one half stand in each other's place, against the reference,
 * whose list is document 01's: what it writes has these two words exchanged and nothing else; it reads its own recordings,
 * of every row that a plan sends, back as sent; and each word of six bits gives the reference's answer with the two rows exchanged.
 *
 * usage: rows ROW ROW
 */
#include "reference.h"
#include "wwvb.h"

#include <stdio.h>
#include <stdlib.h>
#include <string.h>

#define NEXT 53 /* the first bit of the next-change word */
#define JANUARY 0u /* dst_on[1] is 0, and the spring row is sent */
#define DAYS_TO_2009 3288u /* from 2000-01-01 to 2009-01-01 */
#define JULY 262080u /* 2000-07-01 00:00: dst_on[1] is 1, and the autumn row is sent */

static unsigned rows[2];
static uint8_t words[2][6];
static uint8_t bits[2][WWVB_MAX_RECORDING], entries[WWVB_MAX_COUNT * WWVB_ENTRY_SIZE];
static unsigned long recordings, frames[52];

static void fail(const struct ref_plan *p, uint32_t minute, const char *what)
{
    fprintf(stderr, "rows: plan %u %u %u %u %d %u, minute %u: %s\n", (unsigned)p->kind, (unsigned)p->spring,
            (unsigned)p->autumn, (unsigned)p->leap_month, (int)p->leap_sign, (unsigned)p->notice, (unsigned)minute, what);
    exit(1);
}

/* The other row of the two, or the row itself. */
static unsigned other(unsigned row)
{
    return row == rows[0] ? rows[1] : row == rows[1] ? rows[0] : row;
}

/* A plan that sends the row at the minute given. */
static struct ref_plan sending(unsigned row, uint32_t *minute)
{
    struct ref_plan p = {0, 1, 25, 0, 0, 0};

    if (row < 25)
        p.spring = row;
    else
        p.autumn = row;
    *minute = row < 25 ? JANUARY : JULY;
    return p;
}

/* One frame as the reference writes it. */
static size_t frame_of(const struct ref_plan *p, uint32_t minute, uint8_t *out)
{
    size_t n;

    if (ref_write(p, NULL, 0, minute, 1, out, WWVB_MAX_FRAME, &n))
        fail(p, minute, "the reference refuses it");
    return n;
}

/* Written as by the reference with the two words exchanged, and read back as sent, whole and frame by frame. */
static void try_recording(const struct ref_plan *p, uint32_t first, uint32_t count)
{
    wwvb_write_reply w = wwvb_write_recording(p->kind, p->spring, p->autumn, p->leap_month,
                                              p->leap_sign, p->notice, NULL, 0, first, count,
                                              bits[0], sizeof bits[0]);
    wwvb_read_reply r;
    size_t n, at = 0;
    uint32_t k;

    if (ref_write(p, NULL, 0, first, count, bits[1], sizeof bits[1], &n) || w.refusal
        || w.bits != n)
        fail(p, first, "number or bits of the writing");
    r = wwvb_read_recording(bits[0], w.bits, entries, sizeof entries);
    if (r.refusal || r.entries != count || r.used != n)
        fail(p, first, "number, entries or bits of the reading");
    for (k = 0; k < count; k++) {
        uint8_t sent[WWVB_ENTRY_SIZE], alone[WWVB_ENTRY_SIZE];
        unsigned row, length;

        ref_entry_as_sent(p, first + k, 0, 1, sent);
        row = sent[WWVB_ENTRY_ROW];
        length = sent[WWVB_ENTRY_LENGTH];
        if (row != other(row))
            memcpy(bits[1] + at + NEXT, words[row == rows[0]], 6);
        if (memcmp(bits[0] + at, bits[1] + at, length))
            fail(p, first + k, "the frame");
        if (memcmp(entries + k * WWVB_ENTRY_SIZE, sent, sizeof sent))
            fail(p, first + k, "the entry");
        if (wwvb_read_frame(bits[0] + at, length, alone, sizeof alone) || memcmp(alone, sent, sizeof sent))
            fail(p, first + k, "the frame read alone");
        frames[row]++;
        at += length;
    }
    recordings++;
}

/* Every pair of rows: in January, in July, over the end of July with a leap second, and over the start of each Sunday of 2000,
   where dst_on[1] and the row change. Then kinds 1 and 2. */
static void try_rows(void)
{
    struct ref_plan p = {0, 0, 0, 6, 1, 1};
    uint32_t week;

    for (p.spring = 1; p.spring <= 24; p.spring++)
        for (p.autumn = 25; p.autumn <= 48; p.autumn++) {
            p.leap_sign = p.autumn % 2 ? 1 : -1;
            try_recording(&p, JANUARY, 3);
            try_recording(&p, JULY, 3);
            try_recording(&p, JULY + 31 * 1440 - 2, 4);
            for (week = 0; week < 52; week++)
                try_recording(&p, (1 + 7 * week) * 1440 - 2, 4);
        }
    p = (struct ref_plan){1, 0, 0, 0, 0, 0};
    try_recording(&p, JANUARY, 1000);
    p.kind = 2;
    try_recording(&p, JULY, 1000);
}

/* Kind 3, by each spring row and each autumn row of its own: every day of 2000 to 2008, with the
   minute before it. Up to 2006 the rows sent are 13, 14 and 36, and then the plan's. */
static void try_earlier_law(void)
{
    struct ref_plan p = {3, 0, 0, 69, 0, 0};
    uint32_t day;

    for (p.spring = 1; p.spring <= 24; p.spring++) {
        p.autumn = 49 - p.spring;
        p.leap_sign = p.spring % 2 ? 1 : -1; /* at the end of October 2005 */
        p.notice = p.spring % 2;
        try_recording(&p, 0, 3);
        for (day = 1; day <= DAYS_TO_2009; day++)
            try_recording(&p, day * 1440 - 1, 2);
    }
}

/* Every word of six bits with either value of dst_on[1]: refused or read as the reference does, the two rows exchanged. */
static void try_words(void)
{
    unsigned half, word, k, unassigned = 0;

    for (half = 0; half < 2; half++)
        for (word = 0; word < 64; word++) {
            uint32_t minute;
            struct ref_plan p = sending(half ? 25 : 1, &minute);
            uint8_t frame[WWVB_MAX_FRAME], got[WWVB_ENTRY_SIZE] = {0}, want[WWVB_ENTRY_SIZE] = {0};
            size_t n = frame_of(&p, minute, frame);
            unsigned number;

            for (k = 0; k < 6; k++)
                frame[NEXT + k] = word >> (5 - k) & 1;
            number = ref_read_frame(frame, n, want, sizeof want);
            want[WWVB_ENTRY_ROW] = (uint8_t)other(want[WWVB_ENTRY_ROW]);
            if (wwvb_read_frame(frame, n, got, sizeof got) != number || memcmp(got, want, sizeof got))
                fail(&p, minute, "the answer to a next-change word");
            unassigned += number == WWVB_BAD_NEXT_CHANGE;
        }
    if (unassigned != 2 * 37)
        fprintf(stderr, "rows: %u words are unassigned, and not 2 times 37\n", unassigned), exit(1);
}

int main(int argc, char **argv)
{
    unsigned i;

    if (argc != 3)
        return 2;
    for (i = 0; i < 2; i++) {
        uint8_t frame[WWVB_MAX_FRAME];
        struct ref_plan p;
        uint32_t minute;

        rows[i] = (unsigned)atoi(argv[i + 1]);
        p = sending(rows[i], &minute);
        frame_of(&p, minute, frame);
        memcpy(words[i], frame + NEXT, 6);
    }
    try_rows();
    try_earlier_law();
    try_words();
    for (i = 1; i <= 51; i++)
        if (i != 49 && frames[i] == 0)
            fprintf(stderr, "rows: row %u was never sent\n", i), exit(1);
    printf("rows: words of rows %u and %u exchanged: %lu recordings of all rows but 49 read back as sent, %lu and %lu frames of these two\n",
           rows[0], rows[1], recordings, frames[rows[0]], frames[rows[1]]);
    return 0;
}
