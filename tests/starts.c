/*
 * Where a frame can be read that is none, in recordings without an inverted bit: at bits that are
 * not a frame's first. All minutes by both plans of the United States are tried, without messages;
 * from 2007 on both send the same, and are tried once. It pins the numbers that examples/receive.c
 * and wwvb(3) give for its rule: two time frames in order, one with place 0. Then it makes the
 * messages that wwvb(3) warns of, which hold false time frames in order.
 */
#include "wwvb.h"

#include <stdio.h>
#include <string.h>

#define FRAMES 1000u
#define TRIED (FRAMES - 3) /* starts in these; the other frames are there to go on reading */
#define SAME 3682080u      /* 2007-01-01 00:00: from here on the two plans send the same */

/* What is found: sync words, time frames, pairs of them in order and threes, how many of the
   frames and the pairs have place 0, and messages after a frame. */
enum { SYNC, ONE, ONE_CLEAN, TWO, TWO_CLEAN, THREE, MESSAGE, COUNTS };

/* Counts what is read from a false start on. */
static void count_frames(const uint8_t *bits, size_t length, unsigned long found[COUNTS])
{
    uint8_t entries[3 * WWVB_ENTRY_SIZE];
    wwvb_read_reply r = wwvb_read_recording(bits, length, entries, sizeof entries);
    int clean = 0;
    size_t i;

    for (i = 0; i < r.entries; i++) {
        wwvb_entry e = wwvb_entry_at(entries, i);

        if (e.kind == WWVB_ENTRY_MESSAGE) {
            found[MESSAGE]++;
            return;
        }
        clean = clean || e.place == 0;
        found[i == 0 ? ONE : i == 1 ? TWO : THREE]++;
        if (i < 2)
            found[i == 0 ? ONE_CLEAN : TWO_CLEAN] += clean;
    }
}

/* Counts the false starts in the minutes from `next` to `stop` - 1; gives whether all was
   written. */
static int count(const wwvb_plan *plan, uint32_t next, uint32_t stop, unsigned long found[COUNTS])
{
    static uint8_t bits[WWVB_MAX_RECORDING];
    uint32_t end; /* starts from minute next to end - 1 are tried in one recording */

    for (; next < stop; next = end) {
        uint32_t last = WWVB_MINUTES - FRAMES, first = next < last ? next : last;
        wwvb_write_reply w = wwvb_write(plan, first, FRAMES, bits, sizeof bits);
        uint32_t word = 0;
        size_t i;

        end = first < last ? first + TRIED : WWVB_MINUTES;
        if (end > stop)
            end = stop;
        if (w.refusal != WWVB_OK || w.bits != FRAMES * 60)
            return 0;
        for (i = 0; i < w.bits; i++) {
            word = (word << 1 | bits[i]) & 0x1fff;
            if (word != 0x768 || i < 12 || (i - 12) % 60 == 0)
                continue; /* not the sync word, 0011101101000, or at a frame's start */
            if (first + (i - 12) / 60 < next || first + (i - 12) / 60 >= end)
                continue;
            found[SYNC]++;
            count_frames(bits + i - 12, w.bits - (i - 12), found);
        }
    }
    return 1;
}

static void say(const char *plan, const unsigned long found[COUNTS])
{
    printf("starts, %s: %lu false sync words, %lu false frames, %lu of them with place 0;\n", plan,
           found[SYNC], found[ONE], found[ONE_CLEAN]);
    printf("starts, %s: %lu pairs of them in order, %lu with place 0; %lu threes; %lu messages\n",
           plan, found[TWO], found[TWO_CLEAN], found[THREE], found[MESSAGE]);
}

#define FALSE_START 40u        /* the bit of a message at which a false frame begins */
#define FALSE_MINUTE 27476000u /* its time[24..13] are bits of the messages' sync word */

/* The data of a message that ends with the first bits of one frame, and has the last bits of
   another after its sync word. */
static uint64_t data_of(const uint8_t *ending, const uint8_t *beginning)
{
    uint64_t data = 0;
    unsigned i;

    for (i = 13; i < 59; i++)
        if (i % 10 != 9) /* 19, 29, 39 and 49 are not data */
            data = data << 1 | (i < FALSE_START ? beginning[i + 60 - FALSE_START]
                                                : ending[i - FALSE_START]);
    return data;
}

/* Four messages in a row that hold three false time frames in order, each with place 0; gives
   whether they are read. */
static int try_false_frames(void)
{
    uint8_t bits[6 * WWVB_MAX_FRAME], frames[5][WWVB_MAX_FRAME], entries[6 * WWVB_ENTRY_SIZE];
    wwvb_plan plan = wwvb_us_plan();
    wwvb_write_reply w;
    wwvb_read_reply r;
    uint32_t i;

    memset(frames, 0, sizeof frames);
    for (i = 1; i < 4; i++)
        if (wwvb_write(&plan, FALSE_MINUTE + i, 1, frames[i], sizeof frames[i]).bits != 60)
            return 0;
    plan.notice = 1; /* bit 49, which is a 1 of the false sync word */
    plan.message_count = 4;
    for (i = 0; i < 4; i++) {
        plan.messages[i].minute = 6578971 + i;
        plan.messages[i].data = data_of(frames[i + 1], frames[i]);
    }
    w = wwvb_write(&plan, 6578970, 6, bits, sizeof bits);
    if (w.refusal != WWVB_OK || wwvb_read_recording(bits, w.bits, entries, sizeof entries).refusal)
        return 0;
    r = wwvb_read_recording(bits + 60 + FALSE_START, w.bits - 60 - FALSE_START, entries,
                            sizeof entries);
    printf("starts: four messages hold %lu false time frames in order\n",
           (unsigned long)r.entries);
    for (i = 0; i < r.entries; i++) {
        wwvb_entry e = wwvb_entry_at(entries, i);

        if (e.kind != WWVB_ENTRY_TIME || e.minute != FALSE_MINUTE + 1 + i || e.place != 0)
            return 0;
    }
    return r.entries == 3;
}

int main(void)
{
    wwvb_plan us = wwvb_us_plan(), since_2000 = wwvb_us_plan_since_2000();
    unsigned long by_us[COUNTS] = {0}, by_since_2000[COUNTS] = {0}, later[COUNTS] = {0};
    int k;

    if (!count(&us, 0, SAME, by_us) || !count(&since_2000, 0, SAME, by_since_2000)
        || !count(&us, SAME, WWVB_MINUTES, later))
        return 1;
    for (k = 0; k < COUNTS; k++) {
        by_us[k] += later[k];
        by_since_2000[k] += later[k];
    }
    say("us_plan", by_us);
    say("us_plan_since_2000", by_since_2000);
    if (by_us[ONE] != 23147 || by_us[ONE_CLEAN] != 903 || by_us[TWO] != 1)
        return 1;
    if (by_since_2000[ONE] != 23518 || by_since_2000[ONE_CLEAN] != 905 || by_since_2000[TWO] != 3)
        return 1;
    if (by_us[TWO_CLEAN] + by_us[THREE] + by_us[MESSAGE] != 0)
        return 1;
    if (by_since_2000[TWO_CLEAN] + by_since_2000[THREE] + by_since_2000[MESSAGE] != 0)
        return 1;
    return !try_false_frames();
}
