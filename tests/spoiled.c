/*
 * tests/play.c with calls that change a byte which they must not change, write another frame,
 * print something else, or give another reply of IRIG B. SPOIL in the environment says which byte:
 *   before           the one before the buffer of a writing or printing
 *   after            the one after it
 *   refused          the first of a buffer whose writing is refused, or whose printing by 4
 *   refused-bits     the first of a buffer whose printing is refused for its recording
 *   rest             the one after the last symbol, bit, element or page
 *   input            the first symbol, bit or element that is read or printed
 *   after-input      the one after the last of these
 *   before-entries   the one before the entry buffer of a reading
 *   after-entries    the one after it
 *   rest-of-entries  the one after the last entry, in the buffer
 *   before-messages  the one before the messages of a writing
 *   messages         the first of them
 *   after-messages   the one after them
 * or what is wrong in the first frame that is written:
 *   echo             bit 19
 *   place            bit 46, place 31 of the time word
 *   notice           bit 49
 *   minute           it is the frame of the minute after
 * or what is wrong in the second entry that is read, if there are more:
 *   entry            the last byte, of the data
 * or what is wrong in what is printed:
 *   count            the number of bytes is less by a page
 *   count-refused    the number of bytes is that of a page, though it is refused
 *   blank            the last character of the last page, if it is a blank
 *   first-page       the echo in the first line of the first page, if there are more
 * or what is wrong in a reply of IRIG B:
 *   elements         the number written is less by one
 *   elements-refused the number written is 100, though it is refused
 *   day              the day read is more by one
 *   second           the second read is more by one
 *   day-refused      the day read is 1, though it is refused
 *   second-refused   the second read is 1, though it is refused
 * Without SPOIL the calls are those of the library.
 */
#define _POSIX_C_SOURCE 200809L
#include "wwvb.h"

#include <stdlib.h>
#include <string.h>

static int is_wanted(const char *name)
{
    const char *wanted = getenv("SPOIL");

    return wanted && strcmp(wanted, name) == 0;
}

static void spoil(const char *name, uint8_t *byte)
{
    if (is_wanted(name))
        *byte ^= 1;
}

/* So many bits, symbols or elements are written. */
static void spoil_written(size_t refusal, size_t n, uint8_t *out, size_t out_length)
{
    spoil("before", out - 1);
    spoil("after", out + out_length);
    if (refusal != WWVB_OK && out_length > 0)
        spoil("refused", out);
    if (refusal == WWVB_OK && n < out_length)
        spoil("rest", out + n);
}

static void spoil_messages(const uint8_t *messages, size_t messages_length)
{
    spoil("before-messages", (uint8_t *)messages - 1);
    spoil("after-messages", (uint8_t *)messages + messages_length);
    if (messages_length > 0)
        spoil("messages", (uint8_t *)messages);
}

static void spoil_input(const uint8_t *bits, size_t bits_length)
{
    if (bits_length > 0)
        spoil("input", (uint8_t *)bits);
    spoil("after-input", (uint8_t *)bits + bits_length);
}

/* So many entries stand in the buffer. */
static void spoil_entries(size_t n, uint8_t *entries, size_t entries_length)
{
    spoil("before-entries", entries - 1);
    spoil("after-entries", entries + entries_length);
    if (n * WWVB_ENTRY_SIZE < entries_length)
        spoil("rest-of-entries", entries + n * WWVB_ENTRY_SIZE);
}

static wwvb_write_reply spoiling_write_recording(uint32_t kind, uint32_t spring, uint32_t autumn,
                                                 uint32_t leap_month, int32_t leap_sign,
                                                 uint32_t notice, const uint8_t *messages,
                                                 size_t messages_length, uint32_t first,
                                                 uint32_t count, uint8_t *out, size_t out_length)
{
    wwvb_write_reply r = wwvb_write_recording(kind, spring, autumn, leap_month, leap_sign, notice,
                                              messages, messages_length,
                                              first + (uint32_t)is_wanted("minute"), count, out,
                                              out_length);

    spoil_messages(messages, messages_length);
    spoil_written(r.refusal, r.bits, out, out_length);
    if (r.refusal == WWVB_OK) {
        spoil("echo", out + 19);
        spoil("place", out + 46);
        spoil("notice", out + 49);
    }
    return r;
}

static uint32_t spoiling_read_frame(const uint8_t *bits, size_t bits_length, uint8_t *entry,
                                    size_t entry_length)
{
    uint32_t refusal = wwvb_read_frame(bits, bits_length, entry, entry_length);

    spoil_input(bits, bits_length);
    spoil_entries(refusal == WWVB_OK, entry, entry_length);
    return refusal;
}

static wwvb_read_reply spoiling_read_recording(const uint8_t *bits, size_t bits_length,
                                               uint8_t *entries, size_t entries_length)
{
    wwvb_read_reply r = wwvb_read_recording(bits, bits_length, entries, entries_length);

    spoil_input(bits, bits_length);
    spoil_entries(r.entries, entries, entries_length);
    if (r.entries > 2)
        spoil("entry", entries + 2 * WWVB_ENTRY_SIZE - 1);
    return r;
}

static wwvb_print_reply spoiling_print_pages(const uint8_t *bits, size_t bits_length, uint8_t *out,
                                             size_t out_length)
{
    wwvb_print_reply r = wwvb_print_pages(bits, bits_length, out, out_length);

    spoil_input(bits, bits_length);
    spoil("before", out - 1);
    spoil("after", out + out_length);
    if (r.refusal != WWVB_OK && out_length > 0)
        spoil(r.refusal == WWVB_NO_BIT_SPACE ? "refused" : "refused-bits", out);
    if (r.refusal == WWVB_OK && r.bytes < out_length)
        spoil("rest", out + r.bytes);
    if (r.bytes > 0 && out[r.bytes - 2] == ' ')
        spoil("blank", out + r.bytes - 2);
    if (r.bytes > WWVB_PAGE_SIZE)
        spoil("first-page", out + 3 * 42 - 2);
    if (r.bytes > 0 && is_wanted("count"))
        r.bytes -= WWVB_PAGE_SIZE;
    if (r.refusal != WWVB_OK && is_wanted("count-refused"))
        r.bytes = WWVB_PAGE_SIZE;
    return r;
}

static wwvb_write_reply spoiling_write_amplitude(uint32_t kind, uint32_t spring, uint32_t autumn,
                                                 uint32_t leap_month, int32_t leap_sign,
                                                 uint32_t notice, const uint8_t *messages,
                                                 size_t messages_length, uint32_t minute,
                                                 int32_t ut1_sign, uint32_t ut1_tenths,
                                                 uint8_t *out, size_t out_length)
{
    wwvb_write_reply r = wwvb_write_amplitude(kind, spring, autumn, leap_month, leap_sign, notice,
                                              messages, messages_length, minute, ut1_sign,
                                              ut1_tenths, out, out_length);

    spoil_messages(messages, messages_length);
    spoil_written(r.refusal, r.bits, out, out_length);
    return r;
}

static wwvb_amplitude_reply spoiling_read_amplitude(const uint8_t *symbols, size_t symbols_length)
{
    wwvb_amplitude_reply r = wwvb_read_amplitude(symbols, symbols_length);

    spoil_input(symbols, symbols_length);
    return r;
}

static wwvb_irig_write_reply spoiling_write_irig(uint32_t kind, uint32_t spring, uint32_t autumn,
                                                 uint32_t leap_month, int32_t leap_sign,
                                                 uint32_t notice, const uint8_t *messages,
                                                 size_t messages_length, uint32_t minute,
                                                 uint32_t second, uint8_t *out, size_t out_length)
{
    wwvb_irig_write_reply r = wwvb_write_irig(kind, spring, autumn, leap_month, leap_sign, notice,
                                              messages, messages_length, minute, second, out,
                                              out_length);

    spoil_messages(messages, messages_length);
    spoil_written(r.refusal, r.elements, out, out_length);
    if (r.refusal == WWVB_OK && is_wanted("elements"))
        r.elements--;
    if (r.refusal != WWVB_OK && is_wanted("elements-refused"))
        r.elements = WWVB_IRIG_ELEMENTS;
    return r;
}

static wwvb_irig_reply spoiling_read_irig(const uint8_t *elements, size_t elements_length)
{
    wwvb_irig_reply r = wwvb_read_irig(elements, elements_length);

    spoil_input(elements, elements_length);
    r.day_of_year += (uint32_t)is_wanted(r.refusal == WWVB_OK ? "day" : "day-refused");
    r.second_of_day += (uint32_t)is_wanted(r.refusal == WWVB_OK ? "second" : "second-refused");
    return r;
}

#define wwvb_write_recording spoiling_write_recording
#define wwvb_read_frame spoiling_read_frame
#define wwvb_read_recording spoiling_read_recording
#define wwvb_print_pages spoiling_print_pages
#define wwvb_write_amplitude spoiling_write_amplitude
#define wwvb_read_amplitude spoiling_read_amplitude
#define wwvb_write_irig spoiling_write_irig
#define wwvb_read_irig spoiling_read_irig
#include "play.c"
