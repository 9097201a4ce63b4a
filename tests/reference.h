/*
 * The WWVB phase code and amplitude code, and IRIG B, in plain C, written from documents 01 and
 * 02, and Table 1 of source document 000, alone, and for reading, not for speed: its own tables,
 * its own calendar, and correction by trying the 32 candidates. It shares nothing with the library
 * but these documents.
 */
#ifndef REFERENCE_H
#define REFERENCE_H

#include <stddef.h>
#include <stdint.h>

/* The six numbers of a plan. Its messages stand beside them, ten bytes each: the minute in four,
   the data in six, the highest byte first. Without messages the length is 0, and NULL will do. */
struct ref_plan {
    uint32_t kind, spring, autumn, leap_month;
    int32_t leap_sign;
    uint32_t notice;
};

/* Bytes of an entry. */
#define REF_ENTRY 18

/* Bytes of a line of a page with its line feed, entries on a page, and bytes of a page. */
#define REF_LINE 42
#define REF_PAGE_ENTRIES 50
#define REF_PAGE (52 * REF_LINE)

struct ref_date {
    uint32_t year, month, day, hour, minute, weekday;
};

/* A minute of the amplitude code, as it was read. */
struct ref_amplitude {
    struct ref_date date;
    int32_t ut1_sign;
    uint32_t ut1_tenths, warning, daylight, length;
};

/* Elements of a second of IRIG B. */
#define REF_IRIG 100

/* A second of IRIG B, as it was read. */
struct ref_irig {
    uint32_t day_of_year, second_of_day;
};

/* Each gives the number of the first check that fails, or 0. What is pointed to is written only
   with 0. The entries, bits and buffer of a recording's reading are those of the frames before the
   refused one. */
unsigned ref_minute_to_date(uint32_t minute, struct ref_date *date);
unsigned ref_date_to_minute(const struct ref_date *date, uint32_t *minute);
unsigned ref_local_date(uint32_t minute, uint32_t state, int32_t offset, uint32_t hour,
                        struct ref_date *date);
unsigned ref_write(const struct ref_plan *plan, const uint8_t *messages, size_t messages_length,
                   uint32_t first, uint32_t count, uint8_t *out, size_t space, size_t *bits);
unsigned ref_read_frame(const uint8_t *bits, size_t length, uint8_t *entry, size_t space);
unsigned ref_read(const uint8_t *bits, size_t length, uint8_t *entries, size_t space,
                  size_t *count, size_t *used);
unsigned ref_print_pages(const uint8_t *bits, size_t length, uint8_t *out, size_t space,
                         size_t *bytes);
unsigned ref_write_amplitude(const struct ref_plan *plan, const uint8_t *messages,
                             size_t messages_length, uint32_t minute, int32_t ut1_sign,
                             uint32_t ut1_tenths, uint8_t *out, size_t space, size_t *symbols);
unsigned ref_read_amplitude(const uint8_t *symbols, size_t length, struct ref_amplitude *read);
unsigned ref_write_irig(const struct ref_plan *plan, const uint8_t *messages,
                        size_t messages_length, uint32_t minute, uint32_t second, uint8_t *out,
                        size_t space, size_t *elements);
unsigned ref_read_irig(const uint8_t *elements, size_t length, struct ref_irig *read);

/* The entry of a time frame that a legal plan, a minute, the place inverted in the frame (0: none)
   and the echo byte give, nothing of it read. */
void ref_entry_as_sent(const struct ref_plan *plan, uint32_t minute, unsigned place, unsigned echo,
                       uint8_t entry[REF_ENTRY]);

/* The entry of a message that a legal plan, its minute and its data give, nothing of it read. */
void ref_message_as_sent(const struct ref_plan *plan, uint32_t minute, uint64_t data,
                         uint8_t entry[REF_ENTRY]);

/* The number of the bit of a frame at a place, 1 to 31, of its time word. */
unsigned ref_bit_of_place(unsigned place);

/* The number of the bit of a message frame at which data[i] stands, i from 0 to 41. */
unsigned ref_bit_of_data(unsigned i);

/* The daylight state, 0 to 3, that a legal plan gives a minute. */
unsigned ref_daylight(const struct ref_plan *plan, uint32_t minute);

/* 1 where the minute is the last of its month. */
int ref_last_of_month(uint32_t minute);

#endif
