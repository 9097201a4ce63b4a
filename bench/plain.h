/* A plain C codec to measure against: straightforward code from documents 01 and 02, with the library's calls, and for
   some of them code for speed alone too. */
#ifndef PLAIN_H
#define PLAIN_H

#include "wwvb.h"

#ifndef PLAIN
#define PLAIN plain
#define PLAIN_LABEL "plain C"
#endif

typedef wwvb_write_reply write_recording_call(uint32_t kind, uint32_t spring, uint32_t autumn,
                                              uint32_t leap_month, int32_t leap_sign,
                                              uint32_t notice, const uint8_t *messages,
                                              size_t messages_length, uint32_t first,
                                              uint32_t count, uint8_t *out, size_t out_length);
typedef wwvb_write_reply write_amplitude_call(uint32_t kind, uint32_t spring, uint32_t autumn,
                                              uint32_t leap_month, int32_t leap_sign,
                                              uint32_t notice, const uint8_t *messages,
                                              size_t messages_length, uint32_t minute,
                                              int32_t ut1_sign, uint32_t ut1_tenths, uint8_t *out,
                                              size_t out_length);
typedef wwvb_print_reply print_pages_call(const uint8_t *bits, size_t bits_length, uint8_t *out,
                                          size_t out_length);
typedef wwvb_amplitude_reply read_amplitude_call(const uint8_t *symbols, size_t symbols_length);
typedef wwvb_irig_write_reply write_irig_call(uint32_t kind, uint32_t spring, uint32_t autumn,
                                              uint32_t leap_month, int32_t leap_sign,
                                              uint32_t notice, const uint8_t *messages,
                                              size_t messages_length, uint32_t minute,
                                              uint32_t second, uint8_t *out, size_t out_length);
typedef wwvb_irig_reply read_irig_call(const uint8_t *elements, size_t elements_length);

/* The calls of the library that are measured. A call fast_.. is one written for speed alone, and hand_.. one without
   snprintf; of the library it is the call without the prefix. */
struct codec {
    const char *label;
    write_recording_call *write_recording;
    uint32_t (*read_frame)(const uint8_t *bits, size_t bits_length, uint8_t *entry,
                           size_t entry_length);
    wwvb_read_reply (*read_recording)(const uint8_t *bits, size_t bits_length, uint8_t *entries, size_t entries_length);
    print_pages_call *print_pages;
    print_pages_call *hand_print_pages;
    wwvb_date_reply (*minute_to_date)(uint32_t minute);
    wwvb_date_reply (*fast_minute_to_date)(uint32_t minute);
    wwvb_minute_reply (*date_to_minute)(uint32_t year, uint32_t month, uint32_t day, uint32_t hour, uint32_t minute);
    wwvb_date_reply (*local_date)(uint32_t minute, uint32_t state, int32_t offset, uint32_t hour);
    write_amplitude_call *write_amplitude;
    write_amplitude_call *fast_write_amplitude;
    read_amplitude_call *read_amplitude;
    read_amplitude_call *fast_read_amplitude;
    write_irig_call *write_irig;
    write_irig_call *fast_write_irig;
    read_irig_call *read_irig;
    read_irig_call *fast_read_irig;
};

extern const struct codec PLAIN;

#endif
