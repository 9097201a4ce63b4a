/* The header alone, as C99 and as C++, with the sizes that its structs have in the library. */
#include "wwvb.h"

#include "wwvb.h"

typedef char date_size[sizeof(wwvb_date_reply) == 28 ? 1 : -1];
typedef char minute_size[sizeof(wwvb_minute_reply) == 8 ? 1 : -1];
typedef char write_size[sizeof(wwvb_write_reply) == 16 ? 1 : -1];
typedef char read_size[sizeof(wwvb_read_reply) == 24 ? 1 : -1];
typedef char print_size[sizeof(wwvb_print_reply) == 16 ? 1 : -1];
typedef char amplitude_size[sizeof(wwvb_amplitude_reply) == 48 ? 1 : -1];
typedef char irig_write_size[sizeof(wwvb_irig_write_reply) == 16 ? 1 : -1];
typedef char irig_size[sizeof(wwvb_irig_reply) == 12 ? 1 : -1];
typedef char recording_size[WWVB_MAX_RECORDING == WWVB_MAX_COUNT * 60 + 1 ? 1 : -1];
typedef char entry_size[WWVB_ENTRY_SIZE == WWVB_ENTRY_DATA + 6 ? 1 : -1];
typedef char page_size[WWVB_PAGE_SIZE == (WWVB_PAGE_ENTRIES + 2) * 42 ? 1 : -1];
typedef char data_limit[WWVB_DATA_LIMIT == (uint64_t)1 << 42 ? 1 : -1];

int main(void)
{
    uint8_t bits[WWVB_MAX_FRAME], entry[WWVB_ENTRY_SIZE], elements[WWVB_IRIG_ELEMENTS];
    wwvb_write_reply w = wwvb_write_recording(1, 0, 0, 0, 0, 0, NULL, 0, 0, 1, bits, sizeof bits);
    wwvb_irig_write_reply r;
    wwvb_plan plan = wwvb_us_plan();
    date_size a;
    minute_size b;
    write_size c;
    read_size d;
    recording_size e;
    amplitude_size f;
    entry_size g;
    data_limit h;
    print_size i;
    page_size j;
    irig_write_size k;
    irig_size l;

    a[0] = b[0] = c[0] = d[0] = e[0] = f[0] = g[0] = h[0] = i[0] = j[0] = k[0] = l[0] = 0;
    if (w.refusal != WWVB_OK || wwvb_read_frame(bits, w.bits, entry, sizeof entry) != WWVB_OK)
        return 1;
    if (wwvb_read_recording(NULL, 0, NULL, 0).refusal != WWVB_OK)
        return 1;
    if (wwvb_read_frame(NULL, 0, NULL, 0) != WWVB_NO_ENTRY_SPACE)
        return 1;
    if (wwvb_print_pages(bits, w.bits, NULL, 0).refusal != WWVB_NO_BIT_SPACE)
        return 1;
    if (wwvb_print_pages(NULL, 0, NULL, 0).refusal != WWVB_OK)
        return 1;
    w = wwvb_write_recording(1, 0, 0, 0, 0, 0, NULL, 0, 0, 1, NULL, 0);
    if (w.refusal != WWVB_NO_BIT_SPACE)
        return 1;
    if (wwvb_local_date(0, 0, -600, 2).day != 31)
        return 1;
    if (wwvb_local_date(0, 4, -600, 2).refusal != WWVB_BAD_SETTING)
        return 1;
    w = wwvb_write_amplitude(1, 0, 0, 0, 0, 0, NULL, 0, 0, 1, 0, NULL, 0);
    if (w.refusal != WWVB_NO_BIT_SPACE)
        return 1;
    if (wwvb_read_amplitude(NULL, 0).refusal != WWVB_BAD_SYMBOLS)
        return 1;
    w = wwvb_write_amplitude_by_plan(&plan, 0, -1, 3, bits, sizeof bits);
    if (w.refusal != WWVB_OK || wwvb_read_amplitude(bits, w.bits).ut1_sign != -1)
        return 1;
    r = wwvb_write_irig(1, 0, 0, 0, 0, 0, NULL, 0, 0, 0, NULL, 0);
    if (r.refusal != WWVB_NO_BIT_SPACE)
        return 1;
    if (wwvb_read_irig(NULL, 0).refusal != WWVB_BAD_SECOND)
        return 1;
    r = wwvb_write_irig_by_plan(&plan, 1, 2, elements, sizeof elements);
    if (r.refusal != WWVB_OK || wwvb_read_irig(elements, r.elements).second_of_day != 62)
        return 1;
    return a[0] + b[0] + c[0] + d[0] + e[0] + f[0] + g[0] + h[0] + i[0] + j[0] + k[0] + l[0];
}
