/*
 * Plays files of vectors against the library. A line that begins with # is a comment. Every other
 * line is a case: the name of its form, the inputs, =, and the answer, with one space between. The
 * library's answer is written down as the file has answers, and the two texts are compared. Every
 * buffer of a call, also one that is only read, stands between guard bytes. After the call all
 * bytes that must not change are compared with those before it. Each case is played twice, with
 * other bytes in and around the buffers.
 *
 * A writing is played by the call with numbers, which takes messages as bytes, and by the inline
 * form of it, which takes a plan as a struct. The six bytes of a message's data do not hold every
 * number that a file may have. A case with a larger one is played by the struct alone, and a line
 * of standard output says how many these are.
 *
 * usage: play FILE..
 * A case fails if the answer is another one, the form is not known, a number is out of range, or
 * the line cannot be read whole. The last line may end without a line feed. A file that cannot be
 * read, or has no case, is a failed case too.
 * Standard error names the first 20 that fail. The last line of standard output is
 * 'N passed, M failed'. Status 0: some passed, and none failed.
 */
#define _POSIX_C_SOURCE 200809L
#include "wwvb.h"

#include <errno.h>
#include <inttypes.h>
#include <stdarg.h>
#include <stdio.h>
#include <stdlib.h>
#include <string.h>
#include <sys/types.h>

#define NAMED 20     /* failed cases that are named */
#define GUARD 64     /* guard bytes on either side of a buffer */
#define LONGER 40    /* bytes more, where a call is tried again with a longer buffer */
#define MOST 2000000 /* the longest buffer that a line may ask for */
#define MESSAGES 100 /* the most messages of a plan that a line may have */
#define RUN 100000   /* the most frames of a run */

static void *room_for(size_t bytes)
{
    void *at = malloc(bytes ? bytes : 1);

    if (!at) {
        fprintf(stderr, "play: no memory\n");
        exit(1);
    }
    return at;
}

/* ---- texts, which are the answers */

struct text {
    char *at; /* always ended by a 0 byte */
    size_t length, space;
};

static void clear(struct text *t)
{
    if (!t->at) {
        t->space = 256;
        t->at = room_for(t->space);
    }
    t->length = 0;
    t->at[0] = 0;
}

/* Adds to a text what printf would print. */
static void say(struct text *t, const char *format, ...)
{
    va_list arguments;
    int n;

    va_start(arguments, format);
    n = vsnprintf(t->at + t->length, t->space - t->length, format, arguments);
    va_end(arguments);
    if (n < 0)
        exit(1);
    if ((size_t)n >= t->space - t->length) {
        char *longer = room_for(2 * (t->space + (size_t)n));

        memcpy(longer, t->at, t->length);
        free(t->at);
        t->at = longer;
        t->space = 2 * (t->space + (size_t)n);
        va_start(arguments, format);
        n = vsnprintf(t->at + t->length, t->space - t->length, format, arguments);
        va_end(arguments);
    }
    t->length += (size_t)n;
}

/* A text in quotes; what is not a printable character is shown by its number. */
static void say_quoted(struct text *t, const char *quoted)
{
    say(t, "'");
    for (; *quoted; quoted++)
        say(t, *quoted >= ' ' && *quoted <= '~' ? "%c" : "\\x%02x", (unsigned char)*quoted);
    say(t, "'");
}

/* Bits, symbols or elements, a digit a byte; none at all are a minus. */
static void say_digits(struct text *t, const uint8_t *bytes, size_t n)
{
    size_t i;

    if (n == 0)
        say(t, "-");
    for (i = 0; i < n; i++)
        say(t, "%c", bytes[i] <= 9 ? '0' + bytes[i] : '?');
}

/* Bytes in hex, two digits each; none at all are a minus. */
static void say_hex(struct text *t, const uint8_t *bytes, size_t n)
{
    size_t i;

    if (n == 0)
        say(t, "-");
    for (i = 0; i < n; i++)
        say(t, "%02x", bytes[i]);
}

/* ---- lines */

/* A line, whose inputs are taken one after the other. */
struct line {
    char *next;         /* the rest of the line, or NULL at its end */
    const char *fault;  /* why it cannot be played, or NULL */
    const char *answer; /* the file's answer, or NULL if the line cannot be played */
};

static const char not_whole[] = "the line cannot be read whole";
static const char out_of_range[] = "a number is out of range";

/* The first fault of a line is the one that is named. */
static void find_fault(struct line *l, const char *fault)
{
    if (!l->fault)
        l->fault = fault;
}

/* The next word; an empty one if there is none. */
static const char *word(struct line *l)
{
    static const char none[] = "";
    char *w = l->next, *end;

    if (!w)
        return none;
    end = strchr(w, ' ');
    l->next = end ? end + 1 : NULL;
    if (end)
        *end = 0;
    return w;
}

/* A number of base ten, at most so large, without a sign and without a 0 before it. */
static uint64_t digits_of(struct line *l, const char *w, uint64_t most)
{
    uint64_t n = 0;

    if (*w == 0 || (w[0] == '0' && w[1] != 0) || w[strspn(w, "0123456789")] != 0)
        find_fault(l, not_whole);
    for (; *w && !l->fault; w++) {
        uint64_t digit = (uint64_t)(*w - '0');

        if (digit > most || n > (most - digit) / 10)
            find_fault(l, out_of_range);
        else
            n = n * 10 + digit;
    }
    return n;
}

static uint32_t number(struct line *l)
{
    return (uint32_t)digits_of(l, word(l), UINT32_MAX);
}

static uint32_t number_to(struct line *l, uint32_t most)
{
    return (uint32_t)digits_of(l, word(l), most);
}

static int32_t signed_number(struct line *l)
{
    const char *w = word(l);
    int64_t n;

    if (*w != '-')
        return (int32_t)digits_of(l, w, INT32_MAX);
    n = (int64_t)digits_of(l, w + 1, (uint64_t)INT32_MAX + 1);
    if (n == 0)
        find_fault(l, not_whole);
    return (int32_t)-n;
}

static size_t space(struct line *l)
{
    return (size_t)digits_of(l, word(l), MOST);
}

/* The bytes of an input. */
struct bytes {
    uint8_t *at;
    size_t length;
};

/* Bits, symbols or elements: a digit stands for a byte of that value, and a minus for none at
   all. */
static struct bytes symbols(struct line *l)
{
    const char *w = word(l);
    struct bytes b = {NULL, 0};

    b.at = room_for(strlen(w));
    if (*w == 0)
        find_fault(l, not_whole);
    if (strcmp(w, "-") == 0)
        return b;
    for (; *w; w++) {
        if (*w < '0' || *w > '9')
            find_fault(l, not_whole);
        b.at[b.length++] = (uint8_t)(*w - '0');
    }
    return b;
}

static int hex_digit(char c)
{
    static const char all[] = "0123456789abcdef";
    const char *at = strchr(all, c >= 'A' && c <= 'F' ? c - 'A' + 'a' : c);

    return c && at ? (int)(at - all) : -1;
}

/* Bytes in hex, two digits each; a minus for none at all. */
static struct bytes hex(struct line *l)
{
    const char *w = word(l);
    struct bytes b = {NULL, 0};

    b.at = room_for(strlen(w));
    if (*w == 0)
        find_fault(l, not_whole);
    if (strcmp(w, "-") == 0)
        return b;
    for (; *w; w += 2) {
        int high = hex_digit(w[0]), low = hex_digit(w[1]);

        if (high < 0 || low < 0) {
            find_fault(l, not_whole);
            break;
        }
        b.at[b.length++] = (uint8_t)(high * 16 + low);
    }
    return b;
}

/* The number of inputs that are left before the equals sign. */
static size_t inputs_left(const struct line *l)
{
    const char *w = l->next;
    size_t n = 0;

    for (; w && !(w[0] == '=' && (w[1] == ' ' || w[1] == 0)); n++) {
        w = strchr(w, ' ');
        w = w ? w + 1 : NULL;
    }
    return n;
}

/* Ends the inputs: whether all could be read and an answer follows. */
static int inputs_end(struct line *l)
{
    if (strcmp(word(l), "=") != 0 || !l->next || !*l->next)
        find_fault(l, not_whole);
    if (!l->fault)
        l->answer = l->next;
    return !l->fault;
}

/* ---- buffers between guard bytes */

static unsigned filling; /* 0 or 1: what stands in and around the buffers */

struct buffer {
    uint8_t *at; /* after the first guard bytes */
    size_t length;
    uint8_t *before; /* all bytes with the guards, as they were before the call */
};

/* A buffer of these bytes, or with NULL of any bytes. */
static struct buffer buffer_of(const uint8_t *bytes, size_t length)
{
    struct buffer b;
    size_t i, all = length + 2 * GUARD;

    b.length = length;
    b.before = room_for(all);
    for (i = 0; i < all; i++)
        b.before[i] = (uint8_t)((0xa5 ^ i * 29) ^ (filling ? 255 : 0));
    if (bytes && length)
        memcpy(b.before + GUARD, bytes, length);
    b.at = room_for(all);
    memcpy(b.at, b.before, all);
    b.at += GUARD;
    return b;
}

static void give_back(struct buffer *b)
{
    free(b->at - GUARD);
    free(b->before);
}

/* Says whether a byte is changed that is not one of the first n; gives the buffer back. */
static void done_with(struct buffer *b, size_t n, struct text *got)
{
    const uint8_t *all = b->at - GUARD, *before = b->before;

    if (n > b->length)
        n = b->length;
    if (memcmp(b->at + n, before + GUARD + n, b->length - n) != 0)
        say(got, ", and a byte of the buffer is changed");
    if (memcmp(all, before, GUARD) != 0
        || memcmp(b->at + b->length, before + GUARD + b->length, GUARD) != 0)
        say(got, ", and a byte beside the buffer is changed");
    give_back(b);
}

/* ---- plans */

/* A plan. Its messages are in the struct and in bytes; if a plan has too many for the struct, the
   first of them are there. */
struct plan {
    wwvb_plan fields;
    uint8_t messages[MESSAGES * WWVB_MESSAGE_SIZE];
    size_t messages_length;
    int too_wide; /* data that the bytes do not hold: the struct alone can be played */
};

static unsigned long too_wide_cases;

static void add_message(struct plan *p, uint32_t i, uint32_t minute, uint64_t data)
{
    uint8_t *bytes = p->messages + i * WWVB_MESSAGE_SIZE;
    uint32_t k;

    if (i < WWVB_MAX_MESSAGES) {
        p->fields.messages[i].minute = minute;
        p->fields.messages[i].data = data;
    }
    for (k = 0; k < 4; k++)
        bytes[k] = (uint8_t)(minute >> (24 - 8 * k));
    for (k = 0; k < 6; k++)
        bytes[4 + k] = (uint8_t)(data >> (40 - 8 * k));
    p->messages_length += WWVB_MESSAGE_SIZE;
    p->too_wide |= data >> 48 != 0;
}

/* PLAN: six numbers, and in files from 07 on the number of messages and for each its minute and
   its data. No word of a line says which of the two it has. So its inputs are counted: if six are
   left beside those after the plan, the plan has no number of messages, and no messages. */
static struct plan plan(struct line *l, size_t inputs_after)
{
    int has_number = inputs_left(l) != 6 + inputs_after;
    struct plan p;
    uint32_t i;

    memset(&p, 0, sizeof p);
    p.fields.kind = number(l);
    p.fields.spring = number(l);
    p.fields.autumn = number(l);
    p.fields.leap_month = number(l);
    p.fields.leap_sign = signed_number(l);
    p.fields.notice = number(l);
    p.fields.message_count = has_number ? number_to(l, MESSAGES) : 0;
    for (i = 0; i < p.fields.message_count && !l->fault; i++) {
        uint32_t minute = number(l);

        add_message(&p, i, minute, digits_of(l, word(l), UINT64_MAX));
    }
    too_wide_cases += p.too_wide && filling == 0;
    return p;
}

/* ---- the forms: each takes its inputs from the line and says what the library gives */

/* What is written: frames, a minute in the amplitude code, or a second of IRIG B. */
enum code { PHASE, AMPLITUDE, IRIG };

struct writing {
    struct plan plan;
    enum code code;
    uint32_t minute; /* of frames the first */
    uint32_t count;  /* of frames */
    int32_t sign;    /* of UT1, and its tenths, in the amplitude code */
    uint32_t tenths;
    uint32_t second; /* of IRIG B */
};

/* The reply of a writing of IRIG B as that of the others: the elements are its bits. */
static wwvb_write_reply with_elements(wwvb_irig_write_reply r)
{
    wwvb_write_reply reply;

    reply.refusal = r.refusal;
    reply.bits = r.elements;
    return reply;
}

static wwvb_write_reply write_by_numbers(const struct writing *w, const struct buffer *messages,
                                         const struct buffer *out)
{
    const wwvb_plan *p = &w->plan.fields;

    if (w->code == AMPLITUDE)
        return wwvb_write_amplitude(p->kind, p->spring, p->autumn, p->leap_month, p->leap_sign,
                                    p->notice, messages->at, messages->length, w->minute, w->sign,
                                    w->tenths, out->at, out->length);
    if (w->code == IRIG)
        return with_elements(wwvb_write_irig(p->kind, p->spring, p->autumn, p->leap_month,
                                             p->leap_sign, p->notice, messages->at,
                                             messages->length, w->minute, w->second, out->at,
                                             out->length));
    return wwvb_write_recording(p->kind, p->spring, p->autumn, p->leap_month, p->leap_sign,
                                p->notice, messages->at, messages->length, w->minute, w->count,
                                out->at, out->length);
}

static wwvb_write_reply write_by_struct(const struct writing *w, const struct buffer *out)
{
    if (w->code == AMPLITUDE)
        return wwvb_write_amplitude_by_plan(&w->plan.fields, w->minute, w->sign, w->tenths,
                                            out->at, out->length);
    if (w->code == IRIG)
        return with_elements(wwvb_write_irig_by_plan(&w->plan.fields, w->minute, w->second,
                                                     out->at, out->length));
    return wwvb_write(&w->plan.fields, w->minute, w->count, out->at, out->length);
}

/* By the struct too where the call with numbers cannot take the data. */
static wwvb_write_reply written_by(const struct writing *w, int by_struct,
                                   const struct buffer *messages, const struct buffer *out)
{
    if (by_struct || w->plan.too_wide)
        return write_by_struct(w, out);
    return write_by_numbers(w, messages, out);
}

static struct buffer messages_of(const struct writing *w)
{
    return buffer_of(w->plan.messages, w->plan.messages_length);
}

/* What a writing gives, and the bits, symbols or elements in its buffer. */
static void say_writing(const struct writing *w, int by_struct, size_t length, struct text *got)
{
    struct buffer messages = messages_of(w), out = buffer_of(NULL, length);
    wwvb_write_reply r = written_by(w, by_struct, &messages, &out);

    say(got, "%zu %zu ", r.refusal, r.bits);
    say_digits(got, out.at, r.bits <= length ? r.bits : length);
    done_with(&out, r.refusal ? 0 : r.bits, got);
    done_with(&messages, 0, got);
}

/* The same writing in another way, with the same answer. */
static void write_again(const struct writing *w, int by_struct, size_t length, const char *how,
                        struct text *got)
{
    struct text again = {NULL, 0, 0};

    clear(&again);
    say_writing(w, by_struct, length, &again);
    if (strcmp(got->at, again.at) != 0)
        say(got, ", and %s %s", how, again.at);
    free(again.at);
}

/* By numbers and by the struct; what is accepted, in a longer buffer too. */
static void play_writing(const struct writing *w, size_t length, struct text *got)
{
    say_writing(w, 0, length, got);
    write_again(w, 1, length, "by the struct", got);
    if (strncmp(got->at, "0 ", 2) == 0)
        write_again(w, 0, length + LONGER, "in a longer buffer", got);
}

/* write-amplitude PLAN MINUTE UT1-SIGN TENTHS BUFFER-LENGTH = REFUSAL COUNT SYMBOLS */
static void write_amplitude(struct line *l, struct text *got)
{
    struct writing w;
    size_t length;

    memset(&w, 0, sizeof w);
    w.code = AMPLITUDE;
    w.plan = plan(l, 4);
    w.minute = number(l);
    w.sign = signed_number(l);
    w.tenths = number(l);
    length = space(l);
    if (inputs_end(l))
        play_writing(&w, length, got);
}

/* write-recording PLAN FIRST COUNT BUFFER-LENGTH = REFUSAL COUNT BITS */
static void write_recording(struct line *l, struct text *got)
{
    struct writing w;
    size_t length;

    memset(&w, 0, sizeof w);
    w.plan = plan(l, 3);
    w.minute = number(l);
    w.count = number(l);
    length = space(l);
    if (inputs_end(l))
        play_writing(&w, length, got);
}

/* write-irig PLAN MINUTE SECOND BUFFER-LENGTH = REFUSAL COUNT ELEMENTS */
static void write_irig(struct line *l, struct text *got)
{
    struct writing w;
    size_t length;

    memset(&w, 0, sizeof w);
    w.code = IRIG;
    w.plan = plan(l, 3);
    w.minute = number(l);
    w.second = number(l);
    length = space(l);
    if (inputs_end(l))
        play_writing(&w, length, got);
}

static void say_date(struct text *t, uint32_t year, uint32_t month, uint32_t day, uint32_t hour,
                     uint32_t minute, uint32_t weekday)
{
    say(t, "%" PRIu32 " %" PRIu32 " %" PRIu32 " ", year, month, day);
    say(t, "%" PRIu32 " %" PRIu32 " %" PRIu32, hour, minute, weekday);
}

/* A daylight state as its two bits, dst_on[1] first. */
static void say_daylight(struct text *t, uint32_t state)
{
    static const char *const bits[4] = {"00", "01", "10", "11"};

    say(t, "%s", state < 4 ? bits[state] : "??");
}

static void say_reading(const struct bytes *b, struct text *got)
{
    struct buffer in = buffer_of(b->at, b->length);
    wwvb_amplitude_reply r = wwvb_read_amplitude(in.at, in.length);

    say(got, "%" PRIu32, r.refusal);
    if (r.refusal == 0) {
        say(got, " ");
        say_date(got, r.year, r.month, r.day, r.hour, r.minute, r.weekday);
        say(got, " %" PRId32 " %" PRIu32 " %" PRIu32 " ", r.ut1_sign, r.ut1_tenths, r.warning);
        say_daylight(got, r.daylight);
        say(got, " %" PRIu32, r.length);
    } else if (r.year || r.month || r.day || r.hour || r.minute || r.weekday || r.ut1_sign
               || r.ut1_tenths || r.warning || r.daylight || r.length) {
        say(got, ", and a field is not 0");
    }
    done_with(&in, 0, got);
}

/* read-amplitude SYMBOLS = REFUSAL, or
   = 0 YEAR MONTH DAY HOUR MINUTE WEEKDAY UT1-SIGN TENTHS WARNING DAYLIGHT LENGTH */
static void read_amplitude(struct line *l, struct text *got)
{
    struct bytes b = symbols(l);

    if (inputs_end(l))
        say_reading(&b, got);
    free(b.at);
}

/* read-amplitude-bytes HEX, with the same answers */
static void read_amplitude_bytes(struct line *l, struct text *got)
{
    struct bytes b = hex(l);

    if (inputs_end(l))
        say_reading(&b, got);
    free(b.at);
}

static void say_irig(const struct bytes *b, struct text *got)
{
    struct buffer in = buffer_of(b->at, b->length);
    wwvb_irig_reply r = wwvb_read_irig(in.at, in.length);

    say(got, "%" PRIu32, r.refusal);
    if (r.refusal == 0)
        say(got, " %" PRIu32 " %" PRIu32, r.day_of_year, r.second_of_day);
    else if (r.day_of_year || r.second_of_day)
        say(got, ", and a field is not 0");
    done_with(&in, 0, got);
}

/* read-irig ELEMENTS = REFUSAL, or = 0 DAY-OF-YEAR SECOND-OF-DAY */
static void read_irig(struct line *l, struct text *got)
{
    struct bytes b = symbols(l);

    if (inputs_end(l))
        say_irig(&b, got);
    free(b.at);
}

/* read-irig-bytes HEX, with the same answers */
static void read_irig_bytes(struct line *l, struct text *got)
{
    struct bytes b = hex(l);

    if (inputs_end(l))
        say_irig(&b, got);
    free(b.at);
}

/* A minute written in the amplitude code and read. */
static void say_by_amplitude(const struct writing *w, struct text *got)
{
    struct buffer messages = messages_of(w), out = buffer_of(NULL, WWVB_MAX_FRAME), in;
    wwvb_write_reply written = written_by(w, 0, &messages, &out);
    wwvb_amplitude_reply r;

    if (written.refusal != WWVB_OK || written.bits > out.length) {
        say(got, "writing gives %zu and %zu symbols", written.refusal, written.bits);
        written.bits = 0;
    } else {
        in = buffer_of(out.at, written.bits);
        r = wwvb_read_amplitude(in.at, in.length);
        if (r.refusal != WWVB_OK) {
            say(got, "reading gives %" PRIu32, r.refusal);
        } else {
            say_date(got, r.year, r.month, r.day, r.hour, r.minute, r.weekday);
            say(got, " ");
            say_daylight(got, r.daylight);
            say(got, " %" PRIu32, r.length);
            if (r.length != written.bits)
                say(got, ", and %zu symbols are written", written.bits);
            if (r.ut1_sign != w->sign || r.ut1_tenths != w->tenths)
                say(got, ", and UT1 is not as sent");
        }
        done_with(&in, 0, got);
    }
    done_with(&out, written.bits, got);
    done_with(&messages, 0, got);
}

/* Says what of an entry is not as sent, but for what the caller says: daylight, leap, row and
   length. */
static void find_faults(const wwvb_entry *e, const struct writing *w, size_t bits,
                        struct text *faults)
{
    if (e->length != bits)
        say(faults, ", and %zu bits are written", bits);
    if (e->minute != w->minute)
        say(faults, ", and the minute read is %" PRIu32, e->minute);
    if (e->notice != w->plan.fields.notice)
        say(faults, ", and the notice read is %" PRIu32, e->notice);
    if (e->place != 0)
        say(faults, ", and place %" PRIu32 " is repaired", e->place);
    if (e->echo != 1)
        say(faults, ", and the echo is %" PRIu32, e->echo);
    if (e->kind != WWVB_ENTRY_TIME || e->data != 0)
        say(faults, ", and the entry is not that of a time frame");
}

/* Writes a minute's frame, as a recording of one, and reads it. Gives whether both are accepted,
   and the entry, and says the faults. */
static int by_phase(const struct writing *w, wwvb_entry *e, struct text *faults)
{
    struct buffer messages = messages_of(w), out = buffer_of(NULL, WWVB_MAX_FRAME), in, entry;
    wwvb_write_reply written = written_by(w, 0, &messages, &out);
    uint32_t refusal = WWVB_ILLEGAL_PLAN;

    if (written.refusal != WWVB_OK || written.bits > out.length) {
        say(faults, "writing gives %zu and %zu bits", written.refusal, written.bits);
        written.bits = 0;
    } else {
        in = buffer_of(out.at, written.bits);
        entry = buffer_of(NULL, WWVB_ENTRY_SIZE + (filling ? LONGER : 0));
        refusal = wwvb_read_frame(in.at, in.length, entry.at, entry.length);
        if (refusal != WWVB_OK) {
            say(faults, "reading gives %" PRIu32, refusal);
        } else {
            *e = wwvb_entry_at(entry.at, 0);
            find_faults(e, w, written.bits, faults);
        }
        done_with(&entry, refusal ? 0 : WWVB_ENTRY_SIZE, faults);
        done_with(&in, 0, faults);
    }
    done_with(&out, written.bits, faults);
    done_with(&messages, 0, faults);
    return refusal == WWVB_OK;
}

/* A minute written in the phase code and read. */
static void say_by_phase(const struct writing *w, struct text *got)
{
    struct text faults = {NULL, 0, 0};
    wwvb_entry e;

    clear(&faults);
    if (by_phase(w, &e, &faults)) {
        wwvb_date_reply d = wwvb_minute_to_date(e.minute);

        say_date(got, d.year, d.month, d.day, d.hour, d.minute, d.weekday);
        say(got, " ");
        say_daylight(got, e.daylight);
        say(got, " %" PRIu32, e.length);
    }
    say(got, "%s", faults.at);
    free(faults.at);
}

/* plan-at PLAN MINUTE = DAYLIGHT LEAP ROW LENGTH
   No call gives these alone, so the minute's frame is written and read. */
static void plan_at(struct line *l, struct text *got)
{
    struct text faults = {NULL, 0, 0};
    struct writing w;
    wwvb_entry e;

    memset(&w, 0, sizeof w);
    w.plan = plan(l, 1);
    w.minute = number(l);
    w.count = 1;
    if (!inputs_end(l))
        return;
    clear(&faults);
    if (by_phase(&w, &e, &faults)) {
        say_daylight(got, e.daylight);
        say(got, " %" PRIu32 " %" PRIu32 " %" PRIu32, e.leap, e.row, e.length);
    }
    say(got, "%s", faults.at);
    free(faults.at);
}

/* both-codes PLAN MINUTE UT1-SIGN TENTHS
   = YEAR MONTH DAY HOUR MINUTE WEEKDAY DAYLIGHT LENGTH, by both readings */
static void both_codes(struct line *l, struct text *got)
{
    struct text phase = {NULL, 0, 0};
    struct writing w;

    memset(&w, 0, sizeof w);
    w.plan = plan(l, 3);
    w.minute = number(l);
    w.sign = signed_number(l);
    w.tenths = number(l);
    w.count = 1;
    if (!inputs_end(l))
        return;
    clear(&phase);
    w.code = AMPLITUDE;
    say_by_amplitude(&w, got);
    w.code = PHASE;
    say_by_phase(&w, &phase);
    if (strcmp(got->at, phase.at) != 0)
        say(got, " by the amplitude code; by the phase code %s", phase.at);
    free(phase.at);
}

/* Reads bits with so much entry space and says the answer; gives the refusal. */
typedef size_t say_read(const struct bytes *b, size_t length, struct text *got);

/* Unless space for an entry is missing, the bits are read again with more space, with the same
   answer. */
static void play_reading(const struct bytes *b, size_t length, say_read *reading, struct text *got)
{
    struct text again = {NULL, 0, 0};

    if (reading(b, length, got) == WWVB_NO_ENTRY_SPACE)
        return;
    clear(&again);
    reading(b, length + LONGER, &again);
    if (strcmp(got->at, again.at) != 0)
        say(got, ", and with more space %s", again.at);
    free(again.at);
}

/* The bits, then the entry space, then the answer. */
static void take_reading(struct line *l, struct bytes b, say_read *reading, struct text *got)
{
    size_t length = space(l);

    if (inputs_end(l))
        play_reading(&b, length, reading, got);
    free(b.at);
}

static size_t say_frame(const struct bytes *b, size_t length, struct text *got)
{
    struct buffer in = buffer_of(b->at, b->length), entry = buffer_of(NULL, length);
    uint32_t refusal = wwvb_read_frame(in.at, in.length, entry.at, entry.length);
    size_t bytes = refusal ? 0 : WWVB_ENTRY_SIZE <= length ? WWVB_ENTRY_SIZE : length;

    say(got, "%" PRIu32 " ", refusal);
    say_hex(got, entry.at, bytes);
    done_with(&entry, bytes, got);
    done_with(&in, 0, got);
    return refusal;
}

/* read-frame BITS ENTRY-SPACE = REFUSAL ENTRY-IN-HEX */
static void read_frame(struct line *l, struct text *got)
{
    take_reading(l, symbols(l), say_frame, got);
}

/* read-frame-bytes HEX ENTRY-SPACE, with the same answers */
static void read_frame_bytes(struct line *l, struct text *got)
{
    take_reading(l, hex(l), say_frame, got);
}

/* The bytes of the entries that a reading gives, but no more than there are in the buffer. */
static size_t entry_bytes(const wwvb_read_reply *r, size_t length)
{
    return r->entries <= length / WWVB_ENTRY_SIZE ? r->entries * WWVB_ENTRY_SIZE : length;
}

static size_t say_entries(const struct bytes *b, size_t length, struct text *got)
{
    struct buffer in = buffer_of(b->at, b->length), entries = buffer_of(NULL, length);
    wwvb_read_reply r = wwvb_read_recording(in.at, in.length, entries.at, entries.length);
    size_t bytes = entry_bytes(&r, length);

    say(got, "%zu %zu %zu ", r.entries, r.used, r.refusal);
    say_hex(got, entries.at, bytes);
    done_with(&entries, bytes, got);
    done_with(&in, 0, got);
    return r.refusal;
}

/* read-recording BITS ENTRY-SPACE = ENTRIES BITS-USED REFUSAL ENTRIES-IN-HEX */
static void read_recording(struct line *l, struct text *got)
{
    take_reading(l, symbols(l), say_entries, got);
}

/* read-recording-bytes HEX ENTRY-SPACE, with the same answers */
static void read_recording_bytes(struct line *l, struct text *got)
{
    take_reading(l, hex(l), say_entries, got);
}

/* The message frames of a run: from a bit on, so many, of 60 bits. */
struct run {
    size_t from;
    uint32_t first, notice, times;
    uint64_t data;
};

static struct run the_run;

static void put_message(uint8_t *frame, uint32_t minute)
{
    static const char sync[] = "1101000111010";
    int i, left = 42; /* data bits that are not put yet */

    for (i = 0; i < 60; i++)
        frame[i] = i < 13 ? (uint8_t)(sync[i] - '0') : 0;
    for (i = 13; i < 59; i++)
        if (i % 10 != 9) /* 19, 29, 39 and 49 are not data */
            frame[i] = (uint8_t)(the_run.data >> --left & 1);
    frame[19] = minute & 1;
    frame[49] = (uint8_t)the_run.notice;
}

/* BITS, the run, and TAIL, one after the other. */
static struct bytes with_run(const struct bytes *bits, const struct bytes *tail)
{
    struct bytes b = {NULL, 0};
    uint32_t i;

    b.at = room_for(bits->length + (size_t)60 * the_run.times + tail->length);
    memcpy(b.at, bits->at, bits->length);
    b.length = bits->length;
    for (i = 0; i < the_run.times; i++, b.length += 60)
        put_message(b.at + b.length, the_run.first + i);
    memcpy(b.at + b.length, tail->at, tail->length);
    b.length += tail->length;
    return b;
}

/* BITS FIRST NOTICE DATA TIMES TAIL: the run, and the recording with it. */
static struct bytes run(struct line *l)
{
    struct bytes bits = symbols(l), tail, all = {NULL, 0};

    the_run.from = bits.length;
    the_run.first = number(l);
    the_run.notice = number_to(l, 1);
    the_run.data = digits_of(l, word(l), WWVB_DATA_LIMIT - 1);
    the_run.times = number_to(l, RUN);
    tail = symbols(l);
    if (!l->fault)
        all = with_run(&bits, &tail);
    free(tail.at);
    free(bits.at);
    return all;
}

/* The answer has the last entry alone, so the others are looked at here: the minutes rise by one,
   and the entries of the run have its notice and its data. */
static void say_run_faults(const uint8_t *entries, size_t n, struct text *got)
{
    size_t i, at = 0;

    for (i = 0; i < n; i++) {
        wwvb_entry e = wwvb_entry_at(entries, i);
        int in_run = at >= the_run.from && at < the_run.from + (size_t)60 * the_run.times;

        if (i > 0 && e.minute != wwvb_entry_at(entries, i - 1).minute + 1)
            say(got, ", and entry %zu is out of order", i);
        if (in_run && (e.kind != WWVB_ENTRY_MESSAGE || e.length != 60 || e.daylight || e.leap
                       || e.row || e.place || e.echo != 1 || e.notice != the_run.notice
                       || e.data != the_run.data))
            say(got, ", and entry %zu is not that of the run", i);
        at += e.length;
    }
}

static size_t say_run(const struct bytes *b, size_t length, struct text *got)
{
    struct buffer in = buffer_of(b->at, b->length), entries = buffer_of(NULL, length);
    wwvb_read_reply r = wwvb_read_recording(in.at, in.length, entries.at, entries.length);
    size_t bytes = entry_bytes(&r, length), n = bytes / WWVB_ENTRY_SIZE;

    say(got, "%zu %zu %zu ", r.entries, r.used, r.refusal);
    say_hex(got, entries.at + (n ? n - 1 : 0) * WWVB_ENTRY_SIZE, n ? WWVB_ENTRY_SIZE : 0);
    say_run_faults(entries.at, n, got);
    done_with(&entries, bytes, got);
    done_with(&in, 0, got);
    return r.refusal;
}

/* read-run BITS FIRST NOTICE DATA TIMES TAIL ENTRY-SPACE
   = ENTRIES BITS-USED REFUSAL LAST-ENTRY-IN-HEX
   The recording is BITS, then TIMES message frames of 60 bits for the minutes from FIRST on, then
   TAIL. */
static void read_run(struct line *l, struct text *got)
{
    struct bytes all = run(l);
    size_t length = space(l);

    if (inputs_end(l))
        play_reading(&all, length, say_run, got);
    free(all.at);
}

/* ---- pages */

#define LINE 42 /* bytes of a line: 41 characters and a line feed */

/* Bytes without the lines at their end that have blanks alone. Bytes that are not whole lines are
   left as they are. */
static size_t without_blank_lines(const uint8_t *text, size_t n)
{
    char blank[LINE + 1];

    snprintf(blank, sizeof blank, "%41s\n", "");
    if (n % LINE == 0)
        while (n > 0 && memcmp(text + n - LINE, blank, LINE) == 0)
            n -= LINE;
    return n;
}

/* Prints the pages of bits to so many bytes and says the answer; gives the refusal. */
typedef size_t say_print(const struct bytes *b, size_t length, struct text *got);

/* What is accepted is printed to a longer buffer too, with the same answer. So is what is refused,
   but by 4, to an empty buffer; if that was tried, to a longer one. */
static void play_printing(const struct bytes *b, size_t length, say_print *printing,
                          struct text *got)
{
    struct text again = {NULL, 0, 0};
    size_t refusal = printing(b, length, got);

    if (refusal == WWVB_NO_BIT_SPACE)
        return;
    clear(&again);
    printing(b, refusal && length ? 0 : length + LONGER, &again);
    if (strcmp(got->at, again.at) != 0)
        say(got, ", and in another buffer %s", again.at);
    free(again.at);
}

/* The bits, then the buffer's length, then the answer. */
static void take_printing(struct line *l, struct bytes b, say_print *printing, struct text *got)
{
    size_t length = space(l);

    if (inputs_end(l))
        play_printing(&b, length, printing, got);
    free(b.at);
}

/* Of the text, what is before `from` is not said. */
static void say_text(const uint8_t *text, size_t from, size_t n, struct text *got)
{
    size_t end = without_blank_lines(text, n);

    say_hex(got, text + (from < end ? from : 0), from < end ? end - from : 0);
}

static size_t say_pages(const struct bytes *b, size_t length, struct text *got)
{
    struct buffer in = buffer_of(b->at, b->length), out = buffer_of(NULL, length);
    wwvb_print_reply r = wwvb_print_pages(in.at, in.length, out.at, out.length);
    size_t bytes = r.bytes <= length ? r.bytes : length;

    say(got, "%zu %zu ", r.refusal, r.bytes);
    say_text(out.at, 0, bytes, got);
    done_with(&out, r.refusal ? 0 : bytes, got);
    done_with(&in, 0, got);
    return r.refusal;
}

/* print-pages BITS BUFFER-LENGTH = REFUSAL COUNT TEXT-IN-HEX
   The text ends with its last line that is not blank. After it are blank lines alone, up to
   COUNT. */
static void print_pages(struct line *l, struct text *got)
{
    take_printing(l, symbols(l), say_pages, got);
}

/* print-pages-bytes HEX BUFFER-LENGTH, with the same answers */
static void print_pages_bytes(struct line *l, struct text *got)
{
    take_printing(l, hex(l), say_pages, got);
}

/* The line of an entry, or blanks where there is none. */
static void line_of(const wwvb_entry *e, char line[LINE + 1])
{
    wwvb_date_reply d = wwvb_minute_to_date(e ? e->minute : 0);
    char text[200], rest[60];

    if (e && e->kind == WWVB_ENTRY_MESSAGE)
        snprintf(rest, sizeof rest, "%5s%9s", "M", "");
    else if (e)
        snprintf(rest, sizeof rest,
                 " %" PRIu32 "%" PRIu32 " %c %2" PRIu32 " %2" PRIu32 " %" PRIu32,
                 e->daylight / 2, e->daylight % 2, e->leap < 3 ? " -+"[e->leap] : '?', e->row,
                 e->place, e->echo);
    if (e)
        snprintf(text, sizeof text,
                 "%8" PRIu32 " %04" PRIu32 "-%02" PRIu32 "-%02" PRIu32 " %02" PRIu32 ":%02" PRIu32
                 " %2" PRIu32 "%s",
                 e->minute, d.year, d.month, d.day, d.hour, d.minute, e->length, rest);
    snprintf(line, LINE + 1, "%-41.41s\n", e ? text : "");
}

/* The answer has the last page alone, so all pages are looked at here: each has its number, the
   dashes and the lines of its entries, as wwvb_read_recording gives them. What that call changes
   is looked at elsewhere. */
static void say_page_faults(const struct bytes *b, const uint8_t *text, size_t n, struct text *got)
{
    size_t at, i, most = (b->length / WWVB_MIN_FRAME + 1) * WWVB_ENTRY_SIZE;
    struct buffer in = buffer_of(b->at, b->length), entries = buffer_of(NULL, most);
    wwvb_read_reply r = wwvb_read_recording(in.at, in.length, entries.at, entries.length);
    char line[LINE + 1];

    for (at = 0, i = 0; at + LINE <= n; at += LINE) {
        size_t in_page = at / LINE % (WWVB_PAGE_SIZE / LINE);

        if (in_page == 0) {
            snprintf(line, sizeof line, "%41zu\n", at / WWVB_PAGE_SIZE + 1);
        } else if (in_page == 1) {
            memset(line, '-', LINE - 1);
            line[LINE - 1] = '\n';
        } else {
            wwvb_entry e = wwvb_entry_at(entries.at, i < r.entries ? i : 0);

            line_of(i < r.entries ? &e : NULL, line);
            i++;
        }
        if (memcmp(text + at, line, LINE) != 0)
            say(got, ", and line %zu of page %zu is another", in_page + 1,
                at / WWVB_PAGE_SIZE + 1);
    }
    give_back(&entries);
    give_back(&in);
}

static size_t say_run_pages(const struct bytes *b, size_t length, struct text *got)
{
    struct buffer in = buffer_of(b->at, b->length), out = buffer_of(NULL, length);
    wwvb_print_reply r = wwvb_print_pages(in.at, in.length, out.at, out.length);
    size_t bytes = r.bytes <= length ? r.bytes : length;

    say(got, "%zu %zu ", r.refusal, r.bytes);
    say_text(out.at, bytes < WWVB_PAGE_SIZE ? 0 : bytes - WWVB_PAGE_SIZE, bytes, got);
    say_page_faults(b, out.at, bytes, got);
    done_with(&out, r.refusal ? 0 : bytes, got);
    done_with(&in, 0, got);
    return r.refusal;
}

/* print-run BITS FIRST NOTICE DATA TIMES TAIL BUFFER-LENGTH = REFUSAL COUNT LAST-PAGE-IN-HEX
   The recording is as in read-run, and the last page ends as in print-pages. */
static void print_run(struct line *l, struct text *got)
{
    take_printing(l, run(l), say_run_pages, got);
}

static const struct form {
    const char *name;
    void (*play)(struct line *l, struct text *got);
} forms[] = {
    {"write-amplitude", write_amplitude},
    {"read-amplitude", read_amplitude},
    {"read-amplitude-bytes", read_amplitude_bytes},
    {"both-codes", both_codes},
    {"plan-at", plan_at},
    {"write-recording", write_recording},
    {"read-frame", read_frame},
    {"read-frame-bytes", read_frame_bytes},
    {"read-recording", read_recording},
    {"read-recording-bytes", read_recording_bytes},
    {"read-run", read_run},
    {"print-pages", print_pages},
    {"print-pages-bytes", print_pages_bytes},
    {"print-run", print_run},
    {"write-irig", write_irig},
    {"read-irig", read_irig},
    {"read-irig-bytes", read_irig_bytes},
};

/* ---- files */

static unsigned long passed, failed;

/* Counts a failed case, and gives whether it is to be named. */
static int fails(void)
{
    return failed++ < NAMED;
}

/* Plays a line; gives whether it passed, and says why not. */
static int passes(const char *text, struct text *why)
{
    static struct text got;
    size_t length = strlen(text);
    char *copy = room_for(length + 1);
    const struct form *form = NULL;
    struct line l = {NULL, NULL, NULL};
    const char *name;
    size_t i;
    int ok;

    memcpy(copy, text, length + 1);
    clear(&got);
    clear(why);
    l.next = copy;
    name = word(&l);
    for (i = 0; i < sizeof forms / sizeof *forms; i++)
        if (strcmp(name, forms[i].name) == 0)
            form = &forms[i];
    if (form)
        form->play(&l, &got);
    ok = form && l.answer && strcmp(got.at, l.answer) == 0;
    if (!form) {
        say(why, "no form has the name ");
        say_quoted(why, name);
    } else if (!l.answer) {
        say(why, "%s", l.fault);
    } else if (!ok) {
        say(why, "got ");
        say_quoted(why, got.at);
        say(why, "; the file has ");
        say_quoted(why, l.answer);
    }
    free(copy);
    return ok;
}

static void play_file(const char *path)
{
    static struct text why;
    FILE *file = fopen(path, "r");
    char *text = NULL;
    size_t size = 0;
    ssize_t length = 0;
    unsigned long at = 0, cases = 0;

    if (!file) {
        if (fails())
            fprintf(stderr, "%s: cannot be read: %s\n", path, strerror(errno));
        return;
    }
    while ((length = getline(&text, &size, file)) >= 0) {
        at++;
        if (length > 0 && text[length - 1] == '\n')
            text[--length] = 0;
        if (strlen(text) != (size_t)length) {
            cases++;
            if (fails())
                fprintf(stderr, "%s:%lu: %s\n", path, at, not_whole);
        } else if (text[0] != '#') {
            int ok = 1;

            cases++;
            for (filling = 0; filling < 2 && ok; filling++)
                ok = passes(text, &why);
            if (ok)
                passed++;
            else if (fails())
                fprintf(stderr, "%s:%lu: %s\n", path, at, why.at);
        }
    }
    if (ferror(file)) {
        if (fails())
            fprintf(stderr, "%s: cannot be read: %s\n", path, strerror(errno));
    } else if (cases == 0 && fails()) {
        fprintf(stderr, "%s: there is no case in it\n", path);
    }
    free(text);
    fclose(file);
}

int main(int argc, char **argv)
{
    int i;

    if (argc < 2) {
        fprintf(stderr, "usage: play FILE..\n");
        return 2;
    }
    for (i = 1; i < argc; i++)
        play_file(argv[i]);
    if (failed > NAMED)
        fprintf(stderr, "play: %lu more failed\n", failed - NAMED);
    if (too_wide_cases)
        printf("%lu with data that six bytes do not hold: played by the struct alone\n",
               too_wide_cases);
    printf("%lu passed, %lu failed\n", passed, failed);
    if (fflush(stdout) != 0) {
        fprintf(stderr, "play: the output cannot be written\n");
        return 1;
    }
    return failed || !passed;
}
