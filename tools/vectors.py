#!/usr/bin/env python3
"""What the program `vectors` reads, and what it has to write: a model of the WWVB phase code, of the amplitude code and of
IRIG B by itself, from documents 01 and 02, the tables of NIST's Enhanced WWVB Broadcast Format (Revision 1.0, and Table 1 of
the draft that is source document 000) and Table 3 of IRIG's standard on time codes (source document 003), in the plainest form
and with Python's own calendar. It shares no code with the crates.

A case is a line of the program's input: a letter that says what is tried, numbers that are not printed, a space, a text,
a `#`, and bytes to be read. The program prints the text, and after it what the code gives; the model says what that is.
Together the cases get each number that a call can give, and no other.

usage: tools/vectors.py                     prints the lines
       tools/vectors.py --write [FOLDER]    writes crates/vectors/stdin and crates/vectors/stdout, or those files in the folder
"""
import calendar
import datetime
import functools
import pathlib
import re
import sys

LAST = 52_595_999
SYNC = "0011101101000"                         # Table 3, sync_T
MESSAGE_SYNC = "1101000111010"                 # document 02, 7

# Table 4, by leap state and then by dst_on[1] dst_on[0]
STATE_WORDS = {
    0: {"00": "01000", "10": "10110", "11": "00011", "01": "10101"},
    1: {"00": "00100", "10": "10000", "11": "01101", "01": "01110"},
    2: {"00": "11001", "10": "11010", "11": "11111", "01": "11100"},
}

# Table 8: rows 1 to 24 with dst_on[1] 0, 25 to 48 with 1, 49 to 51 with either
ROWS = """
110001 100110 100101 010101 111110 010110 110111 111101
101010 011011 001110 000001 000010 001000 001101 101001
000100 100000 110100 101100 111000 010000 110010 011100
110111 010101 110001 010110 100110 111110 100101 111101
001101 000001 101010 001000 011011 000010 001110 101001
110010 101100 000100 010000 100000 111000 110100 011100
100011 000111 101111
""".split()
RESERVED = {"110000": 1, "100100": 2, "010100": 3, "110110": 4, "110101": 5}

# Section 4.3
PARITY = [
    [23, 21, 20, 17, 16, 15, 14, 13, 9, 8, 6, 5, 4, 2, 0],
    [24, 22, 21, 18, 17, 16, 15, 14, 10, 9, 7, 6, 5, 3, 1],
    [25, 23, 22, 19, 18, 17, 16, 15, 11, 10, 8, 7, 6, 4, 2],
    [24, 21, 19, 18, 15, 14, 13, 12, 11, 7, 6, 4, 3, 2, 0],
    [25, 22, 20, 19, 16, 15, 14, 13, 12, 8, 7, 5, 4, 3, 1],
]

PLACE_BITS = [*range(13, 19), *range(20, 29), *range(30, 39), *range(40, 47)]
STATE_AT = (47, 48, 50, 51, 52)
NEXT_AT = range(53, 59)
DATA_BITS = [*range(13, 19), *range(20, 29), *range(30, 39), *range(40, 49), *range(50, 59)]     # data[41] first

# Table 10, bits 0 to 59 in rows of ten; bits 50 to 59 by its text
TABLE_10 = "0011101101" "0001001000" "0011001000" "0110001101" "0011010001" "0110110110"

# The amplitude code in source document 000, Table 1: M a marker, 0 fixed, else a field and the weight of its bit. UT1 counts
# tenths. Second 60, if there, is a marker as 59 is (document 02, 5).
TABLE_1 = """
M minute40 minute20 minute10 0 minute8 minute4 minute2 minute1 M
0 0 hour20 hour10 0 hour8 hour4 hour2 hour1 M
0 0 day200 day100 0 day80 day40 day20 day10 M
day8 day4 day2 day1 0 0 sign4 sign2 sign1 M
tenths8 tenths4 tenths2 tenths1 0 year80 year40 year20 year10 M
year8 year4 year2 year1 0 leap1 warning1 dst2 dst1 M
M
""".split()
FIXED = {"M": 2, "0": 0}
SIGNS = {1: 0b101, -1: 0b010}

# Table 10, the amplitude code, seconds 0 to 59 in rows of ten; 50 to 52 are cut off in our copy, and follow from its date
TABLE_10_AMPLITUDE = "2011000002" "0001001112" "0001010002" "0110001012" "0100000012" "0010010112"
TABLE_10_FIELDS = {"minute": 30, "hour": 17, "day": 186, "year": 12, "sign": 0b101, "tenths": 4, "leap": 1, "warning": 0,
                   "dst": 0b11}

# IRIG B in source document 003, Table 3, elements 0 to 99 in rows of ten, written as TABLE_1 is: M an identifier, which is the
# reference bit or a position identifier, 0 an index bit or a control bit, which is 0 too (document 02, 9), else a field and the
# weight of its element. All fields but the straight seconds of day are decimal digits. Format A, Table 2, has the same places,
# and tenths of seconds besides.
TABLE_3 = """
M second1 second2 second4 second8 0 second10 second20 second40 M
minute1 minute2 minute4 minute8 0 minute10 minute20 minute40 0 M
hour1 hour2 hour4 hour8 0 hour10 hour20 0 0 M
day1 day2 day4 day8 0 day10 day20 day40 day80 M
day100 day200 0 0 0 0 0 0 0 M
0 0 0 0 0 0 0 0 0 M
0 0 0 0 0 0 0 0 0 M
0 0 0 0 0 0 0 0 0 M
straight1 straight2 straight4 straight8 straight16 straight32 straight64 straight128 straight256 M
straight512 straight1024 straight2048 straight4096 straight8192 straight16384 straight32768 straight65536 0 M
""".split()
ELEMENTS = 100

# The days of the year that end a month, in a common year or in a leap year
MONTH_ENDS = {datetime.date(year, month, calendar.monthrange(year, month)[1]).timetuple().tm_yday
              for year in (2011, 2012) for month in range(1, 13)}

START = datetime.datetime(2000, 1, 1)


def minute_of(*date):
    """The minute of a real date."""
    return int((datetime.datetime(*date) - START).total_seconds()) // 60


def date_of(minute):
    return START + datetime.timedelta(minutes=minute)


def first_sunday(year, month):
    return next(d for d in range(1, 8) if datetime.date(year, month, d).isoweekday() == 7)


def change_minute(row, year):
    """00:00 UTC of the row's change day."""
    k = (row - 1) % 8
    if row <= 24:
        return minute_of(year, 3, first_sunday(year, 3)) + k * 7 * 1440
    return minute_of(year, 11, first_sunday(year, 11)) + (k - 4) * 7 * 1440


def sundays(year, month):
    """The Sundays of a month."""
    days = range(1, calendar.monthrange(year, month)[1] + 1)
    return [d for d in days if datetime.date(year, month, d).isoweekday() == 7]


@functools.lru_cache(maxsize=None)
def year_changes(kind, spring, autumn, year):
    """The two changes of a year, by kind 0 or 3: 00:00 UTC of the day, and the row. With kind 3
    those up to 2006 are by the earlier United States law: on the first Sunday in April, with row
    13 or 14, whichever falls on it, and on the last Sunday in October, with row 36."""
    if kind == 3 and year <= 2006:
        begins = minute_of(year, 4, sundays(year, 4)[0])
        ends = minute_of(year, 10, sundays(year, 10)[-1])
        [row] = [row for row in (13, 14) if change_minute(row, year) == begins]
        return (begins, row), (ends, 36)
    return (change_minute(spring, year), spring), (change_minute(autumn, year), autumn)


def changes(plan, year):
    return year_changes(*plan[:3], year)


def month_of(minute):
    d = date_of(minute)
    return (d.year - 2000) * 12 + d.month - 1


def is_month_end(minute):
    return date_of(minute).month != date_of(minute + 1).month


# ---- sending

def messages_in(data):
    """The messages in bytes: minute and data of each; None where the bytes are no messages."""
    if len(data) % 10:
        return None
    number = lambda at, size: int.from_bytes(data[at:at + size], "big")
    return [(number(at, 4), number(at + 4, 6)) for at in range(0, len(data), 10)]


def legal_messages(messages):
    if messages is None or len(messages) > 4:
        return False
    minutes = [m for m, _ in messages]
    return all(m <= LAST and data < 2**42 for m, data in messages) and all(a < b for a, b in zip(minutes, minutes[1:]))


def legal(plan):
    kind, spring, autumn, month, sign, notice = plan
    if kind in (0, 3):
        rows = 1 <= spring <= 24 and 25 <= autumn <= 48
    else:
        rows = kind in (1, 2) and spring == autumn == 0
    leap = month == 0 if sign == 0 else sign in (1, -1) and month <= 1199
    return rows and leap and notice in (0, 1)


def is_on(plan, minute):
    """dst_on[1] of a plan with changes."""
    (begins, _), (ends, _) = changes(plan, date_of(minute).year)
    return begins <= minute < ends


def next_row(plan, minute):
    """The row of the first change after a minute, which may come in the following year."""
    year = date_of(minute).year
    return next(row for y in (year, year + 1) for at, row in changes(plan, y) if at > minute)


def facts(plan, minute):
    """Length, dst_on[1] dst_on[0], leap state, row."""
    kind, _, _, month, sign, _ = plan
    if kind == 1:
        dst, row = "00", 50
    elif kind == 2:
        dst, row = "11", 51
    else:
        dst = f"{is_on(plan, minute):d}{is_on(plan, minute - 1440):d}"
        row = next_row(plan, minute)
    leap = {0: 0, -1: 1, 1: 2}[sign] if month_of(minute) == month else 0
    return length_of(leap, minute), dst, leap, row


def length_of(leap, minute):
    return {0: 60, 1: 59, 2: 61}[leap] if is_month_end(minute) else 60


def code_word(minute):
    t = f"{minute:026b}"
    par = [sum(minute >> k & 1 for k in p) % 2 for p in PARITY]
    return "".join(str(b) for b in reversed(par)) + t


def with_words(bits, *words):
    """The bits with other words: each is where its bits lie, and the bits."""
    bits = list(bits)
    for at, word in words:
        for k, b in zip(at, word, strict=True):
            bits[k] = int(b)
    return bits


def frame(plan, minute):
    length, dst, leap, row = facts(plan, minute)
    return with_words([0] * length, (range(13), SYNC), (PLACE_BITS, code_word(minute)), ([19, 49], [minute % 2, plan[5]]),
                      (STATE_AT, STATE_WORDS[leap][dst]), (NEXT_AT, ROWS[row - 1]))


def message(plan, minute, data):
    """A message in a minute's place."""
    length, _, _, _ = facts(plan, minute)
    return with_words([0] * length, (range(13), MESSAGE_SYNC), (DATA_BITS, f"{data:042b}"), ([19, 49], [minute % 2, plan[5]]))


def sent_frame(plan, messages, minute):
    datas = dict(messages)
    return message(plan, minute, datas[minute]) if minute in datas else frame(plan, minute)


def write(plan, first, count, space, messages=()):
    """The refusal or 0, and the bits."""
    if not legal(plan) or not legal_messages(messages):
        return 1, []
    if not 1 <= count <= 1000:
        return 2, []
    if first + count - 1 > LAST:
        return 3, []
    bits = [b for m in range(first, first + count) for b in sent_frame(plan, messages, m)]
    return (0, bits) if len(bits) <= space else (4, [])


# ---- reading

def nearest(word):
    """The minute of the one code word at most one place away, and the place or 0."""
    for place in range(32):
        w = [b ^ (i == place) for i, b in enumerate(word, 1)]
        minute = int("".join(map(str, w[5:])), 2)
        if "".join(map(str, w)) == code_word(minute):
            return minute, place


ENTRY = 18


def entry_bytes(minute, length, dst, leap, row, notice, place, echo, is_message=0, data=0):
    return [*minute.to_bytes(4, "big"), length, dst, leap, row, notice, place, echo, is_message, *data.to_bytes(6, "big")]


def wrong_end(bits, alone, length):
    """Question 13."""
    return len(bits) < length or alone and len(bits) != length or any(bits[59:length])


# The state of a reading is None before the first frame; then the minute expected, and the leap state last read in that minute's
# month, or 3 if none was.

def read_message(bits, alone, state):
    """The refusal, or 0 and the entry, of a message with its 59 bits."""
    if state is None:
        return 19, None
    minute, leap = state
    if leap == 3 and is_month_end(minute):
        return 20, None
    if minute > LAST:
        return 11, None
    length = length_of(leap, minute)
    if wrong_end(bits, alone, length):
        return 13, None
    if bits[19] != minute % 2:
        return 14, None
    data = int("".join(str(bits[at]) for at in DATA_BITS), 2)
    return 0, entry_bytes(minute, length, 0, 0, 0, bits[49], 0, 1, 1, data)


def read_frame(bits, alone, state):
    """The refusal, or 0 and the entry; the bits are those left."""
    if len(bits) < 59:
        return 6, None
    if max(bits[:59]) > 1:
        return 7, None
    text = "".join(map(str, bits[:59]))
    if text[:13] == MESSAGE_SYNC:
        return read_message(bits, alone, state)
    if text[:13] != SYNC:
        return 8, None
    word = text[47:49] + text[50:53]
    states = [(leap, dst) for leap, row in STATE_WORDS.items() for dst, w in row.items() if w == word]
    if not states:
        return 9, None
    leap, dst = states[0]
    rows = [n for n, w in enumerate(ROWS, 1) if w == text[53:59] and (n > 48 or (n > 24) == (dst[0] == "1"))]
    if not rows:
        return 10, None
    minute, place = nearest([bits[at] for at in PLACE_BITS])
    if minute > LAST:
        return 11, None
    length = length_of(leap, minute)
    if wrong_end(bits, alone, length):
        return 13, None
    if state and minute != state[0]:
        return 14, None
    return 0, entry_bytes(minute, length, int(dst, 2), leap, rows[0], bits[49], place, int(bits[19] == minute % 2))


def state_after(state, entry):
    minute = int.from_bytes(bytes(entry[:4]), "big")
    leap = state[1] if entry[11] else entry[6]
    return minute + 1, 3 if is_month_end(minute) else leap


def read_one(bits, buffer, space, state=None):
    """The refusal or 0, the buffer, of which so many bytes are lent, and the state after it."""
    if space < ENTRY:
        return 5, buffer, state
    refusal, entry = read_frame(bits, True, state)
    if refusal:
        return refusal, buffer, state
    return 0, entry + buffer[ENTRY:], state_after(state, entry)


def read_recording(bits, buffer, space, state=None):
    """Entries, bits used, the refusal or 0, the buffer, and the state after them."""
    entries, used = [], 0
    end = lambda r: (len(entries), used, r, [b for e in entries for b in e] + buffer[ENTRY * len(entries):], state)
    while used < len(bits):
        if space - ENTRY * len(entries) < ENTRY:
            return end(5)
        refusal, entry = read_frame(bits[used:used + 61], False, state)         # no frame has more
        if refusal:
            return end(refusal)
        entries.append(entry)
        used += entry[4]
        state = state_after(state, entry)
    return end(0)


# ---- the amplitude code

def cell(name):
    """The field of a second, the power of ten of the digit that its bit belongs to, and the bit's weight in that digit."""
    field, weight = re.fullmatch("([a-z]+)([0-9]+)", name).groups()
    return field, 10 ** (len(weight) - 1), int(weight[0])


def as_table(named):
    """Whether names of a table and symbols fit: what is fixed, and else 0 or 1."""
    return all(s == FIXED[name] if name in FIXED else s in (0, 1) for name, s in named)


def decimal_fields(named):
    """The fields that names of a table and symbols give; None where a digit is above 9."""
    numbers = {}
    for name, s in named:
        if name not in FIXED:
            field, power, weight = cell(name)
            numbers[field, power] = numbers.get((field, power), 0) + s * weight
    if any(n > 9 for n in numbers.values()):
        return None
    return {field: sum(n * power for (f, power), n in numbers.items() if f == field) for field, _ in numbers}


def symbols_of(fields, length):
    def symbol(name):
        if name in FIXED:
            return FIXED[name]
        field, power, weight = cell(name)
        return int(fields[field] // power % 10 & weight != 0)
    return [symbol(name) for name in TABLE_1[:length]]


def amplitude(plan, minute, sign, tenths):
    """The symbols of a minute."""
    length, dst, leap, _ = facts(plan, minute)
    d = date_of(minute)
    fields = {"minute": d.minute, "hour": d.hour, "day": d.timetuple().tm_yday, "year": d.year % 100, "sign": SIGNS[sign],
              "tenths": tenths, "leap": calendar.isleap(d.year), "warning": leap != 0, "dst": int(dst, 2)}
    return symbols_of(fields, length)


def write_amplitude(plan, minute, sign, tenths, space, messages=()):
    """The refusal or 0, and the symbols: questions 1, 3, 18 and 4."""
    if not legal(plan) or not legal_messages(messages):
        return 1, []
    if minute > LAST:
        return 3, []
    if sign not in SIGNS or tenths > 9:
        return 18, []
    symbols = amplitude(plan, minute, sign, tenths)
    return (0, symbols) if len(symbols) <= space else (4, [])


def read_amplitude(symbols):
    """The refusal alone; or 0, the date with its weekday, UT1 sign and tenths, warning, dst_on[1] dst_on[0], length."""
    if not 59 <= len(symbols) <= 61:
        return (17,)
    named = list(zip(TABLE_1, symbols))
    if not as_table(named):
        return (17,)
    fields = decimal_fields(named)
    if fields is None:
        return (18,)
    signs = [sign for sign, bits in SIGNS.items() if bits == fields["sign"]]
    year = 2000 + fields["year"]
    if not signs or fields["minute"] > 59 or fields["hour"] > 23 or fields["leap"] != calendar.isleap(year):
        return (18,)
    d = datetime.datetime(year, 1, 1, fields["hour"], fields["minute"]) + datetime.timedelta(days=fields["day"] - 1)
    if d.year != year:
        return (18,)
    warned_end = fields["warning"] and is_month_end(minute_of(*shown(d)[:5]))
    if len(symbols) not in ((59, 61) if warned_end else (60,)):
        return (18,)
    return (0, *shown(d), signs[0], fields["tenths"], fields["warning"], f"{fields['dst']:02b}", len(symbols))


# ---- IRIG B

STRAIGHT = "straight"


def straight_weight(name):
    """The weight of an element of the straight seconds; None of any other."""
    return int(name.removeprefix(STRAIGHT)) if name.startswith(STRAIGHT) else None


def elements_of(fields):
    """The elements with the fields, and with the lowest 17 bits of the straight seconds."""
    def element(name):
        if name in FIXED:
            return FIXED[name]
        if straight_weight(name):
            return int(fields[STRAIGHT] & straight_weight(name) != 0)
        field, power, weight = cell(name)
        return int(fields[field] // power % 10 & weight != 0)
    return [element(name) for name in TABLE_3]


def second_of_day(fields):
    return fields["hour"] * 3600 + fields["minute"] * 60 + fields["second"]


def irig(minute, second):
    """The elements of a second."""
    d = date_of(minute)
    fields = {"second": second, "minute": d.minute, "hour": d.hour, "day": d.timetuple().tm_yday}
    return elements_of({**fields, STRAIGHT: second_of_day(fields)})


def write_irig(plan, minute, second, space, messages=()):
    """The refusal or 0, and the elements: questions 1, 3, 21 and 4."""
    if not legal(plan) or not legal_messages(messages):
        return 1, []
    if minute > LAST:
        return 3, []
    length, _, _, _ = facts(plan, minute)
    if second >= length:
        return 21, []
    return (0, irig(minute, second)) if space >= ELEMENTS else (4, [])


def read_irig(elements):
    """The refusal alone; or 0, the day of the year and the second of the day."""
    named = list(zip(TABLE_3, elements))
    if len(elements) != ELEMENTS or not as_table(named):
        return (21,)
    fields = decimal_fields([(name, e) for name, e in named if not straight_weight(name)])
    straight = sum(e * straight_weight(name) for name, e in named if straight_weight(name))
    if fields is None or fields["hour"] > 23 or fields["minute"] > 59 or fields["second"] > 60 or not 1 <= fields["day"] <= 366:
        return (21,)
    if fields["second"] == 60 and (fields["hour"] < 23 or fields["minute"] < 59 or fields["day"] not in MONTH_ENDS):
        return (21,)
    if straight != second_of_day(fields):
        return (21,)
    return 0, fields["day"], straight


# ---- listing

LISTING_SPACE = 20 + 1000 * len("52595000 60 " + 60 * "0" + "\n") + 1       # 1,000 frames, one of them long
NUMBER = rb"([0-9]{1,9})"
LINE = rb" ".join([NUMBER] * 4 + [rb"(-?[0-9]{1,9})"] + [NUMBER] * 3)


def listing(data):
    """What `station` prints for its input."""
    match = re.fullmatch(LINE, data.split(b"\n")[0])
    if not match:
        return b"refused 1\n"
    *plan, first, count = map(int, match.groups())
    refusal, _ = write(plan, first, count, 1_000_000)
    if refusal:
        return b"refused %d\n" % refusal
    rows = ((m, frame(plan, m)) for m in range(first, first + count))
    return b"minute length frame\n" + b"".join(b"%d %d %s\n" % (m, len(f), digits(f).encode()) for m, f in rows)


# ---- pages of the shift book

BLANK_LINE = 41 * " "


def page_line(entry):
    """The line of an entry: minute, date, time, length; then daylight state, leap, row, repaired place and echo, or M."""
    minute = int.from_bytes(bytes(entry[:4]), "big")
    length, dst, leap, row, _, place, echo, is_message = entry[4:12]
    rest = "   M        " if is_message else f"{dst:02b} {' -+'[leap]} {row:2} {place:2} {echo}"
    return f"{minute:8} {date_of(minute):%Y-%m-%d %H:%M} {length:2} {rest}"


def pages(entries):
    """The pages of entries, each 52 lines, 50 of them for entries."""
    lines = []
    for at in range(0, len(entries), 50):
        of_page = [page_line(e) for e in entries[at:at + 50]]
        lines += [f"{at // 50 + 1:41}", 41 * "-", *of_page, *[BLANK_LINE] * (50 - len(of_page))]
    assert all(len(l) == 41 for l in lines)
    return "".join(l + "\n" for l in lines)


def print_pages(bits, space):
    """The refusal or 0, and the text. Reading has space for any number of entries."""
    _, _, refusal, data, _ = read_recording(bits, [], ENTRY * len(bits))
    if refusal:
        return refusal, ""
    text = pages([data[at:at + ENTRY] for at in range(0, len(data), ENTRY)])
    return (0, text) if len(text) <= space else (4, "")


def check_sum(data):
    return functools.reduce(lambda s, b: (s * 257 + b) % 4_294_967_291, data, 0)


# ---- lines

CASES = []
LINES = []
USUAL = (0, 10, 37, 0, 0, 0)
LAW = (3, 10, 37, 0, 0, 0)
LONG = (0, 10, 37, 149, 1, 0)
SHORT = (0, 10, 37, 149, -1, 0)
JULY_4 = 6_578_970


def case(word, text, answer, given=""):
    """The word is the letter and the numbers that are not printed."""
    CASES.append(f"{word} {text}#{given}")
    LINES.append(text + answer)


# The numbers that each call can give, 0 for no refusal; 12 is none of them. A reading's stands by the place of the frame that is
# refused, and by its sync word.
NUMBERS = {
    "date": {0, 3},
    "minute": {0, 15},
    "local date": {0, 3, 16},
    "writing": {0, 1, 2, 3, 4},
    "one frame": {0, 5, 6, 7, 8, 9, 10, 11, 13},
    "one message": {5, 6, 7, 19},
    "first frame": {0, 5, 6, 7, 8, 9, 10, 11, 13},
    "first message": {5, 6, 7, 19},
    "later frame": {0, 5, 6, 7, 8, 9, 10, 11, 13, 14},
    "later message": {5, 6, 7, 20, 11, 13, 14},
    "one later frame": {0, 5, 6, 7, 8, 9, 10, 11, 13, 14},
    "one later message": {0, 5, 6, 7, 20, 11, 13, 14},
    "printing pages": {0, 6, 7, 8, 9, 10, 11, 13, 14, 19, 20, 4},
    "writing the amplitude code": {0, 1, 3, 18, 4},
    "reading the amplitude code": {0, 17, 18},
    "writing IRIG B": {0, 1, 3, 21, 4},
    "reading IRIG B": {0, 21},
}
GIVEN = {}


def told(call, refusal):
    """The refusal that a case gets, or 0."""
    assert refusal in NUMBERS[call], f"{call}: {refusal}"
    GIVEN.setdefault(call, set()).add(refusal)
    return refusal


def spaced(*parts):
    return "".join(f" {p}" for p in parts)


def digits(bits):
    return "".join(map(str, bits))


def given(bits):
    return "".join("x" if b == 255 else str(b) for b in bits)


def told_reading(place, left, refusal):
    """The refusal of a reading, with the bits that are left."""
    return told(f"{place} {'message' if digits(left).startswith(MESSAGE_SYNC) else 'frame'}", refusal)


def entry_text(bits, space):
    """What reading one frame gives."""
    refusal, buffer, _ = read_one(bits, [7] * (space + 2), space)
    return ":" + spaced(told_reading("one", bits, refusal), "|", *buffer)


def entries_text(bits, space):
    """What reading a recording gives."""
    count, used, refusal, buffer, _ = read_recording(bits, [7] * (space + 2), space)
    return ":" + spaced(count, used, told_reading("later" if count else "first", bits[used:], refusal), "|", *buffer)


def one(label, bits, n, space):
    case(f"o{space}", label, entry_text(bits[:n], space), given(bits[:n]))


def recording(label, bits, n, space):
    case(f"a{space}", label, entries_text(bits[:n], space), given(bits[:n]))


def plan_text(plan):
    return "plan " + " ".join(map(str, plan))


def messages_text(messages, size=None):
    """What a text says of messages: how many bytes of them are given, and the minute and data of each."""
    size = 10 * len(messages) if size is None else size
    return f", {size} bytes of messages " + ", ".join(f"{m} {data}" for m, data in messages) if messages else ""


def message_bytes(messages):
    return b"".join(m.to_bytes(4, "big") + data.to_bytes(6, "big") for m, data in messages)


def example(*changes):
    return with_words(map(int, TABLE_10), *changes)


def inverted(bits, *places):
    return [b ^ (k in places) for k, b in enumerate(bits)]


def table_10(a, b):
    one(f"Table 10, inverted {a} {b}", inverted(example(), a, b), 60, ENTRY)


def zero(a, b):
    one(f"minute 0, inverted {a} {b}", inverted(frame(USUAL, 0), a, b), 60, ENTRY)


def date(minute):
    if minute > LAST:
        answer = (3,)
    else:
        answer = (0, *shown(date_of(minute)), 0, minute)
    told("date", answer[0])
    case("d", f"minute {minute}:", spaced(*answer))


def minute(*numbers):
    try:
        d = datetime.datetime(*numbers)
        real = 2000 <= d.year <= 2099
    except (ValueError, OverflowError):
        real = False
    answer = (0, minute_of(*numbers)) if real else (15,)
    told("minute", answer[0])
    case("m", f"date{spaced(*numbers)}:", spaced(*answer))


def shown(d):
    """A date as its six values; Saturday is 0."""
    return (d.year, d.month, d.day, d.hour, d.minute, (d.isoweekday() + 1) % 7)


def local(m, state, offset, hour):
    """The local date by the state, as document 02 has it."""
    if m > LAST:
        answer = (3,)
    elif state > 3 or not -600 <= offset <= -240 or not 1 <= hour <= 3:
        answer = (16,)
    else:
        m_of_day = m % 1440
        on = (False, m_of_day < 60 * (hour - 1) - offset, m_of_day >= 60 * hour - offset, True)[state]
        answer = (0, *shown(date_of(m + offset + 60 * on)))
    told("local date", answer[0])
    case("t", f"minute {m}, state {state}, offset {offset}, hour {hour}:", spaced(*answer))


def local_changes(plan, year, offset, hour):
    """The clock around both changes, from their instants and not from the state: the local clock of standard time strikes the
    hour in spring, that of daylight time in autumn."""
    (begins, _), (ends, _) = changes(plan, year)
    begins += 60 * hour - offset
    ends += 60 * hour - (offset + 60)
    for m in (begins - 1, begins, ends - 60, ends - 1, ends, ends + 59, ends + 60):
        state = int(facts(plan, m)[1], 2)
        answer = (0, *shown(date_of(m + offset + 60 * (begins <= m < ends))))
        case("t", f"minute {m}, state {state}, offset {offset}, hour {hour}:", spaced(*answer))


def around(m):
    date(m)
    date(m + 1)


def sent(plan, m, messages=()):
    bits = write(plan, m, 1, 61, messages)[1]
    text = f"{plan_text(plan)} sends {m}{messages_text(messages)}"
    case("s", text, f" {digits(bits)}" + entry_text(bits, ENTRY))


def minutes(text, plan, *numbers):
    """What a plan gives some minutes."""
    answer = "".join(spaced(m, *facts(plan, m)) + "," for m in numbers)
    case("f" + ".".join(map(str, (*plan, len(numbers), *numbers))), text, answer)


def change(row, year):
    plan = (0, row, 37, 0, 0, 0) if row <= 24 else (0, 10, row, 0, 0, 0)
    t = change_minute(row, year)
    minutes(f"row {row} changes:", plan, t - 1, t, t + 1439, t + 1440)


def last_minute(month):
    return minute_of(2000 + (month + 1) // 12, (month + 1) % 12 + 1, 1) - 1


def month_end(month, sign):
    last = last_minute(month)
    plan = (1, 0, 0, month, sign, 0)
    minutes(f"leap month {month} {sign}:", plan, last - 1, last, last + 1)
    return last


def written(plan, first, count, space, messages=(), size=None):
    """So many bytes of the messages are given, or all."""
    refusal, bits = write(plan, first, count, space, messages_in(message_bytes(messages)[:size]))
    out = bits + [7] * (124 - len(bits))
    text = f"{plan_text(plan)} writes {first} {count} in {space}{messages_text(messages, size)}:"
    case("w", text, spaced(told("writing", refusal), len(bits), digits(out)))


def sent_entry(plan, messages, m):
    """A frame's entry as sent, by plan, messages and minute."""
    length, dst, leap, row = facts(plan, m)
    datas = dict(messages)
    if m in datas:
        return entry_bytes(m, length, 0, 0, 0, plan[5], 0, 1, 1, datas[m])
    return entry_bytes(m, length, int(dst, 2), leap, row, plan[5], 0, 1)


def sent_bits(plan, first, count, messages):
    """The bits of a recording. It is read as sent, unless its first frame is a message."""
    bits = write(plan, first, count, 65536, messages)[1]
    entries = [b for m in range(first, first + count) for b in sent_entry(plan, messages, m)]
    as_sent = (0, 0, 19, []) if first in dict(messages) else (count, len(bits), 0, entries)
    assert read_recording(bits, [], count * ENTRY)[:4] == as_sent
    return bits


def carried(plan, first, count, messages=()):
    bits = sent_bits(plan, first, count, messages)
    text = f"{plan_text(plan)} sends {first} {count}{messages_text(messages)}"
    case("c", text, entries_text(bits, count * ENTRY))


def long(plan, first, count, messages=()):
    bits = sent_bits(plan, first, count, messages)
    n, used, refusal, _, _ = read_recording(bits, [], 1000 * ENTRY)
    text = f"{plan_text(plan)} sends {first} {count}{messages_text(messages)}"
    case("l", text, f" {len(bits)}:" + spaced(n, used, told_reading("later" if n else "first", bits[used:], refusal)))


def resumed(label, bits, minute, leap, space=ENTRY, alone=True):
    """Bits read in a state: as one frame, but for more of them, and as a recording."""
    answer = ""
    if alone:
        refusal, buffer, (m, l) = read_one(bits, [7] * (space + 2), space, (minute, leap))
        answer = f":{spaced(told_reading('one later', bits, refusal))}, then{spaced(m, l, '|', *buffer)}"
    n, used, refusal, buffer, (m, l) = read_recording(bits, [7] * (space + 2), space, (minute, leap))
    answer += f":{spaced(n, used, told_reading('later', bits[used:], refusal))}, then{spaced(m, l, '|', *buffer)}"
    case("i" if alone else "u", f"space {space}, minute {minute}, leap {leap}, {label}", answer, given(bits))


def in_pieces(label, start, piece, times):
    """A recording that begins with some bits and goes on with others so many times, read piece by piece into two entries."""
    n, used, state, buffer = 0, 0, None, [7] * 2 * ENTRY
    for part in [start] + [piece] * times:
        more, bits_used, refusal, buffer, state = read_recording(part, buffer, len(buffer), state)
        n, used = n + more, used + bits_used
    told_reading("later", piece[bits_used:], refusal)
    text = f"{len(start)} bits, then {times} times the others: {label}"
    case("n", text, f":{spaced(n, used, refusal)}, then{spaced(*state, '|', *buffer)}", given(start + piece))


PAGE = 52 * 42
PAGES_SPACE = 3 * PAGE + 2                     # of the program, but for a long recording
LONG_SPACE = 807 * PAGE + 2


def printed(bits, space, whole):
    """What printing into so many bytes of a whole buffer gives: the refusal or 0, the number of bytes, the check sum of the whole
    buffer, and the lines of the last page that are not blank."""
    refusal, text = print_pages(bits, space)
    lines = [l for l in text[-PAGE:].split("\n")[:-1] if l != BLANK_LINE]
    answer = spaced(told("printing pages", refusal), len(text), check_sum(text.encode() + b"\7" * (whole - len(text))))
    return answer + "".join("\n" + l for l in lines)


def pages_given(label, bits, space=PAGES_SPACE):
    case("g", f"{space} bytes for pages, {label}:", printed(bits, space, PAGES_SPACE), given(bits))


def pages_sent(plan, first, count, space, messages=()):
    bits = sent_bits(plan, first, count, messages)
    text = f"{plan_text(plan)} sends {first} {count}, {space} bytes for pages{messages_text(messages)}:"
    case("h", text, printed(bits, space, PAGES_SPACE))


def pages_long(label, start, piece, times, space):
    """A recording that begins with some bits and goes on with others so many times."""
    bits = start + piece * times
    text = f"{len(start)} bits, then the others again and again, {len(bits)} in all, {space} bytes for pages, {label}:"
    case("y", text, printed(bits, space, LONG_SPACE), given(start + piece))


def edited(plan, m, at, value, n):
    bits = frame(plan, m)
    bits += [0] * (64 - len(bits))
    bits[at] = value
    one(f"{plan_text(plan)} sends {m} with byte {at} at {value}, bytes {n}", bits, n, ENTRY)
    recording("the same, as a recording", bits, n, 3 * ENTRY)


def joined(plan, m, other, k):
    recording(f"{plan_text(plan)} sends {m}, then {plan_text(other)} {k}", frame(plan, m) + frame(other, k), 120, 3 * ENTRY)


def damaged(bits, question):
    """A frame of 60 bits in which the check, 7 to 11 or 13, fails."""
    words = {
        7: [([29], [2])],
        8: [([12], [1 - bits[12]])],
        9: [(STATE_AT, "00010")],
        10: [(NEXT_AT, "000000")],
        11: [(PLACE_BITS, code_word(LAST + 1)), ([19, 29, 39], [(LAST + 1) % 2, 0, 0])],
        13: [([59], [1])],
    }
    return with_words(bits, *words.get(question, [([39], [1])]))


def first(question, also, n, space):
    bits = damaged(damaged(frame(USUAL, JULY_4), question), also)
    label = f" no to {question} {also}, bytes {n} space {space}"
    one("one frame," + label, bits, n, space)
    recording("first frame," + label, bits, n, space)


def third(question, also, m, n, space):
    last = damaged(damaged(frame(USUAL, m), question), also)
    bits = frame(USUAL, JULY_4) + frame(USUAL, JULY_4 + 1) + last
    recording(f"third frame, no to {question} {also}, bytes {n} space {space}", bits, n, space)


def received(plan, m, place, free):
    """A frame with a place of its time word inverted, or none for 0, and with bits 19, 29 and 39 as given; and its entry as
    sent, by plan, minute and inversion, the echo byte alone by bit 19."""
    bits = frame(plan, m)
    if place:
        bits[PLACE_BITS[place - 1]] ^= 1
    bits[19], bits[29], bits[39] = free
    length, dst, leap, row = facts(plan, m)
    return bits, entry_bytes(m, length, int(dst, 2), leap, row, plan[5], place, int(free[0] == m % 2))


def heard(plan, m, place, free):
    bits, entry = received(plan, m, place, free)
    assert read_one(bits, [], ENTRY)[:2] == (0, entry)
    one(f"{plan_text(plan)} sends {m}, place {place}, bits 19 29 39{spaced(*free)}", bits, len(bits), ENTRY)


def all_heard(plan, m, places, frees):
    """Frames of minutes from m on, heard as a recording."""
    frames = [received(plan, m + k, place, free) for k, (place, free) in enumerate(zip(places, frees))]
    bits = [b for f, _ in frames for b in f]
    entries = [b for _, e in frames for b in e]
    assert read_recording(bits, [], len(entries))[:4] == (len(frames), len(bits), 0, entries)
    label = f"{plan_text(plan)} sends {m}, places{spaced(*places)}, bits 19 29 39{spaced(*map(digits, frees))}"
    recording(label, bits, len(bits), len(entries))


def amplitude_written(plan, m, sign, tenths, space=64, messages=(), size=None):
    """A minute written into so many bytes of 64, and read. What is read is as sent, by plan, minute and UT1. So many bytes of the
    messages are given, or all."""
    refusal, symbols = write_amplitude(plan, m, sign, tenths, space, messages_in(message_bytes(messages)[:size]))
    out = symbols + [7] * (64 - len(symbols))
    answer = spaced(told("writing the amplitude code", refusal), len(symbols), digits(out))
    if not refusal:
        length, dst, leap, _ = facts(plan, m)
        read = read_amplitude(symbols)
        assert read == (0, *shown(date_of(m)), sign, tenths, int(leap != 0), dst, length)
        answer += ":" + spaced(told("reading the amplitude code", read[0]), *read[1:])
    case("e", f"{plan_text(plan)} minute {m}, UT1 {sign} {tenths}, in {space}{messages_text(messages, size)}:", answer)


def amplitude_read(label, symbols):
    answer = read_amplitude(symbols)
    told("reading the amplitude code", answer[0])
    case("r", f"amplitude, {label}:", spaced(*answer), given(symbols))


def changed(symbols, *changes):
    """The symbols with others in their places: each change is a second and the symbols from it on."""
    symbols = list(symbols)
    for at, others in changes:
        symbols[at:at + len(others)] = map(int, others)
    return symbols


def table_10_changed(*changes):
    """Table 10's minute with other symbols."""
    name = "".join(f", second {at} at {digits(others)}" for at, others in changes)
    amplitude_read(f"Table 10{name}", changed(map(int, TABLE_10_AMPLITUDE), *changes))


def table_10_fields(length=60, **fields):
    """Table 10's minute with other fields, in so many seconds."""
    name = "".join(f", {field} {n}" for field, n in fields.items())
    amplitude_read(f"Table 10 in {length} symbols{name}", symbols_of({**TABLE_10_FIELDS, **fields}, length))


IRIG_SPACE = ELEMENTS + 4                      # of the program


def irig_written(plan, m, second, space=IRIG_SPACE, messages=(), size=None):
    """A second of IRIG B written into so many bytes of 104, and read. What is read is as sent, by minute and second. So many bytes
    of the messages are given, or all."""
    refusal, elements = write_irig(plan, m, second, space, messages_in(message_bytes(messages)[:size]))
    out = elements + [7] * (IRIG_SPACE - len(elements))
    answer = spaced(told("writing IRIG B", refusal), len(elements), digits(out))
    if not refusal:
        read = read_irig(elements)
        assert read == (0, date_of(m).timetuple().tm_yday, m % 1440 * 60 + second)
        answer += ":" + spaced(told("reading IRIG B", read[0]), *read[1:])
    case("b", f"{plan_text(plan)} minute {m}, second {second}, in {space}{messages_text(messages, size)}:", answer)


def irig_read(label, elements):
    answer = read_irig(elements)
    told("reading IRIG B", answer[0])
    case("k", f"IRIG B, {label}:", spaced(*answer), given(elements))


def irig_fields(day, hour, minute, second, straight=None):
    """The elements with these numbers; the straight seconds follow from them, if not given."""
    fields = {"day": day, "hour": hour, "minute": minute, "second": second}
    return elements_of({**fields, STRAIGHT: second_of_day(fields) if straight is None else straight})


def irig_time(*numbers):
    """A day of the year, an hour, a minute, a second, and maybe the straight seconds, read."""
    irig_read("day {} {:02}:{:02}:{:02}".format(*numbers) + "".join(f", straight {n}" for n in numbers[4:]), irig_fields(*numbers))


def irig_changed(numbers, *changes):
    """The same with other elements."""
    label = "day {} {:02}:{:02}:{:02}".format(*numbers) + "".join(f", {at} at {given(others)}" for at, others in changes)
    irig_read(label, changed(irig_fields(*numbers), *changes))


def listed(name, text, alone=False, space=LISTING_SPACE):
    """A line, handed with its line feed and what follows, or alone. The check sum is of the whole buffer."""
    out = listing(text.encode() if alone else text.encode() + b"\n" + b"0 10 37 0 0 0 0 1\n")
    refusal = 0
    if len(out) > space:
        refusal, out = 4, b""
    shown = "\n" + out.decode() if len(out) < 200 else ""
    answer = spaced(refusal, len(out), check_sum(out + b"\7" * (LISTING_SPACE - len(out)))) + shown
    case(f"{'p' if alone else 'q'}{space}", f"listing, {name}:", answer, text)


def tables():
    for pair in ((99, 99), (29, 99), (39, 99), (29, 39), (19, 99)):
        table_10(*pair)
    for m in (0, 1, 84_960, JULY_4, 8_717_609, 8_717_610, LAST, LAST + 1, 2**32 - 1):
        date(m)
    for m in (0, 1, JULY_4, 6_412_319, 6_412_320, 6_413_760, 6_755_039, 6_755_040, 6_756_480):
        sent(USUAL, m)
    sent(LONG, 6_573_600)
    sent(SHORT, 6_573_600)
    for pair in ((99, 99), (46, 99), (46, 45), (45, 44), (19, 99), (46, 19)):
        zero(*pair)
    for w in range(32):
        word = f"{w:05b}"
        one(f"state word {word[:2]} {word[2:]}", example((STATE_AT, word), (NEXT_AT, "100011")), 60, ENTRY)
    for state in ("01000", "00011"):
        for w in range(64):
            word = f"{w:06b}"
            name = f" (reserved {RESERVED[word]})" if word in RESERVED else ""
            label = f"next-change word {word}{name} in state {state[:2]} {state[2:]}"
            one(label, example((STATE_AT, state), (NEXT_AT, word)), 60, ENTRY)
    for bit in PLACE_BITS:
        table_10(bit, 99)
        table_10(bit, 19)


def calendar_lines():
    for row in range(1, 49):
        change(row, 2015)
        change(row, 2012)
    for year in (2000, 2009, 2010, 2026, 2044, 2099):
        change(10, year)
        change(37, year)
    for month in range(132, 156):
        month_end(month, 1)
        around(month_end(month, -1))
    for month, sign in ((0, 1), (0, -1), (1, 1), (1, -1), (1198, 1)):
        month_end(month, sign)
    for d in ((2000, 2, 1), (2000, 2, 29), (2000, 3, 1), (2099, 12, 1)):
        around(minute_of(*d) - 1)
    around(LAST)
    sent((0, 10, 37, 1199, 1, 0), LAST)
    sent((0, 10, 37, 1199, -1, 0), LAST)
    sent((0, 10, 37, 0, 1, 0), 0)
    for row in range(1, 25):
        for d in ((2012, 1, 1), (2012, 7, 4, 17, 30)):
            sent((0, row, row + 24, 0, 0, 0), minute_of(*d))
    for d in ((2000, 1, 1, 0, 0), (2000, 2, 29, 0, 0), (2012, 7, 4, 17, 30), (2016, 7, 28, 21, 30),
              (2011, 2, 28, 23, 59), (2012, 2, 29, 23, 59), (2096, 2, 29, 12, 0), (2099, 12, 31, 23, 59)):
        minute(*d)
    for d in ((1999, 12, 31, 23, 59), (2100, 1, 1, 0, 0), (2012, 0, 1, 0, 0), (2012, 13, 1, 0, 0), (2012, 7, 0, 0, 0),
              (2012, 7, 32, 0, 0), (2012, 6, 31, 0, 0), (2011, 2, 29, 0, 0), (2012, 2, 30, 0, 0), (2099, 2, 29, 0, 0),
              (2012, 7, 4, 24, 0), (2012, 7, 4, 17, 60), (2**32 - 1,) * 5):
        minute(*d)


def local_lines():
    for year in (2000, 2007, 2012, 2026, 2099):
        for offset in range(-600, -239, 60):
            local_changes(USUAL, year, offset, 2)
    for hour in (1, 3):
        local_changes(USUAL, 2012, -330, hour)
        local_changes((0, 1, 48, 0, 0, 0), 2031, -570, hour)
    for offset in range(-600, -239, 60):
        for state in range(4):
            local(0, state, offset, 2)
        local(LAST, 0, offset, 2)
        local(LAST, 3, offset, 2)
    for m in (1, 539, 540, 599, 600, 1439):
        local(m, 0, -600, 2)
        local(m, 3, -600, 2)
    for d in ((2000, 2, 29), (2000, 3, 1), (2001, 1, 1), (2012, 3, 1), (2012, 7, 1), (2099, 3, 1)):
        for m in (239, 240, 299, 300):
            local(minute_of(*d) + m, 0, -300, 2)
            local(minute_of(*d) + m, 3, -300, 2)
    # each limit of a day's two kinds of change, and the states where they have no place
    for hour in (1, 2, 3):
        for m in (60 * hour + 299, 60 * hour + 300, 60 * hour + 239, 60 * hour + 240):
            for state in range(4):
                local(JULY_4 // 1440 * 1440 + m, state, -300, hour)
    for numbers in ((LAST + 1, 0, -300, 2), (2**32 - 1, 0, -300, 2), (LAST + 1, 4, -601, 0), (LAST, 4, -300, 2),
                    (LAST, 2**32 - 1, -300, 2), (JULY_4, 3, -601, 2), (JULY_4, 3, -600, 2), (JULY_4, 3, -240, 2),
                    (JULY_4, 3, -239, 2), (JULY_4, 3, 0, 2), (JULY_4, 3, 300, 2), (JULY_4, 3, -300, 0),
                    (JULY_4, 3, -300, 1), (JULY_4, 3, -300, 3), (JULY_4, 3, -300, 4), (JULY_4, 3, -300, 2**32 - 1)):
        local(*numbers)


def writings():
    for plan in ((4, 0, 0, 0, 0, 0), (0, 0, 37, 0, 0, 0), (0, 25, 37, 0, 0, 0), (0, 10, 24, 0, 0, 0), (0, 10, 49, 0, 0, 0),
                 (1, 10, 0, 0, 0, 0), (1, 0, 37, 0, 0, 0), (2, 0, 37, 0, 0, 0), (0, 10, 37, 1200, 1, 0),
                 (0, 10, 37, 1200, -1, 0), (0, 10, 37, 1, 0, 0), (0, 10, 37, 0, 2, 0), (0, 10, 37, 0, -2, 0),
                 (0, 10, 37, 0, 0, 2)):
        written(plan, 0, 1, 60)
    for numbers in ((0, 0, 60), (0, 1001, 124), (0, 2**32 - 1, 124), (LAST, 2, 124), (LAST + 1, 1, 60), (2**32 - 1, 1, 60),
                    (2**32 - 1, 1000, 60), (JULY_4, 1, 59), (JULY_4, 2, 119), (JULY_4, 1, 0)):
        written(USUAL, *numbers)
    written((4, 0, 0, 0, 0, 0), 0, 0, 60)
    written(USUAL, LAST + 1, 0, 60)
    written(USUAL, LAST + 1, 1, 0)
    written(USUAL, JULY_4, 1, 60)
    written(USUAL, JULY_4, 2, 124)
    written(USUAL, LAST - 1, 2, 120)
    for plan, space in ((LONG, 60), (LONG, 61), (SHORT, 58), (SHORT, 59)):
        written(plan, 6_573_599, 1, space)
    for plan in (USUAL, LONG, SHORT):
        long(plan, 6_573_100, 1000)
    for sign in (0, -1, 1):
        for m, month, notice in ((6_311_520, 144, 0), (6_412_320, 146, 0), (JULY_4, 150, 1), (6_755_040, 154, 1)):
            sent((0, 10, 37, month if sign else 0, sign, notice), m)
    for plan in ((1, 0, 0, 0, 0, 0), (2, 0, 0, 0, 0, 0), (1, 0, 0, 150, 1, 1), (2, 0, 0, 150, -1, 1)):
        sent(plan, JULY_4)
    sent(LONG, 6_573_599)
    sent(SHORT, 6_573_599)
    for plan in (USUAL, LONG, SHORT):
        carried(plan, 6_573_598, 3)
    for plan, at, value, n in ((LONG, 60, 1, 61), (LONG, 59, 1, 61), (LONG, 60, 0, 60), (LONG, 61, 0, 62), (SHORT, 59, 1, 59),
                               (SHORT, 59, 0, 60), (SHORT, 59, 0, 58)):
        edited(plan, 6_573_599, at, value, n)
    for at, value, n in ((29, 1, 60), (39, 1, 60), (29, 2, 60), (39, 2, 60), (58, 255, 60), (59, 1, 60), (59, 2, 60), (60, 0, 59),
                         (60, 0, 61), (60, 1, 61)):
        edited(USUAL, JULY_4, at, value, n)
    whole = (2, 0, 0, 0, 0, 1)
    joined(USUAL, JULY_4, whole, JULY_4 + 1)
    joined(USUAL, JULY_4, whole, JULY_4)
    joined(USUAL, LAST, USUAL, 0)


def refused_readings():
    handed = lambda q, n, space: (n - 2 if q == 6 else n, space - 1 if q == 5 else space)
    questions = (5, 6, 7, 8, 9, 10, 11, 13)
    for q in questions:
        first(q, 0, *handed(q, 60, ENTRY))
    for q, also in zip(questions, questions[1:]):
        first(q, also, 58 if q < 7 else 60, ENTRY - 1 if q == 5 else ENTRY)
    for q in questions:
        third(q, 0, JULY_4 + 2, *handed(q, 180, 3 * ENTRY))
    third(14, 0, JULY_4 + 3, 180, 3 * ENTRY)
    third(14, 0, JULY_4 + 1, 180, 3 * ENTRY)
    for q, also in zip(questions, questions[1:]):
        third(q, also, JULY_4 + 2, 178 if q < 7 else 180, 3 * ENTRY - 1 if q == 5 else 3 * ENTRY)
    third(13, 14, JULY_4 + 3, 180, 3 * ENTRY)
    for n, space in ((180, 3 * ENTRY), (120, 2 * ENTRY), (121, 2 * ENTRY), (121, 3 * ENTRY), (179, 3 * ENTRY)):
        third(0, 0, JULY_4 + 2, n, space)
    # entry space that would do for entries of 12 bytes
    first(0, 0, 60, 12)
    third(0, 0, JULY_4 + 2, 180, 3 * 12)
    one("no bits, one frame", [], 0, ENTRY)
    one("no bits and no space, one frame", [], 0, 0)
    recording("no bits", [], 0, 3 * ENTRY + 2)
    recording("no bits and no space", [], 0, 0)
    recording("one bit", [0], 1, ENTRY)
    recording("one bit and no space", [0], 1, ENTRY - 1)


def echoes():
    """Wrong echoes beside a repaired place, and bits 29 and 39: the entries are those sent."""
    will = lambda n: (n & 1, n >> 1 & 1, n >> 2 & 1)
    for place in range(32):
        for b in (0, 1):
            heard(USUAL, JULY_4 + 1, place, (b, place % 2, place // 2 % 2))
    for n in range(8):
        heard(USUAL, 0, 31, will(n))
    for plan, m in ((LONG, 6_573_599), (SHORT, 6_573_599), (USUAL, LAST)):
        for place in (1, 17, 31):
            for b in (0, 1):
                heard(plan, m, place, (b, 1, b))
    # three places a recording, with each echo wrong, and with every other
    for k in range(1, 32, 3):
        places = [(k + i - 1) % 31 + 1 for i in range(3)]
        all_heard(USUAL, JULY_4, places, [((JULY_4 + i + 1) % 2, (k + i) % 2, (k + i) // 2 % 2) for i in range(3)])
        all_heard(USUAL, JULY_4 + 1, places[::-1], [will(k + 2 * i) for i in range(3)])
    for plan in (USUAL, LONG, SHORT):
        for n in range(2):
            all_heard(plan, 6_573_598, (31, 31 - n, 17 * n), [will(n + 2 * i) for i in range(3)])
    # an echo that agrees with time[0] as received and not as repaired; two places taken for another minute
    before = frame(USUAL, JULY_4) + frame(USUAL, JULY_4 + 1)
    for at in ((46, 19), (46, 45), (46, 45, 19)):
        recording(f"third frame, inverted{spaced(*at)}", before + inverted(frame(USUAL, JULY_4 + 2), *at), 180, 3 * ENTRY)
    # other questions, of a frame with a place repaired and a wrong echo
    for q, m in ((11, JULY_4 + 2), (13, JULY_4 + 2), (14, JULY_4 + 3)):
        bits = inverted(damaged(frame(USUAL, m), q), 19, 36)
        if q < 14:
            one(f"one frame, no to {q}, inverted 19 36", bits, 60, ENTRY)
        recording(f"third frame, no to {q}, inverted 19 36", before + bits, 180, 3 * ENTRY)


def one_inverted(plan, m, k):
    """A frame with bit k inverted, read alone. Document 02, 3, says the answer: a number, or the entry as sent but for the
    place, the echo at bit 19 and the notice at bit 49."""
    bits = inverted(frame(plan, m), k)
    place = PLACE_BITS.index(k) + 1 if k in PLACE_BITS else 0
    entry = received(plan, m, place, (m % 2 ^ (k == 19), 0, 0))[1]
    entry[8] ^= k == 49
    refusal = 8 if k < 13 else 9 if k in STATE_AT else 10 if k in NEXT_AT else 13 if k > 58 else 0
    assert read_one(bits, [], ENTRY)[:2] == (refusal, [] if refusal else entry)
    one(f"{plan_text(plan)} sends {m}, inverted {k}", bits, len(bits), ENTRY)


def inversions():
    """Each bit of frames of all three lengths."""
    for plan, m in ((USUAL, JULY_4), (SHORT, 6_573_599), ((1, 0, 0, 1199, 1, 1), LAST)):
        for k in range(len(frame(plan, m))):
            one_inverted(plan, m, k)


def amplitude_writings():
    leap_minute = 6_573_599
    assert digits(amplitude(USUAL, JULY_4, 1, 4)) == TABLE_10_AMPLITUDE
    amplitude_written(USUAL, JULY_4, 1, 4)
    # the minute before the leap month and its first; the leap minute with those beside it
    for plan in (LONG, SHORT):
        for m in (6_530_399, 6_530_400, leap_minute - 1, leap_minute, leap_minute + 1):
            amplitude_written(plan, m, -1, 6)
    # each daylight state in its first and last minute; kinds 1 and 2
    for m in (6_412_319, 6_412_320, 6_413_759, 6_413_760, 6_755_039, 6_755_040, 6_756_479, 6_756_480):
        amplitude_written(USUAL, m, 1, 1)
    for plan in ((1, 0, 0, 0, 0, 0), (2, 0, 0, 0, 0, 1)):
        amplitude_written(plan, JULY_4, 1, 4)
    # the first and the last minute, with no leap second in the month and with one of each sign
    for m, month in ((0, 0), (LAST, 1199)):
        for sign in (0, 1, -1):
            amplitude_written((0, 10, 37, month if sign else 0, sign, 0), m, 1, 0)
    # the limits of UT1
    for sign in (1, -1):
        for tenths in (0, 9):
            amplitude_written(USUAL, 8_717_610, sign, tenths)
    # each decimal digit in each place that can have it, but for the 2 of the hour and the 3 of the day: these follow
    for k in range(10):
        hour, minute, day = k % 2 * 10 + k, k % 6 * 10 + k, k % 3 * 100 + k * 10 + 9 - k
        amplitude_written(USUAL, minute_of(2000 + 11 * k, 1, 1, hour, minute) + (day - 1) * 1440, (1, -1)[k % 2], k)
    # day 366 and day 365 at the end of a year, day 1, and day 60 of a leap year and of a common one
    for d in ((2000, 12, 31, 23, 59), (2001, 12, 31, 23, 59), (2001, 1, 1, 0, 0), (2012, 2, 29, 12, 0), (2013, 3, 1, 12, 0)):
        amplitude_written(USUAL, minute_of(*d), 1, 3)
    # question 1: kind, rows, leap month, leap sign, notice
    for plan in ((4, 0, 0, 0, 0, 0), (0, 0, 37, 0, 0, 0), (0, 10, 49, 0, 0, 0), (1, 10, 37, 0, 0, 0), (0, 10, 37, 1200, 1, 0),
                 (0, 10, 37, 149, 0, 0), (0, 10, 37, 149, 2, 0), (0, 10, 37, 149, -2, 0), (0, 10, 37, 0, 0, 2)):
        amplitude_written(plan, JULY_4, 1, 4)
    # question 3
    for m in (LAST + 1, 2**32 - 1):
        amplitude_written(USUAL, m, 1, 4)
    # question 18; the last two would be legal if they were taken modulo 256
    for sign, tenths in ((0, 0), (2, 0), (-2, 0), (1, 10), (-1, 10), (1, 2**32 - 1), (257, 4), (1, 256)):
        amplitude_written(USUAL, JULY_4, sign, tenths)
    # question 4: a byte too few and exactly enough for each length; no bytes
    for plan, m, length in ((SHORT, leap_minute, 59), (USUAL, JULY_4, 60), (LONG, leap_minute, 61)):
        amplitude_written(plan, m, -1, 6, length - 1)
        amplitude_written(plan, m, -1, 6, length)
    amplitude_written(USUAL, JULY_4, 1, 4, 0)
    # no to two questions, then to all: the first is given
    illegal = (4, 0, 0, 0, 0, 0)
    for numbers in ((illegal, LAST + 1, 1, 4), (USUAL, LAST + 1, 0, 4), (USUAL, LAST + 1, 1, 10), (USUAL, JULY_4, 0, 4, 59),
                    (USUAL, JULY_4, 1, 10, 59), (illegal, JULY_4, 0, 4), (illegal, JULY_4, 1, 4, 59), (USUAL, LAST + 1, 1, 4, 59),
                    (illegal, LAST + 1, 0, 10, 0)):
        amplitude_written(*numbers)


def amplitude_readings():
    assert digits(symbols_of(TABLE_10_FIELDS, 60)) == TABLE_10_AMPLITUDE
    longest = amplitude(LONG, 6_573_599, -1, 6)
    table_10_changed()
    # 17: the length
    for n in (0, 58):
        amplitude_read(f"Table 10, first {n}", [int(s) for s in TABLE_10_AMPLITUDE[:n]])
    amplitude_read("Table 10, twice", [int(s) for s in TABLE_10_AMPLITUDE * 2])
    amplitude_read("62 symbols", longest + [2])
    # 17: each fixed 0 as 1, and each marker as 0
    for k, name in enumerate(TABLE_1[:60]):
        if name in FIXED:
            table_10_changed((k, [1 if name == "0" else 0]))
    # 17: a marker at the first bit of each digit and field, and at 58; bytes that are no symbols, and a marker for a fixed 0
    for k in (1, 5, 12, 15, 22, 25, 30, 36, 40, 45, 50, 55, 56, 57, 58):
        table_10_changed((k, [2]))
    for k, value in ((1, 3), (8, 255), (19, 255), (34, 2), (59, 3)):
        table_10_changed((k, [value]))
    # 17: the markers at 59 and 60
    table_10_changed((59, [1]))
    for k in (59, 60):
        for value in (0, 1):
            amplitude_read(f"61 symbols, second {k} at {value}", changed(longest, (k, [value])))
    # 18: each digit of four bits at 10; but for the tenths and the year's tens the field would stay in range
    for k in (5, 15, 25, 30, 40, 45, 50):
        table_10_changed((k, "1010"))
    # every UT1 sign: all but 101 and 010 give 18
    for n in range(8):
        table_10_changed((36, f"{n:03b}"))
    # 18: minute, hour and day of the year beside their limits
    for m in (59, 60, 79):
        table_10_fields(minute=m)
    for hour in (23, 24, 39):
        table_10_fields(hour=hour)
    for year, leap, days in ((0, 1, (0, 1, 366)), (12, 1, (0, 366, 367, 399)), (11, 0, (0, 365, 366)), (99, 0, (365, 366))):
        for day in days:
            table_10_fields(year=year, leap=leap, day=day)
    # 18: the leap mark against the year
    for year, leap in ((0, 0), (11, 1), (12, 0), (96, 0), (99, 1)):
        table_10_fields(year=year, leap=leap)
    # 18: the length against the date and the warning: a month's last minute, mid-month, the minutes beside a month's end
    for length in (59, 60, 61):
        for warning in (1, 0):
            table_10_fields(length, day=182, hour=23, minute=59, warning=warning)
            table_10_fields(length, warning=warning)
    for length in (60, 61):
        table_10_fields(length, day=182, hour=23, minute=58, warning=1)
        table_10_fields(length, day=183, hour=0, minute=0, warning=1)
    # 18: the end of February in a common and in a leap year, and that of the century
    for year, leap, day in ((11, 0, 59), (12, 1, 59), (12, 1, 60), (99, 0, 365)):
        table_10_fields(61, year=year, leap=leap, day=day, hour=23, minute=59, warning=1)
    # no plan is asked: the warning and each daylight state stand with any date; plus and minus 0 tenths differ
    for dst in ("00", "01", "10"):
        table_10_changed((56, "1" + dst))
    for sign in ("101", "010"):
        table_10_changed((36, sign), (40, "0000"))
    # 17 before 18, wherever they stand
    for changes in (((5, "1010"), (54, "1")), ((4, "1"), (50, "1111")), ((1, "111"), (59, "0")), ((36, "000"), (58, "2")),
                    ((0, "1"), (55, "0"))):
        table_10_changed(*changes)
    amplitude_read("62 symbols, leap mark 0", changed(longest + [2], (55, "0")))
    amplitude_read("58 symbols, sign 000", changed(longest[:58], (36, "000")))
    amplitude_read("Table 10, 59 symbols, second 49 at 0", changed(map(int, TABLE_10_AMPLITUDE[:59]), (49, "0")))


def law_changes(plan, year):
    """The minutes around each change of a year."""
    for at, _ in changes(plan, year):
        minutes(f"{plan_text(plan)}, change of {year}:", plan, at - 1, at, at + 1439, at + 1440)


def law_minutes():
    """What kind 3 gives minutes of 2000 to 2008."""
    minutes("the first minutes of 2000:", LAW, 0, 1, 1439, 1440)
    for year in range(2000, 2009):
        law_changes(LAW, year)
        end = minute_of(year + 1, 1, 1)
        minutes(f"the end of {year}:", LAW, end - 1, end, end + 1439, end + 1440)
        # where the own rows would have changed the clock; kind 0 does
        for row in (10, 37):
            at = change_minute(row, year)
            minutes(f"row {row} of {year}, kind 3:", LAW, at, at + 1440)
            minutes(f"row {row} of {year}, kind 0:", USUAL, at, at + 1440)
    # days about the last change of the earlier law and the first ones of the own rows
    for d in ((2006, 10, 28), (2006, 10, 29), (2006, 10, 30), (2006, 12, 31), (2007, 1, 1),
              (2007, 3, 10), (2007, 3, 11), (2007, 3, 12), (2007, 11, 3), (2007, 11, 4),
              (2007, 11, 5)):
        minutes(f"kind 3, day{spaced(*d)}:", LAW, minute_of(*d), minute_of(*d) + 1439)
    minutes("the last minutes of all:", LAW, LAST - 1440, LAST)
    # other own rows: none is sent before the last change of 2006
    for row in range(1, 25):
        plan = (3, row, 49 - row, 0, 0, row % 2)
        (begins, _), (ends, _) = changes(plan, 2006)
        minutes(f"{plan_text(plan)} in 2006:", plan, begins - 1, begins, ends - 1, ends)
        law_changes(plan, 2007)


def law_frames():
    """Frames and recordings of kind 3, written and read."""
    for year in range(2000, 2008):
        for at, _ in changes(LAW, year):
            carried(LAW, at - 1, 3)
            sent(LAW, at + 1440)
    sent(LAW, 0)
    sent(LAW, 1_844_250)
    for plan in ((3, 1, 25, 0, 0, 1), (3, 24, 48, 0, 0, 1), (3, 3, 28, 0, 0, 1)):
        carried(plan, minute_of(2006, 10, 29) - 1, 2)
        carried(plan, minute_of(2007, 1, 1) - 1, 2)
    long(LAW, minute_of(2006, 10, 29) - 500, 1000)
    long((3, 10, 37, 83, 1, 0), minute_of(2007, 1, 1) - 500, 1000)
    # a leap second in a month of change, and at the end of 2005 and of 2006
    for month, d in ((57, (2004, 11, 1)), (71, (2006, 1, 1)), (83, (2007, 1, 1))):
        for sign in (1, -1):
            carried((3, 10, 37, month, sign, 1), minute_of(*d) - 2, 3)
    # frames of several kinds in one recording, if the minutes count up
    m = 1_843_200
    none, whole = (1, 0, 0, 0, 0, 0), (2, 0, 0, 0, 0, 1)
    for plan, other in ((LAW, USUAL), (USUAL, LAW), (none, LAW), (LAW, whole)):
        joined(plan, m, other, m + 1)
    joined(LAW, m, LAW, m + 2)
    for place in (0, 1, 17, 31):
        heard(LAW, minute_of(2003, 4, 6), place, (place % 2, 1, 0))
        places, frees = (place, 31 - place, 5), ((0, 0, 1), (1, 1, 0), (place % 2, 0, 0))
        all_heard(LAW, minute_of(2006, 10, 29) - 1, places, frees)
    for k in (0, 12, 13, 19, 29, 39, 46, 47, 49, 52, 53, 58, 59):
        one_inverted(LAW, 1_844_250, k)


def law_refusals():
    """Question 1 takes kind 3 with the rows of kind 0; the other questions and their order."""
    rows = ((0, 0), (0, 37), (25, 37), (10, 24), (10, 49), (10, 0), (37, 10), (2**32 - 1, 37),
            (10, 2**32 - 1))
    others = ((1200, 1, 0), (80, 0, 0), (80, 2, 0), (80, -2, 0), (0, 0, 2))
    kinds = ((4, 10, 37), (5, 10, 37), (255, 0, 0), (259, 10, 37), (2**32 - 1, 10, 37))
    refused = [(3, *r, 0, 0, 0) for r in rows] + [(3, 10, 37, *o) for o in others]
    refused += [(*k, 0, 0, 0) for k in kinds]
    accepted = [(3, 1, 25, 0, 0, 0), (3, 24, 48, 0, 0, 0), (3, 10, 37, 1199, -1, 1)]
    for plan in refused + accepted:
        assert legal(plan) == (plan in accepted)
        written(plan, 2_848_320, 1, 61)
        amplitude_written(plan, 2_848_320, 1, 2, 60)
    for numbers in ((0, 0, 61), (0, 1001, 0), (LAST, 2, 0), (2**32 - 1, 1000, 61), (LAST, 1, 59),
                    (0, 1, 60), (0, 2, 119)):
        written(LAW, *numbers)
    amplitude_written((3, 10, 49, 0, 0, 0), LAST + 1, 0, 10, 0)
    amplitude_written(LAW, LAST + 1, 0, 10, 0)
    amplitude_written(LAW, 0, 0, 0, 0)
    amplitude_written(LAW, 0, 1, 0, 59)


def law_amplitude():
    """The amplitude code of kind 3, and local dates by its states."""
    for year in range(2000, 2008):
        for (at, _), sign in zip(changes(LAW, year), (1, -1)):
            for m in (at - 1, at, at + 1440):
                amplitude_written(LAW, m, sign, year % 10)
    for month, d in ((57, (2004, 11, 1)), (71, (2006, 1, 1))):
        for sign in (1, -1):
            amplitude_written((3, 10, 37, month, sign, 0), minute_of(*d) - 1, sign, 3)
    for year in (2000, 2003, 2006, 2007):
        for offset in (-300, -600, -330):
            local_changes(LAW, year, offset, 2)


EXAMPLE_LINE = "0 10 37 0 0 0 6578970 1"

LISTED = [
    ("kind 0", EXAMPLE_LINE),
    ("two frames", "0 10 37 0 0 1 6578970 2"),
    ("kind 1", "1 0 0 0 0 0 0 1"),
    ("kind 2", "2 0 0 0 0 1 52595999 1"),
    ("61 seconds", "0 10 37 149 1 0 6573599 1"),
    ("59 seconds", "0 10 37 149 -1 0 6573599 1"),
    ("sign -0", "0 10 37 0 -0 0 6578970 1"),
    ("sign -000000000", "0 10 37 0 -000000000 0 6578970 1"),
    ("sign 01", "0 10 37 149 01 0 6573599 1"),
    ("sign 2", "0 10 37 149 2 0 6573599 1"),
    ("sign -2", "0 10 37 149 -2 0 6573599 1"),
    ("sign -1 and no such month", "0 10 37 1200 -1 0 6573599 1"),
    ("month without a sign", "0 10 37 149 0 0 6573599 1"),
    ("leading zeros", "00 010 037 0000 00 00 06578970 01"),
    ("nine digits each", "000000000 000000010 000000037 000000149 -000000001 000000000 006573599 000000001"),
    ("nine nines", "0 10 37 0 0 0 999999999 999999999"),
    ("nine nines as minute", "0 10 37 0 0 0 999999999 1"),
    ("nine nines as kind", "999999999 10 37 0 0 0 6578970 1"),
    ("kind 3", "3 10 37 0 0 0 1844250 1"),
    ("kind 3, two frames over a change", "3 1 25 0 0 0 3589919 2"),
    ("kind 3 without rows", "3 0 0 0 0 0 1844250 1"),
    ("kind 3, rows in the other order", "3 37 10 0 0 0 1844250 1"),
    ("no such kind", "4 0 0 0 0 0 6578970 1"),
    ("no such kind, with rows", "4 10 37 0 0 0 6578970 1"),
    ("rows in the other order", "0 37 10 0 0 0 6578970 1"),
    ("rows without a kind", "1 10 37 0 0 0 6578970 1"),
    ("notice 2", "0 10 37 0 0 2 6578970 1"),
    ("count 0", "0 10 37 0 0 0 6578970 0"),
    ("count 1001", "0 10 37 0 0 0 6578970 1001"),
    ("minute after the last", "0 10 37 0 0 0 52596000 1"),
    ("last minute too large", "0 10 37 0 0 0 52595999 2"),
    ("questions 1, 2 and 3", "4 0 0 0 0 0 52596000 0"),
    ("questions 2 and 3", "0 10 37 0 0 0 52596000 0"),
    ("ten digits", "0 10 37 0 0 0 0006578970 1"),
    ("ten digits first", "0000000000 10 37 0 0 0 6578970 1"),
    ("ten digits last", "0 10 37 0 0 0 6578970 0000000001"),
    ("ten digits behind a minus", "0 10 37 149 -0000000001 0 6573599 1"),
    ("minus alone", "0 10 37 149 - 0 6573599 1"),
    ("two minuses", "0 10 37 149 --1 0 6573599 1"),
    ("minus behind the sign", "0 10 37 149 1- 0 6573599 1"),
    ("blank behind the minus", "0 10 37 149 - 1 0 6573599 1"),
    ("plus before the sign", "0 10 37 149 +1 0 6573599 1"),
    ("plus before the kind", "+0 10 37 0 0 0 6578970 1"),
    ("minus before the kind", "-0 10 37 0 0 0 6578970 1"),
    ("minus before the spring row", "0 -10 37 0 0 0 6578970 1"),
    ("minus before the autumn row", "0 10 -37 0 0 0 6578970 1"),
    ("minus before the month", "0 10 37 -0 0 0 6578970 1"),
    ("minus before the notice", "0 10 37 0 0 -0 6578970 1"),
    ("minus before the minute", "0 10 37 0 0 0 -0 1"),
    ("minus before the count", "0 10 37 0 0 0 6578970 -1"),
    ("tab between numbers", "0 10\t37 0 0 0 6578970 1"),
    ("tab behind", EXAMPLE_LINE + "\t"),
    ("doubled blank", "0 10 37 0 0 0  6578970 1"),
    ("doubled blank before the sign", "0 10 37 149  1 0 6573599 1"),
    ("doubled blank before the count", "0 10 37 0 0 0 6578970  1"),
    ("leading blank", " " + EXAMPLE_LINE),
    ("trailing blank", EXAMPLE_LINE + " "),
    ("carriage return", EXAMPLE_LINE + "\r"),
    ("seven numbers", "0 10 37 0 0 0 6578970"),
    ("seven numbers and a blank", "0 10 37 0 0 0 6578970 "),
    ("nine numbers", EXAMPLE_LINE + " 1"),
    ("one number", "0"),
    ("empty line", ""),
    ("one blank", " "),
    ("seven blanks", " " * 7),
    ("letter", "0 10 37 0 0 0 6578970 1x"),
    ("hexadecimal", "0 0xa 37 0 0 0 6578970 1"),
    ("point", "0 10 37 0 0 0 6578970 1.0"),
    ("byte before 0", "0 10 37 0 0 0 6578970 /"),
    ("byte behind 9", "0 10 37 0 0 0 6578970 :"),
    ("commas", "0,10,37,0,0,0,6578970,1"),
    ("no-break space", "0 10 37 0 0 0 6578970\u00a01"),
    ("longer than any legal line", "000000000 000000010 000000037 000000149 -000000001 000000000 006573599 0000000001"),
    ("one digit 120 times", "0" * 120),
    ("120 bytes that begin well", EXAMPLE_LINE + " " * 97),
    ("1,000 frames", "0 10 37 0 0 0 6578970 1000"),
    ("1,000 frames, one of 59 seconds", "0 10 37 149 -1 1 6573100 1000"),
    ("kind 3, 1,000 frames over a change", "3 10 37 0 0 0 3589500 1000"),
    ("the longest", "0 10 37 1199 1 0 52595000 1000"),
]


def listings():
    for name, text in LISTED:
        listed(name, text)
    listed("no input", "", alone=True)
    listed("no line feed", EXAMPLE_LINE, alone=True)
    listed("no line feed, carriage return", EXAMPLE_LINE + "\r", alone=True)
    listed("no line feed, seven numbers", "0 10 37 0 0 0 6578970", alone=True)
    listed("no line feed, 1,000 frames", "2 0 0 0 0 0 0 1000", alone=True)
    for space in (0, 20, 91, 92, 93):
        listed(f"{space} bytes", EXAMPLE_LINE, space=space)
    for space in (0, 9, 10, 11):
        listed(f"{space} bytes", "0 10 37 0 0 0 6578970 0", space=space)
    listed(f"{LISTING_SPACE - 1} bytes", "0 10 37 1199 1 0 52595000 1000", space=LISTING_SPACE - 1)


DATA = 0x123456789AB
MOST = 2**42 - 1
MONTH_END = 6_573_599                          # of June 2012


def messages_from(m, *datas):
    """Messages in minutes one after the other."""
    return [(m + k, data) for k, data in enumerate(datas)]


def message_writings():
    """Plans with messages, written."""
    m = JULY_4
    # each bit of the data alone; none and all of them, with either notice
    for k in range(0, 42, 2):
        written((1, 0, 0, 0, 0, 0), 0, 2, 124, messages_from(0, 1 << k, 2 << k))
    for notice in (0, 1):
        for data in (0, MOST):
            written((0, 10, 37, 0, 0, notice), m, 2, 124, messages_from(m, data, data))
    # in the first place and in the last, by each kind; outside, beside it and far away
    for plan in (USUAL, (1, 0, 0, 0, 0, 1), (2, 0, 0, 0, 0, 0), LAW):
        for at in (m, m + 1):
            written(plan, m, 2, 124, [(at, DATA)])
    for messages in ([(m - 1, 5), (m + 2, 6)], [(0, 5), (m + 1, 6), (LAST, 7)], [(0, 1), (1, 2), (2, 3), (m, 4)],
                     [(m + 1, 1), (m + 2, 2), (LAST - 1, 3), (LAST, 4)]):
        written(USUAL, m, 2, 124, messages)
    written(USUAL, 0, 2, 124, [(0, DATA), (LAST, 7)])
    written(USUAL, LAST, 1, 61, [(0, 7), (LAST, DATA)])
    # alone; a month's last minute of each length, into a byte too few and exactly enough
    for plan in (USUAL, LONG, SHORT):
        sent(plan, MONTH_END, [(MONTH_END, DATA)])
        length, _, _, _ = facts(plan, MONTH_END)
        for space in (length - 1, length):
            written(plan, MONTH_END, 1, space, [(MONTH_END, MOST)])
    sent(USUAL, m, [(m, DATA)])


def message_refusals_written():
    """Question 1 of messages, in a first and a last place; and the other questions."""
    m = JULY_4
    # data
    for data in (MOST, MOST + 1, 2**43, 2**48 - 1):
        for messages in ([(m, data)], messages_from(m, data, 2, 3, 4), messages_from(m, 1, 2, 3, data)):
            written(USUAL, m, 1, 60, messages)
    # minutes in range, and strictly rising
    for minute in (LAST, LAST + 1, 2**26 - 1, 2**32 - 1):
        for others in ((), (0, 1, m)):
            written(USUAL, m, 1, 60, [(other, 9) for other in (*others, minute)])
    written(USUAL, m, 1, 60, messages_from(LAST + 1, 1, 2))
    for minutes in ((m, m), (m, m - 1), (5, 5, 6, 7), (6, 5, 7, 8), (5, 6, 6, 7), (5, 7, 6, 8), (5, 6, 7, 7), (5, 6, 7, 6),
                    (6, 7, 8, 5), (8, 5, 6, 7), (5, 6, 7, 8)):
        written(USUAL, m, 1, 60, [(minute, 9) for minute in minutes])
    # no bytes, bytes that are no messages, and too many
    for size in (0, 1, 5, 9, 10, 11, 15, 19, 20, 30, 35, 39, 40, 41, 45, 49, 50):
        written((1, 0, 0, 0, 0, 0), 0, 2, 124, messages_from(0, 1, 2, 3, 4, 5), size)
    # 1 before 2, 3 and 4
    for numbers in ((m, 0, 60), (LAST, 2, 120), (m, 1, 0), (2**32 - 1, 0, 0)):
        written(USUAL, *numbers, [(m, MOST + 1)])
    for plan in ((4, 10, 37, 0, 0, 0), (0, 10, 49, 0, 0, 0), (0, 10, 37, 149, 0, 0), (0, 10, 37, 0, 0, 2)):
        written(plan, m, 1, 60, [(m, DATA)])
    written((0, 10, 37, 0, 0, 2), m, 1, 60, [(m, MOST + 1)])
    # 2, 3 and 4 with messages
    for numbers in ((m, 0, 60), (m, 1001, 0), (LAST, 1001, 0), (LAST, 2, 0), (2**32 - 1, 1, 60), (m, 1, 59), (m - 1, 2, 119),
                    (m - 1, 2, 120)):
        written(USUAL, *numbers, [(m, DATA)])


def message_recordings():
    """Plans with messages, sent and read."""
    m = JULY_4
    none, whole = (1, 0, 0, 0, 0, 1), (2, 0, 0, 0, 0, 0)
    for notice in (0, 1):
        carried((0, 10, 37, 0, 0, notice), m, 3, [(m + 1, DATA)])
    # first of a recording, whatever comes after it; last; two in a row; four in a row and with a time frame between; each kind
    for messages in ([(m, DATA)], messages_from(m, 1, 2, 3, 4), [(m + 2, DATA)], messages_from(m + 1, 0, MOST)):
        carried(USUAL, m, 3, messages)
    for plan in (USUAL, none, whole, LAW):
        carried(plan, m, 6, messages_from(m + 1, 1, 2, 3, 4))
        carried(plan, m, 9, [(m + 1, 5), (m + 3, 6), (m + 5, 7), (m + 7, 8)])
    # each bit of the data
    for k in range(0, 40, 4):
        carried(USUAL, m, 5, messages_from(m + 1, 1 << k, 2 << k, 4 << k, 8 << k))
    carried(USUAL, m, 3, messages_from(m + 1, 1 << 40, 1 << 41))
    # about a month's end, with each leap state: after a time frame of that month, and over the end from its last minute on
    for plan in (USUAL, LONG, SHORT):
        carried(plan, MONTH_END - 1, 3, [(MONTH_END, MOST)])
        carried(plan, MONTH_END - 1, 3, [(MONTH_END, 0), (MONTH_END + 1, 6)])
        carried(plan, MONTH_END - 2, 4, messages_from(MONTH_END - 1, 1, MOST))
        carried(plan, MONTH_END - 2, 5, messages_from(MONTH_END - 1, 1, 2, 3, 4))
        carried(plan, MONTH_END, 4, messages_from(MONTH_END + 1, 1, 2, 3))
        long(plan, MONTH_END - 499, 1000, [(MONTH_END - 498, 1), *messages_from(MONTH_END, 2, 3), (MONTH_END + 500, 4)])
    long(USUAL, m, 1000, [(m, 1)])
    # the months beside the leap month
    for plan in (LONG, SHORT):
        for end in (last_minute(148), last_minute(150)):
            carried(plan, end - 1, 3, messages_from(end, 1, 2))
    # the ends of other months, of the century, and the first minutes
    for month in (0, 1, 133, 145, 1199):
        for sign in (1, -1):
            end = last_minute(month)
            carried((3, 10, 37, month, sign, 1), end - 1, 2, [(end, DATA)])
    carried(USUAL, LAST - 1, 2, [(LAST, DATA)])
    carried(USUAL, 0, 5, messages_from(1, 1, 2, 3, 4))


def later_message(what, bits, n=120, space=3 * ENTRY):
    recording(f"a message after a time frame, {what}", frame(USUAL, JULY_4) + bits, n, space)


def last_message(what, bits, n=180, space=3 * ENTRY):
    before = frame(USUAL, JULY_4) + message(USUAL, JULY_4 + 1, DATA)
    recording(f"a message in the last place, {what}", before + bits, n, space)


def message_refusals_read():
    """Messages refused, alone, first, later and last."""
    m = JULY_4
    time, second, third = frame(USUAL, m), message(USUAL, m + 1, DATA), message(USUAL, m + 2, MOST)
    byte = lambda at, value: changed(second, (at, [value]))
    # 5, 6, 7, 8 and 19, alone and first; the length, byte 59, and bits 19, 29 and 39 do not matter
    for what, bits, space in (("", second, ENTRY), (", space 17", second, ENTRY - 1), (", 58 bits", second[:58], ENTRY),
                              (", byte 0 at 2", byte(0, 2), ENTRY), (", byte 58 at 255", byte(58, 255), ENTRY),
                              (", inverted 12", inverted(second, 12), ENTRY)):
        one(f"a message alone{what}", bits, len(bits), space)
        recording(f"a message first{what}", bits, len(bits), space)
    recording("a message first, then a time frame", second + frame(USUAL, m + 2), 120, 3 * ENTRY)
    one("a message alone, space 12", second, 60, 12)
    one("a message alone, 58 bits, space 17", second, 58, ENTRY - 1)
    for what, bits in (("58 bits, byte 0 at 2", byte(0, 2)[:58]), ("byte 0 at 2, inverted 1", inverted(byte(0, 2), 1)),
                       ("59 bits", second[:59]), ("61 bits", second + [0]), ("byte 59 at 1", byte(59, 1)),
                       ("byte 59 at 255", byte(59, 255)), ("inverted 19 29 39", inverted(second, 19, 29, 39))):
        one(f"a message alone, {what}", bits, len(bits), ENTRY)
    for k in range(12):
        one(f"a message alone, inverted {k}", inverted(second, k), 60, ENTRY)
    # 5, 6, 7 and 8 of a later one, and which comes first
    for space in (2 * ENTRY, 2 * ENTRY - 1, ENTRY, 24):
        later_message(f"space {space}", second, space=space)
    later_message("58 bits, space 35", second, 118, 2 * ENTRY - 1)
    later_message("58 bits", second, 118)
    later_message("58 bits, byte 0 at 2", byte(0, 2), 118)
    later_message("byte 0 at 2", byte(0, 2))
    later_message("byte 58 at 255", byte(58, 255))
    later_message("byte 58 at 2, inverted 12", inverted(byte(58, 2), 12))
    for at in ((0,), (12,), (12, 19, 59)):
        later_message(f"inverted{spaced(*at)}", inverted(second, *at))
    # 9 and 10 are not asked, and bits 29 and 39 not read
    later_message("state and next-change bits illegal", with_words(second, (STATE_AT, "00010"), (NEXT_AT, "000000")))
    later_message("inverted 29 39", inverted(second, 29, 39))
    # 13, 14, and both
    later_message("59 bits", second, 119)
    later_message("byte 59 at 255", byte(59, 255))
    later_message("inverted 19, 59 bits", inverted(second, 19), 119)
    for at in ((59,), (19,), (19, 59)):
        later_message(f"inverted{spaced(*at)}", inverted(second, *at))
    # the last of three; a time frame after a message
    for at in ((12,), (59,), (19,)):
        last_message(f"inverted{spaced(*at)}", inverted(third, *at))
    last_message("space 53", third, space=3 * ENTRY - 1)
    last_message("58 bits", third, 178)
    last_message("byte 58 at 2", changed(third, (58, [2])))
    for q in (8, 9, 10, 11, 13):
        bits = time + second + damaged(frame(USUAL, m + 2), q)
        recording(f"a time frame after a message, no to {q}", bits, 180, 3 * ENTRY)
    for k in (m + 1, m + 2, m + 3):
        recording(f"a time frame after a message, minute {k}", time + second + frame(USUAL, k), 180, 3 * ENTRY)
    # two minutes lost between messages show at the next time frame
    for k in (m + 3, m + 5):
        bits = time + second + message(USUAL, m + 4, 5) + frame(USUAL, k)
        recording(f"two minutes lost between messages, then {k}", bits, 240, 4 * ENTRY)
    # more messages than a plan can have
    recording("five messages", time + [b for k in range(1, 6) for b in message(USUAL, m + k, k)], 360, 6 * ENTRY)
    # 11 of the counted minute, before 13 and 14
    after = message(USUAL, LAST + 1, 1)
    for at in ((), (19,), (59,), (5,)):
        bits = frame(USUAL, LAST) + inverted(after, *at)
        recording(f"a message after the last minute, inverted{spaced(*at)}", bits, 120, 3 * ENTRY)
    bits = frame(USUAL, LAST - 1) + message(USUAL, LAST, 1) + after
    recording("a message in the last minute and after it", bits, 180, 3 * ENTRY)
    # time frames about messages, with an inverted place and other bits 19, 29 and 39
    for place, free in ((31, (0, 1, 0)), (17, (1, 0, 1))):
        bits = received(USUAL, m, place, free)[0] + second + third + received(USUAL, m + 3, 32 - place, free)[0]
        recording(f"messages between places {place} and {32 - place}, bits 19 29 39{spaced(*free)}", bits, 240, 4 * ENTRY)


def message_lengths():
    """A message in a month's last minute, long by the leap state last read or by the one before."""
    m = MONTH_END
    plans = (USUAL, SHORT, LONG)
    for before, leap in ((0, 1), (0, 2), (1, 0), (1, 2), (2, 0), (2, 1)):
        for other in (leap, before):
            bits = frame(plans[leap], m - 1) + message(plans[other], m, 77)
            resumed(f"a time frame, leap {leap}, then a message, leap {other}", bits, m - 1, before, 2 * ENTRY, alone=False)
    for plan in plans:
        bits = frame(LONG, m - 2) + frame(USUAL, m - 1) + message(plan, m, 77)
        recording(f"leap 2, leap 0, then a message of {facts(plan, m)[0]} bits", bits, len(bits), 3 * ENTRY)


def message_states():
    """Frames read in a state; leap 3 is not known."""
    m, july = MONTH_END, JULY_4
    for leap in range(4):
        for plan in (SHORT, USUAL, LONG):
            bits = message(plan, m, DATA)
            resumed(f"a message of {len(bits)} bits", bits, m, leap)
        resumed("a message", message(USUAL, m - 1, MOST), m - 1, leap)
    resumed("a message", message(USUAL, m + 1, 5), m + 1, 3)
    # 20 after 5 to 8, and before 13 and 14; these without 20
    last = message(USUAL, m, DATA)
    resumed("a message", last, m, 3, ENTRY - 1)
    resumed("a message of 58 bits", last[:58], m, 3)
    for leap in (3, 0):
        resumed("a message, byte 58 at 2", changed(last, (58, [2])), m, leap)
        for at in ((0,), (19,), (59,), (19, 59)):
            resumed(f"a message, inverted{spaced(*at)}", inverted(last, *at), m, leap)
    for at in (59, 60):
        resumed(f"a message, inverted {at}", inverted(message(LONG, m, DATA), at), m, 2)
    # the last minute and the one after it
    for leap, plan in enumerate((USUAL, (0, 10, 37, 1199, -1, 0), (0, 10, 37, 1199, 1, 0), USUAL)):
        resumed("a message", message(plan, LAST, MOST), LAST, leap)
    after = message(USUAL, LAST + 1, 1)
    resumed("a message of 59 bits", after[:59], LAST + 1, 3)
    for at in ((), (5,), (19,)):
        resumed(f"a message, inverted{spaced(*at)}", inverted(after, *at), LAST + 1, 3)
    # time frames: 20 is not asked, and the state is theirs
    for plan in (USUAL, LONG, SHORT):
        for minute in (m - 1, m, m + 1):
            resumed("a time frame", frame(plan, minute), minute, 3)
    for minute in (m - 2, m):
        resumed("a time frame", frame(LONG, m - 1), minute, 0)
    for q in (7, 8, 9, 10, 11, 13):
        resumed(f"a time frame, no to {q}", damaged(frame(USUAL, july), q), july, 0)
    resumed("a time frame of 58 bits", frame(USUAL, july)[:58], july, 0)
    resumed("a time frame", frame(USUAL, july), july, 0, ENTRY - 1)
    # over the ends of months, and beside them
    for d in ((2000, 2, 1), (2000, 2, 29), (2001, 3, 1), (2012, 2, 29), (2012, 3, 1), (2012, 5, 1), (2013, 1, 1)):
        minute = minute_of(*d)
        bits = message(USUAL, minute - 1, 1) + message(USUAL, minute, 2)
        resumed("two messages", bits, minute - 1, 0, 2 * ENTRY, alone=False)
        bits = message(USUAL, minute - 2, 1) + message(USUAL, minute - 1, 2)
        resumed("two messages", bits, minute - 2, 3, 2 * ENTRY, alone=False)


def message_months():
    """A month of messages, the only way from a recording to 20. The program has no space for its bits and entries: it is read in
    pieces, each in the state that the one before left."""
    none = (1, 0, 0, 0, 0, 0)
    m = minute_of(2001, 2, 1)
    pair = lambda minute: message(none, minute, 5) + message(none, minute + 1, MOST)
    in_pieces("a message in each minute of February, after January's last", frame((1, 0, 0, 12, 1, 0), m - 1), pair(m), 20_160)
    # after a time frame of that month, with each leap state
    for sign in (0, -1, 1):
        start = frame((1, 0, 0, 13 if sign else 0, sign, 0), m)
        in_pieces("a message in each minute of February but the first", start, pair(m + 1), 20_160)


def message_amplitude():
    """The amplitude code of a plan with messages is as without them, but for question 1."""
    m = JULY_4
    for messages in ([(m, DATA)], [(m, MOST)], messages_from(m, 1, 2, 3, 4), messages_from(m - 3, 1, 2, 3, 4), [(0, 1), (LAST, 2)]):
        amplitude_written(USUAL, m, 1, 4, messages=messages)
    for plan in (USUAL, LONG, SHORT):
        amplitude_written(plan, MONTH_END, -1, 6, messages=[(MONTH_END, DATA)])
    # 1: data, minutes in range and strictly rising, in a first and a last place
    for data in (MOST + 1, 2**48 - 1):
        for messages in (messages_from(m, data, 2, 3, 4), messages_from(m, 1, 2, 3, data)):
            amplitude_written(USUAL, m, 1, 4, messages=messages)
    for minutes in ((LAST + 1,), (0, 1, m, LAST + 1), (m, m), (5, 5, 6, 7), (5, 6, 7, 7), (8, 5, 6, 7), (5, 6, 8, 7)):
        amplitude_written(USUAL, m, 1, 4, messages=[(minute, 9) for minute in minutes])
    for size in (0, 9, 10, 11, 39, 40, 41, 50):
        amplitude_written(USUAL, m, 1, 4, 60, messages_from(0, 1, 2, 3, 4, 5), size)
    # 1 before 3, 18 and 4; these with a message
    for data in (MOST + 1, DATA):
        for numbers in ((LAST + 1, 0, 10, 0), (m, 0, 10, 0), (m, 1, 4, 59)):
            amplitude_written(USUAL, *numbers, [(m, data)])


def pages_printed():
    """Recordings printed as pages."""
    m, end = JULY_4, MONTH_END
    time, second, third = frame(USUAL, m), message(USUAL, m + 1, DATA), frame(USUAL, m + 2)
    # one frame, into each number of bytes about a page's; no bits
    pages_given("one frame", time)
    for space in (0, 41, PAGE - 1, PAGE, PAGE + 1):
        pages_given("one frame", time, space)
        pages_given("no bits", [], space)
    # messages
    pages_given("a message between frames", time + second + third, PAGE)
    pages_given("five messages", time + [b for k in range(1, 6) for b in message(USUAL, m + k, k)])
    pages_sent((0, 10, 37, 0, 0, 1), m, 4, PAGE, messages_from(m + 1, 0, MOST))
    # repaired places and wrong echoes
    for places, frees in (((1, 0, 31), (0, 1, 1)), ((9, 10, 17), (0, 0, 0)), ((0, 0, 30), (1, 0, 0))):
        bits = [b for k in range(3) for b in received(USUAL, m + k, places[k], (frees[k], 0, 1))[0]]
        pages_given(f"places{spaced(*places)}, bit 19 at{spaced(*frees)}", bits)
    # about a month's end with each leap state, a message in its last minute too; leap months in the middle
    for plan in (USUAL, LONG, SHORT):
        pages_sent(plan, end - 1, 3, PAGE)
        pages_sent(plan, end - 1, 3, PAGE, [(end, DATA)])
        pages_sent(plan, end - 20_000, 1, PAGE)
    # minutes of one to eight digits, the first and the last; each daylight state; each kind, and rows of one digit
    for first in (8, 98, 998, 9_998, 99_998, 999_998, 9_999_998, LAST - 2):
        pages_sent(USUAL, first, 3, PAGE)
    for first in (6_412_319, 6_413_759, 6_755_039, 6_756_479):
        pages_sent(USUAL, first, 2, PAGE)
    for plan in ((1, 0, 0, 0, 0, 0), (2, 0, 0, 0, 0, 1), LAW, (3, 1, 48, 0, 0, 0), (0, 9, 25, 0, 0, 0)):
        pages_sent(plan, 0, 1, PAGE)
    # full pages and one entry more, into a byte too few and exactly enough
    for count in (49, 50, 51, 100, 101, 150, 151):
        size = -(-count // 50) * PAGE
        for space in (size - 1, size):
            if space <= PAGES_SPACE:
                pages_sent(USUAL, m, count, space)
    pages_sent(LONG, end - 49, 100, PAGES_SPACE, messages_from(end - 1, 1, 2, 3, 4))
    # refused: in the first frame and in the third; the number does not depend on the space
    before = time + frame(USUAL, m + 1)
    for q in (7, 8, 9, 10, 11, 13):
        pages_given(f"first frame, no to {q}", damaged(time, q))
        pages_given(f"third frame, no to {q}", before + damaged(third, q))
    for n in (1, 58, 118, 178):
        pages_given(f"{n} bits of three frames", (before + third)[:n])
    for n in (59, 119, 179):
        pages_given(f"{n} bits of three frames", (before + third)[:n], 0)
    for k in (m + 1, m + 3):
        pages_given(f"third frame, minute {k}", before + frame(USUAL, k), 0)
    pages_given("a message first", second, 0)
    pages_given("a message first, then a frame", second + third)
    pages_given("a message after the last minute", frame(USUAL, LAST) + message(USUAL, LAST + 1, 1))
    pages_given("a message with bit 59 at 1", time + inverted(second, 59), PAGE)
    pages_given("a message with bit 19 inverted", time + inverted(second, 19), PAGE)


def pages_of_months():
    """A month of messages: 20 where its leap state was never read, else 807 pages."""
    none = (1, 0, 0, 0, 0, 0)
    m = minute_of(2001, 2, 1)
    pair = lambda minute: message(none, minute, 5) + message(none, minute + 1, MOST)
    pages_long("a message in each minute of February, after January's last", frame(none, m - 1), pair(m), 20_160, LONG_SPACE)
    for space in (807 * PAGE, 807 * PAGE - 1):
        pages_long("a frame, then messages to the end of February", frame(none, m) + message(none, m + 1, 1), pair(m + 2), 20_159, space)


LEAP_ENDS = (MONTH_END, minute_of(2011, 3, 1) - 1, minute_of(2012, 3, 1) - 1, LAST)


def irig_seconds():
    """Seconds of IRIG B written, and read back."""
    m, end = JULY_4, MONTH_END
    # the last seconds of a month with no leap second and with one of each sign: June, February of a common and of a leap year,
    # the last month; then the minutes beside the first of them
    for last in LEAP_ENDS:
        for sign in (0, 1, -1):
            for second in range(57, 62):
                irig_written((0, 10, 37, month_of(last) if sign else 0, sign, 0), last, second)
    for plan in (LONG, SHORT):
        for minute in (end - 1, end + 1):
            for second in (58, 59, 60):
                irig_written(plan, minute, second)
    # second 60 of each month of a common and of a leap year
    for month in range(132, 156):
        irig_written((1, 0, 0, month, 1, 0), last_minute(month), 60)
    # each decimal digit in each place that can have it, but for the 6 of the second, the 2 of the hour and the 3 of the day
    for k in range(10):
        minute = minute_of(2000 + 11 * k, 1, 1, k % 2 * 10 + k, k % 6 * 10 + k) + (k % 3 * 100 + k * 10 + 8 - k) * 1440
        irig_written(USUAL, minute, (k + 3) % 6 * 10 + 9 - k)
    # days 365 and 366, and the first and the last second of a day; day 60 of a leap year and of a common one
    for d in ((2000, 12, 31), (2001, 12, 31), (2012, 2, 29), (2013, 3, 1)):
        irig_written(USUAL, minute_of(*d), 0)
        irig_written(USUAL, minute_of(*d, 23, 59), 59)
    # the first minute and the last; each kind, kind 3 about a change of the earlier law; nothing shows of plan or daylight state
    irig_written(USUAL, 0, 0)
    irig_written(USUAL, LAST, 0)
    for plan in (USUAL, LONG, LAW, (3, 1, 48, 149, -1, 1), (1, 0, 0, 0, 0, 0), (2, 0, 0, 0, 0, 1)):
        irig_written(plan, m, 30)
    for minute in (1_715_039, 1_715_040):
        irig_written(LAW, minute, 59)
    # messages: in the minute, about it, at the ends, in the last minute of a leap month
    for messages in ([(m, DATA)], messages_from(m - 1, 1, 2, 3, MOST), [(0, 1), (LAST, 2)]):
        irig_written(USUAL, m, 30, messages=messages)
    for plan in (LONG, SHORT):
        for second in (58, 59, 60):
            irig_written(plan, end, second, messages=[(end, DATA)])


def irig_refusals_written():
    """Seconds of IRIG B that are refused."""
    m = JULY_4
    # question 1: kind, rows, leap month, leap sign, notice
    for plan in ((4, 10, 37, 0, 0, 0), (3, 0, 0, 0, 0, 0), (0, 0, 37, 0, 0, 0), (0, 10, 49, 0, 0, 0), (1, 10, 37, 0, 0, 0),
                 (0, 10, 37, 1200, 1, 0), (0, 10, 37, 149, 0, 0), (0, 10, 37, 149, 2, 0), (0, 10, 37, 149, -2, 0),
                 (0, 10, 37, 0, 0, 2)):
        irig_written(plan, m, 30)
    # question 1: data, minutes in range and strictly rising, the number of bytes
    for messages in ([(m, MOST + 1)], messages_from(m, 1, 2, 3, MOST + 1), [(LAST + 1, 1)], [(m, 1), (m, 2)], [(6, 1), (5, 2)]):
        irig_written(USUAL, m, 30, messages=messages)
    for size in (0, 9, 10, 11, 40, 41, 50):
        irig_written(USUAL, m, 30, messages=messages_from(0, 1, 2, 3, 4, 5), size=size)
    # question 3
    for minute in (LAST + 1, 2**32 - 1):
        irig_written(USUAL, minute, 0)
    # question 21; 64 and 256 would be legal if they were taken modulo themselves
    for second in (60, 61, 62, 63, 64, 256, 2**32 - 1):
        irig_written(USUAL, m, second)
    # question 4, and the bytes after the elements
    for space in (0, 99, 100, 104):
        irig_written(USUAL, m, 30, space)
    # no to some of the questions: the first is given
    for plan in (USUAL, (4, 0, 0, 0, 0, 0)):
        for minute in (m, LAST + 1):
            for second in (59, 60):
                for space in (100, 99):
                    irig_written(plan, minute, second, space)
    # the same by messages, and at the end of a month with a leap second of each sign
    for messages in ([(m, MOST + 1)], [(m, MOST)]):
        for numbers in ((LAST + 1, 60, 99), (m, 60, 99), (m, 59, 99)):
            irig_written(USUAL, *numbers, messages)
    for plan, second in ((LONG, 60), (LONG, 61), (SHORT, 58), (SHORT, 59)):
        irig_written(plan, MONTH_END, second, 99)


def irig_readings():
    """Elements read."""
    assert len(TABLE_3) == ELEMENTS and len(MONTH_ENDS) == 23
    usual = (186, 17, 30, 29)
    irig_time(*usual)
    # the length
    for n in (0, 1, 99, 101):
        irig_read(f"length {n}", (irig_fields(*usual) + [0])[:n])
    irig_read("length 101, the last an identifier", irig_fields(*usual) + [2])
    # each identifier as 0 or as 1, and the first as both; each fixed 0 as 1
    irig_changed(usual, (0, [1]))
    for k, name in enumerate(TABLE_3):
        if name in FIXED:
            irig_changed(usual, (k, [k // 10 % 2 if name == "M" else 1]))
    # an identifier for a fixed 0; and in each digit and the straight seconds for 0, with 0 for the 1 after it: taken as twice its
    # weight it would leave the number as it was
    for k in (5, 98):
        irig_changed(usual, (k, [2]))
    for k in (1, 6, 10, 15, 20, 25, 30, 35, 40, 80):
        irig_changed((222, 22, 22, 22), (k, [2, 0]))
    for k in (3, 32, 37):
        irig_changed((88, 8, 8, 8), (k, [2, 0]))
    irig_changed((88, 0, 8, 32), (88, [2]), (90, [0]))
    # bytes that are no elements
    for k, value in ((0, 3), (2, 3), (36, 255), (50, 255), (84, 4), (99, 255)):
        irig_changed(usual, (k, [value]))
    # each digit of four elements at 10 and at 15, with a number in range that the straight seconds have too
    for n, digit in ((10, "0101"), (15, "1111")):
        irig_changed((186, 17, 30, n), (1, digit), (6, "000"))
        irig_changed((186, 17, n, 29), (10, digit), (15, "000"))
        irig_changed((186, n, 30, 29), (20, digit), (25, "00"))
        irig_changed((n, 17, 30, 29), (30, digit), (35, "0000"))
        irig_changed((10 * n + 6, 17, 30, 29), (35, digit), (40, "00"))
    # hour, minute, second and day beside their limits, and at the most that the digits can say
    for hour in (23, 24, 29, 39):
        irig_time(182, hour, 59, 59)
    for minute in (59, 60, 79):
        irig_time(182, 22, minute, 59)
    for second in (61, 79):
        irig_time(182, 23, 59, second)
    for day in (0, 1, 299, 300, 366, 367, 399):
        irig_time(day, 12, 0, 0)
    # second 60 on each day that ends a month, and on the days beside them
    for day in range(367):
        if MONTH_ENDS & {day - 1, day, day + 1}:
            irig_time(day, 23, 59, 60)
    # second 60 in another minute
    for day in (60, 182, 366):
        for hour, minute in ((23, 58), (22, 59)):
            irig_time(day, hour, minute, 60)
    irig_time(182, 0, 0, 60)
    # the straight seconds with each bit inverted; with another second beside midnight
    straight = 17 * 3600 + 30 * 60 + 29
    for k in range(17):
        irig_time(*usual, straight ^ 1 << k)
    for numbers in ((182, 23, 59, 60, 0), (182, 23, 59, 60, 86_399), (182, 23, 59, 59, 86_400), (183, 0, 0, 0, 86_400),
                    (183, 0, 0, 0, 86_401), (183, 0, 0, 1, 86_401)):
        irig_time(*numbers)
    # an element of each digit of the time inverted, which is refused, and each of the day, which gives another day or none
    elements = irig_fields(*usual)
    for k in (1, 6, 10, 15, 20, 25, *range(30, 34), *range(35, 39), 40, 41):
        irig_changed(usual, (k, [1 - elements[k]]))


def main():
    tables()
    calendar_lines()
    local_lines()
    writings()
    refused_readings()
    echoes()
    inversions()
    amplitude_writings()
    amplitude_readings()
    law_minutes()
    law_frames()
    law_refusals()
    law_amplitude()
    message_writings()
    message_refusals_written()
    message_recordings()
    message_refusals_read()
    message_lengths()
    message_states()
    message_months()
    message_amplitude()
    pages_printed()
    pages_of_months()
    irig_seconds()
    irig_refusals_written()
    irig_readings()
    listings()
    assert GIVEN == NUMBERS
    text = "\n".join(LINES) + "\n"
    if sys.argv[1:2] == ["--write"]:
        here = pathlib.Path(__file__).resolve().parent.parent / "crates" / "vectors"
        folder = pathlib.Path(sys.argv[2]) if sys.argv[2:] else here
        (folder / "stdin").write_bytes(("\n".join(CASES) + "\n").encode())
        (folder / "stdout").write_bytes(text.encode())
    else:
        sys.stdout.write(text)


main()
