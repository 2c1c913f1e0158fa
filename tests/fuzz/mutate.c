/* Changes that keep an input close to a sheet, so that a fault stands alone and deep: plain changes of bytes would
 * break a length or a tag nearly every time. libFuzzer calls this in place of its own changes, which remain one among
 * others here. Bytes that are no sheet may be given too: every change is made as far as there are fields for it. */
#include <string.h>

#include "judge.h"
#include "seqochanu.h"

size_t LLVMFuzzerMutate(uint8_t *data, size_t size, size_t most);
size_t LLVMFuzzerCustomMutator(uint8_t *data, size_t size, size_t most, unsigned seed);

/* The input, how long it may become, and its edition. */
static uint8_t *bytes;
static size_t size, most;
static int edition;

static uint64_t state;

/* A number below n, drawn by SplitMix64 from the seed that libFuzzer gives. */
static size_t draw(size_t n) {
    uint64_t z = state += UINT64_C(0x9e3779b97f4a7c15);

    z = (z ^ (z >> 30)) * UINT64_C(0xbf58476d1ce4e5b9);
    z = (z ^ (z >> 27)) * UINT64_C(0x94d049bb133111eb);
    return (size_t)((z ^ (z >> 31)) % n);
}

static size_t length_at(size_t at) {
    return (size_t)bytes[at + 1] << 8 | bytes[at + 2];
}

static void set_length(size_t at, size_t length) {
    bytes[at + 1] = (uint8_t)(length >> 8);
    bytes[at + 2] = (uint8_t)length;
}

/* Where the fields start that stand there whole, by their numbers, from the edition's first one on; and in starts[n]
 * where the last one ends. Answers n. */
static size_t whole_fields(size_t *starts) {
    size_t n;

    edition = edition_of(bytes, size);
    n = first_field(edition);
    starts[n] = 0;
    while (n < FIELDS && size - starts[n] >= 3 && size - starts[n] - 3 >= length_at(starts[n])) {
        starts[n + 1] = starts[n] + 3 + length_at(starts[n]);
        n++;
    }
    return n;
}

/* One of the fields before field n. */
static size_t some_field(size_t n) {
    size_t first = first_field(edition);

    return first + draw(n - first);
}

/* Puts `come` bytes in the place of `gone` ones. Where they are more, those that stood there and behind stay, and
 * stand there twice. Answers 0 where there is no room. */
static int splice(size_t at, size_t gone, size_t come) {
    if (size - gone + come > most) {
        return 0;
    }
    memmove(bytes + at + come, bytes + at + gone, size - at - gone);
    size = size - gone + come;
    return 1;
}

/* Numbers at the ends of some range, and f32 at the ends of what is finite. */
static uint8_t odd_byte(void) {
    static const uint8_t ends[] = {0, 1, 2, 3, 4, 5, 6, 7, 8, 11, 12, 15, 16, 127, 128, 255};

    return draw(4) == 0 ? (uint8_t)draw(256) : ends[draw(sizeof ends)];
}

static void set_odd_float(uint8_t *f) {
    static const uint32_t ends[] = {
        0x00000000, 0x80000000, 0x00000001, 0x807fffff, 0x00800000, 0x7f000000, 0x7f7fffff, 0xff7fffff,
        0x7f800000, 0xff800000, 0x7f800001, 0x7fbfffff, 0x7fc00000, 0x7fffffff, 0xffc00000, 0xffffffff,
    };
    uint32_t bits = draw(4) == 0 ? (uint32_t)draw((size_t)1 << 32) : ends[draw(16)];
    int i;

    for (i = 0; i < 4; i++) {
        f[i] = (uint8_t)(bits >> (24 - 8 * i));
    }
}

/* Where the f32 of an entry stand. */
static size_t float_part(size_t field) {
    static const size_t of_note[] = {1, 6, 10}, of_hit[] = {2, 6};

    return field == TEMPO ? 0 : field == HITS ? of_hit[draw(2)] : of_note[draw(3)];
}

static void change_value(const size_t *starts, size_t n) {
    const size_t field = some_field(n), width = shape_of(edition, field).width;
    size_t at = starts[field] + 3, entries = length_at(starts[field]) / width, entry;
    int has_floats = field == TEMPO || (field >= LEAD && field <= BASS), has_role = has_floats && width > ROLE_AT;

    if (entries == 0) {
        return;
    }
    /* often the last entry, since a reader may stop before it */
    entry = draw(3) == 0 ? entries - 1 : draw(entries);
    at += entry * width;
    if (has_floats && draw(2) == 0) {
        set_odd_float(bytes + at + float_part(field));
    } else if (has_role && draw(4) == 0) {
        bytes[at + ROLE_AT] = (uint8_t)draw(BACKING + 2);
    } else {
        bytes[at + draw(width)] = odd_byte();
    }
}

/* A role that notes of this lane may have. */
static uint8_t some_role(size_t field) {
    return field == LEAD ? (uint8_t)draw(BACKING) : BACKING;
}

/* Gives a field another number of entries, with the length that they have, or seldom one that is not theirs. */
static void resize(const size_t *starts, size_t field, size_t entries) {
    const size_t width = shape_of(edition, field).width;
    size_t at = starts[field], old = length_at(at), new = entries * width;
    size_t kept = old < new ? old : new, i;

    if (!splice(at + 3 + kept, old - kept, new - kept)) {
        return;
    }
    for (i = kept; i < new; i++) {
        /* an entry more is a copy of the one before it, and the first one zeros and a role */
        bytes[at + 3 + i] = i >= width ? bytes[at + 3 + i - width] : i == ROLE_AT ? some_role(field) : 0;
    }
    set_length(at, draw(16) == 0 ? new + draw(3) - 1 : new);
}

static void change_count(const size_t *starts, size_t n) {
    /* seldom one of the first fields, of which no sheet has other counts */
    const size_t field = n > SCALE && draw(8) != 0 ? SCALE + draw(n - SCALE) : some_field(n);
    const struct shape s = shape_of(edition, field);
    const size_t counts[] = {s.least, s.least + 1, s.most - 1, s.most, s.most + 1, draw(s.most + 1)};

    resize(starts, field, counts[draw(6)]);
}

/* Another form, mostly with as many bars as it makes, and mostly with endings that fit their codes. */
static void change_form(const size_t *starts, size_t n) {
    static const uint8_t long_bars[] = {4, 8}, some_bars[] = {0, 2, 4, 8};
    uint8_t *f;
    size_t bars, end;

    if (n <= BARS || length_at(starts[FORM]) != 6) {
        return;
    }
    f = bytes + starts[FORM] + 3;
    /* seldom an intro that rings out, an outro of no code, or phrases too few or too many */
    f[0] = (uint8_t)draw(draw(8) == 0 ? 5 : 4);
    f[2] = (uint8_t)(draw(8) == 0 ? 3 + draw(5) : 4 + draw(3));
    f[3] = (uint8_t)draw(draw(8) == 0 ? 6 : 5);
    f[5] = (uint8_t)draw(2);
    for (end = 0; end <= 3; end += 3) {
        f[end + 1] = f[end] == 0 ? 0 : f[end] == 4 ? 2 : long_bars[draw(2)];
        if (draw(16) == 0) {
            f[end + 1] = some_bars[draw(4)];
        }
    }
    bars = (size_t)f[1] + 8u * f[2] + f[4];
    resize(starts, BARS, draw(8) == 0 ? bars + 2 * draw(4) - 2 : bars);
}

static void change_head(const size_t *starts, size_t n) {
    const size_t field = some_field(n), width = shape_of(edition, field).width;
    const size_t at = starts[field], old = length_at(at);
    const size_t lengths[] = {old + 1, old - 1, old + width, old - width, old + 256, old ^ 1, 0, 0xffff};

    if (draw(3) == 0) {
        bytes[at] = draw(2) == 0 ? (uint8_t)(bytes[at] + 1) : (uint8_t)draw(256);
    } else {
        set_length(at, lengths[draw(8)]);
    }
}

/* Leaves a field out, or gives one twice. */
static void change_fields(const size_t *starts, size_t n) {
    size_t field = some_field(n), at = starts[field], length = starts[field + 1] - at;

    if (draw(2) == 0) {
        splice(at, length, 0);
    } else {
        splice(at, 0, length);
    }
}

/* Cuts the input off, mostly within or behind a field that is whole, or lets bytes trail. */
static void change_end(const size_t *starts, size_t n) {
    size_t more = 1 + draw(8), end = starts[some_field(n + 1)] + draw(5);

    if (draw(2) == 0) {
        size = end < size ? end : draw(size + 1);
    } else if (size + more <= most) {
        memset(bytes + size, (int)draw(12), more);
        size += more;
    }
}

/* Gives each note of a lane a role more, or takes it away. */
static void change_roles(size_t start, size_t field, int other) {
    const size_t old = shape_of(edition, field).width, new = shape_of(other, field).width;
    size_t entry = length_at(start) / old;

    set_length(start, entry * new);
    while (entry > 0) {
        size_t at = start + 3 + --entry * old + ROLE_AT;

        if (splice(at, old - ROLE_AT, new - ROLE_AT) && other == 2) {
            bytes[at] = some_role(field);
        }
    }
}

/* The same sheet in the other edition; seldom with a lane, or with what leads it, as it was. */
static void change_edition(const size_t *starts, size_t n) {
    static const uint8_t front[] = {EDITION, 0, 1, NAME};
    static const size_t lanes[] = {BASS, KEYS, LEAD};
    const int other = edition == 1 ? 2 : 1;
    size_t i;

    if (n < FIELDS) {
        return;
    }
    /* from the last on, so that those before stay where they start */
    for (i = 0; i < 3; i++) {
        if (draw(16) != 0) {
            change_roles(starts[lanes[i]], lanes[i], other);
        }
    }
    if (draw(16) == 0) {
        return;
    }
    if (other == 1) {
        splice(0, starts[SONG], 0);
    } else if (splice(0, 0, sizeof front)) {
        memcpy(bytes, front, sizeof front);
    }
}

/* The sheet of some song, in either edition. */
static void start_anew(void) {
    static uint8_t sheet[SEQOCHANU_SHEET_MOST];
    int64_t length = seqochanu_sheet((uint8_t)draw(2), draw(SIZE_MAX), sheet, sizeof sheet);
    size_t starts[FIELDS + 1];

    if (length > 0 && (size_t)length <= most) {
        size = (size_t)length;
        memcpy(bytes, sheet, size);
        if (draw(2) == 0) {
            change_edition(starts, whole_fields(starts));
        }
    }
}

static void change(const size_t *starts, size_t n) {
    switch (draw(16)) {
    case 0: size = LLVMFuzzerMutate(bytes, size, most); break;
    case 1: change_head(starts, n); break;
    case 2: change_fields(starts, n); break;
    case 3: change_end(starts, n); break;
    case 4: change_edition(starts, n); break;
    case 5: case 6: change_count(starts, n); break;
    case 7: case 8: case 9: change_form(starts, n); break;
    default: change_value(starts, n); break;
    }
}

size_t LLVMFuzzerCustomMutator(uint8_t *data, size_t data_size, size_t data_most, unsigned seed) {
    size_t starts[FIELDS + 1], n, changes;

    bytes = data;
    size = data_size;
    most = data_most;
    state = seed;
    /* a change of bytes that are broken already shows little, so mostly another sheet is begun */
    if (whole_fields(starts) < FIELDS ? draw(4) != 0 : draw(64) == 0) {
        start_anew();
    }
    for (changes = 1 + draw(2); changes > 0; changes--) {
        n = whole_fields(starts);
        if (n == first_field(edition)) {
            return LLVMFuzzerMutate(bytes, size, most);
        }
        change(starts, n);
    }
    return size;
}
