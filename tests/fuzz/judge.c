/* The judge, and the fuzzer's guide: the library has no counters of its own by which libFuzzer could tell that an
 * input is new, but this file is compiled with them, and it counts by itself where it finds a first fault. */
#include "judge.h"

int edition_of(const uint8_t *sheet, size_t len) {
    return len > 0 && sheet[0] == EDITION ? 2 : 1;
}

size_t first_field(int edition) {
    return edition == 2 ? EDITION : SONG;
}

struct shape shape_of(int edition, size_t field) {
    /* in edition 1 a note ends where its role would be */
    const size_t note = edition == 2 ? ROLE_AT + 1 : ROLE_AT;
    const struct shape shapes[FIELDS] = {
        [EDITION] = {1, 1, 1},   [SONG] = {10, 1, 1},    [TEMPO] = {4, 1, 1},     [CHORDS] = {32, 1, 1},
        [SCALE] = {1, 5, 6},     [LEAD] = {note, 0, 56}, [KEYS] = {note, 0, 128}, [HITS] = {10, 0, 98},
        [BASS] = {note, 0, 104}, [FORM] = {6, 1, 1},     [BARS] = {1, 32, 64},
    };

    return shapes[field];
}

/* What can be wrong with a field, and where a value stands: in the first, the last or another entry of its field. */
enum fault { HEAD, TAG, LENGTH, CUT_OFF, OTHER_NAME, FAULTS };
enum entry { FIRST, OTHER, LAST, ENTRIES };
#define EDITIONS 2
#define PARTS 6

/* The edition of this input. */
static int edition;

/* The place of its first fault. libFuzzer reads and clears this section as it does the compiler's counters. Where
 * COUNTED is defined already (reader.c), the fuzzer is not to see it. */
#ifndef COUNTED
#define COUNTED __attribute__((section("__libfuzzer_extra_counters")))
#endif
COUNTED static uint8_t faults[EDITIONS][FIELDS + 1][FAULTS];
COUNTED static uint8_t values[EDITIONS][FIELDS][PARTS][ENTRIES];

static uint8_t faults_ever[EDITIONS][FIELDS + 1][FAULTS];
static uint8_t values_ever[EDITIONS][FIELDS][PARTS][ENTRIES];

static int fault(size_t field, enum fault what) {
    faults[edition - 1][field][what] = faults_ever[edition - 1][field][what] = 1;
    return 7;
}

/* A bad value: a part of entry `i` of `n`. */
static int bad(size_t field, size_t part, size_t i, size_t n) {
    enum entry which = i == 0 ? FIRST : i == n - 1 ? LAST : OTHER;

    values[edition - 1][field][part][which] = values_ever[edition - 1][field][part][which] = 1;
    return 8;
}

unsigned places_seen(void) {
    const uint8_t *all[] = {&faults_ever[0][0][0], &values_ever[0][0][0][0]};
    const size_t counts[] = {sizeof faults_ever, sizeof values_ever};
    unsigned seen = 0;
    size_t i, k;

    for (k = 0; k < 2; k++) {
        for (i = 0; i < counts[k]; i++) {
            seen += all[k][i];
        }
    }
    return seen;
}

/* Whether a song of some form has so many bars. */
static int is_song(size_t bars) {
    static const size_t intros[] = {0, 4, 8}, outros[] = {0, 2, 4, 8};
    size_t i, phrases, o;

    for (i = 0; i < 3; i++) {
        for (phrases = 4; phrases <= 6; phrases++) {
            for (o = 0; o < 4; o++) {
                if (intros[i] + 8 * phrases + outros[o] == bars) {
                    return 1;
                }
            }
        }
    }
    return 0;
}

/* Whether some sheet's field is so long. */
static int fits(size_t field, size_t len) {
    const struct shape s = shape_of(edition, field);

    if (field == BARS) {
        return is_song(len);
    }
    return len % s.width == 0 && len / s.width >= s.least && len / s.width <= s.most;
}

/* Whether an f32 in four bytes is a number: its exponent is not all ones. */
static int is_finite(const uint8_t *f) {
    return (f[0] & 0x7f) != 0x7f || (f[1] & 0x80) == 0;
}

static int below(size_t field, size_t part, const uint8_t *body, size_t n, unsigned limit) {
    size_t i;

    for (i = 0; i < n; i++) {
        if (body[i] >= limit) {
            return bad(field, part, i, n);
        }
    }
    return 0;
}

/* Whether a note of this lane may have such a role. */
static int plays(size_t field, uint8_t role) {
    return field == LEAD ? role < BACKING : role == BACKING;
}

static int notes(size_t field, const uint8_t *body, size_t len) {
    size_t i, width = shape_of(edition, field).width, n = len / width;

    for (i = 0; i < n; i++) {
        const uint8_t *e = body + width * i;

        if (e[0] > 7) {
            return bad(field, 0, i, n);
        }
        if (!is_finite(e + 1)) {
            return bad(field, 1, i, n);
        }
        if (e[5] > 127) {
            return bad(field, 2, i, n);
        }
        if (!is_finite(e + 6)) {
            return bad(field, 3, i, n);
        }
        if (!is_finite(e + 10)) {
            return bad(field, 4, i, n);
        }
        if (edition == 2 && !plays(field, e[ROLE_AT])) {
            return bad(field, 5, i, n);
        }
    }
    return 0;
}

static int hits(const uint8_t *body, size_t len) {
    size_t i, width = shape_of(edition, HITS).width, n = len / width;

    for (i = 0; i < n; i++) {
        const uint8_t *e = body + width * i;

        if (e[0] > 7) {
            return bad(HITS, 0, i, n);
        }
        if (e[1] > 3) {
            return bad(HITS, 1, i, n);
        }
        if (!is_finite(e + 2)) {
            return bad(HITS, 2, i, n);
        }
        if (!is_finite(e + 6)) {
            return bad(HITS, 3, i, n);
        }
    }
    return 0;
}

/* Whether an ending of a known code has so many bars. */
static int ends(uint8_t code, uint8_t bars) {
    switch (code) {
    case 0: return bars == 0;
    case 4: return bars == 2;
    default: return bars == 4 || bars == 8;
    }
}

static int form(const uint8_t *f, const uint8_t *bars, size_t len) {
    if (f[0] > 3) {
        return bad(FORM, 0, 0, 1);
    }
    if (!ends(f[0], f[1])) {
        return bad(FORM, 1, 0, 1);
    }
    if (f[2] < 4 || f[2] > 6) {
        return bad(FORM, 2, 0, 1);
    }
    if (f[3] > 4) {
        return bad(FORM, 3, 0, 1);
    }
    if (!ends(f[3], f[4])) {
        return bad(FORM, 4, 0, 1);
    }
    if (f[5] > 1) {
        return bad(FORM, 5, 0, 1);
    }
    if (len != (size_t)f[1] + 8u * f[2] + f[4]) {
        return bad(BARS, 0, 0, 1);
    }
    return below(BARS, 1, bars, len, 16);
}

/* 8 where a value of these bodies, from that of SONG on, is out of range. */
static int valued(const uint8_t *const *body, const size_t *len) {
    size_t lane;
    int refusal;

    if (body[SONG][0] > 1) {
        return bad(SONG, 0, 0, 1);
    }
    if (body[SONG][9] > 3) {
        return bad(SONG, 1, 0, 1);
    }
    if (!is_finite(body[TEMPO])) {
        return bad(TEMPO, 0, 0, 1);
    }
    refusal = below(CHORDS, 0, body[CHORDS], len[CHORDS], 128);
    if (refusal == 0) {
        refusal = below(SCALE, 0, body[SCALE], len[SCALE], 12);
    }
    for (lane = LEAD; lane <= BASS && refusal == 0; lane++) {
        refusal = lane == HITS ? hits(body[lane], len[lane]) : notes(lane, body[lane], len[lane]);
    }
    return refusal != 0 ? refusal : form(body[FORM], body[BARS], len[BARS]);
}

int judged(const uint8_t *sheet, size_t len) {
    const uint8_t *body[FIELDS];
    size_t size[FIELDS], k, at = 0;

    edition = edition_of(sheet, len);
    for (k = first_field(edition); k < FIELDS; k++) {
        if (len - at < 3) {
            return fault(k, HEAD);
        }
        if (sheet[at] != k) {
            return fault(k, TAG);
        }
        size[k] = (size_t)sheet[at + 1] << 8 | sheet[at + 2];
        if (!fits(k, size[k])) {
            return fault(k, LENGTH);
        }
        at += 3;
        if (len - at < size[k]) {
            return fault(k, CUT_OFF);
        }
        body[k] = sheet + at;
        at += size[k];
        if (k == EDITION && body[k][0] != NAME) {
            return fault(k, OTHER_NAME);
        }
    }
    if (at != len) {
        return fault(FIELDS, TAG); /* trailing */
    }
    return valued(body, size);
}
