/* A plain reader of sheets of both editions by document 02, beside which the proved one's answers are held. It shares
 * no code and no table with it. */
#ifndef JUDGE_H
#define JUDGE_H

#include <stddef.h>
#include <stdint.h>

/* The fields in their order; a field's tag is its number here. EDITION leads sheets of edition 2, and those of edition
 * 1 have no such field. */
enum field { EDITION, SONG, TEMPO, CHORDS, SCALE, LEAD, KEYS, HITS, BASS, FORM, BARS, FIELDS };

/* The edition of these bytes, if they are a sheet: 1 or 2. */
int edition_of(const uint8_t *sheet, size_t len);

/* The first field in an edition. */
size_t first_field(int edition);

/* The body of a field is from `least` to `most` entries of `width` bytes. */
struct shape {
    size_t width, least, most;
};
struct shape shape_of(int edition, size_t field);

/* The number in the field EDITION; where a note of edition 2 has its role; and the role of a keys or bass note, below
 * which are those of lead notes. */
#define NAME 2
#define ROLE_AT 14
#define BACKING 6

/* The refusal of these bytes when they are read, 7 or 8, or 0 where they are a sheet. */
int judged(const uint8_t *sheet, size_t len);

/* In how many places a first fault was found, since the program began, and how many such places there are. */
unsigned places_seen(void);
#define PLACES 247

#endif
