/* The sheet and the bar page of a song, sheets read back, sheets turned from one edition into the other, and the seeds
 * of a hall's papers, as bytes in a buffer of the caller's; and a seed for a lesson, as a number of the caller's.
 *
 * A song is named by a style, 0 hiphop or 1 sleep, and a 64-bit seed, which is its paper number. A hall list is named
 * by a 64-bit hall number and a count of seeds. A function that is given a buffer answers how many bytes it wrote, from
 * buf[0] on; seqochanu_lesson, which is given none, sets *seed and answers 0. Any other answer is minus the number of a
 * refusal:
 *
 *   -1  no such style
 *   -2  the buffer is shorter than the very sheet, page or list that is due
 *   -3  the song has no such bar
 *   -6  the count is outside 1 to 4,096
 *   -7  a field of the sheet is missing, cut off, misplaced or trailing, or has a length that no sheet has there, or
 *       0x00 has another body than 2
 *   -8  a value of the sheet is out of range, a note's role among them, or its field 0x0A has another length than
 *       the song
 *   -9  the sheet is not, byte for byte, the one that its style and seed give in its edition
 *  -10  the count is outside 1 to 65,536, or the span goes past the largest seed, which is 2^64 - 1
 *  -11  a wish is outside its codes: a key above 12, or a voice from 4 to 254
 *  -12  no seed of the span has the key, the tempo and the voice that are wished for
 *
 * The first two functions write edition 2: sheet and page begin with the field 0x00, and each note ends with its role.
 * A sheet whose first byte is not 0x00 is of edition 1, whose notes have no roles. It is still read, and
 * seqochanu_to_edition_1 and seqochanu_to_edition_2 turn a song's sheet of either edition into the other.
 * docs/FORMAT.md has both editions.
 *
 * A refusal writes nothing, and *seed keeps its value; bytes beyond those written keep theirs. No function keeps
 * anything between calls, so calls with different buffers, or different places for the seed, may run at the same time,
 * also where they read the same sheet. Nothing is allocated: a call works on its stack, and bench/run prints how much
 * of it is needed at most.
 *
 * The caller ensures that buf points to len bytes that may be read and written and have been set, that nothing else
 * uses them during the call, and that buf is not NULL, also where len is 0. Where a sheet is given, it points to
 * sheet_len bytes that may be read and have been set, nothing changes them during the call, none of them is a byte of
 * buf, and sheet is not NULL, also where sheet_len is 0. Where a seed is to be set, seed is not NULL, is aligned for a
 * uint64_t, points to one that may be read and written and has been set, and nothing else uses that one during the
 * call. Nothing else is asked: every style, seed, bar, hall number, count, start, key, tempo and voice has an answer,
 * and so has every sheet, whatever its bytes and its length are. */
#ifndef SEQOCHANU_H
#define SEQOCHANU_H

#include <stddef.h>
#include <stdint.h>

#ifdef __cplusplus
extern "C" {
#endif

/* No sheet of either edition, page or list is longer, in bytes, no song has more bars, no list more seeds, and no span
 * that is searched has more. */
#define SEQOCHANU_SHEET_MOST 5456
#define SEQOCHANU_PAGE_MOST 703
#define SEQOCHANU_LIST_MOST 32768
#define SEQOCHANU_BARS_MOST 64
#define SEQOCHANU_COUNT_MOST 4096
#define SEQOCHANU_SPAN_MOST 65536

/* The wishes that every song meets: any key, any tempo, any voice. */
#define SEQOCHANU_ANY_KEY 12
#define SEQOCHANU_ANY_TEMPO 0
#define SEQOCHANU_ANY_VOICE 255

/* Writes the whole song's sheet, in edition 2, and answers its length; else -1, then -2. */
int64_t seqochanu_sheet(uint8_t style, uint64_t seed, uint8_t *buf, size_t len);

/* Writes the page of song bar `bar`, counted from 0, in edition 2, and answers its length; else -1, then -3, then -2.
 * A hit that falls before its bar line stands on the page of the bar before; docs/FORMAT.md has the rule. */
int64_t seqochanu_bar_page(uint8_t style, uint64_t seed, uint64_t bar, uint8_t *buf, size_t len);

/* Writes the first `count` seeds of a hall, each in 8 bytes, the highest first, and answers 8 * count; else -6, then
 * -2. No two seeds of a list are equal, and a longer list of the same hall starts with the shorter one. */
int64_t seqochanu_hall_list(uint64_t hall, uint64_t count, uint8_t *buf, size_t len);

/* Reads a sheet of either edition, writes what was read again, in that edition, and answers its length; else -7, then
 * -8, then -2. What is written equals the sheet that was read, byte for byte. A fault in the fields anywhere comes
 * before a bad value anywhere. Nothing is composed: a sheet may be read that no style and seed give. With a buffer of
 * no bytes, -2 says that the bytes are a sheet. docs/FORMAT.md says which are. */
int64_t seqochanu_reread(const uint8_t *sheet, size_t sheet_len, uint8_t *buf, size_t len);

/* Takes a song's sheet of either edition, writes that song's sheet in edition 1, so without the roles, and answers its
 * length, which is at most 5,164; else -7, then -8, both as seqochanu_reread has them, then -9, then -2. The song is
 * composed from the style and seed in the sheet's field 0x01, and -9 says that the sheet is not that song's: score,
 * scale, form and, in edition 2, every role must be. A sheet that is in edition 1 already is held to the same, and
 * what is written equals it. */
int64_t seqochanu_to_edition_1(const uint8_t *sheet, size_t sheet_len, uint8_t *buf, size_t len);

/* Does the same in edition 2, with the roles of the composed song; the length is at most SEQOCHANU_SHEET_MOST. By this
 * call a library that holds sheets of edition 1 gives them their roles. A sheet that was turned into the other edition
 * and back has the bytes that it had. With a buffer of no bytes, -2 says that the bytes are the sheet of their song;
 * so does the function above. */
int64_t seqochanu_to_edition_2(const uint8_t *sheet, size_t sheet_len, uint8_t *buf, size_t len);

/* Looks for a song of this style for a lesson, sets *seed to its seed and answers 0; else -1, then -10, then -11, then
 * -12. It looks among the seeds start, start + 1, .. up to start + count - 1, of which the last may be the largest seed
 * itself. The song has all three wishes:
 *
 *   key    0 to 11, the first entry of the song's scale, 0 for C and 11 for B; or SEQOCHANU_ANY_KEY
 *   tempo  1 to 255, in beats per minute; or SEQOCHANU_ANY_TEMPO
 *   voice  0 to 3, the lead voice by its number on the sheet: 0 EpVel, 1 Pluck, 2 Kalimba, 3 Vibraphone; or
 *          SEQOCHANU_ANY_VOICE
 *
 * Every tempo is a code: one that no song has is -12. Where nothing is refused before, -12 is the answer exactly if no
 * seed of the span has all three. Where several have them, which one is given is left to the program. No song is
 * composed: three draws tell whether a seed has them. */
int64_t seqochanu_lesson(uint8_t style, uint64_t start, uint64_t count, uint8_t key, uint8_t tempo, uint8_t voice,
                         uint64_t *seed);

#ifdef __cplusplus
}
#endif

#endif
