/* reread [-1] PAPER [STYLE [LENGTH [ROOM [PLACE BYTE]]]]: reads the sheet of a song back, and prints which edition it
 * is of and which fields it has.
 *
 * PAPER is the paper number, STYLE 0 or 1, and 0 where it is left out. With -1 the sheet is first turned into one of
 * edition 1. The other words spoil the sheet before it is read: LENGTH is how many of its bytes are read, at most the
 * longest sheet's, with zeros behind its own, and BYTE is put at PLACE, counted from 0. ROOM is the length of the
 * buffer for what was read, at most the longest sheet's, which it is where ROOM is left out. Ends with status 1 where
 * a call is refused. */
#include <stdio.h>
#include <string.h>

#include "seqochanu.h"

#define PROGRAM "reread"
#include "fields.h"
#include "words.h"

static void print_fields(const uint8_t *sheet, int64_t length) {
    int64_t at = 0;

    while (at < length) {
        size_t body = body_length(sheet + at);

        printf("field %02x: %u byte%s\n", sheet[at], (unsigned)body, body == 1 ? "" : "s");
        at += HEAD + (int64_t)body;
    }
}

/* Reads so many bytes of a sheet, and prints what they are. */
static void print_read(const uint8_t *sheet, size_t length, size_t room) {
    static uint8_t again[SEQOCHANU_SHEET_MOST];
    int64_t count = written("reading", seqochanu_reread(sheet, length, again, room));
    int edition = again[0] == 0x00 ? 2 : 1;
    const char *equal = memcmp(sheet, again, length) == 0 ? "equal" : "not equal";

    printf("read: %lld bytes of edition %d, %s\n", (long long)count, edition, equal);
    print_fields(again, count);
}

int main(int argc, char **argv) {
    static uint8_t song[SEQOCHANU_SHEET_MOST], old[SEQOCHANU_SHEET_MOST];
    uint8_t *sheet = song;
    int is_old = argc > 1 && strcmp(argv[1], "-1") == 0;
    uint64_t paper, place;
    uint8_t style, byte;
    size_t length, room;
    int64_t count;

    argc -= is_old;
    argv += is_old;
    if (argc < 2 || argc == 6 || argc > 7) {
        fprintf(stderr, PROGRAM ": give [-1] PAPER [STYLE [LENGTH [ROOM [PLACE BYTE]]]]\n");
        return 2;
    }
    paper = number(argc, argv, 1, UINT64_MAX, 0);
    style = (uint8_t)number(argc, argv, 2, UINT8_MAX, 0);
    length = (size_t)number(argc, argv, 3, sizeof song, 0);
    room = (size_t)number(argc, argv, 4, sizeof song, sizeof song);
    place = number(argc, argv, 5, sizeof song - 1, 0);
    byte = (uint8_t)number(argc, argv, 6, UINT8_MAX, 0);

    count = written("sheet", seqochanu_sheet(style, paper, song, sizeof song));
    if (is_old) {
        count = written("sheet of edition 1", seqochanu_to_edition_1(song, (size_t)count, old, sizeof old));
        sheet = old;
    }
    printf("sheet: %lld bytes\n", (long long)count);
    if (argc <= 3) {
        length = (size_t)count;
    }
    if (argc > 6) {
        sheet[place] = byte;
    }
    print_read(sheet, length, room);
    return 0;
}
