/* example PAPER [STYLE [BAR [ROOM]]]: prints the length of a song's sheet, the page of one of its bars in hex, and why
 * each lead note on that page is what it is.
 *
 * PAPER is the paper number, STYLE 0 or 1, BAR the song bar, each 0 where it is left out. ROOM is the length of the
 * page's buffer, at most and else the longest page's. Ends with status 1 where a call is refused. */
#include <stdio.h>

#include "seqochanu.h"

#define PROGRAM "example"
#include "fields.h"
#include "words.h"

static void print_bytes(const uint8_t *bytes, int64_t count) {
    int64_t i;

    for (i = 0; i < count; i++) {
        printf("%02x%c", bytes[i], i % 16 == 15 || i == count - 1 ? '\n' : ' ');
    }
}

/* Prints the roles of a page's lead notes; their field is on every page. */
static void print_roles(const uint8_t *page) {
    static const char *const roles[] = {"quote", "close", "peak", "resolve", "chord tone", "passing"};
    const uint8_t *field = page, *note, *end;

    while (field[0] != LEAD) {
        field += HEAD + body_length(field);
    }
    end = field + HEAD + body_length(field);
    for (note = field + HEAD; note < end; note += NOTE) {
        printf("lead note %u: %s\n", note[NOTE_MIDI], roles[note[NOTE_ROLE]]);
    }
}

int main(int argc, char **argv) {
    static uint8_t sheet[SEQOCHANU_SHEET_MOST];
    static uint8_t page[SEQOCHANU_PAGE_MOST];
    uint64_t paper, bar;
    uint8_t style;
    size_t room;
    int64_t count;

    if (argc < 2 || argc > 5) {
        fprintf(stderr, PROGRAM ": give PAPER [STYLE [BAR [ROOM]]]\n");
        return 2;
    }
    paper = number(argc, argv, 1, UINT64_MAX, 0);
    style = (uint8_t)number(argc, argv, 2, UINT8_MAX, 0);
    bar = number(argc, argv, 3, UINT64_MAX, 0);
    room = (size_t)number(argc, argv, 4, sizeof page, sizeof page);

    count = written("sheet", seqochanu_sheet(style, paper, sheet, sizeof sheet));
    printf("sheet: %lld bytes\n", (long long)count);
    count = written("page", seqochanu_bar_page(style, paper, bar, page, room));
    printf("page: %lld bytes\n", (long long)count);
    print_bytes(page, count);
    print_roles(page);
    return 0;
}
