/* Gives bytes to seqochanu_reread with buffers of several lengths, and stops where an answer or a byte is not what
 * document 02 says. Behind the sheet and behind the buffer a page follows that can be neither read nor written, so
 * that a touch there stops too. */
#define _DEFAULT_SOURCE
#include <stdio.h>
#include <stdlib.h>
#include <string.h>
#include <sys/mman.h>

#include "judge.h"
#include "seqochanu.h"

int LLVMFuzzerInitialize(int *argc, char ***argv);
int LLVMFuzzerTestOneInput(const uint8_t *data, size_t size);

#define PAGE 4096
#define INPUT_MOST (2 * PAGE)
#define ROOM_MOST (3 * PAGE)
#define GUARDS 16

/* Where sheets and buffers end. */
static uint8_t *sheet_end, *room_end;

/* How many inputs were judged so, by the refusal's number, and by 0 where they were read. */
static unsigned long counts[9];

static uint8_t *end_of_area(size_t length) {
    uint8_t *area = mmap(NULL, length + PAGE, PROT_READ | PROT_WRITE, MAP_PRIVATE | MAP_ANONYMOUS, -1, 0);

    if (area == MAP_FAILED || mprotect(area + length, PAGE, PROT_NONE) != 0) {
        perror("reread");
        exit(2);
    }
    return area + length;
}

static void report(void) {
    fprintf(stderr, "reread: %lu inputs: %lu read, %lu refused with 7, %lu with 8; a first fault in %u of %u places\n",
            counts[0] + counts[7] + counts[8], counts[0], counts[7], counts[8], places_seen(), PLACES);
}

int LLVMFuzzerInitialize(int *argc, char ***argv) {
    (void)argc;
    (void)argv;
    sheet_end = end_of_area(INPUT_MOST);
    room_end = end_of_area(ROOM_MOST);
    atexit(report);
    return 0;
}

static void stop(const char *why, size_t room, int64_t answer) {
    fprintf(stderr, "reread: %s, with a buffer of %zu bytes and the answer %lld\n", why, room, (long long)answer);
    abort();
}

/* What stands in the buffer before a call: nothing that may be written there. */
static uint8_t mark(const uint8_t *sheet, size_t size, size_t i) {
    return i < size ? (uint8_t)~sheet[i] : (uint8_t)(0xa5 ^ i);
}

/* One call; `refusal` is the judge's. */
static void ask(const uint8_t *sheet, size_t size, size_t room, int refusal) {
    int64_t wanted = refusal != 0 ? -refusal : room < size ? -2 : (int64_t)size;
    uint8_t *buf = room_end - room, *before = buf - GUARDS;
    size_t i, written = wanted < 0 ? 0 : size;
    int64_t answer;

    memset(before, 0x5a, GUARDS);
    for (i = 0; i < room; i++) {
        buf[i] = mark(sheet, size, i);
    }
    answer = seqochanu_reread(sheet, size, buf, room);
    if (answer != wanted) {
        stop("another answer than the judge's", room, answer);
    }
    if (memcmp(buf, sheet, written) != 0) {
        stop("other bytes than were read", room, answer);
    }
    for (i = written; i < room; i++) {
        if (buf[i] != mark(sheet, size, i)) {
            stop("a byte beyond is changed", room, answer);
        }
    }
    for (i = 0; i < GUARDS; i++) {
        if (before[i] != 0x5a) {
            stop("a byte before the buffer is changed", room, answer);
        }
    }
}

int LLVMFuzzerTestOneInput(const uint8_t *data, size_t size) {
    uint8_t *sheet;
    int refusal;

    if (size > INPUT_MOST) {
        return 0;
    }
    sheet = sheet_end - size;
    memcpy(sheet, data, size);
    refusal = judged(data, size);
    counts[refusal]++;

    ask(sheet, size, 0, refusal);
    ask(sheet, size, size / 2, refusal);
    ask(sheet, size, size == 0 ? 0 : size - 1, refusal);
    ask(sheet, size, size, refusal);
    ask(sheet, size, size + 1 + size % GUARDS, refusal);
    if (memcmp(sheet, data, size) != 0) {
        stop("the sheet is changed", size, 0);
    }
    return 0;
}
