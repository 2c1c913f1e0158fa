/* list HALL COUNT [ROOM]: prints the paper numbers of a hall's list, one on each line.
 *
 * HALL is the hall number, COUNT how many papers it has. ROOM is the length of the list's buffer, at most and else the
 * longest list's. Ends with status 1 where the call is refused. */
#include <stdio.h>

#include "seqochanu.h"

#define PROGRAM "list"
#include "words.h"

/* The number in 8 bytes, the highest first. */
static uint64_t seed_at(const uint8_t *bytes) {
    uint64_t seed = 0;
    int i;

    for (i = 0; i < 8; i++) {
        seed = seed << 8 | bytes[i];
    }
    return seed;
}

int main(int argc, char **argv) {
    static uint8_t list[SEQOCHANU_LIST_MOST];
    uint64_t hall, count;
    size_t room;
    int64_t length, i;

    if (argc < 3 || argc > 4) {
        fprintf(stderr, PROGRAM ": give HALL COUNT [ROOM]\n");
        return 2;
    }
    hall = number(argc, argv, 1, UINT64_MAX, 0);
    count = number(argc, argv, 2, UINT64_MAX, 0);
    room = (size_t)number(argc, argv, 3, sizeof list, sizeof list);

    length = written("list", seqochanu_hall_list(hall, count, list, room));
    for (i = 0; i < length; i += 8) {
        printf("%llu\n", (unsigned long long)seed_at(list + i));
    }
    return 0;
}
