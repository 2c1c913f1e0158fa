/* lesson STYLE KEY TEMPO VOICE START COUNT: prints a paper number for a lesson: one of the COUNT seeds from START on
 * whose song has the key, the tempo and the lead voice.
 *
 * STYLE is 0 or 1, KEY 0 to 11, TEMPO 1 to 255, VOICE 0 to 3. KEY, TEMPO and VOICE may each be the word any; what that
 * is to the call, 12, 0 and 255, is passed on as well, as is any other number up to 255. Ends with status 1 where the
 * call is refused, and with 2 for other words. */
#include <stdio.h>
#include <string.h>

#include "seqochanu.h"

#define PROGRAM "lesson"
#include "words.h"

/* The wish in argv[i]: a number, or this code where it is the word any. */
static uint8_t wish(int argc, char **argv, int i, uint8_t any) {
    return strcmp(argv[i], "any") == 0 ? any : (uint8_t)number(argc, argv, i, UINT8_MAX, any);
}

int main(int argc, char **argv) {
    uint8_t style, key, tempo, voice;
    uint64_t start, count, seed = 0;

    if (argc != 7) {
        fprintf(stderr, PROGRAM ": give STYLE KEY TEMPO VOICE START COUNT\n");
        return 2;
    }
    style = (uint8_t)number(argc, argv, 1, UINT8_MAX, 0);
    key = wish(argc, argv, 2, SEQOCHANU_ANY_KEY);
    tempo = wish(argc, argv, 3, SEQOCHANU_ANY_TEMPO);
    voice = wish(argc, argv, 4, SEQOCHANU_ANY_VOICE);
    start = number(argc, argv, 5, UINT64_MAX, 0);
    count = number(argc, argv, 6, UINT64_MAX, 0);

    written("seed", seqochanu_lesson(style, start, count, key, tempo, voice, &seed));
    printf("%llu\n", (unsigned long long)seed);
    return 0;
}
