/* What the programs here share: numbers from the words they are given, and words for what is refused. A program
 * defines PROGRAM, its own name, before it includes this; what it says on standard error starts with it. */
#include <errno.h>
#include <stdint.h>
#include <stdio.h>
#include <stdlib.h>

static const char *refusal(int64_t answer) {
    switch (answer) {
    case -1: return "no such style";
    case -2: return "the buffer is too short";
    case -3: return "the song has no such bar";
    case -6: return "the count is outside 1 to 4,096";
    case -7: return "a field is missing, cut off, misplaced or trailing, or has a length or edition that no sheet has";
    case -8: return "a value is out of range, or the field 0x0A has another length than the song";
    case -9: return "the sheet is not, byte for byte, the one that its style and seed give in its edition";
    case -10: return "the count is outside 1 to 65,536, or the span goes past the largest seed";
    case -11: return "a wish is outside its codes";
    case -12: return "none of the span has all that is wished for";
    default: return "an answer that the header does not have";
    }
}

/* The whole number in argv[i] if it is at most `most`; `otherwise` where there is no such word. */
static uint64_t number(int argc, char **argv, int i, uint64_t most, uint64_t otherwise) {
    char *end;
    unsigned long long n;

    if (i >= argc) {
        return otherwise;
    }
    errno = 0;
    n = strtoull(argv[i], &end, 10);
    if (argv[i][0] < '0' || argv[i][0] > '9' || *end != '\0' || errno != 0 || n > most) {
        fprintf(stderr, PROGRAM ": %s is no whole number up to %llu\n", argv[i], (unsigned long long)most);
        exit(2);
    }
    return n;
}

/* The answer of a call that was not refused; else says why it was, and ends. */
static int64_t written(const char *what, int64_t answer) {
    if (answer < 0) {
        fflush(stdout); /* what was printed before comes first */
        fprintf(stderr, PROGRAM ": no %s: %s\n", what, refusal(answer));
        exit(1);
    }
    return answer;
}
