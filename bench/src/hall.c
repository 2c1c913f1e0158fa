/* The list of a hall as plain C has it, to be timed beside ours: SplitMix64's draws from the hall's number on, each
 * stored byte by byte, the highest first. Nothing is checked. */
#include <stddef.h>
#include <stdint.h>

static uint64_t mixed(uint64_t z) {
    z = (z ^ (z >> 30)) * UINT64_C(0xbf58476d1ce4e5b9);
    z = (z ^ (z >> 27)) * UINT64_C(0x94d049bb133111eb);
    return z ^ (z >> 31);
}

/* Writes so many seeds from buf[0] on and answers their length in bytes. */
size_t plain_hall_list(uint64_t hall, size_t count, uint8_t *buf) {
    size_t i, k;

    for (i = 0; i < count; i++) {
        uint64_t seed = mixed(hall + (i + 1) * UINT64_C(0x9e3779b97f4a7c15));

        for (k = 0; k < 8; k++) {
            buf[8 * i + k] = (uint8_t)(seed >> (56 - 8 * k));
        }
    }
    return 8 * count;
}
