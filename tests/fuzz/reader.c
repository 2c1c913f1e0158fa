/* A reader in place of the library's, for `wrong`: the judge once more, under other names and with nothing that guides
 * the fuzzer, and the copy into the buffer. As it stands it makes no mistake; `wrong` edits one into a copy of this
 * file and of judge.c. By --wrap, the linker has the fuzzer call it in place of seqochanu_reread. */
#define edition_of reader_edition
#define first_field reader_first
#define shape_of reader_shape
#define judged reader_refusal
#define places_seen reader_places
#define COUNTED
#include "judge.c"

int64_t __wrap_seqochanu_reread(const uint8_t *sheet, size_t sheet_len, uint8_t *buf, size_t len) {
    int refusal = judged(sheet, sheet_len);
    size_t i;

    if (refusal != 0) {
        return -refusal;
    }
    if (len < sheet_len) {
        return -2;
    }
    for (i = 0; i < sheet_len; i++) {
        buf[i] = sheet[i];
    }
    return (int64_t)sheet_len;
}
