/* starts FOLDER: writes the inputs that the fuzzer starts from, each into a file of its own: sheets of songs, and in
 * both editions the shortest and the longest sheet, which are no song's, and the beginnings of the shortest. */
#include <stdio.h>
#include <stdlib.h>
#include <string.h>

#include "judge.h"
#include "seqochanu.h"

static const char *folder;

static void keep(const char *name, unsigned number, const uint8_t *bytes, size_t length) {
    char path[4096];
    FILE *file;

    snprintf(path, sizeof path, "%s/%s-%u", folder, name, number);
    file = fopen(path, "wb");
    if (file == NULL || fwrite(bytes, 1, length, file) != length || fclose(file) != 0) {
        perror(path);
        exit(1);
    }
}

static int is_backing(int edition, size_t field) {
    return edition == 2 && (field == KEYS || field == BASS);
}

/* The longest sheet of an edition, or else the shortest: zeros, but for the heads, what names the edition, the form,
 * and the roles that may not be zero. Answers its length. */
static size_t laid(int edition, int longest, uint8_t *sheet) {
    static const uint8_t forms[][6] = {{0, 0, 4, 0, 0, 0}, {1, 8, 6, 1, 8, 0}};
    size_t at = 0, k, i;

    for (k = first_field(edition); k < FIELDS; k++) {
        const struct shape s = shape_of(edition, k);
        const size_t entries = longest ? s.most : s.least, length = s.width * entries;
        uint8_t *body = sheet + at + 3;

        sheet[at] = (uint8_t)k;
        sheet[at + 1] = (uint8_t)(length >> 8);
        sheet[at + 2] = (uint8_t)length;
        memset(body, 0, length);
        if (k == EDITION) {
            body[0] = NAME;
        }
        if (k == FORM) {
            memcpy(body, forms[longest], length);
        }
        for (i = 0; is_backing(edition, k) && i < entries; i++) {
            body[s.width * i + ROLE_AT] = BACKING;
        }
        at += 3 + length;
    }
    return at;
}

static void keep_songs(uint8_t *sheet) {
    unsigned i;

    for (i = 0; i < 16; i++) {
        int64_t count = seqochanu_sheet(i % 2, i / 2, sheet, SEQOCHANU_SHEET_MOST);

        if (count < 0) {
            fprintf(stderr, "starts: no sheet: %lld\n", (long long)count);
            exit(1);
        }
        keep("song", i, sheet, (size_t)count);
    }
}

int main(int argc, char **argv) {
    static uint8_t sheet[SEQOCHANU_SHEET_MOST];
    unsigned edition, i;
    size_t length;

    if (argc != 2) {
        fprintf(stderr, "starts: give FOLDER\n");
        return 2;
    }
    folder = argv[1];
    keep_songs(sheet);
    for (edition = 1; edition <= 2; edition++) {
        keep("longest", edition, sheet, laid((int)edition, 1, sheet));
        length = laid((int)edition, 0, sheet);
        keep("shortest", edition, sheet, length);
        for (i = 0; i < length; i += 13) {
            keep(edition == 1 ? "begun-1" : "begun-2", i, sheet, i);
        }
    }
    return 0;
}
