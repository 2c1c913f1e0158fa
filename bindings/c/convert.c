/* convert EDITION FROM TO: turns a song's sheet in the file FROM into EDITION, 1 or 2, and writes it to the file TO. A
 * sheet that is in that edition already is held to its song in the same way, and copied.
 *
 * A file that is there as TO is replaced, and FROM and TO may be the same. TO has the whole sheet or is as it was: the
 * sheet is written to a file of another name in TO's folder, which gets the name TO when it is whole. A folder, a
 * device or a link is not replaced.
 *
 * Ends with status 1 where the sheet is refused, with 2 for other words, and with 3 where a file can't be read or
 * written. Then nothing is written. */
#define _POSIX_C_SOURCE 200809L
#include <string.h>
#include <sys/stat.h>
#include <unistd.h>

#include "seqochanu.h"

#define PROGRAM "convert"
#include "words.h"

/* Says what can't be done with a file, and why, and ends. */
static void fail(const char *what, const char *name, const char *why) {
    fprintf(stderr, PROGRAM ": can't %s %s: %s\n", what, name, why);
    exit(3);
}

/* Reads a file's first bytes, at most so many; answers how many there are. */
static size_t read_file(const char *name, uint8_t *bytes, size_t most) {
    FILE *file = fopen(name, "rb");
    size_t count;

    if (file == NULL) {
        fail("read", name, strerror(errno));
    }
    count = fread(bytes, 1, most, file);
    if (ferror(file)) {
        fail("read", name, strerror(errno));
    }
    fclose(file);
    return count;
}

/* The name of a file of this run's own in the folder of another. */
static char *part_beside(const char *name) {
    const char *slash = strrchr(name, '/');
    int folder = slash == NULL ? 0 : (int)(slash - name) + 1;
    size_t room = (size_t)folder + sizeof ".convert." + 20; /* 20 digits are enough for a process's number */
    char *part = malloc(room);

    if (part == NULL) {
        fail("write", name, strerror(errno));
    }
    snprintf(part, room, "%.*s.convert.%lld", folder, name, (long long)getpid());
    return part;
}

/* Writes these bytes to a file, and answers whether they are all there. */
static int put_file(const char *name, const uint8_t *bytes, size_t count) {
    FILE *file = fopen(name, "wb");
    size_t put;

    if (file == NULL) {
        return 0;
    }
    put = fwrite(bytes, 1, count, file);
    /* bytes that find no room on the disk may show only when the file is closed */
    return fclose(file) == 0 && put == count;
}

/* Writes these bytes to the file of this name, all of them or none. */
static void write_file(const char *name, const uint8_t *bytes, size_t count) {
    char *part = part_beside(name);
    struct stat there;

    /* a name is given without a look at what had it before, be that a device */
    if (lstat(name, &there) == 0 && !S_ISREG(there.st_mode)) {
        fail("write", name, "it is there and is no regular file");
    }
    if (!put_file(part, bytes, count) || rename(part, name) != 0) {
        int why = errno;

        remove(part);
        fail("write", name, strerror(why));
    }
    free(part);
}

int main(int argc, char **argv) {
    /* one byte more than the longest sheet: what fills it is none (7), so how a longer file goes on does not matter */
    static uint8_t sheet[SEQOCHANU_SHEET_MOST + 1];
    static uint8_t turned[SEQOCHANU_SHEET_MOST];
    uint64_t edition = argc == 4 ? number(argc, argv, 1, 2, 0) : 0;
    size_t length;
    int64_t count;

    if (edition == 0) {
        fprintf(stderr, PROGRAM ": give EDITION FROM TO, with 1 or 2 for EDITION\n");
        return 2;
    }
    length = read_file(argv[2], sheet, sizeof sheet);
    if (edition == 1) {
        count = written("sheet of edition 1", seqochanu_to_edition_1(sheet, length, turned, sizeof turned));
    } else {
        count = written("sheet of edition 2", seqochanu_to_edition_2(sheet, length, turned, sizeof turned));
    }
    write_file(argv[3], turned, (size_t)count);
    return 0;
}
