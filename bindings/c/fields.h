/* How a sheet or a page of edition 2 is walked through: each field is a tag, a length in two bytes, and a body of that
 * length. Bytes that a call wrote end where their last field does, so there is nothing to check on the way. */
#include <stddef.h>
#include <stdint.h>

/* The tag of the field that has the lead notes. */
enum { LEAD = 0x05 };

/* The bytes of a field before its body, of a note, and of a note before its MIDI number and its role. */
enum { HEAD = 3, NOTE = 15, NOTE_MIDI = 5, NOTE_ROLE = 14 };

static size_t body_length(const uint8_t *field) {
    return (size_t)field[1] << 8 | field[2];
}
