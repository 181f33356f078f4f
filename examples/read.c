/* Reads a message, prints its fields, writes it back, and shows a refusal. */
#include "obolchime.h"

#include <inttypes.h>
#include <stdio.h>
#include <string.h>

static void print_refusal(uint64_t number, uint64_t field, uint64_t position) {
    printf("refused %" PRIu64 " field %" PRIu64 " at %" PRIu64 "\n", number, field, position);
}

int main(void) {
    /* MTI 0200, one bitmap with bits 2, 3 and 4, a PAN of 16 digits, a processing code, an amount. */
    static const uint8_t message[] = "0200\x70\0\0\0\0\0\0\0" "164111111111111111" "000000" "000000012345";
    size_t size = sizeof message - 1;

    uint8_t notes[OBOL_NOTES_ROOM];
    struct obol_reading reading = obol_read(message, size, notes, sizeof notes);
    if (reading.number != 0) {
        print_refusal(reading.number, reading.field, reading.position);
        return 1;
    }
    printf("used %" PRIu64 " bytes, %" PRIu64 " bitmap\n", reading.used, reading.bitmaps);

    for (size_t number = 2; number <= 64 * reading.bitmaps; number++) {
        struct obol_found found = obol_look_up(message, size, notes, sizeof notes, number);
        if (found.number == 0) {
            printf("field %zu: %.*s\n", number, (int)found.length, (const char *)message + found.offset);
        }
    }

    uint8_t out[64];
    struct obol_written written = obol_write_exact(message, size, notes, sizeof notes, out, sizeof out);
    printf("wrote %" PRIu64 " bytes, %s\n", written.length, memcmp(out, message, size) == 0 ? "the same" : "others");

    reading = obol_read(message, 20, notes, sizeof notes);
    print_refusal(reading.number, reading.field, reading.position);
    return 0;
}
