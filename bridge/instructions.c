/*
 * One piece of work, so many times, for a counter of instructions:
 *
 *     instructions MESSAGE WORK TIMES
 *
 * The messages (short, typical, long) and the other inputs are those of docs/PERFORMANCE.md, as oracle/src/bench.rs makes them. Buffers are used
 * again from call to call and are not cleared.
 */
#include "obolchime.h"

#include <stdio.h>
#include <stdlib.h>
#include <string.h>

#define LENGTH(array) (sizeof(array) / sizeof(array)[0])

/* The rows of the field table that the messages use: count of length digits (0 is fixed), greatest length. */
static const struct {
    uint8_t first, last, digits;
    uint16_t most;
} rows[] = {
    {2, 2, 2, 19},   {3, 3, 0, 6},    {4, 6, 0, 12},    {7, 7, 0, 10},   {8, 10, 0, 8},   {11, 12, 0, 6},
    {13, 18, 0, 4},  {19, 24, 0, 3},  {25, 26, 0, 2},   {27, 27, 0, 1},  {32, 33, 2, 11}, {34, 34, 2, 28},
    {35, 35, 2, 37}, {36, 36, 3, 104}, {37, 37, 0, 12}, {38, 38, 0, 6},  {39, 39, 0, 2},  {40, 40, 0, 3},
    {41, 41, 0, 8},  {42, 42, 0, 15}, {43, 43, 0, 40},  {44, 44, 2, 25}, {45, 45, 2, 76}, {46, 48, 3, 999},
    {49, 51, 0, 3},  {52, 52, 0, 8},  {53, 53, 0, 16},  {54, 54, 3, 120}, {55, 55, 3, 999},
};

/* The same by number; a field that no row has is of length 0. */
static struct {
    uint8_t digits, binary;
    uint16_t most;
} table[65];

static const uint8_t short_fields[] = {7, 11}, typical_fields[] = {2, 3, 4, 7, 11, 12, 13, 22, 25, 37, 41, 42};

static uint8_t message[8192], notes[OBOL_NOTES_ROOM], out[8192], link_form[8192];
static size_t message_size, notes_size, link_size;

static const uint8_t pan[] = "4111111111111111", text[] = "CARD ACCEPTOR NAME, STREET 12, CITY   DE";
static uint8_t packed[8], ebcdic[40];

_Noreturn static void fail(const char *why) {
    fprintf(stderr, "instructions: %s\n", why);
    exit(2);
}

static void lay_table(void) {
    for (size_t i = 0; i < LENGTH(rows); i++) {
        for (int f = rows[i].first; f <= rows[i].last; f++) {
            table[f].digits = rows[i].digits;
            table[f].most = rows[i].most;
        }
    }
    table[52].binary = 1;
    table[55].binary = 1;
}

static void add_field(int number, int size) {
    message[4 + (number - 1) / 8] |= (uint8_t)(0x80 >> (number - 1) % 8);
    if (table[number].digits != 0) {
        message_size += (size_t)sprintf((char *)message + message_size, "%0*d", table[number].digits, size);
    }
    /* field 55 holds text, since it is no binary field in the Rust crate */
    memset(message + message_size, number == 52 ? 0xA5 : '1', (size_t)size);
    message_size += (size_t)size;
}

/* The fields given, whole, and a PAN of 16 digits. */
static void add_fields(const uint8_t *numbers, size_t count) {
    for (size_t i = 0; i < count; i++) {
        add_field(numbers[i], numbers[i] == 2 ? 16 : table[numbers[i]].most);
    }
}

/* Every field of the table, of its greatest length. */
static void add_all_fields(void) {
    for (int f = 2; f <= 64; f++) {
        if (table[f].most != 0) {
            add_field(f, table[f].most);
        }
    }
}

static void make_message(const char *name) {
    message_size = 12;
    if (strcmp(name, "short") == 0) {
        memcpy(message, "0800", 4);
        add_fields(short_fields, LENGTH(short_fields));
    } else if (strcmp(name, "typical") == 0) {
        memcpy(message, "0200", 4);
        add_fields(typical_fields, LENGTH(typical_fields));
    } else if (strcmp(name, "long") == 0) {
        memcpy(message, "0200", 4);
        add_all_fields();
    } else {
        fail("the message is short, typical or long");
    }
}

static void make_notes(void) {
    struct obol_reading reading = obol_read(message, message_size, notes, sizeof notes);
    if (reading.number != 0 || reading.used != message_size) {
        fail("the message is refused");
    }
    notes_size = 6;
    while (notes[notes_size] == 2) {
        notes_size += 8;
    }
    notes_size += 5;
    struct obol_translated carried = obol_pack(message, message_size, link_form, sizeof link_form);
    if (carried.number != 0 || carried.used != message_size) {
        fail("the message cannot be packed");
    }
    link_size = carried.written;
}

static uint8_t *put(uint64_t number, int size, uint8_t *to) {
    for (int i = size - 1; i >= 0; i--) {
        *to++ = (uint8_t)(number >> 8 * i);
    }
    return to;
}

static int are_between(const uint8_t *bytes, size_t size, uint8_t low, uint8_t high) {
    for (size_t i = 0; i < size; i++) {
        if (bytes[i] < low || high < bytes[i]) {
            return 0;
        }
    }
    return 1;
}

static size_t number_in(const uint8_t *bytes, size_t size) {
    size_t number = 0;
    for (size_t i = 0; i < size; i++) {
        number = number * 10 + (size_t)(bytes[i] - '0');
    }
    return number;
}

/*
 * A reader as one would write it in C for speed alone, to measure obol_read by. It knows one bitmap, takes one pass, and writes the same notes
 * of a good message; of another it answers 0, says nothing of the place and leaves the notes spoilt.
 */
__attribute__((noinline)) static size_t read_bare(const uint8_t *bytes, size_t size, uint8_t *note) {
    if (size < 12 || !are_between(bytes, 4, '0', '9')) {
        return 0;
    }
    uint64_t bits = 0;
    for (int i = 4; i < 12; i++) {
        bits = bits << 8 | bytes[i];
    }
    note = put(1, 1, note);
    memcpy(note, bytes, 4);
    note = put(1, 1, note + 4);
    size_t at = 12;
    while (bits != 0) {
        int f = __builtin_clzll(bits) + 1;
        bits &= ~(UINT64_C(1) << (64 - f));
        size_t digits = table[f].digits, length = table[f].most;
        if (digits != 0) {
            if (size - at < digits || !are_between(bytes + at, digits, '0', '9') || length < number_in(bytes + at, digits)) {
                return 0;
            }
            length = number_in(bytes + at, digits);
            at += digits;
        }
        if (size - at < length || (!table[f].binary && !are_between(bytes + at, length, 0, 127))) {
            return 0;
        }
        note = put(length, 2, put(at, 4, put((uint64_t)f, 1, put(2, 1, note))));
        at += length;
    }
    put(at, 4, put(4, 1, note));
    return at;
}

/* Each answers the number of a refusal: 0. */
static uint64_t work_read(void) { return obol_read(message, message_size, notes, sizeof notes).number; }
static uint64_t work_bare(void) { return read_bare(message, message_size, notes) != message_size; }
static uint64_t work_exact(void) { return obol_write_exact(message, message_size, notes, notes_size, out, message_size).number; }
static uint64_t work_clean(void) { return obol_write_clean(message, message_size, notes, notes_size, out, message_size).number; }
static uint64_t work_pack(void) { return obol_pack(message, message_size, link_form, sizeof link_form).number; }
static uint64_t work_unpack(void) { return obol_unpack(link_form, link_size, out, message_size).number; }
static uint64_t work_lookup(void) { return obol_look_up(message, message_size, notes, notes_size, 41).number; }
static uint64_t work_required(void) { return obol_check_required(message, message_size, notes, notes_size).number; }
static uint64_t work_bcd_encode(void) { return obol_bcd_encode(pan, 16, out, 64).number; }
static uint64_t work_bcd_decode(void) { return obol_bcd_decode(packed, 8, 16, out, 64).number; }
static uint64_t work_ebcdic_encode(void) { return obol_ebcdic_encode(text, 40, out, 64).number; }
static uint64_t work_ebcdic_decode(void) { return obol_ebcdic_decode(ebcdic, 40, out, 64).number; }
static uint64_t work_pan(void) { return obol_check_pan(pan, 16).number; }

static const struct {
    const char *name;
    uint64_t (*call)(void);
} works[] = {
    {"read", work_read},
    {"bare", work_bare},
    {"exact", work_exact},
    {"clean", work_clean},
    {"pack", work_pack},
    {"unpack", work_unpack},
    {"lookup", work_lookup},
    {"required", work_required},
    {"bcd-encode", work_bcd_encode},
    {"bcd-decode", work_bcd_decode},
    {"ebcdic-encode", work_ebcdic_encode},
    {"ebcdic-decode", work_ebcdic_decode},
    {"pan", work_pan},
};

/* Stops unless the bare reader does the work that it is there to be measured by. */
static void hold_bare_reader(void) {
    static uint8_t bare[OBOL_NOTES_ROOM];
    if (read_bare(message, message_size, bare) != message_size || memcmp(bare, notes, notes_size) != 0) {
        fail("the bare reader writes other notes");
    }
}

int main(int words, char **word) {
    if (words != 4) {
        fail("usage: instructions MESSAGE WORK TIMES");
    }
    lay_table();
    make_message(word[1]);
    make_notes();
    hold_bare_reader();
    obol_bcd_encode(pan, 16, packed, sizeof packed);
    obol_ebcdic_encode(text, 40, ebcdic, sizeof ebcdic);
    for (size_t i = 0; i < LENGTH(works); i++) {
        if (strcmp(works[i].name, word[2]) == 0) {
            for (long times = atol(word[3]); times > 0; times--) {
                if (works[i].call() != 0) {
                    fail("the work is refused");
                }
            }
            return 0;
        }
    }
    fail("there is no such work");
}
