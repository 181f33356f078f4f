/*
 * The static library, called from C with buffers that end where a page that cannot be touched begins: a read or a write beyond a
 * buffer stops the program. The answers are held to what the rules say, and what was lent to what it should hold afterwards.
 */
#define _DEFAULT_SOURCE
#include "obolchime.h"

#include <inttypes.h>
#include <stdio.h>
#include <stdlib.h>
#include <string.h>
#include <sys/mman.h>
#include <unistd.h>

static int passed, failed;

static void expect(int held, const char *what, int line) {
    if (held) {
        passed++;
    } else {
        failed++;
        printf("line %d: %s\n", line, what);
    }
}

#define EXPECT(fact) expect((fact), #fact, __LINE__)
#define REFUSED(answer, n, f, p) ((answer).number == (n) && (answer).field == (f) && (answer).position == (p))
#define ACCEPTED(answer) REFUSED(answer, 0, 0, 0)

/* size bytes, all 0xA5, the last of them before a page that cannot be touched. They are never given back. */
static uint8_t *guarded(size_t size) {
    size_t page = (size_t)sysconf(_SC_PAGESIZE);
    size_t pages = size / page + 1;
    uint8_t *start = mmap(NULL, (pages + 1) * page, PROT_READ | PROT_WRITE, MAP_PRIVATE | MAP_ANONYMOUS, -1, 0);
    if (start == MAP_FAILED || mprotect(start + pages * page, page, PROT_NONE) != 0) {
        perror("guarded");
        exit(2);
    }
    return memset(start + pages * page - size, 0xA5, size);
}

static uint8_t *guarded_copy(const void *bytes, size_t size) {
    return memcpy(guarded(size), bytes, size);
}

static int untouched(const uint8_t *bytes, size_t size) {
    for (size_t i = 0; i < size; i++) {
        if (bytes[i] != 0xA5) {
            return 0;
        }
    }
    return 1;
}

static void reading(void) {
    static const uint8_t small_notes[] = {1, '0', '8', '0', '0', 1, 2, 3, 0, 0, 0, 12, 0, 6, 4, 0, 0, 0, 18};
    uint8_t *message = guarded_copy("0800\x20\0\0\0\0\0\0\0" "000000", 18);
    uint8_t *notes = guarded(OBOL_NOTES_ROOM);

    struct obol_reading r = obol_read(message, 18, notes, OBOL_NOTES_ROOM - 1);
    EXPECT(REFUSED(r, OBOL_NOTES_TOO_SHORT, 0, 0) && r.used == 0 && r.bitmaps == 0);
    for (size_t size = 0; size < 18; size++) {
        uint8_t *cut = guarded_copy(message, size);
        r = obol_read(cut, size, notes, OBOL_NOTES_ROOM);
        EXPECT(size < 12 ? REFUSED(r, OBOL_MESSAGE_TOO_SHORT, 0, 0) : REFUSED(r, OBOL_PAST_THE_END, 3, 12));
        EXPECT(r.used == 0 && r.bitmaps == 0);
    }
    EXPECT(untouched(notes, OBOL_NOTES_ROOM));

    r = obol_read(message, 18, notes, OBOL_NOTES_ROOM);
    EXPECT(ACCEPTED(r) && r.used == 18 && r.bitmaps == 1);
    EXPECT(memcmp(notes, small_notes, sizeof small_notes) == 0);
    EXPECT(untouched(notes + sizeof small_notes, OBOL_NOTES_ROOM - sizeof small_notes));

    /* the bytes that were read come back; one byte less is no room */
    uint8_t *out = guarded(18);
    struct obol_written w = obol_write_exact(message, 18, notes, sizeof small_notes, out, 17);
    EXPECT(REFUSED(w, OBOL_OUTPUT_TOO_SHORT, 0, 14) && w.length == 0 && untouched(out, 18));
    w = obol_write_exact(message, 18, notes, sizeof small_notes, out, 18);
    EXPECT(ACCEPTED(w) && w.length == 18 && memcmp(out, message, 18) == 0);

    struct obol_found f = obol_look_up(message, 18, notes, OBOL_NOTES_ROOM, 3);
    EXPECT(ACCEPTED(f) && f.offset == 12 && f.length == 6);
    f = obol_look_up(message, 18, notes, OBOL_NOTES_ROOM, 321);
    EXPECT(REFUSED(f, OBOL_FIELD_ABSENT, 321, 14) && f.offset == 0 && f.length == 0);
}

/* A message with every field, of the greatest length that each may have: its notes fill their room to the byte. */
static void the_largest(void) {
    static const struct {
        int first, last, digits, size;
    } rows[] = {
        {2, 2, 2, 19},     {3, 3, 0, 6},      {4, 6, 0, 12},     {7, 7, 0, 10},    {8, 10, 0, 8},     {11, 12, 0, 6},
        {13, 18, 0, 4},    {19, 24, 0, 3},    {25, 26, 0, 2},    {27, 27, 0, 1},   {28, 31, 0, 9},    {32, 33, 2, 11},
        {34, 34, 2, 28},   {35, 35, 2, 37},   {36, 36, 3, 104},  {37, 37, 0, 12},  {38, 38, 0, 6},    {39, 39, 0, 2},
        {40, 40, 0, 3},    {41, 41, 0, 8},    {42, 42, 0, 15},   {43, 43, 0, 40},  {44, 44, 2, 25},   {45, 45, 2, 76},
        {46, 48, 3, 999},  {49, 51, 0, 3},    {52, 52, 0, 8},    {53, 53, 0, 16},  {54, 54, 3, 120},  {55, 63, 3, 999},
        {64, 64, 0, 8},    {66, 66, 0, 1},    {67, 67, 0, 2},    {68, 70, 0, 3},   {71, 72, 0, 4},    {73, 73, 0, 6},
        {74, 81, 0, 10},   {82, 85, 0, 12},   {86, 89, 0, 16},   {90, 90, 0, 42},  {91, 91, 0, 1},    {92, 92, 0, 2},
        {93, 93, 0, 5},    {94, 94, 0, 7},    {95, 95, 0, 42},   {96, 96, 0, 8},   {97, 97, 0, 17},   {98, 98, 0, 25},
        {99, 100, 2, 11},  {101, 101, 2, 17}, {102, 103, 2, 28}, {104, 104, 3, 100}, {105, 127, 3, 999}, {128, 128, 0, 8},
        {129, 191, 3, 999}, {192, 192, 0, 8},
    };
    static uint8_t bytes[120000];
    size_t size = 28;
    int fields = 0;
    memcpy(bytes, "0200", 4);
    memset(bytes + 4, 0xFF, 24);
    for (size_t i = 0; i < sizeof rows / sizeof rows[0]; i++) {
        for (int f = rows[i].first; f <= rows[i].last; f++) {
            if (rows[i].digits != 0) {
                size += (size_t)sprintf((char *)bytes + size, "%0*d", rows[i].digits, rows[i].size);
            }
            memset(bytes + size, '1', (size_t)rows[i].size);
            size += (size_t)rows[i].size;
            fields++;
        }
    }
    EXPECT(fields == 190);
    uint8_t *message = guarded_copy(bytes, size);
    uint8_t *notes = guarded(OBOL_NOTES_ROOM);
    uint8_t *out = guarded(size);
    struct obol_reading r = obol_read(message, size, notes, OBOL_NOTES_ROOM);
    EXPECT(ACCEPTED(r) && r.used == size && r.bitmaps == 3);
    EXPECT(notes[OBOL_NOTES_ROOM - 5] == 4);
    struct obol_written w = obol_write_exact(message, size, notes, OBOL_NOTES_ROOM, out, size);
    EXPECT(ACCEPTED(w) && w.length == size && memcmp(out, message, size) == 0);
    memset(out, 0xA5, size);
    struct obol_cleaned c = obol_write_clean(message, size, notes, OBOL_NOTES_ROOM, out, size);
    EXPECT(ACCEPTED(c) && c.length == size && memcmp(out, message, size) == 0);
    EXPECT(c.padded1 == 0 && c.padded2 == 0 && c.padded3 == 0);

    /* packed and back; the packed form has the room of its own length, to the byte */
    struct obol_translated there = obol_pack(message, size, out, size);
    EXPECT(ACCEPTED(there) && there.used == size && there.written < size);
    uint8_t *packed = guarded(there.written);
    EXPECT(REFUSED(obol_pack(message, size, packed, there.written - 1), OBOL_OUTPUT_TOO_SHORT, 0, 0));
    EXPECT(untouched(packed, there.written));
    EXPECT(ACCEPTED(obol_pack(message, size, packed, there.written)));
    memset(out, 0xA5, size);
    struct obol_translated back = obol_unpack(packed, there.written, out, size);
    EXPECT(ACCEPTED(back) && back.used == there.written && back.written == size && memcmp(out, message, size) == 0);
}

static void cleaning(void) {
    /* 3 and 64, 66 and 128, 192: one short content at each end of the words */
    static const uint8_t notes_bytes[] = {
        1, '0', '2', '0', '0', 3, /* */
        2, 3, 0, 0, 0, 0, 0, 2,   /* */
        2, 64, 0, 0, 0, 2, 0, 1,  /* */
        2, 66, 0, 0, 0, 3, 0, 0,  /* */
        2, 128, 0, 0, 0, 3, 0, 8, /* */
        2, 192, 0, 0, 0, 3, 0, 1, /* */
        4, 0, 0, 0, 28 + 6 + 8 + 1 + 8 + 8,
    };
    static const uint8_t expected[] = "0200\xA0\0\0\0\0\0\0\x01\xC0\0\0\0\0\0\0\x01\0\0\0\0\0\0\0\x01"
                                      "000012" "X\0\0\0\0\0\0\0" "0" "Y2345678" "Y\0\0\0\0\0\0\0";
    size_t size = sizeof expected - 1;
    uint8_t *values = guarded_copy("12XY2345678", 11);
    uint8_t *notes = guarded_copy(notes_bytes, sizeof notes_bytes);
    uint8_t *out = guarded(size + 1);
    struct obol_cleaned c = obol_write_clean(values, 11, notes, sizeof notes_bytes, out, size - 1);
    EXPECT(REFUSED(c, OBOL_OUTPUT_TOO_SHORT, 0, 46) && c.length == 0);
    EXPECT(c.padded1 == 0 && c.padded2 == 0 && c.padded3 == 0 && untouched(out, size + 1));
    c = obol_write_clean(values, 11, notes, sizeof notes_bytes, out, size + 1);
    EXPECT(ACCEPTED(c) && c.length == size && memcmp(out, expected, size) == 0 && out[size] == 0xA5);
    EXPECT(c.padded1 == (UINT64_C(1) << 61 | 1) && c.padded2 == UINT64_C(1) << 62 && c.padded3 == 1);

    struct obol_written w = obol_write_exact(values, 11, notes, sizeof notes_bytes, out, size + 1);
    EXPECT(REFUSED(w, OBOL_LENGTH_NOT_ALLOWED, 3, 6) && w.length == 0);
    w = obol_write_exact(values, 10, notes, sizeof notes_bytes, out, size + 1);
    EXPECT(REFUSED(w, OBOL_LENGTH_NOT_ALLOWED, 3, 6) && memcmp(out, expected, size) == 0);
    for (size_t cut = 0; cut < sizeof notes_bytes; cut++) {
        uint8_t *some = guarded_copy(notes_bytes, cut);
        uint64_t at = cut < 6 ? 0 : 6 + (cut - 6) / 8 * 8;
        c = obol_write_clean(values, 11, some, cut, out, size + 1);
        EXPECT(REFUSED(c, OBOL_NOTE_MALFORMED, 0, at) && c.length == 0);
        struct obol_found f = obol_look_up(values, 11, some, cut, 3);
        EXPECT(REFUSED(f, OBOL_NOTE_MALFORMED, 0, at) && f.offset == 0 && f.length == 0);
    }
}

/* A byte of a message changed, and the refusal that it brings. */
struct slip {
    size_t at;
    uint8_t byte;
    uint64_t number, field, position;
};

/* A message in one form: where its bitmaps end and its fields start, and what can be wrong with it. */
struct form {
    struct obol_translated (*carry)(const uint8_t *input, size_t input_length, uint8_t *out, size_t out_length);
    const uint8_t *bytes;
    size_t size, head;
    struct {
        uint64_t number;
        size_t start;
    } fields[4];
    const struct slip *slips;
    size_t slip_count;
};

static int refused_so(struct obol_translated t, uint64_t number, uint64_t field, uint64_t position) {
    return REFUSED(t, number, field, position) && t.used == 0 && t.written == 0;
}

static void carrying(const struct form *from, const struct form *to) {
    uint8_t *input = guarded_copy(from->bytes, from->size);
    uint8_t *out = guarded(to->size + 1);
    for (size_t size = 0; size < from->size; size++) {
        uint8_t *cut = guarded_copy(input, size);
        struct obol_translated t = from->carry(cut, size, out, to->size + 1);
        if (size < from->head) {
            EXPECT(refused_so(t, OBOL_MESSAGE_TOO_SHORT, 0, 0));
        } else {
            int i = 3;
            while (i > 0 && size < from->fields[i].start) {
                i--;
            }
            EXPECT(refused_so(t, OBOL_PAST_THE_END, from->fields[i].number, from->fields[i].start));
        }
    }
    for (size_t i = 0; i < from->slip_count; i++) {
        const struct slip *slip = &from->slips[i];
        uint8_t *spoilt = guarded_copy(input, from->size);
        spoilt[slip->at] = slip->byte;
        EXPECT(refused_so(from->carry(spoilt, from->size, out, to->size + 1), slip->number, slip->field, slip->position));
        EXPECT(refused_so(from->carry(spoilt, from->size, NULL, 0), slip->number, slip->field, slip->position));
    }
    uint8_t *chained = guarded_copy(input, from->head);
    chained[from->head - 8] |= 0x80;
    EXPECT(refused_so(from->carry(chained, from->head, out, to->size + 1), OBOL_BITMAP_INCOMPLETE, 0, from->head));
    EXPECT(refused_so(from->carry(input, from->size, out, to->size - 1), OBOL_OUTPUT_TOO_SHORT, 0, 0));
    EXPECT(untouched(out, to->size + 1));

    struct obol_translated t = from->carry(input, from->size, out, to->size + 1);
    EXPECT(ACCEPTED(t) && t.used == from->size && t.written == to->size);
    EXPECT(memcmp(out, to->bytes, to->size) == 0 && out[to->size] == 0xA5);

    /* what stands behind the message is ignored */
    uint8_t *longer = guarded(from->size + 3);
    memcpy(longer, input, from->size);
    memset(out, 0xA5, to->size + 1);
    t = from->carry(longer, from->size + 3, out + 1, to->size);
    EXPECT(ACCEPTED(t) && t.used == from->size && t.written == to->size && memcmp(out + 1, to->bytes, to->size) == 0);
}

/* Fields 2, of an odd count of digits, 36, whose length has three, 41 and 52. */
static void linking(void) {
    static const uint8_t plain_bytes[] = "0200\x40\0\0\0\x10\x80\x10\0" "15" "411111111111111" "005" "12345" "TERM0001"
                                         "\xFF\xFE\xFD\xFC\xFB\xFA\xA0\x0A";
    static const uint8_t packed_bytes[] = "\x02\x00\x40\0\0\0\x10\x80\x10\0" "\x15" "\x04\x11\x11\x11\x11\x11\x11\x11"
                                          "\x00\x05" "\x01\x23\x45" "TERM0001" "\xFF\xFE\xFD\xFC\xFB\xFA\xA0\x0A";
    static const struct slip plain_slips[] = {
        {0, 'x', OBOL_MTI_NOT_DIGITS, 0, 0},      {3, '/', OBOL_MTI_NOT_DIGITS, 0, 3},      {12, '+', OBOL_LENGTH_NOT_DIGITS, 2, 12},
        {13, ':', OBOL_LENGTH_NOT_DIGITS, 2, 12}, {12, '2', OBOL_LENGTH_OVER_TABLE, 2, 12}, {14, 0xB4, OBOL_NOT_DIGITS, 2, 12},
        {28, 'x', OBOL_NOT_DIGITS, 2, 12},        {31, ' ', OBOL_LENGTH_NOT_DIGITS, 36, 29}, {29, '9', OBOL_LENGTH_OVER_TABLE, 36, 29},
        {32, '/', OBOL_NOT_DIGITS, 36, 29},       {36, ':', OBOL_NOT_DIGITS, 36, 29},       {37, 0x80, OBOL_TEXT_NOT_ASCII, 41, 37},
        {44, 0xFF, OBOL_TEXT_NOT_ASCII, 41, 37},
    };
    static const struct slip packed_slips[] = {
        {0, 0xA2, OBOL_NOT_BCD, 0, 0},    {1, 0x0A, OBOL_NOT_BCD, 0, 1},            {10, 0x1A, OBOL_NOT_BCD, 2, 10},
        {10, 0xA5, OBOL_NOT_BCD, 2, 10},  {10, 0x25, OBOL_LENGTH_OVER_TABLE, 2, 10}, {11, 0x14, OBOL_NOT_BCD, 2, 10},
        {18, 0x1F, OBOL_NOT_BCD, 2, 10},  {19, 0x10, OBOL_NOT_BCD, 36, 19},         {20, 0xA5, OBOL_NOT_BCD, 36, 19},
        {19, 0x09, OBOL_LENGTH_OVER_TABLE, 36, 19}, {21, 0x11, OBOL_NOT_BCD, 36, 19}, {23, 0x4A, OBOL_NOT_BCD, 36, 19},
        {24, 0x80, OBOL_TEXT_NOT_ASCII, 41, 24},    {31, 0xFF, OBOL_TEXT_NOT_ASCII, 41, 24},
    };
    static const struct form plain = {
        obol_pack, plain_bytes, sizeof plain_bytes - 1, 12, {{2, 12}, {36, 29}, {41, 37}, {52, 45}}, plain_slips,
        sizeof plain_slips / sizeof plain_slips[0],
    };
    static const struct form packed = {
        obol_unpack, packed_bytes, sizeof packed_bytes - 1, 10, {{2, 10}, {36, 19}, {41, 24}, {52, 32}}, packed_slips,
        sizeof packed_slips / sizeof packed_slips[0],
    };
    carrying(&plain, &packed);
    carrying(&packed, &plain);
}

static void converting(void) {
    uint8_t *out = guarded(3);
    struct obol_written w = obol_bcd_encode((const uint8_t *)"12345", 5, out, 2);
    EXPECT(REFUSED(w, OBOL_OUTPUT_TOO_SHORT, 0, 0) && w.length == 0 && untouched(out, 3));
    w = obol_bcd_encode((const uint8_t *)"123", 3, out, 3);
    EXPECT(ACCEPTED(w) && w.length == 2 && memcmp(out, "\x01\x23\xA5", 3) == 0);
    w = obol_bcd_encode((const uint8_t *)"12a", 3, out, 3);
    EXPECT(REFUSED(w, OBOL_NOT_DIGITS, 0, 0) && w.length == 0);
    w = obol_bcd_decode((const uint8_t *)"\x01\x23", 2, 3, out, 3);
    EXPECT(ACCEPTED(w) && w.length == 3 && memcmp(out, "123", 3) == 0);
    w = obol_bcd_decode((const uint8_t *)"\x11\x23", 2, 3, out, 3);
    EXPECT(REFUSED(w, OBOL_NOT_BCD, 0, 0) && w.length == 0);
    w = obol_bcd_decode((const uint8_t *)"\x01\x23", 2, SIZE_MAX, out, 3);
    EXPECT(REFUSED(w, OBOL_BYTE_COUNT_WRONG, 0, 0) && w.length == 0);

    w = obol_ebcdic_encode((const uint8_t *)"A1", 2, out, 3);
    EXPECT(ACCEPTED(w) && w.length == 2 && memcmp(out, "\xC1\xF1" "3", 3) == 0);
    w = obol_ebcdic_decode((const uint8_t *)"\xC1\xF1", 2, out, 3);
    EXPECT(ACCEPTED(w) && w.length == 2 && memcmp(out, "A13", 3) == 0);
    w = obol_ebcdic_encode((const uint8_t *)"\x80", 1, out, 3);
    EXPECT(REFUSED(w, OBOL_NO_ASCII_MEANING, 0, 0) && w.length == 0);

    w = obol_length_encode(42, 3, OBOL_ASCII, out, 3);
    EXPECT(ACCEPTED(w) && w.length == 3 && memcmp(out, "042", 3) == 0);
    w = obol_length_encode(42, 2, OBOL_BCD, out, 3);
    EXPECT(ACCEPTED(w) && w.length == 1 && memcmp(out, "\x42" "42", 3) == 0);
    w = obol_length_encode(42, 2, OBOL_EBCDIC, out, 3);
    EXPECT(ACCEPTED(w) && w.length == 2 && memcmp(out, "\xF4\xF2" "2", 3) == 0);
    w = obol_length_encode(100, 2, OBOL_ASCII, out, 3);
    EXPECT(REFUSED(w, OBOL_LENGTH_NEEDS_DIGITS, 0, 0) && w.length == 0);
    struct obol_measured m = obol_length_decode((const uint8_t *)"042", 3, 3, OBOL_ASCII);
    EXPECT(ACCEPTED(m) && m.value == 42);
    m = obol_length_decode((const uint8_t *)"\x42", 1, 2, OBOL_BCD);
    EXPECT(ACCEPTED(m) && m.value == 42);
    m = obol_length_decode((const uint8_t *)"\xF4\xF2", 2, 2, OBOL_EBCDIC);
    EXPECT(ACCEPTED(m) && m.value == 42);
    m = obol_length_decode((const uint8_t *)"+2", 2, 2, OBOL_ASCII);
    EXPECT(REFUSED(m, OBOL_LENGTH_NOT_DIGITS, 0, 0) && m.value == 0);

    /* an encoding that is none is 25, before every other test */
    memset(out, 0xA5, 3);
    for (uint64_t encoding = 3; encoding != 0; encoding *= 2) {
        w = obol_length_encode(42, 2, encoding, out, 3);
        EXPECT(REFUSED(w, OBOL_LENGTH_NEEDS_DIGITS, 0, 0) && w.length == 0 && untouched(out, 3));
        m = obol_length_decode((const uint8_t *)"42", 2, 2, encoding);
        EXPECT(REFUSED(m, OBOL_LENGTH_NEEDS_DIGITS, 0, 0) && m.value == 0);
    }
}

static void checking(void) {
    EXPECT(ACCEPTED(obol_check_field(4, (const uint8_t *)"000000012345", 12)));
    EXPECT(REFUSED(obol_check_field(4, (const uint8_t *)"000000000000", 12), OBOL_AMOUNT_ZERO, 4, 0));
    EXPECT(REFUSED(obol_check_field(4, (const uint8_t *)"00000001234x", 12), OBOL_CLASS_BROKEN, 4, 0));
    EXPECT(REFUSED(obol_check_field(4, (const uint8_t *)"00000001234", 11), OBOL_LENGTH_NOT_ALLOWED, 4, 0));
    EXPECT(REFUSED(obol_check_field(2, (const uint8_t *)"4111111111111112", 16), OBOL_PAN_FAILS, 2, 0));
    EXPECT(REFUSED(obol_check_field(321, NULL, 0), OBOL_NUMBER_NOT_ALLOWED, 321, 0));

    static const uint8_t notes_bytes[] = {1, '0', '8', '0', '0', 1, 2, 3, 0, 0, 0, 0, 0, 6, 4, 0, 0, 0, 18};
    uint8_t *values = guarded_copy("000000", 6);
    uint8_t *notes = guarded_copy(notes_bytes, sizeof notes_bytes);
    EXPECT(REFUSED(obol_check_required(values, 6, notes, sizeof notes_bytes), OBOL_REQUIRED_MISSING, 11, 0));
    EXPECT(REFUSED(obol_check_required(values, 5, notes, sizeof notes_bytes), OBOL_OUTSIDE_VALUES, 3, 6));

    EXPECT(ACCEPTED(obol_check_pan((const uint8_t *)"4111111111111111", 16)));
    EXPECT(REFUSED(obol_check_pan((const uint8_t *)"4111111111111112", 16), OBOL_PAN_FAILS, 0, 0));
    EXPECT(ACCEPTED(obol_check_date((const uint8_t *)"1231", 4)));
    EXPECT(REFUSED(obol_check_date((const uint8_t *)"1232", 4), OBOL_DATE_OR_TIME_WRONG, 0, 0));
    EXPECT(ACCEPTED(obol_check_time((const uint8_t *)"235959", 6)));
    EXPECT(REFUSED(obol_check_time((const uint8_t *)"240000", 6), OBOL_DATE_OR_TIME_WRONG, 0, 0));
}

/* Buffers of no bytes may have no pointer. */
static void nothing(void) {
    uint8_t *notes = guarded(OBOL_NOTES_ROOM);
    EXPECT(REFUSED(obol_read(NULL, 0, NULL, 0), OBOL_NOTES_TOO_SHORT, 0, 0));
    EXPECT(REFUSED(obol_read(NULL, 0, notes, OBOL_NOTES_ROOM), OBOL_MESSAGE_TOO_SHORT, 0, 0));
    EXPECT(REFUSED(obol_write_exact(NULL, 0, NULL, 0, NULL, 0), OBOL_NOTE_MALFORMED, 0, 0));
    EXPECT(REFUSED(obol_write_clean(NULL, 0, NULL, 0, NULL, 0), OBOL_NOTE_MALFORMED, 0, 0));
    EXPECT(REFUSED(obol_look_up(NULL, 0, NULL, 0, 0), OBOL_NOTE_MALFORMED, 0, 0));
    EXPECT(REFUSED(obol_pack(NULL, 0, NULL, 0), OBOL_MESSAGE_TOO_SHORT, 0, 0));
    EXPECT(REFUSED(obol_unpack(NULL, 0, NULL, 0), OBOL_MESSAGE_TOO_SHORT, 0, 0));
    EXPECT(REFUSED(obol_check_field(2, NULL, 0), OBOL_PAN_FAILS, 2, 0));
    EXPECT(ACCEPTED(obol_check_field(48, NULL, 0)));
    EXPECT(REFUSED(obol_check_required(NULL, 0, NULL, 0), OBOL_NOTE_MALFORMED, 0, 0));
    EXPECT(REFUSED(obol_check_pan(NULL, 0), OBOL_PAN_FAILS, 0, 0));
    EXPECT(REFUSED(obol_check_date(NULL, 0), OBOL_DATE_OR_TIME_WRONG, 0, 0));
    EXPECT(REFUSED(obol_check_time(NULL, 0), OBOL_DATE_OR_TIME_WRONG, 0, 0));
    EXPECT(ACCEPTED(obol_bcd_encode(NULL, 0, NULL, 0)));
    EXPECT(ACCEPTED(obol_bcd_decode(NULL, 0, 0, NULL, 0)));
    EXPECT(ACCEPTED(obol_ebcdic_encode(NULL, 0, NULL, 0)));
    EXPECT(ACCEPTED(obol_ebcdic_decode(NULL, 0, NULL, 0)));
    EXPECT(REFUSED(obol_length_encode(0, 2, OBOL_ASCII, NULL, 0), OBOL_OUTPUT_TOO_SHORT, 0, 0));
    EXPECT(REFUSED(obol_length_decode(NULL, 0, 2, OBOL_ASCII), OBOL_BYTE_COUNT_WRONG, 0, 0));
}

int main(void) {
    reading();
    the_largest();
    cleaning();
    linking();
    converting();
    checking();
    nothing();
    printf("C: %d passed, %d failed\n", passed, failed);
    return failed != 0;
}
