/*
 * Obolchime: ISO 8583:1987 messages, for C and for whatever can call C.
 *
 * The functions are those of the static library that `bridge/library` writes, target/staticlib/libdesk.a, which is for programs for x86-64
 * Linux alone.
 *
 * Each function is proved to answer exactly what its definition says, on every input: see the `ensures` in crates/desk/src/lib.rt. That is
 * proved of the source, on the language's abstract machine. Not proved is the compiler's back end, which makes machine code of it; nor can
 * a C caller be held to what the proof asks of it:
 *
 *   - A pointer and the length after it name that many bytes, which can be read, and written where the pointer is not const.
 *     A buffer of length 0 may have any pointer, NULL too. No length is over PTRDIFF_MAX.
 *   - A buffer that is written (notes of obol_read, out) overlaps no other buffer of the same call, and nothing else reads or
 *     writes it during the call. Buffers that are only read may overlap.
 *
 * No function keeps a pointer, allocates, prints, exits or has a state of its own: calls from several threads need no lock.
 *
 * Every answer begins with number, field and position. All three are 0 where the call is accepted. A refusal has its number (below),
 * the field that it is about (0 if none) and a position: in the message for obol_read; in the input, plain or packed, for obol_pack and
 * obol_unpack (but for 14); in the notes for obol_look_up, the writers and obol_check_required (there but for 19); else 0. A refusal
 * changes no byte of any buffer, and the rest of its answer is 0. An accepted call touches no byte beyond what it wrote.
 */
#ifndef OBOLCHIME_H
#define OBOLCHIME_H

#include <stddef.h>
#include <stdint.h>

#ifdef __cplusplus
extern "C" {
#endif

/* Notes of any message fit in this many bytes, and obol_read asks for them whatever the message is. */
#define OBOL_NOTES_ROOM 1531

/* The numbers of refusals. */
enum {
    OBOL_NOTES_TOO_SHORT = 1,      /* the notes buffer is under 1,531 bytes */
    OBOL_MESSAGE_TOO_SHORT = 2,    /* the message is under 12 bytes, a packed one under 10 */
    OBOL_MTI_NOT_DIGITS = 3,       /* the MTI has a non-digit */
    OBOL_BITMAP_INCOMPLETE = 4,    /* the second or third bitmap is incomplete */
    OBOL_PAST_THE_END = 5,         /* length digits or content run past the end */
    OBOL_LENGTH_NOT_DIGITS = 6,    /* a length byte is not 0-9 */
    OBOL_LENGTH_OVER_TABLE = 7,    /* the length is over the table's */
    OBOL_TEXT_NOT_ASCII = 8,       /* a text byte is over 0x7F */
    OBOL_NOTE_MALFORMED = 9,       /* a note is missing, cut or of the wrong kind, or the count is not 1-3 */
    OBOL_NUMBER_NOT_ALLOWED = 10,  /* a field number is not above the last, is 0, 1 or 65, or is too large */
    OBOL_OUTSIDE_VALUES = 11,      /* offset plus length is over the values' size */
    OBOL_LENGTH_NOT_ALLOWED = 12,  /* the length is not allowed (cleaning: too long only) */
    OBOL_END_DIFFERS = 13,         /* the end note differs from the length to be written */
    OBOL_OUTPUT_TOO_SHORT = 14,    /* the output is too short */
    OBOL_FIELD_ABSENT = 15,        /* the field is absent */
    OBOL_CLASS_BROKEN = 16,        /* the class is broken */
    OBOL_PAN_FAILS = 17,           /* the PAN check fails */
    OBOL_AMOUNT_ZERO = 18,         /* the amount is all zeros */
    OBOL_REQUIRED_MISSING = 19,    /* a required field is missing */
    OBOL_DATE_OR_TIME_WRONG = 20,  /* the date or time is wrong */
    OBOL_NOT_DIGITS = 21,          /* the BCD source, or a content of class n to be packed, is not digits */
    OBOL_NOT_BCD = 22,             /* a BCD half-byte is over 9, or the spare leading digit is not 0 */
    OBOL_BYTE_COUNT_WRONG = 23,    /* the byte count is wrong for the digits asked */
    OBOL_NO_ASCII_MEANING = 24,    /* a byte has no ASCII meaning */
    OBOL_LENGTH_NEEDS_DIGITS = 25  /* the length needs more digits than given, these are not 2 or 3, or the encoding is none */
};

/* The encodings of length indicators. */
enum { OBOL_ASCII = 0, OBOL_BCD = 1, OBOL_EBCDIC = 2 };

struct obol_reading {
    uint64_t number, field, position;
    uint64_t used;    /* bytes of the message; what follows it was ignored */
    uint64_t bitmaps; /* 1 to 3 */
};

struct obol_written {
    uint64_t number, field, position;
    uint64_t length; /* bytes written */
};

/* The fields padded, as bits placed as in the bitmaps: bit f, from the high bit of padded1, from 1. */
struct obol_cleaned {
    uint64_t number, field, position;
    uint64_t length;  /* bytes written */
    uint64_t padded1; /* fields 1 to 64 */
    uint64_t padded2; /* fields 65 to 128 */
    uint64_t padded3; /* fields 129 to 192 */
};

struct obol_found {
    uint64_t number, field, position;
    uint64_t offset; /* of the content, in the values */
    uint64_t length; /* of the content */
};

struct obol_translated {
    uint64_t number, field, position;
    uint64_t used;    /* bytes of the input's message; what follows it was ignored */
    uint64_t written; /* bytes of the output */
};

struct obol_measured {
    uint64_t number, field, position;
    uint64_t value; /* the length that was decoded */
};

struct obol_checked {
    uint64_t number, field, position;
};

/*
 * Reads the message at the front of the input and writes its notes, up to their end note, to the front of notes.
 * Refuses with 1, 2, 3, 4, then field by field 5, 6, 7, 5, 8. The position of 5 to 8 is the field's first byte.
 */
struct obol_reading obol_read(const uint8_t *message, size_t message_length, uint8_t *notes, size_t notes_length);

/*
 * Writes the message that notes and values stand for, to the byte. After obol_read the values are the message.
 * Refuses with 9, 3, then field by field 9, 10, 11, 12, 8, then 9, 13, 14. The position is the note's.
 */
struct obol_written obol_write_exact(const uint8_t *values, size_t values_length, const uint8_t *notes, size_t notes_length,
                                     uint8_t *out, size_t out_length);

/*
 * Writes it with fixed contents that are too short padded: class n with '0' on the left, b with zero bytes on the right, all others
 * with spaces on the right. Cuts nothing. The end note has the length with the padding. Refuses as obol_write_exact does.
 */
struct obol_cleaned obol_write_clean(const uint8_t *values, size_t values_length, const uint8_t *notes, size_t notes_length,
                                     uint8_t *out, size_t out_length);

/*
 * Finds a field's content in the values. Judges all notes first: refuses with 9, 3, 9, 10, 11, 9, then 15, whose position is the
 * end note's.
 */
struct obol_found obol_look_up(const uint8_t *values, size_t values_length, const uint8_t *notes, size_t notes_length, size_t number);

/*
 * Writes the plain message at the front of the input in packed form to the front of out, for a bank that talks packed: MTI in two BCD
 * bytes, bitmaps as they are, LL in one BCD byte and LLL in two, contents of class n in BCD with a leading zero half-byte where their
 * digits are odd, all others as they are. In both forms a length counts the digits of a content of class n, and the bytes of any other.
 * Bytes after the message are ignored.
 * Refuses with 2, 3, 4, then field by field 5, 6, 7, 5, and 21 (class n) or 8, then 14. The position of 3 is the first byte that is no
 * digit, of 4 where the bitmap starts, of 5 to 8 and 21 the field's first byte; 2 and 14 have field 0 and position 0.
 */
struct obol_translated obol_pack(const uint8_t *plain, size_t plain_length, uint8_t *out, size_t out_length);

/*
 * Writes the packed message at the front of the input in plain form to the front of out. What obol_pack wrote it takes back to the
 * bytes that were packed, and the other way round.
 * Refuses with 2, 22 for the MTI at its first bad byte, 4, then field by field 5, 22, 7, 5, and 22 (class n) or 8, then 14: a half-byte
 * over 9, or a spare one that is not 0, is 22. Positions as for obol_pack, in the packed input.
 */
struct obol_translated obol_unpack(const uint8_t *packed, size_t packed_length, uint8_t *out, size_t out_length);

/*
 * Whether a content may stand in a field: its number (10), its class (16), its length (12); then the PAN for field 2 (17), and no
 * amount of zeros for 4 and 5 (18). Positions are 0.
 */
struct obol_checked obol_check_field(size_t number, const uint8_t *content, size_t content_length);

/*
 * Whether the notes name every field that their MTI requires: 3, 11, 12, 13; then 2 and 4 where its second digit is 1 or 2 and its
 * third 0; then 39 where its third is 1. Else 19 with the first field that is missing, at position 0. Wrong notes are refused as by
 * obol_look_up.
 */
struct obol_checked obol_check_required(const uint8_t *values, size_t values_length, const uint8_t *notes, size_t notes_length);

/*
 * Whether a content is a PAN: of the digits in it, whatever stands between them, there are 12 to 19 and Luhn's sum is a multiple of
 * 10. Else 17, with field 0.
 */
struct obol_checked obol_check_pan(const uint8_t *content, size_t content_length);

/* Whether a content is a date MMDD: four digits, month 1 to 12, day 1 to 31. Else 20, with field 0. */
struct obol_checked obol_check_date(const uint8_t *content, size_t content_length);

/* Whether a content is a time hhmmss: six digits, 0 to 23, 0 to 59, 0 to 59. Else 20, with field 0. */
struct obol_checked obol_check_time(const uint8_t *content, size_t content_length);

/* ASCII digits to BCD, with a leading 0 where their count is odd. Refuses with 21, 14. */
struct obol_written obol_bcd_encode(const uint8_t *source, size_t source_length, uint8_t *out, size_t out_length);

/* So many ASCII digits from BCD of half as many bytes, rounded up. Refuses with 23, 22, 14. */
struct obol_written obol_bcd_decode(const uint8_t *source, size_t source_length, size_t digits, uint8_t *out, size_t out_length);

/* ASCII to EBCDIC, byte by byte. Refuses with 24, 14. */
struct obol_written obol_ebcdic_encode(const uint8_t *source, size_t source_length, uint8_t *out, size_t out_length);

/* EBCDIC to ASCII, byte by byte. Refuses with 24, 14. */
struct obol_written obol_ebcdic_decode(const uint8_t *source, size_t source_length, uint8_t *out, size_t out_length);

/*
 * A length in two or three digits, in an encoding. Refuses with 25, 14. An encoding that is none of the three is 25 whatever else is
 * asked: no count of digits is enough in it.
 */
struct obol_written obol_length_encode(size_t length, size_t digits, uint64_t encoding, uint8_t *out, size_t out_length);

/* The length that two or three digits spell in an encoding. Refuses with 25 (as above), 23, then 22 for BCD or 24, then 6. */
struct obol_measured obol_length_decode(const uint8_t *source, size_t source_length, size_t digits, uint64_t encoding);

#ifdef __cplusplus
}
#endif

#endif
