/* The C interface of Hulmbax: brings an Avro record to a reader schema, names the current finish of each
 * boat where crews corrected some, and has a calendar over Avro's dates and timestamps.
 *
 * Link with libhulmbax.a, which c/archive writes to target/staticlib/ (x86-64 Linux).
 * docs/RULES.md at the top of the repository has every rule: the bytes of a frame, the order of the
 * checks, and what each pair of kinds gives.
 */
#ifndef HULMBAX_H
#define HULMBAX_H

#include <stddef.h>
#include <stdint.h>

#ifdef __cplusplus
extern "C" {
#endif

/* The version of this header, and of the library that it belongs to. */
#define HULMBAX_VERSION_MAJOR 0
#define HULMBAX_VERSION_MINOR 1
#define HULMBAX_VERSION_PATCH 0
#define HULMBAX_VERSION "0.1.0"

/* The longest frame, and the depth of its deepest node; the root's is 1. */
#define HULMBAX_MAX_FRAME 65535
#define HULMBAX_MAX_DEPTH 16

/* The bytes of workspace that a call of hulmbax_resolve or hulmbax_current needs. */
#define HULMBAX_WORKSPACE_LEN 65536

/* The length of a result buffer into which every result of hulmbax_resolve fits. */
#define HULMBAX_RESULT_LEN 65535

/* The most frames that a call of hulmbax_current takes. A result buffer of as many bytes is long enough
 * for every answer of it. */
#define HULMBAX_MAX_FINISHES 256

/* The length of a result buffer into which every sum of hulmbax_add fits. */
#define HULMBAX_SUM_LEN 9

/* The kind byte that opens a node, of a value or of a schema. */
enum hulmbax_kind {
    HULMBAX_KIND_NULL = 0x00,
    HULMBAX_KIND_BOOLEAN = 0x01,
    HULMBAX_KIND_INT = 0x02,
    HULMBAX_KIND_LONG = 0x03,
    HULMBAX_KIND_FLOAT = 0x04,
    HULMBAX_KIND_DOUBLE = 0x05,
    HULMBAX_KIND_BYTES = 0x06,
    HULMBAX_KIND_STRING = 0x07,
    HULMBAX_KIND_ARRAY = 0x08,
    HULMBAX_KIND_MAP = 0x09,
    HULMBAX_KIND_UNION = 0x0a,
    HULMBAX_KIND_RECORD = 0x0b,
    HULMBAX_KIND_ENUM = 0x0c,
    HULMBAX_KIND_FIXED = 0x0d,
    HULMBAX_KIND_DECIMAL = 0x0e,
    HULMBAX_KIND_UUID = 0x0f,
    HULMBAX_KIND_DATE = 0x10,
    HULMBAX_KIND_TIME_MILLIS = 0x11,
    HULMBAX_KIND_TIME_MICROS = 0x12,
    HULMBAX_KIND_TIMESTAMP_MILLIS = 0x13,
    HULMBAX_KIND_TIMESTAMP_MICROS = 0x14,
    HULMBAX_KIND_TIMESTAMP_NANOS = 0x15,
    HULMBAX_KIND_LOCAL_TIMESTAMP_MILLIS = 0x16,
    HULMBAX_KIND_LOCAL_TIMESTAMP_MICROS = 0x17,
    HULMBAX_KIND_LOCAL_TIMESTAMP_NANOS = 0x18,
    HULMBAX_KIND_DURATION = 0x19
};

/* What stops a record, a list of finishes, or what is asked of the calendar. An entry answers the number
 * below zero. The numbers are those of docs/RULES.md: 1 to 18, 23, 24 and 26 to 28. hulmbax_resolve gives 1
 * to 18, in their checking order, and 28 in the place of 6; of a map's failing entries the first by its key
 * gives the number. hulmbax_current gives 1, 23, 24 and 18, in this order. The entries of the calendar give
 * 5, 6, 18, 26 and 27; each says which, and in what order. */
enum hulmbax_refusal {
    HULMBAX_WORKSPACE_TOO_SHORT = 1,      /* the workspace is shorter than 65,536 bytes */
    HULMBAX_SCHEMA_NO_FRAME = 2,          /* the schema is no frame */
    HULMBAX_SCHEMA_UNSOUND = 3,           /* the schema's tables, names, sizes or defaults are unsound */
    HULMBAX_DEFAULT_TOO_LONG = 4,         /* a default becomes longer than 4,096 bytes in its union's first variant */
    HULMBAX_RECORD_NO_FRAME = 5,          /* the record or value is no frame, or its map keys don't rise */
    HULMBAX_UNSUITED = 6,                 /* the kind or text doesn't suit the schema, or the kind the calendar */
    HULMBAX_LONG_OUTSIDE_INT = 7,         /* a Long is outside Int */
    HULMBAX_ITEM_OUTSIDE_BYTE = 8,        /* an item meant as a byte is outside 0 to 255 */
    HULMBAX_NOT_UTF8 = 9,                 /* Bytes or Fixed meant as String are not UTF-8 */
    HULMBAX_SIZE_DIFFERS = 10,            /* a Fixed, Duration or fixed UUID size differs, a text's in bytes */
    HULMBAX_UUID_WRONG = 11,              /* UUID text, or the length of UUID bytes, is wrong */
    HULMBAX_SCALE_EXCEEDS_PRECISION = 12, /* a decimal's scale exceeds its precision */
    HULMBAX_FIXED_TOO_SMALL = 13,         /* a decimal's fixed size is too small for the precision */
    HULMBAX_BYTES_TOO_FEW = 14,           /* the value's bytes, or a text's code points, are too few for the precision */
    HULMBAX_SYMBOL_UNKNOWN = 15,          /* a symbol is unknown and no default is among the symbols */
    HULMBAX_NO_VARIANT = 16,              /* no variant of a union accepts */
    HULMBAX_FIELD_MISSING = 17,           /* a field is missing without default */
    HULMBAX_RESULT_TOO_LONG = 18,         /* the accepted result exceeds 65,535 bytes or the buffer */
    HULMBAX_TOO_MANY_FRAMES = 23,         /* the list has more than 256 frames */
    HULMBAX_NO_FINISH = 24,               /* one of the list is no frame, no record, or lacks its sail or seq */
    HULMBAX_MILLIS_ON_DATE = 26,          /* milliseconds other than zero are added to a Date */
    HULMBAX_OUTSIDE_CALENDAR = 27,        /* the day isn't in the calendar, or a result leaves its kind's range */
    HULMBAX_NOT_A_NUMBER = 28             /* a Float or Double, kept or made, would be a NaN; in the place of 6 */
};

/* A sentence for a refusal, to be shown to whoever sent the record or wrote the schema. Takes the
 * number, or the entry's answer as it is: 17 and -17 give the same. Never null; of any other number
 * it says that there is no such refusal. */
static inline const char *hulmbax_refusal_text(int32_t refusal)
{
    switch (refusal < 0 && refusal > -128 ? -refusal : refusal) {
    case HULMBAX_WORKSPACE_TOO_SHORT:
        return "the workspace is shorter than 65,536 bytes";
    case HULMBAX_SCHEMA_NO_FRAME:
        return "the reader schema is no frame: a byte, length or text in it is wrong, bytes are left over, or it is nested deeper than 16";
    case HULMBAX_SCHEMA_UNSOUND:
        return "the reader schema is unsound: a union is empty, nested or has wrong tables, a field name repeats, a size is wrong, or a default is of a kind that JSON can't give";
    case HULMBAX_DEFAULT_TOO_LONG:
        return "a default in the reader schema becomes longer than 4,096 bytes in the first variant of its union";
    case HULMBAX_RECORD_NO_FRAME:
        return "the record or value is no frame: a byte, length or text in it is wrong, bytes are left over, it is nested deeper than 16, or the keys of a map don't rise";
    case HULMBAX_UNSUITED:
        return "a value is of a kind, or a text, that can't be taken there";
    case HULMBAX_LONG_OUTSIDE_INT:
        return "a Long in the record is too large or too small for the Int that the schema asks for";
    case HULMBAX_ITEM_OUTSIDE_BYTE:
        return "an array stands where the schema asks for bytes, and one of its items is outside 0 to 255";
    case HULMBAX_NOT_UTF8:
        return "bytes stand where the schema asks for a string, and they are not UTF-8";
    case HULMBAX_SIZE_DIFFERS:
        return "the bytes or the text meant for a fixed, a duration or a fixed UUID are more or fewer than the schema asks for";
    case HULMBAX_UUID_WRONG:
        return "a text or bytes stand where the schema asks for a UUID, and they are none";
    case HULMBAX_SCALE_EXCEEDS_PRECISION:
        return "a decimal of the schema has a scale greater than its precision";
    case HULMBAX_FIXED_TOO_SMALL:
        return "a decimal of the schema has a fixed size too small for its precision";
    case HULMBAX_BYTES_TOO_FEW:
        return "the bytes or the text meant for a decimal are too few for the precision that the schema asks for";
    case HULMBAX_SYMBOL_UNKNOWN:
        return "an enum in the record has a symbol that the schema doesn't have, and the schema has no default symbol";
    case HULMBAX_NO_VARIANT:
        return "no variant of a union in the schema takes the value that the record has there";
    case HULMBAX_FIELD_MISSING:
        return "the record lacks a field for which the schema has no default";
    case HULMBAX_RESULT_TOO_LONG:
        return "the result doesn't fit: it is longer than the result buffer or than 65,535 bytes";
    case HULMBAX_TOO_MANY_FRAMES:
        return "the list of finishes has more than 256 frames";
    case HULMBAX_NO_FINISH:
        return "a frame in the list is no finish: it is broken or no record, or it lacks a sail that is a String or a seq that is a Long";
    case HULMBAX_MILLIS_ON_DATE:
        return "a duration with milliseconds is added to a date, which has whole days only";
    case HULMBAX_OUTSIDE_CALENDAR:
        return "the day isn't in the calendar, or the outcome, or a step on the way to it, is outside the range of its kind";
    case HULMBAX_NOT_A_NUMBER:
        return "a NaN, or the text NaN, stands where the schema asks for a Float or a Double, and no result holds a NaN";
    default:
        return "there is no refusal of this number";
    }
}

/* Brings the record to the schema, both frames.
 *
 * Answers n, at least 1: the record is accepted, and the first n bytes of result are the frame of
 * what the reader gets, in which no Float and no Double is a NaN; the bytes after them are as they
 * were. Or answers -k: the record is stopped by k of the list above, and result is as it was.
 *
 * The workspace must have HULMBAX_WORKSPACE_LEN bytes. Except after -1 the first 65,536 of them are
 * zero after the call; the others, and all of them after -1, are as they were. What they held before
 * plays no part.
 *
 * What the caller owes:
 * - Each pointer points to as many bytes as the length after it says. None is null, not even where
 *   the length is 0: an empty record, say, is any pointer to a byte, and 0.
 * - The bytes of schema, record and workspace have been set before the call. To what, nothing is
 *   asked; but the library reads the workspace, to see which bytes are zero already, so one that
 *   comes from malloc or stands uninitialized on the stack has to be set once (static, calloc or
 *   memset do). After that it goes from call to call as it is. Those of result need not be set.
 * - Result and workspace overlap nothing else that is handed over; schema and record may overlap.
 * - Nobody else writes any of the four during the call.
 *
 * The library keeps no pointer, has no state and allocates nothing: threads may call it at the same
 * time, each with its own result and workspace.
 *
 * A call takes up to about 170 KB of stack (169,216 bytes were measured, for records nested 16 deep,
 * the innermost empty). A thread that calls should have 256 KB or more.
 */
int32_t hulmbax_resolve(const uint8_t *schema, size_t schema_len,
                        const uint8_t *record, size_t record_len,
                        uint8_t *result, size_t result_len,
                        uint8_t *workspace, size_t workspace_len);

/* Names the current finish of each boat, where crews corrected a finish by entering it again.
 *
 * The list is of frames that are records, with a String in the field sail and a Long in the field seq, as
 * hulmbax_resolve gives them under a schema that has both. Of the frames of a sail the one with the
 * greatest seq is current, and of those with an equal seq the last. A seq below zero is less than 0. Two
 * sails are the same where their bytes are. Of a field whose name repeats in a record, the last counts.
 * One frame is named for each sail, so for a sheet of several races it is asked once for each race.
 *
 * The frames stand one behind another in input, and ends says where each ends: the first goes from 0 to
 * before ends[0], the next from there to before ends[1], and so on. There are ends_len of them. The bytes
 * behind the last end are not looked at.
 *
 * Answers n, 0 to 256: there are n sails, and the first n bytes of result are the places of their current
 * frames in the list, from 0, in the order in which the sails first appear; the bytes after them are as
 * they were. An empty list gives 0. Or answers -k, and result is as it was. In checking order: -1, the
 * workspace is too short; -23, there are more than 256 frames, of which none is read then; -24, one of
 * them is no frame (one that hulmbax_resolve stops with 5, or whose end lies past the input or before its
 * start), is no record, lacks one of the two fields or has another kind in it; -18, result is shorter
 * than n.
 *
 * No Union is taken off, so one around a record, its sail or its seq gives -24, and so do a Map in place
 * of a record and an Int in seq. Under a reader schema in which sail is nullable every result has a Union
 * around its sail, so every call with such results gives -24.
 *
 * The workspace must have HULMBAX_WORKSPACE_LEN bytes. Except after -1 the first 65,536 of them are zero
 * after the call; the others, and all of them after -1, are as they were.
 *
 * What the caller owes is what hulmbax_resolve's owes:
 * - Each pointer points to as many bytes, or numbers, as the length after it says. None is null, not even
 *   where the length is 0.
 * - The bytes of input and workspace and the numbers of ends have been set before the call; to what,
 *   nothing is asked. Those of result need not be set.
 * - Result and workspace overlap nothing else that is handed over.
 * - Nobody else writes any of the four during the call.
 *
 * It keeps no pointer, has no state and allocates nothing. A thread that has the stack for
 * hulmbax_resolve has enough for it.
 */
int32_t hulmbax_current(const uint8_t *input, size_t input_len,
                        const size_t *ends, size_t ends_len,
                        uint8_t *result, size_t result_len,
                        uint8_t *workspace, size_t workspace_len);

/* The calendar is the proleptic Gregorian one: today's rule of leap years holds for all time, before
 * 1582 too, and the year before year 1 is year 0. A Date is a number of days since 1970-01-01. An
 * *instant* is a Date, or a timestamp in milliseconds, microseconds or nanoseconds since 1970-01-01 UTC
 * (HULMBAX_KIND_DATE, HULMBAX_KIND_TIMESTAMP_MILLIS, HULMBAX_KIND_TIMESTAMP_MICROS,
 * HULMBAX_KIND_TIMESTAMP_NANOS); the local timestamps are none.
 *
 * What the caller of the four functions below owes:
 * - Each pointer points to as many bytes, or numbers, as the length after it says, or the count of
 *   slots. None is null, not even where that is 0.
 * - The bytes of the frames that are handed over have been set before the call. Those of a result, and
 *   slots, need not be.
 * - A result, or slots, overlap nothing else that is handed over; the others may overlap.
 * - Nobody else writes what is handed over during the call.
 *
 * They need no workspace, keep no pointer, have no state and allocate nothing. A thread that has the
 * stack for hulmbax_resolve has enough for them.
 */

/* The year, month and day of a Date.
 *
 * Answers 3: the first three slots of year_month_day are the year, the month (1 to 12) and the day (1
 * to 31); the slots after them are as they were. Every Date has all three: the least is 23 June -5877641,
 * the greatest 11 July 5881580. Or answers -18: there are fewer than three slots, and they are as they
 * were.
 */
int32_t hulmbax_civil(int32_t date, int32_t *year_month_day, size_t slots);

/* The Date of a year, a month and a day.
 *
 * Answers 1: the first slot of date is the Date; the slots after it are as they were. Or answers -k, and
 * the slots are as they were. In checking order: -27, the year has no such day (a month below 1 or above
 * 12, 29 February in a year without one), or the day is outside Date; -18, there is no slot.
 */
int32_t hulmbax_date(int32_t year, int32_t month, int32_t day, int32_t *date, size_t slots);

/* Adds a duration to an instant, both value frames.
 *
 * Months are added first; a day past the end of the month then becomes its last day. Then days are
 * added, then milliseconds. So 31 January and one month give 28 February, and in a leap year the 29th.
 *
 * Answers n: the first n bytes of result are the frame of the sum, of the instant's kind; n is 5 for a
 * Date and 9 for a timestamp. The bytes after them are as they were. Or answers -k, and result is as it
 * was. In checking order: -5, one of the two is no frame; -6, the first is of a kind that is no instant,
 * or the second no Duration; -26, the instant is a Date and the milliseconds are not zero; -27, the sum,
 * or a step on the way to it, is outside the range of the instant's kind; -18, result is shorter than
 * the sum.
 */
int32_t hulmbax_add(const uint8_t *instant, size_t instant_len,
                    const uint8_t *duration, size_t duration_len,
                    uint8_t *result, size_t result_len);

/* Whether a window holds an instant; all three are value frames.
 *
 * A window holds the instants from its opening one to before its closing one. One that closes at or
 * before its opening holds nothing.
 *
 * Answers 1 if it holds the instant, and 0 if not. Or answers -k, in checking order: -5, one of the
 * three is no frame; -6, one of them is no instant, or they are not all of one kind.
 */
int32_t hulmbax_holds(const uint8_t *opening, size_t opening_len,
                      const uint8_t *closing, size_t closing_len,
                      const uint8_t *instant, size_t instant_len);

#ifdef __cplusplus
}
#endif

#endif
