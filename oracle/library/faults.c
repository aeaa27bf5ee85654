/* An entry with one fault (-DFAULT=1 to 15) around the true one, to see that the comparison and valgrind find it. */
#include <stddef.h>
#include <stdint.h>
#include <string.h>

#define WORKSPACE 65536

int32_t true_resolve(const uint8_t *schema, size_t schema_len, const uint8_t *record, size_t record_len,
                     uint8_t *result, size_t result_len, uint8_t *workspace, size_t workspace_len);

volatile uint8_t read_byte;

/* What a Map that got n gets without its first entry; n where there is no other, or the others are accepted. */
int32_t without_first(int32_t n, const uint8_t *schema, size_t schema_len, const uint8_t *record, size_t record_len,
                      uint8_t *workspace, size_t workspace_len)
{
    static uint8_t others[65535], out[65535];
    unsigned count = record[1] << 8 | record[2];
    if (count < 2) return n;
    others[0] = record[0];
    others[1] = (count - 1) >> 8;
    others[2] = (count - 1) & 255;
    for (size_t at = 6; at < record_len; at++) {
        memcpy(others + 3, record + at, record_len - at);
        int32_t m = true_resolve(schema, schema_len, others, record_len - at + 3, out, sizeof out, workspace, workspace_len);
        if (m != -5) return m < 0 ? m : n;
    }
    return n;
}

/* Whether an infinite Float or Double meets a Float or Double. */
int infinity(const uint8_t *schema, size_t schema_len, const uint8_t *record, size_t record_len)
{
    static const uint8_t zeros[6];
    size_t len = schema_len == 1 && (schema[0] == 0x04 || schema[0] == 0x05) ? record_len : 0;
    int of_float = len == 5 && record[0] == 0x04 && record[2] == 0x80;
    int of_double = len == 9 && record[0] == 0x05 && record[2] == 0xf0;
    return (of_float || of_double) && (record[1] & 0x7f) == 0x7f && !memcmp(record + 3, zeros, len - 3);
}

int32_t hulmbax_resolve(const uint8_t *schema, size_t schema_len, const uint8_t *record, size_t record_len,
                        uint8_t *result, size_t result_len, uint8_t *workspace, size_t workspace_len)
{
#if FAULT == 15 /* 28 for an infinity: with no room the true entry stops at 18 and leaves the buffer alone */
    int infinite = infinity(schema, schema_len, record, record_len);
    if (infinite) result_len = 0;
#endif
    int32_t n = true_resolve(schema, schema_len, record, record_len, result, result_len, workspace, workspace_len);
    int accepted = n > 0;
#if FAULT == 1 /* changes a byte of the buffer past the result */
    if (accepted && (size_t)n < result_len) result[n] ^= 1;
#elif FAULT == 2 /* changes a byte past the buffer */
    if (accepted) result[result_len] ^= 1;
#elif FAULT == 3 /* a wrong last byte */
    if (accepted) result[n - 1] ^= 1;
#elif FAULT == 4 /* changes the buffer on a refusal */
    if (n < 0 && result_len) result[result_len - 1] ^= 1;
#elif FAULT == 5 /* 18 though the result just fits */
    if (accepted && (size_t)n == result_len) return -18;
#elif FAULT == 6 /* leaves a workspace byte */
    if (n != -1) workspace[WORKSPACE - 1] = 1;
#elif FAULT == 7 /* changes the workspace past 65,536 bytes */
    if (n != -1 && workspace_len > WORKSPACE) workspace[WORKSPACE] ^= 1;
#elif FAULT == 8 /* changes the workspace after 1 */
    if (n == -1 && workspace_len) workspace[0] ^= 1;
#elif FAULT == 9 /* changes the record */
    if (accepted) ((uint8_t *)record)[0] ^= 1;
#elif FAULT == 10 /* a length other than what was written */
    if (accepted) return n + 1;
#elif FAULT == 11 /* reads past the record: only valgrind sees it */
    read_byte = record[record_len];
#elif FAULT == 12 /* the number of a map's second failing entry */
    if (n < -5 && n != -18 && schema[0] == 0x09 && record[0] == 0x09)
        return without_first(n, schema, schema_len, record, record_len, workspace, workspace_len);
#elif FAULT == 13 /* the crate's own rule: a String of another size becomes a Fixed of its length */
    if (n == -10 && schema[0] == 0x0d && record[0] == 0x07) {
        if (record_len > result_len) return -18;
        memcpy(result, record, record_len);
        result[0] = 0x0d;
        return record_len;
    }
#elif FAULT == 14 /* the crate's own rule for signalling NaNs alone: a Double is kept */
    if (n == -28 && schema[0] == 0x05 && record[0] == 0x05 && !(record[2] & 0x08)) {
        if (record_len > result_len) return -18;
        memcpy(result, record, record_len);
        return record_len;
    }
#elif FAULT == 15
    if (infinite && n == -18) return -28;
#endif
    return n;
}
