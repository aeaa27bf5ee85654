/* Brings four records to the reader schema Int, and prints what program `resolve` prints for them:
 *
 *     + 02ffffffff
 *     - 7
 *     - 6
 *     - 5
 */
#include "hulmbax.h"

#include <stdio.h>

static uint8_t result[HULMBAX_RESULT_LEN];
static uint8_t workspace[HULMBAX_WORKSPACE_LEN];

static void print_answer(int32_t answer)
{
    if (answer < 0) {
        printf("- %d\n", (int)-answer);
        return;
    }
    printf("+ ");
    for (int32_t i = 0; i < answer; i++)
        printf("%02x", result[i]);
    printf("\n");
}

static void resolve(const uint8_t *record, size_t record_len)
{
    static const uint8_t schema[] = {HULMBAX_KIND_INT};
    print_answer(hulmbax_resolve(schema, sizeof schema, record, record_len,
                                 result, sizeof result, workspace, sizeof workspace));
}

int main(void)
{
    static const uint8_t minus_one[] = {HULMBAX_KIND_INT, 0xff, 0xff, 0xff, 0xff};
    static const uint8_t long_outside_int[] = {HULMBAX_KIND_LONG, 0, 0, 0, 0, 0x80, 0, 0, 0};
    static const uint8_t null[] = {HULMBAX_KIND_NULL};

    resolve(minus_one, sizeof minus_one);
    resolve(long_outside_int, sizeof long_outside_int);
    resolve(null, sizeof null);
    resolve(null, 0); /* no bytes: not null, though nothing is read there */
    return 0;
}
