/* Brings finishes to the sheet's reader schema, a record of four fields, and prints what the sheet
 * gets: a boat, a race, an elapsed time or none, and a rating, 1000 where the club sends none. A boat
 * that did not finish has no time; a NaN is refused.
 */
#include "hulmbax.h"

#include <stdio.h>
#include <string.h>

/* A frame that is being written; what is written here fits. */
struct frame {
    uint8_t bytes[256];
    size_t len;
};

static void put_byte(struct frame *f, unsigned byte)
{
    f->bytes[f->len++] = (uint8_t)byte;
}

/* A number of so many bytes, high byte first. */
static void put_number(struct frame *f, uint64_t number, unsigned width)
{
    while (width-- > 0)
        put_byte(f, (unsigned)(number >> (8 * width)) & 0xff);
}

static void put_text(struct frame *f, const char *text)
{
    size_t len = strlen(text);
    put_number(f, len, 2);
    memcpy(f->bytes + f->len, text, len);
    f->len += len;
}

static void put_int(struct frame *f, int32_t number)
{
    put_byte(f, HULMBAX_KIND_INT);
    put_number(f, (uint32_t)number, 4);
}

/* A NaN. A double that is a number is written the same way, by its bits. */
static void put_nan(struct frame *f)
{
    put_byte(f, HULMBAX_KIND_DOUBLE);
    put_number(f, 0x7ff8000000000000u, 8);
}

static void put_string(struct frame *f, const char *text)
{
    put_byte(f, HULMBAX_KIND_STRING);
    put_text(f, text);
}

static void put_record(struct frame *f, unsigned fields)
{
    put_byte(f, HULMBAX_KIND_RECORD);
    put_number(f, fields, 2);
}

/* Null or Double: two variants, the table of kinds with a position for each, and no named ones. */
static void put_nullable_double(struct frame *f)
{
    put_byte(f, HULMBAX_KIND_UNION);
    put_number(f, 2, 2);
    put_byte(f, HULMBAX_KIND_NULL);
    put_byte(f, HULMBAX_KIND_DOUBLE);
    put_number(f, 2, 2);
    put_byte(f, HULMBAX_KIND_NULL);
    put_number(f, 0, 2);
    put_byte(f, HULMBAX_KIND_DOUBLE);
    put_number(f, 1, 2);
    put_number(f, 0, 2);
}

/* The name of a schema's field, and whether a default follows. */
static void put_field(struct frame *f, const char *name, int has_default)
{
    put_text(f, name);
    put_byte(f, has_default ? 1 : 0);
}

static void put_schema(struct frame *f)
{
    put_record(f, 4);
    put_field(f, "sail", 0);
    put_byte(f, HULMBAX_KIND_STRING);
    put_field(f, "race", 0);
    put_byte(f, HULMBAX_KIND_INT);
    put_field(f, "elapsed", 1);
    put_byte(f, HULMBAX_KIND_NULL);
    put_nullable_double(f);
    put_field(f, "rating", 1);
    put_int(f, 1000);
    put_byte(f, HULMBAX_KIND_DOUBLE);
}

/* What is left of a frame that is being read. An accepted result has just the schema's fields, in
 * its order, so nothing has to be looked for. */
struct rest {
    const uint8_t *at;
};

static uint64_t get_number(struct rest *r, unsigned width)
{
    uint64_t number = 0;
    while (width-- > 0)
        number = number << 8 | *r->at++;
    return number;
}

static double get_double(struct rest *r)
{
    uint64_t bits = get_number(r, 8);
    double number;
    memcpy(&number, &bits, sizeof number);
    return number;
}

/* The name of a field and the kind byte of its value are passed over. */
static void enter_field(struct rest *r)
{
    r->at += get_number(r, 2);
    r->at++;
}

static void print_finish(const uint8_t *frame)
{
    struct rest r = {frame + 3}; /* behind the kind and the count of fields */
    enter_field(&r);
    int sail_len = (int)get_number(&r, 2);
    printf("%.*s", sail_len, (const char *)r.at);
    r.at += sail_len;
    enter_field(&r);
    printf(", race %d", (int)get_number(&r, 4));
    enter_field(&r);
    r.at += 4; /* the position of the variant, which the kind tells too */
    if (*r.at++ == HULMBAX_KIND_DOUBLE)
        printf(", %.2f s", get_double(&r));
    else
        printf(", no elapsed time");
    enter_field(&r);
    printf(", rating %.1f\n", get_double(&r));
}

static void resolve(const struct frame *record)
{
    static uint8_t result[HULMBAX_RESULT_LEN];
    static uint8_t workspace[HULMBAX_WORKSPACE_LEN]; /* static, so its bytes are set */
    static struct frame schema;
    if (schema.len == 0)
        put_schema(&schema);
    int32_t answer = hulmbax_resolve(schema.bytes, schema.len, record->bytes, record->len,
                                     result, sizeof result, workspace, sizeof workspace);
    if (answer > 0)
        print_finish(result);
    else
        printf("refused with %d: %s\n", (int)-answer, hulmbax_refusal_text(answer));
}

int main(void)
{
    struct frame whole_seconds = {{0}, 0}, no_time = {{0}, 0}, not_a_number = {{0}, 0}, as_text = {{0}, 0},
                 no_boat = {{0}, 0};

    put_record(&whole_seconds, 3);
    put_text(&whole_seconds, "race");
    put_int(&whole_seconds, 1);
    put_text(&whole_seconds, "sail");
    put_string(&whole_seconds, "A 12");
    put_text(&whole_seconds, "elapsed");
    put_int(&whole_seconds, 3601);

    put_record(&no_time, 2);
    put_text(&no_time, "sail");
    put_string(&no_time, "C 8");
    put_text(&no_time, "race");
    put_int(&no_time, 1);

    put_record(&not_a_number, 3);
    put_text(&not_a_number, "sail");
    put_string(&not_a_number, "B 19");
    put_text(&not_a_number, "race");
    put_int(&not_a_number, 1);
    put_text(&not_a_number, "elapsed");
    put_nan(&not_a_number);

    put_record(&as_text, 3);
    put_text(&as_text, "sail");
    put_string(&as_text, "C 3");
    put_text(&as_text, "race");
    put_int(&as_text, 1);
    put_text(&as_text, "elapsed");
    put_string(&as_text, "1:02:05");

    put_record(&no_boat, 1);
    put_text(&no_boat, "race");
    put_int(&no_boat, 1);

    resolve(&whole_seconds);
    resolve(&no_time);
    resolve(&not_a_number);
    resolve(&as_text);
    resolve(&no_boat);
    return 0;
}
