/* A race in which crews correct their finishes by entering them again: brings each entry to the sheet's
 * schema, keeps the results one behind another, and prints the sheet from the current ones.
 */
#include "hulmbax.h"

#include <stdio.h>
#include <string.h>

/* A frame that is being written; what is written here fits. */
struct frame {
    uint8_t bytes[128];
    size_t len;
};

/* The entries of a race: their frames one behind another, and where each ends. */
struct race {
    uint8_t frames[4096];
    size_t ends[HULMBAX_MAX_FINISHES];
    size_t count;
};

static uint8_t workspace[HULMBAX_WORKSPACE_LEN]; /* static, so its bytes are set */

static void put_byte(struct frame *f, unsigned byte)
{
    f->bytes[f->len++] = (uint8_t)byte;
}

/* A number of so many bytes, high byte first. */
static void put_number(struct frame *f, uint64_t number, unsigned width)
{
    while (width-- > 0)
        put_byte(f, (unsigned)(number >> (8 * width)) & 0xff);
}

static void put_text(struct frame *f, const char *text)
{
    size_t len = strlen(text);
    put_number(f, len, 2);
    memcpy(f->bytes + f->len, text, len);
    f->len += len;
}

static void put_int(struct frame *f, int32_t number)
{
    put_byte(f, HULMBAX_KIND_INT);
    put_number(f, (uint32_t)number, 4);
}

static void put_string(struct frame *f, const char *text)
{
    put_byte(f, HULMBAX_KIND_STRING);
    put_text(f, text);
}

static void put_record(struct frame *f, unsigned fields)
{
    put_byte(f, HULMBAX_KIND_RECORD);
    put_number(f, fields, 2);
}

/* Null or Double: two variants, the table of kinds with a position for each, and no named ones. */
static void put_nullable_double(struct frame *f)
{
    static const uint8_t schema[] = {
        HULMBAX_KIND_UNION, 0, 2, HULMBAX_KIND_NULL, HULMBAX_KIND_DOUBLE,
        0, 2, HULMBAX_KIND_NULL, 0, 0, HULMBAX_KIND_DOUBLE, 0, 1, 0, 0
    };
    memcpy(f->bytes + f->len, schema, sizeof schema);
    f->len += sizeof schema;
}

/* The sheet's schema: a sail, a seq that is 0 where none is sent, and an elapsed time or none. The byte
 * behind a field's name tells whether a default follows. */
static struct frame sheet_schema(void)
{
    struct frame f = {{0}, 0};
    put_record(&f, 3);
    put_text(&f, "sail");
    put_byte(&f, 0);
    put_byte(&f, HULMBAX_KIND_STRING);
    put_text(&f, "seq");
    put_byte(&f, 1);
    put_int(&f, 0); /* a default as JSON gives it is an Int, and becomes the Long that is asked for */
    put_byte(&f, HULMBAX_KIND_LONG);
    put_text(&f, "elapsed");
    put_byte(&f, 1);
    put_byte(&f, HULMBAX_KIND_NULL);
    put_nullable_double(&f);
    return f;
}

/* A finish as a club sends it: without a seq. */
static struct frame first_entry(const char *sail, int32_t seconds)
{
    struct frame f = {{0}, 0};
    put_record(&f, 2);
    put_text(&f, "sail");
    put_string(&f, sail);
    put_text(&f, "elapsed");
    put_int(&f, seconds);
    return f;
}

/* A finish as a crew enters it again: with a seq, and a time in seconds or, where that is 0, none. */
static struct frame correction(const char *sail, int32_t seq, int32_t seconds)
{
    struct frame f = {{0}, 0};
    put_record(&f, seconds != 0 ? 3 : 2);
    put_text(&f, "sail");
    put_string(&f, sail);
    put_text(&f, "seq");
    put_int(&f, seq);
    if (seconds != 0) {
        put_text(&f, "elapsed");
        put_int(&f, seconds);
    }
    return f;
}

static void print_refusal(int32_t answer)
{
    printf("refused with %d: %s\n", (int)-answer, hulmbax_refusal_text(answer));
}

/* Where the frame at a place begins, and where the next one will. */
static size_t start_of(const struct race *race, size_t place)
{
    return place == 0 ? 0 : race->ends[place - 1];
}

/* Brings an entry to the sheet's schema; the result goes behind those that are there. */
static void enter(struct race *race, struct frame entry)
{
    struct frame schema = sheet_schema();
    size_t start = start_of(race, race->count);
    int32_t answer;

    if (race->count == HULMBAX_MAX_FINISHES) {
        print_refusal(-HULMBAX_TOO_MANY_FRAMES);
        return;
    }
    answer = hulmbax_resolve(schema.bytes, schema.len, entry.bytes, entry.len, race->frames + start,
                             sizeof race->frames - start, workspace, sizeof workspace);
    if (answer < 0)
        print_refusal(answer);
    else
        race->ends[race->count++] = start + (size_t)answer;
}

static uint64_t get_number(const uint8_t **at, unsigned width)
{
    uint64_t number = 0;
    while (width-- > 0)
        number = number << 8 | *(*at)++;
    return number;
}

/* The name of a field and the kind byte of its value are passed over. */
static void enter_field(const uint8_t **at)
{
    size_t name_len = (size_t)get_number(at, 2);
    *at += name_len + 1;
}

/* A result has just the schema's fields, in its order, so nothing has to be looked for. */
static void print_finish(const uint8_t *frame)
{
    const uint8_t *at = frame + 3; /* behind the kind and the count of fields */
    enter_field(&at);
    int sail_len = (int)get_number(&at, 2);
    printf("  %.*s", sail_len, (const char *)at);
    at += sail_len;
    enter_field(&at);
    printf(", seq %ld", (long)(int64_t)get_number(&at, 8));
    enter_field(&at);
    at += 4; /* the position of the variant, which the kind tells too */
    if (*at++ == HULMBAX_KIND_DOUBLE) {
        uint64_t bits = get_number(&at, 8);
        double seconds;
        memcpy(&seconds, &bits, sizeof seconds);
        printf(", %.2f s\n", seconds);
    } else {
        printf(", no elapsed time\n");
    }
}

/* The current finish of each boat, in the order in which the boats came in. */
static void print_sheet(const struct race *race, const char *title)
{
    uint8_t places[HULMBAX_MAX_FINISHES];
    int32_t answer = hulmbax_current(race->frames, start_of(race, race->count), race->ends, race->count,
                                     places, sizeof places, workspace, sizeof workspace);
    printf("%s: ", title);
    if (answer < 0) {
        print_refusal(answer);
        return;
    }
    printf("%d boats, %d entries\n", (int)answer, (int)race->count);
    for (int32_t i = 0; i < answer; i++)
        print_finish(race->frames + start_of(race, places[i]));
}

/* An entry as it was sent, which nobody brought to the sheet's schema. */
static void enter_as_sent(struct race *race, struct frame entry)
{
    size_t start = start_of(race, race->count);
    memcpy(race->frames + start, entry.bytes, entry.len);
    race->ends[race->count++] = start + entry.len;
}

int main(void)
{
    static struct race race; /* static, so it is empty and its bytes are set */

    print_sheet(&race, "before the first finish");

    enter(&race, first_entry("B 7", 3598));
    enter(&race, first_entry("A 12", 3601));
    enter(&race, first_entry("C 5", 3650));
    print_sheet(&race, "as they finished");

    enter(&race, correction("A 12", 2, 3591));
    enter(&race, correction("A 12", 1, 3589)); /* came in late: seq 2 stays current */
    enter(&race, correction("C 5", 0, 3640));  /* an equal seq: the later one is current */
    enter(&race, correction("B 7", 1, 0));     /* did not finish after all */
    print_sheet(&race, "corrected");

    enter_as_sent(&race, first_entry("C 8", 3702));
    print_sheet(&race, "with an entry that has no seq");
    return 0;
}
