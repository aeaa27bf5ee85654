/* The calendar of a regatta: whether entries came within their window, until when protests are taken,
 * and what a month after the last of January is.
 */
#include "hulmbax.h"

#include <stdio.h>
#include <stdlib.h>

#define MILLIS_OF_DAY 86400000

/* A frame of one number has at most 9 bytes, that of a duration 13. */
struct frame {
    uint8_t bytes[13];
    size_t len;
};

static void put_byte(struct frame *f, unsigned byte)
{
    f->bytes[f->len++] = (uint8_t)byte;
}

/* A number of so many bytes, high byte first. */
static void put_number(struct frame *f, uint64_t number, unsigned width)
{
    while (width-- > 0)
        put_byte(f, (unsigned)(number >> (8 * width)) & 0xff);
}

/* A part of a duration has its low byte first. */
static void put_part(struct frame *f, uint32_t number)
{
    for (unsigned i = 0; i < 4; i++)
        put_byte(f, (unsigned)(number >> (8 * i)) & 0xff);
}

static uint64_t get_number(const uint8_t *at, unsigned width)
{
    uint64_t number = 0;
    while (width-- > 0)
        number = number << 8 | *at++;
    return number;
}

static struct frame duration_frame(uint32_t months, uint32_t days, uint32_t millis)
{
    struct frame f = {{0}, 0};
    put_byte(&f, HULMBAX_KIND_DURATION);
    put_part(&f, months);
    put_part(&f, days);
    put_part(&f, millis);
    return f;
}

static struct frame date_frame(int32_t date)
{
    struct frame f = {{0}, 0};
    put_byte(&f, HULMBAX_KIND_DATE);
    put_number(&f, (uint32_t)date, 4);
    return f;
}

static struct frame timestamp_frame(int64_t millis)
{
    struct frame f = {{0}, 0};
    put_byte(&f, HULMBAX_KIND_TIMESTAMP_MILLIS);
    put_number(&f, (uint64_t)millis, 8);
    return f;
}

static void print_refusal(int32_t answer)
{
    printf("refused with %d: %s\n", (int)-answer, hulmbax_refusal_text(answer));
}

/* The Date of a day that is in the calendar. */
static int32_t date_of(int32_t year, int32_t month, int32_t day)
{
    int32_t date;
    if (hulmbax_date(year, month, day, &date, 1) != 1)
        exit(1);
    return date;
}

/* That day at a time of day: the hour, the minute, and milliseconds of the minute. */
static int64_t at(int32_t date, int hour, int minute, int millis)
{
    return (int64_t)date * MILLIS_OF_DAY + (hour * 60 + minute) * 60000 + millis;
}

/* The answer; the sum's frame goes to sum, of HULMBAX_SUM_LEN bytes. */
static int32_t add(struct frame instant, struct frame duration, uint8_t *sum)
{
    return hulmbax_add(instant.bytes, instant.len, duration.bytes, duration.len, sum, HULMBAX_SUM_LEN);
}

static void print_date(int32_t date)
{
    int32_t civil[3];
    if (hulmbax_civil(date, civil, 3) != 3)
        exit(1);
    printf("%04d-%02d-%02d", (int)civil[0], (int)civil[1], (int)civil[2]);
}

/* A timestamp after 1970, in UTC. */
static void print_timestamp(int64_t millis)
{
    int of_day = (int)(millis % MILLIS_OF_DAY);
    print_date((int32_t)(millis / MILLIS_OF_DAY));
    printf(" %02d:%02d:%02d.%03d", of_day / 3600000, of_day / 60000 % 60, of_day / 1000 % 60, of_day % 1000);
}

/* Whether entries are taken at a time: from the first of May to before the first of June. */
static void print_entry(int64_t sent)
{
    struct frame opening = timestamp_frame(at(date_of(2024, 5, 1), 0, 0, 0));
    struct frame closing = timestamp_frame(at(date_of(2024, 6, 1), 0, 0, 0));
    struct frame instant = timestamp_frame(sent);
    int32_t answer = hulmbax_holds(opening.bytes, opening.len, closing.bytes, closing.len,
                                   instant.bytes, instant.len);
    printf("entry of ");
    print_timestamp(sent);
    if (answer < 0) {
        printf(": ");
        print_refusal(answer);
    } else {
        printf(answer == 1 ? ": taken\n" : ": outside the window\n");
    }
}

/* Protests are taken for so many milliseconds after the last finish. */
static void print_protest_limit(int64_t last_finish, uint32_t millis)
{
    uint8_t sum[HULMBAX_SUM_LEN];
    int32_t answer = add(timestamp_frame(last_finish), duration_frame(0, 0, millis), sum);
    printf("last finish ");
    print_timestamp(last_finish);
    printf(", protests until ");
    if (answer < 0) {
        print_refusal(answer);
    } else {
        print_timestamp((int64_t)get_number(sum + 1, 8));
        printf("\n");
    }
}

/* A date, and what a duration after it is. */
static void print_later(int32_t date, uint32_t months, uint32_t days, uint32_t millis)
{
    uint8_t sum[HULMBAX_SUM_LEN];
    int32_t answer = add(date_frame(date), duration_frame(months, days, millis), sum);
    print_date(date);
    printf(" and %u months %u days %u ms: ", (unsigned)months, (unsigned)days, (unsigned)millis);
    if (answer < 0) {
        print_refusal(answer);
    } else {
        print_date((int32_t)get_number(sum + 1, 4));
        printf("\n");
    }
}

int main(void)
{
    int32_t date;

    print_entry(at(date_of(2024, 5, 1), 0, 0, 0));
    print_entry(at(date_of(2024, 5, 31), 23, 59, 59999));
    print_entry(at(date_of(2024, 6, 1), 0, 0, 0));

    print_protest_limit(at(date_of(2024, 6, 8), 15, 42, 10250), 90 * 60000);

    print_later(date_of(2023, 1, 31), 1, 0, 0);
    print_later(date_of(2024, 1, 31), 1, 0, 0);
    print_later(date_of(2024, 1, 31), 0, 0, 1000);

    printf("30 February 2024: ");
    print_refusal(hulmbax_date(2024, 2, 30, &date, 1));
    return 0;
}
