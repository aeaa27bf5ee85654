/* The calendar of the static library beside java.time.
 *
 *   calendar compare < LINES    each line of Calendar.java against the library
 *   calendar time               how long the calls take
 *
 * compare exits with 1 on a difference, 2 where the lines are not what they must be. */
#define _POSIX_C_SOURCE 200809L
#include "../../c/hulmbax.h"

#include <stdio.h>
#include <stdlib.h>
#include <string.h>
#include <time.h>

#define COUNT(list) (sizeof(list) / sizeof *(list))

/* The longest frame of a line, and room for three of them and a result in junk. */
#define MOST 65600
#define ROOM (5 * MOST)
/* A result buffer that is longer than any frame. */
#define LONG_RESULT 65600
/* How many differences are shown. */
#define SHOWN 10

/* ---- Memory: the slices of a call lie in junk, and what all of it must be afterwards is known. ---- */

static _Alignas(8) uint8_t memory[ROOM];
static uint8_t should[ROOM];
static size_t used;
static uint64_t state = 1;

static uint64_t bits(void)
{
    state ^= state << 13;
    state ^= state >> 7;
    state ^= state << 17;
    return state;
}

/* So many more bytes of junk. Answers where they begin. */
static size_t junk(size_t len)
{
    size_t at = used;
    for (size_t i = 0; i < len; i += 8) {
        uint64_t word = bits();
        memcpy(memory + at + i, &word, 8);
    }
    used += len;
    return at;
}

/* Begins a call: nothing is placed yet. */
static void begin(void)
{
    used = 0;
    junk(24 + bits() % 8);
}

/* A slice of these bytes, and junk behind it. */
static size_t place(const uint8_t *bytes, size_t len)
{
    size_t at = used;
    memcpy(memory + at, bytes, len);
    used += len;
    junk(24 + bits() % 8);
    return at;
}

/* A slice of junk that a call may write, and junk behind it. */
static size_t place_result(size_t len)
{
    size_t at = junk(len);
    junk(24 + bits() % 8);
    return at;
}

/* The same for numbers, at an address that suits them. */
static size_t place_slots(size_t slots)
{
    junk((4 - used % 4) % 4);
    return place_result(4 * slots);
}

static int32_t *slots_at(size_t at)
{
    return (int32_t *)(void *)(memory + at);
}

/* All is placed: afterwards it must be the same, but for the `len` bytes `at` where a result is due. */
static void expect(size_t at, const void *result, size_t len)
{
    memcpy(should, memory, used);
    memcpy(should + at, result, len);
}

/* ---- Counting ---- */

enum row { CIVIL, DATE, ADD_DATE, ADD_MILLIS, ADD_MICROS, ADD_NANOS, ADD_OTHER, HOLDS, ROWS };

static const char *const row_names[ROWS] = {
    "civil", "date", "add, Date", "add, TimestampMillis", "add, TimestampMicros", "add, TimestampNanos",
    "add, other", "holds"
};
static const int refusals[] = {5, 6, 18, 26, 27};

static struct { long cases, calls, accepted, refused[COUNT(refusals)]; } counts[ROWS];
static long inside, differ;
static const char *line;

static void count(enum row row, int32_t answer)
{
    counts[row].calls++;
    if (answer >= 0) counts[row].accepted++;
    if (row == HOLDS && answer == 1) inside++;
    for (size_t i = 0; i < COUNT(refusals); i++)
        if (answer == -refusals[i]) counts[row].refused[i]++;
}

/* Holds an answer, and all memory, to what they must be. `len` is the length that was handed over for the result. */
static void check(enum row row, size_t len, int32_t answer, int32_t right)
{
    count(row, answer);
    int same = memcmp(memory, should, used) == 0;
    if (answer == right && same) return;
    if (differ++ >= SHOWN) return;
    printf("differs: %.200s\n    result of length %zu: answers %d, must be %d%s\n", line, len, answer, right,
           same ? "" : "; memory is not what it must be");
}

static void print_counts(void)
{
    printf("%-22s%10s%11s%11s", "", "cases", "calls", "accepted");
    for (size_t i = 0; i < COUNT(refusals); i++) printf("%10d", refusals[i]);
    printf("\n");
    for (int row = 0; row < ROWS; row++) {
        printf("%-22s%10ld%11ld%11ld", row_names[row], counts[row].cases, counts[row].calls, counts[row].accepted);
        for (size_t i = 0; i < COUNT(refusals); i++) printf("%10ld", counts[row].refused[i]);
        printf("\n");
    }
    printf("holds: %ld inside, %ld outside\n", inside, counts[HOLDS].accepted - inside);
    printf("%ld differ\n", differ);
}

/* ---- The calls ---- */

struct frame { uint8_t bytes[MOST]; size_t len; };

static void try_civil(int32_t date, const int32_t parts[3])
{
    static const size_t lens[] = {0, 1, 2, 3, 4, 9};
    counts[CIVIL].cases++;
    for (size_t i = 0; i < COUNT(lens); i++) {
        int fits = lens[i] >= 3;
        begin();
        size_t at = place_slots(lens[i]);
        expect(at, parts, fits ? 12 : 0);
        check(CIVIL, lens[i], hulmbax_civil(date, slots_at(at), lens[i]), fits ? 3 : -18);
    }
}

/* right: 1 with the date, or a refusal */
static void try_date(const int32_t parts[3], int32_t right, int32_t date)
{
    static const size_t lens[] = {0, 1, 2, 7};
    counts[DATE].cases++;
    for (size_t i = 0; i < COUNT(lens); i++) {
        int32_t due = right == 1 && lens[i] == 0 ? -18 : right;
        begin();
        size_t at = place_slots(lens[i]);
        expect(at, &date, due == 1 ? 4 : 0);
        check(DATE, lens[i], hulmbax_date(parts[0], parts[1], parts[2], slots_at(at), lens[i]), due);
    }
}

static enum row add_row(const struct frame *instant)
{
    switch (instant->len ? instant->bytes[0] : 0) {
    case HULMBAX_KIND_DATE: return ADD_DATE;
    case HULMBAX_KIND_TIMESTAMP_MILLIS: return ADD_MILLIS;
    case HULMBAX_KIND_TIMESTAMP_MICROS: return ADD_MICROS;
    case HULMBAX_KIND_TIMESTAMP_NANOS: return ADD_NANOS;
    default: return ADD_OTHER;
    }
}

static void add_into(size_t len, const struct frame *instant, const struct frame *duration, int32_t right,
                     const struct frame *result)
{
    int32_t due = right > 0 && len < result->len ? -18 : right;
    begin();
    size_t first = place(instant->bytes, instant->len);
    size_t second = place(duration->bytes, duration->len);
    size_t at = place_result(len);
    expect(at, result->bytes, due > 0 ? result->len : 0);
    int32_t answer =
        hulmbax_add(memory + first, instant->len, memory + second, duration->len, memory + at, len);
    check(add_row(instant), len, answer, due);
}

/* right: the length of the result, or a refusal. The lengths are 0, one short, just enough and more for
 * either length of a result; once in a while also one past 65,535. */
static void try_add(const struct frame *instant, const struct frame *duration, int32_t right, const struct frame *result)
{
    static const size_t lens[] = {0, 4, 5, 6, 8, 9, 10, 40};
    long n = counts[add_row(instant)].cases++;
    for (size_t i = 0; i < COUNT(lens); i++) add_into(lens[i], instant, duration, right, result);
    if (n % 1000 == 0) add_into(LONG_RESULT, instant, duration, right, result);
}

static int equal(const struct frame *a, const struct frame *b)
{
    return a->len == b->len && memcmp(a->bytes, b->bytes, a->len) == 0;
}

/* An instant that is equal to the opening or the closing one is at times the same slice: they may overlap. */
static void try_holds(const struct frame frames[3], int32_t right)
{
    size_t at[3];
    counts[HOLDS].cases++;
    begin();
    for (int i = 0; i < 3; i++) at[i] = place(frames[i].bytes, frames[i].len);
    for (int i = 0; i < 2; i++)
        if (equal(&frames[i], &frames[2]) && bits() % 2) at[2] = at[i];
    expect(0, "", 0);
    int32_t answer = hulmbax_holds(memory + at[0], frames[0].len, memory + at[1], frames[1].len,
                                   memory + at[2], frames[2].len);
    check(HOLDS, 0, answer, right);
}

/* ---- The lines ---- */

static void bad_line(void)
{
    fprintf(stderr, "calendar: a line is not what it must be: %.200s\n", line);
    exit(2);
}

/* The next word of the line. */
static char *rest;

static char *word(void)
{
    char *w = strtok_r(NULL, " \n", &rest);
    if (!w) bad_line();
    return w;
}

static int32_t number(void)
{
    return (int32_t)strtol(word(), NULL, 10);
}

static int digit(char c)
{
    if (c >= '0' && c <= '9') return c - '0';
    if (c >= 'a' && c <= 'f') return c - 'a' + 10;
    bad_line();
    return 0;
}

/* A frame of the line; a full stop is an empty one. */
static void read_frame(struct frame *frame)
{
    const char *w = word();
    frame->len = 0;
    if (strcmp(w, ".") == 0) return;
    if (strlen(w) % 2 || strlen(w) / 2 > MOST) bad_line();
    for (; *w; w += 2) frame->bytes[frame->len++] = (uint8_t)(digit(w[0]) << 4 | digit(w[1]));
}

/* Whether the answer is an outcome; else *right is the refusal. */
static int accepted(int32_t *right)
{
    if (*word() == '+') return 1;
    *right = -number();
    return 0;
}

static void civil_line(void)
{
    int32_t right, date = number(), parts[3];
    if (!accepted(&right)) bad_line();
    for (int i = 0; i < 3; i++) parts[i] = number();
    try_civil(date, parts);
}

static void date_line(void)
{
    int32_t parts[3], right = 1, date = 0;
    for (int i = 0; i < 3; i++) parts[i] = number();
    if (accepted(&right)) date = number();
    try_date(parts, right, date);
}

static void add_line(void)
{
    static struct frame instant, duration, result;
    int32_t right;
    read_frame(&instant);
    read_frame(&duration);
    result.len = 0;
    if (accepted(&right)) {
        read_frame(&result);
        right = (int32_t)result.len;
    }
    try_add(&instant, &duration, right, &result);
}

static void holds_line(void)
{
    static struct frame frames[3];
    int32_t right;
    for (int i = 0; i < 3; i++) read_frame(&frames[i]);
    if (accepted(&right)) right = number();
    try_holds(frames, right);
}

/* One line that is a call. */
static void call_line(char *text)
{
    static char *words;
    static size_t room;
    size_t len = strlen(text) + 1;
    if (len > room) words = realloc(words, room = len);
    memcpy(words, text, len);
    text[strcspn(text, "\n")] = 0;
    line = text;
    const char *call = strtok_r(words, " \n", &rest);
    if (!call) bad_line();
    else if (strcmp(call, "civil") == 0) civil_line();
    else if (strcmp(call, "date") == 0) date_line();
    else if (strcmp(call, "add") == 0) add_line();
    else if (strcmp(call, "holds") == 0) holds_line();
    else bad_line();
}

static int compare(void)
{
    char *text = NULL;
    size_t room = 0;
    long lines = 0, ended = -1;
    while (getline(&text, &room, stdin) > 0) {
        if (text[0] == '#') printf("%s", text + 2);
        else if (sscanf(text, "end %ld", &ended) == 1) break;
        else { call_line(text); lines++; }
    }
    free(text);
    if (ended != lines) {
        fprintf(stderr, "calendar: lines are missing: there were %ld\n", lines);
        return 2;
    }
    print_counts();
    return differ ? 1 : 0;
}

/* ---- How long the calls take ---- */

#define LISTED 1024
#define PASSES 7

/* Frames of one kind, and Durations, always the same. */
static struct { uint8_t instant[9], duration[13]; int32_t date, parts[3]; } list[LISTED];
static volatile int32_t kept;

static void put_high_first(uint8_t *to, uint64_t n, int len)
{
    for (int i = 0; i < len; i++) to[i] = (uint8_t)(n >> (8 * (len - 1 - i)));
}

static void put_low_first(uint8_t *to, uint32_t n)
{
    for (int i = 0; i < 4; i++) to[i] = (uint8_t)(n >> (8 * i));
}

static int frame_len(int kind)
{
    return kind == HULMBAX_KIND_DATE ? 5 : 9;
}

/* How many of the kind's unit a day has. */
static int64_t per_day(int kind)
{
    switch (kind) {
    case HULMBAX_KIND_DATE: return 1;
    case HULMBAX_KIND_TIMESTAMP_MILLIS: return 86400000;
    case HULMBAX_KIND_TIMESTAMP_MICROS: return 86400000000;
    default: return 86400000000000;
    }
}

/* Instants of the years 1900 to 2100 or so, or of the lower half of the kind's range, and Durations of up
 * to four years. */
static void make_list(int kind, int whole)
{
    int width = kind == HULMBAX_KIND_DATE ? 32 : 64;
    state = 9;
    for (int i = 0; i < LISTED; i++) {
        int64_t days = (int64_t)(bits() % 73000) - 25567;
        int64_t n = days * per_day(kind) + (int64_t)(bits() % (uint64_t)per_day(kind));
        if (whole) n = -(int64_t)(bits() >> (65 - width)) - 1;
        list[i].instant[0] = (uint8_t)kind;
        put_high_first(list[i].instant + 1, (uint64_t)n, width / 8);
        list[i].duration[0] = HULMBAX_KIND_DURATION;
        put_low_first(list[i].duration + 1, bits() % 48);
        put_low_first(list[i].duration + 5, bits() % 60);
        put_low_first(list[i].duration + 9, kind == HULMBAX_KIND_DATE ? 0 : bits() % 86400000);
        list[i].date = (int32_t)n;
        hulmbax_civil(list[i].date, list[i].parts, 3);
    }
}

static void run_civil(int i, int kind)
{
    int32_t parts[3];
    (void)kind;
    kept = hulmbax_civil(list[i].date, parts, 3);
}

static void run_date(int i, int kind)
{
    int32_t date;
    (void)kind;
    kept = hulmbax_date(list[i].parts[0], list[i].parts[1], list[i].parts[2], &date, 1);
}

static void run_add(int i, int kind)
{
    uint8_t result[9];
    kept = hulmbax_add(list[i].instant, frame_len(kind), list[i].duration, 13, result, sizeof result);
}

static void run_holds(int i, int kind)
{
    size_t len = frame_len(kind);
    kept = hulmbax_holds(list[i].instant, len, list[(i + 1) % LISTED].instant, len, list[(i + 2) % LISTED].instant, len);
}

static double now(void)
{
    struct timespec t;
    clock_gettime(CLOCK_MONOTONIC, &t);
    return t.tv_sec * 1e9 + t.tv_nsec;
}

/* Nanoseconds for a call over the list: the fastest of some passes, each of about 2^18 calls. */
static double nanoseconds(void (*run)(int, int), int kind)
{
    double best = 1e30;
    for (int pass = 0; pass < PASSES; pass++) {
        double start = now();
        for (int round = 0; round < 256; round++)
            for (int i = 0; i < LISTED; i++) run(i, kind);
        double took = (now() - start) / (256.0 * LISTED);
        if (took < best) best = took;
    }
    return best;
}

static void time_row(const char *name, void (*run)(int, int), int kind)
{
    make_list(kind, 0);
    double sensible = nanoseconds(run, kind);
    make_list(kind, 1);
    printf("%-24s%14.1f%14.1f\n", name, sensible, nanoseconds(run, kind));
}

static int times(void)
{
    printf("%-24s%14s%14s\n", "ns for a call", "1900 to 2100", "lower half");
    time_row("civil", run_civil, HULMBAX_KIND_DATE);
    time_row("date", run_date, HULMBAX_KIND_DATE);
    time_row("add, Date", run_add, HULMBAX_KIND_DATE);
    time_row("add, TimestampMillis", run_add, HULMBAX_KIND_TIMESTAMP_MILLIS);
    time_row("add, TimestampMicros", run_add, HULMBAX_KIND_TIMESTAMP_MICROS);
    time_row("add, TimestampNanos", run_add, HULMBAX_KIND_TIMESTAMP_NANOS);
    time_row("holds, Date", run_holds, HULMBAX_KIND_DATE);
    time_row("holds, TimestampMillis", run_holds, HULMBAX_KIND_TIMESTAMP_MILLIS);
    return 0;
}

int main(int argc, char **argv)
{
    if (argc == 2 && strcmp(argv[1], "compare") == 0) return compare();
    if (argc == 2 && strcmp(argv[1], "time") == 0) return times();
    fprintf(stderr, "usage: calendar compare < LINES, or calendar time\n");
    return 2;
}
