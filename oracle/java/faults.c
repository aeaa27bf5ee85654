/* The calendar with one fault (-DFAULT=1 to 43) around the true one, to see that the comparison finds it.
 * With -DFAULT=0 there is none. */
#include <limits.h>
#include <stddef.h>
#include <stdint.h>
#include <string.h>

int32_t true_civil(int32_t date, int32_t *year_month_day, size_t slots);
int32_t true_date(int32_t year, int32_t month, int32_t day, int32_t *date, size_t slots);
int32_t true_add(const uint8_t *instant, size_t instant_len, const uint8_t *duration, size_t duration_len,
                 uint8_t *result, size_t result_len);
int32_t true_holds(const uint8_t *opening, size_t opening_len, const uint8_t *closing, size_t closing_len,
                   const uint8_t *instant, size_t instant_len);

/* Frames: their numbers, and Durations. Only some faults need each of these. */

static inline int is_instant(const uint8_t *frame, size_t len)
{
    return (len == 5 && frame[0] == 0x10) || (len == 9 && frame[0] >= 0x13 && frame[0] <= 0x15);
}

static inline int64_t number(const uint8_t *frame)
{
    uint64_t n = 0;
    int len = frame[0] == 0x10 ? 4 : 8;
    for (int i = 1; i <= len; i++) n = n << 8 | frame[i];
    return len == 4 ? (int32_t)n : (int64_t)n;
}

static inline void set_number(uint8_t *frame, int64_t n)
{
    int len = frame[0] == 0x10 ? 4 : 8;
    for (int i = len; i >= 1; i--) {
        frame[i] = (uint8_t)n;
        n >>= 8;
    }
}

static inline int64_t per_milli(const uint8_t *frame)
{
    return frame[0] == 0x13 ? 1 : frame[0] == 0x14 ? 1000 : 1000000;
}

static inline int64_t per_day(const uint8_t *frame)
{
    return frame[0] == 0x10 ? 1 : 86400000 * per_milli(frame);
}

static inline uint32_t part(const uint8_t *duration, int which)
{
    const uint8_t *p = duration + 1 + 4 * which;
    return p[0] | p[1] << 8 | p[2] << 16 | (uint32_t)p[3] << 24;
}

/* The true sum with a Duration of these parts. */
static inline int32_t sum(const uint8_t *instant, uint32_t months, uint32_t days, uint32_t millis, uint8_t result[9])
{
    uint32_t parts[3] = {months, days, millis};
    uint8_t duration[13] = {0x19};
    for (int i = 0; i < 12; i++) duration[1 + i] = (uint8_t)(parts[i / 4] >> (8 * (i % 4)));
    return true_add(instant, instant[0] == 0x10 ? 5 : 9, duration, 13, result, 9);
}

/* The day of its month on which an instant stands, 0 where that isn't within Date. */
static inline int32_t day_of_month(const uint8_t *instant)
{
    int64_t n = number(instant), day = n / per_day(instant) - (n % per_day(instant) < 0);
    int32_t parts[3];
    if (day < INT32_MIN || day > INT32_MAX) return 0;
    true_civil((int32_t)day, parts, 3);
    return parts[2];
}

/* Sums that are made wrongly: what such a fault puts into the place of the true one. */

/* 31 January and one month give 3 March */
static inline int32_t without_clamp(const uint8_t *instant, const uint8_t *duration, uint8_t result[9])
{
    uint8_t step[9];
    if (sum(instant, part(duration, 0), 0, 0, step) < 0) return -27;
    int32_t lost = day_of_month(step) ? day_of_month(instant) - day_of_month(step) : 0;
    uint32_t days = part(duration, 1) + (lost > 0 ? lost : 0);
    return sum(instant, part(duration, 0), days, part(duration, 2), result);
}

/* 31 January 2024 and one month give the 28th */
static inline int32_t clamped_to_28(const uint8_t *instant, const uint8_t *duration, uint8_t result[9])
{
    uint8_t step[9];
    if (sum(instant, part(duration, 0), 0, 0, step) < 0) return -27;
    if (day_of_month(step) == 29 && day_of_month(instant) > 29) set_number(step, number(step) - per_day(step));
    return sum(step, 0, part(duration, 1), part(duration, 2), result);
}

static inline int32_t millis_first(const uint8_t *instant, const uint8_t *duration, uint8_t result[9])
{
    uint8_t step[9];
    if (sum(instant, 0, 0, part(duration, 2), step) < 0) return -27;
    return sum(step, part(duration, 0), part(duration, 1), 0, result);
}

static inline int32_t days_first(const uint8_t *instant, const uint8_t *duration, uint8_t result[9])
{
    uint8_t step[9];
    if (sum(instant, 0, part(duration, 1), 0, step) < 0) return -27;
    return sum(step, part(duration, 0), 0, part(duration, 2), result);
}

/* the day of an instant before 1970 is the one after it */
static inline int32_t towards_zero(const uint8_t *instant, const uint8_t *duration, uint8_t result[9])
{
    uint8_t midnight[9], step[9];
    int64_t rest = number(instant) % per_day(instant);
    midnight[0] = instant[0];
    set_number(midnight, number(instant) - rest);
    if (sum(midnight, part(duration, 0), 0, 0, step) < 0) return -27;
    set_number(step, number(step) + rest);
    return sum(step, 0, part(duration, 1), part(duration, 2), result);
}

/* each part is read high byte first */
static inline int32_t high_first(const uint8_t *instant, const uint8_t *duration, uint8_t result[9])
{
    return sum(instant, __builtin_bswap32(part(duration, 0)), __builtin_bswap32(part(duration, 1)),
               __builtin_bswap32(part(duration, 2)), result);
}

/* Whether the midnight before an instant is below the range. */
static inline int in_first_day(const uint8_t *instant)
{
    int64_t rest = number(instant) % per_day(instant);
    return number(instant) < 0 && rest < 0 && number(instant) < INT64_MIN + per_day(instant) + rest;
}

int32_t hulmbax_civil(int32_t date, int32_t *year_month_day, size_t slots)
{
    int32_t n = true_civil(date, year_month_day, slots);
#if FAULT == 1 /* 1900 has a 29 February: its 1 March is that, and each later day of the year the one before */
    if (n == 3 && date >= -25508 && date < -25202) {
        true_civil(date - 1, year_month_day, slots);
        if (date == -25508) year_month_day[2] = 29;
    }
#elif FAULT == 2 /* no year 0: the one before year 1 is -1 */
    if (n == 3 && year_month_day[0] <= 0) year_month_day[0]--;
#elif FAULT == 3 /* changes a fourth slot */
    if (n == 3 && slots > 3) year_month_day[3] ^= 1;
#elif FAULT == 4 /* changes slots though they are too few */
    if (n == -18 && slots) year_month_day[slots - 1] ^= 1;
#elif FAULT == 5 /* 18 though three slots are enough */
    if (n == 3 && slots == 3) return -18;
#endif
    return n;
}

int32_t hulmbax_date(int32_t year, int32_t month, int32_t day, int32_t *date, size_t slots)
{
#if FAULT == 6 /* every fourth year has a 29 February */
    if (year % 4 == 0 && month == 2 && day == 29) {
        int32_t n = true_date(year, 2, 28, date, slots);
        if (n == 1) ++*date;
        return n;
    }
#elif FAULT == 7 /* month 0 is the December before */
    if (month == 0 && year > INT32_MIN) return true_date(year - 1, 12, day, date, slots);
#elif FAULT == 8 /* looks at the low byte of month and day only */
    month = (uint8_t)month, day = (uint8_t)day;
#elif FAULT == 9 /* every month has 31 days */
    if (day == 31 && (month == 4 || month == 6 || month == 9 || month == 11)) month++, day = 1;
#elif FAULT == 10 /* 18 before 27 */
    if (slots == 0) return -18;
#endif
    int32_t n = true_date(year, month, day, date, slots);
#if FAULT == 11 /* writes on a refusal */
    if (n == -27 && slots) *date = 0;
#elif FAULT == 12 /* the greatest Date is refused */
    if (n == 1 && *date == INT32_MAX) return -27;
#elif FAULT == 13 /* changes a second slot */
    if (n == 1 && slots > 1) date[1] ^= 1;
#endif
    return n;
}

int32_t hulmbax_add(const uint8_t *instant, size_t instant_len, const uint8_t *duration, size_t duration_len,
                    uint8_t *result, size_t result_len)
{
#if FAULT == 14 /* takes a Union off */
    if (instant_len > 5 && instant[0] == 0x0a) instant += 5, instant_len -= 5;
#endif
    int32_t n = true_add(instant, instant_len, duration, duration_len, result, result_len);
    int accepted = n > 0;
    uint8_t other[9];
    int32_t m = 0;
    (void)accepted, (void)other;
#if FAULT == 15
    if (accepted) m = without_clamp(instant, duration, other);
#elif FAULT == 16
    if (accepted) m = clamped_to_28(instant, duration, other);
#elif FAULT == 17
    if (accepted) m = millis_first(instant, duration, other);
#elif FAULT == 18
    if (accepted) m = days_first(instant, duration, other);
#elif FAULT == 19
    if (accepted) m = towards_zero(instant, duration, other);
#elif FAULT == 20
    if (accepted) m = high_first(instant, duration, other);
#elif FAULT == 21 /* milliseconds are taken with a sign */
    if (accepted && part(duration, 2) > INT32_MAX) set_number(result, number(result) - (per_milli(result) << 32));
#elif FAULT == 22 /* milliseconds are added to microseconds as they are */
    if (accepted && result[0] == 0x14) set_number(result, number(result) - 999 * (int64_t)part(duration, 2));
#elif FAULT == 23 /* the greatest instant is refused */
    if (accepted && number(result) == (result[0] == 0x10 ? INT32_MAX : INT64_MAX)) return -27;
#elif FAULT == 24 /* instants of the first day, whose midnight is below the range, are refused */
    if (accepted && in_first_day(instant)) return -27;
#elif FAULT == 25 /* 27 before 26 */
    if (n == -26 && sum(instant, part(duration, 0), part(duration, 1), 0, other) == -27) return -27;
#elif FAULT == 26 /* milliseconds on a Date are dropped */
    if (n == -26 && result_len >= 5) return sum(instant, part(duration, 0), part(duration, 1), 0, result);
#elif FAULT == 27 /* 18 before 27 */
    if (n == -27 && result_len < instant_len) return -18;
#elif FAULT == 28 /* 6 before 5 */
    if (n == -5 && is_instant(instant, instant_len) && duration_len && duration[0] != 0x19) return -6;
#elif FAULT == 29 /* writes on a refusal */
    if (n == -27 && result_len) result[0] = instant[0];
#elif FAULT == 30 /* writes what fits of a result */
    if (n == -18) memcpy(result, instant, result_len);
#elif FAULT == 31 /* changes the byte past the result */
    if (accepted && (size_t)n < result_len) result[n] ^= 1;
#elif FAULT == 32 /* changes the byte past the buffer */
    if (accepted) result[result_len] ^= 1;
#elif FAULT == 33 /* 18 though the result just fits */
    if (accepted && (size_t)n == result_len) return -18;
#elif FAULT == 34 /* changes the duration */
    if (accepted) ((uint8_t *)duration)[12] ^= 1;
#endif
    if (m > 0) memcpy(result, other, m);
    return m ? m : n;
}

int32_t hulmbax_holds(const uint8_t *opening, size_t opening_len, const uint8_t *closing, size_t closing_len,
                      const uint8_t *instant, size_t instant_len)
{
    int32_t n = true_holds(opening, opening_len, closing, closing_len, instant, instant_len);
#if FAULT == 35 /* closed at its end */
    if (n == 0 && number(instant) == number(closing) && number(opening) < number(closing)) return 1;
#elif FAULT == 36 /* a window of no length holds its instant */
    if (n == 0 && number(instant) == number(opening) && number(opening) == number(closing)) return 1;
#elif FAULT == 37 /* open at its beginning */
    if (n == 1 && number(instant) == number(opening)) return 0;
#elif FAULT == 38 /* one that closes before its opening holds what is between */
    if (n == 0) return true_holds(closing, closing_len, opening, opening_len, instant, instant_len);
#elif FAULT == 39 /* compares without a sign */
    if (n >= 0) return (uint64_t)number(opening) <= (uint64_t)number(instant) && (uint64_t)number(instant) < (uint64_t)number(closing);
#elif FAULT == 40 /* compares instants of several kinds */
    if (n == -6 && is_instant(opening, opening_len) && is_instant(closing, closing_len) && is_instant(instant, instant_len))
        return number(opening) <= number(instant) && number(instant) < number(closing);
#elif FAULT == 41 /* looks only at the kinds of opening and closing */
    if (n == -6 && instant_len && is_instant(opening, opening_len) && opening[0] == closing[0] && instant[0] != opening[0]) return 0;
#elif FAULT == 42 /* 6 before 5 */
    if (n == -5 && instant_len && instant[0] == 0x19) return -6;
#elif FAULT == 43 /* takes LocalTimestamps too */
    if (n == -6 && instant_len == 9 && instant[0] >= 0x16 && instant[0] <= 0x18) return 0;
#endif
    return n;
}
