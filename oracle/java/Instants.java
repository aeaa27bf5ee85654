import java.math.BigInteger;
import java.time.LocalDate;
import java.time.LocalDateTime;
import java.time.YearMonth;
import java.time.temporal.ChronoUnit;

/** Picks days, instants and Durations: all over their ranges, and often where a calendar can go wrong. */
final class Instants {
    private static final Integer[] YEARS = {
        -400, -101, -100, -99, -5, -4, -3, -1, 0, 1, 3, 4, 5, 99, 100, 101, 400, 1582, 1600, 1700, 1800, 1899, 1900,
        1901, 1969, 1970, 1971, 1972, 1999, 2000, 2001, 2023, 2024, 2100, 2400, 9999, 10000,
    };
    /** The years of the first and the last Date. */
    private static final int FIRST = LocalDate.ofEpochDay(Integer.MIN_VALUE).getYear();
    private static final int LAST = LocalDate.ofEpochDay(Integer.MAX_VALUE).getYear();

    private final Rng rng;

    Instants(Rng rng) {
        this.rng = rng;
    }

    int year() {
        return switch (rng.below(8)) {
            case 0, 1 -> rng.of(YEARS);
            case 2, 3 -> (int) rng.between(1670, 2270);
            case 4 -> 100 * (int) rng.between(-100, 100);
            case 5 -> 400 * (int) rng.between(FIRST / 400, LAST / 400);
            case 6 -> rng.oneIn(2) ? FIRST + rng.below(4) : LAST - rng.below(4);
            default -> (int) rng.between(FIRST, LAST);
        };
    }

    /** The last day of a month, often of February or December, or one within three of it. */
    long monthEnd() {
        int month = switch (rng.below(6)) {
            case 0, 1 -> 2;
            case 2 -> 12;
            default -> 1 + rng.below(12);
        };
        long beside = rng.oneIn(2) ? 0 : rng.between(-3, 3);
        return YearMonth.of(year(), month).atEndOfMonth().toEpochDay() + beside;
    }

    /** An instant of the kind; those of a Timestamp often stand at a midnight or just beside it. */
    long instant(Kind kind) {
        for (;;) {
            BigInteger number = switch (rng.below(8)) {
                case 0, 1 -> BigInteger.valueOf(rng.between(kind.least, kind.greatest));
                case 2 -> BigInteger.valueOf(edge(kind));
                case 3 -> at(kind, rng.around(16));
                case 4 -> at(kind, rng.between(Math.floorDiv(kind.least, kind.perDay), kind.greatest / kind.perDay));
                default -> at(kind, monthEnd());
            };
            if (kind.holds(number)) {
                return number.longValueExact();
            }
        }
    }

    int date() {
        return (int) instant(Kind.DATE);
    }

    /** Near the least or the greatest instant, up to some years away. */
    private long edge(Kind kind) {
        int digits = 64 - Long.numberOfLeadingZeros(1000 * kind.perDay);
        return rng.oneIn(2) ? kind.least + rng.sized(digits) : kind.greatest - rng.sized(digits);
    }

    /** A part of that day; the number can be outside the kind's range. */
    private BigInteger at(Kind kind, long day) {
        long part = switch (rng.below(6)) {
            case 0, 1 -> 0;
            case 2 -> Math.min(1, kind.perDay - 1);
            case 3 -> kind.perDay - 1;
            default -> rng.between(0, kind.perDay - 1);
        };
        return BigInteger.valueOf(day).multiply(BigInteger.valueOf(kind.perDay)).add(BigInteger.valueOf(part));
    }

    /** An instant near another one of its kind, or that one. */
    long near(Kind kind, long instant) {
        int digits = rng.oneIn(2) ? 1 : 63 - Long.numberOfLeadingZeros(kind.greatest);
        BigInteger number = BigInteger.valueOf(instant).add(BigInteger.valueOf(rng.around(digits)));
        return kind.holds(number) ? number.longValueExact() : instant;
    }

    /** A Duration to be added to an instant of the kind; one for a Date seldom has milliseconds. */
    Span span(Kind kind, long instant) {
        Span span = switch (rng.below(16)) {
            case 0 -> new Span(0, 0, 0);
            case 1, 2, 3, 4, 5, 6 -> new Span(rng.below(50), rng.oneIn(2) ? 0 : rng.below(70), rng.sized(28));
            case 7, 8 -> alone(rng.sized(32));
            case 9, 10 -> new Span(rng.sized(32), rng.sized(32), rng.sized(32));
            case 11 -> new Span(most(), most(), most());
            default -> towardsEdge(kind, instant);
        };
        boolean keep = kind != Kind.DATE || rng.oneIn(8);
        return keep ? span : new Span(span.months(), span.days(), 0);
    }

    private Span alone(long part) {
        return switch (rng.below(3)) {
            case 0 -> new Span(part, 0, 0);
            case 1 -> new Span(0, part, 0);
            default -> new Span(0, 0, part);
        };
    }

    /** The most that a part can be, or near it, or nothing. */
    private long most() {
        return rng.oneIn(2) ? 0 : Span.MOST - rng.sized(4);
    }

    /**
     * A Duration that leads near the greatest instant where its parts can reach that: to within a month,
     * a day or a millisecond of it, on either side.
     */
    private Span towardsEdge(Kind kind, long instant) {
        LocalDateTime edge = kind.local(kind.greatest);
        LocalDateTime at = kind.local(instant);
        long months = rng.oneIn(3) ? 0 : part(ChronoUnit.MONTHS.between(at, edge));
        at = at.plusMonths(months);
        long days = rng.oneIn(4) ? 0 : part(ChronoUnit.DAYS.between(at, edge));
        at = at.plusDays(days);
        long apart = ChronoUnit.DAYS.between(at, edge);
        // 2^32 milliseconds are fewer than 50 days
        long millis = apart < 0 || apart > 50 ? rng.sized(32) : part(ChronoUnit.MILLIS.between(at, edge));
        return new Span(months, days, millis);
    }

    /** That much, or one more or less, as far as a part can hold it. */
    private long part(long much) {
        long beside = rng.oneIn(2) ? much : much + rng.between(-1, 1);
        return Math.max(0, Math.min(Span.MOST, beside));
    }

    /**
     * The instant with the part below a millisecond that the greatest instant has, or one beside it, so
     * that whole milliseconds can lead to just that one.
     */
    long alignedToEdge(Kind kind, long instant) {
        if (kind.perMilli <= 1) {
            return instant;
        }
        BigInteger number = BigInteger.valueOf(Math.floorDiv(instant, kind.perMilli))
            .multiply(BigInteger.valueOf(kind.perMilli))
            .add(BigInteger.valueOf(kind.greatest % kind.perMilli + rng.between(-1, 1)));
        return kind.holds(number) ? number.longValueExact() : instant;
    }
}
