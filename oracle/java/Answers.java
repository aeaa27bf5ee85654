import java.time.DateTimeException;
import java.time.LocalDate;
import java.time.LocalDateTime;
import java.time.temporal.ChronoUnit;

/**
 * What java.time answers, as it stands in a line: `+` and the outcome, or `-` and the refusal's number.
 *
 * Its years go from -999,999,999 to 999,999,999, which is wide enough for every sum: the last
 * TimestampMillis is in the year 292,278,994, and 2^32 - 1 months, as many days and as many milliseconds
 * add fewer than 369,673,200 years to it. The first one is in the year -292,275,055, and nothing is taken off.
 */
final class Answers {
    private Answers() {}

    static String civil(int date) {
        LocalDate day = LocalDate.ofEpochDay(date);
        return "+ " + day.getYear() + " " + day.getMonthValue() + " " + day.getDayOfMonth();
    }

    /** java.time refuses days that aren't there, and years that are outside its own range and so outside Date's. */
    static String date(int year, int month, int day) {
        try {
            long date = LocalDate.of(year, month, day).toEpochDay();
            return date == (int) date ? "+ " + date : "- 27";
        } catch (DateTimeException e) {
            return "- 27";
        }
    }

    static String add(Kind kind, long instant, Span span) {
        if (kind == Kind.DATE && span.millis() != 0) {
            return "- 26";
        }
        LocalDateTime afterMonths = kind.local(instant).plusMonths(span.months());
        LocalDateTime afterDays = afterMonths.plusDays(span.days());
        LocalDateTime outcome = afterDays.plus(span.millis(), ChronoUnit.MILLIS);
        for (LocalDateTime step : new LocalDateTime[] {afterMonths, afterDays, outcome}) {
            if (!kind.holds(kind.number(step))) {
                return "- 27";
            }
        }
        return "+ " + kind.frame(kind.number(outcome).longValueExact());
    }

    static String holds(Kind kind, long opening, long closing, long instant) {
        LocalDateTime at = kind.local(instant);
        boolean inside = !at.isBefore(kind.local(opening)) && at.isBefore(kind.local(closing));
        return inside ? "+ 1" : "+ 0";
    }
}
