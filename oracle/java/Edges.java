import java.time.LocalDate;
import java.time.LocalTime;
import java.time.YearMonth;
import java.util.ArrayList;
import java.util.List;

/** Calls at the edges of the calendar, the same ones each time, in lines as Calendar writes them. */
final class Edges {
    private static final int[] YEARS = {
        -400, -100, -4, -1, 0, 1, 4, 100, 400, 1582, 1600, 1900, 1970, 2000, 2023, 2024, 2100,
    };
    private static final Span NOTHING = new Span(0, 0, 0);
    private static final Span MONTH = new Span(1, 0, 0);
    private static final Span DAY = new Span(0, 1, 0);
    private static final Span MILLI = new Span(0, 0, 1);

    private final List<String> lines = new ArrayList<>();

    private Edges() {}

    /** The first and the last Dates, and where years, leap days and months begin and end. */
    static List<String> civil() {
        Edges edges = new Edges();
        int first = Integer.MIN_VALUE;
        int last = Integer.MAX_VALUE;
        for (int date : new int[] {first, first + 1, -1, 0, 1, last - 1, last}) {
            edges.civil(date);
        }
        for (int year : YEARS) {
            edges.civil(LocalDate.of(year, 1, 1));
            edges.civil(LocalDate.of(year, 2, 28).plusDays(1));
            edges.civil(LocalDate.of(year, 12, 31));
        }
        for (int month = 1; month <= 12; month++) {
            edges.civil(YearMonth.of(2023, month).atEndOfMonth());
            edges.civil(YearMonth.of(2024, month).atEndOfMonth());
        }
        return edges.lines;
    }

    /** The same ends from the other side, and the days just past them, which aren't there. */
    static List<String> date() {
        Edges edges = new Edges();
        for (int date : new int[] {Integer.MIN_VALUE, Integer.MAX_VALUE}) {
            for (int beside = -1; beside <= 1; beside++) {
                edges.date(LocalDate.ofEpochDay((long) date + beside));
            }
        }
        for (int year : YEARS) {
            edges.date(year, 2, 29);
            edges.date(year, 12, 31);
        }
        for (int month = 1; month <= 12; month++) {
            int last = YearMonth.of(2023, month).lengthOfMonth();
            edges.date(2023, month, last);
            edges.date(2023, month, last + 1);
        }
        int[][] strange = {
            {2024, 2, 30}, {2024, 0, 1}, {2024, 13, 1}, {2024, 1, 0}, {2024, -1, 1}, {2024, 1, -1}, {0, 0, 0},
            {2024, 257, 1}, {2024, 1, 257}, {2024, Integer.MIN_VALUE, 1}, {2024, 1, Integer.MIN_VALUE},
            {2024, Integer.MAX_VALUE, 1}, {2024, 1, Integer.MAX_VALUE}, {Integer.MIN_VALUE, 1, 1},
            {Integer.MAX_VALUE, 12, 31}, {Integer.MIN_VALUE, 2, 30},
        };
        for (int[] day : strange) {
            edges.date(day[0], day[1], day[2]);
        }
        return edges.lines;
    }

    /** 31 January 2023 plus one month, the same of 2024, ends of months, and both ends of each kind's range. */
    static List<String> add() {
        Edges edges = new Edges();
        for (Kind kind : Kind.ALL) {
            edges.add(kind, at(kind, 2023, 1, 31), MONTH);
            edges.add(kind, at(kind, 2024, 1, 31), MONTH);
            // to a month of 30 days, and to February of a year without and with a leap day, and of a century
            for (int months : new int[] {3, 25, 13, 12 * 77 + 1}) {
                edges.add(kind, at(kind, 2023, 1, 31), new Span(months, 0, 0));
            }
            edges.add(kind, at(kind, 2024, 2, 29), new Span(12, 0, 0));
            edges.add(kind, at(kind, 2023, 1, 31), new Span(1, 1, 0));
            edges.add(kind, at(kind, 1969, 12, 31), DAY);
            edges.add(kind, at(kind, 1900, 1, 31), MONTH);
            edges.add(kind, at(kind, 2023, 1, 31), new Span(1, 1, 86_400_000));
            edges.addAtEnds(kind);
        }
        edges.addBeforeYearZero();
        edges.addToDate();
        return edges.lines;
    }

    private void addAtEnds(Kind kind) {
        Span[] spans = {
            NOTHING, MONTH, DAY, MILLI, new Span(Span.MOST, 0, 0), new Span(0, Span.MOST, 0), new Span(0, 0, Span.MOST),
        };
        for (Span span : spans) {
            if (kind != Kind.DATE || span.millis() == 0) {
                add(kind, kind.least, span);
                add(kind, kind.greatest, span);
                add(kind, -1, span);
            }
        }
        Span least = kind == Kind.DATE ? DAY : MILLI;
        long step = kind == Kind.DATE ? 1 : kind.perMilli;
        for (long beside = -1; beside <= 1; beside++) {
            add(kind, kind.greatest - step + beside, least);
        }
        add(kind, kind.least, new Span(Span.MOST, Span.MOST, kind == Kind.DATE ? 0 : Span.MOST));
    }

    /** The years 0 and before; a TimestampNanos doesn't reach them. */
    private void addBeforeYearZero() {
        for (Kind kind : new Kind[] {Kind.DATE, Kind.MILLIS, Kind.MICROS}) {
            for (int year : new int[] {-5, -1, 0}) {
                add(kind, at(kind, year, 1, 31), MONTH);
                add(kind, at(kind, year, 12, 31), new Span(2, 1, 0));
            }
        }
    }

    /** Milliseconds on a Date, where the sum is in the range and where it isn't. */
    private void addToDate() {
        for (Span span : new Span[] {MILLI, new Span(1, 1, Span.MOST), new Span(Span.MOST, Span.MOST, 86_400_000)}) {
            add(Kind.DATE, 0, span);
            add(Kind.DATE, Kind.DATE.greatest, span);
        }
    }

    /** Every other kind in either place, bytes that are no frame, and 5 before 6, 26 and 27. */
    static List<String> addSpoilt() {
        Edges edges = new Edges();
        String instant = Kind.DATE.frame(0);
        String last = Kind.DATE.frame(Kind.DATE.greatest);
        String span = new Span(1, 1, 1).frame();
        for (String other : Frames.OTHERS) {
            edges.add(other, span, "- 6");
            edges.add(instant, other, "- 6");
        }
        for (String broken : Frames.BROKEN) {
            edges.add(broken, span, "- 5");
            edges.add(last, broken, "- 5");
        }
        edges.add(span, span, "- 6");
        edges.add(instant, instant, "- 6");
        edges.add("0a00000000" + instant, span, "- 6");
        edges.add(instant, "0a00000000" + span, "- 6");
        edges.add("00", "1a", "- 5");
        edges.add("1a", "00", "- 5");
        edges.add(last, span + "00", "- 5");
        edges.add(last + "00", span, "- 5");
        return edges.lines;
    }

    /** Windows of each kind at and beside their edges, empty ones and reversed ones. */
    static List<String> holds() {
        Edges edges = new Edges();
        for (Kind kind : Kind.ALL) {
            long from = at(kind, 2024, 2, 29);
            long to = at(kind, 2024, 3, 1);
            for (long instant : new long[] {from - 1, from, to - 1, to, -from}) {
                edges.holds(kind, from, to, instant);
            }
            edges.holds(kind, from, from, from);
            edges.holds(kind, from, from + 1, from);
            edges.holds(kind, to, from, from);
            edges.holds(kind, to, from, to);
            edges.holds(kind, -1, 1, 0);
            edges.holds(kind, -2, 0, -1);
            for (long instant : new long[] {kind.least, -1, 0, kind.greatest - 1, kind.greatest}) {
                edges.holds(kind, kind.least, kind.greatest, instant);
            }
            edges.holds(kind, kind.greatest, kind.least, 0);
        }
        return edges.lines;
    }

    /** Mixed kinds, every other kind, and bytes that are no frame, in each of the three places in turn. */
    static List<String> holdsSpoilt() {
        Edges edges = new Edges();
        int place = 0;
        for (Kind kind : Kind.ALL) {
            for (Kind another : Kind.ALL) {
                if (another != kind) {
                    edges.holdsWith(kind, place++ % 3, another.frame(1), "- 6");
                }
            }
        }
        for (String other : Frames.OTHERS) {
            edges.holdsWith(Kind.MILLIS, place++ % 3, other, "- 6");
            edges.holds(other, other, other, "- 6");
        }
        for (String broken : Frames.BROKEN) {
            edges.holdsWith(Kind.DATE, place++ % 3, broken, "- 5");
        }
        edges.holds("00", Kind.DATE.frame(1), "1a", "- 5");
        edges.holdsWith(Kind.NANOS, 2, MONTH.frame(), "- 6");
        return edges.lines;
    }

    /** A window that holds its instant, with something else in one of the three places. */
    private void holdsWith(Kind kind, int place, String stray, String answer) {
        String[] frames = {kind.frame(0), kind.frame(2), kind.frame(1)};
        frames[place] = stray;
        holds(frames[0], frames[1], frames[2], answer);
    }

    /** The last instant of a day; for a Date, that day. */
    private static long at(Kind kind, int year, int month, int day) {
        return kind.number(LocalDate.of(year, month, day).atTime(LocalTime.MAX)).longValueExact();
    }

    private void civil(LocalDate day) {
        civil(Math.toIntExact(day.toEpochDay()));
    }

    private void civil(int date) {
        lines.add("civil " + date + " " + Answers.civil(date));
    }

    private void date(LocalDate day) {
        date(day.getYear(), day.getMonthValue(), day.getDayOfMonth());
    }

    private void date(int year, int month, int day) {
        lines.add("date " + year + " " + month + " " + day + " " + Answers.date(year, month, day));
    }

    private void add(Kind kind, long instant, Span span) {
        add(kind.frame(instant), span.frame(), Answers.add(kind, instant, span));
    }

    private void add(String instant, String span, String answer) {
        lines.add(String.join(" ", "add", orStop(instant), orStop(span), answer));
    }

    private void holds(Kind kind, long opening, long closing, long instant) {
        String answer = Answers.holds(kind, opening, closing, instant);
        holds(kind.frame(opening), kind.frame(closing), kind.frame(instant), answer);
    }

    private void holds(String opening, String closing, String instant, String answer) {
        lines.add(String.join(" ", "holds", orStop(opening), orStop(closing), orStop(instant), answer));
    }

    /** An empty frame is a full stop. */
    private static String orStop(String hex) {
        return hex.isEmpty() ? "." : hex;
    }
}
