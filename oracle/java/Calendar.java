import java.io.BufferedOutputStream;
import java.io.PrintStream;
import java.time.LocalDate;
import java.util.Map;
import java.util.TreeMap;

/**
 * Calendar N SEED: writes N calls of the calendar, each a line with its inputs and the answer of java.time.
 *
 *   civil DATE + YEAR MONTH DAY
 *   date YEAR MONTH DAY + DATE            or - 27
 *   add INSTANT DURATION + RESULT         or - 5, 6, 26, 27
 *   holds OPENING CLOSING INSTANT + 1     or + 0, - 5, 6
 *
 * Frames are hexadecimal, an empty one is a full stop. Lines with a # say what the calls were about, and
 * the last one, `end N`, that none is missing.
 */
public final class Calendar {
    private final PrintStream out;
    private final Rng rng;
    private final Instants instants;
    private final Frames frames;
    private final Map<String, Integer> notes = new TreeMap<>();

    Calendar(PrintStream out, long seed) {
        this.out = out;
        rng = new Rng(seed);
        instants = new Instants(rng);
        frames = new Frames(rng);
    }

    public static void main(String[] args) {
        int count = Integer.parseInt(args[0]);
        try (PrintStream out = new PrintStream(new BufferedOutputStream(System.out, 1 << 16))) {
            Calendar calendar = new Calendar(out, Long.parseLong(args[1]));
            for (int i = 0; i < count; i++) {
                calendar.call();
            }
            calendar.notes.forEach((what, times) -> out.println("# " + what + ": " + times));
            out.println("end " + count);
        }
    }

    /** Writes one call. */
    void call() {
        switch (rng.below(10)) {
            case 0, 1 -> civil();
            case 2, 3 -> date();
            case 4, 5 -> holds();
            default -> add();
        }
    }

    private void civil() {
        int date = instants.date();
        LocalDate day = LocalDate.ofEpochDay(date);
        note("civil, 29 February", day.getMonthValue() == 2 && day.getDayOfMonth() == 29);
        note("civil, year 0 or before", day.getYear() <= 0);
        out.println("civil " + date + " " + Answers.civil(date));
    }

    /** The day of a Date, or with one or two parts that are something else, so that it may not exist. */
    private void date() {
        LocalDate day = LocalDate.ofEpochDay(instants.date());
        int[] parts = {day.getYear(), day.getMonthValue(), day.getDayOfMonth()};
        for (int changes = rng.below(3); changes > 0; changes--) {
            int which = rng.below(3);
            parts[which] = changed(which, parts[which]);
        }
        if (rng.oneIn(16)) {
            parts = new int[] {instants.year(), 2, 29};
        }
        String answer = Answers.date(parts[0], parts[1], parts[2]);
        note("date, 29 February that isn't there", parts[1] == 2 && parts[2] == 29 && answer.startsWith("-"));
        out.println("date " + parts[0] + " " + parts[1] + " " + parts[2] + " " + answer);
    }

    private int changed(int which, int part) {
        return switch (rng.below(8)) {
            case 0 -> (int) rng.bits();
            case 1 -> rng.oneIn(2) ? Integer.MIN_VALUE : Integer.MAX_VALUE;
            case 2 -> part + (1 << rng.below(32));
            case 3 -> -part;
            default -> which == 0 ? instants.year() : which == 1 ? rng.below(16) - 1 : beyondMonth();
        };
    }

    private int beyondMonth() {
        return rng.oneIn(4) ? rng.below(3) - 1 : 28 + rng.below(5);
    }

    private void add() {
        Kind kind = rng.of(Kind.ALL);
        long instant = instants.instant(kind);
        if (rng.oneIn(4)) {
            instant = instants.alignedToEdge(kind, instant);
        }
        Span span = instants.span(kind, instant);
        String first = kind.frame(instant);
        String second = span.frame();
        String answer = Answers.add(kind, instant, span);
        if (rng.oneIn(8)) {
            spoiltLine("add", new String[] {first, second}, new String[] {second, first}, answer);
            return;
        }
        noteSum(kind, instant, span, answer);
        out.println("add " + first + " " + second + " " + answer);
    }

    private void noteSum(Kind kind, long instant, Span span, String answer) {
        boolean accepted = answer.startsWith("+");
        note("add, before 1970", accepted && instant < 0);
        note("add, the greatest instant comes out", answer.equals("+ " + kind.frame(kind.greatest)));
        note("add, the day became the month's last",
            accepted && kind.local(instant).plusMonths(span.months()).getDayOfMonth() < kind.local(instant).getDayOfMonth());
        note("add, refused for a last millisecond, or a last day of a Date", answer.equals("- 27")
            && Answers.add(kind, instant, less(kind, span)).startsWith("+"));
    }

    /** One millisecond less, or one day less for a Date. */
    private static Span less(Kind kind, Span span) {
        return kind == Kind.DATE
            ? new Span(span.months(), Math.max(0, span.days() - 1), span.millis())
            : new Span(span.months(), span.days(), Math.max(0, span.millis() - 1));
    }

    private void holds() {
        Kind kind = rng.of(Kind.ALL);
        long[] three = window(kind);
        String[] hex = {kind.frame(three[0]), kind.frame(three[1]), kind.frame(three[2])};
        String answer = Answers.holds(kind, three[0], three[1], three[2]);
        if (rng.oneIn(8)) {
            String stray = instants.span(kind, three[0]).frame();
            spoiltLine("holds", hex, new String[] {stray, stray, stray}, answer);
        } else if (rng.oneIn(8)) {
            mixed(kind, three, hex);
        } else {
            note("holds, at the opening", three[2] == three[0] && three[0] < three[1]);
            note("holds, at the closing", three[2] == three[1] && three[0] < three[1]);
            note("holds, closes at or before its opening", three[1] <= three[0]);
            out.println("holds " + String.join(" ", hex) + " " + answer);
        }
    }

    /** An opening, a closing and an instant: often equal or beside each other, either way about. */
    private long[] window(Kind kind) {
        long opening = instants.instant(kind);
        long closing = rng.oneIn(2) ? instants.instant(kind) : instants.near(kind, opening);
        long instant = switch (rng.below(4)) {
            case 0 -> instants.instant(kind);
            case 1 -> rng.between(Math.min(opening, closing), Math.max(opening, closing));
            case 2 -> instants.near(kind, opening);
            default -> instants.near(kind, closing);
        };
        return new long[] {opening, closing, instant};
    }

    /** One of the three in another of the four kinds, with the same number where that kind has it. */
    private void mixed(Kind kind, long[] three, String[] hex) {
        Kind another = Kind.ALL[(kind.ordinal() + 1 + rng.below(3)) % 4];
        int which = rng.below(3);
        long number = Math.max(another.least, Math.min(another.greatest, three[which]));
        hex[which] = another.frame(number);
        out.println("holds " + String.join(" ", hex) + " - 6");
    }

    /** The call with some of its frames spoilt: 5 where one is none, else 6 where one is of another kind. */
    private void spoiltLine(String call, String[] hex, String[] strays, String answer) {
        StringBuilder line = new StringBuilder(call);
        Frames.State worst = Frames.State.FIT;
        for (int i = 0; i < hex.length; i++) {
            Frames.Frame frame = frames.perhapsSpoilt(hex[i], strays[i]);
            line.append(' ').append(frame.hex().isEmpty() ? "." : frame.hex());
            worst = frame.state().compareTo(worst) > 0 ? frame.state() : worst;
        }
        out.println(line + " " + switch (worst) {
            case FIT -> answer;
            case OTHER -> "- 6";
            case BROKEN -> "- 5";
        });
    }

    private void note(String what, boolean happened) {
        notes.merge(what, happened ? 1 : 0, Integer::sum);
    }
}
