import java.io.ByteArrayOutputStream;
import java.io.PrintStream;
import java.util.ArrayList;
import java.util.HexFormat;
import java.util.LinkedHashSet;
import java.util.List;
import java.util.Set;

/**
 * Listed N SEED: writes the list of program almanac: the calls of Edges, and N calls of Calendar, each once.
 *
 *   c DATE YEAR-MONTH-DAY                 numbers of 4 bytes, high byte first, with nothing between them
 *   d YEAR-MONTH-DAY DATE                 or -27
 *   a LENGTH-INSTANT-DURATION RESULT      or -5, -6, -26, -27; the length of the instant's frame is one byte
 *   w LENGTH-OPENING-LENGTH-CLOSING-INSTANT 01     or 00, -5, -6
 */
public final class Listed {
    private static final String HEAD = """
        # Calls of the calendar with the answers of java.time. All is in hexadecimal, numbers high byte first; a
        # refusal is `-` and its number in docs/RULES.md.
        # `c` a Date; its year, month and day, 4 bytes each. `d` the other way about. `a` an instant's frame, with its
        # length before it, and a Duration's; the frame of the sum. `w` the frames of a window's opening and closing, each
        # with its length before it, and an instant's; 01 where the window holds it, else 00.
        # `oracle/calendar --list` makes the list. LocalDate answers `c` and `d`, LocalDateTime in UTC `a` and `w`. 5, 6,
        # 26 and where a kind's range ends are from the scope of the project alone. No answer is Hulmbax's own.""";
    /** The longest frame whose length a byte can say. */
    private static final int LONGEST = 255;

    private Listed() {}

    public static void main(String[] args) {
        Set<String> lines = new LinkedHashSet<>();
        lines.add(HEAD);
        section(lines, "The year, month and day of a Date: both ends, and where years, leap days and months begin and end",
            Edges.civil());
        section(lines, "The Date of a day: the same ends, and days that aren't there", Edges.date());
        section(lines, "Sums: 31 January 2023 plus one month, the same of 2024, ends of months and of each kind, 26 before 27",
            Edges.add());
        section(lines, "Sums with every other kind, 6, and with bytes that are no frame, 5", Edges.addSpoilt());
        section(lines, "Windows at and beside their edges, empty ones and reversed ones", Edges.holds());
        section(lines, "Windows of mixed and of other kinds, 6, and with bytes that are no frame, 5", Edges.holdsSpoilt());
        section(lines, "Any calls", drawn(Integer.parseInt(args[0]), Long.parseLong(args[1])));
        lines.forEach(System.out::println);
    }

    private static void section(Set<String> lines, String what, List<String> calls) {
        lines.add("# " + what + ".");
        calls.forEach(call -> lines.add(line(call)));
    }

    /** Calls of Calendar; frames that are too long for this list are passed over. */
    private static List<String> drawn(int count, long seed) {
        List<String> calls = new ArrayList<>();
        ByteArrayOutputStream bytes = new ByteArrayOutputStream();
        Calendar calendar = new Calendar(new PrintStream(bytes, true), seed);
        while (calls.size() < count) {
            bytes.reset();
            calendar.call();
            String call = bytes.toString().strip();
            if (call.length() <= 2 * LONGEST) {
                calls.add(call);
            }
        }
        return calls;
    }

    /** A line of Calendar as one of the list. */
    private static String line(String call) {
        String[] words = call.split(" ");
        return switch (words[0]) {
            case "civil" -> "c " + number(words[1]) + " " + numbers(words, 3, 6);
            case "date" -> "d " + numbers(words, 1, 4) + " "
                + (accepted(words, 4) ? number(words[5]) : refused(words, 4));
            case "add" -> "a " + counted(words[1]) + frame(words[2]) + " "
                + (accepted(words, 3) ? words[4] : refused(words, 3));
            case "holds" -> "w " + counted(words[1]) + counted(words[2]) + frame(words[3]) + " "
                + (accepted(words, 4) ? "0" + words[5] : refused(words, 4));
            default -> throw new IllegalArgumentException(call);
        };
    }

    private static boolean accepted(String[] words, int at) {
        return words[at].equals("+");
    }

    private static String refused(String[] words, int at) {
        return "-" + words[at + 1];
    }

    private static String number(String word) {
        return HexFormat.of().toHexDigits(Integer.parseInt(word));
    }

    private static String numbers(String[] words, int from, int to) {
        StringBuilder hex = new StringBuilder();
        for (int i = from; i < to; i++) {
            hex.append(number(words[i]));
        }
        return hex.toString();
    }

    private static String frame(String word) {
        return word.equals(".") ? "" : word;
    }

    private static String counted(String word) {
        String hex = frame(word);
        return HexFormat.of().toHexDigits((byte) (hex.length() / 2)) + hex;
    }
}
