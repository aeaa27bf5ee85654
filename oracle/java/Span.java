import java.util.HexFormat;

/** A Duration; each part is from 0 to 2^32 - 1. */
record Span(long months, long days, long millis) {
    static final long MOST = 0xffff_ffffL;

    String frame() {
        return "19" + lowFirst(months) + lowFirst(days) + lowFirst(millis);
    }

    private static String lowFirst(long part) {
        return HexFormat.of().toHexDigits(Integer.reverseBytes((int) part));
    }
}
