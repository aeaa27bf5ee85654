import java.util.HexFormat;

/** Frames of other kinds, and bytes that are no frame. */
final class Frames {
    /** What a frame is to the calendar: of a kind that is asked for, of another, or none at all. */
    enum State { FIT, OTHER, BROKEN }

    record Frame(String hex, State state) {}

    static final String[] OTHERS = {
        "00", "0100", "0101", "0200000000", "030000000000000000", "0400000000", "050000000000000000", "060000",
        "0600021000", "070000", "070003c3a921", "080000", "0800021000000000" + "1000000001", "090000",
        "09000100016110000000" + "01", "0b0000", "0b00010001611000000001", "0c000000000000", "0d0000",
        "0d000c000000000000000000000000", "0e0000", "0e000100", "0f00000000000000000000000000000000",
        "1100000000", "120000000000000000", "160000000000000000", "170000000000000000", "180000000000000000",
        "080001".repeat(15) + "00",
    };
    /**
     * Among them a Boolean of 2, text that isn't UTF-8, a Map whose keys don't rise, and Arrays nested 17 deep.
     */
    static final String[] BROKEN = {
        "", "1a", "ff", "01", "0102", "10", "13", "14", "15", "19", "06", "060001", "070001ff", "080001", "0a00000000",
        "0b0001", "0900020001620000016100", "080001".repeat(16) + "00", "0000",
    };
    /** Bytes that are just as long as a frame may be, and one longer. */
    private static final String LONGEST = "06fffc" + "00".repeat(0xfffc);
    private static final String TOO_LONG = "06fffd" + "00".repeat(0xfffd);

    private final Rng rng;

    Frames(Rng rng) {
        this.rng = rng;
    }

    static Frame fit(String hex) {
        return new Frame(hex, State.FIT);
    }

    /** The frame as it is, or something else in its place; `stray` is a frame that suits elsewhere. */
    Frame perhapsSpoilt(String hex, String stray) {
        return switch (rng.below(4)) {
            case 0 -> new Frame(other(hex, stray), State.OTHER);
            case 1 -> new Frame(broken(hex), State.BROKEN);
            default -> fit(hex);
        };
    }

    private String other(String hex, String stray) {
        return switch (rng.below(5)) {
            case 0 -> rng.oneIn(500) ? LONGEST : rng.of(OTHERS);
            case 1 -> stray;
            case 2 -> "0a0000000" + rng.below(2) + hex;
            default -> otherKind(hex);
        };
    }

    /** The same content under another kind of that length. */
    private String otherKind(String hex) {
        return switch (hex.length()) {
            case 10 -> rng.of(new String[] {"02", "04", "11"}) + hex.substring(2);
            case 18 -> rng.of(new String[] {"03", "05", "12", "16", "17", "18"}) + hex.substring(2);
            default -> "0d000c" + hex.substring(2);
        };
    }

    private String broken(String hex) {
        return switch (rng.below(5)) {
            case 0 -> rng.oneIn(500) ? TOO_LONG : rng.of(BROKEN);
            case 1 -> hex + rng.of(new String[] {"00", "10", "ff", hex});
            case 2 -> HexFormat.of().toHexDigits((byte) rng.between(0x1a, 0xff)) + hex.substring(2);
            default -> hex.substring(0, 2 * rng.below(hex.length() / 2));
        };
    }
}
