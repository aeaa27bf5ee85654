import java.math.BigInteger;
import java.time.Instant;
import java.time.LocalDate;
import java.time.LocalDateTime;
import java.time.ZoneOffset;
import java.time.temporal.ChronoUnit;
import java.util.HexFormat;

/** The four kinds that have a calendar: their frames, their ranges, and what they are in java.time. */
enum Kind {
    DATE(0x10, Integer.MIN_VALUE, Integer.MAX_VALUE, ChronoUnit.DAYS),
    MILLIS(0x13, Long.MIN_VALUE, Long.MAX_VALUE, ChronoUnit.MILLIS),
    MICROS(0x14, Long.MIN_VALUE, Long.MAX_VALUE, ChronoUnit.MICROS),
    NANOS(0x15, Long.MIN_VALUE, Long.MAX_VALUE, ChronoUnit.NANOS);

    static final Kind[] ALL = values();

    final int code;
    final long least;
    final long greatest;
    final ChronoUnit unit;
    /** How many of the unit a day has, and a millisecond (0 for a Date). */
    final long perDay;
    final long perMilli;

    Kind(int code, long least, long greatest, ChronoUnit unit) {
        this.code = code;
        this.least = least;
        this.greatest = greatest;
        this.unit = unit;
        perDay = ChronoUnit.DAYS.getDuration().dividedBy(unit.getDuration());
        perMilli = ChronoUnit.MILLIS.getDuration().dividedBy(unit.getDuration());
    }

    /** What java.time makes of a number of this kind; a Date is the midnight that opens it. */
    LocalDateTime local(long number) {
        if (this == DATE) {
            return LocalDate.ofEpochDay(number).atStartOfDay();
        }
        return LocalDateTime.ofInstant(Instant.EPOCH.plus(number, unit), ZoneOffset.UTC);
    }

    /** The way back, whether or not the number is in the kind's range. */
    BigInteger number(LocalDateTime local) {
        if (this == DATE) {
            return BigInteger.valueOf(local.toLocalDate().toEpochDay());
        }
        long perSecond = 1000 * perMilli;
        return BigInteger.valueOf(local.toEpochSecond(ZoneOffset.UTC))
            .multiply(BigInteger.valueOf(perSecond))
            .add(BigInteger.valueOf(local.getNano() / (1_000_000_000 / perSecond)));
    }

    boolean holds(BigInteger number) {
        return number.compareTo(BigInteger.valueOf(least)) >= 0
            && number.compareTo(BigInteger.valueOf(greatest)) <= 0;
    }

    String frame(long number) {
        return HexFormat.of().toHexDigits((byte) code) + content(number);
    }

    /** The bytes behind the kind, high byte first. */
    String content(long number) {
        return this == DATE ? HexFormat.of().toHexDigits((int) number) : HexFormat.of().toHexDigits(number);
    }
}
