/** Numbers from a seed, the same on every JDK (splitmix64). */
final class Rng {
    private long state;

    Rng(long seed) {
        state = seed;
    }

    /** Any 64 bits. */
    long bits() {
        state += 0x9e3779b97f4a7c15L;
        long z = state;
        z = (z ^ (z >>> 30)) * 0xbf58476d1ce4e5b9L;
        z = (z ^ (z >>> 27)) * 0x94d049bb133111ebL;
        return z ^ (z >>> 31);
    }

    /** From 0 to before n. */
    int below(int n) {
        return (int) Long.remainderUnsigned(bits(), n);
    }

    /** From least to greatest, both included; they may be as far apart as two longs can be. */
    long between(long least, long greatest) {
        long count = greatest - least + 1;
        return count == 0 ? bits() : least + Long.remainderUnsigned(bits(), count);
    }

    boolean oneIn(int n) {
        return below(n) == 0;
    }

    /** A number of 0 to `most` binary digits, each count of them as likely: small ones come often. */
    long sized(int most) {
        int digits = below(most + 1);
        return digits == 0 ? 0 : bits() >>> (64 - digits);
    }

    /** The same with either sign. */
    long around(int most) {
        return oneIn(2) ? sized(most) : -sized(most);
    }

    <T> T of(T[] list) {
        return list[below(list.length)];
    }
}
