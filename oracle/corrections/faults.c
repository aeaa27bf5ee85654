/* hulmbax_current with one fault, to see that the comparison finds it. The environment names the fault as FAULT, by
 * its number below. Faults in choosing and in reading stand in a reading of this file's own, which answers in place of
 * the true entry; that one only gives 1 and 23 then, and clears the workspace. All others are put around the true
 * entry's answer. With 0 there is no fault: the answer is the true entry's, and this file's reading must agree with
 * it, so that a fault is found for what it is. */
#include <stddef.h>
#include <stdint.h>
#include <stdlib.h>
#include <string.h>

#define WORKSPACE 65536
#define MOST_FRAMES 256

int32_t true_current(const uint8_t *input, size_t input_len, const size_t *ends, size_t ends_len, uint8_t *result,
                     size_t result_len, uint8_t *workspace, size_t workspace_len);

enum fault {
    NONE,
    /* in choosing */
    EARLIER_OF_EQUAL,   /* of equal numbers the earlier frame */
    FIRST_STAYS,        /* the first frame of a sail, whatever follows */
    LAST_ENTERED,       /* the last frame of a sail, whatever its number */
    WITHOUT_SIGN,       /* numbers are compared without their sign */
    LOW_HALF,           /* by their low 32 bits */
    HIGH_HALF,          /* by their high 32 bits */
    AS_DOUBLES,         /* as Doubles: 2^53 and 2^53 + 1 are equal */
    BY_DIFFERENCE,      /* by the sign of their difference, which may overflow */
    ONLY_BEFORE,        /* with the frame of the sail that was last, not with the current one */
    SAIL_LEFT,          /* a sail that comes back after another is a new one */
    PLACES_RISE,        /* the places in rising order, not in that of the sails' first appearance */
    PLACES_FALL,        /* in falling order */
    PLACES_FROM_ONE,    /* places from 1 */
    PLACES_TO_127,      /* the high bit of a place is lost */
    COUNT_OF_A_BYTE,    /* 256 sails are none */
    SAIL_CAPITALS,      /* capitals and small letters of a sail are the same */
    SAIL_SPACES,        /* spaces at the end of a sail don't count */
    SAIL_TO_ZERO,       /* a sail ends at a zero byte */
    SAIL_FRONT,         /* the first 16 bytes of a sail and its length decide */
    SAIL_END,           /* the last 16 bytes of a sail and its length decide */
    SAIL_SHORTER,       /* sails are the same as far as the shorter one goes */
    SAIL_HASH,          /* the hash of a sail and its length decide */
    SAIL_EMPTY,         /* an empty sail is never the same as another */
    /* in reading */
    UNION_OF_RECORD,    /* takes a Union off the record */
    UNION_OF_SAIL,      /* takes one off the sail */
    UNION_OF_SEQ,       /* takes one off the number */
    MAP_AS_RECORD,      /* takes a Map for a record */
    INT_AS_SEQ,         /* takes an Int for the number */
    TIME_AS_SEQ,        /* takes a time of 8 bytes for the number */
    DOUBLE_AS_SEQ,      /* takes a Double for the number, by its bits */
    BYTES_AS_SAIL,      /* takes Bytes for the sail */
    FIXED_AS_SAIL,      /* takes a Fixed for the sail */
    SYMBOL_AS_SAIL,     /* takes an Enum for the sail, by its symbol */
    FIRST_NAME,         /* of repeated names the first counts */
    LAST_THAT_SUITS,    /* of repeated names the last of the right kind counts */
    LONGER_NAMES,       /* names may be longer than the two */
    SHORTER_NAMES,      /* names may lack the last letter of the two */
    NAMES_CAPITALS,     /* capitals and small letters of the two are the same */
    NAMES_INSIDE,       /* fields of records inside count too */
    NO_SEQ,             /* a missing number is 0 */
    NO_SAIL,            /* a missing sail is empty */
    SAIL_NOT_EMPTY,     /* an empty sail is refused */
    DEPTH_15,           /* a node at depth 16 is too deep */
    DEPTH_17,           /* one at depth 17 isn't */
    KEYS_ANY,           /* keys of Maps may stand in any order */
    KEYS_EQUAL,         /* keys may be equal */
    KEYS_BY_LENGTH,     /* keys rise by their lengths first */
    KEYS_SIGNED,        /* bytes from 80 on are below the others */
    KEYS_OUTSIDE,       /* only the Maps right under the record must have keys that rise */
    TEXT_ANY,           /* any bytes are a text */
    TEXT_SURROGATE,     /* a text may hold surrogates */
    TEXT_TOO_LONG,      /* a text may hold characters that take more bytes than they need */
    TEXT_TOO_HIGH,      /* a text may hold characters past 10ffff */
    TEXT_OF_SAIL,       /* of all texts only the sail's must be one */
    LEFT_OVER,          /* bytes may be left over */
    ANY_BOOLEAN,        /* a Boolean may be any byte */
    ANY_KIND,           /* a kind that there isn't is a Null */
    FRAME_65536,        /* a frame may have 65,536 bytes */
    FRAME_65534,        /* one of 65,535 bytes is too long */
    FRAME_LOW_HALF,     /* a frame's length is taken modulo 65,536 */
    FRAME_EMPTY,        /* an empty frame is passed over */
    LAST_UNREAD,        /* the frame at place 255 is not read */
    END_PAST_INPUT,     /* an end past the input is taken as its end */
    END_BELOW_START,    /* a frame whose end is below its start is passed over */
    END_OF_32_BITS,     /* the high half of an end is lost */
    BYTES_BEHIND,       /* bytes behind the last end are refused */
    /* in the order of refusals, and in buffers */
    FRAMES_256,         /* 256 frames are too many */
    FRAMES_257,         /* 257 frames are not */
    FRAMES_OF_16_BITS,  /* the count of frames is taken modulo 65,536 */
    READ_BEFORE_23,     /* 24 before 23 */
    COUNT_BEFORE_1,     /* 23 before 1 */
    READ_BEFORE_1,      /* 24 before 1 */
    RESULT_BEFORE_23,   /* 18 before 23, where the result has no bytes */
    RESULT_BEFORE_24,   /* 18 before 24, likewise */
    NONE_REFUSED,       /* an empty list is refused */
    NONE_TOO_LONG,      /* the answer to an empty list doesn't fit into no bytes */
    JUST_FITS,          /* 18 though the answer just fits */
    RESULT_OF_FRAMES,   /* 18 unless the result has a byte for each frame */
    ONE_MORE,           /* a number of places other than what was written */
    WRITES_ON_24,       /* writes on a refusal */
    WRITES_WHAT_FITS,   /* writes what fits of the answer */
    PAST_ANSWER,        /* changes the byte behind the answer */
    PAST_RESULT,        /* changes the byte behind the result buffer */
    WORKSPACE_FRONT,    /* leaves a byte at the front of the workspace */
    WORKSPACE_LAST,     /* leaves its last byte */
    WORKSPACE_ON_23,    /* leaves a byte after 23 */
    WORKSPACE_ON_24,    /* leaves a byte after 24 */
    WORKSPACE_ON_18,    /* leaves a byte after 18 */
    WORKSPACE_PAST,     /* changes the byte behind the 65,536 */
    WORKSPACE_AFTER_1,  /* changes a byte after 1 */
    WORKSPACE_LONGER,   /* wants a byte more */
    INPUT_CHANGED,      /* changes the input */
    BEFORE_INPUT,       /* changes the byte before it */
    ENDS_CHANGED,       /* changes an end */
    FAULTS
};

static enum fault fault;

/* ---- Reading: a frame's sail and number, with the faults in it ---- */

struct bytes { const uint8_t *at; size_t len; };
struct finish { struct bytes sail; int64_t seq; size_t place; };

/* Where the two were found in a frame: the whole nodes. */
struct found { struct bytes sail, seq; };

/* Takes so many bytes off the front of the rest. Whether there were so many. */
static int take(struct bytes *rest, size_t len, struct bytes *taken)
{
    if (rest->len < len) return 0;
    taken->at = rest->at, taken->len = len;
    rest->at += len, rest->len -= len;
    return 1;
}

static int skip(struct bytes *rest, size_t len)
{
    struct bytes taken;
    return take(rest, len, &taken);
}

static int take_count(struct bytes *rest, size_t *count)
{
    struct bytes two;
    if (!take(rest, 2, &two)) return 0;
    *count = (size_t)two.at[0] << 8 | two.at[1];
    return 1;
}

static int take_counted(struct bytes *rest, struct bytes *taken)
{
    size_t len;
    return take_count(rest, &len) && take(rest, len, taken);
}

/* How many bytes a character has that begins with this one; 0 where none does. */
static size_t character_len(uint8_t first)
{
    return first < 0x80 ? 1 : first < 0xc0 ? 0 : first < 0xe0 ? 2 : first < 0xf0 ? 3 : first < 0xf8 ? 4 : 0;
}

/* Whether a character of this number may take so many bytes. */
static int is_character(uint32_t c, size_t len)
{
    static const uint32_t least[] = {0, 0, 0x80, 0x800, 0x10000};
    if (c < least[len]) return fault == TEXT_TOO_LONG;
    if (c >= 0xd800 && c < 0xe000) return fault == TEXT_SURROGATE;
    return c <= 0x10ffff || fault == TEXT_TOO_HIGH;
}

static int is_text(struct bytes text)
{
    static const uint8_t mask[] = {0, 0x7f, 0x1f, 0x0f, 0x07};
    while (text.len > 0 && fault != TEXT_ANY) {
        size_t len = character_len(text.at[0]);
        if (len == 0 || len > text.len) return 0;
        uint32_t c = text.at[0] & mask[len];
        for (size_t i = 1; i < len; i++) {
            if (text.at[i] >> 6 != 2) return 0;
            c = c << 6 | (text.at[i] & 0x3f);
        }
        if (!is_character(c, len)) return 0;
        text.at += len, text.len -= len;
    }
    return 1;
}

static int read_text(struct bytes *rest, struct bytes *text)
{
    return take_counted(rest, text) && (fault == TEXT_OF_SAIL || is_text(*text));
}

static int sign(int64_t a, int64_t b)
{
    return (a > b) - (a < b);
}

/* Below 0, 0 or above it as `a` comes before, is, or comes behind `b`. */
static int compare_keys(struct bytes a, struct bytes b)
{
    size_t shorter = a.len < b.len ? a.len : b.len;
    int by_bytes = 0;
    for (size_t i = 0; i < shorter && by_bytes == 0; i++)
        by_bytes = fault == KEYS_SIGNED ? (int8_t)a.at[i] - (int8_t)b.at[i] : a.at[i] - b.at[i];
    int by_length = sign((int64_t)a.len, (int64_t)b.len);
    if (fault == KEYS_BY_LENGTH && by_length) return by_length;
    return by_bytes ? by_bytes : by_length;
}

static int keys_rise(struct bytes before, struct bytes key, int depth)
{
    if (fault == KEYS_ANY || (fault == KEYS_OUTSIDE && depth > 2)) return 1;
    int order = compare_keys(before, key);
    return order < 0 || (order == 0 && fault == KEYS_EQUAL);
}

static uint8_t small(uint8_t letter)
{
    return letter >= 'A' && letter <= 'Z' ? letter + 'a' - 'A' : letter;
}

static int is_name(struct bytes name, const char *right)
{
    size_t len = strlen(right);
    if (fault == SHORTER_NAMES && name.len == len - 1) len--;
    if (name.len < len || (name.len > len && fault != LONGER_NAMES)) return 0;
    for (size_t i = 0; i < len; i++)
        if ((fault == NAMES_CAPITALS ? small(name.at[i]) : name.at[i]) != right[i]) return 0;
    return 1;
}

static int is_sail(struct bytes node)
{
    return node.at[0] == 0x07 || (node.at[0] == 0x06 && fault == BYTES_AS_SAIL) ||
           (node.at[0] == 0x0d && fault == FIXED_AS_SAIL) || (node.at[0] == 0x0c && fault == SYMBOL_AS_SAIL);
}

static int is_seq(struct bytes node)
{
    return node.at[0] == 0x03 || (node.at[0] == 0x02 && fault == INT_AS_SEQ) ||
           (node.at[0] == 0x05 && fault == DOUBLE_AS_SEQ) ||
           (node.at[0] >= 0x12 && node.at[0] <= 0x18 && fault == TIME_AS_SEQ);
}

/* A field of the record: is it one of the two? */
static void note(struct found *found, struct bytes name, struct bytes node)
{
    int sail = is_name(name, "sail"), seq = is_name(name, "seq");
    if (fault == LAST_THAT_SUITS && ((sail && !is_sail(node)) || (seq && !is_seq(node)))) return;
    if (sail && !(fault == FIRST_NAME && found->sail.at)) found->sail = node;
    if (seq && !(fault == FIRST_NAME && found->seq.at)) found->seq = node;
}

static int read_node(struct bytes *rest, int depth, struct found *found);

/* The content of a Record or a Map at this depth. */
static int read_fields(struct bytes *rest, int depth, int is_map, struct found *found)
{
    size_t count;
    struct bytes name, before = {0, 0};
    int counts = depth == 1 || fault == NAMES_INSIDE;
    if (!take_count(rest, &count)) return 0;
    for (size_t i = 0; i < count; i++) {
        if (!read_text(rest, &name)) return 0;
        if (is_map && i > 0 && !keys_rise(before, name, depth)) return 0;
        before = name;
        struct bytes node = *rest;
        if (!read_node(rest, depth + 1, found)) return 0;
        node.len -= rest->len;
        if (counts) note(found, name, node);
    }
    return 1;
}

static int read_array(struct bytes *rest, int depth, struct found *found)
{
    size_t count;
    if (!take_count(rest, &count)) return 0;
    while (count-- > 0)
        if (!read_node(rest, depth + 1, found)) return 0;
    return 1;
}

/* The content of a node without children. */
static int read_leaf(struct bytes *rest, uint8_t kind)
{
    struct bytes content;
    switch (kind) {
    case 0x00: return 1;
    case 0x01: return take(rest, 1, &content) && (content.at[0] <= 1 || fault == ANY_BOOLEAN);
    case 0x02: case 0x04: case 0x10: case 0x11: return skip(rest, 4);
    case 0x06: case 0x0d: case 0x0e: return take_counted(rest, &content);
    case 0x07: return read_text(rest, &content);
    case 0x0c: return skip(rest, 4) && read_text(rest, &content);
    case 0x0f: return skip(rest, 16);
    case 0x19: return skip(rest, 12);
    default: return kind < 0x19 ? skip(rest, 8) : fault == ANY_KIND;
    }
}

static int read_node(struct bytes *rest, int depth, struct found *found)
{
    struct bytes kind;
    int most = fault == DEPTH_15 ? 15 : fault == DEPTH_17 ? 17 : 16;
    if (depth > most || !take(rest, 1, &kind)) return 0;
    switch (kind.at[0]) {
    case 0x08: return read_array(rest, depth, found);
    case 0x09: return read_fields(rest, depth, 1, found);
    case 0x0a: return skip(rest, 4) && read_node(rest, depth + 1, found);
    case 0x0b: return read_fields(rest, depth, 0, found);
    default: return read_leaf(rest, kind.at[0]);
    }
}

/* A node without the Union around it, where the fault takes it off. */
static struct bytes peeled(struct bytes node, enum fault peels)
{
    if (fault == peels && node.len > 5 && node.at[0] == 0x0a) node.at += 5, node.len -= 5;
    return node;
}

static int set_sail(struct finish *finish, struct bytes node)
{
    static const uint8_t empty[] = {0x07, 0, 0};
    if (!node.at && fault == NO_SAIL) node.at = empty, node.len = sizeof empty;
    if (!node.at) return 0;
    node = peeled(node, UNION_OF_SAIL);
    if (!is_sail(node)) return 0;
    size_t before = node.at[0] == 0x0c ? 7 : 3;
    finish->sail.at = node.at + before, finish->sail.len = node.len - before;
    return (finish->sail.len > 0 || fault != SAIL_NOT_EMPTY) && (fault != TEXT_OF_SAIL || is_text(finish->sail));
}

static int set_seq(struct finish *finish, struct bytes node)
{
    uint64_t seq = 0;
    finish->seq = 0;
    if (!node.at) return fault == NO_SEQ;
    node = peeled(node, UNION_OF_SEQ);
    if (!is_seq(node)) return 0;
    for (size_t i = 1; i < node.len; i++) seq = seq << 8 | node.at[i];
    finish->seq = node.len == 5 ? (int32_t)seq : (int64_t)seq;
    return 1;
}

static int read_finish(struct bytes frame, struct finish *finish)
{
    struct found found = {{0, 0}, {0, 0}};
    size_t most = fault == FRAME_65536 ? 65536 : fault == FRAME_65534 ? 65534 : 65535;
    if (fault == FRAME_LOW_HALF) frame.len %= 65536;
    if (frame.len > most) return 0;
    frame = peeled(frame, UNION_OF_RECORD);
    if (frame.len == 0 || (frame.at[0] != 0x0b && (frame.at[0] != 0x09 || fault != MAP_AS_RECORD))) return 0;
    if (!read_node(&frame, 1, &found) || (frame.len > 0 && fault != LEFT_OVER)) return 0;
    return set_sail(finish, found.sail) && set_seq(finish, found.seq);
}

/* ---- The list: its finishes, with the faults in its ends ---- */

struct call {
    const uint8_t *input;
    size_t input_len;
    const size_t *ends;
    size_t ends_len;
    uint8_t *result;
    size_t result_len;
    uint8_t *workspace;
    size_t workspace_len;
};

/* The finishes of at most 256 frames. Answers how many, or -24. */
static int32_t read_list(const struct call *c, struct finish *finishes)
{
    size_t start = 0, count = 0;
    for (size_t i = 0; i < c->ends_len; i++) {
        size_t end = fault == END_OF_32_BITS ? (uint32_t)c->ends[i] : c->ends[i];
        if (end > c->input_len && fault == END_PAST_INPUT) end = c->input_len;
        if (end < start && fault == END_BELOW_START) continue;
        if (end > c->input_len || end < start) return -24;
        struct bytes frame = {c->input + start, end - start};
        start = end;
        if ((frame.len == 0 && fault == FRAME_EMPTY) || (i == 255 && fault == LAST_UNREAD)) continue;
        if (!read_finish(frame, &finishes[count])) return -24;
        finishes[count++].place = i;
    }
    if (start < c->input_len && fault == BYTES_BEHIND) return -24;
    return (int32_t)count;
}

/* ---- Choosing, with the faults in it ---- */

static uint32_t hash(struct bytes text)
{
    uint32_t h = 0, word;
    if (text.len < 4) return 0;
    for (size_t at = 0;; at += 4) {
        if (at > text.len - 4) at = text.len - 4;
        memcpy(&word, text.at + at, 4);
        h = h * 2654435769u + __builtin_bswap32(word);
        if (at == text.len - 4) return h;
    }
}

static struct bytes shortened(struct bytes sail)
{
    if (fault == SAIL_TO_ZERO) sail.len = strnlen((const char *)sail.at, sail.len);
    while (fault == SAIL_SPACES && sail.len > 0 && sail.at[sail.len - 1] == ' ') sail.len--;
    return sail;
}

static int same_letters(struct bytes a, struct bytes b)
{
    for (size_t i = 0; i < a.len; i++)
        if (small(a.at[i]) != small(b.at[i])) return 0;
    return 1;
}

static int same_sail(struct bytes a, struct bytes b)
{
    a = shortened(a), b = shortened(b);
    size_t shorter = a.len < b.len ? a.len : b.len, part = shorter < 16 ? shorter : 16;
    if (fault == SAIL_SHORTER) return memcmp(a.at, b.at, shorter) == 0;
    if (a.len != b.len) return 0;
    switch (fault) {
    case SAIL_CAPITALS: return same_letters(a, b);
    case SAIL_FRONT: return memcmp(a.at, b.at, part) == 0;
    case SAIL_END: return memcmp(a.at + a.len - part, b.at + b.len - part, part) == 0;
    case SAIL_HASH: return a.len >= 4 ? hash(a) == hash(b) : memcmp(a.at, b.at, a.len) == 0;
    case SAIL_EMPTY: return a.len > 0 && memcmp(a.at, b.at, a.len) == 0;
    default: return memcmp(a.at, b.at, a.len) == 0;
    }
}

/* Whether a later frame of number `b` supersedes one of number `a`. */
static int supersedes(int64_t b, int64_t a)
{
    switch (fault) {
    case EARLIER_OF_EQUAL: return b > a;
    case FIRST_STAYS: return 0;
    case LAST_ENTERED: return 1;
    case WITHOUT_SIGN: return (uint64_t)b >= (uint64_t)a;
    case LOW_HALF: return (uint32_t)b >= (uint32_t)a;
    case HIGH_HALF: return b >> 32 >= a >> 32;
    case AS_DOUBLES: return (double)b >= (double)a;
    case BY_DIFFERENCE: return (int64_t)((uint64_t)b - (uint64_t)a) >= 0;
    default: return b >= a;
    }
}

struct chosen { size_t first, current, last; };

/* The sail of a finish among those that were met; `sails` where it is a new one. */
static size_t sail_of(const struct finish *finishes, size_t at, const struct chosen *chosen, size_t sails)
{
    size_t sail = 0;
    if (fault == SAIL_LEFT && at > 0 && !same_sail(finishes[at - 1].sail, finishes[at].sail)) return sails;
    while (sail < sails && !same_sail(finishes[chosen[sail].first].sail, finishes[at].sail)) sail++;
    return sail;
}

static int later_first(const void *a, const void *b)
{
    return *(const uint8_t *)b - *(const uint8_t *)a;
}

static int earlier_first(const void *a, const void *b)
{
    return later_first(b, a);
}

/* Writes the places. Answers how many. */
static size_t choose(const struct finish *finishes, size_t count, uint8_t places[MOST_FRAMES])
{
    static struct chosen chosen[MOST_FRAMES];
    size_t sails = 0;
    for (size_t i = 0; i < count; i++) {
        size_t sail = sail_of(finishes, i, chosen, sails);
        struct chosen *of = &chosen[sail];
        size_t before = fault == ONLY_BEFORE ? of->last : of->current;
        if (sail == sails) of->first = of->current = i, sails++;
        else if (supersedes(finishes[i].seq, finishes[before].seq)) of->current = i;
        of->last = i;
    }
    for (size_t i = 0; i < sails; i++) {
        size_t place = finishes[chosen[i].current].place + (fault == PLACES_FROM_ONE);
        places[i] = (uint8_t)(fault == PLACES_TO_127 ? place & 127 : place);
    }
    if (fault == PLACES_RISE) qsort(places, sails, 1, earlier_first);
    if (fault == PLACES_FALL) qsort(places, sails, 1, later_first);
    return fault == COUNT_OF_A_BYTE ? sails % 256 : sails;
}

/* ---- The entry ---- */

static int32_t of_true(const struct call *c)
{
    return true_current(c->input, c->input_len, c->ends, c->ends_len, c->result, c->result_len, c->workspace,
                        c->workspace_len);
}

/* The answer by what is written above. The workspace is left to the true entry, which answers 1 and 23. */
static int32_t by_itself(struct call c)
{
    static struct finish finishes[MOST_FRAMES];
    uint8_t places[MOST_FRAMES];
    uint8_t *result = c.result;
    size_t result_len = c.result_len;
    c.result = places, c.result_len = sizeof places;
    int32_t n = of_true(&c), count;
    if (n == -1 || n == -23) return n;
    if ((count = read_list(&c, finishes)) < 0) return count;
    size_t sails = choose(finishes, (size_t)count, places);
    if (sails > result_len) return -18;
    memcpy(result, places, sails);
    return (int32_t)sails;
}

/* A refusal before the true entry is called; 0 where there is none. */
static int32_t refused_before(const struct call *c)
{
    static struct finish finishes[MOST_FRAMES];
    int too_many = c->ends_len > MOST_FRAMES, too_short = c->workspace_len < WORKSPACE;
    switch (fault) {
    case COUNT_BEFORE_1: return too_many && too_short ? -23 : 0;
    case READ_BEFORE_1: return !too_many && too_short && read_list(c, finishes) < 0 ? -24 : 0;
    case WORKSPACE_LONGER: return c->workspace_len == WORKSPACE ? -1 : 0;
    default: return 0;
    }
}

/* The list that the true entry gets. */
static struct call changed(struct call c)
{
    if (fault == FRAMES_257 && c.ends_len == 257) c.ends_len = 256;
    if (fault == FRAMES_OF_16_BITS) c.ends_len %= 65536;
    return c;
}

/* The number that takes the place of the true one's. */
static int32_t answer_instead(const struct call *c, int32_t n)
{
    static struct finish finishes[MOST_FRAMES];
    struct call front = *c;
    front.ends_len = MOST_FRAMES;
    switch (fault) {
    case FRAMES_256: return n != -1 && c->ends_len == 256 ? -23 : n;
    case READ_BEFORE_23: return n == -23 && read_list(&front, finishes) < 0 ? -24 : n;
    case RESULT_BEFORE_23: return n == -23 && c->result_len == 0 ? -18 : n;
    case RESULT_BEFORE_24: return n == -24 && c->result_len == 0 ? -18 : n;
    case NONE_REFUSED: return n == 0 ? -24 : n;
    case NONE_TOO_LONG: return n == 0 && c->result_len == 0 ? -18 : n;
    case JUST_FITS: return n > 0 && (size_t)n == c->result_len ? -18 : n;
    case RESULT_OF_FRAMES: return n >= 0 && c->ends_len > c->result_len ? -18 : n;
    case ONE_MORE: return n > 0 ? n + 1 : n;
    default: return n;
    }
}

static void change_result(const struct call *c, int32_t n)
{
    int accepted = n >= 0;
    switch (fault) {
    case WRITES_ON_24: if (n == -24 && c->result_len) c->result[0] ^= 1; break;
    case WRITES_WHAT_FITS: if (n == -18 && c->result_len) c->result[c->result_len - 1] ^= 1; break;
    case PAST_ANSWER: if (accepted && (size_t)n < c->result_len) c->result[n] ^= 1; break;
    case PAST_RESULT: if (accepted) c->result[c->result_len] ^= 1; break;
    case INPUT_CHANGED: if (accepted && c->input_len) ((uint8_t *)c->input)[0] ^= 1; break;
    case BEFORE_INPUT: if (accepted) ((uint8_t *)c->input)[-1] ^= 1; break;
    case ENDS_CHANGED: if (accepted && c->ends_len) ((size_t *)c->ends)[c->ends_len - 1] ^= 1; break;
    default: break;
    }
}

static void change_workspace(const struct call *c, int32_t n)
{
    switch (fault) {
    case WORKSPACE_FRONT: if (n != -1) c->workspace[0] = 1; break;
    case WORKSPACE_LAST: if (n != -1) c->workspace[WORKSPACE - 1] = 1; break;
    case WORKSPACE_ON_23: if (n == -23) c->workspace[40] = 1; break;
    case WORKSPACE_ON_24: if (n == -24) c->workspace[40] = 1; break;
    case WORKSPACE_ON_18: if (n == -18) c->workspace[40] = 1; break;
    case WORKSPACE_PAST: if (n != -1 && c->workspace_len > WORKSPACE) c->workspace[WORKSPACE] ^= 1; break;
    case WORKSPACE_AFTER_1: if (n == -1 && c->workspace_len) c->workspace[0] ^= 1; break;
    default: break;
    }
}

/* The true entry's answer, with the faults around it. */
static int32_t around(const struct call *c)
{
    int32_t before = refused_before(c);
    if (before) return before;
    struct call other = changed(*c);
    int32_t n = of_true(&other);
    change_result(c, n);
    change_workspace(c, n);
    return answer_instead(c, n);
}

/* The true entry's answer, where the one by what is written above is the same; else a number that is no answer. */
static int32_t without_fault(const struct call *c)
{
    static uint8_t places[MOST_FRAMES], workspace[WORKSPACE];
    struct call other = *c;
    other.result = places, other.workspace = workspace;
    if (other.result_len > sizeof places) other.result_len = sizeof places;
    if (other.workspace_len > sizeof workspace) other.workspace_len = sizeof workspace;
    int32_t m = by_itself(other), n = of_true(c);
    return m == n && (n < 0 || memcmp(places, c->result, (size_t)n) == 0) ? n : INT32_MIN;
}

int32_t hulmbax_current(const uint8_t *input, size_t input_len, const size_t *ends, size_t ends_len, uint8_t *result,
                        size_t result_len, uint8_t *workspace, size_t workspace_len)
{
    static int known;
    struct call c = {input, input_len, ends, ends_len, result, result_len, workspace, workspace_len};
    if (!known) {
        const char *number = getenv("FAULT");
        known = 1, fault = number ? (enum fault)atoi(number) : NONE;
        if (fault >= FAULTS) abort();
    }
    if (fault == NONE) return without_fault(&c);
    return fault < FRAMES_256 ? by_itself(c) : around(&c);
}
