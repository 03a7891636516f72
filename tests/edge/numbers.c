/* Holds the header's sizes and limits to what the library itself does: blocks and buffers that are exactly as long as the macros say
   are accepted, and with one item more or one word or byte less they are refused as they must be. Writes each macro's numbers, for
   numbers.py, and ends with status 1 at the first that is wrong. */
#include "wimblorque.h"

int printf(const char *format, ...);

enum { MOST = WIMBLORQUE_MOST_RANGES + 1 };

static uint64_t one[WIMBLORQUE_SET_WORDS(MOST) + 8], two[WIMBLORQUE_SET_WORDS(MOST)], map[WIMBLORQUE_MAP_WORDS(MOST) + 8];
static uint64_t pairs[WIMBLORQUE_PREFIX_WORDS(2 * MOST)];
static uint8_t bytes[WIMBLORQUE_BULLETIN_BYTES(MOST, MOST)];
static int wrong;

static void expect(const char *what, size_t n, uint64_t got, uint64_t due) {
    if (got != due) {
        printf("%s %llu: %llu, not %llu\n", what, (unsigned long long)n, (unsigned long long)got, (unsigned long long)due);
        wrong = 1;
    }
}

/* n ranges, or entries, that lie apart, from a first number on. */
static void fill_set(uint64_t *block, uint64_t n, uint64_t first) {
    block[0] = n;
    for (uint64_t i = 0; i < n; i++) {
        block[1 + 2 * i] = block[2 + 2 * i] = first + 4 * i;
    }
}

static void fill_map(uint64_t n) {
    map[0] = n;
    for (uint64_t i = 0; i < n; i++) {
        map[1 + 3 * i] = map[2 + 3 * i] = 4 * i;
        map[3 + 3 * i] = i;
    }
}

/* The words and bytes of a signed set are those of a set, and no others. */
static void signed_sizes(size_t n) {
    const size_t words = WIMBLORQUE_SET_WORDS(n), length = WIMBLORQUE_SET_BYTES(n);
    expect("signed words", n, wimblorque_signed_member(one, words, 0).status, WIMBLORQUE_ACCEPTED);
    expect("signed, a byte too few", n, wimblorque_signed_write(one, words, bytes, length - 1, 0).status, WIMBLORQUE_NO_SPACE);
    expect("signed bytes", n, wimblorque_signed_write(one, words, bytes, length, 0).first, length);
    expect("signed, read", n, wimblorque_signed_read(bytes, length, two, words).status, WIMBLORQUE_ACCEPTED);
    expect("signed, a byte short", n, wimblorque_signed_read(bytes, length - 1, two, words).status, WIMBLORQUE_SHORT);
    if (n > 0) {
        expect("signed, a word too few", n, wimblorque_signed_member(one, words - 1, 0).status, WIMBLORQUE_COUNT);
        expect("signed, no room", n, wimblorque_signed_read(bytes, length, two, words - 1).status, WIMBLORQUE_ROOM);
    }
}

/* The words and bytes of n items. */
static void sizes(size_t n) {
    const size_t words = WIMBLORQUE_SET_WORDS(n), length = WIMBLORQUE_SET_BYTES(n);
    fill_set(one, n, 0);
    expect("set words", n, wimblorque_set_size(one, words).status, WIMBLORQUE_ACCEPTED);
    expect("set bytes", n, wimblorque_set_write(one, words, bytes, length, 0).first, length);
    expect("set, a byte too few", n, wimblorque_set_write(one, words, bytes, length - 1, 0).status, WIMBLORQUE_NO_SPACE);
    if (n > 0) {
        expect("set, a word too few", n, wimblorque_set_size(one, words - 1).status, WIMBLORQUE_COUNT);
    }
    signed_sizes(n);
    if (n > WIMBLORQUE_MOST_ENTRIES) {
        return;
    }
    const size_t map_words = WIMBLORQUE_MAP_WORDS(n), map_length = WIMBLORQUE_MAP_BYTES(n);
    fill_map(n);
    expect("map words", n, wimblorque_map_look_up(map, map_words, 0).status, WIMBLORQUE_ACCEPTED);
    expect("map bytes", n, wimblorque_map_write(map, map_words, bytes, map_length, 0).first, map_length);
    expect("map, a byte too few", n, wimblorque_map_write(map, map_words, bytes, map_length - 1, 0).status, WIMBLORQUE_NO_SPACE);
    if (n > 0) {
        expect("map, a word too few", n, wimblorque_map_look_up(map, map_words - 1, 0).status, WIMBLORQUE_COUNT);
    }
}

/* The bytes of a bulletin of r and w ranges. */
static void bulletin(size_t r, size_t w) {
    const size_t length = WIMBLORQUE_BULLETIN_BYTES(r, w), words = WIMBLORQUE_SET_WORDS(MOST);
    fill_set(one, r, 0);
    fill_set(two, w, 2);
    expect("bulletin bytes", r + w, wimblorque_bulletin_write(one, words, two, words, bytes, length, 0).first, length);
    expect("bulletin, a byte too few", r + w, wimblorque_bulletin_write(one, words, two, words, bytes, length - 1, 0).status,
           WIMBLORQUE_NO_SPACE);
}

/* Both calls on prefix blocks, into an output of so many words: the status that is due. */
static void prefixes(const char *what, size_t n, size_t words, uint64_t due) {
    expect(what, n, wimblorque_set_prefix_blocks(one, WIMBLORQUE_SET_WORDS(MOST), pairs, words).status, due);
    expect(what, n, wimblorque_set_audit_blocks(one, WIMBLORQUE_SET_WORDS(MOST), pairs, words).status, due);
}

/* The words of n prefix blocks: of n numbers that lie apart. */
static void prefix_sizes(size_t n) {
    fill_set(one, n, 0);
    prefixes("prefix words", n, WIMBLORQUE_PREFIX_WORDS(n), WIMBLORQUE_ACCEPTED);
    expect("prefix capacity", n, WIMBLORQUE_PREFIX_CAPACITY(WIMBLORQUE_PREFIX_WORDS(n)), n);
    expect("prefix capacity, a word more", n, WIMBLORQUE_PREFIX_CAPACITY(WIMBLORQUE_PREFIX_WORDS(n) + 1), n);
    if (n > 0) {
        prefixes("prefix words, a word too few", n, WIMBLORQUE_PREFIX_WORDS(n) - 1, WIMBLORQUE_ROOM);
    }
}

/* More prefix blocks than a set has ranges, the most of one range, all numbers in one, and the last number of any. */
static void prefix_limits(void) {
    fill_set(one, WIMBLORQUE_MOST_RANGES, 1);
    for (uint64_t i = 0; i < WIMBLORQUE_MOST_RANGES; i++) {
        one[2 + 2 * i]++; /* 1..2, 5..6 and so on: two prefix blocks each */
    }
    prefixes("over the limit of a set", 0, WIMBLORQUE_PREFIX_WORDS(2 * WIMBLORQUE_MOST_RANGES), WIMBLORQUE_ACCEPTED);
    prefixes("over it, a word too few", 0, WIMBLORQUE_PREFIX_WORDS(2 * WIMBLORQUE_MOST_RANGES) - 1, WIMBLORQUE_ROOM);
    one[0] = one[1] = 1;
    one[2] = UINT64_MAX - 1;
    prefixes("the most of one range", 1, WIMBLORQUE_PREFIX_WORDS_OF(1), WIMBLORQUE_ACCEPTED);
    expect("the most of one range", 1, pairs[0], WIMBLORQUE_MOST_PREFIXES);
    prefixes("the most of one range, a word too few", 1, WIMBLORQUE_PREFIX_WORDS_OF(1) - 1, WIMBLORQUE_ROOM);
    one[1] = 0;
    one[2] = UINT64_MAX;
    prefixes("all numbers", 1, WIMBLORQUE_PREFIX_WORDS(1), WIMBLORQUE_ACCEPTED);
    expect("the exponent of all numbers", 1, pairs[2], 64);
    expect("the last of all numbers", 1, wimblorque_prefix_last(pairs[1], pairs[2]), UINT64_MAX);
    for (uint64_t e = 0, size = 1; e < 64; e++, size *= 2) {
        expect("the last of a prefix block", e, wimblorque_prefix_last(UINT64_MAX - (size - 1), e), UINT64_MAX);
        expect("the last of the first one", e, wimblorque_prefix_last(0, e), size - 1);
    }
}

/* What a block of so many words has room for: that many items, and not one more. */
static void capacity(size_t words) {
    const size_t ranges = WIMBLORQUE_SET_CAPACITY(words), entries = WIMBLORQUE_MAP_CAPACITY(words);
    fill_set(one, ranges, 0);
    expect("capacity", words, wimblorque_set_size(one, words).status, WIMBLORQUE_ACCEPTED);
    one[0] = ranges + 1;
    expect("capacity and one more", words, wimblorque_set_size(one, words).status, WIMBLORQUE_COUNT);
    expect("capacity of a signed set and one more", words, wimblorque_signed_range_at(one, words, 0).status, WIMBLORQUE_COUNT);
    fill_map(entries);
    expect("capacity of a map", words, wimblorque_map_look_up(map, words, 0).status, WIMBLORQUE_ACCEPTED);
    map[0] = entries + 1;
    expect("capacity of a map and one more", words, wimblorque_map_look_up(map, words, 0).status, WIMBLORQUE_COUNT);
}

#define SAY(macro) printf(#macro " %llu\n", (unsigned long long)(macro))

int main(void) {
    for (size_t n = 0; n <= 20; n++) {
        sizes(n);
        sizes(WIMBLORQUE_MOST_ENTRIES - n);
        sizes(WIMBLORQUE_MOST_RANGES - n);
        bulletin(n, 3 * n);
        capacity(n + 1);
        capacity(WIMBLORQUE_SET_WORDS(WIMBLORQUE_MOST_RANGES) - 10 + n);
        prefix_sizes(n);
        prefix_sizes(WIMBLORQUE_MOST_RANGES - n);
    }
    prefix_limits();
    bulletin(WIMBLORQUE_MOST_RANGES, WIMBLORQUE_MOST_RANGES);
    expect("capacity of no words", 0, WIMBLORQUE_SET_CAPACITY(0) + WIMBLORQUE_MAP_CAPACITY(0) + WIMBLORQUE_PREFIX_CAPACITY(0), 0);
    SAY(WIMBLORQUE_MOST_RANGES);
    SAY(WIMBLORQUE_MOST_ENTRIES);
    SAY(WIMBLORQUE_MOST_PREFIXES);
    SAY(WIMBLORQUE_SET_WORDS(1000));
    SAY(WIMBLORQUE_MAP_WORDS(1000));
    SAY(WIMBLORQUE_PREFIX_WORDS(1000));
    SAY(WIMBLORQUE_PREFIX_WORDS_OF(1000));
    SAY(WIMBLORQUE_SET_CAPACITY(100));
    SAY(WIMBLORQUE_MAP_CAPACITY(100));
    SAY(WIMBLORQUE_SET_CAPACITY(100000));
    SAY(WIMBLORQUE_MAP_CAPACITY(100000));
    SAY(WIMBLORQUE_PREFIX_CAPACITY(100000));
    SAY(WIMBLORQUE_SET_START_BYTES);
    SAY(WIMBLORQUE_MAP_START_BYTES);
    SAY(WIMBLORQUE_BULLETIN_START_BYTES);
    SAY(WIMBLORQUE_RANGE_BYTES);
    SAY(WIMBLORQUE_ENTRY_BYTES);
    SAY(WIMBLORQUE_SET_BYTES(1000));
    SAY(WIMBLORQUE_MAP_BYTES(1000));
    SAY(WIMBLORQUE_BULLETIN_BYTES(1000, 100));
    printf("WIMBLORQUE_VERSION %s\n", WIMBLORQUE_VERSION);
    return wrong;
}
