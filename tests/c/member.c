/* Asks the C host's question of some buffers and writes what it answers, one line each. */
#include "wimblorque.h"

int printf(const char *format, ...);

/* [C3, C6] {5..9} and the empty set; {5..9} with the old mark; {0..0} with the old mark and with the new */
static const uint8_t one_range[] = {0xC5, 0x3B, 0x01, 0x00, 0x01, 0xEB, 0x8D, 0xC5, 0x3B, 0x10, 0, 0, 0, 0, 0, 0, 0, 5,
                                    0,    0,    0,    0,    0,    0,    0,    9,    0x3F, 0x08};
static const uint8_t empty[] = {0xC5, 0x3B, 0x01, 0x00, 0x00, 0xFB, 0xAC};
static const uint8_t old_range[] = {0xC5, 0x3A, 0x01, 0x00, 0x01, 0x04, 0x02, 0xC5, 0x3A, 0x10, 0, 0, 0, 0, 0, 0, 0, 5,
                                    0,    0,    0,    0,    0,    0,    0,    9,    0x47, 0x1E};
static const uint8_t old_zero[] = {0xC5, 0x3A, 0x01, 0x00, 0x01, 0x04, 0x02, 0xC5, 0x3A, 0x10, 0, 0, 0, 0, 0, 0, 0, 0,
                                   0,    0,    0,    0,    0,    0,    0,    0,    0x11, 0x10};
static const uint8_t zero[] = {0xC5, 0x3B, 0x01, 0x00, 0x01, 0xEB, 0x8D, 0xC5, 0x3B, 0x10, 0, 0, 0, 0, 0, 0, 0, 0,
                               0,    0,    0,    0,    0,    0,    0,    0,    0xD9, 0xED};

static void ask(const char *what, const uint8_t *bytes, size_t length, uint64_t x) {
    printf("%s %llu: %llu\n", what, (unsigned long long)x, (unsigned long long)wimblorque_member(bytes, length, x));
}

/* a copy with one byte changed, or with bytes left out or added at its end */
static uint8_t changed[64];

static const uint8_t *with(const uint8_t *bytes, size_t length, size_t at, uint8_t byte) {
    for (size_t i = 0; i < length; i++) {
        changed[i] = bytes[i];
    }
    changed[at] = byte;
    return changed;
}

int main(void) {
    const size_t all = sizeof one_range;
    const uint64_t last = 18446744073709551615ull;
    ask("in {5..9}", one_range, all, 4);
    ask("in {5..9}", one_range, all, 5);
    ask("in {5..9}", one_range, all, 9);
    ask("in {5..9}", one_range, all, 10);
    ask("in {5..9}", one_range, all, last);
    ask("in the empty set", empty, sizeof empty, 0);
    ask("in an empty buffer", one_range, 0, 5);
    ask("in a form cut short", one_range, all - 1, 5);
    ask("with a wrong mark", with(one_range, all, 7, 0xC4), all, 5);
    ask("with a wrong kind", with(one_range, all, 9, 0x11), all, 5);
    ask("with a wrong check", with(one_range, all, 27, 0x09), all, 5);
    with(one_range, all, 17, 0x0A);
    changed[26] = 0xA7;
    changed[27] = 0x5C;
    ask("with a low above its high", changed, all, 5);
    ask("with a byte after it", with(one_range, all, 28, 0x00), all + 1, 5);
    ask("in {5..9} with the old mark", old_range, all, 5);
    ask("in {5..9} with the old mark", old_range, all, 10);
    ask("with the old mark and a wrong check", with(old_range, all, 27, 0x1F), all, 5);
    ask("with the new mark behind the old", with(old_range, all, 8, 0x3B), all, 5);
    ask("with the old mark behind the new", with(one_range, all, 8, 0x3A), all, 5);
    ask("with the old mark on the first record", with(one_range, all, 1, 0x3A), all, 5);
    /* the old check counts 00 and FF alike: {0..0} with the last byte of its high turned into FF is the old form of {0..255}; the new
       check tells them apart */
    ask("in {0..0}, old, with FF for 00", with(old_zero, all, 25, 0xFF), all, 200);
    ask("in {0..0} with FF for 00", with(zero, all, 25, 0xFF), all, 200);
    return 0;
}
