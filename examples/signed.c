/* A calibration bench keeps the readings at which a sensor was calibrated, in microdegrees above and below zero: a signed set. */
#include <inttypes.h>
#include <stdio.h>
#include <stdlib.h>

#include "wimblorque.h"
#include "wimblorque_refusals.h"

enum { RANGES = 4, WORDS = WIMBLORQUE_SET_WORDS(RANGES) };

/* The answer, or the end of the program with the refusal in words. */
static wimblorque_answer got(wimblorque_answer a) {
    if (a.status != WIMBLORQUE_ACCEPTED) {
        printf("refused: %s\n", wimblorque_refusal_sentence(a.status));
        exit(1);
    }
    return a;
}

/* The words of a block stand for keys; a part of it is what a window answers. */
static void show(const char *what, const uint64_t *block, uint64_t offset, uint64_t length) {
    printf("%s:", what);
    for (uint64_t at = offset; at < offset + length; at += 2) {
        printf(" %" PRId64 "..%" PRId64, wimblorque_key_of_word(block[at]), wimblorque_key_of_word(block[at + 1]));
    }
    printf("\n");
}

static void difference(int64_t a, int64_t b) {
    const wimblorque_answer apart = wimblorque_key_difference(a, b);
    if (apart.count == 0) {
        printf("from %" PRId64 " to %" PRId64 ": too far\n", b, a);
    } else {
        printf("from %" PRId64 " to %" PRId64 ": %" PRId64 "\n", b, a, (int64_t)apart.first);
    }
}

int main(void) {
    static uint64_t done[WORDS], copy[WORDS]; /* a block of zeros is an empty signed set, too */
    static uint8_t bytes[WIMBLORQUE_SET_BYTES(RANGES)];
    got(wimblorque_signed_insert(done, WORDS, -5, -1));
    got(wimblorque_signed_insert(done, WORDS, 0, 3)); /* -1 and 0 are neighbours: one range */
    got(wimblorque_signed_insert(done, WORDS, -250, -200));
    show("calibrated", done, 1, 2 * done[0]);
    for (int64_t reading = -6; reading <= 4; reading += 5) {
        const wimblorque_answer found = got(wimblorque_signed_member(done, WORDS, reading));
        printf("reading %" PRId64 ": %s\n", reading, found.first == 1 ? "calibrated" : "not calibrated");
    }
    const wimblorque_answer part = got(wimblorque_signed_window(done, WORDS, -100, 100));
    show("the ranges that meet -100..100", done, part.first, part.second);
    /* a key in an answer is cast: it stands in two's complement */
    const wimblorque_answer next = got(wimblorque_signed_least_member(done, WORDS, -1000));
    printf("the least of them: %" PRId64 "\n", (int64_t)next.first);
    difference(3, -5);
    difference(INT64_MAX, -5);
    const wimblorque_answer written = got(wimblorque_signed_write(done, WORDS, bytes, sizeof bytes, 0));
    got(wimblorque_signed_read(bytes, (size_t)written.first, copy, WORDS));
    const wimblorque_answer same = got(wimblorque_set_equal(done, WORDS, copy, WORDS));
    printf("%" PRIu64 " bytes, read again: %s\n", written.first, same.first == 1 ? "the same" : "not the same");
    const wimblorque_answer plain = wimblorque_set_read(bytes, (size_t)written.first, copy, WORDS);
    printf("read as a set: %s\n", wimblorque_refusal_name(plain.status));
    return 0;
}
