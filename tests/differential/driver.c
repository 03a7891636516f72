/* Runs the library's calls as it is told on its standard input, and writes each outcome to its standard output.

   A case is 64-bit words, little-endian: the number of the call (the order of the header), how many blocks and buffers are lent, how
   many arguments there are, and where the lent memory lies (0: its end is the end of what may be touched; 1: its beginning is). Then,
   for each that is lent: what it is (0 words to read, 1 words to write, 2 bytes to read, 3 bytes to write), 0 or the number, from 1,
   of the earlier one whose memory it is, its length, and unless it is an earlier one's memory its contents. Then the arguments, keys in
   two's complement.

   An outcome is the six words of the answer, a word that is not 0 if memory beside something lent was written, and the contents of
   everything lent. For wimblorque_member the answer is its one number and five zeros; for wimblorque_key_of_word and
   wimblorque_word_of_key it has that one value.

   Pages that nobody may touch lie on both sides of each block, so that a read or a write across the end it is placed at ends the
   program, as does a write to an input; bytes beside the other end are looked at after the call. Garbage is
   left where the answers come to lie before each call, so that a word of an answer that is not written shows. */
#include "wimblorque.h"

long read(int file, void *to, size_t length);
long write(int file, const void *from, size_t length);
void *mmap(void *at, size_t length, int protection, int flags, int file, long offset);
int mprotect(void *at, size_t length, int protection);
void _exit(int status) __attribute__((noreturn));

enum { NO_ACCESS = 0, READ_ONLY = 1, READ_WRITE = 3, PRIVATE_ANONYMOUS = 0x22 };
enum { LENT = 6, ARGS = 4, GUARD = 65536, ROOM = 1 << 20, BESIDE = 512, IO = 1 << 20 };
enum { WORDS_IN, WORDS_OUT, BYTES_IN, BYTES_OUT };
static const uint8_t beside = 0xB5;

/* Memory between two guards, and what is lent of it. */
struct slot {
    uint8_t *room;
    uint8_t *at;
    size_t length; /* in words or bytes */
    size_t size;   /* in bytes */
    uint64_t what;
    uint64_t same;
};

static struct slot slots[LENT];
static uint64_t args[ARGS];
static uint8_t in[IO], out[IO];
static size_t in_at, in_end, out_end;

static void flush(void) {
    for (size_t at = 0; at < out_end;) {
        long done = write(1, out + at, out_end - at);
        if (done <= 0) {
            _exit(3);
        }
        at += (size_t)done;
    }
    out_end = 0;
}

static void put(const uint8_t *from, size_t length) {
    for (size_t i = 0; i < length; i++) {
        if (out_end == IO) {
            flush();
        }
        out[out_end++] = from[i];
    }
}

static void put_word(uint64_t word) {
    put((const uint8_t *)&word, sizeof word);
}

/* Reads so many bytes; 0 if there are no more at all. A case that is cut short ends the program. */
static int get(uint8_t *to, size_t length) {
    for (size_t i = 0; i < length; i++) {
        if (in_at == in_end) {
            long got = read(0, in, IO);
            if (got < 0 || (got == 0 && i > 0)) {
                _exit(3);
            }
            if (got == 0) {
                return 0;
            }
            in_at = 0;
            in_end = (size_t)got;
        }
        to[i] = in[in_at++];
    }
    return 1;
}

static uint64_t get_word(void) {
    uint64_t word = 0;
    if (!get((uint8_t *)&word, sizeof word)) {
        _exit(3);
    }
    return word;
}

static void make_room(struct slot *slot) {
    uint8_t *all = mmap(0, GUARD + ROOM + GUARD, NO_ACCESS, PRIVATE_ANONYMOUS, -1, 0);
    if (all == (uint8_t *)-1 || mprotect(all + GUARD, ROOM, READ_WRITE) != 0) {
        _exit(4);
    }
    slot->room = all + GUARD;
}

/* The bytes beside the lent ones, at the end where no guard is. */
static uint8_t *beside_of(const struct slot *slot, uint64_t placement) {
    return placement == 0 ? slot->at - BESIDE : slot->at + slot->size;
}

static void place(struct slot *slot, uint64_t placement) {
    if (slot->size > ROOM - BESIDE) {
        _exit(3);
    }
    slot->at = placement == 0 ? slot->room + ROOM - slot->size : slot->room;
    uint8_t *side = beside_of(slot, placement);
    for (size_t i = 0; i < BESIDE; i++) {
        side[i] = beside;
    }
}

static int touched(const struct slot *slot, uint64_t placement) {
    const uint8_t *side = beside_of(slot, placement);
    for (size_t i = 0; i < BESIDE; i++) {
        if (side[i] != beside) {
            return 1;
        }
    }
    return 0;
}

static void get_lent(size_t i, uint64_t placement) {
    struct slot *slot = &slots[i];
    slot->what = get_word();
    slot->same = get_word();
    slot->length = get_word();
    slot->size = slot->what <= WORDS_OUT ? slot->length * 8 : slot->length;
    if (slot->same > i) {
        _exit(3);
    }
    if (slot->same != 0) {
        slot->at = slots[slot->same - 1].at;
        return;
    }
    place(slot, placement);
    if (slot->size > 0 && !get(slot->at, slot->size)) {
        _exit(3);
    }
}

/* Makes the memory of what is only to be read unwritable, or writable again. */
static void protect(size_t lent, int protection) {
    for (size_t i = 0; i < lent; i++) {
        if (slots[i].same == 0 && (slots[i].what == WORDS_IN || slots[i].what == BYTES_IN)) {
            if (mprotect(slots[i].room, ROOM, protection) != 0) {
                _exit(4);
            }
        }
    }
}

#define W(i) (uint64_t *)(void *)slots[i].at, slots[i].length
#define B(i) slots[i].at, slots[i].length
#define X args[0]
#define Y args[1]
#define Z args[2]
#define J args[3]
#define KEY_X (int64_t)args[0]
#define KEY_Y (int64_t)args[1]
#define ONE_VALUE(x) (wimblorque_answer){.count = 1, .first = (uint64_t)(x)}

/* The calls, numbered in the order of the header. */
static __attribute__((noinline)) wimblorque_answer call(uint64_t number) {
    switch (number) {
    case 0: return wimblorque_set_member(W(0), X);
    case 1: return wimblorque_set_range_at(W(0), X);
    case 2: return wimblorque_set_size(W(0));
    case 3: return wimblorque_set_least_member(W(0), X);
    case 4: return wimblorque_set_least_non_member(W(0), X);
    case 5: return wimblorque_set_window(W(0), X, Y);
    case 6: return wimblorque_set_equal(W(0), W(1));
    case 7: return wimblorque_set_within(W(0), W(1));
    case 8: return wimblorque_set_disjoint(W(0), W(1));
    case 9: return wimblorque_set_make_empty(W(0));
    case 10: return wimblorque_set_insert(W(0), X, Y);
    case 11: return wimblorque_set_remove(W(0), X, Y);
    case 12: return wimblorque_set_union(W(0), W(1), W(2));
    case 13: return wimblorque_set_intersection(W(0), W(1), W(2));
    case 14: return wimblorque_set_difference(W(0), W(1), W(2));
    case 15: return wimblorque_set_symmetric_difference(W(0), W(1), W(2));
    case 16: return wimblorque_set_complement(W(0), W(1));
    case 17: return wimblorque_set_prefix_blocks(W(0), W(1));
    case 18: return wimblorque_set_audit_blocks(W(0), W(1));
    case 19: return wimblorque_set_first_fit(W(0), X, Y, Z);
    case 20: return wimblorque_set_best_fit(W(0), X, Y, Z);
    case 21: return wimblorque_set_reserve_first(W(0), X, Y, Z);
    case 22: return wimblorque_set_reserve_best(W(0), X, Y, Z);
    case 23: return wimblorque_set_first_fit_aligned(W(0), X, Y, Z, J);
    case 24: return wimblorque_set_best_fit_aligned(W(0), X, Y, Z, J);
    case 25: return wimblorque_set_reserve_first_aligned(W(0), X, Y, Z, J);
    case 26: return wimblorque_set_reserve_best_aligned(W(0), X, Y, Z, J);
    case 27: return wimblorque_signed_member(W(0), KEY_X);
    case 28: return wimblorque_signed_range_at(W(0), X);
    case 29: return wimblorque_signed_least_member(W(0), KEY_X);
    case 30: return wimblorque_signed_least_non_member(W(0), KEY_X);
    case 31: return wimblorque_signed_window(W(0), KEY_X, KEY_Y);
    case 32: return wimblorque_signed_insert(W(0), KEY_X, KEY_Y);
    case 33: return wimblorque_signed_remove(W(0), KEY_X, KEY_Y);
    case 34: return wimblorque_signed_first_fit(W(0), KEY_X, KEY_Y, Z);
    case 35: return wimblorque_signed_best_fit(W(0), KEY_X, KEY_Y, Z);
    case 36: return wimblorque_signed_reserve_first(W(0), KEY_X, KEY_Y, Z);
    case 37: return wimblorque_signed_reserve_best(W(0), KEY_X, KEY_Y, Z);
    case 38: return wimblorque_key_difference(KEY_X, KEY_Y);
    case 39: return ONE_VALUE(wimblorque_key_of_word(X));
    case 40: return ONE_VALUE(wimblorque_word_of_key(KEY_X));
    case 41: return wimblorque_map_look_up(W(0), X);
    case 42: return wimblorque_map_assign(W(0), X, Y, Z);
    case 43: return wimblorque_map_erase(W(0), X, Y);
    case 44: return wimblorque_map_window(W(0), X, Y);
    case 45: return wimblorque_map_site_over_factory(W(0), W(1), X);
    case 46: return wimblorque_map_overlay(W(0), W(1), W(2));
    case 47: return wimblorque_map_restriction(W(0), W(1), W(2));
    case 48: return wimblorque_map_domain(W(0), W(1));
    case 49: return wimblorque_bulletin_apply(W(0), W(1), W(2), W(3));
    case 50: return wimblorque_bulletin_fold(W(0), W(1), W(2), W(3), W(4), W(5));
    case 51: return wimblorque_set_read(B(0), W(1));
    case 52: return wimblorque_signed_read(B(0), W(1));
    case 53: return wimblorque_map_read(B(0), W(1));
    case 54: return wimblorque_bulletin_read(B(0), W(1), W(2));
    case 55: return wimblorque_set_judge_form(B(0));
    case 56: return (wimblorque_answer){.status = wimblorque_member(B(0), X)};
    case 57: return wimblorque_set_write(W(0), B(1), X);
    case 58: return wimblorque_signed_write(W(0), B(1), X);
    case 59: return wimblorque_map_write(W(0), B(1), X);
    case 60: return wimblorque_bulletin_write(W(0), W(1), B(2), X);
    default: _exit(3);
    }
}

static wimblorque_answer answer;

/* Leaves garbage where an answer may come to lie: on the stack, and where it is kept. */
static __attribute__((noinline)) void leave_garbage(void) {
    volatile uint64_t stack[4096];
    volatile uint64_t *kept = (volatile uint64_t *)&answer;
    for (size_t i = 0; i < 4096; i++) {
        stack[i] = 0xDEAD0000DEAD0000ull + i;
    }
    for (size_t i = 0; i < sizeof answer / 8; i++) {
        kept[i] = stack[i];
    }
}

static __attribute__((noinline)) void ask(uint64_t number, wimblorque_answer *to) {
    *to = call(number);
}

/* One case; 0 if there are no more. */
static int one(void) {
    uint64_t number;
    if (!get((uint8_t *)&number, sizeof number)) {
        return 0;
    }
    const uint64_t lent = get_word(), given = get_word(), placement = get_word();
    if (lent > LENT || given > ARGS || placement > 1) {
        _exit(3);
    }
    for (size_t i = 0; i < lent; i++) {
        get_lent(i, placement);
    }
    for (size_t i = 0; i < given; i++) {
        args[i] = get_word();
    }
    protect(lent, READ_ONLY);
    leave_garbage();
    ask(number, &answer);
    protect(lent, READ_WRITE);
    uint64_t beside_written = 0;
    for (size_t i = 0; i < lent; i++) {
        beside_written |= slots[i].same == 0 && touched(&slots[i], placement);
    }
    put((const uint8_t *)&answer, sizeof answer);
    put_word(beside_written);
    for (size_t i = 0; i < lent; i++) {
        put(slots[i].at, slots[i].size);
    }
    return 1;
}

int main(void) {
    for (size_t i = 0; i < LENT; i++) {
        make_room(&slots[i]);
    }
    while (one()) {
    }
    flush();
    return 0;
}
