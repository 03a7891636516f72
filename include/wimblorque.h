/* Range lists for carts: every call of the library, for a C host. Link libwimblorque.a, which ./install makes; on 64-bit Arm
   wimblorque_aarch64.o. wimblorque_refusals.h, beside this file, has the refusals in words.

   BLOCKS. A block is an array of words and its length in words. Word 0 is n, the number of items. A set's item i is words 1+2i and
   2+2i, the low and the high of a range; a map's item i is words 1+3i, 2+3i and 3+3i, low, high and value. Both ends belong to the
   range. Words behind the items are not read in an input; an accepted call that writes a block makes them 0, to the block's end.
   A set block of L words has room for (L-1)/2 ranges, 4,095 at the most; a map block for (L-1)/3 entries, 2,730 at the most. The
   macros below say the same: uint64_t list[WIMBLORQUE_SET_WORDS(4)] has room for four ranges. A block of zeros is empty.

   SIGNED SETS. A signed set is a set of keys: signed numbers, from INT64_MIN to INT64_MAX. It stands in an ordinary set block, in which
   nothing says that it is signed: the host knows it. A key is held as its word, the key plus 2^63, so that the words are in the order
   of the keys; wimblorque_word_of_key and wimblorque_key_of_word turn one into the other. A call that takes or answers keys is named
   wimblorque_signed_... The calls on sets that take and answer no number of the set serve signed sets as they are (two sets are then
   both signed, or neither): wimblorque_set_make_empty, _size, _equal, _within, _disjoint, _union, _intersection, _difference,
   _symmetric_difference and _complement. Sizes and limits are those of a set, in words and in bytes. A block of zeros is empty.

   PREFIX BLOCKS. A prefix block is what a label scanner takes as a filter: 2^e numbers from a multiple of 2^e on, e from 0 to 64, which
   are the numbers whose upper 64 - e bits are those of the first one. wimblorque_set_prefix_blocks makes the list of a set's prefix
   blocks. It stands in an array of words as ranges do, word 0 the count and then a pair for each, its start and its e; but it is no
   set, and no call takes it as an input. An output of L words has room for (L-1)/2 pairs: the limit of 4,095 is that of sets.

   BYTES. The byte form of a set, a map, a bulletin or a signed set is its records, one after the other: two bytes of mark, one of kind,
   the body, two of check; numbers are big-endian. There are two marks. A record with the new one, C5 3B, has a CRC-16 of its kind and
   body as its check (polynomial 0x1021, from FFFF on, not reflected, not changed at the end; the high byte first); a record with the
   old one, C5 3A, has Fletcher's two sums. Every call that reads bytes takes both, but all records of a form have one mark, that of the
   first. Every call that writes bytes writes the new one: an old form that is read and written comes out as the new form of the same
   list, of the same length. A new form in which one byte is changed, whichever it is, is refused. The old check counts the bytes 00
   and FF alike: in an old form such a change may go unnoticed, as where a part of the memory was erased.

   ANSWERS. Every call returns a wimblorque_answer, but wimblorque_member, wimblorque_key_of_word and wimblorque_word_of_key:
     status   0 if the call was accepted, else 16 plus the number of the refusal (the constants below). A refused call changes no word
              or byte lent to it.
     place    of a refusal: the position of the block that is refused, counted from 0 as this header lists the call's blocks (inputs
              first, then outputs); for bytes, where the refused record begins; 0 for the other refusals. Accepted: 0.
     count    how many values the call answers, 0 to 3. Refused: 0. A question that finds nothing answers 0 values, without exception;
              the answer no is a value, 0.
     first, second, third    the values; 0 where there are fewer. A key stands here in two's complement, not as its word: it is
              (int64_t)answer.first. That cast is exact with gcc and clang, and by the standard from C23 and C++20 on.
   A part of a block is answered as its offset, in words from the block's start, and its length, in words.
   The result of every call has to be used: gcc and clang, and any compiler of C23 or C++17, warn where it is not.

   WHAT IS ASKED OF THE CALLER is C's own and nothing else: a pointer is aligned for its type and valid for the length given with it,
   and what a call writes, an output or a block changed in place, overlaps nothing else that is passed to it: OUT MUST BE ANOTHER
   BLOCK, also where the result is to replace an input. Such a pointer is marked WIMBLORQUE_RESTRICT, so that gcc -Wall warns where the
   same block is passed twice. Inputs may be the same block. With length 0 a pointer may be NULL. Any words and any bytes at all may
   stand in what is lent: nothing has to be checked beforehand, and no call reads or writes outside what it was lent, allocates, or
   keeps anything. */
#ifndef WIMBLORQUE_H
#define WIMBLORQUE_H

#include <stddef.h>
#include <stdint.h>

#if SIZE_MAX != UINT64_MAX
#error "wimblorque is offered for 64-bit machines only: size_t must have 64 bits"
#endif

/* The version, here and nowhere else: CHANGELOG.md says what changed, and ./install writes it into wimblorque.pc. */
#define WIMBLORQUE_VERSION_MAJOR 2
#define WIMBLORQUE_VERSION_MINOR 1
#define WIMBLORQUE_VERSION_PATCH 0
#define WIMBLORQUE_TEXT_OF(x) #x
#define WIMBLORQUE_DOTTED(x, y, z) WIMBLORQUE_TEXT_OF(x) "." WIMBLORQUE_TEXT_OF(y) "." WIMBLORQUE_TEXT_OF(z)
#define WIMBLORQUE_VERSION WIMBLORQUE_DOTTED(WIMBLORQUE_VERSION_MAJOR, WIMBLORQUE_VERSION_MINOR, WIMBLORQUE_VERSION_PATCH)

/* The compiler warns where a result is not used. Define it as nothing before this header where that is not wanted. */
#ifndef WIMBLORQUE_MUST_USE
#if (defined(__cplusplus) && __cplusplus >= 201703L) || (defined(__STDC_VERSION__) && __STDC_VERSION__ >= 202311L)
#define WIMBLORQUE_MUST_USE [[nodiscard]]
#elif defined(__GNUC__)
#define WIMBLORQUE_MUST_USE __attribute__((warn_unused_result))
#else
#define WIMBLORQUE_MUST_USE
#endif
#endif

/* A pointer that a call writes through: nothing else that is passed overlaps what is behind it. */
#if !defined(__cplusplus) && defined(__STDC_VERSION__) && __STDC_VERSION__ >= 199901L
#define WIMBLORQUE_RESTRICT restrict
#elif defined(__GNUC__) || defined(_MSC_VER)
#define WIMBLORQUE_RESTRICT __restrict
#else
#define WIMBLORQUE_RESTRICT
#endif

/* ---- Limits and sizes: the numbers that the proofs use. The macros with an argument may evaluate it more than once. ---- */

#define WIMBLORQUE_MOST_RANGES 4095  /* of a set, signed or not, and of each of a bulletin's two sets */
#define WIMBLORQUE_MOST_ENTRIES 2730 /* of a map */
#define WIMBLORQUE_MOST_PREFIXES 126 /* prefix blocks that one range can have: {1..2^64 - 2} has them */

/* The words of the shortest block with room for n ranges, for n entries. All that is said of sets here is true of signed sets. */
#define WIMBLORQUE_SET_WORDS(n) (1 + 2 * (size_t)(n))
#define WIMBLORQUE_MAP_WORDS(n) (1 + 3 * (size_t)(n))

/* The words of the shortest output with room for n prefix blocks; and of one with room for those of any set of r ranges, 1 + 252 r.
   Most sets need fewer: a range whose length has k binary digits has at most 2k - 2 prefix blocks (k at least 2; one number has one). */
#define WIMBLORQUE_PREFIX_WORDS(n) (1 + 2 * (size_t)(n))
#define WIMBLORQUE_PREFIX_WORDS_OF(r) WIMBLORQUE_PREFIX_WORDS(WIMBLORQUE_MOST_PREFIXES * (size_t)(r))

/* How many ranges, entries, prefix blocks a block of so many words has room for. A block of no words is always refused: 0. */
#define WIMBLORQUE_LESSER(a, b) ((a) < (b) ? (a) : (b))
#define WIMBLORQUE_ROOM_IN(words, item, most) \
    ((size_t)(words) == 0 ? 0 : WIMBLORQUE_LESSER(((size_t)(words) - 1) / (item), (size_t)(most)))
#define WIMBLORQUE_SET_CAPACITY(words) WIMBLORQUE_ROOM_IN(words, 2, WIMBLORQUE_MOST_RANGES)
#define WIMBLORQUE_MAP_CAPACITY(words) WIMBLORQUE_ROOM_IN(words, 3, WIMBLORQUE_MOST_ENTRIES)
#define WIMBLORQUE_PREFIX_CAPACITY(words) WIMBLORQUE_ROOM_IN(words, 2, SIZE_MAX)

/* The bytes of a record: the start of a set, of a map, of a bulletin; a range of a set or of a bulletin; an entry of a map. */
#define WIMBLORQUE_SET_START_BYTES 7
#define WIMBLORQUE_MAP_START_BYTES 7
#define WIMBLORQUE_BULLETIN_START_BYTES 9
#define WIMBLORQUE_RANGE_BYTES 21
#define WIMBLORQUE_ENTRY_BYTES 29

/* The bytes of the form of a set of n ranges, of a map of n entries, of a bulletin of r released and w withdrawn ranges. */
#define WIMBLORQUE_SET_BYTES(n) (WIMBLORQUE_SET_START_BYTES + WIMBLORQUE_RANGE_BYTES * (size_t)(n))
#define WIMBLORQUE_MAP_BYTES(n) (WIMBLORQUE_MAP_START_BYTES + WIMBLORQUE_ENTRY_BYTES * (size_t)(n))
#define WIMBLORQUE_BULLETIN_BYTES(r, w) (WIMBLORQUE_BULLETIN_START_BYTES + WIMBLORQUE_RANGE_BYTES * ((size_t)(r) + (size_t)(w)))

#ifdef __cplusplus
extern "C" {
#endif

/* The refusals, as a status. */
enum {
    WIMBLORQUE_ACCEPTED = 0,
    WIMBLORQUE_NO_BLOCK = 16 + 1,  /* a block has no words */
    WIMBLORQUE_COUNT = 16 + 2,     /* an input's word 0 is above its capacity */
    WIMBLORQUE_ORDER = 16 + 3,     /* an input is otherwise not sound */
    WIMBLORQUE_BACKWARDS = 16 + 4, /* a range given as an argument has low above high */
    WIMBLORQUE_ROOM = 16 + 5,      /* the result has more items than the written block has room for */
    WIMBLORQUE_ZERO_RUN = 16 + 6,  /* a run of 0 numbers is asked for */
    WIMBLORQUE_NO_GAP = 16 + 7,    /* no free run as asked exists in the window */
    WIMBLORQUE_SHORT = 16 + 8,     /* the bytes end before or inside a record */
    WIMBLORQUE_MARK = 16 + 9,      /* the first record has neither mark, or a later one not the first one's */
    WIMBLORQUE_KIND = 16 + 10,     /* a record is not of the kind that is due */
    WIMBLORQUE_CHECK = 16 + 11,    /* the check bytes of a record differ */
    WIMBLORQUE_CONTENT = 16 + 12,  /* a count above the limit, or an item that breaks soundness */
    WIMBLORQUE_TRAILING = 16 + 13, /* bytes follow the last record */
    WIMBLORQUE_OVERLAP = 16 + 14,  /* a bulletin's two sets share a number */
    WIMBLORQUE_NO_SPACE = 16 + 15, /* the byte buffer cannot take the output */
    WIMBLORQUE_ALIGN = 16 + 16     /* a start at a multiple of 2^j is asked for, and j is above 63 */
};

typedef struct wimblorque_answer {
    uint64_t status;
    uint64_t place;
    uint64_t count;
    uint64_t first;
    uint64_t second;
    uint64_t third;
} wimblorque_answer;

/* ---- Sets: questions. They change nothing. Refused if the block is not sound: 1, 2, 3. ---- */

/* Is x a member of the set in a block of words, and where does it lie? Two values, be it a member or not: first, 1 or 0; second, how many
   ranges lie wholly below x, which is those whose high is below x: the range that holds x is not counted. wimblorque_set_range_at then
   gives the neighbours. Where first is 1, the range at index second holds x. Where first is 0, the range at index second - 1 is the next
   below x (there is none if second is 0), and the one at index second the next above it (none if that index answers no values). (Of the
   byte form of a set, as it came over the wire, ask wimblorque_member, below, which answers 1 or 0 alone.) */
WIMBLORQUE_MUST_USE wimblorque_answer wimblorque_set_member(const uint64_t *block, size_t words, uint64_t x);

/* The range at index i, counted from 0. Two values, its low and its high; none if there are not that many. */
WIMBLORQUE_MUST_USE wimblorque_answer wimblorque_set_range_at(const uint64_t *block, size_t words, uint64_t i);

/* The size. One value, the number of members less one; none for the empty set. */
WIMBLORQUE_MUST_USE wimblorque_answer wimblorque_set_size(const uint64_t *block, size_t words);

/* The least member at or above x. One value, or none. */
WIMBLORQUE_MUST_USE wimblorque_answer wimblorque_set_least_member(const uint64_t *block, size_t words, uint64_t x);

/* The least number at or above x that is not a member. One value, or none. */
WIMBLORQUE_MUST_USE wimblorque_answer wimblorque_set_least_non_member(const uint64_t *block, size_t words, uint64_t x);

/* The part of the block with the ranges that share a number with a..b, unclipped. Two values, offset and length; none if there are no
   such ranges. Refused also with 4. */
WIMBLORQUE_MUST_USE wimblorque_answer wimblorque_set_window(const uint64_t *block, size_t words, uint64_t a, uint64_t b);

/* Of two sets: have they the same members; is every member of the first one of the second; have they no number in common?
   One value, 1 or 0. Blocks: one 0, two 1. */
WIMBLORQUE_MUST_USE wimblorque_answer wimblorque_set_equal(const uint64_t *one, size_t one_words,
    const uint64_t *two, size_t two_words);
WIMBLORQUE_MUST_USE wimblorque_answer wimblorque_set_within(const uint64_t *one, size_t one_words,
    const uint64_t *two, size_t two_words);
WIMBLORQUE_MUST_USE wimblorque_answer wimblorque_set_disjoint(const uint64_t *one, size_t one_words,
    const uint64_t *two, size_t two_words);

/* ---- Sets: changes in place. No values. ---- */

/* Makes the block the empty set, whatever stood in it. Refused only with 1. For maps: wimblorque_map_make_empty. */
WIMBLORQUE_MUST_USE wimblorque_answer wimblorque_set_make_empty(uint64_t *WIMBLORQUE_RESTRICT block, size_t words);

/* Makes every number of a..b a member. Refused with 1, 2, 3, then 4, then 5. */
WIMBLORQUE_MUST_USE wimblorque_answer wimblorque_set_insert(uint64_t *WIMBLORQUE_RESTRICT block, size_t words, uint64_t a,
    uint64_t b);

/* Makes no number of a..b a member. Refused with 1, 2, 3, then 4, then 5. */
WIMBLORQUE_MUST_USE wimblorque_answer wimblorque_set_remove(uint64_t *WIMBLORQUE_RESTRICT block, size_t words, uint64_t a,
    uint64_t b);

/* ---- Sets: into a separate output. No values. The output's old words are not judged. To put the result in the place of an input,
   write it into a second block and use that one from then on.
   Refused with 1, 2, 3 of each input in turn, then 1 of the output, then 5. Blocks: one 0, two 1, out 2; the complement's: set 0,
   out 1. ---- */

/* The numbers of either. out must be another block. */
WIMBLORQUE_MUST_USE wimblorque_answer wimblorque_set_union(const uint64_t *one, size_t one_words,
    const uint64_t *two, size_t two_words, uint64_t *WIMBLORQUE_RESTRICT out, size_t out_words);

/* The numbers of both. out must be another block. */
WIMBLORQUE_MUST_USE wimblorque_answer wimblorque_set_intersection(const uint64_t *one, size_t one_words,
    const uint64_t *two, size_t two_words, uint64_t *WIMBLORQUE_RESTRICT out, size_t out_words);

/* The numbers of the first that are not in the second. out must be another block. */
WIMBLORQUE_MUST_USE wimblorque_answer wimblorque_set_difference(const uint64_t *one, size_t one_words,
    const uint64_t *two, size_t two_words, uint64_t *WIMBLORQUE_RESTRICT out, size_t out_words);

/* The numbers of exactly one. out must be another block. */
WIMBLORQUE_MUST_USE wimblorque_answer wimblorque_set_symmetric_difference(const uint64_t *one, size_t one_words,
    const uint64_t *two, size_t two_words, uint64_t *WIMBLORQUE_RESTRICT out, size_t out_words);

/* The numbers from 0 to 2^64 - 1 that are not in the set; of a signed set, all other keys. out must be another block. */
WIMBLORQUE_MUST_USE wimblorque_answer wimblorque_set_complement(const uint64_t *set, size_t words,
    uint64_t *WIMBLORQUE_RESTRICT out, size_t out_words);

/* ---- Sets: as prefix blocks, for label scanners. No values. Accepted, word 0 of the output is how many prefix blocks there are, prefix
   block i is words 1+2i, its start, and 2+2i, its e, and every later word is 0. The output's old words are not judged.
   Refused with 1, 2, 3 of the set, then 1 of the output, then 5 if there are more than (out_words - 1) / 2 prefix blocks. Blocks: set 0,
   out 1. ---- */

/* The fewest prefix blocks that name exactly the numbers of the set, in rising order; all numbers are the one pair 0, 64. From each
   range the largest prefix block that fits is taken, repeatedly. An output that is too small is refused and stays as it was. How many
   words are enough, WIMBLORQUE_PREFIX_WORDS_OF says; into fewer, the prefix blocks are counted first. out must be another block. */
WIMBLORQUE_MUST_USE wimblorque_answer wimblorque_set_prefix_blocks(const uint64_t *set, size_t words,
    uint64_t *WIMBLORQUE_RESTRICT out, size_t out_words);

/* The same prefix blocks, found in another way, for an audit: from all numbers on, a prefix block wholly in the set is kept, one wholly
   out is dropped, one partly in is cut into its two halves. It leaves the same words and gives the same refusals; it takes longer, and
   more stack, since it calls itself up to 64 times deep (README.md has the numbers). out must be another block. */
WIMBLORQUE_MUST_USE wimblorque_answer wimblorque_set_audit_blocks(const uint64_t *set, size_t words,
    uint64_t *WIMBLORQUE_RESTRICT out, size_t out_words);

/* The last number of the prefix block of 2^e numbers from start on, as a pair holds them. Where e is 64, which a shift in C must not be
   by, it is the last of all. */
WIMBLORQUE_MUST_USE static inline uint64_t wimblorque_prefix_last(uint64_t start, uint64_t e) {
    return e < 64 ? start + (((uint64_t)1 << e) - 1) : UINT64_MAX;
}

/* ---- Sets: room for a run of k numbers of the window a..b that are not members.
   Refused with 1, 2, 3, then 4, then 6, then 7; a reservation then also with 5, for the place that was chosen. ---- */

/* The least start of such a run. One value. Changes nothing. */
WIMBLORQUE_MUST_USE wimblorque_answer wimblorque_set_first_fit(const uint64_t *block, size_t words, uint64_t a, uint64_t b,
    uint64_t k);

/* The low end of the shortest gap of at least k numbers, the lowest such gap on a tie. One value. Changes nothing. */
WIMBLORQUE_MUST_USE wimblorque_answer wimblorque_set_best_fit(const uint64_t *block, size_t words, uint64_t a, uint64_t b,
    uint64_t k);

/* The same places, with the k numbers from there on made members. One value, the place. */
WIMBLORQUE_MUST_USE wimblorque_answer wimblorque_set_reserve_first(uint64_t *WIMBLORQUE_RESTRICT block, size_t words, uint64_t a,
    uint64_t b, uint64_t k);
WIMBLORQUE_MUST_USE wimblorque_answer wimblorque_set_reserve_best(uint64_t *WIMBLORQUE_RESTRICT block, size_t words, uint64_t a,
    uint64_t b, uint64_t k);

/* ---- Sets: room for a tray, which is a run of k numbers that starts at a multiple of 2^j, j from 0 to 63; k need not be 2^j. With j = 0
   each call answers as the one above that has its name without _aligned.
   Refused with 1, 2, 3, then 4, then 6, then 16 exactly if j is above 63, then 7; a reservation then also with 5, for the place that was
   chosen. 7 says that no run of k free numbers in the window starts at a multiple of 2^j; one may start elsewhere. ---- */

/* The least start of such a run. One value. Changes nothing. */
WIMBLORQUE_MUST_USE wimblorque_answer wimblorque_set_first_fit_aligned(const uint64_t *block, size_t words, uint64_t a, uint64_t b,
    uint64_t k, uint64_t j);

/* The least multiple of 2^j in the shortest gap that has room for such a run, the lowest such gap on a tie. All numbers of a gap that are
   in the window count for its length, also those below the multiple. One value. Changes nothing. */
WIMBLORQUE_MUST_USE wimblorque_answer wimblorque_set_best_fit_aligned(const uint64_t *block, size_t words, uint64_t a, uint64_t b,
    uint64_t k, uint64_t j);

/* The same places, with the k numbers from there on made members. One value, the place. */
WIMBLORQUE_MUST_USE wimblorque_answer wimblorque_set_reserve_first_aligned(uint64_t *WIMBLORQUE_RESTRICT block, size_t words,
    uint64_t a, uint64_t b, uint64_t k, uint64_t j);
WIMBLORQUE_MUST_USE wimblorque_answer wimblorque_set_reserve_best_aligned(uint64_t *WIMBLORQUE_RESTRICT block, size_t words,
    uint64_t a, uint64_t b, uint64_t k, uint64_t j);

/* ---- Signed sets: a key is an int64_t; an index i, a length k and how many ranges there are stay as they are. Each call is the one on
   sets of the same name, at the keys: what it changes, answers and refuses, and where, is the same, with keys for numbers; 4 is low above
   high as keys. For trays there are none. ---- */

/* Is the key x a member, and where does it lie? Two values, be it a member or not: first, 1 or 0; second, how many ranges lie wholly
   below the key x, a number and no key: the range that holds x is not counted. wimblorque_signed_range_at then gives that range, at
   index second, or the neighbours of x, at index second - 1 and second, as with wimblorque_set_member. */
WIMBLORQUE_MUST_USE wimblorque_answer wimblorque_signed_member(const uint64_t *block, size_t words, int64_t x);

/* The range at index i, counted from 0. Two values, its low and its high key; none if there are not that many. */
WIMBLORQUE_MUST_USE wimblorque_answer wimblorque_signed_range_at(const uint64_t *block, size_t words, uint64_t i);

/* The least member at or above the key x. One value, a key, or none. */
WIMBLORQUE_MUST_USE wimblorque_answer wimblorque_signed_least_member(const uint64_t *block, size_t words, int64_t x);

/* The least key at or above x that is not a member. One value, a key, or none. */
WIMBLORQUE_MUST_USE wimblorque_answer wimblorque_signed_least_non_member(const uint64_t *block, size_t words, int64_t x);

/* The part of the block with the ranges that share a key with a..b, unclipped. Two values, offset and length, no keys: the part is of
   the caller's own block, and its words are turned into keys by wimblorque_key_of_word. None if there are no such ranges. Refused also
   with 4. */
WIMBLORQUE_MUST_USE wimblorque_answer wimblorque_signed_window(const uint64_t *block, size_t words, int64_t a, int64_t b);

/* Makes every key of a..b a member. No values. Refused with 1, 2, 3, then 4, then 5. */
WIMBLORQUE_MUST_USE wimblorque_answer wimblorque_signed_insert(uint64_t *WIMBLORQUE_RESTRICT block, size_t words, int64_t a,
    int64_t b);

/* Makes no key of a..b a member. No values. Refused with 1, 2, 3, then 4, then 5. */
WIMBLORQUE_MUST_USE wimblorque_answer wimblorque_signed_remove(uint64_t *WIMBLORQUE_RESTRICT block, size_t words, int64_t a,
    int64_t b);

/* Room for a run of k keys of the window a..b that are not members: the least start; the low end of the shortest gap; and the same
   places with the k keys from there on made members. One value, a key. Refused with 1, 2, 3, then 4, then 6, then 7; a reservation
   then also with 5. */
WIMBLORQUE_MUST_USE wimblorque_answer wimblorque_signed_first_fit(const uint64_t *block, size_t words, int64_t a, int64_t b,
    uint64_t k);
WIMBLORQUE_MUST_USE wimblorque_answer wimblorque_signed_best_fit(const uint64_t *block, size_t words, int64_t a, int64_t b,
    uint64_t k);
WIMBLORQUE_MUST_USE wimblorque_answer wimblorque_signed_reserve_first(uint64_t *WIMBLORQUE_RESTRICT block, size_t words, int64_t a,
    int64_t b, uint64_t k);
WIMBLORQUE_MUST_USE wimblorque_answer wimblorque_signed_reserve_best(uint64_t *WIMBLORQUE_RESTRICT block, size_t words, int64_t a,
    int64_t b, uint64_t k);

/* The first key less the second. One value, signed as a key is; none exactly if a - b is below INT64_MIN or above INT64_MAX, too far to
   be told: look at count. Never refused. */
WIMBLORQUE_MUST_USE wimblorque_answer wimblorque_key_difference(int64_t a, int64_t b);

/* The key that a word of a signed set's block stands for, the word less 2^63; and the word that stands for a key, the key plus 2^63. Of
   words in a block, not of answers. Never refused. */
WIMBLORQUE_MUST_USE int64_t wimblorque_key_of_word(uint64_t word);
WIMBLORQUE_MUST_USE uint64_t wimblorque_word_of_key(int64_t key);

/* ---- Maps ---- */

/* Makes the block the empty map, whatever stood in it; the words of an empty map and of an empty set are the same. Refused only
   with 1. */
WIMBLORQUE_MUST_USE static inline wimblorque_answer wimblorque_map_make_empty(uint64_t *WIMBLORQUE_RESTRICT block, size_t words) {
    return wimblorque_set_make_empty(block, words);
}

/* The value of x. One value, any word at all, or none if x has no value. Changes nothing. Refused with 1, 2, 3. */
WIMBLORQUE_MUST_USE wimblorque_answer wimblorque_map_look_up(const uint64_t *block, size_t words, uint64_t x);

/* Gives every number of a..b the value v, replacing what was there. No values. Refused with 1, 2, 3, then 4, then 5. */
WIMBLORQUE_MUST_USE wimblorque_answer wimblorque_map_assign(uint64_t *WIMBLORQUE_RESTRICT block, size_t words, uint64_t a,
    uint64_t b, uint64_t v);

/* Leaves no number of a..b a value. No values. Refused with 1, 2, 3, then 4, then 5. */
WIMBLORQUE_MUST_USE wimblorque_answer wimblorque_map_erase(uint64_t *WIMBLORQUE_RESTRICT block, size_t words, uint64_t a,
    uint64_t b);

/* The part of the block with the entries that share a number with a..b, unclipped, as wimblorque_set_window. */
WIMBLORQUE_MUST_USE wimblorque_answer wimblorque_map_window(const uint64_t *block, size_t words, uint64_t a, uint64_t b);

/* The entry that decides x: the site map's if x has a value there, else the factory map's. Three values: the offset and the length, 3,
   of its part, and the position of the map that holds it, 0 the site, 1 the factory; none if x has no value in either: look at
   count. Changes nothing. Both maps are judged whatever x is: refused with 1, 2, 3 of each in turn. Blocks: site 0, factory 1. */
WIMBLORQUE_MUST_USE wimblorque_answer wimblorque_map_site_over_factory(const uint64_t *site, size_t site_words,
    const uint64_t *factory, size_t factory_words, uint64_t x);

/* Into out, as for sets. The upper map's value where it has one, else the lower's. out must be another block. Blocks: upper 0,
   lower 1, out 2. */
WIMBLORQUE_MUST_USE wimblorque_answer wimblorque_map_overlay(const uint64_t *upper, size_t upper_words,
    const uint64_t *lower, size_t lower_words, uint64_t *WIMBLORQUE_RESTRICT out, size_t out_words);

/* The map's values at the set's numbers, into a map block. out must be another block. Blocks: map 0, set 1, out 2. */
WIMBLORQUE_MUST_USE wimblorque_answer wimblorque_map_restriction(const uint64_t *map, size_t map_words,
    const uint64_t *set, size_t set_words, uint64_t *WIMBLORQUE_RESTRICT out, size_t out_words);

/* The set of the numbers that have a value, into a set block. out must be another block. Blocks: map 0, out 1. */
WIMBLORQUE_MUST_USE wimblorque_answer wimblorque_map_domain(const uint64_t *map, size_t map_words,
    uint64_t *WIMBLORQUE_RESTRICT out, size_t out_words);

/* ---- Bulletins: a released and a withdrawn set, in that order, with no number in common. No values. ---- */

/* The list without the withdrawn, then joined with the released numbers, into out. out must be another block: a list that is its own
   output is changed while it is read, and comes out wrong. To update a list keep two blocks and use them by turns: apply into the
   second, from then on the second is the list, and the next bulletin goes into the first (examples/cart.c). Refused with 1, 2, 3 of
   each input in turn, then 1 of the output, then 14, then 5. Blocks: list 0, released 1, withdrawn 2, out 3. */
WIMBLORQUE_MUST_USE wimblorque_answer wimblorque_bulletin_apply(const uint64_t *list, size_t list_words,
    const uint64_t *released, size_t released_words, const uint64_t *withdrawn, size_t withdrawn_words,
    uint64_t *WIMBLORQUE_RESTRICT out, size_t out_words);

/* One bulletin with the effect of the first and then the second, into released and withdrawn. Each output must be another block, than
   the inputs and than the other output. Refused with 1, 2, 3 of each input in turn, then 1 of each output, then 14 of the first and of
   the second, then 5 of each output.
   Blocks: released1 0, withdrawn1 1, released2 2, withdrawn2 3, released 4, withdrawn 5. */
WIMBLORQUE_MUST_USE wimblorque_answer wimblorque_bulletin_fold(const uint64_t *released1, size_t released1_words,
    const uint64_t *withdrawn1, size_t withdrawn1_words, const uint64_t *released2, size_t released2_words,
    const uint64_t *withdrawn2, size_t withdrawn2_words, uint64_t *WIMBLORQUE_RESTRICT released, size_t released_words,
    uint64_t *WIMBLORQUE_RESTRICT withdrawn, size_t withdrawn_words);

/* ---- The byte form: reading. The whole buffer is the form, old or new. Refused with 8 to 12 of the first record that is wrong, then 13,
   for a bulletin then 14, then 1 of each output, then 5 of each output; the outputs are counted from 0. No values. ---- */

/* A set, into a set block. out must be other memory than the bytes. */
WIMBLORQUE_MUST_USE wimblorque_answer wimblorque_set_read(const uint8_t *bytes, size_t length,
    uint64_t *WIMBLORQUE_RESTRICT out, size_t out_words);

/* A signed set, into a set block. Its records are of kinds of their own: the form of a set is refused here, and the form of a signed set
   by every other call, with 10. out must be other memory than the bytes. */
WIMBLORQUE_MUST_USE wimblorque_answer wimblorque_signed_read(const uint8_t *bytes, size_t length,
    uint64_t *WIMBLORQUE_RESTRICT out, size_t out_words);

/* A map, into a map block. out must be other memory than the bytes. */
WIMBLORQUE_MUST_USE wimblorque_answer wimblorque_map_read(const uint8_t *bytes, size_t length,
    uint64_t *WIMBLORQUE_RESTRICT out, size_t out_words);

/* A bulletin, into two set blocks. Each output must be other memory than the bytes and another block than the other. */
WIMBLORQUE_MUST_USE wimblorque_answer wimblorque_bulletin_read(const uint8_t *bytes, size_t length,
    uint64_t *WIMBLORQUE_RESTRICT released, size_t released_words, uint64_t *WIMBLORQUE_RESTRICT withdrawn, size_t withdrawn_words);

/* Judges the byte form of a set and stores nothing. One value, the number of its ranges. Refused with 8 to 13. */
WIMBLORQUE_MUST_USE wimblorque_answer wimblorque_set_judge_form(const uint8_t *bytes, size_t length);

/* Is x a member of the set whose byte form is in the buffer? (Of a set in a block of words ask wimblorque_set_member, which tells also
   where x lies.) Returns 1 or 0, or 16 plus the refusal, 8 to 13. COMPARE WITH 1: a refusal is a number too, so
   `if (wimblorque_member(..))` takes a damaged list for a yes. The whole form is judged before 1 or 0 is given: a form that reading
   refuses never answers 1 or 0. In an old form damage that turns a 00 into FF or back may go unnoticed, in a new one no change of one
   byte. Changes nothing. */
WIMBLORQUE_MUST_USE uint64_t wimblorque_member(const uint8_t *bytes, size_t length, uint64_t x);

/* The same question, to be used as a condition: 1 if x is a member of the set whose byte form is in the buffer, else 0, also where the
   form is refused. Which of the two it was, wimblorque_member tells. */
WIMBLORQUE_MUST_USE static inline int wimblorque_is_member(const uint8_t *bytes, size_t length, uint64_t x) {
    return wimblorque_member(bytes, length, x) == 1;
}

/* ---- The byte form: writing, with the new mark, into the bytes from place p on. One value, the length that was written; every other
   byte stays. Refused with 1, 2, 3 of each block in turn, for a bulletin then 14, then 15 if p is above the length or the rest is too
   short. ---- */

/* A set. The bytes must be other memory than the block. */
WIMBLORQUE_MUST_USE wimblorque_answer wimblorque_set_write(const uint64_t *block, size_t words,
    uint8_t *WIMBLORQUE_RESTRICT bytes, size_t length, size_t p);

/* A signed set, its keys in two's complement. The bytes must be other memory than the block. */
WIMBLORQUE_MUST_USE wimblorque_answer wimblorque_signed_write(const uint64_t *block, size_t words,
    uint8_t *WIMBLORQUE_RESTRICT bytes, size_t length, size_t p);

/* A map. The bytes must be other memory than the block. */
WIMBLORQUE_MUST_USE wimblorque_answer wimblorque_map_write(const uint64_t *block, size_t words,
    uint8_t *WIMBLORQUE_RESTRICT bytes, size_t length, size_t p);

/* A bulletin. The bytes must be other memory than the two blocks. */
WIMBLORQUE_MUST_USE wimblorque_answer wimblorque_bulletin_write(const uint64_t *released, size_t released_words,
    const uint64_t *withdrawn, size_t withdrawn_words, uint8_t *WIMBLORQUE_RESTRICT bytes, size_t length, size_t p);

#ifdef __cplusplus
}
#endif

#endif
