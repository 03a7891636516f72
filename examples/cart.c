/* A cart takes a bulletin. Its list of released packs, the bulletin, and the factory's and the site's map of calibration records are
   byte forms in files; the new list is written to another file, for the cart's next start and for its neighbour:
       cart LIST BULLETIN FACTORY SITE NEW-LIST
   The list is kept in two blocks by turns: a bulletin is applied from the one into the other, never from a block into itself. */
#include <inttypes.h>
#include <stdio.h>

#include "wimblorque.h"
#include "wimblorque_refusals.h"

enum { RANGES = 100, ENTRIES = 100 }; /* what this cart has room for; the library's own limits are higher */
enum { WORDS = WIMBLORQUE_SET_WORDS(RANGES), MAP_WORDS = WIMBLORQUE_MAP_WORDS(ENTRIES) };

static uint64_t blocks[2][WORDS]; /* the list, and room for the next one */
static unsigned now;              /* which of the two is the list */
static uint64_t released[WORDS], withdrawn[WORDS], taken[WORDS], factory[MAP_WORDS], site[MAP_WORDS];
static uint8_t bytes[WIMBLORQUE_BULLETIN_BYTES(RANGES, RANGES)]; /* the longest form of all that are read here */
static size_t length;                                            /* of the form in it */

/* Says why a call was refused, in the library's numbers and in words. No answer of a refused call is used. */
static int refused(const char *what, wimblorque_answer a) {
    if (a.status == WIMBLORQUE_ACCEPTED) {
        return 0;
    }
    printf("%s: refused %" PRIu64 " at %" PRIu64 " (%s). %s\n", what, a.status - 16, a.place, wimblorque_refusal_name(a.status),
           wimblorque_refusal_sentence(a.status));
    return 1;
}

/* Reads a whole file into `bytes`. */
static int loaded(const char *path) {
    FILE *file = fopen(path, "rb");
    int whole = 0;
    if (file != NULL) {
        length = fread(bytes, 1, sizeof bytes, file);
        whole = fgetc(file) == EOF && !ferror(file);
        fclose(file);
    }
    if (!whole) {
        printf("%s: cannot be read, or is too long for this cart\n", path);
    }
    return whole;
}

/* Applies the bulletin in a file into the other block, which then is the list; if anything is refused, the list stays as it is. */
static int take_bulletin(const char *path) {
    const unsigned next = 1 - now;
    if (!loaded(path) || refused(path, wimblorque_bulletin_read(bytes, length, released, WORDS, withdrawn, WORDS))
        || refused("apply", wimblorque_bulletin_apply(blocks[now], WORDS, released, WORDS, withdrawn, WORDS, blocks[next], WORDS))) {
        return 0;
    }
    now = next;
    return 1;
}

/* Shows a neighbour of a pack that is not released: the range at an index of the list, if there is one. */
static void show_neighbour(const char *side, uint64_t index) {
    const wimblorque_answer range = wimblorque_set_range_at(blocks[now], WORDS, index);
    if (refused("list", range)) {
        return;
    }
    if (range.count == 0) {
        printf("  none %s\n", side);
    } else {
        printf("  next %s: %" PRIu64 "..%" PRIu64 "\n", side, range.first, range.second);
    }
}

/* Shows both neighbours of a pack that is not released, for the service, by how many ranges of the list lie below it. */
static void show_neighbours(uint64_t below) {
    if (below == 0) {
        printf("  none below\n");
    } else {
        show_neighbour("below", below - 1);
    }
    show_neighbour("above", below);
}

/* Says which calibration record decides, from what the maps answered. */
static void show_record(wimblorque_answer entry) {
    if (entry.count == 0) {
        printf("no calibration record\n");
        return;
    }
    /* first is where the entry's three words begin, third which of the two maps they are in */
    const uint64_t *const holder = entry.third == 0 ? site : factory;
    printf("calibration record %" PRIu64 " of the %s\n", holder[entry.first + 2], entry.third == 0 ? "site" : "factory");
}

/* Says whether a pack is released, and which calibration record decides; of one that is not released, its neighbours. */
static void ask(uint64_t pack) {
    const wimblorque_answer member = wimblorque_set_member(blocks[now], WORDS, pack);
    const wimblorque_answer entry = wimblorque_map_site_over_factory(site, MAP_WORDS, factory, MAP_WORDS, pack);
    if (refused("list", member) || refused("maps", entry)) {
        return;
    }
    printf("pack %" PRIu64 ": %s, ", pack, member.first == 1 ? "released" : "not released");
    show_record(entry);
    if (member.first == 0) {
        show_neighbours(member.second);
    }
}

/* Reserves numbers for 50 packs to come: the first that are neither released nor withdrawn. */
static int reserve(void) {
    if (refused("union", wimblorque_set_union(blocks[now], WORDS, withdrawn, WORDS, taken, WORDS))) {
        return 0;
    }
    const wimblorque_answer place = wimblorque_set_reserve_first(taken, WORDS, 1000, 9999, 50);
    if (refused("reserve", place)) {
        return 0;
    }
    printf("reserved for packs to come: %" PRIu64 "..%" PRIu64 "\n", place.first, place.first + 49);
    return 1;
}

/* Writes the list to a file, and asks the bytes as the neighbour will. */
static int save(const char *path) {
    const wimblorque_answer form = wimblorque_set_write(blocks[now], WORDS, bytes, sizeof bytes, 0);
    FILE *file = NULL;
    if (refused("write", form) || (file = fopen(path, "wb")) == NULL) {
        return 0;
    }
    const int written = fwrite(bytes, 1, (size_t)form.first, file) == form.first;
    printf("%" PRIu64 " bytes; in them pack 3000 is %s\n", form.first,
           wimblorque_is_member(bytes, (size_t)form.first, 3000) ? "released" : "not released");
    return fclose(file) == 0 && written;
}

int main(int count, char **words) {
    if (count != 6) {
        printf("cart LIST BULLETIN FACTORY SITE NEW-LIST\n");
        return 2;
    }
    if (!loaded(words[1]) || refused(words[1], wimblorque_set_read(bytes, length, blocks[now], WORDS))
        || !loaded(words[3]) || refused(words[3], wimblorque_map_read(bytes, length, factory, MAP_WORDS))
        || !loaded(words[4]) || refused(words[4], wimblorque_map_read(bytes, length, site, MAP_WORDS))
        || !take_bulletin(words[2]) || !reserve()) {
        return 1;
    }
    ask(999);
    ask(1500);
    ask(1999);
    ask(3000);
    ask(5000);
    for (uint64_t i = 0; i < blocks[now][0]; i++) {
        const wimblorque_answer range = wimblorque_set_range_at(blocks[now], WORDS, i);
        printf("%" PRIu64 "..%" PRIu64 "\n", range.first, range.second);
    }
    return save(words[5]) ? 0 : 1;
}
