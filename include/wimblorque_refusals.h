/* The refusals of wimblorque.h in words: for each its name, and one sentence for the technician who sees it. Header only; a host that
   has no use for texts leaves it out, and then none of them is in its program. */
#ifndef WIMBLORQUE_REFUSALS_H
#define WIMBLORQUE_REFUSALS_H

#include "wimblorque.h"

/* The place of a status in the two tables: 0 accepted, 1 to 16 the refusals, 17 no status at all. */
static inline unsigned wimblorque_refusal_index(uint64_t status) {
    if (status == WIMBLORQUE_ACCEPTED) {
        return 0;
    }
    return status >= WIMBLORQUE_NO_BLOCK && status <= WIMBLORQUE_ALIGN ? (unsigned)(status - 16) : 17;
}

/* The name of the refusal that a status tells, as the table of refusals has it; "Accepted" for 0, "Unknown" for what is no status. */
static inline const char *wimblorque_refusal_name(uint64_t status) {
    static const char *const names[18] = {
        "Accepted", "NoBlock", "Count", "Order", "Backwards", "Room", "ZeroRun", "NoGap", "Short",
        "Mark", "Kind", "Check", "Content", "Trailing", "Overlap", "NoSpace", "Align", "Unknown",
    };
    return names[wimblorque_refusal_index(status)];
}

/* One sentence: what was found. Nothing was changed by a refused call. */
static inline const char *wimblorque_refusal_sentence(uint64_t status) {
    static const char *const sentences[18] = {
        "The call was accepted.",
        "A list was given no memory at all.",
        "A list in memory says that it has more items than its memory can hold.",
        "A list in memory is damaged: its ranges are backwards or not in order.",
        "The range asked for is backwards: its low end is above its high end.",
        "The new list does not fit into the memory set aside for it.",
        "A run of no numbers was asked for.",
        "There is no free run as asked for in the window.",
        "The data ends too early: a part of it is missing.",
        "The data is no list at all, or a record of it does not begin as the first one does.",
        "The data is of another kind than was asked for, as a map where a list is expected.",
        "The data is damaged: the check of a record is wrong.",
        "The data came through whole, but what it says is no list: a count is too large, or ranges are backwards or not in order.",
        "The data goes on behind the end of the list.",
        "The bulletin contradicts itself: it releases and withdraws the same number.",
        "The buffer is too small for the data to be written.",
        "The start is to be a multiple of a power of two that is too large: 2^63 is the largest.",
        "This number is no status of the library.",
    };
    return sentences[wimblorque_refusal_index(status)];
}

#endif
