/* Writes the name and the sentence of every status, and of some numbers that are none, for numbers.py. */
#include "wimblorque_refusals.h"

int printf(const char *format, ...);

int main(void) {
    static const uint64_t others[] = {1, 15, 16, 33, 1000, 18446744073709551615ull};
    for (uint64_t status = 16; status <= WIMBLORQUE_ALIGN; status++) {
        const uint64_t s = status == 16 ? WIMBLORQUE_ACCEPTED : status;
        printf("%llu %s: %s\n", (unsigned long long)s, wimblorque_refusal_name(s), wimblorque_refusal_sentence(s));
    }
    for (unsigned i = 0; i < sizeof others / sizeof others[0]; i++) {
        printf("%llu %s: %s\n", (unsigned long long)others[i], wimblorque_refusal_name(others[i]),
               wimblorque_refusal_sentence(others[i]));
    }
    return 0;
}
