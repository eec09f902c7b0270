/* The shares call from C: reads the 17 numbers of a block, writes the share of each part. */

#include "example.h"

int main(void) {
    static const char *const names[TSAV_PARTS] = {
        "mortality",       "longevity", "incidence",             "termination", "lapse-sensitive",
        "lapse-supported", "expenses",  "property-and-casualty", "credit",      "market"};
    /* One number more than a block, so that a longer list is seen. */
    uint64_t numbers[TSAV_BLOCK_NUMBERS + 1], shares[TSAV_PARTS], place[2];
    size_t count;
    if (!same_version())
        return failed("shares", "the library is of another version");
    if (!read_numbers(numbers, TSAV_BLOCK_NUMBERS + 1, &count) || count != TSAV_BLOCK_NUMBERS)
        return failed("shares", "17 whole numbers are to be read");
    uint64_t refusal = tsav_shares(numbers, shares, place);
    if (refusal != 0)
        return refused("shares", refusal, place);
    for (size_t i = 0; i < TSAV_PARTS; i++)
        printf("%s %" PRIu64 "\n", names[i], shares[i]);
    return finished("shares");
}
