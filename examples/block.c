/* The block call from C: reads 17 numbers, writes the block's figures and the steps of its two roots. */

#include "example.h"

int main(void) {
    static const char *const names[TSAV_BLOCK_FIGURES] = {"I", "D", "U", "LT", "K", "steps-I", "steps-D"};
    /* One number more than a block, so that a longer list is seen. */
    uint64_t numbers[TSAV_BLOCK_NUMBERS + 1], figures[TSAV_BLOCK_FIGURES], place[2];
    size_t count;
    if (!same_version())
        return failed("block", "the library is of another version");
    if (!read_numbers(numbers, TSAV_BLOCK_NUMBERS + 1, &count) || count != TSAV_BLOCK_NUMBERS)
        return failed("block", "17 whole numbers are to be read");
    uint64_t refusal = tsav_block(numbers, figures, place);
    if (refusal != 0)
        return refused("block", refusal, place);
    for (size_t i = 0; i < TSAV_BLOCK_FIGURES; i++)
        printf("%s %" PRIu64 "\n", names[i], figures[i]);
    return finished("block");
}
