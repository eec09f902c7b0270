/* The fluctuation call from C: reads a row, a requirement and a face amount, writes the requirement after its factor. */

#include "example.h"

int main(void) {
    /* One number more than the call takes, so that a longer list is seen. */
    uint64_t numbers[4], figure[1], place[2];
    size_t count;
    if (!same_version())
        return failed("fluctuation", "the library is of another version");
    if (!read_numbers(numbers, 4, &count) || count != 3)
        return failed("fluctuation", "three whole numbers are to be read: row, requirement, face amount");
    uint64_t refusal = tsav_fluctuation(numbers[0], numbers[1], numbers[2], figure, place);
    if (refusal != 0)
        return refused("fluctuation", refusal, place);
    printf("result %" PRIu64 "\n", figure[0]);
    return finished("fluctuation");
}
