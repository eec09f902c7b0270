/* The operational call from C: reads the three general figures and then the volumes, writes RO. */

#include "example.h"

int main(void) {
    /* One number more than the call takes, so that a longer list is refused and not cut off. */
    enum { ROOM = TSAV_GENERAL_FIGURES + TSAV_MOST_VOLUMES + 1 };
    uint64_t numbers[ROOM], figure[1], place[2];
    size_t count;
    if (!same_version())
        return failed("operational", "the library is of another version");
    if (!read_numbers(numbers, ROOM, &count) || count < TSAV_GENERAL_FIGURES)
        return failed("operational", "three whole numbers and then the volumes are to be read");
    uint64_t refusal =
        tsav_operational(numbers + TSAV_GENERAL_FIGURES, count - TSAV_GENERAL_FIGURES, numbers, figure, place);
    if (refusal != 0)
        return refused("operational", refusal, place);
    printf("RO %" PRIu64 "\n", figure[0]);
    return finished("operational");
}
