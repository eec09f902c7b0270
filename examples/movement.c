/* The movement call from C: reads a block's numbers and t, writes by how much K moves as each risk is raised by t. */

#include "example.h"

int main(void) {
    /* One byte more than the numbers have, so that longer ones are refused and not cut off. */
    static uint8_t numbers[TSAV_MOVEMENT_NUMBERS + 1], movements[TSAV_MOVEMENTS];
    uint64_t written[1], place[2];
    if (!same_version())
        return failed("movement", "the library is of another version");
    size_t bytes = fread(numbers, 1, sizeof numbers, stdin);
    if (ferror(stdin))
        return failed("movement", strerror(errno));
    uint64_t refusal = tsav_movement(numbers, bytes, movements, sizeof movements, written, place);
    if (refusal != 0)
        return refused("movement", refusal, place);
    fwrite(movements, 1, written[0], stdout);
    return finished("movement");
}
