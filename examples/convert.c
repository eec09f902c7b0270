/* The convert call from C: reads a sheet in cents or in thousands of dollars, writes it in the other unit. */

#include "example.h"

int main(void) {
    /* One byte more than a sheet, so that a longer one is refused and not cut off. */
    static uint8_t sheet[TSAV_LONGEST_SHEET + 1], converted[TSAV_LONGEST_SHEET];
    uint64_t written[1], place[2];
    if (!same_version())
        return failed("convert", "the library is of another version");
    size_t bytes = fread(sheet, 1, sizeof sheet, stdin);
    if (ferror(stdin))
        return failed("convert", strerror(errno));
    uint64_t refusal = tsav_convert(sheet, bytes, converted, sizeof converted, written, place);
    if (refusal != 0)
        return refused("convert", refusal, place);
    fwrite(converted, 1, written[0], stdout);
    return finished("convert");
}
