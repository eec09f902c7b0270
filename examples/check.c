/* The check call from C: reads a sheet, writes the listing of its lines that need another one. */

#include "example.h"

int main(void) {
    /* One byte more than a sheet, so that a longer one is refused and not cut off. */
    static uint8_t sheet[TSAV_LONGEST_SHEET + 1], listing[TSAV_LONGEST_LISTING];
    uint64_t written[1], place[2];
    if (!same_version())
        return failed("check", "the library is of another version");
    size_t bytes = fread(sheet, 1, sizeof sheet, stdin);
    if (ferror(stdin))
        return failed("check", strerror(errno));
    uint64_t refusal = tsav_check(sheet, bytes, listing, sizeof listing, written, place);
    if (refusal != 0)
        return refused("check", refusal, place);
    fwrite(listing, 1, written[0], stdout);
    return finished("check");
}
