/* The sheet call from C: reads a sheet, writes its report. */

#include "example.h"

int main(void) {
    /* One byte more than a sheet, so that a longer one is refused and not cut off. */
    static uint8_t sheet[TSAV_LONGEST_SHEET + 1], report[TSAV_LONGEST_REPORT];
    uint64_t written[1], place[2];
    if (!same_version())
        return failed("sheet", "the library is of another version");
    size_t bytes = fread(sheet, 1, sizeof sheet, stdin);
    if (ferror(stdin))
        return failed("sheet", strerror(errno));
    uint64_t refusal = tsav_sheet(sheet, bytes, report, sizeof report, written, place);
    if (refusal != 0)
        return refused("sheet", refusal, place);
    fwrite(report, 1, written[0], stdout);
    return finished("sheet");
}
