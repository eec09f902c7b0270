/* The quarter call from C: reads sheets, each closed by a line of 39 minus signs, writes the line of each and their summary. Where it ends
   in REF 24 or 25 instead, the input as a whole is turned away: that is told by the status, behind the lines. */

#include "example.h"

int main(void) {
    /* The longest sheets, each with its closing line, and one byte more, so that a longer input is seen to be and not cut off. */
    static uint8_t sheets[TSAV_MOST_SHEETS * (TSAV_LONGEST_SHEET + TSAV_SHEET_LINE) + 1], summary[TSAV_LONGEST_SUMMARY];
    uint64_t written[1], place[2];
    if (!same_version())
        return failed("quarter", "the library is of another version");
    size_t bytes = fread(sheets, 1, sizeof sheets, stdin);
    if (ferror(stdin))
        return failed("quarter", strerror(errno));
    if (bytes == sizeof sheets)
        return failed("quarter", "the input is longer than the longest sheets");
    uint64_t refusal = tsav_quarter(sheets, bytes, summary, sizeof summary, written, place);
    if (refusal != 0)
        return refused("quarter", refusal, place);
    fwrite(summary, 1, written[0], stdout);
    const uint8_t *last = summary + written[0] - TSAV_SUMMARY_LINE;
    int status = finished("quarter");
    return status == ANSWERED && memcmp(last, "SUM", 3) != 0 ? REFUSED : status;
}
