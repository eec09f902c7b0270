/* The TSAV aggregation calculator (chapters 8 and 11 of the 2023 guideline), for C and C++ on x86-64: libtsav.a and
   libtsav.so, as the install script names them; in a checkout `bindings/library` writes the archive, as
   target/staticlib/libexports.a.

   The calls, and their version. Each is proved to answer every input as is said here; none allocates, keeps
   anything between calls, or can fail in another way, and several threads may call at once.

   What is asked of a caller: every pointer is valid for the numbers or bytes that its parameter names, pointers to numbers
   are aligned to 8, and what is lent to be written overlaps nothing else that is lent. A length may be 0; a pointer is
   then read and written nowhere, but give one that is not null all the same. Until a call has returned, nobody else writes
   what is lent to it, and nobody else reads what is lent to be written: no other thread, and no signal handler. Nothing is
   asked of the numbers and bytes themselves.

   The thread that calls needs stack: beside what the caller takes itself, as much as stands here. On the largest inputs no
   more is taken, as measured (bench/stack), and by some calls less; no proof speaks of it. With less, the system ends the program where a guard
   page lies below the stack, as below a thread's own by default; where none does, what lies below is overwritten.

     tsav_version        1 KiB
     tsav_block          1 KiB
     tsav_shares         2 KiB
     tsav_operational    1 KiB
     tsav_fluctuation    1 KiB
     tsav_sheet         12 KiB
     tsav_convert        2 KiB
     tsav_check         12 KiB
     tsav_movement       2 KiB
     tsav_quarter       40 KiB

   Not counted: a signal handler on the same stack; what the C library keeps of a thread's stack, some 5 KiB of the size that
   pthread_attr_setstacksize is given with glibc; and 3 KiB or more of the dynamic linker, where it looks up a name at its first
   use, a call's in libtsav.so or the C library's memset, the only name that a call needs from elsewhere. A program that is
   linked with -z now has its names looked up before, and libtsav.so is linked so.

   All amounts are whole cents, 0 to TSAV_LARGEST_AMOUNT; those of a sheet in small letters, which the convert call alone takes,
   are thousands of dollars.

   What is answered. 0: accepted; what is named under 'accepted' is written, and place is untouched. Any other number: refused,
   and it is the refusal's number; place is written, and everything else that was lent is untouched.

     place[0]        place[1]
     TSAV_NOWHERE    0
     TSAV_LINE       the line of the sheet, or of the movement call's numbers, counted from 1
     TSAV_POSITION   the position in the call's numbers, counted from 0
     TSAV_RISK       the risk, 1 to 7; of 22, which stands in a line of the movements and turns no input away
     TSAV_SHEET      the sheet, counted from 1; of 24 and 25, which end a summary and turn no input away

   The refusals:

      1  nowhere             the sheet is longer than TSAV_LONGEST_SHEET bytes
      2  nowhere             its length isn't a multiple of 40, and no whole line breaks the layout; of the movement call's
                             numbers, it isn't TSAV_MOVEMENT_NUMBERS
      3  line                columns 4 to 40 of a whole line break the layout; tested before 2. Of the movement call's numbers, a
                             line isn't an amount in 14 columns and a line feed; tested after 2
      4  line                the code isn't RSK, OTH, MOR, VOL, ACQ, GEN or CRD
      5  line                the block is outside the code's range
      6  line                the class is outside the range of the code, for CRD also of the block
      7  position            an amount is above TSAV_LARGEST_AMOUNT
      8  line or position    a second amount where there is none: OTH, ACQ, GEN, CRD, level and trend of expenses
      9  line or position    a level and trend part is above its component
     10  line                the scalar is outside 1 to 20,000
     11  line                a line with this code, block and class stood before
     12  nowhere             there is no scalar line
     13  nowhere             the credits that belong to no block (CRD of block 0, GEN class 5) are above what is left: sum of K,
                             less the dividend credits, + guarantee requirement + RO
     14  nowhere             the lent report is shorter than the report; converting, the lent room is shorter than the sheet;
                             checking, it is shorter than the listing; likewise of the movements and of a quarter's summary
     15  nowhere             the list of volumes is longer than TSAV_MOST_VOLUMES, or no multiple of TSAV_TERRITORY_NUMBERS
     16  nowhere             the credit of a MOR line is above level and trend of its block's mortality
     17  nowhere             a dividend credit (CRD of a block) is above its block's K, or the block has no RSK or OTH line
     18  nowhere             the row of a fluctuation factor is outside 1 to 7
     19  line                the line doesn't come after the one before it: lines ascend by code, in the order RSK, OTH, MOR,
                             VOL, ACQ, GEN, CRD, then by block, then by class
     20  line                converting from cents, an amount isn't whole thousands of dollars, a multiple of 100,000 cents
     21  line                converting from thousands, an amount is above 999,999,999: in cents it has more than 14 digits
     22  risk                no call's answer: raised, the component of the risk is above TSAV_LARGEST_AMOUNT. A line REF 22 of
                             the movements says so in the place of the risk's own
     23  nowhere             shares: a part's margin is negative, or the margins are all zero
     24  sheet               no call's answer: there are more than TSAV_MOST_SHEETS sheets. The last line of a summary says so,
                             REF 24, behind the lines of the sheets before it
     25  sheet               no call's answer: the last sheet isn't closed. The last line of a summary says so, REF 25 */

#ifndef TSAV_H
#define TSAV_H

#include <stddef.h>
#include <stdint.h>

#ifdef __cplusplus
extern "C" {
#endif

/* The release that this header is of, as the file VERSION has it. */
#define TSAV_RELEASE "1.0.0"

/* Of the calls as they are declared here: what is lent to each, and what it means. Compare it with what tsav_version() gives
   before any other call: a library of another version may write more than a caller of this header has lent.

   With version 2 the block call's figures grew from five to seven. A caller that was compiled for the header of version 1, and
   that doesn't compare, would get two words written past the end of its array by a library of version 2. With version 3 the
   movement call and the quarter call came, and every other call is lent and writes what it did; from then on the version grows
   with each call that is added, so that it tells which calls a library has. */
#define TSAV_VERSION 3

#define TSAV_LARGEST_AMOUNT UINT64_C(99999999999999)

/* The block call's numbers, and its figures: five amounts and, from version 2 on, two numbers of steps. */
#define TSAV_BLOCK_NUMBERS 17
#define TSAV_BLOCK_FIGURES 7

/* The parts that the shares call divides K among: the seven risks, property and casualty, credit, market. */
#define TSAV_PARTS 10

/* The operational call's volumes of a territory, its volumes at most, and its general figures. */
#define TSAV_TERRITORY_NUMBERS 16
#define TSAV_MOST_VOLUMES 256
#define TSAV_GENERAL_FIGURES 3

/* The blocks of a sheet, of which those from 17 on are participating, and the bytes of a sheet's line and of a report's. */
#define TSAV_MOST_BLOCKS 32
#define TSAV_SHEET_LINE 40
#define TSAV_REPORT_LINE 29

/* 629 lines. */
#define TSAV_LONGEST_SHEET 25160

/* The report of 32 blocks. With this room a sheet is never refused by 14; with less, only one whose report is longer. */
#define TSAV_LONGEST_REPORT 4727

/* The bytes of a listing's line, and the listing of 176 lines. With this room a check is never refused by 14. */
#define TSAV_LISTING_LINE 20
#define TSAV_LONGEST_LISTING 3520

/* The bytes of the movement call's numbers, 18 lines of 15, and those of its movements, seven lines of TSAV_REPORT_LINE. With
   that room it is never refused by 14. */
#define TSAV_MOVEMENT_NUMBERS 270
#define TSAV_MOVEMENTS 203

/* The sheets of a quarter, at most; the bytes of a summary's line; and the summary of so many sheets, with eight lines for all of
   them. With that room the quarter call refuses nothing. */
#define TSAV_MOST_SHEETS 60
#define TSAV_SUMMARY_LINE 30
#define TSAV_LONGEST_SUMMARY 2040

#define TSAV_NOWHERE 0
#define TSAV_LINE 1
#define TSAV_POSITION 2
#define TSAV_RISK 3
#define TSAV_SHEET 4

/* TSAV_VERSION, as the library was built. */
uint64_t tsav_version(void);

/* The block call, section 11.2.

   numbers: seven pairs, gross component and its level and trend part, of 1 mortality, 2 longevity, 3 morbidity incidence,
   4 morbidity termination, 5 lapse-sensitive, 6 lapse-supported, 7 expenses; then property and casualty, credit, market.

   Accepted, figures holds TSAV_BLOCK_FIGURES numbers, in this order: I and D in half cents; U, LT and K in cents; the steps of
   the root of I, and those of the root of D.

   I and D are worked out in hundredths of the half cent, and K is taken at this finer D. The I and D that are given are the
   least half cents at or above these.

   A root's steps are half the binary length of its radicand, padded to an even number, and 0 where the radicand is 0; they are
   never above 58. With all amounts in hundredths of the half cent, the radicand of I is the sum under the root, whether the
   floor is larger or not, and that of D is A * A + A * I + I * I, where A is credit and market.

   Refusals, tested in this order: 7 at the first amount that is too large; 8 at position 13, where level and trend of
   expenses isn't 0; 9 at the first level and trend part above its component. */
uint64_t tsav_block(const uint64_t numbers[TSAV_BLOCK_NUMBERS], uint64_t figures[TSAV_BLOCK_FIGURES], uint64_t place[2]);

/* The shares call: K of a block divided among ten parts, by the marginal method.

   numbers: those of the block call.

   Accepted, shares holds TSAV_PARTS numbers, the share of each part in cents: of risks 1 to 7, property and casualty, credit,
   market. They total K.

   A part's margin is K less the K of the same block with the part's amounts zero, of a risk both; each K is as the block call
   gives it. The share is K times the margin over the sum of the margins, rounded down; the cents that are left over go one each
   to the parts with the largest remainders, of equal ones to the lower number first. So each share is less than a cent from the
   unrounded one, and a part without margin has none.

   Refusals, tested in this order: 7, 8 and 9 as in the block call; 23, where a part brings less than nothing, or where no part
   alone brings anything: of zeros, and of some blocks of a few cents. */
uint64_t tsav_shares(const uint64_t numbers[TSAV_BLOCK_NUMBERS], uint64_t shares[TSAV_PARTS], uint64_t place[2]);

/* The operational call, section 8.2.

   volumes: count numbers, TSAV_TERRITORY_NUMBERS for each territory: eight pairs, current and prior, of the volume classes 1
   to 8. None is no territory. A prior is what it is given as: of bought business, the caller's own and the seller's together.
   general: gross components, guarantee requirement, ceded premiums.

   Accepted, figure holds RO in cents.

   Refusals, tested in this order: 15; 7 at the first amount that is too large, positions running through volumes and then
   general. */
uint64_t tsav_operational(const uint64_t *volumes, size_t count, const uint64_t general[TSAV_GENERAL_FIGURES],
                          uint64_t figure[1], uint64_t place[2]);

/* The fluctuation call, section 11.1.2: a requirement for morbidity before its fluctuation factor becomes the one after it.

   row: two numbers and a threshold in dollars:

     1  disability level             0.9   and    648,  42,000,000
     2  long-term care level         0.5   and  4,330,  75,000,000
     3  disability volatility        0.7   and    734,   6,000,000
     4  long-term care volatility    0.3   and  1,212,   3,000,000
     5  travel and credit            0.2   and  1,788,   5,000,000
     6  medical and dental           0.7   and    519,   3,000,000
     7  critical illness             0.15  and 14,722, 300,000,000

   requirement: B, before the factor.
   face: the face amount, which is the base of row 7; the base of the other rows is the requirement, and face is only
   tested against TSAV_LARGEST_AMOUNT.

   Accepted, figure holds the requirement times its factor, rounded up to the cent. The factor is 1 where the base is up to
   the threshold; above it, it is the first number plus the second over the square root of the base in dollars.

   Refusals, tested in this order: 18; 7 at position 0 for the requirement, at 1 for the face. */
uint64_t tsav_fluctuation(uint64_t row, uint64_t requirement, uint64_t face, uint64_t figure[1], uint64_t place[2]);

/* The sheet call: sections 11.1.1, 11.2 and 8.2 for every block and territory of a sheet, and section 11.3, the buffer.

   sheet: bytes bytes, a line for each TSAV_SHEET_LINE, in the order of refusal 19. The amount of an ACQ line, bought business
   (section 8.2.2), is added to the prior amount of its territory and class; the two together may pass TSAV_LARGEST_AMOUNT.
   report: room bytes, of any content.

   Accepted, written holds the report's length, 29 * (5 * n + 3) for n blocks; so many bytes of report, from its start, are
   the report, and those behind them are untouched.

   Refusals, tested in this order: 1; where the length isn't a multiple of TSAV_SHEET_LINE, 3 at the first whole line that
   breaks the layout, or else 2, and no other; then the first bad line, in it 3, 4, 5, 6, 8, 9, 10, 11, 19; then 12, 16, 17,
   13, 14. The bytes behind the last whole line are not looked at. A sheet with carriage returns, of 41 bytes a line, is
   refused by 3 at line 1 unless it is too long. */
uint64_t tsav_sheet(const uint8_t *sheet, size_t bytes, uint8_t *report, size_t room, uint64_t written[1],
                    uint64_t place[2]);

/* The convert call: a sheet in cents, with its codes in capital letters, becomes one in thousands of dollars, with its codes in
   small letters, and the other way round. The letters of line 1 tell which.

   sheet: bytes bytes, a line for each TSAV_SHEET_LINE, in the order of refusal 19; of a small sheet, the same lines with the
   codes rsk, oth, mor, vol, acq, gen and crd.
   converted: room bytes, of any content.

   Accepted, written holds the sheet's length; so many bytes of converted, from its start, are the converted sheet, and those
   behind them are untouched. Both amounts of a line are divided or multiplied by 100,000, but the scalar's line keeps its
   numbers. Converted back, it is the first sheet, byte for byte. An empty sheet is accepted, with the length 0.

   Refusals, tested in this order: 1; where the length isn't a multiple of TSAV_SHEET_LINE, 3 or 2 as in the sheet call; then
   the first bad line, in it 3, 4, 5, 6, 8, 9, 10, 11, 19, then 20 in a capital sheet and 21 in a small one, which the scalar's
   line never has; then 14. A code in other letters than those of line 1, or in letters of both sorts, is refused by 4. 12, 13,
   16 and 17 are not tested: the converted sheet may still be refused by them in the sheet call. */
uint64_t tsav_convert(const uint8_t *sheet, size_t bytes, uint8_t *converted, size_t room, uint64_t written[1],
                      uint64_t place[2]);

/* The check call: lists the lines of an accepted sheet that need another line, which is absent or has first amount 0.

     VOL class 5          needs  GEN class 2
     MOR                  needs  RSK class 1 of its block
     ACQ                  needs  VOL of its block and class
     CRD of block 17-32   needs  an RSK line of its block, of which any with a first amount above 0 will do

   A line with amounts all zero needs nothing, and neither does any other.

   sheet: bytes bytes, as of the sheet call.
   listing: room bytes, of any content.

   Accepted, written holds the listing's length, TSAV_LISTING_LINE for each line that is listed, 0 where none is; so many bytes of
   listing, from its start, are the listing, and those behind them are untouched. It follows the sheet's order. A line has the code,
   block and class of the sheet's line in its columns 1 to 9, those of the line that it needs in 11 to 13, 15 to 16 and 18 to
   19, where the class is 0 for a CRD line, spaces between, a line feed.

   Refusals, tested in this order: those of the sheet call but for its 14; then 14, where room is less than the listing. */
uint64_t tsav_check(const uint8_t *sheet, size_t bytes, uint8_t *listing, size_t room, uint64_t written[1],
                    uint64_t place[2]);

/* The movement call: how far the reported K of a block moves as each risk's component is raised by t, all else kept.

   numbers: bytes bytes, 18 lines of an amount in 14 columns, as a sheet has it, and a line feed: the block call's numbers, then t.
   movements: room bytes, of any content.

   Accepted, written holds TSAV_MOVEMENTS; so many bytes of movements, from its start, are a line of TSAV_REPORT_LINE for each risk,
   and those behind them are untouched. The line of a risk is MOV, 0, the risk, and the K of the block with that risk's component
   raised less the K of the block, in cents, with a minus right before a fall. That is less than t + 2 either way, and the exact K
   moves by at most t.

   Where the raise takes a component above TSAV_LARGEST_AMOUNT, the risk's line is REF, 22, 0 and the risk instead, the other risks
   have their own, and the call is accepted.

   Refusals, tested in this order: 2, where bytes isn't TSAV_MOVEMENT_NUMBERS; 3 at the first line that holds no amount; 8 and 9 as
   in the block call, whose 7 can't come, as 14 columns hold no larger amount; 14. */
uint64_t tsav_movement(const uint8_t *numbers, size_t bytes, uint8_t *movements, size_t room, uint64_t written[1],
                       uint64_t place[2]);

/* The quarter call: a quarter's sheets, one after the other, and what they come to together.

   sheets: bytes bytes, at most TSAV_MOST_SHEETS sheets as of the sheet call, each closed by a line of 39 minus signs and a line
   feed, which counts at the start and right after a line feed. None is no sheet.
   summary: room bytes, of any content.

   Accepted, written holds the summary's length; so many bytes of summary, from its start, are lines of TSAV_SUMMARY_LINE, and those
   behind them are untouched. A line is one of a report with a column more for the number. For each sheet there is SHT, the sheet,
   1 and its buffer, or the REF line of its refusal, which has every number of the sheet call but 14; then, as SUM, 0 and items 1
   to 8: how many were accepted, the smallest buffer, the first sheet that has it, the largest, the first sheet that has it, the
   total, the mean in whole cents, and its remainder over the count; with none accepted, zeros.

   With more than TSAV_MOST_SHEETS sheets the summary ends, behind the lines of the first 60, in REF, 24, 0 and 61; with bytes behind
   the last closing line it ends, behind the lines of the sheets before, in REF, 25, 0 and the number of the sheet that isn't closed;
   24 first. No SUM line stands there then, and the call is accepted all the same, since the sheets before have their answers: look
   at the last line.

   Refusals: 14 alone. */
uint64_t tsav_quarter(const uint8_t *sheets, size_t bytes, uint8_t *summary, size_t room, uint64_t written[1],
                      uint64_t place[2]);

#ifdef __cplusplus
}
#endif

#endif
