/* Foldings of a bit-sliced stack, and stacks of standard cells: the calls of target/staticlib/libstack_folds.a, which
 * interface/library.sh builds.
 *
 * The words, after Paik and Sahni, "Optimal Folding Of Bit Sliced Stacks":
 *   stack             components one above the other, C1 at the top to Cn at the bottom; their order never changes
 *   fold              a place behind a component where the stack is turned over, so that it goes on beside itself
 *   group             a run of components with at most one fold: left ones before it, right ones behind it
 *   apart, nested     the kinds of folding: apart groups have no right side; nested ones have one, and only the last
 *                     group of the folding may be without it
 *   outline           the width and the height of the rectangle that a folding needs
 *   unbeaten outline  one that a legal folding has, where every other is wider, or higher, or equal in both
 *
 * A stack file is lent as bytes, the low byte of a number first:
 *   bytes 0 to 2      the letters S, T, K
 *   bytes 3 and 4     the version, 1 or 2
 *   bytes 5 and 6     the number of components n, 1 to 256
 *   then for each component, 16 bits each: height (1 to 4,000), width (1 to 4,000), gap (0 to 4,000; the last one's is
 *   0), and in version 2 the fold mark (0 or 1; the last one's is 0)
 * So a component has six bytes in version 1 and eight in version 2. Every call that takes a stack file takes both.
 * Heights, gaps and start rows count rows; widths count slices. A gap is the routing height between a component and the
 * next one when a fold separates them. A fold mark is 0 where a fold is allowed after the component and 1 where it is
 * barred: in a legal folding a component with mark 1 has the same group and the same side as the next one. In version 1
 * all marks are 0. Components are numbered 1 to n.
 *
 * `nested` is the kind: false for apart, true for nested. Cells may be turned by half a turn and not mirrored, so nested
 * stacks face left and right by turns: that is why all groups but the last need a right side. An apart folding of more
 * than one group is no nested one.
 *
 * A placement is three numbers: group (from 0), side (0 left, 1 right), start row (0 to 1,024,000). Rows count from the
 * end where the group's fold is, and in a group without a fold from the end of its last component. A folding is n
 * placements, C1's first.
 *
 * A row of cells is lent as a list of their heights, 16 bits each: 1 to 60,000 standard cells, each 1 to 4,000 high,
 * equal in width and without gaps, numbered from 1. This list is no stack file. Stacks of a row are runs of its cells,
 * none empty, that hold all of them in their order; they are told by the number of each one's last cell. A stack's
 * height is the sum of its cells' heights, and the height of several is that of the highest.
 *
 * Every call answers every input, damaged ones too. What it asks of its caller is what C asks of every buffer: each
 * pointer is aligned and not null, even where its length is 0; each length counts the elements that are really there;
 * no buffer that a call writes overlaps another one of the same call.
 *
 * The twelve refusals, in the order in which they are checked, save that 12 is checked directly before 5, 11 directly
 * after 6, 10 before 9, and for a row of cells 9 before 8. All heights and widths are checked before any gap, and all
 * gaps before any mark:
 *
 *    0  a result, no refusal
 *    1  wrong file      under 7 bytes, or the letters are not STK
 *    2  wrong version   the version is neither 1 nor 2
 *    3  wrong length    the file is not 7+6n bytes in version 1, 7+8n in version 2; the writer's lists differ in length
 *    4  stack size      n is 0 or over 256; over 64 where nested is true
 *    5  bad component   a height or width outside 1 to 4,000, of a component or a cell
 *    6  bad gap         a gap over 4,000, or the last gap not 0
 *    7  bad limit       a limit outside 1 to 2,000,000; for a row of cells, of its stacks' height or their number,
 *                       outside 1 to 240,000,000
 *    8  short buffer    a buffer is too short, as each call says
 *    9  unmeetable      no legal folding keeps the limit; a cell is higher than the limit
 *   10  broken folding  the placements are not legal; so it is where a component with mark 1 and the next one differ in
 *                       group or side, and where a group of a nested folding has no right side and is not the last
 *   11  bad fold mark   a mark over 1, or a last mark of 1
 *   12  row size        a row of no cells, or of over 60,000
 *
 * A refusal leaves every buffer lent for results as it was. A result leaves everything past it as it was. What a work
 * buffer holds afterwards is open after a result, after 9, and after 8 for too long a table; every other refusal leaves
 * it as it was.
 */
#ifndef STACK_FOLDS_H
#define STACK_FOLDS_H

#include <stdbool.h>
#include <stddef.h>
#include <stdint.h>

#ifdef __cplusplus
extern "C" {
#endif

#define FOLDS_WRONG_FILE 1
#define FOLDS_WRONG_VERSION 2
#define FOLDS_WRONG_LENGTH 3
#define FOLDS_STACK_SIZE 4
#define FOLDS_BAD_COMPONENT 5
#define FOLDS_BAD_GAP 6
#define FOLDS_BAD_LIMIT 7
#define FOLDS_SHORT_BUFFER 8
#define FOLDS_UNMEETABLE 9
#define FOLDS_BROKEN_FOLDING 10
#define FOLDS_BAD_FOLD_MARK 11
#define FOLDS_ROW_SIZE 12

/* The refusal's words; an empty string for 0 and for a number that is no refusal. */
static inline const char *folds_word(uint32_t refusal) {
    static const char *const words[] = {
        "",        "wrong file", "wrong version", "wrong length", "stack size",     "bad component",
        "bad gap", "bad limit",  "short buffer",  "unmeetable",   "broken folding", "bad fold mark",
        "row size",
    };
    return refusal < sizeof words / sizeof words[0] ? words[refusal] : "";
}

/* The least length of a work buffer, in numbers of 32 bits. */
#define FOLDS_WORK 8192

/* So many numbers hold the placements of n components, and the table of every stack of n components. */
#define FOLDS_PLACEMENTS(n) ((size_t)3 * (n))
#define FOLDS_PAIRS(n) ((size_t)2 * 4000 * (n))

/* The most cells of a row; so many places hold the ends of the stacks of every row. */
#define FOLDS_MOST_CELLS 60000

/* count is the answer where refusal is 0, and is 0 otherwise. */
typedef struct { uint32_t refusal; size_t count; } folds_count;

/* The outline where refusal is 0; width and height are 0 otherwise. */
typedef struct { uint32_t refusal; uint32_t width; uint32_t height; } folds_outline;

/* The number of stacks and the height of the highest where refusal is 0; count and height are 0 otherwise. */
typedef struct { uint32_t refusal; uint32_t count; uint32_t height; } folds_stacks;

/* A part of a lent buffer, in elements from the buffer's start. The empty part has start 0 and length 0. */
typedef struct { size_t start; size_t length; } folds_part;

/* Checks a stack file. count: the number of components n.
 * Reads the file; writes nothing. Refusals 1 to 6, 11. */
folds_count folds_check(const uint8_t *file, size_t file_len, bool nested);

/* Reads a stack file into four lists. count: n; a stack may have 256 components here.
 * Writes the first n entries of each list: heights in rows, widths in slices, gaps in rows, fold marks, which are all 0
 * for a version 1 file; all beyond stays unchanged.
 * Refusals 1 to 6, 11; 8 where a list has fewer than n entries, the marks' too. A refusal leaves all four lists
 * unchanged. */
folds_count folds_read(const uint8_t *file, size_t file_len, uint16_t *heights, size_t heights_len,
                       uint16_t *widths, size_t widths_len, uint16_t *gaps, size_t gaps_len,
                       uint16_t *marks, size_t marks_len);

/* All bytes of component `number`, from 1, as a part of the file, the low byte first: height, width and gap, six bytes,
 * in a version 1 file; height, width, gap and fold mark, eight bytes, in a version 2 file.
 * The empty part for a number outside 1 to n, and for a file that folds_read would refuse with 1 to 6 or 11. Writes
 * nothing. */
folds_part folds_lookup(const uint8_t *file, size_t file_len, size_t number);

/* Writes the version 2 stack file of the components in four lists. count: the file's length, 7+8n.
 * Writes the first 7+8n bytes of `file`; all beyond stays unchanged. They are the one version 2 file that folds_read
 * reads back to these lists.
 * Refusals: 3 where the lists differ in length, 4, 5, 6, 11; 8 where `file` has under 7+8n bytes. A refusal leaves it
 * as it was. */
folds_count folds_write(const uint16_t *heights, size_t heights_len, const uint16_t *widths, size_t widths_len,
                        const uint16_t *gaps, size_t gaps_len, const uint16_t *marks, size_t marks_len,
                        uint8_t *file, size_t file_len);

/* Measures a folding: its outline, the layout's width in slices and height in rows.
 * Reads the first 3n numbers of placements, none past them; writes nothing.
 * Refusals 1 to 6, 11; 8 where there are fewer than n whole placements; 10. */
folds_outline folds_measure(const uint8_t *file, size_t file_len, bool nested,
                            const uint32_t *placements, size_t placements_len);

/* Chooses the better of two foldings: 1 the first, 2 the second. The smaller width wins, then the smaller height, then
 * the first. 0 where folds_measure would refuse either. The winner's placements are the first 3n numbers of its buffer.
 * Writes nothing. */
uint32_t folds_choose(const uint8_t *file, size_t file_len, bool nested,
                      const uint32_t *first, size_t first_len, const uint32_t *second, size_t second_len);

/* Folds to a height: of the legal foldings that are at most `limit` rows high, one of the narrowest outline, and of
 * those the lowest. Which folding of that outline is written is free.
 * Writes the first 3n numbers of placements; all beyond stays unchanged.
 * Refusals 1 to 6, 11, 7; 8 for fewer than n whole placements or a work buffer under FOLDS_WORK; 9.
 * A refusal leaves placements unchanged; the work buffer too, save that a result and refusal 9 leave its content open. */
folds_outline folds_to_height(const uint8_t *file, size_t file_len, bool nested, uint32_t limit,
                              uint32_t *placements, size_t placements_len, uint32_t *work, size_t work_len);

/* Folds to a width: of the legal foldings that are at most `limit` slices wide, one of the lowest outline, and of those
 * the narrowest. All else is as for folds_to_height. */
folds_outline folds_to_width(const uint8_t *file, size_t file_len, bool nested, uint32_t limit,
                             uint32_t *placements, size_t placements_len, uint32_t *work, size_t work_len);

/* Folds to the smallest area: of all legal foldings, one whose outline has the least width times height, and of equal
 * areas the narrowest. Which folding of that outline is written is free.
 * Writes the first 3n numbers of placements; all beyond stays unchanged.
 * Refusals 1 to 6, 11; 8 for fewer than n whole placements or a work buffer under FOLDS_WORK. There is always a result
 * otherwise.
 * A refusal leaves placements and the work buffer unchanged; a result leaves the work buffer's content open. */
folds_outline folds_smallest_area(const uint8_t *file, size_t file_len, bool nested,
                                  uint32_t *placements, size_t placements_len, uint32_t *work, size_t work_len);

/* Lists the unbeaten outlines as pairs width, height: widths rise and heights fall strictly. count: the number of pairs.
 * There are never more pairs than the components' widths add up to, so FOLDS_PAIRS(n) numbers are always enough.
 * Writes the first 2*count numbers of pairs; all beyond stays unchanged.
 * Refusals 1 to 6, 11; 8 for a work buffer under FOLDS_WORK, or for more outlines than whole pairs fit.
 * A refusal leaves pairs unchanged; the work buffer too, save that a result and 8 for too long a table leave its
 * content open. */
folds_count folds_table(const uint8_t *file, size_t file_len, bool nested,
                        uint32_t *pairs, size_t pairs_len, uint32_t *work, size_t work_len);

/* Stacks cells to a height: a row in the fewest stacks that are at most `limit` high. Which cells end them is otherwise
 * free. count: how many there are; height: that of the stacks written.
 * Up to 256 cells, and at limits up to 2,000,000: for an apart stack of components of these heights, all of width 1,
 * with all gaps and marks 0, and with buffers that are long enough, folds_to_height refuses with 9 exactly where this
 * call does, and where this call gives a result its width is count.
 * Writes the number of each stack's last cell, in order, to the first count places of ends; all beyond stays unchanged.
 * Refusals 12, 5, 7; 9 where a cell is higher than `limit`, however long ends is; 8 where ends has fewer places than
 * there are stacks, and so never where it has one for each cell. A refusal leaves ends unchanged. */
folds_stacks folds_cells_to_height(const uint16_t *heights, size_t heights_len, uint32_t limit,
                                   uint16_t *ends, size_t ends_len);

/* Stacks cells to a count: a row in at most `most` stacks of the least height, and in the fewest stacks of that height.
 * Which cells end them is otherwise free. count: how many there are; height: that of the stacks written.
 * Up to 256 cells, and for `most` up to 2,000,000: for an apart stack of components of these heights, all of width 1,
 * with all gaps and marks 0, and with buffers that are long enough, folds_to_width at the limit `most` gives the same
 * height, where this call gives a result.
 * Writes the number of each stack's last cell, in order, to the first count places of ends; all beyond stays unchanged.
 * Refusals 12, 5, 7; 8 where ends has fewer places than there are stacks, and so never where it has one for each cell.
 * There is always a result otherwise. A refusal leaves ends unchanged. */
folds_stacks folds_cells_to_count(const uint16_t *heights, size_t heights_len, uint32_t most,
                                  uint16_t *ends, size_t ends_len);

#ifdef __cplusplus
}
#endif

#endif
