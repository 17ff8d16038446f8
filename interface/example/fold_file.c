/* Folds a stack file and prints the outline and the placements, or prints its outline table. Or stacks a row of cells
 * of the heights given, and prints how many stacks there are, how high they are and where each ends.
 * Arguments: FILE apart|nested height|width LIMIT, or FILE apart|nested area|table,
 * or cells height|count LIMIT HEIGHT.. */
#include "../stack_folds.h"
#include <errno.h>
#include <stdio.h>
#include <stdlib.h>
#include <string.h>

static const char usage[] =
    "usage: fold_file FILE apart|nested height|width LIMIT\n"
    "       fold_file FILE apart|nested area|table\n"
    "       fold_file cells height|count LIMIT HEIGHT..";

/* The longest stack file has 256 components of version 2; one byte more shows a file that is longer still. */
static uint8_t file[7 + 8 * 256 + 1];
static size_t file_len;
static bool nested;
static uint32_t placements[FOLDS_PLACEMENTS(256)];
static uint32_t work[FOLDS_WORK];

static int fail(const char *why) {
    fprintf(stderr, "%s\n", why);
    return EXIT_FAILURE;
}

static int refused(uint32_t number) {
    fprintf(stderr, "refusal %u: %s\n", (unsigned)number, folds_word(number));
    return EXIT_FAILURE;
}

/* A number of 32 bits and nothing else; 0, which every fold refuses, for all other words. */
static uint32_t number(const char *word) {
    char *end;
    errno = 0;
    unsigned long value = strtoul(word, &end, 10);
    return word[0] < '0' || word[0] > '9' || *end != 0 || errno != 0 || value > UINT32_MAX ? 0 : (uint32_t)value;
}

/* Prints the folding in `placements`, unless it was refused. */
static int folded(size_t components, folds_outline outline) {
    if (outline.refusal != 0)
        return refused(outline.refusal);
    printf("width %u height %u\n", (unsigned)outline.width, (unsigned)outline.height);
    for (size_t i = 0; i < components; i++) {
        const uint32_t *p = placements + 3 * i;
        printf("C%u group %u %s start %u\n", (unsigned)i + 1, (unsigned)p[0], p[1] == 0 ? "left" : "right", (unsigned)p[2]);
    }
    return EXIT_SUCCESS;
}

static int fold(size_t components, bool to_height, uint32_t limit) {
    return folded(components, (to_height ? folds_to_height : folds_to_width)(
        file, file_len, nested, limit, placements, FOLDS_PLACEMENTS(256), work, FOLDS_WORK));
}

static int smallest_area(size_t components) {
    return folded(components, folds_smallest_area(
        file, file_len, nested, placements, FOLDS_PLACEMENTS(256), work, FOLDS_WORK));
}

static int table(size_t components) {
    uint32_t *pairs = malloc(FOLDS_PAIRS(components) * sizeof *pairs);
    if (pairs == NULL)
        return fail("there is no memory for the table");
    folds_count count = folds_table(file, file_len, nested, pairs, FOLDS_PAIRS(components), work, FOLDS_WORK);
    for (size_t i = 0; i < count.count; i++)
        printf("width %u height %u\n", (unsigned)pairs[2 * i], (unsigned)pairs[2 * i + 1]);
    free(pairs);
    return count.refusal == 0 ? EXIT_SUCCESS : refused(count.refusal);
}

/* The longest row has 60,000 cells; one more shows a row that is longer still. */
static int cells(bool to_height, uint32_t limit, size_t count, char **words) {
    static uint16_t heights[FOLDS_MOST_CELLS + 1], ends[FOLDS_MOST_CELLS];
    if (count > FOLDS_MOST_CELLS + 1)
        count = FOLDS_MOST_CELLS + 1;
    for (size_t i = 0; i < count; i++) {
        uint32_t height = number(words[i]);
        /* A height that 16 bits do not hold is no better than 0: both are refused with 5. */
        heights[i] = height > UINT16_MAX ? 0 : (uint16_t)height;
    }
    folds_stacks stacks = (to_height ? folds_cells_to_height : folds_cells_to_count)(
        heights, count, limit, ends, FOLDS_MOST_CELLS);
    if (stacks.refusal != 0)
        return refused(stacks.refusal);
    printf("stacks %u height %u\n", (unsigned)stacks.count, (unsigned)stacks.height);
    for (size_t i = 0; i < stacks.count; i++)
        printf("S%u ends with cell %u\n", (unsigned)i + 1, (unsigned)ends[i]);
    return EXIT_SUCCESS;
}

int main(int argc, char **argv) {
    if (argc >= 4 && strcmp(argv[1], "cells") == 0) {
        bool to_height = strcmp(argv[2], "height") == 0;
        if (!to_height && strcmp(argv[2], "count") != 0)
            return fail("the limit is a height or a count");
        return cells(to_height, number(argv[3]), (size_t)argc - 4, argv + 4);
    }
    bool listing = argc == 4 && strcmp(argv[3], "table") == 0;
    bool area = argc == 4 && strcmp(argv[3], "area") == 0;
    if (argc != 5 && !listing && !area)
        return fail(usage);
    nested = strcmp(argv[2], "nested") == 0;
    if (!nested && strcmp(argv[2], "apart") != 0)
        return fail("the kind is apart or nested");
    bool to_height = strcmp(argv[3], "height") == 0;
    if (argc == 5 && !to_height && strcmp(argv[3], "width") != 0)
        return fail("the limit is a height or a width");

    FILE *in = fopen(argv[1], "rb");
    if (in == NULL)
        return fail("the file cannot be opened");
    file_len = fread(file, 1, sizeof file, in);
    fclose(in);

    folds_count count = folds_check(file, file_len, nested);
    if (count.refusal != 0)
        return refused(count.refusal);
    if (listing)
        return table(count.count);
    return area ? smallest_area(count.count) : fold(count.count, to_height, number(argv[4]));
}
