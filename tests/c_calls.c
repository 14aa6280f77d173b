/* What the header allows: no bytes, no table, no row and no output may each be lent as (NULL, 0), and one row may be both sides of a join.
 * And what it says of a caller built with layout 1, whose rows and tables are too short.
 * Prints nothing where every answer is right; else says which is not, and ends with 1. */
#include <stdio.h>

#include "ujthanor.h"

/* One template rule, page -> <a></a>, under a schema whose one state is ending and takes any elements, also none: what an empty page lacks
 * is its outermost element. */
static const uint8_t OPEN[] = {1, 1, 1, 0, 16, 0, 1, 0, 20, 0, 1, 0, 24, 0, 1, 0, 0, 2, 0, 32, 0, 0, 0, 0, 0};

/* The same with its rule in 14 bytes, page -> <a><a></a></a>, and what is then written: 25 bytes and two rules more. */
static const uint8_t LONG[] = {1, 1, 1, 0, 16, 0, 1, 0, 30, 0, 1, 0, 34, 0, 1, 0, 0, 4, 0, 0, 32, 32,
                               255, 255, 255, 255, 255, 255, 255, 255, 0, 0, 0, 0, 0};
enum { WRITTEN = sizeof OPEN + 8 };

/* What a call must not leave in a number: each is set to it before. */
static const uint64_t UNSET = 99;

static uint64_t table[UJTHANOR_TABLE], row[UJTHANOR_ROW], other[UJTHANOR_ROW];
static uint8_t out[UJTHANOR_LONGEST];
static uint64_t number, images;
static int32_t depth;
static int wrong;

static void holds(const char *what, int held) {
    if (!held) {
        printf("c_calls: not so: %s\n", what);
        wrong = 1;
    }
}

static void unset(void) {
    number = images = UNSET;
    depth = (int32_t)UNSET;
}

static void answered(const char *what, uint32_t answer, uint32_t wanted) {
    if (answer != wanted || number != 0) {
        printf("c_calls: %s: answer %u, number %llu, but %u and 0 are right\n", what, answer, (unsigned long long)number, wanted);
        wrong = 1;
    }
    unset();
}

static void checks(void) {
    table[0] = UNSET;
    answered("check, no file", ujthanor_check(NULL, 0, table, UJTHANOR_TABLE, UJTHANOR_BUDGET, &number, &images), UJTHANOR_BAD_FILE);
    holds("a bad file leaves the table as it was", table[0] == UNSET);
    answered("check, no table", ujthanor_check(OPEN, sizeof OPEN, NULL, 0, UJTHANOR_BUDGET, &number, &images), UJTHANOR_SHORT_TABLE);
    uint32_t answer = ujthanor_check(NULL, 0, NULL, 0, 0, &number, &images);
    holds("no images without a pass", images == 0);
    answered("check, no file and no table", answer, UJTHANOR_SHORT_TABLE);
}

static void pages(void) {
    answered("page, no bytes", ujthanor_page(OPEN, sizeof OPEN, NULL, 0, &number), UJTHANOR_NOT_DERIVED);
    answered("page, no file", ujthanor_page(NULL, 0, OPEN, sizeof OPEN, &number), UJTHANOR_BAD_FILE);
    answered("page, no file and no bytes", ujthanor_page(NULL, 0, NULL, 0, &number), UJTHANOR_BAD_FILE);
}

static void fragments(void) {
    answered("fragment, no row", ujthanor_fragment(OPEN, sizeof OPEN, NULL, 0, NULL, 0, &number), UJTHANOR_SHORT_ROW);
    answered("fragment, no file", ujthanor_fragment(NULL, 0, NULL, 0, row, UJTHANOR_ROW, &number), UJTHANOR_BAD_FILE);
    answered("fragment, no bytes", ujthanor_fragment(OPEN, sizeof OPEN, NULL, 0, row, UJTHANOR_ROW, &number), UJTHANOR_OK);
    holds("the summary of no bytes has no tags, the relation of the empty string and no element",
          row[0] == 0 && row[3] == 1 && row[UJTHANOR_ROW - 1] == 0);
}

/* Two rows joined into `other`; null is no row. */
static uint32_t joined(const uint64_t *left, const uint64_t *right) {
    const size_t left_len = left == NULL ? 0 : UJTHANOR_ROW, right_len = right == NULL ? 0 : UJTHANOR_ROW;
    return ujthanor_join(OPEN, sizeof OPEN, left, left_len, right, right_len, other, UJTHANOR_ROW, &number);
}

static void joins(void) {
    answered("join, no row", ujthanor_join(OPEN, sizeof OPEN, NULL, 0, NULL, 0, NULL, 0, &number), UJTHANOR_SHORT_ROW);
    answered("join, no file", ujthanor_join(NULL, 0, NULL, 0, NULL, 0, other, UJTHANOR_ROW, &number), UJTHANOR_BAD_FILE);
    answered("join, no left", joined(NULL, row), UJTHANOR_NO_SUMMARY);
    answered("join, no right", joined(row, NULL), UJTHANOR_NO_SUMMARY);
    answered("join, one row twice", joined(row, row), UJTHANOR_OK);
    holds("no bytes after no bytes are no bytes", other[0] == 0 && other[3] == 1 && other[UJTHANOR_ROW - 1] == 0);
}

static void depths(void) {
    uint32_t answer = ujthanor_net_depth(OPEN, sizeof OPEN, NULL, 0, &number, &depth);
    holds("the depth of a refusal is 0", depth == 0);
    answered("net depth, no row", answer, UJTHANOR_NO_SUMMARY);
    answered("net depth, no file", ujthanor_net_depth(NULL, 0, row, UJTHANOR_ROW, &number, &depth), UJTHANOR_BAD_FILE);
}

static void splits(void) {
    out[0] = out[WRITTEN] = (uint8_t)UNSET;
    answered("split, no file", ujthanor_split(NULL, 0, out, sizeof out, &number), UJTHANOR_BAD_FILE);
    answered("split, no output", ujthanor_split(LONG, sizeof LONG, NULL, 0, &number), UJTHANOR_SHORT_OUTPUT);
    answered("split, no file and no output", ujthanor_split(NULL, 0, NULL, 0, &number), UJTHANOR_BAD_FILE);
    answered("split, a byte too little", ujthanor_split(LONG, sizeof LONG, out, WRITTEN - 1, &number), UJTHANOR_SHORT_OUTPUT);
    holds("a refused split leaves the output as it was", out[0] == UNSET);
    uint32_t answer = ujthanor_split(LONG, sizeof LONG, out, sizeof out, &number);
    holds("a split gives the bytes written", answer == UJTHANOR_OK && number == WRITTEN);
    holds("a split leaves the bytes past them", out[WRITTEN] == UNSET);
    answer = ujthanor_check(out, WRITTEN, table, UJTHANOR_TABLE, UJTHANOR_BUDGET, &number, &images);
    holds("what was split passes", answer == UJTHANOR_OK);
    unset();
}

/* Layout 1 had an entry less in a row, and so 256 less in a table. */
static void layout_1(void) {
    enum { ROW_1 = UJTHANOR_ROW - 1, TABLE_1 = UJTHANOR_TABLE - 256 };
    row[0] = row[ROW_1] = table[0] = table[TABLE_1] = UNSET;
    answered("check, old table", ujthanor_check(OPEN, sizeof OPEN, table, TABLE_1, UJTHANOR_BUDGET, &number, &images), UJTHANOR_SHORT_TABLE);
    holds("an old table is not written", table[0] == UNSET && table[TABLE_1] == UNSET);
    answered("fragment, old row", ujthanor_fragment(OPEN, sizeof OPEN, NULL, 0, row, ROW_1, &number), UJTHANOR_SHORT_ROW);
    answered("join, old row", ujthanor_join(OPEN, sizeof OPEN, other, UJTHANOR_ROW, other, UJTHANOR_ROW, row, ROW_1, &number),
             UJTHANOR_SHORT_ROW);
    holds("an old row is not written", row[0] == UNSET && row[ROW_1] == UNSET);
    answered("join, old rows", ujthanor_join(OPEN, sizeof OPEN, other, ROW_1, other, ROW_1, row, UJTHANOR_ROW, &number), UJTHANOR_NO_SUMMARY);
    answered("net depth, old row", ujthanor_net_depth(OPEN, sizeof OPEN, other, ROW_1, &number, &depth), UJTHANOR_NO_SUMMARY);
}

int main(void) {
    unset();
    checks();
    pages();
    fragments();
    joins();
    depths();
    splits();
    layout_1();
    return wrong;
}
