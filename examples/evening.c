/* The evening build: a check with a budget of its own, 64 rounds, after which a set is left for the night run, which uses the largest
 * budget and always decides. Both are shown side by side on the chain; one that the evening decides needs no night run.
 *
 *     cc -Iinclude examples/evening.c target/staticlib/libujthanor.a -o target/evening && target/evening
 *
 * The chain (docs/RULES.md, section 11): 64 nonterminals, each of which is the next, and the last is one of four empty elements. A
 * round takes their images one nonterminal further, so that it takes 65. Where the last may also be empty, there are more than 256 images. */
#include <stdio.h>

#include "ujthanor.h"

enum { EVENING = 64, LINKS = 64, ELEMENTS = 4, SPARE = 255 };

static uint8_t *put(uint8_t *at, int a, int b, int c, int d) {
    at[0] = (uint8_t)a, at[1] = (uint8_t)b, at[2] = (uint8_t)c, at[3] = (uint8_t)d;
    return at + 4;
}

/* Writes the chain's file and gives its length. */
static size_t chain(uint8_t *file, int may_be_empty) {
    int rules = LINKS - 1 + may_be_empty + ELEMENTS;
    int schema = 16 + 4 * rules, endings = schema + 4 * ELEMENTS;
    uint8_t *at = put(file, ELEMENTS, LINKS, ELEMENTS + 1, 0);
    at = put(at, 16, 0, rules, 0);
    at = put(at, schema & 255, schema >> 8, ELEMENTS, 0);
    at = put(at, endings & 255, endings >> 8, ELEMENTS + 1, 0);
    for (int i = 0; i < LINKS - 1; i++) at = put(at, i, 1, 64 + i + 1, SPARE);
    if (may_be_empty) at = put(at, LINKS - 1, 0, SPARE, SPARE);
    for (int i = 0; i < ELEMENTS; i++) at = put(at, LINKS - 1, 2, i, 32 + i);
    for (int i = 0; i < ELEMENTS; i++) at = put(at, 0, i, 0, i + 1); /* state 0 gives element i, then state i + 1 */
    for (int i = 0; i <= ELEMENTS; i++) *at++ = (uint8_t)i;
    return (size_t)(at - file);
}

/* What a run does with a set, after its answer and numbers. */
static uint32_t run(const char *when, const uint8_t *file, size_t len, size_t budget) {
    static uint64_t table[UJTHANOR_TABLE];
    uint64_t number, images;
    uint32_t answer = ujthanor_check(file, len, table, UJTHANOR_TABLE, budget, &number, &images);
    const char *then = answer == UJTHANOR_OK            ? "publish"
                       : answer == UJTHANOR_BUDGET_USED ? "leave it for the night run"
                                                        : "back to its author";
    printf("  %s, budget %zu: %u %llu %llu, %s\n", when, budget, answer, (unsigned long long)number, (unsigned long long)images, then);
    return answer;
}

static void both(const char *what, const uint8_t *file, size_t len) {
    printf("%s\n", what);
    if (run("evening", file, len, EVENING) == UJTHANOR_BUDGET_USED) run("night", file, len, UJTHANOR_BUDGET);
}

int main(void) {
    uint8_t file[UJTHANOR_LONGEST];
    both("the chain", file, chain(file, 0));
    both("the chain whose last may be empty", file, chain(file, 1));
    return 0;
}
