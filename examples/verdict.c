/* From templates to verdict: checks a template set, reads four pages, puts a page together from two cached fragments, and splits a rule
 * that is longer than two symbols.
 *
 *     cc -Iinclude examples/verdict.c target/staticlib/libujthanor.a -o target/verdict && target/verdict
 *
 * The set is file K (docs/RULES.md, section 11): elements a (0) and b (1). Its templates write <a><b></b></a>:
 *     page    -> opening </a>       opening -> <a> middle       middle -> <b> </b>
 * and its schema wants one b, not more and not less, among any number of a. */
#include <stdio.h>
#include <string.h>

#include "ujthanor.h"

static const uint8_t K[] = {
    2, 3, 2, 0,                                     /* 2 names, 3 nonterminals, 2 states */
    16, 0, 3, 0, 28, 0, 4, 0, 44, 0, 1, 0,          /* contents: offset and count of each body */
    0, 2, 65, 32, 1, 2, 0, 66, 2, 2, 1, 33,         /* template rules: left side, length, two symbols */
    0, 0, 0, 1, 0, 0, 1, 0, 0, 1, 1, 1, 1, 0, 1, 1, /* schema rules: X, a, Y, Z */
    1                                               /* the ending state */
};

/* The same page as one long rule of 14 bytes, page -> <a> <b> </b> </a>, under the same schema. */
static const uint8_t LONG[] = {
    2, 1, 2, 0,                                                 /* 2 names, 1 nonterminal, 2 states */
    16, 0, 1, 0, 30, 0, 4, 0, 46, 0, 1, 0,                      /* contents */
    0, 4, 0, 1, 33, 32, 255, 255, 255, 255, 255, 255, 255, 255, /* the template rule: left side, length, twelve symbols */
    0, 0, 0, 1, 0, 0, 1, 0, 0, 1, 1, 1, 1, 0, 1, 1, 1           /* schema rules, ending state */
};

static void check(const char *what, const uint8_t *file, size_t len) {
    static uint64_t table[UJTHANOR_TABLE];
    uint64_t number, images;
    uint32_t answer = ujthanor_check(file, len, table, UJTHANOR_TABLE, UJTHANOR_BUDGET, &number, &images);
    printf("%s: answer %u, number %llu, images %llu\n", what, answer, (unsigned long long)number, (unsigned long long)images);
}

static void page(const char *what, const uint8_t *bytes, size_t len) {
    uint64_t number;
    uint32_t answer = ujthanor_page(K, sizeof K, bytes, len, &number);
    printf("page %s: answer %u, number %llu\n", what, answer, (unsigned long long)number);
}

static void split(const uint8_t *file, size_t len) {
    uint8_t out[UJTHANOR_LONGEST];
    uint64_t number;
    uint32_t answer = ujthanor_split(file, len, out, 44, &number);
    printf("a long rule, room for 44 bytes: answer %u, number %llu\n", answer, (unsigned long long)number);
    answer = ujthanor_split(file, len, out, sizeof out, &number);
    printf("a long rule: answer %u, number %llu\n", answer, (unsigned long long)number);
    if (answer != UJTHANOR_OK) return;
    for (const uint8_t *rule = out + 16; rule < out + 16 + 4 * out[6]; rule += 4)
        printf("written rule: %d %d %d %d\n", rule[0], rule[1], rule[2], rule[3]);
    check("the written file", out, (size_t)number);
}

int main(void) {
    /* every page of K is valid; with one more rule, an empty `middle`, some page is not */
    check("K", K, sizeof K);
    uint8_t broken[sizeof K + 4];
    memcpy(broken, K, 24);
    memcpy(broken + 24, (const uint8_t[]){2, 0, 255, 255}, 4);
    memcpy(broken + 28, K + 24, sizeof K - 24);
    broken[6] = 4, broken[8] = 32, broken[12] = 48;
    check("K with an empty middle", broken, sizeof broken);
    check("half of K", K, 20);

    page("<a><b></b></a>", (const uint8_t[]){0, 1, 33, 32}, 4);
    page("<a></b>", (const uint8_t[]){0, 33}, 2);
    /* 14 for want of a b, and for two elements side by side, of which the schema alone would take both */
    page("<a></a>", (const uint8_t[]){0, 32}, 2);
    page("<a></a><b></b>", (const uint8_t[]){0, 32, 1, 33}, 4);

    /* <a><b> from one cache, </b></a> from another */
    uint64_t head[UJTHANOR_ROW], tail[UJTHANOR_ROW], whole[UJTHANOR_ROW], number;
    int32_t depth;
    ujthanor_fragment(K, sizeof K, (const uint8_t[]){0, 1}, 2, head, UJTHANOR_ROW, &number);
    ujthanor_fragment(K, sizeof K, (const uint8_t[]){33, 32}, 2, tail, UJTHANOR_ROW, &number);
    ujthanor_net_depth(K, sizeof K, head, UJTHANOR_ROW, &number, &depth);
    printf("head: net depth %d\n", depth);
    uint32_t answer = ujthanor_join(K, sizeof K, head, UJTHANOR_ROW, tail, UJTHANOR_ROW, whole, UJTHANOR_ROW, &number);
    printf("head and tail: answer %u, %s, relation %llu, outermost elements %llu\n", answer, whole[0] == 0 ? "no tags left" : "tags left",
           (unsigned long long)whole[3], (unsigned long long)whole[UJTHANOR_ROW - 1]);
    answer = ujthanor_join(K, sizeof K, tail, UJTHANOR_ROW, head, UJTHANOR_ROW - 1, whole, UJTHANOR_ROW, &number);
    printf("a row cut short: answer %u\n", answer);

    split(LONG, sizeof LONG);
    return 0;
}
