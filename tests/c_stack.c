/* How much stack the calls use: each is made on a thread whose stack is a painted array, and the lowest byte that lost its paint tells.
 * Prints the most that each call used, and ends with 1 where that is not less than UJTHANOR_STACK, or a check or split was refused. */
#define _XOPEN_SOURCE 700 /* pthread_attr_setstack */
#include <pthread.h>
#include <stdio.h>
#include <string.h>

#include "ujthanor.h"

enum {
    ROOM = 1 << 18, /* the thread's stack */
    OWN = 512,      /* below the measuring function's frame: left unpainted for its own variables */
    PAINT = 0xA5
};

static _Alignas(4096) unsigned char stack[ROOM];

/* The README's set: 2 names, 3 nonterminals, 2 states. */
static const uint8_t K[] = {2, 3, 2, 0,  16, 0, 3, 0, 28, 0, 4, 0, 44, 0, 1, 0, 0, 2, 65, 32, 1, 2, 0,
                            66, 2, 2, 1, 33, 0, 0, 0, 1, 0, 0, 1, 0, 0, 1, 1, 1, 1, 0, 1, 1, 1};

/* Every count at its limit: 256 template rules, 128 schema rules, 8 ending states. */
static uint8_t full[1560];

/* The longest file of long rules, 256 of two symbols; and one that is split to every limit, with 144 of two symbols and 56 of three. */
static uint8_t longest[4120], most_split[3336], out[UJTHANOR_LONGEST];

static uint64_t table[UJTHANOR_TABLE], deep[UJTHANOR_ROW], shut[UJTHANOR_ROW], row[UJTHANOR_ROW], number, images;
static int32_t depth;
static int refused; /* a check or split that is refused goes less deep */

static void check(const uint8_t *file, size_t len) {
    refused |= ujthanor_check(file, len, table, UJTHANOR_TABLE, UJTHANOR_BUDGET, &number, &images) != UJTHANOR_OK;
}

static void check_k(void) { check(K, sizeof K); }

static void check_full(void) { check(full, sizeof full); }

/* Sixteen starts and their ends, so that every place of a summary is used. */
static const uint8_t TAGS[32] = {[16] = 32, 32, 32, 32, 32, 32, 32, 32, 32, 32, 32, 32, 32, 32, 32, 32};

static void page(void) { ujthanor_page(full, sizeof full, TAGS, sizeof TAGS, &number); }

static void starts(void) { ujthanor_fragment(full, sizeof full, TAGS, 16, deep, UJTHANOR_ROW, &number); }

static void ends(void) { ujthanor_fragment(full, sizeof full, TAGS + 16, 16, shut, UJTHANOR_ROW, &number); }

static void join(void) { ujthanor_join(full, sizeof full, deep, UJTHANOR_ROW, shut, UJTHANOR_ROW, row, UJTHANOR_ROW, &number); }

static void net_depth(void) { ujthanor_net_depth(full, sizeof full, deep, UJTHANOR_ROW, &number, &depth); }

static void split_longest(void) { refused |= ujthanor_split(longest, sizeof longest, out, sizeof out, &number) != UJTHANOR_OK; }

static void split_most(void) { refused |= ujthanor_split(most_split, sizeof most_split, out, sizeof out, &number) != UJTHANOR_OK; }

static struct {
    const char *name;
    void (*call)(void);
    size_t used;
} calls[] = {{"check", check_k, 0}, {"check of the fullest file", check_full, 0}, {"page", page, 0}, {"fragment", starts, 0},
             {"fragment of ends", ends, 0}, {"join", join, 0}, {"net depth", net_depth, 0},
             {"split of the longest file", split_longest, 0}, {"split to every limit", split_most, 0}};

enum { CALLS = sizeof calls / sizeof *calls };

/* How far below this function's frame the call went. */
__attribute__((noinline)) static size_t used(void (*call)(void)) {
    unsigned char *top = __builtin_frame_address(0);
    for (volatile unsigned char *p = stack; p < top - OWN; p++) *p = PAINT;
    call();
    volatile unsigned char *low = stack;
    while (*low == PAINT) low++;
    return (size_t)(top - low);
}

static void *measured(void *none) {
    for (int i = 0; i < CALLS; i++) calls[i].used = used(calls[i].call);
    return none;
}

/* One rule of a file of long rules; gives the place behind it. */
static uint8_t *put_long(uint8_t *at, uint8_t left, uint8_t length, const uint8_t symbols[3]) {
    memset(at, 255, 14);
    at[0] = left;
    at[1] = length;
    memcpy(at + 2, symbols, length);
    return at + 14;
}

/* The contents for so many long rules, and the fullest file's schema behind them. */
static void put_frame(uint8_t *file, uint8_t nonterminals, unsigned rules) {
    const unsigned second = 16 + 14 * rules, third = second + 512;
    const unsigned contents[6] = {16, rules, second, 128, third, 8};
    const uint8_t head[4] = {32, nonterminals, 8, 0};
    memcpy(file, head, sizeof head);
    for (int i = 0; i < 6; i++) {
        file[4 + 2 * i] = (uint8_t)contents[i];
        file[5 + 2 * i] = (uint8_t)(contents[i] >> 8);
    }
    memcpy(file + second, full + 1040, 520);
}

/* Of the second file, each of 8 nonterminals has 18 short rules and then 7 long ones, which are written before them. */
static void fill_long(void) {
    uint8_t *at = longest + 16;
    for (int i = 0; i < 256; i++) at = put_long(at, (uint8_t)(i / 4), 2, (const uint8_t[]){(uint8_t)(i % 4), 127, 0});
    put_frame(longest, 64, 256);
    at = most_split + 16;
    for (uint8_t n = 0; n < 8; n++) {
        for (uint8_t i = 0; i < 18; i++) at = put_long(at, n, 2, (const uint8_t[]){64 + i / 3, i % 3, 0});
        for (uint8_t i = 0; i < 7; i++) at = put_long(at, n, 3, (const uint8_t[]){i, 32, n});
    }
    put_frame(most_split, 8, 200);
}

/* Four rules of a nonterminal. The start gives itself, two elements, and a start tag with the last behind it; the last gives itself, and
 * that tag's end, alone or behind one of two others; each other gives nothing, the next, an element, and itself twice. */
static uint8_t *put_rules(uint8_t *at, uint8_t n) {
    enum { FIRST = 65, LAST = 127 };
    const uint8_t own = 64 + n, next = own + 1 < LAST ? own + 1 : FIRST, name = n % 16;
    const uint8_t page[16] = {0, 1, 64, 255, 0, 2, 0, 32, 0, 2, 0, LAST, 0, 2, 1, 33};
    const uint8_t rest[16] = {n, 1, 32, 255, n, 1, own, 255, n, 2, FIRST, 32, n, 2, FIRST + 1, 32};
    const uint8_t other[16] = {n, 0, 255, 255, n, 1, next, 255, n, 2, name, 32 + name, n, 2, own, own};
    memcpy(at, n == 0 ? page : own == LAST ? rest : other, 16);
    return at + 16;
}

/* Four rules for each of 64 nonterminals; each of 8 states takes 16 names and leads to itself. */
static void fill(void) {
    const uint8_t head[16] = {32, 64, 8, 0, 16, 0, 0, 1, 16, 4, 128, 0, 16, 6, 8, 0};
    memcpy(full, head, sizeof head);
    uint8_t *at = full + sizeof head;
    for (uint8_t n = 0; n < 64; n++) at = put_rules(at, n);
    for (int i = 0; i < 128; i++) {
        const uint8_t state = (uint8_t)(i / 16), rule[4] = {state, i % 16, state, state};
        memcpy(at, rule, sizeof rule);
        at += sizeof rule;
    }
    for (uint8_t q = 0; q < 8; q++) *at++ = q;
}

int main(void) {
    fill();
    fill_long();
    pthread_attr_t attr;
    pthread_t thread;
    if (pthread_attr_init(&attr) != 0 || pthread_attr_setstack(&attr, stack, sizeof stack) != 0 ||
        pthread_create(&thread, &attr, measured, NULL) != 0 || pthread_join(thread, NULL) != 0) {
        printf("c_stack: no thread\n");
        return 1;
    }
    int wrong = refused;
    if (refused) printf("c_stack: a check or a split was refused\n");
    for (int i = 0; i < CALLS; i++) {
        printf("c_stack: %s: %zu bytes\n", calls[i].name, calls[i].used);
        wrong |= calls[i].used >= UJTHANOR_STACK;
    }
    return wrong;
}
