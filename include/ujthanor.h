/* Ujthanor: six calls about pages that are made from templates.
 *
 *   ujthanor_check       is every page that a template set can produce valid under its schema?
 *   ujthanor_page        is this page valid?
 *   ujthanor_fragment    what is the summary of this fragment? (21 numbers, which a cache can keep)
 *   ujthanor_join        what is the summary of two fragments laid end to end?
 *   ujthanor_net_depth   how many more elements does a summarised fragment open than it closes?
 *   ujthanor_split       what is the ordinary template file of templates whose rules have up to 12 symbols?
 *
 * A page or fragment is a run of tags, one byte each: byte a is the start tag of element a, byte 32 + a its end tag. A page is valid when
 * its tags match, the schema derives it, and it has exactly one outermost element, as an XML document has. A template file holds a template
 * set and its schema in at most 1,560 bytes. docs/RULES.md has the rules: section 4 the layout of a template file, sections 6 to
 * 8 summaries, joining and rounds, section 9 the answers, section 13 long rules. examples/verdict.c shows every call.
 *
 * Link with libujthanor.a (`tools/archive`; x86-64). Every call ends, whatever the bytes are. No call allocates, prints, or keeps
 * anything from one call to the next.
 *
 * What a caller must see to. The library cannot test these points; where one is not kept, anything may happen.
 *
 *   Lengths.  A pointer with a length points to that many entries, aligned to their type, that may be read (`table`, `out` and the `row`
 *             of fragment and join: read and written). It may be null only where the length is 0; (NULL, 0) is answered as no bytes, no
 *             table or no row.
 *   Numbers.  `number`, `images` and `depth` each point to an object that may be written. They are written by every call that takes them,
 *             whatever it answers, also 9 and 17. A null pointer there is a crash: pass a variable also where you do not want the number.
 *   Overlap.  What a call writes (`table`, `out`, the `row` of fragment and join, `*number`, `*images`, `*depth`) shares no byte with
 *             anything else that the same call is lent. A file that lies inside the worktable, for example, is overwritten while it is
 *             read, and the check can then pass a set that is broken; and no file is split in its own place. Things that are only read
 *             may overlap: `left` and `right` may be one row.
 *   Threads.  During a call nobody else writes what the call is lent, and nobody else reads what it writes. Any number of threads may call
 *             at once, each with a worktable, row, output and numbers of its own; a file or page that all only read may be shared.
 *   Stack.    UJTHANOR_STACK bytes of the caller's stack are free. No function of the archive calls itself, so the need does not grow with
 *             what is lent. On a painted stack (tests/c_stack.c) the deepest call, a check, used 6,098 bytes, and a split 2,578; a
 *             check that was the first call of all used 9,048, since the dynamic linker has yet to look up memcpy and memset then, which are
 *             all that the archive calls outside itself.
 *
 * What is proved, and what is trusted. That each call answers as said here is proved of its source (crates/ujthanor_c, ujthanor, demands).
 * Trusted are the points above, that these declarations say what the archive exports, and the compiler that wrote the archive. */
#ifndef UJTHANOR_H
#define UJTHANOR_H

#include <stddef.h>
#include <stdint.h>

#ifdef __cplusplus
extern "C" {
#endif

/* Rises by one whenever a public layout changes: a summary's row, the worktable, the template file, or the numbers of the answers. Store it
 * with rows that are kept, and make those anew that were stored with another. A new call does not raise it, nor do the new answers that only
 * that call gives: whatever was there before still means the same.
 *
 * In layout 1 a row had no entry of counts. A caller built with it lends a table and a row that are now too short: they are answered with 9
 * and 17, or with 15 where the row is read, and never written past their end. Its stored rows must be made anew. */
#define UJTHANOR_LAYOUT 2

enum {
    UJTHANOR_TABLE = 5376,   /* entries of a worktable */
    UJTHANOR_ROW = 21,       /* entries of a summary's row */
    UJTHANOR_BUDGET = 257,   /* the largest budget; with it a check never answers 5 */
    UJTHANOR_LONGEST = 1560, /* bytes of the longest template file; an output of so many is never too short */
    UJTHANOR_STACK = 16384   /* bytes of stack that suffice for any call */
};

/* The answers. In brackets: what `*number` then is. */
enum ujthanor_answer {
    UJTHANOR_OK = 0,              /* check: passed [the round]; split: written [the file's bytes]; other calls: valid, summarised,
                                     joined, measured [0] */
    UJTHANOR_BROKEN_MISMATCH = 1, /* check: some page closes an element with another's end tag [the first round that meets it] */
    UJTHANOR_BROKEN_INVALID = 2,  /* check: some page is not valid [the first round that meets it] */
    UJTHANOR_SET_TOO_DEEP = 3,    /* check, undecided: some part leaves more than 16 tags unmatched [the round]: nine ends and eight
                                     starts do; a balanced part 20 deep by itself does not */
    UJTHANOR_CROWDED = 4,         /* check, undecided: more than 256 images [the round] */
    UJTHANOR_BUDGET_USED = 5,     /* check, undecided: nothing was met in so many rounds, and the set has not passed [the budget] */
    UJTHANOR_NO_PAGE = 6,         /* check: the set can produce no page at all [0] */
    UJTHANOR_BAD_FILE = 7,        /* any call: the template file (split: the file of long rules) is not sound [the place of its first
                                     fault] */
    UJTHANOR_BAD_BUDGET = 8,      /* check: the budget is not from 1 to 257 [0] */
    UJTHANOR_SHORT_TABLE = 9,     /* check: the worktable has fewer than 5,376 entries [0] */
    UJTHANOR_NOT_A_TAG = 10,      /* page, fragment: a byte that is no tag of the file's names [its place] */
    UJTHANOR_MISMATCH = 11,       /* page, fragment: an end tag that does not match its start tag [its place]; join: the same [0] */
    UJTHANOR_TOO_DEEP = 12,       /* page, fragment: the tag that leaves more than 16 unmatched [its place]; join: so many are left [0] */
    UJTHANOR_UNMATCHED = 13,      /* page: it ends with tags unmatched [0] */
    UJTHANOR_NOT_DERIVED = 14,    /* page: all its tags match, but the schema does not derive it, or it has not exactly one outermost
                                     element: none, or several side by side [0] */
    UJTHANOR_NO_SUMMARY = 15,     /* join, net depth: a lent row is no summary under the file: its tags, a relation, a count, or a place
                                     that it does not use [0] */
    UJTHANOR_TOO_MANY = 16,       /* split: there would be more than 64 nonterminals or more than 256 rules [0] */
    UJTHANOR_SHORT_ROW = 17,      /* fragment, join: the row to be written has fewer than 21 entries [0] */
    UJTHANOR_SHORT_OUTPUT = 17    /* split: the output has fewer bytes than the file to be written [0] */
};

/* Checks a template set against its schema, in rounds. Answers, in this order: 9, 8, 7, 6; then 1 to 4 by the first round that meets one of
 * them, the lowest where it meets several; 0 after a round that meets none and finds nothing new; 5 where the budget ends before. `*images`
 * is the number of images where the answer is 0, else 0.
 *
 * 0 means that every page the set can produce is valid, however deep it nests; 1 and 2 that it can produce one that is not; 3, 4 and 5
 * decide nothing.
 *
 * The worktable: after 0 the images' rows, ascending, then zeros up to entry 5,376; after 1 to 5 zeros up to entry 5,376; after 6 to 9 as
 * it was. Entries past 5,376 never change. It need not be cleared before. */
uint32_t ujthanor_check(const uint8_t *file, size_t file_len, uint64_t *table, size_t table_len, size_t budget, uint64_t *number,
                        uint64_t *images);

/* Reads a page. Answers, in this order: 7; 10, 11 or 12, whichever stands earliest; 13; 14; else 0.
 *
 * 0 means that the page is valid, and 10, 11, 13 and 14 that it is not. 12 leaves that open: a valid page gets 0 where it nests at most 16
 * deep; where it nests deeper it gets 12, and no other answer. */
uint32_t ujthanor_page(const uint8_t *file, size_t file_len, const uint8_t *page, size_t page_len, uint64_t *number);

/* Summarises a fragment into the first 21 entries of `row`. Answers, in this order: 17, and then the row is not written; 7; 10, 11 or 12,
 * whichever stands earliest; else 0. Refused with 7 or 10 to 12, the row is 21 zeros. Entries past the 21st never change. */
uint32_t ujthanor_fragment(const uint8_t *file, size_t file_len, const uint8_t *fragment, size_t fragment_len, uint64_t *row,
                           size_t row_len, uint64_t *number);

/* Joins the summaries of two fragments laid end to end into `row`, which is written as by ujthanor_fragment. Answers, in this order: 17, 7,
 * 15, 11, 12; else 0.
 *
 * `left` and `right` may hold anything: what has not exactly 21 entries, or is no summary under the file, is answered with 15. A row that
 * was made with another file may be a summary under this one too, but of nothing: keep rows together with their file. */
uint32_t ujthanor_join(const uint8_t *file, size_t file_len, const uint64_t *left, size_t left_len, const uint64_t *right,
                       size_t right_len, uint64_t *row, size_t row_len, uint64_t *number);

/* The net depth of a summary, starts minus ends, from -16 to 16, in `*depth`. Answers, in this order: 7, 15; else 0. The depth of a refusal
 * is 0. */
uint32_t ujthanor_net_depth(const uint8_t *file, size_t file_len, const uint64_t *row, size_t row_len, uint64_t *number,
                            int32_t *depth);

/* Writes the ordinary template file of a file of long rules: one that is a template file but for its template rules, which have 14 bytes
 * (left side, length 0 to 12, twelve symbols, unused ones 255). Answers, in this order: 7, 16, 17; else 0, and `*number` is how many bytes
 * were written, at most UJTHANOR_LONGEST.
 *
 * A rule of more than two symbols becomes one of its first symbol and a new nonterminal for the rest, which is split in the same way; every
 * old nonterminal keeps its number and derives the strings that it derived before. Trees may be higher, so the rounds of a check are those
 * of the written file. 7, 16 and 17 change no byte of `out`; bytes past the written file never change. */
uint32_t ujthanor_split(const uint8_t *file, size_t file_len, uint8_t *out, size_t out_len, uint64_t *number);

#ifdef __cplusplus
}
#endif

#endif
