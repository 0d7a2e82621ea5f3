/* Skydoublet's calls for C and C++: a grammar table in memory that the caller lends, changed rule by rule, and lines parsed over it.
 *
 * The library is target/staticlib/libskydoublet.a, made by `embedding/library` from proved code, for x86-64 Linux. It
 * allocates nothing, keeps nothing between calls and takes one function from outside, C's memset. "01" is docs/RULES.md, which
 * says what each call does.
 *
 * Memory. Each slice is lent as a pointer and the count of its elements. A table is three slices, and Parse takes a link buffer:
 *
 *   rules  2 + 10 R elements   sizes S and R; then for each rule its state, its left symbol, its length and seven right places
 *   cells  128 S elements      for each set its mark; then its target on each of the symbols 1 to 127, 0 for none
 *   words  18 S elements       for each set the 16 words of its kernel, then 2 words with a bit for each rule that it reduces
 *   links  6 (L + 1) elements  work space; zero after every parse that got past its checks
 *
 * for S sets (1 to 255), R places for rules (1 to 128) and a pool of L links (0 to 4096). Longer slices are good; elements
 * beyond these counts are never touched.
 *
 * Anything may stand in the slices before a call, and nothing has to be zeroed. skydoublet_new writes every element of a table
 * and looks at none. Add, Delete, Collect, Restart and Parse test first whether the slices hold a table in form, and answer
 * SKYDOUBLET_BAD_TABLE, with every slice untouched, if they don't. Parse doesn't mind what its link buffer holds. The calls under
 * "Reading" test no form.
 *
 * The caller keeps three things that C can't check: a pointer is valid for its count (any non-null, aligned pointer where the
 * count is 0), the slices that one call may write overlap with no other argument, and no other thread uses them meanwhile. */
#ifndef SKYDOUBLET_H
#define SKYDOUBLET_H

#include <stdbool.h>
#include <stddef.h>
#include <stdint.h>

#ifdef __cplusplus
extern "C" {
#endif

/* The version of this header, and as one number to compare with: 100 for 0.1.0. */
#define SKYDOUBLET_VERSION_MAJOR 0
#define SKYDOUBLET_VERSION_MINOR 1
#define SKYDOUBLET_VERSION_PATCH 0
#define SKYDOUBLET_VERSION (10000 * SKYDOUBLET_VERSION_MAJOR + 100 * SKYDOUBLET_VERSION_MINOR + SKYDOUBLET_VERSION_PATCH)

/* The counts above as constant expressions, for pools that are arrays. */
#define SKYDOUBLET_RULES_FOR(places) (2 + 10 * (places))
#define SKYDOUBLET_CELLS_FOR(sets) (128 * (sets))
#define SKYDOUBLET_WORDS_FOR(sets) (18 * (sets))
#define SKYDOUBLET_LINKS_FOR(pool) (6 * ((pool) + 1))

/* START, whose rules say what a line is. Terminals are 1 to 63, the other non-terminals 65 to 127. */
#define SKYDOUBLET_START 64

/* The answers, by 01's numbers. A refusal from 10 to 19 leaves everything as it was. */
enum skydoublet_answer {
    SKYDOUBLET_DONE = 0,
    SKYDOUBLET_ACCEPT = 1,      /* Parse: the line is one of the grammar's */
    SKYDOUBLET_REJECT = 2,      /* Parse: it is not */
    SKYDOUBLET_BAD_POOL = 10,   /* New's sizes or Parse's link size out of range, or the slices too short for them */
    SKYDOUBLET_BAD_TABLE = 11,  /* no table in form, or slices shorter than its sizes need */
    SKYDOUBLET_BAD_LEFT = 12,   /* left symbol not 64 to 127 */
    SKYDOUBLET_LONG_RIGHT = 13, /* more than 7 right symbols */
    SKYDOUBLET_BAD_SYMBOL = 14, /* a right symbol not 1 to 63 or 65 to 127 */
    SKYDOUBLET_THERE = 15,      /* Add: the rule is current */
    SKYDOUBLET_NOT_THERE = 16,  /* Delete: the rule is not current */
    SKYDOUBLET_NO_RULES = 17,   /* Add: current rules fill the pool */
    SKYDOUBLET_LONG_LINE = 18,  /* more than 255 tokens */
    SKYDOUBLET_BAD_TOKEN = 19,  /* a token not 1 to 63 */
    SKYDOUBLET_NO_SETS = 20,    /* Parse: too few sets; expansions made and a collection stay */
    SKYDOUBLET_NO_LINKS = 21    /* Parse: too few links; expansions and collections made stay */
};

/* The states of a rule's number. */
enum skydoublet_rule_state {
    SKYDOUBLET_RULE_FREE = 0,
    SKYDOUBLET_RULE_CURRENT = 1,
    SKYDOUBLET_RULE_WITHDRAWN = 2 /* its number is kept until a collection */
};

/* The marks of a set. */
enum skydoublet_set_mark {
    SKYDOUBLET_MARK_FREE = 0,
    SKYDOUBLET_MARK_UNEXPANDED = 1, /* kernel only */
    SKYDOUBLET_MARK_EXPANDED = 2,
    SKYDOUBLET_MARK_ACCEPTING = 3 /* expanded, with the accept mark */
};

/* What the walks answer at their end. */
#define SKYDOUBLET_NO_ITEM 1024
#define SKYDOUBLET_NO_REDUCTION 128

/* How many elements each slice needs, 0 for a size that New or Parse would refuse. */
size_t skydoublet_rules_for(size_t places);
size_t skydoublet_cells_for(size_t sets);
size_t skydoublet_words_for(size_t sets);
size_t skydoublet_links_for(size_t pool);

/* New: no rules, set 0 with an empty kernel, unexpanded. Answers DONE or BAD_POOL. */
uint8_t skydoublet_new(uint8_t *rules, size_t rules_len, uint8_t *cells, size_t cells_len, uint64_t *words, size_t words_len,
                       size_t sets, size_t places);

/* Add: the rule left -> right[0] .. right[right_len - 1]. Answers DONE, BAD_TABLE, BAD_LEFT, LONG_RIGHT, BAD_SYMBOL, THERE or
 * NO_RULES, checked in this order. *number becomes the rule's number, 0 on a refusal. */
uint8_t skydoublet_add(uint8_t *rules, size_t rules_len, uint8_t *cells, size_t cells_len, uint64_t *words, size_t words_len,
                       uint8_t left, const uint8_t *right, size_t right_len, size_t *number);

/* Delete: the rule becomes withdrawn. Answers DONE, BAD_TABLE, BAD_LEFT, LONG_RIGHT, BAD_SYMBOL or NOT_THERE, in this order.
 * *number becomes the rule's number, 0 on a refusal. */
uint8_t skydoublet_delete(uint8_t *rules, size_t rules_len, uint8_t *cells, size_t cells_len, uint64_t *words, size_t words_len,
                          uint8_t left, const uint8_t *right, size_t right_len, size_t *number);

/* Collect: frees the sets that set 0 doesn't reach, and the withdrawn rules' numbers. Answers DONE or BAD_TABLE. */
uint8_t skydoublet_collect(uint8_t *rules, size_t rules_len, uint8_t *cells, size_t cells_len, uint64_t *words, size_t words_len);

/* Restart: set 0 becomes unexpanded, then as Collect. Answers DONE or BAD_TABLE. */
uint8_t skydoublet_restart(uint8_t *rules, size_t rules_len, uint8_t *cells, size_t cells_len, uint64_t *words, size_t words_len);

/* Parse: whether START derives the line. Expands the table where the line needs it. Answers ACCEPT, REJECT, BAD_TABLE, BAD_POOL
 * (the pool of links), LONG_LINE, BAD_TOKEN, NO_SETS or NO_LINKS. *number becomes the number of links in the graph at the end, 0
 * on a refusal. Uses some 27 kB of stack. */
uint8_t skydoublet_parse(uint8_t *rules, size_t rules_len, uint8_t *cells, size_t cells_len, uint64_t *words, size_t words_len,
                         uint16_t *links, size_t links_len, size_t pool, const uint8_t *line, size_t line_len, size_t *number);

/* Whether the slices hold a table in form: exactly then no call answers BAD_TABLE. */
bool skydoublet_formed(const uint8_t *rules, size_t rules_len, const uint8_t *cells, size_t cells_len, const uint64_t *words,
                       size_t words_len);

/* Reading. These are safe on any numbers, but test no form: they tell what stands there, whether or not it is a table. */

/* Number k (0 to 9) of rule r: its state, left symbol, length, seven right places. 0 where the slice has no such number. */
uint8_t skydoublet_rule_number(const uint8_t *rules, size_t rules_len, size_t r, size_t k);

/* How many sets are in use, 0 where the slices are too short. */
size_t skydoublet_sets_in_use(const uint8_t *rules, size_t rules_len, const uint8_t *cells, size_t cells_len);

/* The mark of set s, SKYDOUBLET_MARK_FREE where the slice has no such set. */
uint8_t skydoublet_mark(const uint8_t *cells, size_t cells_len, size_t s);

/* The target of set s on symbol x, 0 for none, and where the slice has no such set or x is not 1 to 127. */
size_t skydoublet_target(const uint8_t *cells, size_t cells_len, size_t s, size_t x);

/* The lowest item of set s's kernel not below `from`: 8 r + d is rule r with dot d; SKYDOUBLET_NO_ITEM where there is none, or no
 * such set. A walk asks from 0 and then from the answer + 1. */
size_t skydoublet_next_item(const uint64_t *words, size_t words_len, size_t s, size_t from);

/* The lowest rule number that set s reduces, not below `from`; SKYDOUBLET_NO_REDUCTION where there is none, or no such set. */
size_t skydoublet_next_reduction(const uint64_t *words, size_t words_len, size_t s, size_t from);

#ifdef __cplusplus
}
#endif

#endif
