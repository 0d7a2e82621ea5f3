/* 01's worked lines from C: the grammar, a parse, the sets, then E4 to E6 with the rules. */
#include "../skydoublet.h"

#include <stdio.h>

enum { SETS = 8, RULES = 8, LINKS = 16 };

static uint8_t rules[SKYDOUBLET_RULES_FOR(RULES)];
static uint8_t cells[SKYDOUBLET_CELLS_FOR(SETS)];
static uint64_t words[SKYDOUBLET_WORDS_FOR(SETS)];
static uint16_t links[SKYDOUBLET_LINKS_FOR(LINKS)];

#define COUNT(a) (sizeof(a) / sizeof((a)[0]))
#define TABLE rules, COUNT(rules), cells, COUNT(cells), words, COUNT(words)

static void add(uint8_t left, const uint8_t *right, size_t len) {
    size_t number;
    uint8_t answer = skydoublet_add(TABLE, left, right, len, &number);
    printf("add: answer %u, rule %zu\n", answer, number);
}

static void parse(const uint8_t *line, size_t len) {
    size_t number;
    uint8_t answer = skydoublet_parse(TABLE, links, COUNT(links), LINKS, line, len, &number);
    size_t in_use = skydoublet_sets_in_use(rules, COUNT(rules), cells, COUNT(cells));
    printf("parse: answer %u, %zu links, %zu sets in use\n", answer, number, in_use);
}

static void list_rule(size_t r) {
    uint8_t state = skydoublet_rule_number(rules, COUNT(rules), r, 0);
    if (state == SKYDOUBLET_RULE_FREE) {
        return;
    }
    printf("rule %zu, %s:", r, state == SKYDOUBLET_RULE_CURRENT ? "current" : "withdrawn");
    printf(" %u >", skydoublet_rule_number(rules, COUNT(rules), r, 1));
    uint8_t len = skydoublet_rule_number(rules, COUNT(rules), r, 2);
    for (size_t place = 0; place < len; place++) {
        printf(" %u", skydoublet_rule_number(rules, COUNT(rules), r, 3 + place));
    }
    printf("\n");
}

static void list_set(size_t s) {
    uint8_t mark = skydoublet_mark(cells, COUNT(cells), s);
    if (mark == SKYDOUBLET_MARK_FREE) {
        return;
    }
    printf("set %zu, mark %u:", s, mark);
    for (size_t i = 0; (i = skydoublet_next_item(words, COUNT(words), s, i)) < SKYDOUBLET_NO_ITEM; i++) {
        printf(" %zu.%zu", i / 8, i % 8);
    }
    for (size_t x = 1; x < 128; x++) {
        size_t target = skydoublet_target(cells, COUNT(cells), s, x);
        if (target != 0) {
            printf(" %zu>%zu", x, target);
        }
    }
    for (size_t r = 0; (r = skydoublet_next_reduction(words, COUNT(words), s, r)) < SKYDOUBLET_NO_REDUCTION; r++) {
        printf(" R%zu", r);
    }
    printf("\n");
}

int main(void) {
    const uint8_t report[] = {65}, speed[] = {66}, more[] = {65, 4, 66}, through_water[] = {1, 3}, over_ground[] = {2, 3};
    size_t number;
    printf("new: answer %u\n", skydoublet_new(TABLE, SETS, RULES));
    add(SKYDOUBLET_START, report, COUNT(report));
    add(65, speed, COUNT(speed));
    add(65, more, COUNT(more));
    add(66, through_water, COUNT(through_water));
    add(66, over_ground, COUNT(over_ground));
    parse(through_water, COUNT(through_water));
    for (size_t s = 0; s < SETS; s++) {
        list_set(s);
    }
    printf("delete: answer %u", skydoublet_delete(TABLE, 66, over_ground, COUNT(over_ground), &number));
    printf(", rule %zu\n", number);
    for (size_t r = 0; r < RULES; r++) {
        list_rule(r);
    }
    parse(over_ground, COUNT(over_ground));
    printf("collect: answer %u\n", skydoublet_collect(TABLE));
    printf("restart: answer %u\n", skydoublet_restart(TABLE));
    parse(through_water, COUNT(through_water));
    rules[0] = 0;
    printf("formed: %d\n", skydoublet_formed(TABLE));
    parse(through_water, COUNT(through_water));
    return 0;
}
