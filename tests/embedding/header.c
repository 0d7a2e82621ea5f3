/* The header by itself, as C11 and as C++17: it needs no other, may come twice, and has each name at its number. */
#include "../../embedding/skydoublet.h"
#include "../../embedding/skydoublet.h"

#include <assert.h>

static_assert(SKYDOUBLET_RULE_FREE == 0 && SKYDOUBLET_RULE_CURRENT == 1 && SKYDOUBLET_RULE_WITHDRAWN == 2, "the states of a rule");

static_assert(SKYDOUBLET_MARK_FREE == 0 && SKYDOUBLET_MARK_UNEXPANDED == 1 && SKYDOUBLET_MARK_EXPANDED == 2 &&
                  SKYDOUBLET_MARK_ACCEPTING == 3,
              "the marks of a set");

static_assert(SKYDOUBLET_NO_ITEM == 8 * 128 && SKYDOUBLET_NO_REDUCTION == 128, "one more than the last item, the last rule");

static_assert(SKYDOUBLET_RULES_FOR(128) == 1282 && SKYDOUBLET_CELLS_FOR(255) == 32640 && SKYDOUBLET_WORDS_FOR(255) == 4590 &&
                  SKYDOUBLET_LINKS_FOR(4096) == 24582,
              "the longest slices");

#ifdef __cplusplus
/* An error if the header declared it as a function of C++. */
extern "C" uint8_t skydoublet_mark(const uint8_t *cells, size_t cells_len, size_t s);
#endif
