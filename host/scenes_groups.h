/* Memberships that are held beside a scene table, for hosts in C that have no group cluster: the calls of libhost_groups.a, which
 * `bash prove host_groups` builds. A host links libhost.a besides, since a table is made by its calls; libhost_fields.a only for its calls.
 *
 * A membership is a fabric, an endpoint and a group. They are a head, `held`, which goes in by value and comes back in the answers of the calls
 * that may change it, and an array of words that the host owns and lends:
 *
 *     words    at least 256           a word for each membership, the first `held` of them: the key word of its group, with scene 0
 *
 * The commands here take no membership: they ask the ones that are held. Otherwise each is the call of scenes.h of its name, with its answers,
 * and never 2. The calls that change scenes and memberships together are leaving, a fabric's removal and a factory reset: a host that holds
 * memberships makes these, and not the ones of scenes.h. All other calls of scenes.h it makes as ever: a startup, a notice, a load and a save
 * leave the memberships alone, and an image does not have them.
 *
 * `struct scenes_node` holds a table and the memberships, and there is a function over it for each call, which keeps the heads:
 *
 *     static uint64_t words[SCENES_MAX_MEMBERSHIPS];
 *     struct scenes_node node = scenes_node_new(scenes_table_new(16, keys, times, fields, records), words);
 *     struct scenes_groups_outcome joined = scenes_node_join(&node, group);
 *     struct scenes_stored stored = scenes_node_store(&node, key, captured, captured_len);
 *     if (stored.save)
 *         ..
 *
 * Memberships are not sound, and every call that is lent them answers 6 before anything else and changes nothing, if more than 256 are held, if
 * the array has fewer than 256 words, or if one of the words is of fabric 0, has a scene, or is 2^48 or more. What scenes.h asks of pointers
 * and heads is asked here too.
 */
#ifndef SCENES_GROUPS_H
#define SCENES_GROUPS_H

#include "scenes.h"

#ifdef __cplusplus
extern "C" {
#endif

#define SCENES_MAX_MEMBERSHIPS 256 /* the most memberships, and how many words the array has at least */

/* The head: how many are held. */
struct scenes_groups_state {
    size_t held;
};

/* What a join answers. A refusal has the head as it came. There is no save mark: an image does not have memberships. */
struct scenes_groups_outcome {
    uint8_t status;
    struct scenes_groups_state state;
};

/* Whether a membership is held. A refusal has false. */
struct scenes_group_read {
    uint8_t status;
    bool held;
};

/* What a call answers that may change scenes and memberships. `save`: the host has to save the table; it says nothing of the memberships.
 * A refusal has false, and both heads as they came. */
struct scenes_both_outcome {
    struct scenes_state state;
    struct scenes_groups_state groups;
    uint8_t status;
    bool save;
};

/* A table, the head of the memberships and their array of SCENES_MAX_MEMBERSHIPS words, for the functions at the end. */
struct scenes_node {
    struct scenes_table table;
    struct scenes_groups_state groups;
    uint64_t *words;
};

/* The layouts that the library was compiled for. host/rust tests the same numbers. */
SCENES_ASSERT(groups_state, sizeof(struct scenes_groups_state) == 8);
SCENES_ASSERT(groups_outcome, sizeof(struct scenes_groups_outcome) == 16 && offsetof(struct scenes_groups_outcome, state) == 8);
SCENES_ASSERT(group_read, sizeof(struct scenes_group_read) == 2 && offsetof(struct scenes_group_read, held) == 1);
SCENES_ASSERT(both_outcome, sizeof(struct scenes_both_outcome) == 48 && offsetof(struct scenes_both_outcome, groups) == 32 &&
                                offsetof(struct scenes_both_outcome, status) == 40 && offsetof(struct scenes_both_outcome, save) == 41);

/* ---- The calls of libhost_groups.a */

/* The memberships: to be read only, and to be written. They stand behind the table's head and arrays, where a call takes a table. */
#define SCENES_GROUPS_READ struct scenes_groups_state groups, const uint64_t *SCENES_RESTRICT words, size_t words_len
#define SCENES_GROUPS_WRITE struct scenes_groups_state groups, uint64_t *SCENES_RESTRICT words, size_t words_len

/* The head of no memberships. */
SCENES_KEEP struct scenes_groups_state scenes_groups_new(void);

/* Whether the memberships are sound: if not, the other calls answer 6. A host asks it of words that it has kept itself. */
SCENES_KEEP bool scenes_groups_is_sound(SCENES_GROUPS_READ) SCENES_NONNULL;

/* Joins a group: the membership stands behind the others. One that is held answers 0, and nothing changes. Answers 6, 1, 0x87 (group 0),
 * 12 (new, and all 256 are taken), 0. */
SCENES_KEEP struct scenes_groups_outcome scenes_join(SCENES_GROUPS_WRITE, struct scenes_group_key key) SCENES_NONNULL;

/* Whether a membership is held: no for group 0. Answers 6, 1, 0. */
SCENES_KEEP struct scenes_group_read scenes_is_member(SCENES_GROUPS_READ, struct scenes_group_key key) SCENES_NONNULL;

/* Leaves a group: the membership goes, and its scenes and records fare as by scenes_remove_all, whose save mark it has.
 * Answers 6, 1, 0x87 (group 0), 0x8B (no such membership), 0. */
SCENES_KEEP struct scenes_both_outcome scenes_leave(SCENES_WRITE, SCENES_GROUPS_WRITE, struct scenes_group_key key) SCENES_NONNULL;

/* A fabric left: its scenes and records go, as by scenes_remove_fabric, and its memberships, which by themselves neither step the data version
 * nor set the save mark. Answers 6, 1, 0. */
SCENES_KEEP struct scenes_both_outcome scenes_remove_fabric_and_groups(SCENES_WRITE, SCENES_GROUPS_WRITE, uint8_t fabric) SCENES_NONNULL;

/* A factory reset, as scenes_factory_reset, after which no membership is held either. Answers 6, 0. */
SCENES_KEEP struct scenes_both_outcome scenes_factory_reset_and_groups(SCENES_READ, SCENES_GROUPS_READ) SCENES_NONNULL;

/* scenes_add with the membership that is held. Answers 6, 1, 0x87, 0x85, 0x85 or 7 (pairs), 0x89, 0. */
SCENES_KEEP struct scenes_outcome scenes_add_asking(SCENES_WRITE, SCENES_GROUPS_READ, struct scenes_key key, uint32_t time,
                                                    const uint8_t *SCENES_RESTRICT pairs, size_t pairs_len,
                                                    const uint8_t *SCENES_RESTRICT ext, size_t ext_len) SCENES_NONNULL;

/* scenes_add_read with the membership that is held. Answers 6, 1, 0x87, 0x85, 11, 0x85 or 7 (pairs), 0x89, 0. */
SCENES_KEEP struct scenes_outcome scenes_add_read_asking(SCENES_WRITE, SCENES_GROUPS_READ, struct scenes_key key, uint32_t time,
                                                         const uint8_t *SCENES_RESTRICT pairs, size_t pairs_len,
                                                         const uint8_t *SCENES_RESTRICT ext, size_t ext_len) SCENES_NONNULL;

/* scenes_store with the membership that is held. Answers 6, 1, 0x87, 0x85, 3, 0x89, 0. */
SCENES_KEEP struct scenes_stored scenes_store_asking(SCENES_WRITE, SCENES_GROUPS_READ, struct scenes_key key,
                                                     const uint8_t *SCENES_RESTRICT captured, size_t captured_len) SCENES_NONNULL;

/* scenes_view with the membership that is held. Answers 6, 1, 0x87, 0x85, 0x8B, 0. */
SCENES_KEEP struct scenes_scene_read scenes_view_asking(SCENES_READ, SCENES_GROUPS_READ, struct scenes_key key) SCENES_NONNULL;

/* scenes_recall_lookup with the membership that is held. Answers as a view. */
SCENES_KEEP struct scenes_scene_read scenes_recall_lookup_asking(SCENES_READ, SCENES_GROUPS_READ, struct scenes_key key, uint8_t given,
                                                                 uint32_t time) SCENES_NONNULL;

/* scenes_recall with the membership that is held. Answers 6, 1, 0x87, 0x85, 0x8B, 4, 0. */
SCENES_KEEP struct scenes_outcome scenes_recall_asking(SCENES_WRITE_RECORDS, SCENES_GROUPS_READ, struct scenes_key key,
                                                       uint8_t applied) SCENES_NONNULL;

/* scenes_remove with the membership that is held. Answers 6, 1, 0x87, 0x85, 0x8B, 0. */
SCENES_KEEP struct scenes_outcome scenes_remove_asking(SCENES_WRITE, SCENES_GROUPS_READ, struct scenes_key key) SCENES_NONNULL;

/* scenes_remove_all with the membership that is held, which stays. Answers 6, 1, 0x85, 0. */
SCENES_KEEP struct scenes_outcome scenes_remove_all_asking(SCENES_WRITE, SCENES_GROUPS_READ, struct scenes_group_key key) SCENES_NONNULL;

/* scenes_copy with both memberships that are held. Answers 6, 1, 0x87, 0x85 (source, then target), 0x89, 0x8B, 0. */
SCENES_KEEP struct scenes_outcome scenes_copy_asking(SCENES_WRITE, SCENES_GROUPS_READ, struct scenes_copy_request request) SCENES_NONNULL;

/* scenes_get_membership with the membership that is held. Answers 6, 1, 0x85, 8, 0. */
SCENES_KEEP struct scenes_list_read scenes_get_membership_asking(SCENES_READ, SCENES_GROUPS_READ, uint8_t *SCENES_RESTRICT ids,
                                                                 size_t ids_len, struct scenes_group_key key) SCENES_NONNULL;

/* ---- Words */

/* The word of a membership. */
static inline uint64_t scenes_group_word(struct scenes_group_key key) {
    return (uint64_t)key.fabric << SCENES_FABRIC_SHIFT | (uint64_t)key.endpoint << SCENES_ENDPOINT_SHIFT |
           (uint64_t)key.group << SCENES_GROUP_SHIFT;
}

/* The parts of a membership's word. */
static inline struct scenes_group_key scenes_group_of_word(uint64_t word) {
    struct scenes_group_key key;
    key.fabric = (uint8_t)(word >> SCENES_FABRIC_SHIFT);
    key.endpoint = (uint16_t)(word >> SCENES_ENDPOINT_SHIFT);
    key.group = (uint16_t)(word >> SCENES_GROUP_SHIFT);
    return key;
}

/* ---- The calls over a node that holds its heads: each is the call of its name above, and keeps the heads that come back. What asks no
 * membership is called over its table, as scenes_table_read_info(&node.table, ..) */

#define SCENES_HELD(n) (n)->groups, (n)->words, SCENES_MAX_MEMBERSHIPS

static inline struct scenes_both_outcome scenes_node_keep(struct scenes_node *node, struct scenes_both_outcome outcome) {
    node->table.state = outcome.state;
    node->groups = outcome.groups;
    return outcome;
}

/* A table, as scenes_table_new makes one, and no memberships, in the host's array of SCENES_MAX_MEMBERSHIPS words. */
SCENES_KEEP SCENES_NONNULL static inline struct scenes_node scenes_node_new(struct scenes_table table, uint64_t *words) {
    struct scenes_node node;
    node.table = table;
    node.groups = scenes_groups_new();
    node.words = words;
    return node;
}

/* Whether the table and the memberships are sound. */
SCENES_KEEP static inline bool scenes_node_is_sound(const struct scenes_node *n) {
    return scenes_table_is_sound(&n->table) && scenes_groups_is_sound(SCENES_HELD(n));
}

SCENES_KEEP static inline struct scenes_groups_outcome scenes_node_join(struct scenes_node *n, struct scenes_group_key key) {
    struct scenes_groups_outcome joined = scenes_join(SCENES_HELD(n), key);
    n->groups = joined.state;
    return joined;
}

SCENES_KEEP static inline struct scenes_group_read scenes_node_is_member(const struct scenes_node *n, struct scenes_group_key key) {
    return scenes_is_member(SCENES_HELD(n), key);
}

SCENES_KEEP static inline struct scenes_both_outcome scenes_node_leave(struct scenes_node *n, struct scenes_group_key key) {
    return scenes_node_keep(n, scenes_leave(SCENES_LENT(&n->table), SCENES_HELD(n), key));
}

SCENES_KEEP static inline struct scenes_both_outcome scenes_node_remove_fabric(struct scenes_node *n, uint8_t fabric) {
    return scenes_node_keep(n, scenes_remove_fabric_and_groups(SCENES_LENT(&n->table), SCENES_HELD(n), fabric));
}

SCENES_KEEP static inline struct scenes_both_outcome scenes_node_factory_reset(struct scenes_node *n) {
    return scenes_node_keep(n, scenes_factory_reset_and_groups(SCENES_LENT(&n->table), SCENES_HELD(n)));
}

SCENES_KEEP static inline struct scenes_outcome scenes_node_add(struct scenes_node *n, struct scenes_key key, uint32_t time,
                                                                const uint8_t *pairs, size_t pairs_len, const uint8_t *ext,
                                                                size_t ext_len) {
    return scenes_table_keep(&n->table, scenes_add_asking(SCENES_LENT(&n->table), SCENES_HELD(n), key, time,
                                                          scenes_bytes_or_none(pairs, pairs_len), pairs_len,
                                                          scenes_bytes_or_none(ext, ext_len), ext_len));
}

SCENES_KEEP static inline struct scenes_outcome scenes_node_add_read(struct scenes_node *n, struct scenes_key key, uint32_t time,
                                                                     const uint8_t *pairs, size_t pairs_len, const uint8_t *ext,
                                                                     size_t ext_len) {
    return scenes_table_keep(&n->table, scenes_add_read_asking(SCENES_LENT(&n->table), SCENES_HELD(n), key, time,
                                                               scenes_bytes_or_none(pairs, pairs_len), pairs_len,
                                                               scenes_bytes_or_none(ext, ext_len), ext_len));
}

SCENES_KEEP static inline struct scenes_stored scenes_node_store(struct scenes_node *n, struct scenes_key key, const uint8_t *captured,
                                                                 size_t captured_len) {
    struct scenes_stored stored = scenes_store_asking(SCENES_LENT(&n->table), SCENES_HELD(n), key,
                                                      scenes_bytes_or_none(captured, captured_len), captured_len);
    n->table.state = stored.state;
    return stored;
}

/* The field bytes that these two find are scenes_table_found(&node.table, read). */
SCENES_KEEP static inline struct scenes_scene_read scenes_node_view(const struct scenes_node *n, struct scenes_key key) {
    return scenes_view_asking(SCENES_LENT(&n->table), SCENES_HELD(n), key);
}

SCENES_KEEP static inline struct scenes_scene_read scenes_node_recall_lookup(const struct scenes_node *n, struct scenes_key key,
                                                                             uint8_t given, uint32_t time) {
    return scenes_recall_lookup_asking(SCENES_LENT(&n->table), SCENES_HELD(n), key, given, time);
}

SCENES_KEEP static inline struct scenes_outcome scenes_node_recall(struct scenes_node *n, struct scenes_key key, uint8_t applied) {
    return scenes_table_keep(&n->table, scenes_recall_asking(SCENES_LENT(&n->table), SCENES_HELD(n), key, applied));
}

SCENES_KEEP static inline struct scenes_outcome scenes_node_remove(struct scenes_node *n, struct scenes_key key) {
    return scenes_table_keep(&n->table, scenes_remove_asking(SCENES_LENT(&n->table), SCENES_HELD(n), key));
}

SCENES_KEEP static inline struct scenes_outcome scenes_node_remove_all(struct scenes_node *n, struct scenes_group_key key) {
    return scenes_table_keep(&n->table, scenes_remove_all_asking(SCENES_LENT(&n->table), SCENES_HELD(n), key));
}

SCENES_KEEP static inline struct scenes_outcome scenes_node_copy(struct scenes_node *n, struct scenes_copy_request request) {
    return scenes_table_keep(&n->table, scenes_copy_asking(SCENES_LENT(&n->table), SCENES_HELD(n), request));
}

SCENES_KEEP static inline struct scenes_list_read scenes_node_get_membership(const struct scenes_node *n, uint8_t *ids, size_t ids_len,
                                                                             struct scenes_group_key key) {
    uint8_t none = 0;
    return scenes_get_membership_asking(SCENES_LENT(&n->table), SCENES_HELD(n), ids_len == 0 ? &none : ids, ids_len, key);
}

#ifdef __cplusplus
}
#endif

#endif
