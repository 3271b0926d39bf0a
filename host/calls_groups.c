/* Every call of scenes_groups.h, with arguments that would be noticed at another place, and every inline function: nothing else checks the
 * header's declarations. It is C and C++. */
#include "scenes_groups.h"

#include "expect.h"

#include <string.h>

enum { N = 16, MANY = SCENES_MAX_MEMBERSHIPS };

static uint64_t keys[N], records[N], words[MANY];
static uint32_t times[N];
static uint8_t fields[SCENES_STRIDE * N];
static struct scenes_node node;

static const struct scenes_key first = {0x12, 0x3456, 0x789A, 0xBC};
static const struct scenes_key second = {0x34, 0x5678, 0x9ABC, 0xDE};
static const struct scenes_group_key first_group = {0x12, 0x3456, 0x789A};
static const struct scenes_group_key second_group = {0x34, 0x5678, 0x9ABC};
static const struct scenes_group_key target_group = {0x12, 0x3456, 0xFEDC};

/* A membership of a fabric on endpoint 1. */
static struct scenes_group_key member(uint8_t fabric, uint16_t group) {
    struct scenes_group_key key = {fabric, 1, group};
    return key;
}

/* All that a call may change. */
struct kept {
    struct scenes_state state;
    struct scenes_groups_state groups;
    uint64_t keys[N], records[N], words[MANY];
    uint32_t times[N];
    uint8_t fields[SCENES_STRIDE * N];
};

static void keep(struct kept *kept) {
    kept->state = node.table.state;
    kept->groups = node.groups;
    memcpy(kept->keys, keys, sizeof keys);
    memcpy(kept->records, records, sizeof records);
    memcpy(kept->words, words, sizeof words);
    memcpy(kept->times, times, sizeof times);
    memcpy(kept->fields, fields, sizeof fields);
}

static bool as_it_was(const struct kept *kept) {
    return scenes_state_equal(kept->state, node.table.state) && kept->groups.held == node.groups.held &&
           memcmp(kept->keys, keys, sizeof keys) == 0 && memcmp(kept->records, records, sizeof records) == 0 &&
           memcmp(kept->words, words, sizeof words) == 0 && memcmp(kept->times, times, sizeof times) == 0 &&
           memcmp(kept->fields, fields, sizeof fields) == 0;
}

static void fresh(void) {
    node = scenes_node_new(scenes_table_new(N, keys, times, fields, records), words);
    EXPECT(node.groups.held == 0 && node.words == words && node.table.state.size == N && scenes_node_is_sound(&node));
}

/* Joins, and the yes or no: each refusal in its order. */
static void joins(void) {
    fresh();
    struct scenes_group_read read = scenes_node_is_member(&node, first_group);
    EXPECT(read.status == SCENES_SUCCESS && !read.held);
    struct scenes_groups_outcome joined = scenes_node_join(&node, first_group);
    EXPECT(joined.status == SCENES_SUCCESS && joined.state.held == 1 && node.groups.held == 1 && words[0] == 0x123456789A00);
    EXPECT(scenes_node_join(&node, second_group).status == SCENES_SUCCESS && node.groups.held == 2 && words[1] == 0x3456789ABC00);
    struct kept before;
    keep(&before);
    joined = scenes_node_join(&node, first_group);
    EXPECT(joined.status == SCENES_SUCCESS && joined.state.held == 2 && as_it_was(&before));
    EXPECT(scenes_node_join(&node, member(0, 0)).status == SCENES_NO_FABRIC);
    EXPECT(scenes_node_join(&node, member(1, 0)).status == SCENES_CONSTRAINT_ERROR);
    EXPECT(scenes_node_leave(&node, member(0, 0)).status == SCENES_NO_FABRIC);
    EXPECT(scenes_node_leave(&node, member(1, 0)).status == SCENES_CONSTRAINT_ERROR);
    EXPECT(scenes_node_leave(&node, member(1, 1)).status == SCENES_NOT_FOUND);
    read = scenes_node_is_member(&node, member(0, 1));
    EXPECT(read.status == SCENES_NO_FABRIC && !read.held);
    read = scenes_node_is_member(&node, first_group);
    EXPECT(read.status == SCENES_SUCCESS && read.held);
    /* another fabric, endpoint or group is another membership */
    EXPECT(!scenes_node_is_member(&node, target_group).held && !scenes_node_is_member(&node, member(0x12, 0x789A)).held);
    EXPECT(!scenes_node_is_member(&node, member(0x34, 0x9ABC)).held && as_it_was(&before));
}

/* Commands that ask: the group that is held is a yes, any other a no, and group 0 needs none. */
static void commands(void) {
    static const uint8_t pairs[] = {SCENES_PAIR_SCENABLE, SCENES_PAIR_CLUSTER_UNKNOWN}, ext[] = {9, 8, 7}, captured[] = {1, 2, 3, 4};
    fresh();
    EXPECT(scenes_node_add(&node, first, 1234567, pairs, 2, ext, 3).status == SCENES_INVALID_COMMAND);
    EXPECT(scenes_node_store(&node, second, captured, 4).status == SCENES_INVALID_COMMAND && node.table.state.entries == 0);
    EXPECT(scenes_node_join(&node, first_group).status == SCENES_SUCCESS && scenes_node_join(&node, second_group).status == SCENES_SUCCESS);
    EXPECT(scenes_node_add(&node, first, SCENES_MAX_TIME + 1, pairs, 2, ext, 3).status == SCENES_CONSTRAINT_ERROR);
    EXPECT(scenes_node_add(&node, first, 0, ext, 3, pairs, 2).status == SCENES_BAD_PAIR);
    struct scenes_outcome added = scenes_node_add(&node, first, 1234567, pairs, 2, ext, 3);
    EXPECT(added.status == SCENES_SUCCESS && added.save && scenes_state_equal(added.state, node.table.state));
    EXPECT(keys[0] == 0x123456789ABC && times[0] == 1234567 && fields[0] == 3 && memcmp(fields + 1, ext, 3) == 0);
    struct scenes_stored stored = scenes_node_store(&node, second, captured, 4);
    EXPECT(stored.save && stored.compared == 1 && keys[1] == 0x3456789ABCDE && node.table.state.recorded == 1);
    EXPECT(scenes_node_recall(&node, first, SCENES_APPLIED_NO).status == SCENES_APPLY_FAILED);
    EXPECT(scenes_node_recall(&node, first, SCENES_APPLIED_YES).save && records[1] == 0x1123456789ABC);
    struct scenes_key ungrouped = {0x56, 1, 0, 1}, no_fabric = {0, 1, 0, 1}, no_scene = {1, 1, 7, 0};
    EXPECT(scenes_node_add(&node, ungrouped, 5, NULL, 0, NULL, 0).save && scenes_node_view(&node, ungrouped).time == 5);
    EXPECT(scenes_node_remove(&node, no_fabric).status == SCENES_NO_FABRIC);
    EXPECT(scenes_node_remove(&node, no_scene).status == SCENES_CONSTRAINT_ERROR);
    EXPECT(scenes_node_remove(&node, ungrouped).save && scenes_node_remove(&node, ungrouped).status == SCENES_NOT_FOUND);
    EXPECT(node.groups.held == 2 && node.table.state.entries == 2 && scenes_node_is_sound(&node));
}

/* Cluster 6 with attributes 1 and 2. */
static const uint8_t two_pairs[] = {0x15, 0x24, 0x00, 0x06, 0x36, 0x01, 0x15, 0x24, 0x00, 0x01,
                                    0x18, 0x15, 0x24, 0x00, 0x02, 0x18, 0x18, 0x18, 0x18};

static void raw_fields(void) {
    static const uint8_t good[] = {SCENES_PAIR_SCENABLE, SCENES_PAIR_SCENABLE};
    struct scenes_key other = first;
    other.group = 1;
    EXPECT(scenes_node_add_read(&node, other, 7, good, 2, two_pairs, sizeof two_pairs - 1).status == SCENES_INVALID_COMMAND);
    EXPECT(scenes_node_add_read(&node, first, 7, good, 2, two_pairs, sizeof two_pairs - 1).status == SCENES_BAD_FIELD_SETS);
    EXPECT(scenes_node_add_read(&node, first, 7, NULL, 0, two_pairs, sizeof two_pairs).status == SCENES_BAD_FIELD_SETS);
    EXPECT(scenes_node_add_read(&node, first, 7654321, good, 2, two_pairs, sizeof two_pairs).save);
    EXPECT(times[0] == 7654321 && fields[0] == 19 && memcmp(fields + 1, two_pairs, 19) == 0 && node.table.state.entries == 2);
}

static void reads(void) {
    struct scenes_scene_read view = scenes_node_view(&node, second);
    EXPECT(view.status == SCENES_SUCCESS && view.at == 1 && view.len == 5 && scenes_state_equal(view.state, node.table.state));
    EXPECT(scenes_table_found(&node.table, view) == fields + SCENES_STRIDE + 1);
    struct scenes_key other = second;
    other.endpoint = 1;
    view = scenes_node_view(&node, other);
    EXPECT(view.status == SCENES_INVALID_COMMAND && view.time == 0 && view.at == SCENES_NO_POSITION && view.len == 0);
    EXPECT(scenes_node_recall_lookup(&node, other, SCENES_GIVEN_NO, 0).status == SCENES_INVALID_COMMAND);
    EXPECT(scenes_node_recall_lookup(&node, first, SCENES_GIVEN_NO, 0x89ABCDEF).time == 7654321);
    EXPECT(scenes_node_recall_lookup(&node, first, SCENES_GIVEN_YES, 0x89ABCDEF).time == 0x89ABCDEF);
    uint8_t ids[2] = {0xDD, 0xEE};
    struct scenes_list_read list = scenes_node_get_membership(&node, ids, 2, target_group);
    EXPECT(list.status == SCENES_INVALID_COMMAND && list.remaining == 0 && list.len == 0 && ids[0] == 0xDD);
    EXPECT(scenes_node_get_membership(&node, NULL, 0, first_group).status == SCENES_BUFFER_TOO_SHORT);
    list = scenes_node_get_membership(&node, ids, 2, first_group);
    EXPECT(list.status == SCENES_SUCCESS && list.remaining == 6 && list.len == 1 && ids[0] == 0xBC && ids[1] == 0xEE);
    struct scenes_info_read info = scenes_table_read_info(&node.table, 0x12, 0x3456, SCENES_SINGLE_NO);
    EXPECT(info.present && info.count == 1 && info.scene == 0xBC);
}

/* A copy asks for both of its groups. Then a group is left, a fabric goes, and all goes. */
static void copies_and_leaves(void) {
    struct scenes_copy_request request = {0x12, 0x3456, 0xF0, {0x789A, 0xBC}, {0xFEDC, 0xA9}};
    struct scenes_copy_request back = {0x12, 0x3456, 0, {0xFEDC, 0xA9}, {0x789A, 0xBC}};
    EXPECT(scenes_node_copy(&node, request).status == SCENES_INVALID_COMMAND && scenes_node_copy(&node, back).status == SCENES_INVALID_COMMAND);
    EXPECT(scenes_node_join(&node, target_group).status == SCENES_SUCCESS && node.groups.held == 3);
    EXPECT(scenes_node_copy(&node, request).save && keys[2] == 0x123456FEDCA9 && node.table.state.entries == 3);
    EXPECT(scenes_node_remove_all(&node, member(0x12, 0x789A)).status == SCENES_INVALID_COMMAND);
    EXPECT(scenes_node_remove_all(&node, target_group).save && node.groups.held == 3 && node.table.state.entries == 2);
    EXPECT(!scenes_node_remove_all(&node, target_group).save);
    /* no scene of this group is left: nothing is to be saved */
    struct scenes_both_outcome left = scenes_node_leave(&node, target_group);
    EXPECT(left.status == SCENES_SUCCESS && !left.save && left.groups.held == 2 && left.state.entries == 2 && node.groups.held == 2);
    EXPECT(scenes_node_join(&node, target_group).status == SCENES_SUCCESS && words[2] == scenes_group_word(target_group));
    left = scenes_node_leave(&node, first_group);
    EXPECT(left.status == SCENES_SUCCESS && left.save && left.groups.held == 2 && left.state.entries == 1);
    EXPECT(node.table.state.recorded == 2 && records[1] == 0x123456789ABC);
    EXPECT(words[0] == scenes_group_word(second_group) && words[1] == scenes_group_word(target_group) && keys[0] == 0x3456789ABCDE);
    EXPECT(node.groups.held == 2 && scenes_state_equal(left.state, node.table.state));
    EXPECT(scenes_node_view(&node, first).status == SCENES_INVALID_COMMAND && !scenes_node_is_member(&node, first_group).held);
    EXPECT(scenes_node_leave(&node, first_group).status == SCENES_NOT_FOUND);
}

static void removals(void) {
    struct scenes_state before = node.table.state;
    EXPECT(scenes_node_remove_fabric(&node, 0).status == SCENES_NO_FABRIC && node.groups.held == 2);
    /* fabric 0x56 has a membership alone: it goes, and neither steps nor marks */
    EXPECT(scenes_node_join(&node, member(0x56, 1)).status == SCENES_SUCCESS && node.groups.held == 3);
    struct scenes_both_outcome removed = scenes_node_remove_fabric(&node, 0x56);
    EXPECT(removed.status == SCENES_SUCCESS && !removed.save && removed.groups.held == 2 && scenes_state_equal(removed.state, before));
    /* fabric 0x12 has a membership and a record, both of which go */
    removed = scenes_node_remove_fabric(&node, 0x12);
    EXPECT(removed.status == SCENES_SUCCESS && removed.save && removed.groups.held == 1 && removed.state.recorded == 1);
    EXPECT(words[0] == scenes_group_word(second_group) && node.groups.held == 1 && scenes_state_equal(removed.state, node.table.state));
    EXPECT(scenes_node_remove_fabric(&node, 0x34).save && node.groups.held == 0 && node.table.state.entries == 0);
    EXPECT(scenes_node_join(&node, first_group).status == SCENES_SUCCESS && scenes_node_store(&node, first, NULL, 0).save);
    EXPECT(scenes_table_startup(&node.table).status == SCENES_SUCCESS && node.table.state.entries == 0 && node.groups.held == 1);
    before = node.table.state;
    struct scenes_both_outcome reset = scenes_node_factory_reset(&node);
    EXPECT(reset.status == SCENES_SUCCESS && !reset.save && reset.groups.held == 0 && reset.state.dataver == before.dataver + 1);
    EXPECT(node.groups.held == 0 && scenes_node_is_sound(&node) && !scenes_node_is_member(&node, first_group).held);
}

/* 256 memberships fit. Where all are taken a new one answers 12, and group 0 and a held one what they ever answer. */
static void all_taken(void) {
    fresh();
    for (uint16_t group = 1; group <= MANY; group++)
        EXPECT(scenes_node_join(&node, member(1, group)).status == SCENES_SUCCESS && node.groups.held == group);
    struct kept before;
    keep(&before);
    struct scenes_groups_outcome joined = scenes_node_join(&node, member(1, MANY + 1));
    EXPECT(joined.status == SCENES_MEMBERSHIPS_FULL && joined.state.held == MANY);
    EXPECT(scenes_node_join(&node, member(2, 0)).status == SCENES_CONSTRAINT_ERROR);
    EXPECT(scenes_node_join(&node, member(1, MANY)).status == SCENES_SUCCESS && as_it_was(&before));
    EXPECT(scenes_node_is_member(&node, member(1, MANY)).held && !scenes_node_is_member(&node, member(1, MANY + 1)).held);
    EXPECT(scenes_node_leave(&node, member(1, 1)).status == SCENES_SUCCESS && node.groups.held == MANY - 1);
    EXPECT(scenes_node_join(&node, member(1, MANY + 1)).status == SCENES_SUCCESS && node.groups.held == MANY);
    EXPECT(words[0] == scenes_group_word(member(1, 2)) && words[MANY - 1] == scenes_group_word(member(1, MANY + 1)));
}

/* Memberships that a host wrote itself: every match goes at a leave, and group 0 counts as held by nobody. */
static void raw_words(void) {
    fresh();
    words[0] = words[2] = scenes_group_word(first_group);
    words[1] = scenes_group_word(member(1, 0));
    node.groups.held = 3;
    EXPECT(scenes_node_is_sound(&node) && scenes_node_is_member(&node, first_group).held && !scenes_node_is_member(&node, member(1, 0)).held);
    EXPECT(scenes_node_leave(&node, first_group).status == SCENES_SUCCESS && node.groups.held == 1 && words[0] == scenes_group_word(member(1, 0)));
    EXPECT(scenes_node_remove_fabric(&node, 1).status == SCENES_SUCCESS && node.groups.held == 0);
}

/* Each call on memberships that are not sound, with inputs that have other refusals: 6, and all comes back as it was. */
static void refused(void) {
    struct scenes_key key = {0, 0, 1, 0};
    struct scenes_group_key group = {0, 0, 0};
    struct scenes_copy_request request = {0, 0, 0, {1, 0}, {1, 0}};
    uint8_t ids[1] = {0xDD};
    struct kept before;
    keep(&before);
    EXPECT(!scenes_groups_is_sound(node.groups, words, MANY) && !scenes_node_is_sound(&node));
    struct scenes_group_read read = scenes_node_is_member(&node, group);
    EXPECT(read.status == SCENES_UNSOUND && !read.held && scenes_node_join(&node, group).status == SCENES_UNSOUND);
    struct scenes_both_outcome left = scenes_node_leave(&node, group);
    EXPECT(left.status == SCENES_UNSOUND && !left.save && left.groups.held == before.groups.held);
    EXPECT(scenes_node_remove_fabric(&node, 0).status == SCENES_UNSOUND && scenes_node_factory_reset(&node).status == SCENES_UNSOUND);
    EXPECT(scenes_node_add(&node, key, 0, NULL, 0, NULL, 0).status == SCENES_UNSOUND);
    EXPECT(scenes_node_add_read(&node, key, 0, NULL, 0, NULL, 0).status == SCENES_UNSOUND);
    EXPECT(scenes_node_store(&node, key, NULL, 0).status == SCENES_UNSOUND);
    EXPECT(scenes_node_view(&node, key).status == SCENES_UNSOUND);
    EXPECT(scenes_node_recall_lookup(&node, key, SCENES_GIVEN_NO, 0).status == SCENES_UNSOUND);
    EXPECT(scenes_node_recall(&node, key, SCENES_APPLIED_NO).status == SCENES_UNSOUND);
    EXPECT(scenes_node_remove(&node, key).status == SCENES_UNSOUND && scenes_node_remove_all(&node, group).status == SCENES_UNSOUND);
    EXPECT(scenes_node_copy(&node, request).status == SCENES_UNSOUND);
    EXPECT(scenes_node_get_membership(&node, ids, 1, group).status == SCENES_UNSOUND && ids[0] == 0xDD);
    EXPECT(as_it_was(&before));
}

/* What makes memberships unsound, one after the other, and a table that is not sound beside sound ones. */
static void unsound(void) {
    fresh();
    EXPECT(scenes_node_join(&node, first_group).status == SCENES_SUCCESS && scenes_node_store(&node, first, NULL, 0).save);
    static const uint64_t bad[] = {0x3456789A00, 0x123456789ABC, (uint64_t)1 << 48 | 0x123456789A00};
    for (size_t i = 0; i < sizeof bad / sizeof *bad; i++) {
        words[0] = bad[i];
        refused();
    }
    words[0] = scenes_group_word(first_group);
    node.groups.held = MANY + 1;
    refused();
    node.groups.held = 1;
    EXPECT(scenes_node_is_sound(&node) && !scenes_groups_is_sound(node.groups, words, MANY - 1));
    EXPECT(scenes_join(node.groups, words, MANY - 1, second_group).status == SCENES_UNSOUND);
    EXPECT(scenes_is_member(node.groups, words, MANY - 1, first_group).status == SCENES_UNSOUND);
    node.table.state.entries = N + 1;
    EXPECT(!scenes_node_is_sound(&node) && scenes_groups_is_sound(node.groups, words, MANY));
    EXPECT(scenes_node_leave(&node, first_group).status == SCENES_UNSOUND && scenes_node_remove_fabric(&node, 0x12).status == SCENES_UNSOUND);
    EXPECT(scenes_node_factory_reset(&node).status == SCENES_UNSOUND && scenes_node_view(&node, first).status == SCENES_UNSOUND);
    EXPECT(node.groups.held == 1 && words[0] == scenes_group_word(first_group) && scenes_node_is_member(&node, first_group).held);
}

/* The example of docs/INTERFACE.md. */
static void example(void) {
    struct scenes_key owned = {1, 1, 7, 5}, other = {2, 1, 7, 5};
    fresh();
    EXPECT(scenes_node_store(&node, owned, NULL, 0).status == SCENES_INVALID_COMMAND && node.groups.held == 0);
    EXPECT(scenes_node_join(&node, member(1, 7)).status == SCENES_SUCCESS && node.groups.held == 1);
    EXPECT(scenes_node_store(&node, owned, NULL, 0).save && node.table.state.entries == 1);
    EXPECT(scenes_node_join(&node, member(1, 7)).status == SCENES_SUCCESS && node.groups.held == 1);
    EXPECT(scenes_node_store(&node, other, NULL, 0).status == SCENES_INVALID_COMMAND && node.table.state.entries == 1);
    EXPECT(scenes_node_leave(&node, member(1, 7)).save && node.groups.held == 0 && node.table.state.entries == 0);
    EXPECT(scenes_node_leave(&node, member(1, 7)).status == SCENES_NOT_FOUND);
}

static void group_words(void) {
    struct scenes_group_key back = scenes_group_of_word(scenes_group_word(first_group));
    EXPECT(back.fabric == 0x12 && back.endpoint == 0x3456 && back.group == 0x789A && scenes_group_word(second_group) == 0x3456789ABC00);
    EXPECT(strcmp(scenes_status_text(SCENES_MEMBERSHIPS_FULL), "all memberships are taken") == 0);
}

int main(void) {
    joins();
    commands();
    raw_fields();
    reads();
    copies_and_leaves();
    removals();
    all_taken();
    raw_words();
    unsound();
    example();
    group_words();
    return failures != 0;
}
