/* Every call of scenes_unchecked.h: what calls.c expects of the checked calls, the unchecked ones answer as well. Besides, both kinds have one
 * type, and damaged memory is noticed by the checked ones. It is C and C++. */
#define EXPECT_IN "host/calls_unchecked.c: "

#include "scenes_unchecked.h"

#include "expect.h"

/* ---- With both kinds of calls */

/* A compiler warns of the choice between two functions whose parameters or answers differ. */
#define SAME_TYPE(name)                                                                                                        \
    ((void)(0 ? scenes_##name : scenes_##name##_unchecked), (void)(0 ? scenes_table_##name : scenes_table_##name##_unchecked))

static void same_types(void) {
    SAME_TYPE(add);
    SAME_TYPE(add_read);
    SAME_TYPE(store);
    SAME_TYPE(view);
    SAME_TYPE(recall_lookup);
    SAME_TYPE(recall);
    SAME_TYPE(remove);
    SAME_TYPE(remove_all);
    SAME_TYPE(copy);
    SAME_TYPE(get_membership);
    SAME_TYPE(read_info);
    SAME_TYPE(field_bytes);
    SAME_TYPE(attribute_changed);
    SAME_TYPE(remove_fabric);
    SAME_TYPE(factory_reset);
    SAME_TYPE(save_image);
    SAME_TYPE(load_image);
    SAME_TYPE(startup);
    SAME_TYPE(fail_safe_commit);
    SAME_TYPE(fail_safe_expiry);
}

static const struct scenes_key kept = {0x12, 0x3456, 0x789A, 0xBC};

/* The checked calls refuse a table that was damaged, and scenes_is_sound says so. */
static void noticed(struct scenes_table *t) {
    static const struct scenes_group_key kept_group = {0x12, 0x3456, 0x789A};
    uint8_t bytes[8];
    EXPECT(!scenes_table_is_sound(t));
    EXPECT(scenes_table_add(t, kept, 7, SCENES_MEMBER_YES, NULL, 0, NULL, 0).status == SCENES_UNSOUND);
    EXPECT(scenes_table_store(t, kept, SCENES_MEMBER_YES, NULL, 0).status == SCENES_UNSOUND);
    EXPECT(scenes_table_view(t, kept, SCENES_MEMBER_YES).status == SCENES_UNSOUND);
    EXPECT(scenes_table_remove(t, kept, SCENES_MEMBER_YES).status == SCENES_UNSOUND);
    EXPECT(scenes_table_get_membership(t, bytes, sizeof bytes, kept_group, SCENES_MEMBER_YES).status == SCENES_UNSOUND);
    EXPECT(scenes_table_save_image(t, bytes, sizeof bytes).status == SCENES_UNSOUND);
    EXPECT(scenes_table_load_image(t, NULL, 0).status == SCENES_UNSOUND);
    EXPECT(scenes_table_startup(t).status == SCENES_UNSOUND);
    EXPECT(scenes_table_field_bytes(t, 0).len == 0);
}

/* A table of an unchecked call is damaged, in one way after the other, and put back each time. No unchecked call is made in between: what it
 * would do is not fixed by anything. */
static void damaged(void) {
    enum { PLACES = 4 };
    uint64_t keys[PLACES], records[PLACES];
    uint32_t times[PLACES];
    uint8_t fields[PLACES * SCENES_STRIDE];
    struct scenes_table t = scenes_table_new(PLACES, keys, times, fields, records);
    EXPECT(scenes_table_store_unchecked(&t, kept, SCENES_MEMBER_YES, NULL, 0).save && scenes_table_is_sound(&t));
    fields[0] = SCENES_MAX_FIELDS + 1;
    noticed(&t);
    fields[0] = 1;
    EXPECT(scenes_table_is_sound(&t));
    keys[0] = 0;
    noticed(&t);
    keys[0] = scenes_key_word(kept);
    EXPECT(scenes_table_is_sound(&t));
    t.state.entries = PLACES + 1;
    noticed(&t);
    t.state.entries = 1;
    EXPECT(scenes_table_is_sound(&t));
    EXPECT(scenes_table_view_unchecked(&t, kept, SCENES_MEMBER_YES).len == 1);
}

/* ---- calls.c, with the unchecked calls for the checked ones: the functions over a table, and those that it makes themselves */

#define scenes_table_add scenes_table_add_unchecked
#define scenes_table_add_read scenes_table_add_read_unchecked
#define scenes_table_store scenes_table_store_unchecked
#define scenes_table_view scenes_table_view_unchecked
#define scenes_table_recall_lookup scenes_table_recall_lookup_unchecked
#define scenes_table_recall scenes_table_recall_unchecked
#define scenes_table_remove scenes_table_remove_unchecked
#define scenes_table_remove_all scenes_table_remove_all_unchecked
#define scenes_table_copy scenes_table_copy_unchecked
#define scenes_table_get_membership scenes_table_get_membership_unchecked
#define scenes_table_read_info scenes_table_read_info_unchecked
#define scenes_table_field_bytes scenes_table_field_bytes_unchecked
#define scenes_table_attribute_changed scenes_table_attribute_changed_unchecked
#define scenes_table_remove_fabric scenes_table_remove_fabric_unchecked
#define scenes_table_factory_reset scenes_table_factory_reset_unchecked
#define scenes_table_save_image scenes_table_save_image_unchecked
#define scenes_table_load_image scenes_table_load_image_unchecked
#define scenes_table_startup scenes_table_startup_unchecked
#define scenes_table_fail_safe_commit scenes_table_fail_safe_commit_unchecked
#define scenes_table_fail_safe_expiry scenes_table_fail_safe_expiry_unchecked
#define scenes_add scenes_add_unchecked
#define scenes_store scenes_store_unchecked
#define scenes_save_image scenes_save_image_unchecked
#define scenes_load_image scenes_load_image_unchecked

#define UNCHECKED
#include "calls.c"
