/* Every call of scenes.h, with arguments that would be noticed at another place, and every inline function: nothing else checks the header's
 * declarations. It is C and C++. calls_unchecked.c runs it over the unchecked calls: UNCHECKED is then defined. */
#include "scenes.h"

#include "expect.h"

#include <string.h>

enum { N = 16, YES = SCENES_MEMBER_YES, NO = SCENES_MEMBER_NO };

static uint64_t keys[N], records[N];
static uint32_t times[N];
static uint8_t fields[SCENES_STRIDE * N];
static struct scenes_table table;

static const struct scenes_key first = {0x12, 0x3456, 0x789A, 0xBC};
static const struct scenes_key second = {0x34, 0x5678, 0x9ABC, 0xDE};
static const struct scenes_group_key group = {0x12, 0x3456, 0x789A};

static void writes(void) {
    static const uint8_t pairs[] = {SCENES_PAIR_SCENABLE, SCENES_PAIR_CLUSTER_UNKNOWN}, ext[] = {9, 8, 7}, captured[] = {1, 2, 3, 4};
    EXPECT(scenes_table_add(&table, first, 1234567, YES, pairs, 2, ext, 3).save);
    EXPECT(keys[0] == 0x123456789ABC && times[0] == 1234567 && fields[0] == 3 && memcmp(fields + 1, ext, 3) == 0);
    EXPECT(scenes_table_add(&table, first, 1234567, NO, pairs, 2, ext, 3).status == SCENES_INVALID_COMMAND);
    EXPECT(scenes_table_add(&table, first, SCENES_MAX_TIME + 1, YES, pairs, 2, ext, 3).status == SCENES_CONSTRAINT_ERROR);
    EXPECT(scenes_table_add(&table, first, 0, YES, ext, 3, pairs, 2).status == SCENES_BAD_PAIR);
    struct scenes_stored stored = scenes_table_store(&table, second, YES, captured, 4);
    EXPECT(stored.save && stored.compared == 1 && scenes_state_equal(stored.state, table.state));
    EXPECT(keys[1] == 0x3456789ABCDE && fields[SCENES_STRIDE] == 5 && memcmp(fields + SCENES_STRIDE + 1, captured, 4) == 0);
    EXPECT(scenes_table_recall(&table, first, YES, SCENES_APPLIED_NO).status == SCENES_APPLY_FAILED);
    EXPECT(scenes_table_recall(&table, first, SCENES_MEMBER_FAILED, SCENES_APPLIED_YES).status == SCENES_MEMBERSHIP_FAILED);
    EXPECT(scenes_table_recall(&table, first, YES, SCENES_APPLIED_YES).save);
    EXPECT(table.state.entries == 2 && table.state.recorded == 2 && table.state.dataver == 2 && records[1] == 0x1123456789ABC);
}

static void scene_reads(void) {
    struct scenes_scene_read view = scenes_table_view(&table, second, YES);
    EXPECT(view.status == SCENES_SUCCESS && view.time == 0 && view.at == 1 && view.len == 5 && view.state.dataver == 2);
    EXPECT(scenes_table_found(&table, view) == fields + SCENES_STRIDE + 1);
    view = scenes_table_view(&table, second, NO);
    EXPECT(view.status == SCENES_INVALID_COMMAND && view.time == 0 && view.at == SCENES_NO_POSITION && view.len == 0);
    EXPECT(scenes_table_found(&table, view) == fields);
    EXPECT(scenes_state_equal(view.state, table.state));
    EXPECT(scenes_table_recall_lookup(&table, first, YES, SCENES_GIVEN_NO, 0x89ABCDEF).time == 1234567);
    view = scenes_table_recall_lookup(&table, first, YES, SCENES_GIVEN_YES, 0x89ABCDEF);
    EXPECT(view.time == 0x89ABCDEF && view.at == 0 && view.len == 3);
    struct scenes_field_place bytes = scenes_table_field_bytes(&table, 1);
    EXPECT(bytes.offset == SCENES_STRIDE + 1 && bytes.len == 5);
    bytes = scenes_table_field_bytes(&table, 2);
    EXPECT(bytes.offset == 0 && bytes.len == 0);
    bytes = scenes_table_field_bytes(&table, SCENES_NO_POSITION);
    EXPECT(bytes.offset == 0 && bytes.len == 0);
}

static void list_and_info(void) {
    uint8_t ids[2] = {0xDD, 0xEE};
    struct scenes_list_read list = scenes_table_get_membership(&table, ids, 2, group, NO);
    EXPECT(list.status == SCENES_INVALID_COMMAND && list.remaining == 0 && list.len == 0 && ids[0] == 0xDD);
    list = scenes_table_get_membership(&table, ids, 2, group, YES);
    EXPECT(list.status == SCENES_SUCCESS && list.remaining == 6 && list.len == 1 && ids[0] == 0xBC && ids[1] == 0xEE);
    struct scenes_info_read info = scenes_table_read_info(&table, 0x12, 0x3456, SCENES_SINGLE_NO);
    EXPECT(info.status == SCENES_SUCCESS && info.present && info.count == 1 && info.group == 0x789A && info.scene == 0xBC);
    EXPECT(info.valid && info.remaining == 6 && info.fabric == 0x12 && info.state.entries == 2);
    info = scenes_table_read_info(&table, 0x12, 0x3457, SCENES_SINGLE_NO);
    EXPECT(info.present && info.count == 0 && info.scene == 0xBC);
    info = scenes_table_read_info(&table, 0x56, 0x3456, SCENES_SINGLE_NO);
    EXPECT(info.status == SCENES_SUCCESS && !info.present && info.count == 0 && info.group == 0 && info.scene == 0);
    EXPECT(!info.valid && info.remaining == 0 && info.fabric == 0);
    EXPECT(scenes_table_read_info(&table, 0x12, 0x3456, SCENES_SINGLE_YES).status == SCENES_SINGLE_ELEMENT);
    EXPECT(scenes_table_is_sound(&table));
    EXPECT(!scenes_is_sound(table.state, keys, N - 1, times, N, fields, sizeof fields, records, N));
}

static uint8_t smaller(size_t number, uint8_t most) {
    return number < most ? (uint8_t)number : most;
}

/* A remaining capacity is reported up to 253, info's count up to 255. */
static void reported(void) {
    enum { MANY = 515, SHARE = (MANY - 1) / 2 };
    static uint64_t many_keys[MANY], many_records[MANY];
    static uint32_t many_times[MANY];
    static uint8_t many_fields[SCENES_STRIDE * MANY];
    for (size_t n = 500; n <= MANY; n++) {
        struct scenes_table empty = scenes_table_new(n, many_keys, many_times, many_fields, many_records);
        EXPECT(scenes_table_get_membership(&empty, NULL, 0, group, YES).remaining == smaller((n - 1) / 2, SCENES_MAX_REMAINING));
    }
    struct scenes_table many = scenes_table_new(MANY, many_keys, many_times, many_fields, many_records);
    for (uint16_t i = 1; i <= SHARE; i++) {
        struct scenes_key key = {0x12, 0x3456, i, 1};
        EXPECT(scenes_table_add(&many, key, 0, YES, NULL, 0, NULL, 0).save);
        struct scenes_info_read info = scenes_table_read_info(&many, 0x12, 0x3456, SCENES_SINGLE_NO);
        EXPECT(info.count == smaller(i, UINT8_MAX) && info.remaining == smaller((size_t)(SHARE - i), SCENES_MAX_REMAINING));
    }
}

static void copies_and_removals(void) {
    struct scenes_copy_request request = {0x12, 0x3456, 0xF0, {0x789A, 0xBC}, {0xFEDC, 0xA9}};
    EXPECT(scenes_table_copy(&table, request, YES, SCENES_MEMBER_FAILED).status == SCENES_MEMBERSHIP_FAILED);
    EXPECT(scenes_table_copy(&table, request, NO, SCENES_MEMBER_FAILED).status == SCENES_INVALID_COMMAND);
    EXPECT(scenes_table_copy(&table, request, YES, YES).save && keys[2] == 0x123456FEDCA9);
    EXPECT(scenes_table_attribute_changed(&table, 0x3456).status == SCENES_SUCCESS && records[1] == 0x123456789ABC);
    EXPECT(scenes_table_remove(&table, second, YES).save && table.state.entries == 2 && keys[1] == 0x123456FEDCA9);
    EXPECT(scenes_table_remove_all(&table, group, YES).save && table.state.entries == 1);
    EXPECT(scenes_table_remove_fabric(&table, 0x12).save && table.state.entries == 0 && table.state.recorded == 1);
}

/* NULL with count 0 for what is handed over. */
static void nothing_handed_over(void) {
    EXPECT(scenes_table_add(&table, first, 5, YES, NULL, 0, NULL, 0).save && table.state.entries == 1 && fields[0] == 0);
    EXPECT(scenes_table_store(&table, first, YES, NULL, 0).save && fields[0] == 1 && fields[1] == 0x18 && times[0] == 5);
    EXPECT(scenes_table_get_membership(&table, NULL, 0, group, YES).status == SCENES_BUFFER_TOO_SHORT);
    EXPECT(scenes_table_remove_fabric(&table, 0x12).save);
    EXPECT(scenes_table_get_membership(&table, NULL, 0, group, YES).status == SCENES_SUCCESS);
}

/* A new chip: no bytes, and so no scenes, at the version that the head has. Then the table comes back from its image. */
static void no_image(const uint8_t *image, size_t image_len) {
    struct scenes_state before = table.state;
    EXPECT(before.entries > 0 && before.recorded > 0 && before.dataver > 0);
    struct scenes_outcome loaded = scenes_table_load_image(&table, NULL, 0);
    EXPECT(loaded.status == SCENES_SUCCESS && !loaded.save && table.state.entries == 0 && table.state.recorded == 0);
    EXPECT(table.state.dataver == before.dataver && table.state.size == before.size);
    EXPECT(scenes_table_load_image(&table, image, image_len).status == SCENES_SUCCESS);
    EXPECT(table.state.entries == before.entries && table.state.recorded == before.recorded && table.state.dataver == before.dataver + 1);
}

static void images(void) {
    uint8_t image[SCENES_IMAGE_MAX(N)], again[SCENES_IMAGE_MAX(N)];
    struct scenes_image_saved saved = scenes_table_save_image(&table, image, 10);
    EXPECT(saved.status == SCENES_BUFFER_TOO_SHORT && saved.len == 0 && scenes_state_equal(saved.state, table.state));
    memset(image, 0xEE, sizeof image);
    saved = scenes_table_save_image(&table, image, sizeof image);
    EXPECT(saved.status == SCENES_SUCCESS && saved.len > 10 && saved.len < sizeof image && image[0] == 0x15 && image[saved.len] == 0xEE);
    EXPECT(scenes_table_save_image(&table, NULL, 0).status == SCENES_BUFFER_TOO_SHORT);
    struct scenes_state before = table.state;
    EXPECT(scenes_table_load_image(&table, image, 1).status == SCENES_BAD_IMAGE && scenes_state_equal(table.state, before));
    EXPECT(scenes_table_remove_fabric(&table, 0x12).save && table.state.entries < before.entries);
    struct scenes_outcome loaded = scenes_table_load_image(&table, image, saved.len);
    EXPECT(loaded.status == SCENES_SUCCESS && !loaded.save && table.state.entries == before.entries && table.state.recorded == before.recorded);
    EXPECT(table.state.dataver == before.dataver + 2);
    EXPECT(scenes_table_save_image(&table, again, sizeof again).len == saved.len && memcmp(image, again, saved.len) == 0);
    image[saved.len - 1 - 2] ^= 0x80;
    EXPECT(scenes_table_load_image(&table, image, saved.len).status == SCENES_BAD_IMAGE);
    no_image(again, saved.len);
}

/* Cluster 6 with attributes 1 and 2. */
static const uint8_t two_pairs[] = {0x15, 0x24, 0x00, 0x06, 0x36, 0x01, 0x15, 0x24, 0x00, 0x01,
                                    0x18, 0x15, 0x24, 0x00, 0x02, 0x18, 0x18, 0x18, 0x18};

/* Cluster 0x12345678 without attributes, then cluster 0x9ABCDEF0 with attribute 0xFEDCBA98. */
static const uint8_t wide[] = {0x15, 0x26, 0x00, 0x78, 0x56, 0x34, 0x12, 0x36, 0x01, 0x18, 0x18, 0x15, 0x26, 0x00, 0xF0, 0xDE,
                               0xBC, 0x9A, 0x36, 0x01, 0x15, 0x26, 0x00, 0x98, 0xBA, 0xDC, 0xFE, 0x18, 0x18, 0x18, 0x18};

static bool yields(struct scenes_field_item item, uint8_t kind, uint32_t number, size_t pair, size_t left, size_t set) {
    return item.kind == kind && item.number == number && item.cursor.pair == pair && item.cursor.left == left && item.cursor.set == set;
}

/* Each kind of item, with the cursor to go on with. */
static void items(void) {
    struct scenes_field_item item = scenes_fields_first(two_pairs, sizeof two_pairs);
    EXPECT(yields(item, SCENES_ITEM_CLUSTER, 6, 6, 2, 18));
    item = scenes_fields_next(two_pairs, sizeof two_pairs, item);
    EXPECT(yields(item, SCENES_ITEM_ATTRIBUTE, 1, 11, 1, 18));
    item = scenes_fields_next(two_pairs, sizeof two_pairs, item);
    EXPECT(yields(item, SCENES_ITEM_ATTRIBUTE, 2, 16, 0, 18));
    /* one byte less, the closing one; one more behind it; and the bytes as they are */
    EXPECT(yields(scenes_fields_next(two_pairs, sizeof two_pairs - 1, item), SCENES_ITEM_REFUSED, 0, 16, 0, 18));
    static const uint8_t behind[] = {0x18, 0x18};
    EXPECT(yields(scenes_fields_first(behind, 2), SCENES_ITEM_REFUSED, 0, 0, 0, 0));
    item = scenes_fields_next(two_pairs, sizeof two_pairs, item);
    EXPECT(yields(item, SCENES_ITEM_DONE, 0, 16, 0, 18));
    EXPECT(yields(scenes_fields_next(two_pairs, sizeof two_pairs, item), SCENES_ITEM_DONE, 0, 16, 0, 18));
    /* a set without attributes; numbers of 32 bits */
    item = scenes_fields_first(wide, sizeof wide);
    EXPECT(yields(item, SCENES_ITEM_CLUSTER, 0x12345678, 9, 0, 11));
    item = scenes_fields_next(wide, sizeof wide, item);
    EXPECT(yields(item, SCENES_ITEM_CLUSTER, 0x9ABCDEF0, 20, 1, 30));
    item = scenes_fields_next(wide, sizeof wide, item);
    EXPECT(yields(item, SCENES_ITEM_ATTRIBUTE, 0xFEDCBA98, 28, 0, 30));
    EXPECT(yields(scenes_fields_next(wide, sizeof wide, item), SCENES_ITEM_DONE, 0, 28, 0, 30));
    /* no bytes, and no sets */
    EXPECT(yields(scenes_fields_first(NULL, 0), SCENES_ITEM_DONE, 0, 0, 0, 0));
    EXPECT(yields(scenes_fields_first(behind, 1), SCENES_ITEM_DONE, 0, 0, 0, 0));
    /* any cursor */
    struct scenes_cursor cursor = {SIZE_MAX - 1, SIZE_MAX, SIZE_MAX - 2};
    EXPECT(yields(scenes_next_item(wide, sizeof wide, cursor), SCENES_ITEM_REFUSED, 0, SIZE_MAX - 1, SIZE_MAX, SIZE_MAX - 2));
    cursor.left = 0;
    EXPECT(yields(scenes_next_item(wide, sizeof wide, cursor), SCENES_ITEM_REFUSED, 0, SIZE_MAX - 1, 0, SIZE_MAX - 2));
    cursor.pair = 20;
    cursor.left = SIZE_MAX;
    EXPECT(yields(scenes_next_item(wide, sizeof wide, cursor), SCENES_ITEM_ATTRIBUTE, 0xFEDCBA98, 28, SIZE_MAX - 1, SIZE_MAX - 2));
}

static void pair_lists(void) {
    uint64_t pairs[SCENES_PAIRS_MAX(sizeof two_pairs)] = {0xDD, 0xEE, 0xFF};
    EXPECT(sizeof pairs / sizeof *pairs == 3 && SCENES_PAIRS_MAX(SCENES_MAX_FIELDS) == 25);
    struct scenes_pairs_read read = scenes_fields_list_pairs(two_pairs, sizeof two_pairs - 1, pairs, 1);
    EXPECT(read.status == SCENES_BAD_FIELD_SETS && read.len == 0);
    read = scenes_fields_list_pairs(two_pairs, sizeof two_pairs, pairs, 1);
    EXPECT(read.status == SCENES_BUFFER_TOO_SHORT && read.len == 0);
    EXPECT(pairs[0] == 0xDD && pairs[1] == 0xEE && pairs[2] == 0xFF);
    read = scenes_fields_list_pairs(two_pairs, sizeof two_pairs, pairs, 3);
    EXPECT(read.status == SCENES_SUCCESS && read.len == 2 && pairs[0] == 0x600000001 && pairs[1] == 0x600000002 && pairs[2] == 0xFF);
    EXPECT(SCENES_PAIR_CLUSTER(pairs[1]) == 6 && SCENES_PAIR_ATTRIBUTE(pairs[1]) == 2);
    read = scenes_fields_list_pairs(wide, sizeof wide, pairs, 1);
    EXPECT(read.status == SCENES_SUCCESS && read.len == 1 && pairs[0] == 0x9ABCDEF0FEDCBA98 && pairs[1] == 0x600000002);
    EXPECT(SCENES_PAIR_CLUSTER(pairs[0]) == 0x9ABCDEF0 && SCENES_PAIR_ATTRIBUTE(pairs[0]) == 0xFEDCBA98);
    EXPECT(scenes_fields_list_pairs(two_pairs, sizeof two_pairs, NULL, 0).status == SCENES_BUFFER_TOO_SHORT);
    read = scenes_fields_list_pairs(NULL, 0, NULL, 0);
    EXPECT(read.status == SCENES_SUCCESS && read.len == 0);
}

/* What a host says of a pair: it has cluster 6 with attributes 1 and 2, of which 2 is not scenable. */
static uint8_t pair_byte(uint32_t cluster, uint32_t attribute) {
    if (cluster != 6)
        return SCENES_PAIR_CLUSTER_UNKNOWN;
    return attribute == 1 ? SCENES_PAIR_SCENABLE : SCENES_PAIR_NOT_SCENABLE;
}

enum { MESSAGE = 256 };

/* An add by raw field bytes, as docs/INTERFACE.md has it. */
static struct scenes_outcome add_raw(struct scenes_table *t, struct scenes_key key, uint32_t time, uint8_t member,
                                     const uint8_t *bytes, size_t len) {
    uint8_t pairs[SCENES_PAIRS_MAX(MESSAGE)];
    size_t count = 0;
    uint32_t cluster = 0;
    struct scenes_field_item item = scenes_fields_first(bytes, len);
    for (; item.kind == SCENES_ITEM_CLUSTER || item.kind == SCENES_ITEM_ATTRIBUTE; item = scenes_fields_next(bytes, len, item))
        if (item.kind == SCENES_ITEM_CLUSTER)
            cluster = item.number;
        else
            pairs[count++] = pair_byte(cluster, item.number);
    return scenes_table_add_read(t, key, time, member, pairs, count, bytes, len);
}

/* A list of `len` field bytes, 17 to 272 of them: cluster 6 with attribute 1, and a member that is skipped, of as many bytes as are left. */
static void long_list(uint8_t *bytes, size_t len) {
    static const uint8_t front[] = {0x15, 0x24, 0x00, 0x06, 0x36, 0x01, 0x15, 0x24, 0x00, 0x01, 0x18, 0x18, 0x30, 0x02};
    memset(bytes, 0xEE, len);
    memcpy(bytes, front, sizeof front);
    bytes[sizeof front] = (uint8_t)(len - sizeof front - 3);
    bytes[len - 2] = bytes[len - 1] = 0x18;
}

/* Adds by raw field bytes that are refused, each by the first of its mistakes, and change nothing. */
static void refused_reads(void) {
    static const uint8_t good[] = {1, 2, 1}, not_scenable[] = {0, 9, 1}, bad[] = {1, 9, 0};
    static uint8_t fields_before[sizeof fields];
    uint8_t long_fields[SCENES_MAX_FIELDS + 1];
    long_list(long_fields, sizeof long_fields);
    struct scenes_key no_fabric = first, no_scene = first;
    no_fabric.fabric = no_scene.scene = 0;
    struct scenes_state before = table.state;
    memcpy(fields_before, fields, sizeof fields);
    const size_t len = sizeof two_pairs;
    EXPECT(scenes_table_add_read(&table, no_fabric, SCENES_MAX_TIME + 1, NO, good, 2, two_pairs, len - 1).status == SCENES_NO_FABRIC);
    EXPECT(scenes_table_add_read(&table, no_scene, 0, NO, good, 2, two_pairs, len - 1).status == SCENES_CONSTRAINT_ERROR);
    EXPECT(scenes_table_add_read(&table, first, SCENES_MAX_TIME + 1, NO, good, 2, two_pairs, len - 1).status == SCENES_CONSTRAINT_ERROR);
    EXPECT(scenes_table_add_read(&table, first, 0, NO, good, 2, two_pairs, len - 1).status == SCENES_INVALID_COMMAND);
    EXPECT(scenes_table_add_read(&table, first, 0, SCENES_MEMBER_FAILED, good, 2, two_pairs, len - 1).status == SCENES_MEMBERSHIP_FAILED);
    /* no list of sets, fewer pair bytes, more of them: before what the pair bytes say, and before the length */
    EXPECT(scenes_table_add_read(&table, first, 0, YES, not_scenable, 2, two_pairs, len - 1).status == SCENES_BAD_FIELD_SETS);
    EXPECT(scenes_table_add_read(&table, first, 0, YES, not_scenable, 1, two_pairs, len).status == SCENES_BAD_FIELD_SETS);
    EXPECT(scenes_table_add_read(&table, first, 0, YES, bad, 3, two_pairs, len).status == SCENES_BAD_FIELD_SETS);
    EXPECT(scenes_table_add_read(&table, first, 0, YES, good, 1, fields_before, 200).status == SCENES_BAD_FIELD_SETS);
    EXPECT(scenes_table_add_read(&table, first, 0, YES, good, 2, long_fields, sizeof long_fields).status == SCENES_BAD_FIELD_SETS);
    EXPECT(scenes_table_add_read(&table, first, 0, YES, NULL, 0, long_fields, sizeof long_fields).status == SCENES_BAD_FIELD_SETS);
    EXPECT(scenes_table_add_read(&table, first, 0, YES, good, 1, NULL, 0).status == SCENES_BAD_FIELD_SETS);
    /* then the pair bytes, then the length */
    EXPECT(scenes_table_add_read(&table, first, 0, YES, not_scenable, 2, two_pairs, len).status == SCENES_INVALID_COMMAND);
    EXPECT(scenes_table_add_read(&table, first, 0, YES, bad, 2, two_pairs, len).status == SCENES_BAD_PAIR);
    EXPECT(scenes_table_add_read(&table, first, 0, YES, not_scenable, 1, long_fields, sizeof long_fields).status == SCENES_INVALID_COMMAND);
    EXPECT(scenes_table_add_read(&table, first, 0, YES, good, 1, long_fields, sizeof long_fields).status == SCENES_INSUFFICIENT_SPACE);
    EXPECT(scenes_state_equal(table.state, before) && memcmp(fields, fields_before, sizeof fields) == 0);
}

static void adds_by_raw_fields(void) {
    static const uint8_t good[] = {SCENES_PAIR_SCENABLE, SCENES_PAIR_CLUSTER_UNKNOWN};
    uint8_t long_fields[SCENES_MAX_FIELDS];
    long_list(long_fields, sizeof long_fields);
    EXPECT(table.state.entries == 0);
    struct scenes_outcome added = scenes_table_add_read(&table, second, 7654321, YES, good, 2, two_pairs, sizeof two_pairs);
    EXPECT(added.status == SCENES_SUCCESS && added.save && added.state.entries == 1 && scenes_state_equal(added.state, table.state));
    EXPECT(keys[0] == 0x3456789ABCDE && times[0] == 7654321 && fields[0] == 19 && memcmp(fields + 1, two_pairs, 19) == 0);
    refused_reads();
    EXPECT(add_raw(&table, second, 1, YES, two_pairs, sizeof two_pairs).status == SCENES_INVALID_COMMAND && times[0] == 7654321);
    EXPECT(add_raw(&table, second, 1, YES, two_pairs, 5).status == SCENES_BAD_FIELD_SETS);
    EXPECT(add_raw(&table, second, 1, YES, wide, sizeof wide - 1).status == SCENES_BAD_FIELD_SETS);
    EXPECT(add_raw(&table, first, 1, YES, wide, sizeof wide).save && fields[SCENES_STRIDE] == 31 && keys[1] == 0x123456789ABC);
    EXPECT(add_raw(&table, first, 2, YES, long_fields, sizeof long_fields).save && fields[SCENES_STRIDE] == SCENES_MAX_FIELDS);
    EXPECT(add_raw(&table, first, 3, YES, NULL, 0).save && fields[SCENES_STRIDE] == 0 && times[1] == 3);
    EXPECT(table.state.entries == 2 && scenes_table_is_sound(&table));
    struct scenes_table full = table;
    full.state = scenes_new(0);
    EXPECT(scenes_table_add_read(&full, first, 0, YES, good, 2, two_pairs, sizeof two_pairs).status == SCENES_INSUFFICIENT_SPACE);
    EXPECT(scenes_table_remove_fabric(&table, 0x12).save && scenes_table_remove(&table, second, YES).save && table.state.entries == 0);
}

/* Five places, of which a fabric's share is two. */
enum { FIVE = 5 };

static uint64_t five_keys[FIVE], five_records[FIVE];
static uint32_t five_times[FIVE];
static uint8_t five_fields[SCENES_STRIDE * FIVE];

#define LENT_FIVE five_keys, FIVE, five_times, FIVE, five_fields, sizeof five_fields, five_records, FIVE

static struct scenes_key scene_of(uint8_t fabric, uint8_t scene) {
    struct scenes_key key = {fabric, 0x3456, 0x789A, scene};
    return key;
}

/* An add and a store by the calls themselves, which keep the head: their statuses. */
static uint8_t added_to(struct scenes_state *state, uint8_t fabric, uint8_t scene) {
    static const uint8_t pairs[] = {SCENES_PAIR_SCENABLE}, ext[] = {9};
    struct scenes_outcome added = scenes_add(*state, LENT_FIVE, scene_of(fabric, scene), 7, YES, pairs, 1, ext, 1);
    *state = added.state;
    return added.status;
}

static uint8_t stored_in(struct scenes_state *state, uint8_t fabric, uint8_t scene) {
    static const uint8_t captured[] = {9};
    struct scenes_stored stored = scenes_store(*state, LENT_FIVE, scene_of(fabric, scene), YES, captured, 1);
    *state = stored.state;
    return stored.status;
}

/* The calls on a head: all its modes come back, and bit 0 alone says whether a third scene is refused. */
static void modes_of_a_head(uint8_t modes) {
    const uint8_t third = modes % 2 == 1 ? SCENES_INSUFFICIENT_SPACE : SCENES_SUCCESS;
    struct scenes_state state = scenes_new_with_modes(FIVE, modes);
    EXPECT(state.size == FIVE && state.entries == 0 && state.recorded == 0 && state.dataver == 0 && state.modes == modes);
    EXPECT(added_to(&state, 0x12, 1) == SCENES_SUCCESS && stored_in(&state, 0x12, 2) == SCENES_SUCCESS);
    EXPECT(state.entries == 2 && state.recorded == 1 && state.modes == modes);
    EXPECT(added_to(&state, 0x12, 3) == third && state.modes == modes && stored_in(&state, 0x12, 3) == third);
    EXPECT(added_to(&state, 0x12, 2) == SCENES_SUCCESS && stored_in(&state, 0x12, 1) == SCENES_SUCCESS);
    EXPECT(added_to(&state, 0x34, 3) == SCENES_SUCCESS && stored_in(&state, 0x34, 4) == SCENES_SUCCESS);
    EXPECT(state.entries == (third == SCENES_SUCCESS ? 5 : 4) && state.recorded == 2 && state.modes == modes);
    uint8_t image[SCENES_IMAGE_MAX(FIVE)];
    struct scenes_image_saved saved = scenes_save_image(state, LENT_FIVE, image, sizeof image);
    EXPECT(saved.status == SCENES_SUCCESS && scenes_state_equal(saved.state, state));
    struct scenes_state loaded = scenes_load_image(scenes_new_with_modes(FIVE, modes), LENT_FIVE, image, saved.len).state;
    EXPECT(loaded.entries == state.entries && loaded.recorded == state.recorded && loaded.dataver == 1 && loaded.modes == modes);
    loaded = state;
    loaded.modes = (uint8_t)(modes ^ 0x80);
    EXPECT(scenes_state_equal(state, state) && !scenes_state_equal(state, loaded));
}

/* The same over a table: two scenes of each of two fabrics fit, and the last place is a third one's. */
static void share_mode(void) {
    struct scenes_table five = scenes_table_new_with_modes(FIVE, SCENES_MODE_SHARE, five_keys, five_times, five_fields, five_records);
    EXPECT(scenes_state_equal(five.state, scenes_new_with_modes(FIVE, SCENES_MODE_SHARE)) && five.places == FIVE);
    for (uint8_t fabric = 1; fabric <= 2; fabric++) {
        EXPECT(scenes_table_add(&five, scene_of(fabric, 1), 7, YES, NULL, 0, NULL, 0).save);
        EXPECT(scenes_table_store(&five, scene_of(fabric, 2), YES, NULL, 0).save);
        EXPECT(scenes_table_add(&five, scene_of(fabric, 3), 7, YES, NULL, 0, NULL, 0).status == SCENES_INSUFFICIENT_SPACE);
        EXPECT(scenes_table_add_read(&five, scene_of(fabric, 3), 7, YES, NULL, 0, NULL, 0).status == SCENES_INSUFFICIENT_SPACE);
        EXPECT(scenes_table_store(&five, scene_of(fabric, 3), YES, NULL, 0).status == SCENES_INSUFFICIENT_SPACE);
        EXPECT(scenes_table_add(&five, scene_of(fabric, 2), 8, YES, NULL, 0, NULL, 0).save);
        EXPECT(scenes_table_store(&five, scene_of(fabric, 1), YES, NULL, 0).save);
        EXPECT(five.state.entries == (size_t)2 * fabric && five.state.modes == SCENES_MODE_SHARE);
    }
    /* an image has no modes: what is loaded goes by those of the table */
    uint8_t image[SCENES_IMAGE_MAX(FIVE)];
    struct scenes_image_saved saved = scenes_table_save_image(&five, image, sizeof image);
    EXPECT(scenes_table_load_image(&five, image, saved.len).status == SCENES_SUCCESS && five.state.modes == SCENES_MODE_SHARE);
    EXPECT(scenes_table_store(&five, scene_of(1, 3), YES, NULL, 0).status == SCENES_INSUFFICIENT_SPACE);
    EXPECT(scenes_table_store(&five, scene_of(3, 3), YES, NULL, 0).save && five.state.entries == FIVE);
    EXPECT(scenes_table_factory_reset(&five).status == SCENES_SUCCESS && five.state.modes == SCENES_MODE_SHARE);
    struct scenes_table plain = scenes_table_new(FIVE, five_keys, five_times, five_fields, five_records);
    EXPECT(scenes_table_load_image(&plain, image, saved.len).status == SCENES_SUCCESS && plain.state.modes == 0);
    EXPECT(scenes_table_store(&plain, scene_of(1, 3), YES, NULL, 0).save && plain.state.entries == FIVE);
}

static void modes(void) {
    static const uint8_t some[] = {0, SCENES_MODE_SHARE, 0xA5, 0xFE, 0xFF};
    for (size_t i = 0; i < sizeof some; i++)
        modes_of_a_head(some[i]);
    share_mode();
}

/* How many key words a store compared: up to the first match, or all, and none at a refusal. The first finds none: 0 is no refusal. */
static void compared(void) {
    struct scenes_table five = scenes_table_new(FIVE, five_keys, five_times, five_fields, five_records);
    for (uint8_t scene = 1; scene <= FIVE; scene++) {
        struct scenes_stored stored = scenes_table_store(&five, scene_of(0x12, scene), YES, NULL, 0);
        EXPECT(stored.status == SCENES_SUCCESS && stored.compared == (size_t)scene - 1);
    }
    for (uint8_t scene = 1; scene <= FIVE; scene++) {
        EXPECT(scenes_table_store(&five, scene_of(0x12, scene), YES, NULL, 0).compared == scene);
        EXPECT(scenes_table_store(&five, scene_of(0x12, scene), NO, NULL, 0).compared == 0);
    }
    struct scenes_stored full = scenes_table_store(&five, scene_of(0x12, 9), YES, NULL, 0);
    EXPECT(full.status == SCENES_INSUFFICIENT_SPACE && !full.save && full.compared == 0);
}

#ifndef UNCHECKED
/* A table that is not sound is refused before anything else is looked at, and comes back as it was. */
static void unsound(void) {
    struct scenes_table five = scenes_table_new(FIVE, five_keys, five_times, five_fields, five_records);
    EXPECT(scenes_table_store(&five, scene_of(0x12, 1), YES, NULL, 0).save);
    five.state.entries = FIVE + 1;
    struct scenes_state before = five.state;
    EXPECT(scenes_table_add_read(&five, scene_of(0, 1), 0, NO, NULL, 0, two_pairs, sizeof two_pairs - 1).status == SCENES_UNSOUND);
    EXPECT(scenes_table_startup(&five).status == SCENES_UNSOUND && scenes_state_equal(five.state, before));
    five.state.entries = 1;
    five.state.size = SCENES_MAX_SCENES + 1;
    struct scenes_stored stored = scenes_table_store(&five, scene_of(0x12, 1), YES, NULL, 0);
    EXPECT(stored.status == SCENES_UNSOUND && !stored.save && stored.compared == 0);
}
#endif

static void lifecycle(void) {
    struct scenes_state before = table.state;
    EXPECT(scenes_table_fail_safe_commit(&table).status == SCENES_SUCCESS && scenes_table_fail_safe_expiry(&table).status == SCENES_SUCCESS);
    EXPECT(scenes_state_equal(table.state, before) && before.recorded == 1);
    EXPECT(scenes_table_startup(&table).status == SCENES_SUCCESS && table.state.recorded == 0 && table.state.dataver == before.dataver);
    EXPECT(scenes_table_factory_reset(&table).status == SCENES_SUCCESS && table.state.dataver == before.dataver + 1);
    EXPECT(!scenes_state_equal(table.state, before));
    table.state = scenes_new(N + 1);
    EXPECT(!scenes_table_is_sound(&table));
}

static bool same_key(struct scenes_key a, struct scenes_key b) {
    return a.fabric == b.fabric && a.endpoint == b.endpoint && a.group == b.group && a.scene == b.scene;
}

static void words(void) {
    EXPECT(scenes_key_word(first) == 0x123456789ABC && scenes_key_word(second) == 0x3456789ABCDE);
    EXPECT(scenes_record_word(first, true) == 0x1123456789ABC && scenes_record_word(first, false) == 0x123456789ABC);
    EXPECT(same_key(scenes_key_of_word(0x123456789ABC), first) && same_key(scenes_key_of_word(0x1123456789ABC), first));
    EXPECT(scenes_record_is_valid(0x1123456789ABC) && !scenes_record_is_valid(0x123456789ABC));
}

/* Each status of the header has words of its own, and no other number has any. */
static void texts(void) {
    const char *none = scenes_status_text(0xFF);
    int named = 0;
    for (int status = 0; status <= UINT8_MAX; status++)
        named += strcmp(scenes_status_text((uint8_t)status), none) != 0;
    EXPECT(named == 17 && strcmp(scenes_status_text(SCENES_NOT_FOUND), "no such scene or membership") == 0);
}

int main(void) {
    EXPECT(scenes_version() == SCENES_VERSION);
    table = scenes_table_new(N, keys, times, fields, records);
    EXPECT(table.state.size == N && table.state.entries == 0 && table.state.recorded == 0 && table.state.dataver == 0);
    EXPECT(table.state.modes == 0 && scenes_state_equal(table.state, scenes_new(N)));
    writes();
    scene_reads();
    list_and_info();
    reported();
    images();
    copies_and_removals();
    nothing_handed_over();
    items();
    pair_lists();
    adds_by_raw_fields();
    modes();
    compared();
    lifecycle();
    words();
    texts();
#ifdef UNCHECKED
    same_types();
    damaged();
#else
    unsound();
#endif
    return failures != 0;
}
