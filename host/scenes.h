/* The scene table of Scenes Management, for hosts in C: the calls of libhost.a, which `bash prove host` builds, and three on raw field
 * bytes, of libhost_fields.a, which `bash prove host_fields` builds. A host that lists the pairs of its adds itself needs the first alone.
 * scenes_unchecked.h has the calls of a table without the test that answers 6, for a host whose table nobody else can write; scenes_groups.h has
 * memberships that are held beside the table, and the commands that ask them, for a host without a group cluster.
 *
 * A table is a head, which every call takes by value and hands back in its answer, and four arrays that the host owns and lends to
 * each call as a pointer and a count of elements:
 *
 *     keys     at least N             a key word for each scene
 *     times    at least N             a transition time for each scene, in milliseconds
 *     fields   at least 129 * N       a length byte and 128 field bytes for each scene
 *     records  at least N             a record word for each fabric's current scene
 *
 * `struct scenes_table` holds the head and the pointers, and there is a function over it for each call, which keeps the head:
 *
 *     static uint64_t keys[16], records[16];
 *     static uint32_t times[16];
 *     static uint8_t fields[16 * SCENES_STRIDE];
 *     struct scenes_table table = scenes_table_new(16, keys, times, fields, records);
 *     struct scenes_stored stored = scenes_table_store(&table, key, SCENES_MEMBER_YES, captured, captured_len);
 *     if (stored.save)
 *         ..
 *
 * Raw field bytes: a host that does not list the pairs of an add by itself has them read. It goes through the field bytes item by item,
 * answers each attribute of a cluster by one pair byte, and hands both to the add. Here no more than MESSAGE field bytes come:
 *
 *     uint8_t pairs[SCENES_PAIRS_MAX(MESSAGE)];
 *     size_t count = 0;
 *     uint32_t cluster = 0;
 *     struct scenes_field_item item = scenes_fields_first(bytes, len);
 *     for (; item.kind == SCENES_ITEM_CLUSTER || item.kind == SCENES_ITEM_ATTRIBUTE; item = scenes_fields_next(bytes, len, item))
 *         if (item.kind == SCENES_ITEM_CLUSTER)
 *             cluster = item.number;
 *         else
 *             pairs[count++] = pair_byte(cluster, item.number);
 *     struct scenes_outcome added = scenes_table_add_read(&table, key, time, SCENES_MEMBER_YES, pairs, count, bytes, len);
 *
 * Where the bytes are no list of field sets, the reader may yield the items in front of the mistake before it says so, and the add refuses.
 *
 * Whatever the head, the arrays and the other arguments hold, a call returns, and answers a number of the list below. What it asks of C:
 * a pointer is valid for its count and not null, even where the count is 0; no two arrays of a call overlap; nobody else touches them
 * meanwhile. A function over the table or over field bytes also takes NULL with count 0 for what is handed to it. Keep the head that a call
 * hands back, for the next one, after a refusal too: it comes back as it was but for a whole-group copy that answers 0x89 midway, which hands
 * back the head that counts the copies it had made.
 *
 * Answers of 0 and 1 are `bool`; arguments that are yes or no are bytes, in which every number means something. Structs have padding, whose
 * bytes mean nothing: compare their members, never the structs by memcmp (scenes_state_equal is for heads).
 * The layouts are those of x86-64 Linux. The header is for C99 and later and for C++11 and later.
 */
#ifndef SCENES_H
#define SCENES_H

#include <stdbool.h>
#include <stddef.h>
#include <stdint.h>

/* What this header was written for: it steps whenever a struct, an answer or a call of the header changes. A host that may meet another
 * library compares it with scenes_version() before any other call. Version 1 had none to ask for. */
#define SCENES_VERSION 8

/* An answer that is dropped is warned of, since the head is in it. Pointers are not null, and no two of a call's arrays overlap. */
#if (defined(__cplusplus) && __cplusplus >= 201703L) || (defined(__STDC_VERSION__) && __STDC_VERSION__ >= 202311L)
#define SCENES_KEEP [[nodiscard]]
#elif defined(__GNUC__)
#define SCENES_KEEP __attribute__((warn_unused_result))
#else
#define SCENES_KEEP
#endif
#ifdef __GNUC__
#define SCENES_NONNULL __attribute__((nonnull))
#else
#define SCENES_NONNULL
#endif
#ifndef __cplusplus
#define SCENES_RESTRICT restrict
#elif defined(__GNUC__)
#define SCENES_RESTRICT __restrict
#else
#define SCENES_RESTRICT
#endif

#ifdef __cplusplus
extern "C" {
#define SCENES_ASSERT(name, holds) static_assert(holds, #name)
#elif defined(__STDC_VERSION__) && __STDC_VERSION__ >= 201112L
#define SCENES_ASSERT(name, holds) _Static_assert(holds, #name)
#else
#define SCENES_ASSERT(name, holds) typedef char scenes_assert_##name[(holds) ? 1 : -1]
#endif

/* What a call answers in `status`: a status of Matter .. */
#define SCENES_SUCCESS 0
#define SCENES_INVALID_COMMAND 0x85    /* not a member of the group; an attribute that is not scenable */
#define SCENES_CONSTRAINT_ERROR 0x87   /* scene 0 or 255; a time above 60,000,000; group 0 joined or left */
#define SCENES_INSUFFICIENT_SPACE 0x89 /* fields over 128 bytes; no place; a copy, in share mode any new scene, with nothing remaining */
#define SCENES_NOT_FOUND 0x8B          /* no such scene, or no such membership */
/* .. or a fault. */
#define SCENES_NO_FABRIC 1         /* fabric 0 */
#define SCENES_MEMBERSHIP_FAILED 2 /* the host could not tell */
#define SCENES_CAPTURE_TOO_LONG 3  /* captured bytes over 127 */
#define SCENES_APPLY_FAILED 4      /* the host could not apply a recalled scene */
#define SCENES_SINGLE_ELEMENT 5    /* info asked for one list element */
#define SCENES_UNSOUND 6           /* a head or the lent arrays are not those of a table, or of memberships */
#define SCENES_BAD_PAIR 7          /* a pair byte above 2 */
#define SCENES_BUFFER_TOO_SHORT 8  /* the buffer is shorter than the scene list, than the image or than the list of pairs */
#define SCENES_BAD_IMAGE 9         /* an image that is none, or one of a larger table */
#define SCENES_CLASHING_IMAGE 10   /* an image with a key twice, with two records of a fabric, or with scene 0 or 255 */
#define SCENES_BAD_FIELD_SETS 11   /* field bytes that are no list of field sets, or another number of pairs than of pair bytes */
#define SCENES_MEMBERSHIPS_FULL 12 /* all 256 memberships are taken: an answer of scenes_groups.h alone */

#define SCENES_MAX_SCENES 1024    /* the largest N */
#define SCENES_MAX_FIELDS 128     /* the most field bytes of a scene */
#define SCENES_STRIDE 129         /* bytes of `fields` for each scene */
#define SCENES_MAX_TIME 60000000u /* the longest transition time */
#define SCENES_MAX_REMAINING 253  /* the most that is reported of a remaining capacity: so many, or more, remain */
#define SCENES_IMAGE_MAX(n) ((size_t)171 * (n) + 8) /* no image of a table of n places has more bytes */
#define SCENES_PAIRS_MAX(n) ((size_t)(n) / 5)       /* no n field bytes hold more pairs: each takes five bytes at least */
#define SCENES_NO_POSITION 1024   /* the position that a refused view or lookup answers: no table has an entry there */

/* The modes of a table. Bit 0 is the share mode: an add or a store of a new scene answers 0x89 when the fabric's remaining capacity is 0, as a
 * copy always does. One that overwrites a scene is not refused for it. The other bits mean nothing. */
#define SCENES_MODE_SHARE 1

/* Membership: whether the fabric's endpoint is in the group. Group 0 needs no answer. Numbers above 1 all say that the host could not tell. */
#define SCENES_MEMBER_NO 0
#define SCENES_MEMBER_YES 1
#define SCENES_MEMBER_FAILED 2

/* Pair bytes of an add, one for each attribute that it sets. */
#define SCENES_PAIR_NOT_SCENABLE 0
#define SCENES_PAIR_SCENABLE 1
#define SCENES_PAIR_CLUSTER_UNKNOWN 2

/* What the reader of field bytes yields: the end, a cluster, an attribute of the last cluster, or that the bytes are no list of sets. */
#define SCENES_ITEM_DONE 0
#define SCENES_ITEM_CLUSTER 1
#define SCENES_ITEM_ATTRIBUTE 2
#define SCENES_ITEM_REFUSED 3

/* A word of the list of pairs: the cluster in the bits from 32 on, the attribute in those below. */
#define SCENES_PAIR_CLUSTER(word) ((uint32_t)((uint64_t)(word) >> 32))
#define SCENES_PAIR_ATTRIBUTE(word) ((uint32_t)((uint64_t)(word) & 0xFFFFFFFFu))

/* `applied` of a recall: 1 is yes, any other number is no. */
#define SCENES_APPLIED_NO 0
#define SCENES_APPLIED_YES 1

/* `given` of a recall's lookup: 0 takes the stored time, any other number the one that is given. */
#define SCENES_GIVEN_NO 0
#define SCENES_GIVEN_YES 1

/* `single` of info: 0 asks for the whole list, any other number for one list element, which is refused. */
#define SCENES_SINGLE_NO 0
#define SCENES_SINGLE_YES 1

/* Bit 0 of a copy's mode: all scenes of the group. */
#define SCENES_COPY_ALL 1

/* A key word: the scene in bits 0 to 7, the group in 8 to 23, the endpoint in 24 to 39, the fabric in 40 to 47; the bits above are 0.
 * A record word is the key word of a fabric's current scene, and 2^48 more while that is valid. */
#define SCENES_GROUP_SHIFT 8
#define SCENES_ENDPOINT_SHIFT 24
#define SCENES_FABRIC_SHIFT 40
#define SCENES_RECORD_VALID ((uint64_t)1 << 48)

/* The head of a table: N, how many scenes and records it has, the data version of FabricSceneInfo, and the modes. The modes are fixed when the
 * table is made: every call hands them back as they came, all eight bits, and an image does not hold them. */
struct scenes_state {
    size_t size;
    size_t entries;
    size_t recorded;
    uint32_t dataver;
    uint8_t modes;
};

/* A scene, as a command names it. */
struct scenes_key {
    uint8_t fabric;
    uint16_t endpoint;
    uint16_t group;
    uint8_t scene;
};

/* A group of a fabric on an endpoint. */
struct scenes_group_key {
    uint8_t fabric;
    uint16_t endpoint;
    uint16_t group;
};

/* A group and a scene in it: one end of a copy. */
struct scenes_group_scene {
    uint16_t group;
    uint8_t scene;
};

struct scenes_copy_request {
    uint8_t fabric;
    uint16_t endpoint;
    uint8_t mode;
    struct scenes_group_scene from;
    struct scenes_group_scene to;
};

/* `save`: the host has to save the table. A refusal has false. */
struct scenes_outcome {
    struct scenes_state state;
    uint8_t status;
    bool save;
};

/* What a store answers: `compared` tells the host how many key words were held against the wanted one, up to the first match or all. It is no
 * part of the answer to a member. A refusal has 0, and so has the first store into an empty table: ask `status` whether it succeeded. */
struct scenes_stored {
    struct scenes_state state;
    uint8_t status;
    bool save;
    size_t compared;
};

/* A scene's time, its position and how many field bytes it has: they stand from `fields + at * SCENES_STRIDE + 1` on. A refusal has time 0,
 * position SCENES_NO_POSITION and length 0. */
struct scenes_scene_read {
    struct scenes_state state;
    uint8_t status;
    uint32_t time;
    size_t at;
    size_t len;
};

/* The remaining capacity, at most SCENES_MAX_REMAINING, and how many scene ids were written. A refused list has 0 and 0, and the buffer is
 * as it was. */
struct scenes_list_read {
    struct scenes_state state;
    uint8_t status;
    uint8_t remaining;
    size_t len;
};

/* Whether there is a row, and the row; group 0, scene 0 and not valid where the fabric has no current scene. `count` is at most 255,
 * `remaining` at most SCENES_MAX_REMAINING. A fabric without scenes on the endpoint and without a current scene on any has no row: status 0,
 * `present` false, and 0 or false in the rest, as in a refusal. */
struct scenes_info_read {
    struct scenes_state state;
    uint8_t status;
    bool present;
    uint8_t count;
    uint16_t group;
    uint8_t scene;
    bool valid;
    uint8_t remaining;
    uint8_t fabric;
};

/* How many bytes of the buffer are the image. A refused save has 0, and the buffer is as it was. */
struct scenes_image_saved {
    struct scenes_state state;
    uint8_t status;
    size_t len;
};

/* Where the reader of field bytes stands: `left` attributes of the last cluster are to come, the next at byte `pair`, and behind them the
 * next set at byte `set`. All zeros are the start. */
struct scenes_cursor {
    size_t pair;
    size_t left;
    size_t set;
};

/* What the reader yields, the number of the cluster or the attribute, and the cursor to go on with, whose `left` behind a cluster is how many
 * attributes the cluster has. The end and a refusal have number 0 and the cursor that they were asked with. */
struct scenes_field_item {
    uint8_t kind;
    uint32_t number;
    struct scenes_cursor cursor;
};

/* How many words of the buffer are pairs. A refused list has 0, and the buffer is as it was. */
struct scenes_pairs_read {
    uint8_t status;
    size_t len;
};

/* Where field bytes lie: `len` bytes from `fields + offset` on, all of them within the lent count. None are 0 and 0. */
struct scenes_field_place {
    size_t offset;
    size_t len;
};

/* A head and the arrays, for the functions at the end. `places` is how many scenes the arrays have room for; the head's N is at most that. */
struct scenes_table {
    struct scenes_state state;
    size_t places;
    uint64_t *keys;
    uint32_t *times;
    uint8_t *fields;
    uint64_t *records;
};

/* The layouts that the library was compiled for. host/rust tests the same numbers. */
SCENES_ASSERT(truth, sizeof(bool) == 1);
SCENES_ASSERT(state, sizeof(struct scenes_state) == 32 && offsetof(struct scenes_state, dataver) == 24 &&
                         offsetof(struct scenes_state, modes) == 28);
SCENES_ASSERT(key, sizeof(struct scenes_key) == 8 && offsetof(struct scenes_key, scene) == 6);
SCENES_ASSERT(group_key, sizeof(struct scenes_group_key) == 6 && offsetof(struct scenes_group_key, group) == 4);
SCENES_ASSERT(group_scene, sizeof(struct scenes_group_scene) == 4 && offsetof(struct scenes_group_scene, scene) == 2);
SCENES_ASSERT(copy_request, sizeof(struct scenes_copy_request) == 14 && offsetof(struct scenes_copy_request, mode) == 4 &&
                                offsetof(struct scenes_copy_request, from) == 6 && offsetof(struct scenes_copy_request, to) == 10);
SCENES_ASSERT(outcome, sizeof(struct scenes_outcome) == 40 && offsetof(struct scenes_outcome, status) == 32 &&
                           offsetof(struct scenes_outcome, save) == 33);
SCENES_ASSERT(stored, sizeof(struct scenes_stored) == 48 && offsetof(struct scenes_stored, status) == 32 &&
                          offsetof(struct scenes_stored, save) == 33 && offsetof(struct scenes_stored, compared) == 40);
SCENES_ASSERT(scene_read, sizeof(struct scenes_scene_read) == 56 && offsetof(struct scenes_scene_read, status) == 32 &&
                              offsetof(struct scenes_scene_read, time) == 36 && offsetof(struct scenes_scene_read, at) == 40 &&
                              offsetof(struct scenes_scene_read, len) == 48);
SCENES_ASSERT(list_read, sizeof(struct scenes_list_read) == 48 && offsetof(struct scenes_list_read, status) == 32 &&
                             offsetof(struct scenes_list_read, remaining) == 33 && offsetof(struct scenes_list_read, len) == 40);
SCENES_ASSERT(info_read, sizeof(struct scenes_info_read) == 48 && offsetof(struct scenes_info_read, status) == 32 &&
                             offsetof(struct scenes_info_read, present) == 33 && offsetof(struct scenes_info_read, count) == 34 &&
                             offsetof(struct scenes_info_read, group) == 36 && offsetof(struct scenes_info_read, scene) == 38 &&
                             offsetof(struct scenes_info_read, valid) == 39 && offsetof(struct scenes_info_read, remaining) == 40 &&
                             offsetof(struct scenes_info_read, fabric) == 41);
SCENES_ASSERT(image_saved, sizeof(struct scenes_image_saved) == 48 && offsetof(struct scenes_image_saved, status) == 32 &&
                               offsetof(struct scenes_image_saved, len) == 40);
SCENES_ASSERT(field_place, sizeof(struct scenes_field_place) == 16 && offsetof(struct scenes_field_place, len) == 8);
SCENES_ASSERT(cursor, sizeof(struct scenes_cursor) == 24 && offsetof(struct scenes_cursor, left) == 8 &&
                          offsetof(struct scenes_cursor, set) == 16);
SCENES_ASSERT(field_item, sizeof(struct scenes_field_item) == 32 && offsetof(struct scenes_field_item, number) == 4 &&
                              offsetof(struct scenes_field_item, cursor) == 8);
SCENES_ASSERT(pairs_read, sizeof(struct scenes_pairs_read) == 16 && offsetof(struct scenes_pairs_read, len) == 8);

/* ---- The calls of libhost.a */

/* Each takes the head first. The lent arrays: to be read only, to be written, and with only the records to be written. */
#define SCENES_ENTRIES(access)                                                                                                 \
    access uint64_t *SCENES_RESTRICT keys, size_t keys_len, access uint32_t *SCENES_RESTRICT times, size_t times_len,          \
        access uint8_t *SCENES_RESTRICT fields, size_t fields_len
#define SCENES_READ struct scenes_state state, SCENES_ENTRIES(const), const uint64_t *SCENES_RESTRICT records, size_t records_len
#define SCENES_WRITE struct scenes_state state, SCENES_ENTRIES(), uint64_t *SCENES_RESTRICT records, size_t records_len
#define SCENES_WRITE_RECORDS struct scenes_state state, SCENES_ENTRIES(const), uint64_t *SCENES_RESTRICT records, size_t records_len

/* The version of the library: SCENES_VERSION, if the header is its own. */
SCENES_KEEP uint32_t scenes_version(void);

/* The head of an empty table of N places without modes, at data version 0. A table of more than 1,024 is not sound. */
SCENES_KEEP struct scenes_state scenes_new(size_t size);

/* The same with modes, SCENES_MODE_SHARE for the share mode. A table that is loaded from its image is made with its modes again. */
SCENES_KEEP struct scenes_state scenes_new_with_modes(size_t size, uint8_t modes);

/* Whether the table is sound: if not, the other calls answer 6. A host asks it of a table that it has loaded. */
SCENES_KEEP bool scenes_is_sound(SCENES_READ) SCENES_NONNULL;

/* Adds a scene, or gives it a new time and new fields. Answers 6, 1, 0x87, 2 or 0x85, 0x85 or 7 (pairs), 0x89, 0. */
SCENES_KEEP struct scenes_outcome scenes_add(SCENES_WRITE, struct scenes_key key, uint32_t time, uint8_t member,
                                             const uint8_t *SCENES_RESTRICT pairs, size_t pairs_len, const uint8_t *SCENES_RESTRICT ext,
                                             size_t ext_len) SCENES_NONNULL;

/* Stores captured bytes as a scene, which becomes the fabric's current one. Answers 6, 1, 0x87, 2 or 0x85, 3, 0x89, 0. */
SCENES_KEEP struct scenes_stored scenes_store(SCENES_WRITE, struct scenes_key key, uint8_t member,
                                              const uint8_t *SCENES_RESTRICT captured, size_t captured_len) SCENES_NONNULL;

/* A scene's time, position and length. Answers 6, 1, 0x87, 2 or 0x85, 0x8B, 0. */
SCENES_KEEP struct scenes_scene_read scenes_view(SCENES_READ, struct scenes_key key, uint8_t member) SCENES_NONNULL;

/* What a recall applies, before scenes_recall ends it: the scene's position and length, and its time, or `time` where `given` is not 0.
 * Answers as a view. */
SCENES_KEEP struct scenes_scene_read scenes_recall_lookup(SCENES_READ, struct scenes_key key, uint8_t member, uint8_t given,
                                                          uint32_t time) SCENES_NONNULL;

/* Ends a recall: `applied` is 1 if the host applied the scene, which then becomes the fabric's current one; any other number is no.
 * Answers 6, 1, 0x87, 2 or 0x85, 0x8B, 4, 0. */
SCENES_KEEP struct scenes_outcome scenes_recall(SCENES_WRITE_RECORDS, struct scenes_key key, uint8_t member, uint8_t applied) SCENES_NONNULL;

/* Removes a scene. Answers 6, 1, 0x87, 2 or 0x85, 0x8B, 0. */
SCENES_KEEP struct scenes_outcome scenes_remove(SCENES_WRITE, struct scenes_key key, uint8_t member) SCENES_NONNULL;

/* Removes all scenes of a group on an endpoint. Answers 6, 1, 2 or 0x85, 0. */
SCENES_KEEP struct scenes_outcome scenes_remove_all(SCENES_WRITE, struct scenes_group_key key, uint8_t member) SCENES_NONNULL;

/* Copies a scene, or a whole group; `source` and `target` say whether the endpoint is in either group.
 * Answers 6, 1, 0x87, 2 or 0x85 (source, then target), 0x89, 0x8B, 0. A whole group that runs out midway answers 0x89 and keeps its
 * copies: this refusal alone changes the table. */
SCENES_KEEP struct scenes_outcome scenes_copy(SCENES_WRITE, struct scenes_copy_request request, uint8_t source,
                                              uint8_t target) SCENES_NONNULL;

/* The remaining capacity, and the scene ids of a group, in the front of `ids`. Answers 6, 1, 2 or 0x85, 8, 0. */
SCENES_KEEP struct scenes_list_read scenes_get_membership(SCENES_READ, uint8_t *SCENES_RESTRICT ids, size_t ids_len,
                                                          struct scenes_group_key key, uint8_t member) SCENES_NONNULL;

/* The fabric's row of FabricSceneInfo on an endpoint; `single` is not 0 if one list element was asked for. Answers 6, 1, 5, 0. */
SCENES_KEEP struct scenes_info_read scenes_read_info(SCENES_READ, uint8_t fabric, uint16_t endpoint, uint8_t single) SCENES_NONNULL;

/* Where the field bytes of the entry at a position lie. None past the entries, with length 0, and in a table that is not sound. */
SCENES_KEEP struct scenes_field_place scenes_field_bytes(SCENES_READ, size_t at) SCENES_NONNULL;

/* A scenable attribute changed on an endpoint: no current scene there is valid any more. Answers 6, 0. */
SCENES_KEEP struct scenes_outcome scenes_attribute_changed(SCENES_WRITE_RECORDS, uint16_t endpoint) SCENES_NONNULL;

/* A fabric left: its scenes and its records go. Answers 6, 1, 0. */
SCENES_KEEP struct scenes_outcome scenes_remove_fabric(SCENES_WRITE, uint8_t fabric) SCENES_NONNULL;

/* A factory reset: an empty table, and a step of the data version. The host drops what it had saved. Answers 6, 0. */
SCENES_KEEP struct scenes_outcome scenes_factory_reset(SCENES_READ) SCENES_NONNULL;

/* Writes the table's image, which is what rs-matter saves, into the front of `buffer`: SCENES_IMAGE_MAX(N) bytes are always enough.
 * Answers 6, 8, 0. */
SCENES_KEEP struct scenes_image_saved scenes_save_image(SCENES_READ, uint8_t *SCENES_RESTRICT buffer, size_t buffer_len) SCENES_NONNULL;

/* Replaces the table's scenes and records by those of an image, in order, and steps the data version. Any bytes will do: what is no image
 * is refused, and changes nothing. An image of length 0, as a new memory chip has it, is scenes_startup. Answers 6, 9, 10, 0. */
SCENES_KEEP struct scenes_outcome scenes_load_image(SCENES_WRITE, const uint8_t *SCENES_RESTRICT image, size_t image_len) SCENES_NONNULL;

/* A startup without a saved table: an empty table at the data version that the head has. Answers 6, 0. */
SCENES_KEEP struct scenes_outcome scenes_startup(SCENES_READ) SCENES_NONNULL;

/* The fail-safe was committed, or expired: nothing changes. Answer 6, 0. */
SCENES_KEEP struct scenes_outcome scenes_fail_safe_commit(SCENES_READ) SCENES_NONNULL;
SCENES_KEEP struct scenes_outcome scenes_fail_safe_expiry(SCENES_READ) SCENES_NONNULL;

/* ---- The calls of libhost_fields.a, on raw field bytes
 *
 * The bytes are to be a list of extension field sets up to its closing 0x18, which is the last byte; no bytes at all hold no sets. A set is
 * an anonymous structure with its cluster number under context tag 0 and its array of pairs under tag 1; a pair is one with its attribute
 * number under tag 0. Each of these tags stands once, in any order; the numbers are unsigned below 2^32. Other members are skipped, with
 * containers to a depth of 16: a member that is one has depth 1. */

/* The cluster or the attribute at a cursor. Whatever the cursor holds, it is answered. */
SCENES_KEEP struct scenes_field_item scenes_next_item(const uint8_t *SCENES_RESTRICT bytes, size_t bytes_len,
                                                      struct scenes_cursor cursor) SCENES_NONNULL;

/* Writes a word for each pair, in order, into the front of `pairs`: SCENES_PAIRS_MAX(bytes_len) words are always enough. Answers 11, 8, 0. */
SCENES_KEEP struct scenes_pairs_read scenes_list_pairs(const uint8_t *SCENES_RESTRICT bytes, size_t bytes_len,
                                                       uint64_t *SCENES_RESTRICT pairs, size_t pairs_len) SCENES_NONNULL;

/* Adds a scene as scenes_add does, and reads its pairs out of `ext`: `pairs` has one pair byte for each of them, in order.
 * Answers 6, 1, 0x87, 2 or 0x85, 11, 0x85 or 7 (pairs), 0x89, 0. */
SCENES_KEEP struct scenes_outcome scenes_add_read(SCENES_WRITE, struct scenes_key key, uint32_t time, uint8_t member,
                                                  const uint8_t *SCENES_RESTRICT pairs, size_t pairs_len,
                                                  const uint8_t *SCENES_RESTRICT ext, size_t ext_len) SCENES_NONNULL;

/* ---- Words, statuses, heads */

static inline uint64_t scenes_key_word(struct scenes_key key) {
    return (uint64_t)key.fabric << SCENES_FABRIC_SHIFT | (uint64_t)key.endpoint << SCENES_ENDPOINT_SHIFT |
           (uint64_t)key.group << SCENES_GROUP_SHIFT | key.scene;
}

static inline uint64_t scenes_record_word(struct scenes_key key, bool valid) {
    return scenes_key_word(key) | (valid ? SCENES_RECORD_VALID : 0);
}

/* The parts of a key word or of a record word. */
static inline struct scenes_key scenes_key_of_word(uint64_t word) {
    struct scenes_key key;
    key.fabric = (uint8_t)(word >> SCENES_FABRIC_SHIFT);
    key.endpoint = (uint16_t)(word >> SCENES_ENDPOINT_SHIFT);
    key.group = (uint16_t)(word >> SCENES_GROUP_SHIFT);
    key.scene = (uint8_t)word;
    return key;
}

static inline bool scenes_record_is_valid(uint64_t word) {
    return (word & SCENES_RECORD_VALID) != 0;
}

/* What a status says. */
static inline const char *scenes_status_text(uint8_t status) {
    switch (status) {
    case SCENES_SUCCESS: return "success";
    case SCENES_NO_FABRIC: return "no fabric";
    case SCENES_MEMBERSHIP_FAILED: return "the membership could not be told";
    case SCENES_CAPTURE_TOO_LONG: return "captured bytes over 127";
    case SCENES_APPLY_FAILED: return "the scene could not be applied";
    case SCENES_SINGLE_ELEMENT: return "one list element was asked for";
    case SCENES_UNSOUND: return "the table or the memberships are not sound";
    case SCENES_BAD_PAIR: return "a pair byte above 2";
    case SCENES_BUFFER_TOO_SHORT: return "the buffer is too short";
    case SCENES_BAD_IMAGE: return "no image of a table of this size";
    case SCENES_CLASHING_IMAGE: return "an image that contradicts itself";
    case SCENES_BAD_FIELD_SETS: return "no field sets, or not a pair byte for each pair";
    case SCENES_MEMBERSHIPS_FULL: return "all memberships are taken";
    case SCENES_INVALID_COMMAND: return "not in the group, or not scenable";
    case SCENES_CONSTRAINT_ERROR: return "a scene id or a time out of range, or group 0 joined or left";
    case SCENES_INSUFFICIENT_SPACE: return "no room";
    case SCENES_NOT_FOUND: return "no such scene or membership";
    default: return "no status of the table";
    }
}

/* Whether two heads are the same. */
static inline bool scenes_state_equal(struct scenes_state a, struct scenes_state b) {
    return a.size == b.size && a.entries == b.entries && a.recorded == b.recorded && a.dataver == b.dataver && a.modes == b.modes;
}

/* Bytes that may be NULL where there are none. */
static inline const uint8_t *scenes_bytes_or_none(const uint8_t *bytes, size_t len) {
    return len == 0 ? (const uint8_t *)"" : bytes;
}

/* ---- Field bytes, item by item or as a list of pairs: NULL with count 0 will do for the bytes, and for the list */

/* The first item. */
SCENES_KEEP static inline struct scenes_field_item scenes_fields_first(const uint8_t *bytes, size_t len) {
    struct scenes_cursor start = {0, 0, 0};
    return scenes_next_item(scenes_bytes_or_none(bytes, len), len, start);
}

/* The item behind one: behind the end, and behind a refusal, the same again. */
SCENES_KEEP static inline struct scenes_field_item scenes_fields_next(const uint8_t *bytes, size_t len, struct scenes_field_item item) {
    return scenes_next_item(scenes_bytes_or_none(bytes, len), len, item.cursor);
}

SCENES_KEEP static inline struct scenes_pairs_read scenes_fields_list_pairs(const uint8_t *bytes, size_t len, uint64_t *pairs,
                                                                            size_t pairs_len) {
    uint64_t none = 0;
    return scenes_list_pairs(scenes_bytes_or_none(bytes, len), len, pairs_len == 0 ? &none : pairs, pairs_len);
}

/* ---- The calls over a table that holds its head: each is the call of its name above, and keeps the head that comes back */

#define SCENES_LENT(t)                                                                                                         \
    (t)->state, (t)->keys, (t)->places, (t)->times, (t)->places, (t)->fields, (t)->places *SCENES_STRIDE, (t)->records, (t)->places

static inline struct scenes_outcome scenes_table_keep(struct scenes_table *table, struct scenes_outcome outcome) {
    table->state = outcome.state;
    return outcome;
}

/* An empty table in the host's arrays, without modes. For a saved one load its image by scenes_table_load_image: of length 0, if there is
 * none yet. */
SCENES_KEEP SCENES_NONNULL static inline struct scenes_table scenes_table_new(size_t places, uint64_t *keys, uint32_t *times,
                                                                              uint8_t *fields, uint64_t *records) {
    struct scenes_table table;
    table.state = scenes_new(places);
    table.places = places;
    table.keys = keys;
    table.times = times;
    table.fields = fields;
    table.records = records;
    return table;
}

/* The same with modes. */
SCENES_KEEP SCENES_NONNULL static inline struct scenes_table scenes_table_new_with_modes(size_t places, uint8_t modes, uint64_t *keys,
                                                                                         uint32_t *times, uint8_t *fields,
                                                                                         uint64_t *records) {
    struct scenes_table table = scenes_table_new(places, keys, times, fields, records);
    table.state = scenes_new_with_modes(places, modes);
    return table;
}

SCENES_KEEP static inline bool scenes_table_is_sound(const struct scenes_table *t) {
    return scenes_is_sound(SCENES_LENT(t));
}

SCENES_KEEP static inline struct scenes_outcome scenes_table_add(struct scenes_table *t, struct scenes_key key, uint32_t time,
                                                                 uint8_t member, const uint8_t *pairs, size_t pairs_len,
                                                                 const uint8_t *ext, size_t ext_len) {
    return scenes_table_keep(t, scenes_add(SCENES_LENT(t), key, time, member, scenes_bytes_or_none(pairs, pairs_len), pairs_len,
                                           scenes_bytes_or_none(ext, ext_len), ext_len));
}

SCENES_KEEP static inline struct scenes_outcome scenes_table_add_read(struct scenes_table *t, struct scenes_key key, uint32_t time,
                                                                      uint8_t member, const uint8_t *pairs, size_t pairs_len,
                                                                      const uint8_t *ext, size_t ext_len) {
    return scenes_table_keep(t, scenes_add_read(SCENES_LENT(t), key, time, member, scenes_bytes_or_none(pairs, pairs_len), pairs_len,
                                                scenes_bytes_or_none(ext, ext_len), ext_len));
}

SCENES_KEEP static inline struct scenes_stored scenes_table_store(struct scenes_table *t, struct scenes_key key, uint8_t member,
                                                                  const uint8_t *captured, size_t captured_len) {
    struct scenes_stored stored =
        scenes_store(SCENES_LENT(t), key, member, scenes_bytes_or_none(captured, captured_len), captured_len);
    t->state = stored.state;
    return stored;
}

SCENES_KEEP static inline struct scenes_scene_read scenes_table_view(const struct scenes_table *t, struct scenes_key key,
                                                                     uint8_t member) {
    return scenes_view(SCENES_LENT(t), key, member);
}

SCENES_KEEP static inline struct scenes_scene_read scenes_table_recall_lookup(const struct scenes_table *t, struct scenes_key key,
                                                                              uint8_t member, uint8_t given, uint32_t time) {
    return scenes_recall_lookup(SCENES_LENT(t), key, member, given, time);
}

/* The field bytes that a view or a lookup found, `read.len` of them; they hold until the table is next written. */
static inline const uint8_t *scenes_table_found(const struct scenes_table *t, struct scenes_scene_read read) {
    return t->fields + (read.status == SCENES_SUCCESS ? read.at * SCENES_STRIDE + 1 : 0);
}

SCENES_KEEP static inline struct scenes_outcome scenes_table_recall(struct scenes_table *t, struct scenes_key key, uint8_t member,
                                                                    uint8_t applied) {
    return scenes_table_keep(t, scenes_recall(SCENES_LENT(t), key, member, applied));
}

SCENES_KEEP static inline struct scenes_outcome scenes_table_remove(struct scenes_table *t, struct scenes_key key, uint8_t member) {
    return scenes_table_keep(t, scenes_remove(SCENES_LENT(t), key, member));
}

SCENES_KEEP static inline struct scenes_outcome scenes_table_remove_all(struct scenes_table *t, struct scenes_group_key key,
                                                                        uint8_t member) {
    return scenes_table_keep(t, scenes_remove_all(SCENES_LENT(t), key, member));
}

SCENES_KEEP static inline struct scenes_outcome scenes_table_copy(struct scenes_table *t, struct scenes_copy_request request,
                                                                  uint8_t source, uint8_t target) {
    return scenes_table_keep(t, scenes_copy(SCENES_LENT(t), request, source, target));
}

SCENES_KEEP static inline struct scenes_list_read scenes_table_get_membership(const struct scenes_table *t, uint8_t *ids, size_t ids_len,
                                                                              struct scenes_group_key key, uint8_t member) {
    uint8_t none = 0;
    return scenes_get_membership(SCENES_LENT(t), ids_len == 0 ? &none : ids, ids_len, key, member);
}

SCENES_KEEP static inline struct scenes_info_read scenes_table_read_info(const struct scenes_table *t, uint8_t fabric, uint16_t endpoint,
                                                                         uint8_t single) {
    return scenes_read_info(SCENES_LENT(t), fabric, endpoint, single);
}

SCENES_KEEP static inline struct scenes_field_place scenes_table_field_bytes(const struct scenes_table *t, size_t at) {
    return scenes_field_bytes(SCENES_LENT(t), at);
}

SCENES_KEEP static inline struct scenes_outcome scenes_table_attribute_changed(struct scenes_table *t, uint16_t endpoint) {
    return scenes_table_keep(t, scenes_attribute_changed(SCENES_LENT(t), endpoint));
}

SCENES_KEEP static inline struct scenes_outcome scenes_table_remove_fabric(struct scenes_table *t, uint8_t fabric) {
    return scenes_table_keep(t, scenes_remove_fabric(SCENES_LENT(t), fabric));
}

SCENES_KEEP static inline struct scenes_outcome scenes_table_factory_reset(struct scenes_table *t) {
    return scenes_table_keep(t, scenes_factory_reset(SCENES_LENT(t)));
}

SCENES_KEEP static inline struct scenes_image_saved scenes_table_save_image(const struct scenes_table *t, uint8_t *buffer,
                                                                            size_t buffer_len) {
    uint8_t none = 0;
    return scenes_save_image(SCENES_LENT(t), buffer_len == 0 ? &none : buffer, buffer_len);
}

SCENES_KEEP static inline struct scenes_outcome scenes_table_load_image(struct scenes_table *t, const uint8_t *image, size_t image_len) {
    return scenes_table_keep(t, scenes_load_image(SCENES_LENT(t), scenes_bytes_or_none(image, image_len), image_len));
}

SCENES_KEEP static inline struct scenes_outcome scenes_table_startup(struct scenes_table *t) {
    return scenes_table_keep(t, scenes_startup(SCENES_LENT(t)));
}

SCENES_KEEP static inline struct scenes_outcome scenes_table_fail_safe_commit(struct scenes_table *t) {
    return scenes_table_keep(t, scenes_fail_safe_commit(SCENES_LENT(t)));
}

SCENES_KEEP static inline struct scenes_outcome scenes_table_fail_safe_expiry(struct scenes_table *t) {
    return scenes_table_keep(t, scenes_fail_safe_expiry(SCENES_LENT(t)));
}

/* The macros stay: scenes_unchecked.h and scenes_groups.h declare their calls by them. */

#ifdef __cplusplus
}
#endif

#endif
