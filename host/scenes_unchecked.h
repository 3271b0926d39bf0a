/* The calls of a scene table without the test of the table, for hosts in C: those of libhost_unchecked.a, which `bash prove host_unchecked`
 * builds, and an add by raw field bytes, of libhost_fields.a. A host links libhost.a besides, since a table is made and tested by its calls.
 *
 * The calls of scenes.h are what a host takes first. Each of them tests the whole table before anything else, and answers 6 where it is not
 * sound. The calls here leave that out. They are for a table whose head and arrays only calls of the library write: nobody else does, no other
 * task, no DMA, no debugger, no stray pointer.
 *
 * What the caller promises at each call, also at one that only reads: the table is sound. That is, scenes_is_sound would say true of the head
 * and the arrays that are handed over. What scenes.h asks of pointers is asked here too.
 *
 * Why a host can know that without asking:
 *
 *   - A table that scenes_new or scenes_new_with_modes made is sound, if N is at most 1,024 and the arrays are long enough.
 *   - A table of which scenes_is_sound said true is sound.
 *   - Each call, checked or not, a load among them, leaves a sound table sound, whatever it answers, if the head that it hands back is kept.
 *
 * The first and the third are proved: `new-sound` and `stays_sound` in crates/observation/proofs/Owned.antt, with their statements in
 * crates/observation/specs/Owned.antt. So both kinds of calls may be made on one table, in any order.
 *
 * What is given up: memory that a stray write has damaged is no longer noticed. If the table is not sound, nothing fixes what an unchecked call
 * answers. It may read or write outside the arrays, since a count or a length byte says where it goes, or answer something else than the table
 * held. The checked calls answer 6 there, and write nothing. Damage that leaves a table sound, such as another time, is noticed by neither.
 *
 * When to call scenes_is_sound:
 *
 *   - Before the first unchecked call on memory that came from anywhere but a call: raw parts kept over a restart, memory mapped from a file.
 *   - After anything that may have written there: a watchdog reset, a fault handler, a memory error that was reported.
 *   - At intervals that the host chooses, in idle time or before each save, say: it costs about what a checked call costs.
 *
 * A checked call tests as well, a load through scenes_load_image among them: where its status is not 6, the table was sound. A table that is not
 * sound is not to be used or saved any more: a new head over the same arrays is sound again, and the last image is loaded into it.
 *
 *     struct scenes_table table = scenes_table_new(16, keys, times, fields, records);
 *     struct scenes_stored stored = scenes_table_store_unchecked(&table, key, SCENES_MEMBER_YES, captured, captured_len);
 *     if (stored.save && scenes_table_is_sound(&table))
 *         ..
 */
#ifndef SCENES_UNCHECKED_H
#define SCENES_UNCHECKED_H

#include "scenes.h"

#ifdef __cplusplus
extern "C" {
#endif

/* ---- The calls: each is that of scenes.h of its name, with the same parameters and the same answers, but never 6 */

/* scenes_add without the test. Answers 1, 0x87, 2 or 0x85, 0x85 or 7 (pairs), 0x89, 0. */
SCENES_KEEP struct scenes_outcome scenes_add_unchecked(SCENES_WRITE, struct scenes_key key, uint32_t time, uint8_t member,
                                                       const uint8_t *SCENES_RESTRICT pairs, size_t pairs_len,
                                                       const uint8_t *SCENES_RESTRICT ext, size_t ext_len) SCENES_NONNULL;

/* scenes_add_read without the test, also of libhost_fields.a. Answers 1, 0x87, 2 or 0x85, 11, 0x85 or 7 (pairs), 0x89, 0. */
SCENES_KEEP struct scenes_outcome scenes_add_read_unchecked(SCENES_WRITE, struct scenes_key key, uint32_t time, uint8_t member,
                                                            const uint8_t *SCENES_RESTRICT pairs, size_t pairs_len,
                                                            const uint8_t *SCENES_RESTRICT ext, size_t ext_len) SCENES_NONNULL;

/* scenes_store without the test. Answers 1, 0x87, 2 or 0x85, 3, 0x89, 0. */
SCENES_KEEP struct scenes_stored scenes_store_unchecked(SCENES_WRITE, struct scenes_key key, uint8_t member,
                                                        const uint8_t *SCENES_RESTRICT captured, size_t captured_len) SCENES_NONNULL;

/* scenes_view without the test. Answers 1, 0x87, 2 or 0x85, 0x8B, 0. */
SCENES_KEEP struct scenes_scene_read scenes_view_unchecked(SCENES_READ, struct scenes_key key, uint8_t member) SCENES_NONNULL;

/* scenes_recall_lookup without the test. Answers as a view. */
SCENES_KEEP struct scenes_scene_read scenes_recall_lookup_unchecked(SCENES_READ, struct scenes_key key, uint8_t member, uint8_t given,
                                                                    uint32_t time) SCENES_NONNULL;

/* scenes_recall without the test. Answers 1, 0x87, 2 or 0x85, 0x8B, 4, 0. */
SCENES_KEEP struct scenes_outcome scenes_recall_unchecked(SCENES_WRITE_RECORDS, struct scenes_key key, uint8_t member,
                                                          uint8_t applied) SCENES_NONNULL;

/* scenes_remove without the test. Answers 1, 0x87, 2 or 0x85, 0x8B, 0. */
SCENES_KEEP struct scenes_outcome scenes_remove_unchecked(SCENES_WRITE, struct scenes_key key, uint8_t member) SCENES_NONNULL;

/* scenes_remove_all without the test. Answers 1, 2 or 0x85, 0. */
SCENES_KEEP struct scenes_outcome scenes_remove_all_unchecked(SCENES_WRITE, struct scenes_group_key key, uint8_t member) SCENES_NONNULL;

/* scenes_copy without the test. Answers 1, 0x87, 2 or 0x85 (source, then target), 0x89, 0x8B, 0. */
SCENES_KEEP struct scenes_outcome scenes_copy_unchecked(SCENES_WRITE, struct scenes_copy_request request, uint8_t source,
                                                        uint8_t target) SCENES_NONNULL;

/* scenes_get_membership without the test. Answers 1, 2 or 0x85, 8, 0. */
SCENES_KEEP struct scenes_list_read scenes_get_membership_unchecked(SCENES_READ, uint8_t *SCENES_RESTRICT ids, size_t ids_len,
                                                                    struct scenes_group_key key, uint8_t member) SCENES_NONNULL;

/* scenes_read_info without the test. Answers 1, 5, 0. */
SCENES_KEEP struct scenes_info_read scenes_read_info_unchecked(SCENES_READ, uint8_t fabric, uint16_t endpoint, uint8_t single) SCENES_NONNULL;

/* scenes_field_bytes without the test. None past the entries and with length 0. */
SCENES_KEEP struct scenes_field_place scenes_field_bytes_unchecked(SCENES_READ, size_t at) SCENES_NONNULL;

/* scenes_attribute_changed without the test. Answers 0. */
SCENES_KEEP struct scenes_outcome scenes_attribute_changed_unchecked(SCENES_WRITE_RECORDS, uint16_t endpoint) SCENES_NONNULL;

/* scenes_remove_fabric without the test. Answers 1, 0. */
SCENES_KEEP struct scenes_outcome scenes_remove_fabric_unchecked(SCENES_WRITE, uint8_t fabric) SCENES_NONNULL;

/* scenes_factory_reset without the test. Answers 0. */
SCENES_KEEP struct scenes_outcome scenes_factory_reset_unchecked(SCENES_READ) SCENES_NONNULL;

/* scenes_save_image without the test. Answers 8, 0. */
SCENES_KEEP struct scenes_image_saved scenes_save_image_unchecked(SCENES_READ, uint8_t *SCENES_RESTRICT buffer,
                                                                  size_t buffer_len) SCENES_NONNULL;

/* scenes_load_image without the test of the table that is there. The image is tested as ever: any bytes will do. Answers 9, 10, 0. */
SCENES_KEEP struct scenes_outcome scenes_load_image_unchecked(SCENES_WRITE, const uint8_t *SCENES_RESTRICT image,
                                                              size_t image_len) SCENES_NONNULL;

/* scenes_startup without the test. Answers 0. */
SCENES_KEEP struct scenes_outcome scenes_startup_unchecked(SCENES_READ) SCENES_NONNULL;

/* scenes_fail_safe_commit and scenes_fail_safe_expiry without the test. Answer 0. */
SCENES_KEEP struct scenes_outcome scenes_fail_safe_commit_unchecked(SCENES_READ) SCENES_NONNULL;
SCENES_KEEP struct scenes_outcome scenes_fail_safe_expiry_unchecked(SCENES_READ) SCENES_NONNULL;

/* ---- The calls over a table that holds its head: each is the call of its name above, and keeps the head that comes back */

SCENES_KEEP static inline struct scenes_outcome scenes_table_add_unchecked(struct scenes_table *t, struct scenes_key key, uint32_t time,
                                                                           uint8_t member, const uint8_t *pairs, size_t pairs_len,
                                                                           const uint8_t *ext, size_t ext_len) {
    return scenes_table_keep(t, scenes_add_unchecked(SCENES_LENT(t), key, time, member, scenes_bytes_or_none(pairs, pairs_len), pairs_len,
                                                     scenes_bytes_or_none(ext, ext_len), ext_len));
}

SCENES_KEEP static inline struct scenes_outcome scenes_table_add_read_unchecked(struct scenes_table *t, struct scenes_key key, uint32_t time,
                                                                                uint8_t member, const uint8_t *pairs, size_t pairs_len,
                                                                                const uint8_t *ext, size_t ext_len) {
    return scenes_table_keep(t, scenes_add_read_unchecked(SCENES_LENT(t), key, time, member, scenes_bytes_or_none(pairs, pairs_len),
                                                          pairs_len, scenes_bytes_or_none(ext, ext_len), ext_len));
}

SCENES_KEEP static inline struct scenes_stored scenes_table_store_unchecked(struct scenes_table *t, struct scenes_key key, uint8_t member,
                                                                            const uint8_t *captured, size_t captured_len) {
    struct scenes_stored stored =
        scenes_store_unchecked(SCENES_LENT(t), key, member, scenes_bytes_or_none(captured, captured_len), captured_len);
    t->state = stored.state;
    return stored;
}

SCENES_KEEP static inline struct scenes_scene_read scenes_table_view_unchecked(const struct scenes_table *t, struct scenes_key key,
                                                                               uint8_t member) {
    return scenes_view_unchecked(SCENES_LENT(t), key, member);
}

SCENES_KEEP static inline struct scenes_scene_read scenes_table_recall_lookup_unchecked(const struct scenes_table *t, struct scenes_key key,
                                                                                        uint8_t member, uint8_t given, uint32_t time) {
    return scenes_recall_lookup_unchecked(SCENES_LENT(t), key, member, given, time);
}

SCENES_KEEP static inline struct scenes_outcome scenes_table_recall_unchecked(struct scenes_table *t, struct scenes_key key, uint8_t member,
                                                                              uint8_t applied) {
    return scenes_table_keep(t, scenes_recall_unchecked(SCENES_LENT(t), key, member, applied));
}

SCENES_KEEP static inline struct scenes_outcome scenes_table_remove_unchecked(struct scenes_table *t, struct scenes_key key, uint8_t member) {
    return scenes_table_keep(t, scenes_remove_unchecked(SCENES_LENT(t), key, member));
}

SCENES_KEEP static inline struct scenes_outcome scenes_table_remove_all_unchecked(struct scenes_table *t, struct scenes_group_key key,
                                                                                  uint8_t member) {
    return scenes_table_keep(t, scenes_remove_all_unchecked(SCENES_LENT(t), key, member));
}

SCENES_KEEP static inline struct scenes_outcome scenes_table_copy_unchecked(struct scenes_table *t, struct scenes_copy_request request,
                                                                            uint8_t source, uint8_t target) {
    return scenes_table_keep(t, scenes_copy_unchecked(SCENES_LENT(t), request, source, target));
}

SCENES_KEEP static inline struct scenes_list_read scenes_table_get_membership_unchecked(const struct scenes_table *t, uint8_t *ids,
                                                                                        size_t ids_len, struct scenes_group_key key,
                                                                                        uint8_t member) {
    uint8_t none = 0;
    return scenes_get_membership_unchecked(SCENES_LENT(t), ids_len == 0 ? &none : ids, ids_len, key, member);
}

SCENES_KEEP static inline struct scenes_info_read scenes_table_read_info_unchecked(const struct scenes_table *t, uint8_t fabric,
                                                                                   uint16_t endpoint, uint8_t single) {
    return scenes_read_info_unchecked(SCENES_LENT(t), fabric, endpoint, single);
}

SCENES_KEEP static inline struct scenes_field_place scenes_table_field_bytes_unchecked(const struct scenes_table *t, size_t at) {
    return scenes_field_bytes_unchecked(SCENES_LENT(t), at);
}

SCENES_KEEP static inline struct scenes_outcome scenes_table_attribute_changed_unchecked(struct scenes_table *t, uint16_t endpoint) {
    return scenes_table_keep(t, scenes_attribute_changed_unchecked(SCENES_LENT(t), endpoint));
}

SCENES_KEEP static inline struct scenes_outcome scenes_table_remove_fabric_unchecked(struct scenes_table *t, uint8_t fabric) {
    return scenes_table_keep(t, scenes_remove_fabric_unchecked(SCENES_LENT(t), fabric));
}

SCENES_KEEP static inline struct scenes_outcome scenes_table_factory_reset_unchecked(struct scenes_table *t) {
    return scenes_table_keep(t, scenes_factory_reset_unchecked(SCENES_LENT(t)));
}

SCENES_KEEP static inline struct scenes_image_saved scenes_table_save_image_unchecked(const struct scenes_table *t, uint8_t *buffer,
                                                                                      size_t buffer_len) {
    uint8_t none = 0;
    return scenes_save_image_unchecked(SCENES_LENT(t), buffer_len == 0 ? &none : buffer, buffer_len);
}

SCENES_KEEP static inline struct scenes_outcome scenes_table_load_image_unchecked(struct scenes_table *t, const uint8_t *image,
                                                                                  size_t image_len) {
    return scenes_table_keep(t, scenes_load_image_unchecked(SCENES_LENT(t), scenes_bytes_or_none(image, image_len), image_len));
}

SCENES_KEEP static inline struct scenes_outcome scenes_table_startup_unchecked(struct scenes_table *t) {
    return scenes_table_keep(t, scenes_startup_unchecked(SCENES_LENT(t)));
}

SCENES_KEEP static inline struct scenes_outcome scenes_table_fail_safe_commit_unchecked(struct scenes_table *t) {
    return scenes_table_keep(t, scenes_fail_safe_commit_unchecked(SCENES_LENT(t)));
}

SCENES_KEEP static inline struct scenes_outcome scenes_table_fail_safe_expiry_unchecked(struct scenes_table *t) {
    return scenes_table_keep(t, scenes_fail_safe_expiry_unchecked(SCENES_LENT(t)));
}

#ifdef __cplusplus
}
#endif

#endif
