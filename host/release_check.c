/* The release check of a controller in C: on a new memory chip two owners store a scene each, one owner is removed, and the table is read. */
#include "scenes.h"

#include <stdio.h>
#include <string.h>

enum { N = 16, ENDPOINT = 1, GROUP = 7, SCENE = 5, OWNER = 1, OTHER = 2 };

static uint64_t keys[N], records[N];
static uint32_t times[N];
static uint8_t fields[SCENES_STRIDE * N];

static struct scenes_key scene_of(uint8_t owner) {
    struct scenes_key key = {owner, ENDPOINT, GROUP, SCENE};
    return key;
}

/* Says what went wrong. */
static int failed(const char *what, uint8_t status) {
    printf("RELEASE CHECK FAILED: do not ship. %s The last answer: %s.\n", what, scenes_status_text(status));
    return 1;
}

/* Whether the scene's fields are the captured bytes with the end of their container. */
static bool holds(const struct scenes_table *table, struct scenes_scene_read read, const uint8_t *captured, size_t len) {
    const uint8_t *found = scenes_table_found(table, read);
    return read.len == len + 1 && memcmp(found, captured, len) == 0 && found[len] == 0x18;
}

int main(void) {
    static const uint8_t captured[] = {0x15, 0x24, 0x00, 0x06, 0x18};
    if (scenes_version() != SCENES_VERSION) {
        puts("RELEASE CHECK FAILED: do not ship. The library is not the one that the header is for.");
        return 1;
    }
    struct scenes_table table = scenes_table_new(N, keys, times, fields, records);
    struct scenes_outcome started = scenes_table_load_image(&table, NULL, 0);
    if (started.status != SCENES_SUCCESS || started.save || table.state.entries != 0 || table.state.recorded != 0 || table.state.dataver != 0)
        return failed("The table could not be started on a new chip.", started.status);
    for (uint8_t owner = OWNER; owner <= OTHER; owner++) {
        struct scenes_stored stored = scenes_table_store(&table, scene_of(owner), SCENES_MEMBER_YES, captured, sizeof captured);
        if (stored.status != SCENES_SUCCESS || !stored.save || table.state.entries != owner || table.state.recorded != owner)
            return failed("A scene could not be stored.", stored.status);
    }
    struct scenes_scene_read before = scenes_table_view(&table, scene_of(OWNER), SCENES_MEMBER_YES);
    if (before.status != SCENES_SUCCESS || !holds(&table, before, captured, sizeof captured))
        return failed("A stored scene could not be read.", before.status);

    struct scenes_outcome removed = scenes_table_remove_fabric(&table, OWNER);
    if (removed.status != SCENES_SUCCESS || !removed.save)
        return failed("The owner could not be removed.", removed.status);

    struct scenes_scene_read after = scenes_table_view(&table, scene_of(OWNER), SCENES_MEMBER_YES);
    struct scenes_info_read info = scenes_table_read_info(&table, OWNER, ENDPOINT, SCENES_SINGLE_NO);
    if (after.status != SCENES_NOT_FOUND || info.status != SCENES_SUCCESS || info.present || table.state.entries != 1 || table.state.recorded != 1)
        return failed("Something of the removed owner is left in the table.", after.status);
    struct scenes_scene_read kept = scenes_table_view(&table, scene_of(OTHER), SCENES_MEMBER_YES);
    if (kept.status != SCENES_SUCCESS || !holds(&table, kept, captured, sizeof captured) || !scenes_table_is_sound(&table))
        return failed("The other owner's scene was lost.", kept.status);

    puts("Release check passed: two owners stored a scene each, one owner was removed, nothing of hers is left, and the other's scene is as it was.");
    return 0;
}
