/* A host that keeps its table over a power failure, in a file. It is POSIX, and C99 and C++11 or later.
 *
 *     keep FILE          starts with the table in FILE, and then changes and saves it, round after round, until it is ended
 *     keep --show FILE   starts with the table in FILE, and tells which round it is of
 *
 * In a round every scene gets the number of the round as its time, and the table is saved once. So a table whose times differ would be one
 * that was saved in part. The number of each round is written to standard output when its image is safe.
 *
 * The new image is written beside the old one, flushed to the disk and then put in its place by one rename, which is flushed too: whenever
 * the power fails, FILE holds the old image or the new one, whole. */
#ifndef _POSIX_C_SOURCE
#define _POSIX_C_SOURCE 200809L
#endif
#include "scenes.h"

#include <errno.h>
#include <fcntl.h>
#include <libgen.h>
#include <stdio.h>
#include <string.h>
#include <unistd.h>

enum { N = 64, SCENES = 60, PATH = 4096 };

static uint64_t keys[N], records[N];
static uint32_t times[N];
static uint8_t fields[SCENES_STRIDE * N];
static uint8_t image[SCENES_IMAGE_MAX(N)];
static struct scenes_table table;

/* Writes all of some bytes to a file that is open. */
static bool write_all(int file, const uint8_t *bytes, size_t len) {
    while (len > 0) {
        ssize_t n = write(file, bytes, len);
        if (n < 0 && errno == EINTR)
            continue;
        if (n <= 0)
            return false;
        bytes += n;
        len -= (size_t)n;
    }
    return true;
}

/* Makes the names in the folder of a file safe. */
static bool flush_folder(const char *path) {
    char copy[PATH];
    snprintf(copy, sizeof copy, "%s", path);
    int folder = open(dirname(copy), O_RDONLY);
    if (folder < 0)
        return false;
    bool done = fsync(folder) == 0;
    return close(folder) == 0 && done;
}

/* Puts an image in the place of the one before it: the old one stays until the new one is on the disk. */
static bool replace(const char *path, const uint8_t *bytes, size_t len) {
    char beside[PATH];
    if (snprintf(beside, sizeof beside, "%s.new", path) >= (int)sizeof beside)
        return false;
    int file = open(beside, O_WRONLY | O_CREAT | O_TRUNC, 0600);
    if (file < 0)
        return false;
    bool written = write_all(file, bytes, len) && fsync(file) == 0;
    if (close(file) != 0 || !written)
        return false;
    return rename(beside, path) == 0 && flush_folder(path);
}

static bool save(const char *path) {
    struct scenes_image_saved saved = scenes_table_save_image(&table, image, sizeof image);
    return saved.status == SCENES_SUCCESS && replace(path, image, saved.len);
}

/* Sets a refused image aside, for whoever repairs the device, and starts without one. */
static bool start_without(const char *path, uint8_t status) {
    char aside[PATH];
    fprintf(stderr, "keep: %s: %s\n", path, scenes_status_text(status));
    if (snprintf(aside, sizeof aside, "%s.refused", path) >= (int)sizeof aside || rename(path, aside) != 0)
        return false;
    return scenes_table_startup(&table).status == SCENES_SUCCESS;
}

/* The table of the file; an empty one if there is none yet, or if nothing was written to it, as on a new chip: no bytes are loaded then. */
static bool start(const char *path) {
    table = scenes_table_new(N, keys, times, fields, records);
    int file = open(path, O_RDONLY);
    if (file < 0)
        return errno == ENOENT && scenes_table_load_image(&table, NULL, 0).status == SCENES_SUCCESS;
    size_t len = 0;
    ssize_t n = 1;
    /* No image that was saved here is longer. Of a longer file this front is loaded or refused, as any bytes are. */
    static uint8_t bytes[SCENES_IMAGE_MAX(N)];
    while (len < sizeof bytes && n > 0) {
        n = read(file, bytes + len, sizeof bytes - len);
        if (n < 0 && errno == EINTR)
            n = 1;
        else if (n > 0)
            len += (size_t)n;
    }
    close(file);
    if (n < 0)
        return false;
    struct scenes_outcome loaded = scenes_table_load_image(&table, bytes, len);
    return loaded.status == SCENES_SUCCESS || start_without(path, loaded.status);
}

/* Every scene gets the time of a round, and fields that are as long as the number says. */
static bool change(uint32_t round) {
    uint8_t ext[SCENES_MAX_FIELDS];
    memset(ext, (int)(round & 0xFF), sizeof ext);
    for (uint8_t i = 0; i < SCENES; i++) {
        struct scenes_key key = {1, 1, (uint16_t)i, 1};
        if (scenes_table_add(&table, key, round, SCENES_MEMBER_YES, NULL, 0, ext, (round + i) % (SCENES_MAX_FIELDS + 1)).status != SCENES_SUCCESS)
            return false;
    }
    return true;
}

/* The round that the table is of: 0 if it is empty, and -1 if it is not whole. */
static long round_of_table(void) {
    if (table.state.entries == 0)
        return 0;
    for (size_t i = 0; i < table.state.entries; i++) {
        const uint8_t *entry = fields + i * SCENES_STRIDE;
        if (times[i] != times[0] || entry[0] != (times[0] + i) % (SCENES_MAX_FIELDS + 1))
            return -1;
        for (uint8_t k = 0; k < entry[0]; k++)
            if (entry[1 + k] != (times[0] & 0xFF))
                return -1;
    }
    return table.state.entries == SCENES ? (long)times[0] : -1;
}

int main(int argc, char **argv) {
    bool show = argc == 3 && strcmp(argv[1], "--show") == 0;
    if (!show && argc != 2) {
        fputs("usage: keep FILE, or keep --show FILE\n", stderr);
        return 2;
    }
    const char *path = argv[argc - 1];
    if (!start(path)) {
        fprintf(stderr, "keep: %s cannot be used\n", path);
        return 1;
    }
    long round = round_of_table();
    if (show || round < 0) {
        printf("%ld\n", round);
        return round < 0;
    }
    for (uint32_t next = (uint32_t)round + 1; next < SCENES_MAX_TIME; next++) {
        if (!change(next) || !save(path))
            return 1;
        printf("%u\n", (unsigned)next);
        fflush(stdout);
    }
    return 0;
}
