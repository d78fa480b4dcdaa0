/* What the callers share: files, statuses and buffers. */
#include "btworld.h"
#include <inttypes.h>
#include <stdio.h>
#include <stdlib.h>
#include <string.h>

static void need(const char *what, uint32_t status) {
    if (status == BTWORLD_OK) return;
    fprintf(stderr, "%s: %s\n", what, btworld_status_text(status));
    exit(status == BTWORLD_NO_MEMORY ? 3 : 4);
}
#define NEED(call) need(#call, call)

/* The bytes of a file, or none for `-`. */
static uint8_t *read_file(const char *path, size_t *length) {
    FILE *file = strcmp(path, "-") ? fopen(path, "rb") : NULL;
    size_t room = 1 << 16, got;
    uint8_t *bytes = malloc(room);
    *length = 0;
    if (!bytes) exit(3);
    if (!file && strcmp(path, "-")) { fprintf(stderr, "file: %s\n", path); exit(1); }
    while (file && (got = fread(bytes + *length, 1, room - *length, file)) > 0)
        if ((*length += got) == room && !(bytes = realloc(bytes, room *= 2))) exit(3);
    if (file) fclose(file);
    return bytes;
}

/* Asks for bytes of which the number isn't known: first with no room, and again with what is wanted. */
#define WITH_ROOM(status, buffer, size, call) do { \
        size_t capacity = 0; \
        buffer = NULL; \
        while (((status) = (call)) == BTWORLD_SHORT) \
            if (!((buffer) = (uint8_t *)realloc(buffer, capacity = (size)))) exit(3); \
    } while (0)

/* Writes the line of the first fault of a level or a script as btworld does, and ends with its status. */
static void refuse(const uint8_t *level, size_t level_length, const uint8_t *script, size_t script_length) {
    uint8_t *line;
    size_t size;
    uint32_t status;
    WITH_ROOM(status, line, size, btworld_fault_text(level, level_length, script, script_length, line, capacity, &size));
    need("btworld_fault_text", status);
    fprintf(stderr, "%.*s\n", (int)size, (const char *)line);
    exit(2);
}
