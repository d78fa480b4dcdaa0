/* What the programs of this folder share. Each looks at one call, before the first frame of a game and after each frame, which it steps by
   its script: what is written and what is answered, each status, and what stands after a refused growth of memory. What the plain player
   has to say too it writes.

       NAME LEVEL SCRIPT|- FRAMES

   look_at_calls.py builds them, with -Wl,--wrap=malloc and -Wl,--wrap=realloc, and runs them. */
#ifndef LOOKING_H
#define LOOKING_H

#include "btworld.h"
#include <pthread.h>
#include <stdio.h>
#include <stdlib.h>
#include <string.h>

#define LOOK(fact) do { if (!(fact)) { fprintf(stderr, "%s:%d: not so: %s\n", __FILE__, __LINE__, #fact); exit(1); } } while (0)

/* Makes a call with each growth of memory refused in turn, and does what follows after each that was; then the call is made. */
#define REFUSING(status, call) for (long nth = 0; to_go = nth, status = (call), to_go = -1, status == BTWORLD_NO_MEMORY; nth++)

static long to_go = -1; /* growths until one is refused; below 0 none is */

void *__real_malloc(size_t);
void *__real_realloc(void *, size_t);
static int is_refused(void) { return to_go >= 0 && to_go-- == 0; }
void *__wrap_malloc(size_t size) { return is_refused() ? NULL : __real_malloc(size); }
void *__wrap_realloc(void *block, size_t size) { return is_refused() ? NULL : __real_realloc(block, size); }

enum { ROOM = 1 << 18 };
static uint8_t level[1 << 20], script[1 << 20], text[ROOM], sevens[ROOM];
static size_t level_length, script_length;
static btworld_game closed = BTWORLD_CLOSED_GAME;

/* Whether nothing but the first bytes of a room that held sevens was written. */
static inline int is_kept(const void *room, size_t from, size_t length) { return !memcmp((const uint8_t *)room + from, sevens, length - from); }

/* The game at its last frame: of a state's text the head, with another frame's number. */
static inline void load_at(const btworld_game *game, uint32_t frame, btworld_game *loaded) {
    static uint8_t state[ROOM], other[ROOM];
    size_t size, from, head;
    LOOK(!btworld_state(game, state, ROOM, &size));
    for (from = 0; memcmp(state + from, " frame ", 7); from++) {}
    head = (size_t)sprintf((char *)other, "%.*s frame %u\n", (int)from, (const char *)state, (unsigned)frame);
    for (from = 0; state[from++] != '\n';) {}
    memcpy(other + head, state + from, size - from);
    LOOK(!btworld_load(loaded, level, level_length, other, head + size - from));
}

static inline uint32_t agents_of(const btworld_game *game) {
    uint32_t width, height, agents;
    LOOK(!btworld_map(game, &width, &height, &agents));
    return agents;
}

/* The signals that the script has in the next frame. */
static inline uint32_t next_of(const btworld_game *game) {
    uint32_t shown, scripted;
    LOOK(!btworld_signals(game, &shown, &scripted));
    return scripted;
}

/* A call that writes a text: with no room, with too little, with each growth refused, and with room. */
#define LOOK_AT_TEXT(call, size) do { \
        uint32_t told_; \
        size_t asked_ = 7; \
        (size) = 7; \
        LOOK(call(NULL, 0, &asked_) == BTWORLD_SHORT && asked_ > 0 && asked_ < ROOM); \
        memset(text, 7, ROOM); \
        LOOK(call(text, asked_ - 1, &(size)) == BTWORLD_SHORT && (size) == asked_ && is_kept(text, 0, ROOM)); \
        (size) = 7; \
        REFUSING(told_, call(text, ROOM, &(size))) LOOK((size) == 7 && is_kept(text, 0, ROOM)); \
        LOOK(told_ == BTWORLD_OK && (size) == asked_ && is_kept(text, (size), ROOM)); \
    } while (0)

static inline size_t read_whole(const char *path, uint8_t *bytes) {
    size_t length;
    FILE *file = strcmp(path, "-") ? fopen(path, "rb") : NULL;
    if (!file) return 0;
    length = fread(bytes, 1, sizeof level, file);
    fclose(file);
    return length;
}

/* Looks at a game before its first frame and after each. */
static inline int look_at_frames(int argc, char **argv, void (*look)(btworld_game *)) {
    btworld_game game = BTWORLD_CLOSED_GAME, kept = BTWORLD_CLOSED_GAME;
    bool same;
    if (argc != 4) return 64;
    memset(sevens, 7, ROOM);
    memset(text, 7, ROOM);
    level_length = read_whole(argv[1], level);
    script_length = read_whole(argv[2], script);
    LOOK(!btworld_open_script(&game, level, level_length, script, script_length));
    for (int frame = 0;; frame++) {
        LOOK(!btworld_fork(&game, &kept));
        look(&game);
        LOOK(!btworld_same(&game, &kept, &same) && same && !closed.is_open);
        btworld_close(&kept);
        if (frame == atoi(argv[3])) break;
        LOOK(!btworld_step_script(&game));
    }
    btworld_close(&game);
    return 0;
}

#endif
