/* Threads that play one game and a fork of it in turns: hand_over LEVEL FRAMES. A thread that is started goes on with what main
   opened, main goes on behind its join, and then two threads go on in turns behind a lock. The text is looked at after each step, in a
   game that one thread plays alone. scripts/library/try_library.py runs it under helgrind; made with -DWITHOUT_LOCK it is a race, which has to be
   found. */
#include "btworld.h"
#include <pthread.h>
#include <stdio.h>
#include <stdlib.h>
#include <string.h>

#define LOOK(fact) do { if (!(fact)) { fprintf(stderr, "line %d: not so: %s\n", __LINE__, #fact); exit(1); } } while (0)

#ifdef WITHOUT_LOCK
#define ALONE(what) what
#else
static pthread_mutex_t lock = PTHREAD_MUTEX_INITIALIZER;
#define ALONE(what) (pthread_mutex_lock(&lock), what, pthread_mutex_unlock(&lock))
#endif

enum { ROOM = 1 << 16 };
static btworld_game game = BTWORLD_CLOSED_GAME, twin = BTWORLD_CLOSED_GAME;
static uint32_t frames;

static void step(void) {
    static uint8_t text[ROOM], other[ROOM];
    size_t size, length;
    uint32_t frame;
    LOOK(!btworld_frame(&game, &frame) && !btworld_step(&game, frame) && !btworld_step(&twin, frame));
    LOOK(!btworld_text(&game, text, ROOM, &size) && !btworld_text(&twin, other, ROOM, &length));
    LOOK(size == length && !memcmp(text, other, size));
}

static void *steps(void *unused) {
    for (uint32_t frame = 0; frame < frames; frame++) ALONE(step());
    return unused;
}

int main(int argc, char **argv) {
    static uint8_t level[1 << 20];
    pthread_t first, second;
    btworld_game alone = BTWORLD_CLOSED_GAME;
    uint32_t last;
    bool same;
    size_t size;
    FILE *file = argc == 3 ? fopen(argv[1], "rb") : NULL;
    if (!file) return 64;
    frames = (uint32_t)atoi(argv[2]);
    size = fread(level, 1, sizeof level, file);
    fclose(file);
    LOOK(!btworld_open(&game, level, size) && !btworld_fork(&game, &twin) && !btworld_open(&alone, level, size));
    LOOK(!pthread_create(&first, NULL, steps, NULL) && !pthread_join(first, NULL));
    step();
    LOOK(!pthread_create(&first, NULL, steps, NULL) && !pthread_create(&second, NULL, steps, NULL));
    LOOK(!pthread_join(first, NULL) && !pthread_join(second, NULL));
    LOOK(!btworld_frame(&game, &last) && last == 3 * frames + 1);
    for (uint32_t frame = 0; frame < last; frame++) LOOK(!btworld_step(&alone, frame));
    LOOK(!btworld_same(&game, &alone, &same) && same);
    btworld_close(&game);
    btworld_close(&twin);
    btworld_close(&alone);
    return 0;
}
