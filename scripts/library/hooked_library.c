/* A program that hands out the memory of a library that was built by `make HOOKED=1`: hooked_library LEVEL FRAMES. No block comes
   from anywhere else, each is given back, and where there is no more the call fails with NO_MEMORY. scripts/library/try_library.py builds it. */
#include "btworld.h"
#include <stdio.h>
#include <stdlib.h>

#define LOOK(fact) do { if (!(fact)) { fprintf(stderr, "line %d: not so: %s\n", __LINE__, #fact); exit(1); } } while (0)

static long blocks, taken, left = -1; /* below 0 there is no end of blocks */

static int is_out(void) { return left >= 0 && left-- == 0; }

void *btworld_malloc(size_t size) {
    void *block = is_out() ? NULL : malloc(size);
    blocks += block != NULL;
    taken += block != NULL;
    return block;
}

void *btworld_realloc(void *block, size_t size) {
    void *grown = is_out() ? NULL : realloc(block, size);
    blocks += block == NULL && grown != NULL;
    return grown;
}

void btworld_free(void *block) {
    blocks -= block != NULL;
    free(block);
}

int main(int argc, char **argv) {
    static uint8_t level[1 << 20];
    btworld_game game = BTWORLD_CLOSED_GAME, copy = BTWORLD_CLOSED_GAME;
    size_t size;
    FILE *file = argc == 3 ? fopen(argv[1], "rb") : NULL;
    if (!file) return 64;
    size = fread(level, 1, sizeof level, file);
    fclose(file);
    left = 0;
    LOOK(btworld_open(&game, level, size) == BTWORLD_NO_MEMORY && blocks == 0);
    left = -1;
    LOOK(btworld_open(&game, level, size) == BTWORLD_OK && blocks > 0);
    for (int frame = 0; frame < atoi(argv[2]); frame++) LOOK(btworld_step(&game, 1) == BTWORLD_OK);
    LOOK(btworld_fork(&game, &copy) == BTWORLD_OK);
    btworld_close(&game);
    LOOK(blocks > 0);
    btworld_close(&copy);
    LOOK(blocks == 0);
    printf("%ld blocks\n", taken);
    return 0;
}
