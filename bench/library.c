/* Plays a level by the C library, one frame after another, with one thread: what an engine would call.
 *
 *     library play LEVEL --frames N [--script FILE]                          writes the frames
 *     library step|text|digest|fork LEVEL --frames N [--script FILE]         writes the nanoseconds of processor time of a step, or of a
 *                                                                            step with that call: a fork is closed again */
#include "btworld.h"
#include <stdio.h>
#include <stdlib.h>
#include <string.h>
#include <time.h>

typedef struct { uint8_t *bytes; size_t length; } Text;

static void fail(const char *what) {
    fprintf(stderr, "library: %s\n", what);
    exit(1);
}

static Text read_file(const char *path) {
    FILE *file = fopen(path, "rb");
    Text text = {malloc(16u << 20), 0};
    if (!file || !text.bytes) fail(path);
    text.length = fread(text.bytes, 1, 16u << 20, file);
    fclose(file);
    return text;
}

int main(int argc, char **argv) {
    const char *level_path = NULL, *script_path = NULL;
    unsigned frames = 3;
    for (int at = 2; at < argc; at++) {
        if (!strncmp(argv[at], "--", 2) && at + 1 < argc) {
            if (!strcmp(argv[at], "--frames")) frames = (unsigned)atoi(argv[at + 1]);
            if (!strcmp(argv[at], "--script")) script_path = argv[at + 1];
            at++;
        } else {
            level_path = argv[at];
        }
    }
    if (!level_path) fail("play|step|text|digest|fork LEVEL --frames N [--script FILE]");
    static uint8_t none[1], text[1u << 17];
    Text level = read_file(level_path), script = {none, 0};
    if (script_path) script = read_file(script_path);
    int plays = !strcmp(argv[1], "play"), texts = plays || !strcmp(argv[1], "text");
    int digests = !strcmp(argv[1], "digest"), forks = !strcmp(argv[1], "fork");
    btworld_game game = BTWORLD_CLOSED_GAME, fork = BTWORLD_CLOSED_GAME;
    if (btworld_open_script(&game, level.bytes, level.length, script.bytes, script.length)) fail("the level or the script is refused");
    clock_t begin = clock();
    for (unsigned frame = 0; frame < frames; frame++) {
        size_t size;
        uint64_t digest;
        if (btworld_step_script(&game) || (texts && btworld_text(&game, text, sizeof text, &size))) fail("a step is refused");
        if ((digests && btworld_digest(&game, &digest)) || (forks && btworld_fork(&game, &fork))) fail("a call is refused");
        btworld_close(&fork);
        if (plays && fwrite(text, 1, size, stdout) != size) fail("write");
    }
    if (!plays) printf("%.0f\n", (double)(clock() - begin) * 1e9 / CLOCKS_PER_SEC / (frames ? frames : 1));
    btworld_close(&game);
    if (fflush(stdout)) fail("write");
    return 0;
}
