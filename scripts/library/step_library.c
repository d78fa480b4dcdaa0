/* Steps a game of the library, and writes the text of each frame, then by a fork that was made at the start the level's digest, and at
 * the start and after each frame the state's digest and the state: `level digest HEX`, then `digest FRAME HEX` and the state's lines. The
 * cells of each frame have to be those of its text. scripts/runs/compare_with_plain.py builds and runs it, and scripts/library/try_library.py does by a
 * compiler of C and one of C++: it is both.
 *
 *   step_library LEVEL SCRIPT|- FRAMES
 *
 * Status: 0; 1 for a file that can't be read; 2 where the level or the script is refused, with the line that btworld writes;
 * 4 where the cells are others, or a call fails. */
#include "btworld.h"
#include <inttypes.h>
#include <stdio.h>
#include <stdlib.h>
#include <string.h>

enum { MOST = 1 << 22 };

static void need(uint32_t status) {
    if (status == BTWORLD_OK) return;
    fprintf(stderr, "%s\n", btworld_status_text(status));
    exit(4);
}

static size_t read_file(const char *path, uint8_t *bytes) {
    FILE *file;
    size_t length;
    if (!strcmp(path, "-")) return 0;
    if (!(file = fopen(path, "rb"))) {
        fprintf(stderr, "file: %s\n", path);
        exit(1);
    }
    length = fread(bytes, 1, MOST, file);
    fclose(file);
    return length;
}

/* What a frame's text has for a cell; a door is drawn by its letter while it is shut. */
static int is_drawn(const btworld_cell_state *cell, uint8_t glyph) {
    if (cell->mark == '#') return glyph == '#';
    if (cell->agent != BTWORLD_NOBODY) return glyph == 'A' + cell->agent;
    if (cell->item) return glyph == '*';
    return glyph == cell->mark || (cell->mark >= 'a' && cell->mark <= 'z' && glyph == '/');
}

static void look_at_cells(const btworld_game *game, const uint8_t *text) {
    btworld_cell_state cell;
    uint32_t width, height, agents, standing = 0;
    const uint8_t *row = (const uint8_t *)memchr(text, '\n', MOST) + 1;
    int is_so;
    need(btworld_map(game, &width, &height, &agents));
    is_so = btworld_cell(game, width, 0, &cell) == BTWORLD_NO_CELL && btworld_cell(game, 0, height, &cell) == BTWORLD_NO_CELL;
    for (uint32_t y = 0; y < height; y++, row += width + 1) {
        is_so = is_so && row[width] == '\n';
        for (uint32_t x = 0; x < width; x++) {
            need(btworld_cell(game, x, y, &cell));
            is_so = is_so && is_drawn(&cell, row[x]);
            standing += cell.agent != BTWORLD_NOBODY;
        }
    }
    if (is_so && standing == agents) return;
    fprintf(stderr, "the cells are not those of the text\n");
    exit(4);
}

static void write_digest(const char *title, uint64_t digest) { printf("%s %016" PRIx64 "\n", title, digest); }

static void write_state(const btworld_game *game, uint8_t *text) {
    uint32_t frame;
    uint64_t digest;
    size_t size;
    char title[20];
    need(btworld_frame(game, &frame));
    need(btworld_digest(game, &digest));
    sprintf(title, "digest %" PRIu32, frame);
    write_digest(title, digest);
    need(btworld_state(game, text, MOST, &size));
    fwrite(text, 1, size, stdout);
}

int main(int argc, char **argv) {
    static uint8_t level[MOST], script[MOST], text[MOST];
    btworld_game game = BTWORLD_CLOSED_GAME, again = BTWORLD_CLOSED_GAME;
    size_t level_length, script_length, size;
    uint64_t digest;
    uint32_t status, frames;
    if (argc != 4) return 64;
    frames = (uint32_t)strtoul(argv[3], NULL, 10);
    level_length = read_file(argv[1], level);
    script_length = read_file(argv[2], script);
    status = btworld_open_script(&game, level, level_length, script, script_length);
    if (status >= BTWORLD_LEVEL_JSON) {
        need(btworld_fault_text(level, level_length, script, script_length, text, MOST, &size));
        fprintf(stderr, "%.*s\n", (int)size, (const char *)text);
        return 2;
    }
    need(status);
    need(btworld_fork(&game, &again));
    for (uint32_t frame = 1; frame <= frames; frame++) {
        need(btworld_step_script(&game));
        need(btworld_text(&game, text, MOST, &size));
        look_at_cells(&game, text);
        fwrite(text, 1, size, stdout);
    }
    need(btworld_level_digest(&game, &digest));
    write_digest("level digest", digest);
    write_state(&again, text);
    for (uint32_t frame = 1; frame <= frames; frame++) {
        need(btworld_step_script(&again));
        write_state(&again, text);
    }
    btworld_close(&again);
    btworld_close(&game);
    return 0;
}
