/* Two players of one game in lockstep, with rollback: each machine keeps a game of its own and steps it with the same signals.
 *
 *   lockstep LEVEL SCRIPT|- FRAMES
 *
 * The script is what the players press. Here both machines are in one process: `here` gets the signals of a frame at once, and
 * `there` some frames later, as over a network. Until they come `there` guesses that nothing changed, and steps on; where a guess
 * was wrong it goes back to a fork that it kept and steps again. Each frame that both have for certain is compared by its digest,
 * also with `shown`, the game of a spectator who has the script. The text of `here` is written to standard output: it is what
 * `btworld play LEVEL --script SCRIPT --frames FRAMES` writes.
 *
 * Status: 0; 1 for a file that can't be read; 2 where the level or the script is refused, with the line that btworld writes; 3 for
 * want of memory; 4 where the machines came apart. */
#include "reading.h"

enum { LATE = 3, MOST_FRAMES = 100000 };

static uint32_t pressed[MOST_FRAMES + 1]; /* the signals of each frame; frames count from 1 */

/* Lines `FRAME on LETTER` or `FRAME off LETTER`, by frame. */
static void read_script(const char *path, uint32_t frames) {
    FILE *file = fopen(path, "r");
    uint32_t frame, now = 0, next = 1;
    char turn[4], letter;
    if (!file) { fprintf(stderr, "file: %s\n", path); exit(1); }
    while (fscanf(file, "%" SCNu32 " %3s %c", &frame, turn, &letter) == 3) {
        for (; next < frame && next <= frames; next++) pressed[next] = now;
        now = strcmp(turn, "on") ? now & ~(1u << (letter - 'a')) : now | 1u << (letter - 'a');
    }
    for (; next <= frames; next++) pressed[next] = now;
    fclose(file);
}

static void write_text(const btworld_game *game) {
    static uint8_t *text;
    static size_t room;
    size_t length;
    uint32_t status = btworld_text(game, text, room, &length);
    if (status == BTWORLD_SHORT) {
        if (!(text = realloc(text, room = length))) exit(3);
        status = btworld_text(game, text, room, &length);
    }
    need("btworld_text", status);
    fwrite(text, 1, length, stdout);
}

int main(int argc, char **argv) {
    btworld_game here = BTWORLD_CLOSED_GAME, there = BTWORLD_CLOSED_GAME, sure = BTWORLD_CLOSED_GAME, shown = BTWORLD_CLOSED_GAME;
    uint64_t of_here[LATE + 1], of_sure, of_shown;
    uint32_t frames, status, rollbacks = 0;
    size_t length, script_length;
    uint8_t *level, *script;
    bool same;
    if (argc != 4 || (frames = (uint32_t)strtoul(argv[3], NULL, 10)) > MOST_FRAMES) return 64;
    level = read_file(argv[1], &length);
    script = read_file(argv[2], &script_length);
    status = btworld_open_script(&shown, level, length, script, script_length);
    if (status >= BTWORLD_LEVEL_JSON) refuse(level, length, script, script_length);
    need("btworld_open_script", status);
    if (strcmp(argv[2], "-")) read_script(argv[2], frames);
    NEED(btworld_open(&here, level, length));
    NEED(btworld_open(&there, level, length));
    NEED(btworld_fork(&there, &sure));
    free(level); /* the games have what they need of both */
    free(script);
    for (uint32_t frame = 1; frame <= frames + LATE; frame++) {
        uint32_t come = frame > LATE ? frame - LATE : 0, last = frame < frames ? frame : frames;
        if (frame <= frames) {
            NEED(btworld_step(&here, pressed[frame]));
            NEED(btworld_digest(&here, &of_here[frame % (LATE + 1)]));
            write_text(&here);
            NEED(btworld_step(&there, come ? pressed[come - 1] : 0)); /* a guess */
        }
        if (!come) continue;
        /* what was pressed in this frame has come, so it is sure */
        NEED(btworld_step(&sure, pressed[come]));
        NEED(btworld_step_script(&shown));
        NEED(btworld_digest(&sure, &of_sure));
        NEED(btworld_digest(&shown, &of_shown));
        if (of_sure != of_here[come % (LATE + 1)] || of_shown != of_sure) {
            fprintf(stderr, "frame %" PRIu32 ": the machines have come apart\n", come);
            return 4;
        }
        if (pressed[come] == pressed[come - 1]) continue;
        /* the guess was wrong: back to the last sure frame, and on with a better one */
        rollbacks++;
        btworld_close(&there);
        NEED(btworld_fork(&sure, &there));
        for (uint32_t guessed = come + 1; guessed <= last; guessed++) NEED(btworld_step(&there, pressed[come]));
    }
    NEED(btworld_same(&here, &there, &same));
    if (same) NEED(btworld_same(&here, &shown, &same));
    if (!same) {
        fprintf(stderr, "the machines ended in different states\n");
        return 4;
    }
    fprintf(stderr, "%" PRIu32 " frames, %" PRIu32 " rollbacks\n", frames, rollbacks);
    btworld_close(&here);
    btworld_close(&there);
    btworld_close(&sure);
    btworld_close(&shown);
    return 0;
}
