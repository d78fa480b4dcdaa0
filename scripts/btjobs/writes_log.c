/* Plays a board of 4 frames, 8 thinks and 2 draws a frame, each think of which asks so many questions, on one worker; writes its log as
   text, reads that, and does what it says on a new board. writes_log QUESTIONS FILE; scripts/btjobs/try_btjobs.py builds it, and plays the file by the
   games of the manual. */
#include "btjobs.h"
#include <stdio.h>
#include <stdlib.h>
#include <string.h>

#define LOOK(fact) do { if (!(fact)) { fprintf(stderr, "line %d: not so: %s\n", __LINE__, #fact); exit(1); } } while (0)

enum { ROOM = 4096, TEXT = 1 << 17 };
static btjobs_event events[ROOM], again[ROOM];
static uint8_t text[TEXT];

static void play(btjobs_board *board, uint32_t questions) {
    bool is_done = false, spread;
    btjobs_job job, path;
    uint32_t frame;
    while (!is_done) {
        if (btjobs_show(board, &frame) != BTJOBS_OK) {
            LOOK(btjobs_take(board, 0, &job) == BTJOBS_OK);
            if (job.kind == BTJOBS_LOGIC && job.question == 0) LOOK(btjobs_spread(board, 0, &spread) == BTJOBS_OK);
            else if (job.kind == BTJOBS_THINK && job.question < questions) LOOK(btjobs_ask(board, 0, &path) == BTJOBS_OK);
            else LOOK(btjobs_finish(board, 0) == BTJOBS_OK);
        }
        LOOK(btjobs_is_done(board, &is_done) == BTJOBS_OK);
    }
}

/* Does an event; any call that could do it does this one, or refuses. */
static uint32_t done(btjobs_board *board, const btjobs_event *e) {
    bool spread;
    btjobs_job path;
    uint32_t number;
    switch (e->kind) {
    case BTJOBS_START: return btjobs_start(board, e->worker, &e->job);
    case BTJOBS_RESUME: return btjobs_resume(board, e->worker, &e->job, &number);
    case BTJOBS_ASK: return btjobs_ask(board, e->worker, &path);
    case BTJOBS_SPREAD:
    case BTJOBS_HOLD: return btjobs_spread(board, e->worker, &spread);
    case BTJOBS_FINISH: return btjobs_finish(board, e->worker);
    case BTJOBS_EMIT: return btjobs_show(board, &number);
    default: return btjobs_stop(board);
    }
}

int main(int words, char **word) {
    const uint32_t questions = words == 3 ? (uint32_t)atoi(word[1]) : 0;
    const btjobs_numbers numbers = {4, 8, 2, 1, 1, 9, 1, questions};
    btjobs_board board = BTJOBS_CLOSED_BOARD, other = BTJOBS_CLOSED_BOARD;
    btjobs_numbers read;
    uint32_t season;
    size_t count, size, more;
    FILE *file;
    LOOK(words == 3 && btjobs_open(&board, &numbers) == BTJOBS_OK);
    play(&board, questions);
    LOOK(btjobs_events(&board, 0, events, ROOM, &count) == BTJOBS_OK && count > 100 && count < ROOM);
    LOOK(btjobs_write_log(&numbers, numbers.frames, events, count, text, TEXT, &size) == BTJOBS_OK);
    file = fopen(word[2], "wb");
    LOOK(file && fwrite(text, 1, size, file) == size && fclose(file) == 0);
    LOOK(btjobs_read_log(text, size, &read, &season, again, ROOM, &more) == BTJOBS_OK && more == count && season == 4);
    LOOK(!memcmp(&read, &numbers, sizeof read) && !memcmp(again, events, count * sizeof *events));
    LOOK(btjobs_open(&other, &read) == BTJOBS_OK);
    for (size_t i = 0; i < count; i++) LOOK(done(&other, &again[i]) == BTJOBS_OK);
    LOOK(btjobs_events(&other, 0, again, ROOM, &more) == BTJOBS_OK && more == count && !memcmp(again, events, count * sizeof *events));
    btjobs_close(&board);
    btjobs_close(&other);
    return 0;
}
