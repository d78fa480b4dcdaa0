/* btworld_run: as so many calls of btworld_step, also where a growth of memory is refused, or the last frame comes in between. */
#include "looking.h"

enum { COUNT = 6 };

static void look(btworld_game *game) {
    btworld_game one = BTWORLD_CLOSED_GAME, other = BTWORLD_CLOSED_GAME;
    uint32_t signals[COUNT], status, frame, ended;
    size_t stepped = 7, done;
    bool same;
    LOOK(!btworld_frame(game, &frame));
    for (uint32_t it = 0; it < COUNT; it++) signals[it] = (frame + it) * 2654435761u >> 4;
    LOOK(btworld_run(&closed, signals, COUNT, &stepped) == BTWORLD_CLOSED && stepped == 0);
    stepped = 7;
    LOOK(btworld_run(&closed, NULL, 0, &stepped) == BTWORLD_CLOSED && stepped == 0);
    /* A run that breaks off goes on from there on. */
    LOOK(!btworld_fork(game, &one) && !btworld_fork(game, &other));
    done = 0;
    for (long nth = 0; done < COUNT;) {
        stepped = 7;
        to_go = nth;
        status = btworld_run(&one, signals + done, COUNT - done, &stepped);
        to_go = -1;
        LOOK(stepped <= COUNT - done && (status == BTWORLD_OK ? stepped == COUNT - done : status == BTWORLD_NO_MEMORY && stepped < COUNT - done));
        done += stepped;
        LOOK(!btworld_frame(&one, &ended) && ended == frame + done);
        nth = stepped > 0 ? 0 : nth + 1;
    }
    for (uint32_t it = 0; it < COUNT; it++) LOOK(!btworld_step(&other, signals[it]));
    LOOK(!btworld_same(&one, &other, &same) && same);
    stepped = 7;
    LOOK(btworld_run(&one, NULL, 0, &stepped) == BTWORLD_OK && stepped == 0 && !btworld_same(&one, &other, &same) && same);
    btworld_close(&one);
    btworld_close(&other);
    if (frame == 0) return;
    load_at(game, UINT32_MAX - 2, &one);
    LOOK(btworld_run(&one, signals, COUNT, &stepped) == BTWORLD_LAST_FRAME && stepped == 2);
    LOOK(!btworld_frame(&one, &ended) && ended == UINT32_MAX);
    LOOK(btworld_run(&one, signals, COUNT, &stepped) == BTWORLD_LAST_FRAME && stepped == 0);
    btworld_close(&one);
}

int main(int argc, char **argv) { return look_at_frames(argc, argv, look); }
