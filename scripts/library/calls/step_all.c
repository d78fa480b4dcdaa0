/* btworld_step_all: as so many calls of btworld_step, by one thread and by three at once that each have a part, also where signals are few, a
   game is closed, has no frame left, or a growth of memory is refused. */
#include "looking.h"

enum { GAMES = 7, THREADS = 3 };

static btworld_game games[GAMES], singles[GAMES];
static uint32_t signals[GAMES + 2];

static void *step_part(void *part) {
    size_t stepped, first = *(size_t *)part * GAMES / THREADS, end = (*(size_t *)part + 1) * GAMES / THREADS;
    for (int frame = 0; frame < 3; frame++) LOOK(!btworld_step_all(games + first, end - first, signals + first, end - first, &stepped) && stepped == end - first);
    return NULL;
}

static void step_singles(size_t from, size_t to) {
    for (size_t it = from; it < to; it++) LOOK(!btworld_step(&singles[it], signals[it]));
}

static void look_at_same(void) {
    bool same;
    for (int it = 0; it < GAMES; it++) LOOK(!btworld_same(&games[it], &singles[it], &same) && same);
}

static void look(btworld_game *game) {
    btworld_game kept;
    pthread_t threads[THREADS];
    size_t stepped, done, parts[THREADS];
    uint32_t frame, status;
    LOOK(!btworld_frame(game, &frame));
    for (uint32_t it = 0; it < GAMES + 2; it++) signals[it] = (frame * GAMES + it) * 2654435761u >> 4;
    for (int it = 0; it < GAMES; it++) LOOK(!btworld_fork(game, &games[it]) && !btworld_fork(game, &singles[it]));
    LOOK(!btworld_step_all(games, GAMES, signals, GAMES + 2, &stepped) && stepped == GAMES);
    step_singles(0, GAMES);
    look_at_same();
    stepped = 7;
    LOOK(btworld_step_all(games, GAMES, signals, GAMES - 1, &stepped) == BTWORLD_SHORT && stepped == 0);
    stepped = 7;
    LOOK(btworld_step_all(NULL, 0, NULL, 0, &stepped) == BTWORLD_OK && stepped == 0);
    look_at_same();
    /* A closed game in the middle: those before it are stepped. */
    kept = games[3];
    games[3] = closed;
    LOOK(btworld_step_all(games, GAMES, signals, GAMES, &stepped) == BTWORLD_CLOSED && stepped == 3);
    games[3] = kept;
    step_singles(0, 3);
    look_at_same();
    if (frame > 0) {
        btworld_close(&games[4]);
        load_at(game, UINT32_MAX, &games[4]);
        LOOK(btworld_step_all(games + 3, GAMES - 3, signals + 3, GAMES - 3, &stepped) == BTWORLD_LAST_FRAME && stepped == 1);
        btworld_close(&games[4]);
        LOOK(!btworld_fork(&singles[4], &games[4]));
        step_singles(3, 4);
        look_at_same();
    }
    done = 0;
    for (long nth = 0; done < GAMES;) {
        to_go = nth;
        status = btworld_step_all(games + done, GAMES - done, signals + done, GAMES - done, &stepped);
        to_go = -1;
        LOOK(status == BTWORLD_OK ? stepped == GAMES - done : status == BTWORLD_NO_MEMORY && stepped < GAMES - done);
        done += stepped;
        nth = stepped > 0 ? 0 : nth + 1;
    }
    step_singles(0, GAMES);
    look_at_same();
    for (size_t it = 0; it < THREADS; it++) {
        parts[it] = it;
        LOOK(!pthread_create(&threads[it], NULL, step_part, &parts[it]));
    }
    for (int it = 0; it < THREADS; it++) LOOK(!pthread_join(threads[it], NULL));
    for (int turn = 0; turn < 3; turn++) step_singles(0, GAMES);
    look_at_same();
    for (int it = 0; it < GAMES; it++) {
        btworld_close(&games[it]);
        btworld_close(&singles[it]);
    }
}

int main(int argc, char **argv) { return look_at_frames(argc, argv, look); }
