/* Refuses the library each growth of memory in turn, in each call that takes memory: the call says so, the board, its log and what is
   pointed to are as they were, and the same call then does what it does without a refusal. Games are played in orders drawn by seeds, and
   each is played without refusals too: to the same events. refused SEEDS; scripts/btjobs/try_btjobs.py builds it, with -Wl,--wrap=malloc and
   -Wl,--wrap=realloc, and runs it. It writes how many growths were refused in each call. */
#include "btjobs.h"
#include <stdio.h>
#include <stdlib.h>
#include <string.h>

void *__real_malloc(size_t);
void *__real_realloc(void *, size_t);

static long to_go = -1; /* growths until one is refused; below 0 none is */

static int is_refused(void) { return to_go >= 0 && to_go-- == 0; }

void *__wrap_malloc(size_t size) { return is_refused() ? NULL : __real_malloc(size); }
void *__wrap_realloc(void *block, size_t size) { return is_refused() ? NULL : __real_realloc(block, size); }

#define LOOK(fact) do { if (!(fact)) { fprintf(stderr, "line %d: not so: %s\n", __LINE__, #fact); exit(1); } } while (0)

enum { ROOM = 1 << 12, TEXT = 1 << 17 };
enum { OPEN, TAKE, TAKE_ANY, START, RESUME, SPREAD, ASK, FINISH, SHOW, WRITE_LOG, READ_LOG, CALLS };
static const char *const NAMES[CALLS] = {"open", "take", "take_any", "start", "resume", "spread", "ask", "finish", "show", "write_log", "read_log"};
static long refusals[CALLS];

static btjobs_board board;
static btjobs_event before[ROOM], now[ROOM];
static size_t happened;
static bool refuses;

/* What a call is given, and what it tells. */
static uint32_t worker, frame, step;
static uint64_t drawn;
static bool spread;
static btjobs_job job, name;
static btjobs_numbers numbers = {6, 7, 3, 2, 2, 3, 2, 2};

static void look_the_same(int call) {
    size_t count = 0;
    bool is_done = true, may = false;
    if (call == OPEN) {
        LOOK(!board.is_open && board.held == NULL);
        return;
    }
    LOOK(btjobs_events(&board, 0, now, ROOM, &count) == BTJOBS_OK && count == happened);
    LOOK(count == 0 || !memcmp(now, before, count * sizeof *now));
    LOOK(btjobs_is_done(&board, &is_done) == BTJOBS_OK && !is_done);
    LOOK(btjobs_may_take(&board, &may) == BTJOBS_OK);
    LOOK(job.kind == 9 && frame == 99 && step == 99);
}

static uint32_t called(int call) {
    job.kind = 9, frame = 99, step = 99;
    switch (call) {
    case OPEN: return btjobs_open(&board, &numbers);
    case TAKE: return btjobs_take(&board, worker, &job);
    case TAKE_ANY: return btjobs_take_any(&board, worker, drawn, &job);
    case START: return btjobs_start(&board, worker, &name);
    case RESUME: return btjobs_resume(&board, worker, &name, &step);
    case SPREAD: return btjobs_spread(&board, worker, &spread);
    case ASK: return btjobs_ask(&board, worker, &job);
    case FINISH: return btjobs_finish(&board, worker);
    default: return btjobs_show(&board, &frame);
    }
}

/* Makes a call, before that with the first growth refused, with the second, and so on until none is left to refuse. */
static uint32_t made(int call) {
    uint32_t status;
    if (call != OPEN) LOOK(btjobs_events(&board, 0, before, ROOM, &happened) == BTJOBS_OK && happened < ROOM);
    for (long nth = 0;; nth++) {
        to_go = refuses ? nth : -1;
        status = called(call);
        if (to_go >= 0 || !refuses) break; /* no growth was refused */
        to_go = -1;
        LOOK(status == BTJOBS_NO_MEMORY);
        refusals[call]++;
        look_the_same(call);
    }
    to_go = -1;
    LOOK(status != BTJOBS_NO_MEMORY);
    return status;
}

static uint32_t draw(uint32_t below) {
    drawn = drawn * 6364136223846793005u + 1442695040888963407u;
    return (uint32_t)(drawn >> 33) % below;
}

/* The job that a worker took up. */
static btjobs_job running[2];
static bool is_busy[2];

static void take_up(uint32_t w) {
    uint32_t status, how = draw(3);
    worker = w;
    if (how == 2) {
        /* the same job by its name: a board that is like this one says which */
        status = BTJOBS_NOTHING;
        for (uint32_t kind = 0; kind < 4 && status != BTJOBS_OK; kind++)
            for (uint32_t f = 1; f <= numbers.frames && status != BTJOBS_OK; f++)
                for (uint32_t i = 0; i < numbers.agents && status != BTJOBS_OK; i++)
                    for (uint32_t q = 0; q < (kind == BTJOBS_PATH ? 2u : 1u) && status != BTJOBS_OK; q++) {
                        name = (btjobs_job){kind, f, kind == BTJOBS_LOGIC ? 0 : i, q};
                        if ((status = made(START)) == BTJOBS_OK) running[w] = (btjobs_job){kind, f, name.index, kind == BTJOBS_PATH ? q : 0};
                        else if (kind < BTJOBS_PATH && (status = made(RESUME)) == BTJOBS_OK) running[w] = (btjobs_job){kind, f, name.index, step};
                    }
    } else if ((status = made(how ? TAKE_ANY : TAKE)) == BTJOBS_OK) running[w] = job;
    is_busy[w] = status == BTJOBS_OK;
}

static void tell(uint32_t w) {
    const btjobs_job at = running[w];
    worker = w;
    is_busy[w] = false;
    if (at.kind == BTJOBS_LOGIC && at.question == 0) LOOK(made(SPREAD) == BTJOBS_OK);
    else if (at.kind == BTJOBS_THINK && at.question < at.index % 3) LOOK(made(ASK) == BTJOBS_OK && job.kind == BTJOBS_PATH);
    else LOOK(made(FINISH) == BTJOBS_OK);
}

/* Plays a game to its end, and leaves its events in `before`. */
static void play(uint64_t seed) {
    bool is_done = false;
    drawn = seed, is_busy[0] = is_busy[1] = false;
    LOOK(made(OPEN) == BTJOBS_OK);
    for (int steps = 0; !is_done; steps++) {
        uint32_t w = draw(2);
        LOOK(steps < 100000);
        if (draw(8) == 0) made(SHOW);
        if (is_busy[w]) tell(w);
        else take_up(w);
        LOOK(btjobs_is_done(&board, &is_done) == BTJOBS_OK);
    }
    LOOK(btjobs_events(&board, 0, before, ROOM, &happened) == BTJOBS_OK);
    btjobs_close(&board);
}

/* The log is written and read again, with each growth refused. */
static void look_at_logs(void) {
    static const char head[] = "btjobs log 1 frames 6 workers 2 small 2 large 3 slots 2 agents 7 bands 3 questions 2 season 6\n";
    static uint8_t text[TEXT], kept[TEXT];
    uint32_t status, season = 7;
    size_t size = 5, count = 5;
    btjobs_numbers read = {0};
    for (long nth = 0; to_go = nth, status = btjobs_write_log(&numbers, 6, before, happened, text, TEXT, &size), status == BTJOBS_NO_MEMORY; nth++) {
        to_go = -1, refusals[WRITE_LOG]++;
        LOOK(size == 5 && !memcmp(text, kept, TEXT));
    }
    to_go = -1;
    LOOK(status == BTJOBS_OK && size > sizeof head && !memcmp(text, head, sizeof head - 1));
    LOOK(btjobs_write_log(&numbers, 6, before, happened, kept, size - 1, &count) == BTJOBS_SHORT && count == size && kept[0] == 0);
    memset(now, 9, sizeof now);
    count = 5;
    for (long nth = 0; to_go = nth, status = btjobs_read_log(text, size, &read, &season, now, ROOM, &count), status == BTJOBS_NO_MEMORY; nth++) {
        to_go = -1, refusals[READ_LOG]++;
        LOOK(count == 5 && season == 7 && read.frames == 0 && now[0].kind == 0x09090909);
    }
    to_go = -1;
    LOOK(status == BTJOBS_OK && count == happened && season == 6 && !memcmp(&read, &numbers, sizeof read) && !memcmp(now, before, count * sizeof *now));
    LOOK(btjobs_read_log(text, size, &read, &season, now, count - 1, &count) == BTJOBS_SHORT && count == happened);
    LOOK(btjobs_read_log(text, size - 1, &read, &season, now, ROOM, &count) == BTJOBS_LOG_LINE && count == happened + 1);
    LOOK(btjobs_read_log(text, 20, &read, &season, now, ROOM, &count) == BTJOBS_LOG_HEAD && count == happened + 1);
    memset(text, 0, TEXT);
}

int main(int words, char **word) {
    const uint64_t seeds = words > 1 ? strtoull(word[1], NULL, 10) : 200;
    static btjobs_event without[ROOM];
    for (uint64_t seed = 1; seed <= seeds; seed++) {
        size_t count;
        refuses = false;
        play(seed);
        count = happened;
        memcpy(without, before, sizeof without);
        refuses = true;
        play(seed);
        LOOK(count == happened && !memcmp(without, before, count * sizeof *without));
        look_at_logs();
    }
    for (int call = 0; call < CALLS; call++) {
        LOOK(refusals[call] > 0);
        printf("%s%s %ld", call ? ", " : "", NAMES[call], refusals[call]);
    }
    printf("\n");
    return 0;
}
