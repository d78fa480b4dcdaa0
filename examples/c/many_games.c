/* A job system that steps many games on a few threads, as an engine does that serves many players, or looks ahead in many games.
 *
 *   many_games LEVEL GAMES FRAMES THREADS
 *
 * A job is a game that wants some frames more. Jobs lie in one queue behind a lock, and a thread that takes a job has its game to
 * itself until it puts it back: that is all that the library asks for. Each game has signals of its own, and in the middle of its
 * frames it is forked: the fork is a job too, with other signals, mostly done by another thread. A job ends with the digest of its
 * game. All games are played by one thread first, and the digests have to be the same. On standard output stands how fast both were,
 * and the processor time: the same for both where threads don't hinder one another, also on a machine that does other work.
 *
 * Status: 0; 1 for a file that can't be read; 2 where the level is refused; 3 for want of memory or threads; 4 where digests differ. */
#define _POSIX_C_SOURCE 200809L
#include "reading.h"
#include <pthread.h>
#include <time.h>

enum { SLICE = 16 }; /* frames that a job is stepped before it goes back into the queue */

typedef struct job {
    btworld_game game;
    uint32_t number, frame; /* forks are numbered behind all games, in their order */
    uint64_t *digest;       /* where it goes at the end */
    struct job *next;
} job;

/* Jobs that wait, the first put in being the first taken out. Its lock is what hands a game from thread to thread. */
typedef struct queue {
    pthread_mutex_t lock;
    pthread_cond_t changed;
    job *first, **end;
    uint32_t left; /* jobs that have not ended, those that are being done too */
} queue;

/* What the threads share. Of it only the queue changes, and the digests, of which each job writes its own. */
typedef struct work {
    queue jobs;
    uint32_t games, frames;
    uint64_t *digests; /* of the games, then of the forks */
} work;

static void put(queue *jobs, job *added) {
    added->next = NULL;
    *jobs->end = added;
    jobs->end = &added->next;
    pthread_cond_signal(&jobs->changed);
}

static void put_back(queue *jobs, job *back) {
    pthread_mutex_lock(&jobs->lock);
    put(jobs, back);
    pthread_mutex_unlock(&jobs->lock);
}

/* A job to do; null once all have ended. */
static job *take(queue *jobs) {
    job *taken;
    pthread_mutex_lock(&jobs->lock);
    while (!jobs->first && jobs->left) pthread_cond_wait(&jobs->changed, &jobs->lock);
    taken = jobs->first;
    if (taken && !(jobs->first = taken->next)) jobs->end = &jobs->first;
    pthread_mutex_unlock(&jobs->lock);
    return taken;
}

static void end(queue *jobs) {
    pthread_mutex_lock(&jobs->lock);
    if (--jobs->left == 0) pthread_cond_broadcast(&jobs->changed);
    pthread_mutex_unlock(&jobs->lock);
}

static job *new_job(work *all, uint32_t number) {
    static const btworld_game closed = BTWORLD_CLOSED_GAME;
    job *made = malloc(sizeof *made);
    if (!made) exit(3);
    made->game = closed;
    made->number = number;
    made->frame = 0;
    made->digest = &all->digests[number];
    return made;
}

/* The signals of a game in a frame: some that differ from game to game. */
static uint32_t signals_of(const job *of) { return (of->number * 2654435761u ^ of->frame / 8 * 40503u) >> 4; }

static void *do_jobs(void *shared) {
    work *all = shared;
    job *now, *forked;
    while ((now = take(&all->jobs))) {
        for (uint32_t step = 0; step < SLICE && now->frame < all->frames; step++) {
            NEED(btworld_step(&now->game, signals_of(now)));
            now->frame++;
            if (now->number >= all->games || now->frame != (all->frames + 1) / 2) continue;
            forked = new_job(all, all->games + now->number);
            forked->frame = now->frame;
            NEED(btworld_fork(&now->game, &forked->game));
            put_back(&all->jobs, forked);
        }
        if (now->frame < all->frames) {
            put_back(&all->jobs, now);
            continue;
        }
        NEED(btworld_digest(&now->game, now->digest));
        btworld_close(&now->game);
        free(now);
        end(&all->jobs);
    }
    return NULL;
}

typedef struct taken { double seconds, processor; } taken;

static double seconds_of(clockid_t clock) {
    struct timespec now;
    clock_gettime(clock, &now);
    return (double)now.tv_sec + (double)now.tv_nsec / 1e9;
}

/* Plays all games from their level on. */
static taken play(const uint8_t *level, size_t length, uint32_t games, uint32_t frames, uint32_t threads, uint64_t *digests) {
    work all = {{PTHREAD_MUTEX_INITIALIZER, PTHREAD_COND_INITIALIZER, NULL, NULL, 2 * games}, games, frames, digests};
    btworld_game first = BTWORLD_CLOSED_GAME;
    pthread_t *started = malloc(threads * sizeof *started);
    job *opened;
    taken begun, ended;
    if (!started) exit(3);
    all.jobs.end = &all.jobs.first;
    NEED(btworld_open(&first, level, length));
    for (uint32_t number = 0; number < games; number++) {
        opened = new_job(&all, number);
        NEED(btworld_fork(&first, &opened->game));
        put(&all.jobs, opened);
    }
    btworld_close(&first);
    begun = (taken){seconds_of(CLOCK_MONOTONIC), seconds_of(CLOCK_PROCESS_CPUTIME_ID)};
    for (uint32_t thread = 0; thread < threads; thread++)
        if (pthread_create(&started[thread], NULL, do_jobs, &all)) exit(3);
    for (uint32_t thread = 0; thread < threads; thread++) pthread_join(started[thread], NULL);
    ended = (taken){seconds_of(CLOCK_MONOTONIC), seconds_of(CLOCK_PROCESS_CPUTIME_ID)};
    free(started);
    return (taken){ended.seconds - begun.seconds, ended.processor - begun.processor};
}

int main(int argc, char **argv) {
    uint32_t games, frames, threads, apart = 0;
    uint64_t *alone, *shared;
    uint8_t *level;
    size_t length;
    double steps;
    taken one, many;
    if (argc != 5) return 64;
    games = (uint32_t)strtoul(argv[2], NULL, 10);
    frames = (uint32_t)strtoul(argv[3], NULL, 10);
    threads = (uint32_t)strtoul(argv[4], NULL, 10);
    if (!games || games > 1 << 24 || !frames || !threads || threads > 1024) return 64;
    level = read_file(argv[1], &length);
    if (btworld_check(level, length) >= BTWORLD_LEVEL_JSON) refuse(level, length, NULL, 0);
    if (!(alone = calloc(4 * (size_t)games, sizeof *alone))) exit(3);
    shared = alone + 2 * (size_t)games;
    one = play(level, length, games, frames, 1, alone);
    many = play(level, length, games, frames, threads, shared);
    free(level);
    for (uint32_t number = 0; number < 2 * games; number++) apart += alone[number] != shared[number];
    steps = (double)games * (frames + frames / 2);
    printf("%.0f steps; 1 thread: %.2f s, %.2f s of processors; %u threads: %.2f s, %.2f s of processors, %.1f times as fast\n", steps,
           one.seconds, one.processor, (unsigned)threads, many.seconds, many.processor, one.seconds / many.seconds);
    free(alone);
    if (!apart) return 0;
    fprintf(stderr, "%u of %u digests differ\n", (unsigned)apart, (unsigned)(2 * games));
    return 4;
}
