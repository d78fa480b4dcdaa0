/* btjobs.h: the jobs of the frames of a game. A board hands out the names of jobs and is told what comes of them; values, threads and
 * locks are the caller's.
 *
 * A frame f (from 1) is cut into jobs:
 *
 *     Logic f, which spreads ── Think f a, for each agent a ── Path f a i, for each question that the think asks ─┐
 *                                  └────────────────────── goes on with the answer ───────────────────────────────┘
 *     Logic f goes on with all thoughts, makes the world, and is over: then Draw f b, for each band b, and Logic f+1 are queued
 *     the frame is shown (btjobs_show) once it is drawn and the frame before it is shown
 *
 * So thinks run side by side, bands are drawn side by side, and up to `slots` frames overlap.
 *
 * What the caller owes, for its frames to be the same on every machine, with any number of workers and in any order:
 *   - A think is a function of its frame's start (the world and its own memory after the frame before, the frame's input) and of the
 *     answers to its questions so far. It writes its own thought, and nothing else that another job reads.
 *   - A path is a function of the frame's start and of its think's question. It writes its own answer.
 *   - A Logic that goes on makes the world of the frame's start and all thoughts, in the order of agents.
 *   - A draw is a function of the world that its frame's Logic made (and of the thoughts). It writes its own band.
 * Nothing checks that; btjobs_start, btjobs_resume and btjobs_take_any let a caller play its game in any legal order on one thread and
 * compare.
 *
 * What the caller owes besides, and nothing checks: a handle is BTJOBS_CLOSED_BOARD at first, is changed by these calls alone, and may be
 * moved but not copied; pointers are not null and don't overlap, but for a buffer of length 0; calls on one board are not made at the
 * same time, for a board is no lock, and where another thread goes on with it, a lock lies between. Boards are independent of one
 * another.
 *
 * Each call but btjobs_version and btjobs_close answers a status, and says below what it *fails with*, in the order in which it looks.
 * Each that is given a board fails with CLOSED of a closed handle, and each that does an event with NO_MEMORY where memory is refused for an event that was
 * legal; the calls for a job that a worker runs (btjobs_spread, btjobs_ask, btjobs_finish) with STOPPED, NO_WORKER, where the worker isn't
 * below the number of workers, and NOT_RUNNING. After any failure the board and all that is pointed to are as they were, but for a
 * length or count that is said to be told.
 *
 * Proved, of each call that answers OK and is said to do an event: the event was legal, and stands last in the log. Until all frames are
 * shown some call can go on, so no run sticks; without a stop a run has at most
 * frames * (5 + 2 * bands + agents * (2 + 4 * most_questions)) + 2 * (frames - slots) events, with 0 for a difference below it. */
#ifndef BTJOBS_H
#define BTJOBS_H
#include <stdbool.h>
#include <stddef.h>
#include <stdint.h>
#ifdef __cplusplus
extern "C" {
#endif

/* Of zeros it is closed. */
typedef struct btjobs_board { void *held; bool is_open; } btjobs_board;
#define BTJOBS_CLOSED_BOARD {NULL, false}

typedef struct btjobs_numbers {
    uint32_t frames;         /* at most 9999 */
    uint32_t agents;         /* thinks of a frame: any number */
    uint32_t bands;          /* draws of a frame: any number */
    uint32_t workers;        /* 1 to 64 */
    uint32_t small;          /* fibers of paths and draws: how many of them may run at once, 1 to 64 */
    uint32_t large;          /* fibers of Logics and thinks: how many of them may be started and not over, 2 to 64 */
    uint32_t slots;          /* frames under way at once, 1 to 16 */
    uint32_t most_questions; /* how many a think may ask at most: any number */
} btjobs_numbers;

enum btjobs_kind { BTJOBS_LOGIC, BTJOBS_THINK, BTJOBS_PATH, BTJOBS_DRAW };

typedef struct btjobs_job {
    uint32_t kind;
    uint32_t frame;    /* from 1 */
    uint32_t index;    /* the agent, or of a Draw the band; 0 of a Logic */
    uint32_t question; /* of a Path its number; of a Think how many it has asked; of a Logic 0 at its start and 1 with all thoughts */
} btjobs_job;

enum btjobs_event_kind {
    BTJOBS_START, BTJOBS_RESUME, BTJOBS_ASK, BTJOBS_SPREAD, BTJOBS_HOLD, BTJOBS_FINISH, BTJOBS_EMIT, BTJOBS_STOP
};

typedef struct btjobs_event { uint32_t kind; uint32_t worker; btjobs_job job; } btjobs_event;

/* A status. */
enum btjobs_status {
    BTJOBS_OK, BTJOBS_NO_MEMORY, BTJOBS_CLOSED, BTJOBS_OPEN, BTJOBS_STOPPED, BTJOBS_NO_WORKER, BTJOBS_BUSY, BTJOBS_NOT_RUNNING,
    BTJOBS_ILLEGAL, BTJOBS_NOTHING, BTJOBS_LIMITS, BTJOBS_SHORT, BTJOBS_LOG_HEAD, BTJOBS_LOG_LINE
};

/* Opens a board on which nothing has happened in a closed handle. It takes some kilobytes, and grows with the log: 24 bytes an event.
 * Fails with OPEN, where the handle holds a board, LIMITS, NO_MEMORY. */
uint32_t btjobs_open(btjobs_board *board, const btjobs_numbers *numbers);

/* Closes a board and gives its memory back. A closed one stays so. */
void btjobs_close(btjobs_board *board);

/* ---- a worker takes up a job */

/* A job for an idle worker: of the highest priority that has one (Logic and Path, then Think, then Draw), the job that waited and is
 * ready first, or else the first new one that may start. Start or Resume.
 * Fails with STOPPED, NO_WORKER, BUSY, NOTHING, where the worker can neither start nor resume a job, NO_MEMORY. */
uint32_t btjobs_take(btjobs_board *board, uint32_t worker, btjobs_job *job);

/* Any job that an idle worker may take up, new or ready, as the number says: an order that a seed draws. Start or Resume.
 * Fails as btjobs_take. */
uint32_t btjobs_take_any(btjobs_board *board, uint32_t worker, uint64_t number, btjobs_job *job);

/* The worker takes up this very job, new or ready, as a log or a drawn order says. A kind above 3 is a Draw's; `question` counts of a Path
 * alone. *step is where the job stands: how many questions a Think has asked, 1 of a Logic. Start; Resume.
 * Fails with ILLEGAL, where no numbers of questions make that legal, NO_MEMORY. */
uint32_t btjobs_start(btjobs_board *board, uint32_t worker, const btjobs_job *job);
uint32_t btjobs_resume(btjobs_board *board, uint32_t worker, const btjobs_job *job, uint32_t *step);

/* Whether an idle worker would be given a job, or refused one for memory: whether to wake another thread. It says so too while all
 * workers are busy. */
uint32_t btjobs_may_take(btjobs_board *board, bool *may);

/* ---- a worker tells of the job that it runs */

/* The worker's Logic, at its start: its thinks are queued and *spread is true (Spread), or its slot is still another frame's and it
 * waits for it (Hold). The frame's start is written to its slot before this call, or under the same lock.
 * Fails with STOPPED, NO_WORKER, NOT_RUNNING, ILLEGAL, where the job is no Logic at its start, NO_MEMORY. */
uint32_t btjobs_spread(btjobs_board *board, uint32_t worker, bool *spread);

/* The worker's Think asks its next question, which *path answers, and waits. Ask.
 * Fails with STOPPED, NO_WORKER, NOT_RUNNING, ILLEGAL, where the job is no Think or has asked the most questions, NO_MEMORY. */
uint32_t btjobs_ask(btjobs_board *board, uint32_t worker, btjobs_job *path);

/* The worker's job is over. What it came to is written before this call, or under the same lock. Finish.
 * Fails with STOPPED, NO_WORKER, NOT_RUNNING, ILLEGAL, where the job is a Logic that doesn't have its thoughts yet, NO_MEMORY. */
uint32_t btjobs_finish(btjobs_board *board, uint32_t worker);

/* ---- frames */

/* The next frame is shown, and its slot is free: what is in it is read before the lock is let go. Emit.
 * Fails with STOPPED, ILLEGAL, where no frame can be shown, NO_MEMORY. */
uint32_t btjobs_show(btjobs_board *board, uint32_t *frame);

/* Nothing happens any more; of a stopped board, nothing happens here either. It takes no memory. Stop. */
uint32_t btjobs_stop(btjobs_board *board);

/* Whether all frames are shown, and nothing was stopped. */
uint32_t btjobs_is_done(btjobs_board *board, bool *done);

/* ---- the log */

/* How many events have happened. */
uint32_t btjobs_count(btjobs_board *board, size_t *count);

/* The event at a place, from 0. Fails with NOTHING, where no event stands there. */
uint32_t btjobs_event_at(btjobs_board *board, size_t at, btjobs_event *event);

/* The events from a place on, as many as there is room for, at the start of the buffer, and how many they are. */
uint32_t btjobs_events(btjobs_board *board, size_t from, btjobs_event *events, size_t room, size_t *count);

/* ---- a log as text: a line of numbers, a line for each event, and lines of remarks, which begin with #
 *
 *     btjobs log 1 frames N workers K small S large L slots P agents A bands B questions Q season M
 *     0 start logic 1
 *     emit 1
 *
 * Any number may stand in it. The season is how many frames one board was given, of a run of several. Of text the length is in bytes, and
 * no zero stands behind it. */

/* The text of a log of these numbers and events, of one board or of several that followed one another, at the start of a buffer, and its
 * length. A kind above 6 is a stop's, the kind of a job above 2 a Draw's.
 * Fails with NO_MEMORY, SHORT, where the buffer is too short; then *size tells the length. */
uint32_t btjobs_write_log(const btjobs_numbers *numbers, uint32_t season, const btjobs_event *events, size_t count, uint8_t *text, size_t room,
                          size_t *size);

/* The numbers of a text, and its events at the start of a buffer, and how many they are. To open a board and to do the events shows whether
 * the numbers are within their limits, and which event isn't legal.
 * Fails with NO_MEMORY, LOG_HEAD, where the first line is none of numbers, LOG_LINE, where a line is no event's and no remark, and *count tells
 * which, from 1; or SHORT, where the buffer is too short, and *count tells how many events there are. */
uint32_t btjobs_read_log(const uint8_t *text, size_t length, btjobs_numbers *numbers, uint32_t *season, btjobs_event *events, size_t room,
                         size_t *count);

/* The version of the library: ten thousand for each major version, a hundred for each minor one, one for each patch. */
#define BTJOBS_VERSION 100
uint32_t btjobs_version(void);

/* A status in words. */
static inline const char *btjobs_status_text(uint32_t status) {
    static const char *const texts[] = {"ok", "out of memory", "the board is closed", "the board is open", "the board is stopped",
        "no such worker", "the worker runs a job", "the worker runs no job", "not legal now", "nothing to take", "numbers out of limits",
        "the buffer is too short", "not the first line of a log", "not a line of a log"};
    return status < sizeof texts / sizeof *texts ? texts[status] : "no such status";
}

#ifdef __cplusplus
}
#endif
#endif
