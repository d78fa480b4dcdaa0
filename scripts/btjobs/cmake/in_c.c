/* A run in C, by one worker: each call that hands out a job is answered at once. */
#include <btjobs.h>
#include <stdio.h>

int main(void) {
    btjobs_board board = BTJOBS_CLOSED_BOARD;
    const btjobs_numbers numbers = {5, 10, 2, 1, 4, 4, 3, 1};
    btjobs_job job;
    uint32_t frame, frames = 0, status = btjobs_open(&board, &numbers);
    size_t events = 0;
    bool begun;
    if (status) return fprintf(stderr, "%s\n", btjobs_status_text(status)), 1;
    for (;;) {
        while (btjobs_show(&board, &frame) == BTJOBS_OK) frames = frame;
        if ((status = btjobs_take(&board, 0, &job)) != BTJOBS_OK) break;
        if (job.kind == BTJOBS_LOGIC && job.question == 0) status = btjobs_spread(&board, 0, &begun);
        else if (job.kind == BTJOBS_THINK && job.question == 0) status = btjobs_ask(&board, 0, &job);
        else status = btjobs_finish(&board, 0);
        if (status) break;
    }
    btjobs_count(&board, &events);
    btjobs_close(&board);
    printf("%u frames, %zu events: %s\n", frames, events, btjobs_status_text(status));
    return status != BTJOBS_NOTHING || frames != 5;
}
