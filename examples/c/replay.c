/* Shows the frames of a log, as `btworld replay` does, or completes a log that was broken off.
 *
 *   replay LEVEL SCRIPT|- LOG        writes the frames
 *   replay LEVEL SCRIPT|- LOG whole  writes the log of a complete run that begins as the log does
 *
 * Status: 0; 1 for a file that can't be read; 2 where a file is refused, or the log shows fewer frames than it is of; 3 for want of
 * memory. */
#include "reading.h"

int main(int argc, char **argv) {
    size_t level_length, script_length, log_length, size;
    uint8_t *level, *script, *log, *text;
    uint32_t status, frames = 0;
    if (argc != 4 && !(argc == 5 && !strcmp(argv[4], "whole"))) return 64;
    level = read_file(argv[1], &level_length);
    script = read_file(argv[2], &script_length);
    log = read_file(argv[3], &log_length);
    if (argc == 5)
        WITH_ROOM(status, text, size,
                  btworld_complete(level, level_length, script, script_length, log, log_length, text, capacity, &size));
    else
        WITH_ROOM(status, text, size,
                  btworld_replay(level, level_length, script, script_length, log, log_length, text, capacity, &size, &frames));
    if (status >= BTWORLD_LEVEL_JSON && status < BTWORLD_LOG_HEAD) refuse(level, level_length, script, script_length);
    if (status == BTWORLD_OK || status == BTWORLD_LOG_INCOMPLETE) fwrite(text, 1, size, stdout);
    if (status == BTWORLD_LOG_INCOMPLETE) fprintf(stderr, "log: incomplete, %" PRIu32 " frames\n", frames);
    else if (status != BTWORLD_OK) fprintf(stderr, "%s\n", btworld_status_text(status));
    free(text);
    free(log);
    free(script);
    free(level);
    return status == BTWORLD_OK ? 0 : status == BTWORLD_NO_MEMORY ? 3 : 2;
}
