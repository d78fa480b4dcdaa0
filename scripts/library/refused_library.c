/* Refuses the library each growth of memory in turn, in each call that takes memory, and looks that the game is as it was and that
   the same call then comes to what it should; and that each call of a script or a log comes to what steps come to. refused_library
   LEVEL FRAMES; scripts/library/try_library.py builds it, with -Wl,--wrap=malloc and -Wl,--wrap=realloc, and runs it. */
#include "btworld.h"
#include <stdio.h>
#include <stdlib.h>
#include <string.h>

void *__real_malloc(size_t);
void *__real_realloc(void *, size_t);

static long to_go = -1; /* growths until one is refused; below 0 none is */
static long refusals;

static int is_refused(void) {
    if (to_go < 0 || to_go-- > 0) return 0;
    refusals++;
    return 1;
}

void *__wrap_malloc(size_t size) { return is_refused() ? NULL : __real_malloc(size); }
void *__wrap_realloc(void *block, size_t size) { return is_refused() ? NULL : __real_realloc(block, size); }

#define LOOK(fact) do { if (!(fact)) { fprintf(stderr, "line %d: not so: %s\n", __LINE__, #fact); exit(1); } } while (0)
#define REFUSING(status, call) for (long nth = 0; to_go = nth, status = (call), to_go = -1, status == BTWORLD_NO_MEMORY; nth++)

enum { ROOM = 1 << 16, LOGS = 1 << 20 };
static uint8_t level[1 << 20], text[ROOM], kept[ROOM], other[ROOM], all[LOGS], shown[LOGS], whole[LOGS], ones[LOGS];
static const uint8_t script[] = "2 on a\n2 on b\n4 off a\n", bad[] = "2 on a\n1 on b\n";

/* A game is stepped by its script; its log is completed from the first line and shows the same text. */
static void look_at_scripts(size_t size, uint32_t frames) {
    btworld_game game = BTWORLD_CLOSED_GAME, twin = BTWORLD_CLOSED_GAME;
    char head[80];
    uint32_t status, count = 7, on = 0, shown_now = 0, next = 0;
    uint64_t event = 9;
    size_t length, joined = 0, logged;
    bool same;
    REFUSING(status, btworld_open_script(&game, level, size, bad, sizeof bad - 1)) LOOK(!game.is_open);
    LOOK(status == BTWORLD_SCRIPT_ORDER && !game.is_open);
    memset(text, 1, ROOM);
    memset(other, 1, ROOM);
    REFUSING(status, btworld_fault_text(level, size, bad, sizeof bad - 1, text, ROOM, &length)) LOOK(!memcmp(text, other, ROOM));
    LOOK(status == BTWORLD_OK && length == 23 && !memcmp(text, "script: order at line 2\1", 24));
    LOOK(btworld_fault_text(level, size, bad, sizeof bad - 1, text, 22, &length) == BTWORLD_SHORT && length == 23);
    REFUSING(status, btworld_fault_text(level, size, script, sizeof script - 1, text, ROOM, &length)) {}
    LOOK(status == BTWORLD_OK && length == 0);
    memset(text, 1, ROOM);
    length = 7;
    REFUSING(status, btworld_explain(level, size, bad, sizeof bad - 1, text, ROOM, &length)) LOOK(!memcmp(text, other, ROOM) && length == 7);
    LOOK(status == BTWORLD_OK && length == 23 && !memcmp(text, "2\nframe 1 after frame 2\1", 24));
    LOOK(btworld_explain(level, size, bad, sizeof bad - 1, text, 22, &length) == BTWORLD_SHORT && length == 23);
    REFUSING(status, btworld_explain(bad, sizeof bad - 1, script, sizeof script - 1, text, ROOM, &length)) {}
    LOOK(status == BTWORLD_OK && length > 4 && !memcmp(text, "1:3\n", 4));
    REFUSING(status, btworld_explain(level, size, script, sizeof script - 1, text, ROOM, &length)) {}
    LOOK(status == BTWORLD_OK && length == 0);
    REFUSING(status, btworld_open_script(&game, level, size, script, sizeof script - 1)) LOOK(!game.is_open);
    LOOK(status == BTWORLD_OK && btworld_open_script(&game, level, size, script, sizeof script - 1) == BTWORLD_OPEN);
    LOOK(btworld_open(&twin, level, size) == BTWORLD_OK);
    for (uint32_t f = 1; f <= frames; f++) {
        LOOK(btworld_signals(&game, &shown_now, &next) == BTWORLD_OK && shown_now == on);
        on = f == 2 ? 3 : f == 4 ? 2 : on;
        LOOK(next == on);
        REFUSING(status, btworld_step_script(&game)) LOOK(btworld_frame(&game, &count) == BTWORLD_OK && count == f - 1);
        LOOK(status == BTWORLD_OK && btworld_step(&twin, on) == BTWORLD_OK);
        LOOK(btworld_same(&game, &twin, &same) == BTWORLD_OK && same);
        LOOK(btworld_text(&game, all + joined, LOGS - joined, &length) == BTWORLD_OK);
        joined += length;
    }
    btworld_close(&game);
    LOOK(btworld_step_script(&game) == BTWORLD_CLOSED);
    btworld_close(&twin);
    sprintf(head, "btworld log 2 frames %u workers 2 small 8 large 8 slots 3\n", (unsigned)frames);
    memset(whole, 1, LOGS);
    memset(ones, 1, LOGS);
    REFUSING(status, btworld_complete(level, size, script, sizeof script - 1, (uint8_t *)head, strlen(head), whole, LOGS, &logged))
        LOOK(!memcmp(whole, ones, LOGS));
    LOOK(status == BTWORLD_OK && whole[logged] == 1);
    LOOK(btworld_complete(level, size, script, sizeof script - 1, (uint8_t *)head, strlen(head), shown, logged - 1, &length) == BTWORLD_SHORT
         && length == logged && shown[0] == 0);
    memset(shown, 1, LOGS);
    count = 7;
    REFUSING(status, btworld_replay(level, size, script, sizeof script - 1, whole, logged, shown, LOGS, &length, &count))
        LOOK(!memcmp(shown, ones, LOGS) && count == 7);
    LOOK(status == BTWORLD_OK && count == frames && length == joined && !memcmp(shown, all, joined) && shown[joined] == 1);
    count = 7;
    REFUSING(status, btworld_log_frames(level, size, script, sizeof script - 1, whole, logged, &count, &event)) LOOK(count == 7);
    LOOK(status == BTWORLD_OK && count == frames && event == 9);
    LOOK(btworld_log_frames(level, size, script, sizeof script - 1, whole, strlen(head), &count, &event) == BTWORLD_LOG_INCOMPLETE
         && count == 0 && event == 9);
    count = 7;
    LOOK(btworld_replay(level, size, script, sizeof script - 1, whole, logged, shown, joined - 1, &length, &count) == BTWORLD_SHORT
         && length == joined && count == 7);
    LOOK(btworld_replay(level, size, script, sizeof script - 1, whole, strlen(head), shown, LOGS, &length, &count) == BTWORLD_LOG_INCOMPLETE
         && length == 0 && count == 0);
    LOOK(btworld_replay(level, size, script, sizeof script - 1, whole, 3, shown, LOGS, &length, &count) == BTWORLD_LOG_HEAD);
    LOOK(btworld_replay(level, size, script, sizeof script - 1, whole, logged - 1, shown, LOGS, &length, &count) == BTWORLD_LOG_LINE);
    memcpy(whole + strlen(head), "emit 1\n", 7);
    LOOK(btworld_replay(level, size, script, sizeof script - 1, whole, strlen(head) + 7, shown, LOGS, &length, &count) == BTWORLD_LOG_ILLEGAL);
    count = 7;
    LOOK(btworld_log_frames(level, size, script, sizeof script - 1, whole, strlen(head) + 7, &count, &event) == BTWORLD_LOG_ILLEGAL
         && count == 7 && event == 0);
    memcpy(whole + strlen(head), "stop\n", 5);
    LOOK(btworld_complete(level, size, script, sizeof script - 1, whole, strlen(head) + 5, shown, LOGS, &length) == BTWORLD_LOG_STOPPED);
}

/* Some bytes are refused as a state, or loaded as the state whose text they are. */
static void look_at_text(const uint8_t *bytes, size_t length, size_t size) {
    btworld_game game = BTWORLD_CLOSED_GAME;
    uint32_t status = btworld_load(&game, level, size, bytes, length);
    size_t filled;
    LOOK(game.is_open == (status == BTWORLD_OK));
    LOOK(status == BTWORLD_OK || (status >= BTWORLD_STATE_TEXT && status <= BTWORLD_STATE_WORLD));
    if (status != BTWORLD_OK) return;
    LOOK(btworld_state(&game, text, ROOM, &filled) == BTWORLD_OK && filled == length && !memcmp(text, bytes, length));
    btworld_close(&game);
}

/* Texts that differ from a state's in a byte, or are cut. */
static void look_at_other_texts(const uint8_t *right, size_t length, size_t size) {
    static const uint8_t puts[] = "\n 09ABSR-*,x";
    static uint8_t changed[ROOM];
    btworld_game game = BTWORLD_CLOSED_GAME;
    for (size_t i = 0; i < length; i += 1 + length / 50) {
        look_at_text(right, i, size);
        for (size_t k = 0; k < sizeof puts - 1; k++) {
            memcpy(changed, right, length);
            changed[i] = puts[k];
            look_at_text(changed, length, size);
        }
    }
    LOOK(btworld_load(&game, level, size, NULL, 0) == BTWORLD_STATE_TEXT && btworld_load(&game, NULL, 0, right, length) == BTWORLD_LEVEL_JSON);
    memcpy(changed, right, length);
    changed[22] = changed[22] == '0' ? '1' : '0';
    LOOK(btworld_load(&game, level, size, changed, length) == BTWORLD_STATE_LEVEL && !game.is_open);
}

/* A game's state, written where memory is refused and where the buffer is short; a game in the same state writes the same, and it is
   loaded. */
static void look_at_state(const btworld_game *game, const btworld_game *twin, size_t size) {
    static uint8_t right[ROOM];
    btworld_game loaded = BTWORLD_CLOSED_GAME;
    uint32_t status;
    size_t length, filled = 7;
    bool same;
    memset(text, 1, ROOM);
    memset(other, 1, ROOM);
    LOOK(btworld_state(twin, right, ROOM, &length) == BTWORLD_OK && length > 0);
    REFUSING(status, btworld_state(game, text, ROOM, &filled)) LOOK(!memcmp(text, other, ROOM) && filled == 7);
    LOOK(status == BTWORLD_OK && filled == length && !memcmp(text, right, length) && !memcmp(text + length, other, ROOM - length));
    LOOK(btworld_state(game, NULL, 0, &filled) == BTWORLD_SHORT && filled == length);
    memset(text, 1, ROOM);
    LOOK(btworld_state(game, text, length - 1, &filled) == BTWORLD_SHORT && filled == length && !memcmp(text, other, ROOM));
    LOOK(btworld_same(game, twin, &same) == BTWORLD_OK && same);
    REFUSING(status, btworld_load(&loaded, level, size, right, length)) LOOK(!loaded.is_open);
    LOOK(status == BTWORLD_OK && btworld_same(&loaded, twin, &same) == BTWORLD_OK && same);
    LOOK(btworld_load(&loaded, level, size, right, length) == BTWORLD_OPEN);
    LOOK(btworld_state(&loaded, text, ROOM, &filled) == BTWORLD_OK && filled == length && !memcmp(text, right, length));
    btworld_close(&loaded);
    look_at_other_texts(right, length, size);
}

/* Memories, nodes, signals and the script so far, where memory is refused and where buffers are short; a game that is stepped by that
   script comes to the same state. */
static void look_back(const btworld_game *game, size_t size, uint32_t frames, uint32_t agents, uint32_t on) {
    static uint16_t numbers[256], sevens[256];
    btworld_game again = BTWORLD_CLOSED_GAME;
    uint32_t status, shown = 7, scripted = 7;
    size_t length, filled = 7;
    bool same;
    memset(sevens, 7, sizeof sevens);
    memset(other, 1, ROOM);
    for (uint32_t agent = 0; agent < agents; agent++) {
        memset(numbers, 7, sizeof numbers);
        filled = 7;
        REFUSING(status, btworld_memory(game, agent, numbers, 255, &filled)) LOOK(!memcmp(numbers, sevens, sizeof numbers) && filled == 7);
        LOOK(status == BTWORLD_OK && filled > 0 && !memcmp(numbers + filled, sevens, sizeof numbers - 2 * filled));
        LOOK(btworld_memory(game, agent, NULL, 0, &length) == BTWORLD_SHORT && length == filled);
        memset(numbers, 7, sizeof numbers);
        LOOK(btworld_memory(game, agent, numbers, filled - 1, &length) == BTWORLD_SHORT && !memcmp(numbers, sevens, sizeof numbers));
        memset(text, 7, ROOM);
        memset(other, 7, ROOM);
        filled = 7;
        REFUSING(status, btworld_nodes(game, on, agent, text, ROOM, &filled)) LOOK(!memcmp(text, other, ROOM) && filled == 7);
        LOOK(status == BTWORLD_OK && filled == length && !memcmp(text + filled, other, ROOM - filled));
        LOOK(text[0] <= BTWORLD_RUNNING);
        for (size_t node = 1; node < filled; node++) LOOK(text[node] <= BTWORLD_NOT_TICKED);
        LOOK(btworld_nodes(game, on, agent, NULL, 0, &length) == BTWORLD_SHORT && length == filled);
        memset(text, 7, ROOM);
        LOOK(btworld_nodes(game, on, agent, text, filled - 1, &length) == BTWORLD_SHORT && !memcmp(text, other, ROOM));
        filled = 7;
        REFUSING(status, btworld_why(game, on, agent, text, ROOM, &filled)) LOOK(!memcmp(text, other, ROOM) && filled == 7);
        LOOK(status == BTWORLD_OK && !memcmp(text, "frame ", 6) && !memcmp(text + filled, other, ROOM - filled));
        LOOK(btworld_why(game, on, agent, NULL, 0, &length) == BTWORLD_SHORT && length == filled);
        memset(other, 1, ROOM);
    }
    LOOK(btworld_memory(game, agents, numbers, 255, &filled) == BTWORLD_NO_AGENT && !memcmp(numbers, sevens, sizeof numbers));
    filled = 7;
    LOOK(btworld_nodes(game, on, agents, text, ROOM, &filled) == BTWORLD_NO_AGENT && filled == 7);
    LOOK(btworld_why(game, on, agents, text, ROOM, &filled) == BTWORLD_NO_AGENT && filled == 7);
    LOOK(btworld_signals(game, &shown, &scripted) == BTWORLD_OK && shown == on && scripted == 0);
    memset(text, 1, ROOM);
    filled = 7;
    REFUSING(status, btworld_script(game, text, ROOM, &filled)) LOOK(!memcmp(text, other, ROOM) && filled == 7);
    LOOK(status == BTWORLD_OK && !memcmp(text + filled, other, ROOM - filled));
    LOOK(btworld_script(game, NULL, 0, &length) == (filled ? BTWORLD_SHORT : BTWORLD_OK) && length == filled);
    LOOK(btworld_open_script(&again, level, size, text, filled) == BTWORLD_OK);
    for (uint32_t f = 1; f <= frames; f++) LOOK(btworld_step_script(&again) == BTWORLD_OK);
    LOOK(btworld_same(game, &again, &same) == BTWORLD_OK && same);
    btworld_close(&again);
}

/* No script can name a change after frame 9999. */
static void look_at_late_changes(void) {
    static const uint8_t waits[] = "{\"map\":[\"A\"],\"agents\":[\"t\"],\"trees\":{\"t\":[\"wait\",1]}}";
    btworld_game game = BTWORLD_CLOSED_GAME;
    size_t length = 7;
    LOOK(btworld_open(&game, waits, sizeof waits - 1) == BTWORLD_OK);
    for (uint32_t f = 1; f <= 10000; f++) LOOK(btworld_step(&game, f >= 9999) == BTWORLD_OK);
    LOOK(btworld_script(&game, text, ROOM, &length) == BTWORLD_OK && length == 10 && !memcmp(text, "9999 on a\n", 10));
    LOOK(btworld_step(&game, 0) == BTWORLD_OK && btworld_script(&game, text, ROOM, &length) == BTWORLD_LONG && length == 10);
    btworld_close(&game);
}

int main(int argc, char **argv) {
    btworld_game game = BTWORLD_CLOSED_GAME, twin = BTWORLD_CLOSED_GAME, copy = BTWORLD_CLOSED_GAME;
    btworld_agent_state agent, was = {7, 7, true, 7};
    btworld_cell_state cell = {7, true, 7};
    uint32_t status, frame, width, height, agents;
    uint64_t digest, twins;
    size_t size, length, filled;
    bool same;
    FILE *file = argc == 3 ? fopen(argv[1], "rb") : NULL;
    if (!file) return 64;
    size = fread(level, 1, sizeof level, file);
    fclose(file);
    REFUSING(status, btworld_check(level, size)) {}
    LOOK(status == BTWORLD_OK);
    REFUSING(status, btworld_open(&game, level, size)) LOOK(!game.is_open && btworld_frame(&game, &frame) == BTWORLD_CLOSED);
    LOOK(status == BTWORLD_OK && btworld_open(&game, level, size) == BTWORLD_OPEN);
    LOOK(btworld_open_script(&twin, level, size, NULL, 0) == BTWORLD_OK);
    LOOK(btworld_check(NULL, 0) == BTWORLD_LEVEL_JSON && !strcmp(btworld_status_text(BTWORLD_LEVEL_JSON), "level: json"));
    LOOK(btworld_fault_text(NULL, 0, NULL, 0, NULL, 0, &length) == BTWORLD_SHORT && length == 11);
    LOOK(btworld_fault_text(level, size, NULL, 0, NULL, 0, &length) == BTWORLD_OK && length == 0);
    LOOK(btworld_version() == BTWORLD_VERSION);
    LOOK(btworld_map(&game, &width, &height, &agents) == BTWORLD_OK && width * height > 0 && agents > 0);
    LOOK(btworld_cell(&game, width - 1, height - 1, &cell) == BTWORLD_OK && cell.mark != 7);
    cell.mark = 7;
    LOOK(btworld_cell(&game, width, height - 1, &cell) == BTWORLD_NO_CELL && cell.mark == 7);
    LOOK(btworld_cell(&game, width - 1, UINT32_MAX, &cell) == BTWORLD_NO_CELL && cell.mark == 7);
    LOOK(btworld_text(&game, text, ROOM, &length) == BTWORLD_NO_FRAME && btworld_agent(&game, 0, &agent) == BTWORLD_NO_FRAME);
    look_at_state(&game, &twin, size);
    look_back(&game, size, 0, agents, 0);
    look_at_late_changes();
    for (uint32_t f = 1; f <= (uint32_t)atoi(argv[2]); f++) {
        uint32_t on = f * 2654435761u >> 6;
        uint8_t will[26][255];
        for (uint32_t a = 0; a < agents; a++) LOOK(btworld_nodes(&game, on | 0xfc000000u, a, will[a], 255, &length) == BTWORLD_OK);
        REFUSING(status, btworld_step(&game, on)) {
            LOOK(btworld_frame(&game, &frame) == BTWORLD_OK && frame == f - 1);
            if (f == 1) continue;
            LOOK(btworld_text(&game, text, ROOM, &length) == BTWORLD_OK && !memcmp(text, kept, length));
        }
        LOOK(status == BTWORLD_OK && btworld_step(&twin, on) == BTWORLD_OK);
        LOOK(btworld_same(&game, &twin, &same) == BTWORLD_OK && same);
        for (uint32_t a = 0; a < agents; a++) LOOK(btworld_agent(&game, a, &agent) == BTWORLD_OK && agent.status == will[a][0]);
        LOOK(btworld_text(&twin, kept, ROOM, &length) == BTWORLD_OK);
        memset(text, 1, ROOM);
        memset(other, 1, ROOM);
        REFUSING(status, btworld_text(&game, text, ROOM, &filled)) LOOK(!memcmp(text, other, ROOM));
        LOOK(status == BTWORLD_OK && filled == length && !memcmp(text, kept, length) && text[length] == 1);
        LOOK(btworld_text(&game, NULL, 0, &filled) == BTWORLD_SHORT && filled == length);
        memset(text, 1, ROOM);
        LOOK(btworld_text(&game, text, length - 1, &filled) == BTWORLD_SHORT && filled == length && !memcmp(text, other, ROOM));
        look_at_state(&game, &twin, size);
        look_back(&game, size, f, agents, on);
        REFUSING(status, btworld_fork(&game, &copy)) LOOK(!copy.is_open && btworld_same(&game, &twin, &same) == BTWORLD_OK && same);
        LOOK(status == BTWORLD_OK && btworld_same(&game, &copy, &same) == BTWORLD_OK && same);
        LOOK(btworld_step(&copy, ~on) == BTWORLD_OK && btworld_same(&game, &copy, &same) == BTWORLD_OK && !same);
        LOOK(btworld_level_digest(&game, &digest) == BTWORLD_OK && btworld_level_digest(&copy, &twins) == BTWORLD_OK && digest == twins);
        LOOK(btworld_same(&game, &twin, &same) == BTWORLD_OK && same);
        btworld_close(&copy);
        btworld_close(&copy);
        LOOK(btworld_step(&copy, 0) == BTWORLD_CLOSED);
        agent = was;
        LOOK(btworld_agent(&game, 26, &agent) == BTWORLD_NO_AGENT && agent.x == 7 && agent.status == 7);
    }
    btworld_close(&game);
    btworld_close(&twin);
    look_at_scripts(size, 5);
    printf("%ld refusals\n", refusals);
    return 0;
}
