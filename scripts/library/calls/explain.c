/* btworld_explain: writes where the fault lies and why, of a level with each line left out in turn, and of a script with each line feed; a line
   feed where there is none. */
#include "looking.h"

static uint8_t changed[1 << 20];
static size_t changed_length;
static int is_script;
static uint32_t explain(uint8_t *into, size_t capacity, size_t *size) {
    return is_script ? btworld_explain(level, level_length, changed, changed_length, into, capacity, size)
                     : btworld_explain(changed, changed_length, script, script_length, into, capacity, size);
}

static void look_at_changed(const uint8_t *whole, size_t length) {
    for (size_t from = 0, to; from < length; from = to) {
        size_t size = 7;
        for (to = from; to < length && whole[to++] != '\n';) {}
        if (is_script) from = to - 1;
        memcpy(changed, whole, from);
        memcpy(changed + from, whole + to, length - to);
        changed_length = length - (to - from);
        if (explain(NULL, 0, &size) == BTWORLD_OK) {
            LOOK(size == 0);
            puts("");
            continue;
        }
        LOOK_AT_TEXT(explain, size);
        fwrite(text, 1, size, stdout);
        puts("");
    }
}

static void look(btworld_game *game) {
    uint32_t frame, status;
    size_t size = 7;
    LOOK(!btworld_frame(game, &frame));
    if (frame > 0) return;
    REFUSING(status, btworld_explain(level, level_length, script, script_length, text, ROOM, &size)) LOOK(size == 7);
    LOOK(status == BTWORLD_OK && size == 0);
    LOOK(btworld_explain(NULL, 0, NULL, 0, NULL, 0, &size) == BTWORLD_SHORT && size > 0);
    look_at_changed(level, level_length);
    is_script = 1;
    look_at_changed(script, script_length);
}

int main(int argc, char **argv) { return look_at_frames(argc, argv, look); }
