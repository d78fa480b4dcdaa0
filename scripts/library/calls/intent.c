/* btworld_intent: writes what each agent wants before each frame, as AGENT DEED NODE X,Y DIRECTION TO GRANTED; and looks that the frame does
   what is granted. */
#include "looking.h"

static void look(btworld_game *game) {
    const uint32_t agents = agents_of(game), on = next_of(game);
    static btworld_intent_state intents[27];
    btworld_game next = BTWORLD_CLOSED_GAME;
    btworld_agent_state after;
    uint32_t status, frame;
    uint8_t answers[255];
    size_t count;
    LOOK(!btworld_frame(game, &frame) && !btworld_fork(game, &next) && !btworld_step(&next, on));
    memset(intents, 7, sizeof intents);
    LOOK(btworld_intent(&closed, on, 0, intents) == BTWORLD_CLOSED && btworld_intent(game, on, agents, intents) == BTWORLD_NO_AGENT);
    LOOK(btworld_intent(game, on, UINT32_MAX, intents) == BTWORLD_NO_AGENT && is_kept(intents, 0, sizeof intents));
    for (uint32_t agent = 0; agent < agents; agent++) {
        btworld_intent_state *it = &intents[agent];
        REFUSING(status, btworld_intent(game, on | 0xfc000000u, agent, it)) LOOK(is_kept(it, 0, sizeof *it));
        LOOK(status == BTWORLD_OK && is_kept(intents, (agent + 1) * sizeof *intents, sizeof intents));
        LOOK(!btworld_agent(&next, agent, &after) && !btworld_nodes(game, on, agent, answers, 255, &count));
        LOOK(it->deed == BTWORLD_STAY ? it->node == BTWORLD_NO_NODE && !it->granted : it->node < count && answers[it->node] == BTWORLD_RUNNING);
        if (it->deed == BTWORLD_MOVE) LOOK(it->granted == (after.x == it->x && after.y == it->y) && it->direction < BTWORLD_HERE);
        if (it->deed == BTWORLD_TAKE && it->granted) LOOK(after.x == it->x && after.y == it->y);
        printf("%c %u %u %u,%u %u %u %u\n", 'A' + (int)agent, it->deed, (unsigned)it->node, (unsigned)it->x, (unsigned)it->y, it->direction, it->agent,
               it->granted);
    }
    btworld_close(&next);
    if (frame == 0 || agents == 0) return;
    load_at(game, UINT32_MAX, &next);
    LOOK(btworld_intent(&next, on, 0, &intents[26]) == BTWORLD_LAST_FRAME && is_kept(&intents[26], 0, sizeof *intents));
    LOOK(btworld_intent(&next, on, agents, &intents[26]) == BTWORLD_NO_AGENT);
    btworld_close(&next);
}

int main(int argc, char **argv) { return look_at_frames(argc, argv, look); }
