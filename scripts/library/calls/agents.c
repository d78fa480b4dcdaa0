/* btworld_agents: each agent as btworld_agent tells it, and before the first frame where the cells have it, not ticked. */
#include "looking.h"

static void look(btworld_game *game) {
    static btworld_agent_state agents[27];
    uint32_t frame, count = agents_of(game);
    btworld_agent_state one;
    btworld_cell_state cell;
    size_t size = 7;
    LOOK(!btworld_frame(game, &frame));
    memset(agents, 7, sizeof agents);
    LOOK(btworld_agents(&closed, agents, 27, &size) == BTWORLD_CLOSED && size == 7 && is_kept(agents, 0, sizeof agents));
    if (count > 0) {
        LOOK(btworld_agents(game, NULL, 0, &size) == BTWORLD_SHORT && size == count);
        size = 7;
        LOOK(btworld_agents(game, agents, count - 1, &size) == BTWORLD_SHORT && size == count && is_kept(agents, 0, sizeof agents));
    }
    size = 7;
    to_go = 0; /* it takes no memory */
    LOOK(btworld_agents(game, agents, count, &size) == BTWORLD_OK && size == count);
    to_go = -1;
    LOOK(is_kept(agents, size * sizeof *agents, sizeof agents));
    for (uint32_t at = 0; at < count; at++) {
        const btworld_agent_state *it = &agents[at];
        LOOK(!btworld_cell(game, it->x, it->y, &cell) && cell.agent == at);
        if (frame > 0) LOOK(!btworld_agent(game, at, &one) && it->x == one.x && it->y == one.y && it->carrying == one.carrying && it->status == one.status);
        else LOOK(!it->carrying && it->status == BTWORLD_NOT_TICKED);
    }
}

int main(int argc, char **argv) { return look_at_frames(argc, argv, look); }
