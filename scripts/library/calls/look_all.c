/* btworld_look_all: what btworld_cell and btworld_agent tell of each game, one behind another, by one thread and by two at once; also of
   games of another level, and of games before their first frame. */
#include "looking.h"

enum { GAMES = 4, CELLS = 1 << 15, AGENTS = 128 };

static const uint8_t small[] = "{\"map\":[\"*\",\"A\"],\"agents\":[\"t\"],\"trees\":{\"t\":[\"wait\",1]}}";
static btworld_game games[GAMES];
static btworld_cell_state cells[CELLS], again[CELLS];
static btworld_agent_state agents[AGENTS], agents_again[AGENTS];

typedef struct part { int first, count; btworld_cell_state *cells; btworld_agent_state *agents; } part;

static void *look_at_part(void *it) {
    const part *own = it;
    LOOK(!btworld_look_all(games + own->first, (size_t)own->count, own->cells, CELLS / 2, own->agents, AGENTS / 2));
    return NULL;
}

/* What the single calls tell of a game; where the next game's begins. */
static void look_at_one(const btworld_game *game, const btworld_cell_state **cell, const btworld_agent_state **agent) {
    uint32_t width, height, count, frame;
    btworld_cell_state one;
    btworld_agent_state state;
    LOOK(!btworld_map(game, &width, &height, &count) && !btworld_frame(game, &frame));
    for (uint32_t y = 0; y < height; y++)
        for (uint32_t x = 0; x < width; x++, ++*cell) {
            LOOK(!btworld_cell(game, x, y, &one) && (*cell)->mark == one.mark && (*cell)->item == one.item && (*cell)->agent == one.agent);
            if (one.agent == BTWORLD_NOBODY) continue;
            LOOK((*agent)[one.agent].x == x && (*agent)[one.agent].y == y);
        }
    for (uint32_t it = 0; it < count; it++, ++*agent) {
        if (frame > 0) LOOK(!btworld_agent(game, it, &state) && (*agent)->carrying == state.carrying && (*agent)->status == state.status);
        else LOOK(!(*agent)->carrying && (*agent)->status == BTWORLD_NOT_TICKED);
    }
}

static void look(btworld_game *game) {
    uint32_t width, height, count, before;
    size_t all, many, half_cells, half_agents;
    const btworld_cell_state *cell = cells;
    const btworld_agent_state *agent = agents;
    btworld_game kept;
    pthread_t other;
    part first, last;
    LOOK(!btworld_map(game, &width, &height, &count));
    all = 3 * (size_t)width * height + 2;
    many = 3 * (size_t)count + 1;
    for (int it = 0; it < GAMES; it++) {
        if (it == 1) LOOK(!btworld_open(&games[it], small, sizeof small - 1));
        else LOOK(!btworld_fork(game, &games[it]) && !btworld_step(&games[it], (uint32_t)it * 3));
    }
    memset(cells, 7, sizeof cells);
    memset(agents, 7, sizeof agents);
    LOOK(btworld_look_all(games, GAMES, cells, all - 1, agents, AGENTS) == BTWORLD_SHORT);
    LOOK(btworld_look_all(games, GAMES, cells, CELLS, agents, many - 1) == BTWORLD_SHORT);
    LOOK(btworld_look_all(games, GAMES, NULL, 0, NULL, 0) == BTWORLD_SHORT);
    kept = games[2];
    games[2] = closed;
    LOOK(btworld_look_all(games, GAMES, cells, CELLS, agents, AGENTS) == BTWORLD_CLOSED);
    games[2] = kept;
    LOOK(is_kept(cells, 0, sizeof cells) && is_kept(agents, 0, sizeof agents));
    to_go = 0; /* it takes no memory */
    LOOK(!btworld_look_all(games, GAMES, cells, all, agents, many));
    to_go = -1;
    LOOK(is_kept(cells, all * sizeof *cells, sizeof cells) && is_kept(agents, many * sizeof *agents, sizeof agents));
    for (int it = 0; it < GAMES; it++) look_at_one(&games[it], &cell, &agent);
    LOOK(cell == cells + all && agent == agents + many);
    LOOK(!btworld_look_all(NULL, 0, NULL, 0, NULL, 0));
    half_cells = (size_t)width * height + 2;
    half_agents = (size_t)count + 1;
    first = (part){0, 2, again, agents_again};
    last = (part){2, 2, again + half_cells, agents_again + half_agents};
    LOOK(!pthread_create(&other, NULL, look_at_part, &last));
    look_at_part(&first);
    LOOK(!pthread_join(other, NULL));
    LOOK(!memcmp(cells, again, all * sizeof *cells));
    for (before = 0; before < many; before++) LOOK(agents[before].x == agents_again[before].x && agents[before].status == agents_again[before].status);
    for (int it = 0; it < GAMES; it++) btworld_close(&games[it]);
}

int main(int argc, char **argv) { return look_at_frames(argc, argv, look); }
