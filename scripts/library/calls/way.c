/* btworld_way: writes the way of each agent to each place of the map before each frame, as AGENT PLACE DIRECTION STEPS. */
#include "looking.h"

static void look(btworld_game *game) {
    const uint32_t agents = agents_of(game), on = next_of(game);
    btworld_way_state way = {7, 7};
    uint32_t status;
    LOOK(btworld_way(&closed, on, 0, 0, &way) == BTWORLD_CLOSED && btworld_way(game, on, agents, 0, &way) == BTWORLD_NO_AGENT);
    LOOK(btworld_way(game, on, UINT32_MAX, 99, &way) == BTWORLD_NO_AGENT && way.steps == 7 && way.direction == 7);
    for (uint32_t agent = 0; agent < agents; agent++) {
        LOOK(btworld_way(game, on, agent, 10, &way) == BTWORLD_NO_PLACE && btworld_way(game, on, agent, UINT32_MAX, &way) == BTWORLD_NO_PLACE);
        for (uint32_t place = 0; place < 10; place++) {
            way = (btworld_way_state){7, 7};
            REFUSING(status, btworld_way(game, on | 0xfc000000u, agent, place, &way)) LOOK(way.steps == 7 && way.direction == 7);
            if (status == BTWORLD_NO_PLACE) {
                LOOK(way.steps == 7 && way.direction == 7);
                continue;
            }
            LOOK(status == BTWORLD_OK && way.direction <= BTWORLD_NO_WAY && (way.steps == 0) == (way.direction >= BTWORLD_HERE));
            printf("%c %u %u %u\n", 'A' + (int)agent, (unsigned)place, (unsigned)way.direction, (unsigned)way.steps);
        }
    }
}

int main(int argc, char **argv) { return look_at_frames(argc, argv, look); }
