// Game::intent tells what an agent wants, and whether it gets it.
#include "looking.hpp"

int main(int, char **) {
    Game game("{\"map\":[\"A*0\",\".B.\"],\"agents\":[\"t\",\"u\"],\"trees\":{\"u\":[\"wait\",9],\"t\":[\"fallback\","
              "[\"give\",\"B\"],[\"seq\",[\"item\"],[\"take\"]],[\"move\",\"0\"]]}}");
    const btworld_intent_state wanted[] = {{5, 1, 0, BTWORLD_MOVE, BTWORLD_EAST, BTWORLD_NOBODY, true},
                                           {4, 1, 0, BTWORLD_TAKE, BTWORLD_HERE, BTWORLD_NOBODY, true},
                                           {1, 1, 1, BTWORLD_GIVE, BTWORLD_HERE, 1, true}};
    for (const btworld_intent_state &it : wanted) {
        const btworld_intent_state told = game.intent(0, 0), stays = game.intent(0, 1);
        LOOK(told.node == it.node && told.x == it.x && told.y == it.y && told.deed == it.deed && told.direction == it.direction);
        LOOK(told.agent == it.agent && told.granted == it.granted);
        LOOK(stays.deed == BTWORLD_STAY && stays.node == BTWORLD_NO_NODE && stays.x == 1 && stays.y == 1 && !stays.granted);
        game.step(0);
    }
    LOOK(status_of([&] { game.intent(0, 2); }) == BTWORLD_NO_AGENT);
    return 0;
}
