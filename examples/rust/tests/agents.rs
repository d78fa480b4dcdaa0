//! `Game::agents` tells what `Game::agent` tells, and before the first frame where the agents start.
use btworld::{Agent, Game};

#[test]
fn all_agents_are_those_of_single_calls() {
    let mut game = Game::open(br#"{"map":["A.0","1.B"],"agents":["t","u"],"trees":{"t":["move","0"],"u":["move","1"]}}"#, b"").unwrap();
    let start = |x, y| Agent { x, y, carrying: false, answer: None };
    assert_eq!(game.agents(), [start(0, 0), start(2, 1)]);
    for _ in 0..3 {
        game.step(0).unwrap();
        assert_eq!(game.agents(), [game.agent(0).unwrap(), game.agent(1).unwrap()]);
    }
}
