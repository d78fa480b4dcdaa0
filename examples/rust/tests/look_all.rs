//! `look_all` tells what `Game::cells` and `Game::agents` tell of each game.
use btworld::{Game, look_all};

#[test]
fn all_are_looked_at() {
    let first = Game::open(br#"{"map":["Aa.0"],"agents":["t"],"trees":{"t":["move","0"]}}"#, b"").unwrap();
    let other = Game::open(br#"{"map":["*","B","A"],"agents":["t","t"],"trees":{"t":["take"]}}"#, b"").unwrap();
    let mut games = vec![first.clone(), other, first];
    for _ in 0..4 {
        let look = look_all(&games);
        assert_eq!(look.cells, games.iter().flat_map(Game::cells).collect::<Vec<_>>());
        assert_eq!(look.agents, games.iter().flat_map(Game::agents).collect::<Vec<_>>());
        games[2].step(1).unwrap();
        games[1].step(0).unwrap();
    }
    assert!(look_all(&[]).cells.is_empty());
}
