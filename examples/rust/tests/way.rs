//! `Game::way` tells the way that a `move` gets.
use btworld::{Direction, Fault, Game, Way, mask_of};

#[test]
fn ways_are_told() {
    let a = mask_of("a").unwrap();
    let mut game = Game::open(br#"{"map":["A.a0"],"agents":["t"],"trees":{"t":["move","0"]}}"#, b"").unwrap();
    assert_eq!(game.way(a, 0, 0), Ok(Way::Steps(Direction::East, 3)));
    assert_eq!(game.way(0, 0, 0), Ok(Way::None));
    (0..4).try_for_each(|_| game.step(a)).unwrap();
    assert_eq!(game.way(a, 0, 0), Ok(Way::Here));
    assert_eq!((game.way(a, 1, 0), game.way(a, 0, 1)), (Err(Fault::NoAgent), Err(Fault::NoPlace)));
}
