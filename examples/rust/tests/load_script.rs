//! A game that is loaded with its script goes on by it.
use btworld::{Fault, Game};

const LEVEL: &[u8] = br#"{"map":["Aa.0"],"agents":["t"],"trees":{"t":["move","0"]}}"#;

#[test]
fn a_loaded_game_goes_on() {
    let mut game = Game::open(LEVEL, b"3 on a\n5 off a\n").unwrap();
    for _ in 0..6 {
        let mut loaded = Game::load(LEVEL, &game.state().unwrap(), b"3 on a\n5 off a\n").unwrap();
        assert!(loaded == game && loaded.signals() == game.signals());
        game.step_script().unwrap();
        loaded.step_script().unwrap();
        assert!(loaded == game);
    }
    assert_eq!(Game::load(LEVEL, &game.state().unwrap(), b"x").err(), Some(Fault::Refused("script: line 1".into())));
}
