//! `Game::run` does what so many steps do.
use btworld::{Fault, Game};

const LEVEL: &[u8] = br#"{"map":["Aa.0"],"agents":["t"],"trees":{"t":["move","0"]}}"#;

#[test]
fn a_run_is_many_steps() {
    let (mut game, mut other) = (Game::open(LEVEL, b"").unwrap(), Game::open(LEVEL, b"").unwrap());
    game.run(&[0, 1, 0, 0, 1]).unwrap();
    [0, 1, 0, 0, 1].iter().try_for_each(|it| other.step(*it)).unwrap();
    assert!(game == other && game.frame() == 5);
    game.run(&[]).unwrap();
    assert!(game == other);
}

#[test]
fn a_run_ends_at_the_last_frame() {
    let mut game = Game::open(LEVEL, b"").unwrap();
    game.step(1).unwrap();
    let state = game.state().unwrap().replace("frame 1", "frame 4294967293");
    let mut late = Game::load(LEVEL, &state, b"").unwrap();
    assert_eq!(late.run(&[0; 5]), Err(Fault::LastFrame));
    assert_eq!(late.frame(), u32::MAX);
}
