//! What a program that depends on the crate does.
use btworld::{Answer, Fault, Game, mask_of};
use std::thread;

const LEVEL: &[u8] = br#"{"map":["Aa0"],"agents":["t"],"trees":{"t":["move","0"]}}"#;

#[test]
fn games_go_to_threads() {
    let first = Game::open(LEVEL, b"2 on a\n").unwrap();
    let played = |mut game: Game| {
        (0..5).try_for_each(|_| game.step_script()).unwrap();
        game.digest()
    };
    let threads: Vec<_> = (0..4).map(|_| first.clone()).map(|game| thread::spawn(move || played(game))).collect();
    let wanted = played(first.fork().unwrap());
    assert!(threads.into_iter().all(|it| it.join().unwrap() == wanted));
}

#[test]
fn faults_are_told() {
    assert_eq!(Game::open(LEVEL, b"x").err(), Some(Fault::Refused("script: line 1".into())));
    let game = Game::open(LEVEL, b"").unwrap();
    assert_eq!(game.text(), Err(Fault::NoFrame));
    assert_eq!(game.cell(9, 0).err(), Some(Fault::NoCell));
    assert!(Game::load(LEVEL, "", b"").is_err());
    assert!(format!("{game:?}").contains("after frame 0"));
}

#[test]
fn answers_are_told() {
    let mut game = Game::open(LEVEL, b"").unwrap();
    assert_eq!(game.nodes(mask_of("a").unwrap(), 0).unwrap(), [Some(Answer::Running)]);
    game.step(0).unwrap();
    assert_eq!(game.agent(0).unwrap().answer, Some(Answer::Failure));
}
