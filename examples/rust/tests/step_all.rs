//! `step_all` does what so many steps do, by one thread or by parts.
use btworld::{Fault, Game, step_all};
use std::thread;

const LEVEL: &[u8] = br#"{"map":["Aa.0"],"agents":["t"],"trees":{"t":["move","0"]}}"#;

#[test]
fn all_are_stepped() {
    let first = Game::open(LEVEL, b"").unwrap();
    let (mut games, mut single) = (vec![first.clone(); 8], vec![first; 8]);
    for turn in 0..5 {
        let signals: Vec<u32> = (0..9).map(|it| (it + turn) % 3).collect();
        step_all(&mut games, &signals).unwrap();
        single.iter_mut().zip(&signals).try_for_each(|(game, it)| game.step(*it)).unwrap();
        assert!(games == single);
        thread::scope(|all| {
            for (games, signals) in games.chunks_mut(3).zip(signals.chunks(3)) {
                all.spawn(move || step_all(games, signals).unwrap());
            }
        });
        single.iter_mut().zip(&signals).try_for_each(|(game, it)| game.step(*it)).unwrap();
        assert!(games == single);
    }
    assert_eq!(step_all(&mut games, &[0; 7]), Err(Fault::Short));
    assert!(games == single);
    step_all(&mut [], &[]).unwrap();
}
