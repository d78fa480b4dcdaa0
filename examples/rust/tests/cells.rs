//! `Game::cells` tells what `Game::cell` tells.
use btworld::Game;

#[test]
fn all_cells_are_those_of_single_calls() {
    let mut game = Game::open(br#"{"map":["A.a","*0#"],"agents":["t"],"trees":{"t":["move","0"]}}"#, b"").unwrap();
    for _ in 0..3 {
        let single: Vec<_> = (0..2).flat_map(|y| (0..3).map(move |x| (x, y))).map(|(x, y)| game.cell(x, y).unwrap()).collect();
        assert_eq!(game.cells(), single);
        game.step(1).unwrap();
    }
}
