//! `Game::intent` tells what an agent wants, and whether it gets it.
use btworld::{Deed, Direction, Fault, Game, Intent};

#[test]
fn intents_are_told() {
    let level = br#"{"map":["AB0"],"agents":["t","u"],"trees":{"t":["seq",["move","0"]],"u":["wait",9]}}"#;
    let game = Game::open(level, b"").unwrap();
    let wanted = Intent { deed: Deed::Move(Direction::East), node: Some(1), x: 1, y: 0, granted: false };
    assert_eq!(game.intent(0, 0), Ok(wanted));
    assert_eq!(game.intent(0, 1), Ok(Intent { deed: Deed::Stay, node: None, x: 1, y: 0, granted: false }));
    assert_eq!(game.intent(0, 2), Err(Fault::NoAgent));
}

#[test]
fn deeds_are_told() {
    let tree = r#"["fallback",["give","B"],["seq",["item"],["take"]],["move","0"]]"#;
    let level = format!(r#"{{"map":["A*0",".B."],"agents":["t","u"],"trees":{{"t":{tree},"u":["wait",9]}}}}"#);
    let mut game = Game::open(level.as_bytes(), b"").unwrap();
    for (deed, node, x, y) in [(Deed::Move(Direction::East), 5, 1, 0), (Deed::Take, 4, 1, 0), (Deed::Give(1), 1, 1, 1)] {
        assert_eq!(game.intent(0, 0), Ok(Intent { deed, node: Some(node), x, y, granted: true }));
        game.step(0).unwrap();
    }
}
