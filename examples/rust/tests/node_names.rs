//! `Game::node_names` names what `Game::nodes` answers for.
use btworld::{Fault, Game};

#[test]
fn nodes_have_names() {
    let level = br#"{"map":["A0"],"agents":["t"],"trees":{"t":["seq*",["not",["wait",3]],["move","0"]]}}"#;
    let game = Game::open(level, b"").unwrap();
    assert_eq!(game.node_names(0).unwrap(), "seq*\n  not\n    wait 3\n  move 0\n");
    assert_eq!(game.node_names(0).unwrap().lines().count(), game.nodes(0, 0).unwrap().len());
    assert_eq!(game.node_names(1), Err(Fault::NoAgent));
}
