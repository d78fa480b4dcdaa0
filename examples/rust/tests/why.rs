//! `Game::why` tells why an agent will do what it does.
use btworld::{Fault, Game};

#[test]
fn reasons_are_told() {
    let game = Game::open(br#"{"map":["A.0"],"agents":["t"],"trees":{"t":["move","0"]}}"#, b"").unwrap();
    assert_eq!(game.why(0, 0).unwrap(), "frame 1\nA R 1,0 -\nR 0 move 0: east, 2\n");
    assert_eq!(game.why(0, 1), Err(Fault::NoAgent));
}
