//! Plays the first frames of a level and its script, and looks ahead: `rollback LEVEL SCRIPT|- FRAMES` writes the frames, and every
//! tenth frame it plays a clone on with all signals on, which the game itself never notices.
//!
//! Status: 0; 2 where the level or the script is refused, with the line that btworld writes; 1 for any other fault.
use btworld::{Fault, Game};
use std::error::Error;
use std::fs::read;
use std::process::ExitCode;

fn play(level: &[u8], script: &[u8], frames: u32) -> Result<(), Fault> {
    let mut game = Game::open(level, script)?;
    for frame in 1..=frames {
        game.step_script()?;
        print!("{}", game.text()?);
        if frame % 10 == 0 {
            look_ahead(&game)?;
            let mut loaded = Game::load(level, &game.state()?, script)?;
            assert!(loaded == game);
            loaded.step_script()?;
            let mut fork = game.fork()?;
            fork.step_script()?;
            assert!(loaded == fork);
        }
    }
    Ok(())
}

/// Plays a clone on, and looks that the game is where it was.
fn look_ahead(game: &Game) -> Result<(), Fault> {
    let (digest, mut ahead) = (game.digest(), game.fork()?);
    assert!(ahead == *game && ahead.state()? == game.state()?);
    for _ in 0..10 {
        ahead.step(0x3ff_ffff)?;
    }
    assert!(ahead != *game && ahead.frame() == game.frame() + 10 && game.digest() == digest);
    assert!(ahead.state()? != game.state()? && ahead.level_digest() == game.level_digest());
    assert_eq!(ahead.agent(26), Err(Fault::NoAgent));
    for number in 0..ahead.map().agents {
        let agent = ahead.agent(number)?;
        assert_eq!(ahead.cell(agent.x, agent.y)?.agent, Some(number));
    }
    Ok(())
}

fn run() -> Result<ExitCode, Box<dyn Error>> {
    let words: Vec<String> = std::env::args().collect();
    let [_, level, script, frames] = &words[..] else {
        return Err("rollback LEVEL SCRIPT|- FRAMES".into());
    };
    let script = if script == "-" { Vec::new() } else { read(script)? };
    match play(&read(level)?, &script, frames.parse()?) {
        Err(Fault::Refused(line)) => {
            eprintln!("{line}");
            Ok(ExitCode::from(2))
        }
        played => played.map(|()| ExitCode::SUCCESS).map_err(Into::into),
    }
}

fn main() -> ExitCode {
    run().unwrap_or_else(|fault| {
        eprintln!("{fault}");
        ExitCode::FAILURE
    })
}
