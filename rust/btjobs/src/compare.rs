//! A log's order, played again on one thread beside the plain one.
use crate::board::{Event, Status};
use crate::finder::{quietly, text_of};
use crate::game::Game;
use crate::log::Given;
use crate::player::Player;
use crate::step::{order_of, Step};

/// A log's order, played beside the plain one.
pub struct Compared {
    /// The first that comes to something else, if one does.
    pub job: Option<Step>,
    pub steps: usize,
    pub text: String,
}

/// Plays a log's order, and says what comes to something else than in the plain order. Err says why the log isn't of this game.
pub fn compare<G: Game>(make: impl Fn() -> G, given: &Given, log: &[Event]) -> Result<Compared, String> {
    let text = |s: Status| format!("btjobs: {s}");
    let (one, other) = (make(), make());
    let (mut plain, mut again) = (Player::new(&one, given).map_err(text)?, Player::new(&other, given).map_err(text)?);
    while plain.plain().map_err(text)? {}
    let play = |p: &mut Player<G>| {
        for s in order_of(log) {
            if !p.play(&s).map_err(text)? {
                return Err(format!("the log isn't of this game: {s} can't be played"));
            }
        }
        Ok(())
    };
    let panicked = match quietly(|| play(&mut again)) {
        Ok(result) => result.map(|()| None)?,
        Err(panic) => Some(text_of(&*panic)),
    };
    let job = if panicked.is_some() { again.order.last().copied() } else { plain.results.first_difference(&again.results, 0, again.shown) };
    let text = match (&job, panicked) {
        (None, _) => format!("this order of {} steps comes to the same as the plain order", again.order.len()),
        (Some(s), Some(text)) => format!("{s} panics: {text}"),
        (Some(s), None) => {
            // both once more, to keep what it came to
            let (first, second) = (make(), make());
            let (mut there, mut here) = (Player::new(&first, given).map_err(text)?, Player::new(&second, given).map_err(text)?);
            (there.watched, here.watched) = (job, job);
            while there.plain().map_err(text)? {}
            play(&mut here)?;
            format!("{s} comes to something else than in the plain order\n    {}\n  where it came to\n    {}", here.value, there.value)
        }
    };
    Ok(Compared { job, steps: again.order.len(), text })
}
