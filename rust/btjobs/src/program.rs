//! A finder of a game's own in one line.
use crate::board::Settings;
use crate::compare::compare;
use crate::finder::{explore, Options};
use crate::finding::{json_of_step, quoted};
use crate::game::Game;
use crate::log::read_log;
use crate::page::{page_of_finding, page_of_log};
use std::io::{BufReader, IsTerminal};
use std::process::ExitCode;

const USAGE: &str = " [--seeds N] [--from SEED] [--seed SEED] [--seconds S] [--runs N [--threads T]]
    [--log FILE] [--page FILE] [--replay FILE] [--json] [--quiet]

Plays the game in orders drawn by the seeds from 1 on, and looks for one that comes to something else than the plain order.
  --seeds N       so many orders (1000)            --from SEED    the first seed (1)
  --seed SEED     this one alone                   --seconds S    draw no more after so many seconds
  --runs N        and then so many runs on threads --threads T    how many threads (4)
  --log FILE      where the order that differs is written (btjobs-order.log)
  --page FILE     shows both orders, or the log of --replay, in one HTML file
  --replay FILE   plays such an order again, and says what comes to something else
  --json          the report as one JSON object    --quiet        no progress on standard error
Status: 0 all orders agree, 1 they don't, 2 wrong use, or the game panics in the plain order.";

#[derive(Default)]
struct Words {
    options: Options,
    replay: Option<String>,
    page: Option<String>,
    json: bool,
    help: bool,
}

fn words() -> Result<Words, String> {
    let mut args = std::env::args();
    let program = args.next().unwrap_or_default();
    let mut words = Words { options: Options { program, progress: std::io::stderr().is_terminal(), ..Options::default() }, ..Words::default() };
    while let Some(word) = args.next() {
        let options = &mut words.options;
        match word.as_str() {
            "--quiet" => options.progress = false,
            "--json" => words.json = true,
            "--help" => words.help = true,
            "--log" | "--replay" | "--page" => {
                let value = args.next().ok_or(format!("{word} wants a value"))?;
                match word.as_str() {
                    "--log" => options.log = Some(value),
                    "--replay" => words.replay = Some(value),
                    _ => words.page = Some(value),
                }
            }
            "--seeds" | "--from" | "--seed" | "--seconds" | "--runs" | "--threads" => {
                let value = args.next().ok_or(format!("{word} wants a value"))?.parse::<u64>().map_err(|_| format!("{word} wants a number"))?;
                match word.as_str() {
                    "--seeds" => options.seeds = value,
                    "--from" => options.from = value,
                    "--seed" => (options.from, options.seeds) = (value, 1),
                    "--seconds" => options.seconds = value as f64,
                    "--runs" => options.runs = value,
                    _ => options.threads = value as u32,
                }
            }
            _ => return Err(format!("no such word: {word}\nusage: {}{USAGE}", options.program)),
        }
    }
    Ok(words)
}

fn played<G: Game>(make: impl Fn() -> G, settings: &Settings) -> Result<bool, String> {
    let words = words()?;
    if words.help {
        println!("usage: {}{USAGE}", words.options.program);
        return Ok(true);
    }
    let write = |path: &String, text: String| std::fs::write(path, text).map_err(|e| format!("can't write {path}: {e}"));
    if let Some(path) = words.replay {
        let (given, log) = std::fs::File::open(&path).and_then(|f| read_log(BufReader::new(f))).map_err(|e| format!("{path}: {e}"))?;
        let c = compare(make, &given, &log)?;
        if let Some(page) = &words.page {
            write(page, page_of_log(&given, &log, &c.text, c.job.as_ref()))?;
        }
        if words.json {
            let job = c.job.as_ref().map_or("null".into(), json_of_step);
            println!("{{\"log\": {}, \"agrees\": {}, \"steps\": {}, \"job\": {job}, \"text\": {}}}", quoted(&path), c.job.is_none(), c.steps, quoted(&c.text));
        } else {
            println!("{}", c.text);
        }
        return Ok(c.job.is_none());
    }
    let found = explore(make, settings, &words.options);
    if let (Some(page), false) = (&words.page, found.agrees()) {
        write(page, page_of_finding(&found))?;
    }
    if words.json {
        println!("{}", found.json());
    } else {
        print!("{found}");
    }
    Ok(found.agrees())
}

/// A program of one's own in one line. Its status is 0 where all orders agree, 1 where they don't, 2 for wrong use, or where the game panics in
/// the plain order.
pub fn finder_main<G: Game>(make: impl Fn() -> G, settings: &Settings) -> ExitCode {
    match std::panic::catch_unwind(std::panic::AssertUnwindSafe(|| played(make, settings))) {
        Ok(Ok(true)) => ExitCode::SUCCESS,
        Ok(Ok(false)) => ExitCode::FAILURE,
        Ok(Err(text)) => {
            eprintln!("{text}");
            ExitCode::from(2)
        }
        Err(_) => ExitCode::from(2),
    }
}
