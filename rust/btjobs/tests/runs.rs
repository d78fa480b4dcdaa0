//! Runs agree, a log replays, a panic comes out, and wrong logs are refused.
use btjobs::*;

struct Sum {
    panics: bool,
}
impl Game for Sum {
    type World = Vec<u64>;
    type Signals = u64;
    type Thought = u64;
    type Question = u64;
    type Answer = u64;
    type Band = u64;
    fn start(&self) -> Vec<u64> {
        (0..40).collect()
    }
    fn signals(&self, frame: u32) -> u64 {
        u64::from(frame) * 7
    }
    fn think(&self, v: &View<Self>, answers: &[u64]) -> Tick<u64, u64> {
        let own = v.world[v.agent as usize];
        if answers.len() < (own % 3) as usize {
            return Tick::Question(own + answers.len() as u64);
        }
        assert!(!(self.panics && v.frame == 3 && v.agent == 5), "five in three");
        Tick::Thought(own * 3 + v.signals + answers.iter().sum::<u64>() % 1000)
    }
    fn answer(&self, v: &View<Self>, q: &u64) -> u64 {
        v.world[(*q % 40) as usize]
    }
    fn turn(&self, _: &Start<Self>, thoughts: Vec<u64>) -> Vec<u64> {
        thoughts.into_iter().map(|t| t % 1_000_003).collect()
    }
    fn draw(&self, w: &Vec<u64>, band: u32) -> u64 {
        w.iter().skip(band as usize).step_by(3).sum()
    }
}

fn settings() -> Settings {
    Settings { frames: 12, agents: 40, bands: 3, most_questions: 2, ..Settings::default() }
}

#[test]
fn any_number_of_threads_comes_to_the_same() {
    let game = Sum { panics: false };
    let mut shown = Vec::new();
    let serial = run_serial(&game, &settings(), |f, _, bands| shown.push((f, bands.to_vec())));
    for workers in [1, 2, 4, 16, 64] {
        let mut now = Vec::new();
        let end = run(&game, &settings(), workers, |f, _, bands| now.push((f, bands.to_vec())));
        assert_eq!((&now, &end.world), (&shown, &serial.world));
        let mut again = Vec::new();
        let end = replay(&game, &settings(), &end, |f, _, bands| again.push((f, bands.to_vec()))).ok().unwrap();
        assert_eq!((&again, &end.world), (&shown, &serial.world));
    }
}

#[test]
fn seasons_change_nothing() {
    let game = Sum { panics: false };
    let mut shown = Vec::new();
    run_serial(&game, &settings(), |f, _, bands| shown.push((f, bands.to_vec())));
    for season in [1, 2, 5, 12] {
        let parts = Settings { season, ..settings() };
        let mut now = Vec::new();
        let end = run(&game, &parts, 4, |f, _, bands| now.push((f, bands.to_vec())));
        let mut again = Vec::new();
        replay(&game, &parts, &end, |f, _, bands| again.push((f, bands.to_vec()))).ok().unwrap();
        assert_eq!((&now, &again), (&shown, &shown));
    }
    let endless = Settings { frames: ENDLESS, season: 5, ..settings() };
    let mut now = Vec::new();
    let end = run(&game, &endless, 4, |f, _, bands| {
        now.push((f, bands.to_vec()));
        f < 12
    });
    assert_eq!((&now, end.frames, end.before), (&shown, 12, 10));
    let mut again = Vec::new();
    let last = replay(&game, &endless, &end, |f, _, bands| again.push((f, bands.to_vec()))).ok().unwrap();
    assert_eq!((&again[..], &last.world), (&shown[10..], &end.world));
}

#[test]
fn orders_agree() {
    let found = explore(|| Sum { panics: false }, &settings(), &Options { seeds: 200, log: None, ..Options::default() });
    assert!(found.agrees(), "{found}");
}

#[test]
#[should_panic(expected = "five in three")]
fn a_panic_comes_out_of_run() {
    run(&Sum { panics: true }, &settings(), 4, |_, _, _| {});
}

#[test]
fn a_log_of_another_game_is_refused() {
    let game = Sum { panics: false };
    let mut end = run(&game, &settings(), 2, |_, _, _| {});
    end.log.swap(0, 1);
    assert_eq!(replay(&game, &settings(), &end, |_, _, _| {}).err(), Some(0));
}

#[test]
fn a_log_is_read_as_it_was_written() {
    let given = Given { settings: settings(), workers: 3 };
    let log = run(&Sum { panics: false }, &settings(), 3, |_, _, _| {}).log;
    let mut text = Vec::new();
    write_log(&mut text, &given, &log, "two\nlines").unwrap();
    assert_eq!(read_log(&text[..]).unwrap(), (given, log));
    let head = "btjobs log 1 frames 2 workers 1 small 64 large 64 slots 3 agents 1 bands 0 questions 0 season 600\n";
    assert!(read_log(head.as_bytes()).unwrap().1.is_empty());
    for text in ["", "btworld log 2\n", "btjobs log 1 frames 2\n"] {
        assert!(read_log(text.as_bytes()).is_err(), "{text}");
    }
    let wrong =
        ["emit", "0 start think 1", "0 starts think 1 1", "0 start path 1 1", "0 start logic 1 2", "stopped", "0 emit logic 1", "", "0 start logic 4294967296"];
    for line in wrong {
        let error = read_log(format!("{head}stop\n{line}\n").as_bytes()).unwrap_err();
        assert_eq!(error.to_string(), format!("not a line of a btjobs log: {line}"));
    }
}

/// Counts what thought before it: depends on the order.
struct Counting(std::sync::atomic::AtomicU64);
impl Game for Counting {
    type World = u64;
    type Signals = ();
    type Thought = u64;
    type Question = Never;
    type Answer = ();
    type Band = ();
    fn start(&self) -> u64 {
        0
    }
    fn signals(&self, _: u32) {}
    fn think(&self, _: &View<Self>, _: &[()]) -> Tick<u64, Never> {
        Tick::Thought(self.0.fetch_add(1, std::sync::atomic::Ordering::SeqCst))
    }
    fn turn(&self, s: &Start<Self>, thoughts: Vec<u64>) -> u64 {
        s.world + thoughts[0]
    }
    fn draw(&self, _: &u64, _: u32) {}
}

#[test]
fn the_culprit_is_named_and_its_log_plays_again() {
    let make = || Counting(0.into());
    let n = Settings { frames: 5, agents: 30, ..Settings::default() };
    let path = std::env::temp_dir().join(format!("btjobs-{}.log", std::process::id()));
    let options = Options { log: Some(path.to_string_lossy().into()), ..Options::default() };
    let f = explore(make, &n, &options);
    assert_eq!((f.verdict, f.neighbours, f.out_of_order), (Verdict::Order, true, 1), "{f}");
    assert!(f.late.is(&f.job) && f.job.to_string() == "think 1 0" && f.agreeing_value == "0" && f.differing_value == "1", "{f}");
    let (given, log) = read_log(std::io::BufReader::new(std::fs::File::open(&path).unwrap())).unwrap();
    let compared = compare(make, &given, &log).unwrap();
    assert!(compared.job.is_some_and(|j| j.is(&f.job)));
    assert_eq!(compared.text, "think 1 0 comes to something else than in the plain order\n    1\n  where it came to\n    0");
    assert!(f.json().starts_with("{\"verdict\": \"order\", ") && f.json().contains("\"neighbours\": true"));
    assert!(page_of_finding(&f).contains("\"marks\": [{\"name\": \"think 1 1\""));
    std::fs::remove_file(path).unwrap();
    let f = explore(make, &n, &Options { seeds: 0, runs: 300, log: None, ..Options::default() });
    assert!(f.agrees() || f.verdict == Verdict::Order && f.neighbours, "{f}"); // whether it shows is the machine's
}

#[test]
fn the_judge_says_what_is_lacking() {
    let judge = Judge::new(&Settings { frames: 4, agents: 2, bands: 1, slots: 2, ..Settings::default() }).unwrap();
    for f in 1..=2 {
        judge.begin(f).unwrap();
        for a in 0..2 {
            judge.start(Judge::think(f, a)).unwrap();
            judge.finish(Judge::think(f, a)).unwrap();
        }
        judge.start(Judge::turn(f)).unwrap();
        judge.finish(Judge::turn(f)).unwrap();
    }
    assert_eq!(judge.begin(3).unwrap_err(), "event 15 can't be: frame 3 begins, but its slot is still that of frame 1, which isn't shown");
    assert!(judge.verdict().is_err() && judge.start(Judge::draw(1, 0)).is_err());
}
