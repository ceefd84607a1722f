//! Measures both engines on full schedules: nanoseconds a step, and the ratio.

use bench::answer::Answer;
use bench::gen::rounds::{schedule, Shape, STEPS};
use bench::{native, twin};
use std::hint::black_box;
use std::process::ExitCode;
use std::time::Instant;

const USAGE: &str = "speed [--shape rounds|walk] [--rounds N] \
    [--engine twin|native --kind flat|lock|counting|flag]";
const KINDS: [&str; 4] = ["flat", "lock", "counting", "flag"];

type Engine = fn(&[u8], &mut [u8], &mut [u8]) -> Answer;

struct Options {
    shape: Shape,
    rounds: u32,
    engine: Option<Engine>,
    kind: Option<u8>,
}

/// None when an argument isn't known or has no value.
fn options() -> Option<Options> {
    let mut options = Options {
        shape: Shape::Rounds,
        rounds: 5000,
        engine: None,
        kind: None,
    };
    let mut arguments = std::env::args().skip(1);
    while let Some(name) = arguments.next() {
        let value = arguments.next()?;
        match (name.as_str(), value.as_str()) {
            ("--shape", "rounds") => options.shape = Shape::Rounds,
            ("--shape", "walk") => options.shape = Shape::Walk,
            ("--engine", "twin") => options.engine = Some(twin::replay),
            ("--engine", "native") => options.engine = Some(native::replay),
            ("--rounds", number) => options.rounds = number.parse().ok()?,
            ("--kind", kind) => {
                let at = KINDS.iter().position(|&name| name == kind);
                let number = kind.parse().ok().filter(|number| (1..=4).contains(number));
                options.kind = Some(at.map(|at| 1 + at as u8).or(number)?);
            }
            _ => return None,
        }
    }
    Some(options)
}

/// A schedule and the buffers it is replayed into.
struct Bench {
    file: Vec<u8>,
    log: Vec<u8>,
    image: Vec<u8>,
}

impl Bench {
    fn new(kind: u8, shape: Shape) -> Self {
        Bench {
            file: schedule(kind, shape),
            log: vec![0; 10 * STEPS],
            image: vec![0; 512],
        }
    }

    /// Replays once; a schedule that isn't accepted in full measures nothing.
    fn run(&mut self, engine: Engine) {
        let file = black_box(&self.file);
        let answer = engine(file, &mut self.log, &mut self.image);
        assert_eq!((answer.code, answer.place), (0, STEPS), "accepted in full");
        black_box((&self.log, &self.image));
    }

    /// Nanoseconds of one replay.
    fn time(&mut self, engine: Engine) -> u128 {
        let began = Instant::now();
        self.run(engine);
        began.elapsed().as_nanos()
    }
}

/// Alternates the engines, so that both meet the same weather.
fn measure(bench: &mut Bench, rounds: u32) -> (f64, f64) {
    let (mut ours, mut theirs) = (u128::MAX, u128::MAX);
    for _ in 0..rounds {
        ours = ours.min(bench.time(twin::replay));
        theirs = theirs.min(bench.time(native::replay));
    }
    (ours as f64 / STEPS as f64, theirs as f64 / STEPS as f64)
}

fn main() -> ExitCode {
    let Some(options) = options() else {
        eprintln!("{USAGE}");
        return ExitCode::from(2);
    };
    let kinds = options.kind.map_or(1..=4, |kind| kind..=kind);
    if let Some(engine) = options.engine {
        // One engine without a clock, for counting instructions.
        for kind in kinds {
            let mut bench = Bench::new(kind, options.shape);
            (0..options.rounds).for_each(|_| bench.run(engine));
        }
        return ExitCode::SUCCESS;
    }
    println!(
        "twin against {}, least of {} rounds, ns a step",
        native::NAME,
        options.rounds
    );
    println!(
        "{:>10}{:>10}{:>10}{:>14}",
        "kind", "twin", "native", "native/twin"
    );
    for kind in kinds {
        let mut bench = Bench::new(kind, options.shape);
        let (ours, theirs) = measure(&mut bench, options.rounds);
        let name = KINDS[usize::from(kind) - 1];
        println!(
            "{name:>10}{ours:>10.2}{theirs:>10.2}{:>14.3}",
            theirs / ours
        );
    }
    ExitCode::SUCCESS
}
