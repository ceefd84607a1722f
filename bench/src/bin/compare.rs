//! Compares the twin with the other engine; exit 1 on any difference.

use bench::check::{Difference, Pair};
use bench::gen::{files, singles, small};
use bench::native;
use bench::tally::Tally;
use std::process::ExitCode;
use std::time::{Duration, Instant};

const USAGE: &str = "compare [--files N] [--singles N] [--seed S] [--seconds T] [--short]";

/// Buffers for the small files, which have room for two steps at the most.
const SMALL_LOG: usize = 25;
const SMALL_IMAGE: usize = 520;

struct Options {
    files: u64,
    singles: u64,
    seed: u64,
    /// For the files and the single steps, each.
    seconds: Option<u64>,
    short: bool,
}

/// None when an argument isn't known or isn't a number.
fn options() -> Option<Options> {
    let (mut files, mut singles, mut seed, mut seconds) = (None, None, 1, None);
    let mut short = false;
    let mut arguments = std::env::args().skip(1);
    while let Some(name) = arguments.next() {
        let mut number = || arguments.next()?.parse::<u64>().ok();
        match name.as_str() {
            "--files" => files = Some(number()?),
            "--singles" => singles = Some(number()?),
            "--seed" => seed = number()?,
            "--seconds" => seconds = Some(number()?),
            "--short" => short = true,
            _ => return None,
        }
    }
    // With a time and no number the time decides.
    let usual = match (seconds, short) {
        (Some(_), _) => u64::MAX,
        (None, true) => 400_000,
        (None, false) => 1_000_000,
    };
    Some(Options {
        files: files.unwrap_or(usual),
        singles: singles.unwrap_or(usual),
        seed,
        seconds,
        short,
    })
}

/// Says when a part has used up its time; looks at the clock now and then.
struct Clock {
    began: Instant,
    limit: Option<Duration>,
}

impl Clock {
    fn new(seconds: Option<u64>) -> Self {
        Clock {
            began: Instant::now(),
            limit: seconds.map(Duration::from_secs),
        }
    }

    fn over(&self, number: u64) -> bool {
        number.is_multiple_of(1024)
            && self
                .limit
                .is_some_and(|limit| self.began.elapsed() >= limit)
    }

    fn seconds(&self) -> f64 {
        self.began.elapsed().as_secs_f64()
    }
}

/// A difference and where it was met.
type Found = (String, Difference);

fn compare_files(pair: &mut Pair, options: &Options) -> Result<(), Found> {
    let clock = Clock::new(options.seconds);
    let mut tally = Tally::default();
    let mut case = files::Case::default();
    for number in 0..options.files {
        if clock.over(number) {
            break;
        }
        case.make(options.seed, number);
        let answer = pair
            .replay(&case.file, case.log, case.image)
            .map_err(|found| (format!("file {number} of seed {}", options.seed), found))?;
        tally.add(case.kind, answer.code);
        if (11..=18).contains(&answer.code) {
            let (kind, tag) = files::step_at(&case.file, answer.place);
            tally.add_refused(kind, tag, answer.code);
        }
    }
    println!(
        "{} seeded files equal ({:.1} s), by kind and code:",
        tally.total,
        clock.seconds()
    );
    tally.print();
    tally.print_rare();
    tally.print_refused();
    Ok(())
}

fn compare_small(pair: &mut Pair, options: &Options) -> Result<(), Found> {
    let clock = Clock::new(None);
    let mut count = 0_u64;
    let mut each = |file: &[u8]| {
        count += 1;
        pair.replay(file, SMALL_LOG, SMALL_IMAGE).map(|_| ())
    };
    let longest = if options.short { 2 } else { 3 };
    for len in 0..=longest {
        small::every(len, &mut each).map_err(|found| (format!("all of {len} bytes"), found))?;
    }
    small::meaningful(options.short, &mut each)
        .map_err(|found| ("small files".to_string(), found))?;
    println!(
        "{count} small files equal ({:.1} s): all of up to {longest} bytes, chosen ones of 4 to 9",
        clock.seconds()
    );
    Ok(())
}

fn compare_singles(pair: &mut Pair, options: &Options) -> Result<(), Found> {
    let clock = Clock::new(options.seconds);
    let mut tally = Tally::default();
    let mut case = singles::Case::default();
    for number in 0..options.singles {
        if clock.over(number) {
            break;
        }
        case.make(options.seed, number);
        let answer = pair
            .single(case.kind, &case.state, &case.step, case.log)
            .map_err(|found| {
                (
                    format!("single step {number} of seed {}", options.seed),
                    found,
                )
            })?;
        tally.add(case.made_for, answer.code);
    }
    println!(
        "{} single steps equal ({:.1} s), by kind and code:",
        tally.total,
        clock.seconds()
    );
    tally.print();
    Ok(())
}

fn main() -> ExitCode {
    let Some(options) = options() else {
        eprintln!("{USAGE}");
        return ExitCode::from(2);
    };
    println!("twin against {}, seed {}", native::NAME, options.seed);
    let pair = &mut Pair::new();
    let outcome = compare_files(pair, &options)
        .and_then(|()| compare_singles(pair, &options))
        .and_then(|()| compare_small(pair, &options));
    match outcome {
        Ok(()) => {
            println!("no difference");
            ExitCode::SUCCESS
        }
        Err((place, difference)) => {
            println!("{place}\n{difference}");
            ExitCode::FAILURE
        }
    }
}
