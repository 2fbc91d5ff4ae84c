//! Puts the same scripts to the bench and to the reference, and stops at the
//! first line on which they differ.

use std::path::PathBuf;
use std::process::ExitCode;
use std::time::{Duration, Instant, SystemTime, UNIX_EPOCH};

use corrector_reference::bench::{Bench, Difference};
use corrector_reference::cases;
use corrector_reference::coverage::Coverage;
use corrector_reference::generate::{fuzz_script, giant_script, long_script, random_script, Rng};
use corrector_reference::script::{show, Script};
use corrector_reference::shrink::shrink;
use corrector_reference::spoilt::spoilt_script;
use corrector_reference::usage::options_or_end;
use corrector_reference::walk::walk_script;

const USAGE: &str = "\
usage: compare --bench PROGRAM [--steps N] [--seed S] [options]
       compare --bench PROGRAM --fuzz N [--seed S] [options]
       compare --coverage [--steps N] [--seed S]

Runs the kept cases, a walk over the rows of the settings page, spoilt messages,
one long script and random scripts on PROGRAM and on the reference, and stops at
the first line that differs.

  --bench PROGRAM   the program that answers the lines; without it the
                    reference runs alone, which is of use with --coverage
  --steps N         random steps to compare (200,000); a step is a line that
                    is answered
  --seed S          a number; from the clock unless given, and always printed
  --fuzz N          instead of steps: scripts of malformed lines and random
                    bytes until N malformed lines were answered
  --coverage        at the end, how often each command had each answer
  --cases FOLDER    the kept cases (those beside the source)
  --cases-only      nothing but the kept cases
  --no-long         without the long script
  --limit SECONDS   when a run counts as hung (60, and 1 ms for each line)
  --shrink SECONDS  time to cut a differing script down (60)
  --keep FILE       where to write the script that differs, cut down

Status: 0 no difference, 1 a difference, 2 the comparison could not be made.";

struct Options {
    bench: Option<PathBuf>,
    steps: u64,
    seed: u64,
    fuzz: Option<u64>,
    coverage: bool,
    cases: PathBuf,
    cases_only: bool,
    long: bool,
    limit: Duration,
    shrink: Duration,
    keep: Option<PathBuf>,
}

fn read_options() -> Result<Option<Options>, String> {
    let clock = SystemTime::now().duration_since(UNIX_EPOCH).map_or(0, |time| time.as_nanos());
    let mut options = Options {
        bench: None,
        steps: 200_000,
        // Short enough to be typed again.
        seed: Rng::new(clock as u64).any() % 1_000_000_000,
        fuzz: None,
        coverage: false,
        cases: cases::default_place(),
        cases_only: false,
        long: true,
        limit: Duration::from_secs(60),
        shrink: Duration::from_secs(60),
        keep: None,
    };
    let mut words = std::env::args().skip(1);
    while let Some(word) = words.next() {
        let mut next = || words.next().ok_or(format!("{word} needs a value"));
        match word.as_str() {
            "--bench" => options.bench = Some(next()?.into()),
            "--steps" => options.steps = number(&next()?)?,
            "--seed" => options.seed = number(&next()?)?,
            "--fuzz" => options.fuzz = Some(number(&next()?)?),
            "--coverage" => options.coverage = true,
            "--cases" => options.cases = next()?.into(),
            "--cases-only" => options.cases_only = true,
            "--no-long" => options.long = false,
            "--limit" => options.limit = Duration::from_secs(number(&next()?)?),
            "--shrink" => options.shrink = Duration::from_secs(number(&next()?)?),
            "--keep" => options.keep = Some(next()?.into()),
            "--help" => return Ok(None),
            _ => return Err(format!("unknown option {word}")),
        }
    }
    if options.bench.is_none() && !options.coverage {
        return Err("--bench PROGRAM is missing".to_string());
    }
    Ok(Some(options))
}

/// A number, with or without commas or underscores between its digits.
fn number(word: &str) -> Result<u64, String> {
    word.replace([',', '_'], "").parse().map_err(|_| format!("{word} is not a number"))
}

/// Why the run ends before its time.
enum Stop {
    Difference,
    Trouble(String),
}

impl From<std::io::Error> for Stop {
    fn from(error: std::io::Error) -> Stop {
        Stop::Trouble(error.to_string())
    }
}

fn main() -> ExitCode {
    let options = match options_or_end("compare", USAGE, read_options()) {
        Ok(options) => options,
        Err(status) => return status,
    };
    let mut comparison = Comparison::new(options);
    match comparison.run() {
        Ok(()) => ExitCode::SUCCESS,
        Err(Stop::Difference) => ExitCode::from(1),
        Err(Stop::Trouble(message)) => {
            eprintln!("compare: {message}");
            ExitCode::from(2)
        }
    }
}

struct Comparison {
    options: Options,
    bench: Option<Bench>,
    coverage: Coverage,
    /// Random steps among those compared.
    random_steps: u64,
    begun: Instant,
    last_word: Instant,
}

impl Comparison {
    fn new(options: Options) -> Comparison {
        let bench = options.bench.clone().map(|program| {
            // A bare name would be looked for among the installed programs.
            let program = program.canonicalize().unwrap_or(program);
            Bench { program, limit: options.limit, quiet: false }
        });
        let now = Instant::now();
        Comparison {
            options,
            bench,
            coverage: Coverage::new(),
            random_steps: 0,
            begun: now,
            last_word: now,
        }
    }

    fn run(&mut self) -> Result<(), Stop> {
        println!("seed {}", self.options.seed);
        if self.bench.is_none() {
            println!("no bench given: the reference runs alone");
        }
        self.cases()?;
        if self.options.cases_only {
            return Ok(());
        }
        self.walk()?;
        self.spoilt()?;
        let mut rng = Rng::new(self.options.seed);
        if let Some(malformed) = self.options.fuzz {
            self.fuzz(&mut rng, malformed)?;
        } else {
            self.streaming()?;
            self.long(&mut rng)?;
            self.random(&mut rng)?;
        }
        if self.options.coverage {
            println!("{}", self.coverage.table());
        }
        println!(
            "compared {} steps ({} random; {} malformed lines) in {:.1} s: no difference (seed {})",
            self.coverage.answered(),
            self.random_steps,
            self.coverage.malformed(),
            self.begun.elapsed().as_secs_f64(),
            self.options.seed
        );
        Ok(())
    }

    /// The kept cases: the reference must give the kept answers, and so must
    /// the bench.
    fn cases(&mut self) -> Result<(), Stop> {
        let cases = cases::load(&self.options.cases)
            .map_err(|error| Stop::Trouble(format!("{}: {error}", self.options.cases.display())))?;
        for case in &cases {
            if let Some((line, kept, found)) = case.reference_differs(&mut self.coverage) {
                println!("case {}: the REFERENCE differs from the kept answer", case.name);
                println!("  line {}: {}", line + 1, show(&case.script.lines[line]));
                println!("  kept answer: {kept}");
                println!("  reference:   {found}");
                return Err(Stop::Difference);
            }
            let Some(bench) = &self.bench else { continue };
            if let Some(difference) = bench.differs(&case.script, &case.answers)? {
                println!("case {}: the bench differs from the kept answer", case.name);
                let place = difference.line.unwrap_or(case.script.lines.len() - 1);
                println!("  line {}: {}", place + 1, show(&case.script.lines[place]));
                println!("  kept answer: {}", difference.reference);
                println!("  bench:       {}", difference.bench);
                return Err(Stop::Difference);
            }
        }
        println!("{} kept cases: no difference", cases.len());
        Ok(())
    }

    /// The rows of the settings page, the same at every run.
    fn walk(&mut self) -> Result<(), Stop> {
        let before = self.coverage.answered();
        self.compare(&walk_script())?;
        let steps = self.coverage.answered() - before;
        println!("walk over the settings page of {steps} steps: no difference");
        Ok(())
    }

    /// All that can be wrong with one message, the same at every run.
    fn spoilt(&mut self) -> Result<(), Stop> {
        let before = self.coverage.answered();
        self.compare(&spoilt_script())?;
        let steps = self.coverage.answered() - before;
        println!("spoilt messages to the reader in {steps} steps: no difference");
        Ok(())
    }

    /// A bench that answers only at the end of its input is no bench.
    fn streaming(&mut self) -> Result<(), Stop> {
        const LINES: usize = 20_000;
        let Some(bench) = &self.bench else { return Ok(()) };
        let answered = bench.answered_with_input_open(LINES)?;
        println!("{LINES} lines sent and the input left open: {answered} answered");
        if answered == 0 {
            println!("the bench holds its answers back until the end");
            return Err(Stop::Difference);
        }
        Ok(())
    }

    fn long(&mut self, rng: &mut Rng) -> Result<(), Stop> {
        if self.options.long {
            let script = long_script(rng);
            self.compare(&script)?;
            println!("long script of {} lines: no difference", script.lines.len());
        }
        Ok(())
    }

    fn random(&mut self, rng: &mut Rng) -> Result<(), Stop> {
        let before = self.coverage.answered();
        loop {
            self.random_steps = self.coverage.answered() - before;
            let left = self.options.steps.saturating_sub(self.random_steps);
            if left == 0 {
                return Ok(());
            }
            self.progress(self.random_steps, self.options.steps, "random steps");
            let mut script = random_script(rng);
            if script.lines.len() as u64 > left {
                script.lines.truncate(left as usize);
                script.open_end = false;
            }
            self.compare(&script)?;
        }
    }

    fn fuzz(&mut self, rng: &mut Rng, malformed: u64) -> Result<(), Stop> {
        self.compare(&giant_script(rng))?;
        let before = self.coverage.malformed();
        let steps = self.coverage.answered();
        loop {
            let done = self.coverage.malformed() - before;
            self.random_steps = self.coverage.answered() - steps;
            if done >= malformed {
                return Ok(());
            }
            self.progress(done, malformed, "malformed lines");
            self.compare(&fuzz_script(rng))?;
        }
    }

    fn progress(&mut self, done: u64, all: u64, what: &str) {
        if self.last_word.elapsed() > Duration::from_secs(10) {
            self.last_word = Instant::now();
            let seconds = self.begun.elapsed().as_secs();
            println!("{done} of {all} {what}, {seconds} s");
        }
    }

    fn compare(&mut self, script: &Script) -> Result<(), Stop> {
        let expected = self.coverage.answer(script);
        let Some(bench) = self.bench.clone() else { return Ok(()) };
        let Some(difference) = bench.differs(script, &expected)? else { return Ok(()) };
        self.explain(&bench, script, &difference);
        Err(Stop::Difference)
    }

    fn explain(&self, bench: &Bench, script: &Script, difference: &Difference) {
        let place = difference.line.unwrap_or(script.lines.len().saturating_sub(1));
        println!("DIFFERENCE at line {} of a script (seed {})", place + 1, self.options.seed);
        println!("  line:      {}", show(&script.lines[place]));
        println!("  reference: {}", difference.reference);
        println!("  bench:     {}", difference.bench);
        println!("cutting the script down, {} s at most", self.options.shrink.as_secs());

        let quiet = Bench {
            quiet: true,
            // A hang must not use up all the time there is.
            limit: bench.limit.min(Duration::from_secs(5)),
            ..bench.clone()
        };
        let mut differs = |script: &Script| {
            let expected = Coverage::new().answer(script);
            let difference = quiet.differs(script, &expected).ok()??;
            Some(difference.line.unwrap_or(script.lines.len().saturating_sub(1)))
        };
        let short = shrink(script, self.options.shrink, &mut differs);
        self.show_short(&quiet, &short);

        if let Some(path) = &self.options.keep {
            match std::fs::write(path, short.bytes()) {
                Ok(()) => println!("written to {}", path.display()),
                Err(error) => println!("not written to {}: {error}", path.display()),
            }
        }
    }

    /// The script cut down, each line with the reference's answer.
    fn show_short(&self, bench: &Bench, short: &Script) {
        println!("the shortest script found, {} lines, and its answers:", short.lines.len());
        let expected = Coverage::new().answer(short);
        let difference = bench.differs(short, &expected).ok().flatten();
        // A script can stay long, as one for a rollover must. Its end tells
        // the story; the whole can be kept in a file.
        const SHOWN: usize = 200;
        let skipped = short.lines.len().saturating_sub(SHOWN);
        if skipped > 0 {
            println!("  ({skipped} lines before these; --keep FILE writes them all)");
        }
        let mut answers = expected.iter().peekable();
        for (place, line) in short.lines.iter().enumerate() {
            let answer = answers.next_if(|(at, _)| *at == place).map(|(_, answer)| show(answer));
            if place < skipped {
                continue;
            }
            println!("  {:<40} -> {}", show(line), answer.as_deref().unwrap_or("(nothing)"));
            if let Some(difference) = &difference {
                if difference.line == Some(place) {
                    println!("  {:<40} -> {}", "", "the bench: ".to_string() + &difference.bench);
                }
            }
        }
        if short.open_end {
            println!("  (the last line has no line feed)");
        }
        match difference {
            Some(Difference { line: None, reference, bench }) => {
                println!("  at the end: reference {reference}, bench {bench}");
            }
            Some(_) => {}
            None => {
                println!("  (at the last run there was no difference: the bench is not steady)")
            }
        }
    }
}
