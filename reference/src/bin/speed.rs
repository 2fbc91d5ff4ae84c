//! Prints one table of speed: accepted cycles a second and mixed commands a
//! second of each side, without the cost of text, and whole programs in lines
//! a second.

use std::hint::black_box;
use std::io::{self, Read};
use std::path::{Path, PathBuf};
use std::process::{ExitCode, Stdio};
use std::time::{Duration, Instant};

use corrector_reference::bench::fed;
use corrector_reference::command::{obey, Command};
use corrector_reference::device::Device;
use corrector_reference::generate::{accepted_cycles, mixed_commands};
use corrector_reference::lines::write_command;
use corrector_reference::usage::options_or_end;

const USAGE: &str = "\
usage: speed [--device PROGRAM] [--bench PROGRAM] [options]

  --device PROGRAM  the program that puts a block to the Rattle device, see
                    the README
  --bench PROGRAM   the bench, measured as a whole in lines a second
  --rounds N        how often each figure is taken; the best counts (10)
  --seconds S       about how long each of them takes (0.4)
  --save FOLDER     writes the two workloads there as lines, and ends

Without --device and --bench the table has the reference's figures alone.";

/// The same commands for every side and every run.
const SEED: u64 = 2_000;
const COMMANDS: usize = 100_000;
/// As many commands as the bench puts to the device between reading their
/// lines and writing their replies.
const BLOCK: usize = 256;
const BLOCKS: u64 = 8;

struct Workload {
    name: &'static str,
    /// For the programs that read and write lines.
    commands: Vec<Command>,
    /// For the devices alone. The first command of a block is a start, so that
    /// it can be put to a device any number of times.
    blocks: Vec<Vec<Command>>,
    /// Every command is accepted.
    all_accepted: bool,
}

impl Workload {
    fn all() -> [Workload; 2] {
        [
            Workload {
                name: "cycles",
                commands: accepted_cycles(SEED, COMMANDS),
                blocks: (0..BLOCKS).map(|i| accepted_cycles(SEED + i, BLOCK - 1)).collect(),
                all_accepted: true,
            },
            Workload {
                name: "mixed",
                commands: mixed_commands(SEED, COMMANDS),
                blocks: (0..BLOCKS).map(|i| mixed_commands(SEED + i, BLOCK)).collect(),
                all_accepted: false,
            },
        ]
    }

    fn lines(&self) -> Vec<u8> {
        lines_of(&self.commands)
    }
}

fn lines_of(commands: &[Command]) -> Vec<u8> {
    let mut lines = Vec::new();
    for command in commands {
        write_command(command, &mut lines);
        lines.push(b'\n');
    }
    lines
}

/// What took how long.
struct Timing {
    commands: u64,
    elapsed: Duration,
}

impl Timing {
    fn a_second(&self) -> f64 {
        self.commands as f64 / self.elapsed.as_secs_f64()
    }
}

/// One side of the table: a device that is given commands as plain values.
trait Side {
    fn name(&self) -> &str;

    /// Puts the block to the device so many times. Gives the time that took,
    /// text set apart, and how many commands the last pass accepted.
    fn time(&mut self, block: &[Command], passes: u64) -> Result<(Duration, usize), String>;
}

struct Reference {
    device: Device,
}

impl Side for Reference {
    fn name(&self) -> &str {
        "Rust reference"
    }

    fn time(&mut self, block: &[Command], passes: u64) -> Result<(Duration, usize), String> {
        let mut accepted = 0;
        let begun = Instant::now();
        for _ in 0..passes {
            accepted = 0;
            for command in block {
                // The compiler must not learn what is in the commands, nor
                // that nobody looks at most answers.
                let answer = black_box(obey(&mut self.device, black_box(command)));
                accepted += usize::from(answer.is_ok());
            }
        }
        Ok((begun.elapsed(), accepted))
    }
}

/// A program that puts a block to the Rattle device, as the bench does. On its
/// standard input are the number of passes and then the block's lines; it
/// prints how many commands the last pass accepted. It has no clock: the time
/// of its passes is that of the whole program less that of a run without any,
/// in which only the lines are read.
struct BlockProgram {
    program: PathBuf,
}

impl BlockProgram {
    fn run(&self, block: &[Command], passes: u64) -> Result<(Duration, usize), String> {
        let mut input = format!("{passes}\n").into_bytes();
        input.extend(lines_of(block));
        let name = self.program.display();
        let (output, elapsed) =
            run(&self.program, input).map_err(|error| format!("{name}: {error}"))?;
        let text = String::from_utf8_lossy(&output);
        let accepted = text.trim().parse().map_err(|_| format!("{name}: no number: {text}"))?;
        Ok((elapsed, accepted))
    }
}

impl Side for BlockProgram {
    fn name(&self) -> &str {
        "Rattle device"
    }

    fn time(&mut self, block: &[Command], passes: u64) -> Result<(Duration, usize), String> {
        let (idle, _) = self.run(block, 0)?;
        let (busy, accepted) = self.run(block, passes)?;
        Ok((busy.saturating_sub(idle), accepted))
    }
}

/// Runs a program on an input. Gives its output and the time it took.
fn run(program: &Path, input: Vec<u8>) -> io::Result<(Vec<u8>, Duration)> {
    let begun = Instant::now();
    let (mut child, mut stdout) = fed(program, input, Stdio::inherit())?;
    let mut output = Vec::new();
    stdout.read_to_end(&mut output)?;
    let status = child.wait()?;
    let elapsed = begun.elapsed();
    if status.success() {
        Ok((output, elapsed))
    } else {
        Err(io::Error::other(format!("ended with {status}")))
    }
}

struct Options {
    device: Option<PathBuf>,
    bench: Option<PathBuf>,
    rounds: usize,
    seconds: f64,
    save: Option<PathBuf>,
}

fn read_options() -> Result<Option<Options>, String> {
    let mut options = Options { device: None, bench: None, rounds: 10, seconds: 0.4, save: None };
    let mut words = std::env::args().skip(1);
    while let Some(word) = words.next() {
        let mut next = || words.next().ok_or(format!("{word} needs a value"));
        let not_a_number = || format!("{word} needs a number");
        // A bare name would be looked for among the installed programs.
        let path = |name: String| PathBuf::from(&name).canonicalize().unwrap_or(name.into());
        match word.as_str() {
            "--device" => options.device = Some(path(next()?)),
            "--bench" => options.bench = Some(path(next()?)),
            "--rounds" => options.rounds = next()?.parse().map_err(|_| not_a_number())?,
            "--seconds" => options.seconds = next()?.parse().map_err(|_| not_a_number())?,
            "--save" => options.save = Some(next()?.into()),
            "--help" => return Ok(None),
            _ => return Err(format!("unknown option {word}")),
        }
    }
    if options.rounds == 0 || options.seconds.is_nan() || options.seconds <= 0.0 {
        return Err("rounds and seconds must be above 0".to_string());
    }
    Ok(Some(options))
}

fn main() -> ExitCode {
    let options = match options_or_end("speed", USAGE, read_options()) {
        Ok(options) => options,
        Err(status) => return status,
    };
    match measure(&options) {
        Ok(()) => ExitCode::SUCCESS,
        Err(message) => {
            eprintln!("speed: {message}");
            ExitCode::FAILURE
        }
    }
}

fn measure(options: &Options) -> Result<(), String> {
    let workloads = Workload::all();
    if let Some(folder) = &options.save {
        return save(&workloads, folder).map_err(|error| format!("{}: {error}", folder.display()));
    }
    if cfg!(debug_assertions) {
        println!("NOT built for release: these figures mean nothing");
    }

    let mut sides: Vec<Box<dyn Side>> = vec![Box::new(Reference { device: Device::new() })];
    if let Some(program) = &options.device {
        sides.push(Box::new(BlockProgram { program: program.clone() }));
    }
    // One row of figures for each side, one column for each workload.
    let mut figures = vec![Vec::new(); sides.len()];
    for workload in &workloads {
        for (row, figure) in device_figures(&mut sides, workload, options)?.into_iter().enumerate()
        {
            figures[row].push(figure);
        }
    }

    println!("{:<34}{:>16}{:>16}", "a second", "cycles", "mixed commands");
    for (side, row) in sides.iter().zip(&figures) {
        print_row(side.name(), row.iter().map(|figure| grouped(*figure)));
    }
    match figures.get(1) {
        Some(row) => {
            let ratios =
                row.iter().zip(&figures[0]).map(|(other, own)| format!("{:.3}", other / own));
            print_row("ratio, Rattle to Rust", ratios);
        }
        None => print_row("Rattle device", ["not measured"; 2].map(String::from).into_iter()),
    }

    println!();
    println!("{:<34}{:>16}{:>16}", "lines a second, text and all", "cycles", "mixed commands");
    let mut programs = Vec::new();
    let answer = std::env::current_exe().ok().and_then(|path| {
        let path = path.with_file_name("answer");
        path.exists().then_some(path)
    });
    if let Some(program) = answer {
        programs.push(("Rust reference (answer)", program));
    }
    if let Some(program) = &options.bench {
        programs.push(("bench", program.clone()));
    }
    for (name, program) in &programs {
        let mut row = Vec::new();
        for workload in &workloads {
            row.push(grouped(program_figure(program, workload, options)?));
        }
        print_row(name, row.into_iter());
    }
    if options.bench.is_none() {
        print_row("bench", ["not measured"; 2].map(String::from).into_iter());
    }
    Ok(())
}

fn print_row(name: &str, figures: impl Iterator<Item = String>) {
    print!("{name:<34}");
    for figure in figures {
        print!("{figure:>16}");
    }
    println!();
}

/// The best of the rounds for each side: whatever else the machine does only
/// slows them down. The sides take turns, so that a slow spell hits them all.
fn device_figures(
    sides: &mut [Box<dyn Side>],
    workload: &Workload,
    options: &Options,
) -> Result<Vec<f64>, String> {
    let each = options.seconds / workload.blocks.len() as f64;
    let mut passes = Vec::new();
    for side in sides.iter_mut() {
        // A first run warms up and tells how many passes fill the time.
        let few = 200;
        let (elapsed, _) = side.time(&workload.blocks[0], few)?;
        let pass = (elapsed.as_secs_f64() / few as f64).max(1e-9);
        passes.push((each / pass).ceil().max(1.0) as u64);
    }
    let mut rounds = vec![Vec::new(); sides.len()];
    for _ in 0..options.rounds {
        for (place, side) in sides.iter_mut().enumerate() {
            let mut timing = Timing { commands: 0, elapsed: Duration::ZERO };
            for block in &workload.blocks {
                let (elapsed, accepted) = side.time(block, passes[place])?;
                if workload.all_accepted && accepted != block.len() {
                    return Err(format!("{}: {} refused a command", workload.name, side.name()));
                }
                timing.commands += passes[place] * block.len() as u64;
                timing.elapsed += elapsed;
            }
            rounds[place].push(timing.a_second());
        }
    }
    Ok(rounds.into_iter().map(best).collect())
}

/// A whole program, from its start to its end, on the workload's lines.
fn program_figure(program: &Path, workload: &Workload, options: &Options) -> Result<f64, String> {
    let once = workload.lines();
    let timed = |input: Vec<u8>, lines: usize| -> Result<f64, String> {
        let (output, elapsed) =
            run(program, input).map_err(|error| format!("{}: {error}", program.display()))?;
        if output.iter().filter(|byte| **byte == b'\n').count() != lines {
            return Err(format!("{}: not one answer for each line", program.display()));
        }
        Ok(lines as f64 / elapsed.as_secs_f64())
    };
    let lines = workload.commands.len();
    let first = timed(once.clone(), lines)?;
    // Enough lines that the start of the program no longer counts, and not so
    // many that the text fills the memory.
    let passes = (options.seconds * first / lines as f64).ceil().clamp(1.0, 40.0) as usize;
    let mut rounds = Vec::new();
    for _ in 0..options.rounds {
        rounds.push(timed(once.repeat(passes), passes * lines)?);
    }
    Ok(best(rounds))
}

fn best(figures: Vec<f64>) -> f64 {
    figures.into_iter().fold(0.0, f64::max)
}

/// A figure with commas between the thousands.
fn grouped(figure: f64) -> String {
    let digits = format!("{figure:.0}");
    let mut text = String::new();
    for (place, digit) in digits.chars().enumerate() {
        if place > 0 && (digits.len() - place) % 3 == 0 {
            text.push(',');
        }
        text.push(digit);
    }
    text
}

fn save(workloads: &[Workload], folder: &Path) -> io::Result<()> {
    std::fs::create_dir_all(folder)?;
    for workload in workloads {
        let path = folder.join(workload.name).with_extension("txt");
        std::fs::write(&path, workload.lines())?;
        println!("{}: {} lines", path.display(), workload.commands.len());
    }
    Ok(())
}
