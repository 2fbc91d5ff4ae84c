//! The programs themselves: `answer` as its own bench, and benches with a
//! fault that `compare` must find.
#![cfg(unix)]

use std::fs;
use std::os::unix::fs::PermissionsExt;
use std::path::PathBuf;
use std::process::{Command, Output};

use corrector_reference::cases;
use corrector_reference::coverage::Coverage;
use corrector_reference::spoilt::spoilt_script;
use corrector_reference::table::PAGE;
use corrector_reference::walk::walk_script;

const ANSWER: &str = env!("CARGO_BIN_EXE_answer");

fn compare(arguments: &[&str]) -> Output {
    Command::new(env!("CARGO_BIN_EXE_compare")).args(arguments).output().expect("compare runs")
}

fn text(output: &Output) -> String {
    String::from_utf8_lossy(&output.stdout).into_owned()
}

/// A bench made of `answer` and a shell line.
fn faulty_bench(name: &str, shell: &str) -> PathBuf {
    let folder = PathBuf::from(env!("CARGO_TARGET_TMPDIR"));
    let path = folder.join(name);
    fs::write(&path, format!("#!/bin/sh\n{}\n", shell.replace("ANSWER", ANSWER))).unwrap();
    fs::set_permissions(&path, fs::Permissions::from_mode(0o755)).unwrap();
    path
}

#[track_caller]
fn finds(name: &str, shell: &str, arguments: &[&str]) -> String {
    let bench = faulty_bench(name, shell);
    let mut all = vec!["--bench", bench.to_str().unwrap(), "--seed", "5", "--shrink", "20"];
    all.extend_from_slice(arguments);
    let output = compare(&all);
    assert_eq!(output.status.code(), Some(1), "{}", text(&output));
    text(&output)
}

#[test]
fn the_reference_gives_the_kept_answers() {
    let cases = cases::load(&cases::default_place()).unwrap();
    assert!(!cases.is_empty());
    for case in cases {
        assert_eq!(case.reference_differs(&mut Coverage::new()), None, "case {}", case.name);
    }
}

#[test]
fn no_difference_to_itself() {
    let output = compare(&["--bench", ANSWER, "--steps", "30000", "--seed", "1", "--coverage"]);
    assert_eq!(output.status.code(), Some(0), "{}", text(&output));
    let text = text(&output);
    assert!(text.starts_with("seed 1\n"), "{text}");
    let walk = format!("\nwalk over the settings page of {} steps: ", walk_script().lines.len());
    assert!(text.contains(&walk), "{text}");
    let steps = spoilt_script().lines.len();
    let spoilt = format!("\nspoilt messages to the reader in {steps} steps: no difference\n");
    assert!(text.contains(&spoilt), "{text}");
    assert!(text.contains("How often each command had each answer"), "{text}");
    let all = PAGE.settings.len();
    assert!(text.contains(&format!("  lowest value accepted: {all} of {all}\n")), "{text}");
    assert!(text.trim_end().ends_with("no difference (seed 1)"), "{text}");
    let output = compare(&["--bench", ANSWER, "--fuzz", "20000"]);
    assert_eq!(output.status.code(), Some(0), "{}", String::from_utf8_lossy(&output.stdout));
    let text = String::from_utf8_lossy(&output.stdout);
    assert!(text.contains(&walk) && text.contains(&spoilt), "{text}");
}

#[test]
fn a_wrong_answer_is_found_and_cut_down() {
    // A bench that never finds a commit stale. The kept cases would tell at
    // once, so that they are left aside.
    let empty = PathBuf::from(env!("CARGO_TARGET_TMPDIR")).join("no-cases");
    fs::create_dir_all(&empty).unwrap();
    let out = finds(
        "never-stale",
        "exec ANSWER | sed -u 's/^11$/0/'",
        &["--cases", empty.to_str().unwrap(), "--no-long"],
    );
    let story: Vec<&str> = out
        .lines()
        .skip_while(|line| !line.starts_with("the shortest script found"))
        .skip(1)
        .collect();
    // Lock, begin, read, begin, write, commit, commit and the bench's answer.
    assert!(story.len() <= 8, "{out}");
    assert!(story.last().unwrap().contains("the bench: 0"), "{out}");
}

/// A bench that writes past its message, by one bit at the end of the buffer.
/// The answer that differs is shown to its last digit.
#[test]
fn a_readout_past_its_message_is_found() {
    let empty = PathBuf::from(env!("CARGO_TARGET_TMPDIR")).join("no-cases-of-readouts");
    fs::create_dir_all(&empty).unwrap();
    let arguments = ["--cases", empty.to_str().unwrap(), "--no-long"];
    let out = finds("past-the-message", "ANSWER | sed -u 's/^\\(0 02.*\\)aa$/\\1ab/'", &arguments);
    assert!(out.contains("the shortest script found, 1 lines"), "{out}");
    let last = out.lines().last().expect("the bench's answer");
    assert!(last.contains("the bench: 0 02") && last.ends_with("ab"), "{out}");
}

/// Benches with one fault each in the question for a code: one does not know that
/// none may be held, one looks at the lower byte of the code alone, and one does
/// not look at the last line of a full book.
#[test]
fn a_question_answered_wrongly_is_found() {
    let empty = PathBuf::from(env!("CARGO_TARGET_TMPDIR")).join("no-cases-of-questions");
    fs::create_dir_all(&empty).unwrap();
    let arguments = ["--cases", empty.to_str().unwrap(), "--no-long", "--shrink", "3"];
    for (name, shell, bench) in [
        ("never-none", "ANSWER | sed -u 's/^0 - [0-9]*$/13/'", "the bench: 13"),
        ("lower-byte", "sed -u 's/^last 65567$/last 31/' | ANSWER", " 31 "),
        ("one-line-less", "ANSWER | sed -u 's/^0 - 250$/0 - 249/'", "the bench: 0 - 249"),
    ] {
        let out = finds(name, shell, &arguments);
        let last = out.lines().last().expect("the bench's answer");
        assert!(last.contains("the bench: ") && last.contains(bench), "{out}");
        assert!(out.contains("  last "), "{out}");
    }
}

/// What the scripts without a seed find of a bench: no case and no random step.
#[track_caller]
fn fixed_scripts_find(name: &str, shell: &str) -> String {
    let empty = PathBuf::from(env!("CARGO_TARGET_TMPDIR")).join(format!("no-cases-of-{name}"));
    fs::create_dir_all(&empty).unwrap();
    finds(name, shell, &["--cases", empty.to_str().unwrap(), "--no-long", "--steps", "0"])
}

/// The highest value of one setting is out of range on the bench.
#[test]
fn the_walk_finds_a_wrong_end_of_a_range() {
    for setting in [17, 29] {
        let (_, high) = PAGE.settings[setting - 1].ends();
        let shell = format!("sed -u 's/ {setting} w {high}$/&0/' | ANSWER");
        let out = fixed_scripts_find(&format!("wrong-end-of-{setting}"), &shell);
        // Begin and write.
        assert!(out.contains("the shortest script found, 2 lines"), "{out}");
        assert!(out.contains("the bench: 9"), "{out}");
    }
}

/// No lock is ever missing on the bench.
#[test]
fn the_walk_finds_a_wrong_right() {
    let out = fixed_scripts_find("never-missing", "ANSWER | sed -u 's/^10$/0/'");
    assert!(out.contains("-> 10\n"), "{out}");
    assert!(out.contains("the bench: 0"), "{out}");
}

/// Readers with one fault each, and what the reference says where they differ
/// first: one takes an upper-case M for a small one, one does not look at what
/// comes after the check character, and one does not know 18.
#[test]
fn the_spoilt_messages_find_a_reader_that_reads_too_much() {
    for (name, shell, reference, bench) in [
        ("large-unit", "sed 's/4d33290d0a/6d33290d0a/g' | ANSWER", "17", "18"),
        ("byte-after", "sed 's/^\\(parse .\\{312\\}\\)\\(..\\)*$/\\1/' | ANSWER", "17", "0 "),
        ("no-18", "ANSWER | sed 's/^18$/17/'", "18", "17"),
    ] {
        let out = fixed_scripts_find(name, shell);
        // The walk has found nothing, and one message is enough.
        assert!(out.contains("walk over the settings page"), "{out}");
        assert!(out.contains("the shortest script found, 1 lines"), "{out}");
        assert!(out.contains(&format!("-> {reference}\n")), "{out}");
        assert!(out.contains(&format!("the bench: {bench}")), "{out}");
    }
}

#[test]
fn a_bench_that_stops_is_found() {
    let out = finds("stops", "head -n 3 | ANSWER", &["--cases-only"]);
    assert!(out.contains("(no answer)"), "{out}");
}

#[test]
fn a_bench_with_another_status_is_found() {
    let out = finds("status", "ANSWER; exit 3", &["--cases-only"]);
    assert!(out.contains("exit status: 3"), "{out}");
}

#[test]
fn a_bench_that_says_too_much_is_found() {
    finds("says-more", "ANSWER; echo", &["--cases-only"]);
}

#[test]
fn a_bench_that_hangs_is_found() {
    let out = finds("hangs", "ANSWER; exec sleep 30", &["--cases-only", "--limit", "1"]);
    assert!(out.contains("did not end in time"), "{out}");
}

#[test]
fn a_bench_that_holds_its_answers_back_is_found() {
    let shell = "input=$(cat; echo x); printf '%s' \"${input%x}\" | ANSWER";
    let empty = PathBuf::from(env!("CARGO_TARGET_TMPDIR")).join("no-cases-either");
    fs::create_dir_all(&empty).unwrap();
    let arguments = ["--cases", empty.to_str().unwrap(), "--limit", "2", "--steps", "100"];
    let out = finds("holds-back", shell, &arguments);
    assert!(out.contains("holds its answers back"), "{out}");
}

#[test]
fn wrong_arguments() {
    assert_eq!(compare(&[]).status.code(), Some(2));
    assert_eq!(compare(&["--steps", "many", "--bench", ANSWER]).status.code(), Some(2));
    assert_eq!(compare(&["--bench", "no/such/program"]).status.code(), Some(2));
    assert_eq!(compare(&["--help"]).status.code(), Some(0));
}

#[test]
fn speed_prints_its_table() {
    let output = Command::new(env!("CARGO_BIN_EXE_speed"))
        .args(["--rounds", "1", "--seconds", "0.01", "--bench", ANSWER])
        .output()
        .expect("speed runs");
    let text = text(&output);
    assert!(output.status.success(), "{text}");
    assert!(text.contains("Rust reference"), "{text}");
    assert!(text.contains("\nbench "), "{text}");
}

/// The workloads are the same lines since before request Three, so that figures
/// can be compared from one request to the next. The sums are FNV-1a of 64 bits.
/// The values of writes are left out: they are drawn from the ranges of the
/// settings page, and may change with it.
#[test]
fn the_workloads_of_speed_stay_as_they_are() {
    let folder = PathBuf::from(env!("CARGO_TARGET_TMPDIR")).join("workloads");
    let output = Command::new(env!("CARGO_BIN_EXE_speed"))
        .args(["--save", folder.to_str().unwrap()])
        .output()
        .expect("speed runs");
    assert!(output.status.success());
    for (name, sum) in [("cycles", 0x080b_0119_c4f9_1c4b), ("mixed", 0x4a02_8ce6_a710_92d3)] {
        let lines = fs::read_to_string(folder.join(name).with_extension("txt")).unwrap();
        let without_value = |line: &str| match line.rsplit_once(' ') {
            Some((rest, _)) if line.starts_with("write ") => format!("{rest}\n"),
            _ => format!("{line}\n"),
        };
        let lines: String = lines.lines().map(without_value).collect();
        let found = lines.bytes().fold(0xcbf2_9ce4_8422_2325_u64, |sum, byte| {
            (sum ^ u64::from(byte)).wrapping_mul(0x100_0000_01b3)
        });
        assert_eq!(found, sum, "{name}");
    }
}

/// Runs `speed` with a program that takes a while over any passes and says
/// that it accepted so many commands.
fn speed_with_a_device(name: &str, accepted: usize) -> Output {
    let program = faulty_bench(
        name,
        &format!("read n; cat > /dev/null; [ \"$n\" = 0 ] || sleep 0.05; echo {accepted}"),
    );
    Command::new(env!("CARGO_BIN_EXE_speed"))
        .args(["--rounds", "1", "--seconds", "0.01", "--device", program.to_str().unwrap()])
        .output()
        .expect("speed runs")
}

/// A program with a device joins the table as the other side.
#[test]
fn speed_times_another_device() {
    let output = speed_with_a_device("timed", 256);
    let text = text(&output);
    assert!(output.status.success(), "{text}");
    assert!(text.contains("ratio, Rattle to Rust"), "{text}");
}

/// Figures of cycles that were refused would say nothing.
#[test]
fn speed_gives_no_figure_for_refused_cycles() {
    let output = speed_with_a_device("refusing", 255);
    assert!(!output.status.success(), "{}", text(&output));
    let said = String::from_utf8_lossy(&output.stderr).to_string();
    assert!(said.contains("refused a command"), "{said}");
}
