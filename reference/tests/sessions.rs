//! Sessions: staging, when rights count, staleness, audit lines.

mod common;

use common::{shown, tell, Teller};
use corrector_reference::table::PAGE;

/// A session at door 1 with the given steps, while door 2 puts setting 16 in
/// force where a step says so. Gives the answer of door 1's commit.
fn race(steps: &[&str]) -> String {
    let mut teller = Teller::new();
    teller.done(&["open 1 0", "begin 1"]);
    for step in steps {
        if *step == "other" {
            teller.done(&["begin 2", "write 2 16 w 7000", "commit 2"]);
        } else {
            teller.say(step);
        }
    }
    teller.say("commit 1")
}

#[test]
fn what_is_stale() {
    // Read, and then put in force through the other door.
    assert_eq!(race(&["read 1 16", "other"]), "11");
    // In the other order.
    assert_eq!(race(&["other", "read 1 16"]), "0");
    assert_eq!(race(&["other", "read 1 16", "other"]), "11");
    // The first read counts, not the last.
    assert_eq!(race(&["read 1 16", "other", "read 1 16"]), "11");
    // Reading one's own staged value counts as reading.
    assert_eq!(race(&["write 1 16 w 8000", "read 1 16", "other"]), "11");
    // Writing does not take the reading back.
    assert_eq!(race(&["read 1 16", "write 1 16 w 8000", "other"]), "11");
    assert_eq!(race(&["read 1 16", "other", "write 1 16 w 8000"]), "11");
    // Writing alone is not reading.
    assert_eq!(race(&["write 1 16 w 8000", "other"]), "0");
    // Another setting was read.
    assert_eq!(race(&["read 1 15", "read 1 17", "other"]), "0");
    // A read that was refused is no read, and a refused write no harm.
    assert_eq!(race(&["read 1 30", "other"]), "0");
    assert_eq!(race(&["read 1 16", "write 1 16 w 1", "other"]), "11");
    // Something else staged or nothing: stale all the same.
    assert_eq!(race(&["read 1 16", "write 1 21 w 3", "other"]), "11");
    // A session that ended has read nothing.
    assert_eq!(race(&["read 1 16", "other", "abandon 1", "begin 1"]), "0");
    assert_eq!(race(&["read 1 16", "abandon 1", "begin 1", "other"]), "0");
    assert_eq!(race(&["read 1 16", "commit 1", "begin 1", "other"]), "0");
    // A refused begin does not forget what was read.
    assert_eq!(race(&["read 1 16", "begin 1", "other"]), "11");
}

/// The settings of the outputs go through sessions like any other.
#[test]
fn stale_by_an_output() {
    for setting in 22..=29 {
        // 1 is in both ranges.
        let (read, write) = (format!("read 1 {setting}"), format!("write 2 {setting} w 1"));
        let factory = shown(PAGE.settings[setting - 1].factory);
        let mut teller = Teller::new();
        teller.done(&["open 2 0", "begin 1", "begin 2", &write]);
        teller.tell(&[(&read, &format!("0 {factory}"))]);
        // A tick and a cycle in between change nothing of it.
        teller.tell(&[("tick 600", "0 0 0 0 0"), ("cycle 0 1 5120 101325 -", "0")]);
        teller.done(&["commit 2"]);
        teller.tell(&[(&read, "0 w 1"), ("commit 1", "11")]);
        let line = format!("0 0 0 2 {setting} {factory} w 1");
        teller.tell(&[("audit 0", &line), ("audit 1", "13")]);
        // Read anew it is not stale.
        teller.done(&["begin 1"]);
        teller.tell(&[(&read, "0 w 1"), ("commit 1", "0")]);
    }
}

/// Choices and weights are put in force together, and in order of number.
#[test]
fn audit_lines_of_the_outputs() {
    tell(&[
        ("start 42 7 0", "0"),
        ("open 2 7", "0"),
        ("begin 2", "0"),
        ("write 2 29 w 250000", "0"),
        ("write 2 25 w 6", "0"),
        ("write 2 26 w 100", "0"),
        ("write 2 22 w 1", "0"),
        ("read 2 25", "0 w 6"),
        ("commit 2", "0"),
        ("audit 3", "0 0 42 2 22 w 0 w 1"),
        ("audit 2", "0 1 42 2 25 w 0 w 6"),
        ("audit 1", "0 2 42 2 26 w 100 w 100"),
        ("audit 0", "0 3 42 2 29 w 100 w 250000"),
    ]);
}

#[test]
fn an_equal_value_makes_stale_too() {
    tell(&[
        ("open 1 0", "0"),
        ("begin 1", "0"),
        ("read 1 16", "0 w 10000"),
        ("begin 2", "0"),
        ("write 2 16 w 10000", "0"),
        ("commit 2", "0"),
        ("commit 1", "11"),
        ("audit 0", "0 0 0 2 16 w 10000 w 10000"),
    ]);
}

#[test]
fn ones_own_door_makes_nothing_stale() {
    tell(&[
        ("open 1 0", "0"),
        ("begin 1", "0"),
        ("read 1 16", "0 w 10000"),
        ("write 1 16 w 9000", "0"),
        ("commit 1", "0"),
        ("begin 1", "0"),
        ("read 1 16", "0 w 9000"),
        ("write 1 16 w 9100", "0"),
        ("commit 1", "0"),
    ]);
}

#[test]
fn a_refused_or_abandoned_session_makes_nothing_stale() {
    tell(&[
        ("open 2 0", "0"),
        ("begin 1", "0"),
        ("read 1 16", "0 w 10000"),
        ("begin 2", "0"),
        ("write 2 16 w 9000", "0"),
        ("abandon 2", "0"),
        ("begin 2", "0"),
        ("write 2 16 w 9000", "0"),
        // Setting 1 needs lock 1.
        ("write 2 1 w 0", "0"),
        ("commit 2", "10"),
        ("commit 1", "0"),
    ]);
}

#[test]
fn both_read_and_both_write() {
    for (first, second) in [("1", "2"), ("2", "1")] {
        let mut teller = Teller::new();
        teller.done(&["open 1 0", "begin 1", "begin 2"]);
        teller.tell(&[("read 1 21", "0 w 0"), ("read 2 21", "0 w 0")]);
        teller.done(&["write 1 21 w 1", "write 2 21 w 2"]);
        teller.tell(&[
            (&format!("commit {first}"), "0"),
            (&format!("commit {second}"), "11"),
            (&format!("begin {second}"), "0"),
            (&format!("read {second} 21"), &format!("0 w {first}")),
        ]);
    }
}

#[test]
fn a_commit_of_nothing_can_be_stale() {
    tell(&[
        ("begin 1", "0"),
        ("read 1 21", "0 w 0"),
        ("open 3 0", "0"),
        ("begin 2", "0"),
        ("write 2 21 w 7", "0"),
        ("commit 2", "0"),
        ("shut 3", "0"),
        ("commit 1", "11"),
        // And without the race it needs no lock.
        ("begin 1", "0"),
        ("commit 1", "0"),
        ("audit 1", "13"),
    ]);
}

#[test]
fn doors_do_not_see_each_other_before_a_commit() {
    tell(&[
        ("open 1 0", "0"),
        ("begin 1", "0"),
        ("begin 2", "0"),
        ("write 1 16 w 9000", "0"),
        ("read 2 16", "0 w 10000"),
        ("read 1 16", "0 w 9000"),
        ("write 1 16 w 9001", "0"),
        ("read 1 16", "0 w 9001"),
        ("commit 1", "0"),
        ("read 2 16", "0 w 9001"),
        ("commit 2", "11"),
    ]);
}

/// Staged values do not act on cycles.
#[test]
fn staged_values_are_not_in_force() {
    tell(&[
        ("open 1 0", "0"),
        ("begin 1", "0"),
        ("write 1 1 w 4", "0"),
        ("cycle 0 1 5120 101325 -", "0"),
        ("report", "0 0 100 0 10000000 0 100 10000000 0 0 0 0 0 0 1 0 0"),
        ("commit 1", "0"),
        ("cycle 0 1 5120 101325 -", "0"),
        ("report", "0 0 100100 0 10010000000 0 100100 10010000000 0 0 0 0 0 0 1 0 0"),
    ]);
}

#[test]
fn rights_count_at_the_commit() {
    tell(&[
        ("open 1 0", "0"),
        ("begin 1", "0"),
        ("write 1 1 w 0", "0"),
        ("shut 1", "0"),
        ("commit 1", "10"),
        ("begin 1", "0"),
        ("write 1 1 w 0", "0"),
        ("open 1 0", "0"),
        ("commit 1", "0"),
    ]);
}

#[test]
fn audit_lines_in_order_of_number() {
    tell(&[
        ("start 42 0 0", "0"),
        ("open 1 0", "0"),
        ("begin 2", "0"),
        ("write 2 21 w 9", "0"),
        ("write 2 12 c 3ff0000000000000", "0"),
        ("write 2 7 w 90000", "0"),
        ("write 2 1 w 3", "0"),
        ("write 2 21 w 8", "0"),
        ("commit 2", "0"),
        ("audit 3", "0 0 42 2 1 w 1 w 3"),
        ("audit 2", "0 1 42 2 7 w 90000 w 90000"),
        ("audit 1", "0 2 42 2 12 c 3f80000000000000 c 3ff0000000000000"),
        ("audit 0", "0 3 42 2 21 w 0 w 8"),
        ("audit 4", "13"),
        ("cycle 100 0 - - -", "0"),
        ("begin 1", "0"),
        ("write 1 9 w -2500", "0"),
        ("commit 1", "0"),
        ("audit 0", "0 4 100 1 9 w -2000 w -2500"),
    ]);
}

/// The pairs are judged as they would stand after the commit.
#[test]
fn pairs_as_they_would_stand() {
    let commit = |writes: &[&str]| {
        let mut teller = Teller::new();
        teller.done(&["open 1 0", "begin 1"]);
        for write in writes {
            teller.done(&[&format!("write 1 {write}")]);
        }
        teller.say("commit 1")
    };
    assert_eq!(commit(&["7 w 700000"]), "0");
    assert_eq!(commit(&["7 w 700001"]), "12");
    assert_eq!(commit(&["8 w 90000"]), "0");
    assert_eq!(commit(&["8 w 89999"]), "12");
    assert_eq!(commit(&["7 w 5000000", "8 w 5000000"]), "0");
    assert_eq!(commit(&["8 w 5000000", "7 w 5000001"]), "12");
    assert_eq!(commit(&["9 w 6000"]), "0");
    assert_eq!(commit(&["9 w 6001"]), "12");
    assert_eq!(commit(&["10 w -2000"]), "0");
    assert_eq!(commit(&["10 w -2001"]), "12");
    assert_eq!(commit(&["9 w -9000", "10 w -9000"]), "0");
    assert_eq!(commit(&["9 w 15000", "10 w 14999"]), "12");
    // One pair in order does not help the other.
    assert_eq!(commit(&["7 w 80000", "8 w 80000", "9 w 6001"]), "12");
    // What the other door has put in force meanwhile counts.
    tell(&[
        ("open 1 0", "0"),
        ("begin 1", "0"),
        ("write 1 7 w 600000", "0"),
        ("begin 2", "0"),
        ("write 2 8 w 500000", "0"),
        ("commit 2", "0"),
        ("commit 1", "12"),
    ]);
}
