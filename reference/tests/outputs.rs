//! The pulse outputs of request Three: gains, weights, the buffer, what is
//! lost, ticks, and what a commit drops.
//!
//! At 0 degrees and p of pb the factor is 1, and so it is when p fails, because
//! p.F is pb. A factory pulse is then 100 litres and 10,000,000 of Vb or VbD.

mod common;

use common::{tell, Teller};

const MAIN: &str = "5120 101325 -";
const DISTURBED: &str = "5120 - -";

/// Puts settings in force through a door.
#[track_caller]
fn put(teller: &mut Teller, door: u32, settings: &[(u32, i64)]) {
    teller.done(&[&format!("begin {door}")]);
    for (setting, value) in settings {
        teller.done(&[&format!("write {door} {setting} w {value}")]);
    }
    teller.done(&[&format!("commit {door}")]);
}

/// A device with lock 1 open and these settings in force.
#[track_caller]
fn with(settings: &[(u32, i64)]) -> Teller {
    let mut teller = Teller::new();
    teller.done(&["open 1 0"]);
    put(&mut teller, 1, settings);
    teller
}

#[track_caller]
fn cycle(teller: &mut Teller, n: u32, readings: &str) {
    teller.done(&[&format!("cycle 0 {n} {readings}")]);
}

/// Account, waiting and lost of each output.
#[track_caller]
fn outputs(teller: &mut Teller) -> [[u64; 3]; 4] {
    let answer = teller.say("outputs");
    let numbers: Vec<u64> = answer.split(' ').map(|word| word.parse().expect("a number")).collect();
    assert_eq!(numbers.len(), 13, "{answer}");
    assert_eq!(numbers[0], 0, "{answer}");
    [1, 4, 7, 10].map(|first| [numbers[first], numbers[first + 1], numbers[first + 2]])
}

#[test]
fn fresh_outputs_are_off() {
    let nothing = "0 0 0 0 0 0 0 0 0 0 0 0 0";
    tell(&[
        ("outputs", nothing),
        ("cycle 0 600 5120 101325 -", "0"),
        ("cycle 0 600 5120 - -", "0"),
        ("outputs", nothing),
        ("tick 600", "0 0 0 0 0"),
    ]);
}

/// Exactly one weight, one litre short of it, one litre over, many.
#[test]
fn weights_in_litres() {
    for (weight, n, [account, waiting]) in [
        (100, 1, [0, 1]),
        (101, 1, [10_000_000, 0]),
        (99, 1, [100_000, 1]),
        (1, 1, [0, 100]),
        (7, 1, [200_000, 14]),
        (100, 600, [0, 600]),
        (900_000, 600, [6_000_000_000, 0]),
        (60_000, 600, [0, 1]),
        (60_001, 600, [6_000_000_000, 0]),
        (59_999, 600, [100_000, 1]),
    ] {
        let mut teller = with(&[(22, 3), (26, weight)]);
        cycle(&mut teller, n, MAIN);
        assert_eq!(outputs(&mut teller)[0], [account, waiting, 0], "{weight} {n}");
    }
}

/// The same at base conditions, where the factor brings the small amounts. The
/// factor is p when pb is 100,000.
#[test]
fn weights_at_base_conditions() {
    for (weight, p, [account, waiting]) in [
        (10, 100_000, [0, 1]),
        (10, 99_999, [999_990, 0]),
        (10, 100_001, [10, 1]),
        (1, 10_000, [0, 1]),
        (1, 123_456, [34_560, 12]),
        (1_000, 10_000_000, [0, 1]),
        (1_000, 9_999_999, [99_999_990, 0]),
    ] {
        let settings = [(1, 0), (2, 100_000), (5, 0), (7, 10_000), (8, 10_000_000), (15, 0)];
        let mut teller = with(&settings);
        put(&mut teller, 2, &[(22, 6), (26, weight)]);
        cycle(&mut teller, 1, &format!("- {p} -"));
        assert_eq!(outputs(&mut teller)[0], [account, waiting, 0], "{weight} {p}");
    }
}

/// What a pulse is too small for stays and counts the next time. H4's cycle
/// brings 186,355,000; ten of them are 1,863,550,000, 186 times 100 litres.
#[test]
fn the_account_is_carried_on() {
    let mut teller = with(&[(22, 6)]);
    for round in 1..=10_u64 {
        cycle(&mut teller, 10, "7680 202650 -");
        let sum = round * 186_355_000;
        assert_eq!(outputs(&mut teller)[0], [sum % 10_000_000, sum / 10_000_000, 0]);
    }
    assert_eq!(outputs(&mut teller)[0], [3_550_000, 186, 0]);
}

/// Each choice in a cycle of 300 litres, main and disturbed. With p failed at
/// 20 degrees the factor is 93,178 (H5); measured at 202,650 it is 186,355 (H2).
#[test]
fn choices() {
    // Account and pulses at 70 litres: 300 litres are four and 20 litres; 559.065
    // are seven and 69.065; 279.534 are three and 69.534.
    let litres = [2_000_000, 4];
    for (choice, main, disturbed) in [
        (0, [0, 0], [0, 0]),
        (1, litres, [0, 0]),
        (2, [0, 0], litres),
        (3, litres, litres),
        (4, [6_906_500, 7], [0, 0]),
        (5, [0, 0], [6_953_400, 3]),
        (6, [6_906_500, 7], [6_953_400, 3]),
    ] {
        for (readings, [account, waiting]) in [("7680 202650 -", main), ("7680 - -", disturbed)] {
            for output in 0..4 {
                let mut teller = with(&[(22 + output, choice), (26 + output, 70)]);
                cycle(&mut teller, 3, readings);
                let mut expected = [[0; 3]; 4];
                expected[output as usize] = [account, waiting, 0];
                assert_eq!(outputs(&mut teller), expected, "{choice} {readings}");
            }
        }
    }
}

/// Vm, VmT, Vb and VbT all roll over to 0 in the last cycle. Each gained a pulse
/// in it.
#[test]
fn gains_are_taken_before_the_rollover() {
    let mut teller = with(&[(1, 4)]);
    for _ in 0..16_666 {
        cycle(&mut teller, 600, MAIN);
    }
    cycle(&mut teller, 399, MAIN);
    put(&mut teller, 1, &[(1, 1)]);
    cycle(&mut teller, 600, MAIN);
    cycle(&mut teller, 399, MAIN);
    put(&mut teller, 1, &[(22, 1), (23, 3), (24, 4), (25, 6)]);
    cycle(&mut teller, 1, MAIN);
    assert_eq!(teller.say("report"), "0 0 0 0 0 0 0 0 0 0 0 0 0 0 1 0 0");
    assert_eq!(outputs(&mut teller), [[0, 1, 0]; 4]);
}

/// 65,535 wait and none is lost; what comes then is, and has one line a cycle;
/// a tick makes room that is used again.
#[test]
fn the_end_of_the_buffer() {
    let mut teller = with(&[(1, 0), (22, 3), (26, 2)]);
    // 13,107 pulses of ten litres are 131,070 litres, twice 65,535.
    for _ in 0..21 {
        cycle(&mut teller, 600, MAIN);
    }
    cycle(&mut teller, 507, MAIN);
    assert_eq!(outputs(&mut teller)[0], [0, 65_535, 0]);
    teller.tell(&[("log 0", "0 0 0 31"), ("cycle 7 1 5120 101325 -", "0")]);
    assert_eq!(outputs(&mut teller)[0], [0, 65_535, 5]);
    teller.tell(&[("log 0", "0 1 7 51"), ("log 1", "0 0 0 31")]);
    // Nothing due, nothing lost, no line.
    teller.tell(&[("cycle 8 0 5120 101325 -", "0"), ("log 0", "0 1 7 51")]);
    // Room for four of five.
    teller.tell(&[("tick 4", "0 4 0 0 0"), ("cycle 9 1 5120 101325 -", "0")]);
    assert_eq!(outputs(&mut teller)[0], [0, 65_535, 6]);
    teller.tell(&[("log 0", "0 2 9 51"), ("tick 600", "0 600 0 0 0")]);
    // 60 times ten litres are 300 pulses, and 120 are 600.
    teller.done(&["cycle 10 60 5120 101325 -"]);
    assert_eq!(outputs(&mut teller)[0], [0, 65_235, 6]);
    teller.done(&["cycle 10 60 5120 101325 -"]);
    assert_eq!(outputs(&mut teller)[0], [0, 65_535, 6]);
    teller.tell(&[("log 0", "0 2 9 51")]);
}

/// All four in one cycle, after the lines of two alarms that came and one that
/// went; then all four in a cycle without an alarm line.
#[test]
fn lines_of_one_cycle_in_order() {
    let mut teller = with(&[(1, 4), (6, 1), (22, 6), (23, 2), (24, 3), (25, 5)]);
    put(&mut teller, 1, &[(26, 1), (27, 1), (28, 1), (29, 1)]);
    teller.done(&["cycle 20 0 5120 - 10000"]);
    teller.tell(&[("log 0", "0 1 20 11")]);
    teller.done(&["cycle 30 1 - 101325 -"]);
    for (index, code) in [54, 53, 52, 51, 21, 13, 12, 11].into_iter().enumerate() {
        let time = if code == 11 { 20 } else { 30 };
        let line = format!("0 {} {time} {code}", 8 - index);
        assert_eq!(teller.say(&format!("log {index}")), line);
    }
    teller.done(&["cycle 40 1 - 101325 -"]);
    for (index, code) in [54, 53, 52, 51].into_iter().enumerate() {
        assert_eq!(teller.say(&format!("log {index}")), format!("0 {} 40 {code}", 12 - index));
    }
    teller.tell(&[("log 4", "0 8 30 54")]);
}

/// The largest amount of Vb there is makes 22,958,898,600 pulses due at a litre:
/// 60,000,000 litres at a factor of 38,264,831. That is 5 x 2^32 and
/// 1,484,062,120.
#[test]
fn more_than_the_lost_counter_holds() {
    let mut teller = with(&[(1, 4), (2, 90_000), (3, 29_815), (5, 0), (8, 10_000_000)]);
    put(&mut teller, 2, &[(15, -10_000), (16, 5_000), (24, 4), (28, 1)]);
    let mut due = 0_u64;
    for round in 1..=6_u64 {
        cycle(&mut teller, 600, "- 10000000 -");
        due += 22_958_898_600;
        assert_eq!(outputs(&mut teller)[2], [0, 65_535, (due - 65_535) % 4_294_967_296]);
        // One line a cycle, after that of lock 1.
        assert_eq!(teller.say("log 0"), format!("0 {round} 0 53"));
    }
    // 1,484,062,120 less 65,535 the first time.
    let mut teller = with(&[(1, 4), (2, 90_000), (3, 29_815), (5, 0), (8, 10_000_000)]);
    put(&mut teller, 2, &[(15, -10_000), (16, 5_000), (24, 6), (28, 1)]);
    cycle(&mut teller, 600, "- 10000000 -");
    assert_eq!(outputs(&mut teller)[2], [0, 65_535, 1_483_996_585]);
}

#[test]
fn ticks() {
    let mut teller = with(&[(22, 3), (23, 3), (24, 2), (26, 10), (27, 100)]);
    cycle(&mut teller, 3, MAIN);
    // 30, 3, none, none.
    teller.tell(&[
        ("tick 0", "0 0 0 0 0"),
        ("tick 2", "0 2 2 0 0"),
        ("tick 2", "0 2 1 0 0"),
        ("tick 25", "0 25 0 0 0"),
        ("tick 600", "0 1 0 0 0"),
        ("tick 600", "0 0 0 0 0"),
    ]);
    let mut teller = with(&[(1, 4), (22, 3), (26, 1)]);
    cycle(&mut teller, 1, MAIN);
    teller.tell(&[("tick 600", "0 600 0 0 0"), ("tick 599", "0 599 0 0 0")]);
    assert_eq!(outputs(&mut teller)[0], [0, 64_336, 34_465]);
}

/// A tick moves pulses and nothing else: no line, no time, no session.
#[test]
fn a_tick_changes_nothing_else() {
    let mut teller = with(&[(22, 3), (26, 70)]);
    teller.done(&["cycle 50 3 5120 - -", "begin 1", "begin 2", "write 1 26 w 9"]);
    teller.tell(&[("read 2 26", "0 w 70"), ("read 1 26", "0 w 9")]);
    let seen = |teller: &mut Teller| {
        let mut seen = teller.everything();
        let last = seen.pop().expect("the outputs come last");
        (seen, last)
    };
    let before = seen(&mut teller);
    assert_eq!(before.1, "0 2000000 4 0 0 0 0 0 0 0 0 0 0");
    teller.tell(&[("tick 3", "0 3 0 0 0")]);
    let after = seen(&mut teller);
    assert_eq!(after.0, before.0);
    assert_eq!(after.1, "0 2000000 1 0 0 0 0 0 0 0 0 0 0");
    // Staged and read as before: the commit at door 1 makes door 2 stale.
    teller.tell(&[("read 1 26", "0 w 9"), ("commit 1", "0"), ("commit 2", "11")]);
}

/// What a commit does to an account of 20 litres at a weight of 70.
#[test]
fn what_a_commit_drops() {
    let account_after = |settings: &[(u32, i64)]| {
        let mut teller = with(&[(22, 3), (26, 70), (23, 2), (27, 70)]);
        cycle(&mut teller, 3, DISTURBED);
        assert_eq!(outputs(&mut teller)[..2], [[2_000_000, 4, 0]; 2]);
        put(&mut teller, 2, settings);
        let [first, second, third, fourth] = outputs(&mut teller);
        // No commit touches what waits or was lost, nor an output that is off.
        assert_eq!([first[1], first[2], second[1], second[2]], [4, 0, 4, 0]);
        assert_eq!([third, fourth], [[0; 3]; 2]);
        [first[0], second[0]]
    };
    let (kept, dropped) = (2_000_000, 0);
    assert_eq!(account_after(&[]), [kept, kept]);
    assert_eq!(account_after(&[(26, 71)]), [dropped, kept]);
    assert_eq!(account_after(&[(26, 69)]), [dropped, kept]);
    assert_eq!(account_after(&[(27, 71)]), [kept, dropped]);
    assert_eq!(account_after(&[(26, 70)]), [kept, kept]);
    assert_eq!(account_after(&[(22, 3)]), [kept, kept]);
    assert_eq!(account_after(&[(22, 3), (26, 70), (23, 2), (27, 70)]), [kept, kept]);
    // To another counter in the same unit, and to one in the other unit.
    assert_eq!(account_after(&[(22, 1)]), [dropped, kept]);
    assert_eq!(account_after(&[(22, 6)]), [dropped, kept]);
    assert_eq!(account_after(&[(23, 3)]), [kept, dropped]);
    assert_eq!(account_after(&[(22, 0)]), [dropped, kept]);
    // One of the two is new.
    assert_eq!(account_after(&[(22, 3), (26, 100)]), [dropped, kept]);
    assert_eq!(account_after(&[(22, 4), (26, 70)]), [dropped, kept]);
    assert_eq!(account_after(&[(22, 4), (26, 100), (23, 0)]), [dropped, dropped]);
    // The other outputs' settings, and settings of nobody's.
    assert_eq!(account_after(&[(24, 5), (25, 1), (28, 7), (29, 8)]), [kept, kept]);
    assert_eq!(account_after(&[(1, 4), (2, 100_000), (14, 20_000), (21, 5)]), [kept, kept]);
    // Written over before the commit: only what is put in force counts.
    assert_eq!(account_after(&[(26, 5), (26, 70)]), [kept, kept]);
    assert_eq!(account_after(&[(26, 70), (26, 5)]), [dropped, kept]);
}

/// What was dropped does not come back, and what waits is not changed by the
/// new weight.
#[test]
fn after_a_new_weight() {
    let mut teller = with(&[(22, 1), (26, 70)]);
    cycle(&mut teller, 3, MAIN);
    put(&mut teller, 1, &[(26, 1_000)]);
    put(&mut teller, 1, &[(26, 70)]);
    assert_eq!(outputs(&mut teller)[0], [0, 4, 0]);
    // With the 20 litres that were dropped 50 would be left, and not 30.
    cycle(&mut teller, 1, MAIN);
    assert_eq!(outputs(&mut teller)[0], [3_000_000, 5, 0]);
}

/// Sessions that put nothing in force drop nothing.
#[test]
fn what_is_not_put_in_force_drops_nothing() {
    let mut teller = with(&[(22, 3), (26, 70)]);
    cycle(&mut teller, 3, MAIN);
    let before = [2_000_000, 4, 0];
    teller.done(&["begin 1", "write 1 22 w 1", "write 1 26 w 5"]);
    assert_eq!(outputs(&mut teller)[0], before);
    teller.done(&["abandon 1", "begin 1", "write 1 22 w 1", "write 1 26 w 5", "shut 1"]);
    teller.tell(&[("commit 1", "10")]);
    assert_eq!(outputs(&mut teller)[0], before);
    teller.done(&["open 1 0", "begin 1", "write 1 26 w 5", "write 1 7 w 700001"]);
    teller.tell(&[("commit 1", "12")]);
    assert_eq!(outputs(&mut teller)[0], before);
    teller.done(&["begin 1", "write 1 26 w 5"]);
    teller.tell(&[("read 1 22", "0 w 3")]);
    put(&mut teller, 2, &[(22, 3)]);
    teller.tell(&[("commit 1", "11")]);
    assert_eq!(outputs(&mut teller)[0], before);
}

/// "Differs from the old one": from what is in force just before the commit, not
/// when the session began or wrote.
#[test]
fn old_is_what_is_in_force_just_before() {
    let mut teller = with(&[(22, 3), (26, 70)]);
    cycle(&mut teller, 3, MAIN);
    teller.done(&["begin 1", "write 1 26 w 80"]);
    put(&mut teller, 2, &[(26, 80)]);
    assert_eq!(outputs(&mut teller)[0], [0, 4, 0]);
    cycle(&mut teller, 1, MAIN);
    teller.done(&["commit 1"]);
    assert_eq!(outputs(&mut teller)[0], [2_000_000, 5, 0]);
    // And the other way: as it stood when it was written, but not any more.
    teller.done(&["begin 1", "write 1 26 w 80"]);
    put(&mut teller, 2, &[(26, 90)]);
    cycle(&mut teller, 1, MAIN);
    assert_eq!(outputs(&mut teller)[0], [1_000_000, 6, 0]);
    teller.done(&["commit 1"]);
    assert_eq!(outputs(&mut teller)[0], [0, 6, 0]);
}

/// The settings in force at the cycle count; staged ones do not.
#[test]
fn staged_settings_do_not_count() {
    let mut teller = with(&[(22, 3), (26, 70)]);
    teller.done(&["begin 1", "write 1 22 w 2", "write 1 26 w 1", "write 1 23 w 3"]);
    cycle(&mut teller, 3, MAIN);
    assert_eq!(outputs(&mut teller)[..2], [[2_000_000, 4, 0], [0; 3]]);
    teller.done(&["commit 1"]);
    cycle(&mut teller, 3, MAIN);
    assert_eq!(outputs(&mut teller)[..2], [[0, 4, 0], [0, 3, 0]]);
}

/// An output that is off keeps what waits and what was lost, gains nothing and
/// is taken from by ticks; switched on again it goes on from there.
#[test]
fn switched_off_and_on_again() {
    let mut teller = with(&[(1, 4), (25, 3), (29, 1)]);
    cycle(&mut teller, 1, MAIN);
    put(&mut teller, 1, &[(1, 1), (25, 0)]);
    cycle(&mut teller, 600, MAIN);
    assert_eq!(outputs(&mut teller)[3], [0, 65_535, 34_465]);
    teller.tell(&[("tick 600", "0 0 0 0 600"), ("log 0", "0 1 0 54")]);
    put(&mut teller, 1, &[(25, 2), (29, 30)]);
    cycle(&mut teller, 1, DISTURBED);
    // 100 litres are three times 30, and ten.
    assert_eq!(outputs(&mut teller)[3], [1_000_000, 64_938, 34_465]);
}

#[test]
fn a_refused_cycle_brings_nothing() {
    let mut teller = with(&[(22, 3), (26, 70)]);
    teller.done(&["cycle 100 3 5120 101325 -"]);
    teller.tell(&[
        ("cycle 99 3 5120 101325 -", "5"),
        ("cycle 3155760000 3 5120 101325 -", "6"),
        ("cycle 100 601 5120 101325 -", "7"),
        ("outputs", "0 2000000 4 0 0 0 0 0 0 0 0 0 0"),
    ]);
}

#[test]
fn a_start_empties_the_outputs() {
    for start in ["start 50 5 6", "start 3155760000 5 6"] {
        let mut teller = with(&[(1, 4), (22, 3), (26, 3)]);
        cycle(&mut teller, 2, MAIN);
        assert_eq!(outputs(&mut teller)[0], [200_000, 65_535, 1_131]);
        teller.say(start);
        assert_eq!(outputs(&mut teller), [[0; 3]; 4]);
        teller.tell(&[("tick 600", "0 0 0 0 0"), ("begin 1", "0")]);
        teller.tell(&[("read 1 22", "0 w 0"), ("read 1 26", "0 w 100")]);
    }
}

/// The lines of an overflow go into the logbook like all others: the oldest of
/// 250 gives way.
#[test]
fn overflows_fill_the_logbook() {
    let mut teller = with(&[(1, 4), (22, 3), (23, 6), (26, 1), (27, 1)]);
    for time in 1..=200 {
        teller.done(&[&format!("cycle {time} 1 5120 101325 -")]);
    }
    // Two a cycle after that of lock 1: the newest is number 400.
    teller.tell(&[
        ("log 0", "0 400 200 52"),
        ("log 1", "0 399 200 51"),
        ("log 249", "0 151 76 51"),
        ("log 250", "13"),
    ]);
}

/// Split counts agree: four pulses and six leave accounts and buffers as ten do.
#[test]
fn two_cycles_are_as_their_sum() {
    for choice in 1..=6 {
        let settings = [(22, choice), (26, 7), (23, choice), (27, 1), (24, choice), (28, 250)];
        for readings in ["7680 202650 -", "7680 - -"] {
            let mut whole = with(&settings);
            let mut split = with(&settings);
            cycle(&mut whole, 10, readings);
            cycle(&mut split, 4, readings);
            cycle(&mut split, 6, readings);
            assert_eq!(outputs(&mut whole), outputs(&mut split));
            assert_eq!(whole.say("log 0"), split.say("log 0"));
        }
    }
}
