//! One pulse output, by request Three of document 02.
//!
//! What a counter gains in a cycle goes to the account of each output that
//! follows it. Whole weights in the account become pulses due. These wait in a
//! buffer until a tick takes them; what finds no room there is lost and
//! counted.

use crate::device::UNITS_A_LITRE;

/// How many outputs there are.
pub const OUTPUTS: usize = 4;
/// The most pulses that wait at an output.
pub const BUFFER: u64 = 65_535;
/// Rollover of a lost counter.
pub const LOST_MODULUS: u64 = 1 << 32;
/// The most pulses that a tick may name.
pub const TICK_LIMIT: u64 = 600;

/// The choices are 0 for off, then Vm, VmD, VmT, Vb, VbD, VbT.
pub const CHOICES: usize = 7;
/// The choice of an output that follows nothing.
pub const OFF: usize = 0;

/// How many units of its counter a litre is, by choice. Nothing is counted
/// where the choice is off, in whatever unit.
const UNITS: [u64; CHOICES] = [1, 1, 1, 1, UNITS_A_LITRE, UNITS_A_LITRE, UNITS_A_LITRE];

/// A weight is given in litres. This is what an account is compared with: the
/// weight in the unit of the counter that the output follows.
pub fn weight_in_unit(choice: usize, litres: u64) -> u64 {
    litres * UNITS[choice]
}

/// What each counter gains in one cycle, before any rollover, by choice.
#[derive(Clone, Copy, Debug, PartialEq, Eq)]
pub struct Gains([u64; CHOICES]);

impl Gains {
    /// All of a cycle goes to main or to disturbed, and to the totals always.
    pub fn of_cycle(litres: u64, amount: u64, disturbed: bool) -> Gains {
        let (vm, vm_disturbed) = if disturbed { (0, litres) } else { (litres, 0) };
        let (vb, vb_disturbed) = if disturbed { (0, amount) } else { (amount, 0) };
        Gains([0, vm, vm_disturbed, litres, vb, vb_disturbed, amount])
    }

    pub fn of_choice(&self, choice: usize) -> u64 {
        self.0[choice]
    }
}

#[derive(Clone, Copy, Debug, Default, PartialEq, Eq)]
pub struct Output {
    /// What is too little for a pulse, in the unit of the counter followed.
    pub account: u64,
    /// Pulses that were due and not yet taken.
    pub waiting: u64,
    /// Pulses that found no room, modulo 2^32.
    pub lost: u64,
}

impl Output {
    /// Takes a gain into the account and puts the pulses due into the buffer.
    /// Gives how many of them found no room. The weight is in the unit of the
    /// gain.
    #[must_use]
    pub fn gain(&mut self, gain: u64, weight: u64) -> u64 {
        // An account is below 10^11 and a gain below 10^17.
        let sum = self.account + gain;
        self.account = sum % weight;
        let due = sum / weight;
        let room = BUFFER - self.waiting;
        let excess = due.saturating_sub(room);
        self.waiting += due - excess;
        self.lost = (self.lost + excess) % LOST_MODULUS;
        excess
    }

    /// Takes pulses from the buffer: as many as are named, or all that wait.
    #[must_use]
    pub fn emit(&mut self, named: u64) -> u64 {
        let emitted = named.min(self.waiting);
        self.waiting -= emitted;
        emitted
    }

    /// The clause of rule 1 for one output, with its choice and its weight in
    /// litres, which must be in range.
    pub fn is_whole(&self, choice: usize, litres: u64) -> bool {
        // An empty account is right at any choice and weight, and most are.
        let account_fits =
            self.account == 0 || choice != OFF && self.account < weight_in_unit(choice, litres);
        account_fits && self.waiting <= BUFFER && self.lost < LOST_MODULUS
    }

    pub fn report(&self, choice: usize) -> OutputReport {
        OutputReport {
            account: self.account * (UNITS_A_LITRE / UNITS[choice]),
            waiting: self.waiting,
            lost: self.lost,
        }
    }
}

/// An output as it is reported. The account is in hundred-thousandths of a
/// litre whatever the output follows, so that one unit serves every reader.
#[derive(Clone, Copy, Debug, PartialEq, Eq)]
pub struct OutputReport {
    pub account: u64,
    pub waiting: u64,
    pub lost: u64,
}

#[cfg(test)]
mod tests {
    use super::*;
    use crate::command::{obey, Command, Done};
    use crate::device::{Device, VB_MODULUS, VM_MODULUS};
    use crate::generate::{random_script, Rng};
    use crate::lines::{read_line, Line};

    fn output(account: u64, waiting: u64, lost: u64) -> Output {
        Output { account, waiting, lost }
    }

    /// Before, gain and weight; after, and how many were lost in the cycle.
    #[test]
    fn gains_by_hand() {
        for (before, gain, weight, after, excess) in [
            // Nothing gained, one short, exactly one weight, one more.
            (output(0, 0, 0), 0, 100, output(0, 0, 0), 0),
            (output(0, 0, 0), 99, 100, output(99, 0, 0), 0),
            (output(0, 0, 0), 100, 100, output(0, 1, 0), 0),
            (output(0, 0, 0), 101, 100, output(1, 1, 0), 0),
            // With something in the account.
            (output(99, 7, 3), 0, 100, output(99, 7, 3), 0),
            (output(99, 7, 3), 1, 100, output(0, 8, 3), 0),
            (output(40, 7, 3), 59, 100, output(99, 7, 3), 0),
            (output(40, 7, 3), 60, 100, output(0, 8, 3), 0),
            (output(40, 7, 3), 161, 100, output(1, 9, 3), 0),
            // Many at once.
            (output(99, 0, 0), 60_000, 7, output(4, 8_585, 0), 0),
            // 65,535 wait and none is lost; then one is.
            (output(0, 65_534, 0), 100, 100, output(0, 65_535, 0), 0),
            (output(0, 65_535, 0), 99, 100, output(99, 65_535, 0), 0),
            (output(0, 65_535, 0), 100, 100, output(0, 65_535, 1), 1),
            (output(0, 65_534, 0), 200, 100, output(0, 65_535, 1), 1),
            (output(0, 0, 0), 65_535, 1, output(0, 65_535, 0), 0),
            (output(0, 0, 0), 65_536, 1, output(0, 65_535, 1), 1),
            // The lost counter rolls over at 4,294,967,296.
            (output(0, 65_535, 4_294_967_295), 1, 1, output(0, 65_535, 0), 1),
            (output(0, 65_535, 4_294_967_295), 2, 1, output(0, 65_535, 1), 2),
            (output(0, 65_535, 4_294_967_294), 1, 1, output(0, 65_535, 4_294_967_295), 1),
            // 2^32 at once: the lost counter comes round to where it stood. Its
            // lower 32 bits alone would find room, and would lose nothing.
            (output(0, 65_535, 7), 1 << 32, 1, output(0, 65_535, 7), 1 << 32),
            (output(0, 65_000, 7), 1 << 32, 1, output(0, 65_535, 4_294_966_768), 4_294_966_761),
            // The largest Vb amount there is, 60,000,000 litres at a factor of
            // 38,264,831, at one litre a pulse: 22,958,898,600 pulses. 65,535
            // find room; the others are 5 x 2^32 and 1,483,996,585 more.
            (
                output(0, 0, 0),
                2_295_889_860_000_000,
                100_000,
                output(0, 65_535, 1_483_996_585),
                22_958_833_065,
            ),
        ] {
            let mut tried = before;
            assert_eq!(tried.gain(gain, weight), excess, "{before:?} {gain} {weight}");
            assert_eq!(tried, after, "{before:?} {gain} {weight}");
        }
    }

    #[test]
    fn ticks_by_hand() {
        for (waiting, named, left, emitted) in [
            (0, 0, 0, 0),
            (0, 600, 0, 0),
            (5, 0, 5, 0),
            (5, 4, 1, 4),
            (5, 5, 0, 5),
            (5, 6, 0, 5),
            (65_535, 600, 64_935, 600),
        ] {
            let mut tried = output(9, waiting, 8);
            assert_eq!(tried.emit(named), emitted, "{waiting} {named}");
            assert_eq!(tried, output(9, left, 8), "{waiting} {named}");
        }
    }

    #[test]
    fn gains_by_choice() {
        let gains = |disturbed| {
            let gains = Gains::of_cycle(300, 28_438_200, disturbed);
            [0, 1, 2, 3, 4, 5, 6].map(|choice| gains.of_choice(choice))
        };
        assert_eq!(gains(false), [0, 300, 0, 300, 28_438_200, 0, 28_438_200]);
        assert_eq!(gains(true), [0, 0, 300, 300, 0, 28_438_200, 28_438_200]);
    }

    /// An account is below its weight in its own unit, and 0 if off.
    #[test]
    fn whole_by_hand() {
        for choice in 0..=6 {
            let most = match choice {
                0 => 0,
                1..=3 => 69,
                _ => 6_999_999,
            };
            for account in [0, most] {
                assert!(output(account, 65_535, 4_294_967_295).is_whole(choice, 70));
                assert!(!output(account, 65_536, 0).is_whole(choice, 70));
                assert!(!output(account, 0, 4_294_967_296).is_whole(choice, 70));
            }
            assert!(!output(most + 1, 0, 0).is_whole(choice, 70));
        }
    }

    /// What one output should have come to, told by the history alone: what
    /// was gained since the account last stood at 0, and the weight since.
    #[derive(Clone, Copy, Default)]
    struct History {
        choice: usize,
        weight: u64,
        gained: u128,
        /// Pulses of the times before that.
        due_before: u128,
        emitted: u128,
    }

    impl History {
        fn due(&self) -> u128 {
            match self.weight {
                0 => self.due_before,
                weight => self.due_before + self.gained / u128::from(weight),
            }
        }

        /// What a new choice or weight leaves of it.
        fn turned_to(&self, choice: usize, weight: u64) -> History {
            if (choice, weight) == (self.choice, self.weight) {
                return *self;
            }
            History { choice, weight, gained: 0, due_before: self.due(), emitted: self.emitted }
        }
    }

    /// The promise over runs: pulses due are those emitted, waiting and lost,
    /// modulo 2^32. The gains are read off the counters, the pulses off the
    /// whole sum of a time with one choice and one weight, not cycle by cycle.
    #[test]
    fn due_is_emitted_and_waiting_and_lost() {
        let mut rng = Rng::new(31);
        let mut most = 0;
        for _ in 0..150 {
            let mut device = Device::new();
            let mut histories = [History::default(); OUTPUTS];
            for line in random_script(&mut rng).lines {
                let Line::Command(command) = read_line(&line) else { continue };
                let before = (device.counters, device.totals);
                let answer = obey(&mut device, &command);
                match (&command, answer) {
                    (Command::Start { .. }, _) => histories = [History::default(); OUTPUTS],
                    (Command::Cycle(_), Ok(_)) => {
                        let (counters, totals) = before;
                        let now = (&device.counters, &device.totals);
                        let vm = |new: u64, old: u64| (new + VM_MODULUS - old) % VM_MODULUS;
                        let vb = |new: u64, old: u64| (new + VB_MODULUS - old) % VB_MODULUS;
                        let gains = [
                            0,
                            vm(now.0.vm, counters.vm),
                            vm(now.0.vm_disturbed, counters.vm_disturbed),
                            vm(now.1.vm, totals.vm),
                            vb(now.0.vb, counters.vb),
                            vb(now.0.vb_disturbed, counters.vb_disturbed),
                            vb(now.1.vb, totals.vb),
                        ];
                        for history in &mut histories {
                            history.gained += u128::from(gains[history.choice]);
                        }
                    }
                    (Command::Tick { .. }, Ok(Done::Emitted(emitted))) => {
                        for (history, emitted) in histories.iter_mut().zip(emitted) {
                            history.emitted += u128::from(emitted);
                        }
                    }
                    _ => {}
                }
                for (place, history) in histories.iter_mut().enumerate() {
                    *history = history.turned_to(device.choice(place), device.weight(place));
                    let output = device.outputs[place];
                    let kept = history.emitted + u128::from(output.waiting + output.lost);
                    let due = history.due();
                    assert_eq!(due % (1 << 32), kept % (1 << 32), "{command:?}, output {place}");
                    most = most.max(due);
                }
            }
        }
        // It would be a poor test of the rollover if no sum came so far.
        assert!(most > 1 << 33, "{most}");
    }
}
