//! The settings page, docs/SETTINGS.md, as rows.
//!
//! The page has one row for each setting, as the fitter's card has it: number,
//! name, unit, kind and range, factory value, lock. The device, the generator,
//! the counts of what was reached and the tests all read these rows, so that
//! each figure stands in one place.

use std::fmt;
use std::sync::LazyLock;

use crate::device::Value;

/// How many locks there are. Their numbers begin at 1.
pub const LOCKS: usize = 3;
/// How many sets of open locks there are. Bit l - 1 of a set is lock l.
pub const LOCK_SETS: usize = 1 << LOCKS;

/// The page of this repository.
pub static PAGE: LazyLock<Table> =
    LazyLock::new(|| Table::read_or_panic(include_str!("../../docs/SETTINGS.md")));

#[derive(Clone, Debug, PartialEq)]
pub struct Table {
    /// In the order of their numbers; setting s is row s - 1.
    pub settings: Vec<Setting>,
    pub locks: Vec<Lock>,
    pub pairs: Vec<Pair>,
}

/// One row of the card.
#[derive(Clone, Copy, Debug, PartialEq)]
pub struct Setting {
    pub number: usize,
    pub name: &'static str,
    pub unit: &'static str,
    pub range: Range,
    pub factory: Value,
    pub lock: Lock,
}

/// The kind of a setting and what it may hold.
#[derive(Clone, Copy, Debug, PartialEq, Eq)]
pub enum Range {
    /// A whole number, ends included.
    Whole { low: i64, high: i64 },
    /// Any coefficient that is finite.
    Finite,
}

/// One row of the rule of rights.
#[derive(Clone, Copy, Debug, PartialEq, Eq)]
pub struct Lock {
    pub name: &'static str,
    /// The locks of which any one gives the right.
    pub any_of: u8,
}

/// Two settings that are always in order, as rows.
#[derive(Clone, Copy, Debug, PartialEq, Eq)]
pub struct Pair {
    pub lower: usize,
    pub upper: usize,
}

/// What is wrong with a page, and on which line; the first is 1.
#[derive(Clone, Debug, PartialEq, Eq)]
pub struct Fault {
    pub line: usize,
    pub what: String,
}

impl fmt::Display for Fault {
    fn fmt(&self, f: &mut fmt::Formatter) -> fmt::Result {
        write!(f, "line {}: {}", self.line, self.what)
    }
}

impl Setting {
    /// The ends of a whole number's range.
    pub fn ends(&self) -> (i64, i64) {
        match self.range {
            Range::Whole { low, high } => (low, high),
            Range::Finite => panic!("setting {} is a coefficient", self.number),
        }
    }
}

impl Lock {
    pub fn gives_right(&self, open: u8) -> bool {
        self.any_of & open != 0
    }
}

impl Table {
    /// Nothing can be done with a page that is malformed.
    fn read_or_panic(text: &'static str) -> Table {
        Table::read(text).unwrap_or_else(|fault| panic!("docs/SETTINGS.md, {fault}"))
    }

    pub fn read(text: &'static str) -> Result<Table, Fault> {
        let rows = rows_of(text)?;
        let of = |kind: Kind| rows.iter().filter(move |row| row.kind == kind);
        let mut table = Table { settings: Vec::new(), locks: Vec::new(), pairs: Vec::new() };
        // A setting names its lock and a pair its settings, wherever on the
        // page they stand.
        for row in of(Kind::Lock) {
            table.read_lock(row)?;
        }
        for row in of(Kind::Setting) {
            table.read_settings(row)?;
        }
        for row in of(Kind::Pair) {
            table.read_pair(row)?;
        }
        Ok(table)
    }

    pub fn lock(&self, name: &str) -> Option<&Lock> {
        self.locks.iter().find(|lock| lock.name == name)
    }

    fn row(&self, name: &str) -> Option<usize> {
        self.settings.iter().position(|setting| setting.name == name)
    }

    fn read_lock(&mut self, row: &Row) -> Result<(), Fault> {
        let [name, numbers] = row.cells[..] else { return row.fault("not two cells") };
        if name.is_empty() || self.lock(name).is_some() {
            return row.fault(format!("lock {name:?} has no name of its own"));
        }
        let Some(any_of) = lock_set(numbers) else {
            return row.fault(format!("{numbers:?} are not locks in rising order"));
        };
        self.locks.push(Lock { name, any_of });
        Ok(())
    }

    /// A row of several settings becomes as many rows.
    fn read_settings(&mut self, row: &Row) -> Result<(), Fault> {
        let [numbers, names, range, factory, lock] = row.cells[..] else {
            return row.fault("not five cells");
        };
        let numbers: Vec<&str> = numbers.split(", ").collect();
        let Some((names, unit)) = names_and_unit(names, numbers.len()) else {
            return row.fault(format!("{names:?} are not {} names", numbers.len()));
        };
        let Some(range) = read_range(range) else {
            return row.fault(format!("{range:?} is no range"));
        };
        // A number with commas has no space after them.
        let separator = if factory.contains("; ") { "; " } else { ", " };
        let values: Vec<&str> = factory.split(separator).collect();
        if values.len() != numbers.len() {
            return row.fault(format!("{factory:?} are not {} values", numbers.len()));
        }
        let Some(&lock) = self.lock(lock) else {
            return row.fault(format!("{lock:?} is no lock"));
        };
        for ((text, name), value) in numbers.into_iter().zip(names).zip(values) {
            let number = self.settings.len() + 1;
            if text != number.to_string() {
                return row.fault(format!("number {text:?} where {number} is due"));
            }
            if self.row(name).is_some() {
                return row.fault(format!("{name:?} is the name of two settings"));
            }
            let Some(factory) = read_value(value, range) else {
                return row.fault(format!("factory value {value:?} is not in the range"));
            };
            self.settings.push(Setting { number, name, unit, range, factory, lock });
        }
        Ok(())
    }

    fn read_pair(&mut self, row: &Row) -> Result<(), Fault> {
        let [lower, upper] = row.cells[..] else { return row.fault("not two cells") };
        let (Some(lower), Some(upper)) = (self.row(lower), self.row(upper)) else {
            return row.fault(format!("{lower:?} and {upper:?} are not two settings"));
        };
        let factory = |row: usize| self.settings[row].factory;
        match (factory(lower), factory(upper)) {
            (Value::Whole(low), Value::Whole(high)) if low <= high => {
                self.pairs.push(Pair { lower, upper });
                Ok(())
            }
            _ => row.fault("not two whole numbers with factory values in order"),
        }
    }
}

/// What a row of the page is about, told by the heading above it.
#[derive(Clone, Copy, PartialEq, Eq)]
enum Kind {
    Setting,
    Lock,
    Pair,
    /// Names for the printed card. No answer depends on them.
    Card,
}

const HEADINGS: [(Kind, &[&str]); 5] = [
    (Kind::Setting, &["No.", "Setting", "Range", "Factory", "Lock"]),
    (Kind::Lock, &["Lock", "Any one of these open gives the right"]),
    (Kind::Pair, &["Lower", "Upper"]),
    (Kind::Card, &["No.", "Name", "Lock"]),
    (Kind::Card, &["Setting", "Its numbers"]),
];

/// A row of one of the page's tables, cut into its cells.
struct Row {
    line: usize,
    kind: Kind,
    cells: Vec<&'static str>,
}

impl Row {
    fn fault<T>(&self, what: impl Into<String>) -> Result<T, Fault> {
        fault(self.line, what)
    }
}

fn fault<T>(line: usize, what: impl Into<String>) -> Result<T, Fault> {
    Err(Fault { line, what: what.into() })
}

/// Where the reader of lines stands. Under a heading it knows its width.
enum Place {
    Text,
    Heading(Kind, usize),
    Body(Kind),
}

/// The rows of all tables. Each table has a heading, then a line of dashes.
/// Between the tables is text, which has no bar in it: a row with one bar too
/// few must not pass for text.
fn rows_of(text: &'static str) -> Result<Vec<Row>, Fault> {
    let mut rows = Vec::new();
    let mut place = Place::Text;
    for (line, text) in (1..).zip(text.lines().chain([""])) {
        if !text.contains('|') {
            if let Place::Heading(..) = place {
                return fault(line, "no line of dashes under a heading");
            }
            place = Place::Text;
            continue;
        }
        let Some(cells) = cells_of(text) else {
            return fault(line, "a bar is missing at an end");
        };
        place = match place {
            Place::Text => match HEADINGS.iter().find(|(_, heading)| cells == *heading) {
                Some((kind, heading)) => Place::Heading(*kind, heading.len()),
                None => return fault(line, "not the heading of a table that is known"),
            },
            Place::Heading(kind, width) if cells == vec!["---"; width] => Place::Body(kind),
            Place::Heading(..) => return fault(line, "no line of dashes under a heading"),
            Place::Body(kind) => {
                rows.push(Row { line, kind, cells });
                Place::Body(kind)
            }
        };
    }
    Ok(rows)
}

fn cells_of(line: &'static str) -> Option<Vec<&'static str>> {
    let inner = line.strip_prefix('|')?.strip_suffix('|')?;
    Some(inner.split('|').map(str::trim).collect())
}

/// So many names from the front of a cell. What is left is the unit.
fn names_and_unit(cell: &'static str, count: usize) -> Option<(Vec<&'static str>, &'static str)> {
    let mut names = Vec::new();
    let mut rest = cell;
    for _ in 0..count {
        let end = rest.find(", ").into_iter().chain(rest.find("; ")).min();
        let (name, left) = end.map_or((rest, ""), |end| (&rest[..end], &rest[end + 2..]));
        if name.is_empty() {
            return None;
        }
        names.push(name);
        rest = left;
    }
    Some((names, rest))
}

fn read_range(cell: &str) -> Option<Range> {
    if cell == "any finite float" {
        return Some(Range::Finite);
    }
    let (low, high) = cell.split_once("..")?;
    let (low, high) = (whole_number(low)?, whole_number(high)?);
    // There is a number beyond each end, for whoever tries it.
    let good = i64::MIN < low && low <= high && high < i64::MAX;
    good.then_some(Range::Whole { low, high })
}

fn read_value(text: &str, range: Range) -> Option<Value> {
    match range {
        Range::Whole { low, high } => {
            let value = whole_number(text)?;
            (low..=high).contains(&value).then_some(Value::Whole(value))
        }
        Range::Finite => {
            let value: f64 = text.parse().ok()?;
            value.is_finite().then_some(Value::Coefficient(value))
        }
    }
}

/// A whole number as the documents write it, with a comma before every three
/// digits.
fn whole_number(text: &str) -> Option<i64> {
    let mut groups = text.strip_prefix('-').unwrap_or(text).split(',');
    let digits = |group: &str| group.bytes().all(|byte| byte.is_ascii_digit());
    let first = groups.next()?;
    let good = (1..=3).contains(&first.len())
        && digits(first)
        && groups.all(|group| group.len() == 3 && digits(group));
    if !good {
        return None;
    }
    text.replace(',', "").parse().ok()
}

/// Locks by number, each once and in rising order.
fn lock_set(cell: &str) -> Option<u8> {
    let mut set = 0;
    for word in cell.split(", ") {
        let lock = (1..=LOCKS).find(|lock| word == lock.to_string())?;
        let bit = 1 << (lock - 1);
        if set >= bit {
            return None;
        }
        set |= bit;
    }
    Some(set)
}

#[cfg(test)]
mod tests {
    use super::*;

    const PAGE_OF_A_PUMP: &str = "\
# A pump

Text, with commas; and dots.

| No. | Setting | Range | Factory | Lock |
|---|---|---|---|---|
| 1 | speed s; one step is 7^s turns | 2..9 | 3 | red |
| 2, 3 | low, high, 0.1 m³ | -1,234..5,678,901 | -1,000; 20 | blue |
| 4, 5 | A.x, A.y | any finite float | -0.5; 12 | red |

More text.

| No. | Setting | Range | Factory | Lock |
|---|---|---|---|---|
| 6, 7, 8 | tap 1, tap 2, tap 3 | 0..1 | 1, 0, 1 | blue |
| 9 | owner's mark | 5..5 | 5 | blue |

| Lock | Any one of these open gives the right |
|---|---|
| red | 2 |
| blue | 1, 3 |

| Lower | Upper |
|---|---|
| low | high |
";

    const RED: Lock = Lock { name: "red", any_of: 0b010 };
    const BLUE: Lock = Lock { name: "blue", any_of: 0b101 };

    fn whole(
        number: usize,
        (name, unit): (&'static str, &'static str),
        (low, high): (i64, i64),
        factory: i64,
        lock: Lock,
    ) -> Setting {
        let range = Range::Whole { low, high };
        Setting { number, name, unit, range, factory: Value::Whole(factory), lock }
    }

    fn coefficient(number: usize, name: &'static str, factory: f64) -> Setting {
        let factory = Value::Coefficient(factory);
        Setting { number, name, unit: "", range: Range::Finite, factory, lock: RED }
    }

    #[test]
    fn every_row_is_read_and_split() {
        let table = Table::read(PAGE_OF_A_PUMP).unwrap();
        let settings = [
            whole(1, ("speed s", "one step is 7^s turns"), (2, 9), 3, RED),
            whole(2, ("low", "0.1 m³"), (-1_234, 5_678_901), -1_000, BLUE),
            whole(3, ("high", "0.1 m³"), (-1_234, 5_678_901), 20, BLUE),
            coefficient(4, "A.x", -0.5),
            coefficient(5, "A.y", 12.0),
            whole(6, ("tap 1", ""), (0, 1), 1, BLUE),
            whole(7, ("tap 2", ""), (0, 1), 0, BLUE),
            whole(8, ("tap 3", ""), (0, 1), 1, BLUE),
            whole(9, ("owner's mark", ""), (5, 5), 5, BLUE),
        ];
        assert_eq!(table.settings, settings);
        assert_eq!(table.locks, [RED, BLUE]);
        assert_eq!(table.pairs, [Pair { lower: 1, upper: 2 }]);
        assert_eq!(table.settings[1].ends(), (-1_234, 5_678_901));
    }

    #[test]
    fn a_row_of_locks_gives_the_right() {
        for open in 0..LOCK_SETS as u8 {
            assert_eq!(RED.gives_right(open), [2, 3, 6, 7].contains(&open), "{open}");
            assert_eq!(BLUE.gives_right(open), ![0, 2].contains(&open), "{open}");
        }
    }

    #[test]
    fn text_alone_is_a_page_without_rows() {
        let empty = Table { settings: Vec::new(), locks: Vec::new(), pairs: Vec::new() };
        assert_eq!(Table::read(""), Ok(empty.clone()));
        assert_eq!(Table::read("A word.\n\nAnother."), Ok(empty));
    }

    /// The fault of the page above with one thing changed on it.
    fn fault_of(old: &str, new: &str) -> Fault {
        assert_eq!(PAGE_OF_A_PUMP.matches(old).count(), 1, "{old}");
        let page = PAGE_OF_A_PUMP.replace(old, new);
        match Table::read(page.leak()) {
            Ok(_) => panic!("{new:?} for {old:?} is taken"),
            Err(fault) => fault,
        }
    }

    /// Each with the line that is to blame. One thing is changed in turn.
    #[test]
    fn malformed_rows() {
        for (line, old, new) in [
            // Numbers: a gap, one twice, none, a spelling, the wrong separator.
            (7, "| 1 |", "| 2 |"),
            (8, "| 2, 3 |", "| 3, 4 |"),
            (8, "| 2, 3 |", "| 2, 2 |"),
            (8, "| 2, 3 |", "| 2,3 |"),
            (8, "| 2, 3 |", "| 2; 3 |"),
            (9, "| 4, 5 |", "| 4, 6 |"),
            (15, "| 6, 7, 8 |", "| 6, 7, 8, 9 |"),
            (16, "| 9 |", "| 09 |"),
            (16, "| 9 |", "| |"),
            (16, "| 9 |", "| nine |"),
            // Names: one missing, one twice, none.
            (15, "tap 1, tap 2, tap 3", "tap 1, tap 2"),
            (15, "tap 1, tap 2, tap 3", "tap 1, tap 2, tap 1"),
            (15, "tap 1, tap 2, tap 3", "tap 1, A.x, tap 3"),
            (16, "owner's mark", ""),
            // Ranges: the ends, their dots and their commas.
            (7, "2..9", "9..2"),
            (7, "2..9", "2.9"),
            (7, "2..9", "2..9..11"),
            (7, "2..9", "2.. 9"),
            (7, "2..9", "2.."),
            (7, "2..9", "..9"),
            (7, "2..9", "+2..9"),
            (7, "2..9", "any float"),
            (8, "-1,234..", "-1234.."),
            (8, "-1,234..", "-1,23.."),
            (8, "-1,234..", "--1,234.."),
            (8, "-1,234..", "-,234.."),
            (8, "5,678,901", "5,678901"),
            (8, "5,678,901", "5,678,9012"),
            (8, "5,678,901", "9,223,372,036,854,775,807"),
            (8, "5,678,901", "9,223,372,036,854,775,808"),
            (8, "-1,234..", "-9,223,372,036,854,775,808.."),
            // Factory values: outside, of the other kind, too few, too many.
            (7, "| 3 |", "| 1 |"),
            (7, "| 3 |", "| 10 |"),
            (7, "| 3 |", "| 3.0 |"),
            (7, "| 3 |", "| 3, 4 |"),
            (7, "| 3 |", "| 3; 4 |"),
            (8, "-1,000; 20", "-1,000"),
            (8, "-1,000; 20", "-1,000, 20; 30"),
            (8, "-1,000; 20", "-1,235; 20"),
            (9, "-0.5; 12", "-0.5; x"),
            (9, "-0.5; 12", "-0.5; inf"),
            (9, "-0.5; 12", "NaN; 12"),
            (9, "-0.5; 12", "1e999; 12"),
            (15, "1, 0, 1", "1, 0"),
            (15, "1, 0, 1", "1, 0, 2"),
            (16, "5..5", "6..6"),
            // Locks of the settings, and the rule of rights.
            (7, "3 | red", "3 | green"),
            (7, "3 | red", "3 |"),
            (20, "| red | 2 |", "| red | 0 |"),
            (20, "| red | 2 |", "| red | 4 |"),
            (20, "| red | 2 |", "| red | |"),
            (20, "| red | 2 |", "| red | 02 |"),
            (20, "| red | 2 |", "| red | 2 | 3 |"),
            (20, "| red | 2 |", "| | 2 |"),
            (21, "1, 3", "3, 1"),
            (21, "1, 3", "1, 1"),
            (21, "1, 3", "1 or 3"),
            (21, "| blue | 1", "| red | 1"),
            (7, "| red | 2 |", "| rot | 2 |"),
            // Pairs.
            (25, "| low | high |", "| low | higher |"),
            (25, "| low | high |", "| high | low |"),
            (25, "| low | high |", "| A.x | A.y |"),
            (25, "| low | high |", "| low |"),
            // Bars, headings and dashes.
            (16, "| 9 |", "9 |"),
            (16, "5 | blue |", "5 | blue"),
            (16, "| 9 |", "|"),
            (16, "| 9 |", "| 9 | |"),
            (18, "| Lock | Any one", "| Locks | Any one"),
            (23, "| Lower | Upper |", "| Lower | Middle | Upper |"),
            (24, "| Upper |\n|---|---|", "| Upper |\n|---|"),
            (24, "| Upper |\n|---|---|\n", "| Upper |\n"),
            (24, "| Upper |\n|---|---|\n| low | high |\n", "| Upper |\n"),
        ] {
            let fault = fault_of(old, new);
            assert_eq!(fault.line, line, "{new:?} for {old:?}: {fault}");
        }
    }

    #[test]
    #[should_panic(expected = "docs/SETTINGS.md, line 3: not the heading")]
    fn a_malformed_page_stops_everything() {
        Table::read_or_panic("A page\n\n| No. | Name |\n|---|---|\n");
    }

    /// What the page of this repository must have for any reader.
    #[test]
    fn the_page_itself() {
        assert_eq!(PAGE.settings.len(), crate::device::SETTINGS);
        for (place, setting) in PAGE.settings.iter().enumerate() {
            assert_eq!(setting.number, place + 1);
            assert!(PAGE.locks.contains(&setting.lock));
        }
    }
}
