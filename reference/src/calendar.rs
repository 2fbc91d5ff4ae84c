//! Months and days of the Gregorian calendar, worked out and not looked up,
//! and the hour at which a gas month begins.
//!
//! Document 01 takes the month of a time from a table of 1,201 day numbers.
//! Here the same months come from arithmetic, so that an error in the table
//! would show as a difference. The days are those of document 01; a time's
//! month is that of request Two of document 02.

pub const SECONDS_A_DAY: u64 = 86_400;

/// A gas month begins so many seconds after midnight of its first day: at
/// 06:00.
pub const SIX_O_CLOCK: u64 = 21_600;

/// Days from 1 March of the year 0 to 1 January 2000 in the Gregorian
/// calendar carried backwards: 2,000 years less the two months January and
/// February of 2000, which is five periods of 400 years less 60 days.
const MARCH_0_TO_2000: u32 = 5 * DAYS_IN_400_YEARS - 60;
const DAYS_IN_400_YEARS: u32 = 146_097;

/// The month (0 is January 2000) in which a day (0 is 1 January 2000) lies.
///
/// Years are taken to begin in March: the leap day is then the last day of
/// its year, and the lengths of the months from March on follow the straight
/// line (153 m + 2) / 5 rounded down.
pub fn month_of_day(day: u32) -> u32 {
    let day = day + MARCH_0_TO_2000;
    let period = day / DAYS_IN_400_YEARS;
    let in_period = day % DAYS_IN_400_YEARS;
    // Leaving out the leap days that have passed makes every year 365 days:
    // one every 1,460 days, but not at each 36,524, and again at 146,096.
    let year_in_period =
        (in_period - in_period / 1_460 + in_period / 36_524 - in_period / 146_096) / 365;
    let in_year = in_period - (365 * year_in_period + year_in_period / 4 - year_in_period / 100);
    let march_year = 400 * period + year_in_period;
    let march_month = (5 * in_year + 2) / 153;
    // March of year y is month 2 of that year counted from January.
    12 * march_year + march_month + 2 - 12 * 2_000
}

/// The month to which a time belongs: the one that holds the time less six
/// hours. The time must be within the century of document 01, so that its day
/// number is small.
pub fn month_of_time(time: u64) -> u32 {
    // A time below six hours has no month before it and stays in month 0.
    let time = time.saturating_sub(SIX_O_CLOCK);
    month_of_day((time / SECONDS_A_DAY) as u32)
}

/// The first day of a month, both numbered from January 2000.
pub fn first_day(month: u32) -> u32 {
    // Counted from March of the year 0, as above.
    let months = month + 12 * 2_000 - 2;
    let (year, in_year) = (months / 12, months % 12);
    let days = 365 * year + year / 4 - year / 100 + year / 400 + (153 * in_year + 2) / 5;
    days - MARCH_0_TO_2000
}

/// Midnight of a month's first day. The month before lasts six hours more.
pub fn first_midnight(month: u32) -> u64 {
    u64::from(first_day(month)) * SECONDS_A_DAY
}

/// The first second of a month: 06:00 of its first day, but time 0 for month 0,
/// which has the six hours before that too.
pub fn first_second(month: u32) -> u64 {
    if month == 0 {
        0
    } else {
        first_midnight(month) + SIX_O_CLOCK
    }
}

#[cfg(test)]
mod tests {
    use super::*;

    /// The rule as everybody knows it, walked month by month.
    fn days_in(year: u32, month: u32) -> u32 {
        let by = |years: u32| year.is_multiple_of(years);
        let leap = by(4) && !by(100) || by(400);
        match month {
            1 => 28 + u32::from(leap),
            3 | 5 | 8 | 10 => 30,
            _ => 31,
        }
    }

    #[test]
    fn every_day_of_the_century_and_beyond() {
        let mut day = 0;
        for month in 0..6_000 {
            assert_eq!(first_day(month), day, "month {month}");
            for _ in 0..days_in(2000 + month / 12, month % 12) {
                assert_eq!(month_of_day(day), month, "day {day}");
                day += 1;
            }
        }
    }

    /// When every month begins. The figures are walked: days, and hours of
    /// 3,600 seconds.
    #[test]
    fn every_month_of_the_century_begins_at_six() {
        let mut midnight = 0;
        for month in 0..1_200 {
            // The first month of all begins with the clock.
            let first = if month == 0 { 0 } else { midnight + 6 * 3_600 };
            assert_eq!(first_midnight(month), midnight, "month {month}");
            assert_eq!(first_second(month), first, "month {month}");
            midnight += 86_400 * u64::from(days_in(2000 + month / 12, month % 12));
        }
        assert_eq!(midnight, 3_155_760_000);
    }

    /// Every hour of every day, at its first two seconds and its last. Before
    /// six a day's month is that of the day before it.
    #[test]
    fn every_hour_of_the_century() {
        let mut hour = 0;
        let mut yesterday = 0;
        for month in 0..1_200 {
            for _ in 0..days_in(2000 + month / 12, month % 12) {
                for hour_of_day in 0..24 {
                    let expected = if hour_of_day < 6 { yesterday } else { month };
                    let first = hour * 3_600;
                    for time in [first, first + 1, first + 3_599] {
                        assert_eq!(month_of_time(time), expected, "time {time}");
                    }
                    hour += 1;
                }
                yesterday = month;
            }
        }
        assert_eq!(hour, 36_525 * 24);
    }

    #[test]
    fn the_ends_named_in_the_papers() {
        assert_eq!(first_day(0), 0);
        assert_eq!(first_day(1_200), 36_525);
        assert_eq!(first_midnight(1_200), 3_155_760_000);
        assert_eq!(first_second(0), 0);
        assert_eq!(first_second(1), 2_700_000);
        for (time, month) in [
            (21_599, 0),
            (21_600, 0),
            // H8: 31 days and six hours.
            (2_699_999, 0),
            (2_700_000, 1),
            (3_155_759_999, 1_199),
        ] {
            assert_eq!(month_of_time(time), month, "time {time}");
        }
    }
}
