//! Document 02, Req 08: TARGET days and the number of days between two dates, computed another way than the library does: days are counted one
//! by one from 1 January 2002, a Tuesday, and Easter is found by Gauss's rule with its two exceptions.

/// What a date is for a notice.
#[derive(Clone, Copy, Debug, PartialEq, Eq)]
pub enum Day {
    /// A TARGET day.
    Open,
    /// A day on which TARGET is closed.
    Closing,
    /// No date, or outside the years 2002 to 2099.
    None,
}

/// A date as year, month and day.
pub type Date = (u64, u64, u64);

fn length(year: u64, month: u64) -> u64 {
    match month {
        2 if year % 4 == 0 && (year % 100 != 0 || year % 400 == 0) => 29,
        2 => 28,
        4 | 6 | 9 | 11 => 30,
        _ => 31,
    }
}

fn served((year, month, day): Date) -> bool {
    (2002..=2099).contains(&year) && (1..=12).contains(&month) && day >= 1 && day <= length(year, month)
}

fn next((year, month, day): Date) -> Date {
    if day < length(year, month) {
        (year, month, day + 1)
    } else if month < 12 {
        (year, month + 1, 1)
    } else {
        (year + 1, 1, 1)
    }
}

/// How many days a served date comes after 1 January 2002.
fn count(date: Date) -> i64 {
    let mut days = 0;
    for year in 2002..date.0 {
        days += (1..=12).map(|month| length(year, month)).sum::<u64>();
    }
    days += (1..date.1).map(|month| length(date.0, month)).sum::<u64>();
    (days + date.2 - 1) as i64
}

/// Easter Sunday by Gauss's rule for 1900 to 2099, with the exceptions of 25 and 26 April.
fn easter(year: u64) -> Date {
    let (a, b, c) = (year % 19, year % 4, year % 7);
    let d = (19 * a + 24) % 30;
    let e = (2 * b + 4 * c + 6 * d + 5) % 7;
    match 22 + d + e {
        57 => (year, 4, 19),
        56 if d == 28 && a > 10 => (year, 4, 18),
        day if day > 31 => (year, 4, day - 31),
        day => (year, 3, day),
    }
}

/// What a date is.
pub fn day(date: Date) -> Day {
    if !served(date) {
        return Day::None;
    }
    // 1 January 2002 was a Tuesday: 0 is Monday here.
    let weekday = (count(date) + 1) % 7;
    let from_easter = count(date) - count(easter(date.0));
    let fixed = matches!((date.1, date.2), (1, 1) | (5, 1) | (12, 25) | (12, 26));
    if weekday >= 5 || fixed || from_easter == -2 || from_easter == 1 { Day::Closing } else { Day::Open }
}

/// The first TARGET day on or after a date, or code 27.
pub fn first_target_day(date: Date) -> (u64, Date) {
    if !served(date) {
        return (27, (0, 0, 0));
    }
    let mut at = date;
    while day(at) == Day::Closing {
        at = next(at);
    }
    (0, at)
}

/// The number of days from one date to another, or code 27.
pub fn days_between(from: Date, to: Date) -> (u64, i64) {
    if served(from) && served(to) { (0, count(to) - count(from)) } else { (27, 0) }
}

#[cfg(test)]
mod tests {
    use super::*;

    /// Known dates of Easter Sunday, written from memory: no almanac was at hand to compare them with.
    #[test]
    fn easters() {
        let known = [
            (2002, 3, 31),
            (2003, 4, 20),
            (2004, 4, 11),
            (2005, 3, 27),
            (2006, 4, 16),
            (2007, 4, 8),
            (2008, 3, 23),
            (2009, 4, 12),
            (2010, 4, 4),
            (2011, 4, 24),
            (2012, 4, 8),
            (2013, 3, 31),
            (2014, 4, 20),
            (2015, 4, 5),
            (2016, 3, 27),
            (2017, 4, 16),
            (2018, 4, 1),
            (2019, 4, 21),
            (2020, 4, 12),
            (2021, 4, 4),
            (2022, 4, 17),
            (2023, 4, 9),
            (2024, 3, 31),
            (2025, 4, 20),
            (2026, 4, 5),
            (2027, 3, 28),
            (2028, 4, 16),
            (2029, 4, 1),
            (2030, 4, 21),
            (2038, 4, 25),
            (2049, 4, 18),
            (2076, 4, 19),
        ];
        for date in known {
            assert_eq!(easter(date.0), date);
            assert_eq!((count(date) + 1) % 7, 6);
        }
    }

    #[test]
    fn open_days() {
        let mut at = (2002, 1, 1);
        let (mut all, mut open) = (0, 0);
        while served(at) {
            all += 1;
            open += u64::from(day(at) == Day::Open);
            at = next(at);
        }
        assert_eq!((all, open), (35_794, 25_092));
    }
}
