//! Dates of notices, and TARGET days.

use crate::Refusal;
use crate::ffi;

/// A date, as three numbers of any size: the library judges them.
///
/// ```
/// use hondivole::{Date, Refusal};
///
/// let good_friday = Date { year: 2021, month: 4, day: 2 };
/// assert_eq!(good_friday.first_target_day(), Ok(Date { year: 2021, month: 4, day: 6 }));
/// assert_eq!(good_friday.days_to(Date { year: 2021, month: 3, day: 31 }), Ok(-2));
/// assert_eq!(Date { year: 2021, month: 2, day: 29 }.first_target_day(), Err(Refusal::NoDateServed));
/// ```
#[derive(Clone, Copy, Debug, PartialEq, Eq, Hash, PartialOrd, Ord)]
pub struct Date {
    /// The year; 2002 to 2099 are served.
    pub year: u64,
    /// The month, from 1.
    pub month: u64,
    /// The day of the month, from 1.
    pub day: u64,
}

impl Date {
    /// The first TARGET day on or after this date: at most four days later, and never outside the years served.
    ///
    /// # Errors
    ///
    /// [`Refusal::NoDateServed`], code 27, where this is no date of the years 2002 to 2099.
    pub fn first_target_day(self) -> Result<Date, Refusal> {
        let (mut year, mut month, mut day) = (0, 0, 0);
        // SAFETY: the pointers are those of three local numbers.
        let code = unsafe { ffi::hondivole_first_target_day(self.year, self.month, self.day, &mut year, &mut month, &mut day) };
        Refusal::answer(code, 0, 0)?;
        Ok(Date { year, month, day })
    }

    /// The number of days from this date to another, below zero where that is earlier.
    ///
    /// # Errors
    ///
    /// [`Refusal::NoDateServed`], code 27, where one of them is no date of the years 2002 to 2099.
    pub fn days_to(self, other: Date) -> Result<i64, Refusal> {
        let mut days = 0;
        // SAFETY: the pointer is that of a local number.
        let code =
            unsafe { ffi::hondivole_days_between(self.year, self.month, self.day, other.year, other.month, other.day, &mut days) };
        Refusal::answer(code, 0, 0)?;
        Ok(days)
    }
}
