//! Every date of 1999 to 2101, and what is none, given to the library and to the reference: the first TARGET day on or after it, and the
//! days from it to three others.
#![cfg(feature = "native")]

use hondivole::{Date, Refusal};
use reference::target;

fn told(date: target::Date) -> Date {
    Date { year: date.0, month: date.1, day: date.2 }
}

#[test]
fn all_dates() {
    let mut served = 0;
    for year in 1999..=2101 {
        for month in 0..=13 {
            for day in 0..=32 {
                let date = (year, month, day);
                let (code, first) = target::first_target_day(date);
                let expected = if code == 0 { Ok(told(first)) } else { Err(Refusal::NoDateServed) };
                assert_eq!(told(date).first_target_day(), expected, "{date:?}");
                served += u64::from(code == 0);
                for other in [(2002, 1, 1), (2099, 12, 31), (2001, 12, 31)] {
                    let (code, days) = target::days_between(date, other);
                    let expected = if code == 0 { Ok(days) } else { Err(Refusal::NoDateServed) };
                    assert_eq!(told(date).days_to(told(other)), expected, "{date:?} to {other:?}");
                }
            }
        }
    }
    assert_eq!(served, 35_794);
}

#[test]
fn wide_numbers() {
    for date in [((1 << 32) + 2021, 6, 2), (2021, (1 << 32) + 6, 2), (2021, 6, (1 << 32) + 2), (u64::MAX, u64::MAX, u64::MAX)] {
        assert_eq!(told(date).first_target_day(), Err(Refusal::NoDateServed));
        assert_eq!(told((2021, 6, 2)).days_to(told(date)), Err(Refusal::NoDateServed));
    }
}
