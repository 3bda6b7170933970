//! Dates and the day a deposit opens (document 02, paper 3): all dates one after the other, a date's number its place among them, and the
//! opening month found month after month.

use std::iter::successors;
use std::sync::OnceLock;

use crate::calls::{Date, Refusal};

const FIRST: Date = Date { year: 2000, month: 1, day: 1 };
const LAST: Date = Date { year: 2399, month: 12, day: 31 };

/// The longest term in months.
const LONGEST: u64 = 600;

/// The Gregorian calendar: every fourth year, but of 2000, 2100, 2200 and so on only every fourth.
fn is_leap(year: u32) -> bool {
    match year % 100 {
        0 => year % 400 == 0,
        _ => year % 4 == 0,
    }
}

fn days_in(year: u32, month: u32) -> u32 {
    match month {
        2 if is_leap(year) => 29,
        2 => 28,
        4 | 6 | 9 | 11 => 30,
        _ => 31,
    }
}

/// The month after a year's month, with its year.
fn next_month(year: u32, month: u32) -> (u32, u32) {
    match month {
        12 => (year + 1, 1),
        _ => (year, month + 1),
    }
}

fn tomorrow(Date { year, month, day }: Date) -> Date {
    if day < days_in(year, month) {
        return Date { year, month, day: day + 1 };
    }
    let (year, month) = next_month(year, month);
    Date { year, month, day: 1 }
}

/// The dates from 1 January 2000 to 31 December 2399, made once.
fn dates() -> &'static [Date] {
    static DATES: OnceLock<Vec<Date>> = OnceLock::new();
    DATES.get_or_init(|| successors(Some(FIRST), |&date| Some(tomorrow(date))).take_while(|&date| date <= LAST).collect())
}

/// The place among the dates, which are sorted: or 27.
pub fn day_number(date: Date) -> Result<usize, Refusal> {
    match dates().binary_search(&date) {
        Ok(place) => Ok(place),
        Err(_) => Err(Refusal::desk(27)),
    }
}

/// The date at this place: or 27.
pub fn date_of(number: u64) -> Result<Date, Refusal> {
    if number >= dates().len() as u64 {
        return Err(Refusal::desk(27));
    }
    Ok(dates()[number as usize])
}

/// 27 for the date, 28, or the number of the opening day.
pub fn opening_day(date: Date, term: u64) -> Result<usize, Refusal> {
    day_number(date)?;
    if term > LONGEST {
        return Err(Refusal::desk(28));
    }
    let opening = opening_date(date, term);
    if opening > LAST {
        return Err(Refusal::desk(28));
    }
    day_number(opening)
}

/// In the month the term after the date's, and on the date's day of the month, or on the last day of that month if it is shorter.
fn opening_date(date: Date, term: u64) -> Date {
    let (mut year, mut month) = (date.year, date.month);
    for _ in 0..term {
        (year, month) = next_month(year, month);
    }
    Date { year, month, day: date.day.min(days_in(year, month)) }
}

/// 27 for the day asked, 27 for the date, 28, or whether the deposit is open on that day: from the opening day on, the day itself included.
pub fn is_open(date: Date, term: u64, asked: u64) -> Result<bool, Refusal> {
    date_of(asked)?;
    let opening = opening_day(date, term)? as u64;
    Ok(asked >= opening)
}
