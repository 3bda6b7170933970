//! The calls on dates in plain Rust, on the same two tables: the day number of 1 January of each year, and the lengths of months.

use reference::{Date, Refusal};

const FIRST_YEAR: u32 = 2000;
const YEARS: usize = 400;
const DAYS: u64 = 146_097;
const LONGEST_TERM: u64 = 600;

static FIRST_DAYS: [u32; YEARS] = first_days();

static MONTH_LENGTHS: [[u8; 12]; 2] = [[31, 28, 31, 30, 31, 30, 31, 31, 30, 31, 30, 31], [31, 29, 31, 30, 31, 30, 31, 31, 30, 31, 30, 31]];

const fn is_leap(year: u32) -> bool {
    year % 4 == 0 && (year % 100 != 0 || year % 400 == 0)
}

const fn year_length(year: u32) -> u32 {
    365 + is_leap(year) as u32
}

const fn first_days() -> [u32; YEARS] {
    let mut days = [0; YEARS];
    let mut k = 1;
    while k < YEARS {
        days[k] = days[k - 1] + year_length(FIRST_YEAR + k as u32 - 1);
        k += 1;
    }
    days
}

/// The lengths of the year's months.
fn lengths(year: u32) -> &'static [u8; 12] {
    &MONTH_LENGTHS[is_leap(year) as usize]
}

fn test(date: Date) -> Result<(), Refusal> {
    let Date { year, month, day } = date;
    let in_span = (FIRST_YEAR..FIRST_YEAR + YEARS as u32).contains(&year) && (1..=12).contains(&month);
    if in_span && day >= 1 && day <= lengths(year)[month as usize - 1] as u32 {
        return Ok(());
    }
    Err(Refusal::desk(27))
}

fn number(Date { year, month, day }: Date) -> u32 {
    let before: u32 = lengths(year)[..month as usize - 1].iter().map(|&length| length as u32).sum();
    FIRST_DAYS[(year - FIRST_YEAR) as usize] + before + day - 1
}

pub fn day_number(date: Date) -> Result<u32, Refusal> {
    test(date)?;
    Ok(number(date))
}

pub fn date_of(number: u64) -> Result<Date, Refusal> {
    if number >= DAYS {
        return Err(Refusal::desk(27));
    }
    let number = number as u32;
    let mut year = FIRST_YEAR + number / 366;
    let mut left = number - FIRST_DAYS[(year - FIRST_YEAR) as usize];
    while left >= year_length(year) {
        left -= year_length(year);
        year += 1;
    }
    let mut month = 1;
    for &length in &lengths(year)[..11] {
        if left < length as u32 {
            break;
        }
        left -= length as u32;
        month += 1;
    }
    Ok(Date { year, month, day: left + 1 })
}

pub fn opening_day(date: Date, term: u64) -> Result<u32, Refusal> {
    test(date)?;
    opening(date, term)
}

pub fn is_open(date: Date, term: u64, asked: u64) -> Result<u32, Refusal> {
    test(date)?;
    if asked >= DAYS {
        return Err(Refusal::desk(27));
    }
    Ok((opening(date, term)? as u64 <= asked) as u32)
}

fn opening(date: Date, term: u64) -> Result<u32, Refusal> {
    if term > LONGEST_TERM {
        return Err(Refusal::desk(28));
    }
    let months = date.month - 1 + term as u32;
    let (year, month) = (date.year + months / 12, months % 12 + 1);
    if year >= FIRST_YEAR + YEARS as u32 {
        return Err(Refusal::desk(28));
    }
    Ok(number(Date { year, month, day: date.day.min(lengths(year)[month as usize - 1] as u32) }))
}

#[cfg(test)]
mod tests {
    use super::*;
    use reference::{Answer, DateCalls, Reference};

    fn accepted(outcome: Result<u32, Refusal>) -> Answer {
        outcome.map_or_else(Answer::Refused, Answer::Accepted)
    }

    /// Every day, its date and its opening days, as in the reference.
    #[test]
    fn as_the_reference() {
        for number in 0..DAYS + 2 {
            let date = date_of(number);
            assert_eq!(date.map_or_else(Answer::Refused, Answer::Dated), Reference.date_of(number));
            let Ok(date) = date else { continue };
            assert_eq!(accepted(day_number(date)), Reference.day_number(date));
            let term = number % 620;
            assert_eq!(accepted(opening_day(date, term)), Reference.opening_day(date, term));
            for asked in [number, number + 30 * term, number + 31 * term] {
                assert_eq!(accepted(is_open(date, term, asked)), Reference.is_open(date, term, asked));
            }
        }
        for (year, month, day) in [(1999, 12, 31), (2400, 1, 1), (2100, 2, 29), (2001, 13, 1), (2001, 0, 1), (2001, 1, 0)] {
            let date = Date { year, month, day };
            assert_eq!(accepted(day_number(date)), Reference.day_number(date));
            assert_eq!(accepted(is_open(date, 601, DAYS)), Reference.is_open(date, 601, DAYS));
        }
    }
}
