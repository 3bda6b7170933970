//! Dates, day numbers, terms and days asked: all that can be gone through one by one, and random ones.

use reference::{Answer, Date};

use crate::compare::{Difference, Done, Pair};
use crate::rng::Rng;
use crate::tally::{Call, DAYS};

/// The number of the last date.
const LAST: u64 = DAYS as u64 - 1;

/// The opening day of the paper's example, 28 February 2001; elsewhere a day of the span like any other.
const EXAMPLE_DAY: u64 = 424;

/// Leap years and common ones, 2100 and 2300 among them, the years at both ends of the span, and those the longest term away from them.
const YEARS: [u32; 12] = [2000, 2001, 2004, 2050, 2096, 2099, 2100, 2300, 2349, 2350, 2398, 2399];

/// Terms around whole years and around the longest, and terms that are 0 or 1 once they are cut to 8, 16 or 32 bits.
const TERMS: [u64; 20] =
    [0, 1, 2, 11, 12, 13, 47, 48, 49, 256, 257, 599, 600, 601, 602, 1 << 16, (1 << 16) + 1, 1 << 32, (1 << 32) + 1, u64::MAX];

/// Added to a month or a day, each of these makes a number that is too large for its field of 8 bits, and right once it is cut. So does
/// each but the first added to a year, with its field of 16 bits; a year plus 256 is another year of the span, or one after it.
const CUT_OFF: [u32; 4] = [1 << 8, 1 << 16, 1 << 24, 1 << 31];

fn date(year: u32, month: u32, day: u32) -> Date {
    Date { year, month, day }
}

pub fn fixed(pair: &mut Pair) -> Done {
    numbers(pair)?;
    dates(pair)?;
    fields(pair)?;
    deposits(pair)?;
    opening_days(pair)?;
    terms(pair)?;
    order_of_tests(pair)
}

/// Every day number, some past the last, and numbers that are day numbers once they are cut to fewer bits.
fn numbers(pair: &mut Pair) -> Done {
    for number in 0..=LAST + 400 {
        pair.date_of(number)?;
    }
    for number in [0, 1, 59, 60, LAST] {
        for bit in 8..64 {
            pair.date_of((1 << bit) + number)?;
        }
        pair.date_of(u64::MAX - number)?;
    }
    Ok(())
}

/// Every year, month and day of the span and around it.
fn dates(pair: &mut Pair) -> Done {
    for year in 1998..=2402 {
        for (month, day) in (0..=14).flat_map(|month| (0..=33).map(move |day| (month, day))) {
            pair.day_number(date(year, month, day))?;
        }
    }
    Ok(())
}

/// Some dates, with a number of CUT_OFF added to the year, the month or the day alone.
fn fields(pair: &mut Pair) -> Done {
    for Date { year, month, day } in [date(2000, 1, 1), date(2001, 1, 31), date(2004, 2, 29), date(2100, 2, 28), date(2399, 12, 31)] {
        for more in CUT_OFF {
            for other in [date(year + more, month, day), date(year, month + more, day), date(year, month, day + more)] {
                pair.day_number(other)?;
                pair.opening_day(other, 1)?;
                pair.is_open(other, 1, EXAMPLE_DAY)?;
            }
        }
    }
    Ok(())
}

/// Every date with a term of a month and of a year.
fn deposits(pair: &mut Pair) -> Done {
    for number in 0..=LAST {
        let Answer::Dated(deposit) = pair.tested.date_of(number) else { continue };
        for term in [1, 12] {
            let opening = opening_day(pair, deposit, term)?;
            pair.is_open(deposit, term, opening)?;
            pair.is_open(deposit, term, opening - 1)?;
        }
    }
    Ok(())
}

/// Every day of some years, those included that are no dates, with terms of every kind.
fn opening_days(pair: &mut Pair) -> Done {
    for year in YEARS {
        for (month, day) in (1..=12).flat_map(|month| (1..=31).map(move |day| (month, day))) {
            for term in TERMS {
                let deposit = date(year, month, day);
                let opening = opening_day(pair, deposit, term)?;
                for asked in around(opening) {
                    pair.is_open(deposit, term, asked)?;
                }
            }
        }
    }
    Ok(())
}

/// Every term up to past the longest, from dates at the ends of months and of years.
fn terms(pair: &mut Pair) -> Done {
    let january = [2000, 2001, 2096, 2099, 2300, 2350].into_iter().flat_map(|year| (28..=31).map(move |day| date(year, 1, day)));
    let february = [2000, 2096, 2348, 2352, 2396].map(|year| date(year, 2, 29));
    let december = [2000, 2095, 2349, 2350, 2399].into_iter().flat_map(|year| [1, 31].map(|day| date(year, 12, day)));
    for deposit in january.chain(february).chain(december) {
        for term in 0..=602 {
            opening_day(pair, deposit, term)?;
        }
    }
    Ok(())
}

/// Dates, terms and days asked, right and wrong ones in every combination: where two are wrong, the refusal shows which was tested first.
fn order_of_tests(pair: &mut Pair) -> Done {
    let right = [date(2000, 1, 1), date(2001, 1, 31), date(2350, 1, 31), date(2399, 12, 31)];
    let wrong = [date(2001, 2, 29), date(2001, 13, 1), date(2001, 1, 0), date(1999, 12, 31), date(2400, 1, 1), date(65_536 + 2001, 1, 31)];
    for deposit in right.into_iter().chain(wrong) {
        for term in TERMS {
            pair.opening_day(deposit, term)?;
            for asked in around(EXAMPLE_DAY) {
                pair.is_open(deposit, term, asked)?;
            }
        }
    }
    Ok(())
}

/// The opening day, or the example's where it is refused. If the term a month longer has an opening day too, it is later.
fn opening_day(pair: &mut Pair, deposit: Date, term: u64) -> Result<u64, Difference> {
    pair.opening_day(deposit, term)?;
    let Answer::Accepted(day) = pair.tested.opening_day(deposit, term) else { return Ok(EXAMPLE_DAY) };
    if let Answer::Accepted(later) = pair.tested.opening_day(deposit, term + 1) {
        if later <= day {
            let text = format!("{deposit:?}\nterm {term} opens on day {day}, a month more on day {later}");
            return Err(Difference { call: Call::OpeningDay, text });
        }
        pair.tally.terms += 1;
    }
    Ok(day as u64)
}

/// This day and those next to it, the ends of the span, numbers past it, and one that is this day once it is cut to 32 bits.
fn around(day: u64) -> [u64; 8] {
    [day.wrapping_sub(1), day, day + 1, 0, LAST, LAST + 1, (1 << 32) + day, u64::MAX]
}

/// Some random inputs of each call.
pub fn random(pair: &mut Pair, rng: &mut Rng) -> Done {
    for _ in 0..10 {
        let day = rng.below(DAYS) as u64;
        pair.date_of(day)?;
        pair.date_of(rng.pick(&around(day)))?;
        let deposit = random_date(rng);
        pair.day_number(deposit)?;
        let term = random_term(rng, deposit);
        let opening = opening_day(pair, deposit, term)?;
        pair.is_open(deposit, term, day)?;
        pair.is_open(deposit, term, rng.pick(&around(opening)))?;
    }
    Ok(())
}

/// One of these numbers or, as often, any number from a to b.
fn these_or_any(rng: &mut Rng, these: &[u32], a: usize, b: usize) -> u32 {
    if rng.chance(50) {
        rng.pick(these)
    } else {
        rng.from_to(a, b) as u32
    }
}

/// A date, often at the end of a month or of a year; about one in five is none.
fn random_date(rng: &mut Rng) -> Date {
    let mut year = these_or_any(rng, &YEARS, 2000, 2399);
    let mut month = these_or_any(rng, &[1, 2, 12], 1, 12);
    let mut day = these_or_any(rng, &[1, 28, 29, 30, 31], 1, 31);
    let more = rng.pick(&CUT_OFF);
    match rng.below(20) {
        0 => year = rng.pick(&[0, 1999, 2400, year + more, u32::MAX]),
        1 => month = rng.pick(&[0, 13, 14, month + more, u32::MAX]),
        2 => day = rng.pick(&[0, 31, 32, day + more, u32::MAX]),
        _ => {}
    }
    date(year, month, day)
}

/// A term, half the time the months from the deposit to January, February, April or December of one of the years above, or 0 if that is
/// earlier.
fn random_term(rng: &mut Rng, deposit: Date) -> u64 {
    match rng.below(4) {
        0 => rng.pick(&TERMS),
        1 => rng.from_to(0, 610) as u64,
        _ => {
            let (year, month) = (rng.pick(&YEARS) as i64, rng.pick(&[1, 2, 4, 12]));
            let months = 12 * (year - deposit.year as i64) + month - deposit.month as i64;
            months.max(0) as u64
        }
    }
}
