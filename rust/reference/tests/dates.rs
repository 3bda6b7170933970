//! Paper 3 of document 02, "The day a deposit opens": its own example, days worked out by hand, every day both ways, both ends of the span
//! and of the terms, and which test comes first.

use reference::{Answer, Date, DateCalls, Reference, Refusal};

fn date(year: u32, month: u32, day: u32) -> Date {
    Date { year, month, day }
}

fn desk(number: u8) -> Answer {
    Answer::Refused(Refusal::desk(number))
}

const LAST_DAY: u64 = 146_096;

#[test]
fn the_papers_example() {
    // 366 days of 2000, 31 of January, then the 28th day of February
    assert_eq!(Reference.opening_day(date(2001, 1, 31), 1), Answer::Accepted(366 + 31 + 27));
    assert_eq!(Reference.date_of(366 + 31 + 27), Answer::Dated(date(2001, 2, 28)));
}

/// Worked out by hand: 25 leap years from 2000 to 2099, 24 in each hundred years after.
#[test]
fn days_worked_out_by_hand() {
    for (day, number) in [
        (date(2000, 1, 1), 0),
        (date(2000, 1, 31), 30),
        (date(2000, 2, 1), 31),
        (date(2000, 2, 29), 59),
        (date(2000, 3, 1), 60),
        (date(2000, 12, 31), 365),
        (date(2001, 1, 1), 366),
        (date(2001, 2, 28), 424),
        (date(2001, 3, 1), 425),
        (date(2004, 2, 29), 1520),
        // 2,147,483,648 seconds after 1 January 1970, which is 10,957 days before day 0
        (date(2038, 1, 19), 24_855 - 10_957),
        (date(2099, 12, 31), 36_524),
        (date(2100, 1, 1), 36_525),
        (date(2100, 2, 28), 36_583),
        (date(2100, 3, 1), 36_584),
        (date(2200, 1, 1), 73_049),
        (date(2300, 1, 1), 109_573),
        (date(2399, 12, 30), 146_095),
        (date(2399, 12, 31), 146_096),
    ] {
        assert_eq!(Reference.day_number(day), Answer::Accepted(number), "{day:?}");
        assert_eq!(Reference.date_of(number as u64), Answer::Dated(day), "{number}");
    }
}

/// A date's number by division and sums, as the reference does not make it.
fn number_by_division(Date { year, month, day }: Date) -> u32 {
    let years = year - 2000;
    let leap_years_before = years.div_ceil(4) - years.div_ceil(100) + years.div_ceil(400);
    let leap = years % 4 == 0 && ![100, 200, 300].contains(&years);
    let before = [0, 31, 59, 90, 120, 151, 181, 212, 243, 273, 304, 334][month as usize - 1] + (leap && month > 2) as u32;
    365 * years + leap_years_before + before + day - 1
}

#[test]
fn every_day_both_ways() {
    for number in 0..=LAST_DAY {
        let Answer::Dated(day) = Reference.date_of(number) else { panic!("day {number} has no date") };
        assert_eq!(Reference.day_number(day), Answer::Accepted(number as u32));
        assert_eq!(number_by_division(day), number as u32);
    }
}

/// The years, months and days that are dates, in their order, have the numbers from 0 to the last without a gap.
#[test]
fn dates_in_order() {
    let mut next = 0;
    for year in 1998..=2402 {
        for (month, day) in (0..=14).flat_map(|month| (0..=33).map(move |day| (month, day))) {
            match Reference.day_number(date(year, month, day)) {
                Answer::Accepted(number) => {
                    assert_eq!(number as u64, next);
                    next += 1;
                }
                refused => assert_eq!(refused, desk(27)),
            }
        }
    }
    assert_eq!(next, LAST_DAY + 1);
}

#[test]
fn months_have_their_lengths() {
    for (year, february) in [(2000, 29), (2001, 28), (2004, 29), (2099, 28), (2100, 28), (2200, 28), (2300, 28), (2396, 29), (2399, 28)] {
        for (month, length) in (1..).zip([31, february, 31, 30, 31, 30, 31, 31, 30, 31, 30, 31]) {
            assert!(matches!(Reference.day_number(date(year, month, length)), Answer::Accepted(_)));
            assert_eq!(Reference.day_number(date(year, month, length + 1)), desk(27));
        }
    }
}

/// No dates: none in the calendar, outside the span, or too large for a date's field and a right number once cut to it.
fn no_dates() -> Vec<Date> {
    let mut dates = vec![
        date(2000, 2, 30),
        date(2001, 2, 29),
        date(2100, 2, 29),
        date(2000, 4, 31),
        date(2000, 1, 0),
        date(2000, 1, 32),
        date(2000, 0, 1),
        date(2000, 13, 1),
        date(0, 0, 0),
        date(1999, 12, 31),
        date(2400, 1, 1),
        date(2400, 2, 29),
        date(u32::MAX, u32::MAX, u32::MAX),
    ];
    dates.extend([1 << 16, 1 << 24, 1 << 31].map(|more| date(2001 + more, 1, 31)));
    for more in [1 << 8, 1 << 16, 1 << 24, 1 << 31] {
        dates.extend([date(2001, 1 + more, 31), date(2001, 1, 31 + more)]);
    }
    dates
}

#[test]
fn refusal_27_date() {
    for no_date in no_dates() {
        assert_eq!(Reference.day_number(no_date), desk(27), "{no_date:?}");
        // before 28, whatever the term
        for term in [0, 1, 600, 601, u64::MAX] {
            assert_eq!(Reference.opening_day(no_date, term), desk(27), "{no_date:?}");
            for asked in [0, LAST_DAY, LAST_DAY + 1] {
                assert_eq!(Reference.is_open(no_date, term, asked), desk(27), "{no_date:?}");
            }
        }
    }
}

#[test]
fn refusal_27_day_number() {
    for number in [LAST_DAY + 1, LAST_DAY + 2, 1 << 18, 1 << 32, (1 << 32) + 1, 1 << 63, u64::MAX] {
        assert_eq!(Reference.date_of(number), desk(27));
        // before 28, whatever the term
        for term in [0, 1, 600, 601, u64::MAX] {
            assert_eq!(Reference.is_open(date(2001, 1, 31), term, number), desk(27));
            assert_eq!(Reference.is_open(date(2399, 12, 31), term, number), desk(27));
        }
    }
}

/// The date of the day that a deposit of this date opens.
fn opens(deposit: Date, term: u64) -> Date {
    let Answer::Accepted(number) = Reference.opening_day(deposit, term) else { panic!("{deposit:?} does not open") };
    let Answer::Dated(opening) = Reference.date_of(number as u64) else { panic!("{number} has no date") };
    opening
}

#[test]
fn opening_days() {
    for (deposit, term, opening) in [
        (date(2001, 1, 31), 0, date(2001, 1, 31)),
        (date(2001, 1, 31), 1, date(2001, 2, 28)),
        (date(2001, 1, 28), 1, date(2001, 2, 28)),
        (date(2001, 1, 27), 1, date(2001, 2, 27)),
        // the day is the deposit's again once the month has it
        (date(2001, 1, 31), 2, date(2001, 3, 31)),
        (date(2001, 1, 31), 3, date(2001, 4, 30)),
        (date(2001, 1, 30), 3, date(2001, 4, 30)),
        // the last day of a short month is not the last of a longer one
        (date(2001, 2, 28), 1, date(2001, 3, 28)),
        (date(2001, 4, 30), 1, date(2001, 5, 30)),
        // February in leap years and in common ones
        (date(2000, 1, 31), 1, date(2000, 2, 29)),
        (date(2000, 2, 29), 12, date(2001, 2, 28)),
        (date(2000, 2, 29), 48, date(2004, 2, 29)),
        (date(2096, 2, 29), 48, date(2100, 2, 28)),
        (date(2096, 2, 29), 96, date(2104, 2, 29)),
        (date(2099, 12, 31), 2, date(2100, 2, 28)),
        (date(2099, 12, 31), 3, date(2100, 3, 31)),
        // over the ends of years
        (date(2001, 12, 31), 1, date(2002, 1, 31)),
        (date(2001, 12, 1), 12, date(2002, 12, 1)),
        (date(2001, 11, 30), 1, date(2001, 12, 30)),
        (date(2001, 11, 30), 2, date(2002, 1, 30)),
        (date(2001, 11, 30), 3, date(2002, 2, 28)),
        (date(2001, 11, 30), 13, date(2002, 12, 30)),
        // the longest term is fifty years
        (date(2000, 1, 1), 600, date(2050, 1, 1)),
        (date(2000, 1, 1), 599, date(2049, 12, 1)),
        (date(2000, 2, 29), 600, date(2050, 2, 28)),
        (date(2349, 12, 31), 600, date(2399, 12, 31)),
        (date(2350, 1, 31), 599, date(2399, 12, 31)),
        (date(2399, 12, 31), 0, date(2399, 12, 31)),
        (date(2399, 11, 30), 1, date(2399, 12, 30)),
    ] {
        assert_eq!(opens(deposit, term), opening, "{deposit:?} {term}");
    }
}

#[test]
fn refusal_28_term() {
    for term in [601, 602, 1 << 16, 1 << 32, (1 << 32) + 1, u64::MAX] {
        for deposit in [date(2000, 1, 1), date(2001, 1, 31), date(2399, 12, 31)] {
            assert_eq!(Reference.opening_day(deposit, term), desk(28));
            assert_eq!(Reference.is_open(deposit, term, LAST_DAY), desk(28));
        }
    }
}

/// The shortest term that leads past the last date, and the one before it, which does not.
#[test]
fn refusal_28_opening_day_after_the_last_date() {
    for (deposit, term) in [
        (date(2399, 12, 1), 1),
        (date(2399, 12, 31), 1),
        (date(2399, 11, 30), 2),
        (date(2399, 1, 1), 12),
        (date(2396, 2, 29), 47),
        (date(2350, 1, 31), 600),
    ] {
        assert!(matches!(Reference.opening_day(deposit, term - 1), Answer::Accepted(_)), "{deposit:?} {term}");
        for longer in [term, 600] {
            assert_eq!(Reference.opening_day(deposit, longer), desk(28), "{deposit:?} {longer}");
            assert_eq!(Reference.is_open(deposit, longer, 0), desk(28), "{deposit:?} {longer}");
        }
    }
}

/// 0 on every day before the opening day, 1 from it on.
#[test]
fn open_or_not() {
    for (deposit, term, opening) in [
        (date(2001, 1, 31), 1, 424),
        (date(2000, 1, 1), 0, 0),
        (date(2000, 12, 31), 0, 365),
        (date(2000, 2, 29), 12, 424),
        (date(2399, 12, 31), 0, 146_096),
    ] {
        for asked in 0..=LAST_DAY {
            let open = if asked < opening { 0 } else { 1 };
            assert_eq!(Reference.is_open(deposit, term, asked), Answer::Accepted(open), "{deposit:?} {term} {asked}");
        }
    }
}
