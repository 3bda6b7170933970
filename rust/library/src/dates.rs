//! The functions of libdowngrater on dates.

use interface::{Answer, Date, DateCalls};

use crate::answer::{dated, verdict};
use crate::calls::Library;

extern "C" {
    fn dg_day_number(year: u32, month: u32, day: u32) -> u64;
    fn dg_date_of(number: u64) -> u64;
    fn dg_opening_day(year: u32, month: u32, day: u32, term: u64) -> u64;
    fn dg_is_open(year: u32, month: u32, day: u32, term: u64, asked: u64) -> u64;
}

// These functions take numbers alone and may be called with any.
impl DateCalls for Library {
    fn day_number(&self, date: Date) -> Answer {
        verdict(unsafe { dg_day_number(date.year, date.month, date.day) })
    }

    fn date_of(&self, number: u64) -> Answer {
        dated(unsafe { dg_date_of(number) })
    }

    fn opening_day(&self, date: Date, term: u64) -> Answer {
        verdict(unsafe { dg_opening_day(date.year, date.month, date.day, term) })
    }

    fn is_open(&self, date: Date, term: u64, asked: u64) -> Answer {
        verdict(unsafe { dg_is_open(date.year, date.month, date.day, term, asked) })
    }
}
