//! The number that each function returns, taken apart: bit 63 says refused, and every bit without a meaning is 0.

use interface::{Answer, Date, Refusal, Whose};

const REFUSED: u64 = 1 << 63;

/// The answer of every function but the count and the date of a number: bits 0-31 are the value.
pub fn verdict(word: u64) -> Answer {
    if word & REFUSED != 0 {
        return refusal(word);
    }
    match u32::try_from(word) {
        Ok(value) => Answer::Accepted(value),
        Err(_) => Answer::Malformed(word),
    }
}

/// The answer of the count: bits 0-29 are the count, bits 30-59 the effort.
pub fn counted(word: u64) -> Answer {
    if word & REFUSED != 0 {
        return refusal(word);
    }
    if word >> 60 != 0 {
        return Answer::Malformed(word);
    }
    let low = |bits: u64| (bits & ((1 << 30) - 1)) as u32;
    Answer::Counted { count: low(word), effort: low(word >> 30) }
}

/// The answer of the date of a number: bits 16-31 are the year, bits 8-15 the month, bits 0-7 the day.
pub fn dated(word: u64) -> Answer {
    if word & REFUSED != 0 {
        return refusal(word);
    }
    if word >> 32 != 0 {
        return Answer::Malformed(word);
    }
    let bits = word as u32;
    Answer::Dated(Date { year: bits >> 16, month: bits >> 8 & 255, day: bits & 255 })
}

/// Bits 40-47 say whose it is, bits 32-39 the number, bits 0-31 the place.
fn refusal(word: u64) -> Answer {
    let whose = match (word & !REFUSED) >> 40 {
        0 => Whose::Grammar,
        1 => Whose::Analysis,
        2 => Whose::Desk,
        _ => return Answer::Malformed(word),
    };
    Answer::Refused(Refusal { whose, number: (word >> 32) as u8, place: word as u32 })
}

#[cfg(test)]
mod tests {
    use super::*;

    #[test]
    fn values() {
        assert_eq!(verdict(7168), Answer::Accepted(7168));
        assert_eq!(verdict(1 << 32), Answer::Malformed(1 << 32));
        assert_eq!(counted(13 << 30 | 1), Answer::Counted { count: 1, effort: 13 });
        assert_eq!(counted(1 << 60), Answer::Malformed(1 << 60));
    }

    #[test]
    fn dates() {
        assert_eq!(dated(2399 << 16 | 12 << 8 | 31), Answer::Dated(Date { year: 2399, month: 12, day: 31 }));
        assert_eq!(dated(65_535 << 16 | 255 << 8 | 1), Answer::Dated(Date { year: 65_535, month: 255, day: 1 }));
        for bit in 32..63 {
            let word = 1 << bit | 2000 << 16 | 1 << 8 | 1;
            assert_eq!(dated(word), Answer::Malformed(word));
        }
    }

    #[test]
    fn refusals() {
        let word = REFUSED | 1 << 40 | 11 << 32 | 96;
        assert_eq!(verdict(word), Answer::Refused(Refusal::analysis(11, 96)));
        assert_eq!(counted(REFUSED | 2 << 40 | 25 << 32), Answer::Refused(Refusal::desk(25)));
        assert_eq!(dated(REFUSED | 2 << 40 | 27 << 32), Answer::Refused(Refusal::desk(27)));
        assert_eq!(verdict(REFUSED | 3 << 40), Answer::Malformed(REFUSED | 3 << 40));
        assert_eq!(verdict(word | 1 << 48), Answer::Malformed(word | 1 << 48));
        assert_eq!(dated(word | 1 << 48), Answer::Malformed(word | 1 << 48));
    }
}
