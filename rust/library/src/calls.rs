//! The functions of libdowngrater as include/downgrater.h declares them, behind safe ones.

use std::ptr;

use interface::{Answer, Calls, Heading};

use crate::answer::{counted, verdict};

extern "C" {
    fn dg_version() -> u32;
    fn dg_read_grammar(file: *const u8, file_len: usize) -> u64;
    fn dg_write_grammar(
        categories: u8,
        start: u8,
        words: u16,
        rules: u16,
        dimensions: *const u8,
        dimensions_len: usize,
        records: *const u8,
        records_len: usize,
        out: *mut u8,
        out_len: usize,
    ) -> u64;
    fn dg_make_grammar(lexicon: *const u8, lexicon_len: usize, words: u32, start: u32, out: *mut u8, out_len: usize) -> u64;
    fn dg_check_trace(file: *const u8, file_len: usize, sentence: *const u32, words: usize, trace: *const u16, trace_len: usize) -> u64;
    fn dg_weigh_trace(file: *const u8, file_len: usize, sentence: *const u32, words: usize, trace: *const u16, trace_len: usize) -> u64;
    fn dg_count(file: *const u8, file_len: usize, sentence: *const u32, words: usize, node_limit: u64, effort_limit: u64) -> u64;
    fn dg_entry(
        file: *const u8,
        file_len: usize,
        sentence: *const u32,
        words: usize,
        node_limit: u64,
        effort_limit: u64,
        entry: u64,
        out: *mut u16,
        out_len: usize,
    ) -> u64;
    fn dg_survey(file: *const u8, file_len: usize, out: *mut u16, out_len: usize) -> u64;
}

/// The slice's pointer, null where it is empty: the functions take that too.
pub fn at<T>(slice: &[T]) -> *const T {
    if slice.is_empty() {
        ptr::null()
    } else {
        slice.as_ptr()
    }
}

pub fn at_mut<T>(slice: &mut [T]) -> *mut T {
    if slice.is_empty() {
        ptr::null_mut()
    } else {
        slice.as_mut_ptr()
    }
}

pub fn version() -> u32 {
    unsafe { dg_version() }
}

/// The proved library.
pub struct Library;

// Every function asks for valid pointers and nothing else; the slices give them.
impl Calls for Library {
    fn read_grammar(&self, file: &[u8]) -> Answer {
        verdict(unsafe { dg_read_grammar(at(file), file.len()) })
    }

    fn write_grammar(&self, heading: &Heading, records: &[u8], out: &mut [u8]) -> Answer {
        let Heading { categories, start, words, rules, dimensions } = heading;
        verdict(unsafe {
            dg_write_grammar(
                *categories,
                *start,
                *words,
                *rules,
                at(dimensions),
                dimensions.len(),
                at(records),
                records.len(),
                at_mut(out),
                out.len(),
            )
        })
    }

    fn make_grammar(&self, lexicon: &[u8], words: u32, start: u32, out: &mut [u8]) -> Answer {
        verdict(unsafe { dg_make_grammar(at(lexicon), lexicon.len(), words, start, at_mut(out), out.len()) })
    }

    fn check_trace(&self, file: &[u8], sentence: &[u32], trace: &[u16]) -> Answer {
        verdict(unsafe { dg_check_trace(at(file), file.len(), at(sentence), sentence.len(), at(trace), trace.len()) })
    }

    fn weigh_trace(&self, file: &[u8], sentence: &[u32], trace: &[u16]) -> Answer {
        verdict(unsafe { dg_weigh_trace(at(file), file.len(), at(sentence), sentence.len(), at(trace), trace.len()) })
    }

    fn count(&self, file: &[u8], sentence: &[u32], node_limit: u64, effort_limit: u64) -> Answer {
        counted(unsafe { dg_count(at(file), file.len(), at(sentence), sentence.len(), node_limit, effort_limit) })
    }

    fn entry(&self, file: &[u8], sentence: &[u32], node_limit: u64, effort_limit: u64, m: u64, out: &mut [u16]) -> Answer {
        verdict(unsafe {
            dg_entry(at(file), file.len(), at(sentence), sentence.len(), node_limit, effort_limit, m, at_mut(out), out.len())
        })
    }

    fn survey(&self, file: &[u8], out: &mut [u16]) -> Answer {
        verdict(unsafe { dg_survey(at(file), file.len(), at_mut(out), out.len()) })
    }
}
