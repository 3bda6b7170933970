//! The functions of libdowngrater on derivation trees.

use interface::{Answer, TreeCalls};

use crate::answer::verdict;
use crate::calls::{at, at_mut, Library};

extern "C" {
    fn dg_check_tree(file: *const u8, file_len: usize, sentence: *const u32, words: usize, tree: *const u16, tree_len: usize) -> u64;
    fn dg_weigh_tree(file: *const u8, file_len: usize, sentence: *const u32, words: usize, tree: *const u16, tree_len: usize) -> u64;
    fn dg_trace_to_tree(
        file: *const u8,
        file_len: usize,
        sentence: *const u32,
        words: usize,
        trace: *const u16,
        trace_len: usize,
        out: *mut u16,
        out_len: usize,
    ) -> u64;
    fn dg_tree_to_trace(
        file: *const u8,
        file_len: usize,
        sentence: *const u32,
        words: usize,
        tree: *const u16,
        tree_len: usize,
        out: *mut u16,
        out_len: usize,
    ) -> u64;
}

impl TreeCalls for Library {
    fn check_tree(&self, file: &[u8], sentence: &[u32], tree: &[u16]) -> Answer {
        verdict(unsafe { dg_check_tree(at(file), file.len(), at(sentence), sentence.len(), at(tree), tree.len()) })
    }

    fn weigh_tree(&self, file: &[u8], sentence: &[u32], tree: &[u16]) -> Answer {
        verdict(unsafe { dg_weigh_tree(at(file), file.len(), at(sentence), sentence.len(), at(tree), tree.len()) })
    }

    fn trace_to_tree(&self, file: &[u8], sentence: &[u32], trace: &[u16], out: &mut [u16]) -> Answer {
        verdict(unsafe {
            dg_trace_to_tree(at(file), file.len(), at(sentence), sentence.len(), at(trace), trace.len(), at_mut(out), out.len())
        })
    }

    fn tree_to_trace(&self, file: &[u8], sentence: &[u32], tree: &[u16], out: &mut [u16]) -> Answer {
        verdict(unsafe {
            dg_tree_to_trace(at(file), file.len(), at(sentence), sentence.len(), at(tree), tree.len(), at_mut(out), out.len())
        })
    }
}
