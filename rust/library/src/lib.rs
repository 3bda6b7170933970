//! libdowngrater through its C interface: the functions declared, each wrapped in a safe one, and its answers taken apart.

mod answer;
#[cfg(downgrater_library)]
mod calls;
#[cfg(downgrater_library)]
mod dates;
#[cfg(downgrater_library)]
mod trees;

use std::fmt;

pub use answer::{counted, dated, verdict};
pub use interface::{refusal_text, word, words, Answer, Calls, Date, DateCalls, Heading, Refusal, TreeCalls, Whose};

/// The library was not there when this crate was built. Says what to run, also by `unwrap` and `expect`.
#[derive(Clone, Copy, PartialEq, Eq)]
pub struct Missing;

impl fmt::Display for Missing {
    fn fmt(&self, f: &mut fmt::Formatter) -> fmt::Result {
        f.write_str(concat!(
            "libdowngrater.a was not there when the crate downgrater was built: run `tools/build lib` at the top of the repository, ",
            "or set DOWNGRATER_LIB to the folder that has it, and build again"
        ))
    }
}

impl fmt::Debug for Missing {
    fn fmt(&self, f: &mut fmt::Formatter) -> fmt::Result {
        fmt::Display::fmt(self, f)
    }
}

impl std::error::Error for Missing {}

/// The proved library.
pub fn library() -> Result<Box<dyn Calls>, Missing> {
    #[cfg(downgrater_library)]
    return Ok(Box::new(calls::Library));
    #[cfg(not(downgrater_library))]
    Err(Missing)
}

/// The version that the library says it is: 10,000 times its first number, 100 times its second, and its third.
pub fn version() -> Result<u32, Missing> {
    #[cfg(downgrater_library)]
    return Ok(calls::version());
    #[cfg(not(downgrater_library))]
    Err(Missing)
}

/// The Rust of README.md is compiled.
#[cfg(doctest)]
#[doc = include_str!("../../../README.md")]
pub struct Readme;

#[cfg(test)]
mod tests {
    use super::*;

    #[test]
    fn one_version() {
        let numbers = env!("CARGO_PKG_VERSION").split('.').map(|number| number.parse::<u32>().expect("a version has three numbers"));
        let number = numbers.fold(0, |version, number| 100 * version + number);
        assert!(include_str!("../../../include/downgrater.h").contains(&format!("#define DG_VERSION {number}\n")));
        assert_eq!(version().unwrap_or(number), number);
    }

    #[test]
    fn the_missing_library_is_said() {
        assert!(format!("{:?}", Err::<(), _>(Missing)).contains("run `tools/build lib`"));
    }
}
