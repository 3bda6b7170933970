//! Writes the copies: the reference's modules with the fault's text in place of the right one, and one copy that is unchanged.

use std::path::Path;
use std::{env, fs};

include!("faults.rs");

/// The modules that a copy consists of. The calls themselves stay the reference's.
const MODULES: [&str; 20] = [
    "dates",
    "derivations",
    "double",
    "file",
    "grammar",
    "lexicon",
    "listing",
    "live",
    "made",
    "minimalist",
    "queue",
    "record",
    "reference",
    "schemes",
    "sentence",
    "survey",
    "trace",
    "tree",
    "weight",
    "writer",
];

/// The module with the count of derivations.
const DERIVATIONS: &str = "minimalist";

const CALLS: &str = "Box<dyn reference::Calls>";

fn main() {
    println!("cargo::rerun-if-changed=faults.rs");
    println!("cargo::rerun-if-changed=../reference/src");
    let texts: Vec<(&str, String)> = MODULES.iter().map(|&name| (name, source(name))).collect();
    let mut copies = copy("unchanged", &texts, None);
    copies +=
        &format!("/// The copy without a fault.\npub fn unchanged() -> {CALLS} {{\n    Box::new(unchanged::reference::Reference)\n}}\n");
    // a fault in the count of derivations is in no call
    let (counts, calls): (Vec<&Fault>, Vec<&Fault>) = FAULTS.iter().partition(|fault| fault.1 == DERIVATIONS);
    let reference = |copy: &str| format!("Box::new({copy}::reference::Reference)");
    copies += &list("faulty", "Each fault in words, with the copy that has it.", CALLS, &calls, &texts, reference);
    copies += &list(
        "harmless",
        "Changes that are no faults, in words, with the copies that have them.",
        CALLS,
        &HARMLESS.iter().collect::<Vec<_>>(),
        &texts,
        reference,
    );
    let count = |copy: &str| format!("{copy}::{DERIVATIONS}::derivations");
    let count_type = format!("reference::{DERIVATIONS}::Derivations");
    copies += &list(
        "faulty_derivations",
        "Each fault in the count of derivations, in words, with that count.",
        &count_type,
        &counts,
        &texts,
        count,
    );
    let out = env::var("OUT_DIR").expect("cargo sets it");
    fs::write(Path::new(&out).join("copies.rs"), copies).expect("the folder is there");
}

/// A copy for each change, and a function of that name that gives them all, each with its name, as values of that type.
fn list(name: &str, comment: &str, of: &str, changes: &[&Fault], texts: &[(&str, String)], value: impl Fn(&str) -> String) -> String {
    let (mut copies, mut lines) = (String::new(), String::new());
    for (i, change) in changes.iter().enumerate() {
        let module = format!("{name}_{i}");
        copies += &copy(&module, texts, Some(change));
        lines += &format!("        ({:?}, {}),\n", change.0, value(&module));
    }
    copies + &format!("/// {comment}\npub fn {name}() -> Vec<(&'static str, {of})> {{\n    vec![\n{lines}    ]\n}}\n")
}

fn source(module: &str) -> String {
    let path = format!("../reference/src/{module}.rs");
    fs::read_to_string(&path).unwrap_or_else(|error| panic!("{path}: {error}"))
}

/// The module with the fault and all modules that use it, together in one module; the others stay the reference's.
fn copy(name: &str, texts: &[(&str, String)], fault: Option<&Fault>) -> String {
    let copied = match fault {
        Some(fault) => users(fault.1, texts),
        None => MODULES.to_vec(),
    };
    let mut copy = format!("#[allow(dead_code, unused)]\nmod {name} {{\n");
    for (module, text) in texts.iter().filter(|(module, _)| copied.contains(module)) {
        let mut text = match fault {
            Some(fault) if fault.1 == *module => with_fault(text, fault),
            _ => text.clone(),
        };
        for used in &copied {
            text = text.replace(&format!("crate::{used}::"), &format!("super::{used}::"));
        }
        copy += &format!("pub mod {module} {{\n{}}}\n", text.replace("crate::", "::reference::"));
    }
    copy + "}\n"
}

/// The module and all modules that use it, also by way of others. Those of lexicons are copied only where the fault is in one of them,
/// since they take long to build; the count of derivations is used by none.
fn users<'a>(module: &'a str, texts: &[(&'a str, String)]) -> Vec<&'a str> {
    let of_lexicons = ["lexicon", "made", "schemes"];
    let can_use = |name: &str| name != DERIVATIONS && (of_lexicons.contains(&module) || !of_lexicons.contains(&name));
    let mut users = vec![module];
    loop {
        let uses = |text: &str| users.iter().any(|used| text.contains(&format!("crate::{used}::")));
        match texts.iter().find(|(name, text)| !users.contains(name) && can_use(name) && uses(text)) {
            Some((name, _)) => users.push(name),
            None => return users,
        }
    }
}

fn with_fault(text: &str, (name, module, right, wrong): &Fault) -> String {
    assert_eq!(text.matches(right).count(), 1, "fault '{name}': its text stands once in {module}.rs");
    text.replace(right, wrong)
}
