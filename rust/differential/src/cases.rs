//! One random case: a grammar with files, writer inputs, analyses and counts made from it, for sentences of single words and for unclear
//! ones, some dates, and a lexicon with what its grammar counts.

use reference::file::{heading_of, BLOCK};
use reference::listing::traces_of_trees;
use reference::live::live_prefixes;
use reference::sentence::test_sentence;

use crate::analyses::{self, Analysis};
use crate::compare::{Difference, Done, Pair};
use crate::damage;
use crate::dates;
use crate::grammars::{self, Made};
use crate::lexicons;
use crate::rng::Rng;
use crate::sentences;
use crate::show::show_file;
use crate::tally::Call;
use crate::unclear;
use crate::weights;

pub fn case(pair: &mut Pair, rng: &mut Rng) -> Done {
    let made = grammars::random(rng);
    files(pair, rng, &made)?;
    writer(pair, rng, &made)?;
    let most = rng.pick(&[4, 6, 8, 10, 12, 16, 30, 60, 96]);
    let analysis = analyses::random(rng, &made.grammar, most);
    if let Some(analysis) = &analysis {
        let heard = analysis.heard(rng, &made.grammar);
        right_analysis(pair, rng, &made, &heard)?;
        wrong_analyses(pair, rng, &made, analysis)?;
        unclear::counts(pair, rng, &made, analysis)?;
    }
    let sentence = match &analysis {
        Some(analysis) if rng.chance(80) => analysis.heard(rng, &made.grammar).sentence,
        _ => sentences::any(rng, &made.grammar),
    };
    let nodes = analysis.as_ref().map_or(3, |analysis| analysis.tree.len());
    counts(pair, rng, &made, &sentence, nodes)?;
    mixed(pair, rng, &made, analysis.as_ref())?;
    other_weights(pair, rng, &made, analysis.as_ref())?;
    dates::random(pair, rng)?;
    lexicons::random_calls(pair, rng)
}

/// The length of an output of numbers: mostly enough, often at the border.
fn output(rng: &mut Rng) -> usize {
    match rng.below(10) {
        0 => rng.from_to(0, 200),
        1 => rng.pick(&[0, 1, 94, 95]),
        2..=5 => 96,
        _ => rng.from_to(96, 200),
    }
}

fn files(pair: &mut Pair, rng: &mut Rng, made: &Made) -> Done {
    pair.read_grammar(&made.file)?;
    pair.survey(&made.file, rng.from_to(96, 130))?;
    pair.survey(&made.file, output(rng))?;
    for _ in 0..20 {
        let file = damage::damaged(rng, made);
        pair.read_grammar(&file)?;
        if rng.chance(20) {
            pair.survey(&file, output(rng))?;
        }
    }
    Ok(())
}

fn writer(pair: &mut Pair, rng: &mut Rng, made: &Made) -> Done {
    let length = made.file.len();
    round_trip_of_file(pair, made)?;
    pair.write_grammar(&made.heading, &made.records, length)?;
    pair.write_grammar(&made.heading, &made.records, length - 1)?;
    for _ in 0..6 {
        let (mut heading, mut records) = (made.heading.clone(), made.records.clone());
        for _ in 0..rng.pick(&[1, 1, 2]) {
            match rng.below(10) {
                0 => heading.categories = rng.pick(&[0, 64, 65, 255, heading.categories + 1, heading.categories - 1]),
                1 => heading.start = rng.pick(&[0, heading.categories, 255, heading.start + 1]),
                2 => heading.words = rng.pick(&[0, 1, 4096, 4097, 65_535]),
                3 => heading.rules = rng.pick(&[0, 1, 256, 257, 512, 65_535, heading.rules + 1, heading.rules - 1]),
                4 => {
                    let i = rng.below(heading.dimensions.len().max(1));
                    if i < heading.dimensions.len() {
                        heading.dimensions[i] = rng.pick(&[0, 1, 2, 4, 5, 255]);
                    }
                }
                5 => heading.dimensions.resize(rng.pick(&[0, 1, 63, 64, 65, 128]), 0),
                6 => records.resize(rng.pick(&[0, 1, 23, 24, records.len() + 1, records.len() + 24, records.len() / 2]), 0),
                7 => {
                    let (from, to) = (24 * damage::branching(rng, made), 24 * rng.below(made.grammar.rules.len()));
                    if from.max(to) + 24 <= records.len() {
                        damage::reordered_double(rng, made, &mut records, from, to);
                    }
                }
                _ if records.len() >= 24 => {
                    let r = 24 * rng.below(records.len() / 24);
                    damage::record(rng, made, &mut records[r..r + 24]);
                    let other = 24 * rng.below(records.len() / 24);
                    if rng.chance(20) {
                        damage::double(rng, &mut records, r, other);
                    }
                }
                _ => {}
            }
        }
        if rng.chance(20) {
            // as many record bytes as the heading says
            records.resize(24 * heading.rules as usize, 0);
        }
        let out = rng.pick(&[0, 512, length - 1, length, length, length + 1, length + 600, 14 * 512]);
        pair.write_grammar(&heading, &records, out)?;
    }
    Ok(())
}

/// The fields of the file, read off its bytes and written again, are the same bytes.
fn round_trip_of_file(pair: &mut Pair, made: &Made) -> Done {
    let heading = heading_of(&made.file[..BLOCK]);
    let rule_blocks = made.file[BLOCK..].chunks(BLOCK);
    let records: Vec<u8> = rule_blocks.flat_map(|block| &block[4..508]).copied().take(24 * heading.rules as usize).collect();
    let mut out = vec![0; made.file.len()];
    pair.tested.write_grammar(&heading, &records, &mut out);
    if out != made.file {
        return Err(Difference {
            call: Call::WriteGrammar,
            text: format!("a file written again is another one\n{}", show_file(&made.file)),
        });
    }
    pair.tally.round_trips += 1;
    Ok(())
}

fn right_analysis(pair: &mut Pair, rng: &mut Rng, made: &Made, analysis: &Analysis) -> Done {
    let Analysis { sentence, tree, trace } = analysis;
    pair.check_and_weigh_trace(&made.file, sentence, trace)?;
    pair.check_and_weigh_tree(&made.file, sentence, tree)?;
    pair.trace_to_tree(&made.file, sentence, trace, output(rng))?;
    pair.tree_to_trace(&made.file, sentence, tree, output(rng))?;
    round_trip_of_trace(pair, made, analysis)?;
    // each list taken for the other
    pair.check_and_weigh_trace(&made.file, sentence, tree)?;
    pair.check_and_weigh_tree(&made.file, sentence, trace)?;
    Ok(())
}

/// The trace's tree, and the trace of that tree, is the same trace.
fn round_trip_of_trace(pair: &mut Pair, made: &Made, Analysis { sentence, trace, .. }: &Analysis) -> Done {
    let (mut there, mut back) = ([0; 96], [0; 96]);
    pair.tested.trace_to_tree(&made.file, sentence, trace, &mut there);
    pair.tested.tree_to_trace(&made.file, sentence, &there[..trace.len()], &mut back);
    if back[..trace.len()] != trace[..] {
        return Err(Difference { call: Call::TreeToTrace, text: format!("the trace {trace:?} comes back as another one") });
    }
    pair.tally.round_trips += 1;
    Ok(())
}

fn wrong_analyses(pair: &mut Pair, rng: &mut Rng, made: &Made, analysis: &Analysis) -> Done {
    for _ in 0..10 {
        let sentence = sentences::near(rng, &made.grammar, &analysis.sentence);
        let trace = analyses::changed_list(rng, &made.grammar, &analysis.trace);
        let tree = analyses::changed_list(rng, &made.grammar, &analysis.tree);
        pair.check_and_weigh_trace(&made.file, &sentence, &trace)?;
        pair.check_and_weigh_tree(&made.file, &sentence, &tree)?;
        pair.trace_to_tree(&made.file, &sentence, &trace, output(rng))?;
        pair.tree_to_trace(&made.file, &sentence, &tree, output(rng))?;
    }
    for _ in 0..3 {
        let sentence = sentences::changed(rng, &made.grammar, &analysis.sentence);
        pair.check_and_weigh_trace(&made.file, &sentence, &analysis.trace)?;
        pair.check_and_weigh_tree(&made.file, &sentence, &analysis.tree)?;
    }
    for sentence in [
        sentences::just_missed(rng, &made.grammar, &analysis.sentence),
        sentences::with_wrong_places(rng, &made.grammar, &analysis.sentence),
    ] {
        pair.trace_to_tree(&made.file, &sentence, &analysis.trace, 96)?;
        pair.tree_to_trace(&made.file, &sentence, &analysis.tree, 96)?;
    }
    Ok(())
}

/// Counts and entries around the effort and the count of one sentence.
fn counts(pair: &mut Pair, rng: &mut Rng, made: &Made, sentence: &[u32], nodes: usize) -> Done {
    let any = rng.from_to(1, 96);
    let node_limit = rng.pick(&[nodes, nodes, nodes + 1, nodes + 2, nodes - 1, any, 96]).clamp(1, 96);
    let most = if made.grammar.rules.len() < 30 { rng.pick(&[300, 300, 300, 300, 1_000, 1_000, 1_000, 4_000]) } else { 300 };
    let n = node_limit as u64;
    let right = test_sentence(&made.grammar, sentence).is_ok();
    let Some(live) = right.then(|| live_prefixes(&made.grammar, sentence, node_limit, most)).flatten() else {
        for limit in [1, most / 2, most] {
            pair.count(&made.file, sentence, n, limit)?;
        }
        pair.entry(&made.file, sentence, (n, most), 0, output(rng))?;
        return Ok(());
    };
    if let Some(traces) = traces_of_trees(&made.grammar, sentence, node_limit, 5_000) {
        assert_eq!(traces, live.complete, "the reference's trees and live prefixes differ");
        pair.tally.agreements += 1;
    }
    let (effort, count) = (live.effort, live.complete.len() as u64);
    let other = rng.pick(&[0, 1, effort / 2, 1_000_000_000, 1_000_000_001, (1 << 32) + effort, u64::MAX]);
    for limit in [effort - 1, effort, effort + 1, other] {
        pair.count(&made.file, sentence, n, limit)?;
    }
    let no_sentence = [sentence, &[sentences::wrong_place(rng, &made.grammar)]].concat();
    pair.count(&made.file, &no_sentence, n, rng.pick(&[0, 1_000_000_001, u64::MAX]))?;
    pair.count(&made.file, &no_sentence, n, rng.pick(&[1, effort]))?;
    pair.entry(&made.file, &no_sentence, (n, effort), rng.pick(&[0, count]), 96)?;
    let far = rng.pick(&[0, 97, 256 + n, 65_536 + n, (1 << 32) + n, u64::MAX]);
    pair.count(&made.file, sentence, far, effort)?;
    for m in [0, count.saturating_sub(1), count, rng.next() % (count + 1)] {
        pair.entry(&made.file, sentence, (n, effort), m, output(rng))?;
    }
    let far = rng.pick(&[count + 1, 65_536, 1 << 32, u64::MAX]);
    pair.entry(&made.file, sentence, (n, effort), far, 96)?;
    pair.entry(&made.file, sentence, (n, effort - 1), rng.pick(&[0, count]), 96)?;
    unclear::beside_few_clear_ones(pair, &made.file, sentence, (n, effort), count)
}

/// A sentence and lists, each right or wrong by itself.
fn right_or_wrong(rng: &mut Rng, made: &Made, analysis: Option<&Analysis>) -> Analysis {
    let sentence = match (rng.below(4), analysis) {
        (0..=2, Some(analysis)) => sentences::near(rng, &made.grammar, &analysis.sentence),
        _ => sentences::any(rng, &made.grammar),
    };
    let (trace, tree) = match analysis {
        Some(analysis) if rng.chance(60) => (analysis.trace.clone(), analysis.tree.clone()),
        _ => (analyses::any_list(rng, &made.grammar), analyses::any_list(rng, &made.grammar)),
    };
    Analysis { sentence, tree, trace }
}

/// Every argument right or wrong by itself, so that two tests meet and the first one answers.
fn mixed(pair: &mut Pair, rng: &mut Rng, made: &Made, analysis: Option<&Analysis>) -> Done {
    for _ in 0..4 {
        let file = if rng.chance(70) { made.file.clone() } else { damage::damaged(rng, made) };
        let Analysis { sentence, tree, trace } = right_or_wrong(rng, made, analysis);
        let node_limit = rng.pick(&[0, 1, 5, tree.len() as u64, 96, 97, (1 << 32) + 5]);
        let effort_limit = rng.pick(&[0, 1, 30, 30, 100]);
        let m = rng.pick(&[0, 0, 1, 1 << 32]);
        pair.check_and_weigh_trace(&file, &sentence, &trace)?;
        pair.check_and_weigh_tree(&file, &sentence, &tree)?;
        pair.trace_to_tree(&file, &sentence, &trace, output(rng))?;
        pair.tree_to_trace(&file, &sentence, &tree, output(rng))?;
        pair.count(&file, &sentence, node_limit, effort_limit)?;
        pair.entry(&file, &sentence, (node_limit, effort_limit), m, output(rng))?;
    }
    Ok(())
}

/// The same grammar with another weight on one rule or on all.
fn other_weights(pair: &mut Pair, rng: &mut Rng, made: &Made, analysis: Option<&Analysis>) -> Done {
    let (one, all) = (rng.below(made.grammar.rules.len()), rng.chance(50));
    let other = made.with_weights(|rule| if all || rule == one { rng.byte() } else { made.grammar.rules[rule].weight });
    let input = right_or_wrong(rng, made, analysis);
    weights::change_sums_alone(pair, made, &other, &input)?;
    pair.check_and_weigh_trace(&other.file, &input.sentence, &input.trace)?;
    pair.check_and_weigh_tree(&other.file, &input.sentence, &input.tree)
}
