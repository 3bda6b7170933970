//! Weights change the sums and nothing else.

use reference::notation::places;
use reference::{Answer, Calls};

use crate::analyses::Analysis;
use crate::compare::{Difference, Done, Pair};
use crate::grammars::Made;
use crate::show::show_file;
use crate::tally::Call;

/// Two grammars that differ in their weights alone have the same answers, but for the sums.
pub fn change_sums_alone(pair: &mut Pair, one: &Made, other: &Made, input: &Analysis) -> Done {
    let answers = [one, other].map(|made| answers_but_sums(pair.tested, made, input));
    if let Some((a, b)) = answers[0].iter().zip(&answers[1]).find(|(a, b)| a != b) {
        let files = [one, other].map(|made| show_file(&made.file)).concat();
        let Analysis { sentence, tree, trace } = input;
        let input = format!("sentence {}\ntree {tree:?}\ntrace {trace:?}", places(sentence));
        let text = format!("other weights change the answer\n{a:?}\n{b:?}\n{input}\n{files}");
        return Err(Difference { call: a.0, text });
    }
    pair.tally.reweighed += 1;
    Ok(())
}

/// What each call but the weighing ones answers and writes; of the survey and the writer the answer alone, since figures are free and the
/// file has the weights.
fn answers_but_sums(tested: &dyn Calls, made: &Made, input: &Analysis) -> Vec<(Call, Answer, Vec<u16>)> {
    let Analysis { sentence, tree, trace } = input;
    let file = &made.file;
    let (node_limit, effort_limit) = (tree.len().clamp(1, 10) as u64, 60);
    let plain = |call: Call, answer: Answer| (call, answer, vec![]);
    let with_output = |call: Call, run: &dyn Fn(&mut [u16]) -> Answer| {
        let mut out = vec![7; 96];
        (call, run(&mut out), out)
    };
    vec![
        plain(Call::ReadGrammar, tested.read_grammar(file)),
        plain(Call::WriteGrammar, tested.write_grammar(&made.heading, &made.records, &mut vec![0; file.len()])),
        plain(Call::CheckTrace, tested.check_trace(file, sentence, trace)),
        plain(Call::CheckTree, tested.check_tree(file, sentence, tree)),
        with_output(Call::TraceToTree, &|out| tested.trace_to_tree(file, sentence, trace, out)),
        with_output(Call::TreeToTrace, &|out| tested.tree_to_trace(file, sentence, tree, out)),
        plain(Call::Count, tested.count(file, sentence, node_limit, effort_limit)),
        with_output(Call::Entry, &|out| tested.entry(file, sentence, node_limit, effort_limit, 0, out)),
        plain(Call::Survey, tested.survey(file, &mut [0; 96])),
    ]
}
