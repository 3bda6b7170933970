//! What each refusal says, in the words of README.md. The lines between begin and end are made by tools/refusals.

/// What the refusal of this number says.
// refusals: begin
pub fn refusal_text(number: u8) -> &'static str {
    match number {
        1 => "the file's length is not 512 times 1 to 14",
        2 => "a block's check is wrong",
        3 => "a block's number or its kind is wrong",
        4 => "a heading value is out of range, the start is no category of dimension 1, an unused heading byte is not 0, or the writer is not given 64 dimension bytes",
        5 => "the number of blocks or of record bytes is wrong (place 0), or a block's record count is",
        6 => "the rule's category or the category of a daughter does not exist, or it has more than 3 daughters",
        7 => "the category of a lexical rule has a dimension other than 1, or its word does not exist",
        8 => "the variables of a nonlexical rule do not occur once each, or its component lengths do not add up",
        9 => "an unused byte, or a byte of a field that the rule lacks, is not 0 (byte 23 of a record is its weight)",
        10 => "the rule equals an earlier one, as it is or with its daughters in another order and its variables renumbered to match, weight aside; of a lexicon: the entry equals an earlier one",
        11 => "the sentence has more than 96 places (place 96), or the lowest or the highest word of a place does not exist",
        12 => "the trace or tree has more than 96 numbers",
        13 => "there is no rule of this number",
        14 => "no prediction is left for the step",
        15 => "the rule is of another category than the front prediction",
        16 => "the rule's word is not the next one: it does not lie between the ends of the next place, or no place is left",
        17 => "more predictions are left than steps, or the trace has no steps",
        18 => "words are left at the end of the trace",
        19 => "the list ends before the tree does",
        20 => "the rule is of another category than its parent's rule asks for, or at the root than the start",
        21 => "numbers are left over after the tree",
        22 => "the tree's yield does not fit the sentence: it is shorter or longer, or a word of it lies outside its place",
        23 => "the output has room for fewer than 96 numbers, or, of the writer and of a made grammar, for fewer bytes than the file has",
        24 => "the node limit is not 1 to 96, or the effort limit is not 1 to 1,000,000,000",
        25 => "there are more live prefixes than the effort limit allows",
        26 => "the listing has no entry of this number",
        27 => "there is no such date, or the date or the day number lies outside 1 January 2000 to 31 December 2399",
        28 => "the term is over 600 months, or the opening day is after 31 December 2399",
        29 => "the lowest word of a place is above its highest",
        30 => "the lexicon's length is not 8 times 1 to 32, its word count is not 1 to 4,096 or its start is not 1 to 15; or an entry has no feature, a byte that is no feature, a byte after the 0 that is not 0, or a word that does not exist",
        31 => "the made grammar would have over 64 categories or 256 rules, those of the new start included, or neither form of the wanted category is derivable",
        _ => "no refusal has this number",
    }
}
// refusals: end
