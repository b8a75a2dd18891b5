//! The six course errors of document 01, in its order.

use crate::plain::Shrinker;
use crate::wrong::nothing_as_zero::NothingAsZero;
use crate::wrong::one_member::{KeepsTheFirst, KeepsTheLast};
use crate::wrong::one_pass::OnePass;
use crate::wrong::split_by_finals::SplitByFinals;
use crate::wrong::summed_finals::SummedFinals;
use crate::wrong::written_zero::WrittenZero;

pub struct Error {
    pub title: &'static str,
    /// How it comes about.
    pub cause: &'static str,
    /// The step of the plain shrinker that is replaced.
    pub step: &'static str,
    pub source: &'static str,
    /// The wrong shrinkers, each with what it is called on the page. The tables are searched for
    /// with the first.
    pub shrinkers: &'static [(&'static str, &'static dyn Shrinker)],
    /// Why no tree's weight changes, if that is so for every table.
    pub keeps_weights: Option<&'static str>,
    /// The lemma that rules it out, and what its table is called.
    pub lemma: &'static str,
    pub table: &'static str,
    /// What the promise says instead.
    pub promise: &'static str,
}

const WRONG: &str = "the wrong shrinker";

pub const ALL: [Error; 6] = [
    ONE_PASS,
    ONE_MEMBER,
    SUMMED_FINALS,
    SPLIT_BY_FINALS,
    WRITTEN_ZERO,
    NOTHING_AS_ZERO,
];

const ONE_PASS: Error = Error {
    title: "Stopping after one pass",
    cause: "\
A pass parts the states of a block that differ in a sum. That makes new blocks, and sums over the new blocks can differ where
those over the old ones were equal. So the passes end when one parts nothing, and not before.",
    step: "blocks",
    source: include_str!("wrong/one_pass.rs"),
    shrinkers: &[(WRONG, &OnePass)],
    keeps_weights: None,
    lemma: "blocks_one_pass",
    table: "Table E of document 01 (P8), where 0 and 1 would merge",
    promise: "\
The blocks must be the coarsest, `CoarsestBlocks` in `crates/theory/specs/Direction.antt`: two states share one exactly if some
bisimulation relates them. After one pass states can share a block that no bisimulation relates.",
};

const ONE_MEMBER: Error = Error {
    title: "Keeping one member's transition",
    cause: "\
Where states merge, several transitions become one, and it weighs what they weigh together. If they go into a map one by one,
each takes the place of the one before, and the last is kept; if a taken place is left alone, the first is.",
    step: "transition_weight",
    source: include_str!("wrong/one_member.rs"),
    shrinkers: &[
        ("the one that keeps the last", &KeepsTheLast),
        ("the one that keeps the first", &KeepsTheFirst),
    ],
    keeps_weights: None,
    lemma: "collapse_keeps_one",
    table: "Table A of document 01 (P2), with 5 or 7 for 12",
    promise: "\
Each code must be that of a sum, `block_weight` in `crates/theory/specs/Collapse.antt`: backward over all children in the child
blocks, forward over all targets in the target's block.",
};

const SUMMED_FINALS: Error = Error {
    title: "Summing final weights in a forward collapse",
    cause: "\
Backward, the final weights of a block's members are added up. Forward they are all equal, and the block has that one: there the
transitions into the block have been added up, and to add the final weights too would count the members twice.",
    step: "final_weight",
    source: include_str!("wrong/summed_finals.rs"),
    shrinkers: &[(WRONG, &SummedFinals)],
    keeps_weights: None,
    lemma: "collapse_sums_finals",
    table: "Table D of document 01 (P7)",
    promise: "\
A block's final weight must be `block_final` in `crates/theory/specs/Collapse.antt`: backward the sum over the members, forward the
weight of any one of them.",
};

const SPLIT_BY_FINALS: Error = Error {
    title: "Splitting by final weights in a backward collapse",
    cause: "\
Forward, states with different final weights are apart before the first pass. Backward, final weights play no part: a collapse
adds them up. Whoever begins in both directions alike merges too little.",
    step: "first_blocks",
    source: include_str!("wrong/split_by_finals.rs"),
    shrinkers: &[(WRONG, &SplitByFinals)],
    keeps_weights: Some(
        "\
Nor does a larger one, nor any tree in another table: the blocks are a backward bisimulation, only not the coarsest, and every
bisimulation's collapse keeps all weights (`collapsed_value` in `crates/theory/proofs/KeptWeight.antt`). The error is that the table stays
larger than it need be, and no weighing finds it.",
    ),
    lemma: "blocks_split_by_finals",
    table: "Table G of `crates/collapse/specs/Shrinking.antt`",
    promise: "\
The blocks must be the coarsest, `CoarsestBlocks` in `crates/theory/specs/Direction.antt`, and what makes two states agree backward,
`AgreeBackward` in `crates/theory/specs/Direction.antt`, says nothing of final weights.",
};

const WRITTEN_ZERO: Error = Error {
    title: "Writing a transition whose sum wrapped to 0",
    cause: "\
No listed transition has weight zero, so it seems that no sum of them has. But modulo 2^32 a sum can come round to 0, as that of
1 and 4294967295 does. In arithmetic 1 it cannot: a greatest number is never nothing.",
    step: "is_written",
    source: include_str!("wrong/written_zero.rs"),
    shrinkers: &[(WRONG, &WrittenZero)],
    keeps_weights: Some(
        "\
A transition of weight zero adds nothing to a tree's weight, but a table has no place for it: each table has exactly one written
form, and that has no code 0 in a transition. The next program that reads these bytes refuses them.",
    ),
    lemma: "collapse_writes_zero",
    table: "Table D of document 01 (P7)",
    promise: "\
A collapse lists no code 0, `zeros_unlisted` in `crates/theory/specs/Collapse.antt`.",
};

const NOTHING_AS_ZERO: Error = Error {
    title: "Taking \"nothing\" for the number 0",
    cause: "\
In arithmetic 1 code 0 means nothing, which is below every number. Without a case of its own it falls under the rule for the other
codes: z is -1, which is odd, and -(z + 1)/2 is 0. Then a state with no final weight has the final weight 0, no maximum is below 0, and
a transition of weight 0 counts as not listed.",
    step: "meaning",
    source: include_str!("wrong/nothing_as_zero.rs"),
    shrinkers: &[(WRONG, &NothingAsZero)],
    keeps_weights: None,
    lemma: "collapse_nothing_as_zero",
    table: "Table C of document 01 (P6)",
    promise: "\
What a code means is `meaning` in `crates/theory/specs/Arithmetic.antt`, and there code 0 of arithmetic 1 means nothing. The sums are
those of the semiring `max_plus` in `crates/theory/specs/MaxPlus.antt`, whose zero is nothing.",
};
