//! The theorems that state the client's demands and what documents 01 and 02 claim.

use crate::sources::{Id, Sources};

/// Where they stand (a file, or a folder with the file), and their names.
const THEOREMS: &[(&str, &[&str])] = &[
    (
        "collapse/specs/Sequences.antt",
        &[
            "done_collapsing",
            "weights_kept",
            "same_bytes",
            "same_bytes_with_room",
            "shrink_kept",
        ],
    ),
    ("collapse/specs/Examples.antt", &["examples"]),
    (
        "collapse/specs/Enough.antt",
        &["blocks_enough", "collapse_enough", "shrink_enough"],
    ),
    (
        "collapse/specs/Wrong.antt",
        &["collapse_refusal", "shrink_refusal"],
    ),
    (
        "roundtrip/specs/",
        &[
            "one_form",
            "table_sound",
            "table_complete",
            "one_table",
            "table_length",
            "longest",
            "written_means",
            "written_fewest",
            "table-codes",
            "codes_occur",
            "table_means",
        ],
    ),
    ("answers/proofs/Numbers.antt", &["in_range"]),
    ("roundtrip/proofs/Length.antt", &["read_length"]),
    (
        "roundtrip/proofs/Reach.antt",
        &["later_bytes", "figure_fits"],
    ),
    (
        "numbers/proofs/Causes.antt",
        &["number_cause", "cause_refused", "never_padded_and_large"],
    ),
    (
        "trees/specs/Written.antt",
        &["sound", "complete", "one_tree"],
    ),
    ("weigh/specs/Sheets.antt", &["sheet_entry"]),
    ("weigh/specs/Far.antt", &["weigh_near"]),
    ("weigh/specs/Wrong.antt", &["weigh_refusal"]),
    ("peristhox/specs/Faces.antt", &["face_collapsing"]),
    ("peristhox/specs/Alike.antt", &["weighed_alike"]),
    (
        "peristhox/specs/Told.antt",
        &[
            "check_tells",
            "rewrite_tells",
            "weigh_tells",
            "blocks_tells",
            "collapse_tells",
            "shrink_tells",
        ],
    ),
    ("theory/proofs/Laws.antt", &["laws", "semiring"]),
    ("theory/proofs/Bound.antt", &["weight_bound"]),
    ("theory/specs/Equivalence.antt", &["equivalence_blocks"]),
];

/// The files below proofs/ that hold such theorems. An edit of a definition makes them fail, and the gate reads that as a refusal only
/// where they stand there.
pub fn proof_files() -> impl Iterator<Item = &'static str> {
    THEOREMS
        .iter()
        .map(|(place, _)| *place)
        .filter(|place| place.contains("/proofs/"))
}

/// What the statements of these theorems name, the parameters of the modules that they stand in included.
pub fn roots(sources: &Sources) -> Result<Vec<Id>, String> {
    let mut found = Vec::new();
    for (place, names) in THEOREMS {
        for name in *names {
            match &sources.find(place, name)[..] {
                [theorem] => {
                    // one that is itself a definition holds proofs: a law that it names is checked and not believed
                    let holds_proofs = sources.item(theorem).is_definition();
                    let named = sources.named_by(theorem)?.into_iter();
                    found.extend(
                        named.filter(|id| !holds_proofs || sources.item(id).is_definition()),
                    );
                }
                [] => return Err(format!("{place} has no theorem {name}")),
                _ => return Err(format!("{place} has more than one theorem {name}")),
            }
        }
    }
    Ok(found)
}
