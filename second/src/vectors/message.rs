//! The cases of `message_vectors`: messages, and bytes that are refused.

mod examples;
mod fields;
pub mod generated;
pub(super) mod levels;
mod lines;
pub(super) mod parts;
mod refusals;
pub(super) mod shapes;
pub(super) mod sizes;
pub(super) mod term;
pub(super) mod texts;

use std::collections::BTreeSet;

use super::{counted, Files};

/// All cases, one after the other, and the line each gives.
pub(super) fn files() -> Files {
    let cases = cases();
    Files {
        stdin: cases.iter().flat_map(|case| counted(case)).collect(),
        stdout: cases.iter().flat_map(|case| lines::line(case)).collect(),
    }
}

/// Every case once, in the order of the stored files.
pub fn cases() -> Vec<Vec<u8>> {
    let mut seen = BTreeSet::new();
    [shapes_and_fields(), limits_and_faults()]
        .into_iter()
        .flatten()
        .flatten()
        .filter(|case| seen.insert(case.clone()))
        .collect()
}

/// Examples, and every shape and field, right and wrong.
fn shapes_and_fields() -> Vec<Vec<Vec<u8>>> {
    vec![
        examples::bytes_at_the_edges(),
        examples::appendix_a(),
        shapes::kinds_and_options(),
        shapes::kinds(),
        shapes::tails_of_other_kinds(),
        shapes::replaced_items(),
        shapes::tagged_items(),
        shapes::wrong_counts(),
        shapes::false_claims(),
        shapes::maps_for_arrays(),
        shapes::long_heads(),
        shapes::cut_messages(),
        shapes::sequences(),
        shapes::pairs(),
        shapes::ends(),
        shapes::no_messages(),
        fields::numbers(),
        fields::near_numbers(),
        fields::counts_and_flags(),
        fields::option_numbers(),
        fields::addresses(),
        fields::protocols_and_ports(),
        fields::locators_in_places(),
    ]
}

/// Texts, levels and sizes, faults against each other, and random messages.
fn limits_and_faults() -> Vec<Vec<Vec<u8>>> {
    vec![
        texts::names(),
        texts::good_texts(),
        texts::bad_texts(),
        texts::unnamed_texts(),
        texts::long_names_and_bad_texts(),
        levels::values(),
        levels::faulty_heads(),
        levels::siblings(),
        levels::other_places(),
        sizes::filled(),
        sizes::many(),
        refusals::alone(),
        refusals::in_competition(),
        refusals::several(),
        refusals::over_long(),
        generated::messages(),
        generated::near_messages(),
    ]
}
