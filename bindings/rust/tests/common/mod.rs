//! What the tests of the wrapper share.

use causeylark::Refusal;

/// A refusal's sentence begins with its name, its number and its place, and ends as a sentence does.
pub fn is_a_sentence(refusal: Refusal) {
    let said = refusal.to_string();
    let begins = format!(
        "{}, number {}, at place {}: ",
        refusal.name(),
        refusal.number(),
        refusal.place()
    );
    assert!(said.starts_with(&begins) && said.ends_with('.'), "{said}");
}
