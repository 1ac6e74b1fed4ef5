//! For trying what document 01 says about "The cage file", and document 02 in
//! "Form 2 files": fields in another order, too few of them, too many, and of the
//! other form; and two that are wrong at once.

use super::draft::Draft;
use super::{bases, ForeseenFile};
use crate::file::Tag;
use crate::refusal::{EXTRA, FIELD, SHORT};
use crate::weight::Weight;

pub(super) fn misplaced_fields() -> Vec<ForeseenFile> {
    let mut files = Vec::new();
    for (name, cage) in bases::small() {
        for draft in Draft::both_forms(name, &cage) {
            files.extend(neighbours_exchanged(&draft));
            files.extend(each_left_out(&draft));
            files.extend(each_doubled(&draft));
        }
        let drafts = Draft::both_forms(name, &cage);
        files.extend(fields_of_form_2_in_form_1(&drafts));
    }
    files
}

/// Among them 23 hex before 22 and 31 before 30. The first of the two answers.
fn neighbours_exchanged(draft: &Draft) -> Vec<ForeseenFile> {
    let tags = draft.tags();
    let exchanged = (1..tags.len()).map(|at| {
        let (first, second) = (tags[at - 1], tags[at]);
        let mut exchanged = draft.clone();
        exchanged.fields.swap(at - 1, at);
        let exchanged = exchanged.named(format!("{second:?}-before-{first:?}"));
        exchanged.refused(FIELD, draft.head(first))
    });
    exchanged.collect()
}

/// The field after it answers, and where there is none, the end of the file.
fn each_left_out(draft: &Draft) -> Vec<ForeseenFile> {
    let left_out = draft.tags().into_iter().enumerate().map(|(at, tag)| {
        let mut fewer = draft.clone();
        fewer.fields.remove(at);
        let number = if tag == Tag::End { SHORT } else { FIELD };
        let fewer = fewer.named(format!("without-{tag:?}"));
        fewer.refused(number, draft.head(tag))
    });
    left_out.collect()
}

/// The second of the two answers.
fn each_doubled(draft: &Draft) -> Vec<ForeseenFile> {
    let doubled = draft.tags().into_iter().enumerate().map(|(at, tag)| {
        let field = draft.fields[at].clone();
        let place = draft.head(tag) + field.1.bytes().len();
        let mut doubled = draft.clone();
        doubled.fields.insert(at, field);
        let number = if tag == Tag::End { EXTRA } else { FIELD };
        doubled
            .named(format!("{tag:?}-twice"))
            .refused(number, place)
    });
    doubled.collect()
}

/// Tag 23 or 31 hex where form 2 has it. The head of the field answers, which
/// stands where that of the next was.
fn fields_of_form_2_in_form_1([form_1, form_2]: &[Draft; 2]) -> Vec<ForeseenFile> {
    let strangers = [(Tag::Creases, Tag::Points), (Tag::Weight, Tag::End)];
    let strange = strangers.into_iter().flat_map(|(tag, next)| {
        let field = form_2.fields.iter().find(|(own, _)| *own == tag).cloned();
        let at = form_1.tags().iter().position(|&own| own == next);
        let (field, at) = field.zip(at)?;
        let mut more = form_1.clone();
        more.fields.insert(at, field);
        let more = more.named(format!("with-{tag:?}"));
        Some(more.refused(FIELD, form_1.head(next)))
    });
    strange.collect()
}

/// Any two fields, one with a wrong tag, then one with a wrong length: the first
/// answers.
pub(super) fn two_wrong_heads() -> Vec<ForeseenFile> {
    let cage = bases::creased_pair();
    let mut files = Vec::new();
    for draft in [
        Draft::form_1("creased-pair", &cage),
        Draft::form_2("creased-pair", &cage, Weight::Paper),
    ] {
        let tags = draft.tags();
        for (at, &first) in tags.iter().enumerate() {
            files.extend(tags[at + 1..].iter().map(|&second| {
                let wrong = draft.with(first, |field| field.tag = 0);
                let both = wrong.with(second, |field| field.length ^= 1);
                let both = both.named(format!("wrong-{first:?}-and-{second:?}"));
                both.refused(FIELD, draft.head(first))
            }));
        }
    }
    files
}
