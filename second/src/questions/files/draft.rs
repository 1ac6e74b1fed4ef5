//! For trying what document 01 says about "The cage file", and document 02 in
//! "Form 2 files": a file as a list of fields, and every way to damage one.

use std::fmt::Display;

use super::{bases, bytes_of, ForeseenFile, TriedFile};
use crate::cage::Cage;
use crate::file::{fields_of, Field, Form, Tag, HEAD_LENGTH};
use crate::refusal::{Refusal, EXTRA, FIELD, SHORT};
use crate::weight::Weight;

/// A file in the making: its name, its form, and its fields with the tags they had
/// at first.
#[derive(Clone)]
pub(super) struct Draft {
    name: String,
    pub(super) form: Form,
    pub(super) fields: Vec<(Tag, Field)>,
}

/// A change of one field.
type Change = fn(&mut Field);

impl Draft {
    pub(super) fn form_1(name: impl Display, cage: &Cage) -> Draft {
        Draft::of(format!("form-1-{name}"), Form::One, cage, Weight::Short)
    }

    pub(super) fn form_2(name: impl Display, cage: &Cage, weight: Weight) -> Draft {
        let name = match weight {
            Weight::Short => format!("form-2-short-{name}"),
            Weight::Paper => format!("form-2-paper-{name}"),
        };
        Draft::of(name, Form::Two, cage, weight)
    }

    fn of(name: String, form: Form, cage: &Cage, weight: Weight) -> Draft {
        let fields = fields_of(form, cage, weight);
        let fields = form.tags().iter().copied().zip(fields).collect();
        Draft { name, form, fields }
    }

    /// Both forms of a cage's file, with the short weight.
    pub(super) fn both_forms(name: &str, cage: &Cage) -> [Draft; 2] {
        let form_2 = Draft::form_2(name, cage, Weight::Short);
        [Draft::form_1(name, cage), form_2]
    }

    /// The draft under a name that says what was done to it.
    pub(super) fn named(self, what: impl Display) -> Draft {
        let name = format!("{}-{what}", self.name);
        Draft { name, ..self }
    }

    /// The draft after a change of the field of this tag.
    pub(super) fn with(&self, tag: Tag, change: impl FnOnce(&mut Field)) -> Draft {
        let mut changed = self.clone();
        let field = changed.fields.iter_mut().find(|(own, _)| *own == tag);
        if let Some((_, field)) = field {
            change(field);
        }
        changed
    }

    /// The draft with another payload in the field of this tag, whose head follows.
    pub(super) fn with_payload(&self, tag: Tag, payload: Vec<u8>) -> Draft {
        self.with(tag, |field| *field = Field::new(tag, payload))
    }

    pub(super) fn tags(&self) -> Vec<Tag> {
        self.fields.iter().map(|&(tag, _)| tag).collect()
    }

    /// The offset of the head of this tag's field, or the file's length where there
    /// is none.
    pub(super) fn head(&self, tag: Tag) -> usize {
        let before = self.fields.iter().take_while(|(own, _)| *own != tag);
        before.map(|(_, field)| whole_length(field)).sum()
    }

    fn bytes(&self) -> Vec<u8> {
        bytes_of(self.fields.iter().map(|(_, field)| field))
    }

    /// The file, which reading has to refuse.
    pub(super) fn refused(self, number: u32, place: usize) -> ForeseenFile {
        let bytes = self.bytes();
        refused(self.name, bytes, Refusal::new(number, place))
    }

    /// The file, which has to be read, and to be moved where there is no refusal.
    pub(super) fn read(self, moving: Option<Refusal>) -> ForeseenFile {
        let bytes = self.bytes();
        ForeseenFile {
            file: TriedFile {
                name: self.name,
                bytes,
            },
            reading: None,
            moving,
        }
    }

    /// The file with each field damaged in turn, alone.
    pub(super) fn damages(&self) -> Vec<ForeseenFile> {
        let tags = self.tags().into_iter();
        tags.flat_map(|tag| self.damages_of(tag)).collect()
    }

    /// The file, which is refused once the field of this tag is whole, with each
    /// field damaged in turn. What is wrong up to there answers first, what is
    /// wrong after it does not show.
    pub(super) fn damages_around(&self, tag: Tag, found: Refusal) -> Vec<ForeseenFile> {
        let behind = |damaged: ForeseenFile| refused(damaged.file.name, damaged.file.bytes, found);
        let mut files = Vec::new();
        let mut is_before = true;
        for own in self.tags() {
            let damages = self.damages_of(own).into_iter();
            match is_before {
                true => files.extend(damages),
                false => files.extend(damages.map(behind)),
            }
            is_before &= own != tag;
        }
        files
    }

    /// Every way to damage the field of this tag, each with the refusal that it has
    /// where nothing before it is wrong.
    fn damages_of(&self, tag: Tag) -> Vec<ForeseenFile> {
        let mut damages = [self.wrong_heads(tag), self.cuts(tag)].concat();
        damages.extend(match tag {
            Tag::Weight => Some(self.wrong_weight()),
            Tag::End => Some(self.byte_after_the_end()),
            _ => None,
        });
        damages
    }

    /// Refusal 11: a wrong tag, a wrong length.
    fn wrong_heads(&self, tag: Tag) -> Vec<ForeseenFile> {
        let changes: [(&str, Change); 5] = [
            ("zero-tag", |field| field.tag = 0),
            ("next-tag", |field| field.tag += 1),
            ("longer", |field| {
                field.length = field.length.wrapping_add(1)
            }),
            ("shorter", |field| {
                field.length = field.length.wrapping_sub(1)
            }),
            ("far-length", |field| field.length ^= 256),
        ];
        let wrong = changes.map(|(what, change)| {
            let changed = self.with(tag, change).named(format!("{what}-at-{tag:?}"));
            changed.refused(FIELD, self.head(tag))
        });
        wrong.to_vec()
    }

    /// Refusal 10: cut before the head, in it, after it and before the last byte.
    fn cuts(&self, tag: Tag) -> Vec<ForeseenFile> {
        let (head, bytes) = (self.head(tag), self.bytes());
        let field = self.fields.iter().find(|(own, _)| *own == tag);
        let whole = field.map_or(0, |(_, field)| whole_length(field));
        let kept = (0..whole).filter(|&kept| kept <= HEAD_LENGTH || kept + 1 == whole);
        let cut = |kept: usize| {
            let name = format!("{}-cut-{kept}-into-{tag:?}", self.name);
            let bytes = bytes[..head + kept].to_vec();
            refused(name, bytes, Refusal::new(SHORT, head))
        };
        kept.map(cut).collect()
    }

    /// Refusal 11: the lowest byte that stands for no weight.
    fn wrong_weight(&self) -> ForeseenFile {
        let wrong = self.with_payload(Tag::Weight, vec![2]).named("weight-2");
        wrong.refused(FIELD, self.head(Tag::Weight))
    }

    /// Refusal 12.
    fn byte_after_the_end(&self) -> ForeseenFile {
        let mut bytes = self.bytes();
        let end = bytes.len();
        bytes.push(0);
        let name = format!("{}-byte-after-the-end", self.name);
        refused(name, bytes, Refusal::new(EXTRA, end))
    }
}

/// The bytes of a field, its head among them.
fn whole_length(field: &Field) -> usize {
    HEAD_LENGTH + field.payload.len()
}

fn refused(name: String, bytes: Vec<u8>, refusal: Refusal) -> ForeseenFile {
    ForeseenFile {
        file: TriedFile { name, bytes },
        reading: Some(refusal),
        moving: Some(refusal),
    }
}

/// Each field of each form damaged in turn, and nothing else wrong.
pub(super) fn damaged_fields() -> Vec<ForeseenFile> {
    let mut files = Vec::new();
    for (name, cage) in bases::small_and_large() {
        let drafts = Draft::both_forms(name, &cage);
        files.extend(drafts.iter().flat_map(Draft::damages));
    }
    files
}
