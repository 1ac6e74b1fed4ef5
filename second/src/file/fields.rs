//! Document 01, "The cage file", and document 02, §7, "Form 2 files": the forms
//! of a file, the fields of each, and what stands in a file for a weight and for
//! no twin.

use crate::cage::{HALFEDGE_LIMIT, VERTEX_LIMIT};
use crate::weight::Weight;

/// The form of a cage file.
#[derive(Clone, Copy, Debug, PartialEq, Eq)]
pub enum Form {
    One = 1,
    Two = 2,
}

impl Form {
    /// The number that stands for it in the first field.
    pub const fn number(self) -> u16 {
        self as u16
    }

    /// The fields of a file of this form, in their order.
    pub(crate) const fn tags(self) -> &'static [Tag] {
        use Tag::*;
        match self {
            Form::One => &[First, Twin, Vert, Edge, Points, End],
            Form::Two => &[First, Twin, Vert, Edge, Creases, Points, Weight, End],
        }
    }
}

/// The tag of each field.
#[derive(Clone, Copy, Debug, PartialEq, Eq)]
pub(crate) enum Tag {
    First = 0x10,
    Twin = 0x20,
    Vert = 0x21,
    Edge = 0x22,
    Creases = 0x23,
    Points = 0x30,
    Weight = 0x31,
    End = 0x7F,
}

/// H, V and E, which the lengths of the payloads follow from.
#[derive(Clone, Copy, Default)]
pub(super) struct Counts {
    pub(super) halfedges: usize,
    pub(super) vertices: usize,
    pub(super) edges: usize,
}

impl Tag {
    /// The bytes of the field's payload.
    pub(super) const fn length(self, counts: Counts) -> usize {
        match self {
            Tag::First => 6,
            Tag::Twin | Tag::Vert | Tag::Edge => 2 * counts.halfedges,
            Tag::Creases => counts.edges,
            Tag::Points => 12 * counts.vertices,
            Tag::Weight => 1,
            Tag::End => 0,
        }
    }
}

/// A field as it stands in a file: its head, of a tag and a length, and its
/// payload, whatever the head says of it.
#[derive(Clone, Debug)]
pub(crate) struct Field {
    pub(crate) tag: u8,
    pub(crate) length: u16,
    pub(crate) payload: Vec<u8>,
}

impl Field {
    pub(crate) fn new(tag: Tag, payload: Vec<u8>) -> Field {
        Field {
            tag: tag as u8,
            length: payload.len() as u16,
            payload,
        }
    }

    pub(crate) fn bytes(&self) -> Vec<u8> {
        let [low, high] = self.length.to_le_bytes();
        [&[self.tag, low, high], &self.payload[..]].concat()
    }
}

/// The bytes of a field's head.
pub(crate) const HEAD_LENGTH: usize = 3;

/// What stands in the twin payload for no twin.
pub(super) const NO_TWIN: u16 = 65_535;

/// What stands in the weight payload: "0 short and 1 the paper's".
pub(super) const fn weight_byte(weight: Weight) -> u8 {
    match weight {
        Weight::Short => 0,
        Weight::Paper => 1,
    }
}

/// The length of the longest file of form 1 that is read.
pub const LONGEST_FORM_1: usize = longest(Form::One);

/// The length of the longest file of form 2 that is read.
pub const LONGEST_FORM_2: usize = longest(Form::Two);

/// As many halfedges and vertices as there may be. Where no halfedge has a twin,
/// there are as many edges.
const MOST: Counts = Counts {
    halfedges: HALFEDGE_LIMIT as usize,
    vertices: VERTEX_LIMIT as usize,
    edges: HALFEDGE_LIMIT as usize,
};

const fn longest(form: Form) -> usize {
    let mut length = 0;
    let mut tags = form.tags();
    while let [tag, rest @ ..] = tags {
        length += HEAD_LENGTH + tag.length(MOST);
        tags = rest;
    }
    length
}
