//! For trying what document 02 says in "Form 2 files": check 3 "once tag 22's
//! payload is whole and before tag 23's head is looked at". In form 1 reading does
//! not run it, and the move finds it after all else that reading refuses.

use super::draft::Draft;
use super::{bases, ForeseenFile};
use crate::cage::{edges, Cage, MARKER};
use crate::file::Tag;
use crate::refusal::{Refusal, TWIN};
use crate::weight::Weight;

/// A halfedge, the twin that is put there, and the place of refusal 3.
type WrongTwin = (usize, u32, usize);

/// Twins past the table, the halfedge itself, and such as are not returned, also
/// for the twin that the halfedge had before.
fn bases_with_wrong_twins() -> [(&'static str, Cage, [WrongTwin; 4]); 3] {
    [
        (
            "triangle",
            bases::triangle(),
            [(0, 0, 0), (1, 65_534, 1), (2, 3, 2), (0, 1, 0)],
        ),
        (
            // Its twins are 5, 4, 3, 2, 1 and 0.
            "pillow",
            bases::pillow(),
            [(5, 5, 0), (4, 6, 1), (3, MARKER, 2), (1, 2, 1)],
        ),
        (
            // The twins 1 and 3, and no others.
            "creased-pair",
            bases::creased_pair(),
            [(1, MARKER, 3), (3, 2, 1), (5, 6, 5), (3, 3_072, 1)],
        ),
    ]
}

pub(super) fn refused_twins() -> Vec<ForeseenFile> {
    let mut files = Vec::new();
    for (name, cage, wrong_twins) in bases_with_wrong_twins() {
        for (h, twin, place) in wrong_twins {
            let name = format!("{name}-twin-{twin}-at-{h}");
            let mut spoiled = cage.clone();
            spoiled.twin[h] = twin;
            files.extend(around_check_3(&name, &spoiled, Refusal::new(TWIN, place)));
        }
    }
    files
}

/// The files of a cage that check 3 refuses, whole and with each field damaged.
/// Its crease table is as long as before, or as its edges are counted now.
fn around_check_3(name: &str, spoiled: &Cage, found: Refusal) -> Vec<ForeseenFile> {
    let place = found.place as usize;
    let mut files = Vec::new();
    let form_1 = Draft::form_1(name, spoiled);
    files.extend(form_1.damages());
    files.push(form_1.read(Some(found)));
    for weight in [Weight::Short, Weight::Paper] {
        let form_2 = Draft::form_2(name, spoiled, weight);
        files.extend(form_2.damages_around(Tag::Edge, found));
        let counted = vec![0; edges(&spoiled.twin)];
        let counted = form_2.with_payload(Tag::Creases, counted).named("counted");
        files.push(counted.refused(TWIN, place));
        let none = form_2.with_payload(Tag::Creases, vec![]).named("none");
        files.push(none.refused(TWIN, place));
        files.push(form_2.refused(TWIN, place));
    }
    files
}
