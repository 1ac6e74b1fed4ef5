//! For trying what documents 01 and 02 say: the named cages, those to accept
//! and those to send back.

mod changed;
mod creased;
mod cushion;
mod damaged;
mod disguise;
mod drawn;
mod halves;
mod shapes;
mod valences;
mod valid;

use crate::cage::Cage;
use crate::refusal::Refusal;

/// What the cage check has to answer, as far as it is known beforehand.
#[derive(Clone, Copy, Debug, PartialEq, Eq)]
pub enum Expected {
    Accepted,
    Refused(Refusal),
    Unforeseen,
}

/// A cage of the suite.
#[derive(Clone, Debug)]
pub struct SuiteCage {
    pub name: String,
    pub cage: Cage,
    pub expected: Expected,
}

impl SuiteCage {
    /// Whether this cage has more than 200 halfedges.
    pub fn is_large(&self) -> bool {
        self.cage.halfedge_count() > 200
    }
}

/// The whole suite, the accepted cages first. No two have the same name.
pub fn suite() -> Vec<SuiteCage> {
    let drawn = drawn::accepted_cages();
    let (shaped, creased) = (shaped_cages(&drawn), creased_cages(&drawn));
    let unforeseen = [
        drawn::refused_cages(),
        changed::changed_cages(&shaped),
        changed::changed_creases(&creased),
    ];
    [
        accepted(shaped, creased),
        damaged::damaged_cages(),
        entries(unforeseen.concat(), Expected::Unforeseen),
    ]
    .concat()
}

/// The cages that have to be accepted: each as it was built, and each again
/// under other numbers.
pub fn accepted_cages() -> Vec<SuiteCage> {
    let drawn = drawn::accepted_cages();
    accepted(shaped_cages(&drawn), creased_cages(&drawn))
}

/// The cages without creases, those that are there for their points alone after
/// the others; then the cages with creases.
fn accepted(shaped: Vec<(String, Cage)>, creased: Vec<(String, Cage)>) -> Vec<SuiteCage> {
    let halves = with_disguised(halves::halves_cages());
    entries([shaped, halves, creased].concat(), Expected::Accepted)
}

/// The accepted cages without creases that are there for their tables too.
fn shaped_cages(drawn: &[(String, Cage)]) -> Vec<(String, Cage)> {
    let built = [
        valid::built_cages(),
        drawn.to_vec(),
        valences::valence_cages(),
    ];
    with_disguised(built.concat())
}

/// The accepted cages with creases.
fn creased_cages(drawn: &[(String, Cage)]) -> Vec<(String, Cage)> {
    with_disguised(creased::creased_cages(drawn))
}

/// Each cage as it was built, then each again under other numbers.
fn with_disguised(built: Vec<(String, Cage)>) -> Vec<(String, Cage)> {
    let disguised = (0..).zip(&built).map(|(seed, (name, cage))| {
        let name = format!("{name}-disguised");
        (name, disguise::disguised(cage, seed))
    });
    let disguised = disguised.collect();
    [built, disguised].concat()
}

fn entries(cages: Vec<(String, Cage)>, expected: Expected) -> Vec<SuiteCage> {
    let entry = |(name, cage)| SuiteCage {
        name,
        cage,
        expected,
    };
    cages.into_iter().map(entry).collect()
}

/// The cage of this name: of the suite, or the one that is there to be drawn.
pub fn cage_named(name: &str) -> Option<Cage> {
    if name == "seamed-cushion" {
        return Some(cushion::seamed_cushion());
    }
    let found = suite().into_iter().find(|entry| entry.name == name);
    found.map(|entry| entry.cage)
}
