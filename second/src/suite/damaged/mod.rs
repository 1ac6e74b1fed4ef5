//! For trying what document 01 says in "Why a cage is sent back", and what
//! document 02 adds to it: cages that break a rule at a known place.

mod cells;
mod clauses;
mod crease_order;
mod creases;
mod joined;
mod lengths;
mod valences;
mod wholes;

use super::{Expected, SuiteCage};
use crate::cage::Cage;
use crate::refusal::Refusal;

/// A damaged cage: its name, its tables, and the refusal it has to meet.
type Damaged = (String, Cage, Refusal);

pub(super) fn damaged_cages() -> Vec<SuiteCage> {
    let damaged = [
        lengths::wrong_lengths(),
        lengths::above_limits(),
        cells::wrong_cells(),
        joined::wrong_joined_cells(),
        wholes::wrong_vertices(),
        wholes::wrong_fans(),
        wholes::several_faults(),
        valences::faults_behind_many_corners(),
        creases::wrong_lengths(),
        creases::too_high(),
        creases::on_borders(),
        creases::two_wrong_numbers(),
        crease_order::among_other_faults(),
        crease_order::behind_many_corners(),
        clauses::broken_clauses(),
    ];
    let damaged = damaged.into_iter().flatten();
    damaged
        .map(|(name, cage, refusal)| SuiteCage {
            name,
            cage,
            expected: Expected::Refused(refusal),
        })
        .collect()
}

fn damaged(name: impl ToString, cage: Cage, number: u32, place: usize) -> Damaged {
    (name.to_string(), cage, Refusal::new(number, place))
}

/// The cage after a change, without creases, whatever its edges are now.
fn changed(cage: &Cage, change: impl FnOnce(&mut Cage)) -> Cage {
    let mut changed = cage.clone();
    change(&mut changed);
    changed.without_creases()
}
