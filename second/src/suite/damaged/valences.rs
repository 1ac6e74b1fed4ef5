//! For trying what document 02 says in "The weight from the paper": refusal 14
//! "after 7 and before 8". The cage check never gives it.

use super::wholes::several_faults;
use super::{damaged, Damaged};
use crate::refusal::{EDGE, FAN, POINT, TWIN, UNUSED, VERTEX};
use crate::sew::beside;
use crate::suite::shapes::disc;

/// An inner vertex of 33 corners, then every fault from one number up. Refining
/// with the paper's weight has to find the vertex before a fault of number 8 and
/// after all others.
pub(super) fn faults_behind_many_corners() -> Vec<Damaged> {
    let wheel = disc(33);
    let behind = several_faults().into_iter().map(|(name, cage, refusal)| {
        let before = match refusal.number {
            TWIN | VERTEX | EDGE => wheel.halfedge_count(),
            UNUSED | FAN => wheel.vertex_count(),
            POINT => wheel.points.len(),
            _ => 0,
        };
        let place = before + refusal.place as usize;
        let name = format!("valence-33-{name}");
        damaged(name, beside(&wheel, &cage), refusal.number, place)
    });
    behind.collect()
}
