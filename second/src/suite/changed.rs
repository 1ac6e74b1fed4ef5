//! For trying what document 01 says in "Why a cage is sent back", and document
//! 02 in "Edges that stay sharp": accepted cages with one cell changed or two
//! cells exchanged, whatever the answer.

use crate::cage::{Cage, COORDINATE_LIMIT, MARKER};
use crate::creases::CREASE_LIMIT;
use crate::draw::Draw;

/// How often each accepted cage of at most this many halfedges is changed.
const CHANGES: usize = 5;
const MOST_HALFEDGES: usize = 60;

/// How often each of them that has creases is changed.
const CREASE_CHANGES: usize = 2;

/// Cages without creases, each changed cage with its name.
pub(super) fn changed_cages(accepted: &[(String, Cage)]) -> Vec<(String, Cage)> {
    let draw = &mut Draw::new(8);
    let change = |cage: &Cage| changed(cage, draw).without_creases();
    several_of_each(accepted, CHANGES, change)
}

/// Cages with creases, each changed cage with its name. Their creases stay as
/// they are where another table is changed.
pub(super) fn changed_creases(accepted: &[(String, Cage)]) -> Vec<(String, Cage)> {
    let draw = &mut Draw::new(60);
    let change = |cage: &Cage| match draw.once_in(3) {
        true => changed(cage, draw),
        false => with_changed_creases(cage, draw),
    };
    several_of_each(accepted, CREASE_CHANGES, change)
}

fn several_of_each(
    accepted: &[(String, Cage)],
    count: usize,
    mut change: impl FnMut(&Cage) -> Cage,
) -> Vec<(String, Cage)> {
    let mut cages = Vec::new();
    for (name, cage) in accepted {
        if cage.halfedge_count() <= MOST_HALFEDGES {
            cages.extend((0..count).map(|number| {
                let name = format!("{name}-changed-{number}");
                (name, change(cage))
            }));
        }
    }
    cages
}

/// The cage with a change in its crease table, now and then of its length.
fn with_changed_creases(cage: &Cage, draw: &mut Draw) -> Cage {
    let mut changed = cage.clone();
    let numbers = [0, 1, CREASE_LIMIT, CREASE_LIMIT + 1, draw.number() as u8];
    let length = changed.creases.len();
    match draw.below(8) {
        0 => changed.creases.resize(length + 1, draw.choice(0, &numbers)),
        1 => changed.creases.truncate(draw.place(length)),
        _ => change_table(&mut changed.creases, &numbers, draw),
    }
    changed
}

fn changed(cage: &Cage, draw: &mut Draw) -> Cage {
    let mut changed = cage.clone();
    let numbers = telling_numbers(cage, draw);
    let coordinates = telling_coordinates(draw);
    match draw.below(4) {
        0 => change_table(&mut changed.twin, &numbers, draw),
        1 => change_table(&mut changed.vert, &numbers, draw),
        2 => change_table(&mut changed.edge, &numbers, draw),
        _ => change_table(&mut changed.points, &coordinates, draw),
    }
    changed
}

/// One cell changed to one of these, or exchanged with another cell.
fn change_table<T: Copy>(table: &mut [T], cells: &[T], draw: &mut Draw) {
    let place = draw.place(table.len());
    if draw.once_in(3) {
        table.swap(place, draw.place(table.len()));
    } else {
        table[place] = draw.choice(table[place], cells);
    }
}

fn telling_numbers(cage: &Cage, draw: &mut Draw) -> [u32; 10] {
    let (h, e, v) = (
        cage.halfedge_count() as u32,
        cage.edge_count() as u32,
        cage.vertex_count() as u32,
    );
    let drawn = draw.number();
    [
        0,
        MARKER,
        h,
        h - 1,
        e,
        e - 1,
        v,
        v - 1,
        (drawn % u64::from(h)) as u32,
        drawn as u32,
    ]
}

fn telling_coordinates(draw: &mut Draw) -> [i32; 7] {
    [
        0,
        COORDINATE_LIMIT,
        -COORDINATE_LIMIT,
        COORDINATE_LIMIT + 1,
        -COORDINATE_LIMIT - 1,
        draw.number() as i32,
        i32::MIN,
    ]
}
