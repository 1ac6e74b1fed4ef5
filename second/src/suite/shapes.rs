//! For trying what document 01 says about "The cage": families of cages,
//! built as triangle lists, with all points at zero.

use std::collections::HashMap;

use crate::cage::Cage;
use crate::sew::{sew, sew_with_twins, Triangles};

pub(super) fn single_triangle() -> Cage {
    disjoint_triangles(1)
}

/// Triangles that share nothing: H, V and E are three times their number, and
/// each halfedge has its own number as vertex and as edge.
pub(super) fn disjoint_triangles(count: u32) -> Cage {
    let corners = |triangle: u32| [0, 1, 2].map(|corner| 3 * triangle + corner);
    sew((0..count).map(corners))
}

/// Two triangles back to back.
pub(super) fn pillow() -> Cage {
    sew([[0, 1, 2], [0, 2, 1]])
}

/// Triangles in a row, each sharing an edge with the next.
pub(super) fn strip(count: u32) -> Cage {
    let corners = |first: u32| match first % 2 {
        0 => [first, first + 1, first + 2],
        _ => [first + 1, first, first + 2],
    };
    sew((0..count).map(corners))
}

pub(super) fn tetrahedron() -> Cage {
    sew([[0, 1, 2], [0, 2, 3], [0, 3, 1], [1, 3, 2]])
}

/// A hub of this many corners inside a rim. Rim vertices come first.
pub(super) fn disc(corners: u32) -> Cage {
    sew(cone(corners, corners))
}

/// A hub of this many corners on the border.
pub(super) fn open_fan(corners: u32) -> Cage {
    sew((0..corners).map(|rim| [rim, rim + 1, corners + 1]))
}

/// Two hubs of this many corners on one rim.
pub(super) fn double_pyramid(corners: u32) -> Cage {
    let below = cone(corners, corners + 1).map(|[a, b, hub]| [b, a, hub]);
    sew(cone(corners, corners).chain(below))
}

fn cone(corners: u32, hub: u32) -> impl Iterator<Item = [u32; 3]> {
    (0..corners).map(move |rim| [rim, (rim + 1) % corners, hub])
}

/// Two hubs of two corners on a rim of two vertices, which are joined by two
/// edges.
pub(super) fn twofold_pyramid() -> Cage {
    sew_with_twins(
        vec![[0, 1, 2], [1, 0, 2], [1, 0, 3], [0, 1, 3]],
        vec![6, 5, 4, 9, 2, 1, 0, 11, 10, 3, 8, 7],
    )
}

pub(super) fn icosahedron() -> Cage {
    let lower = cone(5, 11).map(|[a, b, hub]| [b + 5, a + 5, hub]);
    let belt = (0..5).flat_map(|rim| {
        let after = (rim + 1) % 5;
        [[after, rim, rim + 5], [after, rim + 5, after + 5]]
    });
    sew(cone(5, 10).chain(lower).chain(belt))
}

/// Column and row of each cell, row by row.
pub(super) fn cells(columns: u32, rows: u32) -> impl Iterator<Item = (u32, u32)> {
    (0..rows).flat_map(move |row| (0..columns).map(move |column| (column, row)))
}

/// The two triangles of each cell of a sheet. The vertex numbers come from
/// `vertex`, and `leans` says which way a cell is cut.
pub(super) fn sheet(
    columns: u32,
    rows: u32,
    vertex: impl Fn(u32, u32) -> u32,
    mut leans: impl FnMut(u32, u32) -> bool,
) -> Triangles {
    let triangles = cells(columns, rows).flat_map(|(column, row)| {
        let (a, b) = (vertex(column, row), vertex(column + 1, row));
        let (c, d) = (vertex(column + 1, row + 1), vertex(column, row + 1));
        if leans(column, row) {
            [[a, b, d], [b, c, d]]
        } else {
            [[a, b, c], [a, c, d]]
        }
    });
    triangles.collect()
}

/// An open sheet, its vertices numbered row by row.
pub(super) fn open_sheet(
    columns: u32,
    rows: u32,
    leans: impl FnMut(u32, u32) -> bool,
) -> Triangles {
    let vertex = |column, row| row * (columns + 1) + column;
    sheet(columns, rows, vertex, leans)
}

pub(super) fn grid(columns: u32, rows: u32) -> Cage {
    sew(open_sheet(columns, rows, |_, _| false))
}

/// A grid closed round in one direction: two borders.
pub(super) fn tube(columns: u32, rows: u32) -> Cage {
    let vertex = |column, row| row * columns + column % columns;
    sew(sheet(columns, rows, vertex, |_, _| false))
}

/// A grid closed round in both directions, of any size. Its twins follow from
/// the cells, so that several edges may join the same two vertices.
pub(super) fn torus(columns: u32, rows: u32) -> Cage {
    let vertex = |column, row| (row % rows) * columns + column % columns;
    let triangles = sheet(columns, rows, vertex, |_, _| false);
    // In each cell: bottom, right, diagonal, then diagonal, top, left.
    let first = |column, row| 6 * vertex(column, row);
    let twin = cells(columns, rows).flat_map(|(column, row)| {
        let own = first(column, row);
        [
            first(column, row + rows - 1) + 4,
            first(column + 1, row) + 5,
            own + 3,
            own + 2,
            first(column, row + 1),
            first(column + columns - 1, row) + 1,
        ]
    });
    sew_with_twins(triangles, twin.collect())
}

/// A grid without its middle cells: an outer border and an inner one.
pub(super) fn frame(columns: u32, rows: u32) -> Cage {
    let is_middle = |&(column, row): &(u32, u32)| {
        (1..columns - 1).contains(&column) && (1..rows - 1).contains(&row)
    };
    let triangles = open_sheet(columns, rows, |_, _| false);
    let (pairs, _) = triangles.as_chunks::<2>();
    let kept = cells(columns, rows)
        .zip(pairs)
        .filter(|(cell, _)| !is_middle(cell));
    sew(without_gaps(kept.flat_map(|(_, pair)| *pair)))
}

/// The triangles with their vertices numbered anew in the order they appear.
pub(super) fn without_gaps(triangles: impl IntoIterator<Item = [u32; 3]>) -> Triangles {
    let mut numbers = HashMap::new();
    let mut number = |vertex: u32| {
        let fresh = numbers.len() as u32;
        *numbers.entry(vertex).or_insert(fresh)
    };
    let triangles = triangles.into_iter();
    triangles.map(|corners| corners.map(&mut number)).collect()
}
