//! For trying what document 02 says in "Edges that stay sharp": creases on cages
//! with few corners at a vertex, and where two edges join the same two vertices.

use crate::cage::Cage;
use crate::sew::slit;
use crate::suite::shapes::{pillow, torus, twofold_pyramid};

pub(super) fn doubled_edges() -> Vec<(String, Cage)> {
    let mut cages = on_pillows();
    cages.extend(on_twofold_pyramids());
    cages.extend(on_small_tori());
    cages
}

/// A base with several crease tables, each named after its numbers.
fn with_tables<const E: usize>(name: &str, base: &Cage, tables: &[[u8; E]]) -> Vec<(String, Cage)> {
    let cages = tables.iter().map(|numbers| {
        let words = numbers.map(|number| number.to_string());
        let creased = Cage {
            creases: numbers.to_vec(),
            ..base.clone()
        };
        (format!("{name}-{}", words.concat()), creased)
    });
    cages.collect()
}

/// One crease, two and three; and with the first edge cut open, which leaves two
/// border edges, 0 and 3, between the same two vertices.
fn on_pillows() -> Vec<(String, Cage)> {
    let closed = [[2, 0, 0], [0, 0, 3], [2, 2, 0], [2, 0, 1], [3, 3, 3]];
    let open = [[0, 2, 0, 0], [0, 2, 2, 0], [0, 1, 3, 0]];
    let mut cages = with_tables("pillow", &pillow(), &closed);
    cages.extend(with_tables("pillow-slit", &slit(&pillow(), 0), &open));
    cages
}

/// Edges 0 and 3 join the rim vertices 0 and 1; 1 and 2 are the spokes of the
/// hub 2, and 4 and 5 those of the hub 3.
fn on_twofold_pyramids() -> Vec<(String, Cage)> {
    let closed = [
        // Both of the two edges, also with different numbers, and one of them.
        [3, 0, 0, 3, 0, 0],
        [3, 0, 0, 1, 0, 0],
        [0, 0, 0, 3, 0, 0],
        // One of them and a spoke, both and a spoke.
        [2, 2, 0, 0, 0, 0],
        [2, 0, 3, 2, 0, 0],
        // Both spokes of one hub, of both hubs, and all.
        [0, 2, 2, 0, 0, 0],
        [0, 3, 1, 0, 2, 2],
        [2, 2, 2, 2, 2, 2],
    ];
    // Cut along the spoke 1, whose two sides are now the border edges 1 and 4.
    let open = [
        [3, 0, 0, 3, 0, 0, 0],
        [3, 0, 0, 0, 0, 0, 0],
        [1, 0, 2, 2, 0, 1, 0],
    ];
    let mut cages = with_tables("twofold", &twofold_pyramid(), &closed);
    cages.extend(with_tables(
        "twofold-slit",
        &slit(&twofold_pyramid(), 1),
        &open,
    ));
    cages
}

/// Every two neighbours are joined twice.
fn on_small_tori() -> Vec<(String, Cage)> {
    let tables = [
        [2, 0, 0, 0, 0, 0, 2, 0, 0, 0, 0, 0],
        [3, 0, 0, 0, 0, 0, 0, 0, 0, 0, 0, 0],
        [0, 1, 2, 3, 0, 0, 0, 0, 3, 0, 0, 0],
        [1, 2, 3, 1, 2, 3, 1, 2, 3, 1, 2, 3],
    ];
    with_tables("torus-2x2", &torus(2, 2), &tables)
}
