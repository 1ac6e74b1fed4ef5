//! For trying what document 02 says in "The weight from the paper": an inner
//! vertex of each valence from 2 to 32 and of 33, border vertices of as many
//! corners and more, and vertices of more than 32 corners in several orders. The
//! cage check accepts them all.

use super::shapes::{disc, double_pyramid, open_fan, pillow, twofold_pyramid};
use super::valid::with_drawn_points;
use crate::cage::{Cage, COORDINATE_LIMIT};
use crate::draw::Draw;
use crate::sew::{beside, sew, slit};

/// Each cage with its name.
pub(super) fn valence_cages() -> Vec<(String, Cage)> {
    let draw = &mut Draw::new(24);
    let mut cages = Vec::new();
    for valence in 2..=33 {
        let closed = with_far_hubs(closed(valence), valence, draw);
        let open = with_far_hubs(open(valence), valence, draw);
        cages.push((format!("closed-valence-{valence}"), closed));
        cages.push((format!("open-valence-{valence}"), open));
    }
    for (name, cage) in many_corners() {
        cages.push((name.to_string(), with_drawn_points(cage, draw)));
    }
    cages
}

/// Two hubs of this valence, on a rim of vertices of four corners.
pub(super) fn closed(valence: u32) -> Cage {
    match valence {
        2 => twofold_pyramid(),
        _ => double_pyramid(valence),
    }
}

/// A hub of this valence, inside a rim on the border.
pub(super) fn open(valence: u32) -> Cage {
    match valence {
        2 => slit(&pillow(), 0),
        _ => disc(valence),
    }
}

/// The cage with its rim at one end of the coordinates and its hubs, which come
/// after the rim, at the other: there a weight shows most. One coordinate in
/// four lies at the limit.
fn with_far_hubs(cage: Cage, rim: u32, draw: &mut Draw) -> Cage {
    let rim_sides = [(); 3].map(|()| draw.choice(1, &[-1]));
    let mut coordinate = |index: usize| {
        let from_limit = match draw.once_in(4) {
            true => 0,
            false => draw.below(300_000) as i32,
        };
        let is_on_rim = index < 3 * rim as usize;
        let side = rim_sides[index % 3] * if is_on_rim { 1 } else { -1 };
        side * (COORDINATE_LIMIT - from_limit)
    };
    Cage {
        points: (0..cage.points.len()).map(&mut coordinate).collect(),
        ..cage
    }
}

/// Vertices of more than 32 corners: on the border, where they may have any
/// number, and inside, of which the one with the lowest number has to be told.
fn many_corners() -> [(&'static str, Cage); 5] {
    let (border_33, inner_33) = (open_fan(33), disc(33));
    let twice = beside(&inner_33, &inner_33);
    [
        ("border-33-then-inner-33", beside(&border_33, &inner_33)),
        ("inner-32-then-inner-33", beside(&disc(32), &inner_33)),
        ("inner-33-twice-backwards", backwards(&twice)),
        ("border-valence-33", border_33),
        ("border-valence-1024", open_fan(1_024)),
    ]
}

/// The cage with its triangles in the opposite order, the last first.
fn backwards(cage: &Cage) -> Cage {
    let (triangles, _) = cage.vert.as_chunks::<3>();
    sew(triangles.iter().rev().copied())
}
