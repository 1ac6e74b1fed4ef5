//! For trying what document 02 says in "Cages as plain triangles": corner
//! numbers and points, of cages and of nothing.

mod doubled;
mod drawn;
mod faults;
mod renumbered;

pub use super::plain::PlainTriangles;

/// Corner numbers at which bits come to their end.
const TELLING: [u32; 16] = [
    0,
    1,
    2,
    2_047,
    2_048,
    4_095,
    4_096,
    4_097,
    65_535,
    65_536,
    1 << 20,
    (1 << 20) + 1,
    1 << 31,
    (1 << 31) + 1,
    u32::MAX - 1,
    u32::MAX,
];

/// Those that were chosen, then those that are drawn.
pub fn questions() -> Vec<PlainTriangles> {
    [
        faults::wrong_lengths(),
        faults::several_faults(),
        doubled::doubled_pairs(),
        renumbered::large_cages(),
        drawn::drawn_triangles(),
    ]
    .concat()
}
