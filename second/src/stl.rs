//! Document 02, §2, "STL out to the mill": any level as a binary STL file, and
//! level 0 of a cage file.

use crate::check::{check, lowest_bad_coordinate};
use crate::file::read_cage;
use crate::refusal::{refuse_if, Refusal, LIMIT, POINT, ROOM, SHAPE, VERTEX};
use crate::size::makes_triangles;

/// The longest VERT table that is written: that of the deepest level of the
/// largest cage.
pub const VERT_LIMIT: usize = 12_582_912;

/// The place of the STL file in refusal 9.
const STL_PLACE: usize = 6;

/// The zero bytes at the start, before the triangle count.
const ZEROS_LENGTH: usize = 80;

/// The bytes before the first facet.
const HEAD_LENGTH: usize = ZEROS_LENGTH + 4;

/// The bytes of a facet's normal, and of all of a facet.
const NORMAL_LENGTH: usize = 12;
const FACET_LENGTH: usize = 50;

/// The coordinates of a corner, in 1/1024 mm.
type Point = [i32; 3];

/// Writes the STL of a level to the front of a lent buffer: refusals 1, 2, 4, 8
/// and 9, or the file's length.
pub fn write_stl(vert: &[u32], points: &[i32], lent: &mut [u8]) -> Result<u64, Refusal> {
    refuse_bad_level(vert, points)?;
    let (triangles, _) = vert.as_chunks::<3>();
    let (points, _) = points.as_chunks::<3>();
    let length = stl_length(triangles.len());
    let part = lent
        .get_mut(..length)
        .ok_or(Refusal::new(ROOM, STL_PLACE))?;
    fill(part, triangles, points);
    Ok(length as u64)
}

/// The STL of level 0 of the cage in a cage file of either form, or the refusal
/// that the level lister prints.
pub fn level_0_stl(file: &[u8]) -> Result<Vec<u8>, Refusal> {
    let cage = read_cage(file)?.cage;
    check(&cage)?;
    let mut stl = vec![0; stl_length(cage.triangle_count())];
    write_stl(&cage.vert, &cage.points, &mut stl)?;
    Ok(stl)
}

/// The length of the STL of this many triangles.
fn stl_length(triangles: usize) -> usize {
    HEAD_LENGTH + FACET_LENGTH * triangles
}

/// Refusals 1, 2, 4 and 8. Nothing else of a cage is asked for.
fn refuse_bad_level(vert: &[u32], points: &[i32]) -> Result<(), Refusal> {
    let good = makes_triangles(vert.len() as u64) && points.len().is_multiple_of(3);
    refuse_if(!good, SHAPE, 0)?;
    refuse_if(vert.len() > VERT_LIMIT, LIMIT, 0)?;
    let vertices = points.len() / 3;
    if let Some(h) = vert.iter().position(|&v| v as usize >= vertices) {
        return Err(Refusal::new(VERTEX, h));
    }
    if let Some(index) = lowest_bad_coordinate(points) {
        return Err(Refusal::new(POINT, index));
    }
    Ok(())
}

/// Fills a part that is as long as the file.
fn fill(part: &mut [u8], triangles: &[[u32; 3]], points: &[Point]) {
    let (head, facets) = part.split_at_mut(HEAD_LENGTH);
    let (zeros, count) = head.split_at_mut(ZEROS_LENGTH);
    zeros.fill(0);
    count.copy_from_slice(&(triangles.len() as u32).to_le_bytes());
    let (facets, _) = facets.as_chunks_mut::<FACET_LENGTH>();
    for (facet, corners) in facets.iter_mut().zip(triangles) {
        *facet = facet_of(corners.map(|vertex| points[vertex as usize]));
    }
}

/// The bytes of a facet: its normal and its last word are zero.
fn facet_of(corners: [Point; 3]) -> [u8; FACET_LENGTH] {
    let mut facet = [0; FACET_LENGTH];
    let (floats, _) = facet[NORMAL_LENGTH..].as_chunks_mut::<4>();
    for (float, &units) in floats.iter_mut().zip(corners.as_flattened()) {
        *float = float_bits(units).to_le_bytes();
    }
    facet
}

/// The 32-bit float of a coordinate over 1024, put together from its sign, its
/// exponent and its fraction. A coordinate in range has no more bits than the
/// fraction has room for, so that none is lost.
fn float_bits(units: i32) -> u32 {
    const FRACTION_BITS: u32 = 23;
    const EXPONENT_OF_ONE: u32 = 127;
    let magnitude = units.unsigned_abs();
    let Some(highest_bit) = magnitude.checked_ilog2() else {
        return 0;
    };
    let sign = u32::from(units < 0) << 31;
    // 1024 is the tenth power of two.
    let exponent = (EXPONENT_OF_ONE + highest_bit - 10) << FRACTION_BITS;
    // The highest bit itself is not written.
    let fraction = (magnitude ^ (1 << highest_bit)) << (FRACTION_BITS - highest_bit);
    sign | exponent | fraction
}

#[cfg(test)]
mod tests {
    use super::float_bits;
    use crate::cage::COORDINATE_LIMIT;

    #[test]
    fn floats_bit_by_bit() {
        let known = [
            (0, 0x0000_0000),
            (1, 0x3A80_0000),
            (-1, 0xBA80_0000),
            (3, 0x3B40_0000),
            (512, 0x3F00_0000),
            (800, 0x3F48_0000),
            (1_023, 0x3F7F_C000),
            (1_024, 0x3F80_0000),
            (-1_025, 0xBF80_2000),
            (1_048_575, 0x447F_FFF0),
            (1_048_576, 0x4480_0000),
            (-1_048_576, 0xC480_0000),
        ];
        for (units, bits) in known {
            assert_eq!(float_bits(units), bits, "{units}");
        }
    }

    /// Over the whole coordinate range, each float times 1024 is the units, and
    /// there is no minus zero.
    #[test]
    fn every_float_is_exact() {
        for units in -COORDINATE_LIMIT..=COORDINATE_LIMIT {
            let float = f32::from_bits(float_bits(units));
            assert_eq!(f64::from(float) * 1_024.0, f64::from(units));
            assert_eq!(float.is_sign_negative(), units < 0, "{units}");
        }
    }
}
