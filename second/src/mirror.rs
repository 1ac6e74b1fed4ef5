//! Document 02, §5, "Left and right pads": the points of the other cushion of a
//! mirrored pair.

/// The points with every coordinate of this axis negated and all others kept: 0
/// is x, 1 is y, 2 is z, and no other number is an axis. They may be of any
/// length, also no multiple of 3. `i32::MIN` has no negation among the i32
/// numbers and stays as it is: it is out of range either way.
pub fn mirrored(points: &[i32], axis: usize) -> Vec<i32> {
    let coordinates = points.iter().enumerate();
    coordinates
        .map(|(index, &coordinate)| match index % 3 == axis {
            true => coordinate.wrapping_neg(),
            false => coordinate,
        })
        .collect()
}
