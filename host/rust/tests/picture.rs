//! The picture in docs/ is what the example draws now.

#[path = "../examples/picture/drawing.rs"]
mod drawing;

use ryebadger::{CageFile, Refined};

#[test]
fn the_picture_of_the_levels_is_up_to_date() {
    let file = include_bytes!("../../../cages/seamed-cushion.cage");
    let file = CageFile::read(file).expect("a cage file");
    let refined = Refined::new(file.cage.as_cage(), 3, file.weight).expect("accepted");
    // Not assert_eq, which would print both pictures.
    let drawn = drawing::svg(&refined) == include_str!("../../../docs/levels.svg");
    assert!(drawn, "docs/levels.svg is not what the example prints");
}
