//! `picture FILE`: prints levels 0 to 3 of a cage file's cage as an SVG, with the
//! creases and the weight that the file has. What is drawn is what refining wrote.
//! `docs/levels.svg` is printed from `cages/seamed-cushion.cage`.

mod drawing;

use std::error::Error;

use ryebadger::{CageFile, Refined};

fn main() -> Result<(), Box<dyn Error>> {
    let path = std::env::args_os().nth(1).ok_or("usage: picture FILE")?;
    let file = CageFile::read(&std::fs::read(path)?)?;
    let refined = Refined::new(file.cage.as_cage(), 3, file.weight)?;
    print!("{}", drawing::svg(&refined));
    Ok(())
}
