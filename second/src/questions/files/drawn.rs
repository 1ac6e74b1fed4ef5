//! For trying what document 01 says about "The cage file", and document 02 in
//! "Form 2 files": drawn changes of files of either form.

use super::{bases, form_1_file, form_2_file, TriedFile};
use crate::cage::Cage;
use crate::draw::Draw;
use crate::weight::Weight;

/// How many files are drawn.
const DRAWN: usize = 20_000;

/// Small files with up to three bytes changed, and now and then cut or longer.
/// They are made one by one.
pub fn drawn_files() -> impl Iterator<Item = TriedFile> {
    let mut draw = Draw::new(7);
    let files: Vec<Vec<u8>> = bases::small()
        .iter()
        .flat_map(|(_, cage)| files_of(cage))
        .collect();
    (0..DRAWN).map(move |number| TriedFile {
        name: format!("drawn-{number}"),
        bytes: changed(&files[draw.place(files.len())], &mut draw),
    })
}

fn files_of(cage: &Cage) -> [Vec<u8>; 3] {
    let [short, paper] = [Weight::Short, Weight::Paper].map(|weight| form_2_file(cage, weight));
    [form_1_file(cage), short, paper]
}

fn changed(file: &[u8], draw: &mut Draw) -> Vec<u8> {
    let mut bytes = file.to_vec();
    for _ in 0..draw.below(4) {
        let (offset, any) = (draw.place(bytes.len()), draw.number() as u8);
        bytes[offset] = draw.choice(any, &[0, 1, 2, 3, 0x23, 0x31, 255]);
    }
    let (length, cut) = (bytes.len(), draw.place(bytes.len()));
    let lengths = [length, length, length, length, length + 1, cut];
    bytes.resize(draw.choice(length, &lengths), 0);
    bytes
}
