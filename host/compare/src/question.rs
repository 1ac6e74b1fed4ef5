//! What can be asked, and the tables and buffers that are lent for it.

use second::cage::Cage;
use second::halfedge::ThreeTables;
use second::weight::Weight;

use crate::{lengths_of, Operations, Outcome};

/// Both weights that refining takes.
pub const WEIGHTS: [Weight; 2] = [Weight::Short, Weight::Paper];

/// The places of refusal 9 that stand for the five lent tables.
pub const PLACES: [u64; 5] = [1, 2, 3, 4, 7];

/// One call of a public operation, with the lengths of what is lent.
#[derive(Clone, Copy, Debug)]
pub enum Question<'a> {
    /// The cage check.
    Check(&'a Cage),
    /// Why the check sends a cage back.
    Why(&'a Cage),
    /// E of a TWIN table.
    Edges(&'a [u32]),
    /// The count question: H, E, V and a depth.
    Counts([u64; 4]),
    /// The corner question: a VERT table and a triangle.
    Corners(&'a [u32], u64),
    /// One halfedge at a depth, of three tables and V: the depth, and the halfedge.
    Halfedge(ThreeTables<'a>, u64, u64),
    /// Refining to a depth with a weight, into tables of these lengths.
    Refine(&'a Cage, u64, Weight, [usize; 5]),
    /// Reading a file into tables of these lengths.
    Read(&'a [u8], [usize; 5]),
    /// Writing form 1 into a buffer of this length.
    Write(&'a Cage, usize),
    /// Writing form 2 with a weight, into a buffer of this length.
    WriteForm2(&'a Cage, Weight, usize),
    /// Moving a file to form 2, into a buffer of this length.
    ToForm2(&'a [u8], usize),
    /// Moving a file to form 1, into a buffer of this length.
    ToForm1(&'a [u8], usize),
    /// Building from a VERT table and points, into a TWIN and an EDGE table of
    /// these lengths.
    Build(&'a [u32], &'a [i32], [usize; 2]),
    /// Writing a VERT table and points as STL, into a buffer of this length.
    WriteStl(&'a [u32], &'a [i32], usize),
}

impl Question<'_> {
    /// Lends marked tables or a marked buffer, and asks.
    pub fn put_to(&self, asked: &dyn Operations) -> Outcome {
        let (mut tables, mut file) = (
            marked_tables(self.table_lengths()),
            marked_file(self.file_length()),
        );
        let answer = match *self {
            Question::Check(cage) => asked.check(cage),
            Question::Why(cage) => asked.why(cage),
            Question::Edges(twin) => asked.edges(twin),
            Question::Counts(numbers) => asked.counts(numbers),
            Question::Corners(vert, triangle) => asked.corners(vert, triangle),
            Question::Halfedge(of, depth, halfedge) => asked.halfedge(of, depth, halfedge),
            Question::Refine(cage, depth, weight, _) => {
                asked.refine(cage, depth, weight, &mut tables)
            }
            Question::Read(bytes, _) => asked.read(bytes, &mut tables),
            Question::Write(cage, _) => asked.write(cage, &mut file),
            Question::WriteForm2(cage, weight, _) => asked.write_form_2(cage, weight, &mut file),
            Question::ToForm2(bytes, _) => asked.to_form_2(bytes, &mut file),
            Question::ToForm1(bytes, _) => asked.to_form_1(bytes, &mut file),
            Question::Build(vert, points, _) => asked.build(vert, points, &mut tables),
            Question::WriteStl(vert, points, _) => asked.write_stl(vert, points, &mut file),
        };
        Outcome {
            answer,
            tables,
            file,
        }
    }

    /// The lengths of the tables that are lent.
    fn table_lengths(&self) -> [usize; 5] {
        match *self {
            Question::Refine(.., lengths) | Question::Read(_, lengths) => lengths,
            Question::Build(.., [twin, edge]) => [twin, 0, edge, 0, 0],
            _ => [0; 5],
        }
    }

    /// The length of the buffer that is lent.
    fn file_length(&self) -> usize {
        match *self {
            Question::Write(_, length)
            | Question::WriteForm2(.., length)
            | Question::ToForm2(_, length)
            | Question::ToForm1(_, length)
            | Question::WriteStl(.., length) => length,
            _ => 0,
        }
    }

    /// The question in a few words, its tables by their lengths.
    pub fn brief(&self) -> String {
        let lengths = |cage: &Cage| {
            let [twin, vert, edge, points, creases] = lengths_of(cage);
            format!("{twin}, {vert} and {edge} cells, {points} coordinates and {creases} creases")
        };
        match self {
            Question::Check(cage) => format!("check of {}", lengths(cage)),
            Question::Why(cage) => format!("why of {}", lengths(cage)),
            Question::Edges(twin) => format!("edges of {} twins", twin.len()),
            Question::Counts(numbers) => format!("counts of {numbers:?}"),
            Question::Corners(vert, triangle) => format!("corners of {triangle} in {vert:?}"),
            Question::Halfedge(of, depth, halfedge) => {
                let [twin, vert, edge] = [of.twin, of.vert, of.edge].map(<[u32]>::len);
                let of = format!("{twin}, {vert} and {edge} cells with V {}", of.vertices);
                format!("halfedge {halfedge} at {depth} of {of}")
            }
            Question::Refine(cage, depth, weight, lent) => {
                let of = lengths(cage);
                format!("refining of {of} to {depth} with {weight:?} into {lent:?}")
            }
            Question::Read(file, lent) => format!("reading of {} bytes into {lent:?}", file.len()),
            Question::Write(cage, lent) => format!("writing of {} into {lent}", lengths(cage)),
            Question::WriteForm2(cage, weight, lent) => {
                format!("form 2 of {} with {weight:?} into {lent}", lengths(cage))
            }
            Question::ToForm2(file, lent) => format!("{} bytes to form 2 into {lent}", file.len()),
            Question::ToForm1(file, lent) => format!("{} bytes to form 1 into {lent}", file.len()),
            Question::Build(vert, points, lent) => {
                let (h, coordinates) = (vert.len(), points.len());
                format!("building of {h} and {coordinates} coordinates into {lent:?}")
            }
            Question::WriteStl(vert, points, lent) => {
                let (h, coordinates) = (vert.len(), points.len());
                format!("STL of {h} and {coordinates} coordinates into {lent}")
            }
        }
    }
}

/// Tables of these lengths to lend. A cell can be told from its neighbours and
/// from the same cell of another table, and no crease has the number that one is
/// marked with, so that any change of a cell shows.
pub fn marked_tables(lengths: [usize; 5]) -> Cage {
    let cells = |salt: u32, length: usize| (0..length as u32).map(move |at| at ^ salt).collect();
    Cage {
        twin: cells(0xAAAA_0000, lengths[0]),
        vert: cells(0xBBBB_0000, lengths[1]),
        edge: cells(0xCCCC_0000, lengths[2]),
        points: (0..lengths[3] as i32).map(|at| -2_000_000 - at).collect(),
        creases: marks(11..=255, lengths[4]),
    }
}

/// A file buffer of this length to lend.
fn marked_file(length: usize) -> Vec<u8> {
    marks((0..251).map(|at| at ^ 0xA5), length)
}

/// So many bytes, these over and over.
fn marks(bytes: impl IntoIterator<Item = u8>, length: usize) -> Vec<u8> {
    let bytes: Vec<u8> = bytes.into_iter().collect();
    let mut marks = bytes.repeat(length / bytes.len() + 1);
    marks.truncate(length);
    marks
}
