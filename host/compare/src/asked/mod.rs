//! The three that are asked: the proved archive, the safe crate and the second
//! program.

mod archive;
mod safe_crate;
mod second_program;

use second::cage::Cage;
use second::halfedge::ThreeTables;
use second::weight::Weight;

pub use archive::Archive;
pub use safe_crate::SafeCrate;
pub use second_program::SecondProgram;

/// The operations of documents 01 and 02. Each gives the numbers of its answer:
/// number, place and values.
pub trait Operations {
    fn check(&self, cage: &Cage) -> Vec<u64>;
    /// The values are the clause, and the numbers that show it. A refusal has them
    /// too.
    fn why(&self, cage: &Cage) -> Vec<u64>;
    /// The answer is E alone.
    fn edges(&self, twin: &[u32]) -> Vec<u64>;
    fn counts(&self, numbers: [u64; 4]) -> Vec<u64>;
    fn corners(&self, vert: &[u32], triangle: u64) -> Vec<u64>;
    /// A depth, and a halfedge there.
    fn halfedge(&self, of: ThreeTables<'_>, depth: u64, halfedge: u64) -> Vec<u64>;
    fn refine(&self, cage: &Cage, depth: u64, weight: Weight, lent: &mut Cage) -> Vec<u64>;
    fn read(&self, file: &[u8], lent: &mut Cage) -> Vec<u64>;
    fn write(&self, cage: &Cage, lent_file: &mut [u8]) -> Vec<u64>;
    fn write_form_2(&self, cage: &Cage, weight: Weight, lent_file: &mut [u8]) -> Vec<u64>;
    fn to_form_2(&self, file: &[u8], lent_file: &mut [u8]) -> Vec<u64>;
    fn to_form_1(&self, file: &[u8], lent_file: &mut [u8]) -> Vec<u64>;
    /// Only TWIN and EDGE are lent.
    fn build(&self, vert: &[u32], points: &[i32], lent: &mut Cage) -> Vec<u64>;
    fn write_stl(&self, vert: &[u32], points: &[i32], lent_file: &mut [u8]) -> Vec<u64>;
}

/// The second program's tables, as the host library takes them.
pub fn handed(cage: &Cage) -> ryebadger::Cage<'_> {
    ryebadger::Cage {
        twin: &cage.twin,
        vert: &cage.vert,
        edge: &cage.edge,
        points: &cage.points,
        creases: Some(&cage.creases),
    }
}

/// The second program's three tables and V, as the host library takes them.
pub fn joined(of: ThreeTables<'_>) -> ryebadger::Connectivity<'_> {
    ryebadger::Connectivity {
        twin: of.twin,
        vert: of.vert,
        edge: of.edge,
        vertices: of.vertices,
    }
}

/// The second program's weight, as the safe crate takes it.
pub fn chosen(weight: Weight) -> ryebadger::Weight {
    match weight {
        Weight::Short => ryebadger::Weight::Short,
        Weight::Paper => ryebadger::Weight::Paper,
    }
}

/// The host library's level, as the second program has its tables.
pub fn owned(level: ryebadger::Cage<'_>) -> Cage {
    Cage {
        twin: level.twin.to_vec(),
        vert: level.vert.to_vec(),
        edge: level.edge.to_vec(),
        points: level.points.to_vec(),
        creases: level.crease_table().to_vec(),
    }
}

/// The second program's tables, as the host library is lent them.
pub fn lent(tables: &mut Cage) -> ryebadger::LentTables<'_> {
    ryebadger::LentTables {
        twin: &mut tables.twin,
        vert: &mut tables.vert,
        edge: &mut tables.edge,
        points: &mut tables.points,
        creases: &mut tables.creases,
    }
}

/// Number, place and values. Besides number and place everything in a refusal
/// is zero.
fn told<const N: usize>(answer: Result<[u64; N], [u64; 2]>) -> Vec<u64> {
    let (verdict, values) = match answer {
        Ok(values) => ([0, 0], values),
        Err(refusal) => (refusal, [0; N]),
    };
    [&verdict[..], &values[..]].concat()
}

/// H, E and V of seven levels, then the room in halfedges, in vertices and in
/// edges.
fn level_numbers(levels: [[u64; 7]; 3], room: [u64; 3]) -> [u64; 24] {
    let mut numbers = levels.into_iter().flatten().chain(room);
    std::array::from_fn(|_| numbers.next().unwrap_or_default())
}
