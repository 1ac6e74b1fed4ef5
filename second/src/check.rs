//! Document 01, "Why a cage is sent back": the cage check, refusals 1 to 8; and
//! what document 02 adds in its place: 14 of §4, in refining alone, of §6 what is
//! said of the crease table by 1 and by 15, and of §8 the clause that holds. For
//! §9 refusals 1 to 7 are said of the three tables and V alone.

use crate::cage::{Cage, COORDINATE_LIMIT};
use crate::creases::lowest_bad_crease;
use crate::reason::Reason;
use crate::refusal::{
    refuse_if, Refusal, CREASE, EDGE, FAN, POINT, SHAPE, TWIN, UNUSED, VALENCE, VERTEX,
};
use crate::rules::{
    lowest_bad_edge, lowest_bad_fan, lowest_bad_twin, lowest_bad_vertex, lowest_unused_vertex,
    Fault,
};
use crate::size::{makes_triangles, refuse_above_limits};
use crate::three_tables::ThreeTables;
use crate::valence::lowest_inner_vertex_of_too_many_corners;
use crate::weight::Weight;

/// H, E, F, V and B of an accepted cage.
#[derive(Clone, Copy, Debug, PartialEq, Eq)]
pub struct CageCounts {
    pub halfedges: u64,
    pub edges: u64,
    pub triangles: u64,
    pub vertices: u64,
    pub borders: u64,
}

/// The cage check: refusals 1 to 8, and 15. It has no depth and no weight.
pub fn check(cage: &Cage) -> Result<CageCounts, Refusal> {
    Ok(check_with_reason(cage)?)
}

/// The cage check, which also tells the clause of a refusal.
pub(crate) fn check_with_reason(cage: &Cage) -> Result<CageCounts, Reason> {
    refuse_bad_shape(cage)?;
    refuse_bad_size(ThreeTables::of(cage), 0)?;
    refuse_broken_rules(cage)?;
    refuse_bad_points(cage)?;
    Ok(counts_of(cage))
}

/// The cage check without refusal 2, for levels larger than any cage.
pub fn check_any_size(cage: &Cage) -> Result<CageCounts, Refusal> {
    refuse_bad_shape(cage)?;
    refuse_broken_rules(cage)?;
    refuse_bad_points(cage)?;
    Ok(counts_of(cage))
}

/// The cage check for operations that take no crease table.
pub(crate) fn check_without_creases(cage: &Cage) -> Result<CageCounts, Refusal> {
    check(&cage.clone().without_creases())
}

/// Check 3 alone, for reading a file of form 2.
pub(crate) fn check_twins(cage: &Cage) -> Result<(), Reason> {
    refuse_bad_twins(ThreeTables::of(cage))
}

/// The checks of refining before there is a question of room: the cage check's,
/// with the depth in 2, and with the paper's weight 14 "after 7 and before 8",
/// "at any depth".
pub(crate) fn check_for_refining(
    cage: &Cage,
    depth: u64,
    weight: Weight,
) -> Result<CageCounts, Refusal> {
    refuse_bad_shape(cage)?;
    refuse_bad_size(ThreeTables::of(cage), depth)?;
    refuse_broken_rules(cage)?;
    if weight == Weight::Paper {
        let vertex = lowest_inner_vertex_of_too_many_corners(cage);
        refuse_fault(VALENCE, vertex.map(without_clause))?;
    }
    refuse_bad_points(cage)?;
    Ok(counts_of(cage))
}

/// "The check's 1 to 7 on these, with the depth limit in 2": on the three tables
/// and V, without points and creases.
pub(crate) fn check_tables(tables: ThreeTables<'_>, depth: u64) -> Result<(), Refusal> {
    refuse_if(!is_of_triangles(tables), SHAPE, 0)?;
    refuse_bad_size(tables, depth)?;
    refuse_bad_twins(tables)?;
    refuse_bad_vertices_and_edges(tables)?;
    Ok(refuse_bad_fans(tables)?)
}

fn counts_of(cage: &Cage) -> CageCounts {
    CageCounts {
        halfedges: cage.halfedge_count() as u64,
        edges: cage.edge_count() as u64,
        triangles: cage.triangle_count() as u64,
        vertices: cage.vertex_count() as u64,
        borders: cage.border_count() as u64,
    }
}

/// Refusal 1, save for the crease table.
fn refuse_bad_shape(cage: &Cage) -> Result<(), Refusal> {
    let good = is_of_triangles(ThreeTables::of(cage)) && cage.points.len().is_multiple_of(3);
    refuse_if(!good, SHAPE, 0)
}

/// Whether the three tables are of one length, and of whole triangles.
fn is_of_triangles(tables: ThreeTables<'_>) -> bool {
    let h = tables.halfedge_count();
    makes_triangles(h as u64) && tables.vert.len() == h && tables.edge.len() == h
}

/// Refusal 2. An operation without a depth asks with depth 0.
fn refuse_bad_size(tables: ThreeTables<'_>, depth: u64) -> Result<(), Refusal> {
    refuse_above_limits(tables.halfedge_count() as u64, tables.vertices, depth)
}

/// Refusals 3 to 7, with 1 for the crease table "after 3 and before 4" and 15
/// "after 6 and before 7". A rule may rely on the shape and on all rules before
/// it.
fn refuse_broken_rules(cage: &Cage) -> Result<(), Reason> {
    let tables = ThreeTables::of(cage);
    refuse_bad_twins(tables)?;
    refuse_if(cage.creases.len() != cage.edge_count(), SHAPE, 0)?;
    refuse_bad_vertices_and_edges(tables)?;
    refuse_fault(CREASE, lowest_bad_crease(cage).map(without_clause))?;
    refuse_bad_fans(tables)
}

/// Refusal 3.
fn refuse_bad_twins(tables: ThreeTables<'_>) -> Result<(), Reason> {
    refuse_fault(TWIN, lowest_bad_twin(tables))
}

/// Refusals 4, 5 and 6.
fn refuse_bad_vertices_and_edges(tables: ThreeTables<'_>) -> Result<(), Reason> {
    refuse_fault(VERTEX, lowest_bad_vertex(tables))?;
    refuse_fault(UNUSED, lowest_unused_vertex(tables))?;
    refuse_fault(EDGE, lowest_bad_edge(tables))
}

/// Refusal 7.
fn refuse_bad_fans(tables: ThreeTables<'_>) -> Result<(), Reason> {
    refuse_fault(FAN, lowest_bad_fan(tables))
}

/// Refusal 8.
fn refuse_bad_points(cage: &Cage) -> Result<(), Reason> {
    let index = lowest_bad_coordinate(&cage.points);
    refuse_fault(POINT, index.map(without_clause))
}

/// Refuses with this number where its rule is broken.
fn refuse_fault(number: u32, fault: Option<Fault>) -> Result<(), Reason> {
    match fault {
        Some((place, clause)) => Err(Reason {
            refusal: Refusal::new(number, place),
            clause,
        }),
        None => Ok(()),
    }
}

/// A fault of a rule that has no clauses.
fn without_clause(place: usize) -> Fault {
    (place, None)
}

pub(crate) fn lowest_bad_coordinate(points: &[i32]) -> Option<usize> {
    let range = -COORDINATE_LIMIT..=COORDINATE_LIMIT;
    points
        .iter()
        .position(|coordinate| !range.contains(coordinate))
}
