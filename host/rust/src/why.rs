//! Document 02, "Say why": what the cage check sends a cage back for.

use std::error::Error;
use std::fmt;

use crate::operations::refuse;
use crate::{sys, Cage, Reason, Refusal};

/// Why the cage check sends a cage back.
///
/// Its text is the line that the program `ryebadger why` prints of a cage file.
///
/// ```
/// use ryebadger::{why, OwnedCage, Reason, Refusal};
///
/// let points = [0, 0, 0, 16, 0, 0, 0, 16, 0];
/// let mut pillow = OwnedCage::from_triangles(&[0, 1, 2, 0, 2, 1], &points)?;
/// pillow.edge[5] = 2;
/// let answer = why(pillow.as_cage()).unwrap();
/// assert_eq!(answer.refusal, Refusal::Edge { halfedge: 0 });
/// let differs = Reason::EdgeDiffersFromTwin { halfedge: 0, twin: 5, edge: 0, its_edge: 2 };
/// assert_eq!(answer.reason, Some(differs));
/// let line = "refused 6 0: halfedge 0 has twin 5, and edge 0 where its twin has edge 2";
/// assert_eq!(answer.to_string(), line);
/// # Ok::<(), Refusal>(())
/// ```
#[derive(Clone, Copy, Debug, PartialEq, Eq, Hash)]
pub struct Why {
    /// The check's own.
    pub refusal: Refusal,
    /// The first clause that holds at the refusal's place. Refusals 3 to 7 have
    /// clauses, the others none.
    pub reason: Option<Reason>,
}

/// Why the cage check sends this cage back, or nothing where it accepts it.
///
/// A cage file of form 2 may be refused by 3 while it is read. There is no cage to
/// ask about then; the program `ryebadger why` takes the file.
///
/// ```
/// use ryebadger::{why, Cage, MARKER};
///
/// let triangle = Cage {
///     twin: &[MARKER; 3],
///     vert: &[0, 1, 2],
///     edge: &[0, 1, 2],
///     points: &[0, 0, 0, 800, 0, 0, 0, 800, 0],
///     creases: None,
/// };
/// assert_eq!(why(triangle), None);
///
/// let stray = Cage { vert: &[0, 1, 3], ..triangle };
/// let line = "refused 4 2: corner 2 names vertex 3, past the 3 points";
/// assert_eq!(why(stray).unwrap().to_string(), line);
///
/// // 1, 2, 8 and later numbers have no clauses.
/// let creased = Cage { creases: Some(&[0, 1, 0]), ..triangle };
/// assert_eq!(why(creased).unwrap().to_string(), "refused 15 1");
/// ```
pub fn why(cage: Cage<'_>) -> Option<Why> {
    let mut answer = [0; sys::WHY_ANSWER];
    sys::why(cage, &mut answer);
    let refusal = refuse(answer[0], answer[1]).err()?;
    let reason = Reason::told(answer);
    Some(Why { refusal, reason })
}

impl Refusal {
    /// Why the check of this cage gives this refusal: the clause that holds at its
    /// place. Nothing where the check gives another answer, and for a refusal that
    /// has no clauses.
    ///
    /// ```
    /// use ryebadger::{check, Cage, Reason, MARKER};
    ///
    /// // Document 01's P7, two triangles that share nothing but a vertex.
    /// let bow_tie = Cage {
    ///     twin: &[MARKER; 6],
    ///     vert: &[0, 1, 2, 0, 3, 4],
    ///     edge: &[0, 1, 2, 3, 4, 5],
    ///     points: &[0; 15],
    ///     creases: None,
    /// };
    /// let refusal = check(bow_tie).unwrap_err();
    /// let not_joined = Reason::NotJoined { vertex: 0, lowest: 0, other: 3 };
    /// assert_eq!(refusal.reason(bow_tie), Some(not_joined));
    ///
    /// let apart = Cage { vert: &[0, 1, 2, 5, 3, 4], points: &[0; 18], ..bow_tie };
    /// assert_eq!(refusal.reason(apart), None);
    /// ```
    pub fn reason(&self, cage: Cage<'_>) -> Option<Reason> {
        why(cage).filter(|why| why.refusal == *self)?.reason
    }
}

impl fmt::Display for Why {
    fn fmt(&self, out: &mut fmt::Formatter<'_>) -> fmt::Result {
        let (number, place) = (self.refusal.number(), self.refusal.place());
        write!(out, "refused {number} {place}")?;
        match self.reason {
            Some(reason) => write!(out, ": {reason}"),
            None => Ok(()),
        }
    }
}

impl Error for Why {}
