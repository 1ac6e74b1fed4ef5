//! For trying in which order documents 01 and 02 have faults found: a question
//! without faults, and every set of faults in it.

use crate::refusal::Refusal;
use crate::suite::Expected;

/// Adds a fault and leaves what is there already; tells the place that its
/// refusal has.
type AddFault<Question> = fn(&mut Question) -> usize;

/// A fault with the number of its refusal.
pub(super) type Fault<Question> = (u32, AddFault<Question>);

/// A question with a set of faults: a name for the set, the question, and what it
/// has to meet.
pub(super) type WithFaults<Question> = (String, Question, Expected);

/// The question with every set of these faults, which stand in the order in which
/// they have to be found. The first of a set has to answer: the lowest place where
/// two have the same number.
pub(super) fn every_set<Question: Clone>(
    sound: &Question,
    faults: &[Fault<Question>],
) -> Vec<WithFaults<Question>> {
    let sets = 0..1_u32 << faults.len();
    sets.map(|bits| with_faults(sound, faults, bits)).collect()
}

/// The question with the faults of the bits that are set, the last added first.
fn with_faults<Question: Clone>(
    sound: &Question,
    faults: &[Fault<Question>],
    bits: u32,
) -> WithFaults<Question> {
    let name = format!("faults-{bits:0width$b}", width = faults.len());
    let mut question = sound.clone();
    let mut first: Option<(u32, usize)> = None;
    for (bit, &(number, add_fault)) in faults.iter().enumerate().rev() {
        if bits >> bit & 1 == 1 {
            let place = add_fault(&mut question);
            first = match first {
                Some((same, lower)) if same == number => Some((same, place.min(lower))),
                _ => Some((number, place)),
            };
        }
    }
    let expected = first.map_or(Expected::Accepted, |(number, place)| {
        Expected::Refused(Refusal::new(number, place))
    });
    (name, question, expected)
}
