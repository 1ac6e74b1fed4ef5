//! The command line of the second program. The level lister of document 01
//! is `second list`, the count question `second counts`, the disk program of
//! document 02, §2 `second stl`, the entries of its §4 `second weights`, the moves
//! of its §7 `second form-2` and `second form-1`, the tool of its §8 `second why`;
//! the other commands are for comparing and trying.

use std::io::{self, Read, Write};
use std::process::ExitCode;

use second::cage::Cage;
use second::check::{check, CageCounts};
use second::counter::count_levels;
use second::file::{to_form_1, to_form_2, write_cage_file, write_form_2_file, LONGEST_FORM_2};
use second::lister::list_levels;
use second::refusal::Refusal;
use second::stl::level_0_stl;
use second::suite::{cage_named, suite, SuiteCage};
use second::weight::{paper_part, Weight, VALENCES};
use second::why::why_line;

const USAGE: &str =
    "usage: second list | second counts | second stl | second weights | second why \
     | second form-2 | second form-1 | second cage NAME [short | paper] | second suite";

fn main() -> ExitCode {
    let words: Option<Vec<String>> = std::env::args_os()
        .skip(1)
        .map(|word| word.into_string().ok())
        .collect();
    let words = words.unwrap_or_default();
    let words: Vec<&str> = words.iter().map(String::as_str).collect();
    match output(&words).and_then(|bytes| print(&bytes)) {
        Ok(()) => ExitCode::SUCCESS,
        Err(trouble) => trouble.report(),
    }
}

/// Why nothing was printed.
enum Trouble {
    Usage,
    Message(String),
}

impl Trouble {
    fn report(&self) -> ExitCode {
        let (line, status) = match self {
            Trouble::Usage => (USAGE, 2),
            Trouble::Message(message) => (message.as_str(), 1),
        };
        // Without a standard error there is nowhere left to report to.
        let _ = writeln!(io::stderr(), "{line}");
        ExitCode::from(status)
    }
}

impl From<io::Error> for Trouble {
    fn from(error: io::Error) -> Trouble {
        Trouble::Message(error.to_string())
    }
}

impl From<Refusal> for Trouble {
    fn from(refusal: Refusal) -> Trouble {
        Trouble::Message(refusal.to_string())
    }
}

/// What these words ask to be printed.
fn output(words: &[&str]) -> Result<Vec<u8>, Trouble> {
    let text = match words {
        ["list"] => list_levels(&standard_input()?),
        ["why"] => why_line(&standard_input()?),
        ["counts"] => counts_of(&standard_input()?)?,
        ["weights"] => VALENCES.filter_map(weight_line).collect(),
        ["suite"] => suite().iter().map(suite_line).collect(),
        ["stl"] => return Ok(stl_of(&standard_input()?)),
        ["form-2"] => return moved(to_form_2, &standard_input()?),
        ["form-1"] => return moved(to_form_1, &standard_input()?),
        ["cage", name] => return form_1_file(name),
        ["cage", name, "short"] => return form_2_file(name, Weight::Short),
        ["cage", name, "paper"] => return form_2_file(name, Weight::Paper),
        _ => return Err(Trouble::Usage),
    };
    Ok(text.into_bytes())
}

fn print(bytes: &[u8]) -> Result<(), Trouble> {
    let mut out = io::stdout();
    out.write_all(bytes)?;
    Ok(out.flush()?)
}

fn standard_input() -> Result<Vec<u8>, Trouble> {
    let mut bytes = Vec::new();
    io::stdin().read_to_end(&mut bytes)?;
    Ok(bytes)
}

/// The lines for the count question that this text is.
fn counts_of(question: &[u8]) -> Result<String, Trouble> {
    let no_question = || Trouble::Message("this is no count question".into());
    let counted = count_levels(question).ok_or_else(no_question)?;
    Ok(counted.unwrap_or_else(|refusal| refusal.line()))
}

/// The STL of level 0 of this cage file, or the refusal's line.
fn stl_of(file: &[u8]) -> Vec<u8> {
    level_0_stl(file).unwrap_or_else(|refusal| refusal.line().into_bytes())
}

/// A valence and its entry.
fn weight_line(valence: usize) -> Option<String> {
    paper_part(valence).map(|part| format!("{valence} {part}\n"))
}

/// The name, the lengths of the five tables, and the cage check's answer.
fn suite_line(SuiteCage { name, cage, .. }: &SuiteCage) -> String {
    let (twin, vert, edge) = (cage.twin.len(), cage.vert.len(), cage.edge.len());
    let (points, creases) = (cage.points.len(), cage.creases.len());
    let answer = check_answer(cage);
    format!("{name} {twin} {vert} {edge} {points} {creases} {answer}\n")
}

/// Number, place, H, E, F, V and B. On a refusal the counts are zero.
fn check_answer(cage: &Cage) -> String {
    match check(cage) {
        Ok(CageCounts {
            halfedges,
            edges,
            triangles,
            vertices,
            borders,
        }) => format!("0 0 {halfedges} {edges} {triangles} {vertices} {borders}"),
        Err(refusal) => format!("{} {} 0 0 0 0 0", refusal.number, refusal.place),
    }
}

/// A move of document 02, §7.
type Move = fn(&[u8], &mut [u8]) -> Result<u64, Refusal>;

/// The file that a move makes of this one.
fn moved(to_other_form: Move, file: &[u8]) -> Result<Vec<u8>, Trouble> {
    written(|lent| to_other_form(file, lent))
}

/// The form 1 file of a named cage, which has no place for its creases.
fn form_1_file(name: &str) -> Result<Vec<u8>, Trouble> {
    let cage = named(name)?;
    written(|lent| write_cage_file(&cage, lent))
}

/// The form 2 file of a named cage, with its creases and this weight.
fn form_2_file(name: &str, weight: Weight) -> Result<Vec<u8>, Trouble> {
    let cage = named(name)?;
    written(|lent| write_form_2_file(&cage, weight, lent))
}

fn named(name: &str) -> Result<Cage, Trouble> {
    let unknown = || Trouble::Message(format!("there is no cage named {name}"));
    cage_named(name).ok_or_else(unknown)
}

/// What is written to the front of a buffer that is long enough for any file.
fn written(write: impl FnOnce(&mut [u8]) -> Result<u64, Refusal>) -> Result<Vec<u8>, Trouble> {
    let mut file = vec![0; LONGEST_FORM_2];
    let length = write(&mut file)?;
    file.truncate(length as usize);
    Ok(file)
}
