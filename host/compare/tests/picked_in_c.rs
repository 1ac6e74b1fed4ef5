//! The C example that shows a picked triangle of any level: its lines are the second
//! program's.

use std::path::{Path, PathBuf};
use std::process::{Command, Output};
use std::sync::LazyLock;

use compare::{compiled, creased, files_of, named, onto_a_full_disk, repository, run};
use second::cage::{Cage, MARKER};
use second::file::read_cage;
use second::halfedge::{halfedge_question, Climber, ThreeTables};
use second::questions::files::{form_1_file, form_2_file};
use second::refusal::Refusal;
use second::weight::Weight;

/// Where the program and its files are put.
const FOLDER: &str = env!("CARGO_TARGET_TMPDIR");

/// Compiled once.
static PICKED: LazyLock<PathBuf> = LazyLock::new(|| compiled("host", "picked", FOLDER));

/// The example on a file, with a depth and a halfedge.
fn picked(file: &Path, depth: &str, halfedge: &str) -> Command {
    let mut command = Command::new(&*PICKED);
    command.arg(file).args([depth, halfedge]);
    command
}

/// Writes a file to run the example on.
fn written(name: &str, bytes: &[u8]) -> PathBuf {
    let path = Path::new(FOLDER).join(format!("picked-{name}"));
    std::fs::write(&path, bytes).expect("written");
    path
}

/// A line for each halfedge of the triangle of one, by the second program.
fn lines(cage: &Cage, depth: u64, halfedge: u64) -> String {
    let climber = Climber::new(ThreeTables::of(cage), depth).expect("accepted");
    let corners = [0, 1, 2].map(|corner| halfedge / 3 * 3 + corner);
    let line = |corner| {
        let cells = climber.cells(corner).expect("a halfedge of the level");
        let twin = match cells.twin {
            MARKER => "-".to_string(),
            twin => twin.to_string(),
        };
        format!("{corner} {twin} {} {}\n", cells.vert, cells.edge)
    };
    corners.map(line).concat()
}

fn assert_prints(name: &str, output: &Output, expected: &str) {
    assert_eq!(String::from_utf8_lossy(&output.stdout), expected, "{name}");
    assert_eq!(String::from_utf8_lossy(&output.stderr), "", "{name}");
    assert!(output.status.success(), "{name}");
}

/// One line on standard error, and nothing else.
fn assert_says(output: &Output, status: i32, line: &str) {
    assert_eq!(String::from_utf8_lossy(&output.stderr), line);
    assert_eq!(output.status.code(), Some(status), "{line}");
    assert!(output.stdout.is_empty(), "{line}");
}

/// The files in cages/, one of which has form 2. A triangle is the same by each of
/// its halfedges, and the border has halfedges without a twin at every depth.
#[test]
fn the_triangle_of_a_halfedge_at_every_depth() {
    for name in ["triangle", "pillow", "cushion", "seamed-cushion"] {
        let path = repository().join(format!("cages/{name}.cage"));
        let cage = named(name);
        let mut without_twin = 0;
        for depth in 0..=6 {
            let end = (cage.halfedge_count() as u64) << (2 * depth);
            for halfedge in [0, 1, 2, end / 3, end / 2, end - 3, end - 2, end - 1] {
                let expected = lines(&cage, depth, halfedge);
                let [depth, halfedge] = [depth, halfedge].map(|number| number.to_string());
                let output = run(&mut picked(&path, &depth, &halfedge), &[]);
                assert_prints(name, &output, &expected);
                without_twin += expected.matches('-').count();
            }
        }
        assert_eq!(without_twin > 0, cage.border_count() > 0, "{name}");
    }
}

#[test]
fn either_form_is_read() {
    let cage = creased(&named("grid-3x3"), |edge| edge as u8 % 4);
    let expected = lines(&cage, 4, 1_000);
    for (form, file) in files_of(&cage) {
        let path = written("form", &file);
        let output = run(&mut picked(&path, "4", "1000"), &[]);
        assert_prints(&format!("{form:?}"), &output, &expected);
    }
}

/// A coordinate out of range and a crease on a border, which the cage check refuses.
#[test]
fn points_and_creases_are_not_asked_about() {
    let mut cage = named("triangle");
    let expected = lines(&cage, 6, 12_287);
    cage.points[4] = i32::MAX;
    cage.creases[1] = 9;
    let files = [form_1_file(&cage), form_2_file(&cage, Weight::Paper)];
    for file in files {
        let path = written("out-of-range", &file);
        let output = run(&mut picked(&path, "6", "12287"), &[]);
        assert_prints("triangle", &output, &expected);
    }
}

/// The second program's refusal of a file's cage, a depth and a halfedge.
fn refusal(file: &[u8], depth: u64, halfedge: u64) -> Refusal {
    let answer = read_cage(file)
        .and_then(|read| halfedge_question(ThreeTables::of(&read.cage), depth, halfedge));
    answer.expect_err("refused")
}

/// The halfedge itself is the one that is refused, also where its triangle's others
/// would be past 64 bits.
#[test]
fn what_is_refused_is_told() {
    let triangle = form_1_file(&named("triangle"));
    let [mut stray, longer] = [triangle.clone(), [&triangle[..], &[0]].concat()];
    stray[21] = 7; // VERT(0)
    let mut itself = form_2_file(&named("triangle"), Weight::Short);
    itself[12..14].copy_from_slice(&[0, 0]); // TWIN(0)
    let bow_tie = form_1_file(&named("bow-tie"));
    for (bytes, depth, halfedge, number) in [
        (&triangle[..], 0, 3, 17),
        (&triangle, 6, 12_288, 17),
        (&triangle, 6, 1 << 32, 17),
        (&triangle, 1, (1 << 32) + 11, 17),
        (&triangle, 6, u64::MAX - 1, 17),
        (&triangle, 6, u64::MAX, 17),
        (&triangle, 7, 0, 2),
        (&triangle, u64::MAX, u64::MAX, 2),
        (&stray, 1, 0, 4),
        (&stray, 1, 12, 4),
        (&bow_tie, 1, 999, 7),
        (&itself, 1, 0, 3),
        (&triangle[..77], 1, 0, 10),
        (&longer, 1, 0, 12),
        (&[], 9, 0, 10),
    ] {
        let refusal = refusal(bytes, depth, halfedge);
        assert_eq!(refusal.number, number, "{halfedge} at {depth}");
        let path = written("refused", bytes);
        let [depth, halfedge] = [depth, halfedge].map(|number| number.to_string());
        let output = run(&mut picked(&path, &depth, &halfedge), &[]);
        assert_says(&output, 1, &refusal.line());
    }
}

#[test]
fn what_is_no_number_is_told() {
    let triangle = repository().join("cages/triangle.cage");
    for word in [
        "",
        " ",
        "x",
        "-",
        "+",
        "-0",
        "-1",
        "+1",
        " 1",
        "1 ",
        "\t1",
        "1x",
        "0x1",
        "1e0",
        "1.0",
        "1,2",
        "18446744073709551616",
        "99999999999999999999999",
    ] {
        for (words, what) in [([word, "0"], "depth"), (["0", word], "halfedge")] {
            let output = run(&mut picked(&triangle, words[0], words[1]), &[]);
            let line = format!("picked: the {what} is not a number of 64 bits\n");
            assert_says(&output, 2, &line);
        }
    }
    // Zeros in front are digits too.
    let long = "000000000000000000000009";
    let output = run(&mut picked(&triangle, "01", long), &[]);
    assert_prints("zeros", &output, &lines(&named("triangle"), 1, 9));
}

#[test]
fn how_it_is_used_is_told() {
    let triangle = repository().join("cages/triangle.cage");
    let triangle = triangle.to_str().expect("text");
    for words in [
        &[][..],
        &[triangle],
        &[triangle, "1"],
        &[triangle, "1", "2", "3"],
    ] {
        let output = run(Command::new(&*PICKED).args(words), &[]);
        assert_says(&output, 2, "picked: usage: picked FILE DEPTH HALFEDGE\n");
    }
}

#[test]
fn files_that_fail_are_told() {
    let nowhere = Path::new(FOLDER).join("nowhere");
    let pillow = repository().join("cages/pillow.cage");
    for (mut command, what) in [
        (picked(&nowhere, "1", "0"), "the file cannot be opened"),
        (
            picked(Path::new(FOLDER), "1", "0"),
            "the file cannot be read",
        ),
        (
            onto_a_full_disk(&picked(&pillow, "1", "0")),
            "standard output cannot be written",
        ),
    ] {
        let output = run(&mut command, &[]);
        assert_says(&output, 2, &format!("picked: {what}\n"));
    }
}
