//! The C header and the C examples, compiled without a warning; the examples'
//! lines and bytes are the second program's.

use std::collections::BTreeSet;
use std::path::{Path, PathBuf};
use std::process::{Command, Output};
use std::sync::LazyLock;

use compare::{
    assert_compiles, compiled, compiler, creased, files_of, named, onto_a_full_disk, repository,
    room_at, run, stl_length, Outcome, Question, SecondProgram, PLACES,
};
use second::build::build;
use second::cage::{Cage, COORDINATE_LIMIT, DEPTH_LIMIT, HALFEDGE_LIMIT, MARKER, VERTEX_LIMIT};
use second::creases::CREASE_LIMIT;
use second::file::{read_cage, Form, LONGEST_FORM_1, LONGEST_FORM_2};
use second::lister::list_levels;
use second::questions::files::{form_1_file, form_2_file};
use second::stl::VERT_LIMIT;
use second::suite::suite;
use second::weight::{Weight, VALENCES};
use second::why::why;

/// Where the programs are put.
const FOLDER: &str = env!("CARGO_TARGET_TMPDIR");

/// Each compiled once.
static EXAMPLE: LazyLock<PathBuf> = LazyLock::new(|| compiled("host", "example", FOLDER));
static TRIANGLES: LazyLock<PathBuf> = LazyLock::new(|| compiled("host", "triangles", FOLDER));

/// The example's words for the weights.
const WORDS: [(&str, Weight); 2] = [("short", Weight::Short), ("paper", Weight::Paper)];

/// The example on a file, with a depth and a weight.
fn example(file: &Path, depth: &str, weight: &str) -> Command {
    let mut command = Command::new(&*EXAMPLE);
    command.arg(file).args([depth, weight]);
    command
}

/// Runs the example on a file.
fn run_example(file: &Path, depth: &str, weight: &str) -> Output {
    run(&mut example(file, depth, weight), &[])
}

/// Runs the example on a file, with another for the STL of the last level.
fn run_example_to_stl(file: &Path, depth: &str, weight: &str, stl: &Path) -> Output {
    run(example(file, depth, weight).arg(stl), &[])
}

/// The header's numbers, as the second program has them.
#[test]
fn the_header_in_c_and_in_cxx() {
    let mut source = String::from("#include \"ryebadger.h\"\n");
    let limits = [
        ("MARKER", u64::from(MARKER)),
        ("MOST_HALFEDGES", HALFEDGE_LIMIT),
        ("MOST_VERTICES", VERTEX_LIMIT),
        ("MOST_DEPTH", DEPTH_LIMIT),
        ("LEVELS", DEPTH_LIMIT + 1),
        ("MOST_CREASE", CREASE_LIMIT.into()),
        ("MOST_COORDINATE", COORDINATE_LIMIT as u64),
        ("FORM_1", 1),
        ("FORM_2", 2),
        ("LONGEST_FORM_1", LONGEST_FORM_1 as u64),
        ("LONGEST_FORM_2", LONGEST_FORM_2 as u64),
        ("LONGEST_FILE", LONGEST_FORM_1.max(LONGEST_FORM_2) as u64),
        ("LONGEST_TABLE", VERT_LIMIT as u64),
        ("STL_LENGTH(0)", 84),
        ("STL_LENGTH(1 + 1)", 184),
        ("STL_LENGTH(RYEBADGER_LONGEST_TABLE / 3)", 209_715_284),
        ("SHORT_WEIGHT", 0),
        ("PAPER_WEIGHT", 1),
        ("MOST_CORNERS", *VALENCES.end() as u64),
        ("CAGE_FILE", 5),
        ("STL_FILE", 6),
        ("NO_CLAUSE", 0),
        ("TWIN_PAST_TABLE", 1),
        ("TWIN_ITSELF", 2),
        ("TWIN_NOT_RETURNED", 3),
        ("VERTEX_PAST_POINTS", 1),
        ("ENDS_ALIKE", 2),
        ("TWIN_ENDS_DIFFER", 3),
        ("VERTEX_UNUSED", 1),
        ("EDGE_PAST_COUNT", 1),
        ("EDGE_DIFFERS", 2),
        ("EDGE_SHARED", 3),
        ("NOT_JOINED", 1),
        ("AT_CLAUSE", 2),
        ("AT_SHOWN + 3", 6),
        ("WHY_ANSWER", 6),
        ("EDGES_ANSWER", 1),
        ("AT_E_ROOM + 1", 26),
        ("COUNTS_ANSWER", 26),
        ("AT_HALFEDGE_TWIN", 2),
        ("AT_HALFEDGE_VERT", 3),
        ("AT_HALFEDGE_EDGE", 4),
        ("HALFEDGE_ANSWER", 5),
        ("AT_FILE_FORM", 2),
        ("AT_FILE_H", 3),
        ("AT_FILE_V", 4),
        ("AT_FILE_E", 5),
        ("AT_FILE_WEIGHT", 6),
        ("READ_ANSWER", 7),
        ("WRITE_ANSWER", 3),
    ];
    let tables = ["TWIN", "VERT", "EDGE", "POINTS", "CREASE"].map(|name| format!("{name}_TABLE"));
    let tables = tables.iter().map(String::as_str).zip(PLACES);
    let names = [
        "DONE",
        "SHAPE",
        "LIMIT",
        "TWIN",
        "VERTEX",
        "UNUSED",
        "EDGE",
        "FAN",
        "POINT",
        "ROOM",
        "SHORT",
        "FIELD",
        "EXTRA",
        "DOUBLED",
        "VALENCE",
        "CREASE",
        "NOT_OLD",
        "NO_SUCH_HALFEDGE",
    ];
    let numbers = limits.into_iter().chain(tables);
    for (name, number) in numbers.chain(names.into_iter().zip(0..)) {
        source += &format!("static_assert(RYEBADGER_{name} == {number}u, \"{name}\");\n");
    }
    let for_c = format!("#include <assert.h>\n{source}");
    let check = ["-fsyntax-only", "-x"];
    assert_compiles(
        compiler("CC", "cc")
            .args(["-std=c11"])
            .args(check)
            .args(["c", "-"]),
        for_c.as_bytes(),
    );
    assert_compiles(
        compiler("CXX", "c++")
            .args(["-std=c++11"])
            .args(check)
            .args(["c++", "-"]),
        source.as_bytes(),
    );
}

#[test]
fn the_example_prints_the_levels_of_a_cage() {
    for name in ["triangle", "pillow", "cushion"] {
        let path = repository().join(format!("cages/{name}.cage"));
        // The lister has F and B too: level, H, E, F, V, B.
        let listed = list_levels(&form_1_file(&named(name)));
        let lines: Vec<String> = listed
            .lines()
            .map(|line| line.split(' ').collect::<Vec<_>>())
            .filter(|words| words.len() == 6)
            .map(|words| format!("{} {} {} {}\n", words[0], words[1], words[2], words[4]))
            .collect();
        assert_eq!(lines.len(), 7);
        for depth in 0..=6 {
            for (word, _) in WORDS {
                let output = run_example(&path, &depth.to_string(), word);
                let printed = String::from_utf8_lossy(&output.stdout);
                assert_eq!(printed, lines[..=depth].concat(), "{name}");
                assert!(output.status.success(), "{name}");
            }
        }
    }
}

#[test]
fn the_example_says_what_is_wrong() {
    let folder = Path::new(env!("CARGO_TARGET_TMPDIR"));
    let triangle = form_1_file(&named("triangle"));
    let mut stray = triangle.clone();
    stray[21] = 7; // VERT(0)
    let longer = [&triangle[..], &[0]].concat();
    let many = form_1_file(&named("disc-33"));
    let paper = form_2_file(&named("disc-33"), Weight::Paper);
    let [mut itself, mut heavy] = [(); 2].map(|()| form_2_file(&named("triangle"), Weight::Short));
    itself[12..14].copy_from_slice(&[0, 0]); // TWIN(0)
    heavy[84] = 2;
    for (name, bytes, [depth, weight], status, line) in [
        (
            "stray",
            &stray[..],
            ["1", "short"],
            1,
            "refused 4 0 by clause 1: 7 3 0\n",
        ),
        ("cut", &triangle[..77], ["1", "short"], 1, "refused 10 75\n"),
        ("longer", &longer, ["1", "short"], 1, "refused 12 78\n"),
        ("deep", &triangle, ["7", "paper"], 1, "refused 2 0\n"),
        ("many", &many, ["0", "paper"], 1, "refused 14 33\n"),
        ("new", &paper, ["0", "file"], 1, "refused 14 33\n"),
        ("twin", &itself, ["0", "file"], 1, "refused 3 0\n"),
        ("weight", &heavy, ["0", "file"], 1, "refused 11 81\n"),
        (
            "no-number",
            &triangle,
            ["x", "short"],
            2,
            "example: the depth is not a number\n",
        ),
    ] {
        let path = folder.join(name);
        std::fs::write(&path, bytes).expect("written");
        let output = run_example(&path, depth, weight);
        assert_eq!(output.status.code(), Some(status), "{name}");
        assert_eq!(String::from_utf8_lossy(&output.stderr), line, "{name}");
        assert!(output.stdout.is_empty(), "{name}");
    }
    let nowhere = run_example(&folder.join("nowhere"), "1", "short");
    assert_eq!(nowhere.status.code(), Some(2));
}

/// Every clause, of what a file of form 1 holds of each cage that is there for one.
#[test]
fn the_example_says_which_clause_is_broken() {
    let path = Path::new(env!("CARGO_TARGET_TMPDIR")).join("clause");
    let mut clauses = BTreeSet::new();
    for entry in suite() {
        if !entry.name.starts_with("clause-") {
            continue;
        }
        let file = form_1_file(&entry.cage);
        let cage = read_cage(&file).expect(&entry.name).cage;
        let [number, place, clause, x, y, z] = why(&cage).six_numbers();
        if clause == 0 {
            continue;
        }
        std::fs::write(&path, file).expect("written");
        let output = run_example(&path, "1", "short");
        assert_eq!(output.status.code(), Some(1), "{}", entry.name);
        let line = format!("refused {number} {place} by clause {clause}: {x} {y} {z}\n");
        assert_eq!(String::from_utf8_lossy(&output.stderr), line);
        assert!(output.stdout.is_empty(), "{}", entry.name);
        clauses.insert((number, clause));
    }
    assert_eq!(clauses.len(), 11, "{clauses:?}");
}

const USAGE: &str = "example: usage: example FILE DEPTH short|paper|file [STL [EDGE=NUMBER ...]]\n";

/// Too few words, another one for the weight, or one that is no crease.
#[test]
fn the_example_says_how_it_is_used() {
    let triangle = repository().join("cages/triangle.cage");
    let triangle = triangle.to_str().expect("text");
    for words in [
        &[][..],
        &[triangle],
        &[triangle, "1"],
        &[triangle, "1", "level.stl"],
        &[triangle, "1", ""],
        &[triangle, "1", "0"],
        &[triangle, "1", "1"],
        &[triangle, "1", "Short"],
        &[triangle, "1", "shorter"],
        &[triangle, "1", "pape"],
        &[triangle, "1", "files"],
        &[triangle, "paper", "1"],
        &[triangle, "1", "paper", "level.stl", "more"],
        &[triangle, "1", "paper", "level.stl", ""],
        &[triangle, "1", "paper", "level.stl", "1"],
        &[triangle, "1", "paper", "level.stl", "=1"],
        &[triangle, "1", "paper", "level.stl", "1="],
        &[triangle, "1", "paper", "level.stl", "1=x"],
        &[triangle, "1", "paper", "level.stl", "1=1x"],
        &[triangle, "1", "paper", "level.stl", "1=256"],
        &[triangle, "1", "paper", "level.stl", "1=-1"],
        &[triangle, "1", "paper", "level.stl", "1:1"],
        &[triangle, "1", "paper", "level.stl", "1=0", "1=0,2=0"],
    ] {
        let mut command = Command::new(&*EXAMPLE);
        command.current_dir(env!("CARGO_TARGET_TMPDIR"));
        let output = run(command.args(words), &[]);
        assert_eq!(output.status.code(), Some(2), "{words:?}");
        assert_eq!(String::from_utf8_lossy(&output.stderr), USAGE, "{words:?}");
        assert!(output.stdout.is_empty(), "{words:?}");
    }
}

/// The second program's STL of a level of a cage.
fn stl_at(cage: &Cage, depth: u64, weight: Weight) -> Vec<u8> {
    let refining = Question::Refine(cage, depth, weight, room_at(cage, depth));
    let tables = refining.put_to(&SecondProgram).tables;
    let before = depth.checked_sub(1).map(|above| room_at(cage, above));
    let [_, corners, _, coordinates, _] = before.unwrap_or_default();
    let (vert, points) = (&tables.vert[corners..], &tables.points[coordinates..]);
    let writing = Question::WriteStl(vert, points, stl_length(vert));
    writing.put_to(&SecondProgram).file
}

#[test]
fn the_example_writes_the_last_level_as_stl() {
    let stl = Path::new(env!("CARGO_TARGET_TMPDIR")).join("level.stl");
    for name in ["triangle", "pillow", "cushion"] {
        let path = repository().join(format!("cages/{name}.cage"));
        // The longest first: nothing of it is left behind a shorter one.
        for depth in (0..=6).rev() {
            let number = depth.to_string();
            for (word, weight) in WORDS {
                let output = run_example_to_stl(&path, &number, word, &stl);
                assert_eq!(output, run_example(&path, &number, word), "{name}");
                assert!(output.status.success(), "{name}");
                let written = std::fs::read(&stl).expect("a file");
                // Not assert_eq, which would print both files.
                let same = written == stl_at(&named(name), depth, weight);
                assert!(same, "{name} at {depth}, {word}");
            }
        }
    }
    // What is refused is not written.
    let pillow = repository().join("cages/pillow.cage");
    std::fs::write(&stl, "before").expect("written");
    let refused = run_example_to_stl(&pillow, "7", "paper", &stl);
    assert_eq!(refused.status.code(), Some(1));
    assert_eq!(std::fs::read(&stl).expect("a file"), b"before");
}

/// A crease for each edge of the pillow, a seam on the cushion, and an edge that
/// is told twice, of which the last counts.
#[test]
fn the_example_takes_creases() {
    let stl = Path::new(env!("CARGO_TARGET_TMPDIR")).join("creased.stl");
    for (name, seam) in [
        ("pillow", &[(0, 1), (1, 2), (2, 10)][..]),
        ("cushion", &[(203, 3), (206, 3), (209, 4)]),
        ("pillow", &[(2, 10), (2, 3)]),
        ("pillow", &[(0, 0)]),
    ] {
        let words = seam.iter().map(|(edge, number)| format!("{edge}={number}"));
        let words: Vec<String> = words.collect();
        let last = |edge| seam.iter().rfind(|&&(sharp, _)| sharp == edge);
        let cage = creased(&named(name), |edge| last(edge).map_or(0, |crease| crease.1));
        let path = repository().join(format!("cages/{name}.cage"));
        for (depth, number) in [(0, "0"), (1, "1"), (5, "5")] {
            for (word, weight) in WORDS {
                let output = run(example(&path, number, word).arg(&stl).args(&words), &[]);
                assert_eq!(output, run_example(&path, number, word), "{name}");
                assert!(output.status.success(), "{name}");
                let written = std::fs::read(&stl).expect("a file");
                // Not assert_eq, which would print both files.
                let same = written == stl_at(&cage, depth, weight);
                assert!(same, "{name} at {depth}, {word}");
            }
        }
    }
}

/// Files of form 2, with each of the three words for the weight; and of form 1,
/// which has no creases and the short weight.
#[test]
fn the_example_takes_either_form() {
    let folder = Path::new(env!("CARGO_TARGET_TMPDIR"));
    let (path, stl) = (folder.join("form"), folder.join("form.stl"));
    for name in ["pillow", "cushion"] {
        let (plain, seamed) = (named(name), creased(&named(name), |edge| edge as u8 % 4));
        let [short, paper] = WORDS.map(|(_, weight)| form_2_file(&seamed, weight));
        for (cage, file, own) in [
            (&plain, &form_1_file(&seamed), Weight::Short),
            (&seamed, &short, Weight::Short),
            (&seamed, &paper, Weight::Paper),
        ] {
            std::fs::write(&path, file).expect("written");
            for (word, weight) in WORDS.into_iter().chain([("file", own)]) {
                let output = run_example_to_stl(&path, "3", word, &stl);
                assert!(output.status.success(), "{name}, {word}");
                let written = std::fs::read(&stl).expect("a file");
                // Not assert_eq, which would print both files.
                assert!(written == stl_at(cage, 3, weight), "{name}, {word}");
            }
        }
    }
}

/// An edge that is named has its number, and every other the file's.
#[test]
fn the_example_changes_creases_of_the_file() {
    let folder = Path::new(env!("CARGO_TARGET_TMPDIR"));
    let (path, stl) = (folder.join("changed"), folder.join("changed.stl"));
    let cage = creased(&named("pillow"), |edge| edge as u8 + 1);
    std::fs::write(&path, form_2_file(&cage, Weight::Paper)).expect("written");
    let words = ["0=0", "2=10"];
    let output = run(example(&path, "4", "file").arg(&stl).args(words), &[]);
    assert!(output.status.success());
    let changed = Cage {
        creases: vec![0, 2, 10],
        ..cage
    };
    let written = std::fs::read(&stl).expect("a file");
    assert!(written == stl_at(&changed, 4, Weight::Paper));
}

#[test]
fn the_example_tells_wrong_creases() {
    let stl = Path::new(env!("CARGO_TARGET_TMPDIR")).join("refused.stl");
    std::fs::write(&stl, "before").expect("written");
    let no_edge = "example: the cage has no edge of that number\n";
    for (name, words, status, line) in [
        ("pillow", &["0=11"][..], 1, "refused 15 0\n"),
        ("pillow", &["2=255", "1=10"], 1, "refused 15 2\n"),
        ("triangle", &["1=1"], 1, "refused 15 1\n"),
        ("triangle", &["3=1"], 2, no_edge),
        ("pillow", &["0=1", "3=0"], 2, no_edge),
        ("pillow", &["18446744073709551615=0"], 2, no_edge),
        ("pillow", &["-1=0"], 2, no_edge),
    ] {
        let path = repository().join(format!("cages/{name}.cage"));
        let output = run(example(&path, "1", "paper").arg(&stl).args(words), &[]);
        assert_eq!(output.status.code(), Some(status), "{words:?}");
        assert_eq!(String::from_utf8_lossy(&output.stderr), line, "{words:?}");
        assert!(output.stdout.is_empty(), "{words:?}");
    }
    assert_eq!(std::fs::read(&stl).expect("a file"), b"before");
}

#[test]
fn the_example_says_why_there_is_no_stl() {
    let folder = Path::new(env!("CARGO_TARGET_TMPDIR"));
    let (full, nowhere) = (Path::new("/dev/full"), folder.join("nowhere/level.stl"));
    // A short file is written when it is closed, most of a long one before.
    for (name, depth, stl, what) in [
        ("triangle", "0", full, "written"),
        ("cushion", "6", full, "written"),
        ("pillow", "1", &nowhere, "opened"),
        ("pillow", "1", folder, "opened"),
        ("pillow", "1", Path::new(""), "opened"),
    ] {
        let path = repository().join(format!("cages/{name}.cage"));
        let output = run_example_to_stl(&path, depth, "short", stl);
        assert_eq!(output.status.code(), Some(2), "{name}");
        let line = format!("example: the STL file cannot be {what}\n");
        assert_eq!(String::from_utf8_lossy(&output.stderr), line);
        assert_eq!(output.stdout, run_example(&path, depth, "short").stdout);
    }
}

/// The cushion's levels to depth 6 need 68 MB, and its STL there 59 MB more.
#[test]
fn the_example_tells_that_there_is_no_memory() {
    let stl = Path::new(env!("CARGO_TARGET_TMPDIR")).join("no-memory.stl");
    for (kilobytes, what) in [(40_000, "levels"), (100_000, "STL")] {
        let mut shell = Command::new("sh");
        let script = format!("ulimit -v {kilobytes} && exec \"$0\" \"$@\"");
        shell.arg("-c").arg(script).arg(&*EXAMPLE);
        let cushion = repository().join("cages/cushion.cage");
        let output = run(shell.arg(cushion).args(["6", "short"]).arg(&stl), &[]);
        assert_eq!(output.status.code(), Some(2), "{what}");
        let line = format!("example: there is no memory for the {what}\n");
        assert_eq!(String::from_utf8_lossy(&output.stderr), line);
        assert!(!stl.exists());
    }
}

/// What a call leaves at the front of its buffer, then number and place.
fn printed(question: Question) -> Vec<u8> {
    let Outcome { answer, file, .. } = question.put_to(&SecondProgram);
    let line = format!("{} {}\n", answer[0], answer[1]);
    [&file[..answer[2] as usize], line.as_bytes()].concat()
}

/// The header's functions on files that no example calls, with their own arguments
/// in their own places. Form 1 is read without creases, and has none to write.
#[test]
fn files_in_c() {
    let program = compiled("host/compare/tests/in_c", "files", FOLDER);
    for name in ["triangle", "pillow", "cushion", "creased-number-3-open"] {
        for (form, file) in files_of(&named(name)) {
            let mut read = read_cage(&file).expect(name);
            if form == Form::One {
                read.cage.creases.clear();
            }
            let lent = LONGEST_FORM_2;
            let expected = [
                Question::Write(&read.cage, lent),
                Question::WriteForm2(&read.cage, read.weight, lent),
                Question::ToForm2(&file, lent),
                Question::ToForm1(&file, lent),
            ];
            let output = run(&mut Command::new(&program), &file);
            assert!(output.status.success(), "{name}");
            // Not assert_eq, which would print all files.
            assert!(output.stdout == expected.map(printed).concat(), "{name}");
        }
    }
}

/// Status, standard output and standard error of the example that builds.
fn run_triangles(text: &str) -> (Option<i32>, String, String) {
    let output = run(&mut Command::new(&*TRIANGLES), text.as_bytes());
    let said = |bytes: &[u8]| String::from_utf8_lossy(bytes).into_owned();
    (
        output.status.code(),
        said(&output.stdout),
        said(&output.stderr),
    )
}

/// V and F, the points, and the corners, a line each.
fn plain_text(cage: &Cage) -> String {
    let words = |cells: Vec<String>| cells.join(" ");
    let points = words(cage.points.iter().map(i32::to_string).collect());
    let corners = words(cage.vert.iter().map(u32::to_string).collect());
    let (v, f) = (cage.points.len() / 3, cage.vert.len() / 3);
    format!("{v} {f}\n{points}\n{corners}\n")
}

/// What the example has to say of a cage's triangles.
fn judged(cage: &Cage) -> (Option<i32>, String, String) {
    let (mut twin, mut edge) = (cage.vert.clone(), cage.vert.clone());
    match build(&cage.vert, &cage.points, [&mut twin, &mut edge]) {
        Ok(found) => {
            let (h, e, f) = (found.halfedges, found.edges, found.triangles);
            let (v, b) = (found.vertices, found.borders);
            (Some(0), format!("{h} {e} {f} {v} {b}\n"), String::new())
        }
        Err(refusal) => (Some(1), String::new(), refusal.line()),
    }
}

#[test]
fn the_example_builds_from_plain_triangles() {
    let whole = |cage: &Cage| {
        let lengths = [cage.vert.len(), cage.points.len()];
        lengths.iter().all(|length| length.is_multiple_of(3))
    };
    let mut statuses = [0, 0];
    for entry in suite().iter().filter(|entry| whole(&entry.cage)).step_by(4) {
        let told = run_triangles(&plain_text(&entry.cage));
        assert_eq!(told, judged(&entry.cage), "{}", entry.name);
        statuses[usize::from(told.0 == Some(1))] += 1;
    }
    assert!(statuses[0] > 30 && statuses[1] > 30, "{statuses:?}");
}

#[test]
fn the_example_that_builds_says_what_is_wrong() {
    const EARLY: &str = "the input ends before its last number";
    const NO_NUMBER: &str = "the input has what is not a number";
    const RANGE: &str = "a number is out of range for what it stands for";
    const MORE: &str = "the input goes on after its last number";
    let told = |last: &str| run_triangles(&format!("3 1\n0 0 0\t8 0 0 0 8 {last}"));
    let done = (Some(0), "3 3 1 3 3\n".to_string(), String::new());
    assert_eq!(told("0 0 1 2"), done);
    assert_eq!(told("0 0 1 +2\r\n"), done);
    for (last, what) in [
        ("", EARLY),
        ("0 0 1", EARLY),
        ("0 0 1 x", NO_NUMBER),
        ("0 0 1 2e0", NO_NUMBER),
        ("0 0 1 000000000000000000000002", NO_NUMBER),
        ("0 0 1 -2", RANGE),
        ("0 0 1 4294967296", RANGE),
        ("0 0 1 99999999999999999999", RANGE),
        ("2147483648 0 1 2", RANGE),
        ("0 0 1 2 3", MORE),
    ] {
        let line = format!("triangles: {what}\n");
        assert_eq!(told(last), (Some(2), String::new(), line), "{last}");
    }
}

#[test]
fn the_examples_tell_a_full_disk() {
    let cage = named("pillow");
    let path = Path::new(env!("CARGO_TARGET_TMPDIR")).join("full");
    std::fs::write(&path, form_1_file(&cage)).expect("written");
    for (name, output) in [
        (
            "example",
            run(&mut onto_a_full_disk(&example(&path, "1", "short")), &[]),
        ),
        (
            "triangles",
            run(
                &mut onto_a_full_disk(&Command::new(&*TRIANGLES)),
                plain_text(&cage).as_bytes(),
            ),
        ),
    ] {
        assert_eq!(output.status.code(), Some(2), "{name}");
        let line = format!("{name}: standard output cannot be written\n");
        assert_eq!(String::from_utf8_lossy(&output.stderr), line);
    }
}
