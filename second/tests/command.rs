//! The command line.

use std::io::Write;
use std::process::{Command, Output, Stdio};

use second::questions::files::{form_1_file, form_2_file};
use second::stl::level_0_stl;
use second::suite::cage_named;
use second::weight::{paper_part, Weight};
use second::why::why_line;

const WEIGHTS: [Weight; 2] = [Weight::Short, Weight::Paper];

/// Runs the second program with these words and this standard input.
fn run(words: &[&str], input: &[u8]) -> Output {
    let mut child = Command::new(env!("CARGO_BIN_EXE_second"))
        .args(words)
        .stdin(Stdio::piped())
        .stdout(Stdio::piped())
        .stderr(Stdio::piped())
        .spawn()
        .expect("started");
    let mut stdin = child.stdin.take().expect("standard input");
    // A command that reads nothing may have ended already.
    let _ = stdin.write_all(input);
    drop(stdin);
    child.wait_with_output().expect("ended")
}

/// The bytes that a command prints.
fn bytes(words: &[&str], input: &[u8]) -> Vec<u8> {
    let output = run(words, input);
    assert!(output.status.success(), "{words:?}");
    assert!(output.stderr.is_empty(), "{words:?}");
    output.stdout
}

fn printed(words: &[&str], input: &[u8]) -> String {
    String::from_utf8(bytes(words, input)).expect("text")
}

#[test]
fn unknown_usage_is_told() {
    let unknown: [&[&str]; 13] = [
        &[],
        &["lists"],
        &["list", "more"],
        &["counts", "12"],
        &["stl", "more"],
        &["why", "more"],
        &["weights", "2"],
        &["cage"],
        &["cage", "triangle", "long"],
        &["cage", "triangle", "short", "paper"],
        &["form-2", "more"],
        &["form-1", "more"],
        &["form-3"],
    ];
    for words in unknown {
        let output = run(words, &[]);
        assert_eq!(output.status.code(), Some(2), "{words:?}");
        assert!(output.stdout.is_empty());
        assert_eq!(output.stderr.iter().filter(|&&b| b == b'\n').count(), 1);
    }
}

#[test]
fn a_named_cage_is_listed() {
    for name in ["triangle", "pillow", "cushion", "seamed-cushion"] {
        let file = run(&["cage", name], &[]).stdout;
        let listed = printed(&["list"], &file);
        assert_eq!(listed.lines().count(), 8, "{name}");
    }
    assert_eq!(printed(&["list"], b"x"), "refused 10 0\n");
}

/// Form 1 without a weight, form 2 with either.
#[test]
fn a_named_cage_is_written_in_both_forms() {
    for name in [
        "triangle",
        "cushion",
        "creased-ring-torus",
        "seamed-cushion",
    ] {
        let cage = cage_named(name).expect("of this name");
        assert_eq!(bytes(&["cage", name], &[]), form_1_file(&cage));
        let [short, paper] = WEIGHTS.map(|weight| form_2_file(&cage, weight));
        assert_eq!(bytes(&["cage", name, "short"], &[]), short);
        assert_eq!(bytes(&["cage", name, "paper"], &[]), paper);
        for file in [short, paper] {
            assert_eq!(printed(&["list"], &file).lines().count(), 8);
            assert_eq!(Ok(bytes(&["stl"], &file)), level_0_stl(&file));
        }
    }
}

#[test]
fn files_are_moved_there_and_back() {
    for name in ["triangle", "pillow", "torus-32x16"] {
        let form_1 = bytes(&["cage", name], &[]);
        let form_2 = bytes(&["cage", name, "short"], &[]);
        assert_eq!(bytes(&["form-2"], &form_1), form_2, "{name}");
        assert_eq!(bytes(&["form-1"], &form_2), form_1, "{name}");
    }
    // A file of form 1 counts as all zeros.
    let form_1 = bytes(&["cage", "creased-ring-torus"], &[]);
    let plain = bytes(&["form-2"], &form_1);
    assert_eq!(bytes(&["form-1"], &plain), form_1);
}

/// The lister's line goes to standard error, and nothing to standard output.
#[test]
fn what_is_not_moved_is_told() {
    let form_1 = bytes(&["cage", "triangle"], &[]);
    let paper = bytes(&["cage", "triangle", "paper"], &[]);
    let creased = bytes(&["cage", "creased-ring-torus", "short"], &[]);
    let mut own_twin = paper.clone();
    own_twin[12..14].fill(0);
    let refused: [(&str, &[u8], &[u8]); 7] = [
        ("form-1", &[], b"refused 10 0\n"),
        ("form-1", &form_1, b"refused 11 0\n"),
        ("form-2", &paper, b"refused 11 0\n"),
        ("form-1", &paper, b"refused 16 0\n"),
        ("form-1", &creased, b"refused 16 0\n"),
        ("form-1", &own_twin, b"refused 3 0\n"),
        ("form-2", &form_1[..77], b"refused 10 75\n"),
    ];
    for (word, file, line) in refused {
        let output = run(&[word], file);
        assert_eq!(output.status.code(), Some(1), "{word}");
        assert!(output.stdout.is_empty(), "{word}");
        assert_eq!(output.stderr, line, "{word}");
    }
}

#[test]
fn a_named_cage_is_written_as_stl() {
    for (name, triangles) in [("triangle", 1_u32), ("pillow", 2), ("torus-32x16", 1_024)] {
        let file = run(&["cage", name], &[]).stdout;
        let output = run(&["stl"], &file);
        assert!(
            output.status.success() && output.stderr.is_empty(),
            "{name}"
        );
        let stl = output.stdout;
        assert_eq!(stl.len(), 84 + 50 * triangles as usize, "{name}");
        assert_eq!(stl[80..84], triangles.to_le_bytes(), "{name}");
        assert_eq!(Ok(stl), level_0_stl(&file), "{name}");
    }
}

/// The line is the level lister's.
#[test]
fn what_is_no_cage_is_not_written_as_stl() {
    let triangle = run(&["cage", "triangle"], &[]).stdout;
    let mut own_twin = triangle.clone();
    own_twin[12..14].fill(0);
    let refused = [
        (&[][..], "refused 10 0\n"),
        (&triangle[..77], "refused 10 75\n"),
        (&[&triangle[..], &[0]].concat(), "refused 12 78\n"),
        (&own_twin, "refused 3 0\n"),
    ];
    for (file, line) in refused {
        assert_eq!(printed(&["stl"], file), line);
        assert_eq!(printed(&["list"], file), line);
    }
}

/// One line for the files of accepted cages and of others, in either form.
#[test]
fn a_file_is_explained() {
    let accepted = "accepted: halfedges 6, edges 3, triangles 2, vertices 3, border edges 0\n";
    let pillow = bytes(&["cage", "pillow"], &[]);
    assert_eq!(printed(&["why"], &pillow), accepted);
    let form_2 = bytes(&["cage", "pillow", "paper"], &[]);
    assert_eq!(printed(&["why"], &form_2), accepted);
    let bow_tie = cage_named("bow-tie").expect("of this name");
    let line = "refused 7 0: vertex 0 has corners 0 and 3, which are not joined\n";
    for file in [form_1_file(&bow_tie), form_2_file(&bow_tie, Weight::Short)] {
        assert_eq!(printed(&["why"], &file), line);
    }
    for mut file in [pillow, form_2] {
        assert_eq!(printed(&["why"], &file[..2]), "refused 10 0\n");
        file[12..14].fill(0);
        let line = "refused 3 0: halfedge 0 has twin 0, which is itself\n";
        assert_eq!(printed(&["why"], &file), line);
        assert_eq!(why_line(&file), line);
    }
}

#[test]
fn a_count_question_is_answered() {
    // Document 01's P8.
    let counted = printed(&["counts"], b"12 6 4 2\n");
    let lines = "0 12 6 4 4\n1 48 24 16 10\n2 192 96 64 34\nroom 252 48 126\n";
    assert_eq!(counted, lines);
    assert_eq!(printed(&["counts"], b"12 6 4 7\n"), "refused 2 0\n");
    assert_eq!(printed(&["counts"], b"12 6 0 007\n"), "refused 1 0\n");
    let no_questions: [&[u8]; 13] = [
        b"",
        b"12 6 4 2",
        b"12 6 4\n",
        b"12 6 4 2 \n",
        b" 12 6 4 2\n",
        b"12  6 4 2\n",
        b"12 6 4 2\n\n",
        b"12 6 4 2 0\n",
        b"12 6 4 +2\n",
        b"12 6 4 2\r\n",
        b"12 6 4 18446744073709551616\n",
        b"12 6 4 000000000000000000002\n",
        b"12 6 4 \xFF\n",
    ];
    for text in no_questions {
        assert_eq!(run(&["counts"], text).status.code(), Some(1), "{text:?}");
    }
}

/// 31 lines, each a valence and its entry.
#[test]
fn the_entries_of_the_paper_s_weight_are_printed() {
    let printed = printed(&["weights"], &[]);
    let lines: Vec<&str> = printed.lines().collect();
    assert_eq!(lines.len(), 31);
    for (valence, line) in (2..).zip(lines) {
        let part = paper_part(valence).expect("an entry");
        assert_eq!(line, format!("{valence} {part}"));
    }
    assert!(printed.starts_with("2 5111808\n3 3145728\n4 2031616\n5 "));
    assert!(printed.contains("\n6 1048576\n7 "));
}

#[test]
fn a_cage_without_a_file_is_told() {
    let refused = run(&["cage", "bow-tie"], &[]);
    assert_eq!(refused.status.code(), Some(1));
    assert_eq!(refused.stderr, b"refused 7 0\n");
    assert_eq!(run(&["cage", "nothing"], &[]).status.code(), Some(1));
    // Wrong creases are in the way of form 2 alone.
    let name = "crease-pillow-length-2";
    let refused = run(&["cage", name, "paper"], &[]);
    assert_eq!(refused.status.code(), Some(1));
    assert_eq!(refused.stderr, b"refused 1 0\n");
    assert_eq!(bytes(&["cage", name], &[]).len(), 24 + 6 * 6 + 12 * 3);
}

#[test]
fn the_suite_is_printed() {
    let printed = printed(&["suite"], &[]);
    assert!(printed.starts_with("triangle 3 3 3 9 3 0 0 3 3 1 3 3\n"));
    assert!(printed.contains("\nbow-tie 6 6 6 15 6 7 0 0 0 0 0 0\n"));
    assert!(printed.contains("\ncrease-pillow-length-2 6 6 6 9 2 1 0 0 0 0 0 0\n"));
}
