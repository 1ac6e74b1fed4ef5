//! The command `ryebadger`: its text or bytes are the second program's, on every
//! input; its statuses are those of the README, each with at most one line on
//! standard error.

use std::fs;
use std::ops::Deref;
use std::path::{Path, PathBuf};
use std::process::{Command, Output};
use std::sync::LazyLock;

use compare::{accepted, creased, files_of, named, refused, repository, run};
use second::counter::count_levels;
use second::file::{to_form_1, to_form_2, LONGEST_FORM_2};
use second::lister::level_lines;
use second::questions::counts;
use second::questions::files::{damaged, form_1_file, form_2_file};
use second::refusal::Refusal;
use second::stl::level_0_stl;
use second::suite::SuiteCage;
use second::weight::Weight;
use second::why::{check_file, why_line};

/// A folder of this test's own, empty, elsewhere than the repository.
fn folder(name: &str) -> PathBuf {
    let folder = Path::new(env!("CARGO_TARGET_TMPDIR")).join(name);
    let _ = fs::remove_dir_all(&folder);
    fs::create_dir_all(&folder).expect("made");
    folder
}

/// The commands that take a file.
const TAKING_FILES: [&str; 5] = ["list", "why", "stl", "form-2", "form-1"];

/// The command, with each of its programs proved: a first run says more.
static COMMAND: LazyLock<PathBuf> = LazyLock::new(|| {
    let command = repository().join("ryebadger");
    let takes_file = TAKING_FILES.iter().map(std::slice::from_ref);
    for words in takes_file.chain([&["counts", "12", "6", "4", "2"][..]]) {
        let status = run(Command::new(&command).args(words), b"").status.code();
        assert!(status < Some(2), "{words:?}");
    }
    command
});

fn ryebadger() -> Command {
    let mut command = Command::new(&*COMMAND);
    command.current_dir(env!("CARGO_TARGET_TMPDIR"));
    command
}

fn text(bytes: &[u8]) -> String {
    String::from_utf8(bytes.to_vec()).expect("text")
}

/// The status, and what was said on standard error.
fn ended(output: &Output) -> (i32, String) {
    let status = output.status.code().expect("ended by itself");
    (status, text(&output.stderr))
}

/// The status, and what was said on the two streams.
fn told(output: &Output) -> (i32, String, String) {
    let (status, said) = ended(output);
    (status, text(&output.stdout), said)
}

/// Nothing is said but one line on standard error, which has this in it.
fn assert_fails(output: &Output, status: i32, part: &str) {
    let (ended, text, said) = told(output);
    assert_eq!((ended, text.as_str()), (status, ""), "{said}");
    assert_eq!(said.lines().count(), 1, "{said}");
    assert!(
        said.starts_with("ryebadger: ") && said.contains(part),
        "{said}"
    );
}

/// What is printed is the second program's: lines, or a refusal with status 1.
fn assert_answers(output: &Output, judged: Result<String, Refusal>, name: &str) {
    let status = i32::from(judged.is_err());
    let text = judged.unwrap_or_else(|refusal| refusal.line());
    assert_eq!(told(output), (status, text, String::new()), "{name}");
}

/// What is written is the second program's: bytes, or a refusal's line with
/// status 1.
fn assert_writes(output: &Output, judged: Result<Vec<u8>, Refusal>, name: &str) {
    match judged {
        Ok(bytes) => {
            assert_eq!(ended(output), (0, String::new()), "{name}");
            // Not assert_eq, which would print both files.
            assert!(output.stdout == bytes, "{name}");
        }
        Err(refusal) => assert_answers(output, Err(refusal), name),
    }
}

/// The second program's file in the form that the word names.
fn moved(word: &str, file: &[u8]) -> Result<Vec<u8>, Refusal> {
    let mut lent = vec![0; LONGEST_FORM_2];
    let length = match word {
        "form-2" => to_form_2(file, &mut lent),
        _ => to_form_1(file, &mut lent),
    }?;
    lent.truncate(length as usize);
    Ok(lent)
}

/// What the command of this word makes of a file is the second program's. The line
/// of a refusal is no file: the moves put it on standard error.
fn assert_taken(word: &str, output: &Output, file: &[u8], name: &str) {
    match word {
        "list" => assert_answers(output, level_lines(file), name),
        "why" => {
            let status = i32::from(check_file(file).is_err());
            assert_eq!(
                told(output),
                (status, why_line(file), String::new()),
                "{name}"
            );
        }
        "stl" => assert_writes(output, level_0_stl(file), name),
        _ => match moved(word, file) {
            Err(refusal) => {
                let expected = (1, String::new(), refusal.line());
                assert_eq!(told(output), expected, "{name}");
            }
            written => assert_writes(output, written, name),
        },
    }
}

fn assert_takes(word: &str, file: &[u8], name: &str) {
    let output = run(ryebadger().arg(word), file);
    assert_taken(word, &output, file, name);
}

fn assert_counted(words: &[&str]) {
    let output = run(ryebadger().arg("counts").args(words), b"");
    match count_levels(format!("{}\n", words.join(" ")).as_bytes()) {
        Some(judged) => assert_answers(&output, judged, &words.join(" ")),
        None => assert_fails(&output, 2, "H E V DEPTH"),
    }
}

/// The triangle's file, in the form that a command takes which takes one form
/// alone.
fn triangle_for(word: &str) -> Vec<u8> {
    let cage = named("triangle");
    match word {
        "form-1" => form_2_file(&cage, Weight::Short),
        _ => form_1_file(&cage),
    }
}

/// A shell's words with the command as `$0`, in a folder of its own with a file of
/// the triangle.
fn in_shell_with(triangle: &[u8], script: &str, name: &str) -> Output {
    let folder = folder(name);
    fs::write(folder.join("triangle.cage"), triangle).expect("written");
    let mut shell = Command::new("sh");
    shell.arg("-c").arg(script).arg(&*COMMAND);
    run(shell.current_dir(folder), b"")
}

fn in_shell(script: &str, name: &str) -> Output {
    in_shell_with(&triangle_for("list"), script, name)
}

/// A shell's words that have the command take a file, with another command in place
/// of `list`.
fn in_shell_for(word: &str, script: &str, name: &str) -> Output {
    let script = script.replace(" list", &format!(" {word}"));
    in_shell_with(&triangle_for(word), &script, &format!("{name}-{word}"))
}

/// Some accepted cages, the first of as many halfedges as a cage may have.
fn accepted_to_try() -> Vec<SuiteCage> {
    let entries = accepted();
    let largest = entries.iter().max_by_key(|entry| entry.cage.twin.len());
    let largest = largest.expect("a suite");
    assert_eq!(largest.cage.twin.len(), 3_072);
    let some = entries.iter().step_by(12);
    [largest].into_iter().chain(some).cloned().collect()
}

/// The largest by each command in either form, the others by one command for each of
/// their files in turn.
#[test]
fn accepted_cages_are_taken() {
    for (turn, entry) in accepted_to_try().iter().enumerate() {
        for (at, (_, file)) in files_of(&entry.cage).iter().enumerate() {
            for (number, word) in TAKING_FILES.into_iter().enumerate() {
                if turn == 0 || (turn + at) % TAKING_FILES.len() == number {
                    assert_takes(word, file, &entry.name);
                }
            }
        }
    }
}

/// And both ways, where a file has them: what one puts out, the other takes.
#[test]
fn accepted_cages_are_moved_there_and_back() {
    for name in [
        "triangle",
        "pillow",
        "cushion",
        "most-halfedges-and-vertices",
    ] {
        let old = form_1_file(&named(name));
        let new = run(ryebadger().arg("form-2"), &old).stdout;
        assert!(new == form_2_file(&named(name), Weight::Short), "{name}");
        let back = run(ryebadger().arg("form-1"), &new);
        assert_eq!(ended(&back), (0, String::new()), "{name}");
        assert!(back.stdout == old, "{name}");
    }
}

/// Files that are refused, each with what was done to it.
fn refused_files() -> Vec<(&'static str, Vec<u8>)> {
    let triangle = form_1_file(&named("triangle"));
    let cut = |length: usize| ("cut", triangle[..length].to_vec());
    let mut files = [0, 1, 8, 9, 38, 77].map(cut).to_vec();
    files.push(("longer", [&triangle[..], &[0]].concat()));
    files.push(("much longer", [&triangle[..], &[0; 100_000]].concat()));
    // A tag, H, TWIN(0), VERT(0), EDGE(0), and a coordinate's last byte.
    for (offset, byte) in [(9, 0x21), (5, 4), (12, 0), (21, 7), (30, 9), (42, 0x7F)] {
        let mut changed = triangle.clone();
        changed[offset] = byte;
        files.push(("changed", changed));
    }
    for (_, longest) in files_of(&named("most-halfedges-and-vertices")) {
        let last = longest.len() - 1;
        files.push(("longest, cut", longest[..last].to_vec()));
        files.push(("longest and a byte", [&longest[..], &[0]].concat()));
        // EDGE(0), after the first field, and TWIN and VERT of 3,072 halfedges.
        let mut changed = longest;
        changed[9 + 2 * (3 + 6_144) + 4] = 0x7F;
        files.push(("longest, changed", changed));
    }
    files
}

#[test]
fn refused_files_are_told() {
    for (name, file) in refused_files() {
        assert!(level_lines(&file).is_err(), "{name}");
        for word in TAKING_FILES {
            assert_takes(word, &file, name);
        }
    }
}

/// The files of cages that each break a clause, in either form.
#[test]
fn every_clause_is_told() {
    let clauses = |entry: &SuiteCage| entry.name.starts_with("clause-");
    for entry in refused().into_iter().filter(clauses) {
        for (_, file) in files_of(&entry.cage).into_iter().take(2) {
            assert_takes("why", &file, &entry.name);
        }
    }
}

/// Some of the second program's damaged files, which are of either form.
#[test]
fn damaged_files_are_told() {
    let files = damaged();
    let step = files.len() / 25;
    for file in files.into_iter().step_by(step) {
        for word in TAKING_FILES {
            assert_takes(word, &file.bytes, &file.name);
        }
    }
}

/// With a crease, or the paper's weight. It is listed, explained and written as STL
/// all the same.
#[test]
fn a_file_that_has_no_old_form_is_told() {
    let pillow = named("pillow");
    let seamed = creased(&pillow, |edge| edge as u8);
    for file in [
        form_2_file(&seamed, Weight::Short),
        form_2_file(&pillow, Weight::Paper),
    ] {
        for word in TAKING_FILES {
            assert_takes(word, &file, "no old form");
        }
        let output = run(ryebadger().arg("form-1"), &file);
        let expected = (1, String::new(), "refused 16 0\n".to_string());
        assert_eq!(told(&output), expected);
    }
}

#[test]
fn count_questions_are_answered() {
    for numbers in counts::questions().into_iter().step_by(24) {
        let words = numbers.map(|number| number.to_string());
        assert_counted(&words.each_ref().map(String::as_str));
    }
    for words in [
        ["12", "6", "4", "2"],
        ["00000000000000000012", "6", "4", "2"],
        ["3072", "1536", "2048", "6"],
        ["18446744073709551615", "18446744073709551615", "1", "0"],
    ] {
        assert_counted(&words);
    }
}

#[test]
fn what_is_no_count_question_is_told() {
    let far = "7".repeat(100_000);
    for words in [
        ["12", "6", "4", "18446744073709551616"],
        ["12", "6", "4", "99999999999999999999"],
        ["4294967308", "6", "4", "100000000000000000000"],
        ["000000000000000000012", "6", "4", "2"],
        ["12", "6", "4", &far],
        [&far, "6", "4", "2"],
        ["12", "6", "4", ""],
        ["", "6", "4", "2"],
        ["12", "6", "4", "-1"],
        ["12", "6", "4", "+2"],
        ["12", "6", "4", "0x2"],
        ["12", "6", "4", " 2"],
        ["12", "6", "4 2", "2"],
        ["12", "6", "4", "2\n"],
        ["12", "6", "4", "\u{0662}"],
        ["-e", "%s", "\\n", "*"],
    ] {
        assert_counted(&words);
    }
}

#[test]
fn other_words_are_told() {
    let wrong: [(&[&str], &str); 16] = [
        (&[], "no command"),
        (&["corners", "0", "1", "2", "3"], "corners"),
        (&["lists"], "lists"),
        (&["list,"], "list,"),
        (&["list --help"], "list --help"),
        (&[""], "no command"),
        (&["counts"], "H, E, V and DEPTH"),
        (&["counts", "12", "6", "4"], "H, E, V and DEPTH"),
        (&["counts", "12", "6", "4", "2", "0"], "H, E, V and DEPTH"),
        (&["list", "one", "two"], "one file"),
        (&["why", "one", "two"], "one file"),
        (&["stl", "one", "two"], "one file"),
        (&["form-2", "one", "two"], "form-2 takes one file"),
        (&["form-1", "one", "two"], "form-1 takes one file"),
        (&["form_1"], "form_1"),
        (&["form-3"], "form-3"),
    ];
    for (words, part) in wrong {
        assert_fails(&run(ryebadger().args(words), b""), 2, part);
    }
}

#[test]
fn help_is_an_answer() {
    let wanted: [&[&str]; 9] = [
        &["--help"],
        &["-h"],
        &["help"],
        &["list", "--help"],
        &["why", "--help"],
        &["stl", "--help"],
        &["form-2", "--help"],
        &["form-1", "--help"],
        &["counts", "--help"],
    ];
    for words in wanted {
        let (status, text, said) = told(&run(ryebadger().args(words), b""));
        assert_eq!((status, said.as_str()), (0, ""));
        assert!(text.starts_with("usage: ryebadger list [FILE]\n"));
    }
    assert_fails(
        &in_shell("\"$0\" --help >/dev/full", "help-full"),
        3,
        "output",
    );
    assert_fails(&in_shell("\"$0\" --help >&-", "help-closed"), 3, "output");
}

/// The reader closes its end at once, and stays until the command has ended.
const PIPE_THAT_NOBODY_READS: &str = "
    { \"$0\" list triangle.cage; echo $? >status; } | {
        exec <&-
        while ! [ -s status ]; do sleep 0.1; done
    }
    exit $(cat status)";

#[test]
fn a_stream_that_fails_is_told() {
    let failing = [
        (
            "\"$0\" list triangle.cage >/dev/full",
            "output cannot be written",
        ),
        ("\"$0\" list triangle.cage >&-", "output is closed"),
        ("\"$0\" list <&-", "input is closed"),
        ("\"$0\" list - <&-", "input is closed"),
        ("\"$0\" list ''", "cannot be opened"),
        ("\"$0\" list nowhere.cage", "nowhere.cage cannot be opened"),
        ("\"$0\" list .", ". is a folder"),
        ("\"$0\" list <.", "the input cannot be read"),
        // It opens, and reading it from the start fails.
        ("\"$0\" list /proc/self/mem", "the input cannot be read"),
        (PIPE_THAT_NOBODY_READS, "output cannot be written"),
    ];
    for (at, (script, part)) in failing.into_iter().enumerate() {
        for word in TAKING_FILES {
            let output = in_shell_for(word, script, &format!("failing-{at}"));
            assert_fails(&output, 3, part);
        }
    }
    for (script, part) in [
        (
            "\"$0\" counts 12 6 4 2 >/dev/full",
            "output cannot be written",
        ),
        ("\"$0\" counts 12 6 4 2 >&-", "output is closed"),
    ] {
        assert_fails(&in_shell(script, "failing-counts"), 3, part);
    }
}

/// The line of a refusal goes to standard output, and fails there; that of the
/// moves does not.
#[test]
fn a_refusal_goes_to_its_own_stream() {
    let script = "head -c 77 triangle.cage | \"$0\" list >/dev/full";
    for word in ["list", "why", "stl"] {
        let output = in_shell_for(word, script, "refused-full");
        assert_fails(&output, 3, "output cannot be written");
    }
    for (word, line) in [("form-2", "refused 10 75\n"), ("form-1", "refused 10 42\n")] {
        let told_line = (1, String::new(), line.to_string());
        let output = in_shell_for(word, script, "refused-full");
        assert_eq!(told(&output), told_line);
        let script = script.replace(">/dev/full", "2>&-");
        let output = in_shell_for(word, &script, "refused-unheard");
        assert_eq!(told(&output), (1, String::new(), String::new()));
    }
}

/// Files of two blocks at most stand for a disk that fills; the cushion's STL and
/// its file are longer.
const DISK_THAT_FILLS: &str = "
    trap '' XFSZ
    ulimit -f 2 && \"$0\" list triangle.cage >written";

#[test]
fn a_disk_that_fills_midway_is_told() {
    let cushion = form_1_file(&named("cushion"));
    for (word, whole) in [
        ("stl", level_0_stl(&cushion)),
        ("form-2", moved("form-2", &cushion)),
    ] {
        let name = format!("filling-{word}");
        let script = DISK_THAT_FILLS.replace(" list", &format!(" {word}"));
        let output = in_shell_with(&cushion, &script, &name);
        assert_fails(&output, 3, "output cannot be written");
        let folder = Path::new(env!("CARGO_TARGET_TMPDIR")).join(name);
        let written = fs::read(folder.join("written")).expect("a file");
        let whole = whole.expect("accepted");
        assert!((1_000..whole.len()).contains(&written.len()), "{word}");
        assert!(whole.starts_with(&written), "{word}");
    }
}

/// Lines may go to a terminal, and bytes that are no text may not. What opens
/// `/dev/ptmx` has one.
#[test]
fn a_terminal_gets_no_bytes() {
    let script = "\"$0\" list triangle.cage >/dev/ptmx";
    for word in ["stl", "form-2", "form-1"] {
        let output = in_shell_for(word, script, "terminal");
        let part = format!("{word} puts out bytes, which are no text");
        assert_fails(&output, 2, &part);
    }
    for word in ["list", "why"] {
        let output = in_shell_for(word, script, "terminal");
        assert_eq!(told(&output), (0, String::new(), String::new()));
    }
}

#[test]
fn a_file_is_taken_from_anywhere() {
    let scripts = [
        "\"$0\" list triangle.cage",
        "\"$0\" list <triangle.cage",
        "\"$0\" list - <triangle.cage",
        "cat triangle.cage | \"$0\" list",
        "cp triangle.cage 'a  b.cage' && \"$0\" list 'a  b.cage'",
        "cp triangle.cage ./-- && \"$0\" list --",
        "\"$0\" list triangle.cage 2>&-",
        "ln -s \"$0\" 'by link' && './by link' list triangle.cage",
        "cd / && \"$0\" list <\"$OLDPWD/triangle.cage\"",
        "mkfifo pipe && { cat triangle.cage >pipe & \"$0\" list pipe; }",
        "exec 3<triangle.cage 4<triangle.cage && \"$0\" list triangle.cage",
    ];
    for (at, script) in scripts.into_iter().enumerate() {
        for word in TAKING_FILES {
            let output = in_shell_for(word, script, &format!("taken-{at}"));
            assert_taken(word, &output, &triangle_for(word), script);
        }
    }
}

/// A copy of what the command needs. It goes with the test that made it, since cargo
/// may have its folders in the repository, in which `rt ci` takes no crates but the
/// repository's own.
struct Copied(PathBuf);

impl Deref for Copied {
    type Target = Path;

    fn deref(&self) -> &Path {
        &self.0
    }
}

impl Drop for Copied {
    fn drop(&mut self) {
        let _ = fs::remove_dir_all(&self.0);
    }
}

/// A copy at a path with spaces, with a toolchain of its own, whose `rt` notes the
/// crate, and makes of the counter the program that is proved already.
fn copy_with_toolchain(name: &str, fails_at: &str) -> Copied {
    let copy = Copied(folder(name).join("a copy"));
    let script = format!(
        "set -e
         cd \"$0\"
         mkdir -p \"$1/host\" \"$1/toolchain/bin\"
         tar -cf - --exclude='crates/*/out' crates | tar -xf - -C \"$1\"
         cp crates.txt ryebadger \"$1\"
         cp host/inputs host/build \"$1/host\"
         cp target/bin/counter \"$1/toolchain\"
         cat >\"$1/toolchain/bin/rt\" <<'RT'
#!/bin/sh
[ \"$1\" != version ] || {{ echo of a test; exit 0; }}
crate=$(basename \"$PWD\")
echo \"$crate\" >>../../checked
sleep 0.1
[ \"$crate\" != '{fails_at}' ] || {{ echo rt: a fact fails; exit 1; }}
case $1,$crate in
run,counter)
    mkdir -p out
    cp ../../toolchain/counter out
    ;;
lib,*) ;;
*) exit 2 ;;
esac
RT
         chmod +x \"$1/toolchain/bin/rt\""
    );
    let mut shell = Command::new("sh");
    let repository = COMMAND.parent().expect("a folder");
    let made = run(shell.arg("-c").arg(script).arg(repository).arg(&*copy), b"");
    assert_eq!(told(&made), (0, String::new(), String::new()));
    copy
}

/// The count question of document 01's P8, put to the command of a copy.
fn count_in(copy: &Path) -> Output {
    let mut command = Command::new(copy.join("ryebadger"));
    let asked = command.args(["counts", "12", "6", "4", "2"]);
    run(asked.env("RATTLE_HOME", copy.join("toolchain")), b"")
}

/// What is said while the counter is proved, up to this many crates.
fn proving(crates: usize) -> String {
    let names = ["laws", "halfedges", "text", "counter"];
    let mut said = String::from("ryebadger: proving counter, once, which can take some minutes\n");
    for (name, at) in names.iter().zip(1..).take(crates) {
        said += &format!("ryebadger: at {name}, {at} of {}\n", names.len());
    }
    said
}

#[test]
fn the_first_run_proves_and_says_so() {
    let copy = copy_with_toolchain("first-run", "");
    let question = count_levels(b"12 6 4 2\n").expect("a question");
    let lines = question.expect("accepted");
    let first = told(&count_in(&copy));
    assert_eq!(first, (0, lines.clone(), proving(4)));
    let second = told(&count_in(&copy));
    assert_eq!(second, (0, lines.clone(), String::new()));
    // A change is proved again.
    fs::write(copy.join("crates/laws/src/lib.rt"), "// changed").expect("written");
    let third = told(&count_in(&copy));
    assert_eq!(third, (0, lines.clone(), proving(4)));
    // One of a crate that the program does not stand on is not.
    fs::write(copy.join("crates/points/src/lib.rt"), "// changed").expect("written");
    let fourth = told(&count_in(&copy));
    assert_eq!(fourth, (0, lines, String::new()));
}

#[test]
fn two_first_runs_at_once_prove_once() {
    let copy = copy_with_toolchain("two-runs", "");
    std::thread::scope(|scope| {
        let both = [(); 2].map(|()| scope.spawn(|| count_in(&copy)));
        for output in both {
            let (status, text, said) = told(&output.join().expect("ended"));
            assert_eq!((status, text.lines().count()), (0, 4));
            // One proves. The other waits for it, unless it came later.
            let waiting = "ryebadger: waiting for another run, which is proving\n";
            assert!(
                [&proving(4), waiting, ""].contains(&said.as_str()),
                "{said}"
            );
        }
    });
    let checked = fs::read_to_string(copy.join("checked")).expect("a list of crates");
    assert_eq!(checked, "laws\nhalfedges\ntext\ncounter\n");
}

#[test]
fn what_is_not_proved_is_not_run() {
    let copy = copy_with_toolchain("not-proved", "halfedges");
    let (status, text, said) = told(&count_in(&copy));
    assert_eq!((status, text.as_str()), (3, ""));
    let reason = "ryebadger: halfedges is not proved; target/proving has what rt said\n";
    assert_eq!(said, proving(2) + reason);
    let rt_said = fs::read_to_string(copy.join("target/proving")).expect("text");
    assert_eq!(rt_said, "rt: a fact fails\n");
}

#[test]
fn a_folder_that_cannot_be_written_is_told() {
    let copy = copy_with_toolchain("no-target", "");
    fs::write(copy.join("target"), "a file").expect("written");
    assert_fails(&count_in(&copy), 3, "target cannot be written");
}

#[test]
fn a_missing_toolchain_is_told() {
    let mut command = ryebadger();
    let asked = command.args(["counts", "12", "6", "4", "2"]);
    let output = run(asked.env("RATTLE_HOME", folder("no-toolchain")), b"");
    assert_fails(&output, 3, "toolchain");
}
