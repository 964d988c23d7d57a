//! The built program's commands, as a person or a script would give them.

use std::io::Write;
use std::process::{Command, Output, Stdio};

/// Runs the program with arguments and an input.
fn second(arguments: &[&str], input: &str) -> Output {
    let mut child = Command::new(env!("CARGO_BIN_EXE_second"))
        .args(arguments)
        .stdin(Stdio::piped())
        .stdout(Stdio::piped())
        .stderr(Stdio::piped())
        .spawn()
        .expect("the program starts");
    let mut stdin = child.stdin.take().expect("an input");
    let input = input.as_bytes().to_vec();
    // Written from a thread, so that neither side waits for the other; the program may also end
    // before it has read everything.
    let writing = std::thread::spawn(move || drop(stdin.write_all(&input)));
    let output = child.wait_with_output().expect("the program ends");
    writing.join().expect("the input is written");
    output
}

fn printed(arguments: &[&str], input: &str) -> String {
    String::from_utf8(second(arguments, input).stdout).expect("text")
}

#[test]
fn a_bad_m_is_told_before_the_file_is_opened() {
    for cells in ["0", "16385", "-1", "x", "", "0x10"] {
        assert_eq!(
            printed(&["assemble", cells, "/no/such/file"], ""),
            "refused=1\nline=0\ncolumn=0\n"
        );
    }
    let unread = second(&["assemble", "16", "/no/such/file"], "");
    assert!(unread.stdout.is_empty() && unread.status.code() == Some(2));
}

#[test]
fn a_file_is_assembled() {
    let file = std::env::temp_dir().join(format!("second-{}.ens", std::process::id()));
    std::fs::write(&file, "ORG 1\nHALT\nDATA 5").expect("a file");
    let name = file.to_str().expect("a name");
    let image = "version=1\nsize=4\nclaimed=2\ncell=1,code,64\ncell=2,data,5\n";
    assert_eq!(printed(&["assemble", "4", name], ""), image);
    assert_eq!(printed(&["assemble", "2", name], ""), "refused=11\nline=3\ncolumn=1\n");
    std::fs::remove_file(&file).expect("removed");
}

#[test]
fn a_rule_is_run_and_its_record_told() {
    let file = std::env::temp_dir().join(format!("second-run-{}.ens", std::process::id()));
    std::fs::write(&file, "next: INCHAR .R1\nWRCHAR .R1\nCMP .R1,#46\nBNZ /next\nHALT")
        .expect("a file");
    let name = file.to_str().expect("a name");
    let ran = |arguments: &[&str], input: &str| {
        let all = [&["run", "16", name][..], arguments].concat();
        let out = second(&all, input);
        let text = |bytes| String::from_utf8(bytes).expect("text");
        (out.status.code(), text(out.stdout), text(out.stderr))
    };
    let registers = |r1, sr, pc| {
        let others = "R2=0\nR3=0\nR4=0\nR5=0\nR6=0\nR7=0\nR8=0\nR9=0\n";
        format!("A=0\nR0=0\nR1={r1}\n{others}SR={sr}\nIX=0\nIY=0\nSP=0\nPC={pc}\n")
    };
    let halts = format!("stop=1\nsteps=9\n{}taken=2\nwritten=2\n", registers(46, 33, 10));
    assert_eq!(ran(&[], "a."), (Some(0), "a.".to_string(), halts));
    let spent = format!("stop=7\nsteps=2\n{}taken=1\nwritten=1\n", registers(97, 0, 4));
    assert_eq!(ran(&["2"], "a."), (Some(3), "a".to_string(), spent.clone()));
    assert_eq!(ran(&["0002"], "a."), (Some(3), "a".to_string(), spent));
    assert!(ran(&["0"], "a.").2.starts_with("stop=7\nsteps=0\nA=0\n"));
    let ended = format!("stop=8\nsteps=0\n{}taken=0\nwritten=0\n", registers(0, 0, 0));
    assert_eq!(ran(&["1000000"], ""), (Some(3), String::new(), ended));
    for budget in ["1000001", "-1", "x", "", "0x10"] {
        assert_eq!(ran(&[budget], "a.").0, Some(2));
    }
    assert_eq!(ran(&[], &"a".repeat(65_536)).0, Some(3));
    assert_eq!(ran(&[], &"a".repeat(65_537)).0, Some(2));
    let refused = second(&["run", "9", name], "");
    assert_eq!(
        (refused.status.code(), refused.stdout),
        (Some(1), b"refused=11\nline=5\ncolumn=1\n".to_vec())
    );
    std::fs::remove_file(&file).expect("removed");
}

#[test]
fn cases_are_made_answered_counted_and_shown() {
    let cases = printed(&["make", "all", "300", "5"], "");
    assert_eq!(cases.lines().count(), 300);
    assert_eq!(printed(&["answer"], &cases).lines().count(), 300);
    assert!(printed(&["count"], &cases).ends_with("all: 300 cases\n"));
    assert!(
        printed(&["show"], &cases).lines().filter(|line| line.contains("reply:")).count() >= 300
    );
}

#[test]
fn listings_come_back() {
    let done = second(&["back", "1700", "5"], "");
    let text = String::from_utf8(done.stdout).expect("text");
    let lines: Vec<&str> = text.lines().collect();
    assert!(lines[0].starts_with("sources: 1700 made, ") && lines[0].ends_with(" 0 differ"));
    assert!(lines[1].starts_with("images: 1700 made, ") && lines[1].ends_with(" 0 differ"));
    assert_eq!((lines.len(), done.status.code()), (2, Some(0)));
}

#[test]
fn what_is_not_understood_ends_with_code_2() {
    for arguments in [
        &[][..],
        &["make", "all", "x", "1"],
        &["make", "none", "1", "1"],
        &["back", "x", "1"],
        &["nothing"],
        &["bench", "7"],
        &["bench", "alike", "0"],
        &["bench", "middle", "513"],
        &["bench", "mixed", "513"],
        &["bench", "mixed", "x"],
        &["bench", "none", "20"],
        &["speed", "x"],
        &["speed", "source"],
        &["speed", "source", "/no/such/file"],
    ] {
        assert_eq!(second(arguments, "").status.code(), Some(2));
    }
    // Malformed lines, the second of two among them; the last one ends without its LF.
    for cases in
        ["X\n", "\n", "E 39 0 0 0\n", "E 39 0 0 0 0\nX\n", "E 39 0 0 0 0\n\n", "E 39 0 0 0 0"]
    {
        for command in ["answer", "count", "show"] {
            let ended = second(&[command], cases);
            assert_eq!(ended.status.code(), Some(2), "{} of {:?}", command, cases);
            assert!(ended.stderr.starts_with(b"second: line "), "{} of {:?}", command, cases);
        }
    }
    assert_eq!(printed(&["answer"], "E 39 0 0 0 0\nE 1 0 0 0 0\n"), "5\n0 1 64\n");
    assert_eq!(printed(&["answer"], ""), "");
}

#[test]
fn one_work_is_done_by_its_name() {
    let line = printed(&["speed", "labels_20"], "");
    assert!(line.starts_with("labels_20: 100 times, code ") && line.lines().count() == 1);
    assert_eq!(printed(&["bench", "500"], "").lines().count(), 1_500);
}

/// The work's own files come to what the work by its name does.
#[test]
fn files_are_assembled_so_often_under_their_names() {
    let [file, other] = ["labels_20", "labels_500"].map(|name| format!("../bench/{}.ens", name));
    let named = ["labels_20", "labels_500"].map(|name| printed(&["speed", name], "")).concat();
    assert_eq!(printed(&["speed", "source", &file, &other], ""), named);
}

#[test]
fn a_look_up_source_is_written_the_same_each_time() {
    for names in ["alike", "middle", "mixed"] {
        let source = printed(&["bench", names, "512"], "");
        assert_eq!(source.len(), 31_000);
        assert_eq!(source, printed(&["bench", names, "512"], ""));
    }
}
