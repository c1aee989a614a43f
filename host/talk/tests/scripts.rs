//! obriska-talk as a program: its scripts' whole output, bad lines and exit status. What the
//! scripts are expected to write was taken from the rules, docs/RULES.md.

use std::io::Write;
use std::path::{Path, PathBuf};
use std::process::{Command, Output, Stdio};

fn file(path: &str) -> PathBuf {
    Path::new(env!("CARGO_MANIFEST_DIR")).join(path)
}

fn talk(arguments: &[&str], input: &str) -> Output {
    let mut child = Command::new(env!("CARGO_BIN_EXE_obriska-talk"))
        .args(arguments)
        .stdin(Stdio::piped())
        .stdout(Stdio::piped())
        .stderr(Stdio::piped())
        .spawn()
        .expect("the program starts");
    // A program that ends without reading its input is fine.
    let _ = child.stdin.take().expect("it is piped").write_all(input.as_bytes());
    child.wait_with_output().expect("the program ends")
}

fn text(bytes: &[u8]) -> &str {
    std::str::from_utf8(bytes).expect("the output is text")
}

/// The script's output is the file's text, and no line was bad.
fn writes(arguments: &[&str], script: &str, expected: &str) {
    let script = file(script);
    let arguments = [arguments, &[script.to_str().expect("the path is text")]].concat();
    let output = talk(&arguments, "");
    let expected = std::fs::read_to_string(file(expected)).expect("the file is there");
    for (number, (line, expected)) in text(&output.stdout).lines().zip(expected.lines()).enumerate()
    {
        assert_eq!(line, expected, "line {}", number + 1);
    }
    assert_eq!(text(&output.stdout), expected);
    assert_eq!((text(&output.stderr), output.status.code()), ("", Some(0)));
}

/// An example with its bytes.
fn example(name: &str) {
    let example = format!("../../examples/{name}");
    writes(&["--hex"], &format!("{example}.talk"), &format!("{example}.expected"));
}

#[test]
fn the_first_minute_is_as_expected() {
    example("first-minute");
}

#[test]
fn acting_for_another_is_as_expected() {
    example("acting-for-another");
}

#[test]
fn linked_pairs_are_as_expected() {
    example("linked-pairs");
}

#[test]
fn page_conditions_are_as_expected() {
    example("page-conditions");
}

#[test]
fn putting_back_is_as_expected() {
    example("put-back");
}

#[test]
fn real_sids_are_as_expected() {
    example("real-sids");
}

#[test]
fn what_is_said_with_bytes_fits_80_columns() {
    for name in ["first-minute", "page-conditions", "put-back", "real-sids"] {
        let script = file(&format!("../../examples/{name}.talk"));
        let output = talk(&["--hex", script.to_str().expect("the path is text")], "");
        let said = text(&output.stdout).lines().filter(|line| line.starts_with("   "));
        assert_eq!(said.filter(|line| line.len() > 80).collect::<Vec<_>>(), [""; 0], "{name}");
    }
}

#[test]
fn all_requests_are_answered_in_words() {
    writes(&[], "tests/requests.talk", "tests/requests.expected");
}

#[test]
fn the_state_fits_80_columns() {
    let script = file("tests/requests.talk");
    let output = talk(&[script.to_str().expect("the path is text")], "");
    let state = text(&output.stdout).lines().skip_while(|line| *line != "state");
    assert_eq!(state.clone().filter(|line| line.starts_with("   token ")).count(), 3);
    assert!(state.into_iter().all(|line| line.chars().count() <= 80));
}

#[test]
fn a_bad_line_is_named_and_nothing_is_sent() {
    let output = talk(&[], "0: open query,quary\n\n0: close\n0: open query\n");
    let expected = "0: open query,quary\n\n0: close\n0: open query\n   handle 1\n";
    assert_eq!(text(&output.stdout), expected);
    let mistakes: Vec<_> = text(&output.stderr).lines().collect();
    assert_eq!(mistakes.len(), 2);
    assert!(mistakes[0].starts_with("-:1:15: 'quary' is no right: assign-primary, duplicate"));
    assert_eq!(mistakes[1], "-:3:9: missing: handle");
    assert_eq!(output.status.code(), Some(1));
}

#[test]
fn restore_sends_nothing_where_no_report_can_be_put_back() {
    let lines = [
        "0: open all",
        "0: restore",
        "0: privileges 1 37=enable",
        "0: restore",
        "0: privileges 1 tcb=disable shutdown=remove",
        "0: restore",
        "0: privileges 1 reset",
        "0: restore 1",
        "1: restore",
    ];
    let output = talk(&["--hex"], &lines.join("\n"));
    let sent = text(&output.stdout).lines().filter(|line| line.contains(" > ")).count();
    assert_eq!(sent, 4); // all but the five that restore
    let removal = "it was to remove SeShutdownPrivilege 19, and no request gives one back";
    let reset = "it was a reset, which names no privilege";
    let expected = [
        "-:2:4: station 0 has no report to restore".to_string(),
        "-:4:4: station 0 has no report to restore".to_string(),
        format!("-:6:4: station 0's last report restores nothing: {removal}"),
        format!("-:8:4: station 0's last report restores nothing: {reset}"),
        "-:9:4: station 1 has no report to restore".to_string(),
    ];
    assert!(text(&output.stderr).lines().eq(expected));
    assert_eq!(output.status.code(), Some(1));
}

#[test]
fn quit_and_exit_end_the_script() {
    for word in ["quit", "exit"] {
        let output = talk(&["--hex"], &format!("0: open query\n{word}\n0: open query\n"));
        assert_eq!(text(&output.stdout).matches("handle").count(), 1);
        assert_eq!(output.status.code(), Some(0));
    }
}

#[test]
fn a_script_says_what_it_expects() {
    writes(&[], "tests/expecting.talk", "tests/expecting.expected");
}

#[test]
fn a_token_is_shown_in_full() {
    writes(&[], "tests/token.talk", "tests/token.expected");
}

#[test]
fn an_answer_that_was_not_expected_is_named_and_the_script_goes_on() {
    let lines = [
        "expect handle 1",
        "0: open query",
        "expect refused 4",
        "0: open query",
        "  expect  handle  20",
        "expect handle 2",
        "0: opne query",
        "expect handle 3",
        "0: open query",
        "expect handle 3",
    ];
    let output = talk(&[], &lines.join("\n"));
    let expected = [
        "-:1:8: expected 'handle 1', got nothing",
        "-:3:8: expected 'refused 4', got 'handle 1'",
        "-:5:11: expected 'handle 20', got 'handle 2'",
        "-:6:8: expected 'handle 2', got nothing",
        "-:7:4: 'opne' is no request; 'help' lists them",
        "-:8:8: expected 'handle 3', got nothing",
    ];
    assert!(text(&output.stderr).lines().eq(expected), "{}", text(&output.stderr));
    assert!(text(&output.stdout).ends_with("   handle 3\nexpect handle 3\n"));
    assert_eq!(output.status.code(), Some(1));
}

/// A file of this name for one test.
fn kept(name: &str) -> String {
    Path::new(env!("CARGO_TARGET_TMPDIR")).join(name).to_str().expect("the path is text").into()
}

#[test]
fn what_is_saved_is_loaded() {
    let file = kept("saved and loaded");
    let script = format!(
        "0: open all\n0: privileges 1 tcb=disable\n7: bytes 02\nsave {file}\nexpect saved\n\
         0: close 1\nload {file}\nexpect loaded\n0: restore\n0: open all\nexpect handle 2\n\
         0: privileges 1 tcb=enable\nexpect SeTcbPrivilege 7 was disabled\n\
         7: bytes 01 08\nexpect handle 3\n"
    );
    let output = talk(&[], &script);
    let restore = "-:9:4: station 0 has no report to restore\n"; // it was of the memory before
    assert_eq!(text(&output.stderr), restore);
    let output = talk(&[], &format!("load {file}\nexpect loaded\n0: close 1\nexpect done\n"));
    assert_eq!((text(&output.stderr), output.status.code()), ("", Some(0)));
}

#[test]
fn what_is_not_valid_is_not_loaded() {
    let file = kept("not-valid");
    for bytes in [&[][..], &[0; 64], &[0; obriska::MEMORY_BYTES]] {
        std::fs::write(&file, bytes).expect("the file can be written");
        let output = talk(&[], &format!("0: open all\nload {file}\n0: close 1\nexpect done\n"));
        let error = obriska::Broker::from_bytes(bytes).expect_err("it is not valid");
        let said = format!("load {file}\n   {error}\n0: close 1\n");
        assert!(text(&output.stdout).contains(&said), "{}", text(&output.stdout));
        assert_eq!((text(&output.stderr), output.status.code()), ("", Some(0)));
    }
}

#[test]
fn a_file_that_cannot_be_used_is_named() {
    let file = kept("no-such-directory/file");
    let output = talk(&[], &format!("save {file}\nload {file}\n0: open query\nexpect handle 1\n"));
    let mistakes: Vec<_> = text(&output.stderr).lines().collect();
    assert_eq!(mistakes.len(), 2);
    assert!(mistakes[0].starts_with(&format!("-:1:6: '{file}': ")));
    assert!(mistakes[1].starts_with(&format!("-:2:6: '{file}': ")));
    assert_eq!(output.status.code(), Some(1));
}

#[test]
fn help_has_an_example_of_each_request_that_is_no_mistake() {
    let help = talk(&[], "help\n");
    let examples: Vec<_> =
        text(&help.stdout).lines().filter(|line| line.starts_with("  0: ")).collect();
    assert_eq!(examples.len(), 19); // sixteen requests, restore, reconnect, bytes
    let report = ["0: open all", "0: privileges 1 tcb=disable"]; // for 'restore'
    let script: String = report
        .iter()
        .chain(&examples)
        .map(|line| line.trim().split("  ").next().expect("an example").to_string() + "\n")
        .collect();
    let output = talk(&[], &script);
    assert_eq!((text(&output.stderr), output.status.code()), ("", Some(0)));
}

#[test]
fn a_bad_command_line_ends_with_2() {
    assert_eq!(talk(&["--hexx"], "").status.code(), Some(2));
    assert_eq!(talk(&["no-such-file.talk"], "").status.code(), Some(2));
    assert_eq!(talk(&["a.talk", "b.talk"], "").status.code(), Some(2));
    let help = talk(&["--help"], "");
    assert!(text(&help.stdout).contains("usage:") && help.status.success());
}

#[test]
fn the_words_for_completion_stand_one_in_a_line() {
    let words = talk(&["--words"], "0: open all\n");
    let lines: Vec<_> = text(&words.stdout).lines().collect();
    assert!(["restrict", "adjust-privileges", "SYSTEM"].iter().all(|word| lines.contains(word)));
    assert!(lines.iter().all(|line| !line.is_empty() && !line.contains(' ')));
    assert_eq!(words.status.code(), Some(0));
}

#[test]
fn the_version_is_the_packages_and_the_librarys() {
    let version = talk(&["--version"], "0: open all\n");
    let package = env!("CARGO_PKG_VERSION");
    let expected =
        format!("obriska-talk {package}, library {package}, layout {}\n", obriska::LAYOUT);
    assert_eq!((text(&version.stdout), version.status.code()), (&*expected, Some(0)));
}
