//! The manual page and the completion, which are made from the table of commands.

use crate::help::COMMANDS;
use crate::support::{skipped, there_is, Folder};
use std::process::Command;

/// The options in a help text: what stands first in a line of a list.
fn options(help: &str) -> Vec<&str> {
    let lists = help.lines().filter_map(|line| line.strip_prefix("  --"));
    lists.filter_map(|line| line.split([' ', '\n']).next()).collect()
}

#[test]
fn the_manual_has_all_of_the_help() {
    let folder = Folder::new("manual");
    let manual = folder.run(&["--manual"]);
    assert_eq!((manual.status, manual.err.as_str()), (0, ""));
    for command in COMMANDS {
        let start = format!("\n.SS {command} ");
        let section = manual.text().split(&start).nth(1).unwrap_or_else(|| panic!("{command}"));
        let section = section.split("\n.SS").next().unwrap();
        let help = folder.run(&[command, "--help"]);
        for option in options(help.text()) {
            let line = format!("\n.B \\-\\-{option}");
            let everywhere = manual.text().split("\n.SH OPTIONS OF EVERY COMMAND").nth(1).unwrap();
            assert!(section.contains(&line) || everywhere.contains(&line), "{command}: {option}");
        }
    }
    for title in ["NAME", "SYNOPSIS", "DESCRIPTION", "COMMANDS", "EXIT STATUS"] {
        assert!(manual.text().contains(&format!("\n.SH {title}\n")), "{title}");
    }
    assert!(folder.names().is_empty());
}

#[test]
fn the_manual_is_one_that_man_can_show() {
    if !there_is("groff") {
        return skipped("no groff");
    }
    let folder = Folder::new("manual_shown");
    folder.write("page", &folder.run(&["--manual"]).out);
    let mut groff = Command::new("groff");
    groff.args(["-man", "-Tutf8", "-ww"]).arg(folder.file("page"));
    let shown = groff.output().unwrap();
    assert_eq!((shown.status.code(), String::from_utf8_lossy(&shown.stderr)), (Some(0), "".into()));
    assert!(String::from_utf8_lossy(&shown.stdout).contains("COMMAND [WORDS] [OPTIONS]"));
}

/// What bash offers for the last of these words, sorted.
fn offered(folder: &Folder, words: &[&str]) -> Vec<String> {
    let script = r#". ./completion && COMP_WORDS=("$@") COMP_CWORD=$(($# - 1)) &&
        _tjornsaki && printf '%s\n' "${COMPREPLY[@]}""#;
    let mut bash = Command::new("bash");
    bash.args(["-euc", script, "bash", "tjornsaki"]).args(words).current_dir(&folder.path);
    let output = bash.output().unwrap();
    assert_eq!(
        (output.status.code(), String::from_utf8_lossy(&output.stderr)),
        (Some(0), "".into())
    );
    let lines = String::from_utf8(output.stdout).unwrap();
    let mut found: Vec<_> =
        lines.lines().filter(|line| !line.is_empty()).map(String::from).collect();
    found.sort();
    found
}

#[test]
fn bash_completes_commands_options_and_files() {
    if !there_is("bash") {
        return skipped("no bash");
    }
    let folder = Folder::new("completion");
    folder.write("a b", b"");
    folder.write("completion", &folder.run(&["--completion", "bash"]).out);
    let cases: &[(&[&str], &[&str])] = &[
        (&["re"], &["resize"]),
        (&["--json", "re"], &["resize"]),
        (&["--pool", "create", "re"], &["resize"]),
        (&["--pool", "=", "create", "re"], &["resize"]),
        (&["help", "de"], &["delete", "demo"]),
        (&["get", "--of"], &["--offset"]),
        (&["get", "0", "--re"], &["--records"]),
        (&["length", "--of"], &[]),
        (&["--vers"], &["--version"]),
        (&["get", "0", "a"], &["a b"]),
        (&["length", ""], &[]),
        (&["ls", "--pool", "a"], &["a b"]),
        (&["ls", "--pool", "="], &["a b", "completion"]),
        (&["ls", "--pool", "=", "a"], &["a b"]),
        (&["init", "--slots", ""], &[]),
    ];
    for (words, wanted) in cases {
        assert_eq!(offered(&folder, words), *wanted, "{words:?}");
    }
    let commands = offered(&folder, &[""]);
    for command in COMMANDS {
        let help = folder.run(&[command, "--help"]);
        let found = offered(&folder, &[command, "--"]);
        for option in options(help.text()) {
            assert!(found.contains(&format!("--{option}")), "{command}: {option} in {found:?}");
        }
        assert!(commands.contains(&command.to_string()), "{command}");
    }
}
