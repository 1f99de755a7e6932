//! Completion for bash, made from the table of commands.

use crate::help::{help, Command, COMMANDS};
use crate::words::EVERYWHERE;

/// The file that bash reads to complete the words of this command.
pub fn bash() -> String {
    let valued = COMMANDS.iter().flat_map(|command| command.options).chain(&EVERYWHERE);
    let (files, others): (Vec<&str>, Vec<&str>) = unique(valued).iter().partition(is_file);
    let names: Vec<&str> = COMMANDS.iter().map(|command| command.name).collect();
    let takes_file = |command: &&Command| command.words.iter().any(|word| word.contains("FILE"));
    let takers: Vec<&str> =
        COMMANDS.iter().filter(takes_file).map(|command| command.name).collect();
    let places = [
        ("@valued@", [&files[..], &others[..]].concat().join(" | ")),
        ("@files@", files.join(" | ")),
        ("@others@", others.join(" | ")),
        ("@names@", names.join(" ")),
        ("@takers@", takers.join(" | ")),
        ("@everywhere@", EVERYWHERE.join(" ")),
        ("@options@", COMMANDS.iter().map(options).collect()),
    ];
    places.iter().fold(BASH.to_string(), |text, (place, words)| text.replace(place, words))
}

/// The line that says which options are the command's own.
fn options(command: &Command) -> String {
    let own = [command.options, command.flags].concat().join(" ");
    match own.is_empty() {
        true => String::new(),
        false => format!("        {}) options+=' {own}' ;;\n", command.name),
    }
}

/// Each once, in order.
fn unique<'a>(options: impl Iterator<Item = &'a &'static str>) -> Vec<&'static str> {
    let mut found = vec![];
    options.for_each(|option| {
        if !found.contains(option) {
            found.push(*option)
        }
    });
    found
}

/// Whether the option's value is a file or a folder, as the help has it.
fn is_file(option: &&&str) -> bool {
    let names = |text: String| {
        let said = |kind: &str| text.contains(&format!("  {option} {kind}"));
        said("FILE") || said("FOLDER")
    };
    COMMANDS.iter().any(|command| names(help(Some(command))))
}

const BASH: &str = r#"# Completion of tjornsaki for bash, as `tjornsaki --completion bash` prints it.
_tjornsaki() {
    local word=${COMP_WORDS[COMP_CWORD]} before=${COMP_WORDS[COMP_CWORD - 1]} command='' place
    local options='@everywhere@ --json --help'
    # Bash takes --pool=NAME for three words.
    if [[ $word == = ]]; then
        word=''
    elif [[ $before == = ]]; then
        before=${COMP_WORDS[COMP_CWORD - 2]}
    fi
    for ((place = 1; place < COMP_CWORD; place++)); do
        case ${COMP_WORDS[place]} in
        @valued@)
            [[ ${COMP_WORDS[place + 1]} != = ]] || place=$((place + 1))
            place=$((place + 1))
            ;;
        -*) ;;
        *)
            command=${COMP_WORDS[place]}
            break
            ;;
        esac
    done
    COMPREPLY=()
    case $before in
    @files@)
        _tjornsaki_files "$word"
        return
        ;;
    @others@) return ;;
    esac
    case $command in
@options@        '') options+=' --version' ;;
    esac
    case $word:$command in
    -*) mapfile -t COMPREPLY < <(compgen -W "$options" -- "$word") ;;
    *: | *:help) mapfile -t COMPREPLY < <(compgen -W '@names@ help' -- "$word") ;;
    *) case $command in @takers@) _tjornsaki_files "$word" ;; esac ;;
    esac
}

_tjornsaki_files() {
    compopt -o filenames 2>/dev/null
    mapfile -t COMPREPLY < <(compgen -f -- "$1")
}

complete -F _tjornsaki tjornsaki
"#;
