//! The manual page, made from the help and the table of commands.

use crate::help::{help, Command, COMMANDS};

/// The page `tjornsaki.1`, for man.
pub fn manual() -> String {
    let help = help(None);
    let blocks: Vec<&str> = help.split("\n\n").map(|block| block.trim_matches('\n')).collect();
    let (first, rest) = blocks.split_first().unwrap_or((&"", &[]));
    let about = first.strip_prefix("tjornsaki: ").unwrap_or(first).replace('\n', " ");
    let version = env!("CARGO_PKG_VERSION");
    let mut page = format!(".TH TJORNSAKI 1 \"\" \"tjornsaki {version}\" \"User Commands\"\n");
    page += &format!(".SH NAME\ntjornsaki \\- {}\n", escaped(&about));
    page += ".SH SYNOPSIS\n.B tjornsaki\nCOMMAND [WORDS] [OPTIONS]\n.SH DESCRIPTION\n";
    let prose = |block: &&&str| heading(block).is_none() && !block.starts_with("Usage: ");
    rest.iter().filter(prose).for_each(|block| page += &lay_out(block));
    page += ".SH COMMANDS\n";
    COMMANDS.iter().for_each(|command| page += &section(command));
    for block in rest {
        match heading(block) {
            Some((title, list)) if title != "Commands" => {
                page += &format!(".SH {}\n{}", title.to_uppercase(), lay_out(list));
            }
            _ => (),
        }
    }
    page
}

/// A block's title and the list below it, if it has a title.
fn heading(block: &str) -> Option<(&str, &str)> {
    let (title, list) = block.split_once(":\n")?;
    (!title.contains('\n') && list.starts_with("  ")).then(|| (title, list))
}

fn section(command: &Command) -> String {
    let text: String = command.long.split("\n\n").map(lay_out).collect();
    format!(".SS {}\n{text}", escaped(&command.usage()))
}

/// A paragraph, or a list if its lines are indented.
fn lay_out(block: &str) -> String {
    if !block.starts_with("  ") {
        return format!(".PP\n{}\n", block.lines().map(escaped).collect::<Vec<_>>().join("\n"));
    }
    block.lines().map(list_line).collect()
}

/// A line of a list: a term with its words, or more words for the last term.
fn list_line(line: &str) -> String {
    let words = line.trim_start();
    let starts = line.len() - words.len() == 2;
    match words.split_once("  ") {
        Some((term, said)) if starts => {
            format!(".TP\n.B {}\n{}\n", escaped(term), escaped(said.trim_start()))
        }
        None if starts => format!(".TP\n.B {}\n", escaped(words)),
        // Columns stay as they are.
        Some(_) => format!(".br\n.nf\n{}\n.fi\n", escaped(words)),
        None => format!("{}\n", escaped(words)),
    }
}

/// The text as it has to stand in the page, so that it is shown as it is.
fn escaped(text: &str) -> String {
    let text = text.replace('\\', "\\e").replace('-', "\\-");
    let text = text.replace('`', "\\(ga").replace('\'', "\\(aq");
    if text.starts_with('.') {
        format!("\\&{text}")
    } else {
        text
    }
}
