//! Help and manual page, made from the table of flags.rs.

use crate::arguments::Arguments;
use crate::files;
use crate::flags::{COMMANDS, Command, Flag, Operand, Value};
use crate::report::Failure;

const ABOUT: &str =
    "RGB pictures to planar YUV, proved to the byte; shift files, their summaries, and Y4M files";
const STATUS: &str = "0: done. 1: the answer is no (a difference, no such record, not the summary, a rule broken). \
                      2: an error; standard error says what.";
const DASH: &str = "`-` in the place of a file is standard input or output; `--` ends the flags.";
const ENVIRONMENT: &str = "SEGVARTIN_CONFORMANCE";
const ENVIRONMENT_IS: &str = "the folder of run.py and the conformance vectors, for rules check \
                              (that which was installed, or of the tree that the program was built in).";

pub fn run(arguments: &Arguments) -> Result<u8, Failure> {
    if arguments.has("man") {
        files::print(manual())?;
        return Ok(0);
    }
    let words: Vec<_> = arguments
        .operands
        .iter()
        .map(|word| word.to_string_lossy())
        .collect();
    let name = words.join(" ");
    if !COMMANDS.iter().any(|command| is_of(command, &name)) {
        let expected = "a command of `segvartin --help`";
        return Err(Failure::new(
            "the command",
            expected,
            &name,
            "segvartin --help",
        ));
    }
    files::print(text(&name))?;
    Ok(0)
}

/// Whether a command is the one that is named, or of the group that is.
fn is_of(command: &Command, name: &str) -> bool {
    let group = command.name.split_once(' ').map(|(group, _)| group);
    name.is_empty() || command.name == name || group == Some(name)
}

/// The help on a command, on a group of them, or on all.
pub fn text(name: &str) -> String {
    if let Some(command) = COMMANDS.iter().find(|command| command.name == name) {
        let flags = columns(command.flags().map(|flag| (names(flag), flag.help)));
        let is_file = |operand: &Operand| matches!(operand.value, Value::File(_));
        let dash = if command.operands.iter().any(is_file) {
            format!("\n{DASH}\n")
        } else {
            String::new()
        };
        let usage = usage(command);
        return format!("usage: {usage}\n\n{}\n\n{flags}{dash}", command.help);
    }
    let commands = COMMANDS.iter().filter(|command| is_of(command, name));
    let commands = columns(commands.map(|command| (command.name.to_owned(), command.help)));
    let name = format!("segvartin {name}").trim_end().to_owned();
    format!(
        "{name}: {ABOUT}\n\n{commands}\n`segvartin COMMAND --help` has the flags of a command.\n{DASH}\nStatus {STATUS}\n"
    )
}

fn usage(command: &Command) -> String {
    let mut words = vec![
        "segvartin".to_owned(),
        command.name.to_owned(),
        "[FLAGS]".to_owned(),
        command.operands_usage(),
    ];
    words.extend(
        command
            .flags()
            .filter(|flag| flag.is_needed)
            .map(Flag::usage),
    );
    words.retain(|word| !word.is_empty());
    words.join(" ")
}

/// `-o, --output OUTPUT`.
fn names(flag: &Flag) -> String {
    let short = flag
        .short
        .map_or(String::new(), |short| format!("-{short}, "));
    format!("{short}--{} {}", flag.name, flag.value.usage())
        .trim_end()
        .to_owned()
}

/// Names, and what they are in a column behind them, or below where a name is long.
fn columns<'a>(entries: impl Iterator<Item = (String, &'a str)>) -> String {
    const WIDTH: usize = 28;
    let line = |(name, help): (String, &str)| {
        let gap = if name.len() < WIDTH {
            String::new()
        } else {
            format!("\n  {:WIDTH$}", "")
        };
        format!("  {name:WIDTH$}{gap}{help}\n")
    };
    entries.map(line).collect()
}

fn manual() -> String {
    let mut page = format!(
        ".TH SEGVARTIN 1\n.SH NAME\nsegvartin \\- {}\n.SH SYNOPSIS\n",
        roff(ABOUT)
    );
    page += &COMMANDS
        .iter()
        .map(|command| format!(".B {}\n.br\n", roff(&usage(command))))
        .collect::<String>();
    page += &format!(".SH DESCRIPTION\n{}\n.SH COMMANDS\n", roff(DASH));
    for command in COMMANDS {
        page += &format!(".SS {}\n{}\n", roff(command.name), roff(command.help));
        for flag in command.flags() {
            page += &format!(".TP\n.B {}\n{}\n", roff(&names(flag)), roff(flag.help));
        }
    }
    page += &format!(
        ".SH ENVIRONMENT\n.TP\n.B {ENVIRONMENT}\n{}\n",
        roff(ENVIRONMENT_IS)
    );
    page + ".SH EXIT STATUS\n" + &roff(STATUS) + "\n"
}

/// Hyphens that can be copied, and no line that starts with a control character.
fn roff(text: &str) -> String {
    let text = text.replace('\\', "\\e").replace('-', "\\-");
    if text.starts_with(['.', '\'']) {
        format!("\\&{text}")
    } else {
        text
    }
}
