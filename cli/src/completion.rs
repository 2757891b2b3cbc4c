//! `segvartin completion`: what the shells offer, made from the table of flags.rs.

use crate::arguments::Arguments;
use crate::files;
use crate::flags::{COMMANDS, Command, Flag, Operand, Value};
use crate::report::Failure;

pub fn run(arguments: &Arguments) -> Result<u8, Failure> {
    files::print(match arguments.operands[0].to_str() {
        Some("bash") => bash(),
        Some("zsh") => zsh(),
        _ => fish(),
    })?;
    Ok(0)
}

/// The first words of commands, each once, with what they are.
fn first_words() -> Vec<(&'static str, &'static str)> {
    let mut words: Vec<(&str, &str)> = vec![];
    for command in COMMANDS {
        let (word, help) = match command.name.split_once(' ') {
            Some((group, _)) => (group, "a group of commands"),
            None => (command.name, command.help),
        };
        if words.iter().all(|(known, _)| *known != word) {
            words.push((word, help));
        }
    }
    words
}

/// The groups of commands, each with the second words of its own.
fn groups() -> Vec<(&'static str, String)> {
    let second = |group| {
        let of_group =
            move |command: &'static Command| command.name.strip_prefix(group)?.strip_prefix(' ');
        COMMANDS
            .iter()
            .filter_map(of_group)
            .collect::<Vec<_>>()
            .join(" ")
    };
    let groups = first_words()
        .into_iter()
        .map(|(word, _)| (word, second(word)));
    groups.filter(|(_, seconds)| !seconds.is_empty()).collect()
}

// ---- bash

const BASH_START: &str = r#"# bash completion of segvartin
_segvartin() {
    local current=${COMP_WORDS[COMP_CWORD]} previous=${COMP_WORDS[COMP_CWORD-1]} command=${COMP_WORDS[1]} flags= first=2
    # `--flag=value` is three words here.
    if [[ $current == = ]]; then current=; elif [[ $previous == = ]]; then previous=${COMP_WORDS[COMP_CWORD-2]}; fi
"#;

const BASH_FLAGS: &str = r#"    esac
    if ((COMP_CWORD < first)); then COMPREPLY=($(compgen -W "$words" -- "$current")); return; fi
    if ((first == 3)); then command="$command ${COMP_WORDS[2]}"; fi
    words=
    case "$command $previous" in
"#;

const BASH_END: &str = r#"    esac
    if [[ $current == -* ]]; then words=$flags; fi
    COMPREPLY=($(compgen -W "$words" -- "$current"))
}
complete -F _segvartin segvartin
"#;

fn bash() -> String {
    let words: Vec<_> = first_words().iter().map(|(word, _)| *word).collect();
    let mut text = BASH_START.to_owned();
    text += &format!("    local words='{} --help --version'\n", words.join(" "));
    text += "    ((COMP_CWORD == 1)) || case $command in\n";
    for (group, seconds) in groups() {
        text += &format!("        {group}) first=3 words='{seconds}' ;;\n");
    }
    text += BASH_FLAGS;
    for command in COMMANDS {
        text.extend(command.flags().map(|flag| bash_value(command, flag)));
    }
    text += "    esac\n    case $command in\n";
    text.extend(COMMANDS.iter().map(bash_command));
    text + BASH_END
}

/// What comes behind a flag.
fn bash_value(command: &Command, flag: &Flag) -> String {
    let name = command.name;
    let short = flag
        .short
        .map_or(String::new(), |short| format!("'{name} -{short}' | "));
    let offered = match flag.value {
        Value::Nothing => return String::new(),
        Value::OneOf(words) => format!(
            "COMPREPLY=($(compgen -W '{}' -- \"$current\"));",
            words.join(" ")
        ),
        Value::Word(_) => String::new(),
        Value::File(_) => "compopt -o default;".to_owned(),
    };
    format!(
        "        {short}'{name} --{}') {offered} return ;;\n",
        flag.name
    )
}

/// The flags of a command, and what it works on.
fn bash_command(command: &Command) -> String {
    let flags: Vec<_> = command
        .flags()
        .map(|flag| format!("--{}", flag.name))
        .collect();
    let words = |operand: &Operand| match operand.value {
        Value::OneOf(words) => words.join(" "),
        _ => String::new(),
    };
    let words: String = command.operands.iter().map(words).collect();
    let files = command
        .operands
        .iter()
        .any(|operand| matches!(operand.value, Value::File(_)));
    let files = if files { " compopt -o default" } else { "" };
    format!(
        "        '{}') flags='{}' words='{words}';{files} ;;\n",
        command.name,
        flags.join(" ")
    )
}

// ---- zsh

const ZSH_START: &str = "#compdef segvartin
_segvartin() {
    local command=$words[2]
    local -a commands=(
";

const ZSH_GROUPS: &str = "    )
    if (( CURRENT == 2 )); then _describe command commands; return; fi
    case $command in
";

const ZSH_COMMANDS: &str = "    esac
    shift words; (( CURRENT-- ))
    case $command in
";

fn zsh() -> String {
    let mut text = ZSH_START.to_owned();
    for (word, help) in first_words() {
        text += &format!("        '{word}:{}'\n", zsh_quoted(help));
    }
    text += ZSH_GROUPS;
    for (group, seconds) in groups() {
        text += &format!(
            "        {group}) if (( CURRENT == 3 )); then compadd {seconds}; return; fi\n"
        );
        text += "            command=\"$command $words[3]\"; shift words; (( CURRENT-- )) ;;\n";
    }
    text += ZSH_COMMANDS;
    for command in COMMANDS {
        let flags: String = command.flags().map(zsh_flag).collect();
        let operands: String = command.operands.iter().map(zsh_operand).collect();
        text += &format!(
            "        '{}') _arguments{flags}{operands} ;;\n",
            command.name
        );
    }
    text + "    esac\n}\n_segvartin \"$@\"\n"
}

fn zsh_quoted(text: &str) -> String {
    text.replace('\'', "'\\''")
        .replace('[', "\\[")
        .replace(']', "\\]")
        .replace(':', "\\:")
}

fn zsh_flag(flag: &Flag) -> String {
    let about = format!("[{}]{}", zsh_quoted(flag.help), zsh_value(&flag.value));
    let short = flag
        .short
        .map_or(String::new(), |short| format!(" '-{short}{about}'"));
    // The value is behind `=`, or the next word.
    let equals = if matches!(flag.value, Value::Nothing) {
        ""
    } else {
        "="
    };
    format!("{short} '--{}{equals}{about}'", flag.name)
}

fn zsh_operand(operand: &Operand) -> String {
    let many = if operand.many { "*" } else { "" };
    format!(" '{many}{}'", zsh_value(&operand.value))
}

fn zsh_value(value: &Value) -> String {
    match value {
        Value::Nothing => String::new(),
        Value::OneOf(words) => format!(":value:({})", words.join(" ")),
        Value::Word(name) => format!(":{name}:"),
        Value::File(name) => format!(":{name}:_files"),
    }
}

// ---- fish

const FISH_START: &str = r#"# fish completion of segvartin
# Whether the words behind the program's name, before the cursor, begin with these
function __segvartin_is
    set -l words (commandline -opc)
    set -l last (math (count $argv) + 1)
    test "$words[2..$last]" = "$argv"
end
# Whether they are so many
function __segvartin_has
    test (count (commandline -opc)) -eq (math $argv + 1)
end
complete -c segvartin -f
"#;

fn fish() -> String {
    let mut text = FISH_START.to_owned();
    for (word, help) in first_words() {
        text += &format!(
            "complete -c segvartin -n '__segvartin_has 0' -a {word} -d '{}'\n",
            fish_quoted(help)
        );
    }
    for (group, seconds) in groups() {
        text += &format!(
            "complete -c segvartin -n '__segvartin_is {group}; and __segvartin_has 1' -a '{seconds}'\n"
        );
    }
    for command in COMMANDS {
        let start = format!("complete -c segvartin -n '__segvartin_is {}'", command.name);
        let flags = command.flags().map(fish_flag);
        let operands = command
            .operands
            .iter()
            .map(|operand| fish_value(&operand.value));
        let offered = flags.chain(operands).filter(|one| !one.is_empty());
        text.extend(offered.map(|one| format!("{start}{one}\n")));
    }
    text
}

fn fish_quoted(text: &str) -> String {
    text.replace('\\', "\\\\").replace('\'', "\\'")
}

fn fish_flag(flag: &Flag) -> String {
    let short = flag
        .short
        .map_or(String::new(), |short| format!(" -s {short}"));
    let takes = match flag.value {
        Value::Nothing => "",
        Value::File(_) => " -r",
        _ => " -x",
    };
    let value = fish_value(&flag.value);
    format!(
        "{short} -l {}{takes}{value} -d '{}'",
        flag.name,
        fish_quoted(flag.help)
    )
}

fn fish_value(value: &Value) -> String {
    match value {
        Value::Nothing | Value::Word(_) => String::new(),
        Value::OneOf(words) => format!(" -a '{}'", words.join(" ")),
        Value::File(_) => " -F".to_owned(),
    }
}
