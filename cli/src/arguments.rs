//! The command line, read by the table of flags.rs.

use crate::flags::{COMMANDS, Command, Flag, Operand, Value};
use crate::report::Failure;
use std::ffi::{OsStr, OsString};
use std::os::unix::ffi::OsStrExt;

/// What the command line asks for.
pub enum Asked {
    Run(Arguments),
    /// Help on a command, or on all whose names start with this word.
    Help(&'static str),
    Version,
}

pub struct Arguments {
    pub command: &'static Command,
    values: Vec<(&'static Flag, OsString)>,
    pub operands: Vec<OsString>,
}

impl Arguments {
    /// What was said last of a flag.
    pub fn value(&self, name: &str) -> Option<&OsStr> {
        let said = self.values.iter().rev().find(|(flag, _)| flag.name == name);
        said.map(|(_, value)| &**value)
    }

    pub fn has(&self, name: &str) -> bool {
        self.value(name).is_some()
    }

    /// The value of a flag that has a list of them.
    pub fn choice(&self, name: &str) -> Option<&str> {
        self.value(name).and_then(OsStr::to_str)
    }

    /// Of a flag that has a list of values the one that was said, or else the one that the name of a file ends in.
    pub fn choice_or_ending(&self, name: &str, file: &OsStr) -> Result<&'static str, Failure> {
        let flag = self.command.flags().find(|flag| flag.name == name);
        let words = match flag.map(|flag| &flag.value) {
            Some(Value::OneOf(words)) => *words,
            _ => &[],
        };
        let is_meant = |word: &&str| match self.choice(name) {
            Some(said) => said == *word,
            None => has_ending(file, &format!(".{word}")),
        };
        let unknown = || {
            let expected = format!("--{name}, or a name that ends in .{}", words.join(" or ."));
            let hint = format!("--{name} {}", listed(words));
            Failure::new("what to write", &expected, "another name", hint).of(file)
        };
        words
            .iter()
            .copied()
            .find(|word| is_meant(word))
            .ok_or_else(unknown)
    }

    pub fn json(&self) -> bool {
        self.has("json")
    }

    /// The value of a flag that this command cannot do without.
    pub fn needed(&self, name: &str) -> Result<&OsStr, Failure> {
        let flag = self.command.flags().find(|flag| flag.name == name);
        let usage = flag.map(Flag::usage).unwrap_or_default();
        let missing = || Failure::new("a flag is missing", &format!("--{name}"), "none", usage);
        self.value(name).ok_or_else(missing)
    }

    /// The value of a flag that is a number of 32 bits.
    pub fn number(&self, name: &str) -> Result<Option<u32>, Failure> {
        let word = self.value(name);
        word.map(|word| number(&format!("--{name}"), word))
            .transpose()
    }

    fn take(
        &mut self,
        flag: &'static Flag,
        beside: Option<&[u8]>,
        words: &mut impl Iterator<Item = OsString>,
    ) -> Result<(), Failure> {
        let wrong = |expected: &str, received: &str| {
            Failure::new(
                &format!("--{}", flag.name),
                expected,
                received,
                flag.usage(),
            )
        };
        let value = match (&flag.value, beside) {
            (Value::Nothing, None) => OsString::new(),
            (Value::Nothing, Some(value)) => {
                return Err(wrong("no value", &String::from_utf8_lossy(value)));
            }
            (_, Some(value)) => OsStr::from_bytes(value).to_owned(),
            (value, None) => words.next().ok_or_else(|| wrong(&value.usage(), "none"))?,
        };
        check(&format!("--{}", flag.name), &flag.value, &value)?;
        self.values.push((flag, value));
        Ok(())
    }

    fn check_operands(&self) -> Result<(), Failure> {
        let operands = self.command.operands;
        let least = operands.iter().filter(|operand| !operand.optional).count();
        let most = if operands.iter().any(|operand| operand.many) {
            usize::MAX
        } else {
            operands.len()
        };
        let count = self.operands.len();
        if count < least || count > most {
            let received = if count == 0 {
                "none".to_owned()
            } else {
                count.to_string()
            };
            let expected = self.command.operands_usage();
            let expected = if expected.is_empty() {
                "none"
            } else {
                &expected
            };
            let hint = format!("segvartin {} --help", self.command.name);
            return Err(Failure::new("operands", expected, &received, hint));
        }
        let is_file = |operand: &Operand| matches!(operand.value, Value::File(_));
        let inputs = self.operands.iter().filter(|word| *word == "-").count();
        if operands.iter().all(is_file) && inputs > 1 {
            let hint = "one -, and names for the others";
            let received = format!("{inputs} times");
            return Err(Failure::new("-, standard input", "once", &received, hint));
        }
        let mut pairs = operands.iter().zip(&self.operands);
        pairs.try_for_each(|(operand, word)| check(operand.name, &operand.value, word))
    }
}

/// A value of a flag that has a list of them is one of these.
fn check(name: &str, value: &Value, word: &OsStr) -> Result<(), Failure> {
    match value {
        Value::OneOf(words) if !words.iter().any(|one| word == *one) => {
            let received = word.to_string_lossy();
            let hint = format!("{name} {}", nearest(&received, words.iter().copied()));
            Err(Failure::new(name, &listed(words), &received, hint))
        }
        _ => Ok(()),
    }
}

/// `a, b or c`.
fn listed(words: &[&str]) -> String {
    match words {
        [first @ .., last] if !first.is_empty() => format!("{} or {last}", first.join(", ")),
        _ => words.concat(),
    }
}

pub fn number(name: &str, word: &OsStr) -> Result<u32, Failure> {
    let digits = word
        .to_str()
        .filter(|word| word.bytes().all(|byte| byte.is_ascii_digit()));
    let wrong = || {
        let expected = "a number from 0 to 4294967295";
        let received = word.to_string_lossy();
        Failure::new(name, expected, &received, format!("{name} 1400"))
    };
    digits
        .and_then(|digits| digits.parse().ok())
        .ok_or_else(wrong)
}

pub fn has_ending(name: &OsStr, ending: &str) -> bool {
    name.to_string_lossy()
        .to_ascii_lowercase()
        .ends_with(ending)
}

/// Reads the words behind the program's name; a failure with the command's name.
pub fn parse(words: Vec<OsString>) -> Result<Asked, (&'static str, Failure)> {
    let mut words = words.into_iter();
    let first = words.next().unwrap_or_default();
    let is_help = |word: &OsStr| word == "--help" || word == "-h";
    if is_help(&first) {
        return Ok(Asked::Help(""));
    }
    if first == "--version" {
        return Ok(Asked::Version);
    }
    let mut groups = COMMANDS
        .iter()
        .filter_map(|command| command.name.split_once(' '));
    let name = match groups.find(|(group, _)| first == *group) {
        None => first,
        Some((group, _)) => match words.next() {
            Some(word) if is_help(&word) => return Ok(Asked::Help(group)),
            Some(word) => [first, word].join(OsStr::new(" ")),
            None => return Err(("", no_command(group))),
        },
    };
    let command = COMMANDS.iter().find(|command| name == command.name);
    let command = command.ok_or_else(|| ("", unknown_command(&name)))?;
    parse_for(command, words).map_err(|failure| (command.name, failure))
}

/// Of all commands, or of a group of them.
fn no_command(group: &str) -> Failure {
    let help = ["segvartin", group, "--help"].join(" ").replace("  ", " ");
    let expected = format!("a command of `{help}`");
    Failure::new("the command", &expected, "none", help)
}

fn unknown_command(name: &OsStr) -> Failure {
    if name.is_empty() {
        return no_command("");
    }
    let received = name.to_string_lossy();
    let near = nearest(&received, COMMANDS.iter().map(|command| command.name));
    let expected = "a command of `segvartin --help`";
    Failure::new(
        "the command",
        expected,
        &received,
        format!("segvartin {near}"),
    )
}

fn parse_for(
    command: &'static Command,
    mut words: impl Iterator<Item = OsString>,
) -> Result<Asked, Failure> {
    let mut arguments = Arguments {
        command,
        values: vec![],
        operands: vec![],
    };
    while let Some(word) = words.next() {
        match word.as_bytes() {
            b"--" => arguments.operands.extend(words.by_ref()),
            [b'-', b'-', long @ ..] => {
                let mut parts = long.splitn(2, |&byte| byte == b'=');
                let name = parts.next().unwrap_or_default();
                let flag = command.flags().find(|flag| flag.name.as_bytes() == name);
                let flag = flag.ok_or_else(|| unknown_flag(command, word.as_bytes()))?;
                arguments.take(flag, parts.next(), &mut words)?;
            }
            [b'-', shorts @ ..] if !shorts.is_empty() => {
                parse_shorts(&mut arguments, shorts, &mut words)?;
            }
            _ => arguments.operands.push(word),
        }
    }
    if arguments.has("help") {
        return Ok(Asked::Help(command.name));
    }
    arguments.check_operands()?;
    for flag in command.flags().filter(|flag| flag.is_needed) {
        arguments.needed(flag.name)?;
    }
    Ok(Asked::Run(arguments))
}

/// Flags of one letter behind one `-`; what stands behind one that takes a value is its value.
fn parse_shorts(
    arguments: &mut Arguments,
    shorts: &[u8],
    words: &mut impl Iterator<Item = OsString>,
) -> Result<(), Failure> {
    let command = arguments.command;
    for (k, &short) in shorts.iter().enumerate() {
        let flag = command
            .flags()
            .find(|flag| flag.short == Some(char::from(short)));
        let flag = flag.ok_or_else(|| unknown_flag(command, &[b"-", &shorts[k..]].concat()))?;
        let rest = &shorts[k + 1..];
        let takes_rest = !matches!(flag.value, Value::Nothing) && !rest.is_empty();
        arguments.take(flag, takes_rest.then_some(rest), words)?;
        if !matches!(flag.value, Value::Nothing) {
            break;
        }
    }
    Ok(())
}

fn unknown_flag(command: &Command, word: &[u8]) -> Failure {
    let received = String::from_utf8_lossy(word);
    let name = received
        .trim_start_matches('-')
        .split('=')
        .next()
        .unwrap_or_default();
    let near = nearest(name, command.flags().map(|flag| flag.name));
    let expected = format!("a flag of `segvartin {} --help`", command.name);
    Failure::new("an unknown flag", &expected, &received, format!("--{near}"))
}

/// The word that the fewest letters put in, left out or replaced make of this one.
fn nearest(word: &str, known: impl Iterator<Item = &'static str>) -> &'static str {
    known
        .min_by_key(|one| distance(word, one))
        .unwrap_or_default()
}

fn distance(from: &str, to: &str) -> usize {
    let mut row: Vec<usize> = (0..=to.len()).collect();
    for (i, a) in from.bytes().enumerate() {
        let mut diagonal = row[0];
        row[0] = i + 1;
        for (j, b) in to.bytes().enumerate() {
            let replaced = diagonal + usize::from(a != b);
            diagonal = row[j + 1];
            row[j + 1] = replaced.min(diagonal + 1).min(row[j] + 1);
        }
    }
    row[to.len()]
}

#[cfg(test)]
mod tests {
    use super::*;

    fn parsed(line: &str) -> Result<Arguments, String> {
        match parse(line.split(' ').map(OsString::from).collect()) {
            Ok(Asked::Run(arguments)) => Ok(arguments),
            Ok(_) => Err("no run".to_owned()),
            Err((command, failure)) => Err(failure.text(command, false)),
        }
    }

    #[test]
    fn flags_stand_anywhere_and_values_beside_or_behind() {
        let arguments = parsed("convert a.ppm --sampling=422 -fo out.yuv --range tv -- -b.ppm")
            .expect("arguments");
        assert_eq!(arguments.operands, ["a.ppm", "-b.ppm"]);
        assert_eq!(arguments.choice("sampling"), Some("422"));
        assert_eq!(arguments.value("output"), Some(OsStr::new("out.yuv")));
        assert!(arguments.has("force") && !arguments.json());
        let arguments =
            parsed("convert - -oout.yuv -o - --sampling 420 --sampling 422").expect("arguments");
        assert_eq!(arguments.operands, ["-"]);
        assert_eq!(
            (arguments.value("output"), arguments.choice("sampling")),
            (Some(OsStr::new("-")), Some("422"))
        );
    }

    #[test]
    fn what_is_wrong_is_said_with_what_is_near() {
        let said = |line| parsed(line).map(|_| ()).unwrap_err();
        let text = said("convert a.ppm --sampeling 422");
        assert!(
            text.starts_with("segvartin convert: an unknown flag: expected ")
                && text.ends_with("\n  try: --sampling\n"),
            "{text}"
        );
        let text = said("digest a.ppm --sampling 444");
        assert!(
            text.contains("--sampling: expected 420 or 422, received 444\n  try: --sampling 42"),
            "{text}"
        );
        assert!(said("compair a b").ends_with("  try: segvartin compare\n"));
        assert!(said("shift lst a").ends_with("  try: segvartin shift list\n"));
        assert!(said("compare a").contains("expected OURS THEIRS, received 1\n"));
        assert!(said("compare a b c").contains("received 3\n"));
        assert!(said("convert a -o").contains("--output: expected OUTPUT, received none\n"));
        assert!(said("convert a --json=yes").contains("--json: expected no value, received yes\n"));
    }

    #[test]
    fn every_flag_has_one_meaning_in_its_command() {
        for command in COMMANDS {
            let mut names: Vec<_> = command.flags().map(|flag| flag.name).collect();
            names.sort();
            assert!(
                names.windows(2).all(|two| two[0] != two[1]),
                "{}",
                command.name
            );
        }
    }
}
