//! The one table of subcommands, flags and values. Parsing, help, man page and completions all go by it.

use crate::arguments::Arguments;
use crate::report::Failure;
use crate::{append, compare, completion, convert, digest, find, help, names, rules, shift};

pub enum Value {
    Nothing,
    OneOf(&'static [&'static str]),
    /// Any word, called this in the help.
    Word(&'static str),
    File(&'static str),
}

pub struct Flag {
    pub name: &'static str,
    pub short: Option<char>,
    pub value: Value,
    pub is_needed: bool,
    pub help: &'static str,
}

pub struct Operand {
    pub name: &'static str,
    pub value: Value,
    pub optional: bool,
    pub many: bool,
}

pub struct Command {
    /// One word or two.
    pub name: &'static str,
    pub operands: &'static [Operand],
    pub flags: &'static [&'static [Flag]],
    pub help: &'static str,
    /// The exit status, or an error.
    pub run: fn(&Arguments) -> Result<u8, Failure>,
}

const fn flag(name: &'static str, value: Value, help: &'static str) -> Flag {
    Flag {
        name,
        short: None,
        value,
        is_needed: false,
        help,
    }
}

const fn short(short: char, name: &'static str, value: Value, help: &'static str) -> Flag {
    Flag {
        short: Some(short),
        ..flag(name, value, help)
    }
}

const fn needed(flag: Flag) -> Flag {
    Flag {
        is_needed: true,
        ..flag
    }
}

const fn file(name: &'static str) -> Operand {
    Operand {
        name,
        value: Value::File(name),
        optional: false,
        many: false,
    }
}

const fn files(name: &'static str) -> Operand {
    Operand {
        name,
        value: Value::File(name),
        optional: false,
        many: true,
    }
}

const HELP: &[Flag] = &[short('h', "help", Value::Nothing, "this text")];
const JSON: &[Flag] = &[flag("json", Value::Nothing, "results and errors as JSON")];

pub const CONVERSION: &[Flag] = &[
    flag(
        "size",
        Value::Word("WxH"),
        "raw: width and height in pixels, as 1920x1080; needed",
    ),
    flag(
        "pix-fmt",
        Value::OneOf(names::CHANNELS),
        "raw: the bytes of a pixel (rgb24)",
    ),
    flag(
        "stride",
        Value::Word("N"),
        "raw: bytes from row to row (width x bytes a pixel)",
    ),
    flag(
        "window",
        Value::Word("WxH+X+Y"),
        "only this part of each picture, as 640x480+1200+300",
    ),
    flag(
        "sampling",
        Value::OneOf(names::SAMPLINGS),
        "4:2:0 or 4:2:2 (420)",
    ),
    flag(
        "range",
        Value::OneOf(names::RANGES),
        "range of the planes; tv is limited, pc is full (limited)",
    ),
    flag(
        "matrix",
        Value::OneOf(names::MATRICES),
        "matrix of the planes (bt601)",
    ),
    flag("kr", Value::Word("X"), "kr of a custom matrix, 0 to 0.5"),
    flag("kb", Value::Word("Y"), "kb of a custom matrix, 0 to 0.5"),
    flag(
        "transfer",
        Value::OneOf(names::TRANSFERS),
        "curve to linear light and back (srgb)",
    ),
    flag(
        "tables",
        Value::OneOf(names::ROUNDINGS),
        "how the entries of the curve tables are rounded (truncated)",
    ),
];

const FROM_PICTURE: Flag = flag(
    "from",
    Value::OneOf(&["pnm", "raw"]),
    "what the inputs are (by their first bytes; raw by a name in .rgb or .raw)",
);
const FROM_ANY: Flag = flag(
    "from",
    Value::OneOf(&["pnm", "raw", "y4m", "shift"]),
    "what the inputs are (by their first bytes or the end of their names)",
);
const FORCE: Flag = short('f', "force", Value::Nothing, "replace a file that exists");
const OUTPUT: Flag = needed(short(
    'o',
    "output",
    Value::File("OUTPUT"),
    "the file to write, or - for standard output",
));
const CROSSING: Flag = flag(
    "crossing",
    Value::Word("N"),
    "the crossing number of the record",
);
const PLAIN: Flag = flag(
    "plain",
    Value::Nothing,
    "a new shift file without settings (4:2:0 only)",
);

pub const COMMANDS: &[Command] = &[
    Command {
        name: "convert",
        operands: &[files("INPUT")],
        flags: &[
            &[
                OUTPUT,
                FORCE,
                flag(
                    "to",
                    Value::OneOf(&["yuv", "y4m", "shift"]),
                    "what to write (by the end of OUTPUT's name)",
                ),
                CROSSING,
                PLAIN,
                FROM_PICTURE,
            ],
            CONVERSION,
            JSON,
        ],
        help: "Converts pictures (PNM, PAM, raw pixels) to Y, U, V planes: a YUV file, a Y4M file, or a shift file of one record.",
        run: convert::run,
    },
    Command {
        name: "digest",
        operands: &[files("INPUT")],
        flags: &[
            &[
                flag("planes", Value::Nothing, "also one line for each plane"),
                flag(
                    "crossing",
                    Value::Word("N"),
                    "of shift files only the records of this crossing",
                ),
                FROM_ANY,
            ],
            CONVERSION,
            JSON,
        ],
        help: "Prints the SHA-256 of Y, U, V of each picture: of pictures converted, Y4M files and shift files.",
        run: digest::run,
    },
    Command {
        name: "shift list",
        operands: &[file("FILE")],
        flags: &[JSON],
        help: "Lists the records of a shift file.",
        run: shift::list,
    },
    Command {
        name: "shift append",
        operands: &[file("FILE"), file("INPUT")],
        flags: &[&[CROSSING, PLAIN, FROM_ANY], CONVERSION, JSON],
        help: "Puts a picture, a Y4M picture or the records of another shift file at the end of FILE, and brings FILE.summary up to date.",
        run: append::append,
    },
    Command {
        name: "shift find",
        operands: &[
            file("FILE"),
            Operand {
                name: "CROSSING",
                value: Value::Word("CROSSING"),
                optional: false,
                many: false,
            },
        ],
        flags: &[
            &[
                flag(
                    "summary",
                    Value::File("SUMMARY"),
                    "the file's summary (FILE.summary where it exists)",
                ),
                short(
                    'o',
                    "output",
                    Value::File("OUTPUT"),
                    "write its planes there too, as .yuv or .y4m",
                ),
                flag(
                    "to",
                    Value::OneOf(&["yuv", "y4m"]),
                    "what to write (by the end of OUTPUT's name)",
                ),
                FORCE,
                flag(
                    "all",
                    Value::Nothing,
                    "every record of the crossing, and not the first alone",
                ),
            ],
            JSON,
        ],
        help: "Finds the record of a crossing; status 1 where there is none.",
        run: find::run,
    },
    Command {
        name: "shift summary",
        operands: &[file("FILE")],
        flags: &[
            &[
                short(
                    'o',
                    "output",
                    Value::File("SUMMARY"),
                    "the summary (FILE.summary, which is replaced), or - for standard output",
                ),
                FORCE,
                flag(
                    "check",
                    Value::Nothing,
                    "write nothing; status 1 where it is not the file's summary",
                ),
            ],
            JSON,
        ],
        help: "Writes the summary of a shift file, by which records are found.",
        run: shift::summary,
    },
    Command {
        name: "shift move",
        operands: &[file("FILE")],
        flags: &[
            &[
                OUTPUT,
                needed(flag(
                    "to",
                    Value::OneOf(&["settings", "plain"]),
                    "the form to write, with settings or without",
                )),
                FORCE,
            ],
            JSON,
        ],
        help: "Writes a shift file in the other form.",
        run: shift::move_file,
    },
    Command {
        name: "compare",
        operands: &[file("OURS"), file("THEIRS")],
        flags: &[
            &[flag(
                "pairs-only",
                Value::Nothing,
                "records that only one file has do not count",
            )],
            JSON,
        ],
        help: "Holds two shift files against each other; status 0 where every record has an equal pair, 1 where not.",
        run: compare::run,
    },
    Command {
        name: "rules check",
        operands: &[Operand {
            name: "PROGRAM",
            value: Value::Word("PROGRAM"),
            optional: true,
            many: false,
        }],
        flags: &[&[
            flag(
                "lines",
                Value::Word("PROGRAM"),
                "a program that takes calls in lines",
            ),
            flag(
                "counts",
                Value::Word("PROGRAM"),
                "a program that reads a range and a matrix (RULES 9.4)",
            ),
            flag(
                "only",
                Value::Word("NAMES"),
                "of the files with vectors these alone, with commas between",
            ),
        ]],
        help: "Holds a converter to the conformance vectors: PROGRAM reads a request and writes its reply (RULES 9), its arguments in one word.",
        run: rules::check,
    },
    Command {
        name: "help",
        operands: &[Operand {
            name: "COMMAND",
            value: Value::Word("COMMAND"),
            optional: true,
            many: true,
        }],
        flags: &[&[flag("man", Value::Nothing, "the manual page, for man -l -")]],
        help: "Shows this text, that of a command, or the manual page.",
        run: help::run,
    },
    Command {
        name: "completion",
        operands: &[Operand {
            name: "SHELL",
            value: Value::OneOf(&["bash", "zsh", "fish"]),
            optional: false,
            many: false,
        }],
        flags: &[],
        help: "Prints the completions for a shell.",
        run: completion::run,
    },
];

impl Command {
    pub fn flags(&self) -> impl Iterator<Item = &'static Flag> {
        self.flags.iter().copied().flatten().chain(HELP)
    }

    /// The names and words behind the flags.
    pub fn operands_usage(&self) -> String {
        let one = |operand: &Operand| {
            let name = operand.value.usage() + if operand.many { "..." } else { "" };
            if operand.optional {
                format!("[{name}]")
            } else {
                name
            }
        };
        self.operands.iter().map(one).collect::<Vec<_>>().join(" ")
    }
}

impl Flag {
    /// As it is typed.
    pub fn usage(&self) -> String {
        let name = self
            .short
            .map_or(format!("--{}", self.name), |short| format!("-{short}"));
        format!("{name} {}", self.value.usage())
            .trim_end()
            .to_owned()
    }
}

impl Value {
    pub fn usage(&self) -> String {
        match self {
            Value::Nothing => String::new(),
            Value::OneOf(words) => words.join("|"),
            Value::Word(name) | Value::File(name) => (*name).to_owned(),
        }
    }
}
