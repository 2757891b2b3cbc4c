//! The stored list of calls on Y4M files, which the crate replay_y4m replays with no Rust at hand: its calls,
//! what is answered, and its files. The expectations are the model's, held first to the list of conditions and
//! to a second reading of the file (`y4m.rs`).
//!
//! The list is the number of calls, and these, one behind the other. Numbers have four bytes, low byte
//! first, and buffers are stored as in the other lists (`stored.rs`). A call:
//!
//! - reading: 0; the file's length; first, its low 32 bits and its high ones; how many numbers are lent
//!   for entries, at most 36, each of them 9 before the call; the file.
//! - writing: 1; the lengths of the pictures and of the output; w, h and the code of the sampling; the
//!   pictures, the output before the call.
//! - a picture from planes: 2; the lengths of Y, U, V and of the output; w, h, the code of the sampling, and
//!   the strides of Y, U, V; the bytes of Y, U, V, and of the output before the call.
//!
//! No file is longer than 131,072 bytes, and no other buffer longer than 65,536. What is printed of a call is a
//! line: its place in the list from 1 on; number, expected and received; then of a reading the sides, the
//! sampling, how many pictures and entries there are, and all the numbers lent; of the others the size and
//! the digest of the output.
//!
//!     1 0 0 0 width=3 height=2 sampling=0 count=2 told=2 entries 40 6 46 2 48 2 62 6 68 2 70 2
//!     16 19 0 0 width=0 height=0 sampling=0 count=0 told=0 entries 9 9 9 9 9 9 9
//!     2306 0 0 0 size=34 output=9df2a0ce
//!     2299 16 0 0 size=52 output=95b020f2

use crate::check::{Converters, checked, equal_bytes};
use crate::conditions;
use crate::random::Random;
use crate::request::answer_text;
use crate::stored::{Stored, digest};
use crate::y4m::{Picture, Reading, Writing, number};
use crate::y4m_mistakes::{MISTAKES, Mistake, Mistaken};
use model::Answer;
use std::collections::{BTreeMap, BTreeSet};
use std::fmt::Write;
use std::path::Path;

/// The longest buffer that the replaying program can lend, the longest file, and the most numbers for entries.
const LONGEST_BUFFER: usize = 65_536;
const LONGEST_FILE: usize = 131_072;
const MOST_NUMBERS: usize = 36;

/// What stands in the numbers for entries before a call.
const KEPT: u64 = 9;

enum Request {
    Read(Reading),
    Write(Writing),
    Make(Picture),
}

use Request::*;

impl Request {
    /// The number that the call begins with in the list.
    fn kind(&self) -> u32 {
        match self {
            Read(_) => 0,
            Write(_) => 1,
            Make(_) => 2,
        }
    }
}

struct Call {
    why: String,
    request: Request,
}

fn read(why: &str, file: &[u8], first: u64, room: usize) -> Call {
    Call {
        why: why.to_string(),
        request: Read(Reading {
            file: file.to_vec(),
            first,
            entries: vec![KEPT; room],
        }),
    }
}

/// From the first picture on, with room for two.
fn read_all(why: &str, file: &[u8]) -> Call {
    read(why, file, 0, 13)
}

fn write_to(why: &str, numbers: [u32; 3], pictures: &[u8], output: usize) -> Call {
    Call {
        why: why.to_string(),
        request: Write(Writing {
            numbers,
            pictures: pictures.to_vec(),
            output: vec![0xee; output],
        }),
    }
}

/// By w, h and sampling, by strides and lengths of Y, U, V, and by the length of the output.
fn make(
    why: &str,
    [w, h, sampling]: [u32; 3],
    [y, u, v]: [u32; 3],
    lengths: [usize; 3],
    output: usize,
) -> Call {
    let plane = |from: usize, length: usize| (0..length).map(|i| (from + i) as u8).collect();
    Call {
        why: why.to_string(),
        request: Make(Picture {
            numbers: [w, h, sampling, y, u, v],
            planes: [
                plane(1, lengths[0]),
                plane(101, lengths[1]),
                plane(201, lengths[2]),
            ],
            output: vec![0xee; output],
        }),
    }
}

/// The bytes of pictures, each another than its neighbours, and none a space or a newline but by chance.
fn pictures_of(numbers: [u32; 3], count: usize) -> Vec<u8> {
    let size: u64 = conditions::y4m_lengths(numbers).iter().sum();
    (0..count * size as usize)
        .map(|i| (i % 250) as u8)
        .collect()
}

/// The file of RULES 14.3.
const WORKED: &[u8] = b"YUV4MPEG2 W3 H2 F25:1 Ip C420jpeg\n\
    FRAME\n\x10\x11\x12\x20\x21\x22\x30\x31\x40\x41\
    FRAME Ip W9\n\x0aFRAME\x0a\x0a\x20\x20";

/// Its lines, and the planes of its pictures.
const HEADER: std::ops::Range<usize> = 0..34;
const LINES: [std::ops::Range<usize>; 2] = [34..40, 50..62];
const PLANES: [std::ops::Range<usize>; 2] = [40..50, 62..72];

/// 2 by 2, and no tag but those that are needed.
const SHORT: &[u8] = b"YUV4MPEG2 W2 H2\nFRAME\n\x10\x11\x20\x21\x80\x90";

/// 4:2:2, an odd width, and tags of each kind.
const SEVERAL: &[u8] = b"YUV4MPEG2 H1 F25:1 W3 C422\nFRAME\nyyyuuvvFRAME Ip W9\nyyyuuvv";

/// The first lines of files, without their newlines.
const HEADERS: [(&str, &[&str]); 11] = [
    (
        "a first line",
        &[
            "YUV4MPEG2 W4 H2",
            "YUV4MPEG2 H2 W4",
            "YUV4MPEG2 W4 H2 F25:1 Ip C420jpeg",
            "YUV4MPEG2 W4 H2 F25:1 Ip C422",
            "YUV4MPEG2 C422 XYSCSS=422 H2 A1:1 W4 It F30000:1001",
            "YUV4MPEG2 F F0 F0 I X X= H2 ? W4 =",
            "YUV4MPEG2 w9 W4 h9 H2 c422 XW4 XH2 XC422",
            "YUV4MPEG2 W4 H2 YUV4MPEG2 FRAME",
        ],
    ),
    (
        "another first word",
        &[
            "",
            "YUV4MPEG W4 H2",
            "YUV4MPEG22 W4 H2",
            "YUV4MPEG1 W4 H2",
            "yuv4mpeg2 W4 H2",
            "FRAME W4 H2",
            "W4 H2",
            "W4 H2 YUV4MPEG2",
            "YUV4MPEG2W4 H2",
            "YUV4MPEG2\tW4 H2",
            "YUV4MPEG2,W4 H2",
        ],
    ),
    (
        "W or H missing",
        &[
            "YUV4MPEG2",
            "YUV4MPEG2 W4",
            "YUV4MPEG2 H2",
            "YUV4MPEG2 C420 F25:1 Ip",
            "YUV4MPEG2 w4 h2",
            "YUV4MPEG2 W4 XH2",
        ],
    ),
    (
        "W or H twice",
        &[
            "YUV4MPEG2 W4 W4 H2",
            "YUV4MPEG2 W4 H2 W5",
            "YUV4MPEG2 W5 H2 W4",
            "YUV4MPEG2 W4 H2 H2",
            "YUV4MPEG2 H3 W4 H2",
            "YUV4MPEG2 H2 W4 H3",
            "YUV4MPEG2 W4 H2 W",
            "YUV4MPEG2 W4 H2 Wide",
            "YUV4MPEG2 W4 H2 High",
            "YUV4MPEG2 W4 H2 W0",
        ],
    ),
    (
        "C of 4:2:0 or of 4:2:2",
        &[
            "YUV4MPEG2 W4 H2 C420",
            "YUV4MPEG2 W4 H2 C420jpeg",
            "YUV4MPEG2 W4 H2 C420mpeg2",
            "YUV4MPEG2 W4 H2 C422",
            "YUV4MPEG2 C420 W4 H2",
            "YUV4MPEG2 C420jpeg W4 H2",
            "YUV4MPEG2 C420mpeg2 W4 H2",
            "YUV4MPEG2 C422 W4 H2",
        ],
    ),
    (
        "C twice",
        &[
            "YUV4MPEG2 W4 H2 C420 C420",
            "YUV4MPEG2 W4 H2 C420 C422",
            "YUV4MPEG2 C422 W4 H2 C420",
            "YUV4MPEG2 C420jpeg W4 C420jpeg H2",
            "YUV4MPEG2 W4 H2 C420 C",
            "YUV4MPEG2 W4 H2 C422 Cmono",
            "YUV4MPEG2 W4 H2 Cmono C420",
        ],
    ),
    (
        "another C",
        &[
            "YUV4MPEG2 W4 H2 C",
            "YUV4MPEG2 W4 H2 Cmono",
            "YUV4MPEG2 W4 H2 C444",
            "YUV4MPEG2 W4 H2 C444alpha",
            "YUV4MPEG2 W4 H2 C411",
            "YUV4MPEG2 W4 H2 C420paldv",
            "YUV4MPEG2 W4 H2 C420p10",
            "YUV4MPEG2 W4 H2 C422p10",
            "YUV4MPEG2 W4 H2 C42",
            "YUV4MPEG2 W4 H2 C4200",
            "YUV4MPEG2 W4 H2 C4220",
            "YUV4MPEG2 W4 H2 C421",
            "YUV4MPEG2 W4 H2 C420JPEG",
            "YUV4MPEG2 W4 H2 C420jpe",
            "YUV4MPEG2 W4 H2 C420jpegs",
            "YUV4MPEG2 W4 H2 C420mpeg",
            "YUV4MPEG2 W4 H2 C420mpeg1",
            "YUV4MPEG2 W4 H2 C420mpeg22",
            "YUV4MPEG2 W4 H2 C422jpeg",
            "YUV4MPEG2 W4 H2 Chroma",
            "YUV4MPEG2 Cmono W4 H2",
        ],
    ),
    (
        "an empty tag",
        &[
            " YUV4MPEG2 W4 H2",
            "YUV4MPEG2  W4 H2",
            "YUV4MPEG2 W4  H2",
            "YUV4MPEG2 W4   H2",
            "YUV4MPEG2 W4 H2 ",
            "YUV4MPEG2 W4 H2  ",
            "YUV4MPEG2 W4 H2 F25:1  Ip",
            "YUV4MPEG2 ",
        ],
    ),
    (
        "a byte that is no space",
        &[
            "YUV4MPEG2 W4\tH2",
            "YUV4MPEG2 W4\u{a0}H2",
            "YUV4MPEG2 W4\0H2",
            "YUV4MPEG2 W4,H2",
            "YUV4MPEG2 W4 H2\tC422",
            "YUV4MPEG2 W4 H2 X\tY",
            "YUV4MPEG2 W4 H2 X\0",
            "YUV4MPEG2 W4 H2 \u{e9}",
            "YUV4MPEG2 W4 H2 \u{7f}\u{80}",
        ],
    ),
    (
        "a carriage return",
        &[
            "YUV4MPEG2 W4 H2\r",
            "YUV4MPEG2 H2 W4\r",
            "YUV4MPEG2 W4 H2 C420\r",
            "YUV4MPEG2 W4 H2 C422\r",
            "YUV4MPEG2\r",
            "YUV4MPEG2\r W4 H2",
            "YUV4MPEG2 W4 H2 Ip\r",
            "YUV4MPEG2 W4 H2 \r",
            "YUV4MPEG2 W4 H2 X\rC422",
            "YUV4MPEG2 W4\r H2",
        ],
    ),
    (
        "a newline early",
        &[
            "YUV4MPEG2\nW4 H2",
            "YUV4MPEG2 W4\nH2",
            "YUV4MPEG2 W4 H2\nIp",
            "\nYUV4MPEG2 W4 H2",
            "YUV4MPEG2 W4 H2\n",
        ],
    ),
];

/// What can stand behind W or H, and how it is called in the list.
fn sides() -> Vec<(String, &'static str)> {
    let mut all = Vec::new();
    for side in [
        "1", "2", "9", "10", "99", "100", "999", "1000", "9999", "10000", "16383", "16384",
    ] {
        all.push((side.to_string(), "a side"));
    }
    for side in [
        "0",
        "00",
        "01",
        "04",
        "004",
        "016384",
        "00000000000000000000004",
    ] {
        all.push((side.to_string(), "a leading zero"));
    }
    for side in [
        "16385", "16386", "16390", "16484", "17384", "20000", "26384", "99999", "163840", "100000",
    ] {
        all.push((side.to_string(), "a side above 16,384"));
    }
    // 4 more than 2^8 would be a side.
    for bits in [14, 15, 16, 31, 32, 33, 63, 64, 65, 96, 126] {
        let around = (1_u128 << bits) + 4;
        all.push((around.to_string(), "a side that is 4 in its last bits"));
    }
    for side in ["4294967295", "18446744073709551615", "18446744073709551616"] {
        all.push((side.to_string(), "a side next to 2^32 or 2^64"));
    }
    for digits in [
        "9".repeat(200),
        format!("1{}4", "0".repeat(198)),
        format!("{}4", "0".repeat(199)),
    ] {
        all.push((digits, "a side of 200 digits"));
    }
    for side in [
        "", "-4", "+4", "4.0", "4.", "4x", "x4", "0x4", "4\r", "4\t", "4,", "1e1", "4:1",
        "\u{664}", "\u{ff14}", "four", "4/", "4:", "/", ":", "4\0", "4_0", "4H2",
    ] {
        all.push((side.to_string(), "no decimal"));
    }
    all
}

/// What can stand on a picture's line, without the newline.
const FRAMES: [(&str, &[&str]); 4] = [
    (
        "tags after FRAME",
        &[
            "FRAME",
            "FRAME Ip",
            "FRAME Ip XA=1",
            "FRAME W9",
            "FRAME W",
            "FRAME W9 W9 H0 C444 C",
            "FRAME FRAME",
            "FRAME X\r",
            "FRAME \r",
            "FRAME YUV4MPEG2 W4 H2",
            "FRAME \u{e9}",
        ],
    ),
    (
        "another word for FRAME",
        &[
            "FRAMES",
            "FRAM",
            "FRAMF",
            "GRAME",
            "frame",
            "Frame",
            "FRAME:",
            "FRAMEIp",
            "FRAME\r",
            "FRAME\tIp",
            "FRAME\0",
            "",
            "YUV4MPEG2 W4 H2",
            "YUV4MPEG2",
        ],
    ),
    (
        "an empty tag after FRAME",
        &[
            "FRAME ",
            " FRAME",
            "FRAME  Ip",
            "FRAME Ip ",
            "FRAME Ip  XA=1",
            "FRAME  ",
        ],
    ),
    ("a newline behind FRAME", &["FRAME\n", "\nFRAME"]),
];

/// Two lines end to end, the first of these words with a tag that fills it to its length, newline counted. The
/// words behind stand after that tag.
fn filled(words: &str, behind: &str, length: usize) -> Vec<u8> {
    let fixed = words.len() + behind.len() + 1;
    let fill = length - fixed - 1;
    format!("{words} {}{behind}\n", "x".repeat(fill)).into_bytes()
}

/// Files whose lines are as long as a line may be, or about so.
fn long_lines() -> Vec<Call> {
    let picture = pictures_of([4, 2, 0], 1);
    let plain = &b"YUV4MPEG2 W4 H2\n"[..];
    let mut calls = Vec::new();
    for length in [200, 254, 255, 256, 257, 258, 300, 512] {
        let why = format!("a first line of {length} bytes");
        for (words, behind) in [
            ("YUV4MPEG2 W4 H2", ""),
            ("YUV4MPEG2 W4", " H2"),
            ("YUV4MPEG2 H2", " W4 C422"),
            ("YUV4MPEG2", " W4 H2"),
        ] {
            let line = filled(words, behind, length);
            calls.push(read_all(&why, &line));
            calls.push(read_all(&why, &line[..length - 1]));
            let file = [&line[..], b"FRAME\n", &picture].concat();
            calls.push(read_all(&why, &file));
        }
        let why = format!("a picture's line of {length} bytes");
        let line = filled("FRAME", "", length);
        calls.push(read_all(&why, &[plain, &line, &picture].concat()));
        let second = [plain, b"FRAME\n", &picture, &line, &picture].concat();
        calls.push(read_all(&why, &second));
        let both = [&filled("YUV4MPEG2 W4 H2", "", length), &line, &picture[..]].concat();
        calls.push(read_all(&why, &both));
        let many = format!("YUV4MPEG2 W4 H2{}", " x".repeat((length - 16) / 2));
        let line = filled(&many[..many.len() - 2], "", length);
        calls.push(read_all("many tags", &line));
    }
    // As long, without an end at all.
    for length in [255, 256, 257, 1_000] {
        let line = filled("YUV4MPEG2 W4 H2", "", length);
        let endless = [&line[..length - 1], b"x"].concat();
        calls.push(read_all("a first line without an end", &endless));
        let line = filled("FRAME", "", length);
        let endless = [plain, &line[..length - 1], b"x"].concat();
        calls.push(read_all("a picture's line without an end", &endless));
    }
    calls
}

fn texts() -> Vec<Call> {
    let mut calls = Vec::new();
    let picture = pictures_of([4, 2, 0], 1);
    for (why, lines) in HEADERS {
        for line in lines {
            let line = format!("{line}\n").into_bytes();
            // Alone it is told whatever the planes would be, and with a picture of the sampling that it says.
            calls.push(read_all(why, &line));
            let numbers = conditions::y4m_of(&line).map_or([4, 2, 0], |y4m| y4m.numbers);
            let planes = pictures_of(numbers, 1);
            calls.push(read_all(why, &[&line[..], b"FRAME\n", &planes].concat()));
        }
    }
    for (side, why) in sides() {
        calls.push(read_all(why, format!("YUV4MPEG2 W{side} H2\n").as_bytes()));
        calls.push(read_all(why, format!("YUV4MPEG2 W4 H{side}\n").as_bytes()));
        let file = format!("YUV4MPEG2 H{side} W4 C420\nFRAME\n");
        calls.push(read_all(why, &[file.as_bytes(), &picture].concat()));
    }
    let header = &b"YUV4MPEG2 W4 H2\n"[..];
    for (why, lines) in FRAMES {
        for line in lines {
            let line = format!("{line}\n").into_bytes();
            calls.push(read_all(why, &[header, &line, &picture].concat()));
            let second = [header, b"FRAME\n", &picture, &line, &picture].concat();
            calls.push(read_all(why, &second));
        }
    }
    calls
}

/// Planes of every small size in both samplings: right, a byte less, a byte more, and as long as a mistake would
/// have them.
fn sizes() -> Vec<Call> {
    let mut calls = Vec::new();
    for sampling in [0, 1] {
        for (w, h) in (1..6).flat_map(|w| (1..5).map(move |h| (w, h))) {
            let numbers = [w, h, sampling];
            let tag = ["C420mpeg2", "C422"][sampling as usize];
            let line = format!("YUV4MPEG2 {tag} W{w} H{h}\n").into_bytes();
            let picture = pictures_of(numbers, 1);
            let two = [&line[..], b"FRAME\n", &picture, b"FRAME X\n", &picture].concat();
            calls.push(read_all("two pictures", &two));
            let [y, ..] = conditions::y4m_lengths(numbers);
            let down = u64::from(w / 2) * u64::from(if sampling == 0 { h / 2 } else { h });
            let other = conditions::y4m_lengths([w, h, 1 - sampling])[1];
            let size = picture.len();
            let mut lengths = BTreeSet::from([size - 1, size + 1, size + 6]);
            lengths.extend([y + 2 * down, y + 2 * other, y].map(|length| length as usize));
            lengths.remove(&size);
            for length in lengths {
                let mut planes = picture.clone();
                planes.resize(length, b'\n');
                let file = [&line[..], b"FRAME\n", &planes].concat();
                calls.push(read_all("planes of another length", &file));
            }
            let first = [&line[..], b"FRAME\n", &picture, b"\n", b"FRAME\n", &picture];
            calls.push(read_all("a newline behind the planes", &first.concat()));
        }
    }
    for numbers in [
        [16_384, 1, 0],
        [1, 16_384, 0],
        [16_384, 1, 1],
        [1, 16_384, 1],
    ] {
        let file = conditions::y4m_file(numbers, &pictures_of(numbers, 1));
        calls.push(read_all("long and thin", &file));
        calls.push(read_all(
            "long and thin, a byte less",
            &file[..file.len() - 1],
        ));
    }
    calls
}

/// RULES 14.4: the file of 14.3 with parts of it left out, in another order, or with something between them.
fn changed() -> Vec<Call> {
    let header = &WORKED[HEADER];
    let [[first_line, first], [second_line, second]] =
        [0, 1].map(|k| [&WORKED[LINES[k].clone()], &WORKED[PLANES[k].clone()]]);
    let all = [header, first_line, first, second_line, second];
    let mut calls = vec![];
    let mut read = |parts: &[&[u8]]| {
        let file = parts.concat();
        calls.push(read_all("the file of RULES 14.3 changed", &file));
    };
    for k in 0..5 {
        let mut less = all.to_vec();
        less.remove(k);
        read(&less);
        let mut twice = all.to_vec();
        twice.insert(k, all[k]);
        read(&twice);
    }
    for k in 0..4 {
        let mut other = all.to_vec();
        other.swap(k, k + 1);
        read(&other);
    }
    for k in 0..6 {
        for more in ["\n", " ", "\0", "\r\n", "FRAME\n", "FRAME\n123456789"] {
            let mut with = all.to_vec();
            with.insert(k, more.as_bytes());
            read(&with);
        }
    }
    read(&[header]);
    read(&[header, first_line, first]);
    read(&[header, second_line, second]);
    read(&[header, second_line, second, first_line, first]);
    read(&[header, first_line, &first[1..], second_line, second]);
    read(&[header, first_line, &first[..9], second_line, second]);
    read(&[header, first_line, &[b'\n'; 10], second_line, &[b'\n'; 10]]);
    // The newline of the next line is that of this one.
    read(&[header, b"FRAME Ip", first_line, first]);
    for line in [
        "YUV4MPEG2 W3 H2\n",
        "YUV4MPEG2 H2 W3 C420mpeg2\n",
        "YUV4MPEG2 W2 H3\n",
        "YUV4MPEG2 W4 H2\n",
        "YUV4MPEG2 W3 H2 C422\n",
        "YUV4MPEG2 W10 H1\n",
        "YUV4MPEG2 W1 H5\n",
    ] {
        read(&[line.as_bytes(), first_line, first, second_line, second]);
    }
    calls
}

fn readings() -> Vec<Call> {
    let mut calls = Vec::new();
    for (first, room) in [
        (0, 12),
        (0, 11),
        (0, 13),
        (0, 6),
        (0, 5),
        (0, 0),
        (1, 36),
        (1, 6),
        (2, 12),
        (3, 12),
        (1 << 32, 12),
        ((1 << 32) + 1, 12),
        (!0, 12),
        (!0 / 6 + 1, 12),
    ] {
        calls.push(read("the file of RULES 14.3", WORKED, first, room));
    }
    calls.push(read("a short file", SHORT, 0, 7));
    for length in 0..SHORT.len() {
        calls.push(read("a cut", &SHORT[..length], 0, 7));
    }
    calls.extend(changed());
    calls.extend(texts());
    calls.extend(long_lines());
    calls.extend(sizes());
    for length in 0..SEVERAL.len() {
        calls.push(read_all("a cut", &SEVERAL[..length]));
        let less = [&SEVERAL[..length], &SEVERAL[length + 1..]].concat();
        calls.push(read_all("a byte less", &less));
        for byte in *b" \n\r0W" {
            let more = [&SEVERAL[..length], &[byte], &SEVERAL[length..]].concat();
            calls.push(read_all("a byte more", &more));
        }
        for byte in *b" \n19CH" {
            let mut other = SEVERAL.to_vec();
            other[length] = byte;
            calls.push(read_all("another byte", &other));
        }
        for bit in [0, 5, 7] {
            let mut other = SEVERAL.to_vec();
            other[length] ^= 1 << bit;
            calls.push(read_all("a bit", &other));
        }
    }
    for more in [
        &b"\n"[..],
        b" ",
        b"\0",
        b"F",
        b"FRAME",
        b"FRAME\n",
        b"FRAME \n",
        WORKED,
    ] {
        calls.push(read_all("bytes behind", &[SEVERAL, more].concat()));
        let header = &b"YUV4MPEG2 W4 H2\n"[..];
        calls.push(read_all("bytes behind", &[header, more].concat()));
    }
    // Planes that look like lines.
    for numbers in [[4, 2, 0], [3, 1, 1], [1, 2, 1]] {
        for text in ["FRAME\n", "\n", " ", "YUV4MPEG2 W4 H2\n"] {
            let size = pictures_of(numbers, 2).len();
            let planes: Vec<u8> = text.bytes().cycle().take(size).collect();
            let file = conditions::y4m_file(numbers, &planes);
            calls.push(read_all("planes that look like lines", &file));
        }
    }
    for (first, room) in [
        (0, 36),
        (0, 35),
        (150, 36),
        (295, 36),
        (296, 30),
        (299, 36),
        (300, 36),
        (301, 6),
        (1 << 32, 36),
        ((1 << 32) + 299, 36),
        (!0, 36),
        (!0 / 6 + 1, 36),
    ] {
        let many = conditions::y4m_file([1, 1, 0], &pictures_of([1, 1, 0], 300));
        calls.push(read("300 pictures", &many, first, room));
    }
    let random = (0..).map(|case| Reading::random(&mut Random::new(70, 60, case)));
    let short = |reading: &Reading| reading.file.len() <= 400;
    calls.extend(
        (random.filter(short).take(300))
            .map(|reading| read("any", &reading.file, reading.first, 20)),
    );
    calls
}

fn writings() -> Vec<Call> {
    let mut calls = Vec::new();
    let numbers = [4, 2, 0];
    let picture = pictures_of(numbers, 1);
    for output in [0, 1, 9, 33, 34, 35, 39, 40, 41, 46, 51, 52, 53, 60] {
        calls.push(write_to("one picture", numbers, &picture, output));
        calls.push(write_to("no picture", numbers, &[], output));
    }
    for output in [28, 29, 30, 31, 49, 50, 51, 71, 72, 73] {
        let wide = [3, 1, 1];
        let pictures = pictures_of(wide, 3);
        calls.push(write_to("three of 4:2:2", wide, &pictures, output));
        calls.push(write_to("one of 4:2:2", wide, &pictures[..7], output));
        calls.push(write_to("none of 4:2:2", wide, &[], output));
    }
    for sampling in [0, 1] {
        for (w, h) in (1..6).flat_map(|w| (1..5).map(move |h| (w, h))) {
            let numbers = [w, h, sampling];
            let picture = pictures_of(numbers, 1);
            let size = conditions::y4m_file(numbers, &picture).len();
            calls.push(write_to("a size", numbers, &picture, size));
            let more = pictures_of(numbers, 2);
            for length in [picture.len() - 1, picture.len() + 1, more.len() - 1] {
                let why = "a byte short or over";
                calls.push(write_to(why, numbers, &more[..length], 200));
            }
            // Of the other sampling, which may be as many bytes as several pictures.
            let other = pictures_of([w, h, 1 - sampling], 1);
            calls.push(write_to("of the other sampling", numbers, &other, 200));
        }
    }
    for side in [1, 9, 10, 99, 100, 999, 1_000, 9_999, 10_000, 16_383, 16_384] {
        for numbers in [[side, 1, 0], [1, side, 1], [side, side, 0]] {
            calls.push(write_to("no picture", numbers, &[], 60));
        }
    }
    for side in [
        0,
        16_385,
        16_386,
        65_536,
        65_540,
        1 << 31,
        (1 << 31) + 4,
        u32::MAX,
    ] {
        for numbers in [[side, 2, 0], [4, side, 0], [side, side, 1]] {
            calls.push(write_to("19 of a side", numbers, &picture, 60));
            calls.push(write_to("19 of a side", numbers, &[], 60));
            calls.push(write_to("19 of a side, and 16", numbers, &[], 0));
        }
    }
    for sampling in [
        2,
        3,
        255,
        256,
        257,
        1 << 16,
        (1 << 16) + 1,
        1 << 31,
        u32::MAX,
    ] {
        for output in [60, 0] {
            let why = "19 of a sampling";
            calls.push(write_to(why, [4, 2, sampling], &picture, output));
            calls.push(write_to(why, [4, 2, sampling], &[], output));
        }
    }
    for length in 0..picture.len() {
        calls.push(write_to("a cut, and 16", numbers, &picture[..length], 20));
    }
    let many = pictures_of([1, 1, 0], 300);
    calls.push(write_to("300 pictures", [1, 1, 0], &many, 3_000));
    for numbers in [[16_384, 1, 0], [1, 16_384, 1]] {
        let picture = pictures_of(numbers, 1);
        let size = conditions::y4m_file(numbers, &picture).len();
        for output in [size, size - 1] {
            calls.push(write_to("long and thin", numbers, &picture, output));
        }
        let less = &picture[..picture.len() - 1];
        calls.push(write_to("long and thin, a byte less", numbers, less, size));
    }
    let random = (0..).map(|case| Writing::random(&mut Random::new(70, 61, case)));
    calls.extend(
        random
            .filter(|writing| writing.pictures.len() + writing.output.len() <= 400)
            .take(120)
            .map(|writing| Call {
                why: "any".to_string(),
                request: Write(writing),
            }),
    );
    calls
}

fn makings() -> Vec<Call> {
    let mut calls = Vec::new();
    let whole = |numbers: [u32; 3], strides: [u32; 3]| {
        let shapes = conditions::y4m_shapes(numbers);
        [0, 1, 2].map(|i| strides[i] as usize * shapes[i].rows as usize)
    };
    let size_of = |numbers: [u32; 3]| pictures_of(numbers, 1).len() + 6;
    for sampling in [0, 1] {
        for (w, h) in (1..6_u32).flat_map(|w| (1..5).map(move |h| (w, h))) {
            let (numbers, cw) = ([w, h, sampling], w.div_ceil(2));
            let strides = [w + h % 3, cw + w % 2, cw + (w + h) % 3];
            let output = size_of(numbers) + (w + h) as usize % 3;
            let lengths = whole(numbers, strides);
            calls.push(make("a size", numbers, strides, lengths, output));
            let strides = [w, cw, cw];
            let lengths = whole(numbers, strides);
            calls.push(make("without padding", numbers, strides, lengths, output));
        }
    }
    // 5 × 3 in 4:2:0: cw 3, ch 2, a picture of 33 bytes; in 4:2:2: ch 3, 39 bytes.
    let strides = [8, 4, 5];
    for (numbers, lengths) in [([5, 3, 0], [24, 8, 10]), ([5, 3, 1], [24, 12, 15])] {
        for output in [0, 1, 5, 6, 7, 20, 21, 32, 33, 34, 38, 39, 40, 50] {
            calls.push(make("an output", numbers, strides, lengths, output));
        }
        let other = [[24, 12, 15], [24, 8, 10]][numbers[2] as usize];
        calls.push(make("19, the other sampling", numbers, strides, other, 50));
        let least = [
            21,
            [7, 11][numbers[2] as usize],
            [8, 13][numbers[2] as usize],
        ];
        for (i, plane) in ["Y", "U", "V"].into_iter().enumerate() {
            let row = [5, 3, 3][i];
            let rows = lengths[i] / strides[i] as usize;
            for length in [
                0,
                least[i] - 1,
                least[i],
                lengths[i] - 1,
                lengths[i] + 1,
                lengths[i] + strides[i] as usize,
            ] {
                let mut lengths = lengths;
                lengths[i] = length;
                let why = format!("19, the length of {plane}");
                calls.push(make(&why, numbers, strides, lengths, 50));
                calls.push(make(
                    &format!("{why}, and 16"),
                    numbers,
                    strides,
                    lengths,
                    3,
                ));
            }
            for stride in [0, 1, row - 1, row, row + 1, u32::MAX, 1 << 31, 1 << 16] {
                let mut strides = strides;
                strides[i] = stride;
                let mut fitting = lengths;
                fitting[i] = (stride as usize * rows).min(100);
                let why = format!("the stride of {plane}");
                calls.push(make(&why, numbers, strides, fitting, 50));
                calls.push(make(&why, numbers, strides, lengths, 50));
            }
        }
    }
    let lengths = [24, 8, 10];
    for side in [0, 16_385, 65_536 + 5, 1 << 31, u32::MAX] {
        for numbers in [[side, 3, 0], [5, side, 0]] {
            calls.push(make("19 of a side", numbers, strides, lengths, 50));
            calls.push(make("19 and 16", numbers, [0; 3], [0; 3], 0));
        }
    }
    for sampling in [2, 3, 255, 256, 257, 1 << 16, 1 << 31, u32::MAX] {
        let numbers = [5, 3, sampling];
        calls.push(make("19 of a sampling", numbers, strides, lengths, 50));
        calls.push(make("19 of a sampling", numbers, strides, [24, 12, 15], 50));
        calls.push(make("19 and 16", numbers, strides, lengths, 0));
    }
    for numbers in [[16_384, 1, 0], [1, 16_384, 1], [2, 16_384, 0]] {
        let w: u32 = numbers[0];
        let strides = [w + 1, w.div_ceil(2), w.div_ceil(2)];
        let lengths = whole(numbers, strides);
        let output = size_of(numbers);
        calls.push(make("long and thin", numbers, strides, lengths, output));
    }
    let random = (0..).map(|case| Picture::random(&mut Random::new(70, 62, case), 7));
    let short = |picture: &Picture| {
        let planes: usize = picture.planes.iter().map(Vec::len).sum();
        planes + picture.output.len() <= 400
    };
    calls.extend(random.filter(short).take(120).map(|picture| Call {
        why: "any".to_string(),
        request: Make(picture),
    }));
    calls
}

/// Each after a space.
fn numbers_text(numbers: &[u64]) -> String {
    numbers.iter().map(|number| format!(" {number}")).collect()
}

fn reading_line((answer, told, entries): &(Answer, [u64; 5], Vec<u64>)) -> String {
    let [w, h, sampling, count, told] = told;
    let (said, numbers) = (answer_text(answer), numbers_text(entries));
    format!(
        "{said} width={w} height={h} sampling={sampling} count={count} told={told} entries{numbers}"
    )
}

fn output_line((answer, size, output): &(Answer, u64, Vec<u8>)) -> String {
    let digest = digest("output", output);
    format!("{} size={size}{digest}", answer_text(answer))
}

/// A call with its answer and the line that is printed.
struct Vector {
    call: Call,
    answer: Answer,
    line: String,
}

impl Vector {
    /// The model's, compared before.
    fn new(call: Call, converters: &Converters) -> Result<Vector, String> {
        let model = &*converters[0];
        let wrong = |wrong: String| format!("{}: {wrong}", call.why);
        let (answer, line) = match &call.request {
            Read(reading) => {
                checked(reading, converters).map_err(wrong)?;
                let called = reading.call(model)?;
                (called.0, reading_line(&called))
            }
            Write(writing) => {
                checked(writing, converters).map_err(wrong)?;
                let written = writing.call(model)?;
                (written.0, output_line(&written))
            }
            Make(picture) => {
                checked(picture, converters).map_err(wrong)?;
                let written = picture.call(model)?;
                (written.0, output_line(&written))
            }
        };
        Ok(Vector { call, answer, line })
    }

    fn number(&self) -> u8 {
        number(&self.answer)
    }
}

fn vectors(converters: &Converters) -> Result<Vec<Vector>, String> {
    let calls = readings().into_iter().chain(writings()).chain(makings());
    let vectors = calls
        .map(|call| Vector::new(call, converters))
        .collect::<Result<Vec<Vector>, String>>()?;
    complete(&vectors)?;
    Ok(vectors)
}

/// Each kind of call, by its number in the list, and the numbers that it can answer.
const KINDS: [(&str, &[u8]); 3] = [
    ("files read", &[0, 19]),
    ("files written", &[0, 16, 19]),
    ("pictures from planes", &[0, 16, 19]),
];

/// Every answer that each call can give, every way to be no file, and both samplings, in buffers that can be lent.
fn complete(vectors: &[Vector]) -> Result<(), String> {
    let short = vectors.iter().all(|vector| {
        let longest = |lengths: &[usize]| lengths.iter().all(|l| *l <= LONGEST_BUFFER);
        match &vector.call.request {
            Read(r) => r.file.len() <= LONGEST_FILE && r.entries.len() <= MOST_NUMBERS,
            Write(w) => longest(&[w.pictures.len(), w.output.len()]),
            Make(p) => longest(&[p.output.len()]) && p.planes.iter().all(|p| longest(&[p.len()])),
        }
    });
    if !short {
        return Err("calls on Y4M files: a buffer that the program cannot lend".to_string());
    }
    for ((name, answers), kind) in KINDS.into_iter().zip(0..) {
        let of_kind = vectors.iter().filter(|v| v.call.request.kind() == kind);
        let has: BTreeSet<u8> = of_kind.map(Vector::number).collect();
        if has != BTreeSet::from_iter(answers.to_vec()) {
            return Err(format!("calls on Y4M files: {name}: answers {has:?}"));
        }
    }
    let read = |vector: &Vector| match &vector.call.request {
        Read(reading) => Some(conditions::y4m_of(&reading.file)),
        _ => None,
    };
    let said: BTreeSet<&str> = vectors
        .iter()
        .filter_map(read)
        .filter_map(Result::err)
        .collect();
    match conditions::NO_Y4M
        .iter()
        .find(|wrong| !said.contains(*wrong))
    {
        Some(wrong) => Err(format!("calls on Y4M files: none with {wrong}")),
        None => Ok(()),
    }
}

fn stored(vectors: &[Vector]) -> Vec<u8> {
    let mut stored = Stored::default();
    stored.lengths([vectors.len()]);
    for vector in vectors {
        stored.numbers(&[vector.call.request.kind()]);
        match &vector.call.request {
            Read(Reading {
                file,
                first,
                entries,
            }) => {
                stored.lengths([file.len()]);
                stored.numbers(&[*first as u32, (first >> 32) as u32]);
                stored.lengths([entries.len()]);
                stored.block(file);
            }
            Write(Writing {
                numbers,
                pictures,
                output,
            }) => {
                stored.lengths([pictures.len(), output.len()]);
                stored.numbers(numbers);
                stored.block(pictures);
                stored.block(output);
            }
            Make(Picture {
                numbers,
                planes: [y, u, v],
                output,
            }) => {
                stored.lengths([y, u, v, output].map(Vec::len));
                stored.numbers(numbers);
                for buffer in [y, u, v, output] {
                    stored.block(buffer);
                }
            }
        }
    }
    stored.0
}

fn expected(vectors: &[Vector]) -> String {
    let mut text = String::new();
    for (vector, place) in vectors.iter().zip(1..) {
        let _ = writeln!(text, "{place} {}", vector.line);
    }
    text
}

/// The most of a text that the index shows.
const SHOWN: usize = 60;

/// The first line of a file, as far as it is shown, and how long the file is.
fn file_text(file: &[u8]) -> String {
    let line = file.split(|byte| *byte == b'\n').next().unwrap_or(&[]);
    let shown = &line[..line.len().min(SHOWN)];
    let more = if shown.len() < line.len() { " .." } else { "" };
    format!(
        "\"{}\"{more}, file of {} bytes",
        shown.escape_ascii(),
        file.len()
    )
}

/// A line for each call, without the bytes.
fn index(vectors: &[Vector], bytes: usize) -> String {
    let mut text = format!(
        "# The calls of crates/replay_y4m/stdin, made by vectors/make; README.md says how.\n\
         # {} calls in {bytes} bytes: {}.\n\
         # number | what it is for | the call | number, expected, received\n",
        vectors.len(),
        counts(vectors),
    );
    for (vector, place) in vectors.iter().zip(1..) {
        let words = |numbers: &[u32]| {
            let words: Vec<String> = numbers.iter().map(u32::to_string).collect();
            words.join(" ")
        };
        let call = match &vector.call.request {
            Read(r) => {
                let (file, first, room) = (file_text(&r.file), r.first, r.entries.len());
                format!("{file}, from picture {first}, {room} numbers")
            }
            Write(w) => {
                let (pictures, output) = (w.pictures.len(), w.output.len());
                let numbers = words(&w.numbers);
                format!("{numbers}, pictures of {pictures} bytes, output of {output}")
            }
            Make(p) => {
                let [y, u, v] = p.planes.each_ref().map(Vec::len);
                let (format, strides) = (words(&p.numbers[..3]), words(&p.numbers[3..]));
                let output = p.output.len();
                format!("{format}, strides {strides}, lengths {y} {u} {v}, output of {output}")
            }
        };
        let (why, answer) = (&vector.call.why, answer_text(&vector.answer));
        let _ = writeln!(text, "{place} | {why} | {call} | {answer}");
    }
    text
}

/// How many calls of each kind there are, and how many of them are refused with each number.
fn counts(vectors: &[Vector]) -> String {
    let of = |((name, _), kind): ((&str, &[u8]), u32)| {
        let mut answers: BTreeMap<u8, usize> = BTreeMap::new();
        for vector in vectors.iter().filter(|v| v.call.request.kind() == kind) {
            *answers.entry(vector.number()).or_default() += 1;
        }
        let all: usize = answers.values().sum();
        let accepted = answers.remove(&0).unwrap_or(0);
        let refused: Vec<String> = (answers.iter())
            .map(|(number, count)| format!("{number}: {count}"))
            .collect();
        let refused = refused.join(", ");
        format!("{all} {name} ({accepted} accepted, refused {refused})")
    };
    let all: Vec<String> = KINDS.into_iter().zip(0..).map(of).collect();
    all.join(", ")
}

fn files(vectors: &[Vector]) -> [(&'static str, Vec<u8>); 3] {
    let stored = stored(vectors);
    let index = index(vectors, stored.len());
    [
        ("vectors/y4m.txt", index.into_bytes()),
        ("crates/replay_y4m/stdout", expected(vectors).into_bytes()),
        ("crates/replay_y4m/stdin", stored),
    ]
}

pub fn write(root: &Path, converters: &Converters) -> Result<String, String> {
    let vectors = vectors(converters)?;
    for (file, bytes) in files(&vectors) {
        std::fs::write(root.join(file), bytes).map_err(|error| format!("{file}: {error}"))?;
    }
    Ok(format!("{} calls on Y4M files written", vectors.len()))
}

/// The list's line in the README.
fn readme_line(vectors: &[Vector]) -> String {
    let counts = counts(vectors);
    format!("| `crates/replay_y4m/stdin` | {counts} | `replay_y4m` | `y4m.txt` |")
}

/// Whether the files are those that `write` writes, and the README counts them so and has the table of
/// the mistakes.
pub fn check(root: &Path, converters: &Converters) -> Result<String, String> {
    let vectors = vectors(converters)?;
    let read =
        |file: &str| std::fs::read(root.join(file)).map_err(|error| format!("{file}: {error}"));
    for (file, bytes) in files(&vectors) {
        equal_bytes("what is made", file, &read(file)?, &bytes)?;
    }
    let readme = "vectors/README.md";
    let text = String::from_utf8_lossy(&read(readme)?).into_owned();
    let mut lines = mistake_lines(&vectors)?;
    lines.push(readme_line(&vectors));
    for line in lines {
        if !text.lines().any(|other| other == line) {
            return Err(format!("{readme} lacks the line: {line}"));
        }
    }
    Ok(format!("{} calls on Y4M files, as made", vectors.len()))
}

/// Which call catches each mistake first, and how many do; and the list's line.
pub fn report(converters: &Converters) -> Result<String, String> {
    let vectors = vectors(converters)?;
    let mut lines = mistake_lines(&vectors)?;
    lines.push(readme_line(&vectors));
    Ok(lines.join("\n"))
}

/// The line that a mistaken one would print.
fn mistaken_line(mistaken: Mistaken, call: &Call) -> String {
    match &call.request {
        Read(r) => {
            let mut entries = r.entries.clone();
            let (answer, told) = mistaken.pictures(&r.file, r.first, &mut entries);
            reading_line(&(answer, told, entries))
        }
        Write(w) => {
            let mut output = w.output.clone();
            let (answer, size) = mistaken.write(w.numbers, &w.pictures, &mut output);
            output_line(&(answer, size, output))
        }
        Make(p) => {
            let mut output = p.output.clone();
            let (answer, size) = mistaken.picture(p.numbers, &p.planes, &mut output);
            output_line(&(answer, size, output))
        }
    }
}

/// The first call that catches each mistake, and how many do.
fn mistake_lines(vectors: &[Vector]) -> Result<Vec<String>, String> {
    let catching = |mistake: Mistake| {
        let differs = |(vector, _): &(&Vector, usize)| {
            mistaken_line(Mistaken(mistake), &vector.call) != vector.line
        };
        let catching: Vec<usize> = (vectors.iter().zip(1..))
            .filter(differs)
            .map(|(_, place)| place)
            .collect();
        catching
    };
    if let [place, ..] = catching(Mistake::NoMistake)[..] {
        let line = mistaken_line(Mistaken(Mistake::NoMistake), &vectors[place - 1].call);
        return Err(format!(
            "call {place} on Y4M files, without a mistake: {line}"
        ));
    }
    MISTAKES
        .into_iter()
        .map(|(mistake, what)| match &catching(mistake)[..] {
            [first, others @ ..] => Ok(format!("| {what} | {first} | {} |", others.len() + 1)),
            [] => Err(format!("no call on Y4M files catches: {what}")),
        })
        .collect()
}
