//! The stored list of calls on shift files, which the crate replay_shift replays with no Rust at hand:
//! its calls, what is answered, and its files. The expectations are the model's, held first to the list
//! of conditions and to the bytes of the records (`shift.rs`).
//!
//! The list is the number of calls, and these, one behind the other. Numbers have four bytes, low byte
//! first, and buffers are stored as in the other lists (`stored.rs`). A call:
//!
//! - reading: 0; the file's length; first, its low 32 bits and its high ones; how many numbers are lent
//!   for entries, at most 44, each of them 9 before the call; the file.
//! - writing: 1; the lengths of the records and of the output; the records, the output before the call.
//! - a record from planes: 2; the lengths of Y, U, V and of the output; crossing, w, h, and the strides
//!   of Y, U, V; the bytes of Y, U, V, and of the output before the call.
//! - a reading of either form: 3; as a reading.
//! - a writing with settings: 4; as a writing.
//! - a record with settings from planes: 5; as a record, and behind the strides the numbers of sampling,
//!   range, matrix and transfer.
//! - moving forward: 6; the lengths of the file and of the output; the file, the output before the call.
//! - moving back: 7; the same.
//!
//! No file is longer than 131,072 bytes, and no other buffer longer than 65,536. What is printed of a call is a line: its place in the list from
//! 1 on; number, expected and received; then of a reading how many records and entries there are, of one of
//! either form the form, and all the numbers lent; of the others the size and the digest of the output.
//!
//!     1 0 0 0 count=2 told=2 entries 1400 3 2 28 18 36 6 42 2 44 2 70000 1 1 46 11 54 1 55 1 56 1 9
//!     713 0 0 0 size=57 output=8e841c08
//!     887 16 0 0 size=35 output=1641f266
//!     1037 0 0 0 count=2 told=1 form=1 entries 1400 3 2 32 22 44 6 50 2 52 2 0 255 255 255 9 9

use crate::check::{Converters, checked, equal_bytes};
use crate::conditions::{self, UNSAID};
use crate::random::Random;
use crate::request::answer_text;
use crate::shift::{
    ANY_ENTRY, ENTRY, Making, Moving, Reading, SETTINGS_SLIPS, SLIPS, ShiftForm, Slip, Writing,
    with_slip,
};
use crate::stored::{Stored, digest};
use ShiftForm::*;
use model::shift::RecordRequest;
use model::{Answer, Refusal};
use std::collections::{BTreeMap, BTreeSet};
use std::fmt::Write;
use std::path::Path;

/// The longest buffer that the replaying program can lend, the longest file, and the most numbers for entries.
const LONGEST_BUFFER: usize = 65_536;
const LONGEST_FILE: usize = 131_072;
const MOST_NUMBERS: usize = 4 * ENTRY;

/// What stands in the numbers for entries before a call.
const KEPT: u64 = 9;

enum Request {
    Read(Reading),
    Write(Writing),
    Make(Making),
    Move(Moving),
}

impl Request {
    /// The number that the call begins with in the list.
    fn kind(&self) -> u32 {
        match self {
            Read(Reading { any, .. }) => 3 * u32::from(*any),
            Write(Writing { form, .. }) => 1 + 3 * u32::from(*form == WithSettings),
            Make(Making { request, .. }) => 2 + 3 * u32::from(request.settings.is_some()),
            Move(Moving { to, .. }) => 6 + u32::from(*to == WithoutSettings),
        }
    }
}

use Request::*;

struct Call {
    why: String,
    request: Request,
}

/// RULES 11.2: the two records, of which 11.1 has the file.
const RECORDS: [&[u8]; 2] = [
    &[
        0x78, 5, 0, 0, 3, 0, 2, 0, 0x10, 0x11, 0x12, 0x20, 0x21, 0x22, 0x30, 0x31, 0x40, 0x41,
    ],
    &[0x70, 0x11, 1, 0, 1, 0, 1, 0, 0x50, 0x60, 0x70],
];

fn worked_file() -> Vec<u8> {
    conditions::file_of(WithoutSettings, &RECORDS)
}

fn read(why: &str, file: Vec<u8>, first: u64, room: usize) -> Call {
    let entries = vec![KEPT; room];
    Call {
        why: why.to_string(),
        request: Read(Reading {
            any: false,
            file,
            first,
            entries,
        }),
    }
}

fn write_to(why: &str, records: &[u8], output: usize) -> Call {
    Call {
        why: why.to_string(),
        request: Write(Writing {
            form: WithoutSettings,
            records: records.to_vec(),
            output: vec![0xee; output],
        }),
    }
}

/// w, h, strides and lengths of Y, U, V, and the length of the output.
fn make(why: &str, size: [u32; 2], strides: [u32; 3], lengths: [usize; 3], output: usize) -> Call {
    let plane = |from: usize, length: usize| (0..length).map(|i| (from + i) as u8).collect();
    Call {
        why: why.to_string(),
        request: Make(Making {
            request: RecordRequest {
                crossing: 0x89ab_cdef,
                w: size[0],
                h: size[1],
                y_stride: strides[0],
                u_stride: strides[1],
                v_stride: strides[2],
                settings: None,
            },
            planes: [
                plane(1, lengths[0]),
                plane(101, lengths[1]),
                plane(201, lengths[2]),
            ],
            output: vec![0xee; output],
        }),
    }
}

/// The bytes with a number of so many bytes put there.
fn with(bytes: &[u8], at: usize, size: usize, value: u64) -> Vec<u8> {
    let mut bytes = bytes.to_vec();
    bytes[at..at + size].copy_from_slice(&value.to_le_bytes()[..size]);
    bytes
}

fn readings() -> Vec<Call> {
    let file = worked_file();
    let mut calls = Vec::new();
    for (first, room) in [
        (0, 23),
        (0, 22),
        (0, 21),
        (0, 11),
        (0, 10),
        (0, 0),
        (1, 22),
        (1, 11),
        (2, 22),
        (3, 11),
        (1 << 32, 22),
        ((1 << 32) + 1, 22),
        (!0, 22),
        (!0 / 11 + 1, 22),
    ] {
        calls.push(read("the file of RULES 11.1", file.clone(), first, room));
    }
    let refused = |why: &str, file: Vec<u8>| read(why, file, 0, 22);
    for length in 0..6 {
        calls.push(refused("zeros", vec![0; length]));
    }
    // A file of 4,097 records comes last (`full_files`).
    for (slip, what) in SLIPS.into_iter().filter(|slip| slip.0 != Slip::OneTooMany) {
        let file = with_slip(&mut Random::new(20, slip as u64, 0), WithoutSettings, slip);
        calls.push(refused(what, file));
    }
    for length in 0..file.len() {
        calls.push(refused("a cut", file[..length].to_vec()));
    }
    for more in [&[0][..], RECORDS[0], RECORDS[1]] {
        calls.push(refused("bytes behind", [&file, more].concat()));
    }
    // Count, pairs and the first bytes of both records; then a crossing, a plane of each.
    let fixed = (0..28).chain(28..36).chain(46..54);
    for at in fixed.chain([36, 42, 45, 54, 56]) {
        for bit in 0..8 {
            let mut file = file.clone();
            file[at] ^= 1 << bit;
            calls.push(refused("a bit", file));
        }
    }
    for (at, size, values) in [
        (0, 4, &[0, 1, 3, 4_096, 4_097, 0xffff_ffff][..]),
        (4, 8, &[0, 4, 27, 46, (1 << 32) + 28, !0, !17]),
        (16, 8, &[0, 28, 45, 47, (1 << 32) + 46, !0, !10]),
        (12, 4, &[0, 17, 19, 0xffff_ffff, 0x1_0012]),
        (24, 4, &[0, 10, 12, 0xffff_ffff, 0x1_000b]),
        (32, 2, &[0, 2, 4, 16_384, 16_385, 65_535]),
        (34, 2, &[0, 3, 16_384, 16_385, 65_535]),
    ] {
        for value in values {
            calls.push(refused("a number", with(&file, at, size, *value)));
        }
    }
    let around = with(&file, 4, 8, 46u64.wrapping_sub(0xffff_ffff));
    let around = with(&around, 12, 4, 0xffff_ffff);
    calls.push(refused("a sum that comes round", around));
    calls.push(refused("w and h exchanged", with(&file, 32, 4, 0x3_0002)));
    for (w, h) in [(16_384, 1), (1, 16_384)] {
        let length = conditions::record_length(WithoutSettings, 0, w, h) as usize;
        let mut record = vec![7; length];
        record[4..6].copy_from_slice(&(w as u16).to_le_bytes());
        record[6..8].copy_from_slice(&(h as u16).to_le_bytes());
        let file = conditions::file_of(WithoutSettings, &[&record]);
        calls.push(read("long and thin", file, 0, 11));
    }
    let many = conditions::file_of(WithoutSettings, &vec![RECORDS[1]; 300]);
    for first in [0, 150, 297, 299, 300] {
        calls.push(read("300 records", many.clone(), first, MOST_NUMBERS));
    }
    let mut random = (0..).map(|case| Reading::random(&mut Random::new(20, 14, case)));
    calls.extend(
        (random.by_ref().filter(|reading| reading.file.len() <= 600))
            .take(150)
            .map(|reading| read("any", reading.file, reading.first, 33)),
    );
    calls
}

fn writings() -> Vec<Call> {
    let two = RECORDS.concat();
    let mut calls = Vec::new();
    for length in [0, 3, 4, 27, 28, 56, 57, 58, 64] {
        calls.push(write_to("the two records of RULES 11.2", &two, length));
        calls.push(write_to("the second of them", RECORDS[1], length));
        calls.push(write_to("no record", &[], length));
    }
    for length in 1..two.len() {
        calls.push(write_to("a cut", &two[..length], 64));
    }
    calls.push(write_to("a file for records", &worked_file(), 64));
    for (at, value) in [
        (4, 0),
        (4, 16_385),
        (4, 4),
        (6, 0),
        (6, 16_385),
        (6, 65_535),
    ] {
        calls.push(write_to("a size", &with(&two, at, 2, value), 64));
        calls.push(write_to(
            "a size of the second",
            &with(&two, at + 18, 2, value),
            64,
        ));
    }
    for count in [2_849, 2_850, 4_095, 4_096, 4_097, 5_000] {
        let records = RECORDS[1].repeat(count);
        calls.push(write_to(
            &format!("{count} records"),
            &records,
            LONGEST_BUFFER,
        ));
    }
    let random = (0..).map(|case| Writing::random(&mut Random::new(20, 15, case)));
    calls.extend(
        random
            .filter(|writing| writing.records.len() + writing.output.len() <= 600)
            .take(100)
            .map(|writing| Call {
                why: "any".to_string(),
                request: Write(writing),
            }),
    );
    calls
}

/// As many records as a file may have, and one more.
fn full_files() -> Vec<Call> {
    let file = |count: usize| conditions::file_of(WithoutSettings, &vec![RECORDS[1]; count]);
    let full = |count: usize| read(&format!("{count} records"), file(count), 4_095, ENTRY);
    vec![full(4_096), full(4_097)]
}

fn makings() -> Vec<Call> {
    let mut calls = Vec::new();
    for w in 1..6u32 {
        for h in 1..4u32 {
            let (cw, ch) = (w.div_ceil(2), h.div_ceil(2));
            let strides = [w + h % 3, cw + w % 2, cw + (w + h) % 3];
            let lengths = [strides[0] * h, strides[1] * ch, strides[2] * ch];
            let length = conditions::record_length(WithoutSettings, 0, w, h) as usize;
            let output = length + (w + h) as usize % 3;
            let lengths = lengths.map(|length| length as usize);
            calls.push(make("a size", [w, h], strides, lengths, output));
        }
    }
    // 5 × 3: cw 3, ch 2; a record of 35 bytes.
    let (strides, lengths) = ([8, 4, 5], [24, 8, 10]);
    for output in [0, 7, 8, 34, 35, 36] {
        calls.push(make("an output", [5, 3], strides, lengths, output));
    }
    for size in [
        [0, 3],
        [5, 0],
        [16_385, 3],
        [5, 16_385],
        [65_541, 3],
        [5, u32::MAX],
    ] {
        calls.push(make("15", size, strides, lengths, 35));
        calls.push(make("15 and all others", size, [0; 3], [0; 3], 0));
    }
    for (why, strides, lengths) in [
        ("8", [4, 4, 5], [24, 8, 10]),
        ("8 and 9 to 12", [4, 2, 2], [0, 0, 0]),
        ("9", [8, 4, 5], [20, 8, 10]),
        ("9, the longest stride", [u32::MAX, 4, 5], [24, 8, 10]),
        ("10, stride", [8, 2, 5], [24, 8, 10]),
        ("10, length", [8, 4, 5], [24, 6, 10]),
        ("10 and 11", [8, 2, 2], [24, 0, 0]),
        ("11, stride", [8, 4, 2], [24, 8, 10]),
        ("11, length", [8, 4, 5], [24, 8, 7]),
        ("12 of Y", [8, 4, 5], [21, 8, 10]),
        ("12 of Y, longer", [8, 4, 5], [25, 8, 10]),
        ("12 of U", [8, 4, 5], [24, 12, 10]),
        ("12 of V", [8, 4, 5], [24, 8, 8]),
        ("12 of all", [8, 4, 5], [32, 7, 11]),
    ] {
        calls.push(make(why, [5, 3], strides, lengths, 35));
        calls.push(make(
            &format!("{why}, and 16"),
            [5, 3],
            strides,
            lengths,
            34,
        ));
    }
    let long = [16_384, 8_192, 8_192];
    let lengths = long.map(|length| length as usize);
    calls.push(make("long and thin", [16_384, 1], long, lengths, 32_776));
    let lengths = [16_384, 8_192, 8_192];
    calls.push(make("thin and long", [1, 16_384], [1; 3], lengths, 32_776));
    let random = (0..).map(|case| Making::random(&mut Random::new(20, 16, case), 12));
    let short = |making: &Making| {
        making.planes.iter().map(Vec::len).sum::<usize>() + making.output.len() <= 600
    };
    calls.extend(random.filter(short).take(100).map(|making| Call {
        why: "any".to_string(),
        request: Make(making),
    }));
    calls
}

/// RULES 11.7: the two records, of which it has the file.
const SET: [&[u8]; 2] = [
    &[
        0x78, 5, 0, 0, 3, 0, 2, 0, 0, 255, 255, 255, 0x10, 0x11, 0x12, 0x20, 0x21, 0x22, 0x30,
        0x31, 0x40, 0x41,
    ],
    &[
        0x70, 0x11, 1, 0, 2, 0, 2, 0, 1, 1, 6, 3, 0x50, 0x51, 0x52, 0x53, 0x60, 0x61, 0x70, 0x71,
    ],
];

/// Of one pixel, which is as long in either sampling.
const PIXEL: [u8; 15] = [9, 0, 0, 0, 1, 0, 1, 0, 0, 255, 255, 255, 0x50, 0x60, 0x70];

/// Codes, the first past the last, and those near 255.
const NEAR_CODES: [u8; 15] = [0, 1, 2, 3, 4, 5, 6, 7, 8, 127, 128, 252, 253, 254, 255];

fn set_file() -> Vec<u8> {
    conditions::file_of(WithSettings, &SET)
}

/// By the call that takes either form.
fn read_any(why: &str, file: Vec<u8>, first: u64, room: usize) -> Call {
    let entries = vec![KEPT; room];
    Call {
        why: why.to_string(),
        request: Read(Reading {
            any: true,
            file,
            first,
            entries,
        }),
    }
}

/// One byte another.
fn with_byte(bytes: &[u8], at: usize, value: u8) -> Vec<u8> {
    with(bytes, at, 1, u64::from(value))
}

fn readings_of_either_form() -> Vec<Call> {
    let (old, file) = (worked_file(), set_file());
    let mut calls = Vec::new();
    for (first, room) in [
        (0, 31),
        (0, 30),
        (0, 29),
        (0, 17),
        (0, 15),
        (0, 14),
        (0, 0),
        (1, 30),
        (1, 15),
        (2, 30),
        (1 << 32, 30),
        (!0, 30),
        (!0 / 15 + 1, 30),
    ] {
        calls.push(read_any(
            "the file of RULES 11.7",
            file.clone(),
            first,
            room,
        ));
    }
    for (first, room) in [(0, 31), (0, 30), (0, 29), (1, 15), (2, 15), (0, 0)] {
        calls.push(read_any("the file of RULES 11.1", old.clone(), first, room));
    }
    for (first, room) in [(0, 22), (0, 30), (1, 11), (0, 0)] {
        calls.push(read(
            "with settings, the first call",
            file.clone(),
            first,
            room,
        ));
    }
    let refused = |why: &str, file: Vec<u8>| read_any(why, file, 0, 30);
    for length in 0..6 {
        calls.push(refused("zeros", vec![0; length]));
        let marked = [vec![255; 4], vec![0; length]].concat();
        calls.push(refused("four bytes of 255, and zeros", marked.clone()));
        calls.push(read("the same, the first call", marked, 0, 22));
    }
    let slips = SLIPS.into_iter().filter(|slip| slip.0 != Slip::OneTooMany);
    for (slip, what) in slips.chain(SETTINGS_SLIPS) {
        let random = &mut Random::new(50, slip as u64, 0);
        calls.push(refused(what, with_slip(random, WithSettings, slip)));
    }
    for length in 0..file.len() {
        calls.push(refused("a cut", file[..length].to_vec()));
    }
    for more in [&[0][..], SET[0], RECORDS[1]] {
        calls.push(refused("bytes behind", [&file, more].concat()));
    }
    // First number, count, pairs and the first bytes of both records; then a plane of each.
    let fixed = (0..32).chain(32..44).chain(54..66);
    for at in fixed.chain([44, 53, 66, 73]) {
        for bit in 0..8 {
            let mut file = file.clone();
            file[at] ^= 1 << bit;
            calls.push(refused("a bit", file));
        }
    }
    let pixel = conditions::file_of(WithSettings, &[&PIXEL]);
    for at in 28..32 {
        for value in NEAR_CODES {
            calls.push(refused("a byte of settings", with_byte(&pixel, at, value)));
        }
    }
    for (at, size, values) in [
        (4, 4, &[0, 1, 3, 4_096, 4_097, 0xffff_ffff][..]),
        (8, 8, &[0, 28, 31, 33, 54, (1 << 32) + 32, !0]),
        (20, 8, &[0, 32, 53, 55, (1 << 32) + 54, !0]),
        (16, 4, &[0, 18, 21, 23, 0xffff_ffff, 0x1_0016]),
        (28, 4, &[0, 16, 18, 21, 0xffff_ffff]),
        (36, 2, &[0, 2, 4, 16_384, 16_385, 65_535]),
        (58, 2, &[0, 1, 3, 16_384, 16_385]),
    ] {
        for value in values {
            calls.push(refused("a number", with(&file, at, size, *value)));
        }
    }
    calls.push(refused("w and h exchanged", with(&file, 36, 4, 0x3_0002)));
    let behind = [&[255; 4][..], &old].concat();
    calls.push(refused(
        "four bytes of 255 before the file of RULES 11.1",
        behind,
    ));
    for (form, records) in [(WithSettings, RECORDS), (WithoutSettings, SET)] {
        let file = conditions::file_of(form, &records);
        calls.push(refused("the records of the other form", file.clone()));
        calls.push(read("the same, the first call", file, 0, 22));
    }
    for (w, h) in [(16_384u16, 1u16), (1, 16_384)] {
        let length = conditions::record_length(WithSettings, 1, w.into(), h.into());
        let mut record = vec![7; length as usize];
        record[4..6].copy_from_slice(&w.to_le_bytes());
        record[6..8].copy_from_slice(&h.to_le_bytes());
        record[8..12].copy_from_slice(&[1, 255, 255, 255]);
        let file = conditions::file_of(WithSettings, &[&record]);
        calls.push(read_any("long and thin, 4:2:2", file, 0, 15));
    }
    for (count, first) in [(300, 298), (4_096, 4_095), (4_097, 4_095)] {
        let file = conditions::file_of(WithSettings, &vec![&PIXEL[..]; count]);
        calls.push(read_any(&format!("{count} records"), file, first, 30));
    }
    let random = (0..).map(|case| Reading::either(&mut Random::new(50, 60, case)));
    calls.extend(
        random
            .filter(|reading| reading.file.len() <= 500)
            .take(120)
            .map(|reading| {
                let room = if reading.any { 44 } else { 33 };
                let entries = vec![KEPT; room];
                Call {
                    why: "any".to_string(),
                    request: Read(Reading { entries, ..reading }),
                }
            }),
    );
    calls
}

fn write_settings(why: &str, records: &[u8], output: usize) -> Call {
    Call {
        why: why.to_string(),
        request: Write(Writing {
            form: WithSettings,
            records: records.to_vec(),
            output: vec![0xee; output],
        }),
    }
}

fn writings_with_settings() -> Vec<Call> {
    let two = SET.concat();
    let mut calls = Vec::new();
    for length in [0, 3, 4, 7, 8, 31, 32, 39, 40, 73, 74, 75, 90] {
        calls.push(write_settings(
            "the two records of RULES 11.7",
            &two,
            length,
        ));
        calls.push(write_settings("the second of them", SET[1], length));
        calls.push(write_settings("no record", &[], length));
    }
    for length in 1..two.len() {
        calls.push(write_settings("a cut", &two[..length], 90));
    }
    for at in 8..12 {
        for value in NEAR_CODES {
            let record = with_byte(&PIXEL, at, value);
            calls.push(write_settings("a byte of settings", &record, 40));
        }
    }
    for (why, records) in [
        ("a file for records", set_file()),
        ("records without settings", RECORDS.concat()),
        ("one without and one with", [RECORDS[1], SET[1]].concat()),
        ("one with and one without", [SET[1], RECORDS[1]].concat()),
    ] {
        calls.push(write_settings(why, &records, 160));
        calls.push(write_to(&format!("{why}, the first call"), &records, 160));
    }
    for (at, value) in [(4, 0), (4, 16_385), (4, 4), (6, 0), (6, 16_385), (6, 3)] {
        let second = with(&two, at + 22, 2, value);
        calls.push(write_settings("a size", &with(&two, at, 2, value), 90));
        calls.push(write_settings("a size of the second", &second, 90));
    }
    for count in [2_426, 2_427, 4_095, 4_096, 4_097] {
        let (why, records) = (format!("{count} records"), PIXEL.repeat(count));
        calls.push(write_settings(&why, &records, LONGEST_BUFFER));
    }
    let random = (0..).map(|case| Writing::with_settings(&mut Random::new(50, 61, case)));
    calls.extend(
        random
            .filter(|writing| writing.records.len() + writing.output.len() <= 600)
            .take(80)
            .map(|writing| Call {
                why: "any".to_string(),
                request: Write(writing),
            }),
    );
    calls
}

/// As `make`, with settings.
fn make_settings(
    why: &str,
    four: [u32; 4],
    size: [u32; 2],
    strides: [u32; 3],
    lengths: [usize; 3],
    output: usize,
) -> Call {
    let mut call = make(why, size, strides, lengths, output);
    if let Make(making) = &mut call.request {
        making.request.settings = Some(four);
    }
    call
}

fn makings_with_settings() -> Vec<Call> {
    let mut calls = Vec::new();
    for sampling in [0, 1] {
        for w in 1..6u32 {
            for h in 1..4u32 {
                let [cw, ch] = conditions::chroma_sides(sampling as u8, w, h);
                let strides = [w + h % 3, cw + w % 2, cw + (w + h) % 3];
                let lengths = [strides[0] * h, strides[1] * ch, strides[2] * ch];
                let lengths = lengths.map(|length| length as usize);
                let length = conditions::record_length(WithSettings, sampling as u8, w, h);
                let output = length as usize + (w + h) as usize % 3;
                let four = [sampling, w % 2, (w + h) % 7, h % 4];
                calls.push(make_settings(
                    "a size",
                    four,
                    [w, h],
                    strides,
                    lengths,
                    output,
                ));
            }
        }
    }
    // 5 × 3 in 4:2:2: cw 3, ch 3; a record of 45 bytes.
    let (strides, lengths) = ([8, 4, 5], [24, 12, 15]);
    let unsaid = [1, 255, 255, 255];
    for output in [0, 8, 11, 12, 44, 45, 46] {
        calls.push(make_settings(
            "an output",
            unsaid,
            [5, 3],
            strides,
            lengths,
            output,
        ));
    }
    for k in 0..4 {
        let near = NEAR_CODES.into_iter().map(u32::from);
        for value in near.chain([256, 257, 511, 65_536, u32::MAX]) {
            let mut four = [1, 0, 0, 0];
            four[k] = value;
            // Of 4:2:0 the planes have fewer rows: then 12 holds, where 15 does not.
            calls.push(make_settings(
                "a setting",
                four,
                [5, 3],
                strides,
                lengths,
                45,
            ));
        }
    }
    let unknown = [0, 254, 0, 0];
    calls.push(make_settings(
        "15 and all others",
        unknown,
        [5, 3],
        [0; 3],
        [0; 3],
        0,
    ));
    for size in [
        [0, 3],
        [5, 0],
        [16_385, 3],
        [5, 16_385],
        [65_541, 3],
        [5, u32::MAX],
    ] {
        calls.push(make_settings("15", unsaid, size, strides, lengths, 45));
        calls.push(make_settings(
            "15 and all others",
            unsaid,
            size,
            [0; 3],
            [0; 3],
            0,
        ));
    }
    for (why, strides, lengths) in [
        ("8", [4, 4, 5], [24, 12, 15]),
        ("9", [8, 4, 5], [20, 12, 15]),
        ("10, stride", [8, 2, 5], [24, 12, 15]),
        ("10, the rows of 4:2:0", [8, 4, 5], [24, 8, 10]),
        ("11, stride", [8, 4, 2], [24, 12, 15]),
        ("11, the rows of 4:2:0", [8, 4, 5], [24, 12, 10]),
        ("12 of Y", [8, 4, 5], [21, 12, 15]),
        ("12 of U", [8, 4, 5], [24, 16, 15]),
        ("12 of V", [8, 4, 5], [24, 12, 13]),
    ] {
        calls.push(make_settings(why, unsaid, [5, 3], strides, lengths, 45));
        let why = format!("{why}, and 16");
        calls.push(make_settings(&why, unsaid, [5, 3], strides, lengths, 44));
    }
    let thin = [16_384; 3];
    calls.push(make_settings(
        "thin and long",
        unsaid,
        [1, 16_384],
        [1; 3],
        thin,
        49_164,
    ));
    let random = (0..).map(|case| Making::with_settings(&mut Random::new(50, 62, case), 12));
    let short = |making: &Making| {
        making.planes.iter().map(Vec::len).sum::<usize>() + making.output.len() <= 600
    };
    calls.extend(random.filter(short).take(80).map(|making| Call {
        why: "any".to_string(),
        request: Make(making),
    }));
    calls
}

fn move_to(to: ShiftForm, why: &str, file: Vec<u8>, output: usize) -> Call {
    Call {
        why: why.to_string(),
        request: Move(Moving {
            to,
            file,
            output: vec![0xee; output],
        }),
    }
}

/// RULES 11.8: record by record.
fn moved_forward(records: &[&[u8]]) -> Vec<u8> {
    let records: Vec<Vec<u8>> = (records.iter())
        .map(|record| [&record[..8], &UNSAID, &record[8..]].concat())
        .collect();
    let lent: Vec<&[u8]> = records.iter().map(Vec::as_slice).collect();
    conditions::file_of(WithSettings, &lent)
}

fn movings() -> Vec<Call> {
    let (old, set, new) = (worked_file(), set_file(), moved_forward(&RECORDS));
    let forward = |why: &str, file: &[u8], output| {
        move_to(
            WithSettings,
            &format!("forward, {why}"),
            file.to_vec(),
            output,
        )
    };
    let back = |why: &str, file: &[u8], output| {
        move_to(
            WithoutSettings,
            &format!("back, {why}"),
            file.to_vec(),
            output,
        )
    };
    let mut calls = Vec::new();
    for length in 0..new.len() + 3 {
        calls.push(forward("the file of RULES 11.1", &old, length));
    }
    for length in 0..old.len() + 3 {
        calls.push(back("that file", &new, length));
    }
    for length in 0..10 {
        calls.push(forward("no records", &[0; 4], length));
        calls.push(back(
            "no records",
            &[255, 255, 255, 255, 0, 0, 0, 0],
            length,
        ));
    }
    for length in [0, old.len(), new.len(), 90] {
        calls.push(forward("with settings", &new, length));
        calls.push(forward("with settings", &set, length));
        calls.push(back("without settings", &old, length));
        calls.push(back("the file of RULES 11.7", &set, length));
    }
    let of_422 = with_byte(SET[1], 9, 255);
    let of_422 = with_byte(&with_byte(&of_422, 10, 255), 11, 255);
    let of_422 = conditions::file_of(WithSettings, &[&of_422]);
    for length in [0, 30, 90] {
        calls.push(back("4:2:2, and nothing recorded", &of_422, length));
        let behind = [&with_byte(&new, 41, 1)[..], &[0]].concat();
        calls.push(back("a byte behind, and a range recorded", &behind, length));
    }
    // Of each record each setting, which leaves the second as long.
    for at in (40..44).chain(62..66) {
        for value in NEAR_CODES {
            for length in [0, 90] {
                let file = with_byte(&new, at, value);
                calls.push(back("a byte of settings", &file, length));
            }
        }
    }
    for length in (0..new.len()).step_by(3).chain([66, 67, 68]) {
        calls.push(back("a cut", &new[..length], 90));
        let mut recorded = with_byte(&new, 41, 1);
        recorded.truncate(length);
        calls.push(back("a cut, and a range recorded", &recorded, 0));
        let cut = &old[..length.min(old.len() - 1)];
        calls.push(forward("a cut", cut, 90));
    }
    for at in (0..32).chain([36, 38, 58, 60]) {
        calls.push(back("a bit", &with_byte(&new, at, new[at] ^ 1), 90));
    }
    for at in (0..28).chain([32, 34, 50, 52]) {
        calls.push(forward("a bit", &with_byte(&old, at, old[at] ^ 1), 90));
    }
    for count in [300, 1_000] {
        let (why, records) = (format!("{count} records"), vec![RECORDS[1]; count]);
        let file = conditions::file_of(WithoutSettings, &records);
        calls.push(forward(&why, &file, LONGEST_BUFFER));
        calls.push(back(&why, &moved_forward(&records), LONGEST_BUFFER));
    }
    // The last of many has a transfer recorded.
    let mut last = moved_forward(&[RECORDS[1]; 300]);
    let at = last.len() - 4;
    last[at] = 3;
    calls.push(back(
        "300 records, the last with a transfer",
        &last,
        LONGEST_BUFFER,
    ));
    let mut thin = vec![7; 32_776];
    thin[4..8].copy_from_slice(&[1, 0, 0, 0x40]);
    calls.push(forward(
        "thin and long",
        &conditions::file_of(WithoutSettings, &[&thin]),
        32_800,
    ));
    type Draw = fn(&mut Random) -> Moving;
    for (stream, draw) in [(63, Moving::forward as Draw), (64, Moving::back)] {
        let random = (0..).map(|case| draw(&mut Random::new(50, stream, case)));
        let short = |moving: &Moving| moving.file.len() + moving.output.len() <= 600;
        calls.extend(random.filter(short).take(80).map(|moving| Call {
            why: "any".to_string(),
            request: Move(moving),
        }));
    }
    calls
}

/// Each after a space.
fn numbers_text(numbers: &[u64]) -> String {
    numbers.iter().map(|number| format!(" {number}")).collect()
}

fn reading_line(any: bool, answer: &Answer, told: [u64; 3], entries: &[u64]) -> String {
    let [count, told, form] = told;
    let (said, numbers) = (answer_text(answer), numbers_text(entries));
    let form = match any {
        true => format!(" form={form}"),
        false => String::new(),
    };
    format!("{said} count={count} told={told}{form} entries{numbers}")
}

/// A call with its answer, what is told, and the line that is printed.
struct Vector {
    call: Call,
    answer: Answer,
    line: String,
}

impl Vector {
    /// The model's, compared before.
    fn new(call: Call, converters: &Converters) -> Result<Vector, String> {
        let model = &*converters[0];
        let wrong = |wrong: String| format!("{}: {wrong}", call.why);
        let output = |answer: &Answer, size: u64, output: &[u8]| {
            let digest = digest("output", output);
            format!("{} size={size}{digest}", answer_text(answer))
        };
        let (answer, line) = match &call.request {
            Read(reading) => {
                checked(reading, converters).map_err(wrong)?;
                let (answer, told, entries) = reading.call(model)?;
                (answer, reading_line(reading.any, &answer, told, &entries))
            }
            Write(writing) => {
                checked(writing, converters).map_err(wrong)?;
                let (answer, size, after) = writing.call(model)?;
                (answer, output(&answer, size, &after))
            }
            Make(making) => {
                checked(making, converters).map_err(wrong)?;
                let (answer, size, after) = making.call(model)?;
                (answer, output(&answer, size, &after))
            }
            Move(moving) => {
                checked(moving, converters).map_err(wrong)?;
                let (answer, size, after) = moving.call(model)?;
                (answer, output(&answer, size, &after))
            }
        };
        Ok(Vector { call, answer, line })
    }

    fn number(&self) -> u8 {
        self.answer.map_or_else(|refusal| refusal.number, |()| 0)
    }
}

fn vectors(converters: &Converters) -> Result<Vec<Vector>, String> {
    let calls = (readings().into_iter())
        .chain(writings())
        .chain(makings())
        .chain(full_files())
        .chain(readings_of_either_form())
        .chain(writings_with_settings())
        .chain(makings_with_settings())
        .chain(movings());
    let vectors = calls
        .map(|call| Vector::new(call, converters))
        .collect::<Result<Vec<Vector>, String>>()?;
    complete(&vectors)?;
    Ok(vectors)
}

/// Each kind of call, by its number in the list, and the numbers that it can answer.
const KINDS: [(&str, &[u8]); 8] = [
    ("files read", &[0, 15]),
    ("files written", &[0, 15, 16]),
    ("records from planes", &[0, 8, 9, 10, 11, 12, 15, 16]),
    ("files of either form read", &[0, 15]),
    ("files with settings written", &[0, 15, 16]),
    (
        "records with settings from planes",
        &[0, 8, 9, 10, 11, 12, 15, 16],
    ),
    ("files moved forward", &[0, 15, 16]),
    ("files moved back", &[0, 15, 16, 20]),
];

/// Every answer that each call can give, in buffers that can be lent.
fn complete(vectors: &[Vector]) -> Result<(), String> {
    let short = vectors.iter().all(|vector| {
        let longest = |lengths: &[usize]| lengths.iter().all(|l| *l <= LONGEST_BUFFER);
        match &vector.call.request {
            Read(r) => r.file.len() <= LONGEST_FILE && r.entries.len() <= MOST_NUMBERS,
            Write(w) => longest(&[w.records.len(), w.output.len()]),
            Make(m) => longest(&[m.output.len()]) && m.planes.iter().all(|p| longest(&[p.len()])),
            Move(m) => m.file.len() <= LONGEST_FILE && longest(&[m.output.len()]),
        }
    });
    if !short {
        return Err("calls on shift files: a buffer that the program cannot lend".to_string());
    }
    for ((name, answers), kind) in KINDS.into_iter().zip(0..) {
        let of_kind = vectors.iter().filter(|v| v.call.request.kind() == kind);
        let has: BTreeSet<u8> = of_kind.map(Vector::number).collect();
        if has != BTreeSet::from_iter(answers.to_vec()) {
            return Err(format!("calls on shift files: {name}: answers {has:?}"));
        }
    }
    Ok(())
}

fn stored(vectors: &[Vector]) -> Vec<u8> {
    let mut stored = Stored::default();
    stored.lengths([vectors.len()]);
    for vector in vectors {
        stored.numbers(&[vector.call.request.kind()]);
        match &vector.call.request {
            Read(Reading {
                file,
                first,
                entries,
                ..
            }) => {
                stored.lengths([file.len()]);
                stored.numbers(&[*first as u32, (first >> 32) as u32]);
                stored.lengths([entries.len()]);
                stored.block(file);
            }
            Write(Writing {
                records, output, ..
            }) => {
                stored.lengths([records.len(), output.len()]);
                stored.block(records);
                stored.block(output);
            }
            Make(Making {
                request: r,
                planes: [y, u, v],
                output,
            }) => {
                stored.lengths([y, u, v, output].map(Vec::len));
                stored.numbers(&[r.crossing, r.w, r.h, r.y_stride, r.u_stride, r.v_stride]);
                stored.numbers(r.settings.as_ref().map_or(&[][..], |four| four));
                for buffer in [y, u, v, output] {
                    stored.block(buffer);
                }
            }
            Move(Moving { file, output, .. }) => {
                stored.lengths([file.len(), output.len()]);
                stored.block(file);
                stored.block(output);
            }
        }
    }
    stored.0
}

fn expected(vectors: &[Vector]) -> String {
    let mut text = String::new();
    for (vector, place) in vectors.iter().zip(1..) {
        let _ = writeln!(text, "{place} {}", vector.line);
    }
    text
}

/// A line for each call, without the bytes.
fn index(vectors: &[Vector], bytes: usize) -> String {
    let mut text = format!(
        "# The calls of crates/replay_shift/stdin, made by vectors/make; README.md says how.\n\
         # {} calls in {bytes} bytes: {}.\n\
         # number | what it is for | the call | number, expected, received\n",
        vectors.len(),
        counts(vectors),
    );
    for (vector, place) in vectors.iter().zip(1..) {
        let call = match &vector.call.request {
            Read(r) => {
                let (length, first, room) = (r.file.len(), r.first, r.entries.len());
                let form = if r.any { " of either form" } else { "" };
                format!("file{form} of {length} bytes, from record {first}, {room} numbers")
            }
            Write(w) => {
                let (records, output) = (w.records.len(), w.output.len());
                let settings = match w.form {
                    WithoutSettings => "",
                    WithSettings => " with settings",
                };
                format!("records{settings} of {records} bytes, output of {output}")
            }
            Make(m) => {
                let r = &m.request;
                let [y, u, v] = m.planes.each_ref().map(Vec::len);
                let strides = [r.y_stride, r.u_stride, r.v_stride].map(|s| s.to_string());
                let (w, h, strides, output) = (r.w, r.h, strides.join(" "), m.output.len());
                let settings = r.settings.map_or(String::new(), |four| {
                    format!(", settings {}", four.map(|code| code.to_string()).join(" "))
                });
                format!(
                    "planes of {w} x {h}{settings}, strides {strides}, lengths {y} {u} {v}, output of {output}"
                )
            }
            Move(m) => {
                let (file, output) = (m.file.len(), m.output.len());
                format!("file of {file} bytes moved, output of {output}")
            }
        };
        let (why, answer) = (&vector.call.why, answer_text(&vector.answer));
        let _ = writeln!(text, "{place} | {why} | {call} | {answer}");
    }
    text
}

/// How many calls of each kind there are, and how many of them are refused with each number.
fn counts(vectors: &[Vector]) -> String {
    let of = |((name, _), kind): ((&str, &[u8]), u32)| {
        let mut answers: BTreeMap<u8, usize> = BTreeMap::new();
        for vector in vectors.iter().filter(|v| v.call.request.kind() == kind) {
            *answers.entry(vector.number()).or_default() += 1;
        }
        let all: usize = answers.values().sum();
        let accepted = answers.remove(&0).unwrap_or(0);
        let refused: Vec<String> = (answers.iter())
            .map(|(number, count)| format!("{number}: {count}"))
            .collect();
        let refused = refused.join(", ");
        format!("{all} {name} ({accepted} accepted, refused {refused})")
    };
    let all: Vec<String> = KINDS.into_iter().zip(0..).map(of).collect();
    all.join(", ")
}

fn files(vectors: &[Vector]) -> [(&'static str, Vec<u8>); 3] {
    let stored = stored(vectors);
    let index = index(vectors, stored.len());
    [
        ("vectors/shift.txt", index.into_bytes()),
        ("crates/replay_shift/stdout", expected(vectors).into_bytes()),
        ("crates/replay_shift/stdin", stored),
    ]
}

pub fn write(root: &Path, converters: &Converters) -> Result<String, String> {
    let vectors = vectors(converters)?;
    for (file, bytes) in files(&vectors) {
        std::fs::write(root.join(file), bytes).map_err(|error| format!("{file}: {error}"))?;
    }
    Ok(format!("{} calls on shift files written", vectors.len()))
}

/// The list's line in the README.
fn readme_line(vectors: &[Vector]) -> String {
    let counts = counts(vectors);
    format!("| `crates/replay_shift/stdin` | {counts} | `replay_shift` | `shift.txt` |")
}

/// Whether the files are those that `write` writes, and the README counts them so and has the table of
/// the mistakes.
pub fn check(root: &Path, converters: &Converters) -> Result<String, String> {
    let vectors = vectors(converters)?;
    let read =
        |file: &str| std::fs::read(root.join(file)).map_err(|error| format!("{file}: {error}"));
    for (file, bytes) in files(&vectors) {
        equal_bytes("what is made", file, &read(file)?, &bytes)?;
    }
    let readme = "vectors/README.md";
    let text = String::from_utf8_lossy(&read(readme)?).into_owned();
    let mut lines = mistake_lines(&vectors)?;
    lines.push(readme_line(&vectors));
    for line in lines {
        if !text.lines().any(|other| other == line) {
            return Err(format!("{readme} lacks the line: {line}"));
        }
    }
    Ok(format!("{} calls on shift files, as made", vectors.len()))
}

/// Which call catches each mistake first, and how many do; and the list's line.
pub fn report(converters: &Converters) -> Result<String, String> {
    let vectors = vectors(converters)?;
    let mut lines = mistake_lines(&vectors)?;
    lines.push(readme_line(&vectors));
    Ok(lines.join("\n"))
}

/// A mistake near at hand in a reader or a writer of shift files.
#[derive(Clone, Copy, PartialEq)]
enum Mistake {
    NoMistake,
    FirstOffsetNotAsked,
    NextOffsetsNotAsked,
    LengthsNotAsked,
    EndNotAsked,
    AnyEndPastTheRecords,
    OffsetsOf32Bits,
    SumsWrap,
    OneRecordMore,
    NoSideOf0,
    LargerSides,
    LargestSideRefused,
    NoRecordsRefused,
    ChromaRoundedDown,
    HighByteFirst,
    FirstInBytes,
    EntryOfPartOfTheRoom,
    OffsetsFromTheRecord,
    SizeNotToldAfter16,
    CountBeforeTheTest,
    RestCleared,
    OutputOfTheRecordsLength,
    PaddingTaken,
    OutputFirst,
    SizeOf16Bits,
    NotRecordedFrom254,
    AnyByteNotRecorded,
    SamplingNotRecorded,
    NoCustom,
    MatrixOf7,
    TransferOf4,
    PlanesOf420,
    OffsetsWithoutTheMark,
    SettingsTaken,
    WithoutSettingsRefused,
    FormNotTold,
    RoomOfEleven,
    ZerosForNotRecorded,
    MatrixBeforeRange,
    CodesOf8Bits,
    SettingsAfterPlanes,
    UnknownIs1,
    ForwardSets0,
    ForwardTakesSettings,
    BackTakesWithout,
    RecordedMovedBack,
    RangeMovedBack,
    SamplingMovedBack,
    FirstRecordAsked,
    TwentyAfter16,
    TwentyBefore15,
    SizeWith20,
    LengthsNotMoved,
    OffsetsNotMoved,
}

use Mistake::*;

const MISTAKES: [(Mistake, &str); 53] = [
    (FirstOffsetNotAsked, "the first offset is not asked"),
    (
        NextOffsetsNotAsked,
        "the offsets after the first are not asked: gaps and overlaps",
    ),
    (LengthsNotAsked, "lengths are not asked"),
    (EndNotAsked, "the file's end is not asked"),
    (
        AnyEndPastTheRecords,
        "bytes behind the last record are taken",
    ),
    (OffsetsOf32Bits, "offsets of 32 bits"),
    (
        SumsWrap,
        "offset and length from the pair, and a sum that wraps",
    ),
    (OneRecordMore, "4,097 records"),
    (NoSideOf0, "a side of 0 is taken"),
    (LargerSides, "a side of 16,385 is taken"),
    (LargestSideRefused, "a side of 16,384 is refused"),
    (NoRecordsRefused, "no records are refused"),
    (ChromaRoundedDown, "half of an odd side rounded down"),
    (HighByteFirst, "high byte first"),
    (FirstInBytes, "first in 32 bits"),
    (
        EntryOfPartOfTheRoom,
        "an entry where less than eleven numbers are left",
    ),
    (
        OffsetsFromTheRecord,
        "planes' offsets from the start of the record",
    ),
    (SizeNotToldAfter16, "no size after 16"),
    (
        CountBeforeTheTest,
        "the count is written before 16 is asked",
    ),
    (RestCleared, "the output is cleared past the file"),
    (
        OutputOfTheRecordsLength,
        "16 by the length of the records alone",
    ),
    (PaddingTaken, "a record's rows with their padding"),
    (OutputFirst, "16 before 8 to 12"),
    (SizeOf16Bits, "w and h cut to 16 bits before 15 is asked"),
    (NotRecordedFrom254, "254 taken as not recorded"),
    (
        AnyByteNotRecorded,
        "any byte past the last code taken as not recorded",
    ),
    (SamplingNotRecorded, "255 taken as sampling"),
    (NoCustom, "a Custom matrix is refused"),
    (MatrixOf7, "7 taken as matrix"),
    (TransferOf4, "4 taken as transfer"),
    (PlanesOf420, "planes of 4:2:2 as long as those of 4:2:0"),
    (
        OffsetsWithoutTheMark,
        "offsets from behind the first number of a file with settings",
    ),
    (
        SettingsTaken,
        "the call for files without settings takes those with",
    ),
    (
        WithoutSettingsRefused,
        "the call for either form refuses files without settings",
    ),
    (FormNotTold, "the form is told as 0"),
    (
        RoomOfEleven,
        "an entry of fifteen where less than fifteen numbers are left",
    ),
    (
        ZerosForNotRecorded,
        "settings of a record without settings told as 0",
    ),
    (MatrixBeforeRange, "matrix before range"),
    (CodesOf8Bits, "settings cut to 8 bits before 15 is asked"),
    (SettingsAfterPlanes, "15 of a setting after 8 to 12"),
    (UnknownIs1, "1 for a setting without a meaning"),
    (ForwardSets0, "moving forward sets 0 for 255"),
    (
        ForwardTakesSettings,
        "moving forward takes a file with settings as it is",
    ),
    (
        BackTakesWithout,
        "moving back takes a file without settings as it is",
    ),
    (
        RecordedMovedBack,
        "a recorded range, matrix or transfer is moved back",
    ),
    (RangeMovedBack, "a recorded range is moved back"),
    (SamplingMovedBack, "4:2:2 is moved back"),
    (FirstRecordAsked, "20 is asked of the first record alone"),
    (TwentyAfter16, "20 after 16"),
    (TwentyBefore15, "20 before 15"),
    (SizeWith20, "a size is told with 20"),
    (LengthsNotMoved, "lengths are not moved by 4"),
    (OffsetsNotMoved, "offsets are not moved"),
];

/// A second reader and writer, with one mistake. Without one it gives what is expected.
struct Mistaken(Mistake);

const BROKEN: Refusal = Refusal {
    number: 15,
    expected: 0,
    received: 0,
};
const SHORT: Refusal = Refusal {
    number: 16,
    ..BROKEN
};
const RECORDED: Refusal = Refusal {
    number: 20,
    ..BROKEN
};

impl Mistaken {
    fn number(&self, bytes: &[u8], at: u64, size: u64) -> Option<u64> {
        let end = at.checked_add(size)?;
        let bytes = bytes.get(at as usize..end as usize)?;
        let join = |all: u64, byte: &u8| all << 8 | u64::from(*byte);
        Some(match self.0 {
            HighByteFirst => bytes.iter().fold(0, join),
            _ => bytes.iter().rev().fold(0, join),
        })
    }

    fn chroma(&self, sampling: u64, w: u64, h: u64) -> u64 {
        match (self.0, sampling) {
            (ChromaRoundedDown, 0) => (w / 2) * (h / 2),
            (ChromaRoundedDown, _) => (w / 2) * h,
            (PlanesOf420, _) | (_, 0 | 255) => w.div_ceil(2) * h.div_ceil(2),
            _ => w.div_ceil(2) * h,
        }
    }

    /// Whether a record may have these as sampling, range, matrix and transfer.
    fn are_settings(&self, four: [u64; 4]) -> bool {
        let last = match self.0 {
            NoCustom => [1, 1, 5, 3],
            MatrixOf7 => [1, 1, 7, 3],
            TransferOf4 => [1, 1, 6, 4],
            _ => [1, 1, 6, 3],
        };
        (0..4).all(|k| {
            let unsaid = match self.0 {
                SamplingNotRecorded => four[k] == 255,
                NotRecordedFrom254 => k > 0 && four[k] >= 254,
                AnyByteNotRecorded => k > 0,
                _ => k > 0 && four[k] == 255,
            };
            four[k] <= last[k] || unsaid
        })
    }

    /// The bytes before the first pair.
    fn start(&self, form: ShiftForm) -> u64 {
        match form {
            WithoutSettings => 4,
            WithSettings => 8,
        }
    }

    /// Where the first of so many records stands.
    fn first(&self, form: ShiftForm, count: u64) -> u64 {
        let start = match self.0 {
            OffsetsWithoutTheMark => 4,
            _ => self.start(form),
        };
        start + 12 * count
    }

    fn form(file: &[u8]) -> ShiftForm {
        match file {
            [255, 255, 255, 255, ..] => WithSettings,
            _ => WithoutSettings,
        }
    }

    fn is_side(&self, side: u64) -> bool {
        match self.0 {
            NoSideOf0 => side <= 16_384,
            LargerSides => (1..=16_385).contains(&side),
            LargestSideRefused => (1..16_384).contains(&side),
            _ => (1..=16_384).contains(&side),
        }
    }

    fn most(&self) -> u64 {
        4_096 + u64::from(self.0 == OneRecordMore)
    }

    /// Crossing, w, h, the lengths of the record, of Y, and of U and V; and sampling, range, matrix and transfer.
    fn record(&self, form: ShiftForm, bytes: &[u8], at: u64) -> Option<([u64; 6], [u64; 4])> {
        let crossing = self.number(bytes, at, 4)?;
        let w = self.number(bytes, at.checked_add(4)?, 2)?;
        let h = self.number(bytes, at + 6, 2)?;
        let four = match form {
            WithoutSettings if self.0 == ZerosForNotRecorded => [0; 4],
            WithoutSettings => UNSAID.map(u64::from),
            WithSettings => {
                let code = |k: u64| self.number(bytes, at.checked_add(8 + k)?, 1);
                let [a, b, c, d] = [code(0)?, code(1)?, code(2)?, code(3)?];
                match self.0 {
                    MatrixBeforeRange => [a, c, b, d],
                    _ => [a, b, c, d],
                }
            }
        };
        if !self.is_side(w) || !self.is_side(h) || !self.are_settings(four) {
            return None;
        }
        let (luma, chroma) = (w * h, self.chroma(four[0], w, h));
        let length = conditions::header(form) as u64 + luma + 2 * chroma;
        Some(([crossing, w, h, length, luma, chroma], four))
    }

    fn entries(&self, form: ShiftForm, file: &[u8]) -> Option<Vec<[u64; ANY_ENTRY]>> {
        let start = self.start(form);
        let count = self.number(file, start - 4, 4)?;
        if count > self.most() || (count == 0 && self.0 == NoRecordsRefused) {
            return None;
        }
        let mut follows = self.first(form, count);
        let mut entries = Vec::new();
        for k in 0..count {
            let offset = self.number(file, start + 12 * k, 8)?;
            let length = self.number(file, start + 8 + 12 * k, 4)?;
            let offset = match self.0 {
                OffsetsOf32Bits => offset & 0xffff_ffff,
                _ => offset,
            };
            let asked = match self.0 {
                FirstOffsetNotAsked => k > 0,
                NextOffsetsNotAsked => k == 0,
                SumsWrap => k > 0,
                _ => true,
            };
            if asked && offset != follows {
                return None;
            }
            let at = if self.0 == SumsWrap { follows } else { offset };
            let (numbers, [a, b, c, d]) = self.record(form, file, at)?;
            let [crossing, w, h, its_length, luma, chroma] = numbers;
            if self.0 != LengthsNotAsked && self.0 != SumsWrap && length != its_length {
                return None;
            }
            let from = match self.0 {
                OffsetsFromTheRecord => 0,
                _ => offset,
            };
            let y = from.wrapping_add(conditions::header(form) as u64);
            let (u, v) = (y.wrapping_add(luma), y.wrapping_add(luma + chroma));
            entries.push([
                crossing, w, h, offset, its_length, y, luma, u, chroma, v, chroma, a, b, c, d,
            ]);
            follows = match self.0 {
                SumsWrap => offset.wrapping_add(length),
                FirstOffsetNotAsked | NextOffsetsNotAsked => offset.wrapping_add(its_length),
                _ => follows + its_length,
            };
        }
        let length = file.len() as u64;
        let ends = match self.0 {
            EndNotAsked => true,
            AnyEndPastTheRecords => follows <= length,
            _ => follows == length,
        };
        ends.then_some(entries)
    }

    /// The form by which a reading takes the file, if it does.
    fn taken(&self, reading: &Reading) -> Option<ShiftForm> {
        let form = Self::form(&reading.file);
        let taken = match (reading.any, form) {
            (true, WithoutSettings) => self.0 != WithoutSettingsRefused,
            (false, WithSettings) => self.0 == SettingsTaken,
            _ => true,
        };
        taken.then_some(form)
    }

    fn read(&self, reading: &Reading) -> String {
        let mut numbers = reading.entries.clone();
        let form = self.taken(reading);
        let entries = form.and_then(|form| self.entries(form, &reading.file));
        let (answer, count, mut told) = match entries {
            None => (Err(BROKEN), 0, 0),
            Some(entries) => {
                let first = match self.0 {
                    FirstInBytes => reading.first & 0xffff_ffff,
                    _ => reading.first,
                };
                let mut told = 0;
                let asked = entries.iter().skip(first as usize);
                let size = reading.entry();
                for (entry, room) in asked.zip(numbers.chunks_mut(size)) {
                    let part = match self.0 {
                        EntryOfPartOfTheRoom => !reading.any,
                        RoomOfEleven => reading.any,
                        _ => false,
                    };
                    if room.len() == size || part {
                        let length = room.len();
                        room.copy_from_slice(&entry[..length]);
                        told += 1;
                    }
                }
                (Ok(()), entries.len(), told)
            }
        };
        told = told.min(count);
        let form = u64::from(form == Some(WithSettings) && answer.is_ok() && self.0 != FormNotTold);
        let told = [count as u64, told as u64, form];
        reading_line(reading.any, &answer, told, &numbers)
    }

    /// The output after its bytes were put there, or 16.
    fn put(&self, bytes: &[u8], needed: usize, before: &[u8]) -> String {
        let mut output = before.to_vec();
        let mut size = bytes.len();
        let answer = if output.len() < needed.min(bytes.len())
            || output.len() < bytes.len() && needed == bytes.len()
        {
            if self.0 == CountBeforeTheTest {
                let start = output.len().min(4).min(size);
                output[..start].copy_from_slice(&bytes[..start]);
            }
            if self.0 == SizeNotToldAfter16 {
                size = 0;
            }
            Err(SHORT)
        } else {
            let fits = size.min(output.len());
            output[..fits].copy_from_slice(&bytes[..fits]);
            if self.0 == RestCleared {
                output[fits..].fill(0);
            }
            Ok(())
        };
        let digest = digest("output", &output);
        format!("{} size={size}{digest}", answer_text(&answer))
    }

    fn refused(refusal: Refusal, output: &[u8]) -> String {
        let digest = digest("output", output);
        format!("{} size=0{digest}", answer_text(&Err(refusal)))
    }

    fn write(&self, writing: &Writing) -> String {
        let Writing {
            form,
            records,
            output,
        } = writing;
        let mut lengths = Vec::new();
        let mut at = 0;
        while at < records.len() as u64 {
            let Some(([_, _, _, length, ..], _)) = self.record(*form, records, at) else {
                return Self::refused(BROKEN, output);
            };
            at += length;
            lengths.push(length);
        }
        let count = lengths.len() as u64;
        if at != records.len() as u64
            || count > self.most()
            || (count == 0 && self.0 == NoRecordsRefused)
        {
            return Self::refused(BROKEN, output);
        }
        let file = self.file(*form, &lengths, records);
        let needed = match self.0 {
            OutputOfTheRecordsLength => records.len(),
            _ => file.len(),
        };
        self.put(&file, needed, output)
    }

    /// The file of records of these lengths.
    fn file(&self, form: ShiftForm, lengths: &[u64], records: &[u8]) -> Vec<u8> {
        let bytes = |value: u64, size: usize| match self.0 {
            HighByteFirst => value.to_be_bytes()[8 - size..].to_vec(),
            _ => value.to_le_bytes()[..size].to_vec(),
        };
        let count = lengths.len() as u64;
        let mut file = [255].repeat(self.start(form) as usize - 4);
        file.extend(bytes(count, 4));
        let mut offset = self.first(form, count);
        for length in lengths {
            file.extend(bytes(offset, 8));
            file.extend(bytes(*length, 4));
            offset += length;
        }
        file.extend(records);
        file
    }

    fn moved(&self, moving: &Moving) -> String {
        let Moving { to, file, output } = moving;
        let form = Self::form(file);
        let is_taken_as_it_is = match to {
            WithSettings => self.0 == ForwardTakesSettings && form == WithSettings,
            WithoutSettings => self.0 == BackTakesWithout && form == WithoutSettings,
        };
        let from = if is_taken_as_it_is {
            *to
        } else {
            conditions::from(*to)
        };
        let lost = |entry: &[u64; ANY_ENTRY]| {
            let four = [11, 12, 13, 14].map(|k| entry[k]);
            match self.0 {
                RecordedMovedBack => four[0] != 0,
                RangeMovedBack => four[0] != 0 || four[2] != 255 || four[3] != 255,
                SamplingMovedBack => four[1..] != [255; 3],
                _ => four != UNSAID.map(u64::from),
            }
        };
        let loses = |entries: &[[u64; ANY_ENTRY]]| {
            let asked = match self.0 {
                FirstRecordAsked => &entries[..entries.len().min(1)],
                _ => entries,
            };
            *to == WithoutSettings && !is_taken_as_it_is && asked.iter().any(lost)
        };
        let entries = match from == form {
            true => self.entries(form, file),
            false => None,
        };
        let Some(entries) = entries else {
            // By the records that can be made out all the same.
            let some = Mistaken(EndNotAsked).entries(form, file);
            let early = from == form && some.is_some_and(|entries| loses(&entries));
            let refusal = match self.0 {
                TwentyBefore15 if early => RECORDED,
                _ => BROKEN,
            };
            return Self::refused(refusal, output);
        };
        if is_taken_as_it_is {
            return self.put(file, file.len(), output);
        }
        let (mut records, mut lengths) = (Vec::new(), Vec::new());
        for entry in &entries {
            // A mistaken reading may have taken a record that ends past the file.
            let mut record = file.get(entry[3] as usize..).unwrap_or(&[]).to_vec();
            record.resize(entry[4] as usize, 0);
            let (start, planes) = record.split_at(conditions::header(from));
            records.extend(&start[..8]);
            let mut moved = 8 + planes.len() as u64;
            if *to == WithSettings {
                let four = match self.0 {
                    ForwardSets0 => [0; 4],
                    _ => UNSAID,
                };
                records.extend(four);
                moved += 4;
            }
            records.extend(planes);
            lengths.push(match self.0 {
                LengthsNotMoved => entry[4],
                _ => moved,
            });
        }
        let mut bytes = self.file(*to, &lengths, &records);
        if self.0 == OffsetsNotMoved {
            for (k, entry) in entries.iter().enumerate() {
                let at = self.start(*to) as usize + 12 * k;
                bytes[at..at + 8].copy_from_slice(&entry[3].to_le_bytes());
            }
        }
        if loses(&entries) {
            if self.0 == TwentyAfter16 && output.len() < bytes.len() {
                return self.put(&bytes, bytes.len(), output);
            }
            let size = if self.0 == SizeWith20 { bytes.len() } else { 0 };
            let digest = digest("output", output);
            return format!("{} size={size}{digest}", answer_text(&Err(RECORDED)));
        }
        self.put(&bytes, bytes.len(), output)
    }

    fn make(&self, making: &Making) -> String {
        let Making {
            request,
            planes,
            output,
        } = making;
        let mut request = *request;
        if self.0 == SizeOf16Bits {
            (request.w, request.h) = (request.w & 0xffff, request.h & 0xffff);
        }
        if self.0 == CodesOf8Bits {
            request.settings = request.settings.map(|four| four.map(|code| code & 255));
        }
        let form = conditions::form_asked(&request);
        let four = request.settings.map(|four| four.map(u64::from));
        let (w, h) = (u64::from(request.w), u64::from(request.h));
        let unknown = four.is_some_and(|four| !self.are_settings(four));
        if !self.is_side(w) || !self.is_side(h) {
            return Self::refused(BROKEN, output);
        }
        if unknown && self.0 == UnknownIs1 {
            let number = 1;
            return Self::refused(Refusal { number, ..BROKEN }, output);
        }
        if unknown && self.0 != SettingsAfterPlanes {
            return Self::refused(BROKEN, output);
        }
        // The sampling by which the planes are taken.
        let sampling = match four {
            Some([1, ..]) if self.0 != PlanesOf420 => 1,
            _ => 0,
        };
        let length = conditions::header(form) as u64 + w * h + 2 * self.chroma(sampling, w, h);
        let asked = match self.0 {
            OutputFirst => output.len(),
            _ => usize::MAX,
        };
        // Of a record whose settings are known here, so that of 15 nothing is left.
        let asked = (
            asked,
            RecordRequest {
                settings: four.map(|_| [sampling as u32, 255, 255, 255]),
                ..request
            },
        );
        let (answer, _) = conditions::of_shift_record(&asked.1, planes, usize::MAX);
        let (answer, asked) = match answer {
            Ok(()) if unknown => (Err(BROKEN), usize::MAX),
            _ => (answer, asked.0),
        };
        if let Err(refusal) = answer {
            if asked < length as usize {
                let digest = digest("output", output);
                return format!("{} size={length}{digest}", answer_text(&Err(SHORT)));
            }
            return Self::refused(refusal, output);
        }
        let mut record = Vec::new();
        for (value, size) in [(u64::from(request.crossing), 4), (w, 2), (h, 2)] {
            record.extend(match self.0 {
                HighByteFirst => value.to_be_bytes()[8 - size..].to_vec(),
                _ => value.to_le_bytes()[..size].to_vec(),
            });
        }
        record.extend(four.into_iter().flat_map(|[a, b, c, d]| match self.0 {
            MatrixBeforeRange => [a, c, b, d].map(|code| code as u8),
            _ => [a, b, c, d].map(|code| code as u8),
        }));
        let chroma = match self.0 {
            ChromaRoundedDown => w / 2,
            _ => w.div_ceil(2),
        };
        for (plane, stride, row) in [
            (&planes[0], request.y_stride, w),
            (&planes[1], request.u_stride, chroma),
            (&planes[2], request.v_stride, chroma),
        ] {
            for padded in plane.chunks((stride as usize).max(1)) {
                let row = match self.0 {
                    PaddingTaken => padded.len(),
                    _ => row as usize,
                };
                record.extend(&padded[..row]);
            }
        }
        let length = record.len();
        self.put(&record, length, output)
    }

    fn line(&self, call: &Call) -> String {
        match &call.request {
            Read(reading) => self.read(reading),
            Write(writing) => self.write(writing),
            Make(making) => self.make(making),
            Move(moving) => self.moved(moving),
        }
    }
}

/// The first call that catches each mistake, and how many do.
fn mistake_lines(vectors: &[Vector]) -> Result<Vec<String>, String> {
    let catching = |mistake: Mistake| {
        let mistaken = Mistaken(mistake);
        let differs = |(vector, _): &(&Vector, usize)| mistaken.line(&vector.call) != vector.line;
        let catching: Vec<usize> = (vectors.iter().zip(1..))
            .filter(differs)
            .map(|(_, place)| place)
            .collect();
        catching
    };
    if let [place, ..] = catching(NoMistake)[..] {
        let line = Mistaken(NoMistake).line(&vectors[place - 1].call);
        return Err(format!(
            "call {place} on shift files, without a mistake: {line}"
        ));
    }
    MISTAKES
        .into_iter()
        .map(|(mistake, what)| match catching(mistake)[..] {
            [first, ..] => {
                let count = catching(mistake).len();
                Ok(format!("| {what} | {first} | {count} |"))
            }
            [] => Err(format!("no call on shift files catches: {what}")),
        })
        .collect()
}
