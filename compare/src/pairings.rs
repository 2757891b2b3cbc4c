//! The stored list of pairings, which the crate replay_pairs replays with no Rust at hand: two files each,
//! what is answered, and the list's files. The expectations are the model's, held first to the list of
//! conditions and to a second count of the report (`pairs.rs`).
//!
//! The list is the number of pairings, and these, one behind the other. Numbers have four bytes, low byte
//! first, and buffers are stored as in the other lists (`stored.rs`). A pairing: the lengths of ours and of
//! theirs; ours, theirs.
//!
//! No file is longer than 65,536 bytes, so none has more than 2,849 records. What is printed of a pairing is
//! a line: its place in the list from 1 on; number, expected and received; the file that is none, 1 for ours
//! and 2 for theirs, else 0; the eighteen numbers of the report (RULES 10.7), each 9 before the call.
//!
//!     1 0 0 0 broken=0 report 1 2 2 2 2 1400 1 0 0 0 0 0 2 0 1 0 0 0
//!     27 15 0 0 broken=1 report 9 9 9 9 9 9 9 9 9 9 9 9 9 9 9 9 9 9

use crate::check::{Converters, checked, equal_bytes};
use crate::conditions;
use crate::pairs::{Called, Pairing};
use crate::random::Random;
use crate::request::answer_text;
use crate::shift::{self, SETTINGS_SLIPS, SLIPS, ShiftForm, with_slip};
use crate::stored::Stored;
use crate::summary::crossing_of;
use ShiftForm::*;
use model::{Answer, Refusal};
use std::cmp::Reverse;
use std::collections::{BTreeMap, BTreeSet};
use std::fmt::Write;
use std::path::Path;

/// The longest file that the replaying program can lend.
const LONGEST_FILE: usize = 65_536;

/// What stands in each of the eighteen numbers before a call.
const KEPT: u64 = 9;

/// The widest frame of which every byte is told in turn.
const WIDEST: u16 = 20;

struct Call {
    why: String,
    request: Pairing,
}

fn call(why: &str, ours: Vec<u8>, theirs: Vec<u8>) -> Call {
    Call {
        why: why.to_string(),
        request: Pairing { ours, theirs },
    }
}

/// The files of these records, in both orders.
fn both(why: &str, ours: &[Vec<u8>], theirs: &[Vec<u8>]) -> [Call; 2] {
    let (ours, theirs) = (file_of(ours), file_of(theirs));
    [
        call(why, ours.clone(), theirs.clone()),
        call(why, theirs, ours),
    ]
}

/// Without settings.
fn file_of(records: &[Vec<u8>]) -> Vec<u8> {
    shift::file_of(WithoutSettings, records)
}

fn record(crossing: u32, w: u16, h: u16, first: u8) -> Vec<u8> {
    let mut record = crossing.to_le_bytes().to_vec();
    record.extend(w.to_le_bytes());
    record.extend(h.to_le_bytes());
    let length = conditions::record_length(WithoutSettings, 0, w.into(), h.into()) as usize;
    record.extend((0..length - 8).map(|i| first.wrapping_add((29 * i) as u8)));
    record
}

/// Of one pixel.
fn small(crossing: u32, y: u8) -> Vec<u8> {
    [&crossing.to_le_bytes()[..], &[1, 0, 1, 0, y, 0x60, 0x70]].concat()
}

/// The record with one bit of a byte another, a different one from byte to byte.
fn flipped(record: &[u8], at: usize) -> Vec<u8> {
    let mut record = record.to_vec();
    record[at] ^= 1 << (at % 8);
    record
}

fn sides_of(record: &[u8]) -> [u64; 2] {
    [4, 6].map(|at| u64::from(u16::from_le_bytes([record[at], record[at + 1]])))
}

/// Where each plane of a record starts: the width of its rows and how many there are.
fn planes_of(form: ShiftForm, record: &[u8]) -> [[usize; 3]; 3] {
    let [w, h] = sides_of(record).map(|side| side as usize);
    let [sampling, ..] = conditions::settings_of(form, record);
    let [half, rows] = conditions::chroma_sides(sampling, w as u32, h as u32);
    let [half, rows] = [half, rows].map(|side| side as usize);
    let y = conditions::header(form);
    let u = y + w * h;
    [[y, w, h], [u, half, rows], [u + half * rows, half, rows]]
}

/// RULES 11.2: record 0, of 3 × 2.
fn of_three_by_two(last: u8) -> Vec<u8> {
    let mut record = vec![0x78, 5, 0, 0, 3, 0, 2, 0];
    record.extend([0x10, 0x11, 0x12, 0x20, 0x21, 0x22, 0x30, 0x31, 0x40, last]);
    record
}

/// RULES 13.1: the records of ours and of theirs.
fn worked() -> [Vec<Vec<u8>>; 2] {
    let ours = vec![
        small(70_000, 0x50),
        of_three_by_two(0x41),
        small(9, 0x11),
        small(70_000, 0x51),
        small(30, 0x22),
    ];
    let theirs = vec![
        of_three_by_two(0x42),
        small(8, 0x33),
        small(70_000, 0x51),
        of_three_by_two(0x41),
        small(30, 0x22),
    ];
    [ours, theirs]
}

/// The examples of RULES 13.2 to 13.4, those that are refused aside.
fn of_the_rules() -> Vec<Call> {
    let [ours, theirs] = worked();
    let mut calls = Vec::new();
    calls.extend(both("the files of RULES 13.1", &ours, &theirs));
    for records in [&ours, &theirs] {
        let file = file_of(records);
        calls.push(call("the same bytes as both", file.clone(), file));
    }
    let reversed: Vec<Vec<u8>> = ours.iter().rev().cloned().collect();
    calls.extend(both("the opposite order", &ours, &reversed));
    calls.extend(both("no records in one", &ours, &[]));
    calls.push(call("no records in either", file_of(&[]), file_of(&[])));
    let mut exchanged = theirs.clone();
    exchanged[0][4..8].copy_from_slice(&[2, 0, 3, 0]);
    calls.extend(both("w and h exchanged", &ours, &exchanged));
    let mut last = theirs.clone();
    last[4][10] ^= 1;
    calls.extend(both("a lower crossing with a byte another", &ours, &last));
    let one = of_three_by_two(0x41);
    let few = [&[8][..], &[10], &[11], &[13], &[14], &[15], &[16], &[17]];
    let more = [&[17, 14][..], &[16, 13], &[12, 10], &[], &[0]];
    for bytes in few.into_iter().chain(more) {
        let other = bytes.iter().fold(one.clone(), |one, at| flipped(&one, *at));
        let why = format!("bytes another: {bytes:?}");
        calls.push(call(
            &why,
            file_of(std::slice::from_ref(&one)),
            file_of(&[other]),
        ));
    }
    calls
}

/// Files that are none: as ours, as theirs, as both.
fn broken() -> Vec<Call> {
    let [ours, theirs] = worked().map(|records| file_of(&records));
    let mut calls = Vec::new();
    let cut = |file: &[u8]| file[..file.len() - 1].to_vec();
    for (a, b) in [
        (cut(&ours), theirs.clone()),
        (ours.clone(), cut(&theirs)),
        (cut(&ours), cut(&theirs)),
        (vec![], file_of(&[])),
        (file_of(&[]), vec![]),
        (vec![], vec![]),
        (cut(&ours), cut(&ours)),
    ] {
        calls.push(call("the examples of RULES 13.4", a, b));
    }
    let few = file_of(&[of_three_by_two(0x41), small(70_000, 0x50)]);
    for length in 0..few.len() {
        let short = few[..length].to_vec();
        calls.push(call("ours cut", short.clone(), few.clone()));
        calls.push(call("theirs cut", few.clone(), short.clone()));
        if length % 8 == 0 {
            calls.push(call("both cut", short, few[..length / 2].to_vec()));
        }
    }
    for more in [&[0][..], &few] {
        let long = [&few, more].concat();
        calls.push(call("bytes behind ours", long.clone(), few.clone()));
        calls.push(call("bytes behind theirs", few.clone(), long.clone()));
        calls.push(call("bytes behind both", long.clone(), long));
    }
    for (slip, what) in SLIPS {
        let file = with_slip(&mut Random::new(30, slip as u64, 0), WithoutSettings, slip);
        if file.len() <= 600 {
            calls.push(call(&format!("ours: {what}"), file.clone(), few.clone()));
            calls.push(call(&format!("theirs: {what}"), few.clone(), file));
        }
    }
    calls
}

/// Every list of up to three records of two crossings against every other. Records of one place are equal.
/// The two are in another order by their low bytes.
fn of_few_records() -> Vec<Call> {
    let mut lists: Vec<Vec<u32>> = Vec::new();
    for length in 0..4 {
        for list in 0..1 << length {
            lists.push((0..length).map(|k| 255 + (list >> k & 1)).collect());
        }
    }
    let file = |list: &Vec<u32>| {
        let records: Vec<Vec<u8>> = (list.iter().zip(1..))
            .map(|(crossing, y)| small(*crossing, y))
            .collect();
        file_of(&records)
    };
    let mut calls = Vec::new();
    for a in &lists {
        for b in &lists {
            calls.push(call(&format!("crossings {a:?} {b:?}"), file(a), file(b)));
        }
    }
    calls
}

/// The k-th of a crossing with the k-th, one of them another, among records of other crossings.
fn of_one_crossing() -> Vec<Call> {
    let mut calls = Vec::new();
    for ours in 1..=4u8 {
        for theirs in 1..=4u8 {
            for other in 0..ours.min(theirs) {
                let a = (0..ours).flat_map(|k| [small(5, k), small(9, 100 + k)]);
                let b = (0..theirs).flat_map(|k| {
                    let y = if k == other { 77 } else { k };
                    [small(1_000 + u32::from(k), 1), small(2, 200), small(5, y)]
                });
                calls.push(call(
                    &format!("{ours} and {theirs} of a crossing, number {other} another"),
                    file_of(&a.collect::<Vec<_>>()),
                    file_of(&b.collect::<Vec<_>>()),
                ));
            }
        }
    }
    calls
}

/// Crossings whose order is another by their signs, by their low bytes and by their high ones.
const CROSSINGS: [u32; 7] = [
    0x8000_0000,
    0xff,
    0,
    0x100,
    0x7fff_ffff,
    u32::MAX,
    0x00ff_0001,
];

/// Records of these crossings, of sizes of their own.
fn seven() -> Vec<Vec<u8>> {
    let sized = |(k, crossing): (u16, u32)| {
        record(crossing, k % 4 + 1, k % 3 + 1, (crossing as u8) ^ k as u8)
    };
    (0..).zip(CROSSINGS).map(sized).collect()
}

/// Two pairs that differ, and which is told.
fn in_order() -> Vec<Call> {
    let mut calls = Vec::new();
    for a in CROSSINGS {
        for b in CROSSINGS {
            if a != b {
                let ours = [small(a, 1), small(b, 2)];
                let theirs = [small(b, 3), small(a, 4)];
                let why = "two crossings, both another";
                calls.push(call(why, file_of(&ours), file_of(&theirs)));
            }
        }
    }
    calls
}

/// Records left out, doubled, in other orders, of another crossing.
fn of_seven() -> Vec<Call> {
    let records = seven();
    let mut calls = Vec::new();
    for k in 0..records.len() {
        let mut others = records.clone();
        others.remove(k);
        calls.extend(both("one left out", &records, &others));
        let mut others = records.clone();
        others.insert(0, records[k].clone());
        calls.extend(both("one doubled, at the start", &records, &others));
        let mut others = records.clone();
        others.rotate_left(k);
        calls.extend(
            both("begun at another", &records, &others)
                .into_iter()
                .take(1),
        );
        let last = records[k].len() - 1;
        others[0] = flipped(&records[k], last);
        calls.extend(both("and its first with a byte another", &records, &others));
        let mut others = records.clone();
        others[k][..4].copy_from_slice(&77u32.to_le_bytes());
        calls.extend(both("of another crossing", &records, &others));
    }
    let reversed: Vec<Vec<u8>> = records.iter().rev().cloned().collect();
    calls.extend(both("the opposite order", &records, &reversed));
    calls
}

fn of_sizes() -> Vec<Call> {
    let mut calls = Vec::new();
    for ((w, h), (other_w, other_h)) in [
        ((3, 2), (2, 3)),
        ((1, 1), (1, 2)),
        ((1, 1), (2, 1)),
        ((1, 2), (2, 1)),
        ((2, 2), (4, 1)),
        ((2, 2), (1, 4)),
        ((16, 1), (1, 16)),
        ((255, 1), (256, 1)),
        ((1, 256), (1, 257)),
        ((1, 1), (257, 1)),
        ((1, 1), (1, 257)),
        ((16, 2), (16, 3)),
        ((7, 3), (8, 3)),
        ((8, 3), (8, 4)),
    ] {
        let why = format!("{w} by {h}, {other_w} by {other_h}");
        let (a, b) = (record(6, w, h, 1), record(6, other_w, other_h, 1));
        calls.extend(both(
            &why,
            std::slice::from_ref(&a),
            std::slice::from_ref(&b),
        ));
        for crossing in [5, 7] {
            let ours = [small(crossing, 1), a.clone()];
            let theirs = [b.clone(), small(crossing, 2)];
            let why = format!("{why}, and a byte of crossing {crossing}");
            calls.push(call(&why, file_of(&ours), file_of(&theirs)));
        }
    }
    calls
}

/// Every byte of frames of each width, another in turn, in theirs and in ours.
fn of_every_byte() -> Vec<Call> {
    let mut calls = Vec::new();
    for w in 1..=WIDEST {
        let one = record(0x1234_5678, w, 3, w as u8);
        for at in 8..one.len() {
            let other = file_of(&[flipped(&one, at)]);
            let one = file_of(std::slice::from_ref(&one));
            let (ours, theirs) = match at % 2 {
                0 => (one, other),
                _ => (other, one),
            };
            calls.push(call(&format!("{w} by 3, byte {at}"), ours, theirs));
        }
    }
    calls
}

/// Two bytes another, at any two of the planes' corners.
fn of_two_bytes() -> Vec<Call> {
    let one = record(3, 9, 4, 0);
    let corners: Vec<usize> = planes_of(WithoutSettings, &one)
        .into_iter()
        .flat_map(|[at, w, h]| [at, at + w - 1, at + w * (h - 1), at + w * h - 1])
        .collect();
    let mut calls = Vec::new();
    for (k, first) in corners.iter().enumerate() {
        for second in &corners[k + 1..] {
            let other = flipped(&flipped(&one, *first), *second);
            let why = format!("bytes {first} and {second} of 9 by 4");
            let ours = file_of(std::slice::from_ref(&one));
            calls.push(call(&why, ours, file_of(&[other])));
        }
    }
    calls
}

/// The last bytes of rows and planes of wider frames; long and thin ones.
fn of_wide_frames() -> Vec<Call> {
    let mut calls = Vec::new();
    for w in [24, 31, 32, 33, 63, 64, 65] {
        let one = record(3, w, 2, 5);
        let [[y, row, _], [u, ..], [v, ..]] = planes_of(WithoutSettings, &one);
        for at in [y + row - 1, u - 1, v - 1, one.len() - 1] {
            let ours = file_of(std::slice::from_ref(&one));
            let theirs = file_of(&[flipped(&one, at)]);
            calls.push(call(&format!("{w} by 2, byte {at}"), ours, theirs));
        }
    }
    for (w, h) in [(16_384, 1), (1, 16_384)] {
        let one = record(3, w, h, 5);
        let [_, [u, ..], _] = planes_of(WithoutSettings, &one);
        let at = if h == 1 { u - 1 } else { one.len() - 1 };
        let ours = file_of(std::slice::from_ref(&one));
        let theirs = file_of(&[flipped(&one, at)]);
        calls.push(call(&format!("{w} by {h}, byte {at}"), ours, theirs));
    }
    calls
}

fn of_many_records() -> Vec<Call> {
    let mut calls = Vec::new();
    for (count, crossings) in [(300, u32::MAX), (1_000, 10), (2_849, 1)] {
        let ours: Vec<Vec<u8>> = (0..count)
            .map(|k: u32| small(k.wrapping_mul(2_654_435_761) % crossings, k as u8))
            .collect();
        let theirs: Vec<Vec<u8>> = ours.iter().rev().cloned().collect();
        let why = format!("{count} records, the opposite order");
        calls.push(call(&why, file_of(&ours), file_of(&theirs)));
    }
    calls
}

/// Those at random that are not long.
fn any() -> Vec<Call> {
    let mut calls = Vec::new();
    type Make = fn(&mut Random) -> Pairing;
    for (kind, make) in [Pairing::changed as Make, Pairing::flipped, Pairing::any]
        .into_iter()
        .enumerate()
    {
        let random = (0..).map(|case| make(&mut Random::new(31, kind as u64, case)));
        let short = |one: &Pairing| one.ours.len() + one.theirs.len() <= 800;
        calls.extend(random.filter(short).take(80).map(|request| Call {
            why: "any".to_string(),
            request,
        }));
    }
    calls
}

/// With settings: a record of these, and the file of such.
fn set_record(crossing: u32, four: [u8; 4], w: u16, h: u16, first: u8) -> Vec<u8> {
    let mut record = crossing.to_le_bytes().to_vec();
    record.extend(w.to_le_bytes());
    record.extend(h.to_le_bytes());
    record.extend(four);
    let length = conditions::record_length(WithSettings, four[0], w.into(), h.into()) as usize;
    record.extend((0..length - 12).map(|i| first.wrapping_add((29 * i) as u8)));
    record
}

fn set_file(records: &[Vec<u8>]) -> Vec<u8> {
    shift::file_of(WithSettings, records)
}

/// RULES 11.8: the records in the form with settings.
fn forward(records: &[Vec<u8>]) -> Vec<Vec<u8>> {
    (records.iter())
        .map(|record| [&record[..8], &conditions::UNSAID, &record[8..]].concat())
        .collect()
}

/// Nothing recorded but the sampling.
const OF_420: [u8; 4] = [0, 255, 255, 255];
const OF_422: [u8; 4] = [1, 255, 255, 255];

/// Files with settings, also against files without.
fn with_settings() -> Vec<Call> {
    let [ours, theirs] = worked();
    let (new_ours, new_theirs) = (forward(&ours), forward(&theirs));
    let mut calls = Vec::new();
    let in_both = |why: &str, a: &[u8], b: &[u8]| {
        [
            call(why, a.to_vec(), b.to_vec()),
            call(why, b.to_vec(), a.to_vec()),
        ]
    };
    let (a, b) = (file_of(&ours), file_of(&theirs));
    let (c, d) = (set_file(&new_ours), set_file(&new_theirs));
    calls.extend(in_both("theirs moved forward", &a, &d));
    calls.extend(in_both("ours moved forward", &c, &b));
    calls.extend(in_both("both moved forward", &c, &d));
    calls.extend(in_both("the same, moved forward", &a, &c));
    let empty = set_file(&[]);
    calls.extend(in_both(
        "no records, one with settings",
        &empty,
        &file_of(&[]),
    ));
    calls.push(call("no records, with settings", empty.clone(), empty));
    // Of one pixel the planes are as long in either sampling.
    let pixels = [
        file_of(&[small(7, 1)]),
        set_file(&forward(&[small(7, 1)])),
        set_file(&[[&small(7, 1)[..8], &OF_422, &[1, 0x60, 0x70]].concat()]),
        set_file(&[[&small(7, 1)[..8], &[1, 0, 6, 3], &[1, 0x60, 0x70]].concat()]),
        set_file(&[[&small(7, 1)[..8], &[0, 1, 1, 1], &[1, 0x60, 0x71]].concat()]),
    ];
    for a in &pixels {
        for b in &pixels {
            calls.push(call(
                "one pixel, in either form and sampling",
                a.clone(),
                b.clone(),
            ));
        }
    }
    for (w, h) in [(2, 2), (1, 2), (2, 1), (3, 3), (5, 4)] {
        let of = |four| set_file(&[set_record(6, four, w, h, 1)]);
        let plain = file_of(&[record(6, w, h, 1)]);
        let why = format!("{w} by {h}, unlike samplings");
        calls.extend(in_both(&why, &of(OF_420), &of(OF_422)));
        calls.extend(in_both(&why, &plain, &of(OF_422)));
        calls.extend(in_both(
            &format!("{w} by {h}, either form"),
            &plain,
            &of(OF_420),
        ));
        let taller = set_file(&[set_record(6, OF_422, w, h + 1, 1)]);
        calls.extend(in_both("sizes and samplings", &of(OF_420), &taller));
        calls.extend(in_both("sizes, both 4:2:2", &of(OF_422), &taller));
    }
    for k in 1..4 {
        for value in [0, 1, 3] {
            let mut four = OF_422;
            four[k] = value;
            let one = set_file(&[set_record(6, OF_422, 3, 2, 1)]);
            let other = set_file(&[set_record(6, four, 3, 2, 1)]);
            calls.extend(in_both("settings that are not compared", &one, &other));
        }
    }
    // Two pairs that differ, one in its sampling.
    for crossing in [5, 7] {
        let ours = [small(crossing, 1), record(6, 2, 2, 1)];
        let theirs = [
            set_record(6, OF_422, 2, 2, 1),
            forward(&[small(crossing, 2)])[0].clone(),
        ];
        let why = format!("a sampling of crossing 6, a byte of crossing {crossing}");
        calls.extend(in_both(&why, &file_of(&ours), &set_file(&theirs)));
    }
    for w in 1..=9 {
        let one = set_record(0x1234_5678, [1, 0, 255, 2], w, 3, w as u8);
        for at in 12..one.len() {
            let (a, b) = (one.clone(), flipped(&one, at));
            let why = format!("{w} by 3 in 4:2:2, byte {at}");
            calls.push(call(&why, set_file(&[a]), set_file(&[b])));
        }
    }
    for w in 1..=6 {
        let one = record(0x1234_5678, w, 3, w as u8);
        let new = forward(std::slice::from_ref(&one));
        for at in 8..one.len() {
            let (a, b) = (file_of(&[flipped(&one, at)]), set_file(&new));
            let why = format!("{w} by 3 in either form, byte {at}");
            calls.push(match at % 2 {
                0 => call(&why, a, b),
                _ => call(&why, b, a),
            });
        }
    }
    let few = set_file(&forward(&[of_three_by_two(0x41)]));
    for length in 0..few.len() {
        let short = few[..length].to_vec();
        calls.push(call("ours with settings, cut", short.clone(), b.clone()));
        calls.push(call("theirs with settings, cut", b.clone(), short));
    }
    for (slip, what) in SETTINGS_SLIPS {
        let file = with_slip(&mut Random::new(32, slip as u64, 0), WithSettings, slip);
        calls.push(call(&format!("ours: {what}"), file.clone(), few.clone()));
        calls.push(call(&format!("theirs: {what}"), few.clone(), file));
    }
    let many: Vec<Vec<u8>> = (0..1_000)
        .map(|k: u32| small(k.wrapping_mul(2_654_435_761) % 100, k as u8))
        .collect();
    let why = "1,000 records in either form";
    calls.extend(in_both(why, &file_of(&many), &set_file(&forward(&many))));
    type Draw = fn(&mut Random) -> Pairing;
    for (kind, draw) in [
        Pairing::mixed as Draw,
        Pairing::flipped_with_settings,
        Pairing::any_mixed,
    ]
    .into_iter()
    .enumerate()
    {
        let random = (0..).map(|case| draw(&mut Random::new(33, kind as u64, case)));
        let short = |one: &Pairing| one.ours.len() + one.theirs.len() <= 800;
        calls.extend(random.filter(short).take(60).map(|request| Call {
            why: "any".to_string(),
            request,
        }));
    }
    calls
}

/// A pairing with its answer, and the line that is printed.
struct Vector {
    call: Call,
    called: Called,
    line: String,
}

fn line((answer, broken, numbers): &Called) -> String {
    let numbers: Vec<String> = numbers.iter().map(u64::to_string).collect();
    let answer = answer_text(answer);
    format!("{answer} broken={broken} report {}", numbers.join(" "))
}

impl Vector {
    /// The model's, compared before.
    fn new(call: Call, converters: &Converters) -> Result<Vector, String> {
        checked(&call.request, converters).map_err(|wrong| format!("{}: {wrong}", call.why))?;
        let Pairing { ours, theirs } = &call.request;
        let mut numbers = [KEPT; 18];
        let (answer, broken) = converters[0].shift_pairs(ours, theirs, &mut numbers);
        let called = (answer, broken, numbers);
        let line = line(&called);
        Ok(Vector { call, called, line })
    }

    /// Width, plane, row and column of the first difference, and whether that is the plane's last byte.
    fn place(&self) -> Option<([u64; 4], bool)> {
        let (answer, _, numbers) = &self.called;
        if answer.is_err() || numbers[4] != 2 {
            return None;
        }
        let (form, records) = conditions::records_of_any(&self.call.request.ours)?;
        let record = records[numbers[6] as usize];
        let [plane, row, column] = [12, 13, 14].map(|k| numbers[k]);
        let [_, w, h] = planes_of(form, record)[plane as usize];
        let last = [row + 1, column + 1] == [h as u64, w as u64];
        Some(([sides_of(record)[0], plane, row, column], last))
    }
}

fn vectors(converters: &Converters) -> Result<Vec<Vector>, String> {
    let calls = [
        of_the_rules(),
        broken(),
        of_few_records(),
        of_one_crossing(),
        in_order(),
        of_seven(),
        of_sizes(),
        of_every_byte(),
        of_two_bytes(),
        of_wide_frames(),
        of_many_records(),
        any(),
        with_settings(),
    ]
    .into_iter()
    .flatten();
    let vectors = calls
        .map(|call| Vector::new(call, converters))
        .collect::<Result<Vec<Vector>, String>>()?;
    complete(&vectors)?;
    Ok(vectors)
}

/// What is told of a pairing, in a word.
fn kind((answer, broken, numbers): &Called) -> &'static str {
    match (answer.is_ok(), broken, numbers[4], numbers[12]) {
        (false, 1, ..) => "ours is none",
        (false, ..) => "theirs is none",
        (_, _, 0, _) => "no difference",
        (_, _, 1, _) if numbers[15] != numbers[16] => "samplings",
        (_, _, 1, _) => "sizes",
        (_, _, _, 0) => "a place in Y",
        (_, _, _, 1) => "in U",
        _ => "in V",
    }
}

const KINDS: [&str; 8] = [
    "no difference",
    "sizes",
    "samplings",
    "a place in Y",
    "in U",
    "in V",
    "ours is none",
    "theirs is none",
];

/// Every answer, in files that can be lent, and a difference in the first byte and in the last of each plane
/// of each width.
fn complete(vectors: &[Vector]) -> Result<(), String> {
    let short = vectors.iter().all(|vector| {
        let Pairing { ours, theirs } = &vector.call.request;
        ours.len().max(theirs.len()) <= LONGEST_FILE
    });
    let kinds: BTreeSet<&str> = vectors.iter().map(|vector| kind(&vector.called)).collect();
    let (mut firsts, mut lasts) = (BTreeSet::new(), BTreeSet::new());
    for ([w, plane, row, column], last) in vectors.iter().filter_map(Vector::place) {
        firsts.extend([(w, plane)].into_iter().filter(|_| (row, column) == (0, 0)));
        lasts.extend([(w, plane)].into_iter().filter(|_| last));
    }
    let every = |told: &BTreeSet<(u64, u64)>| {
        let mut all = (1..=u64::from(WIDEST)).flat_map(|w| [0, 1, 2].map(|plane| (w, plane)));
        all.all(|one| told.contains(&one))
    };
    for (has, what) in [
        (short, "files that the program can lend"),
        (kinds.len() == KINDS.len(), "an answer of a pairing"),
        (every(&firsts), "a difference in the first byte of a plane"),
        (every(&lasts), "a difference in the last byte of a plane"),
    ] {
        if !has {
            return Err(format!("pairings: the list lacks {what}"));
        }
    }
    Ok(())
}

fn stored(vectors: &[Vector]) -> Vec<u8> {
    let mut stored = Stored::default();
    stored.lengths([vectors.len()]);
    for vector in vectors {
        let Pairing { ours, theirs } = &vector.call.request;
        stored.lengths([ours.len(), theirs.len()]);
        stored.block(ours);
        stored.block(theirs);
    }
    stored.0
}

fn expected(vectors: &[Vector]) -> String {
    let mut text = String::new();
    for (vector, place) in vectors.iter().zip(1..) {
        let _ = writeln!(text, "{place} {}", vector.line);
    }
    text
}

/// A line for each pairing, without the bytes.
fn index(vectors: &[Vector], bytes: usize) -> String {
    let mut text = format!(
        "# The pairings of crates/replay_pairs/stdin, made by vectors/make; README.md says how.\n\
         # {bytes} bytes: {}.\n\
         # number | what it is for | the files | number, expected, received, and what is told\n",
        counts(vectors),
    );
    for (vector, place) in vectors.iter().zip(1..) {
        let Call { why, request } = &vector.call;
        let (ours, theirs) = (request.ours.len(), request.theirs.len());
        let _ = writeln!(
            text,
            "{place} | {why} | {ours} bytes, {theirs} bytes | {}",
            vector.line
        );
    }
    text
}

/// How many pairings there are, and how many of them tell each thing.
fn counts(vectors: &[Vector]) -> String {
    let of = |name: &str| {
        let told = |vector: &&Vector| kind(&vector.called) == name;
        format!("{name}: {}", vectors.iter().filter(told).count())
    };
    let told = KINDS.map(of);
    let (accepted, refused) = told.split_at(6);
    let all = vectors.len();
    let refusals = (vectors.iter()).filter(|vector| vector.called.0.is_err());
    let refusals = refusals.count();
    format!(
        "{all} pairings: {} accepted ({}), {refusals} refused with 15 ({})",
        all - refusals,
        accepted.join(", "),
        refused.join(", "),
    )
}

fn files(vectors: &[Vector]) -> [(&'static str, Vec<u8>); 3] {
    let stored = stored(vectors);
    let index = index(vectors, stored.len());
    [
        ("vectors/pairs.txt", index.into_bytes()),
        ("crates/replay_pairs/stdout", expected(vectors).into_bytes()),
        ("crates/replay_pairs/stdin", stored),
    ]
}

pub fn write(root: &Path, converters: &Converters) -> Result<String, String> {
    let vectors = vectors(converters)?;
    for (file, bytes) in files(&vectors) {
        std::fs::write(root.join(file), bytes).map_err(|error| format!("{file}: {error}"))?;
    }
    Ok(format!("{} pairings written", vectors.len()))
}

/// The list's line in the README.
fn readme_line(vectors: &[Vector]) -> String {
    let counts = counts(vectors);
    format!("| `crates/replay_pairs/stdin` | {counts} | `replay_pairs` | `pairs.txt` |")
}

/// Whether the files are those that `write` writes, and the README counts them so and has the table of
/// the mistakes.
pub fn check(root: &Path, converters: &Converters) -> Result<String, String> {
    let vectors = vectors(converters)?;
    let read =
        |file: &str| std::fs::read(root.join(file)).map_err(|error| format!("{file}: {error}"));
    for (file, bytes) in files(&vectors) {
        equal_bytes("what is made", file, &read(file)?, &bytes)?;
    }
    let readme = "vectors/README.md";
    let text = String::from_utf8_lossy(&read(readme)?).into_owned();
    let mut lines = mistake_lines(&vectors)?;
    lines.push(readme_line(&vectors));
    for line in lines {
        if !text.lines().any(|other| other == line) {
            return Err(format!("{readme} lacks the line: {line}"));
        }
    }
    Ok(format!("{} pairings, as made", vectors.len()))
}

/// Which pairing catches each mistake first, and how many do; and the list's line.
pub fn report(converters: &Converters) -> Result<String, String> {
    let vectors = vectors(converters)?;
    let mut lines = mistake_lines(&vectors)?;
    lines.push(readme_line(&vectors));
    Ok(lines.join("\n"))
}

/// A mistake near at hand in a pairing.
#[derive(Clone, Copy, PartialEq)]
enum Mistake {
    NoMistake,
    PairsByPlace,
    FirstOfItsCrossing,
    LastWithLast,
    CrossingsOf16Bits,
    SignedCrossings,
    CrossingsByBytes,
    InTheOrderOfOurs,
    InTheOrderOfTheirs,
    LaterOffsetsFirst,
    LastDifferingPair,
    UnequalSizesNoPair,
    LowBytesOfSizes,
    LengthsForSizes,
    HeightsNotCompared,
    SizesAsAPlace,
    SizesExchanged,
    HeightBeforeWidth,
    SizesWithAPlace,
    LastByteForgotten,
    LastByteOfAnOddRow,
    LastRowForgotten,
    FirstRowAlone,
    VNotCompared,
    LumaAlone,
    VBeforeU,
    UAndVExchanged,
    ChromaWidthDown,
    ChromaHeightDown,
    LastUnequalByte,
    ColumnsBeforeRows,
    LastEqualRow,
    RowsFromOne,
    ColumnsFromOne,
    RowAndColumnExchanged,
    PlaneAsOneRow,
    ChromaInPixels,
    LeftoversCountedTwice,
    OnlyOfOtherCrossings,
    LeftoversExchanged,
    PlacesFromOne,
    PlacesExchanged,
    PlacesInTheOrder,
    LastNumberKept,
    NoneKeepsTheNumbers,
    TheirsAskedFirst,
    OtherFileTold,
    BrokenFileNotTold,
    TheirsNotAsked,
    NoRecordsRefused,
    RefusedCleared,
    TailForgotten,
    TailOfSevenForgotten,
    LastWordForgotten,
    LowHalvesOfWords,
    StartOfTheWord,
    SettingsRefused,
    UnlikeFormsRefused,
    FormsCompared,
    SettingsCompared,
    SamplingsNotCompared,
    SamplingsNotTold,
    SamplingsExchanged,
    SamplingsWithAPlace,
    RowsOf420,
    SettingsAsPlaneBytes,
}

use Mistake::*;

const MISTAKES: [(Mistake, &str); 65] = [
    (
        PairsByPlace,
        "pairs by file order, whatever their crossings",
    ),
    (
        FirstOfItsCrossing,
        "each record with the first of its crossing",
    ),
    (LastWithLast, "the last of a crossing with the last"),
    (CrossingsOf16Bits, "crossings of 16 bits"),
    (SignedCrossings, "crossings compared with a sign"),
    (CrossingsByBytes, "crossings compared low byte first"),
    (InTheOrderOfOurs, "the first pair by its place in ours"),
    (InTheOrderOfTheirs, "the first pair by its place in theirs"),
    (
        LaterOffsetsFirst,
        "pairs of one crossing by descending offset",
    ),
    (LastDifferingPair, "the last pair that differs is told"),
    (
        UnequalSizesNoPair,
        "records of unequal sizes are left over, not a pair",
    ),
    (LowBytesOfSizes, "sizes compared by their low bytes"),
    (LengthsForSizes, "lengths of records compared for sizes"),
    (HeightsNotCompared, "heights are not compared"),
    (SizesAsAPlace, "a difference of size told as a place"),
    (SizesExchanged, "the sizes of theirs told first"),
    (HeightBeforeWidth, "heights told before widths"),
    (SizesWithAPlace, "sizes told beside a place"),
    (
        LastByteForgotten,
        "the last byte of a plane is not compared",
    ),
    (
        LastByteOfAnOddRow,
        "the last byte of an odd row is not compared",
    ),
    (LastRowForgotten, "the last row is not compared"),
    (FirstRowAlone, "no row after the first is compared"),
    (VNotCompared, "V is not compared"),
    (LumaAlone, "Y alone is compared"),
    (VBeforeU, "V compared before U"),
    (UAndVExchanged, "U told as V and V as U"),
    (ChromaWidthDown, "half of an odd width rounded down"),
    (ChromaHeightDown, "half of an odd height rounded down"),
    (LastUnequalByte, "the last unequal byte is told"),
    (ColumnsBeforeRows, "planes compared column by column"),
    (LastEqualRow, "the place of the last equal row"),
    (RowsFromOne, "rows from 1"),
    (ColumnsFromOne, "columns from 1"),
    (RowAndColumnExchanged, "row and column exchanged"),
    (PlaneAsOneRow, "a plane taken as one row"),
    (ChromaInPixels, "rows and columns of chroma in pixels"),
    (
        LeftoversCountedTwice,
        "leftovers counted twice: records of pairs that differ too",
    ),
    (
        OnlyOfOtherCrossings,
        "leftovers only of crossings that the other file has not",
    ),
    (
        LeftoversExchanged,
        "only in ours and only in theirs exchanged",
    ),
    (PlacesFromOne, "records counted from 1"),
    (PlacesExchanged, "the record of theirs told before ours"),
    (
        PlacesInTheOrder,
        "the records' places in the order of crossings",
    ),
    (LastNumberKept, "the last number is not written"),
    (
        NoneKeepsTheNumbers,
        "without a difference no number of it is written",
    ),
    (TheirsAskedFirst, "15 of theirs before 15 of ours"),
    (OtherFileTold, "theirs told for ours, ours for theirs"),
    (BrokenFileNotTold, "the file that is none is not told"),
    (TheirsNotAsked, "15 is not asked of theirs"),
    (NoRecordsRefused, "a file without records is none"),
    (RefusedCleared, "a refused call clears the numbers"),
    (
        TailForgotten,
        "the bytes behind a row's last word are not compared",
    ),
    (TailOfSevenForgotten, "a tail of seven bytes is skipped"),
    (
        LastWordForgotten,
        "the last word of a row without a tail is not compared",
    ),
    (LowHalvesOfWords, "the low halves of words are compared"),
    (StartOfTheWord, "the first column of the word is told"),
    (SettingsRefused, "a file with settings is none"),
    (UnlikeFormsRefused, "files of unlike forms are refused"),
    (FormsCompared, "records of unlike forms are unequal"),
    (
        SettingsCompared,
        "ranges, matrices and transfers are compared",
    ),
    (SamplingsNotCompared, "samplings are not compared"),
    (SamplingsNotTold, "samplings are not told"),
    (SamplingsExchanged, "the sampling of theirs told first"),
    (SamplingsWithAPlace, "samplings told beside a place"),
    (RowsOf420, "half the chroma rows of 4:2:2"),
    (
        SettingsAsPlaneBytes,
        "the four bytes of settings compared as Y",
    ),
];

/// A third count of the report, with one mistake. Without one it gives what is expected.
struct Mistaken(Mistake);

const BROKEN: Answer = Err(Refusal {
    number: 15,
    expected: 0,
    received: 0,
});

/// The bytes of a record, and its form.
type Record<'a> = (ShiftForm, &'a [u8]);

fn settings_of((form, record): Record) -> [u8; 4] {
    conditions::settings_of(form, record)
}

/// Width, height and sampling.
fn size_of(record: Record) -> [u64; 3] {
    let [w, h] = sides_of(record.1);
    [w, h, u64::from(settings_of(record)[0])]
}

/// A byte that differs: plane, row, column; and the width of the rows there.
type Unequal = ([u64; 3], u64);

impl Mistaken {
    fn crossing(&self, (_, record): Record) -> u32 {
        match self.0 {
            PairsByPlace => 0,
            CrossingsOf16Bits => crossing_of(record) & 0xffff,
            _ => crossing_of(record),
        }
    }

    /// What crossings are ordered by.
    fn key(&self, record: Record) -> i64 {
        let crossing = self.crossing(record);
        match self.0 {
            SignedCrossings => i64::from(crossing as i32),
            CrossingsByBytes => i64::from(crossing.swap_bytes()),
            _ => i64::from(crossing),
        }
    }

    /// The places of each crossing's records.
    fn places(&self, records: &[Record]) -> BTreeMap<u32, Vec<usize>> {
        let mut places: BTreeMap<u32, Vec<usize>> = BTreeMap::new();
        for (place, record) in records.iter().enumerate() {
            places
                .entry(self.crossing(*record))
                .or_default()
                .push(place);
        }
        places
    }

    /// By the places of their records, in their order.
    fn pairs(&self, ours: &[Record], theirs: &[Record]) -> Vec<(usize, usize)> {
        let partners = self.places(theirs);
        let mut pairs = Vec::new();
        for (crossing, a) in self.places(ours) {
            let Some(b) = partners.get(&crossing) else {
                continue;
            };
            let both = a.len().min(b.len());
            match self.0 {
                FirstOfItsCrossing => pairs.extend(a.into_iter().map(|i| (i, b[0]))),
                LastWithLast => pairs.extend(
                    (a[a.len() - both..].iter().copied()).zip(b[b.len() - both..].iter().copied()),
                ),
                _ => pairs.extend(a.into_iter().zip(b.iter().copied())),
            }
        }
        pairs.retain(|(i, j)| {
            self.0 != UnequalSizesNoPair || size_of(ours[*i]) == size_of(theirs[*j])
        });
        match self.0 {
            InTheOrderOfOurs => pairs.sort_by_key(|(i, _)| *i),
            InTheOrderOfTheirs => pairs.sort_by_key(|(_, j)| *j),
            LaterOffsetsFirst => pairs.sort_by_key(|(i, _)| (self.key(ours[*i]), Reverse(*i))),
            _ => pairs.sort_by_key(|(i, _)| (self.key(ours[*i]), *i)),
        }
        pairs
    }

    /// Whether this byte of a plane of w by h is looked at.
    fn is_seen(&self, [row, column]: [u64; 2], [w, h]: [u64; 2]) -> bool {
        match self.0 {
            LastByteForgotten => [row + 1, column + 1] != [h, w],
            LastByteOfAnOddRow => w % 2 == 0 || column + 1 != w,
            LastRowForgotten => row + 1 != h,
            FirstRowAlone => row == 0,
            TailForgotten => column < w / 8 * 8,
            TailOfSevenForgotten => w % 8 != 7 || column < w / 8 * 8,
            LastWordForgotten => w % 8 != 0 || column + 8 < w,
            LowHalvesOfWords => column >= w / 8 * 8 || column % 8 < 4,
            _ => true,
        }
    }

    /// Every unequal byte that is seen, in order.
    fn unequal(&self, (form, a): Record, (other, b): Record) -> Vec<Unequal> {
        let [w, h, sampling] = size_of((form, a));
        let half = match self.0 {
            ChromaWidthDown => w / 2,
            _ => w.div_ceil(2),
        };
        let rows = match (self.0, sampling) {
            (ChromaHeightDown, 0) => h / 2,
            (RowsOf420, _) | (_, 0) => h.div_ceil(2),
            _ => h,
        };
        let header = |form| match self.0 {
            SettingsAsPlaneBytes => 8,
            _ => conditions::header(form),
        };
        let (a, b) = (&a[header(form)..], &b[header(other)..]);
        let u = w * h;
        let mut planes = vec![
            (0, 0, [w, h]),
            (1, u, [half, rows]),
            (2, u + half * rows, [half, rows]),
        ];
        match self.0 {
            VNotCompared => planes.truncate(2),
            LumaAlone => planes.truncate(1),
            VBeforeU => planes.swap(1, 2),
            UAndVExchanged => (planes[1].0, planes[2].0) = (2, 1),
            _ => {}
        }
        let mut all = Vec::new();
        for (plane, start, [w, h]) in planes {
            for row in 0..h {
                for column in 0..w {
                    let at = (start + row * w + column) as usize;
                    if a.get(at) != b.get(at) && self.is_seen([row, column], [w, h]) {
                        all.push(([plane, row, column], w));
                    }
                }
            }
        }
        all
    }

    fn place(&self, ([plane, row, column], w): Unequal) -> [u64; 3] {
        match self.0 {
            LastEqualRow => [plane, row.saturating_sub(1), column],
            RowsFromOne => [plane, row + 1, column],
            ColumnsFromOne => [plane, row, column + 1],
            RowAndColumnExchanged => [plane, column, row],
            PlaneAsOneRow => [plane, 0, row * w + column],
            ChromaInPixels if plane > 0 => [plane, 2 * row, 2 * column],
            StartOfTheWord => [plane, row, column / 8 * 8],
            _ => [plane, row, column],
        }
    }

    /// Kind, the four sizes, the place, the samplings.
    fn difference(&self, a: Record, b: Record) -> Option<[u64; 10]> {
        let [ours, theirs] = [a, b].map(size_of);
        let planes = |(form, record): Record| record.len() - conditions::header(form);
        let unequal = match self.0 {
            LowBytesOfSizes => ours.map(|side| side & 255) != theirs.map(|side| side & 255),
            LengthsForSizes => planes(a) != planes(b),
            HeightsNotCompared => (ours[0], ours[2]) != (theirs[0], theirs[2]),
            SamplingsNotCompared => ours[..2] != theirs[..2],
            SettingsCompared => ours != theirs || settings_of(a) != settings_of(b),
            FormsCompared => ours != theirs || a.0 != b.0,
            _ => ours != theirs,
        };
        let [[w, h, s], [other_w, other_h, other_s]] = [ours, theirs];
        if unequal {
            return Some(match self.0 {
                SizesAsAPlace => [2, 0, 0, 0, 0, 0, 0, 0, 0, 0],
                SizesExchanged => [1, other_w, other_h, w, h, 0, 0, 0, s, other_s],
                HeightBeforeWidth => [1, h, w, other_h, other_w, 0, 0, 0, s, other_s],
                SamplingsExchanged => [1, w, h, other_w, other_h, 0, 0, 0, other_s, s],
                SamplingsNotTold => [1, w, h, other_w, other_h, 0, 0, 0, 0, 0],
                _ => [1, w, h, other_w, other_h, 0, 0, 0, s, other_s],
            });
        }
        let all = self.unequal(a, b);
        let one = match self.0 {
            LastUnequalByte => all.last(),
            ColumnsBeforeRows => all
                .iter()
                .min_by_key(|([plane, row, column], _)| (*plane, *column, *row)),
            _ => all.first(),
        };
        let [plane, row, column] = self.place(*one?);
        Some(match self.0 {
            SizesWithAPlace => [2, w, h, w, h, plane, row, column, 0, 0],
            SamplingsWithAPlace => [2, 0, 0, 0, 0, plane, row, column, s, other_s],
            _ => [2, 0, 0, 0, 0, plane, row, column, 0, 0],
        })
    }

    /// The place of a record, as it is told.
    fn told(&self, records: &[Record], place: usize) -> u64 {
        match self.0 {
            PlacesFromOne => place as u64 + 1,
            PlacesInTheOrder => {
                let key = (self.key(records[place]), place);
                let before = |k: &usize| (self.key(records[*k]), *k) < key;
                (0..records.len()).filter(before).count() as u64
            }
            _ => place as u64,
        }
    }

    fn report(&self, ours: &[Record], theirs: &[Record]) -> [u64; 18] {
        let pairs = self.pairs(ours, theirs);
        let differing: Vec<(usize, usize, [u64; 10])> = (pairs.iter())
            .filter_map(|&(i, j)| Some((i, j, self.difference(ours[i], theirs[j])?)))
            .collect();
        let taken = |places: BTreeSet<usize>| match self.0 {
            LeftoversCountedTwice => places.len() - differing.len(),
            _ => places.len(),
        };
        let mut left = [
            ours.len() - taken(pairs.iter().map(|(i, _)| *i).collect()),
            theirs.len() - taken(pairs.iter().map(|(_, j)| *j).collect()),
        ];
        match self.0 {
            LeftoversExchanged => left.reverse(),
            OnlyOfOtherCrossings => {
                let [a, b] = [self.places(ours), self.places(theirs)];
                let without = |records: &[Record], others: &BTreeMap<u32, Vec<usize>>| {
                    let alone = |one: &&Record| !others.contains_key(&self.crossing(**one));
                    records.iter().filter(alone).count()
                };
                left = [without(ours, &b), without(theirs, &a)];
            }
            _ => {}
        }
        let mut numbers = [0; 18];
        let equal = pairs.len() - differing.len();
        let counts = [equal, differing.len(), left[0], left[1]];
        numbers[..4].copy_from_slice(&counts.map(|count| count as u64));
        let one = match self.0 {
            LastDifferingPair => differing.last(),
            _ => differing.first(),
        };
        if let Some((i, j, difference)) = one {
            numbers[4] = difference[0];
            numbers[5] = u64::from(crossing_of(ours[*i].1));
            numbers[6] = self.told(ours, *i);
            numbers[7] = self.told(theirs, *j);
            if self.0 == PlacesExchanged {
                numbers.swap(6, 7);
            }
            numbers[8..17].copy_from_slice(&difference[1..]);
        } else if self.0 == NoneKeepsTheNumbers {
            numbers[5..15].fill(KEPT);
        }
        if self.0 == LastNumberKept {
            numbers[17] = KEPT;
        }
        numbers
    }

    fn answer(&self, pairing: &Pairing) -> Called {
        let [ours, theirs] = [&pairing.ours, &pairing.theirs].map(|file| {
            let (form, records) = conditions::records_of_any(file)?;
            let taken = match self.0 {
                NoRecordsRefused => !records.is_empty(),
                SettingsRefused => form == WithoutSettings,
                _ => true,
            };
            let records = records.into_iter().map(|record| (form, record));
            taken.then(|| records.collect::<Vec<Record>>())
        });
        let [form, other] = [&pairing.ours, &pairing.theirs].map(|file| conditions::form_of(file));
        let theirs = theirs.filter(|_| self.0 != UnlikeFormsRefused || form == other);
        let broken = |which: u64| {
            let told = match self.0 {
                OtherFileTold => 3 - which,
                BrokenFileNotTold => 0,
                _ => which,
            };
            let kept = if self.0 == RefusedCleared { 0 } else { KEPT };
            (BROKEN, told, [kept; 18])
        };
        match (ours, theirs) {
            (_, None) if self.0 == TheirsAskedFirst => broken(2),
            (None, _) => broken(1),
            (Some(ours), None) if self.0 == TheirsNotAsked => (Ok(()), 0, self.report(&ours, &[])),
            (_, None) => broken(2),
            (Some(ours), Some(theirs)) => (Ok(()), 0, self.report(&ours, &theirs)),
        }
    }
}

/// The first pairing that catches each mistake, and how many do.
fn mistake_lines(vectors: &[Vector]) -> Result<Vec<String>, String> {
    let catching = |mistake: Mistake| {
        let mistaken = Mistaken(mistake);
        let differs = |(vector, _): &(&Vector, usize)| {
            line(&mistaken.answer(&vector.call.request)) != vector.line
        };
        let catching: Vec<usize> = (vectors.iter().zip(1..))
            .filter(differs)
            .map(|(_, place)| place)
            .collect();
        catching
    };
    if let [place, ..] = catching(NoMistake)[..] {
        let line = line(&Mistaken(NoMistake).answer(&vectors[place - 1].call.request));
        return Err(format!("pairing {place}, without a mistake: {line}"));
    }
    MISTAKES
        .into_iter()
        .map(|(mistake, what)| {
            let catching = catching(mistake);
            match catching[..] {
                [first, ..] => Ok(format!("| {what} | {first} | {} |", catching.len())),
                [] => Err(format!("no pairing catches: {what}")),
            }
        })
        .collect()
}
