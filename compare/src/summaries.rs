//! The stored list of calls on summaries, which the crate replay_summary replays with no Rust at hand: its
//! calls, what is answered, and its files. The expectations are the model's, held first to the list of
//! conditions and to the entries of the records (`summary.rs`).
//!
//! The list is the number of calls, and these, one behind the other. Numbers have four bytes, low byte
//! first, and buffers are stored as in the other lists (`stored.rs`). A call:
//!
//! - building: 0; the lengths of the file and of the buffer for the summary; the file, the buffer before
//!   the call.
//! - a check: 1; the same.
//! - a lookup: 2; the lengths of the file and of the buffer; the crossing; the file, the buffer.
//! - an update: 3; the lengths of the file, of the record and of the buffer; the file, the record, the
//!   buffer before the call.
//!
//! No buffer is longer than 65,536 bytes, so no file has more than 2,849 records. What is printed of a call
//! is a line: its place in the list from 1 on; number, expected and received; then of a building or an
//! update the digest of the buffer, of a check yes as 1 or 0, of a lookup whether a record was found and
//! its number.
//!
//!     1 0 0 0 summary=89abcdef
//!     2 0 0 0 yes=1
//!     3 0 0 0 found=1 record=2
//!

use crate::check::{Converters, checked, equal_bytes};
use crate::conditions;
use crate::random::Random;
use crate::request::answer_text;
use crate::shift::ShiftForm;
use crate::stored::{Stored, digest};
use crate::summary::{
    Ask, DAMAGES, ENTRY, Summing, ascending, crossing_of, damaged, entries_of, offset_of,
    records_of, set_offset,
};
use ShiftForm::*;
use model::{Answer, Refusal};
use std::cmp::Ordering;
use std::collections::{BTreeMap, BTreeSet};
use std::fmt::Write;
use std::path::Path;

/// The longest buffer that the replaying program can lend.
const LONGEST_BUFFER: usize = 65_536;

struct Call {
    why: String,
    request: Summing,
}

fn record(crossing: u32, w: u16, h: u16, luma: &[u8]) -> Vec<u8> {
    let mut record = crossing.to_le_bytes().to_vec();
    record.extend(w.to_le_bytes());
    record.extend(h.to_le_bytes());
    record.extend(luma.iter().cycle().take(usize::from(w) * usize::from(h)));
    let chroma = usize::from(w).div_ceil(2) * usize::from(h).div_ceil(2);
    record.extend([0x60].repeat(chroma));
    record.extend([0x70].repeat(chroma));
    record
}

/// RULES 12.1: three records, of two crossings.
fn worked() -> Vec<Vec<u8>> {
    vec![
        record(70_000, 1, 1, &[0x50]),
        record(1_400, 3, 2, &[0x10, 0x11, 0x12, 0x20, 0x21, 0x22]),
        record(70_000, 2, 1, &[0x80, 0x83]),
    ]
}

/// Crossings whose order is another by their signs, by their low bytes and by their high ones.
fn unequal() -> Vec<Vec<u8>> {
    let crossings = [
        0x8000_0000,
        0xff,
        0,
        0x100,
        0x7fff_ffff,
        u32::MAX,
        0x00ff_0001,
    ];
    let record = |(k, crossing): (u16, u32)| {
        let luma: Vec<u8> = (0..7)
            .map(|i| (crossing as u8).wrapping_add(37 * i))
            .collect();
        record(crossing, k % 4 + 1, k % 3 + 1, &luma)
    };
    (0..).zip(crossings).map(record).collect()
}

fn lent(records: &[Vec<u8>]) -> Vec<&[u8]> {
    records.iter().map(Vec::as_slice).collect()
}

fn file_of(records: &[Vec<u8>]) -> Vec<u8> {
    conditions::file_of(WithoutSettings, &lent(records))
}

fn summary_of(records: &[Vec<u8>]) -> Vec<u8> {
    ascending(&entries_of(WithoutSettings, &lent(records))).concat()
}

/// A call on the file of these records.
fn call(why: &str, file: Vec<u8>, buffer: Vec<u8>, ask: Ask) -> Call {
    Call {
        why: why.to_string(),
        request: Summing { file, buffer, ask },
    }
}

fn and(buffer: &[u8], more: usize) -> Vec<u8> {
    [buffer, &vec![0xee; more]].concat()
}

fn buildings() -> Vec<Call> {
    let mut calls = Vec::new();
    let (unequal, few) = (unequal(), worked()[..2].to_vec());
    let size = ENTRY * unequal.len();
    for length in [size, size + 1, size - 1, size - ENTRY, size + ENTRY, 0] {
        calls.push(call(
            "seven crossings",
            file_of(&unequal),
            vec![0xee; length],
            Ask::Build,
        ));
    }
    for length in 0..2 * ENTRY + 3 {
        calls.push(call(
            "two records",
            file_of(&few),
            vec![0xee; length],
            Ask::Build,
        ));
    }
    for length in [0, 5] {
        calls.push(call(
            "no records",
            file_of(&[]),
            vec![0xee; length],
            Ask::Build,
        ));
    }
    let file = file_of(&few);
    for length in (0..file.len()).step_by(3).chain([file.len() - 1]) {
        for room in [0, 2 * ENTRY] {
            calls.push(call(
                "a cut file",
                file[..length].to_vec(),
                vec![0xee; room],
                Ask::Build,
            ));
        }
    }
    // Means around whole numbers, and sums that pass 16 bits.
    for sum in [0, 1, 4, 5, 6, 509, 510, 511, 1_019, 1_020, 1_274, 1_275] {
        let luma: Vec<u8> = (0..5)
            .map(|i| (sum / 5 + i32::from(i < sum % 5)) as u8)
            .collect();
        let file = file_of(&[record(9, 5, 1, &luma)]);
        calls.push(call(
            &format!("a sum of {sum} in five bytes"),
            file,
            vec![0xee; ENTRY],
            Ask::Build,
        ));
    }
    for (w, h, luma) in [
        (100, 100, 255),
        (100, 100, 254),
        (16_384, 1, 255),
        (1, 16_384, 3),
        (200, 200, 128),
    ] {
        let file = file_of(&[record(9, w, h, &[luma])]);
        calls.push(call(
            "a plane of one value",
            file,
            vec![0xee; ENTRY],
            Ask::Build,
        ));
    }
    for count in [64, 1_000, 2_849] {
        let records: Vec<Vec<u8>> = (0..count)
            .map(|k: u32| record(k.wrapping_mul(2_654_435_761), 1, 1, &[k as u8]))
            .collect();
        let room = vec![0xee; ENTRY * records.len()];
        calls.push(call(
            &format!("{count} records"),
            file_of(&records),
            room,
            Ask::Build,
        ));
    }
    calls
}

/// A check of this buffer, and a lookup and an update that run it first.
fn three(why: &str, records: &[Vec<u8>], buffer: Vec<u8>) -> Vec<Call> {
    let (file, first) = (file_of(records), crossing_of(&records[0]));
    let new = record(0x1234_5678, 2, 2, &[9, 8, 7]);
    let update = and(&buffer, ENTRY);
    vec![
        call(why, file.clone(), buffer.clone(), Ask::Check),
        call(why, file.clone(), buffer, Ask::Find(first)),
        call(why, file, update, Ask::Update(new)),
    ]
}

fn checks() -> Vec<Call> {
    let mut calls = Vec::new();
    let (worked, unequal) = (worked(), unequal());
    let entries = entries_of(WithoutSettings, &lent(&worked));
    // Every list of three of its entries.
    for list in 0..27 {
        let list = [list % 3, list / 3 % 3, list / 9];
        let bytes = list.map(|k| entries[k]).concat();
        let why = format!("entries {} {} {}", list[0], list[1], list[2]);
        calls.extend(three(&why, &worked, bytes).into_iter().take(2));
    }
    let (file, good) = (file_of(&unequal), summary_of(&unequal));
    for length in [0, 1, ENTRY, good.len() - ENTRY, good.len() - 1] {
        calls.push(call(
            "a short summary",
            file.clone(),
            good[..length].to_vec(),
            Ask::Check,
        ));
        calls.push(call(
            "a short summary",
            file.clone(),
            good[..length].to_vec(),
            Ask::Find(0xff),
        ));
    }
    for more in [1, 12, 13, 14] {
        calls.push(call(
            "bytes behind",
            file.clone(),
            and(&good, more),
            Ask::Check,
        ));
        calls.push(call(
            "bytes behind",
            file.clone(),
            and(&good, more),
            Ask::Find(0xff),
        ));
    }
    for (place, (damage, what)) in DAMAGES.into_iter().enumerate() {
        for turn in 0..2 {
            let random = &mut Random::new(24, place as u64, turn);
            let entries = ascending(&entries_of(WithoutSettings, &lent(&unequal)));
            let bytes = damaged(random, damage, WithoutSettings, &lent(&unequal), &entries);
            let which = if turn == 0 { 3 } else { 1 };
            calls.extend(three(what, &unequal, bytes).into_iter().take(which));
        }
    }
    let few = &worked[..2];
    for at in 0..2 * ENTRY {
        for bit in 0..8 {
            let mut bytes = summary_of(few);
            bytes[at] ^= 1 << bit;
            calls.push(call("a bit", file_of(few), bytes, Ask::Check));
        }
    }
    for length in [0, 3, 5, 27, file.len() - 1] {
        for buffer in [vec![], good.clone()] {
            calls.push(call(
                "a cut file",
                file[..length].to_vec(),
                buffer.clone(),
                Ask::Check,
            ));
            calls.push(call(
                "a cut file",
                file[..length].to_vec(),
                buffer,
                Ask::Find(0xff),
            ));
        }
    }
    calls.push(call("no records", file_of(&[]), vec![], Ask::Check));
    calls.push(call("no records", file_of(&[]), vec![0xee; 13], Ask::Check));
    calls
}

fn lookups() -> Vec<Call> {
    let mut calls = Vec::new();
    let unequal = unequal();
    for one in &unequal {
        let crossing = crossing_of(one);
        for crossing in [crossing, crossing.wrapping_add(1), crossing ^ 0x8000_0000] {
            let (file, buffer) = (file_of(&unequal), summary_of(&unequal));
            calls.push(call("seven crossings", file, buffer, Ask::Find(crossing)));
        }
    }
    for crossing in [70_000, 1_400, 0, u32::MAX] {
        let (file, buffer) = (file_of(&worked()), and(&summary_of(&worked()), 5));
        calls.push(call("one of them twice", file, buffer, Ask::Find(crossing)));
    }
    let many: Vec<Vec<u8>> = (0..1_000)
        .map(|k| record(k % 10, 1, 1, &[k as u8]))
        .collect();
    for crossing in [0, 5, 9, 10] {
        let (file, buffer) = (file_of(&many), summary_of(&many));
        calls.push(call(
            "1,000 records of ten crossings",
            file,
            buffer,
            Ask::Find(crossing),
        ));
    }
    calls.push(call("no records", file_of(&[]), vec![], Ask::Find(0)));
    calls
}

fn updates() -> Vec<Call> {
    let mut calls = Vec::new();
    let unequal = unequal();
    let (file, good) = (file_of(&unequal), summary_of(&unequal));
    // Before all, between, behind all.
    for crossing in [1, 0xfe, 0x101, 0x7fff_fffe, 0x8000_0001, 0xffff_fffe] {
        let new = record(crossing, 5, 3, &[1, 2, 250]);
        calls.push(call(
            "a place for it",
            file.clone(),
            and(&good, ENTRY),
            Ask::Update(new),
        ));
    }
    let new = record(0x55, 2, 2, &[254, 255]);
    for more in [0, 1, 12, 13, 14, 26, 40] {
        let buffer = and(&good, more);
        calls.push(call("room", file.clone(), buffer, Ask::Update(new.clone())));
    }
    for length in [0, 1, good.len() - 1] {
        let buffer = good[..length].to_vec();
        calls.push(call(
            "a short summary",
            file.clone(),
            buffer,
            Ask::Update(new.clone()),
        ));
    }
    for length in 0..new.len() {
        let buffer = and(&good, ENTRY);
        calls.push(call(
            "a cut record",
            file.clone(),
            buffer,
            Ask::Update(new[..length].to_vec()),
        ));
    }
    let two = [&new[..], &unequal[0]].concat();
    let longer = and(&new, 1);
    for (why, bytes) in [
        ("two records", two),
        ("a byte behind a record", longer),
        ("a file for a record", file.clone()),
    ] {
        for buffer in [and(&good, 2 * ENTRY), vec![]] {
            calls.push(call(why, file.clone(), buffer, Ask::Update(bytes.clone())));
        }
    }
    for (at, side) in [(4, 0u16), (4, 16_385), (6, 0), (6, 16_385)] {
        let mut bytes = new.clone();
        bytes[at..at + 2].copy_from_slice(&side.to_le_bytes());
        calls.push(call(
            "a side",
            file.clone(),
            and(&good, ENTRY),
            Ask::Update(bytes),
        ));
    }
    for length in [0, 3, 30, file.len() - 1] {
        let cut = file[..length].to_vec();
        calls.push(call(
            "a cut file",
            cut.clone(),
            and(&good, ENTRY),
            Ask::Update(new.clone()),
        ));
        calls.push(call("a cut file", cut, vec![], Ask::Update(new.clone())));
    }
    for room in [12, 13, 20] {
        calls.push(call(
            "no records",
            file_of(&[]),
            vec![0xee; room],
            Ask::Update(new.clone()),
        ));
    }
    let other = summary_of(&unequal[1..]);
    calls.push(call(
        "the summary of other records",
        file.clone(),
        and(&other, 40),
        Ask::Update(new.clone()),
    ));
    calls
}

/// Those at random that are small and have no crossing twice, but for checks and lookups.
fn any() -> Vec<Call> {
    let mut calls = Vec::new();
    type Make = fn(&mut Random) -> Summing;
    for (kind, make) in [
        Summing::build as Make,
        Summing::check,
        Summing::find,
        Summing::update,
    ]
    .into_iter()
    .enumerate()
    {
        let random = (0..).map(|case| make(&mut Random::new(25, kind as u64, case)));
        let small =
            |one: &Summing| one.file.len() + one.buffer.len() <= 500 && !has_equal_crossings(one);
        calls.extend(random.filter(small).take(80).map(|request| Call {
            why: "any".to_string(),
            request,
        }));
    }
    calls
}

/// Whether records have the same crossing in a file whose summary is written.
fn has_equal_crossings(one: &Summing) -> bool {
    let form = conditions::form_of(&one.file);
    let mut records = records_of(&one.file);
    match &one.ask {
        Ask::Check | Ask::Find(_) => return false,
        Ask::Update(record) => {
            records.extend(conditions::records_of(form, record).unwrap_or_default());
        }
        Ask::Build => {}
    }
    let crossings: BTreeSet<u32> = records.iter().map(|record| crossing_of(record)).collect();
    crossings.len() < records.len()
}

/// Several records of one crossing: built, and updated with one more.
fn of_equal_crossings() -> Vec<Call> {
    let mut calls = Vec::new();
    let worked = worked();
    let size = ENTRY * worked.len();
    for length in [size, size + 3, size - 1] {
        calls.push(call(
            "one of them twice",
            file_of(&worked),
            vec![0xee; length],
            Ask::Build,
        ));
    }
    for (count, crossings) in [(5, 1), (64, 2), (1_000, 10), (2_849, 1)] {
        let records: Vec<Vec<u8>> = (0..count)
            .map(|k: u32| record(k * 7 % crossings, 1, 1, &[(k * 89) as u8]))
            .collect();
        let why = format!("{count} records, {crossings} crossings");
        let room = vec![0xee; ENTRY * records.len()];
        calls.push(call(&why, file_of(&records), room, Ask::Build));
        if count <= 64 {
            for crossing in [0, 1, 2] {
                let new = record(crossing, 2, 1, &[3, 4]);
                let buffer = and(&summary_of(&records), ENTRY);
                calls.push(call(&why, file_of(&records), buffer, Ask::Update(new)));
            }
        }
    }
    for crossing in [1_399, 1_400, 1_401, 69_999, 70_000, 70_001] {
        let new = record(crossing, 1, 2, &[9, 200]);
        for more in [ENTRY - 1, ENTRY, ENTRY + 2] {
            let buffer = and(&summary_of(&worked), more);
            let ask = Ask::Update(new.clone());
            calls.push(call("one of them twice", file_of(&worked), buffer, ask));
        }
    }
    let entries = entries_of(WithoutSettings, &lent(&worked));
    let exchanged = [entries[1], entries[2], entries[0]].concat();
    calls.extend(three(
        "entries of one crossing exchanged",
        &worked,
        exchanged,
    ));
    let random = (0..).map(|case| Summing::update(&mut Random::new(26, 0, case)));
    let small =
        |one: &Summing| one.file.len() + one.buffer.len() <= 500 && has_equal_crossings(one);
    calls.extend(random.filter(small).take(60).map(|request| Call {
        why: "any".to_string(),
        request,
    }));
    calls
}

/// A record with settings of this size.
fn set_record(crossing: u32, four: [u8; 4], w: u16, h: u16, luma: &[u8]) -> Vec<u8> {
    let mut record = crossing.to_le_bytes().to_vec();
    record.extend(w.to_le_bytes());
    record.extend(h.to_le_bytes());
    record.extend(four);
    record.extend(luma.iter().cycle().take(usize::from(w) * usize::from(h)));
    let length = conditions::record_length(WithSettings, four[0], w.into(), h.into());
    record.resize(length as usize, 0x60);
    record
}

/// Three records of two crossings: one with nothing recorded, two in 4:2:2.
fn set_worked() -> Vec<Vec<u8>> {
    vec![
        set_record(70_000, [0, 255, 255, 255], 1, 1, &[0x50]),
        set_record(
            1_400,
            [1, 1, 6, 3],
            3,
            2,
            &[0x10, 0x11, 0x12, 0x20, 0x21, 0x22],
        ),
        set_record(70_000, [1, 255, 0, 255], 2, 3, &[0x80, 0x83]),
    ]
}

fn set_file(records: &[Vec<u8>]) -> Vec<u8> {
    conditions::file_of(WithSettings, &lent(records))
}

fn set_entries(records: &[Vec<u8>]) -> Vec<[u8; ENTRY]> {
    ascending(&entries_of(WithSettings, &lent(records)))
}

/// Files with settings, and records of the other form than the file's.
fn with_settings() -> Vec<Call> {
    let mut calls = Vec::new();
    let worked = set_worked();
    let (file, good) = (set_file(&worked), set_entries(&worked).concat());
    let why = "with settings";
    for length in [good.len(), good.len() + 3, good.len() - 1, 0] {
        calls.push(call(why, file.clone(), vec![0xee; length], Ask::Build));
    }
    for length in (0..file.len()).step_by(7).chain([file.len() - 1]) {
        for (room, ask) in [(0, Ask::Build), (60, Ask::Build), (60, Ask::Check)] {
            let cut = file[..length].to_vec();
            calls.push(call("with settings, cut", cut, vec![0xee; room], ask));
        }
    }
    for at in 8..12 {
        for value in [2, 4, 7, 254, 255] {
            let mut records = worked[..1].to_vec();
            records[0][at] = value;
            let (file, room) = (set_file(&records), vec![0xee; ENTRY]);
            calls.push(call("a byte of settings", file, room, Ask::Build));
        }
    }
    calls.push(call(why, file.clone(), and(&good, 2), Ask::Check));
    for (place, (damage, what)) in DAMAGES.into_iter().enumerate() {
        let random = &mut Random::new(27, place as u64, 0);
        let entries = set_entries(&worked);
        let bytes = damaged(random, damage, WithSettings, &lent(&worked), &entries);
        calls.push(call(what, file.clone(), bytes.clone(), Ask::Check));
        calls.push(call(what, file.clone(), bytes, Ask::Find(1_400)));
    }
    for crossing in [70_000, 1_400, 0, u32::MAX, 1_401] {
        calls.push(call(why, file.clone(), good.clone(), Ask::Find(crossing)));
    }
    // The summary of the file in the other form, whose offsets are others.
    let old: Vec<Vec<u8>> = vec![record(7, 3, 2, &[5, 9]), record(6, 1, 1, &[8])];
    let moved: Vec<Vec<u8>> = (old.iter())
        .map(|record| [&record[..8], &[0, 255, 255, 255], &record[8..]].concat())
        .collect();
    let moved_good = set_entries(&moved).concat();
    for (file, buffer) in [
        (file_of(&old), moved_good.clone()),
        (set_file(&moved), summary_of(&old)),
        (set_file(&moved), moved_good.clone()),
    ] {
        calls.push(call(
            "moved forward",
            file.clone(),
            buffer.clone(),
            Ask::Check,
        ));
        calls.push(call("moved forward", file, buffer, Ask::Find(7)));
    }
    calls.push(call(
        "moved forward",
        set_file(&moved),
        vec![0xee; 26],
        Ask::Build,
    ));
    // Records of either form for files of either form.
    let (new, plain) = (
        set_record(1_400, [1, 0, 1, 2], 2, 2, &[9, 8, 7]),
        record(1_400, 2, 2, &[9, 8, 7]),
    );
    let mut unknown = new.clone();
    unknown[9] = 254;
    for (what, bytes) in [
        ("with settings", new.clone()),
        ("without settings", plain.clone()),
        ("with a range of 254", unknown),
        ("of which two", [new.clone(), new.clone()].concat()),
        ("cut", new[..new.len() - 1].to_vec()),
        ("none", vec![]),
    ] {
        for more in [ENTRY - 1, ENTRY, ENTRY + 2] {
            let why = format!("with settings, a record {what}");
            let buffer = and(&good, more);
            calls.push(call(&why, file.clone(), buffer, Ask::Update(bytes.clone())));
        }
        let why = format!("without settings, a record {what}");
        let buffer = and(&summary_of(&old), ENTRY);
        calls.push(call(&why, file_of(&old), buffer, Ask::Update(bytes)));
    }
    for crossing in [0, 1_399, 1_401, 69_999, 70_000, 70_001] {
        let new = set_record(crossing, [0, 0, 255, 1], 1, 2, &[9, 200]);
        let buffer = and(&good, ENTRY);
        calls.push(call(why, file.clone(), buffer, Ask::Update(new)));
    }
    for (ask, room) in [
        (Ask::Build, 0),
        (Ask::Build, 5),
        (Ask::Check, 0),
        (Ask::Find(0), 0),
        (Ask::Update(new.clone()), ENTRY),
        (Ask::Update(new), ENTRY - 1),
        (Ask::Update(plain), ENTRY),
    ] {
        let why = "with settings and without records";
        calls.push(call(why, set_file(&[]), vec![0xee; room], ask));
    }
    let many: Vec<Vec<u8>> = (0..1_000)
        .map(|k: u32| {
            let four = [(k % 2) as u8, 255, (k % 7) as u8, (k % 4) as u8];
            set_record(k.wrapping_mul(2_654_435_761) % 700, four, 1, 1, &[k as u8])
        })
        .collect();
    let room = vec![0xee; ENTRY * many.len()];
    calls.push(call(
        "1,000 records with settings",
        set_file(&many),
        room,
        Ask::Build,
    ));
    let random = (0..).map(|case| Summing::either(&mut Random::new(28, 0, case)));
    let small = |one: &Summing| one.file.len() + one.buffer.len() <= 500;
    calls.extend(random.filter(small).take(120).map(|request| Call {
        why: "any".to_string(),
        request,
    }));
    calls
}

/// A call with its answer, and the line that is printed.
struct Vector {
    call: Call,
    answer: Answer,
    line: String,
}

fn line(ask: &Ask, answer: &Answer, [first, second]: [u64; 2], buffer: &[u8]) -> String {
    let said = answer_text(answer);
    match ask {
        Ask::Build | Ask::Update(_) => format!("{said}{}", digest("summary", buffer)),
        Ask::Check => format!("{said} yes={first}"),
        Ask::Find(_) => format!("{said} found={first} record={second}"),
    }
}

impl Vector {
    /// The model's, compared before.
    fn new(call: Call, converters: &Converters) -> Result<Vector, String> {
        let wrong = |wrong: String| format!("{}: {wrong}", call.why);
        checked(&call.request, converters).map_err(wrong)?;
        let (answer, told, buffer) = call.request.call(&*converters[0])?;
        let line = line(&call.request.ask, &answer, told, &buffer);
        Ok(Vector { call, answer, line })
    }

    fn number(&self) -> u8 {
        self.answer.map_or_else(|refusal| refusal.number, |()| 0)
    }
}

fn vectors(converters: &Converters) -> Result<Vec<Vector>, String> {
    let calls = [
        buildings(),
        checks(),
        lookups(),
        updates(),
        any(),
        of_equal_crossings(),
        with_settings(),
    ]
    .into_iter()
    .flatten();
    let vectors = calls
        .map(|call| Vector::new(call, converters))
        .collect::<Result<Vec<Vector>, String>>()?;
    complete(&vectors)?;
    Ok(vectors)
}

/// Every answer that each call can give, in buffers that can be lent, several records of one crossing, and files
/// with settings.
fn complete(vectors: &[Vector]) -> Result<(), String> {
    let short = vectors.iter().all(|vector| {
        let Summing { file, buffer, ask } = &vector.call.request;
        let record = if let Ask::Update(record) = ask {
            record.len()
        } else {
            0
        };
        file.len().max(buffer.len()).max(record) <= LONGEST_BUFFER
    });
    let told = |text: &str| vectors.iter().any(|vector| vector.line.ends_with(text));
    let answers = KINDS.into_iter().all(|(_, is, numbers)| {
        let some = vectors.iter().filter(|vector| is(&vector.call.request.ask));
        some.map(Vector::number).collect::<BTreeSet<u8>>() == BTreeSet::from_iter(numbers.to_vec())
    });
    let several =
        |vector: &Vector| vector.answer.is_ok() && has_equal_crossings(&vector.call.request);
    for (has, what) in [
        (short, "buffers that the program can lend"),
        (answers, "an answer that a call can give"),
        (told("yes=1") && told("yes=0"), "both answers to a check"),
        (
            told("found=0 record=0") && told("found=1 record=2"),
            "both answers to a lookup",
        ),
        (
            vectors.iter().any(several),
            "several records of one crossing",
        ),
        (
            KINDS.into_iter().all(|(_, is, _)| {
                let with = |file: &[u8]| conditions::form_of(file) == WithSettings;
                let taken = |v: &&Vector| v.answer.is_ok() && with(&v.call.request.file);
                let mut taken = vectors.iter().filter(taken);
                taken.any(|vector| is(&vector.call.request.ask))
            }),
            "a file with settings",
        ),
    ] {
        if !has {
            return Err(format!("calls on summaries: the list lacks {what}"));
        }
    }
    Ok(())
}

fn stored(vectors: &[Vector]) -> Vec<u8> {
    let mut stored = Stored::default();
    stored.lengths([vectors.len()]);
    for vector in vectors {
        let Summing { file, buffer, ask } = &vector.call.request;
        match ask {
            Ask::Build | Ask::Check => {
                stored.numbers(&[u32::from(*ask == Ask::Check)]);
                stored.lengths([file.len(), buffer.len()]);
                stored.block(file);
            }
            Ask::Find(crossing) => {
                stored.numbers(&[2]);
                stored.lengths([file.len(), buffer.len()]);
                stored.numbers(&[*crossing]);
                stored.block(file);
            }
            Ask::Update(record) => {
                stored.numbers(&[3]);
                stored.lengths([file.len(), record.len(), buffer.len()]);
                stored.block(file);
                stored.block(record);
            }
        }
        stored.block(buffer);
    }
    stored.0
}

fn expected(vectors: &[Vector]) -> String {
    let mut text = String::new();
    for (vector, place) in vectors.iter().zip(1..) {
        let _ = writeln!(text, "{place} {}", vector.line);
    }
    text
}

/// A line for each call, without the bytes.
fn index(vectors: &[Vector], bytes: usize) -> String {
    let mut text = format!(
        "# The calls of crates/replay_summary/stdin, made by vectors/make; README.md says how.\n\
         # {} calls in {bytes} bytes: {}.\n\
         # number | what it is for | the call | number, expected, received, and what is told\n",
        vectors.len(),
        counts(vectors),
    );
    for (vector, place) in vectors.iter().zip(1..) {
        let Summing { file, buffer, ask } = &vector.call.request;
        let lengths = format!("file of {} bytes, summary of {}", file.len(), buffer.len());
        let call = match ask {
            Ask::Build => format!("building, {lengths}"),
            Ask::Check => format!("check, {lengths}"),
            Ask::Find(crossing) => format!("lookup of {crossing}, {lengths}"),
            Ask::Update(record) => format!("update, {lengths}, record of {}", record.len()),
        };
        let _ = writeln!(
            text,
            "{place} | {} | {call} | {}",
            vector.call.why, vector.line
        );
    }
    text
}

type Kind = (&'static str, fn(&Ask) -> bool, &'static [u8]);

/// Each call, and the numbers that it can answer.
const KINDS: [Kind; 4] = [
    ("summaries built", |ask| *ask == Ask::Build, &[0, 15, 17]),
    ("checked", |ask| *ask == Ask::Check, &[0, 15]),
    ("lookups", |ask| matches!(ask, Ask::Find(_)), &[0, 15, 17]),
    ("updates", |ask| matches!(ask, Ask::Update(_)), &[0, 15, 17]),
];

/// How many calls of each kind there are, and how many of them are refused with each number.
fn counts(vectors: &[Vector]) -> String {
    let of = |(name, is, _): Kind| {
        let mut answers: BTreeMap<u8, usize> = BTreeMap::new();
        for vector in vectors.iter().filter(|vector| is(&vector.call.request.ask)) {
            *answers.entry(vector.number()).or_default() += 1;
        }
        let all: usize = answers.values().sum();
        let accepted = answers.remove(&0).unwrap_or(0);
        let refused: Vec<String> = (answers.iter())
            .map(|(number, count)| format!("{number}: {count}"))
            .collect();
        format!(
            "{all} {name} ({accepted} accepted, refused {})",
            refused.join(", ")
        )
    };
    KINDS.map(of).join(", ")
}

fn files(vectors: &[Vector]) -> [(&'static str, Vec<u8>); 3] {
    let stored = stored(vectors);
    let index = index(vectors, stored.len());
    [
        ("vectors/summary.txt", index.into_bytes()),
        (
            "crates/replay_summary/stdout",
            expected(vectors).into_bytes(),
        ),
        ("crates/replay_summary/stdin", stored),
    ]
}

pub fn write(root: &Path, converters: &Converters) -> Result<String, String> {
    let vectors = vectors(converters)?;
    for (file, bytes) in files(&vectors) {
        std::fs::write(root.join(file), bytes).map_err(|error| format!("{file}: {error}"))?;
    }
    Ok(format!("{} calls on summaries written", vectors.len()))
}

/// The list's line in the README.
fn readme_line(vectors: &[Vector]) -> String {
    let counts = counts(vectors);
    format!("| `crates/replay_summary/stdin` | {counts} | `replay_summary` | `summary.txt` |")
}

/// Whether the files are those that `write` writes, and the README counts them so and has the table of
/// the mistakes.
pub fn check(root: &Path, converters: &Converters) -> Result<String, String> {
    let vectors = vectors(converters)?;
    let read =
        |file: &str| std::fs::read(root.join(file)).map_err(|error| format!("{file}: {error}"));
    for (file, bytes) in files(&vectors) {
        equal_bytes("what is made", file, &read(file)?, &bytes)?;
    }
    let readme = "vectors/README.md";
    let text = String::from_utf8_lossy(&read(readme)?).into_owned();
    let mut lines = mistake_lines(&vectors)?;
    lines.push(readme_line(&vectors));
    for line in lines {
        if !text.lines().any(|other| other == line) {
            return Err(format!("{readme} lacks the line: {line}"));
        }
    }
    Ok(format!("{} calls on summaries, as made", vectors.len()))
}

/// Which call catches each mistake first, and how many do; and the list's line.
pub fn report(converters: &Converters) -> Result<String, String> {
    let vectors = vectors(converters)?;
    let mut lines = mistake_lines(&vectors)?;
    lines.push(readme_line(&vectors));
    Ok(lines.join("\n"))
}

/// A mistake near at hand in a call on a summary.
#[derive(Clone, Copy, PartialEq)]
enum Mistake {
    NoMistake,
    MeanRoundedUp,
    MeanToNearest,
    MeanOfAllPlanes,
    MeanOfFirstRow,
    SumOf16Bits,
    SignedCrossings,
    SortedByBytes,
    HighByteFirst,
    OffsetOfY,
    NotSorted,
    LastOfEqualFirst,
    NewEntryBeforeEqual,
    EqualInAnyOrder,
    OffsetsNotMoved,
    NewOffsetNotMoved,
    NewEntryAtTheEnd,
    NewEntryAtTheStart,
    LastOfSeveral,
    FirstInSummaryIsRecordZero,
    RecordsFromOne,
    NoCheckInLookup,
    NoCheckInUpdate,
    MeanNotChecked,
    OffsetNotChecked,
    OrderNotChecked,
    DoubledTaken,
    LastEntryForgotten,
    LongerRefused,
    ShortCheckRefused,
    RoomForTheOldAlone,
    RestCleared,
    SummaryBeforeFile,
    SummaryBeforeRecord,
    TwoRecordsTaken,
    BytesBehindTheRecord,
    NoRecordTaken,
    SettingsRefused,
    PlanesOf420,
    MeanWithTheSettings,
    OffsetsWithoutTheMark,
    OffsetsMovedBy16,
    RecordOfEitherForm,
    RecordWithoutSettings,
}

use Mistake::*;

const MISTAKES: [(Mistake, &str); 43] = [
    (MeanRoundedUp, "means rounded up"),
    (MeanToNearest, "means rounded to the nearest"),
    (MeanOfAllPlanes, "means of all planes"),
    (MeanOfFirstRow, "means of the first row"),
    (SumOf16Bits, "sums of 16 bits"),
    (SignedCrossings, "crossings compared with a sign"),
    (SortedByBytes, "entries sorted by their bytes"),
    (HighByteFirst, "numbers high byte first"),
    (OffsetOfY, "offsets of Y"),
    (NotSorted, "entries in the order of the file"),
    (
        LastOfEqualFirst,
        "entries of one crossing by descending offset",
    ),
    (
        NewEntryBeforeEqual,
        "the new entry before those of its crossing",
    ),
    (
        EqualInAnyOrder,
        "a check takes any order of equal crossings",
    ),
    (OffsetsNotMoved, "old offsets are not moved by 12"),
    (NewOffsetNotMoved, "the new offset is the file's old end"),
    (NewEntryAtTheEnd, "the new entry at the end"),
    (NewEntryAtTheStart, "the new entry at the start"),
    (LastOfSeveral, "the last of several records is found"),
    (
        FirstInSummaryIsRecordZero,
        "the place in the summary for the record's number",
    ),
    (RecordsFromOne, "records counted from 1"),
    (NoCheckInLookup, "a lookup does not check"),
    (NoCheckInUpdate, "an update does not check"),
    (MeanNotChecked, "a check does not look at means"),
    (OffsetNotChecked, "a check does not look at offsets"),
    (OrderNotChecked, "a check does not look at the order"),
    (DoubledTaken, "a check takes an entry that stands twice"),
    (LastEntryForgotten, "a check forgets the last entry"),
    (LongerRefused, "a longer summary is none"),
    (ShortCheckRefused, "a check of a short summary is refused"),
    (RoomForTheOldAlone, "an update asks for 13 bytes less"),
    (RestCleared, "the buffer is cleared past the summary"),
    (SummaryBeforeFile, "17 before 15 of the file"),
    (SummaryBeforeRecord, "17 before 15 of the record"),
    (TwoRecordsTaken, "an update takes two records for one"),
    (
        BytesBehindTheRecord,
        "an update takes bytes behind its record",
    ),
    (NoRecordTaken, "an update takes no record"),
    (SettingsRefused, "a file with settings is none"),
    (PlanesOf420, "a file with a record in 4:2:2 is none"),
    (
        MeanWithTheSettings,
        "means of the bytes behind h, settings among them",
    ),
    (
        OffsetsWithoutTheMark,
        "offsets from behind the first number of a file with settings",
    ),
    (
        OffsetsMovedBy16,
        "old offsets of a file with settings moved by 16",
    ),
    (
        RecordOfEitherForm,
        "an update takes a record of the other form",
    ),
    (
        RecordWithoutSettings,
        "an update of a file with settings takes records without",
    ),
];

/// A second statement of the calls, with one mistake. Without one it gives what is expected.
struct Mistaken(Mistake);

const BROKEN: Answer = Err(Refusal {
    number: 15,
    expected: 0,
    received: 0,
});
const MISMATCH: Answer = Err(Refusal {
    number: 17,
    expected: 0,
    received: 0,
});

impl Mistaken {
    fn mean(&self, form: ShiftForm, record: &[u8]) -> u8 {
        let [w, h] = [4, 6].map(|at| usize::from(u16::from_le_bytes([record[at], record[at + 1]])));
        let planes = match self.0 {
            MeanWithTheSettings => &record[8..],
            _ => &record[conditions::header(form)..],
        };
        let plane = match self.0 {
            MeanOfAllPlanes => planes,
            MeanOfFirstRow => &planes[..w],
            _ => &planes[..w * h],
        };
        let (sum, count) = (
            plane.iter().map(|b| u64::from(*b)).sum::<u64>(),
            plane.len() as u64,
        );
        (match self.0 {
            MeanRoundedUp => sum.div_ceil(count),
            MeanToNearest => (2 * sum + count) / (2 * count),
            SumOf16Bits => (sum & 0xffff) / count,
            _ => sum / count,
        }) as u8
    }

    fn entries(&self, form: ShiftForm, records: &[&[u8]]) -> Vec<[u8; ENTRY]> {
        let mut entries = entries_of(form, records);
        for (entry, record) in entries.iter_mut().zip(records) {
            entry[12] = self.mean(form, record);
            let more = match self.0 {
                OffsetOfY => conditions::header(form) as u64,
                OffsetsWithoutTheMark if form == WithSettings => !3,
                _ => 0,
            };
            let offset = offset_of(entry).wrapping_add(more);
            set_offset(entry, offset);
        }
        entries
    }

    fn key(&self, entry: &[u8; ENTRY]) -> i64 {
        match self.0 {
            SignedCrossings => i64::from(crossing_of(entry) as i32),
            SortedByBytes => {
                i64::from(u32::from_be_bytes([entry[0], entry[1], entry[2], entry[3]]))
            }
            NotSorted => 0,
            _ => i64::from(crossing_of(entry)),
        }
    }

    fn sorted(&self, entries: &[[u8; ENTRY]]) -> Vec<[u8; ENTRY]> {
        let mut entries = entries.to_vec();
        if self.0 == LastOfEqualFirst {
            entries.reverse();
        }
        entries.sort_by_key(|entry| self.key(entry));
        entries
    }

    fn put(&self, entries: &[[u8; ENTRY]], buffer: &mut [u8]) {
        for (entry, room) in entries.iter().zip(buffer.chunks_exact_mut(ENTRY)) {
            let mut entry = *entry;
            if self.0 == HighByteFirst {
                entry[..4].reverse();
                entry[4..12].reverse();
            }
            room.copy_from_slice(&entry);
        }
        if self.0 == RestCleared {
            buffer[ENTRY * entries.len()..].fill(0);
        }
    }

    fn ordered(&self, entries: &[[u8; ENTRY]]) -> bool {
        entries.is_sorted_by(|a, b| match self.key(a).cmp(&self.key(b)) {
            Ordering::Equal if self.0 == EqualInAnyOrder => true,
            Ordering::Equal if self.0 == LastOfEqualFirst => offset_of(a) >= offset_of(b),
            Ordering::Equal => offset_of(a) <= offset_of(b),
            order => order == Ordering::Less,
        })
    }

    fn says_yes(&self, entries: &[[u8; ENTRY]], buffer: &[u8]) -> bool {
        let Some(bytes) = buffer.get(..ENTRY * entries.len()) else {
            return false;
        };
        let (have, _) = bytes.as_chunks::<ENTRY>();
        let mut have = have.to_vec();
        if self.0 == HighByteFirst {
            for entry in &mut have {
                entry[..4].reverse();
                entry[4..12].reverse();
            }
        }
        let mut should = entries.to_vec();
        let seen = |entry: &[u8; ENTRY]| {
            let mut entry = *entry;
            match self.0 {
                MeanNotChecked => entry[12] = 0,
                OffsetNotChecked => set_offset(&mut entry, 0),
                _ => {}
            }
            entry
        };
        let ordered = self.0 == OrderNotChecked || self.ordered(&have);
        if self.0 == LastEntryForgotten {
            let last = have.pop();
            should.retain(|entry| have.contains(entry) || last.is_none());
        }
        if self.0 == LongerRefused && buffer.len() > bytes.len() {
            return false;
        }
        let [mut have, mut should] =
            [have, should].map(|all| all.iter().map(seen).collect::<Vec<_>>());
        have.sort();
        should.sort();
        if self.0 == DoubledTaken {
            return ordered && have.iter().all(|entry| should.contains(entry));
        }
        ordered && have == should
    }

    fn update(&self, form: ShiftForm, records: &[&[u8]], added: &[u8], buffer: &mut [u8]) {
        let grown = [records, &[added]].concat();
        let mut entries = self.entries(form, &grown);
        let new = entries.pop().map(|mut new| {
            if self.0 == NewOffsetNotMoved {
                let offset = offset_of(&new) - 12;
                set_offset(&mut new, offset);
            }
            new
        });
        if self.0 == OffsetsNotMoved {
            entries = self.entries(form, records);
        }
        if self.0 == OffsetsMovedBy16 && form == WithSettings {
            for entry in &mut entries {
                let offset = offset_of(entry) + 4;
                set_offset(entry, offset);
            }
        }
        entries = self.sorted(&entries);
        match self.0 {
            NewEntryAtTheStart => entries.splice(0..0, new).for_each(drop),
            NewEntryAtTheEnd => entries.extend(new),
            NewEntryBeforeEqual => {
                let before = |entry: &[u8; ENTRY], new| self.key(entry) < self.key(new);
                let place = entries.partition_point(|e| new.as_ref().is_some_and(|n| before(e, n)));
                entries.splice(place..place, new).for_each(drop);
            }
            _ => {
                entries.extend(new);
                entries = self.sorted(&entries);
            }
        }
        self.put(&entries, buffer);
    }

    fn line(&self, call: &Call) -> String {
        let Summing { file, buffer, ask } = &call.request;
        let mut after = buffer.clone();
        let (answer, told) = self.answer(file, ask, &mut after);
        line(ask, &answer, told, &after)
    }

    fn answer(&self, file: &[u8], ask: &Ask, buffer: &mut [u8]) -> (Answer, [u64; 2]) {
        let form = conditions::form_of(file);
        let taken = |records: &Vec<&[u8]>| match self.0 {
            SettingsRefused => form == WithoutSettings,
            PlanesOf420 => {
                let sampling = |record: &&[u8]| conditions::settings_of(form, record)[0];
                records.iter().all(|record| sampling(record) == 0)
            }
            _ => true,
        };
        let Some(records) = conditions::records_of_file(form, file).filter(taken) else {
            let early = self.0 == SummaryBeforeFile && buffer.is_empty() && *ask != Ask::Check;
            return (if early { MISMATCH } else { BROKEN }, [0; 2]);
        };
        let entries = self.entries(form, &records);
        let short = buffer.len() < ENTRY * records.len();
        let yes = self.says_yes(&entries, buffer);
        match ask {
            Ask::Build if short => (MISMATCH, [0; 2]),
            Ask::Build => {
                self.put(&self.sorted(&entries), buffer);
                (Ok(()), [0; 2])
            }
            Ask::Check if short && self.0 == ShortCheckRefused => (MISMATCH, [0; 2]),
            Ask::Check => (Ok(()), [u64::from(yes), 0]),
            Ask::Find(_) if short || (!yes && self.0 != NoCheckInLookup) => (MISMATCH, [0; 2]),
            Ask::Find(crossing) => {
                let is = |entry: &[u8; ENTRY]| crossing_of(entry) == *crossing;
                let found = match self.0 {
                    LastOfSeveral => entries.iter().rposition(is),
                    FirstInSummaryIsRecordZero => self.sorted(&entries).iter().position(is),
                    _ => entries.iter().position(is),
                };
                let from = u64::from(self.0 == RecordsFromOne);
                (Ok(()), found.map_or([0; 2], |k| [1, k as u64 + from]))
            }
            Ask::Update(added) => {
                let form = match self.0 {
                    RecordOfEitherForm => {
                        let of = |form: &ShiftForm| {
                            let records = conditions::records_of(*form, added);
                            records.is_some_and(|records| records.len() == 1)
                        };
                        let forms = [WithoutSettings, WithSettings];
                        forms.into_iter().find(of).unwrap_or(form)
                    }
                    RecordWithoutSettings => WithoutSettings,
                    _ => form,
                };
                let one =
                    match self.0 {
                        TwoRecordsTaken | NoRecordTaken => conditions::records_of(form, added)
                            .filter(|records| {
                                records.len() != if self.0 == NoRecordTaken { 2 } else { 0 }
                            })
                            .map(|records| records.first().copied().unwrap_or_default()),
                        BytesBehindTheRecord => (0..=added.len())
                            .map(|length| &added[..length])
                            .find(|part| {
                                conditions::records_of(form, part).is_some_and(|one| one.len() == 1)
                            }),
                        _ => conditions::records_of(form, added)
                            .filter(|records| records.len() == 1)
                            .map(|_| &added[..]),
                    };
                let room = ENTRY * (records.len() + usize::from(self.0 != RoomForTheOldAlone));
                let checked = yes || self.0 == NoCheckInUpdate;
                let mismatch = short || buffer.len() < room || !checked;
                match one {
                    None if mismatch && self.0 == SummaryBeforeRecord => (MISMATCH, [0; 2]),
                    None => (BROKEN, [0; 2]),
                    Some(_) if mismatch => (MISMATCH, [0; 2]),
                    Some([]) => (Ok(()), [0; 2]),
                    Some(added) => {
                        // A record of the other form, as one of the file's.
                        let four = match (form, conditions::form_of(file)) {
                            (WithoutSettings, WithSettings) => &conditions::UNSAID[..],
                            _ => &[],
                        };
                        let planes = match (form, conditions::form_of(file)) {
                            (WithSettings, WithoutSettings) => &added[12..],
                            _ => &added[8..],
                        };
                        let added = [&added[..8], four, planes].concat();
                        self.update(conditions::form_of(file), &records, &added, buffer);
                        (Ok(()), [0; 2])
                    }
                }
            }
        }
    }
}

/// The first call that catches each mistake, and how many do.
fn mistake_lines(vectors: &[Vector]) -> Result<Vec<String>, String> {
    let catching = |mistake: Mistake| {
        let mistaken = Mistaken(mistake);
        let differs = |(vector, _): &(&Vector, usize)| mistaken.line(&vector.call) != vector.line;
        let catching: Vec<usize> = (vectors.iter().zip(1..))
            .filter(differs)
            .map(|(_, place)| place)
            .collect();
        catching
    };
    if let [place, ..] = catching(NoMistake)[..] {
        let line = Mistaken(NoMistake).line(&vectors[place - 1].call);
        return Err(format!(
            "call {place} on summaries, without a mistake: {line}"
        ));
    }
    MISTAKES
        .into_iter()
        .map(|(mistake, what)| {
            let catching = catching(mistake);
            match catching[..] {
                [first, ..] => Ok(format!("| {what} | {first} | {} |", catching.len())),
                [] => Err(format!("no call on summaries catches: {what}")),
            }
        })
        .collect()
}
