//! Summaries of shift files: that of RULES 12.1; every order of the entries of a small file, every byte of one changed; lookups of each crossing, as parts
//! of the file; updates against the grown file; each refusal, and nothing written then.

use segvartin::*;

/// RULES 12.1: the three records, and their entries.
const RECORDS: [&[u8]; 3] = [
    &[0x70, 0x11, 1, 0, 1, 0, 1, 0, 0x50, 0x60, 0x70],
    &[
        0x78, 5, 0, 0, 3, 0, 2, 0, 0x10, 0x11, 0x12, 0x20, 0x21, 0x22, 0x30, 0x31, 0x40, 0x41,
    ],
    &[0x70, 0x11, 1, 0, 2, 0, 1, 0, 0x80, 0x83, 0x60, 0x70],
];
const ENTRIES: [[u8; 13]; 3] = [
    [0x70, 0x11, 1, 0, 40, 0, 0, 0, 0, 0, 0, 0, 80],
    [0x78, 5, 0, 0, 51, 0, 0, 0, 0, 0, 0, 0, 25],
    [0x70, 0x11, 1, 0, 69, 0, 0, 0, 0, 0, 0, 0, 129],
];

fn file_of(records: &[&[u8]]) -> Vec<u8> {
    let records = records.concat();
    let mut file = vec![0; shift_file_size(&records).unwrap()];
    write_shift_file(&records, &mut file).unwrap();
    file
}

fn record(crossing: u32, width: u16, height: u16) -> Vec<u8> {
    let (w, h) = (usize::from(width), usize::from(height));
    let planes = w * h + 2 * w.div_ceil(2) * h.div_ceil(2);
    let mut bytes = crossing.to_le_bytes().to_vec();
    bytes.extend(width.to_le_bytes());
    bytes.extend(height.to_le_bytes());
    bytes.extend((0..planes).map(|i| (crossing as usize * 7 + i * 31) as u8));
    bytes
}

/// The entries of a file's records, in its order.
fn entries_of(file: &ShiftFile) -> Vec<[u8; 13]> {
    let start = file.as_bytes().as_ptr() as u64;
    let entry = |record: ShiftRecord| {
        let sum: u64 = record.y.iter().map(|byte| u64::from(*byte)).sum();
        let mut entry = [0; 13];
        entry[..4].copy_from_slice(&record.crossing.to_le_bytes());
        entry[4..12].copy_from_slice(&(record.bytes.as_ptr() as u64 - start).to_le_bytes());
        entry[12] = (sum / record.y.len() as u64) as u8;
        entry
    };
    file.records().map(entry).collect()
}

fn crossing_of(entry: &[u8; 13]) -> u32 {
    u32::from_le_bytes([entry[0], entry[1], entry[2], entry[3]])
}

/// RULES 12.3.
fn is_summary(entries: &[[u8; 13]], bytes: &[u8]) -> bool {
    let (have, rest) = bytes.as_chunks::<13>();
    let in_order = have.is_sorted_by_key(|entry| {
        (
            crossing_of(entry),
            entry[4..12].iter().rev().copied().collect::<Vec<u8>>(),
        )
    });
    let each = |entry| have.iter().filter(|other| *other == entry).count() == 1;
    rest.is_empty() && have.len() == entries.len() && in_order && entries.iter().all(each)
}

#[test]
fn the_summary_of_the_rules() {
    let bytes = file_of(&RECORDS);
    let file = ShiftFile::open(&bytes).unwrap();
    assert_eq!(entries_of(&file), ENTRIES);
    assert_eq!((file.summary_size(), SUMMARY_ENTRY), (39, 13));
    let mut summary = [0xee; 41];
    assert_eq!(file.build_summary(&mut summary), Ok(39));
    assert!(is_summary(&ENTRIES, &summary[..39]));
    assert_eq!(summary[39..], [0xee; 2]);
    assert!(file.check_summary(&summary) && file.check_summary(&summary[..39]));
    for k in 0..39 {
        assert!(!file.check_summary(&summary[..k]));
        let mut short = vec![0xee; k];
        assert_eq!(
            file.build_summary(&mut short),
            Err(YuvError::SummaryMismatch)
        );
        assert_eq!(short, vec![0xee; k]);
        for bit in 0..8 {
            let mut other = summary;
            other[k] ^= 1 << bit;
            assert!(!file.check_summary(&other));
            let found = file.find_record(&other, 1400);
            assert_eq!(found, Err(YuvError::SummaryMismatch));
        }
    }
}

#[test]
fn every_order_of_three_entries() {
    let bytes = file_of(&RECORDS);
    let file = ShiftFile::open(&bytes).unwrap();
    for order in 0..27 {
        let entries = [order % 3, order / 3 % 3, order / 9].map(|k| ENTRIES[k]);
        let summary = entries.concat();
        let good = is_summary(&ENTRIES, &summary);
        assert_eq!(file.check_summary(&summary), good);
        assert_eq!(file.find_record(&summary, 1400).is_ok(), good);
        let mut longer = [&summary[..], &[0; 13]].concat();
        assert_eq!(file.update_summary(RECORDS[1], &mut longer).is_ok(), good);
    }
}

/// The record found outlives the summary and the value that found it, and is a part of the bytes.
#[test]
fn a_found_record_is_a_part_of_the_file() {
    let bytes = file_of(&RECORDS);
    let (one, first) = {
        let file = ShiftFile::open(&bytes).unwrap();
        let mut summary = vec![0; file.summary_size()];
        file.build_summary(&mut summary).unwrap();
        assert_eq!(file.find_record(&summary, 0), Ok(None));
        assert_eq!(file.find_record(&summary, u32::MAX), Ok(None));
        let find = |crossing| file.find_record(&summary, crossing).unwrap().unwrap();
        (find(1400), find(70_000))
    };
    assert_eq!(one.bytes.as_ptr(), bytes[51..].as_ptr());
    assert_eq!(one.y, &RECORDS[1][8..14]);
    // The first of two.
    assert_eq!(first.bytes.as_ptr(), bytes[40..].as_ptr());
    assert_eq!(
        (first.y, first.u, first.v),
        (&[0x50][..], &[0x60][..], &[0x70][..])
    );
}

/// A shift as it grows, each crossing three times at last.
#[test]
fn a_summary_that_is_brought_up_to_date() {
    let mut records: Vec<Vec<u8>> = Vec::new();
    let mut summary = vec![];
    for k in 0..60 {
        let before = file_of(&records.iter().map(Vec::as_slice).collect::<Vec<_>>());
        let file = ShiftFile::open(&before).unwrap();
        let next = record(k * 7919 % 20 + 5, (k % 5 + 1) as u16, (k % 4 + 1) as u16);
        let size = file.summary_size();
        let mut short = summary.clone();
        short.resize(size + 12, 0xee);
        let kept = short.clone();
        assert_eq!(
            file.update_summary(&next, &mut short),
            Err(YuvError::SummaryMismatch)
        );
        assert_eq!(short, kept);
        summary.resize(size + 15, 0xee);
        assert_eq!(file.update_summary(&next, &mut summary), Ok(size + 13));
        assert_eq!(summary[size + 13..], [0xee; 2]);
        summary.truncate(size + 13);
        records.push(next);
        let after = file_of(&records.iter().map(Vec::as_slice).collect::<Vec<_>>());
        let grown = ShiftFile::open(&after).unwrap();
        assert!(is_summary(&entries_of(&grown), &summary));
        assert!(grown.check_summary(&summary));
        // Of a file without records every buffer starts with the summary, which is no bytes.
        assert_eq!(file.check_summary(&summary), k == 0);
        let mut built = vec![0; size + 13];
        assert_eq!(grown.build_summary(&mut built), Ok(size + 13));
        assert_eq!(built, summary);
        for crossing in 0..30 {
            let should = grown.records().find(|record| record.crossing == crossing);
            assert_eq!(grown.find_record(&summary, crossing), Ok(should));
        }
    }
}

#[test]
fn what_is_not_one_record_is_refused() {
    let bytes = file_of(&RECORDS);
    let file = ShiftFile::open(&bytes).unwrap();
    let mut good = vec![0xee; 52];
    file.build_summary(&mut good).unwrap();
    let two = [RECORDS[1], RECORDS[0]].concat();
    for length in (0..18).chain(19..=29) {
        let mut summary = good.clone();
        let answer = file.update_summary(&two[..length], &mut summary);
        assert_eq!(
            (answer, &summary),
            (Err(YuvError::MalformedShiftFile), &good)
        );
        // 15 comes before 17.
        let answer = file.update_summary(&two[..length], &mut []);
        assert_eq!(answer, Err(YuvError::MalformedShiftFile));
    }
    let answer = file.update_summary(RECORDS[1], &mut []);
    assert_eq!(answer, Err(YuvError::SummaryMismatch));
}

#[test]
fn as_many_records_as_there_may_be() {
    let records: Vec<Vec<u8>> = (0..4096u32)
        .map(|k| record(k.wrapping_mul(2_654_435_761), 1, 2))
        .collect();
    let all: Vec<&[u8]> = records.iter().map(Vec::as_slice).collect();
    let full = file_of(&all);
    let file = ShiftFile::open(&full).unwrap();
    let mut summary = vec![0; 13 * 4097];
    assert_eq!(file.build_summary(&mut summary), Ok(13 * 4096));
    assert!(file.check_summary(&summary));
    let kept = summary.clone();
    let answer = file.update_summary(&records[0], &mut summary);
    assert_eq!(
        (answer, summary == kept),
        (Err(YuvError::MalformedShiftFile), true)
    );
    let last = u32::from_le_bytes([all[4095][0], all[4095][1], all[4095][2], all[4095][3]]);
    let found = file.find_record(&summary, last).unwrap().unwrap();
    assert_eq!(found.bytes.as_ptr(), full[full.len() - 12..].as_ptr());
    // Of one fewer one more makes it this one.
    let fewer = file_of(&all[..4095]);
    let file_of_fewer = ShiftFile::open(&fewer).unwrap();
    assert_eq!(file_of_fewer.build_summary(&mut summary), Ok(13 * 4095));
    assert_eq!(
        file_of_fewer.update_summary(all[4095], &mut summary),
        Ok(13 * 4096)
    );
    assert!(file.check_summary(&summary) && summary[..13 * 4096] == kept[..13 * 4096]);
}

#[test]
fn no_records() {
    let file = ShiftFile::open(&[0; 4]).unwrap();
    assert_eq!(
        (file.summary_size(), file.build_summary(&mut [])),
        (0, Ok(0))
    );
    assert!(file.check_summary(&[]) && file.check_summary(&[1, 2, 3]));
    assert_eq!(file.find_record(&[], 0), Ok(None));
    let mut summary = [0xee; 13];
    assert_eq!(file.update_summary(RECORDS[1], &mut summary), Ok(13));
    assert_eq!(summary, [0x78, 5, 0, 0, 16, 0, 0, 0, 0, 0, 0, 0, 25]);
}

#[test]
fn the_refusal_says_its_number() {
    let error = YuvError::SummaryMismatch;
    assert_eq!((error.number(), error.size()), (17, None));
    let said = "refused 17: the summary is too short, or not the shift file's";
    assert_eq!(error.to_string(), said);
}
