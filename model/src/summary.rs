//! The summary of a shift file: RULES 12.1 and on.

use crate::refusals::{Answer, refuse_if};
use crate::shift::{self, MOST_RECORDS};

/// RULES 12.1: the bytes of an entry.
pub const ENTRY: usize = 13;

/// RULES 12.1: what a summary says of a record.
#[derive(Clone, Copy, Debug, PartialEq, Eq, PartialOrd, Ord)]
pub struct SummaryEntry {
    pub crossing: u32,
    pub offset: u64,
    pub mean: u8,
}

impl SummaryEntry {
    fn to_bytes(self) -> [u8; ENTRY] {
        let mut bytes = [0; ENTRY];
        bytes[..4].copy_from_slice(&self.crossing.to_le_bytes());
        bytes[4..12].copy_from_slice(&self.offset.to_le_bytes());
        bytes[12] = self.mean;
        bytes
    }

    fn of_bytes(bytes: &[u8; ENTRY]) -> SummaryEntry {
        let [c0, c1, c2, c3, o0, o1, o2, o3, o4, o5, o6, o7, mean] = *bytes;
        SummaryEntry {
            crossing: u32::from_le_bytes([c0, c1, c2, c3]),
            offset: u64::from_le_bytes([o0, o1, o2, o3, o4, o5, o6, o7]),
            mean,
        }
    }
}

/// RULES 12.2: the bytes of a plane are never none.
fn mean_luma(y: &[u8]) -> u8 {
    let sum: u128 = y.iter().map(|byte| u128::from(*byte)).sum();
    (sum / y.len() as u128) as u8
}

/// The entries of a file's records, in the order of the file. None: these bytes are no file.
fn entries_of(file: &[u8]) -> Option<Vec<SummaryEntry>> {
    let (_, records) = shift::entries(file)?;
    let entry = |record: &shift::Entry| {
        let (from, length) = (record.y.offset as usize, record.y.length as usize);
        SummaryEntry {
            crossing: record.crossing,
            offset: record.record.offset,
            mean: mean_luma(&file[from..from + length]),
        }
    };
    Some(records.iter().map(entry).collect())
}

/// RULES 12.3: whether a summary may have its entries in this order. No two offsets are the same.
fn in_order(entries: &[SummaryEntry]) -> bool {
    entries.is_sorted_by(|a, b| (a.crossing, a.offset) < (b.crossing, b.offset))
}

/// RULES 12.3: whether the buffer's first bytes are the summary of these records.
fn is_summary(of: &[SummaryEntry], buffer: &[u8]) -> bool {
    let Some(bytes) = buffer.get(..ENTRY * of.len()) else {
        return false;
    };
    let (entries, _) = bytes.as_chunks();
    let mut entries: Vec<SummaryEntry> = entries.iter().map(SummaryEntry::of_bytes).collect();
    let (ordered, mut all) = (in_order(&entries), of.to_vec());
    entries.sort();
    all.sort();
    ordered && entries == all
}

/// RULES 12.4, 12.7: the summary of these records, at the start of the buffer.
fn put_summary(mut entries: Vec<SummaryEntry>, buffer: &mut [u8]) {
    entries.sort_by_key(|entry| (entry.crossing, entry.offset));
    for (entry, bytes) in entries.into_iter().zip(buffer.chunks_exact_mut(ENTRY)) {
        bytes.copy_from_slice(&entry.to_bytes());
    }
}

/// RULES 12.4.
pub fn build_summary(file: &[u8], buffer: &mut [u8]) -> Answer {
    let entries = entries_of(file);
    refuse_if(entries.is_none(), 15)?;
    let entries = entries.unwrap_or_default();
    refuse_if(buffer.len() < ENTRY * entries.len(), 17)?;
    put_summary(entries, buffer);
    Ok(())
}

/// RULES 12.5: the answer, and whether it says yes.
pub fn check_summary(file: &[u8], buffer: &[u8]) -> (Answer, bool) {
    match entries_of(file) {
        Some(entries) => (Ok(()), is_summary(&entries, buffer)),
        None => (refuse_if(true, 15), false),
    }
}

/// RULES 12.6: the answer, and the number of the record, where there is one.
pub fn find_record(file: &[u8], buffer: &[u8], crossing: u32) -> (Answer, Option<u64>) {
    let (answer, yes) = check_summary(file, buffer);
    let answer = answer.and_then(|()| refuse_if(!yes, 17));
    let entries = entries_of(file).filter(|_| answer.is_ok());
    let found = entries.and_then(|entries| {
        let of_crossing = |(_, entry): &(u64, &SummaryEntry)| entry.crossing == crossing;
        let some = (0..).zip(&entries).filter(of_crossing);
        some.min_by_key(|(_, entry)| entry.offset).map(|(k, _)| k)
    });
    (answer, found)
}

/// RULES 12.7.
pub fn update_summary(file: &[u8], record: &[u8], buffer: &mut [u8]) -> Answer {
    let grown = grown_file(file, record);
    refuse_if(grown.is_none(), 15)?;
    let entries = grown
        .and_then(|grown| entries_of(&grown))
        .unwrap_or_default();
    let (_, yes) = check_summary(file, buffer);
    refuse_if(buffer.len() < ENTRY * entries.len() || !yes, 17)?;
    put_summary(entries, buffer);
    Ok(())
}

/// RULES 12.7: the file of a file's records and of one more, all of one form. None: one of them is none, or there
/// are too many.
fn grown_file(file: &[u8], record: &[u8]) -> Option<Vec<u8>> {
    let (form, records) = shift::entries(file)?;
    let one = shift::lengths(form, record)?.len() == 1;
    if !one || records.len() as u64 == MOST_RECORDS {
        return None;
    }
    // Records stand back to back from the first one on.
    let first = records
        .first()
        .map_or(file.len(), |record| record.record.offset as usize);
    let all = [&file[first..], record].concat();
    let mut grown = vec![0; file.len() + 12 + record.len()];
    let (answer, _) = shift::write_shift_file(form, &all, &mut grown);
    answer.ok().map(|()| grown)
}
