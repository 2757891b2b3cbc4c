//! Summaries of shift files of both forms, RULES 12.1 and on: built, checked, looked up and updated, with good summaries
//! and damaged ones, of good files and broken ones. Every converter that has the calls is held to the list
//! of conditions, to the entries of the records, and to what it must leave alone.

use crate::check::{Case, Converters, equal_answers, equal_bytes};
use crate::conditions;
use crate::converter::Converter;
use crate::random::Random;
use crate::request::hex;
use crate::shift::{
    ShiftForm, any_file, around, equal, fewer, file_of, good_record, good_records, having,
    some_form,
};
use ShiftForm::*;
use model::{Answer, Refusal};

pub const ENTRY: usize = 13;

const MOST: usize = 4_096;

/// What is asked of a file and a summary.
#[derive(Clone, PartialEq)]
pub enum Ask {
    Build,
    Check,
    /// Of this crossing.
    Find(u32),
    /// With this record.
    Update(Vec<u8>),
}

use Ask::*;

/// A call: the file, and the buffer for its summary as it is before.
#[derive(Clone)]
pub struct Summing {
    pub file: Vec<u8>,
    pub buffer: Vec<u8>,
    pub ask: Ask,
}

/// The answer; of a check yes, of a lookup found and the record; and the buffer after the call.
pub type Called = (Answer, [u64; 2], Vec<u8>);

/// RULES 12.2: the largest number that is not above the mean.
fn mean(y: &[u8]) -> u8 {
    let sum = y.iter().fold(0u64, |sum, byte| sum + u64::from(*byte));
    let fits = |mean: &u8| u64::from(*mean) * y.len() as u64 <= sum;
    (0..=u8::MAX).rev().find(fits).expect("0 fits")
}

pub fn crossing_of(bytes: &[u8]) -> u32 {
    u32::from_le_bytes(*bytes.first_chunk().expect("a crossing"))
}

fn luma_of(form: ShiftForm, record: &[u8]) -> &[u8] {
    let side = |at: usize| usize::from(u16::from_le_bytes([record[at], record[at + 1]]));
    &record[conditions::header(form)..][..side(4) * side(6)]
}

/// RULES 12.1: the entries of the records of a file, in their order.
pub fn entries_of(form: ShiftForm, records: &[&[u8]]) -> Vec<[u8; ENTRY]> {
    let mut offset = conditions::start(form, records.len()) as u64;
    let mut entries = Vec::new();
    for record in records {
        let mean = mean(luma_of(form, record));
        let entry = [&record[..4], &offset.to_le_bytes(), &[mean]].concat();
        entries.push(entry.try_into().expect("13 bytes"));
        offset += record.len() as u64;
    }
    entries
}

/// RULES 12.3: whether these bytes are the summary of the records with these entries.
pub fn is_summary_of(entries: &[[u8; ENTRY]], bytes: &[u8]) -> bool {
    bytes == ascending(entries).concat()
}

const BROKEN: Answer = Err(Refusal {
    number: 15,
    expected: 0,
    received: 0,
});

/// What a call must answer, tell and leave.
struct Should {
    answer: Answer,
    told: [u64; 2],
    /// The buffer starts with the summary of these; none: it is as before.
    summary: Option<Vec<[u8; ENTRY]>>,
}

impl Summing {
    pub fn call(&self, converter: &dyn Converter) -> Result<Called, String> {
        let name = converter.name();
        let file = self.file.clone();
        let ((answer, told), buffer) =
            around(name, &self.buffer, 0x55, |buffer| match &self.ask {
                Build => (converter.summary_build(&file, buffer), [0; 2]),
                Check => {
                    let (answer, yes) = converter.summary_check(&file, buffer);
                    (answer, [u64::from(yes), 0])
                }
                Find(crossing) => {
                    let (answer, found) = converter.summary_find(&file, buffer, *crossing);
                    (answer, found.map_or([0; 2], |k| [1, k]))
                }
                Update(record) => (converter.summary_update(&file, record, buffer), [0; 2]),
            })?;
        equal_bytes(name, "the file's", &file, &self.file)?;
        Ok((answer, told, buffer))
    }

    fn should(&self) -> Should {
        let records = conditions::records_of_any(&self.file);
        let refused = |answer: Answer| Should {
            answer,
            told: [0; 2],
            summary: None,
        };
        let form = conditions::form_of(&self.file);
        let added = match &self.ask {
            Update(record) => conditions::records_of(form, record),
            _ => Some(vec![]),
        };
        let (Some((_, records)), Some(added)) = (records, added) else {
            return refused(BROKEN);
        };
        let entries = entries_of(form, &records);
        let start = self.buffer.get(..ENTRY * records.len());
        let yes = start.is_some_and(|start| is_summary_of(&entries, start));
        let grown = [&records[..], &added[..]].concat();
        let answer = conditions::of_summary(&self.ask, grown.len(), added.len(), yes, &self.buffer);
        if answer.is_err() {
            return refused(answer);
        }
        let told = match self.ask {
            Check => [u64::from(yes), 0],
            Find(crossing) => {
                let is = |record: &&[u8]| crossing_of(record) == crossing;
                let found = records.iter().position(is);
                found.map_or([0; 2], |k| [1, k as u64])
            }
            Build | Update(_) => [0; 2],
        };
        let summary = match self.ask {
            Build => Some(entries),
            Update(_) => Some(entries_of(form, &grown)),
            Check | Find(_) => None,
        };
        Should {
            answer,
            told,
            summary,
        }
    }

    /// The buffer after the call.
    fn left(&self, name: &str, after: &[u8], should: &Should) -> Result<(), String> {
        let Some(entries) = &should.summary else {
            return equal_bytes(name, "the buffer's", after, &self.buffer);
        };
        let (is, behind) = after.split_at(ENTRY * entries.len());
        equal_bytes(name, "the summary's", is, &ascending(entries).concat())?;
        let kept = &self.buffer[is.len()..];
        equal_bytes(name, "behind the summary,", behind, kept)
    }

    /// What was built or updated is checked, and an update is held to the building from the grown file.
    fn again(&self, converter: &dyn Converter, after: &[u8]) -> Result<(), String> {
        let name = converter.name();
        let form = conditions::form_of(&self.file);
        let count_of = |file: &[u8]| crossing_of(&file[conditions::start(form, 0) - 4..]) as usize;
        let grown = match &self.ask {
            Build => self.file.clone(),
            Update(record) => {
                let start = conditions::start(form, count_of(&self.file));
                let records = [&self.file[start..], record].concat();
                let mut grown = vec![0; self.file.len() + 12 + record.len()];
                let (answer, _) = converter.shift_write(form, &records, &mut grown);
                equal_answers(name, &answer, &Ok(()))?;
                grown
            }
            Check | Find(_) => return Ok(()),
        };
        let (answer, yes) = converter.summary_check(&grown, after);
        equal_answers(name, &answer, &Ok(()))?;
        equal(name, "the check afterwards", yes, true)?;
        let size = ENTRY * count_of(&grown);
        let mut built = vec![0; size];
        let answer = converter.summary_build(&grown, &mut built);
        equal_answers(name, &answer, &Ok(()))?;
        equal_bytes(name, "built afresh,", &after[..size], &built)
    }
}

impl Case for Summing {
    fn check(&self, converters: &Converters) -> Result<u8, String> {
        let should = self.should();
        for converter in having(converters) {
            let name = converter.name();
            let (answer, told, after) = self.call(converter)?;
            equal_answers(name, &answer, &should.answer)?;
            equal(name, "told", told, should.told)?;
            self.left(name, &after, &should)?;
            if answer.is_ok() {
                self.again(converter, &after)?;
            }
        }
        Ok(should.answer.map_or_else(|refusal| refusal.number, |()| 0))
    }

    fn smaller(&self) -> Vec<Summing> {
        let mut all = Vec::new();
        all.extend(fewer(&self.buffer).into_iter().map(|buffer| Summing {
            buffer,
            ..self.clone()
        }));
        if let Some((form, records)) = conditions::records_of_any(&self.file) {
            // Without a record, and with a summary of the others.
            for k in 0..records.len().min(64) {
                let mut others = records.clone();
                others.remove(k);
                let mut buffer = ascending(&entries_of(form, &others)).concat();
                buffer.resize(buffer.len().max(self.buffer.len()), 0xee);
                all.push(Summing {
                    file: conditions::file_of(form, &others),
                    buffer,
                    ask: self.ask.clone(),
                });
            }
        }
        all.extend(fewer(&self.file).into_iter().map(|file| Summing {
            file,
            ..self.clone()
        }));
        if let Update(record) = &self.ask {
            all.extend(fewer(record).into_iter().map(|record| Summing {
                ask: Update(record),
                ..self.clone()
            }));
        }
        all
    }

    fn text(&self) -> String {
        let (file, buffer) = (hex(&self.file), hex(&self.buffer));
        match &self.ask {
            Build => format!("summary-build {file} {buffer}"),
            Check => format!("summary-check {file} {buffer}"),
            Find(crossing) => format!("summary-find {file} {buffer} {crossing}"),
            Update(record) => format!("summary-update {file} {} {buffer}", hex(record)),
        }
    }

    fn told(&self) -> Option<&'static str> {
        let should = self.should();
        let several = |crossing: u32| {
            let records = records_of(&self.file);
            let is = |record: &&&[u8]| crossing_of(record) == crossing;
            records.iter().filter(is).count() > 1
        };
        Some(match (&self.ask, should.told) {
            _ if should.answer.is_err() => return None,
            (Check, [1, _]) => "yes",
            (Check, _) => "no",
            (Find(crossing), [1, _]) if several(*crossing) => "the first of several",
            (Find(_), [1, _]) => "the only one",
            (Find(_), _) => "none",
            _ => return None,
        })
    }
}

// Random ones.

/// The records of a file of either form; none where there is no file.
pub fn records_of(file: &[u8]) -> Vec<&[u8]> {
    conditions::records_of_any(file).map_or(vec![], |(_, records)| records)
}

/// A summary's entries by crossing, and by offset where crossings are equal.
pub fn ascending(entries: &[[u8; ENTRY]]) -> Vec<[u8; ENTRY]> {
    let mut entries = entries.to_vec();
    entries.sort_by_key(|entry| (crossing_of(entry), offset_of(entry)));
    entries
}

pub fn offset_of(entry: &[u8; ENTRY]) -> u64 {
    u64::from_le_bytes(*entry[4..].first_chunk().expect("an offset"))
}

pub fn set_offset(entry: &mut [u8; ENTRY], offset: u64) {
    entry[4..12].copy_from_slice(&offset.to_le_bytes());
}

/// A way to get a summary wrong.
#[derive(Clone, Copy, Debug, PartialEq)]
pub enum Damage {
    MeanOneMore,
    MeanOneLess,
    MeanRoundedUp,
    MeanOfAllPlanes,
    MeanOfFirstRow,
    OffsetTwelveMore,
    OffsetTwelveLess,
    AllTwelveMore,
    OffsetOfY,
    OffsetsFromRecords,
    OffsetFarHigher,
    CrossingOff,
    CrossingOfAnother,
    ExchangedUnequal,
    ExchangedEqual,
    ExchangedOffsets,
    Doubled,
    DoubledEqual,
    Missing,
    OneByteShort,
    OneEntryShort,
    Short,
    FileOrder,
    Descending,
    HighByteFirst,
    ByLowByte,
    Bit,
    AnyBytes,
}

use Damage::*;

pub const DAMAGES: [(Damage, &str); 28] = [
    (MeanOneMore, "a mean one more"),
    (MeanOneLess, "a mean one less"),
    (MeanRoundedUp, "means rounded up"),
    (MeanOfAllPlanes, "means of all planes"),
    (MeanOfFirstRow, "means of the first rows"),
    (OffsetTwelveMore, "an offset 12 more"),
    (OffsetTwelveLess, "an offset 12 less"),
    (AllTwelveMore, "all offsets 12 more"),
    (OffsetOfY, "offsets of Y"),
    (OffsetsFromRecords, "offsets from the first record on"),
    (OffsetFarHigher, "an offset higher by a power of two"),
    (CrossingOff, "a crossing one more"),
    (CrossingOfAnother, "a crossing of another record"),
    (
        ExchangedUnequal,
        "two entries of unequal crossings exchanged",
    ),
    (ExchangedEqual, "two entries of one crossing exchanged"),
    (ExchangedOffsets, "the offsets of two entries exchanged"),
    (Doubled, "an entry in the place of another"),
    (
        DoubledEqual,
        "an entry in the place of another of its crossing",
    ),
    (Missing, "an entry left out"),
    (OneByteShort, "a byte too short"),
    (OneEntryShort, "an entry too short"),
    (Short, "too short"),
    (FileOrder, "entries in the order of the file"),
    (Descending, "entries by descending crossing"),
    (HighByteFirst, "numbers high byte first"),
    (ByLowByte, "entries sorted by their bytes"),
    (Bit, "a bit"),
    (AnyBytes, "any bytes"),
];

/// The summary with this damage, which may leave it a summary, as of one record an exchange does.
pub fn damaged(
    random: &mut Random,
    damage: Damage,
    form: ShiftForm,
    records: &[&[u8]],
    good: &[[u8; ENTRY]],
) -> Vec<u8> {
    let mut entries = good.to_vec();
    let count = entries.len();
    let start = conditions::start(form, count) as u64;
    let header = conditions::header(form);
    if count == 0 {
        return vec![];
    }
    let k = random.below(count as u64) as usize;
    let other = random.below(count as u64) as usize;
    // Another entry of the same crossing, where there is one; and one of another.
    let near = |same: bool| {
        let is = |i: &usize| *i != k && (crossing_of(&good[*i]) == crossing_of(&good[k])) == same;
        (k + 1..count).chain(0..k).find(is).unwrap_or(k)
    };
    let means = |of: &dyn Fn(&[u8]) -> u8| {
        let mut all = good.to_vec();
        for entry in &mut all {
            let at = offset_of(entry) - start;
            let mut so_far = 0;
            let stands = |record: &&&[u8]| {
                let here = so_far == at;
                so_far += record.len() as u64;
                here
            };
            if let Some(record) = records.iter().find(stands) {
                entry[12] = of(record);
            }
        }
        all
    };
    match damage {
        MeanOneMore => entries[k][12] = entries[k][12].wrapping_add(1),
        MeanOneLess => entries[k][12] = entries[k][12].wrapping_sub(1),
        MeanRoundedUp => {
            entries = means(&|record| {
                let y = luma_of(form, record);
                let sum: u64 = y.iter().map(|byte| u64::from(*byte)).sum();
                sum.div_ceil(y.len() as u64) as u8
            });
        }
        MeanOfAllPlanes => entries = means(&|record| mean(&record[header..])),
        MeanOfFirstRow => {
            entries = means(&|record| {
                let w = usize::from(u16::from_le_bytes([record[4], record[5]]));
                mean(&record[header..header + w])
            });
        }
        OffsetTwelveMore | OffsetTwelveLess => {
            let by = if damage == OffsetTwelveMore { 12 } else { !11 };
            let offset = offset_of(&entries[k]).wrapping_add(by);
            set_offset(&mut entries[k], offset);
        }
        AllTwelveMore | OffsetOfY | OffsetsFromRecords => {
            let by = match damage {
                AllTwelveMore => 12,
                OffsetOfY => header as u64,
                _ => start.wrapping_neg(),
            };
            for entry in &mut entries {
                let offset = offset_of(entry).wrapping_add(by);
                set_offset(entry, offset);
            }
        }
        OffsetFarHigher => {
            let offset = offset_of(&entries[k]) ^ 1 << random.from(30, 63);
            set_offset(&mut entries[k], offset);
        }
        CrossingOff => entries[k][0] = entries[k][0].wrapping_add(1),
        CrossingOfAnother => {
            let crossing = *entries[other].first_chunk::<4>().expect("a crossing");
            entries[k][..4].copy_from_slice(&crossing);
        }
        ExchangedUnequal => entries.swap(k, near(false)),
        ExchangedEqual => entries.swap(k, near(true)),
        ExchangedOffsets => {
            let (one, two) = (offset_of(&entries[k]), offset_of(&entries[other]));
            set_offset(&mut entries[k], two);
            set_offset(&mut entries[other], one);
        }
        Doubled => entries[k] = entries[other],
        DoubledEqual => entries[k] = entries[near(true)],
        Missing => {
            let gone = entries.remove(k);
            let more = random.pick(&[gone, [0; ENTRY], [0xff; ENTRY]]);
            entries.push(more);
        }
        FileOrder => entries.sort_by_key(offset_of),
        Descending => entries.reverse(),
        HighByteFirst => {
            for entry in &mut entries {
                entry[..4].reverse();
                entry[4..12].reverse();
            }
            entries.sort_by_key(|entry| u32::from_be_bytes(*entry.first_chunk().expect("four")));
        }
        ByLowByte => entries.sort(),
        OneByteShort | OneEntryShort | Short | Bit | AnyBytes => {}
    }
    let mut bytes = entries.concat();
    match damage {
        OneByteShort => bytes.truncate(bytes.len() - 1),
        OneEntryShort => bytes.truncate(bytes.len() - ENTRY),
        Short => bytes.truncate(random.below(bytes.len() as u64) as usize),
        Bit => {
            let at = random.below(bytes.len() as u64) as usize;
            bytes[at] ^= 1 << random.below(8);
        }
        AnyBytes => bytes = random.bytes(bytes.len()),
        _ => {}
    }
    bytes
}

/// Now and then entries of one crossing in any order among themselves.
fn in_any_order(random: &mut Random, entries: &[[u8; ENTRY]]) -> Vec<[u8; ENTRY]> {
    let mut entries = ascending(entries);
    if !random.one_in(6) {
        return entries;
    }
    let mut from = 0;
    while from < entries.len() {
        let crossing = crossing_of(&entries[from]);
        let same = entries[from..]
            .iter()
            .take_while(|e| crossing_of(*e) == crossing);
        let until = from + same.count();
        for i in (from + 1..until).rev() {
            let j = random.from(from as u32, i as u32) as usize;
            entries.swap(i, j);
        }
        from = until;
    }
    entries
}

/// Few crossings, so that several records have one.
fn with_few_crossings(random: &mut Random, records: &mut [Vec<u8>]) {
    let any = random.next() as u32;
    let few = [any, any.wrapping_add(1), any ^ 0x100, 0, u32::MAX];
    let few = &few[..random.from(1, 5) as usize];
    for record in records {
        record[..4].copy_from_slice(&random.pick(few).to_le_bytes());
    }
}

/// Flat luma now and then, whose mean is exact, of 0 and 255 too.
fn with_flat_luma(random: &mut Random, form: ShiftForm, records: &mut [Vec<u8>]) {
    for record in records {
        if random.one_in(4) {
            let luma = luma_of(form, record).len();
            let value = random.pick(&[0, 1, 127, 254, 255]);
            record[conditions::header(form)..][..luma].fill(value);
        }
    }
}

/// A file, and a summary of it, good or damaged, with or without bytes behind it.
fn file_and_buffer(random: &mut Random, form: ShiftForm) -> (Vec<u8>, Vec<u8>) {
    let file = if random.one_in(10) {
        any_file(random, form)
    } else {
        let mut records = good_records(random, form);
        if random.one_in(2) {
            with_few_crossings(random, &mut records);
        }
        with_flat_luma(random, form, &mut records);
        file_of(form, &records)
    };
    let Some((form, records)) = conditions::records_of_any(&file) else {
        let length = random.below(80) as usize;
        let buffer = random.bytes(length);
        return (file, buffer);
    };
    let good = in_any_order(random, &entries_of(form, &records));
    let mut buffer = good.concat();
    if random.one_in(2) {
        let (damage, _) = random.pick(&DAMAGES);
        buffer = damaged(random, damage, form, &records, &good);
    }
    (file, buffer)
}

/// More bytes behind the buffer's, often none.
fn and_more(random: &mut Random, buffer: &mut Vec<u8>) {
    let any = random.from(1, 40) as usize;
    let more = random.pick(&[0, 0, 1, 12, 13, 14, any]);
    let more = random.bytes(more);
    buffer.extend(more);
}

/// Each call on a file without settings, and one on a file of either form.
impl Summing {
    pub fn build(random: &mut Random) -> Summing {
        Summing::build_of(random, WithoutSettings)
    }

    pub fn check(random: &mut Random) -> Summing {
        Summing::check_of(random, WithoutSettings)
    }

    pub fn find(random: &mut Random) -> Summing {
        Summing::find_of(random, WithoutSettings)
    }

    pub fn update(random: &mut Random) -> Summing {
        Summing::update_of(random, WithoutSettings)
    }

    pub fn either(random: &mut Random) -> Summing {
        let form = some_form(random);
        match random.below(4) {
            0 => Summing::build_of(random, form),
            1 => Summing::check_of(random, form),
            2 => Summing::find_of(random, form),
            _ => Summing::update_of(random, form),
        }
    }

    fn build_of(random: &mut Random, form: ShiftForm) -> Summing {
        let (file, _) = file_and_buffer(random, form);
        let size =
            ENTRY * conditions::records_of_any(&file).map_or(2, |(_, records)| records.len());
        let any = random.below(size as u64 + 30);
        let length = random.pick(&[size, size, size + 1, size.saturating_sub(1), any as usize]);
        Summing {
            buffer: random.bytes(length),
            file,
            ask: Build,
        }
    }

    fn check_of(random: &mut Random, form: ShiftForm) -> Summing {
        let (file, mut buffer) = file_and_buffer(random, form);
        and_more(random, &mut buffer);
        Summing {
            file,
            buffer,
            ask: Check,
        }
    }

    /// Of a crossing that is there, or near one that is, or of any.
    fn find_of(random: &mut Random, form: ShiftForm) -> Summing {
        let Summing { file, buffer, .. } = Summing::check_of(random, form);
        let records = records_of(&file);
        let any = random.next() as u32;
        let there = match records.len() as u64 {
            0 => any,
            count => crossing_of(records[random.below(count) as usize]),
        };
        let near = [there.wrapping_add(1), there.wrapping_sub(1), there ^ 0x100];
        let crossing = match random.below(4) {
            0 => random.pick(&near),
            1 => random.pick(&[0, u32::MAX, any]),
            _ => there,
        };
        Summing {
            file,
            buffer,
            ask: Find(crossing),
        }
    }

    /// With a record of the file's form; where that is the one with settings, now and then of the other.
    fn update_of(random: &mut Random, form: ShiftForm) -> Summing {
        let (file, mut buffer) = file_and_buffer(random, form);
        let count = conditions::records_of_any(&file).map_or(2, |(_, records)| records.len());
        let mut record = good_record(random, form, 9);
        if count > 0 && random.one_in(2) {
            let at = conditions::start(form, count);
            if let Some(crossing) = file.get(at..at + 4) {
                record[..4].copy_from_slice(crossing);
            }
        }
        if random.one_in(6) {
            record = no_record(random, form, record);
        }
        if form == WithSettings && random.one_in(12) {
            record = good_record(random, WithoutSettings, 9);
        }
        // Room for one entry more: exactly, a byte less, more, or none.
        let any = random.below(60) as usize;
        let more = random.pick(&[ENTRY, ENTRY, ENTRY, ENTRY + 1, ENTRY - 1, 0, any]);
        let length = (ENTRY * count + more).max(buffer.len());
        let bytes = random.bytes(length - buffer.len());
        buffer.extend(bytes);
        Summing {
            file,
            buffer,
            ask: Update(record),
        }
    }
}

/// Bytes that are not one record, but for a change of a plane.
fn no_record(random: &mut Random, form: ShiftForm, mut record: Vec<u8>) -> Vec<u8> {
    match random.below(8) {
        0 => vec![],
        1 => {
            record.pop();
            record
        }
        2 => {
            record.push(random.next() as u8);
            record
        }
        3 => [record, good_record(random, form, 3)].concat(),
        4 => {
            let side = random.pick(&[4, 6]);
            let value: u16 = random.pick(&[0, 16_385, 65_535]);
            record[side..side + 2].copy_from_slice(&value.to_le_bytes());
            record
        }
        5 => record[..random.below(9) as usize].to_vec(),
        6 => file_of(form, &[record]),
        _ => {
            let at = random.below(record.len() as u64) as usize;
            record[at] ^= 1 << random.below(8);
            record
        }
    }
}

/// Files of as many records as there may be, which no update makes longer.
pub fn full(random: &mut Random) -> Summing {
    full_of(random, WithoutSettings)
}

pub fn full_with_settings(random: &mut Random) -> Summing {
    full_of(random, WithSettings)
}

fn full_of(random: &mut Random, form: ShiftForm) -> Summing {
    let count = random.pick(&[MOST - 2, MOST - 1, MOST]);
    let mut records: Vec<Vec<u8>> = (0..count).map(|_| good_record(random, form, 1)).collect();
    if random.one_in(2) {
        with_few_crossings(random, &mut records);
    }
    let file = file_of(form, &records);
    let lent: Vec<&[u8]> = records.iter().map(Vec::as_slice).collect();
    let mut buffer = in_any_order(random, &entries_of(form, &lent)).concat();
    let more = random.pick(&[ENTRY, ENTRY, ENTRY - 1]);
    let bytes = random.bytes(more);
    buffer.extend(bytes);
    Summing {
        file,
        buffer,
        ask: Update(good_record(random, form, 3)),
    }
}
