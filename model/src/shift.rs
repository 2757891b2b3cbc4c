//! The shift file, without settings and with settings: RULES 11.1 and on. It was written from the request and
//! the rules, after the numbers of the exported calls were fixed; no definition, proof or code of `crates` was
//! looked at for the form with settings.
//!
//! Numbers of a file are taken as `u128`, whatever they are, so that no sum wraps: a file of hostile
//! numbers is only one that does not have the right ones.

use crate::frame::Plane;
use crate::refusals::{Answer, Lent, planes, refuse_if};
use crate::settings::{
    YuvChromaSubsampling, chroma_height, chroma_width, matrix_of, plane_rows, range_of,
    sampling_of, transfer_of,
};

/// RULES 11.1, 11.7.
pub const MOST_RECORDS: u64 = 4_096;

/// The bytes of the count and of a pair.
const COUNT: u64 = 4;
const PAIR: u64 = 12;

/// RULES 11.1, 11.7: a file or a record is of one of these.
#[derive(Clone, Copy, Debug, PartialEq)]
pub enum ShiftForm {
    WithoutSettings,
    WithSettings,
}

use ShiftForm::*;

impl ShiftForm {
    /// The bytes of a file before its count.
    fn mark(self) -> &'static [u8] {
        match self {
            WithoutSettings => &[],
            WithSettings => &[0xff; 4],
        }
    }

    /// The bytes of a record before its planes.
    fn header(self) -> u64 {
        match self {
            WithoutSettings => 8,
            WithSettings => 12,
        }
    }

    /// Where the pairs of a file start.
    fn pairs(self) -> u64 {
        self.mark().len() as u64 + COUNT
    }
}

/// RULES 11.7: the codes of sampling, range, matrix and transfer.
pub type Codes = [u8; 4];

/// RULES 11.7: what is said of a setting that is not recorded.
const NOT_RECORDED: u8 = 255;

/// RULES 11.7, 11.8: the codes of a record without settings.
pub const UNSAID: Codes = [0, NOT_RECORDED, NOT_RECORDED, NOT_RECORDED];

/// RULES 1.2, 11.7: the code of a Custom matrix.
const CUSTOM: u8 = 6;

/// RULES 11.7: whether a record may have these.
fn are_settings([sampling, range, matrix, transfer]: Codes) -> bool {
    sampling_of(sampling).is_some()
        && (range == NOT_RECORDED || range_of(range).is_some())
        && (matrix == NOT_RECORDED || matrix == CUSTOM || matrix_of(matrix).is_some())
        && (transfer == NOT_RECORDED || transfer_of(transfer).is_some())
}

/// Some bytes of a file.
#[derive(Clone, Copy, Debug, PartialEq)]
pub struct Part {
    pub offset: u64,
    pub length: u64,
}

/// RULES 11.4: what reading tells of a record.
#[derive(Clone, Copy, Debug, PartialEq)]
pub struct Entry {
    pub crossing: u32,
    pub w: u16,
    pub h: u16,
    pub record: Part,
    pub y: Part,
    pub u: Part,
    pub v: Part,
    pub settings: Codes,
}

impl Entry {
    /// The eleven of the first call, in their order.
    pub fn numbers(&self) -> [u64; 11] {
        let Entry {
            record, y, u, v, ..
        } = self;
        [
            u64::from(self.crossing),
            u64::from(self.w),
            u64::from(self.h),
            record.offset,
            record.length,
            y.offset,
            y.length,
            u.offset,
            u.length,
            v.offset,
            v.length,
        ]
    }

    /// The fifteen of the second.
    pub fn numbers_and_settings(&self) -> [u64; 15] {
        let mut all = [0; 15];
        all[..11].copy_from_slice(&self.numbers());
        all[11..].copy_from_slice(&self.settings.map(u64::from));
        all
    }

    /// RULES 11.7.
    pub fn sampling(&self) -> YuvChromaSubsampling {
        sampling_in(self.settings)
    }
}

/// Of codes that a record has, so that there is one.
fn sampling_in([sampling, ..]: Codes) -> YuvChromaSubsampling {
    sampling_of(sampling).unwrap_or(YuvChromaSubsampling::Yuv420)
}

/// The number in `size` bytes from byte `at` on, low byte first. None: the bytes end before.
fn number(bytes: &[u8], at: u128, size: u64) -> Option<u128> {
    let from = usize::try_from(at).ok()?;
    let until = usize::try_from(at.checked_add(u128::from(size))?).ok()?;
    let digits = bytes.get(from..until)?;
    Some((digits.iter().rev()).fold(0, |number, byte| 256 * number + u128::from(*byte)))
}

fn is_side(side: u128) -> bool {
    (1..=16_384).contains(&side)
}

/// RULES 11.2, 11.7: the bytes of Y, and those of U and of V.
fn plane_sizes(sampling: YuvChromaSubsampling, w: u64, h: u64) -> (u64, u64) {
    (w * h, chroma_width(w) * chroma_height(sampling, h))
}

/// The codes of the record at `at`. None: they are not there, or no record has them.
fn settings_at(form: ShiftForm, bytes: &[u8], at: u128) -> Option<Codes> {
    let codes = match form {
        WithoutSettings => UNSAID,
        WithSettings => {
            let code = |k| number(bytes, at + 8 + k, 1).map(|code| code as u8);
            [code(0)?, code(1)?, code(2)?, code(3)?]
        }
    };
    are_settings(codes).then_some(codes)
}

/// The record whose first bytes stand at `at`; that all of it is there is not looked at. None:
/// they are not there, or are no record's.
fn entry(form: ShiftForm, bytes: &[u8], at: u128) -> Option<Entry> {
    let crossing = number(bytes, at, 4)?;
    let w = number(bytes, at + 4, 2)?;
    let h = number(bytes, at + 6, 2)?;
    let settings = settings_at(form, bytes, at)?;
    if !is_side(w) || !is_side(h) {
        return None;
    }
    let (luma, chroma) = plane_sizes(sampling_in(settings), w as u64, h as u64);
    let offset = at as u64;
    let part = |offset, length| Part { offset, length };
    let y = part(offset + form.header(), luma);
    let u = part(y.offset + luma, chroma);
    let v = part(u.offset + chroma, chroma);
    Some(Entry {
        crossing: crossing as u32,
        w: w as u16,
        h: h as u16,
        record: part(offset, v.offset + chroma - offset),
        y,
        u,
        v,
        settings,
    })
}

/// RULES 11.3: the records of a file of this form. None: these bytes are no such file.
pub fn entries_of(form: ShiftForm, file: &[u8]) -> Option<Vec<Entry>> {
    if !file.starts_with(form.mark()) {
        return None;
    }
    let count = number(file, form.mark().len() as u128, 4)?;
    if count > u128::from(MOST_RECORDS) {
        return None;
    }
    let mut entries = Vec::new();
    let pairs = u128::from(form.pairs());
    let mut follows = pairs + u128::from(PAIR) * count;
    for k in 0..count {
        let pair = pairs + u128::from(PAIR) * k;
        let offset = number(file, pair, 8)?;
        let length = number(file, pair + 8, 4)?;
        if offset != follows {
            return None;
        }
        let entry = entry(form, file, offset)?;
        if length != u128::from(entry.record.length) {
            return None;
        }
        follows += length;
        entries.push(entry);
    }
    (follows == file.len() as u128).then_some(entries)
}

/// RULES 11.3: the form of a file, and its records. None: these bytes are no file.
pub fn entries(file: &[u8]) -> Option<(ShiftForm, Vec<Entry>)> {
    let of = |form| entries_of(form, file).map(|entries| (form, entries));
    of(WithoutSettings).or_else(|| of(WithSettings))
}

/// RULES 11.3: the lengths of records of this form that stand back to back. None: these bytes are not such.
pub fn lengths(form: ShiftForm, records: &[u8]) -> Option<Vec<u64>> {
    let mut lengths = Vec::new();
    let mut at = 0;
    while at != records.len() as u128 {
        let length = entry(form, records, at)?.record.length;
        at += u128::from(length);
        if at > records.len() as u128 {
            return None;
        }
        lengths.push(length);
    }
    (lengths.len() as u64 <= MOST_RECORDS).then_some(lengths)
}

/// RULES 11.1, 11.7: the bytes of the file of records that stand back to back, of these lengths.
fn file_of(form: ShiftForm, records: &[u8], lengths: &[u64]) -> Vec<u8> {
    let count = lengths.len() as u64;
    let mut file = form.mark().to_vec();
    file.extend((count as u32).to_le_bytes());
    let mut offset = form.pairs() + PAIR * count;
    for length in lengths {
        file.extend(offset.to_le_bytes());
        file.extend((*length as u32).to_le_bytes());
        offset += length;
    }
    file.extend(records);
    file
}

/// RULES 11.4, 10.5, of files without settings: how many records the file has, and how many entries of eleven
/// numbers were written.
pub fn read_shift_file(file: &[u8], first: u64, room: &mut [u64]) -> (Answer, u64, u64) {
    match entries_of(WithoutSettings, file) {
        None => (refuse_if(true, 15), 0, 0),
        Some(entries) => {
            let written = put_entries(&entries, first, room, Entry::numbers);
            (Ok(()), entries.len() as u64, written)
        }
    }
}

/// RULES 11.4, 10.5, of files of either form: the same with entries of fifteen numbers, and the form.
pub fn read_any_shift_file(
    file: &[u8],
    first: u64,
    room: &mut [u64],
) -> (Answer, u64, u64, Option<ShiftForm>) {
    match entries(file) {
        None => (refuse_if(true, 15), 0, 0, None),
        Some((form, entries)) => {
            let written = put_entries(&entries, first, room, Entry::numbers_and_settings);
            (Ok(()), entries.len() as u64, written, Some(form))
        }
    }
}

/// As many as there are from `first` on, and as whole groups of N numbers fit: how many.
fn put_entries<const N: usize>(
    entries: &[Entry],
    first: u64,
    room: &mut [u64],
    numbers: fn(&Entry) -> [u64; N],
) -> u64 {
    let asked = entries.iter().skip(first as usize);
    let mut written = 0;
    for (entry, group) in asked.zip(room.chunks_exact_mut(N)) {
        group.copy_from_slice(&numbers(entry));
        written += 1;
    }
    written
}

/// RULES 11.5: the answer and the size.
pub fn write_shift_file(form: ShiftForm, records: &[u8], output: &mut [u8]) -> (Answer, u64) {
    match lengths(form, records) {
        Some(lengths) => put(&file_of(form, records, &lengths), output),
        None => (refuse_if(true, 15), 0),
    }
}

/// What a record is made from, RULES 11.6. The planes stand beside it.
#[derive(Clone, Copy, Debug, PartialEq)]
pub struct RecordRequest {
    pub crossing: u32,
    pub w: u32,
    pub h: u32,
    pub y_stride: u32,
    pub u_stride: u32,
    pub v_stride: u32,
    /// Those of a record with settings, of which any number can be given; none: it is one without.
    pub settings: Option<[u32; 4]>,
}

impl RecordRequest {
    /// The codes of the record. None: no record has such settings.
    fn codes(&self) -> Option<Codes> {
        let Some(numbers) = self.settings else {
            return Some(UNSAID);
        };
        let [sampling, range, matrix, transfer] = numbers.map(|number| u8::try_from(number).ok());
        Some([sampling?, range?, matrix?, transfer?]).filter(|codes| are_settings(*codes))
    }
}

/// RULES 11.6: the answer and the size.
pub fn write_shift_record(
    request: &RecordRequest,
    y: &[u8],
    u: &[u8],
    v: &[u8],
    output: &mut [u8],
) -> (Answer, u64) {
    match record_of(request, y, u, v) {
        Ok(record) => put(&record, output),
        Err(refusal) => (Err(refusal), 0),
    }
}

/// The record's bytes, where none of 15 and 8 to 12 holds.
fn record_of(
    request: &RecordRequest,
    y: &[u8],
    u: &[u8],
    v: &[u8],
) -> Result<Vec<u8>, crate::Refusal> {
    let RecordRequest { crossing, w, h, .. } = *request;
    let sides = is_side(u128::from(w)) && is_side(u128::from(h));
    let codes = request.codes().filter(|_| sides);
    refuse_if(codes.is_none(), 15)?;
    let codes = codes.unwrap_or(UNSAID);
    let (rows, chroma_rows) = plane_rows(sampling_in(codes), h);
    planes(
        u64::from(w),
        Lent::new(y, request.y_stride, rows),
        Lent::new(u, request.u_stride, chroma_rows),
        Lent::new(v, request.v_stride, chroma_rows),
    )?;
    let mut record = crossing.to_le_bytes().to_vec();
    record.extend((w as u16).to_le_bytes());
    record.extend((h as u16).to_le_bytes());
    if request.settings.is_some() {
        record.extend(codes);
    }
    let (w, cw) = (w as usize, w.div_ceil(2) as usize);
    for (bytes, stride, width, rows) in [
        (y, request.y_stride, w, rows),
        (u, request.u_stride, cw, chroma_rows),
        (v, request.v_stride, cw, chroma_rows),
    ] {
        let plane = Plane::new(stride, width);
        for r in 0..rows as usize {
            record.extend(plane.row_of(bytes, r));
        }
    }
    Ok(record)
}

/// RULES 11.8: the answer and the size.
pub fn move_forward(file: &[u8], output: &mut [u8]) -> (Answer, u64) {
    match entries_of(WithoutSettings, file) {
        None => (refuse_if(true, 15), 0),
        Some(entries) => put(&moved(file, &entries, WithSettings), output),
    }
}

/// RULES 11.8: the answer and the size.
pub fn move_back(file: &[u8], output: &mut [u8]) -> (Answer, u64) {
    let Some(entries) = entries_of(WithSettings, file) else {
        return (refuse_if(true, 15), 0);
    };
    if entries.iter().any(|entry| entry.settings != UNSAID) {
        return (refuse_if(true, 20), 0);
    }
    put(&moved(file, &entries, WithoutSettings), output)
}

/// RULES 11.8: the file of this form with the same records; what they say of settings is what a record without says.
fn moved(file: &[u8], entries: &[Entry], to: ShiftForm) -> Vec<u8> {
    let (mut records, mut lengths) = (Vec::new(), Vec::new());
    for entry in entries {
        let (from, y) = (entry.record.offset as usize, entry.y.offset as usize);
        let planes = &file[y..from + entry.record.length as usize];
        let before = records.len();
        records.extend(&file[from..from + 8]);
        if to == WithSettings {
            records.extend(UNSAID);
        }
        records.extend(planes);
        lengths.push((records.len() - before) as u64);
    }
    file_of(to, &records, &lengths)
}

/// RULES 11.5, 11.6, 11.8: 16, or the bytes at the start of the output; and how many they are.
fn put(bytes: &[u8], output: &mut [u8]) -> (Answer, u64) {
    let answer = refuse_if(output.len() < bytes.len(), 16);
    if answer.is_ok() {
        output[..bytes.len()].copy_from_slice(bytes);
    }
    (answer, bytes.len() as u64)
}
