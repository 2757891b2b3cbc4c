//! Shift files of both forms, RULES 11.1 and on: good and broken files read, records written, records
//! made from planes, files moved from one form to the other, and frames that go all the way. Every
//! converter that has the calls is held to the list of conditions, to the bytes of the list of records,
//! and to what it must leave alone.

use crate::check::{Case, Converters, equal_answers, equal_bytes, frame_of};
use crate::conditions::{self, UNSAID};
use crate::converter::Converter;
use crate::random::{self, Random};
use crate::request::{FrameRequest, frame_text, hex};
use crate::stored::settings_codes;
use ShiftForm::*;
use model::shift::RecordRequest;
pub use model::shift::ShiftForm;
use model::{Answer, Refusal};

/// The numbers of an entry, and of one with settings.
pub const ENTRY: usize = 11;
pub const ANY_ENTRY: usize = 15;

const MOST: usize = 4_096;

const BROKEN: Answer = Err(Refusal {
    number: 15,
    expected: 0,
    received: 0,
});

fn number(answer: &Answer) -> u8 {
    answer.map_or_else(|refusal| refusal.number, |()| 0)
}

/// Those that have the calls.
pub fn having(converters: &Converters) -> impl Iterator<Item = &dyn Converter> {
    let having = converters.iter().filter(|one| one.has_shift_files());
    having.map(|converter| &**converter)
}

pub fn equal<T: PartialEq + std::fmt::Debug>(
    name: &str,
    what: &str,
    is: T,
    should: T,
) -> Result<(), String> {
    if is == should {
        return Ok(());
    }
    Err(format!("{name}: {what} {is:?}, should be {should:?}"))
}

/// What is lent for writing, with other values around it.
pub fn around<T: Copy + PartialEq, R>(
    name: &str,
    values: &[T],
    other: T,
    call: impl FnOnce(&mut [T]) -> R,
) -> Result<(R, Vec<T>), String> {
    const BESIDE: usize = 16;
    let mut lent = vec![other; values.len() + 2 * BESIDE];
    let end = BESIDE + values.len();
    lent[BESIDE..end].copy_from_slice(values);
    let result = call(&mut lent[BESIDE..end]);
    let beside = lent[..BESIDE].iter().chain(&lent[end..]);
    if beside.into_iter().any(|value| *value != other) {
        return Err(format!("{name} writes beside what it was lent"));
    }
    Ok((result, lent[BESIDE..end].to_vec()))
}

/// A file that is read from a record on.
#[derive(Clone)]
pub struct Reading {
    /// By the call that takes either form.
    pub any: bool,
    pub file: Vec<u8>,
    pub first: u64,
    /// The numbers lent for entries, as they are before.
    pub entries: Vec<u64>,
}

/// RULES 11.4, worked out from the records.
fn entries_of(form: ShiftForm, records: &[&[u8]]) -> Vec<[u64; ANY_ENTRY]> {
    let mut at = conditions::start(form, records.len()) as u64;
    let mut entries = Vec::new();
    for record in records {
        let low_first = |from: usize, size: usize| {
            let bytes = record[from..from + size].iter().rev();
            bytes.fold(0, |all, byte| all << 8 | u64::from(*byte))
        };
        let (crossing, w, h) = (low_first(0, 4), low_first(4, 2), low_first(6, 2));
        let (length, luma) = (record.len() as u64, w * h);
        let header = conditions::header(form) as u64;
        let chroma = (length - header - luma) / 2;
        let (y, u) = (at + header, at + header + luma);
        let v = u + chroma;
        let [a, b, c, d] = conditions::settings_of(form, record).map(u64::from);
        entries.push([
            crossing, w, h, at, length, y, luma, u, chroma, v, chroma, a, b, c, d,
        ]);
        at += length;
    }
    entries
}

impl Reading {
    /// The numbers of an entry.
    pub fn entry(&self) -> usize {
        if self.any { ANY_ENTRY } else { ENTRY }
    }

    /// One call: the answer, the numbers told, the form being 0 where it is not asked for, and the numbers that were
    /// lent.
    pub fn call(&self, converter: &dyn Converter) -> Result<Called, String> {
        let name = converter.name();
        let file = self.file.clone();
        let ((answer, told), entries) =
            around(name, &self.entries, !0, |entries| match self.any {
                true => converter.shift_records_any(&file, self.first, entries),
                false => {
                    let (answer, count, written) =
                        converter.shift_records(&file, self.first, entries);
                    (answer, [count, written, 0])
                }
            })?;
        equal_bytes(name, "the file's", &file, &self.file)?;
        Ok((answer, told, entries))
    }

    /// The form and the records, where the call takes the file.
    fn records(&self) -> Option<(ShiftForm, Vec<&[u8]>)> {
        let taken = |form: &ShiftForm| self.any || *form == WithoutSettings;
        conditions::records_of_any(&self.file).filter(|(form, _)| taken(form))
    }

    /// What it must answer, tell and leave.
    pub fn should(&self) -> Called {
        let Some((form, records)) = self.records() else {
            return (BROKEN, [0; 3], self.entries.clone());
        };
        let all = entries_of(form, &records);
        let mut entries = self.entries.clone();
        let mut written = 0;
        let asked = all.iter().skip(self.first as usize);
        for (entry, room) in asked.zip(entries.chunks_exact_mut(self.entry())) {
            room.copy_from_slice(&entry[..self.entry()]);
            written += 1;
        }
        let told = [
            records.len() as u64,
            written,
            u64::from(form == WithSettings),
        ];
        (Ok(()), told, entries)
    }
}

/// The answer, what is told beside it, and what was lent for writing, as it is after the call.
type Called = (Answer, [u64; 3], Vec<u64>);

impl Case for Reading {
    /// A file that was read, rewritten, is the same bytes.
    fn check(&self, converters: &Converters) -> Result<u8, String> {
        let should = self.should();
        for converter in having(converters) {
            let name = converter.name();
            let (answer, told, entries) = self.call(converter)?;
            equal_answers(name, &answer, &should.0)?;
            equal(name, "records, entries and form", told, should.1)?;
            equal(name, "entries", &entries, &should.2)?;
            if answer.is_ok() {
                let form = conditions::form_of(&self.file);
                let tail = &self.file[conditions::start(form, told[0] as usize)..];
                let mut output = vec![0xee; self.file.len()];
                let (answer, size) = converter.shift_write(form, tail, &mut output);
                equal_answers(name, &answer, &Ok(()))?;
                equal(name, "rewritten, size", size, output.len() as u64)?;
                equal_bytes(name, "rewritten,", &output, &self.file)?;
            }
        }
        Ok(number(&should.0))
    }

    fn smaller(&self) -> Vec<Reading> {
        let mut all = Vec::new();
        for entries in [0, self.entries.len() / 2] {
            let entries = self.entries[..entries].to_vec();
            all.extend((entries.len() < self.entries.len()).then(|| Reading {
                entries,
                ..self.clone()
            }));
        }
        all.extend((self.first > 0).then(|| Reading {
            first: 0,
            ..self.clone()
        }));
        all.extend(fewer(&self.file).into_iter().map(|file| Reading {
            file,
            ..self.clone()
        }));
        all
    }

    fn text(&self) -> String {
        let (first, room) = (self.first, self.entries.len());
        let call = match self.any {
            true => "shift-records-any",
            false => "shift-records",
        };
        format!("{call} {} {first} {room}", hex(&self.file))
    }

    fn told(&self) -> Option<&'static str> {
        let form = self.records().filter(|_| self.any)?.0;
        Some(match form {
            WithoutSettings => "without settings",
            WithSettings => "with settings",
        })
    }
}

/// The same bytes without some of them, half, and fewer and fewer.
pub fn fewer(bytes: &[u8]) -> Vec<Vec<u8>> {
    let mut all = Vec::new();
    let mut size = bytes.len() / 2;
    while size > 0 {
        for from in (0..bytes.len()).step_by(size).take(64) {
            let end = (from + size).min(bytes.len());
            all.push([&bytes[..from], &bytes[end..]].concat());
        }
        size /= 2;
    }
    all
}

/// Records that are written to an output.
#[derive(Clone)]
pub struct Writing {
    pub form: ShiftForm,
    pub records: Vec<u8>,
    /// As it is before.
    pub output: Vec<u8>,
}

/// The answer, the size, and the output after the call.
type Written = (Answer, u64, Vec<u8>);

impl Writing {
    pub fn call(&self, converter: &dyn Converter) -> Result<Written, String> {
        let name = converter.name();
        let records = self.records.clone();
        let ((answer, size), output) = around(name, &self.output, 0x55, |output| {
            converter.shift_write(self.form, &records, output)
        })?;
        equal_bytes(name, "the records'", &records, &self.records)?;
        Ok((answer, size, output))
    }

    pub fn should(&self) -> Written {
        let (form, room) = (self.form, self.output.len());
        let records = conditions::records_of(form, &self.records);
        let (answer, size) = conditions::of_shift_write(form, records.as_deref(), room);
        let mut output = self.output.clone();
        if let (Ok(()), Some(records)) = (answer, records) {
            output[..size as usize].copy_from_slice(&conditions::file_of(form, &records));
        }
        (answer, size, output)
    }
}

impl Case for Writing {
    /// Records that were written read back the same.
    fn check(&self, converters: &Converters) -> Result<u8, String> {
        let should = self.should();
        for converter in having(converters) {
            let name = converter.name();
            let (answer, size, output) = self.call(converter)?;
            equal_answers(name, &answer, &should.0)?;
            equal(name, "size", size, should.1)?;
            equal_bytes(name, "output", &output, &should.2)?;
            let records = conditions::records_of(self.form, &self.records);
            if let (Ok(()), Some(records)) = (answer, records) {
                let any = self.form == WithSettings;
                let mut read = Reading {
                    any,
                    file: output[..size as usize].to_vec(),
                    first: 0,
                    entries: vec![],
                };
                read.entries = vec![0; read.entry() * records.len()];
                let (answer, told, entries) = read.call(converter)?;
                equal_answers(name, &answer, &Ok(()))?;
                let count = records.len() as u64;
                equal(name, "records", told, [count, count, u64::from(any)])?;
                for (entry, record) in entries.chunks_exact(read.entry()).zip(&records) {
                    let (from, length) = (entry[3] as usize, entry[4] as usize);
                    let is = &read.file[from..from + length];
                    equal_bytes(name, "a record that is read back,", is, record)?;
                }
            }
        }
        Ok(number(&should.0))
    }

    fn smaller(&self) -> Vec<Writing> {
        let half = self.output[..self.output.len() / 2].to_vec();
        let mut all = vec![];
        all.extend((!self.output.is_empty()).then(|| Writing {
            output: half,
            ..self.clone()
        }));
        all.extend(fewer(&self.records).into_iter().map(|records| Writing {
            records,
            ..self.clone()
        }));
        all
    }

    fn text(&self) -> String {
        let call = match self.form {
            WithoutSettings => "shift-write",
            WithSettings => "shift-write-settings",
        };
        format!("{call} {} {}", hex(&self.records), hex(&self.output))
    }
}

/// Planes that are made a record.
#[derive(Clone)]
pub struct Making {
    pub request: RecordRequest,
    pub planes: [Vec<u8>; 3],
    /// As it is before.
    pub output: Vec<u8>,
}

impl Making {
    pub fn call(&self, converter: &dyn Converter) -> Result<Written, String> {
        let name = converter.name();
        let planes = self.planes.clone();
        let ((answer, size), output) = around(name, &self.output, 0x55, |output| {
            converter.shift_record(&self.request, &planes, output)
        })?;
        for (i, plane) in ["Y", "U", "V"].into_iter().enumerate() {
            equal_bytes(name, plane, &planes[i], &self.planes[i])?;
        }
        Ok((answer, size, output))
    }

    pub fn should(&self) -> Written {
        let r = &self.request;
        let (answer, size) = conditions::of_shift_record(r, &self.planes, self.output.len());
        let mut output = self.output.clone();
        if answer.is_ok() {
            let mut record = [u64::from(r.crossing), u64::from(r.w), u64::from(r.h)]
                .into_iter()
                .zip([4, 2, 2])
                .flat_map(|(value, size)| value.to_le_bytes()[..size].to_vec())
                .collect::<Vec<u8>>();
            record.extend(r.settings.into_iter().flatten().map(|code| code as u8));
            let (row, chroma) = (r.w as usize, r.w.div_ceil(2) as usize);
            for (plane, (stride, row)) in self.planes.iter().zip([
                (r.y_stride, row),
                (r.u_stride, chroma),
                (r.v_stride, chroma),
            ]) {
                for padded in plane.chunks(stride as usize) {
                    record.extend(&padded[..row]);
                }
            }
            output[..size as usize].copy_from_slice(&record);
        }
        (answer, size, output)
    }
}

impl Case for Making {
    fn check(&self, converters: &Converters) -> Result<u8, String> {
        let should = self.should();
        for converter in having(converters) {
            let name = converter.name();
            let (answer, size, output) = self.call(converter)?;
            equal_answers(name, &answer, &should.0)?;
            equal(name, "size", size, should.1)?;
            equal_bytes(name, "output", &output, &should.2)?;
            if answer.is_ok() {
                // A file of it has it.
                let form = conditions::form_asked(&self.request);
                let start = conditions::start(form, 1);
                let mut file = vec![0; start + size as usize];
                let record = &output[..size as usize];
                let (answer, _) = converter.shift_write(form, record, &mut file);
                equal_answers(name, &answer, &Ok(()))?;
                equal_bytes(name, "its file's record,", &file[start..], record)?;
            }
        }
        Ok(number(&should.0))
    }

    fn smaller(&self) -> Vec<Making> {
        let mut all = Vec::new();
        let half = self.output[..self.output.len() / 2].to_vec();
        all.extend((!self.output.is_empty()).then(|| Making {
            output: half,
            ..self.clone()
        }));
        for i in 0..3 {
            let mut planes = self.planes.clone();
            let length = planes[i].len();
            planes[i].truncate(length / 2);
            all.extend((length > 0).then(|| Making {
                planes,
                ..self.clone()
            }));
        }
        all
    }

    fn text(&self) -> String {
        let r = &self.request;
        let [y, u, v] = self.planes.each_ref().map(|plane| hex(plane));
        let (crossing, w, h) = (r.crossing, r.w, r.h);
        let (a, b, c) = (r.y_stride, r.u_stride, r.v_stride);
        let output = hex(&self.output);
        let (call, four) = match r.settings {
            None => ("shift-record", String::new()),
            Some([s, r, m, t]) => ("shift-record-settings", format!(" {s} {r} {m} {t}")),
        };
        format!("{call} {crossing} {w} {h} {a} {b} {c}{four} {y} {u} {v} {output}")
    }
}

/// A file that is moved to a form: forward to that with settings, back to that without.
#[derive(Clone)]
pub struct Moving {
    pub to: ShiftForm,
    pub file: Vec<u8>,
    /// As it is before.
    pub output: Vec<u8>,
}

/// RULES 11.8.
fn moved(to: ShiftForm, record: &[u8]) -> Vec<u8> {
    let (start, planes) = record.split_at(conditions::header(conditions::from(to)));
    let four = match to {
        WithSettings => &UNSAID[..],
        WithoutSettings => &[],
    };
    [&start[..8], four, planes].concat()
}

impl Moving {
    pub fn call(&self, converter: &dyn Converter) -> Result<Written, String> {
        let name = converter.name();
        let file = self.file.clone();
        let ((answer, size), output) = around(name, &self.output, 0x55, |output| {
            converter.shift_move(self.to, &file, output)
        })?;
        equal_bytes(name, "the file's", &file, &self.file)?;
        Ok((answer, size, output))
    }

    pub fn should(&self) -> Written {
        let records = conditions::records_of_file(conditions::from(self.to), &self.file);
        let records = records.filter(|_| conditions::form_of(&self.file) != self.to);
        let room = self.output.len();
        let (answer, size) = conditions::of_move(self.to, records.as_deref(), room);
        let mut output = self.output.clone();
        if let (Ok(()), Some(records)) = (answer, records) {
            let moved: Vec<Vec<u8>> = records.iter().map(|one| moved(self.to, one)).collect();
            output[..size as usize].copy_from_slice(&file_of(self.to, &moved));
        }
        (answer, size, output)
    }
}

impl Case for Moving {
    /// What was moved comes back as the same bytes.
    fn check(&self, converters: &Converters) -> Result<u8, String> {
        let should = self.should();
        for converter in having(converters) {
            let name = converter.name();
            let (answer, size, output) = self.call(converter)?;
            equal_answers(name, &answer, &should.0)?;
            equal(name, "size", size, should.1)?;
            equal_bytes(name, "output", &output, &should.2)?;
            if answer.is_ok() {
                let mut again = vec![0; self.file.len()];
                let from = conditions::from(self.to);
                let moved = &output[..size as usize];
                let (answer, size) = converter.shift_move(from, moved, &mut again);
                equal_answers(name, &answer, &Ok(()))?;
                equal(name, "size, moved again", size, again.len() as u64)?;
                equal_bytes(name, "moved again,", &again, &self.file)?;
            }
        }
        Ok(number(&should.0))
    }

    fn smaller(&self) -> Vec<Moving> {
        let mut all = Vec::new();
        let half = self.output[..self.output.len() / 2].to_vec();
        all.extend((!self.output.is_empty()).then(|| Moving {
            output: half,
            ..self.clone()
        }));
        if let Some((form, records)) = conditions::records_of_any(&self.file) {
            for k in 0..records.len().min(64) {
                let mut others = records.clone();
                others.remove(k);
                all.push(Moving {
                    file: conditions::file_of(form, &others),
                    ..self.clone()
                });
            }
        }
        all.extend(fewer(&self.file).into_iter().map(|file| Moving {
            file,
            ..self.clone()
        }));
        all
    }

    fn text(&self) -> String {
        let call = match self.to {
            WithSettings => "shift-forward",
            WithoutSettings => "shift-back",
        };
        format!("{call} {} {}", hex(&self.file), hex(&self.output))
    }
}

/// Frames that are converted, made records one behind the other, and put in one file; those of a file without
/// settings are 4:2:0.
#[derive(Clone)]
pub struct Shift {
    pub form: ShiftForm,
    pub frames: Vec<(u32, FrameRequest)>,
}

impl Case for Shift {
    /// The file is the same by every converter, and its records have the planes of the frame calls, and their
    /// settings.
    fn check(&self, converters: &Converters) -> Result<u8, String> {
        let mut first: Option<Vec<u8>> = None;
        for converter in having(converters) {
            let file = self.file(converter)?;
            let name = converter.name();
            equal_bytes(name, "file", &file, first.get_or_insert(file.clone()))?;
            let count = self.frames.len();
            let mut entries = vec![0; ANY_ENTRY * count];
            let (answer, told) = converter.shift_records_any(&file, 0, &mut entries);
            equal_answers(name, &answer, &Ok(()))?;
            let form = u64::from(self.form == WithSettings);
            equal(name, "records", told, [count as u64, count as u64, form])?;
            for ((crossing, request), entry) in
                self.frames.iter().zip(entries.chunks_exact(ANY_ENTRY))
            {
                let (_, after) = frame_of(converter, request);
                let (w, h) = (request.frame.w, request.frame.h);
                equal(
                    name,
                    "record",
                    &entry[..3],
                    &[*crossing, w, h].map(u64::from),
                )?;
                let settings = match self.form {
                    WithSettings => settings_codes(&request.frame.settings),
                    WithoutSettings => UNSAID.map(u32::from),
                };
                equal(name, "settings", &entry[11..], &settings.map(u64::from))?;
                for i in 1..4 {
                    let part = &entry[3 + 2 * i..5 + 2 * i];
                    let bytes = &file[part[0] as usize..][..part[1] as usize];
                    let (stride, row) = (after.strides()[i] as usize, after.shapes()[i].row);
                    let rows = after.lent[i].chunks(stride);
                    let plane: Vec<u8> =
                        (rows.flat_map(|padded| &padded[..row as usize]).copied()).collect();
                    equal_bytes(name, "a plane of a record,", bytes, &plane)?;
                }
            }
        }
        Ok(0)
    }

    fn smaller(&self) -> Vec<Shift> {
        let without = |k| {
            let mut frames = self.frames.clone();
            frames.remove(k);
            let form = self.form;
            Shift { form, frames }
        };
        (0..self.frames.len()).map(without).collect()
    }

    fn text(&self) -> String {
        let line = |(crossing, request): &(u32, FrameRequest)| {
            format!("crossing {crossing} {}", frame_text(request))
        };
        self.frames.iter().map(line).collect::<Vec<_>>().join("\n")
    }

    fn size(&self) -> Option<(u32, u32)> {
        let (_, request) = self.frames.first()?;
        Some((request.frame.w, request.frame.h))
    }
}

impl Shift {
    /// As a user goes about it: memory for all records, and then for the file, as the calls tell.
    fn file(&self, converter: &dyn Converter) -> Result<Vec<u8>, String> {
        let name = converter.name();
        let mut records = Vec::new();
        for (crossing, request) in &self.frames {
            let (answer, after) = frame_of(converter, request);
            equal_answers(name, &answer, &Ok(()))?;
            let f = &request.frame;
            let with = self.form == WithSettings;
            let request = RecordRequest {
                crossing: *crossing,
                w: f.w,
                h: f.h,
                y_stride: f.y_stride,
                u_stride: f.u_stride,
                v_stride: f.v_stride,
                settings: with.then(|| settings_codes(&f.settings)),
            };
            let [_, y, u, v] = after.lent;
            let planes = [y, u, v];
            let (short, size) = converter.shift_record(&request, &planes, &mut []);
            equal(name, "no output", number(&short), 16)?;
            let used = records.len();
            records.resize(used + size as usize, 0);
            let (answer, _) = converter.shift_record(&request, &planes, &mut records[used..]);
            equal_answers(name, &answer, &Ok(()))?;
        }
        let (short, size) = converter.shift_write(self.form, &records, &mut []);
        equal(name, "no output", number(&short), 16)?;
        let mut file = vec![0; size as usize];
        let (answer, _) = converter.shift_write(self.form, &records, &mut file);
        equal_answers(name, &answer, &Ok(()))?;
        Ok(file)
    }
}

// Random ones.

/// A record of this size: any crossing, any bytes. `chroma` is the bytes of U and of V.
fn record_of(
    random: &mut Random,
    settings: Option<[u8; 4]>,
    w: u16,
    h: u16,
    chroma: u64,
) -> Vec<u8> {
    let mut record = crossing(random).to_le_bytes().to_vec();
    record.extend(w.to_le_bytes());
    record.extend(h.to_le_bytes());
    record.extend(settings.into_iter().flatten());
    let luma = u64::from(w) * u64::from(h);
    record.extend(random.bytes((luma + 2 * chroma) as usize));
    record
}

fn crossing(random: &mut Random) -> u32 {
    let any = random.next() as u32;
    random.pick(&[0, 1, 2, 1_400, u32::MAX, any])
}

fn chroma_of(settings: Option<[u8; 4]>, w: u16, h: u16) -> u64 {
    let sampling = settings.map_or(0, |[sampling, ..]| sampling);
    let [cw, ch] = conditions::chroma_sides(sampling, w.into(), h.into());
    u64::from(cw) * u64::from(ch)
}

/// Settings that a record may have; every fourth time those of one that was moved forward.
fn some_settings(random: &mut Random) -> [u8; 4] {
    if random.one_in(4) {
        return UNSAID;
    }
    let mut code = |last: u64| match random.below(3) {
        0 => 255,
        _ => random.below(last + 1) as u8,
    };
    let (range, matrix, transfer) = (code(1), code(6), code(3));
    [random.below(2) as u8, range, matrix, transfer]
}

/// Those of a record of this form.
fn settings_for(random: &mut Random, form: ShiftForm) -> Option<[u8; 4]> {
    (form == WithSettings).then(|| some_settings(random))
}

fn sized_record(random: &mut Random, form: ShiftForm, w: u16, h: u16) -> Vec<u8> {
    let settings = settings_for(random, form);
    record_of(random, settings, w, h, chroma_of(settings, w, h))
}

pub fn good_record(random: &mut Random, form: ShiftForm, side: u32) -> Vec<u8> {
    let mut side = || match random.below(4) {
        0 => 1,
        _ => random.from(1, side) as u16,
    };
    let (w, h) = (side(), side());
    sized_record(random, form, w, h)
}

/// Often few, now and then many or all that there may be, and then small.
pub fn good_records(random: &mut Random, form: ShiftForm) -> Vec<Vec<u8>> {
    if random.one_in(500) {
        let count = random.pick(&[MOST - 1, MOST]);
        return (0..count).map(|_| good_record(random, form, 1)).collect();
    }
    if random.one_in(100) {
        let (long, thin) = (random.pick(&[16_383, 16_384]), random.from(1, 2) as u16);
        let (w, h) = random.pick(&[(long, thin), (thin, long)]);
        return vec![sized_record(random, form, w, h)];
    }
    let (count, side) = match random.below(8) {
        0 => (random.below(200), 3),
        1 => (0, 1),
        _ => (random.from(1, 7).into(), 9),
    };
    (0..count)
        .map(|_| good_record(random, form, side))
        .collect()
}

pub fn file_of(form: ShiftForm, records: &[Vec<u8>]) -> Vec<u8> {
    let records: Vec<&[u8]> = records.iter().map(Vec::as_slice).collect();
    conditions::file_of(form, &records)
}

/// A layout that is consistent in itself, but for one rule.
#[derive(Clone, Copy, Debug, PartialEq)]
pub enum Slip {
    GapBehindPairs,
    GapBetween,
    ByteBehind,
    NoPairs,
    SharedRecord,
    OverlappingEnd,
    Reversed,
    OffsetsFromRecords,
    OffsetOfEnd,
    LengthWithoutHeader,
    LengthsOfAllSoFar,
    HighByteFirst,
    PairsExchanged,
    LengthBeforeOffset,
    CountOfFourBytesMore,
    WithSettings,
    ChromaRoundedDown,
    ChromaOf422,
    NoWidth,
    NoHeight,
    WidthOf16385,
    HeightOf16385,
    OneTooMany,
    MarkOneLess,
    NoMark,
    OffsetsWithoutTheMark,
    OldRecords,
    ChromaOf420,
    SamplingOf2,
    SamplingNotRecorded,
    RangeOf254,
    MatrixOf7,
    TransferOf4,
    SettingsBehindThePlanes,
}

pub const SLIPS: [(Slip, &str); 23] = [
    (
        Slip::GapBehindPairs,
        "a gap behind the pairs, offsets to match",
    ),
    (
        Slip::GapBetween,
        "a gap between two records, offsets to match",
    ),
    (Slip::ByteBehind, "a byte behind the last record"),
    (Slip::NoPairs, "no pairs"),
    (
        Slip::SharedRecord,
        "every pair is that of the first record, which stands there once",
    ),
    (
        Slip::OverlappingEnd,
        "each record starts in the last byte of the one before",
    ),
    (
        Slip::Reversed,
        "the records in the other order, offsets to match",
    ),
    (Slip::OffsetsFromRecords, "offsets from the first record on"),
    (Slip::OffsetOfEnd, "offsets of the records' ends"),
    (Slip::LengthWithoutHeader, "lengths of the planes alone"),
    (Slip::LengthsOfAllSoFar, "lengths of all records so far"),
    (
        Slip::HighByteFirst,
        "count, offsets and lengths high byte first",
    ),
    (Slip::PairsExchanged, "the first two pairs exchanged"),
    (Slip::LengthBeforeOffset, "each length before its offset"),
    (Slip::CountOfFourBytesMore, "a count of eight bytes"),
    (
        Slip::WithSettings,
        "four bytes of 255 before the count, offsets to match",
    ),
    (Slip::ChromaRoundedDown, "chroma of 3 by 5 rounded down"),
    (Slip::ChromaOf422, "chroma of 4:2:2"),
    (Slip::NoWidth, "a width of 0"),
    (Slip::NoHeight, "a height of 0"),
    (Slip::WidthOf16385, "a width of 16,385"),
    (Slip::HeightOf16385, "a height of 16,385"),
    (Slip::OneTooMany, "4,097 records"),
];

/// Those of the form with settings alone.
pub const SETTINGS_SLIPS: [(Slip, &str); 11] = [
    (Slip::MarkOneLess, "4,294,967,294 before the count"),
    (Slip::NoMark, "no number before the count, offsets to match"),
    (
        Slip::OffsetsWithoutTheMark,
        "offsets from behind the first number on",
    ),
    (
        Slip::OldRecords,
        "records without settings, offsets and lengths to match",
    ),
    (
        Slip::ChromaOf420,
        "planes of a record of 4:2:2 as long as those of 4:2:0",
    ),
    (Slip::SamplingOf2, "2 as sampling"),
    (Slip::SamplingNotRecorded, "255 as sampling"),
    (Slip::RangeOf254, "254 as range"),
    (Slip::MatrixOf7, "7 as matrix"),
    (Slip::TransferOf4, "4 as transfer"),
    (
        Slip::SettingsBehindThePlanes,
        "the four bytes behind the planes",
    ),
];

/// The file of a layout with this slip. With few of its records some are still good files.
pub fn with_slip(random: &mut Random, form: ShiftForm, slip: Slip) -> Vec<u8> {
    use Slip::*;
    let sized = |random: &mut Random, w: u16, h: u16| vec![sized_record(random, form, w, h)];
    let said = |random: &mut Random, settings: [u8; 4], chroma: u64| {
        vec![record_of(random, Some(settings), 3, 5, chroma)]
    };
    let unsaid = (form == ShiftForm::WithSettings).then_some(UNSAID);
    let records = match slip {
        ChromaRoundedDown => vec![record_of(random, unsaid, 3, 5, 2)],
        ChromaOf422 => vec![record_of(random, unsaid, 3, 5, 10)],
        ChromaOf420 => said(random, [1, 255, 255, 255], 6),
        SamplingOf2 => said(random, [2, 0, 0, 0], 10),
        SamplingNotRecorded => said(random, [255; 4], 6),
        RangeOf254 => said(random, [0, 254, 0, 0], 6),
        MatrixOf7 => said(random, [0, 0, 7, 0], 6),
        TransferOf4 => said(random, [0, 0, 0, 4], 6),
        OldRecords => vec![record_of(random, None, 3, 5, 6)],
        SettingsBehindThePlanes => {
            let mut record = record_of(random, None, 3, 5, 6);
            record.extend(UNSAID);
            vec![record]
        }
        NoWidth => sized(random, 0, 3),
        NoHeight => sized(random, 3, 0),
        WidthOf16385 => sized(random, 16_385, 1),
        HeightOf16385 => sized(random, 1, 16_385),
        OneTooMany => (0..=MOST).map(|_| good_record(random, form, 1)).collect(),
        _ => (0..random.from(2, 4))
            .map(|_| good_record(random, form, 6))
            .collect::<Vec<_>>(),
    };
    let count = records.len();
    let mark = conditions::start(form, 0) - 4;
    let (count_bytes, more) = match slip {
        CountOfFourBytesMore => (8, mark),
        WithSettings => (4, 4),
        NoMark => (4, 0),
        _ => (4, mark),
    };
    let gap = random.from(1, 20) as usize;
    let start = more + count_bytes + if slip == NoPairs { 0 } else { 12 * count };
    let mut at = start + if slip == GapBehindPairs { gap } else { 0 };
    // Where each record stands, and the bytes from the first record's place on.
    let mut places = Vec::new();
    let mut body = vec![];
    let order: Vec<usize> = match slip {
        Reversed => (0..count).rev().collect(),
        _ => (0..count).collect(),
    };
    if slip == GapBehindPairs {
        body.extend(random.bytes(gap));
    }
    for k in order {
        let record = &records[k];
        match slip {
            // Every pair is that of the first record, which stands there once.
            SharedRecord if k > 0 => places.push((k, start, records[0].len())),
            // A record starts in the last byte of V of the one before.
            OverlappingEnd if k > 0 => {
                let last = body.pop();
                body.extend(record);
                body.extend(last);
                body.pop();
                places.push((k, at - k, record.len()));
                at += record.len();
            }
            _ => {
                places.push((k, at, record.len()));
                body.extend(record);
                at += record.len();
                if slip == GapBetween && k == 0 {
                    body.extend(random.bytes(gap));
                    at += gap;
                }
            }
        }
    }
    places.sort();
    let mut pairs = Vec::new();
    let mut so_far = 0;
    for (_, offset, length) in places {
        so_far += length;
        let offset = match slip {
            OffsetsFromRecords => offset - start,
            OffsetOfEnd => offset + length,
            OffsetsWithoutTheMark => offset - mark,
            _ => offset,
        } as u64;
        let length = match slip {
            LengthWithoutHeader => length - conditions::header(form),
            LengthsOfAllSoFar => so_far,
            _ => length,
        } as u32;
        pairs.push(match slip {
            HighByteFirst => [&offset.to_be_bytes()[..], &length.to_be_bytes()].concat(),
            LengthBeforeOffset => [&length.to_le_bytes()[..], &offset.to_le_bytes()].concat(),
            _ => [&offset.to_le_bytes()[..], &length.to_le_bytes()].concat(),
        });
    }
    match slip {
        PairsExchanged => pairs.swap(0, 1),
        NoPairs => pairs.clear(),
        _ => {}
    }
    let mut file = vec![0xff; more];
    if slip == MarkOneLess {
        file[0] = 0xfe;
    }
    file.extend(match slip {
        HighByteFirst => (count as u32).to_be_bytes().to_vec(),
        _ => (count as u64).to_le_bytes()[..count_bytes].to_vec(),
    });
    file.extend(pairs.concat());
    file.extend(body);
    file.extend((slip == ByteBehind).then_some(0));
    file
}

/// Puts a number of some bytes there, low byte first, where the file has them.
fn put(file: &mut [u8], at: usize, size: usize, value: u64) {
    if let Some(bytes) = file.get_mut(at..at + size) {
        bytes.copy_from_slice(&value.to_le_bytes()[..size]);
    }
}

fn got(file: &[u8], at: usize, size: usize) -> u64 {
    let bytes = file.get(at..at + size).unwrap_or(&[]);
    (bytes.iter().rev()).fold(0, |all, byte| all << 8 | u64::from(*byte))
}

/// Another value of one of a record's four bytes: a code, one past the last, near 255, or any.
fn other_setting(random: &mut Random, file: &mut [u8], record: usize) {
    let at = record + 8 + random.below(4) as usize;
    let any = random.next() as u8;
    let value = random.pick(&[0, 1, 2, 3, 4, 6, 7, 253, 254, 255, any]);
    put(file, at, 1, u64::from(value));
}

/// One change to a file of this form that was good before the first.
fn mutate(random: &mut Random, form: ShiftForm, file: &mut Vec<u8>) {
    let start = conditions::start(form, 0);
    let count = got(file, start - 4, 4).min(MOST as u64) as usize;
    let pair = start + 12 * random.below(count as u64 + 1) as usize;
    let record = got(file, pair, 8).min(file.len() as u64) as usize;
    if form == WithSettings && random.one_in(3) {
        return other_setting(random, file, record);
    }
    match random.below(16) {
        0 | 1 => {
            // A bit of the pairs, of a record's first bytes, or of anything.
            let near = random.below(8) as usize;
            let any = random.below(file.len() as u64 + 1) as usize;
            let in_pairs = random.below((start + 12 * count) as u64) as usize;
            let at = random.pick(&[record + near, any, in_pairs, in_pairs]);
            let bit = random.below(8);
            if let Some(byte) = file.get_mut(at) {
                *byte ^= 1 << bit;
            }
        }
        2 => {
            let length = random.below(file.len() as u64 + 1) as usize;
            file.truncate(length);
        }
        3 => file.truncate(file.len().saturating_sub(1)),
        4 => {
            let more = random.from(1, 30) as usize;
            let more = random.pick(&[1, 11, 12, more]);
            let bytes = random.bytes(more);
            file.extend(bytes);
        }
        5 => {
            // Two pairs exchanged.
            let other = start + 12 * random.below(count as u64 + 1) as usize;
            for i in 0..12 {
                let (a, b) = (pair + i, other + i);
                if a.max(b) < file.len() {
                    file.swap(a, b);
                }
            }
        }
        6 => {
            let length = got(file, pair + 8, 4);
            let by = random.pick(&[1, !0, 1 << 8, 1 << 16, 1 << 31]);
            let any = random.next();
            let other = random.pick(&[0, 0xffff_ffff, length.wrapping_add(by), any]);
            put(
                file,
                pair + 8,
                4,
                random.pick(&[length.wrapping_add(by), other]),
            );
        }
        7 => {
            let offset = got(file, pair, 8);
            let by = random.pick(&[1, !0, 1 << 16, 1 << 31, 1 << 32, 1 << 63]);
            let other = random.pick(&[0, 4, !0, !7, (1 << 32) + 4]);
            put(
                file,
                pair,
                8,
                random.pick(&[offset.wrapping_add(by), other]),
            );
        }
        8 => {
            // A length or an offset so large that their sum comes round to what it must be.
            let offset = got(file, pair, 8);
            let length = got(file, pair + 8, 4);
            let next = offset.wrapping_add(length);
            put(file, pair, 8, next.wrapping_sub(0xffff_ffff));
            put(file, pair + 8, 4, 0xffff_ffff);
        }
        9 => {
            let near = random.pick(&[count as u64 + 1, (count as u64).wrapping_sub(1)]);
            let far = random.pick(&[4_096, 4_097, 0xffff_ffff, 0x1_0000, 0]);
            put(file, start - 4, 4, random.pick(&[near, far]));
        }
        10 => {
            let side = record + random.pick(&[4, 6]);
            put(
                file,
                side,
                2,
                random.pick(&[0, 1, 2, 16_384, 16_385, 65_535]),
            );
        }
        11 => {
            // Width and height exchanged, which may leave the record as long.
            let (w, h) = (got(file, record + 4, 2), got(file, record + 6, 2));
            put(file, record + 4, 2, h);
            put(file, record + 6, 2, w);
        }
        12 => {
            // The pair of the record before once more: both are the same record.
            if pair >= start + 12 && pair + 12 <= file.len() {
                file.copy_within(pair - 12..pair, pair);
            }
        }
        13 => {
            // A byte less or more somewhere, all numbers as they were.
            let at = random.below(file.len() as u64 + 1) as usize;
            if random.one_in(2) && at < file.len() {
                file.remove(at);
            } else {
                file.insert(at, random.next() as u8);
            }
        }
        14 => {
            // A record starts earlier, in the one before, and all after it follow.
            let by = random.from(1, 12).into();
            for at in (pair..start + 12 * count).step_by(12) {
                let offset = got(file, at, 8);
                put(file, at, 8, offset.wrapping_sub(by));
            }
        }
        _ => {
            // A crossing or a plane byte: no rule is about them.
            let header = conditions::header(form);
            if record + header < file.len() {
                let at = record + random.pick(&[0, 1, 2, 3, header]);
                file[at] = random.next() as u8;
            }
        }
    }
}

/// A slip that is not large; now and then any.
fn some_slip(random: &mut Random, form: ShiftForm) -> Slip {
    let small = match random.one_in(200) {
        true => &SLIPS[..],
        false => &SLIPS[..SLIPS.len() - 3],
    };
    if form == WithSettings && random.one_in(2) {
        return random.pick(&SETTINGS_SLIPS).0;
    }
    random.pick(small).0
}

/// A good file of this form, one with one to three changes, one with a slip, or any bytes.
pub fn any_file(random: &mut Random, form: ShiftForm) -> Vec<u8> {
    match random.below(20) {
        0..=4 => file_of(form, &good_records(random, form)),
        5..=8 => {
            let slip = some_slip(random, form);
            with_slip(random, form, slip)
        }
        9 => {
            let length = random.pick(&[0, 1, 3, 4, 5, 8, 15, 16, 27, 28]);
            let any = random.bytes(length);
            let numbers = (any.iter()).map(|byte| byte & 3).collect();
            let zeros = vec![0; length];
            let bytes: Vec<u8> = match random.below(3) {
                0 => any,
                1 => numbers,
                _ => zeros,
            };
            let mark = [0xff].repeat(conditions::start(form, 0) - 4);
            [mark, bytes].concat()
        }
        _ => {
            let mut file = file_of(form, &good_records(random, form));
            for _ in 0..random.from(1, 3) {
                mutate(random, form, &mut file);
            }
            file
        }
    }
}

/// That with settings three times of four.
pub fn some_form(random: &mut Random) -> ShiftForm {
    match random.one_in(4) {
        true => WithoutSettings,
        false => WithSettings,
    }
}

impl Reading {
    pub fn random(random: &mut Random) -> Reading {
        Reading::of(random, WithoutSettings, false)
    }

    /// A file of either form, mostly by the call that takes either.
    pub fn either(random: &mut Random) -> Reading {
        let form = some_form(random);
        let any = !random.one_in(4);
        Reading::of(random, form, any)
    }

    fn of(random: &mut Random, form: ShiftForm, any: bool) -> Reading {
        let file = any_file(random, form);
        let count = got(&file, conditions::start(form, 0) - 4, 4).min(MOST as u64);
        let first = match random.below(4) {
            0 | 1 => 0,
            2 => random.below(count + 2),
            _ => random.pick(&[
                count,
                count.saturating_sub(1),
                1 << 32,
                !0,
                !0 - 10,
                !0 / 11,
            ]),
        };
        let entry = if any { ANY_ENTRY } else { ENTRY } as u64;
        let room = match random.below(4) {
            0 => random.below(25),
            1 => entry * count,
            _ => random.below(entry * (count + 2)),
        };
        let entries = (0..room).map(|_| random.next()).collect();
        Reading {
            any,
            file,
            first,
            entries,
        }
    }
}

impl Writing {
    pub fn random(random: &mut Random) -> Writing {
        Writing::of(random, WithoutSettings)
    }

    /// Records with settings; now and then those of the other form than the call takes.
    pub fn with_settings(random: &mut Random) -> Writing {
        let mut writing = Writing::of(random, WithSettings);
        if random.one_in(12) {
            writing.form = WithoutSettings;
        }
        if random.one_in(12) {
            writing.records = good_records(random, WithoutSettings).concat();
        }
        writing
    }

    fn of(random: &mut Random, form: ShiftForm) -> Writing {
        let mut records = match random.below(12) {
            0 => {
                // The tail of a slip, whose records may be none.
                let (slip, _) = match form {
                    WithSettings if random.one_in(2) => random.pick(&SETTINGS_SLIPS),
                    _ => random.pick(&SLIPS[..SLIPS.len() - 3]),
                };
                let file = with_slip(random, form, slip);
                let count = got(&file, conditions::start(form, 0) - 4, 4).min(MOST as u64);
                let start = conditions::start(form, count as usize);
                file.get(start..).unwrap_or(&[]).to_vec()
            }
            _ => good_records(random, form).concat(),
        };
        if random.one_in(800) {
            records = good_record(random, form, 1).repeat(random.pick(&[MOST, MOST + 1]));
        }
        let lengths: Option<Vec<usize>> = conditions::records_of(form, &records)
            .map(|records| records.iter().map(|record| record.len()).collect());
        let start = |lengths: &Vec<usize>| conditions::start(form, lengths.len());
        let size = lengths.as_ref().map_or(0, start) + records.len();
        if random.one_in(3) {
            record_fault(
                random,
                form,
                &mut records,
                lengths.as_deref().unwrap_or(&[]),
            );
        }
        let output = match random.below(8) {
            0 | 1 => size,
            2 => size.saturating_sub(1),
            3 => size + random.from(1, 40) as usize,
            4 => random.below(size as u64 + 1) as usize,
            5 => random.pick(&[0, 3, 4, 5]),
            6 => records.len(),
            _ => size + 1,
        };
        Writing {
            form,
            output: random.bytes(output),
            records,
        }
    }
}

/// Cuts, more bytes, another size of a record, a bit.
fn record_fault(random: &mut Random, form: ShiftForm, records: &mut Vec<u8>, lengths: &[usize]) {
    let k = random.below(lengths.len() as u64 + 1) as usize;
    let start: usize = lengths[..k.min(lengths.len())].iter().sum();
    if form == WithSettings && random.one_in(2) {
        return other_setting(random, records, start);
    }
    match random.below(6) {
        0 => records.truncate(records.len().saturating_sub(1)),
        1 => {
            let length = random.below(records.len() as u64 + 1) as usize;
            records.truncate(length);
        }
        2 => {
            let more = random.from(1, 12) as usize;
            let bytes = random.bytes(more);
            records.extend(bytes);
        }
        3 => {
            let side = start + random.pick(&[4, 6]);
            put(
                records,
                side,
                2,
                random.pick(&[0, 1, 16_384, 16_385, 65_535]),
            );
        }
        4 => {
            let at = random.below(records.len() as u64 + 1) as usize;
            let bit = random.below(8);
            if let Some(byte) = records.get_mut(at) {
                *byte ^= 1 << bit;
            }
        }
        _ => {
            // The first bytes of one more record, and no plane.
            let record = good_record(random, form, 3);
            let header = record[..conditions::header(form)].to_vec();
            records.extend(header);
        }
    }
}

/// Any number in the place of a code: one past the last, one whose low byte is a code, or any.
fn other_code(random: &mut Random, four: &mut [u32; 4]) {
    let k = random.below(4) as usize;
    let any = random.next() as u32;
    let last = [1, 1, 6, 3][k];
    four[k] = random.pick(&[
        last + 1,
        254,
        255,
        256,
        256 + last,
        511,
        1 << 16,
        u32::MAX,
        any,
    ]);
}

impl Making {
    pub fn random(random: &mut Random, side: u32) -> Making {
        Making::of(random, side, None)
    }

    pub fn with_settings(random: &mut Random, side: u32) -> Making {
        let settings = some_settings(random).map(u32::from);
        let mut making = Making::of(random, side, Some(settings));
        if let Some(four) = (making.request.settings.as_mut()).filter(|_| random.one_in(6)) {
            other_code(random, four);
        }
        making
    }

    fn of(random: &mut Random, side: u32, settings: Option<[u32; 4]>) -> Making {
        let (request, planes) = random::planes(random, side, settings);
        let sampling = settings.map_or(0, |[sampling, ..]| sampling as u8);
        let form = conditions::form_asked(&request);
        let size = conditions::record_length(form, sampling, request.w, request.h) as usize;
        let output = match random.below(8) {
            0..=2 => size,
            3 => size - 1,
            4 => size + 1,
            5 => random.below(size as u64 + 1) as usize,
            6 => random.pick(&[0, 7, 8]),
            _ => size + random.from(1, 40) as usize,
        };
        let output = random.bytes(output);
        let mut making = Making {
            request: RecordRequest {
                crossing: crossing(random),
                ..request
            },
            planes,
            output,
        };
        if random.one_in(3) {
            for _ in 0..random.from(1, 3) {
                random::plane_fault(random, &mut making.request, &mut making.planes);
            }
        }
        making
    }
}

impl Moving {
    pub fn forward(random: &mut Random) -> Moving {
        // Mostly those that it takes.
        let form = match random.one_in(6) {
            true => WithSettings,
            false => WithoutSettings,
        };
        Moving::of(random, WithSettings, form)
    }

    /// Mostly files in which nothing is recorded, or one thing.
    pub fn back(random: &mut Random) -> Moving {
        let form = match random.one_in(12) {
            true => WithoutSettings,
            false => WithSettings,
        };
        Moving::of(random, WithoutSettings, form)
    }

    fn of(random: &mut Random, to: ShiftForm, form: ShiftForm) -> Moving {
        let file = match random.below(4) {
            0 => any_file(random, form),
            1 if form == WithSettings => file_of(form, &good_records(random, form)),
            _ => {
                let old = good_records(random, WithoutSettings);
                let mut records = match form {
                    WithoutSettings => old,
                    WithSettings => old.iter().map(|one| moved(WithSettings, one)).collect(),
                };
                if form == WithSettings && random.one_in(3) && !records.is_empty() {
                    // One byte of settings another, which may leave the record as long.
                    let k = random.below(records.len() as u64) as usize;
                    other_setting(random, &mut records[k], 0);
                }
                file_of(form, &records)
            }
        };
        let size = conditions::records_of_any(&file).map_or(20, |(form, records)| {
            let count = records.len();
            match form {
                WithoutSettings => file.len() + 4 + 4 * count,
                WithSettings => file.len() - 4 - 4 * count,
            }
        });
        let output = match random.below(8) {
            0..=2 => size,
            3 => size - 1,
            4 => size + random.from(1, 40) as usize,
            5 => random.below(size as u64 + 1) as usize,
            6 => random.pick(&[0, 3, 4, 7, 8]),
            _ => file.len(),
        };
        Moving {
            to,
            output: random.bytes(output),
            file,
        }
    }
}

impl Shift {
    pub fn random(random: &mut Random, side: u32) -> Shift {
        let count = random.from(1, 4);
        let frame = |_| (crossing(random), random::frame_420(random, side));
        Shift {
            form: WithoutSettings,
            frames: (0..count).map(frame).collect(),
        }
    }

    pub fn with_settings(random: &mut Random, side: u32) -> Shift {
        let count = random.from(1, 4);
        let frame = |_| (crossing(random), random::frame_in(random, side, None));
        Shift {
            form: WithSettings,
            frames: (0..count).map(frame).collect(),
        }
    }
}
