//! RULES 7.1 and on, once more and apart from the model: all conditions of a call
//! as a list, of which the first that holds is answered. It judges the answers where the Rust
//! has no such refusal.

use crate::request::{BandRequest, FrameRequest, Lent, Shape};
use crate::summary::{Ask, ENTRY};
use model::shift::{RecordRequest, ShiftForm};
use model::{Answer, FrameState, Refusal, Settings, Window, YuvStandardMatrix};

/// Number, whether it holds, expected, received.
type Condition = (u8, bool, u128, u128);

/// The order in which they are asked.
const ORDER: [u8; 23] = [
    15, 17, 19, 21, 22, 23, 18, 1, 2, 3, 4, 14, 5, 6, 7, 8, 9, 10, 11, 12, 13, 20, 16,
];

/// A mistake in a condition that a window brings, so that a list of calls can be held to catch it.
#[derive(Clone, Copy, PartialEq)]
pub enum Slip {
    Without,
    LengthOfRectangle,
    StrideOfRectangle,
    RowsOfRectangle,
    CarriedOfSource,
    SidesOfRectangle,
    NoSideIs2,
    SumWraps,
    EdgeIsOutside,
    AfterRows,
    Last,
}

use Slip::*;

/// Those that a frame call can tell.
pub const FRAME_SLIPS: [(Slip, &str); 8] = [
    (LengthOfRectangle, "6 with the rectangle's width"),
    (StrideOfRectangle, "7 with the rectangle's width"),
    (RowsOfRectangle, "6 and 12 with the rectangle's rows"),
    (SidesOfRectangle, "3 of the rectangle's sides alone"),
    (NoSideIs2, "2 where the source has a side of 0"),
    (SumWraps, "14 by a sum that wraps"),
    (EdgeIsOutside, "14 at the source's last column or row"),
    (Last, "14 asked after 13"),
];

/// Those that a band call can tell.
pub const BAND_SLIPS: [(Slip, &str); 9] = [
    (LengthOfRectangle, "6 with the rectangle's width"),
    (StrideOfRectangle, "7 with the rectangle's width"),
    (CarriedOfSource, "13 with the source's width"),
    (SidesOfRectangle, "3 of the rectangle's sides alone"),
    (NoSideIs2, "2 where the source has a side of 0"),
    (SumWraps, "14 by a sum that wraps"),
    (EdgeIsOutside, "14 at the source's last column or row"),
    (Last, "14 asked after 13"),
    (AfterRows, "14 asked after 5"),
];

/// The first of those that hold and are asked first: 10, 11 and 12 stand more than once.
fn first(slip: Slip, conditions: Vec<Condition>) -> Answer {
    let place = |number: u8| match (slip, number) {
        (AfterRows, 14) => place_of(5) + 1,
        (Last, 14) => place_of(13) + 1,
        _ => place_of(number),
    };
    let holding = conditions.into_iter().filter(|c| c.1);
    match holding.min_by_key(|c| place(c.0)) {
        Some((number, _, expected, received)) => Err(Refusal {
            number,
            expected: expected as u64,
            received: received as u64,
        }),
        None => Ok(()),
    }
}

/// Twice its place in the order, so that a mistake has room between two.
fn place_of(number: u8) -> usize {
    let place = ORDER.iter().position(|other| *other == number);
    2 * place.expect("a number of the order")
}

pub fn of_opening(asked: &FrameState) -> Answer {
    of_opening_with(Without, asked)
}

pub fn of_frame(request: &FrameRequest) -> Answer {
    of_frame_with(Without, request)
}

pub fn of_band(request: &BandRequest) -> Answer {
    of_band_with(Without, request)
}

pub fn of_opening_with(slip: Slip, asked: &FrameState) -> Answer {
    let s = asked;
    first(slip, sizes(slip, s.w, s.h, &s.window, &s.settings))
}

pub fn of_frame_with(slip: Slip, request: &FrameRequest) -> Answer {
    let f = &request.frame;
    let mut shapes = request.shapes();
    if slip == RowsOfRectangle {
        shapes[0].rows = u64::from(f.h);
    }
    let rectangle = u64::from(f.w) * f.settings.channels.bytes();
    let mut all = memory(slip, rectangle, &request.lent, request.strides(), shapes);
    all.extend(sizes(slip, f.w, f.h, &f.window, &f.settings));
    first(slip, all)
}

pub fn of_band_with(slip: Slip, request: &BandRequest) -> Answer {
    let s = &request.state;
    let remain = i64::from(s.h) - i64::from(s.done);
    let rows = i64::from(request.rows);
    let pixels = match slip {
        CarriedOfSource => s.window.source_width,
        _ => s.w,
    };
    let (carried, needed) = (request.carried.len() as u128, 3 * u128::from(pixels));
    let (strides, shapes) = (request.strides(), request.shapes());
    let rectangle = u64::from(s.w) * s.settings.channels.bytes();
    let mut all = memory(slip, rectangle, &request.lent, strides, shapes);
    all.push((13, carried < needed, needed, carried));
    all.push((5, rows == 0 || rows > remain, 0, 0));
    all.extend(sizes(slip, s.w, s.h, &s.window, &s.settings));
    first(slip, all)
}

/// RULES 16.2, 16.3: an opening or an offer at the front desk, by the numbers of its own conditions that hold. An
/// opening asks those of the frame's too.
pub fn of_desk(holding: &[u8], asked: Option<&FrameState>) -> Answer {
    let own = |number: &u8| (*number, true, 0, 0);
    let mut all: Vec<Condition> = holding.iter().map(own).collect();
    if let Some(s) = asked {
        all.extend(sizes(Without, s.w, s.h, &s.window, &s.settings));
    }
    first(Without, all)
}

/// The call that counts colours, by its numbers.
pub fn of_counts(numbers: &[u32], custom: &[f32; 2]) -> Answer {
    let [range, matrix] = [0, 1].map(|i| numbers.get(i).copied().unwrap_or(0));
    let unknown = range > 1 || matrix > 6;
    let refused = matrix == 6 && custom.iter().copied().any(is_refused);
    let all = vec![(4, refused, 0, 0), (1, numbers.len() != 2 || unknown, 0, 0)];
    first(Without, all)
}

/// RULES 11.7: what a file with settings starts with.
const MARK: [u8; 4] = [255; 4];

/// RULES 11.1, 11.7: the bytes before the first of so many records.
pub fn start(form: ShiftForm, count: usize) -> usize {
    let before = match form {
        ShiftForm::WithoutSettings => 4,
        ShiftForm::WithSettings => 8,
    };
    before + 12 * count
}

/// RULES 11.2, 11.7: the bytes of a record before its planes.
pub fn header(form: ShiftForm) -> usize {
    match form {
        ShiftForm::WithoutSettings => 8,
        ShiftForm::WithSettings => 12,
    }
}

/// RULES 11.8: what is said of a record that says nothing.
pub const UNSAID: [u8; 4] = [0, 255, 255, 255];

/// RULES 11.7: sampling, range, matrix and transfer of a record.
pub fn settings_of(form: ShiftForm, record: &[u8]) -> [u8; 4] {
    match form {
        ShiftForm::WithoutSettings => UNSAID,
        ShiftForm::WithSettings => *record[8..].first_chunk().expect("four bytes of settings"),
    }
}

/// RULES 11.7: up to the last code of each, and 255 but for a sampling.
pub fn are_settings(four: [u32; 4]) -> bool {
    const LAST: [u32; 4] = [1, 1, 6, 3];
    (0..4).all(|k| four[k] <= LAST[k] || (k > 0 && four[k] == 255))
}

/// The form of which these bytes can be a file: that of their first four.
pub fn form_of(file: &[u8]) -> ShiftForm {
    match file.starts_with(&MARK) {
        true => ShiftForm::WithSettings,
        false => ShiftForm::WithoutSettings,
    }
}

/// The records of a file of either form.
pub fn records_of_any(file: &[u8]) -> Option<(ShiftForm, Vec<&[u8]>)> {
    let form = form_of(file);
    Some((form, records_of_file(form, file)?))
}

/// RULES 11.3: the records of the one list that these bytes can be the file of. It has as many records
/// as its count says, they stand behind as many pairs, and its own bytes must be these.
pub fn records_of_file(form: ShiftForm, file: &[u8]) -> Option<Vec<&[u8]>> {
    let count = file.get(start(form, 0) - 4..)?.first_chunk()?;
    let count = u32::from_le_bytes(*count) as usize;
    let records = records_of(form, file.get(start(form, count)..)?)?;
    let bytes = file_of(form, &records);
    (records.len() == count && bytes == file).then_some(records)
}

/// RULES 11.3: records of a form that stand back to back.
pub fn records_of(form: ShiftForm, mut bytes: &[u8]) -> Option<Vec<&[u8]>> {
    let mut records = Vec::new();
    while !bytes.is_empty() {
        let [_, _, _, _, w0, w1, h0, h1] = *bytes.get(..header(form))?.first_chunk()?;
        let [w, h] = [[w0, w1], [h0, h1]].map(|side| u32::from(u16::from_le_bytes(side)));
        let settings = settings_of(form, bytes);
        let sides = [w, h].iter().all(|side| *side >= 1 && *side <= 16_384);
        if !sides || !are_settings(settings.map(u32::from)) {
            return None;
        }
        let length = record_length(form, settings[0], w, h) as usize;
        let (record, others) = bytes.split_at_checked(length)?;
        records.push(record);
        bytes = others;
    }
    (records.len() <= 4_096).then_some(records)
}

/// RULES 11.1, 11.7.
pub fn file_of(form: ShiftForm, records: &[&[u8]]) -> Vec<u8> {
    let first = start(form, records.len());
    let mut pairs = Vec::new();
    for (k, record) in records.iter().enumerate() {
        let before: usize = records[..k].iter().map(|record| record.len()).sum();
        pairs.extend(((first + before) as u64).to_le_bytes());
        pairs.extend((record.len() as u32).to_le_bytes());
    }
    let count = (records.len() as u32).to_le_bytes();
    let mark = match form {
        ShiftForm::WithoutSettings => &[][..],
        ShiftForm::WithSettings => &MARK,
    };
    [mark, &count[..], &pairs, &records.concat()].concat()
}

/// RULES 1.5: cw and ch by the code of the sampling.
pub fn chroma_sides(sampling: u8, w: u32, h: u32) -> [u32; 2] {
    [w.div_ceil(2), if sampling == 1 { h } else { h.div_ceil(2) }]
}

/// RULES 11.2, 11.7.
pub fn record_length(form: ShiftForm, sampling: u8, w: u32, h: u32) -> u64 {
    let [cw, ch] = chroma_sides(sampling, w, h).map(u64::from);
    header(form) as u64 + u64::from(w) * u64::from(h) + 2 * (cw * ch)
}

/// RULES 11.5: the file's size too, where there is one.
pub fn of_shift_write(form: ShiftForm, records: Option<&[&[u8]]>, output: usize) -> (Answer, u64) {
    let size = records.map_or(0, |records| file_of(form, records).len());
    let all = vec![(16, output < size, 0, 0), (15, records.is_none(), 0, 0)];
    (first(Without, all), size as u64)
}

/// RULES 11.6: the record's size too, where there is one.
pub fn of_shift_record(
    request: &RecordRequest,
    planes: &[Vec<u8>; 3],
    output: usize,
) -> (Answer, u64) {
    let &RecordRequest { w, h, settings, .. } = request;
    let unknown = settings.is_some_and(|four| !are_settings(four));
    let outside = unknown || [w, h].iter().any(|side| *side < 1 || *side > 16_384);
    let form = form_asked(request);
    let sampling = settings.map_or(0, |[sampling, ..]| sampling as u8);
    let strides = [request.y_stride, request.u_stride, request.v_stride];
    let shape = |row: u32, rows: u32| Shape {
        row: u64::from(row),
        rows: u64::from(rows),
    };
    let [cw, ch] = chroma_sides(sampling, w, h);
    let chroma = shape(cw, ch);
    let lengths = planes.each_ref().map(Vec::len);
    let mut all = planes_of(strides, [shape(w, h), chroma, chroma], lengths);
    let size = match outside {
        true => 0,
        false => record_length(form, sampling, w, h),
    };
    all.push((16, (output as u64) < size, 0, 0));
    all.push((15, outside, 0, 0));
    let answer = first(Without, all);
    (answer, if is_told(&answer) { size } else { 0 })
}

/// The form of the record that is to be made.
pub fn form_asked(request: &RecordRequest) -> ShiftForm {
    match request.settings {
        None => ShiftForm::WithoutSettings,
        Some(_) => ShiftForm::WithSettings,
    }
}

/// Whether a size is told with this answer.
fn is_told(answer: &Answer) -> bool {
    matches!(answer, Ok(()) | Err(Refusal { number: 16, .. }))
}

/// RULES 11.8: the records of the file that is moved to this form; whether one of them has what that form has no place for; and the size too,
/// where there is one.
pub fn of_move(to: ShiftForm, records: Option<&[&[u8]]>, output: usize) -> (Answer, u64) {
    let lost = |record: &&[u8]| settings_of(from(to), record) != UNSAID;
    let loses = records.is_some_and(|records| records.iter().any(lost));
    let size = records.map_or(0, |records| {
        let all: usize = records.iter().map(|record| record.len()).sum();
        start(to, records.len()) + all + records.len() * header(to)
            - records.len() * header(from(to))
    });
    let answer = first(
        Without,
        vec![
            (16, output < size, 0, 0),
            (20, loses, 0, 0),
            (15, records.is_none(), 0, 0),
        ],
    );
    (answer, if is_told(&answer) { size as u64 } else { 0 })
}

/// The form of a file that is moved to this one.
pub fn from(to: ShiftForm) -> ShiftForm {
    match to {
        ShiftForm::WithoutSettings => ShiftForm::WithSettings,
        ShiftForm::WithSettings => ShiftForm::WithoutSettings,
    }
}

/// RULES 12.4 to 12.7, of a file that is one: how many records there are, those that an update adds
/// among them; how many it adds; and whether the check says yes.
pub fn of_summary(ask: &Ask, records: usize, added: usize, yes: bool, buffer: &[u8]) -> Answer {
    let short = buffer.len() < ENTRY * records;
    let (broken, mismatch) = match ask {
        Ask::Build => (false, short),
        Ask::Check => (false, false),
        Ask::Find(_) => (false, !yes),
        Ask::Update(_) => (added != 1 || records > 4_096, short || !yes),
    };
    first(Without, vec![(17, mismatch, 0, 0), (15, broken, 0, 0)])
}

/// RULES 14.3: what a Y4M file says.
#[derive(Clone, Debug, PartialEq)]
pub struct Y4m {
    /// Width, height and the code of the sampling.
    pub numbers: [u32; 3],
    /// Where Y, U and V of each picture start, and how long they are.
    pub pictures: Vec<[u64; 6]>,
}

/// RULES 14.4: why bytes are no Y4M file, by the first place that shows it.
pub type NoY4m = &'static str;

/// What the first line of a file, and a picture's, can have wrong: first word, end, length, and a tag.
const HEADER_WRONG: [NoY4m; 4] = [
    "another first word",
    "no end of the first line",
    "257 bytes or more in it",
    "an empty tag in it",
];
const PICTURE_WRONG: [NoY4m; 4] = [
    "another word for FRAME",
    "no end of a picture's line",
    "257 bytes or more in that",
    "an empty tag in that",
];

/// All of them that a list of files is to have.
pub const NO_Y4M: [NoY4m; 17] = [
    HEADER_WRONG[0],
    HEADER_WRONG[1],
    HEADER_WRONG[2],
    HEADER_WRONG[3],
    PICTURE_WRONG[0],
    PICTURE_WRONG[1],
    PICTURE_WRONG[2],
    PICTURE_WRONG[3],
    "W twice",
    "H twice",
    "C twice",
    "another W",
    "another H",
    "another C",
    "no W",
    "no H",
    "planes that are cut",
];

/// A Y4M file gone through byte by byte.
struct Y4mBytes<'a> {
    file: &'a [u8],
    at: usize,
}

impl<'a> Y4mBytes<'a> {
    /// RULES 14.1: a line that starts with this word: its tags. The place is then behind its newline.
    fn line(&mut self, word: &[u8], wrong: [NoY4m; 4]) -> Result<Vec<&'a [u8]>, NoY4m> {
        let [another, endless, long, empty] = wrong;
        let start = self.at;
        let (mut tags, mut tag_start) = (Vec::new(), None);
        for column in 0..256 {
            let at = start + column;
            let byte = *self.file.get(at).ok_or(endless)?;
            if column < word.len() {
                if byte != word[column] {
                    return Err(another);
                }
                continue;
            }
            match (byte, tag_start) {
                (b' ' | b'\n', None) => {}
                (b' ' | b'\n', Some(from)) if from == at => return Err(empty),
                (b' ' | b'\n', Some(from)) => tags.push(&self.file[from..at]),
                (_, None) => return Err(another),
                (_, Some(_)) => continue,
            }
            if byte == b'\n' {
                self.at = at + 1;
                return Ok(tags);
            }
            tag_start = Some(at + 1);
        }
        Err(long)
    }
}

/// RULES 14.2: the number from 1 to 16,384 that these digits are, the first of them not 0.
fn y4m_side(digits: &[u8]) -> Option<u32> {
    let mut side = 0;
    for digit in digits {
        let least = if side == 0 { b'1' } else { b'0' };
        if !(least..=b'9').contains(digit) || side > 16_384 {
            return None;
        }
        side = 10 * side + u32::from(digit - b'0');
    }
    (1..=16_384).contains(&side).then_some(side)
}

/// RULES 14.2: width, height and the code of the sampling by the tags of the first line.
fn y4m_numbers(tags: &[&[u8]]) -> Result<[u32; 3], NoY4m> {
    let [mut w, mut h, mut sampling] = [None; 3];
    for tag in tags {
        let (name, twice, value) = match tag[0] {
            b'W' => (&mut w, "W twice", y4m_side(&tag[1..]).ok_or("another W")),
            b'H' => (&mut h, "H twice", y4m_side(&tag[1..]).ok_or("another H")),
            b'C' => {
                const KNOWN: [(&str, u32); 4] =
                    [("C422", 1), ("C420", 0), ("C420mpeg2", 0), ("C420jpeg", 0)];
                let known = KNOWN.iter().find(|(known, _)| known.as_bytes() == *tag);
                let code = known.map(|(_, code)| *code);
                (&mut sampling, "C twice", code.ok_or("another C"))
            }
            _ => continue,
        };
        if name.replace(value?).is_some() {
            return Err(twice);
        }
    }
    Ok([w.ok_or("no W")?, h.ok_or("no H")?, sampling.unwrap_or(0)])
}

/// RULES 14.3: row and rows of Y, U and V by width, height and the code of the sampling.
pub fn y4m_shapes([w, h, sampling]: [u32; 3]) -> [Shape; 3] {
    let shape = |row: u32, rows: u32| Shape {
        row: row.into(),
        rows: rows.into(),
    };
    let [cw, ch] = chroma_sides(sampling as u8, w, h);
    [shape(w, h), shape(cw, ch), shape(cw, ch)]
}

/// The bytes of Y, U and V.
pub fn y4m_lengths(numbers: [u32; 3]) -> [u64; 3] {
    y4m_shapes(numbers).map(|shape| shape.row * shape.rows)
}

/// RULES 14.4: what these bytes say as a Y4M file.
pub fn y4m_of(file: &[u8]) -> Result<Y4m, NoY4m> {
    let mut bytes = Y4mBytes { file, at: 0 };
    let numbers = y4m_numbers(&bytes.line(b"YUV4MPEG2", HEADER_WRONG)?)?;
    let [y, u, v] = y4m_lengths(numbers);
    let mut pictures = Vec::new();
    while bytes.at < file.len() {
        bytes.line(b"FRAME", PICTURE_WRONG)?;
        let at = bytes.at as u64;
        pictures.push([at, y, at + y, u, at + y + u, v]);
        bytes.at += (y + u + v) as usize;
    }
    match bytes.at == file.len() {
        true => Ok(Y4m { numbers, pictures }),
        false => Err("planes that are cut"),
    }
}

/// RULES 14.6: the Y4M file of pictures that stand back to back, by numbers that a file may have.
pub fn y4m_file(numbers: [u32; 3], pictures: &[u8]) -> Vec<u8> {
    let [w, h] = [0, 1].map(|k| numbers[k].to_string());
    let sampling = ["C420jpeg", "C422"][numbers[2] as usize];
    let words = [
        "YUV4MPEG2",
        " W",
        &w,
        " H",
        &h,
        " F25:1 Ip ",
        sampling,
        "\n",
    ];
    let mut file = words.concat().into_bytes();
    let picture: u64 = y4m_lengths(numbers).iter().sum();
    for planes in pictures.chunks_exact(picture as usize) {
        file = [&file, &b"FRAME\n"[..], planes].concat();
    }
    file
}

/// RULES 14.6, 14.7: whether a Y4M file may have these as width, height and the code of the sampling.
pub fn are_y4m_numbers([w, h, sampling]: [u32; 3]) -> bool {
    [w, h].iter().all(|side| (1..=16_384).contains(side)) && sampling <= 1
}

/// RULES 14.6: the file's size too, where there is one.
pub fn of_y4m_write(numbers: [u32; 3], pictures: &[u8], output: usize) -> (Answer, u64) {
    let is_whole = are_y4m_numbers(numbers) && {
        let picture: u64 = y4m_lengths(numbers).iter().sum();
        pictures.len() as u64 % picture == 0
    };
    let size = match is_whole {
        true => y4m_file(numbers, pictures).len() as u64,
        false => 0,
    };
    let all = vec![(16, (output as u64) < size, 0, 0), (19, !is_whole, 0, 0)];
    (first(Without, all), size)
}

/// RULES 14.7: the picture's size too, where there is one.
pub fn of_y4m_picture(numbers: [u32; 6], planes: &[Vec<u8>; 3], output: usize) -> (Answer, u64) {
    let [w, h, sampling, strides @ ..] = numbers;
    let outside = !are_y4m_numbers([w, h, sampling]);
    let shapes = match outside {
        true => y4m_shapes([1, 1, 0]),
        false => y4m_shapes([w, h, sampling]),
    };
    let mut all = Vec::new();
    let mut size = 6;
    for i in 0..3 {
        let (stride, rows) = (u128::from(strides[i]), u128::from(shapes[i].rows));
        all.push((19, strides[i] < shapes[i].row as u32, 0, 0));
        all.push((19, planes[i].len() as u128 != stride * rows, 0, 0));
        size += shapes[i].row * shapes[i].rows;
    }
    all.push((16, (output as u64) < size, 0, 0));
    all.push((19, outside, 0, 0));
    let answer = first(Without, all);
    (answer, if is_told(&answer) { size } else { 0 })
}

/// 8 to 12 of planes that come without a source.
fn planes_of(strides: [u32; 3], shapes: [Shape; 3], lengths: [usize; 3]) -> Vec<Condition> {
    let mut all = Vec::new();
    for (i, (narrow, short)) in [(8, 9), (10, 10), (11, 11)].into_iter().enumerate() {
        let (row, rows) = (u128::from(shapes[i].row), u128::from(shapes[i].rows));
        let (stride, length) = (u128::from(strides[i]), lengths[i] as u128);
        all.push((narrow, stride < row, row * rows, stride * rows));
        let least = stride * rows.saturating_sub(1) + row;
        all.push((short, length < least, least, length));
        all.push((12, length != stride * rows, stride * rows, length));
    }
    all
}

fn is_refused(k: f32) -> bool {
    k.is_nan() || k < 0.0 || k > 0.5
}

fn sizes(slip: Slip, w: u32, h: u32, window: &Window, settings: &Settings) -> Vec<Condition> {
    let custom = match settings.matrix {
        YuvStandardMatrix::Custom(kr, kb) => [kr, kb],
        _ => [0.0, 0.0],
    };
    let sides = [
        (window.left, w, window.source_width),
        (window.top, h, window.source_height),
    ];
    // The room that a side leaves in the source's, where it fits there at all.
    let past = |(before, side, all): (u32, u32, u32)| match slip {
        SumWraps => before.wrapping_add(side) > all,
        EdgeIsOutside if all != side => u64::from(before) + u64::from(side) >= u64::from(all),
        _ => all.checked_sub(side).is_none_or(|room| before > room),
    };
    let none = |(_, side, all): (u32, u32, u32)| side == 0 || (slip == NoSideIs2 && all == 0);
    let large = |(_, side, all): (u32, u32, u32)| {
        side > 16_384 || (slip != SidesOfRectangle && all > 16_384)
    };
    vec![
        (14, sides.into_iter().any(past), 0, 0),
        (4, custom.into_iter().any(is_refused), 0, 0),
        (3, sides.into_iter().any(large), 0, 0),
        (2, sides.into_iter().any(none), 0, 0),
    ]
}

/// `rectangle`: the bytes of a row of it, which only a mistake asks for.
fn memory(
    slip: Slip,
    rectangle: u64,
    lent: &Lent,
    strides: [u32; 4],
    shapes: [Shape; 4],
) -> Vec<Condition> {
    let lengths = lent.each_ref().map(|bytes| bytes.len() as u128);
    let mut all = Vec::new();
    for (i, (narrow, short)) in [(7, 6), (8, 9), (10, 10), (11, 11)].into_iter().enumerate() {
        let (row, rows) = (u128::from(shapes[i].row), u128::from(shapes[i].rows));
        let row_of = |number: u8| match (slip, number) {
            (LengthOfRectangle, 6) | (StrideOfRectangle, 7) => u128::from(rectangle),
            _ => row,
        };
        let stride = u128::from(strides[i]);
        // 7 names a stride, the planes' conditions the bytes of all rows.
        let times = if i == 0 { 1 } else { rows };
        let row = row_of(narrow);
        all.push((narrow, stride < row, row * times, stride * times));
        // With 0 rows a condition is answered that is asked before.
        let least = stride * rows.saturating_sub(1) + row_of(short);
        all.push((short, lengths[i] < least, least, lengths[i]));
    }
    for i in 0..4 {
        let exact = u128::from(strides[i]) * u128::from(shapes[i].rows);
        all.push((12, lengths[i] != exact, exact, lengths[i]));
    }
    all
}
