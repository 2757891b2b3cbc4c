//! Y4M files, RULES 14.1 and on: good and broken files read, pictures written, one picture written from planes,
//! and frames that go all the way. Every converter that has the calls is held to the list of conditions, to a
//! second reading of the file, and to what it must leave alone.

use crate::check::{Case, Converters, checked, equal_answers, equal_bytes, frame_of, smallest};
use crate::conditions::{self, NoY4m};
use crate::converter::Converter;
use crate::random::{self, Random};
use crate::request::{FrameRequest, frame_text, hex};
use crate::shift::{around, equal, fewer};
use crate::stored::settings_codes;
use model::{Answer, Refusal};

/// The numbers of an entry.
pub const ENTRY: usize = 6;

const MALFORMED: Answer = Err(Refusal {
    number: 19,
    expected: 0,
    received: 0,
});

pub fn number(answer: &Answer) -> u8 {
    answer.map_or_else(|refusal| refusal.number, |()| 0)
}

/// Those that have the calls.
fn having(converters: &Converters) -> impl Iterator<Item = &dyn Converter> {
    let having = converters.iter().filter(|one| one.has_y4m());
    having.map(|converter| &**converter)
}

/// A file that is read from a picture on.
#[derive(Clone)]
pub struct Reading {
    pub file: Vec<u8>,
    pub first: u64,
    /// The numbers lent for entries, as they are before.
    pub entries: Vec<u64>,
}

/// The answer, what is told beside it, and what was lent for writing, as it is after the call.
type Called = (Answer, [u64; 5], Vec<u64>);

impl Reading {
    /// One call, with other numbers around those that are lent.
    pub fn call(&self, converter: &dyn Converter) -> Result<Called, String> {
        let name = converter.name();
        let file = self.file.clone();
        let ((answer, told), entries) = around(name, &self.entries, !0, |entries| {
            converter.y4m_pictures(&file, self.first, entries)
        })?;
        equal_bytes(name, "the file's", &file, &self.file)?;
        Ok((answer, told, entries))
    }

    /// What it must answer, tell and leave.
    pub fn should(&self) -> Called {
        let Ok(y4m) = conditions::y4m_of(&self.file) else {
            return (MALFORMED, [0; 5], self.entries.clone());
        };
        let count = y4m.pictures.len();
        let first = usize::try_from(self.first).map_or(count, |first| first.min(count));
        let room = self.entries.len() / ENTRY;
        let asked = &y4m.pictures[first..(first.saturating_add(room)).min(count)];
        let mut entries = self.entries.clone();
        entries[..ENTRY * asked.len()].copy_from_slice(asked.as_flattened());
        let [w, h, sampling] = y4m.numbers.map(u64::from);
        let told = [w, h, sampling, count as u64, asked.len() as u64];
        (Ok(()), told, entries)
    }
}

/// Y, U and V of each picture of a file, back to back, by its entries.
fn planes_of(file: &[u8], entries: &[u64]) -> Vec<u8> {
    let parts = entries.chunks_exact(2);
    let part = |part: &[u64]| file[part[0] as usize..][..part[1] as usize].to_vec();
    parts.flat_map(part).collect()
}

/// All of a file by one converter: its three numbers, and the planes.
fn all_of(converter: &dyn Converter, file: &[u8]) -> Result<([u32; 3], Vec<u8>), String> {
    let name = converter.name();
    let (answer, [.., count, _]) = converter.y4m_pictures(file, 0, &mut []);
    equal_answers(name, &answer, &Ok(()))?;
    let mut entries = vec![0; ENTRY * count as usize];
    let (answer, [w, h, sampling, again, told]) = converter.y4m_pictures(file, 0, &mut entries);
    equal_answers(name, &answer, &Ok(()))?;
    equal(name, "pictures and entries", [again, told], [count; 2])?;
    let numbers = [w, h, sampling].map(|number| number as u32);
    Ok((numbers, planes_of(file, &entries)))
}

impl Case for Reading {
    /// What was read, written anew, has the same planes.
    fn check(&self, converters: &Converters) -> Result<u8, String> {
        let should = self.should();
        for converter in having(converters) {
            let name = converter.name();
            let (answer, told, entries) = self.call(converter)?;
            equal_answers(name, &answer, &should.0)?;
            equal(
                name,
                "sides, sampling, pictures and entries",
                told,
                should.1,
            )?;
            equal(name, "entries", &entries, &should.2)?;
            if answer.is_ok() {
                let (numbers, planes) = all_of(converter, &self.file)?;
                let (_, size) = converter.y4m_write(numbers, &planes, &mut []);
                let mut output = vec![0xee; size as usize];
                let (answer, _) = converter.y4m_write(numbers, &planes, &mut output);
                equal_answers(name, &answer, &Ok(()))?;
                let (again, same) = all_of(converter, &output)?;
                equal(name, "rewritten, sides and sampling", again, numbers)?;
                equal_bytes(name, "rewritten, planes", &same, &planes)?;
            }
        }
        Ok(number(&should.0))
    }

    fn smaller(&self) -> Vec<Reading> {
        let mut all = Vec::new();
        for entries in [0, self.entries.len() / 2] {
            let entries = self.entries[..entries].to_vec();
            all.extend((entries.len() < self.entries.len()).then(|| Reading {
                entries,
                ..self.clone()
            }));
        }
        all.extend((self.first > 0).then(|| Reading {
            first: 0,
            ..self.clone()
        }));
        all.extend(fewer(&self.file).into_iter().map(|file| Reading {
            file,
            ..self.clone()
        }));
        all
    }

    fn text(&self) -> String {
        let (first, room) = (self.first, self.entries.len());
        let text = self.file.escape_ascii();
        format!("y4m-pictures {} {first} {room}: {text}", hex(&self.file))
    }

    fn told(&self) -> Option<&'static str> {
        let y4m = conditions::y4m_of(&self.file).ok()?;
        Some(match (y4m.pictures.len(), y4m.numbers) {
            (0, _) => "no picture",
            (_, [.., 0]) => "4:2:0",
            _ => "4:2:2",
        })
    }

    fn wrong(&self) -> Option<NoY4m> {
        conditions::y4m_of(&self.file).err()
    }
}

/// Pictures that are written to an output.
#[derive(Clone)]
pub struct Writing {
    /// Width, height and the code of the sampling.
    pub numbers: [u32; 3],
    pub pictures: Vec<u8>,
    /// As it is before.
    pub output: Vec<u8>,
}

/// The answer, the size, and the output after the call.
type Written = (Answer, u64, Vec<u8>);

impl Writing {
    pub fn call(&self, converter: &dyn Converter) -> Result<Written, String> {
        let name = converter.name();
        let pictures = self.pictures.clone();
        let ((answer, size), output) = around(name, &self.output, 0x55, |output| {
            converter.y4m_write(self.numbers, &pictures, output)
        })?;
        equal_bytes(name, "the pictures'", &pictures, &self.pictures)?;
        Ok((answer, size, output))
    }

    pub fn should(&self) -> Written {
        let room = self.output.len();
        let (answer, size) = conditions::of_y4m_write(self.numbers, &self.pictures, room);
        let mut output = self.output.clone();
        if answer.is_ok() {
            let file = conditions::y4m_file(self.numbers, &self.pictures);
            output[..size as usize].copy_from_slice(&file);
        }
        (answer, size, output)
    }
}

impl Case for Writing {
    /// A file that was written reads back with the same planes.
    fn check(&self, converters: &Converters) -> Result<u8, String> {
        let should = self.should();
        for converter in having(converters) {
            let name = converter.name();
            let (answer, size, output) = self.call(converter)?;
            equal_answers(name, &answer, &should.0)?;
            equal(name, "size", size, should.1)?;
            equal_bytes(name, "output", &output, &should.2)?;
            if answer.is_ok() {
                let (numbers, planes) = all_of(converter, &output[..size as usize])?;
                equal(name, "sides and sampling read back", numbers, self.numbers)?;
                equal_bytes(name, "planes read back,", &planes, &self.pictures)?;
            }
        }
        Ok(number(&should.0))
    }

    fn smaller(&self) -> Vec<Writing> {
        let mut all = Vec::new();
        let half = self.output[..self.output.len() / 2].to_vec();
        all.extend((!self.output.is_empty()).then(|| Writing {
            output: half,
            ..self.clone()
        }));
        all.extend(fewer(&self.pictures).into_iter().map(|pictures| Writing {
            pictures,
            ..self.clone()
        }));
        all
    }

    fn text(&self) -> String {
        let [w, h, sampling] = self.numbers;
        let (pictures, output) = (hex(&self.pictures), hex(&self.output));
        format!("y4m-write {w} {h} {sampling} {pictures} {output}")
    }

    fn told(&self) -> Option<&'static str> {
        let sampling = *["4:2:0", "4:2:2"].get(self.numbers[2] as usize)?;
        self.should().0.is_ok().then_some(sampling)
    }

    fn size(&self) -> Option<(u32, u32)> {
        Some((self.numbers[0], self.numbers[1]))
    }
}

/// One picture that is written from planes.
#[derive(Clone)]
pub struct Picture {
    /// Width, height, the code of the sampling, and the strides of Y, U, V.
    pub numbers: [u32; 6],
    pub planes: [Vec<u8>; 3],
    /// As it is before.
    pub output: Vec<u8>,
}

impl Picture {
    pub fn call(&self, converter: &dyn Converter) -> Result<Written, String> {
        let name = converter.name();
        let planes = self.planes.clone();
        let ((answer, size), output) = around(name, &self.output, 0x55, |output| {
            converter.y4m_picture(self.numbers, &planes, output)
        })?;
        for (i, plane) in ["Y", "U", "V"].into_iter().enumerate() {
            equal_bytes(name, plane, &planes[i], &self.planes[i])?;
        }
        Ok((answer, size, output))
    }

    pub fn should(&self) -> Written {
        let room = self.output.len();
        let (answer, size) = conditions::of_y4m_picture(self.numbers, &self.planes, room);
        let mut output = self.output.clone();
        if answer.is_ok() {
            let picture = [&b"FRAME\n"[..], &self.rows()].concat();
            output[..size as usize].copy_from_slice(&picture);
        }
        (answer, size, output)
    }

    /// Width, height and the code of the sampling.
    fn format(&self) -> [u32; 3] {
        let [w, h, sampling, ..] = self.numbers;
        [w, h, sampling]
    }

    /// The planes of an accepted picture without padding.
    fn rows(&self) -> Vec<u8> {
        let shapes = conditions::y4m_shapes(self.format());
        let mut rows = Vec::new();
        for (i, shape) in shapes.into_iter().enumerate() {
            let stride = self.numbers[3 + i] as usize;
            for r in 0..shape.rows as usize {
                rows.extend(&self.planes[i][r * stride..][..shape.row as usize]);
            }
        }
        rows
    }
}

impl Case for Picture {
    /// Behind the file of no picture it makes the file of one.
    fn check(&self, converters: &Converters) -> Result<u8, String> {
        let should = self.should();
        for converter in having(converters) {
            let name = converter.name();
            let (answer, size, output) = self.call(converter)?;
            equal_answers(name, &answer, &should.0)?;
            equal(name, "size", size, should.1)?;
            equal_bytes(name, "output", &output, &should.2)?;
            if answer.is_ok() {
                let mut file = conditions::y4m_file(self.format(), &[]);
                file.extend(&output[..size as usize]);
                let mut one = vec![0; file.len()];
                let (answer, size) = converter.y4m_write(self.format(), &self.rows(), &mut one);
                equal_answers(name, &answer, &Ok(()))?;
                equal(name, "size of the file of it", size, file.len() as u64)?;
                equal_bytes(name, "the file of it,", &one, &file)?;
                let (_, planes) = all_of(converter, &file)?;
                equal_bytes(name, "planes read back,", &planes, &self.rows())?;
            }
        }
        Ok(number(&should.0))
    }

    fn smaller(&self) -> Vec<Picture> {
        let mut all = Vec::new();
        let half = self.output[..self.output.len() / 2].to_vec();
        all.extend((!self.output.is_empty()).then(|| Picture {
            output: half,
            ..self.clone()
        }));
        for i in 0..3 {
            let mut planes = self.planes.clone();
            let length = planes[i].len();
            planes[i].truncate(length / 2);
            all.extend((length > 0).then(|| Picture {
                planes,
                ..self.clone()
            }));
        }
        all
    }

    fn text(&self) -> String {
        let numbers = self.numbers.map(|number| number.to_string()).join(" ");
        let [y, u, v] = self.planes.each_ref().map(|plane| hex(plane));
        format!("y4m-picture {numbers} {y} {u} {v} {}", hex(&self.output))
    }

    fn told(&self) -> Option<&'static str> {
        let sampling = *["4:2:0", "4:2:2"].get(self.numbers[2] as usize)?;
        self.should().0.is_ok().then_some(sampling)
    }

    fn size(&self) -> Option<(u32, u32)> {
        Some((self.numbers[0], self.numbers[1]))
    }
}

/// Frames of one size and sampling that are converted and put in a file one behind the other.
#[derive(Clone)]
pub struct Film(pub Vec<FrameRequest>);

impl Case for Film {
    /// The file is the same by every converter and by both ways to write it, and its planes are those of the
    /// frame calls.
    fn check(&self, converters: &Converters) -> Result<u8, String> {
        let mut first: Option<Vec<u8>> = None;
        for converter in having(converters) {
            let name = converter.name();
            let (file, rows) = self.file(converter)?;
            equal_bytes(name, "file", &file, first.get_or_insert(file.clone()))?;
            let (numbers, planes) = all_of(converter, &file)?;
            equal(name, "sides and sampling", numbers, self.numbers())?;
            equal_bytes(name, "planes", &planes, &rows)?;
            let mut at_once = vec![0; file.len()];
            let (answer, size) = converter.y4m_write(numbers, &rows, &mut at_once);
            equal_answers(name, &answer, &Ok(()))?;
            equal(name, "size, written at once", size, file.len() as u64)?;
            equal_bytes(name, "written at once,", &at_once, &file)?;
        }
        Ok(0)
    }

    fn smaller(&self) -> Vec<Film> {
        let without = |k| {
            let mut frames = self.0.clone();
            frames.remove(k);
            Film(frames)
        };
        let all = (0..self.0.len()).filter(|_| self.0.len() > 1);
        all.map(without).collect()
    }

    fn text(&self) -> String {
        let lines: Vec<String> = self.0.iter().map(frame_text).collect();
        lines.join("\n")
    }

    fn size(&self) -> Option<(u32, u32)> {
        let [w, h, _] = self.numbers();
        Some((w, h))
    }
}

impl Film {
    fn numbers(&self) -> [u32; 3] {
        let frame = &self.0[0].frame;
        let [sampling, ..] = settings_codes(&frame.settings);
        [frame.w, frame.h, sampling]
    }

    /// As a user goes about it: the file of no picture, then one behind the other with the strides of the frame call.
    /// And the planes' rows without padding.
    fn file(&self, converter: &dyn Converter) -> Result<(Vec<u8>, Vec<u8>), String> {
        let name = converter.name();
        let numbers = self.numbers();
        let (_, size) = converter.y4m_write(numbers, &[], &mut []);
        let mut file = vec![0; size as usize];
        let (answer, _) = converter.y4m_write(numbers, &[], &mut file);
        equal_answers(name, &answer, &Ok(()))?;
        let mut rows = Vec::new();
        for request in &self.0 {
            let (answer, after) = frame_of(converter, request);
            equal_answers(name, &answer, &Ok(()))?;
            let [w, h, sampling] = numbers;
            let [_, y_stride, u_stride, v_stride] = request.strides();
            let [_, y, u, v] = after.lent;
            let picture = Picture {
                numbers: [w, h, sampling, y_stride, u_stride, v_stride],
                planes: [y, u, v],
                output: vec![],
            };
            rows.extend(picture.rows());
            let (short, size, _) = picture.call(converter)?;
            equal(name, "no output", number(&short), 16)?;
            let output = vec![0; size as usize];
            let (answer, _, output) = Picture { output, ..picture }.call(converter)?;
            equal_answers(name, &answer, &Ok(()))?;
            file.extend(output);
        }
        Ok((file, rows))
    }
}

/// A file before it is put together: the words of its lines, each line's end, and what stands behind each of the
/// lines but the first.
#[derive(Clone)]
struct Draft {
    header: Line,
    pictures: Vec<(Line, Vec<u8>)>,
}

#[derive(Clone)]
struct Line {
    words: Vec<Vec<u8>>,
    end: Vec<u8>,
}

impl Line {
    fn bytes(&self) -> Vec<u8> {
        [self.words.join(&b' '), self.end.clone()].concat()
    }

    /// Where a tag can stand among the words.
    fn place(&self, random: &mut Random) -> usize {
        1 + random.below(self.words.len() as u64) as usize
    }

    fn insert(&mut self, random: &mut Random, word: Vec<u8>) {
        let place = self.place(random);
        self.words.insert(place, word);
    }

    /// The places of the tags of this letter.
    fn of_letter(&self, letter: u8) -> Option<usize> {
        let found = |word: &Vec<u8>| word.first() == Some(&letter);
        let place = self.words[1..].iter().position(found)?;
        Some(place + 1)
    }

    /// Makes it this long, with one tag more or one longer.
    fn fill(&mut self, random: &mut Random, length: usize) {
        let at_hand = self.bytes().len();
        let Some(more) = length.checked_sub(at_hand + 2) else {
            return;
        };
        let mut tag = b"X".to_vec();
        tag.extend((0..more).map(|_| tag_byte(random)));
        self.insert(random, tag);
    }
}

/// Any byte that a tag may have.
fn tag_byte(random: &mut Random) -> u8 {
    match random.below(4) {
        0 => random.pick(b"WHCFIAX0123456789:=\r\t\0"),
        1 => match random.next() as u8 {
            b' ' | b'\n' => 0xff,
            byte => byte,
        },
        _ => random.from(0x21, 0x7e) as u8,
    }
}

/// A tag that is none of W, H and C.
fn other_tag(random: &mut Random) -> Vec<u8> {
    const USUAL: [&str; 14] = [
        "F25:1",
        "F30000:1001",
        "Ip",
        "It",
        "Im",
        "I?",
        "A1:1",
        "A0:0",
        "XYSCSS=420JPEG",
        "XW4",
        "XCOLORRANGE=FULL",
        "w4",
        "h2",
        "c444",
    ];
    if random.one_in(2) {
        return random.pick(&USUAL).as_bytes().to_vec();
    }
    let length = random.from(1, 6);
    let mut tag: Vec<u8> = (0..length).map(|_| tag_byte(random)).collect();
    if let b'W' | b'H' | b'C' = tag[0] {
        tag[0] = b'X';
    }
    tag
}

fn side(random: &mut Random) -> u32 {
    match random.below(6) {
        0 => 1,
        1 => 2,
        _ => random.from(1, 11),
    }
}

/// Width, height and sampling; now and then long and thin.
fn any_numbers(random: &mut Random) -> [u32; 3] {
    let sampling = random.below(2) as u32;
    if random.one_in(250) {
        let (long, thin) = (
            random.pick(&[9_999, 10_000, 16_383, 16_384]),
            random.from(1, 2),
        );
        let [w, h] = random.pick(&[[long, thin], [thin, long]]);
        return [w, h, sampling];
    }
    [side(random), side(random), sampling]
}

fn picture_size(numbers: [u32; 3]) -> usize {
    conditions::y4m_lengths(numbers).iter().sum::<u64>() as usize
}

/// Often any bytes, now and then those of lines.
fn plane_bytes(random: &mut Random, length: usize) -> Vec<u8> {
    match random.below(4) {
        0 => b"FRAME\n".iter().copied().cycle().take(length).collect(),
        1 => (0..length).map(|_| random.pick(b" \nFRAME")).collect(),
        _ => random.bytes(length),
    }
}

/// A good file.
fn draft(random: &mut Random, numbers: [u32; 3]) -> Draft {
    let [w, h, sampling] = numbers;
    let mut header = Line {
        words: vec![b"YUV4MPEG2".to_vec()],
        end: b"\n".to_vec(),
    };
    let chroma: &[&str] = match sampling {
        0 => &["C420", "C420jpeg", "C420mpeg2", ""],
        _ => &["C422"],
    };
    let chroma = random.pick(chroma);
    let written = random.one_in(4);
    for tag in [format!("W{w}"), format!("H{h}"), chroma.to_string()] {
        if !tag.is_empty() {
            match written {
                true => header.words.push(tag.into_bytes()),
                false => header.insert(random, tag.into_bytes()),
            }
        }
    }
    for _ in 0..random.pick(&[0, 0, 1, 2, 5]) {
        let tag = other_tag(random);
        header.insert(random, tag);
    }
    let count = match random.below(12) {
        0 => 0,
        1 if w.max(h) < 12 => random.from(3, 40),
        _ => random.from(1, 3),
    };
    let mut pictures = Vec::new();
    for _ in 0..count {
        let mut line = Line {
            words: vec![b"FRAME".to_vec()],
            end: b"\n".to_vec(),
        };
        if random.one_in(3) {
            for _ in 0..random.from(1, 3) {
                let tag = match random.below(3) {
                    0 => random
                        .pick(&["W", "W9", "H0", "C444", "FRAME", "Ip"])
                        .into(),
                    _ => other_tag(random),
                };
                line.insert(random, tag);
            }
        }
        pictures.push((line, plane_bytes(random, picture_size(numbers))));
    }
    Draft { header, pictures }
}

impl Draft {
    fn bytes(&self) -> Vec<u8> {
        let mut file = self.header.bytes();
        for (line, planes) in &self.pictures {
            file.extend(line.bytes());
            file.extend(planes);
        }
        file
    }

    /// The first line or a picture's.
    fn some_line(&mut self, random: &mut Random) -> &mut Line {
        let k = random.below(self.pictures.len() as u64 + 1) as usize;
        match k {
            0 => &mut self.header,
            _ => &mut self.pictures[k - 1].0,
        }
    }
}

/// A decimal that is no side, or not as it must stand; the value is the right one in its last bits.
fn other_side(random: &mut Random, side: u32) -> String {
    let digits = random.from(1, 200) as usize;
    let round = |by: u128| (by + u128::from(side)).to_string();
    match random.below(16) {
        0 => "0".to_string(),
        1 => format!("0{side}"),
        2 => format!("{}{side}", "0".repeat(digits)),
        3 => "16385".to_string(),
        4 => random.from(16_385, 1 << 20).to_string(),
        5 => round(1 << random.pick(&[8, 14, 15, 16])),
        6 => round(1 << random.pick(&[31, 32, 33])),
        7 => round(1 << random.pick(&[63, 64, 65, 96, 127])),
        8 => "9".repeat(digits.max(5)),
        9 => format!("{side}{}", "0".repeat(digits)),
        10 => String::new(),
        11 => format!("-{side}"),
        12 => format!("+{side}"),
        13 => format!("{side}{}", tag_byte(random) as char),
        14 => format!("{}{side}", tag_byte(random) as char),
        _ => format!("{side}\r"),
    }
}

const OTHER_CHROMA: [&str; 18] = [
    "C",
    "Cmono",
    "C444",
    "C444alpha",
    "C420paldv",
    "C411",
    "C420p10",
    "C422p10",
    "C42",
    "C4200",
    "C4220",
    "C420JPEG",
    "C420jpe",
    "C420jpegs",
    "C420mpeg",
    "C420mpeg1",
    "C420mpeg22",
    "C420jpeg\r",
];

/// One thing that is wrong, or nearly, in a file that was good before the first.
fn slip(random: &mut Random, draft: &mut Draft, numbers: [u32; 3]) {
    let letter = random.pick(b"WH");
    match random.below(24) {
        0 | 1 => {
            if let Some(place) = draft.header.of_letter(letter) {
                let side = other_side(random, numbers[usize::from(letter == b'H')]);
                draft.header.words[place] = [&[letter], side.as_bytes()].concat();
            }
        }
        2 => {
            if let Some(place) = draft.header.of_letter(letter) {
                draft.header.words.remove(place);
            }
        }
        3 => {
            // One more of it: the same, another, or none at all behind the letter.
            let letter = random.pick(b"WHC");
            let same =
                (draft.header.of_letter(letter)).map(|place| draft.header.words[place].clone());
            let more = match random.below(4) {
                0 | 1 => same.unwrap_or(b"C420".to_vec()),
                2 => vec![letter],
                _ => vec![letter, tag_byte(random)],
            };
            draft.header.insert(random, more);
        }
        4 | 5 => {
            let other = random.pick(&OTHER_CHROMA).as_bytes().to_vec();
            match draft.header.of_letter(b'C') {
                Some(place) => draft.header.words[place] = other,
                None => draft.header.insert(random, other),
            }
        }
        6 => {
            // Of the other sampling than the planes.
            let other = random.pick(&["C420", "C422"]).as_bytes().to_vec();
            match draft.header.of_letter(b'C') {
                Some(place) => draft.header.words[place] = other,
                None => draft.header.insert(random, other),
            }
        }
        7 | 8 => {
            let line = draft.some_line(random);
            let place = random.below(line.words.len() as u64 + 1) as usize;
            line.words.insert(place, vec![]);
        }
        9 => {
            let line = draft.some_line(random);
            let end = random.pick(&["", "\r\n", " \n", "\r", "\n\n", "\0\n", "\n "]);
            line.end = end.as_bytes().to_vec();
        }
        10 | 11 => {
            let length = random.from(253, 259) as usize;
            draft.some_line(random).fill(random, length);
        }
        12 => {
            // A tag that crosses the end of the longest line, W or H behind it.
            let length = random.from(240, 262) as usize;
            let place = draft.header.of_letter(letter);
            let tag = place.map(|place| draft.header.words.remove(place));
            draft.header.fill(random, length);
            draft.header.words.extend(tag);
        }
        13 => {
            let words = [
                "YUV4MPEG",
                "YUV4MPEG22",
                "yuv4mpeg2",
                "YUV4MPEG1",
                "YUV4MPEG2\r",
                "",
                "FRAME",
            ];
            draft.header.words[0] = random.pick(&words).as_bytes().to_vec();
        }
        14 => {
            let words = [
                "FRAMES",
                "FRAM",
                "frame",
                "FRAME\r",
                "FRAMEIp",
                "",
                "YUV4MPEG2",
            ];
            let word = random.pick(&words).as_bytes().to_vec();
            let count = draft.pictures.len() as u64;
            if let Some((line, _)) = draft.pictures.get_mut(random.below(count + 1) as usize) {
                line.words[0] = word;
            }
        }
        15..=18 => {
            // Another number of plane bytes, in any picture or in the last.
            let count = draft.pictures.len() as u64;
            let last = count.saturating_sub(1) as usize;
            let any = random.below(count + 1) as usize;
            let k = random.pick(&[any, last]);
            let [w, h, sampling] = numbers;
            let [y, c, _] = conditions::y4m_lengths(numbers);
            let [_, other, _] = conditions::y4m_lengths([w, h, 1 - sampling]);
            let down = u64::from(w / 2) * u64::from(if sampling == 0 { h / 2 } else { h });
            if let Some((_, planes)) = draft.pictures.get_mut(k) {
                let length = planes.len();
                let few = random.from(1, 9) as usize;
                let length = match random.below(8) {
                    0 => length.saturating_sub(1),
                    1 => length + 1,
                    2 => length.saturating_sub(few),
                    3 => length + few,
                    4 => (y + 2 * other) as usize,
                    5 => (y + 2 * down) as usize,
                    6 => (y + c) as usize,
                    _ => 0,
                };
                planes.resize(length, b'\n');
            }
        }
        19 => {
            // Two words with something else between them than one space.
            let line = draft.some_line(random);
            let place = line.place(random);
            if place < line.words.len() {
                let word = line.words.remove(place);
                let between = random.pick(&["\t", "", "\n", "\r", "  ", "\0", ","]);
                let before = &mut line.words[place - 1];
                before.extend(between.as_bytes());
                before.extend(word);
            }
        }
        20 => {
            let count = draft.pictures.len();
            if count > 1 {
                // A line alone, or planes alone.
                match random.one_in(2) {
                    true => draft.pictures[count - 1].1.clear(),
                    false => draft.pictures[count - 1].0.words = vec![vec![]],
                }
                draft.pictures[count - 1].0.end.clear();
            }
        }
        21 => draft.header.words.reverse(),
        22 => {
            let place = draft.header.place(random);
            draft.header.words.truncate(place);
        }
        _ => {
            // No rule is about them.
            let tag = other_tag(random);
            draft.some_line(random).insert(random, tag);
        }
    }
}

/// One change of bytes, most of them in the text.
fn mutate(random: &mut Random, file: &mut Vec<u8>) {
    let text = file.iter().position(|byte| *byte == b'\n').unwrap_or(0) as u64;
    let length = file.len() as u64;
    let at = match random.below(6) {
        0 => random.below(length + 1),
        1 => random.below(12).min(length),
        _ => (9 + random.below(text.saturating_sub(9) + 9)).min(length),
    } as usize;
    let any = random.next() as u8;
    let byte = random.pick(&[any, b' ', b'\n', b'0', b'1', b'9', b'W', b'H', b'C', b'\r']);
    match random.below(9) {
        0 => {
            let bit = random.below(8);
            if let Some(byte) = file.get_mut(at) {
                *byte ^= 1 << bit;
            }
        }
        1 | 2 => {
            if at < file.len() {
                file[at] = byte;
            }
        }
        3 => file.insert(at, byte),
        4 => {
            if at < file.len() {
                file.remove(at);
            }
        }
        5 => file.truncate(random.below(length + 1) as usize),
        6 => {
            let few = random.from(1, 8) as usize;
            match random.one_in(2) {
                true => file.truncate(file.len().saturating_sub(few)),
                false => {
                    let bytes = plane_bytes(random, few);
                    file.extend(bytes);
                }
            }
        }
        7 => {
            // Some bytes once more.
            let end = (at + random.from(1, 12) as usize).min(file.len());
            let again = file[at.min(end)..end].to_vec();
            file.splice(end..end, again);
        }
        _ => {
            if at + 1 < file.len() {
                file.swap(at, at + 1);
            }
        }
    }
}

/// A good file, one with one or two slips, one with one to three changes of bytes, or any bytes.
pub fn any_file(random: &mut Random) -> Vec<u8> {
    let numbers = any_numbers(random);
    let mut draft = draft(random, numbers);
    let kind = random.below(20);
    if let 5..=13 | 18 = kind {
        for _ in 0..random.pick(&[1, 1, 1, 2]) {
            slip(random, &mut draft, numbers);
        }
    }
    let mut file = draft.bytes();
    if let 14..=18 = kind {
        for _ in 0..random.from(1, 3) {
            mutate(random, &mut file);
        }
    }
    if kind == 19 {
        let length = random.below(60) as usize;
        file = match random.below(3) {
            0 => random.bytes(length),
            1 => (0..length)
                .map(|_| random.pick(b"YUV4MPEG2 WHC012\n"))
                .collect(),
            _ => file[..length.min(file.len())].to_vec(),
        };
    }
    file
}

impl Reading {
    pub fn random(random: &mut Random) -> Reading {
        let file = any_file(random);
        let count = conditions::y4m_of(&file).map_or(3, |y4m| y4m.pictures.len() as u64);
        let first = match random.below(4) {
            0 | 1 => 0,
            2 => random.below(count + 2),
            _ => random.pick(&[
                count,
                count.saturating_sub(1),
                1 << 32,
                !0,
                !0 - 5,
                !0 / 6 + 1,
            ]),
        };
        let entry = ENTRY as u64;
        let room = match random.below(4) {
            0 => random.below(14),
            1 => entry * count,
            _ => random.below(entry * (count + 2)),
        };
        let entries = (0..room).map(|_| random.next()).collect();
        Reading {
            file,
            first,
            entries,
        }
    }
}

/// A side or a code that no file has.
fn other_number(random: &mut Random, numbers: &mut [u32]) {
    let any = random.next() as u32;
    match random.below(3) {
        0 => numbers[2] = random.pick(&[2, 3, 255, 256, 257, 1 << 16, u32::MAX, any]),
        k => {
            let side = numbers[k as usize - 1];
            let more = |by: u32| side.wrapping_add(by);
            let other = [0, 16_385, more(1 << 16), more(1 << 31), u32::MAX, any];
            numbers[k as usize - 1] = random.pick(&other);
        }
    }
}

/// How much is lent for what takes this many bytes.
fn room(random: &mut Random, size: usize) -> Vec<u8> {
    let length = match random.below(8) {
        0..=2 => size,
        3 => size.saturating_sub(1),
        4 => size + 1,
        5 => random.below(size as u64 + 1) as usize,
        6 => random.pick(&[0, 1, 6, 34]),
        _ => size + random.from(1, 40) as usize,
    };
    random.bytes(length)
}

impl Writing {
    pub fn random(random: &mut Random) -> Writing {
        let mut numbers = match random.one_in(40) {
            // Sides of every number of digits, and no picture: most of such would be large.
            true => [0, 1].map(|_| 1 + random.next() as u32 % (1 << random.from(1, 14))),
            false => [0, 0],
        };
        let alone = numbers != [0, 0];
        let [w, h, sampling] = any_numbers(random);
        if !alone {
            numbers = [w, h];
        }
        let mut numbers = [numbers[0], numbers[1], sampling];
        let count = match random.below(6) {
            _ if alone => 0,
            0 => 0,
            1 if w.max(h) < 12 => random.from(3, 40),
            _ => random.from(1, 3),
        };
        let picture = picture_size(numbers);
        let mut pictures = plane_bytes(random, picture * count as usize);
        let size = conditions::y4m_file(numbers, &pictures).len();
        if random.one_in(3) {
            match random.below(6) {
                0 | 1 => other_number(random, &mut numbers),
                2 => pictures.truncate(pictures.len().saturating_sub(1)),
                3 => pictures.push(b'\n'),
                4 => {
                    let length = random.below(pictures.len() as u64 + 1) as usize;
                    pictures.truncate(length);
                }
                _ => numbers[2] ^= 1,
            }
        }
        let output = room(random, size);
        Writing {
            numbers,
            pictures,
            output,
        }
    }
}

impl Picture {
    pub fn random(random: &mut Random, side: u32) -> Picture {
        let sampling = random.below(2) as u32;
        let settings = Some([sampling, 0, 0, 0]);
        let (mut request, mut planes) = random::planes(random, side, settings);
        let size = 6 + picture_size([request.w, request.h, sampling]);
        let faults = match random.one_in(3) {
            true => random.from(1, 2),
            false => 0,
        };
        let mut code = sampling;
        for _ in 0..faults {
            match random.below(6) {
                0 => {
                    let mut numbers = [request.w, request.h, code];
                    other_number(random, &mut numbers);
                    [request.w, request.h, code] = numbers;
                }
                1 => code ^= 1,
                _ => random::plane_fault(random, &mut request, &mut planes),
            }
        }
        let r = request;
        Picture {
            numbers: [r.w, r.h, code, r.y_stride, r.u_stride, r.v_stride],
            planes,
            output: room(random, size),
        }
    }
}

impl Film {
    pub fn random(random: &mut Random, side: u32) -> Film {
        let count = random.from(1, 4);
        let first = random::frame_in(random, side, None);
        let like = |_| random::frame_like(random, &first.frame);
        Film((0..count).map(like).collect())
    }
}

/// Files of which every byte is changed to every other, left out, and preceded by every byte; and which are cut at
/// each byte.
pub fn every_byte(converters: &Converters) -> Result<String, String> {
    let filled = [
        b"YUV4MPEG2 H1 W2 X".to_vec(),
        vec![b'x'; 238],
        b"\n".to_vec(),
    ]
    .concat();
    let bases = [
        b"YUV4MPEG2 W2 H1\nFRAME\nyyuv".to_vec(),
        b"YUV4MPEG2 W1 H3 F25:1 C422\nFRAME\nyyyuuuvvvFRAME X\nyyyuuuvvv".to_vec(),
        b"YUV4MPEG2 C420mpeg2 W10 H1\n".to_vec(),
        [&filled[..], b"FRAME\nyyuv"].concat(),
    ];
    let (mut all, mut accepted) = (0, 0);
    let mut check = |file: Vec<u8>| {
        let entries = vec![9; 2 * ENTRY + 1];
        let reading = Reading {
            file,
            first: 0,
            entries,
        };
        all += 1;
        match checked(&reading, converters) {
            Ok(number) => {
                accepted += u64::from(number == 0);
                Ok(())
            }
            Err(wrong) => {
                let (reading, wrong) = smallest(&reading, converters, wrong);
                Err(format!("{wrong}\n{}", reading.text()))
            }
        }
    };
    for base in &bases {
        for at in 0..=base.len() {
            check(base[..at].to_vec())?;
            for byte in 0..=255 {
                let mut more = base.clone();
                more.insert(at, byte);
                check(more)?;
            }
            if at == base.len() {
                break;
            }
            let mut less = base.clone();
            less.remove(at);
            check(less)?;
            for byte in (0..=255).filter(|byte| *byte != base[at]) {
                let mut other = base.clone();
                other[at] = byte;
                check(other)?;
            }
        }
    }
    let files = bases.len();
    Ok(format!(
        "every byte of {files} Y4M files: {all} equal, {accepted} accepted, refused 19: {}",
        all - accepted
    ))
}
