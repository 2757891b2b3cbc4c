//! Y4M files: RULES 14.1 and on. It was written from the request and its readings, and no definition, proof
//! or code of `crates` was looked at for it.
//!
//! A line is cut into words at its spaces, so that an empty word is two spaces, or one too many at an end.
//! Numbers that a file says are held as text until they are sides.

use crate::refusals::{Answer, refuse_if};
use crate::settings::{YuvChromaSubsampling, chroma_width, plane_rows, sampling_of};
use crate::shift::Part;
use YuvChromaSubsampling::{Yuv420, Yuv422};

/// RULES 14.1: the most bytes of a line, its newline counted.
const LONGEST_LINE: usize = 256;

/// RULES 14.1: the first words of the two kinds of lines.
const HEADER: &[u8] = b"YUV4MPEG2";
const FRAME: &[u8] = b"FRAME";

/// RULES 14.2: what the pictures of a file share.
#[derive(Clone, Copy, Debug, PartialEq)]
pub struct Format {
    pub w: u32,
    pub h: u32,
    pub sampling: YuvChromaSubsampling,
}

/// Bytes of a row, and rows.
#[derive(Clone, Copy, Debug, PartialEq)]
struct Shape {
    row: u64,
    rows: u64,
}

impl Shape {
    fn size(self) -> u64 {
        self.row * self.rows
    }
}

impl Format {
    /// RULES 14.6, 14.7: by numbers. None: a file has no such sides or no such sampling.
    fn of(w: u32, h: u32, sampling: u32) -> Option<Format> {
        let code = u8::try_from(sampling).ok()?;
        let sampling = sampling_of(code)?;
        let sides = is_side(w.into()) && is_side(h.into());
        sides.then_some(Format { w, h, sampling })
    }

    /// RULES 14.3: of Y, U and V.
    fn shapes(self) -> [Shape; 3] {
        let (rows, chroma_rows) = plane_rows(self.sampling, self.h);
        let row = u64::from(self.w);
        let luma = Shape { row, rows };
        let chroma = Shape {
            row: chroma_width(row),
            rows: chroma_rows,
        };
        [luma, chroma, chroma]
    }

    /// The bytes of the planes of a picture.
    fn picture(self) -> u64 {
        self.shapes().map(Shape::size).iter().sum()
    }

    /// RULES 14.6: the line that a written file starts with.
    fn header(self) -> String {
        let sampling = match self.sampling {
            Yuv420 => "420jpeg",
            Yuv422 => "422",
        };
        let Format { w, h, .. } = self;
        format!("YUV4MPEG2 W{w} H{h} F25:1 Ip C{sampling}\n")
    }

    /// RULES 1.2.
    fn code(self) -> u64 {
        match self.sampling {
            Yuv420 => 0,
            Yuv422 => 1,
        }
    }
}

/// RULES 14.2.
fn is_side(side: u64) -> bool {
    (1..=16_384).contains(&side)
}

/// RULES 14.3: a file, and where Y, U and V of each picture stand in it.
#[derive(Clone, Debug, PartialEq)]
pub struct Y4m {
    pub format: Format,
    pub pictures: Vec<[Part; 3]>,
}

/// RULES 14.1: the line that these bytes start with: its first word, its tags, and the bytes behind its newline.
/// None: it is too long, does not end, or has an empty tag.
fn line(bytes: &[u8]) -> Option<(&[u8], Vec<&[u8]>, &[u8])> {
    let most = bytes.len().min(LONGEST_LINE);
    let end = bytes[..most].iter().position(|byte| *byte == b'\n')?;
    let mut words = bytes[..end].split(|byte| *byte == b' ');
    let first = words.next()?;
    let tags: Vec<&[u8]> = words.collect();
    let empty = tags.iter().any(|tag| tag.is_empty());
    (!empty).then_some((first, tags, &bytes[end + 1..]))
}

/// RULES 14.2: what stands behind this letter in each tag that starts with it.
fn values<'a>(tags: &[&'a [u8]], letter: u8) -> Vec<&'a [u8]> {
    let value = |tag: &&'a [u8]| tag.strip_prefix(&[letter]);
    tags.iter().filter_map(value).collect()
}

/// RULES 14.2: a side by its decimal. Each number has one without a leading zero, which is the one that is printed.
fn side(text: &[u8]) -> Option<u32> {
    let text = std::str::from_utf8(text).ok()?;
    let side: u32 = text.parse().ok()?;
    (is_side(side.into()) && side.to_string() == text).then_some(side)
}

/// RULES 14.2: the side that exactly one tag of this letter has.
fn only_side(tags: &[&[u8]], letter: u8) -> Option<u32> {
    match values(tags, letter)[..] {
        [text] => side(text),
        _ => None,
    }
}

/// RULES 14.2.
fn format_of(tags: &[&[u8]]) -> Option<Format> {
    let sampling = match values(tags, b'C')[..] {
        [] => Yuv420,
        [b"420" | b"420jpeg" | b"420mpeg2"] => Yuv420,
        [b"422"] => Yuv422,
        _ => return None,
    };
    Some(Format {
        w: only_side(tags, b'W')?,
        h: only_side(tags, b'H')?,
        sampling,
    })
}

/// RULES 14.4. None: these bytes are no file.
pub fn y4m_of(file: &[u8]) -> Option<Y4m> {
    let (first, tags, mut rest) = line(file)?;
    if first != HEADER {
        return None;
    }
    let format = format_of(&tags)?;
    let mut pictures = Vec::new();
    while !rest.is_empty() {
        let (first, _, planes) = line(rest)?;
        if first != FRAME {
            return None;
        }
        rest = planes.get(format.picture() as usize..)?;
        let mut offset = (file.len() - planes.len()) as u64;
        pictures.push(format.shapes().map(|shape| {
            let length = shape.size();
            offset += length;
            Part {
                offset: offset - length,
                length,
            }
        }));
    }
    Some(Y4m { format, pictures })
}

/// RULES 14.5, 10.8: the answer, and width, height, code of the sampling, how many pictures the file has and how
/// many of them were put in the room, six numbers each, from picture `first` on.
pub fn read_pictures(file: &[u8], first: u64, room: &mut [u64]) -> (Answer, [u64; 5]) {
    let Some(Y4m { format, pictures }) = y4m_of(file) else {
        return (refuse_if(true, 19), [0; 5]);
    };
    let mut told = 0;
    let asked = pictures.iter().skip(first as usize);
    for (picture, group) in asked.zip(room.chunks_exact_mut(6)) {
        let numbers = picture.map(|part| [part.offset, part.length]);
        group.copy_from_slice(numbers.as_flattened());
        told += 1;
    }
    let (w, h, count) = (format.w.into(), format.h.into(), pictures.len() as u64);
    (Ok(()), [w, h, format.code(), count, told])
}

/// RULES 14.6, 10.8: the answer and the file's size, by width, height and the code of the sampling. The pictures are
/// Y, U, V of one after the other, without padding.
pub fn write_pictures(
    [w, h, sampling]: [u32; 3],
    pictures: &[u8],
    output: &mut [u8],
) -> (Answer, u64) {
    let format = Format::of(w, h, sampling);
    let whole = |format: &Format| (pictures.len() as u64).is_multiple_of(format.picture());
    let Some(format) = format.filter(whole) else {
        return (refuse_if(true, 19), 0);
    };
    let mut file = format.header().into_bytes();
    for planes in pictures.chunks(format.picture() as usize) {
        file.extend(b"FRAME\n");
        file.extend(planes);
    }
    put(&file, output)
}

/// RULES 14.7, 10.8: the answer and the size of one picture for the end of a file, by width, height, the code of the
/// sampling and the strides of Y, U and V.
pub fn write_picture(
    [w, h, sampling, strides @ ..]: [u32; 6],
    planes: [&[u8]; 3],
    output: &mut [u8],
) -> (Answer, u64) {
    let Some(format) = Format::of(w, h, sampling) else {
        return (refuse_if(true, 19), 0);
    };
    let mut picture = b"FRAME\n".to_vec();
    for ((shape, plane), stride) in format.shapes().into_iter().zip(planes).zip(strides) {
        let stride = u64::from(stride);
        if stride < shape.row || plane.len() as u64 != stride * shape.rows {
            return (refuse_if(true, 19), 0);
        }
        for padded in plane.chunks(stride as usize) {
            picture.extend(&padded[..shape.row as usize]);
        }
    }
    put(&picture, output)
}

/// RULES 14.6, 14.7: 16, or the bytes at the start of the output; and how many they are.
fn put(bytes: &[u8], output: &mut [u8]) -> (Answer, u64) {
    let answer = refuse_if(output.len() < bytes.len(), 16);
    if answer.is_ok() {
        output[..bytes.len()].copy_from_slice(bytes);
    }
    (answer, bytes.len() as u64)
}

#[cfg(test)]
mod tests;
