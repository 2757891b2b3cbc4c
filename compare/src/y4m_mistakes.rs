//! Mistakes near at hand in a reader or a writer of Y4M files: a third one that can make each of them, so that a
//! list of calls can be held to catch them. Without one it gives what is expected.

use model::{Answer, Refusal};

#[derive(Clone, Copy, PartialEq)]
pub enum Mistake {
    NoMistake,
    NewlineNotCounted,
    LineOf255,
    AnyFirstLine,
    AnyPictureLine,
    EmptyTags,
    SpaceAtTheEnd,
    EmptyPictureTags,
    EndOfFileEndsALine,
    FrameAsPrefix,
    FrameWithoutTags,
    FrameTagsRead,
    HeaderAsPrefix,
    HeaderNotAsked,
    LastWidth,
    FirstHeight,
    LastChroma,
    SameChromaTwice,
    HeightOf1,
    LeadingZeros,
    SideOf0,
    LargerSides,
    LargestSideRefused,
    SidesOf16Bits,
    SidesOf32Bits,
    SidesOf64Bits,
    DigitsAtTheStart,
    Signs,
    NoDigits,
    MissingIs422,
    PrefixOf420,
    PrefixOf422,
    AnyChroma,
    MonoIsTaken,
    Mpeg2Refused,
    PaldvIsTaken,
    CaseOfChroma,
    CarriageReturns,
    TabsForSpaces,
    SmallLetters,
    OtherTagsRefused,
    WidthBeforeHeight,
    TextOnly,
    ChromaRoundedDown,
    PlanesOf420,
    RowsHalved,
    EndNotAsked,
    LastPictureCut,
    NoPictureRefused,
    NewlineBehindPlanes,
    FirstOf32Bits,
    PartOfTheRoom,
    OffsetsFromTheLine,
    ExchangedChroma,
    CountOfEntries,
    SidesToldWith19,
    PlainC420,
    NoChromaTag,
    HeightFirst,
    OtherRate,
    CodesOf8Bits,
    AnyCode,
    SidesCut,
    RestOfPicturesLost,
    RoomFirst,
    SizeNotToldAfter16,
    SizeToldWith19,
    HeaderBeforeTheTest,
    RestCleared,
    FrameOnce,
    NewlinesWritten,
    RoomOfTheBytesAlone,
    UnknownIs1,
    PaddingTaken,
    LeastLength,
    LongerPlanes,
    StridesNotAsked,
    StrideOfU,
    HeaderWithPicture,
    NoFrame,
    ShortIs9,
}

use Mistake::*;

pub const MISTAKES: [(Mistake, &str); 80] = [
    (
        NewlineNotCounted,
        "a line of 257 bytes: the newline is not counted",
    ),
    (LineOf255, "a line of 256 bytes is refused"),
    (AnyFirstLine, "a first line of any length"),
    (AnyPictureLine, "a picture's line of any length"),
    (
        EmptyTags,
        "two spaces between tags of the first line are taken",
    ),
    (SpaceAtTheEnd, "a space before a newline is taken"),
    (
        EmptyPictureTags,
        "two spaces between tags after FRAME are taken",
    ),
    (
        EndOfFileEndsALine,
        "the end of the file taken for a newline",
    ),
    (FrameAsPrefix, "FRAMES taken for FRAME"),
    (FrameWithoutTags, "tags after FRAME are refused"),
    (FrameTagsRead, "W after FRAME taken as a second W"),
    (HeaderAsPrefix, "YUV4MPEG22 taken for YUV4MPEG2"),
    (HeaderNotAsked, "the first word is not asked"),
    (LastWidth, "of several W the last is taken"),
    (FirstHeight, "of several H the first is taken"),
    (LastChroma, "of several C the last is taken"),
    (SameChromaTwice, "the same C twice is taken"),
    (HeightOf1, "a missing H taken as 1"),
    (LeadingZeros, "leading zeros are taken"),
    (SideOf0, "a side of 0 is taken"),
    (LargerSides, "a side of 16,385 is taken"),
    (LargestSideRefused, "a side of 16,384 is refused"),
    (SidesOf16Bits, "decimals in 16 bits, which wrap"),
    (SidesOf32Bits, "decimals in 32 bits, which wrap"),
    (SidesOf64Bits, "decimals in 64 bits, which wrap"),
    (DigitsAtTheStart, "a decimal ends at the first other byte"),
    (Signs, "a sign before a decimal is taken"),
    (NoDigits, "bytes other than digits taken as digits"),
    (MissingIs422, "a missing C taken as 4:2:2"),
    (PrefixOf420, "every C that starts with C420 is taken"),
    (PrefixOf422, "every C that starts with C422 is taken"),
    (AnyChroma, "an unknown C taken as 4:2:0"),
    (MonoIsTaken, "Cmono is taken"),
    (Mpeg2Refused, "C420mpeg2 is refused"),
    (PaldvIsTaken, "C420paldv is taken"),
    (CaseOfChroma, "C420JPEG is taken"),
    (
        CarriageReturns,
        "a carriage return before a newline is dropped",
    ),
    (TabsForSpaces, "a tab taken for a space"),
    (SmallLetters, "w and h taken for W and H"),
    (
        OtherTagsRefused,
        "tags other than W, H, C, F, I, A, X are refused",
    ),
    (WidthBeforeHeight, "H before W is refused"),
    (TextOnly, "bytes that are no text are refused"),
    (ChromaRoundedDown, "half of an odd side rounded down"),
    (PlanesOf420, "planes of 4:2:2 as long as those of 4:2:0"),
    (RowsHalved, "rows of 4:2:2 halved, and not columns"),
    (EndNotAsked, "bytes behind the last picture are passed over"),
    (LastPictureCut, "a last picture that is cut is not counted"),
    (NoPictureRefused, "a file of no picture is refused"),
    (
        NewlineBehindPlanes,
        "a newline behind planes is passed over",
    ),
    (FirstOf32Bits, "first in 32 bits"),
    (
        PartOfTheRoom,
        "an entry where less than six numbers are left",
    ),
    (OffsetsFromTheLine, "offsets of the pictures' lines"),
    (ExchangedChroma, "U and V exchanged"),
    (CountOfEntries, "the entries are told as pictures"),
    (SidesToldWith19, "sides are told with 19"),
    (PlainC420, "C420 is written for C420jpeg"),
    (NoChromaTag, "no C is written"),
    (HeightFirst, "H is written before W"),
    (OtherRate, "F30:1 is written"),
    (CodesOf8Bits, "the sampling's code cut to 8 bits"),
    (AnyCode, "every code but 0 is 4:2:2"),
    (SidesCut, "sides cut to 16 bits before 19 is asked"),
    (
        RestOfPicturesLost,
        "bytes past the last whole picture are not written",
    ),
    (RoomFirst, "16 before 19"),
    (SizeNotToldAfter16, "no size after 16"),
    (SizeToldWith19, "a size is told with 19"),
    (
        HeaderBeforeTheTest,
        "the first bytes are written before 16 is asked",
    ),
    (RestCleared, "the output is cleared past the bytes"),
    (FrameOnce, "FRAME before the first picture alone"),
    (NewlinesWritten, "a newline is written behind planes"),
    (RoomOfTheBytesAlone, "16 by the length of the planes alone"),
    (UnknownIs1, "1 for a sampling without a meaning"),
    (PaddingTaken, "rows with their padding"),
    (
        LeastLength,
        "planes without the last row's padding are taken",
    ),
    (LongerPlanes, "longer planes are taken"),
    (StridesNotAsked, "a stride below the row is taken"),
    (StrideOfU, "the stride of U for V"),
    (HeaderWithPicture, "a picture with the file's first line"),
    (NoFrame, "a picture without FRAME"),
    (ShortIs9, "9 for a short Y"),
];

/// A third reader and writer, with one mistake.
#[derive(Clone, Copy)]
pub struct Mistaken(pub Mistake);

fn refusal(number: u8) -> Answer {
    Err(Refusal {
        number,
        expected: 0,
        received: 0,
    })
}

/// Sides and the code of the sampling.
type Format = [u64; 3];

impl Mistaken {
    /// Where the line that starts at `at` ends, and where the next begins.
    fn end(&self, file: &[u8], at: usize, is_header: bool) -> Option<(usize, usize)> {
        let mut i = at;
        while i < file.len() && file[i] != b'\n' {
            i += 1;
        }
        if i == file.len() && self.0 != EndOfFileEndsALine {
            return None;
        }
        let length = i + 1 - at;
        let most = match self.0 {
            NewlineNotCounted => 257,
            LineOf255 => 255,
            AnyFirstLine if is_header => usize::MAX,
            AnyPictureLine if !is_header => usize::MAX,
            _ => 256,
        };
        let next = (i + 1).min(file.len());
        let end = match self.0 {
            CarriageReturns if i > at && file[i - 1] == b'\r' => i - 1,
            _ => i,
        };
        (length <= most).then_some((end, next))
    }

    fn is_space(&self, byte: u8) -> bool {
        byte == b' ' || (byte == b'\t' && self.0 == TabsForSpaces)
    }

    /// The tags from `at` to the line's end: where each starts and ends.
    fn tags(&self, file: &[u8], at: usize, end: usize, is_header: bool) -> Option<Vec<[usize; 2]>> {
        let mut tags = Vec::new();
        let mut i = at;
        while i < end {
            if !self.is_space(file[i]) {
                return None;
            }
            let start = i + 1;
            i = start;
            while i < end && !self.is_space(file[i]) {
                i += 1;
            }
            let passed = match self.0 {
                EmptyTags => is_header,
                EmptyPictureTags => !is_header,
                SpaceAtTheEnd => i == end,
                _ => false,
            };
            if i == start {
                if !passed {
                    return None;
                }
            } else {
                tags.push([start, i]);
            }
        }
        Some(tags)
    }

    fn starts(&self, file: &[u8], at: usize, end: usize, word: &[u8], any: bool) -> Option<usize> {
        let mut next = at + word.len();
        if next > end || &file[at..next] != word {
            return None;
        }
        while any && next < end && !self.is_space(file[next]) {
            next += 1;
        }
        Some(next)
    }

    fn is_side(&self, side: u64) -> bool {
        let least = u64::from(self.0 != SideOf0);
        let most = match self.0 {
            LargerSides => 16_385,
            LargestSideRefused => 16_383,
            _ => 16_384,
        };
        least <= side && side <= most
    }

    fn side(&self, mut digits: &[u8]) -> Option<u64> {
        if let (Signs, [b'+' | b'-', others @ ..]) = (self.0, digits) {
            digits = others;
        }
        let is_digit = |byte: &u8| byte.is_ascii_digit();
        if self.0 == DigitsAtTheStart {
            let end = digits.iter().position(|byte| !is_digit(byte));
            digits = &digits[..end.unwrap_or(digits.len())];
        }
        if digits.is_empty() || (self.0 != NoDigits && !digits.iter().all(is_digit)) {
            return None;
        }
        if digits[0] == b'0' && self.0 != LeadingZeros && !(self.0 == SideOf0 && digits.len() == 1)
        {
            return None;
        }
        let mut side: u64 = 0;
        for digit in digits {
            let value = u64::from(digit.wrapping_sub(b'0'));
            side = match self.0 {
                SidesOf16Bits => (10 * side + value) & 0xffff,
                SidesOf32Bits => (10 * side + value) & 0xffff_ffff,
                SidesOf64Bits => side.wrapping_mul(10).wrapping_add(value),
                _ => side.saturating_mul(10).saturating_add(value),
            };
        }
        self.is_side(side).then_some(side)
    }

    fn sampling(&self, chroma: &[u8]) -> Option<u64> {
        let starts = |word: &[u8]| chroma.starts_with(word);
        match chroma {
            b"C420mpeg2" if self.0 == Mpeg2Refused => None,
            b"C420" | b"C420jpeg" | b"C420mpeg2" => Some(0),
            b"C422" => Some(1),
            b"Cmono" if self.0 == MonoIsTaken => Some(0),
            b"C420paldv" if self.0 == PaldvIsTaken => Some(0),
            b"C420JPEG" if self.0 == CaseOfChroma => Some(0),
            _ if self.0 == PrefixOf420 && starts(b"C420") => Some(0),
            _ if self.0 == PrefixOf422 && starts(b"C422") => Some(1),
            _ if self.0 == AnyChroma => Some(0),
            _ => None,
        }
    }

    /// Sides and sampling by the tags of the first line.
    fn format(&self, file: &[u8], tags: &[[usize; 2]]) -> Option<Format> {
        let (mut w, mut h, mut sampling): (Option<u64>, Option<u64>, Option<u64>) =
            (None, None, None);
        let mut chroma_tag: &[u8] = &[];
        for [start, end] in tags {
            let tag = &file[*start..*end];
            let mut letter = tag[0];
            if let (SmallLetters, b'w' | b'h') = (self.0, letter) {
                letter = letter.to_ascii_uppercase();
            }
            if self.0 == TextOnly && !tag.iter().all(|byte| (0x20..0x7f).contains(byte)) {
                return None;
            }
            match letter {
                b'W' => {
                    if w.is_some() && self.0 != LastWidth {
                        return None;
                    }
                    w = Some(self.side(&tag[1..])?);
                }
                b'H' => {
                    if h.is_some() && self.0 == FirstHeight {
                        continue;
                    }
                    if h.is_some() || (w.is_none() && self.0 == WidthBeforeHeight) {
                        return None;
                    }
                    h = Some(self.side(&tag[1..])?);
                }
                b'C' => {
                    let again = match self.0 {
                        LastChroma => true,
                        SameChromaTwice => chroma_tag == tag,
                        _ => false,
                    };
                    if sampling.is_some() && !again {
                        return None;
                    }
                    sampling = Some(self.sampling(tag)?);
                    chroma_tag = tag;
                }
                b'F' | b'I' | b'A' | b'X' => {}
                _ if self.0 == OtherTagsRefused => return None,
                _ => {}
            }
        }
        if self.0 == HeightOf1 {
            h = h.or(Some(1));
        }
        let missing = u64::from(self.0 == MissingIs422);
        Some([w?, h?, sampling.unwrap_or(missing)])
    }

    /// The bytes of a row and the rows of Y, U and V.
    fn shapes(&self, [w, h, sampling]: Format) -> [[u64; 2]; 3] {
        let half = |side: u64| match self.0 {
            ChromaRoundedDown => side / 2,
            _ => side.div_ceil(2),
        };
        let chroma = match (self.0, sampling) {
            (_, 0) | (PlanesOf420, _) => [half(w), half(h)],
            (RowsHalved, _) => [w, half(h)],
            _ => [half(w), h],
        };
        [[w, h], chroma, chroma]
    }

    /// Sides and sampling, as far as the first line says them, and the entries.
    fn read(&self, file: &[u8]) -> (Option<Format>, Option<Vec<[u64; 6]>>) {
        let header = || {
            let (end, next) = self.end(file, 0, true)?;
            let any = self.0 == HeaderAsPrefix;
            let at = match self.0 {
                HeaderNotAsked => file[..end].iter().position(|byte| *byte == b' ')?,
                _ => self.starts(file, 0, end, b"YUV4MPEG2", any)?,
            };
            let tags = self.tags(file, at, end, true)?;
            Some((self.format(file, &tags)?, next))
        };
        match header() {
            None => (None, None),
            Some((format, at)) => (Some(format), self.entries(file, format, at)),
        }
    }

    fn entries(&self, file: &[u8], format: Format, mut at: usize) -> Option<Vec<[u64; 6]>> {
        let [y, u, v] = self.shapes(format).map(|[row, rows]| row * rows);
        let mut entries = Vec::new();
        while at < file.len() {
            if self.0 == NewlineBehindPlanes && !entries.is_empty() && file[at] == b'\n' {
                at += 1;
                continue;
            }
            let line = || {
                let (end, next) = self.end(file, at, false)?;
                let any = self.0 == FrameAsPrefix;
                let tags_at = self.starts(file, at, end, b"FRAME", any)?;
                let tags = self.tags(file, tags_at, end, false)?;
                let second = tags.iter().any(|[start, _]| file[*start] == b'W');
                let refused = match self.0 {
                    FrameWithoutTags => !tags.is_empty(),
                    FrameTagsRead => second,
                    _ => false,
                };
                (!refused).then_some(next)
            };
            let next = match (line(), self.0) {
                (Some(next), _) => next,
                (None, EndNotAsked) if !entries.is_empty() => break,
                (None, _) => return None,
            };
            let from = match self.0 {
                OffsetsFromTheLine => at,
                _ => next,
            } as u64;
            let rest = (file.len() - next) as u64;
            if rest < y + u + v {
                match self.0 {
                    LastPictureCut => break,
                    _ => return None,
                }
            }
            entries.push(match self.0 {
                ExchangedChroma => [from, y, from + y + u, v, from + y, u],
                _ => [from, y, from + y, u, from + y + u, v],
            });
            at = next + (y + u + v) as usize;
        }
        let refused = entries.is_empty() && self.0 == NoPictureRefused;
        (!refused).then_some(entries)
    }

    pub fn pictures(&self, file: &[u8], first: u64, room: &mut [u64]) -> (Answer, [u64; 5]) {
        let (format, entries) = self.read(file);
        let [w, h, sampling] = format.unwrap_or([0; 3]);
        let Some(entries) = entries else {
            return match self.0 {
                SidesToldWith19 => (refusal(19), [w, h, sampling, 0, 0]),
                _ => (refusal(19), [0; 5]),
            };
        };
        let first = match self.0 {
            FirstOf32Bits => first & 0xffff_ffff,
            _ => first,
        };
        let mut told = 0;
        let asked = entries.iter().skip(first as usize);
        for (entry, room) in asked.zip(room.chunks_mut(6)) {
            if room.len() == 6 || self.0 == PartOfTheRoom {
                let length = room.len();
                room.copy_from_slice(&entry[..length]);
                told += 1;
            }
        }
        let count = match self.0 {
            CountOfEntries => told,
            _ => entries.len() as u64,
        };
        (Ok(()), [w, h, sampling, count, told])
    }

    /// Sides and sampling by numbers.
    fn asked(&self, [w, h, sampling]: [u32; 3]) -> Result<Format, Answer> {
        let [w, h] = match self.0 {
            SidesCut => [w, h].map(|side| side & 0xffff),
            _ => [w, h],
        };
        let sampling = match self.0 {
            CodesOf8Bits => sampling & 255,
            AnyCode => sampling.min(1),
            _ => sampling,
        };
        let [w, h, sampling] = [w, h, sampling].map(u64::from);
        if !self.is_side(w) || !self.is_side(h) {
            return Err(refusal(19));
        }
        match (sampling, self.0) {
            (0 | 1, _) => Ok([w, h, sampling]),
            (_, UnknownIs1) => Err(refusal(1)),
            _ => Err(refusal(19)),
        }
    }

    fn header(&self, [w, h, sampling]: Format) -> Vec<u8> {
        let sides = match self.0 {
            HeightFirst => format!("H{h} W{w}"),
            _ => format!("W{w} H{h}"),
        };
        let rate = if self.0 == OtherRate { 30 } else { 25 };
        let chroma = match (self.0, sampling) {
            (NoChromaTag, _) => "",
            (PlainC420, 0) => " C420",
            (_, 0) => " C420jpeg",
            _ => " C422",
        };
        format!("YUV4MPEG2 {sides} F{rate}:1 Ip{chroma}\n").into_bytes()
    }

    /// 16, or the bytes at the start of the output. `alone`: how many of them are planes.
    fn put(&self, bytes: &[u8], alone: usize, output: &mut [u8]) -> (Answer, u64) {
        let needed = match self.0 {
            RoomOfTheBytesAlone => alone,
            _ => bytes.len(),
        };
        if output.len() < needed {
            if self.0 == HeaderBeforeTheTest {
                let start = output.len().min(bytes.len()).min(6);
                output[..start].copy_from_slice(&bytes[..start]);
            }
            let size = match self.0 {
                SizeNotToldAfter16 => 0,
                _ => bytes.len() as u64,
            };
            return (refusal(16), size);
        }
        let fits = bytes.len().min(output.len());
        output[..fits].copy_from_slice(&bytes[..fits]);
        if self.0 == RestCleared {
            output[fits..].fill(0);
        }
        (Ok(()), bytes.len() as u64)
    }

    /// What is answered where 19 is, or another number in its place.
    fn refused(&self, answer: Answer, length: usize, output: &[u8]) -> (Answer, u64) {
        match self.0 {
            RoomFirst if output.len() < length => (refusal(16), length as u64),
            SizeToldWith19 => (answer, length as u64),
            _ => (answer, 0),
        }
    }

    pub fn write(&self, numbers: [u32; 3], pictures: &[u8], output: &mut [u8]) -> (Answer, u64) {
        let length = 34 + 6 + pictures.len();
        let format = match self.asked(numbers) {
            Ok(format) => format,
            Err(answer) => return self.refused(answer, length, output),
        };
        let size: u64 = self
            .shapes(format)
            .iter()
            .map(|[row, rows]| row * rows)
            .sum();
        let size = (size as usize).max(1);
        let whole = pictures.len() % size == 0 || self.0 == RestOfPicturesLost;
        if !whole || (pictures.is_empty() && self.0 == NoPictureRefused) {
            return self.refused(refusal(19), length, output);
        }
        let mut file = self.header(format);
        for (k, picture) in pictures.chunks_exact(size).enumerate() {
            if k == 0 || self.0 != FrameOnce {
                file.extend(b"FRAME\n");
            }
            let chroma = (size - (format[0] * format[1]) as usize) / 2;
            match self.0 {
                ExchangedChroma => {
                    let (start, v) = picture.split_at(size - chroma);
                    let (y, u) = start.split_at(start.len() - chroma);
                    file.extend([y, v, u].concat());
                }
                _ => file.extend(picture),
            }
            file.extend((self.0 == NewlinesWritten).then_some(b'\n'));
        }
        self.put(&file, pictures.len(), output)
    }

    pub fn picture(
        &self,
        [w, h, sampling, strides @ ..]: [u32; 6],
        planes: &[Vec<u8>; 3],
        output: &mut [u8],
    ) -> (Answer, u64) {
        let length = 6 + planes.iter().map(Vec::len).sum::<usize>();
        let format = match self.asked([w, h, sampling]) {
            Ok(format) => format,
            Err(answer) => return self.refused(answer, length, output),
        };
        let strides = match (self.0, strides) {
            (StrideOfU, [y, u, _]) => [y, u, u],
            _ => strides,
        };
        let mut bytes = Vec::new();
        if self.0 == HeaderWithPicture {
            bytes.extend(self.header(format));
        }
        if self.0 != NoFrame {
            bytes.extend(b"FRAME\n");
        }
        let start = bytes.len();
        for (i, [row, rows]) in self.shapes(format).into_iter().enumerate() {
            let (stride, plane) = (u64::from(strides[i]), &planes[i]);
            let exact = stride * rows;
            let least = match self.0 {
                LeastLength => (stride * rows.saturating_sub(1) + row).min(exact),
                _ => exact,
            };
            let length_of = plane.len() as u64;
            let most = match self.0 {
                LongerPlanes => u64::MAX,
                _ => exact,
            };
            if self.0 == ShortIs9 && i == 0 && stride >= row && length_of < least {
                return self.refused(refusal(9), length, output);
            }
            let narrow = stride < row && self.0 != StridesNotAsked;
            if narrow || length_of < least || length_of > most {
                return self.refused(refusal(19), length, output);
            }
            for r in 0..rows {
                let taken = match self.0 {
                    PaddingTaken => stride,
                    _ => row,
                };
                let from = ((r * stride) as usize).min(plane.len());
                let end = ((r * stride + taken) as usize).min(plane.len());
                bytes.extend(&plane[from..end]);
            }
        }
        let alone = bytes.len() - start;
        self.put(&bytes, alone, output)
    }
}
