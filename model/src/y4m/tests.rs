//! Worked by hand: each text beside what it says, or that it says nothing.

use super::*;

/// What reading tells, with room for four pictures, and the numbers of the first.
type Told = ([u64; 5], [u64; 6]);

fn read(file: &[u8]) -> Result<Told, u8> {
    let mut room = [9; 24];
    let (answer, told) = read_pictures(file, 0, &mut room);
    let first = *room.first_chunk().expect("six numbers");
    match answer {
        Ok(()) => Ok((told, first)),
        Err(refusal) => {
            assert_eq!((told, room), ([0; 5], [9; 24]), "19 tells nothing");
            assert_eq!((refusal.expected, refusal.received), (0, 0));
            Err(refusal.number)
        }
    }
}

/// A file of this header line and no picture: width, height and the code of the sampling.
fn header(line: impl AsRef<[u8]>) -> Result<[u64; 3], u8> {
    let (told, first) = read(line.as_ref())?;
    assert_eq!(&told[3..], [0, 0], "no picture");
    assert_eq!(first, [9; 6]);
    Ok([told[0], told[1], told[2]])
}

const NOTHING: Result<[u64; 3], u8> = Err(19);

/// A line of so many bytes, newline counted: these words, and a tag that fills it.
fn line_of(length: usize, words: &str) -> Vec<u8> {
    let mut line = format!("{words} X").into_bytes();
    line.resize(length - 1, b'x');
    line.push(b'\n');
    assert_eq!(line.len(), length);
    line
}

#[test]
fn a_header_alone_is_a_file() {
    assert_eq!(header("YUV4MPEG2 W4 H2\n"), Ok([4, 2, 0]));
    assert_eq!(header("YUV4MPEG2 W4 H2 F25:1 Ip C420jpeg\n"), Ok([4, 2, 0]));
    assert_eq!(header("YUV4MPEG2 W4 H2 F25:1 Ip C422\n"), Ok([4, 2, 1]));
}

#[test]
fn no_bytes_are_no_file() {
    assert_eq!(header(""), NOTHING);
    assert_eq!(header("\n"), NOTHING);
    assert_eq!(header("YUV4MPEG2\n"), NOTHING);
    assert_eq!(header("YUV4MPEG2 W4 H2"), NOTHING);
}

#[test]
fn the_first_word_is_its_own() {
    for word in [
        "YUV4MPEG",
        "YUV4MPEG22",
        "yuv4mpeg2",
        "YUV4MPEG1",
        "",
        "FRAME",
        "\u{feff}YUV4MPEG2",
    ] {
        assert_eq!(header(format!("{word} W4 H2\n")), NOTHING, "{word}");
    }
    assert_eq!(header("YUV4MPEG2W4 H2\n"), NOTHING);
    assert_eq!(header("YUV4MPEG2\tW4 H2\n"), NOTHING);
    assert_eq!(header("W4 H2 YUV4MPEG2\n"), NOTHING);
}

#[test]
fn tags_stand_in_any_order() {
    assert_eq!(header("YUV4MPEG2 H2 W4\n"), Ok([4, 2, 0]));
    assert_eq!(
        header("YUV4MPEG2 C422 A1:1 H2 Ip XYSCSS=422 W4\n"),
        Ok([4, 2, 1])
    );
    // Of these only W, H and C are asked, and the case of a letter counts.
    assert_eq!(
        header("YUV4MPEG2 w9 W4 h9 H2 c422 F F0 F0 I X X= \u{e9}\n"),
        Ok([4, 2, 0])
    );
    // A byte that is no letter, and one that no text has.
    assert_eq!(header(b"YUV4MPEG2 W4 H2 \0 \xff\xfe \t\n"), Ok([4, 2, 0]));
}

#[test]
fn width_and_height_stand_once() {
    for line in [
        "YUV4MPEG2 W4\n",
        "YUV4MPEG2 H2\n",
        "YUV4MPEG2 W4 W4 H2\n",
        "YUV4MPEG2 W4 H2 W5\n",
        "YUV4MPEG2 W4 H2 H2\n",
        "YUV4MPEG2 W4 H2 Wide\n",
        "YUV4MPEG2 W4 H2 H\n",
        "YUV4MPEG2 C420 F25:1\n",
    ] {
        assert_eq!(header(line), NOTHING, "{line}");
    }
}

#[test]
fn sides_are_decimals_from_1_to_16384() {
    assert_eq!(header("YUV4MPEG2 W1 H1\n"), Ok([1, 1, 0]));
    assert_eq!(header("YUV4MPEG2 W16384 H1\n"), Ok([16_384, 1, 0]));
    assert_eq!(header("YUV4MPEG2 W1 H16384\n"), Ok([1, 16_384, 0]));
    assert_eq!(header("YUV4MPEG2 W16383 H10000\n"), Ok([16_383, 10_000, 0]));
    for side in [
        "",
        "0",
        "00",
        "04",
        "004",
        "16385",
        "16390",
        "20000",
        "99999",
        "163840",
        "65540",
        "-4",
        "+4",
        "4.0",
        "4x",
        "x4",
        "0x4",
        "4\r",
        "4\t",
        "4,",
        "1e2",
        "\u{664}",
        // 2^32 + 4 and 2^64 + 4, which come round to 4; 2^64 and one less.
        "4294967300",
        "18446744073709551620",
        "18446744073709551616",
        "18446744073709551615",
    ] {
        assert_eq!(header(format!("YUV4MPEG2 W{side} H2\n")), NOTHING, "{side}");
        assert_eq!(header(format!("YUV4MPEG2 W2 H{side}\n")), NOTHING, "{side}");
    }
    // 200 digits: a line of 215 bytes.
    for digits in [
        "9".repeat(200),
        format!("1{}4", "0".repeat(198)),
        format!("{}2", "0".repeat(199)),
    ] {
        let line = format!("YUV4MPEG2 W{digits} H2\n");
        assert_eq!((line.len(), header(line)), (215, NOTHING));
    }
}

#[test]
fn chroma_stands_at_most_once() {
    for (tag, sampling) in [("C420", 0), ("C420jpeg", 0), ("C420mpeg2", 0), ("C422", 1)] {
        let line = format!("YUV4MPEG2 W4 H2 {tag}\n");
        assert_eq!(header(line), Ok([4, 2, sampling]), "{tag}");
        let line = format!("YUV4MPEG2 {tag} W4 H2 {tag}\n");
        assert_eq!(header(line), NOTHING, "{tag} twice");
    }
    for tag in [
        "C",
        "Cmono",
        "C444",
        "C420paldv",
        "C411",
        "C42",
        "C4200",
        "C420JPEG",
        "C420jpeg2",
        "C420mpeg",
        "C420mpeg22",
        "C422jpeg",
        "C422\r",
        "C 420",
        "C420p10",
        "C420 C422",
    ] {
        assert_eq!(header(format!("YUV4MPEG2 W4 H2 {tag}\n")), NOTHING, "{tag}");
    }
}

#[test]
fn one_space_stands_before_each_tag() {
    for line in [
        "YUV4MPEG2  W4 H2\n",
        "YUV4MPEG2 W4  H2\n",
        "YUV4MPEG2 W4 H2 \n",
        "YUV4MPEG2 W4 H2  \n",
        "YUV4MPEG2 W4 H2 F25:1  Ip\n",
        " YUV4MPEG2 W4 H2\n",
        "YUV4MPEG2 W4\tH2\n",
        "YUV4MPEG2 W4\nH2\n",
    ] {
        assert_eq!(header(line), NOTHING, "{line:?}");
    }
}

#[test]
fn a_carriage_return_is_a_byte_of_its_tag() {
    assert_eq!(header("YUV4MPEG2 W4 H2\r\n"), NOTHING);
    assert_eq!(header("YUV4MPEG2 W4 H2 C420\r\n"), NOTHING);
    assert_eq!(header("YUV4MPEG2\r\n"), NOTHING);
    assert_eq!(header("YUV4MPEG2 W4 H2 Ip\r\n"), Ok([4, 2, 0]));
    assert_eq!(header("YUV4MPEG2 W4 H2 \r\n"), Ok([4, 2, 0]));
    assert_eq!(header("YUV4MPEG2 W4 H2\r"), NOTHING);
}

#[test]
fn a_header_line_has_at_most_256_bytes() {
    let words = "YUV4MPEG2 W4 H2";
    assert_eq!(header(line_of(255, words)), Ok([4, 2, 0]));
    assert_eq!(header(line_of(256, words)), Ok([4, 2, 0]));
    assert_eq!(header(line_of(257, words)), NOTHING);
    // What follows the line is not counted.
    let file = [&line_of(256, words)[..], b"FRAME\n12345678uuvv"].concat();
    let places = [262, 8, 270, 2, 272, 2];
    assert_eq!(read(&file), Ok(([4, 2, 0, 1, 1], places)));
}

#[test]
fn a_picture_is_its_line_and_three_planes() {
    let places = [22, 8, 30, 2, 32, 2];
    let one = Ok(([4, 2, 0, 1, 1], places));
    assert_eq!(read(b"YUV4MPEG2 W4 H2\nFRAME\n12345678uuvv"), one);
    // Planes of spaces and newlines are planes, also where they look like a line.
    assert_eq!(read(b"YUV4MPEG2 W4 H2\nFRAME\n\n\n\n\n\n\n\n\n    "), one);
    assert_eq!(read(b"YUV4MPEG2 W4 H2\nFRAME\nFRAME\nFRAME\n"), one);
    assert_eq!(
        read(b"YUV4MPEG2 W4 H2\nFRAME\n12345678uuvvFRAME\n12345678uuvv"),
        Ok(([4, 2, 0, 2, 2], places))
    );
    // In 4:2:2 a plane of chroma has as many rows as Y.
    assert_eq!(
        read(b"YUV4MPEG2 W4 H2 C422\nFRAME\n12345678uuuuvvvv"),
        Ok(([4, 2, 1, 1, 1], [27, 8, 35, 4, 39, 4]))
    );
}

#[test]
fn halves_of_odd_sides_are_rounded_up() {
    assert_eq!(
        read(b"YUV4MPEG2 W3 H3\nFRAME\n123456789uuuuvvvv"),
        Ok(([3, 3, 0, 1, 1], [22, 9, 31, 4, 35, 4]))
    );
    assert_eq!(
        read(b"YUV4MPEG2 W3 H3 C422\nFRAME\n123456789uuuuuuvvvvvv"),
        Ok(([3, 3, 1, 1, 1], [27, 9, 36, 6, 42, 6]))
    );
    assert_eq!(
        read(b"YUV4MPEG2 W1 H1\nFRAME\nyuv"),
        Ok(([1, 1, 0, 1, 1], [22, 1, 23, 1, 24, 1]))
    );
}

#[test]
fn a_byte_less_or_more_is_no_file() {
    let file = b"YUV4MPEG2 W4 H2\nFRAME\n12345678uuvvFRAME\n12345678uuvv";
    // Without its second picture, and without any, it is one.
    let files = [16, 34, 52];
    for length in 0..=file.len() {
        let is = read(&file[..length]).map(|(told, _)| told[3]);
        let count = files.iter().position(|end| *end == length);
        assert_eq!(is, count.map(|count| count as u64).ok_or(19), "{length}");
    }
    assert_eq!(read(&[&file[..], b"\n"].concat()), Err(19));
    assert_eq!(read(&[&file[..], b"\0"].concat()), Err(19));
    assert_eq!(
        read(b"YUV4MPEG2 W4 H2\nFRAME\n1234567uuvv"),
        Err(19),
        "Y one short"
    );
    assert_eq!(
        read(b"YUV4MPEG2 W4 H2\nFRAME\n123456789uuvvFRAME\n12345678uuvv"),
        Err(19),
        "one over in the first of two"
    );
}

#[test]
fn tags_after_frame_are_passed_over() {
    for line in [
        "FRAME Ip",
        "FRAME W9 H9 C444",
        "FRAME W W W",
        "FRAME X\r",
        "FRAME FRAME",
    ] {
        let file = format!("YUV4MPEG2 W4 H2\n{line}\n12345678uuvv");
        let at = 16 + line.len() as u64 + 1;
        let places = [at, 8, at + 8, 2, at + 10, 2];
        assert_eq!(
            read(file.as_bytes()),
            Ok(([4, 2, 0, 1, 1], places)),
            "{line}"
        );
    }
    for line in [
        "FRAMES",
        "FRAM",
        "FRAME ",
        "FRAME  Ip",
        "FRAME Ip ",
        " FRAME",
        "FRAME\r",
        "frame",
        "FRAME:",
        "FRAMEIp",
        "FRAME\tIp",
        "YUV4MPEG2 W4 H2",
        "",
    ] {
        let file = format!("YUV4MPEG2 W4 H2\n{line}\n12345678uuvv");
        assert_eq!(read(file.as_bytes()), Err(19), "{line:?}");
    }
    for (length, is) in [(255, Ok(1)), (256, Ok(1)), (257, Err(19))] {
        let start = [&b"YUV4MPEG2 W4 H2\n"[..], &line_of(length, "FRAME")].concat();
        let file = [&start[..], b"12345678uuvv"].concat();
        assert_eq!(read(&file).map(|(told, _)| told[3]), is, "{length}");
    }
}

#[test]
fn pictures_are_told_from_the_first_asked_for() {
    let file = b"YUV4MPEG2 W1 H1\nFRAME\nyuvFRAME\nyuvFRAME\nyuv";
    for (first, numbers, told, start) in [
        (0, 18, 3, [22, 1]),
        (0, 17, 2, [22, 1]),
        (0, 5, 0, [9, 9]),
        (1, 18, 2, [31, 1]),
        (2, 6, 1, [40, 1]),
        (3, 18, 0, [9, 9]),
        (u64::MAX, 18, 0, [9, 9]),
    ] {
        let mut room = vec![9; numbers];
        let (answer, is) = read_pictures(file, first, &mut room);
        assert_eq!((answer, is), (Ok(()), [1, 1, 0, 3, told]), "{first}");
        assert_eq!(room[..2], start);
        let kept = &room[6 * told as usize..];
        assert!(kept.iter().all(|number| *number == 9));
    }
}

/// The answer's number and the size, and the output of so many bytes, which were all `.`.
fn written(
    output: usize,
    call: impl FnOnce(&mut [u8]) -> (Answer, u64),
) -> (u8, u64, Option<String>) {
    let mut bytes = vec![b'.'; output];
    let (answer, size) = call(&mut bytes);
    let number = answer.map_or_else(|refusal| refusal.number, |()| 0);
    let text = String::from_utf8(bytes).expect("text");
    let kept = text == ".".repeat(output);
    assert!(number == 0 || kept, "a refusal writes nothing");
    (number, size, (number == 0).then_some(text))
}

fn of_pictures(numbers: [u32; 3], pictures: &str, output: usize) -> (u8, u64, Option<String>) {
    written(output, |output| {
        write_pictures(numbers, pictures.as_bytes(), output)
    })
}

#[test]
fn a_file_is_written() {
    let text = |text: &str| Some(text.to_string());
    assert_eq!(
        of_pictures([4, 2, 0], "12345678uuvv", 52),
        (
            0,
            52,
            text("YUV4MPEG2 W4 H2 F25:1 Ip C420jpeg\nFRAME\n12345678uuvv")
        )
    );
    assert_eq!(
        of_pictures([1, 1, 1], "yuvYUV", 50),
        (
            0,
            48,
            text("YUV4MPEG2 W1 H1 F25:1 Ip C422\nFRAME\nyuvFRAME\nYUV..")
        )
    );
    assert_eq!(
        of_pictures([16_384, 16_384, 0], "", 42),
        (0, 42, text("YUV4MPEG2 W16384 H16384 F25:1 Ip C420jpeg\n"))
    );
}

#[test]
fn what_is_to_be_written_is_whole_pictures() {
    let none = (19, 0, None);
    for (numbers, pictures) in [
        ([4, 2, 0], "12345678uuv"),
        ([4, 2, 0], "12345678uuvv1"),
        ([4, 2, 1], "12345678uuvv"),
        ([4, 2, 0], "12345678uuuuvvvv"),
        ([0, 2, 0], ""),
        ([4, 0, 0], ""),
        ([0, 0, 0], "yuv"),
        ([16_385, 1, 0], ""),
        ([1, 16_385, 0], ""),
        ([4, 2, 2], ""),
        ([4, 2, 255], ""),
        ([4, 2, 256], ""),
        ([65_540, 2, 0], "12345678uuvv"),
        ([4, u32::MAX, 0], ""),
    ] {
        assert_eq!(of_pictures(numbers, pictures, 99), none, "{numbers:?}");
        assert_eq!(of_pictures(numbers, pictures, 0), none, "19 before 16");
    }
}

#[test]
fn a_short_output_is_16_with_the_size() {
    for output in 0..52 {
        assert_eq!(
            of_pictures([4, 2, 0], "12345678uuvv", output),
            (16, 52, None)
        );
    }
    assert_eq!(of_pictures([4, 2, 0], "", 33), (16, 34, None));
    assert_eq!(of_pictures([4, 2, 0], "", 34).0, 0);
}

fn of_planes(numbers: [u32; 6], planes: [&str; 3], output: usize) -> (u8, u64, Option<String>) {
    written(output, |output| {
        write_picture(numbers, planes.map(str::as_bytes), output)
    })
}

#[test]
fn a_picture_is_written_without_its_padding() {
    let text = |text: &str| Some(text.to_string());
    assert_eq!(
        of_planes([3, 2, 0, 5, 2, 4], ["123##456##", "uu", "vv##"], 18),
        (0, 16, text("FRAME\n123456uuvv.."))
    );
    assert_eq!(
        of_planes([3, 2, 1, 3, 3, 2], ["123456", "uu#UU#", "vvVV"], 20),
        (0, 20, text("FRAME\n123456uuUUvvVV"))
    );
    assert_eq!(
        of_planes([1, 1, 0, 1, 1, 3], ["y", "u", "v##"], 9),
        (0, 9, text("FRAME\nyuv"))
    );
}

#[test]
fn planes_are_rows_of_their_stride() {
    let none = (19, 0, None);
    let planes = ["123##456##", "uu", "vv##"];
    for (numbers, planes) in [
        ([0, 2, 0, 5, 2, 4], planes),
        ([3, 0, 0, 5, 2, 4], planes),
        ([16_385, 2, 0, 16_385, 8_193, 8_193], planes),
        ([3, 16_385, 0, 5, 2, 4], planes),
        ([3, 2, 2, 5, 2, 4], planes),
        ([3, 2, u32::MAX, 5, 2, 4], planes),
        ([3, 2, 0, 2, 2, 4], ["1245", "uu", "vv##"]),
        ([3, 2, 0, 5, 1, 4], ["123##456##", "u", "vv##"]),
        ([3, 2, 0, 5, 2, 1], ["123##456##", "uu", "v"]),
        ([3, 2, 0, 5, 2, 4], ["123##456#", "uu", "vv##"]),
        ([3, 2, 0, 5, 2, 4], ["123##456", "uu", "vv##"]),
        ([3, 2, 0, 5, 2, 4], ["123##456###", "uu", "vv##"]),
        ([3, 2, 0, 5, 2, 4], ["123##456##", "uuu", "vv##"]),
        ([3, 2, 0, 5, 2, 4], ["123##456##", "u", "vv##"]),
        ([3, 2, 0, 5, 2, 4], ["123##456##", "", "vv##"]),
        ([3, 2, 0, 5, 2, 4], ["123##456##", "uu", "vv"]),
        ([3, 2, 0, 5, 2, 4], ["123##456##", "uu", "vv##V"]),
        ([3, 2, 1, 5, 2, 4], ["123##456##", "uu", "vv##"]),
        ([3, 2, 0, 5, 2, 4], ["123##456##", "uuUU", "vv##VV##"]),
        ([3, 2, 0, 0, 0, 0], ["", "", ""]),
        ([3, 2, 0, u32::MAX, 2, 4], planes),
    ] {
        assert_eq!(of_planes(numbers, planes, 99), none, "{numbers:?}");
        assert_eq!(of_planes(numbers, planes, 0), none, "19 before 16");
    }
    for output in 0..16 {
        let is = of_planes([3, 2, 0, 5, 2, 4], planes, output);
        assert_eq!(is, (16, 16, None));
    }
}

#[test]
fn a_file_grows_by_a_picture() {
    let (_, _, file) = of_pictures([3, 2, 0], "123456uuvv", 50);
    let (_, _, none) = of_pictures([3, 2, 0], "", 34);
    let planes = ["123##456##", "uu", "vv##"];
    let (_, _, picture) = of_planes([3, 2, 0, 5, 2, 4], planes, 16);
    assert_eq!(none.zip(picture).map(|(a, b)| a + &b), file);
}
