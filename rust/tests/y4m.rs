//! Y4M files: the line of the request; files of any number of pictures, written and read back, by number, by iterator from both ends and by its `nth`;
//! lines that keep or break each rule; every byte of a small file's lines changed, and every cut; pictures from planes with padding, put one behind the
//! other; each refusal, and nothing written.

use segvartin::YuvChromaSubsampling::{Yuv420, Yuv422};
use segvartin::*;

const BROKEN: YuvError = YuvError::MalformedY4m;

/// Rows and columns of U and V.
fn chroma(width: usize, height: usize, sampling: YuvChromaSubsampling) -> usize {
    let rows = match sampling {
        Yuv420 => height.div_ceil(2),
        Yuv422 => height,
    };
    width.div_ceil(2) * rows
}

/// Planes of so many pictures, no two alike.
fn planes(width: u32, height: u32, sampling: YuvChromaSubsampling, count: usize) -> Vec<u8> {
    let (w, h) = (width as usize, height as usize);
    let size = w * h + 2 * chroma(w, h, sampling);
    (0..count * size)
        .map(|i| (i * 5 + i / size * 17 + i / 251) as u8)
        .collect()
}

/// The file of them, as the request has it.
fn file_of(width: u32, height: u32, sampling: YuvChromaSubsampling, planes: &[u8]) -> Vec<u8> {
    let (w, h) = (width as usize, height as usize);
    let name = match sampling {
        Yuv420 => "420jpeg",
        Yuv422 => "422",
    };
    let mut file = format!("YUV4MPEG2 W{w} H{h} F25:1 Ip C{name}\n").into_bytes();
    for picture in planes.chunks(w * h + 2 * chroma(w, h, sampling)) {
        file.extend(b"FRAME\n");
        file.extend(picture);
    }
    file
}

/// What is written into more memory than is needed, and into as much.
fn written(width: u32, height: u32, sampling: YuvChromaSubsampling, planes: &[u8]) -> Vec<u8> {
    let size = y4m_size(width, height, sampling, planes).unwrap();
    let mut file = vec![0xee; size + 3];
    assert_eq!(
        write_y4m(width, height, sampling, planes, &mut file),
        Ok(size)
    );
    assert_eq!(file.split_off(size), [0xee; 3]);
    let mut exact = vec![0xee; size];
    assert_eq!(
        write_y4m(width, height, sampling, planes, &mut exact),
        Ok(size)
    );
    assert!(exact == file);
    file
}

#[test]
fn the_file_of_the_request() {
    let bytes = b"YUV4MPEG2 W4 H2 F25:1 Ip C420jpeg\nFRAME\nabcdefghijklFRAME\nABCDEFGHIJKL";
    assert_eq!(written(4, 2, Yuv420, b"abcdefghijklABCDEFGHIJKL"), bytes);
    let file = Y4mFile::open(bytes).unwrap();
    assert_eq!(
        (file.width(), file.height(), file.sampling()),
        (4, 2, Yuv420)
    );
    assert_eq!((file.len(), file.is_empty()), (2, false));
    let [one, two] = [0, 1].map(|k| file.picture(k).unwrap());
    assert_eq!(
        (one.y, one.u, one.v),
        (&b"abcdefgh"[..], &b"ij"[..], &b"kl"[..])
    );
    assert_eq!(
        (two.y, two.u, two.v),
        (&b"ABCDEFGH"[..], &b"IJ"[..], &b"KL"[..])
    );
    for k in [2, usize::MAX, 1 << 32, (1 << 32) + 1] {
        assert_eq!((file.picture(k), file.pictures().nth(k)), (None, None));
    }
    // No byte is shown, of which there may be many.
    assert_eq!(
        format!("{file:?} {one:?}"),
        "Y4mFile { width: 4, height: 2, sampling: Yuv420, pictures: 2, size: 70 } Y4mPicture { size: 12, .. }"
    );
    let tall = b"YUV4MPEG2 W4 H2 F25:1 Ip C422\nFRAME\nabcdefghijklmnop";
    assert_eq!(written(4, 2, Yuv422, b"abcdefghijklmnop"), tall);
    let picture = Y4mFile::open(tall).unwrap().picture(0).unwrap();
    assert_eq!((picture.u, picture.v), (&b"ijkl"[..], &b"mnop"[..]));
}

/// No plane is copied: a picture is a part of the bytes, and outlives the value that told of it.
#[test]
fn a_picture_is_a_part_of_the_file() {
    let bytes = file_of(4, 2, Yuv420, &planes(4, 2, Yuv420, 2));
    let (y, all) = {
        let file = Y4mFile::open(&bytes).unwrap();
        (file.pictures().next().unwrap().y, file.as_bytes())
    };
    assert_eq!(y.as_ptr(), bytes[40..].as_ptr());
    assert_eq!(all.as_ptr(), bytes.as_ptr());
}

#[test]
fn no_pictures() {
    let bytes = written(16384, 1, Yuv422, &[]);
    assert_eq!(bytes, b"YUV4MPEG2 W16384 H1 F25:1 Ip C422\n");
    let file = Y4mFile::open(&bytes).unwrap();
    assert_eq!((file.len(), file.is_empty()), (0, true));
    assert_eq!((file.picture(0), file.pictures().next()), (None, None));
}

#[test]
fn written_pictures_read_back_the_same() {
    let sizes = [
        (1, 1),
        (2, 1),
        (1, 2),
        (3, 3),
        (64, 48),
        (16384, 1),
        (1, 16384),
    ];
    for (width, height) in sizes {
        for sampling in [Yuv420, Yuv422] {
            for count in [1, 2, 5, 300] {
                if count == 300 && width > 3 || height > 16000 && count > 2 {
                    continue;
                }
                let planes = planes(width, height, sampling, count);
                let bytes = written(width, height, sampling, &planes);
                assert!(bytes == file_of(width, height, sampling, &planes));
                let file = Y4mFile::open(&bytes).unwrap();
                assert_eq!(
                    (file.width(), file.height(), file.sampling(), file.len()),
                    (width, height, sampling, count)
                );
                let mut all = file.pictures();
                for (k, should) in planes.chunks(planes.len() / count).enumerate() {
                    assert_eq!(all.len(), count - k);
                    let is = all.next().unwrap();
                    assert!([is.y, is.u, is.v].concat() == should);
                    assert_eq!(is.y.len(), (width * height) as usize);
                    assert_eq!(is.u.len(), is.v.len());
                    if k % 97 == 0 {
                        assert_eq!(file.picture(k), Some(is));
                    }
                }
                assert_eq!((all.len(), all.next(), all.next_back()), (0, None, None));
                assert_eq!((&file).into_iter().count(), count);
            }
        }
    }
}

#[test]
fn pictures_passed_over() {
    let bytes = file_of(2, 2, Yuv420, &planes(2, 2, Yuv420, 100));
    let file = Y4mFile::open(&bytes).unwrap();
    let each: Vec<_> = (0..100).map(|k| file.picture(k).unwrap()).collect();
    for step in [1, 2, 7, 99, 100, 1000] {
        let is: Vec<_> = file.pictures().step_by(step).collect();
        let should: Vec<_> = each.iter().copied().step_by(step).collect();
        assert_eq!(is, should);
    }
    assert!(file.pictures().rev().eq(each.iter().rev().copied()));
    let mut all = file.pictures();
    assert_eq!(all.nth(usize::MAX), None);
    assert_eq!((all.len(), all.next()), (0, None));
    let mut all = file.pictures();
    all.nth(10);
    let again = all.clone();
    assert!(all.eq(again));
}

/// A line, and what it says of the pictures; behind it one of 4 × 2 in 4:2:0 where it says nothing.
fn says(line: &[u8], should: Option<(u32, u32, YuvChromaSubsampling)>) {
    let (width, height, sampling) = should.unwrap_or((4, 2, Yuv420));
    for count in 0..3 {
        let mut bytes = line.to_vec();
        let planes = planes(width, height, sampling, count);
        let size = planes.len().checked_div(count).unwrap_or(1);
        for picture in planes.chunks(size) {
            bytes.extend(b"FRAME Xa\n");
            bytes.extend(picture);
        }
        let is = Y4mFile::open(&bytes)
            .map(|file| (file.width(), file.height(), file.sampling(), file.len()));
        let should = should
            .ok_or(BROKEN)
            .map(|(width, height, sampling)| (width, height, sampling, count));
        assert_eq!(is, should, "{}", line.escape_ascii());
    }
}

#[test]
fn lines() {
    for (tags, width, height, sampling) in [
        ("W4 H2", 4, 2, Yuv420),
        ("H2 W4", 4, 2, Yuv420),
        ("Ip F25:1 C422 H3 W5 A1:1", 5, 3, Yuv422),
        ("W4 H2 C420", 4, 2, Yuv420),
        ("W4 H2 C420jpeg XYSCSS=420JPEG", 4, 2, Yuv420),
        ("C420mpeg2 W4 H2", 4, 2, Yuv420),
        ("W16384 H1", 16384, 1, Yuv420),
        ("W4 H2 XW5 w5 I\r", 4, 2, Yuv420),
    ] {
        let line = format!("YUV4MPEG2 {tags}\n");
        says(line.as_bytes(), Some((width, height, sampling)));
        // a letter at its front, and its newline gone
        says(format!("X{line}").as_bytes(), None);
        says(line.trim_end().as_bytes(), None);
    }
    for tags in [
        "",
        "W4",
        "H2",
        "W4 H2 ",
        " W4 H2",
        "W4  H2",
        "W04 H2",
        "W4 H0",
        "W4 H",
        "W+4 H2",
        "W4 H2\r",
        "W16385 H2",
        "W4 H18446744073709551618",
        "W4 W4 H2",
        "W4 H2 H3",
        "W4 H2 C420 C420",
        "W4 H2 C",
        "W4 H2 C420paldv",
        "W4 H2 C420jpegs",
        "W4 H2 C444",
        "W4 H2 Cmono",
        "w4 H2",
    ] {
        says(format!("YUV4MPEG2 {tags}\n").as_bytes(), None);
    }
    says(b"YUV4MPEG2\n", None);
    says(b"YUV4MPEG2W4 H2\n", None);
    for length in 250..260 {
        let mut line = b"YUV4MPEG2 W4 H2 X".to_vec();
        line.resize(length - 1, b'x');
        line.push(b'\n');
        says(&line, (length <= 256).then_some((4, 2, Yuv420)));
    }
    says(&[b"YUV4MPEG2 W", &[b'4'; 200][..], b" H2\n"].concat(), None);
}

/// Each bit of its lines is what it must be, but those of tags that are passed over; a bit of Z makes it no space, no newline and none of W, H and C.
#[test]
fn every_bit_changed() {
    // Two spaces in the first planes, or these would be a tag where the newline before them is another byte.
    let good = b"YUV4MPEG2 W4 H2 C422 Z\nFRAME Z\nabcdefgh  klmnopFRAME\nABCDEFGHIJKLMNOP";
    for at in 0..good.len() {
        let free = good[at] == b'Z' || (31..47).contains(&at) || at >= 53;
        for bit in 0..8 {
            let mut bytes = good.to_vec();
            bytes[at] ^= 1 << bit;
            let opened = Y4mFile::open(&bytes).map(|file| file.len());
            let should = if free { Ok(2) } else { Err(BROKEN) };
            assert_eq!(opened, should, "byte {at}, bit {bit}");
        }
    }
}

#[test]
fn every_cut_and_more() {
    let good = file_of(3, 3, Yuv420, &planes(3, 3, Yuv420, 2));
    for length in 0..good.len() {
        let should = match length {
            34 => Ok(0),
            57 => Ok(1),
            _ => Err(BROKEN),
        };
        let opened = Y4mFile::open(&good[..length]).map(|file| file.len());
        assert_eq!(opened, should, "{length} bytes");
    }
    for more in [&b"\n"[..], b"F", b"FRAME\n", b"FRAME\n1234567890123456"] {
        let bytes = [&good, more].concat();
        assert_eq!(Y4mFile::open(&bytes), Err(BROKEN));
    }
}

#[test]
fn refused_files() {
    let mut file = vec![0xee; 200];
    for (width, height) in [
        (0, 2),
        (4, 0),
        (16385, 2),
        (4, 16385),
        (65540, 2),
        (u32::MAX, u32::MAX),
    ] {
        for sampling in [Yuv420, Yuv422] {
            for planes in [&[][..], &[0; 12], &[0; 16]] {
                let answer = write_y4m(width, height, sampling, planes, &mut file);
                assert_eq!(answer, Err(BROKEN));
                let answer = write_y4m(width, height, sampling, planes, &mut []);
                assert_eq!(answer, Err(BROKEN)); // 19 before 16
                assert_eq!(y4m_size(width, height, sampling, planes), Err(BROKEN));
            }
        }
    }
    for (sampling, size) in [(Yuv420, 17), (Yuv422, 21)] {
        for length in 0..3 * size + 2 {
            let planes = vec![1; length];
            let answer = y4m_size(3, 3, sampling, &planes);
            assert_eq!(answer.is_ok(), length % size == 0);
            if answer.is_err() {
                assert_eq!(answer, Err(BROKEN));
                assert_eq!(write_y4m(3, 3, sampling, &planes, &mut file), answer);
            }
        }
    }
    assert_eq!(file, [0xee; 200]);
    let planes = planes(3, 3, Yuv422, 2);
    let size = y4m_size(3, 3, Yuv422, &planes).unwrap();
    for length in 0..size {
        let mut file = vec![0xee; length];
        let answer = write_y4m(3, 3, Yuv422, &planes, &mut file);
        assert_eq!(answer, Err(YuvError::OutputTooShort));
        assert!(file.iter().all(|byte| *byte == 0xee));
    }
}

/// Planes with so many bytes behind each row of Y, U and V.
fn image(
    width: u32,
    height: u32,
    sampling: YuvChromaSubsampling,
    padding: [u32; 3],
) -> YuvPlanarImageMut<'static, u8> {
    let mut image = YuvPlanarImageMut::<u8>::alloc(width, height, sampling);
    let strides = [
        &mut image.y_stride,
        &mut image.u_stride,
        &mut image.v_stride,
    ];
    let stores = [&mut image.y_plane, &mut image.u_plane, &mut image.v_plane];
    for (k, (stride, plane)) in strides.into_iter().zip(stores).enumerate() {
        let rows = plane.borrow().len() / *stride as usize;
        *stride += padding[k];
        let bytes = (0..rows * *stride as usize).map(|i| (i * 7 + k * 90) as u8);
        *plane = BufferStoreMut::Owned(bytes.collect());
    }
    image
}

/// Its planes without the padding.
fn unpadded(image: &YuvPlanarImageMut<u8>) -> Vec<u8> {
    let half = image.width.div_ceil(2);
    let mut bytes = Vec::new();
    for (plane, stride, width) in [
        (&image.y_plane, image.y_stride, image.width),
        (&image.u_plane, image.u_stride, half),
        (&image.v_plane, image.v_stride, half),
    ] {
        for row in plane.borrow().chunks(stride as usize) {
            bytes.extend(&row[..width as usize]);
        }
    }
    bytes
}

#[test]
fn pictures_from_planes_make_the_file() {
    for (width, height) in [(1, 1), (2, 2), (5, 3), (8, 5), (64, 48), (16384, 2)] {
        for sampling in [Yuv420, Yuv422] {
            let mut all = Vec::new();
            let mut file = written(width, height, sampling, &[]);
            for padding in [[0, 0, 0], [3, 1, 2], [0, 64, 0]] {
                let image = image(width, height, sampling, padding);
                let size = y4m_picture_size(sampling, &image).unwrap();
                let mut picture = vec![0xee; size + 2];
                assert_eq!(y4m_picture(sampling, &image, &mut picture), Ok(size));
                assert_eq!(picture.split_off(size), [0xee; 2]);
                for short in [0, 5, size - 1] {
                    let mut less = vec![0xee; short];
                    let answer = y4m_picture(sampling, &image, &mut less);
                    assert_eq!(answer, Err(YuvError::OutputTooShort));
                    assert!(less.iter().all(|byte| *byte == 0xee));
                }
                file.extend(picture);
                all.extend(unpadded(&image));
                assert!(file == written(width, height, sampling, &all));
            }
        }
    }
}

#[test]
fn refused_planes() {
    type Change = fn(&mut YuvPlanarImageMut<'static, u8>);
    let changes: [Change; 14] = [
        |image| image.width = 0,
        |image| image.height = 0,
        |image| image.width = 16385,
        |image| image.height = 16385,
        |image| image.width += 4, // past the stride of Y
        |image| image.height += 1,
        |image| image.y_stride -= 4,
        |image| image.u_stride -= 2,
        |image| image.v_stride -= 3,
        |image| image.y_stride = u32::MAX,
        |image| image.v_stride += 1,
        |image| image.y_plane = BufferStoreMut::Owned(vec![0; 23]),
        |image| image.u_plane = BufferStoreMut::Owned(vec![0; 12 + 1]),
        |image| image.v_plane = BufferStoreMut::Owned(Vec::new()),
    ];
    for sampling in [Yuv420, Yuv422] {
        let good = image(5, 3, sampling, [3, 1, 2]);
        assert!(y4m_picture_size(sampling, &good).is_ok());
        for (k, change) in changes.iter().enumerate() {
            let mut image = image(5, 3, sampling, [3, 1, 2]);
            change(&mut image);
            let mut picture = [0xee; 100];
            let answer = y4m_picture(sampling, &image, &mut picture);
            assert_eq!(answer, Err(BROKEN), "change {k}");
            assert_eq!(y4m_picture_size(sampling, &image), Err(BROKEN));
            assert_eq!(y4m_picture(sampling, &image, &mut []), Err(BROKEN)); // 19 before 16
            assert_eq!(picture, [0xee; 100]);
        }
    }
    // planes of the other sampling
    let image = image(5, 3, Yuv420, [0; 3]);
    assert_eq!(y4m_picture_size(Yuv422, &image), Err(BROKEN));
}

/// Frames converted, in both samplings, and the file of them read back.
#[test]
fn frames_to_a_file() {
    let (range, matrix) = (YuvRange::Limited, YuvStandardMatrix::Bt601);
    let transfer = SharpYuvGammaTransfer::Srgb;
    for sampling in [Yuv420, Yuv422] {
        let mut file = written(13, 7, sampling, &[]);
        let mut all = Vec::new();
        for k in 1..4 {
            let source: Vec<u8> = (0..3 * 13 * 7).map(|i| (i * i * k) as u8).collect();
            let mut image = image(13, 7, sampling, [k, 0, 2]);
            let convert = match sampling {
                Yuv420 => rgb_to_sharp_yuv420,
                Yuv422 => rgb_to_sharp_yuv422,
            };
            convert(&mut image, &source, 3 * 13, range, matrix, transfer).unwrap();
            let start = file.len();
            file.resize(start + y4m_picture_size(sampling, &image).unwrap(), 0);
            y4m_picture(sampling, &image, &mut file[start..]).unwrap();
            all.push(unpadded(&image));
        }
        let read = Y4mFile::open(&file).unwrap();
        assert_eq!((read.len(), read.sampling()), (3, sampling));
        for (picture, should) in read.pictures().zip(all) {
            assert_eq!([picture.y, picture.u, picture.v].concat(), should);
        }
    }
}

#[test]
fn the_refusal() {
    assert_eq!((BROKEN.number(), BROKEN.size()), (19, None));
    assert_eq!(
        BROKEN.to_string(),
        "refused 19: the text or the planes of a Y4M file break its rules"
    );
}
