//! Shift files: the file of RULES 11.1; files of any number of records, written and read back, by number, by iterator and by its `nth`; every byte of
//! a small file changed; records from planes with padding; each refusal with its numbers and nothing written.

use segvartin::*;

/// RULES 11.2: the two records, and the file of 11.1 that has them.
const RECORDS: [&[u8]; 2] = [
    &[
        0x78, 5, 0, 0, 3, 0, 2, 0, 0x10, 0x11, 0x12, 0x20, 0x21, 0x22, 0x30, 0x31, 0x40, 0x41,
    ],
    &[0x70, 0x11, 1, 0, 1, 0, 1, 0, 0x50, 0x60, 0x70],
];
const PAIRS: [u8; 28] = [
    2, 0, 0, 0, 28, 0, 0, 0, 0, 0, 0, 0, 18, 0, 0, 0, 46, 0, 0, 0, 0, 0, 0, 0, 11, 0, 0, 0,
];

fn file_of_two() -> Vec<u8> {
    [&PAIRS[..], RECORDS[0], RECORDS[1]].concat()
}

/// A record whose plane bytes follow from its crossing number.
fn record(crossing: u32, width: u16, height: u16) -> Vec<u8> {
    let (w, h) = (usize::from(width), usize::from(height));
    let planes = w * h + 2 * w.div_ceil(2) * h.div_ceil(2);
    let mut bytes = crossing.to_le_bytes().to_vec();
    bytes.extend(width.to_le_bytes());
    bytes.extend(height.to_le_bytes());
    bytes.extend((0..planes).map(|i| (crossing as usize * 7 + i * 3) as u8));
    bytes
}

/// Records of many sizes, no two alike.
fn some_records(count: u32) -> Vec<Vec<u8>> {
    (0..count)
        .map(|k| record(1_000_000 * k + 9, (k % 5 + 1) as u16, (k % 3 + 1) as u16))
        .collect()
}

fn written(records: &[u8]) -> Vec<u8> {
    let size = shift_file_size(records).unwrap();
    let mut file = vec![0xee; size + 3];
    assert_eq!(write_shift_file(records, &mut file), Ok(size));
    assert_eq!(file.split_off(size), [0xee; 3]);
    let mut exact = vec![0xee; size];
    assert_eq!(write_shift_file(records, &mut exact), Ok(size));
    assert!(exact == file);
    file
}

#[test]
fn the_file_of_the_rules() {
    let bytes = file_of_two();
    assert_eq!(written(&RECORDS.concat()), bytes);
    let file = ShiftFile::open(&bytes).unwrap();
    assert_eq!((file.len(), file.is_empty()), (2, false));
    let [one, two] = [0, 1].map(|k| file.record(k).unwrap());
    assert_eq!((one.crossing, one.width, one.height), (1400, 3, 2));
    assert_eq!((one.bytes, one.y), (RECORDS[0], &RECORDS[0][8..14]));
    assert_eq!((one.u, one.v), (&[0x30, 0x31][..], &[0x40, 0x41][..]));
    assert_eq!((two.crossing, two.width, two.height), (70_000, 1, 1));
    assert_eq!((two.bytes, two.y), (RECORDS[1], &[0x50][..]));
    assert_eq!((two.u, two.v), (&[0x60][..], &[0x70][..]));
    for k in [2, usize::MAX, 1 << 32, (1 << 32) + 1] {
        assert_eq!((file.record(k), file.records().nth(k)), (None, None));
    }
    assert_eq!(file.records_as_bytes(), RECORDS.concat());
    // No byte is shown, of which there may be many.
    let said = format!("{file:?} {one:?}");
    let record = "ShiftRecord { crossing: 1400, width: 3, height: 2, size: 18, .. }";
    assert_eq!(
        said,
        format!("ShiftFile {{ records: 2, size: 57, .. }} {record}")
    );
}

/// No plane is copied: a record is a part of the bytes, and outlives the value that told of it.
#[test]
fn a_record_is_a_part_of_the_file() {
    let bytes = file_of_two();
    let (y, all) = {
        let file = ShiftFile::open(&bytes).unwrap();
        (file.record(0).unwrap().y, file.as_bytes())
    };
    assert_eq!(y.as_ptr(), bytes[36..].as_ptr());
    assert_eq!(all.as_ptr(), bytes.as_ptr());
}

#[test]
fn no_records() {
    let bytes = written(&[]);
    assert_eq!(bytes, [0; 4]);
    let file = ShiftFile::open(&bytes).unwrap();
    assert_eq!((file.len(), file.is_empty()), (0, true));
    assert_eq!((file.record(0), file.records().next()), (None, None));
    assert_eq!(file.records_as_bytes(), []);
}

#[test]
fn written_records_read_back_the_same() {
    // Around the number that is asked for at once, and the most there may be.
    for count in [1, 2, 63, 64, 65, 128, 129, 1000, 4096] {
        let records = some_records(count);
        let bytes = written(&records.concat());
        let file = ShiftFile::open(&bytes).unwrap();
        assert_eq!(file.len(), count as usize);
        let mut all = file.records();
        for (k, should) in records.iter().enumerate() {
            assert_eq!(all.len(), records.len() - k);
            let is = all.next().unwrap();
            assert_eq!(is.bytes, should);
            assert_eq!([&is.bytes[..8], is.y, is.u, is.v].concat(), *should);
            assert_eq!(is.crossing.to_le_bytes(), should[..4]);
            assert_eq!((is.width as u16).to_le_bytes(), should[4..6]);
            assert_eq!((is.height as u16).to_le_bytes(), should[6..8]);
            assert_eq!(is.y.len(), (is.width * is.height) as usize);
            if k % 97 == 0 {
                assert_eq!(file.record(k), Some(is));
            }
        }
        assert_eq!((all.len(), all.next(), all.next()), (0, None, None));
        assert_eq!(written(file.records_as_bytes()), bytes);
        assert_eq!((&file).into_iter().count(), records.len());
    }
}

#[test]
fn records_passed_over() {
    let records = some_records(300);
    let bytes = written(&records.concat());
    let file = ShiftFile::open(&bytes).unwrap();
    for step in [1, 2, 63, 64, 65, 200, 299, 300, 1000] {
        let is: Vec<&[u8]> = file.records().step_by(step).map(|r| r.bytes).collect();
        let should: Vec<&[u8]> = records.iter().step_by(step).map(Vec::as_slice).collect();
        assert_eq!(is, should);
    }
    let mut all = file.records();
    assert_eq!(all.nth(usize::MAX), None);
    assert_eq!((all.len(), all.next()), (0, None));
    let mut all = file.records();
    all.nth(10);
    let again = all.clone();
    assert!(all.eq(again));
}

/// Bytes of crossings and planes are free; each other bit of the file is what it must be.
#[test]
fn every_bit_changed() {
    let good = file_of_two();
    for at in 0..good.len() {
        let free = (28..32).contains(&at) || (36..50).contains(&at) || at >= 54;
        for bit in 0..8 {
            let mut bytes = good.clone();
            bytes[at] ^= 1 << bit;
            let opened = ShiftFile::open(&bytes).map(|file| file.len());
            let should = if free {
                Ok(2)
            } else {
                Err(YuvError::MalformedShiftFile)
            };
            assert_eq!(opened, should, "byte {at}, bit {bit}");
        }
    }
}

#[test]
fn every_cut_and_more() {
    let good = file_of_two();
    for length in 0..good.len() {
        let opened = ShiftFile::open(&good[..length]);
        assert_eq!(opened, Err(YuvError::MalformedShiftFile), "{length} bytes");
    }
    for more in [&[0][..], RECORDS[0], RECORDS[1]] {
        let bytes = [&good, more].concat();
        assert_eq!(ShiftFile::open(&bytes), Err(YuvError::MalformedShiftFile));
    }
    // 4,097 records with pairs and offsets as they would be.
    let count = 4097u32;
    let one = record(1, 1, 1);
    let mut bytes = count.to_le_bytes().to_vec();
    for k in 0..u64::from(count) {
        bytes.extend((4 + 12 * u64::from(count) + 11 * k).to_le_bytes());
        bytes.extend(11u32.to_le_bytes());
    }
    bytes.extend(one.repeat(count as usize));
    assert_eq!(ShiftFile::open(&bytes), Err(YuvError::MalformedShiftFile));
}

/// Offsets and lengths as the records stand, but not where they must.
#[test]
fn gaps_and_overlaps() {
    let good = file_of_two();
    let offset = |bytes: &mut [u8], k: usize, value: u64| {
        bytes[4 + 12 * k..12 + 12 * k].copy_from_slice(&value.to_le_bytes());
    };
    let refused = |bytes: &[u8]| {
        assert_eq!(ShiftFile::open(bytes), Err(YuvError::MalformedShiftFile));
    };
    for gap in 1..20 {
        for (at, moved) in [(28, 0), (46, 1)] {
            let mut bytes = [&good[..at], &vec![0; gap], &good[at..]].concat();
            for (k, place) in [(0, 28), (1, 46)].into_iter().skip(moved) {
                offset(&mut bytes, k, place + gap as u64);
            }
            refused(&bytes);
        }
    }
    // Both pairs are those of the second record, which stands there once.
    let mut bytes = [&good[..4], &good[16..28], &good[16..28], RECORDS[1]].concat();
    offset(&mut bytes, 0, 28);
    offset(&mut bytes, 1, 28);
    refused(&bytes);
}

/// The answer is `should`, the output keeps every byte, and so it is for every length of it.
fn write_refused(records: &[u8], lengths: std::ops::Range<usize>, should: YuvError) {
    for length in lengths {
        let mut file = vec![0xee; length];
        assert_eq!(write_shift_file(records, &mut file), Err(should));
        assert_eq!(file, vec![0xee; length]);
    }
}

#[test]
fn records_that_are_none_and_outputs_too_short() {
    let two = RECORDS.concat();
    write_refused(&two, 0..57, YuvError::OutputTooShort);
    write_refused(&[], 0..4, YuvError::OutputTooShort);
    let broken = YuvError::MalformedShiftFile;
    for length in (0..two.len()).filter(|length| ![0, 18].contains(length)) {
        write_refused(&two[..length], 0..60, broken);
        assert_eq!(shift_file_size(&two[..length]), Err(broken));
    }
    for (at, value) in [(4, 0), (4, 16_385), (6, 0), (6, 16_385), (4, 65_535)] {
        let mut records = two.clone();
        records[at..at + 2].copy_from_slice(&u16::to_le_bytes(value as u16));
        write_refused(&records, 56..60, broken);
    }
    let many = record(1, 1, 1).repeat(4097);
    write_refused(&many, 100_000..100_001, broken);
    assert_eq!(shift_file_size(&many[11..]), Ok(4 + 23 * 4096));
    assert_eq!(broken.number(), 15);
    assert_eq!(YuvError::OutputTooShort.number(), 16);
    assert_eq!(
        (broken.size(), YuvError::OutputTooShort.size()),
        (None, None)
    );
    let said = broken.to_string();
    assert_eq!(said, "refused 15: the layout of a shift file is broken");
    let said = YuvError::OutputTooShort.to_string();
    assert_eq!(said, "refused 16: the output is too short");
}

/// Planes with padding of their own each, all bytes different from those beside them.
fn padded(width: u32, height: u32) -> YuvPlanarImageMut<'static, u8> {
    let mut image = YuvPlanarImageMut::<u8>::alloc(width, height, YuvChromaSubsampling::Yuv420);
    let plane = |stride: u32, rows: u32, from: usize| {
        let length = stride as usize * rows as usize;
        BufferStoreMut::Owned((0..length).map(|i| (from + 3 * i) as u8).collect())
    };
    let chroma = height.div_ceil(2);
    image.y_stride += 3;
    image.u_stride += 1;
    image.v_stride += 2;
    image.y_plane = plane(image.y_stride, height, 5);
    image.u_plane = plane(image.u_stride, chroma, 100);
    image.v_plane = plane(image.v_stride, chroma, 200);
    image
}

#[test]
fn records_from_planes() {
    for (width, height) in [
        (1, 1),
        (2, 1),
        (1, 2),
        (3, 3),
        (4, 2),
        (5, 7),
        (640, 3),
        (16_384, 1),
        (1, 16_384),
    ] {
        let image = padded(width, height);
        let size = shift_record_size(&image).unwrap();
        let mut record = vec![0xee; size + 2];
        assert_eq!(shift_record(0xfedc_ba98, &image, &mut record), Ok(size));
        assert_eq!(record[size..], [0xee; 2]);
        let mut exact = vec![0xee; size];
        assert_eq!(shift_record(0xfedc_ba98, &image, &mut exact), Ok(size));
        assert_eq!(exact, record[..size]);
        let chroma = width.div_ceil(2) as usize;
        let rows = |plane: &BufferStoreMut<u8>, stride: u32, row: usize| {
            let rows = plane.borrow().chunks(stride as usize);
            rows.flat_map(|r| r[..row].to_vec()).collect::<Vec<u8>>()
        };
        let should = [
            0xfedc_ba98u32.to_le_bytes().to_vec(),
            (width as u16).to_le_bytes().to_vec(),
            (height as u16).to_le_bytes().to_vec(),
            rows(&image.y_plane, image.y_stride, width as usize),
            rows(&image.u_plane, image.u_stride, chroma),
            rows(&image.v_plane, image.v_stride, chroma),
        ];
        assert_eq!(record[..size], should.concat());
        let file = written(&record[..size]);
        let one = ShiftFile::open(&file).unwrap().record(0).unwrap();
        assert_eq!((one.width, one.height), (width, height));
        assert_eq!(one.bytes, &record[..size]);
        for length in [0, size - 1] {
            let mut record = vec![0xee; length];
            let refused = shift_record(1, &image, &mut record);
            assert_eq!(refused, Err(YuvError::OutputTooShort));
            assert_eq!(record, vec![0xee; length]);
        }
    }
}

#[test]
fn planes_refused() {
    let size = |expected, received| MismatchedSize { expected, received };
    let shorter = |plane: &mut BufferStoreMut<u8>, by: usize| {
        let bytes = plane.borrow();
        *plane = BufferStoreMut::Owned(bytes[..bytes.len() - by].to_vec());
    };
    type Change<'a> = &'a dyn Fn(&mut YuvPlanarImageMut<u8>);
    // 5 × 3: cw 3, ch 2; strides 8, 4, 5; lengths 24, 8, 10.
    let cases: [(Change, YuvError); 11] = [
        (&|i| i.width = 0, YuvError::MalformedShiftFile),
        (&|i| i.height = 0, YuvError::MalformedShiftFile),
        (&|i| i.width = 16_385, YuvError::MalformedShiftFile),
        (&|i| i.height = u32::MAX, YuvError::MalformedShiftFile),
        (
            &|i| i.y_stride = 4,
            YuvError::LumaPlaneMinimumSizeMismatch(size(15, 12)),
        ),
        (
            &|i| shorter(&mut i.y_plane, 4),
            YuvError::LumaPlaneSizeMismatch(size(21, 20)),
        ),
        (
            &|i| i.u_stride = 2,
            YuvError::UPlaneMinimumSizeMismatch(size(6, 4)),
        ),
        (
            &|i| shorter(&mut i.u_plane, 2),
            YuvError::UPlaneMinimumSizeMismatch(size(7, 6)),
        ),
        (
            &|i| shorter(&mut i.v_plane, 3),
            YuvError::VPlaneMinimumSizeMismatch(size(8, 7)),
        ),
        (
            &|i| shorter(&mut i.y_plane, 1),
            YuvError::WholeRowsMismatch(size(24, 23)),
        ),
        (
            &|i| i.v_stride = 4,
            YuvError::WholeRowsMismatch(size(8, 10)),
        ),
    ];
    for (change, should) in cases {
        let mut image = padded(5, 3);
        change(&mut image);
        // 16 comes last, whatever the output is.
        for length in [0, 35, 100] {
            let mut record = vec![0xee; length];
            assert_eq!(shift_record(7, &image, &mut record), Err(should));
            assert_eq!(record, vec![0xee; length]);
        }
        assert_eq!(shift_record_size(&image), Err(should));
    }
    // The planes of 4:2:2 are longer.
    let image = YuvPlanarImageMut::<u8>::alloc(4, 4, YuvChromaSubsampling::Yuv422);
    let refused = YuvError::WholeRowsMismatch(size(4, 8));
    assert_eq!(shift_record_size(&image), Err(refused));
}

/// Frames of several sizes converted, each into a record behind the one before; one file of them, read back.
#[test]
fn frames_to_a_file_and_back() {
    let (range, matrix) = (YuvRange::Limited, YuvStandardMatrix::Fcc);
    let transfer = SharpYuvGammaTransfer::Rec709;
    let mut images = Vec::new();
    let (mut records, mut used) = (vec![0; 4000], 0);
    for (k, (width, height)) in [(5, 3), (1, 1), (16, 9), (2, 40)].into_iter().enumerate() {
        let mut image = padded(width, height);
        let source: Vec<u8> = (0..3 * width * height).map(|i| (i * i + 7) as u8).collect();
        let stride = 3 * width;
        rgb_to_sharp_yuv420(&mut image, &source, stride, range, matrix, transfer).unwrap();
        used += shift_record(1400 + k as u32, &image, &mut records[used..]).unwrap();
        images.push(image);
    }
    let bytes = written(&records[..used]);
    let file = ShiftFile::open(&bytes).unwrap();
    assert_eq!(file.len(), images.len());
    for (k, (record, image)) in file.records().zip(&images).enumerate() {
        let size = (record.crossing, record.width, record.height);
        assert_eq!(size, (1400 + k as u32, image.width, image.height));
        let chroma = image.width.div_ceil(2);
        for (is, plane, stride, row) in [
            (record.y, &image.y_plane, image.y_stride, image.width),
            (record.u, &image.u_plane, image.u_stride, chroma),
            (record.v, &image.v_plane, image.v_stride, chroma),
        ] {
            let rows = plane.borrow().chunks(stride as usize);
            for (is, should) in is.chunks(row as usize).zip(rows) {
                assert_eq!(is, &should[..row as usize]);
            }
        }
    }
}
