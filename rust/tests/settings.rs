//! Shift files with settings: the file of RULES 11.7; every byte in each of the four places of settings; every bit and every cut; records of either
//! form opened, written and read back; records from planes in both samplings, each refusal with its numbers; files moved forward and back into outputs
//! of every length; summaries and pairs of files of either form.

use segvartin::*;

/// RULES 11.7: the two records, and the file that has them.
const RECORDS: [&[u8]; 2] = [
    &[
        0x78, 5, 0, 0, 3, 0, 2, 0, 0, 255, 255, 255, 0x10, 0x11, 0x12, 0x20, 0x21, 0x22, 0x30,
        0x31, 0x40, 0x41,
    ],
    &[
        0x70, 0x11, 1, 0, 2, 0, 2, 0, 1, 1, 6, 3, 0x50, 0x51, 0x52, 0x53, 0x60, 0x61, 0x70, 0x71,
    ],
];
const PAIRS: [u8; 32] = [
    255, 255, 255, 255, 2, 0, 0, 0, 32, 0, 0, 0, 0, 0, 0, 0, 22, 0, 0, 0, 54, 0, 0, 0, 0, 0, 0, 0,
    20, 0, 0, 0,
];

const BROKEN: YuvError = YuvError::MalformedShiftFile;

fn file_of_two() -> Vec<u8> {
    [&PAIRS[..], RECORDS[0], RECORDS[1]].concat()
}

/// The codes that a record may have there.
fn is_code(place: usize, byte: u8) -> bool {
    byte <= [1, 1, 6, 3][place] || (place > 0 && byte == 255)
}

/// A record whose plane bytes follow from its crossing number.
fn record(crossing: u32, four: [u8; 4], width: u16, height: u16) -> Vec<u8> {
    let (w, h) = (usize::from(width), usize::from(height));
    let rows = if four[0] == 1 { h } else { h.div_ceil(2) };
    let planes = w * h + 2 * w.div_ceil(2) * rows;
    let mut bytes = crossing.to_le_bytes().to_vec();
    bytes.extend(width.to_le_bytes());
    bytes.extend(height.to_le_bytes());
    bytes.extend(four);
    bytes.extend((0..planes).map(|i| (crossing as usize * 7 + i * 3) as u8));
    bytes
}

/// Records of many sizes and settings, no two alike.
fn some_records(count: u32) -> Vec<Vec<u8>> {
    let code = |k: u32, last: u32| match k % (last + 2) {
        past if past > last => 255,
        code => code as u8,
    };
    (0..count)
        .map(|k| {
            let four = [(k % 2) as u8, code(k / 2, 1), code(k, 6), code(k / 3, 3)];
            record(
                1_000_000 * k + 9,
                four,
                (k % 5 + 1) as u16,
                (k % 3 + 1) as u16,
            )
        })
        .collect()
}

fn written(records: &[u8]) -> Vec<u8> {
    let size = settings_file_size(records).unwrap();
    let mut file = vec![0xee; size + 3];
    assert_eq!(write_settings_file(records, &mut file), Ok(size));
    assert_eq!(file.split_off(size), [0xee; 3]);
    file
}

fn without_settings(records: &[u8]) -> Vec<u8> {
    let mut file = vec![0; shift_file_size(records).unwrap()];
    write_shift_file(records, &mut file).unwrap();
    file
}

fn forward(file: &[u8]) -> Vec<u8> {
    let mut output = vec![0; moved_forward_size(file).unwrap()];
    assert_eq!(move_forward(file, &mut output), Ok(output.len()));
    output
}

#[test]
fn the_file_of_the_rules() {
    let bytes = file_of_two();
    assert_eq!(written(&RECORDS.concat()), bytes);
    let file = ShiftFile::open_any(&bytes).unwrap();
    assert_eq!((file.len(), file.form()), (2, ShiftForm::WithSettings));
    let [one, two] = [0, 1].map(|k| file.record(k).unwrap());
    assert_eq!((one.crossing, one.width, one.height), (1400, 3, 2));
    assert_eq!((one.bytes, one.y), (RECORDS[0], &RECORDS[0][12..18]));
    assert_eq!((one.u, one.v), (&[0x30, 0x31][..], &[0x40, 0x41][..]));
    let unsaid = RecordSettings::new(YuvChromaSubsampling::Yuv420);
    assert_eq!(one.settings, unsaid);
    assert_eq!((two.crossing, two.bytes), (70_000, RECORDS[1]));
    assert_eq!((two.u, two.v), (&[0x60, 0x61][..], &[0x70, 0x71][..]));
    assert_eq!(two.settings.sampling, YuvChromaSubsampling::Yuv422);
    assert_eq!(two.settings.range, Some(YuvRange::Full));
    assert_eq!(two.settings.matrix, Some(RecordedMatrix::Custom));
    let transfer = two.settings.transfer;
    assert_eq!(transfer, Some(SharpYuvGammaTransfer::Gamma2p8));
    assert_eq!(file.records_as_bytes(), RECORDS.concat());
    // A reader of the form without settings.
    assert_eq!(ShiftFile::open(&bytes), Err(BROKEN));
    // And a file of that form, by either.
    let old = without_settings(&[0x78, 5, 0, 0, 1, 0, 1, 0, 16, 128, 128]);
    let [plain, any] = [ShiftFile::open(&old), ShiftFile::open_any(&old)].map(Result::unwrap);
    assert_eq!((plain.form(), plain), (ShiftForm::WithoutSettings, any));
    assert_eq!(any.record(0).unwrap().settings, unsaid);
    assert_eq!(written(&[]), [255, 255, 255, 255, 0, 0, 0, 0]);
}

#[test]
fn written_records_read_back_the_same() {
    for count in [0, 1, 2, 63, 64, 65, 129, 1000, 4096] {
        let records = some_records(count);
        let bytes = written(&records.concat());
        let file = ShiftFile::open_any(&bytes).unwrap();
        assert_eq!(file.len(), count as usize);
        for (k, (is, should)) in file.records().zip(&records).enumerate() {
            assert_eq!(is.bytes, should);
            assert_eq!([&is.bytes[..12], is.y, is.u, is.v].concat(), *should);
            // What is told of its settings makes the same four bytes.
            let mut image = YuvPlanarImageMut::<u8>::alloc(1, 1, YuvChromaSubsampling::Yuv420);
            (image.width, image.height) = (is.width, is.height);
            let half = is.width.div_ceil(2);
            (image.y_stride, image.u_stride, image.v_stride) = (is.width, half, half);
            image.y_plane = BufferStoreMut::Owned(is.y.to_vec());
            image.u_plane = BufferStoreMut::Owned(is.u.to_vec());
            image.v_plane = BufferStoreMut::Owned(is.v.to_vec());
            let mut again = vec![0; settings_record_size(&is.settings, &image).unwrap()];
            settings_record(is.crossing, &is.settings, &image, &mut again).unwrap();
            assert_eq!(again, *should);
            if k % 97 == 0 {
                assert_eq!(file.record(k), Some(is));
            }
        }
        assert_eq!(written(file.records_as_bytes()), bytes);
    }
    let many = record(1, [0, 255, 255, 255], 1, 1).repeat(4097);
    assert_eq!(settings_file_size(&many), Err(BROKEN));
    assert_eq!(settings_file_size(&many[15..]), Ok(8 + 27 * 4096));
}

#[test]
fn every_byte_of_settings() {
    let good = written(&record(7, [0, 255, 255, 255], 1, 1));
    let mut output = [0; 27];
    for place in 0..4 {
        for byte in 0..=255 {
            let mut bytes = good.clone();
            bytes[28 + place] = byte;
            let known = is_code(place, byte);
            let opened = ShiftFile::open_any(&bytes);
            assert_eq!(opened.is_ok(), known, "place {place}, byte {byte}");
            assert_eq!(ShiftFile::open(&bytes), Err(BROKEN));
            let size = settings_file_size(&bytes[20..]);
            assert_eq!(size, if known { Ok(35) } else { Err(BROKEN) });
            let unsaid = byte == if place == 0 { 0 } else { 255 };
            let should = match (known, unsaid) {
                (false, _) => Err(BROKEN),
                (_, false) => Err(YuvError::SettingsRecorded),
                _ => Ok(27),
            };
            assert_eq!(move_back(&bytes, &mut output), should);
            let refused = move_back(&bytes, &mut []);
            assert_eq!(refused, should.and(Err(YuvError::OutputTooShort)));
            let paired = pair_shift_files(&good, &bytes).map(|report| report.equal);
            let equal = if known && (place > 0 || byte == 0) {
                1
            } else {
                0
            };
            assert_eq!(paired.is_ok(), known);
            assert_eq!(paired.unwrap_or(0), equal);
        }
    }
    let recorded = YuvError::SettingsRecorded;
    assert_eq!((recorded.number(), recorded.size()), (20, None));
    let said = recorded.to_string();
    assert!(said.starts_with("refused 20: "));
}

#[test]
fn every_bit_and_every_cut() {
    let good = file_of_two();
    for at in 0..good.len() {
        let free = (32..36).contains(&at) || (44..58).contains(&at) || at >= 66;
        for bit in 0..8 {
            let mut bytes = good.clone();
            bytes[at] ^= 1 << bit;
            let place = [40, 62].map(|from| at.wrapping_sub(from));
            let place = place.into_iter().find(|place| *place < 4);
            // Another sampling makes either record another length.
            let code = place.is_some_and(|place| place > 0 && is_code(place, bytes[at]));
            let opened = ShiftFile::open_any(&bytes).is_ok();
            assert_eq!(opened, free || code, "byte {at}, bit {bit}");
            assert_eq!(ShiftFile::open(&bytes), Err(BROKEN));
        }
        assert_eq!(ShiftFile::open_any(&good[..at]), Err(BROKEN));
        assert_eq!(moved_back_size(&good[..at]), Err(BROKEN));
        assert_eq!(moved_forward_size(&good[..at]), Err(BROKEN));
    }
    for more in [&[0][..], RECORDS[0]] {
        assert_eq!(ShiftFile::open_any(&[&good, more].concat()), Err(BROKEN));
    }
}

#[test]
fn moved_into_every_output() {
    let old: Vec<Vec<u8>> = (some_records(9).iter())
        .map(|record| {
            let luma = usize::from(record[4]) * usize::from(record[6]);
            let half = usize::from(record[4]).div_ceil(2) * usize::from(record[6]).div_ceil(2);
            [&record[..8], &record[12..12 + luma + 2 * half]].concat()
        })
        .collect();
    for count in [0, 1, 2, 9] {
        let file = without_settings(&old[..count].concat());
        let new = forward(&file);
        assert_eq!(new.len(), file.len() + 4 + 4 * count);
        let opened = ShiftFile::open_any(&new).unwrap();
        for (record, was) in opened.records().zip(&old) {
            assert_eq!([&record.bytes[..8], &record.bytes[12..]].concat(), *was);
            let unsaid = RecordSettings::new(YuvChromaSubsampling::Yuv420);
            assert_eq!(record.settings, unsaid);
        }
        type Move = fn(&[u8], &mut [u8]) -> Result<usize, YuvError>;
        for (call, other, from, to) in [
            (move_forward as Move, move_back as Move, &file, &new),
            (move_back, move_forward, &new, &file),
        ] {
            for length in 0..to.len() + 4 {
                let mut output = vec![0xee; length];
                let moved = call(from, &mut output);
                if length < to.len() {
                    assert_eq!(moved, Err(YuvError::OutputTooShort));
                    assert_eq!(output, vec![0xee; length]);
                } else {
                    assert_eq!(moved, Ok(to.len()));
                    assert_eq!(output[..to.len()], to[..]);
                    assert!(output[to.len()..].iter().all(|byte| *byte == 0xee));
                }
                output.fill(0xee);
                assert_eq!(other(from, &mut output), Err(BROKEN));
                assert_eq!(output, vec![0xee; length]);
            }
        }
    }
    // 20 of every record, before 16.
    let records = some_records(9);
    for k in 0..9 {
        let mut few: Vec<Vec<u8>> = (0..9)
            .map(|i| record(i, [0, 255, 255, 255], 1, 1))
            .collect();
        few[k] = records[k].clone();
        let file = written(&few.concat());
        let mut output = vec![0xee; 300];
        for length in [0, 300] {
            let moved = move_back(&file, &mut output[..length]);
            assert_eq!(moved, Err(YuvError::SettingsRecorded));
        }
        assert_eq!(output, vec![0xee; 300]);
        assert_eq!(moved_back_size(&file), Err(YuvError::SettingsRecorded));
    }
}

/// Planes with padding of their own each.
fn padded(
    width: u32,
    height: u32,
    sampling: YuvChromaSubsampling,
) -> YuvPlanarImageMut<'static, u8> {
    let mut image = YuvPlanarImageMut::<u8>::alloc(width, height, sampling);
    let plane = |stride: u32, rows: u32, from: usize| {
        let length = stride as usize * rows as usize;
        BufferStoreMut::Owned((0..length).map(|i| (from + 3 * i) as u8).collect())
    };
    let chroma = match sampling {
        YuvChromaSubsampling::Yuv420 => height.div_ceil(2),
        YuvChromaSubsampling::Yuv422 => height,
    };
    image.y_stride += 3;
    image.u_stride += 1;
    image.v_stride += 2;
    image.y_plane = plane(image.y_stride, height, 5);
    image.u_plane = plane(image.u_stride, chroma, 100);
    image.v_plane = plane(image.v_stride, chroma, 200);
    image
}

fn rows(plane: &BufferStoreMut<u8>, stride: u32, row: u32) -> Vec<u8> {
    let rows = plane.borrow().chunks(stride as usize);
    rows.flat_map(|padded| padded[..row as usize].to_vec())
        .collect()
}

#[test]
fn records_from_planes() {
    for sampling in [YuvChromaSubsampling::Yuv420, YuvChromaSubsampling::Yuv422] {
        let mut settings = RecordSettings::new(sampling);
        settings.matrix = Some(RecordedMatrix::Smpte240);
        for (width, height) in [
            (1, 1),
            (2, 1),
            (1, 2),
            (3, 3),
            (5, 7),
            (640, 3),
            (1, 16_384),
        ] {
            let image = padded(width, height, sampling);
            let size = settings_record_size(&settings, &image).unwrap();
            let mut record = vec![0xee; size + 2];
            let made = settings_record(0xfedc_ba98, &settings, &image, &mut record);
            assert_eq!(made, Ok(size));
            assert_eq!(record[size..], [0xee; 2]);
            let half = width.div_ceil(2);
            let code = u8::from(sampling == YuvChromaSubsampling::Yuv422);
            let should = [
                0xfedc_ba98u32.to_le_bytes().to_vec(),
                (width as u16).to_le_bytes().to_vec(),
                (height as u16).to_le_bytes().to_vec(),
                vec![code, 255, 3, 255],
                rows(&image.y_plane, image.y_stride, width),
                rows(&image.u_plane, image.u_stride, half),
                rows(&image.v_plane, image.v_stride, half),
            ];
            assert_eq!(record[..size], should.concat());
            let file = written(&record[..size]);
            let one = ShiftFile::open_any(&file).unwrap().record(0).unwrap();
            assert_eq!((one.bytes, one.settings), (&record[..size], settings));
            for length in [0, size - 1] {
                let mut record = vec![0xee; length];
                let refused = settings_record(1, &settings, &image, &mut record);
                assert_eq!(refused, Err(YuvError::OutputTooShort));
                assert_eq!(record, vec![0xee; length]);
            }
        }
    }
}

#[test]
fn planes_refused() {
    let size = |expected, received| MismatchedSize { expected, received };
    let settings = RecordSettings::new(YuvChromaSubsampling::Yuv422);
    type Change<'a> = &'a dyn Fn(&mut YuvPlanarImageMut<u8>);
    // 5 × 3 in 4:2:2: cw 3, ch 3; strides 8, 4, 5; lengths 24, 12, 15.
    let cut = |plane: &mut BufferStoreMut<u8>, length: usize| {
        *plane = BufferStoreMut::Owned(plane.borrow()[..length].to_vec());
    };
    let cases: [(Change, YuvError); 7] = [
        (&|i| i.width = 0, BROKEN),
        (&|i| i.height = 16_385, BROKEN),
        (
            &|i| i.y_stride = 4,
            YuvError::LumaPlaneMinimumSizeMismatch(size(15, 12)),
        ),
        (
            &|i| i.u_stride = 2,
            YuvError::UPlaneMinimumSizeMismatch(size(9, 6)),
        ),
        (
            &|i| cut(&mut i.u_plane, 8),
            YuvError::UPlaneMinimumSizeMismatch(size(11, 8)),
        ),
        (
            &|i| cut(&mut i.v_plane, 10),
            YuvError::VPlaneMinimumSizeMismatch(size(13, 10)),
        ),
        (
            &|i| cut(&mut i.v_plane, 13),
            YuvError::WholeRowsMismatch(size(15, 13)),
        ),
    ];
    for (change, should) in cases {
        let mut image = padded(5, 3, YuvChromaSubsampling::Yuv422);
        change(&mut image);
        for length in [0, 45, 100] {
            let mut record = vec![0xee; length];
            let refused = settings_record(7, &settings, &image, &mut record);
            assert_eq!(refused, Err(should));
            assert_eq!(record, vec![0xee; length]);
        }
        assert_eq!(settings_record_size(&settings, &image), Err(should));
    }
    // The planes of one sampling for a record of the other.
    let short = padded(5, 3, YuvChromaSubsampling::Yuv420);
    let refused = YuvError::UPlaneMinimumSizeMismatch(size(11, 8));
    assert_eq!(settings_record_size(&settings, &short), Err(refused));
    let tall = padded(5, 3, YuvChromaSubsampling::Yuv422);
    let refused = YuvError::WholeRowsMismatch(size(8, 12));
    let settings = RecordSettings::new(YuvChromaSubsampling::Yuv420);
    assert_eq!(settings_record_size(&settings, &tall), Err(refused));
}

/// Every matrix and transfer, both samplings and ranges: a frame's own settings are in its record.
#[test]
fn frames_to_a_file_and_back() {
    let matrices = [
        (YuvStandardMatrix::Bt601, RecordedMatrix::Bt601),
        (YuvStandardMatrix::Bt709, RecordedMatrix::Bt709),
        (YuvStandardMatrix::Bt2020, RecordedMatrix::Bt2020),
        (YuvStandardMatrix::Smpte240, RecordedMatrix::Smpte240),
        (YuvStandardMatrix::Bt470_6, RecordedMatrix::Bt470_6),
        (YuvStandardMatrix::Fcc, RecordedMatrix::Fcc),
        (YuvStandardMatrix::Custom(0.2, 0.1), RecordedMatrix::Custom),
    ];
    let source: Vec<u8> = (0..45u32).map(|i| (i * i + 7) as u8).collect();
    let (mut records, mut all) = (Vec::new(), Vec::new());
    for sampling in [YuvChromaSubsampling::Yuv420, YuvChromaSubsampling::Yuv422] {
        for range in [YuvRange::Limited, YuvRange::Full] {
            for (matrix, recorded) in matrices {
                for transfer in [
                    SharpYuvGammaTransfer::Srgb,
                    SharpYuvGammaTransfer::Rec709,
                    SharpYuvGammaTransfer::Gamma2p2,
                    SharpYuvGammaTransfer::Gamma2p8,
                ] {
                    let mut image = padded(5, 3, sampling);
                    let frame = FrameDescription {
                        width: 5,
                        height: 3,
                        channels: YuvSourceChannels::Rgb,
                        sampling,
                        range,
                        matrix,
                        transfer,
                        y_stride: image.y_stride,
                        u_stride: image.u_stride,
                        v_stride: image.v_stride,
                    };
                    let (y, u, v) = (
                        image.y_plane.borrow_mut(),
                        image.u_plane.borrow_mut(),
                        image.v_plane.borrow_mut(),
                    );
                    rgbx_to_sharp_yuv(&frame, &source, 15, y, u, v).unwrap();
                    let settings = RecordSettings::of(&frame);
                    let (used, crossing) = (records.len(), all.len() as u32);
                    let size = settings_record_size(&settings, &image).unwrap();
                    records.resize(used + size, 0);
                    settings_record(crossing, &settings, &image, &mut records[used..]).unwrap();
                    all.push((frame, recorded, image));
                }
            }
        }
    }
    let bytes = written(&records);
    let file = ShiftFile::open_any(&bytes).unwrap();
    assert_eq!(file.len(), 112);
    for (record, (frame, recorded, image)) in file.records().zip(&all) {
        let settings = record.settings;
        assert_eq!(settings.sampling, frame.sampling);
        assert_eq!(settings.range, Some(frame.range));
        assert_eq!(settings.matrix, Some(*recorded));
        assert_eq!(settings.transfer, Some(frame.transfer));
        assert_eq!(record.y, rows(&image.y_plane, image.y_stride, 5));
        assert_eq!(record.u, rows(&image.u_plane, image.u_stride, 3));
        assert_eq!(record.v, rows(&image.v_plane, image.v_stride, 3));
    }
}

#[test]
fn summaries() {
    let records = some_records(20);
    let bytes = written(&records[..19].concat());
    let file = ShiftFile::open_any(&bytes).unwrap();
    let mut summary = vec![0xee; file.summary_size() + SUMMARY_ENTRY + 2];
    assert_eq!(file.build_summary(&mut summary), Ok(19 * SUMMARY_ENTRY));
    assert!(file.check_summary(&summary));
    for (k, record) in file.records().enumerate() {
        let found = file.find_record(&summary, record.crossing).unwrap();
        assert_eq!(found, file.record(k));
        let entry = &summary[SUMMARY_ENTRY * k..][..SUMMARY_ENTRY];
        let offset = record.bytes.as_ptr() as u64 - bytes.as_ptr() as u64;
        assert_eq!(entry[4..12], offset.to_le_bytes());
        let sum: usize = record.y.iter().map(|byte| usize::from(*byte)).sum();
        assert_eq!(usize::from(entry[12]), sum / record.y.len());
    }
    assert_eq!(file.find_record(&summary, 10), Ok(None));
    // A record of the other form is none, and a file of that form takes none of this.
    let plain = [9, 0, 0, 0, 1, 0, 1, 0, 1, 2, 3];
    let kept = summary.clone();
    let refused = file.update_summary(&plain, &mut summary);
    assert_eq!((refused, &summary), (Err(BROKEN), &kept));
    assert!(file.update_summary(&records[19], &mut summary).is_ok());
    let grown = written(&records.concat());
    let grown = ShiftFile::open_any(&grown).unwrap();
    let mut built = vec![0; grown.summary_size()];
    grown.build_summary(&mut built).unwrap();
    assert_eq!(
        (&summary[..260], &summary[260..]),
        (&built[..], &[0xee; 2][..])
    );
    let old = without_settings(&plain);
    let old = ShiftFile::open(&old).unwrap();
    let mut summary = [0; 2 * SUMMARY_ENTRY];
    old.build_summary(&mut summary).unwrap();
    let refused = old.update_summary(&records[0], &mut summary);
    assert_eq!(refused, Err(BROKEN));
    assert!(old.update_summary(&plain, &mut summary).is_ok());
}

/// How the first pair of two files differs, each of one record.
fn difference(ours: &[u8], theirs: &[u8]) -> Option<PairDifference> {
    let report = pair_shift_files(ours, theirs).unwrap();
    assert_eq!((report.only_ours, report.only_theirs), (0, 0));
    assert_eq!(report.equal + report.differing, 1);
    report.first.map(|first| first.difference)
}

#[test]
fn pairs_of_either_form() {
    use YuvChromaSubsampling::{Yuv420, Yuv422};
    for (width, height) in [(1, 1), (2, 2), (3, 2), (9, 3), (16, 4)] {
        let one = record(7, [0, 1, 2, 3], width, height);
        let old = without_settings(&[&one[..8], &one[12..]].concat());
        let (new, tall) = (
            written(&one),
            written(&record(7, [1, 1, 2, 3], width, height)),
        );
        let other = written(&record(7, [0, 255, 6, 0], width, height));
        for (a, b) in [(&old, &new), (&new, &old), (&new, &other), (&old, &other)] {
            assert_eq!(difference(a, b), None);
        }
        for (a, b, samplings) in [
            (&old, &tall, (Yuv420, Yuv422)),
            (&tall, &old, (Yuv422, Yuv420)),
            (&new, &tall, (Yuv420, Yuv422)),
        ] {
            let Some(PairDifference::Sizes {
                ours,
                theirs,
                our_sampling,
                their_sampling,
                ..
            }) = difference(a, b)
            else {
                panic!("not told as sizes");
            };
            let size = (u32::from(width), u32::from(height));
            assert_eq!((ours, theirs), (size, size));
            assert_eq!((our_sampling, their_sampling), samplings);
        }
        // The last byte of V, in the rows of 4:2:2.
        let mut last = tall.clone();
        *last.last_mut().unwrap() ^= 1;
        let Some(PairDifference::Place {
            plane, row, column, ..
        }) = difference(&tall, &last)
        else {
            panic!("not told as a place");
        };
        let place = (usize::from(height) - 1, usize::from(width).div_ceil(2) - 1);
        assert_eq!((plane, (row, column)), (YuvPlane::V, place));
    }
    let (old, new) = (without_settings(&[]), written(&[]));
    assert_eq!(
        pair_shift_files(&old, &new).map(|report| report.equal),
        Ok(0)
    );
    let error = pair_shift_files(&old, &new[..7]).unwrap_err();
    assert_eq!((error.side, error.error), (PairSide::Theirs, BROKEN));
}
