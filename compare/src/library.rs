//! The library that users link, by way of its Rust crate: what runs here is what a C or Rust program calls.

use crate::conditions;
use crate::converter::{Converter, Opening};
use crate::request::BandRequest;
use model::convoy::Numbers;
use model::desk::{ALL_CUSTOMS, ALL_NUMBERS, ALL_PARTS, Buffers, DeskNumbers, Told};
use model::shift::{RecordRequest, ShiftForm};
use model::{Answer, Frame, FrameState, Refusal, Settings, TableRounding, Window};
use segvartin::{
    BufferStoreMut, FrameDescription, FrameOptions, FrameStateWith, PairDifference, PairSide,
    RecordSettings, RecordedMatrix, ShiftFile, Y4mFile, YuvError, YuvPlanarImageMut, YuvPlane,
};

pub struct Library;

/// The crate has calls with options and calls without, which truncate and take the whole source. A
/// call that does goes without where the strides of U and V are both even or both odd: about half
/// of the time.
fn without_options(
    (w, h): (u32, u32),
    window: &Window,
    settings: &Settings,
    [_, u_stride, v_stride]: [u32; 3],
) -> bool {
    *window == Window::whole(w, h)
        && settings.rounding == TableRounding::Truncated
        && (u_stride ^ v_stride) & 1 == 0
}

impl Converter for Library {
    fn name(&self) -> &'static str {
        "library"
    }

    /// All but 1: the crate's settings are enums, so none lacks a meaning.
    fn has(&self, number: u8) -> bool {
        number != 1
    }

    fn frame(
        &self,
        frame: &Frame,
        source: &[u8],
        y: &mut [u8],
        u: &mut [u8],
        v: &mut [u8],
    ) -> Answer {
        let strides = [frame.y_stride, frame.u_stride, frame.v_stride];
        let description = description(frame.w, frame.h, &frame.settings, strides);
        let stride = frame.source_stride;
        let size = (frame.w, frame.h);
        let answer = if without_options(size, &frame.window, &frame.settings, strides) {
            segvartin::rgbx_to_sharp_yuv(&description, source, stride, y, u, v)
        } else {
            let options = options(&description, &frame.window, &frame.settings);
            segvartin::rgbx_to_sharp_yuv_with(&description, &options, source, stride, y, u, v)
        };
        answer.map_err(refusal)
    }

    fn open(&self, asked: &FrameState) -> Option<Result<FrameState, Refusal>> {
        let strides = [asked.y_stride, asked.u_stride, asked.v_stride];
        let frame = description(asked.w, asked.h, &asked.settings, strides);
        let size = (asked.w, asked.h);
        let opened = if without_options(size, &asked.window, &asked.settings, strides) {
            segvartin::FrameState::open(frame).map(|state| FrameState {
                done: state.done,
                ..*asked
            })
        } else {
            FrameStateWith::open(frame, options(&frame, &asked.window, &asked.settings))
                .map(|state| left(asked, &state))
        };
        Some(opened.map_err(refusal))
    }

    fn band(&self, request: &mut BandRequest) -> Option<(FrameState, Answer)> {
        let s = request.state;
        let strides = [s.y_stride, s.u_stride, s.v_stride];
        let frame = description(s.w, s.h, &s.settings, strides);
        let [source, y, u, v] = &mut request.lent;
        let (rows, stride) = (request.rows, request.source_stride);
        let carried = &mut request.carried;
        let (after, answer) = if without_options((s.w, s.h), &s.window, &s.settings, strides) {
            let state = segvartin::FrameState {
                frame,
                done: s.done,
            };
            let (after, answer) = state.band(rows, source, stride, y, u, v, carried);
            let done = after.done;
            (FrameState { done, ..s }, answer)
        } else {
            let options = options(&frame, &s.window, &s.settings);
            let state = any_state(frame, options, s.done);
            let (after, answer) = state.band(rows, source, stride, y, u, v, carried);
            (left(&s, &after), answer)
        };
        Some((after, answer.map_err(refusal)))
    }

    fn luma_counts(
        &self,
        numbers: &[u32],
        custom: &[f32; 2],
        counts: &mut [u32; 256],
    ) -> Option<Answer> {
        // What stands there before is not looked at.
        let mut told = [7; 2];
        // SAFETY: the pointer is that of a slice beside its own length, and no two lent values overlap.
        let number = unsafe {
            segvartin_call_luma_counts(numbers.as_ptr(), numbers.len(), custom, counts, &mut told)
        };
        Some(answered(number, told))
    }

    fn has_shift_files(&self) -> bool {
        true
    }

    /// By its numbers, and then by the crate, which must have the same records at the same places.
    fn shift_records(&self, file: &[u8], first: u64, entries: &mut [u64]) -> (Answer, u64, u64) {
        // What stands there before is not looked at.
        let mut told = [7; 2];
        // SAFETY: the pointers are those of slices beside their own lengths, and no two lent values overlap.
        let number = unsafe {
            segvartin_call_shift_records(
                file.as_ptr(),
                file.len(),
                first as usize,
                entries.as_mut_ptr(),
                entries.len(),
                &mut told,
            )
        };
        let [count, written] = told;
        let answer = answered(number, [0, 0]);
        let opened = ShiftFile::open(file).map_err(refusal);
        equal_files(file, opened, answer, count, first, entries.chunks_exact(11));
        (answer, count as u64, written as u64)
    }

    /// By its numbers, and then by the crate, which must have the same form and the same records at the same places.
    fn shift_records_any(
        &self,
        file: &[u8],
        first: u64,
        entries: &mut [u64],
    ) -> (Answer, [u64; 3]) {
        let mut told = [7; 3];
        // SAFETY: as above.
        let number = unsafe {
            segvartin_call_shift_records_any(
                file.as_ptr(),
                file.len(),
                first as usize,
                entries.as_mut_ptr(),
                entries.len(),
                &mut told,
            )
        };
        let answer = answered(number, [0, 0]);
        let opened = ShiftFile::open_any(file).map_err(refusal);
        if let Ok(opened) = opened {
            let with = opened.form() == segvartin::ShiftForm::WithSettings;
            assert_eq!(usize::from(with), told[2], "the crate has the other form");
        }
        let entries = entries.chunks_exact(15);
        equal_files(file, opened, answer, told[0], first, entries);
        (answer, told.map(|number| number as u64))
    }

    /// By its numbers, and then by the crate on a copy, which must come out the same.
    fn shift_write(&self, form: ShiftForm, records: &[u8], output: &mut [u8]) -> (Answer, u64) {
        match form {
            ShiftForm::WithoutSettings => {
                let by_crate = segvartin::write_shift_file;
                made_of(segvartin_call_shift_write, by_crate, records, output)
            }
            ShiftForm::WithSettings => {
                let by_crate = segvartin::write_settings_file;
                let call = segvartin_call_shift_write_settings;
                made_of(call, by_crate, records, output)
            }
        }
    }

    /// By its numbers, and then by the crate on a copy, which must come out the same.
    fn shift_move(&self, to: ShiftForm, file: &[u8], output: &mut [u8]) -> (Answer, u64) {
        match to {
            ShiftForm::WithSettings => {
                let by_crate = segvartin::move_forward;
                made_of(segvartin_call_shift_forward, by_crate, file, output)
            }
            ShiftForm::WithoutSettings => {
                let by_crate = segvartin::move_back;
                made_of(segvartin_call_shift_back, by_crate, file, output)
            }
        }
    }

    /// By its numbers, and then by the crate on a copy, which must come out the same; the crate has no settings without a
    /// meaning.
    fn shift_record(
        &self,
        request: &RecordRequest,
        planes: &[Vec<u8>; 3],
        output: &mut [u8],
    ) -> (Answer, u64) {
        let r = request;
        let six = [r.crossing, r.w, r.h, r.y_stride, r.u_stride, r.v_stride];
        let mut copy = output.to_vec();
        let told = match r.settings {
            None => record_of(segvartin_call_shift_record, &six, planes, output),
            Some(four) => {
                let mut numbers = [0; 10];
                numbers[..6].copy_from_slice(&six);
                numbers[6..].copy_from_slice(&four);
                let call = segvartin_call_shift_record_settings;
                record_of(call, &numbers, planes, output)
            }
        };
        let (number, [expected, received, size]) = told;
        let answer = answered(number, [expected, received]);
        let [y_plane, u_plane, v_plane] = planes.clone().map(BufferStoreMut::Owned);
        let image = YuvPlanarImageMut {
            y_plane,
            y_stride: r.y_stride,
            u_plane,
            u_stride: r.u_stride,
            v_plane,
            v_stride: r.v_stride,
            width: r.w,
            height: r.h,
        };
        let made = match r.settings {
            None => segvartin::shift_record(r.crossing, &image, &mut copy),
            Some(four) if conditions::are_settings(four) => {
                segvartin::settings_record(r.crossing, &settings_of(four), &image, &mut copy)
            }
            Some(_) => return (answer, size as u64),
        };
        assert_eq!(made.map_err(refusal), answer.map(|()| size));
        assert!(copy == output, "the crate leaves other bytes");
        (answer, size as u64)
    }

    /// By its numbers, and then by the crate on a copy, which must come out the same.
    fn summary_build(&self, file: &[u8], buffer: &mut [u8]) -> Answer {
        let mut copy = buffer.to_vec();
        // SAFETY: as above.
        let number = unsafe {
            segvartin_call_summary_build(
                file.as_ptr(),
                file.len(),
                buffer.as_mut_ptr(),
                buffer.len(),
            )
        };
        let answer = answered(number, [0, 0]);
        let built = ShiftFile::open_any(file).and_then(|file| file.build_summary(&mut copy));
        let size = ShiftFile::open_any(file).map_or(0, |file| 13 * file.len());
        assert_eq!(built.map_err(refusal), answer.map(|()| size));
        assert!(copy == buffer, "the crate leaves other bytes");
        answer
    }

    /// By its numbers, and then by the crate.
    fn summary_check(&self, file: &[u8], buffer: &[u8]) -> (Answer, bool) {
        let mut told = [7; 1];
        // SAFETY: as above.
        let number = unsafe {
            segvartin_call_summary_check(
                file.as_ptr(),
                file.len(),
                buffer.as_ptr(),
                buffer.len(),
                &mut told,
            )
        };
        let answer = answered(number, [0, 0]);
        assert!(told[0] < 2, "neither yes nor no");
        let yes = told[0] == 1;
        let checked = ShiftFile::open_any(file).map(|file| file.check_summary(buffer));
        assert_eq!(checked.map_err(refusal), answer.map(|()| yes));
        (answer, yes)
    }

    /// By its numbers, and then by the crate, which must have the record at its place in the file.
    fn summary_find(&self, file: &[u8], buffer: &[u8], crossing: u32) -> (Answer, Option<u64>) {
        let mut told = [7; 2];
        // SAFETY: as above.
        let number = unsafe {
            segvartin_call_summary_find(
                file.as_ptr(),
                file.len(),
                buffer.as_ptr(),
                buffer.len(),
                crossing,
                &mut told,
            )
        };
        let answer = answered(number, [0, 0]);
        let found = match told {
            [0, 0] => None,
            [1, k] => Some(k),
            _ => panic!("told {told:?}"),
        };
        let opened = ShiftFile::open_any(file);
        let record = (opened).and_then(|file| file.find_record(buffer, crossing));
        let should = (opened).map(|file| found.and_then(|k| file.record(k)));
        assert_eq!(
            record.is_ok(),
            answer.is_ok(),
            "the crate answers otherwise"
        );
        match record {
            Ok(record) => assert_eq!(Ok(record), should, "the crate finds another record"),
            Err(error) => assert_eq!(Err(refusal(error)), answer),
        }
        (answer, found.map(|k| k as u64))
    }

    /// By its numbers, and then by the crate on a copy, which must come out the same.
    fn summary_update(&self, file: &[u8], record: &[u8], buffer: &mut [u8]) -> Answer {
        let mut copy = buffer.to_vec();
        // SAFETY: as above.
        let number = unsafe {
            segvartin_call_summary_update(
                file.as_ptr(),
                file.len(),
                record.as_ptr(),
                record.len(),
                buffer.as_mut_ptr(),
                buffer.len(),
            )
        };
        let answer = answered(number, [0, 0]);
        let updated =
            ShiftFile::open_any(file).and_then(|file| file.update_summary(record, &mut copy));
        let size = ShiftFile::open_any(file).map_or(0, |file| 13 * (file.len() + 1));
        assert_eq!(updated.map_err(refusal), answer.map(|()| size));
        assert!(copy == buffer, "the crate leaves other bytes");
        answer
    }

    /// By its numbers, and then by the crate.
    fn shift_pairs(&self, ours: &[u8], theirs: &[u8], report: &mut [u64; 18]) -> (Answer, u64) {
        let mut told = [7; 1];
        // SAFETY: as above.
        let number = unsafe {
            segvartin_call_shift_pairs(
                ours.as_ptr(),
                ours.len(),
                theirs.as_ptr(),
                theirs.len(),
                report,
                &mut told,
            )
        };
        let answer = answered(number, [0, 0]);
        match segvartin::pair_shift_files(ours, theirs) {
            Ok(has) => assert_eq!((Ok(()), numbers_of(&has)), (answer, *report), "the crate"),
            Err(has) => {
                let side = match has.side {
                    PairSide::Ours => 1,
                    PairSide::Theirs => 2,
                };
                assert_eq!(
                    (Err(refusal(has.error)), side),
                    (answer, told[0]),
                    "the crate"
                );
            }
        }
        (answer, told[0] as u64)
    }

    fn has_y4m(&self) -> bool {
        true
    }

    /// By its numbers, and then by the crate, which must have the same pictures at the same places.
    fn y4m_pictures(&self, file: &[u8], first: u64, entries: &mut [u64]) -> (Answer, [u64; 5]) {
        // What stands there before is not looked at.
        let mut told = [7; 5];
        // SAFETY: as above.
        let number = unsafe {
            segvartin_call_y4m_pictures(
                file.as_ptr(),
                file.len(),
                first as usize,
                entries.as_mut_ptr(),
                entries.len(),
                &mut told,
            )
        };
        let (answer, told) = (answered(number, [0, 0]), told.map(|number| number as u64));
        let opened = Y4mFile::open(file).map_err(refusal);
        assert_eq!(opened.map(|_| ()), answer, "the crate opens it otherwise");
        if let Ok(opened) = opened {
            let sides = [opened.width(), opened.height()].map(u64::from);
            let (sampling, count) = (sampling_code(opened.sampling()), opened.len() as u64);
            let has = [sides[0], sides[1], sampling, count];
            assert_eq!(has, told[..4], "the crate has another file");
            let pictures = opened.pictures().skip(first as usize);
            for (picture, numbers) in pictures.zip(entries.chunks_exact(6)) {
                equal_parts(file, &[picture.y, picture.u, picture.v], numbers);
            }
            let one = opened.picture(first as usize);
            assert_eq!(
                one,
                opened.pictures().nth(first as usize),
                "a picture alone"
            );
        }
        (answer, told)
    }

    /// By its numbers, and then by the crate on a copy, which must come out the same; the crate has no sampling
    /// without a meaning.
    fn y4m_write(&self, numbers: [u32; 3], pictures: &[u8], output: &mut [u8]) -> (Answer, u64) {
        let mut told = [7; 1];
        let mut copy = output.to_vec();
        // SAFETY: as above.
        let number = unsafe {
            segvartin_call_y4m_write(
                &numbers,
                pictures.as_ptr(),
                pictures.len(),
                output.as_mut_ptr(),
                output.len(),
                &mut told,
            )
        };
        let (answer, [size]) = (answered(number, [0, 0]), told);
        let [w, h, code] = numbers;
        if let Some(sampling) = sampling_of(code) {
            let written = segvartin::write_y4m(w, h, sampling, pictures, &mut copy);
            assert_eq!(written.map_err(refusal), answer.map(|()| size));
            assert!(copy == output, "the crate leaves other bytes");
        }
        (answer, size as u64)
    }

    /// By its numbers, and then by the crate on a copy, which must come out the same.
    fn y4m_picture(
        &self,
        numbers: [u32; 6],
        planes: &[Vec<u8>; 3],
        output: &mut [u8],
    ) -> (Answer, u64) {
        let mut told = [7; 1];
        let mut copy = output.to_vec();
        let [y, u, v] = planes;
        // SAFETY: as above.
        let number = unsafe {
            segvartin_call_y4m_picture(
                &numbers,
                y.as_ptr(),
                y.len(),
                u.as_ptr(),
                u.len(),
                v.as_ptr(),
                v.len(),
                output.as_mut_ptr(),
                output.len(),
                &mut told,
            )
        };
        let (answer, [size]) = (answered(number, [0, 0]), told);
        let [width, height, code, y_stride, u_stride, v_stride] = numbers;
        if let Some(sampling) = sampling_of(code) {
            let [y_plane, u_plane, v_plane] = planes.clone().map(BufferStoreMut::Owned);
            let image = YuvPlanarImageMut {
                y_plane,
                y_stride,
                u_plane,
                u_stride,
                v_plane,
                v_stride,
                width,
                height,
            };
            let made = segvartin::y4m_picture(sampling, &image, &mut copy);
            assert_eq!(made.map_err(refusal), answer.map(|()| size));
            assert!(copy == output, "the crate leaves other bytes");
        }
        (answer, size as u64)
    }

    fn has_convoys(&self) -> bool {
        true
    }

    fn convoy(
        &self,
        told: &Numbers,
        source: &[u8],
        y: &mut [u8],
        u: &mut [u8],
        v: &mut [u8],
    ) -> (Answer, u64) {
        // What stands there before is not looked at.
        let mut sizes = [7; 3];
        // SAFETY: the pointers are those of slices beside their own lengths, and no two lent values overlap.
        let number = unsafe {
            segvartin_call_convoy(
                told.count as usize,
                told.numbers.as_ptr(),
                told.numbers.len(),
                told.customs.as_ptr(),
                told.customs.len(),
                told.parts.as_ptr(),
                told.parts.len(),
                source.as_ptr(),
                source.len(),
                y.as_mut_ptr(),
                y.len(),
                u.as_mut_ptr(),
                u.len(),
                v.as_mut_ptr(),
                v.len(),
                &mut sizes,
            )
        };
        let [expected, received, done] = sizes;
        (answered(number, [expected, received]), done as u64)
    }

    fn has_desk(&self) -> bool {
        true
    }

    fn desk_open(&self, desk: &mut DeskNumbers, o: &Opening) -> Told {
        // What stands there before is not looked at.
        let mut told = [7; 2];
        // SAFETY: the pointer is that of a slice beside its own length, and no two lent values overlap.
        let number = unsafe {
            segvartin_call_desk_open(
                o.camera,
                o.described.as_ptr(),
                o.described.len(),
                &o.custom,
                &o.parts,
                &o.lengths,
                &mut desk.numbers,
                &mut desk.customs,
                &mut desk.parts,
                &mut told,
            )
        };
        let [expected, received] = told.map(|size| size as u64);
        [number.into(), expected, received, 0, 0]
    }

    fn desk_offer(
        &self,
        desk: &mut DeskNumbers,
        camera: u32,
        band: [u32; 2],
        place: [u64; 3],
    ) -> Told {
        let DeskNumbers {
            numbers,
            customs,
            parts,
        } = desk;
        // SAFETY: no two lent values overlap.
        let number =
            unsafe { segvartin_call_desk_offer(camera, &band, &place, numbers, customs, parts) };
        [number.into(), 0, 0, 0, 0]
    }

    fn desk_step(&self, desk: &mut DeskNumbers, lent: Buffers) -> Told {
        // What stands there before is not looked at.
        let mut told = [7; 4];
        // SAFETY: the pointers are those of slices beside their own lengths, and no two lent values overlap.
        let number = unsafe {
            segvartin_call_desk_step(
                lent.source.as_ptr(),
                lent.source.len(),
                lent.y.as_mut_ptr(),
                lent.y.len(),
                lent.u.as_mut_ptr(),
                lent.u.len(),
                lent.v.as_mut_ptr(),
                lent.v.len(),
                lent.carried.as_mut_ptr(),
                lent.carried.len(),
                &mut desk.numbers,
                &mut desk.customs,
                &mut desk.parts,
                &mut told,
            )
        };
        let [expected, received, served, camera] = told.map(|number| number as u64);
        [number.into(), expected, received, served, camera]
    }
}

/// The answer of an exported call.
fn answered(number: u32, told: [usize; 2]) -> Answer {
    let [expected, received] = told.map(|size| size as u64);
    match (number, told) {
        (0, [0, 0]) => Ok(()),
        _ => Err(Refusal {
            number: u8::try_from(number).unwrap_or(u8::MAX),
            expected,
            received,
        }),
    }
}

/// The numbers of a report of the crate.
fn numbers_of(report: &segvartin::PairReport) -> [u64; 18] {
    let counts = [
        report.equal,
        report.differing,
        report.only_ours,
        report.only_theirs,
    ];
    let mut numbers = [0; 18];
    numbers[..4].copy_from_slice(&counts.map(|count| count as u64));
    let Some(first) = &report.first else {
        return numbers;
    };
    numbers[5] = first.crossing.into();
    numbers[6..8].copy_from_slice(&[first.our_record, first.their_record].map(|k| k as u64));
    match first.difference {
        PairDifference::Sizes {
            ours,
            theirs,
            our_sampling,
            their_sampling,
            ..
        } => {
            numbers[4] = 1;
            numbers[8..12].copy_from_slice(&[ours.0, ours.1, theirs.0, theirs.1].map(u64::from));
            numbers[15..17].copy_from_slice(&[our_sampling, their_sampling].map(sampling_code));
        }
        PairDifference::Place {
            plane, row, column, ..
        } => {
            let plane = match plane {
                YuvPlane::Y => 0,
                YuvPlane::U => 1,
                YuvPlane::V => 2,
            };
            numbers[4] = 2;
            numbers[12..15].copy_from_slice(&[plane, row as u64, column as u64]);
        }
        _ => panic!("a difference of another kind"),
    }
    numbers
}

/// The crate's value of a code. None: it has no meaning.
fn sampling_of(code: u32) -> Option<segvartin::YuvChromaSubsampling> {
    match code {
        0 => Some(segvartin::YuvChromaSubsampling::Yuv420),
        1 => Some(segvartin::YuvChromaSubsampling::Yuv422),
        _ => None,
    }
}

fn sampling_code(sampling: segvartin::YuvChromaSubsampling) -> u64 {
    match sampling {
        segvartin::YuvChromaSubsampling::Yuv420 => 0,
        segvartin::YuvChromaSubsampling::Yuv422 => 1,
    }
}

/// The crate's value of each code that a record may have, where one is recorded.
fn settings_of([sampling, range, matrix, transfer]: [u32; 4]) -> RecordSettings {
    use segvartin::SharpYuvGammaTransfer::*;
    let mut settings = RecordSettings::new(match sampling {
        0 => segvartin::YuvChromaSubsampling::Yuv420,
        _ => segvartin::YuvChromaSubsampling::Yuv422,
    });
    let ranges = [segvartin::YuvRange::Limited, segvartin::YuvRange::Full];
    let matrices = [
        RecordedMatrix::Bt601,
        RecordedMatrix::Bt709,
        RecordedMatrix::Bt2020,
        RecordedMatrix::Smpte240,
        RecordedMatrix::Bt470_6,
        RecordedMatrix::Fcc,
        RecordedMatrix::Custom,
    ];
    settings.range = ranges.get(range as usize).copied();
    settings.matrix = matrices.get(matrix as usize).copied();
    settings.transfer = [Srgb, Rec709, Gamma2p2, Gamma2p8]
        .get(transfer as usize)
        .copied();
    settings
}

/// The crate opens these bytes, or does not, as the export answered, and has the records that it told of.
fn equal_files<'a>(
    file: &[u8],
    opened: Result<ShiftFile, Refusal>,
    answer: Answer,
    count: usize,
    first: u64,
    entries: impl Iterator<Item = &'a [u64]>,
) {
    assert_eq!(opened.map(|_| ()), answer, "the crate opens it otherwise");
    if let Ok(opened) = opened {
        assert_eq!(opened.len(), count, "the crate has other records");
        let records = opened.records().skip(first as usize);
        for (record, numbers) in records.zip(entries) {
            equal_records(file, &record, numbers);
        }
        let one = opened.record(first as usize);
        assert_eq!(one, opened.records().nth(first as usize), "a record alone");
    }
}

/// A record of the crate has the parts of the file that the export told of, and its settings.
fn equal_records(file: &[u8], record: &segvartin::ShiftRecord, numbers: &[u64]) {
    let has = [record.crossing, record.width, record.height].map(u64::from);
    assert_eq!(has, numbers[..3], "the crate has another record");
    let parts = [record.bytes, record.y, record.u, record.v];
    equal_parts(file, &parts, &numbers[3..11]);
    let four = match numbers[11..] {
        [a, b, c, d] => [a, b, c, d].map(|code| code as u32),
        _ => conditions::UNSAID.map(u32::from),
    };
    assert_eq!(
        record.settings,
        settings_of(four),
        "the crate has other settings"
    );
}

/// These are the parts of the file at these offsets, and of these lengths.
fn equal_parts(file: &[u8], parts: &[&[u8]], numbers: &[u64]) {
    for (part, place) in parts.iter().zip(numbers.chunks_exact(2)) {
        let from = part.as_ptr() as u64 - file.as_ptr() as u64;
        let is = [from, part.len() as u64];
        assert_eq!(is, place, "the crate has another part of the file");
    }
}

/// An exported call that makes a file of other bytes.
type Make = unsafe extern "C" fn(*const u8, usize, *mut u8, usize, &mut [usize; 1]) -> u32;

/// By the export, and then by the crate on a copy, which must come out the same.
fn made_of(
    call: Make,
    by_crate: fn(&[u8], &mut [u8]) -> Result<usize, YuvError>,
    from: &[u8],
    output: &mut [u8],
) -> (Answer, u64) {
    // What stands there before is not looked at.
    let mut told = [7; 1];
    let mut copy = output.to_vec();
    // SAFETY: the pointers are those of slices beside their own lengths, and no two lent values overlap.
    let number = unsafe {
        call(
            from.as_ptr(),
            from.len(),
            output.as_mut_ptr(),
            output.len(),
            &mut told,
        )
    };
    let [size] = told;
    let answer = answered(number, [0, 0]);
    let written = by_crate(from, &mut copy);
    assert_eq!(written.map_err(refusal), answer.map(|()| size));
    assert!(copy == output, "the crate leaves other bytes");
    (answer, size as u64)
}

/// An exported call that makes a record of planes.
type MakeRecord<const N: usize> = unsafe extern "C" fn(
    &[u32; N],
    *const u8,
    usize,
    *const u8,
    usize,
    *const u8,
    usize,
    *mut u8,
    usize,
    &mut [usize; 3],
) -> u32;

/// The number, and what is told.
fn record_of<const N: usize>(
    call: MakeRecord<N>,
    numbers: &[u32; N],
    [y, u, v]: &[Vec<u8>; 3],
    output: &mut [u8],
) -> (u32, [usize; 3]) {
    let mut told = [7; 3];
    // SAFETY: as above.
    let number = unsafe {
        call(
            numbers,
            y.as_ptr(),
            y.len(),
            u.as_ptr(),
            u.len(),
            v.as_ptr(),
            v.len(),
            output.as_mut_ptr(),
            output.len(),
            &mut told,
        )
    };
    (number, told)
}

// By its numbers, so that those without a meaning can be handed to it too. The mode of the
// floating-point unit is the default one here.
unsafe extern "C" {
    fn segvartin_call_summary_build(
        file: *const u8,
        file_len: usize,
        summary: *mut u8,
        summary_len: usize,
    ) -> u32;

    fn segvartin_call_summary_check(
        file: *const u8,
        file_len: usize,
        summary: *const u8,
        summary_len: usize,
        told: &mut [usize; 1],
    ) -> u32;

    fn segvartin_call_summary_find(
        file: *const u8,
        file_len: usize,
        summary: *const u8,
        summary_len: usize,
        crossing: u32,
        told: &mut [usize; 2],
    ) -> u32;

    fn segvartin_call_summary_update(
        file: *const u8,
        file_len: usize,
        added: *const u8,
        added_len: usize,
        summary: *mut u8,
        summary_len: usize,
    ) -> u32;

    fn segvartin_call_shift_pairs(
        ours: *const u8,
        ours_len: usize,
        theirs: *const u8,
        theirs_len: usize,
        report: &mut [u64; 18],
        told: &mut [usize; 1],
    ) -> u32;

    fn segvartin_call_shift_records(
        file: *const u8,
        file_len: usize,
        first: usize,
        entries: *mut u64,
        entries_len: usize,
        told: &mut [usize; 2],
    ) -> u32;

    fn segvartin_call_shift_write(
        records: *const u8,
        records_len: usize,
        file: *mut u8,
        file_len: usize,
        told: &mut [usize; 1],
    ) -> u32;

    fn segvartin_call_shift_record(
        numbers: &[u32; 6],
        y: *const u8,
        y_len: usize,
        u: *const u8,
        u_len: usize,
        v: *const u8,
        v_len: usize,
        record: *mut u8,
        record_len: usize,
        told: &mut [usize; 3],
    ) -> u32;

    fn segvartin_call_shift_records_any(
        file: *const u8,
        file_len: usize,
        first: usize,
        entries: *mut u64,
        entries_len: usize,
        told: &mut [usize; 3],
    ) -> u32;

    fn segvartin_call_shift_write_settings(
        records: *const u8,
        records_len: usize,
        file: *mut u8,
        file_len: usize,
        told: &mut [usize; 1],
    ) -> u32;

    fn segvartin_call_shift_record_settings(
        numbers: &[u32; 10],
        y: *const u8,
        y_len: usize,
        u: *const u8,
        u_len: usize,
        v: *const u8,
        v_len: usize,
        record: *mut u8,
        record_len: usize,
        told: &mut [usize; 3],
    ) -> u32;

    fn segvartin_call_shift_forward(
        file: *const u8,
        file_len: usize,
        output: *mut u8,
        output_len: usize,
        told: &mut [usize; 1],
    ) -> u32;

    fn segvartin_call_shift_back(
        file: *const u8,
        file_len: usize,
        output: *mut u8,
        output_len: usize,
        told: &mut [usize; 1],
    ) -> u32;

    fn segvartin_call_y4m_pictures(
        file: *const u8,
        file_len: usize,
        first: usize,
        entries: *mut u64,
        entries_len: usize,
        told: &mut [usize; 5],
    ) -> u32;

    fn segvartin_call_y4m_write(
        numbers: &[u32; 3],
        pictures: *const u8,
        pictures_len: usize,
        output: *mut u8,
        output_len: usize,
        told: &mut [usize; 1],
    ) -> u32;

    fn segvartin_call_y4m_picture(
        numbers: &[u32; 6],
        y: *const u8,
        y_len: usize,
        u: *const u8,
        u_len: usize,
        v: *const u8,
        v_len: usize,
        output: *mut u8,
        output_len: usize,
        told: &mut [usize; 1],
    ) -> u32;

    fn segvartin_call_convoy(
        count: usize,
        numbers: *const u32,
        numbers_len: usize,
        customs: *const f32,
        customs_len: usize,
        parts: *const u64,
        parts_len: usize,
        source: *const u8,
        source_len: usize,
        y: *mut u8,
        y_len: usize,
        u: *mut u8,
        u_len: usize,
        v: *mut u8,
        v_len: usize,
        told: &mut [usize; 3],
    ) -> u32;

    fn segvartin_call_desk_open(
        camera: u32,
        described: *const u32,
        described_len: usize,
        custom: &[f32; 2],
        frame_parts: &[u64; 8],
        lengths: &[u64; 4],
        numbers: &mut [u32; ALL_NUMBERS],
        customs: &mut [f32; ALL_CUSTOMS],
        parts: &mut [u64; ALL_PARTS],
        told: &mut [usize; 2],
    ) -> u32;

    fn segvartin_call_desk_offer(
        camera: u32,
        band: &[u32; 2],
        place: &[u64; 3],
        numbers: &mut [u32; ALL_NUMBERS],
        customs: &mut [f32; ALL_CUSTOMS],
        parts: &mut [u64; ALL_PARTS],
    ) -> u32;

    fn segvartin_call_desk_step(
        source: *const u8,
        source_len: usize,
        y: *mut u8,
        y_len: usize,
        u: *mut u8,
        u_len: usize,
        v: *mut u8,
        v_len: usize,
        carried: *mut u8,
        carried_len: usize,
        numbers: &mut [u32; ALL_NUMBERS],
        customs: &mut [f32; ALL_CUSTOMS],
        parts: &mut [u64; ALL_PARTS],
        told: &mut [usize; 4],
    ) -> u32;

    fn segvartin_call_luma_counts(
        numbers: *const u32,
        numbers_len: usize,
        custom: &[f32; 2],
        counts: &mut [u32; 256],
        told: &mut [usize; 2],
    ) -> u32;
}

/// A state of any numbers: the crate opens one only for a frame that is not refused, and its fields
/// can be set.
fn any_state(frame: FrameDescription, options: FrameOptions, done: u32) -> FrameStateWith {
    let accepted = FrameDescription {
        width: 1,
        height: 1,
        matrix: segvartin::YuvStandardMatrix::Bt601,
        ..frame
    };
    let opened = FrameStateWith::open(accepted, FrameOptions::of(&accepted));
    let mut state = opened.expect("an accepted opening");
    (state.frame, state.options, state.done) = (frame, options, done);
    state
}

fn options(frame: &FrameDescription, window: &Window, settings: &Settings) -> FrameOptions {
    let mut options = FrameOptions::of(frame);
    options.window = segvartin::Window::new(
        window.left,
        window.top,
        window.source_width,
        window.source_height,
    );
    options.rounding = match settings.rounding {
        TableRounding::Truncated => segvartin::TableRounding::Truncated,
        TableRounding::Nearest => segvartin::TableRounding::Nearest,
    };
    options
}

/// The state that a call with options hands back for one that it was given.
fn left(given: &FrameState, after: &FrameStateWith) -> FrameState {
    let segvartin::Window {
        left,
        top,
        source_width,
        source_height,
        ..
    } = after.options.window;
    FrameState {
        window: Window {
            left,
            top,
            source_width,
            source_height,
        },
        settings: Settings {
            rounding: match after.options.rounding {
                segvartin::TableRounding::Truncated => TableRounding::Truncated,
                segvartin::TableRounding::Nearest => TableRounding::Nearest,
            },
            ..given.settings
        },
        done: after.done,
        ..*given
    }
}

fn refusal(error: YuvError) -> Refusal {
    let size = error.size();
    Refusal {
        number: error.number() as u8,
        expected: size.map_or(0, |size| size.expected as u64),
        received: size.map_or(0, |size| size.received as u64),
    }
}

fn description(w: u32, h: u32, settings: &Settings, strides: [u32; 3]) -> FrameDescription {
    let [y_stride, u_stride, v_stride] = strides;
    FrameDescription {
        width: w,
        height: h,
        channels: match settings.channels {
            model::YuvSourceChannels::Rgb => segvartin::YuvSourceChannels::Rgb,
            model::YuvSourceChannels::Rgba => segvartin::YuvSourceChannels::Rgba,
            model::YuvSourceChannels::Bgra => segvartin::YuvSourceChannels::Bgra,
            model::YuvSourceChannels::Bgr => segvartin::YuvSourceChannels::Bgr,
        },
        sampling: match settings.sampling {
            model::YuvChromaSubsampling::Yuv420 => segvartin::YuvChromaSubsampling::Yuv420,
            model::YuvChromaSubsampling::Yuv422 => segvartin::YuvChromaSubsampling::Yuv422,
        },
        range: match settings.range {
            model::YuvRange::Limited => segvartin::YuvRange::Limited,
            model::YuvRange::Full => segvartin::YuvRange::Full,
        },
        matrix: match settings.matrix {
            model::YuvStandardMatrix::Bt601 => segvartin::YuvStandardMatrix::Bt601,
            model::YuvStandardMatrix::Bt709 => segvartin::YuvStandardMatrix::Bt709,
            model::YuvStandardMatrix::Bt2020 => segvartin::YuvStandardMatrix::Bt2020,
            model::YuvStandardMatrix::Smpte240 => segvartin::YuvStandardMatrix::Smpte240,
            model::YuvStandardMatrix::Bt470_6 => segvartin::YuvStandardMatrix::Bt470_6,
            model::YuvStandardMatrix::Fcc => segvartin::YuvStandardMatrix::Fcc,
            model::YuvStandardMatrix::Custom(kr, kb) => {
                segvartin::YuvStandardMatrix::Custom(kr, kb)
            }
        },
        transfer: match settings.transfer {
            model::SharpYuvGammaTransfer::Srgb => segvartin::SharpYuvGammaTransfer::Srgb,
            model::SharpYuvGammaTransfer::Rec709 => segvartin::SharpYuvGammaTransfer::Rec709,
            model::SharpYuvGammaTransfer::Gamma2p2 => segvartin::SharpYuvGammaTransfer::Gamma2p2,
            model::SharpYuvGammaTransfer::Gamma2p8 => segvartin::SharpYuvGammaTransfer::Gamma2p8,
        },
        y_stride,
        u_stride,
        v_stride,
    }
}
