//! What is compared: the model, the oracle, and the library that users link. The built program is in program.rs.

use crate::request::BandRequest;
use model::convoy::Numbers;
use model::desk::{Buffers, DeskNumbers, Told};
use model::shift::{RecordRequest, ShiftForm};
use model::{Answer, Frame, FrameState, Refusal};

/// A converter by the rules. To compare one more, implement this for it and add it to
/// `converters`.
pub trait Converter {
    fn name(&self) -> &'static str;

    /// Whether it has the refusal of this number (0: whether it converts what is accepted). It is
    /// asked only where the rules answer with one that it has.
    fn has(&self, number: u8) -> bool;

    fn frame(
        &self,
        frame: &Frame,
        source: &[u8],
        y: &mut [u8],
        u: &mut [u8],
        v: &mut [u8],
    ) -> Answer;

    /// It is asked to fix all of this state but the rows done. None: it has no bands.
    fn open(&self, _asked: &FrameState) -> Option<Result<FrameState, Refusal>> {
        None
    }

    /// The call writes to the planes and the carried row of the request. None: it has no bands.
    fn band(&self, _request: &mut BandRequest) -> Option<(FrameState, Answer)> {
        None
    }

    /// None: it has no program.
    fn program(&self, _input: &[u8]) -> Option<Vec<u8>> {
        None
    }

    /// How many colours have each luma, by the numbers of RULES 10.4. None: it has no such call.
    fn luma_counts(
        &self,
        _numbers: &[u32],
        _custom: &[f32; 2],
        _counts: &mut [u32; 256],
    ) -> Option<Answer> {
        None
    }

    /// Whether it has the calls on shift files of either form, the four on summaries, and the pairing of two files.
    fn has_shift_files(&self) -> bool {
        false
    }

    /// Reads a shift file by the numbers of RULES 10.5: the answer, how many records it has, and how
    /// many entries were written.
    fn shift_records(&self, _: &[u8], _first: u64, _entries: &mut [u64]) -> (Answer, u64, u64) {
        unreachable!("has_shift_files() says so")
    }

    /// Reads a shift file of either form by the numbers of RULES 10.5: the answer, how many records it has, how many
    /// entries were written, and its form.
    fn shift_records_any(&self, _: &[u8], _first: u64, _entries: &mut [u64]) -> (Answer, [u64; 3]) {
        unreachable!("has_shift_files() says so")
    }

    /// Writes a shift file of records of its form: the answer and the size.
    fn shift_write(&self, _: ShiftForm, _records: &[u8], _output: &mut [u8]) -> (Answer, u64) {
        unreachable!("has_shift_files() says so")
    }

    /// Moves a shift file to this form, forward or back: the answer and the size.
    fn shift_move(&self, _to: ShiftForm, _file: &[u8], _output: &mut [u8]) -> (Answer, u64) {
        unreachable!("has_shift_files() says so")
    }

    /// Makes a record of planes, of the form that the request asks for: the answer and the size.
    fn shift_record(
        &self,
        _request: &RecordRequest,
        _planes: &[Vec<u8>; 3],
        _output: &mut [u8],
    ) -> (Answer, u64) {
        unreachable!("has_shift_files() says so")
    }

    /// Builds the summary of a shift file.
    fn summary_build(&self, _file: &[u8], _buffer: &mut [u8]) -> Answer {
        unreachable!("has_shift_files() says so")
    }

    /// Checks a summary: the answer, and whether it says yes.
    fn summary_check(&self, _file: &[u8], _buffer: &[u8]) -> (Answer, bool) {
        unreachable!("has_shift_files() says so")
    }

    /// Looks a crossing up: the answer, and the record's number where there is one.
    fn summary_find(&self, _file: &[u8], _buffer: &[u8], _crossing: u32) -> (Answer, Option<u64>) {
        unreachable!("has_shift_files() says so")
    }

    /// Updates a summary with a record.
    fn summary_update(&self, _file: &[u8], _record: &[u8], _buffer: &mut [u8]) -> Answer {
        unreachable!("has_shift_files() says so")
    }

    /// Pairs two shift files by the numbers of RULES 10.7: the answer, and the file that is none.
    fn shift_pairs(&self, _: &[u8], _theirs: &[u8], _report: &mut [u64; 18]) -> (Answer, u64) {
        unreachable!("has_shift_files() says so")
    }

    /// Whether it has the three calls on Y4M files.
    fn has_y4m(&self) -> bool {
        false
    }

    /// Reads a Y4M file by the numbers of RULES 10.8: the answer, and width, height, code of the sampling, how many
    /// pictures it has, and how many entries were written.
    fn y4m_pictures(&self, _: &[u8], _first: u64, _entries: &mut [u64]) -> (Answer, [u64; 5]) {
        unreachable!("has_y4m() says so")
    }

    /// Writes a Y4M file, by width, height and the code of the sampling: the answer and the size.
    fn y4m_write(&self, _: [u32; 3], _pictures: &[u8], _output: &mut [u8]) -> (Answer, u64) {
        unreachable!("has_y4m() says so")
    }

    /// Writes one picture, by these numbers and the strides of Y, U, V: the answer and the size.
    fn y4m_picture(
        &self,
        _: [u32; 6],
        _planes: &[Vec<u8>; 3],
        _output: &mut [u8],
    ) -> (Answer, u64) {
        unreachable!("has_y4m() says so")
    }

    /// Whether it has the call on a convoy.
    fn has_convoys(&self) -> bool {
        false
    }

    /// Converts a convoy by the numbers of RULES 10.9: the answer, and how many frames are finished.
    fn convoy(
        &self,
        _told: &Numbers,
        _source: &[u8],
        _y: &mut [u8],
        _u: &mut [u8],
        _v: &mut [u8],
    ) -> (Answer, u64) {
        unreachable!("has_convoys() says so")
    }

    /// Whether it has the three calls of the front desk, by the numbers of RULES 10.10.
    fn has_desk(&self) -> bool {
        false
    }

    /// Opens a frame for a camera.
    fn desk_open(&self, _: &mut DeskNumbers, _: &Opening) -> Told {
        unreachable!("has_desk() says so")
    }

    /// Offers a band: the camera; rows and stride; offset and length in the source, and the source's length.
    fn desk_offer(&self, _: &mut DeskNumbers, _camera: u32, _: [u32; 2], _: [u64; 3]) -> Told {
        unreachable!("has_desk() says so")
    }

    /// Serves the next camera.
    fn desk_step(&self, _: &mut DeskNumbers, _: Buffers) -> Told {
        unreachable!("has_desk() says so")
    }
}

/// What an opening at the front desk is given: parts and lengths are those of Y, U, V and carried rows.
#[derive(Clone, Debug)]
pub struct Opening {
    pub camera: u32,
    pub described: Vec<u32>,
    pub custom: [f32; 2],
    pub parts: [u64; 8],
    pub lengths: [u64; 4],
}

/// The model stands first and the oracle second: frames of all others are held to the model's,
/// bands of all, the model's too, to the oracle's frames.
pub fn converters() -> Vec<Box<dyn Converter>> {
    vec![
        Box::new(Model),
        Box::new(Oracle),
        #[cfg(library)]
        Box::new(crate::library::Library),
    ]
}

struct Model;

impl Converter for Model {
    fn name(&self) -> &'static str {
        "model"
    }

    fn has(&self, _number: u8) -> bool {
        true
    }

    fn frame(
        &self,
        frame: &Frame,
        source: &[u8],
        y: &mut [u8],
        u: &mut [u8],
        v: &mut [u8],
    ) -> Answer {
        model::frame(frame, source, y, u, v)
    }

    fn open(&self, asked: &FrameState) -> Option<Result<FrameState, Refusal>> {
        let s = asked;
        let (y, u, v) = (s.y_stride, s.u_stride, s.v_stride);
        Some(model::open(s.w, s.h, s.window, s.settings, y, u, v))
    }

    fn band(&self, request: &mut BandRequest) -> Option<(FrameState, Answer)> {
        let [source, y, u, v] = &mut request.lent;
        let (rows, stride) = (request.rows, request.source_stride);
        let carried = &mut request.carried;
        Some(request.state.band(rows, source, stride, y, u, v, carried))
    }

    fn program(&self, input: &[u8]) -> Option<Vec<u8>> {
        Some(model::program(input))
    }

    fn luma_counts(
        &self,
        numbers: &[u32],
        custom: &[f32; 2],
        counts: &mut [u32; 256],
    ) -> Option<Answer> {
        let counted = model::luma_counts_by_numbers(numbers, custom);
        Some(counted.map(|all| *counts = all))
    }

    fn has_shift_files(&self) -> bool {
        true
    }

    fn shift_records(&self, file: &[u8], first: u64, entries: &mut [u64]) -> (Answer, u64, u64) {
        model::shift::read_shift_file(file, first, entries)
    }

    fn shift_records_any(
        &self,
        file: &[u8],
        first: u64,
        entries: &mut [u64],
    ) -> (Answer, [u64; 3]) {
        let (answer, count, written, form) =
            model::shift::read_any_shift_file(file, first, entries);
        let form = u64::from(form == Some(ShiftForm::WithSettings));
        (answer, [count, written, form])
    }

    fn shift_write(&self, form: ShiftForm, records: &[u8], output: &mut [u8]) -> (Answer, u64) {
        model::shift::write_shift_file(form, records, output)
    }

    fn shift_move(&self, to: ShiftForm, file: &[u8], output: &mut [u8]) -> (Answer, u64) {
        match to {
            ShiftForm::WithSettings => model::shift::move_forward(file, output),
            ShiftForm::WithoutSettings => model::shift::move_back(file, output),
        }
    }

    fn shift_record(
        &self,
        request: &RecordRequest,
        [y, u, v]: &[Vec<u8>; 3],
        output: &mut [u8],
    ) -> (Answer, u64) {
        model::shift::write_shift_record(request, y, u, v, output)
    }

    fn summary_build(&self, file: &[u8], buffer: &mut [u8]) -> Answer {
        model::summary::build_summary(file, buffer)
    }

    fn summary_check(&self, file: &[u8], buffer: &[u8]) -> (Answer, bool) {
        model::summary::check_summary(file, buffer)
    }

    fn summary_find(&self, file: &[u8], buffer: &[u8], crossing: u32) -> (Answer, Option<u64>) {
        model::summary::find_record(file, buffer, crossing)
    }

    fn summary_update(&self, file: &[u8], record: &[u8], buffer: &mut [u8]) -> Answer {
        model::summary::update_summary(file, record, buffer)
    }

    fn shift_pairs(&self, ours: &[u8], theirs: &[u8], report: &mut [u64; 18]) -> (Answer, u64) {
        let (answer, broken, told) = model::pairs::pair_files(ours, theirs);
        if let Some(told) = told {
            *report = told.numbers();
        }
        let broken = match broken {
            None => 0,
            Some(model::pairs::Side::Ours) => 1,
            Some(model::pairs::Side::Theirs) => 2,
        };
        (answer, broken)
    }

    fn has_y4m(&self) -> bool {
        true
    }

    fn y4m_pictures(&self, file: &[u8], first: u64, entries: &mut [u64]) -> (Answer, [u64; 5]) {
        model::y4m::read_pictures(file, first, entries)
    }

    fn y4m_write(&self, numbers: [u32; 3], pictures: &[u8], output: &mut [u8]) -> (Answer, u64) {
        model::y4m::write_pictures(numbers, pictures, output)
    }

    fn y4m_picture(
        &self,
        numbers: [u32; 6],
        planes: &[Vec<u8>; 3],
        output: &mut [u8],
    ) -> (Answer, u64) {
        let planes = planes.each_ref().map(Vec::as_slice);
        model::y4m::write_picture(numbers, planes, output)
    }

    fn has_convoys(&self) -> bool {
        true
    }

    fn convoy(
        &self,
        told: &Numbers,
        source: &[u8],
        y: &mut [u8],
        u: &mut [u8],
        v: &mut [u8],
    ) -> (Answer, u64) {
        model::convoy::convoy_by_numbers(told, source, y, u, v)
    }

    fn has_desk(&self) -> bool {
        true
    }

    fn desk_open(&self, desk: &mut DeskNumbers, o: &Opening) -> Told {
        desk.open(o.camera, &o.described, o.custom, &o.parts, o.lengths)
    }

    fn desk_offer(
        &self,
        desk: &mut DeskNumbers,
        camera: u32,
        band: [u32; 2],
        place: [u64; 3],
    ) -> Told {
        desk.offer(camera, band, place)
    }

    fn desk_step(&self, desk: &mut DeskNumbers, lent: Buffers) -> Told {
        desk.step(lent)
    }
}

/// The Rust with the exact tables put in, run on the rectangle copied out of the source.
struct Oracle;

impl Converter for Oracle {
    fn name(&self) -> &'static str {
        "oracle"
    }

    /// Added to the Rust: band calls, a program, refusals 1, 3, 4, 5, 12, 13, 14. Of a window it has
    /// 6 and 7 by the source's size, the others by the rectangle's; `on_rectangle` of the oracle says how.
    fn has(&self, number: u8) -> bool {
        matches!(number, 0 | 2 | 6..=11)
    }

    fn frame(
        &self,
        frame: &Frame,
        source: &[u8],
        y: &mut [u8],
        u: &mut [u8],
        v: &mut [u8],
    ) -> Answer {
        oracle::exact::frame(frame, source, y, u, v).map_err(|error| {
            let u_passes = oracle::exact::u_passes(frame, y, u);
            // An error that no refusal stands for gets a number that nothing else answers.
            let none = Refusal {
                number: 255,
                expected: error.expected,
                received: error.received,
            };
            error
                .refusal(if u_passes { 11 } else { 10 })
                .unwrap_or(none)
        })
    }
}
