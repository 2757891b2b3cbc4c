//! The comparisons. Each takes one request and says what is wrong, if anything.

use crate::conditions;
use crate::converter::Converter;
use crate::random::{self, Random};
use crate::request::*;
use crate::smaller;
use model::bands::finished_chroma_rows as finished;
use model::{Answer, FrameState, Window, YuvChromaSubsampling};
use std::ops::Range;
use std::panic::{AssertUnwindSafe, catch_unwind};
use std::sync::atomic::{AtomicBool, Ordering};

pub type Converters = [Box<dyn Converter>];

/// A request that can be compared, printed and made smaller.
pub trait Case: Clone {
    /// The number answered (0: accepted), or what is wrong.
    fn check(&self, converters: &Converters) -> Result<u8, String>;
    fn smaller(&self) -> Vec<Self>;
    fn text(&self) -> String;

    /// The settings, any Custom as one, and whether w and h are odd: 3,584 in all.
    fn combination(&self) -> Option<String> {
        None
    }

    /// Width and height.
    fn size(&self) -> Option<(u32, u32)> {
        None
    }

    /// What is told beside an accepted answer, where that is to be counted.
    fn told(&self) -> Option<&'static str> {
        None
    }

    /// Why it is refused, where that is to be counted.
    fn wrong(&self) -> Option<&'static str> {
        None
    }

    /// Whether the frame is not all of its source.
    fn is_inside(&self) -> bool {
        false
    }
}

/// Whether panics are being caught, and so need not be printed as they happen.
pub static CATCHING: AtomicBool = AtomicBool::new(false);

/// A converter that panics is wrong too.
pub fn checked<C: Case>(case: &C, converters: &Converters) -> Result<u8, String> {
    CATCHING.store(true, Ordering::Relaxed);
    let result = catch_unwind(AssertUnwindSafe(|| case.check(converters)));
    CATCHING.store(false, Ordering::Relaxed);
    result.unwrap_or_else(|panic| {
        let text = panic.downcast_ref::<String>().map(|text| text.as_str());
        let text = text.or(panic.downcast_ref::<&str>().copied());
        Err(format!("panic: {}", text.unwrap_or("without a text")))
    })
}

/// The smallest request found that is wrong as well, and what is wrong with it.
pub fn smallest<C: Case>(case: &C, converters: &Converters, wrong: String) -> (C, String) {
    let (mut case, mut wrong) = (case.clone(), wrong);
    while let Some(next) = case.smaller().into_iter().find_map(|smaller| {
        let wrong = checked(&smaller, converters).err()?;
        Some((smaller, wrong))
    }) {
        (case, wrong) = next;
    }
    (case, wrong)
}

fn number(answer: &Answer) -> u8 {
    answer.map_or_else(|refusal| refusal.number, |()| 0)
}

pub fn equal_answers(name: &str, is: &Answer, should: &Answer) -> Result<(), String> {
    if is == should {
        return Ok(());
    }
    Err(format!(
        "{name} answers {}, should answer {}",
        answer_text(is),
        answer_text(should)
    ))
}

/// As text, since a Custom matrix of a state may be NaN.
fn equal_states(name: &str, is: &FrameState, should: &FrameState) -> Result<(), String> {
    let (is, should) = (state_text(is), state_text(should));
    if is == should {
        return Ok(());
    }
    Err(format!(
        "{name} hands back the state {is}, should be {should}"
    ))
}

const LENT: [&str; 4] = ["source", "Y", "U", "V"];

pub fn equal_bytes(name: &str, buffer: &str, is: &[u8], should: &[u8]) -> Result<(), String> {
    if is == should {
        return Ok(());
    }
    let same = is.iter().zip(should).take_while(|(a, b)| a == b).count();
    Err(format!(
        "{name}: {buffer} byte {same} is {:?}, should be {:?}",
        is.get(same),
        should.get(same)
    ))
}

pub fn equal_lent(name: &str, is: &Lent, should: &Lent) -> Result<(), String> {
    for ((buffer, is), should) in LENT.iter().zip(is).zip(should) {
        equal_bytes(name, buffer, is, should)?;
    }
    Ok(())
}

/// A frame call on a copy of the request's buffers.
pub fn frame_of(converter: &dyn Converter, request: &FrameRequest) -> (Answer, FrameRequest) {
    let mut after = request.clone();
    let [source, y, u, v] = &mut after.lent;
    let answer = converter.frame(&request.frame, source, y, u, v);
    (answer, after)
}

/// A band call on a copy of the request's buffers.
pub fn band_of(
    converter: &dyn Converter,
    request: &BandRequest,
) -> Option<(FrameState, Answer, BandRequest)> {
    let mut after = request.clone();
    let (state, answer) = converter.band(&mut after)?;
    Some((state, answer, after))
}

/// Whether an accepted call is made once more, with other bytes where none is looked at: a quarter
/// of them are.
fn is_repeated(y_stride: u32) -> bool {
    y_stride.is_multiple_of(4)
}

impl Case for FrameRequest {
    /// The model's answer is that of the list of conditions, a refusal writes nothing, and every
    /// other converter that has this answer gives it and leaves the same bytes, padding included.
    /// A quarter of the accepted calls leave them too with other bytes around the rectangle.
    fn check(&self, converters: &Converters) -> Result<u8, String> {
        let should = conditions::of_frame(self);
        let (answer, after) = frame_of(&*converters[0], self);
        equal_answers(converters[0].name(), &answer, &should)?;
        if answer.is_err() {
            equal_lent(converters[0].name(), &after.lent, &self.lent)?;
        }
        for other in &converters[1..] {
            if !other.has(number(&answer)) {
                continue;
            }
            let (is, other_after) = frame_of(&**other, self);
            equal_answers(other.name(), &is, &answer)?;
            equal_lent(other.name(), &other_after.lent, &after.lent)?;
        }
        if answer.is_ok() && is_repeated(self.frame.y_stride) {
            let request = self.with_others_outside();
            for converter in converters {
                let name = &format!("{}, other bytes outside", converter.name());
                let (is, left) = frame_of(&**converter, &request);
                equal_answers(name, &is, &Ok(()))?;
                for i in 1..4 {
                    equal_bytes(name, LENT[i], &left.lent[i], &after.lent[i])?;
                }
            }
        }
        if number(&answer) == 12 {
            self.passes_checks_of_rust()?;
        }
        Ok(number(&answer))
    }

    fn smaller(&self) -> Vec<FrameRequest> {
        smaller::frames(self)
    }

    fn text(&self) -> String {
        frame_text(self)
    }

    fn combination(&self) -> Option<String> {
        Some(frame_combination(&self.frame))
    }

    fn size(&self) -> Option<(u32, u32)> {
        Some((self.frame.w, self.frame.h))
    }

    fn is_inside(&self) -> bool {
        !self.is_whole()
    }
}

impl FrameRequest {
    /// 12 stands last: where it is answered, none of the Rust's own errors is. The Rust may panic
    /// there.
    fn passes_checks_of_rust(&self) -> Result<(), String> {
        let mut after = self.clone();
        let [source, y, u, v] = &mut after.lent;
        let call = || oracle::exact::frame(&self.frame, source, y, u, v);
        match catch_unwind(AssertUnwindSafe(call)) {
            Ok(Err(error)) => Err(format!("the rules answer 12, the Rust {error:?}")),
            _ => Ok(()),
        }
    }
}

/// Puts luma and chroma rows of a whole frame into planes of these strides.
fn put_rows(
    lent: &mut Lent,
    strides: [u32; 4],
    whole: &FrameRequest,
    luma: Range<u64>,
    chroma: Range<u64>,
) {
    for i in 1..4 {
        let row = whole.shapes()[i].row as usize;
        for r in if i == 1 { luma.clone() } else { chroma.clone() } {
            let from = r as usize * whole.strides()[i] as usize;
            let to = r as usize * strides[i] as usize;
            lent[i][to..to + row].copy_from_slice(&whole.lent[i][from..from + row]);
        }
    }
}

/// RULES 8.8: stores the last row of a band that ends before row `end`, where it must.
fn store_row(carried: &mut [u8], state: &FrameState, end: u32, last: &[u8]) {
    let even = (end - 1).is_multiple_of(2);
    if state.settings.sampling == YuvChromaSubsampling::Yuv420 && even && end < state.h {
        let c = state.settings.channels.bytes() as usize;
        for (pixel, stored) in last.chunks_exact(c).zip(carried.chunks_exact_mut(3)) {
            stored.copy_from_slice(&pixel[..3]);
        }
    }
}

impl BandRequest {
    /// The opening that fixes what this state has.
    fn check_opening(&self, converter: &dyn Converter) -> Result<(), String> {
        let s = &self.state;
        let Some(opened) = converter.open(s) else {
            return Ok(());
        };
        let should = conditions::of_opening(s);
        equal_answers(converter.name(), &opened.map(|_| ()), &should)?;
        let fresh = FrameState { done: 0, ..*s };
        equal_states(converter.name(), &opened.unwrap_or(fresh), &fresh)
    }

    /// A whole frame without padding that has this band's pixels in their place: above them the
    /// carried row, elsewhere rows of no meaning. Its planes are those of the second converter, the
    /// oracle.
    fn whole(&self, converters: &Converters) -> Result<FrameRequest, String> {
        let s = &self.state;
        let c = s.settings.channels.bytes() as usize;
        let [source, planes @ ..] = shapes(s.w, s.h, (s.w, s.h), &s.settings);
        let row = source.row as usize;
        let mut bytes = vec![77; row * s.h as usize];
        let start = s.done as usize * row;
        for r in 0..self.rows as usize {
            let to = start + r * row;
            bytes[to..to + row].copy_from_slice(self.pixels(r));
        }
        if s.done > 0 {
            let above = bytes[start - row..start].chunks_exact_mut(c);
            for (pixel, stored) in above.zip(self.carried.chunks_exact(3)) {
                pixel[..3].copy_from_slice(stored);
            }
        }
        let [y, u, v] = planes.map(|plane| vec![0; (plane.row * plane.rows) as usize]);
        let request = FrameRequest {
            frame: model::Frame {
                w: s.w,
                h: s.h,
                window: Window::whole(s.w, s.h),
                settings: s.settings,
                source_stride: source.row as u32,
                y_stride: planes[0].row as u32,
                u_stride: planes[1].row as u32,
                v_stride: planes[2].row as u32,
            },
            lent: [bytes, y, u, v],
        };
        let (answer, after) = frame_of(&*converters[1], &request);
        equal_answers(converters[1].name(), &answer, &Ok(()))?;
        Ok(after)
    }
}

impl Case for BandRequest {
    /// One call, on any state: its answer is that of the list of conditions; refused, it changes
    /// nothing; accepted, it writes the rows it finishes as the oracle's whole frame has them,
    /// the carried row as RULES 8.8 says, and no other byte. A quarter of the accepted calls do so
    /// too with other bytes around the rectangle.
    fn check(&self, converters: &Converters) -> Result<u8, String> {
        let should = conditions::of_band(self);
        let mut result = self.clone();
        if should.is_ok() {
            let s = &self.state;
            let end = s.done + self.rows;
            let sampling = s.settings.sampling;
            let whole = self.whole(converters)?;
            let chroma = finished(sampling, s.h, s.done)..finished(sampling, s.h, end);
            let luma = u64::from(s.done)..u64::from(end);
            put_rows(&mut result.lent, self.strides(), &whole, luma, chroma);
            store_row(&mut result.carried, s, end, whole.pixels(end as usize - 1));
            result.state.done = end;
        }
        for converter in converters {
            self.check_opening(&**converter)?;
            if !converter.has(number(&should)) {
                continue;
            }
            let Some((is, answer, after)) = band_of(&**converter, self) else {
                continue;
            };
            let name = converter.name();
            equal_answers(name, &answer, &should)?;
            equal_states(name, &is, &result.state)?;
            equal_lent(name, &after.lent, &result.lent)?;
            equal_bytes(name, "carried row", &after.carried, &result.carried)?;
        }
        if should.is_ok() && is_repeated(self.state.y_stride) {
            let request = self.with_others_outside();
            for converter in converters {
                let Some((is, answer, after)) = band_of(&**converter, &request) else {
                    continue;
                };
                let name = &format!("{}, other bytes outside", converter.name());
                equal_answers(name, &answer, &Ok(()))?;
                equal_states(name, &is, &result.state)?;
                for i in 1..4 {
                    equal_bytes(name, LENT[i], &after.lent[i], &result.lent[i])?;
                }
                equal_bytes(name, "carried row", &after.carried, &result.carried)?;
            }
        }
        Ok(number(&should))
    }

    fn smaller(&self) -> Vec<BandRequest> {
        smaller::bands(self)
    }

    fn text(&self) -> String {
        band_text(self)
    }

    fn is_inside(&self) -> bool {
        self.state.window != Window::whole(self.state.w, self.state.h)
    }
}

impl Case for Run {
    /// A list of calls after an opening, refused ones among them: after each, the rows finished
    /// are those of the oracle's frame call, every other byte is as it was at first, and the state
    /// has the rows done.
    fn check(&self, converters: &Converters) -> Result<u8, String> {
        self.check_with(converters, &|_, _| Ok(()))
    }

    fn smaller(&self) -> Vec<Run> {
        let mut list = smaller::runs(self);
        list.retain(|run| conditions::of_frame(&run.request).is_ok());
        list
    }

    fn text(&self) -> String {
        run_text(self)
    }

    fn combination(&self) -> Option<String> {
        Some(frame_combination(&self.request.frame))
    }

    fn size(&self) -> Option<(u32, u32)> {
        self.request.size()
    }

    fn is_inside(&self) -> bool {
        self.request.is_inside()
    }
}

/// What else must hold of state and buffers, as an accepted band call left them.
type Judge<'a> = &'a dyn Fn(&str, &BandRequest) -> Result<(), String>;

impl Run {
    pub fn check_with(&self, converters: &Converters, judge: Judge) -> Result<u8, String> {
        let (answer, whole) = frame_of(&*converters[1], &self.request);
        equal_answers(converters[1].name(), &answer, &Ok(()))?;
        for converter in converters {
            self.check_one(&**converter, &whole, judge)?;
        }
        Ok(0)
    }

    fn check_one(
        &self,
        converter: &dyn Converter,
        whole: &FrameRequest,
        judge: Judge,
    ) -> Result<(), String> {
        let f = &self.request.frame;
        let strides = self.request.strides();
        let Some(opened) = converter.open(&self.request.opening()) else {
            return Ok(());
        };
        let name = converter.name();
        let opened = opened.map_err(|r| format!("{name} refuses the opening with {}", r.number))?;
        let mut refused = (self.refused != 0).then(|| Random::new(self.refused, 0, 0));
        let mut now = BandRequest {
            state: opened,
            rows: 0,
            source_stride: 0,
            lent: self.request.lent.clone(),
            carried: self.carried.clone(),
        };
        let mut should = now.clone();
        for (rows, padding) in &self.bands {
            if let Some(random) = &mut refused {
                refused_call(converter, random, &now)?;
            }
            let (first, end) = (should.state.done, should.state.done + rows);
            let chroma = [first, end].map(|n| finished(f.settings.sampling, f.h, n));
            let luma = u64::from(first)..u64::from(end);
            put_rows(&mut should.lent, strides, whole, luma, chroma[0]..chroma[1]);
            let last = self.request.pixels(end as usize - 1);
            store_row(&mut should.carried, &should.state, end, last);
            should.state.done = end;

            self.lend(&mut now, first, *rows, *padding);
            should.lent[0] = now.lent[0].clone();
            let Some((state, answer)) = converter.band(&mut now) else {
                return Ok(());
            };
            now.state = state;
            let name = &format!("{name}, after {end} rows");
            equal_answers(name, &answer, &Ok(()))?;
            equal_states(name, &state, &should.state)?;
            equal_lent(name, &now.lent, &should.lent)?;
            equal_bytes(name, "carried row", &now.carried, &should.carried)?;
            judge(name, &now)?;
        }
        if let Some(random) = &mut refused {
            refused_call(converter, random, &now)?;
        }
        Ok(())
    }

    /// The next band's source: the frame's rows from n on, with a stride of its own. An odd padding
    /// brings other bytes left and right of the rectangle than the frame's source has.
    fn lend(&self, now: &mut BandRequest, n: u32, rows: u32, padding: u32) {
        let row = self.request.shapes()[0].row as usize;
        let columns = self.request.columns();
        now.rows = rows;
        now.source_stride = row as u32 + padding;
        now.lent[0] = vec![0x5a; now.source_stride as usize * rows as usize];
        for (r, part) in now.lent[0]
            .chunks_exact_mut(row + padding as usize)
            .enumerate()
        {
            part[..row].copy_from_slice(self.request.source_row(n as usize + r));
            if padding % 2 == 1 {
                for byte in part[..row].iter_mut() {
                    *byte = !*byte;
                }
                part[columns.clone()].copy_from_slice(self.request.pixels(n as usize + r));
            }
        }
    }
}

/// A call that is refused, on the state and buffers at hand with faults or on any others: it must
/// leave all as it was. What is at hand is not touched: the call gets copies.
fn refused_call(
    converter: &dyn Converter,
    random: &mut Random,
    now: &BandRequest,
) -> Result<(), String> {
    let mut request = now.clone();
    if random.one_in(2) {
        request = random::band(random, 8);
    }
    for _ in 0..random.from(1, 3) {
        random::band_fault(random, &mut request);
    }
    let should = conditions::of_band(&request);
    if should.is_ok() {
        return Ok(());
    }
    let Some((state, answer, after)) = band_of(converter, &request) else {
        return Ok(());
    };
    let name = &format!(
        "{}, refused call {}",
        converter.name(),
        answer_text(&should)
    );
    equal_answers(name, &answer, &should)?;
    equal_states(name, &state, &request.state)?;
    equal_lent(name, &after.lent, &request.lent)?;
    equal_bytes(name, "carried row", &after.carried, &request.carried)
}

impl Case for Input {
    /// The program's output is that of the oracle's frame call on the same rows, or the refusal
    /// that the list of conditions has; 1 and the program's own 3 are told from the header.
    fn check(&self, converters: &Converters) -> Result<u8, String> {
        let (number, should) = self.output(converters)?;
        for converter in converters {
            if let Some(is) = converter.program(&self.0) {
                equal_bytes(converter.name(), "output", &is, &should)?;
            }
        }
        Ok(number)
    }

    fn smaller(&self) -> Vec<Input> {
        smaller::inputs(self)
    }

    fn text(&self) -> String {
        format!("program {}", hex(&self.0))
    }
}

impl Input {
    fn output(&self, converters: &Converters) -> Result<(u8, Vec<u8>), String> {
        let refused = |number: u8| Ok((number, format!("refused {number}\n").into_bytes()));
        let Some(mut request) = self.request() else {
            return refused(1);
        };
        let f = &request.frame;
        if f.w != 0 && f.h != 0 && u64::from(f.w) * u64::from(f.h) > 16_384 {
            return refused(3);
        }
        for (shape, plane) in request.shapes().iter().zip(&mut request.lent).skip(1) {
            *plane = vec![0; (shape.row * shape.rows) as usize];
        }
        if let Err(refusal) = conditions::of_frame(&request) {
            return refused(refusal.number);
        }
        let (answer, after) = frame_of(&*converters[1], &request);
        equal_answers(converters[1].name(), &answer, &Ok(()))?;
        Ok((0, after.lent[1..].concat()))
    }

    /// The frame call that the input means, without its planes. None: 1.
    pub fn request(&self) -> Option<FrameRequest> {
        use model::settings::*;
        let (header, source) = self.0.split_at_checked(9)?;
        let settings = model::Settings {
            channels: channels_of(header[4])?,
            sampling: sampling_of(header[5])?,
            range: range_of(header[6])?,
            matrix: matrix_of(header[7])?,
            transfer: transfer_of(header[8])?,
            rounding: model::TableRounding::Truncated,
        };
        let w = u32::from(header[0]) + 256 * u32::from(header[1]);
        let h = u32::from(header[2]) + 256 * u32::from(header[3]);
        let strides = shapes(w, h, (w, h), &settings).map(|shape| shape.row as u32);
        let mut request = FrameRequest {
            frame: model::Frame {
                w,
                h,
                window: Window::whole(w, h),
                settings,
                source_stride: 0,
                y_stride: 0,
                u_stride: 0,
                v_stride: 0,
            },
            lent: [source.to_vec(), Vec::new(), Vec::new(), Vec::new()],
        };
        request.set_strides(strides);
        Some(request)
    }
}
