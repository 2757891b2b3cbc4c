//! Calls in lines (README.md) answered by the model of the rules, or by the oracle, which is the Rust over the exact tables: what
//! conformance/make holds the answers of the proved library to.
//!
//!     witness model | witness oracle
//!
//! The oracle has frame calls alone, and of their answers 0, 2 and 6 to 11: to every other line it says `not offered`.
#![forbid(unsafe_code)]

use model::convoy::ConvoyFrame;
use model::settings::{channels_of, matrix_of, range_of, rounding_of, sampling_of, transfer_of};
use model::shift::{self, Part, RecordRequest, ShiftForm};
use model::{Answer, Frame, FrameState, Refusal, Settings, Window, YuvStandardMatrix};
use std::fmt::Write;
use std::io::{BufRead, Write as _};

/// The words of a line that are still to be read.
struct Words<'a>(std::str::Split<'a, char>);

impl Words<'_> {
    fn word(&mut self) -> &str {
        self.0.next().expect("a word more")
    }

    fn number(&mut self) -> u64 {
        self.word().parse().expect("a number")
    }

    fn number32(&mut self) -> u32 {
        self.word().parse().expect("a number of 32 bits")
    }

    fn float(&mut self) -> f32 {
        f32::from_bits(u32::from_str_radix(self.word(), 16).expect("bits"))
    }

    fn bytes(&mut self) -> Vec<u8> {
        let word = self.word();
        if word == "-" {
            return Vec::new();
        }
        let byte = |at| u8::from_str_radix(&word[at..at + 2], 16).expect("hexadecimal digits");
        (0..word.len()).step_by(2).map(byte).collect()
    }
}

/// The words of an answer.
#[derive(Default)]
struct Said(String);

impl Said {
    fn space(&mut self) {
        if !self.0.is_empty() {
            self.0.push(' ');
        }
    }

    fn number(&mut self, number: impl Into<u64>) {
        self.space();
        write!(self.0, "{}", number.into()).expect("a string takes all");
    }

    fn numbers(&mut self, numbers: &[u64]) {
        numbers.iter().for_each(|number| self.number(*number));
    }

    fn bytes(&mut self, bytes: &[u8]) {
        self.space();
        if bytes.is_empty() {
            self.0.push('-');
        }
        for byte in bytes {
            write!(self.0, "{byte:02x}").expect("a string takes all");
        }
    }

    fn answer(&mut self, answer: Answer) {
        let refusal = answer.err().unwrap_or(Refusal {
            number: 0,
            expected: 0,
            received: 0,
        });
        self.number(refusal.number);
        self.numbers(&[refusal.expected, refusal.received]);
    }
}

/// RULES 7.1, 10.2: a code without a meaning, for which the model has no value.
const MALFORMED: Answer = Err(Refusal {
    number: 1,
    expected: 0,
    received: 0,
});

/// A description; the settings are none where one of the codes has no meaning.
struct Description {
    size: (u32, u32),
    settings: Option<Settings>,
    strides: [u32; 3],
    window: Window,
}

fn code(number: u32) -> u8 {
    u8::try_from(number).unwrap_or(u8::MAX)
}

fn matrix(number: u32, kr: f32, kb: f32) -> Option<YuvStandardMatrix> {
    if number == 6 {
        return Some(YuvStandardMatrix::Custom(kr, kb));
    }
    matrix_of(code(number))
}

fn description(words: &mut Words) -> Description {
    let size = (words.number32(), words.number32());
    let [channels, sampling, range, matrix_code] = [(); 4].map(|()| words.number32());
    let matrix = matrix(matrix_code, words.float(), words.float());
    let transfer = words.number32();
    let strides = [(); 3].map(|()| words.number32());
    let rounding = words.number32();
    let [left, top, source_width, source_height] = [(); 4].map(|()| words.number32());
    let settings = || {
        Some(Settings {
            channels: channels_of(code(channels))?,
            sampling: sampling_of(code(sampling))?,
            range: range_of(code(range))?,
            matrix: matrix?,
            transfer: transfer_of(code(transfer))?,
            rounding: rounding_of(code(rounding))?,
        })
    };
    Description {
        size,
        settings: settings(),
        strides,
        window: Window {
            left,
            top,
            source_width,
            source_height,
        },
    }
}

impl Description {
    fn frame(&self, settings: Settings, source_stride: u32) -> Frame {
        Frame {
            w: self.size.0,
            h: self.size.1,
            window: self.window,
            settings,
            source_stride,
            y_stride: self.strides[0],
            u_stride: self.strides[1],
            v_stride: self.strides[2],
        }
    }

    fn state(&self, settings: Settings, done: u32) -> FrameState {
        FrameState {
            w: self.size.0,
            h: self.size.1,
            window: self.window,
            settings,
            y_stride: self.strides[0],
            u_stride: self.strides[1],
            v_stride: self.strides[2],
            done,
        }
    }

    /// RULES 8.1: the answer; the state has 0 rows done whatever it is.
    fn open(&self) -> Answer {
        let Some(settings) = self.settings else {
            return MALFORMED;
        };
        let [y, u, v] = self.strides;
        model::open(self.size.0, self.size.1, self.window, settings, y, u, v).map(|_| ())
    }
}

/// Y, U, V and, in band calls, the carried row.
type Lent<const N: usize> = [Vec<u8>; N];

fn lent<const N: usize>(words: &mut Words) -> Lent<N> {
    [(); N].map(|()| words.bytes())
}

fn say_lent<const N: usize>(said: &mut Said, lent: &Lent<N>) {
    lent.iter().for_each(|bytes| said.bytes(bytes));
}

/// RULES 8.2: a band call on rows done so far, and those after it.
fn band(
    description: &Description,
    done: u32,
    words: &mut Words,
    lent: &mut Lent<4>,
    said: &mut Said,
    ahead: Option<(u32, u32, Vec<u8>)>,
) -> u32 {
    let (rows, stride, source) =
        ahead.unwrap_or_else(|| (words.number32(), words.number32(), words.bytes()));
    let (after, answer) = match description.settings {
        None => (done, MALFORMED),
        Some(settings) => {
            let [y, u, v, carried] = lent;
            let state = description.state(settings, done);
            let (state, answer) = state.band(rows, &source, stride, y, u, v, carried);
            (state.done, answer)
        }
    };
    said.answer(answer);
    said.number(after);
    say_lent(said, lent);
    after
}

fn form(words: &mut Words) -> ShiftForm {
    match words.number() {
        0 => ShiftForm::WithoutSettings,
        1 => ShiftForm::WithSettings,
        _ => panic!("a form"),
    }
}

fn read_any(words: &mut Words, said: &mut Said) {
    let (first, room, file) = (words.number(), words.number() as usize, words.bytes());
    let mut entries = vec![0; 15 * room];
    let (answer, records, told, form) = shift::read_any_shift_file(&file, first, &mut entries);
    let form = u64::from(form == Some(ShiftForm::WithSettings));
    said.answer(answer);
    said.numbers(&[records, told, form]);
    said.numbers(&entries[..15 * told as usize]);
}

fn read(words: &mut Words, said: &mut Said) {
    let (first, room, file) = (words.number(), words.number() as usize, words.bytes());
    let mut entries = vec![0; 11 * room];
    let (answer, records, told) = shift::read_shift_file(&file, first, &mut entries);
    said.answer(answer);
    said.numbers(&[records, told]);
    said.numbers(&entries[..11 * told as usize]);
}

fn record(words: &mut Words, said: &mut Said, with_settings: bool) {
    let [crossing, w, h, y_stride, u_stride, v_stride] = [(); 6].map(|()| words.number32());
    let settings = with_settings.then(|| [(); 4].map(|()| words.number32()));
    let request = RecordRequest {
        crossing,
        w,
        h,
        y_stride,
        u_stride,
        v_stride,
        settings,
    };
    let [y, u, v, mut output] = lent(words);
    let (answer, size) = shift::write_shift_record(&request, &y, &u, &v, &mut output);
    said.answer(answer);
    said.number(size);
    said.bytes(&output);
}

fn pair(words: &mut Words, said: &mut Said) {
    let (ours, theirs) = (words.bytes(), words.bytes());
    let (answer, broken, report) = model::pairs::pair_files(&ours, &theirs);
    said.answer(answer);
    said.number(match broken {
        None => 0u64,
        Some(model::pairs::Side::Ours) => 1,
        Some(model::pairs::Side::Theirs) => 2,
    });
    if let Some(report) = report {
        said.numbers(&report.numbers());
    }
}

/// RULES 14.5.
fn y4m_read(words: &mut Words, said: &mut Said) {
    let (first, room, file) = (words.number(), words.number() as usize, words.bytes());
    let mut entries = vec![0; 6 * room];
    let (answer, told) = model::y4m::read_pictures(&file, first, &mut entries);
    said.answer(answer);
    said.numbers(&told);
    said.numbers(&entries[..6 * told[4] as usize]);
}

/// RULES 15.3.
fn convoy(words: &mut Words, said: &mut Said) {
    let source = words.bytes();
    let mut planes: Lent<3> = lent(words);
    let mut frames = Vec::new();
    for _ in 0..words.number() {
        let d = description(words);
        let stride = words.number32();
        let parts = [(); 4].map(|()| Part {
            offset: words.number(),
            length: words.number(),
        });
        let frame = d.settings.map(|settings| d.frame(settings, stride));
        frames.push(ConvoyFrame { frame, parts });
    }
    let [y, u, v] = &mut planes;
    let (answer, done) = model::convoy::convoy(&frames, &source, y, u, v);
    said.answer(answer);
    said.number(done);
    say_lent(said, &planes);
}

/// The model's answer, or none where it has no such call.
fn by_model(words: &mut Words, said: &mut Said) -> Option<()> {
    match words.word() {
        "request" => said.bytes(&model::program(&words.bytes())),
        "frame" => {
            let d = description(words);
            let (stride, source) = (words.number32(), words.bytes());
            let mut planes: Lent<3> = lent(words);
            let [y, u, v] = &mut planes;
            let call = |settings| model::frame(&d.frame(settings, stride), &source, y, u, v);
            said.answer(d.settings.map_or(MALFORMED, call));
            say_lent(said, &planes);
        }
        "open" => {
            said.answer(description(words).open());
            said.number(0u64);
        }
        "band" => {
            let d = description(words);
            let done = words.number32();
            let call = (words.number32(), words.number32(), words.bytes());
            let mut lent = lent(words);
            band(&d, done, words, &mut lent, said, Some(call));
        }
        "bands" => {
            let d = description(words);
            let mut lent = lent(words);
            said.answer(d.open());
            said.number(0u64);
            let mut done = 0;
            for _ in 0..words.number() {
                done = band(&d, done, words, &mut lent, said, None);
            }
        }
        "counts" => {
            let numbers = [words.number32(), words.number32()];
            let counted = model::luma_counts_by_numbers(&numbers, &[words.float(), words.float()]);
            said.answer(counted.map(|_| ()));
            if let Ok(counts) = counted {
                said.numbers(&counts.map(u64::from));
            }
        }
        table @ ("linear" | "gamma") => {
            let linear = table == "linear";
            let transfer = transfer_of(code(words.number32())).expect("a transfer");
            let rounding = rounding_of(code(words.number32())).expect("a rounding");
            let tables = model::curves::tables(transfer, rounding);
            if linear {
                tables.linear.iter().for_each(|entry| said.number(*entry));
            } else {
                tables.gamma.iter().for_each(|entry| said.number(*entry));
            }
        }
        "read" => read(words, said),
        "read-any" => read_any(words, said),
        "write" => {
            let (form, records, mut output) = (form(words), words.bytes(), words.bytes());
            let (answer, size) = shift::write_shift_file(form, &records, &mut output);
            said.answer(answer);
            said.number(size);
            said.bytes(&output);
        }
        "record" => record(words, said, false),
        "record-settings" => record(words, said, true),
        "move" => {
            let (to, file, mut output) = (form(words), words.bytes(), words.bytes());
            let (answer, size) = match to {
                ShiftForm::WithSettings => shift::move_forward(&file, &mut output),
                ShiftForm::WithoutSettings => shift::move_back(&file, &mut output),
            };
            said.answer(answer);
            said.number(size);
            said.bytes(&output);
        }
        "build" => {
            let (file, mut summary) = (words.bytes(), words.bytes());
            said.answer(model::summary::build_summary(&file, &mut summary));
            said.bytes(&summary);
        }
        "check" => {
            let (answer, yes) = model::summary::check_summary(&words.bytes(), &words.bytes());
            said.answer(answer);
            said.number(u64::from(yes));
        }
        "find" => {
            let (crossing, file, summary) = (words.number32(), words.bytes(), words.bytes());
            let (answer, record) = model::summary::find_record(&file, &summary, crossing);
            said.answer(answer);
            said.numbers(&[u64::from(record.is_some()), record.unwrap_or(0)]);
        }
        "update" => {
            let (file, record, mut summary) = (words.bytes(), words.bytes(), words.bytes());
            said.answer(model::summary::update_summary(&file, &record, &mut summary));
            said.bytes(&summary);
        }
        "pair" => pair(words, said),
        "y4m-read" => y4m_read(words, said),
        "y4m-write" => {
            let numbers = [(); 3].map(|()| words.number32());
            let (pictures, mut output) = (words.bytes(), words.bytes());
            let (answer, size) = model::y4m::write_pictures(numbers, &pictures, &mut output);
            said.answer(answer);
            said.number(size);
            said.bytes(&output);
        }
        "y4m-picture" => {
            let numbers = [(); 6].map(|()| words.number32());
            let [y, u, v, mut output] = lent(words);
            let (answer, size) = model::y4m::write_picture(numbers, [&y, &u, &v], &mut output);
            said.answer(answer);
            said.number(size);
            said.bytes(&output);
        }
        "convoy" => convoy(words, said),
        _ => return None,
    }
    Some(())
}

/// The oracle's answer to a frame call, or none where it has no such answer. Whether it has one, the model says.
fn by_oracle(words: &mut Words, said: &mut Said) -> Option<()> {
    (words.word() == "frame").then_some(())?;
    let d = description(words);
    let (stride, source) = (words.number32(), words.bytes());
    let planes: Lent<3> = lent(words);
    let frame = d.frame(d.settings?, stride);
    let [mut y, mut u, mut v] = planes.clone();
    let number = model::frame(&frame, &source, &mut y, &mut u, &mut v)
        .map_or_else(|refusal| refusal.number, |()| 0);
    matches!(number, 0 | 2 | 6..=11).then_some(())?;
    let [mut y, mut u, mut v] = planes;
    let answer = oracle::exact::frame(&frame, &source, &mut y, &mut u, &mut v);
    let answer = answer.map_err(|error| {
        let chroma = if oracle::exact::u_passes(&frame, &mut y, &mut u) {
            11
        } else {
            10
        };
        error.refusal(chroma).expect("a refusal of this name")
    });
    said.answer(answer);
    say_lent(said, &[y, u, v]);
    Some(())
}

fn main() {
    let answer = match std::env::args().nth(1).as_deref() {
        Some("model") => by_model,
        Some("oracle") => by_oracle,
        _ => panic!("usage: witness model|oracle"),
    };
    let mut out = std::io::BufWriter::new(std::io::stdout().lock());
    for line in std::io::stdin().lock().lines() {
        let line = line.expect("a line of text");
        let mut words = Words(line.split(' '));
        let mut said = Said::default();
        let text = match answer(&mut words, &mut said) {
            Some(()) => said.0.as_str(),
            None => "not offered",
        };
        writeln!(out, "{text}").expect("standard output");
    }
}
