//! Requests: what a call is given, and how it is printed.

use model::settings::{chroma_width, plane_rows};
use model::{
    Answer, Frame, FrameState, Settings, SharpYuvGammaTransfer, TableRounding, Window,
    YuvChromaSubsampling, YuvRange, YuvSourceChannels, YuvStandardMatrix,
};
use std::fmt::Write;
use std::ops::Range;

/// Source, Y, U, V.
pub type Lent = [Vec<u8>; 4];

/// A frame call and the bytes lent to it.
#[derive(Clone)]
pub struct FrameRequest {
    pub frame: Frame,
    pub lent: Lent,
}

/// A band call and the bytes lent to it.
#[derive(Clone)]
pub struct BandRequest {
    pub state: FrameState,
    pub rows: u32,
    pub source_stride: u32,
    pub lent: Lent,
    pub carried: Vec<u8>,
}

/// An accepted frame, cut into bands of so many rows, each with a source padding of its own.
#[derive(Clone)]
pub struct Run {
    pub request: FrameRequest,
    pub bands: Vec<(u32, u32)>,
    pub carried: Vec<u8>,
    /// Seed of the refused calls between the bands; 0: none.
    pub refused: u64,
}

/// Input of the program.
#[derive(Clone)]
pub struct Input(pub Vec<u8>);

/// The bytes of a row and the number of rows that a buffer must hold.
#[derive(Clone, Copy)]
pub struct Shape {
    pub row: u64,
    pub rows: u64,
}

/// Of source, Y, U, V. The source is of this width, and the call is lent this many rows of it.
pub fn shapes(w: u32, h: u32, source: (u32, u32), settings: &Settings) -> [Shape; 4] {
    let w = u64::from(w);
    let (source_width, source_rows) = source;
    let (rows, chroma_rows) = plane_rows(settings.sampling, h);
    let chroma = Shape {
        row: chroma_width(w),
        rows: chroma_rows,
    };
    [
        Shape {
            row: u64::from(source_width) * settings.channels.bytes(),
            rows: u64::from(source_rows),
        },
        Shape { row: w, rows },
        chroma,
        chroma,
    ]
}

impl FrameRequest {
    pub fn shapes(&self) -> [Shape; 4] {
        let f = &self.frame;
        let source = (f.window.source_width, f.window.source_height);
        shapes(f.w, f.h, source, &f.settings)
    }

    pub fn strides(&self) -> [u32; 4] {
        let f = &self.frame;
        [f.source_stride, f.y_stride, f.u_stride, f.v_stride]
    }

    pub fn set_strides(&mut self, strides: [u32; 4]) {
        let f = &mut self.frame;
        [f.source_stride, f.y_stride, f.u_stride, f.v_stride] = strides;
    }

    /// Another size, of a frame that is all of its source.
    pub fn set_size(&mut self, w: u32, h: u32) {
        let f = &mut self.frame;
        (f.w, f.h, f.window) = (w, h, Window::whole(w, h));
    }

    /// Row r of an accepted frame, with all that its source has left and right of the rectangle.
    pub fn source_row(&self, r: usize) -> &[u8] {
        let r = self.frame.window.top as usize + r;
        let start = r * self.frame.source_stride as usize;
        &self.lent[0][start..start + self.shapes()[0].row as usize]
    }

    /// The bytes of a source row that are pixels of the rectangle.
    pub fn columns(&self) -> Range<usize> {
        columns(self.frame.w, &self.frame.window, &self.frame.settings)
    }

    /// The pixels of row r of an accepted frame.
    pub fn pixels(&self, r: usize) -> &[u8] {
        &self.source_row(r)[self.columns()]
    }

    /// Paints the rectangle of an accepted frame, with the grey of each row and column; alpha stays.
    pub fn paint(&mut self, grey: impl Fn(u32, u32) -> u8) {
        let f = &self.frame;
        let (c, start) = (f.settings.channels.bytes() as usize, self.columns().start);
        for (row, column) in (0..f.h).flat_map(|row| (0..f.w).map(move |column| (row, column))) {
            let row_start = (f.window.top + row) as usize * f.source_stride as usize;
            let pixel = row_start + start + column as usize * c;
            self.lent[0][pixel..pixel + 3].fill(grey(row, column));
        }
    }

    /// The state of the frame's opening.
    pub fn opening(&self) -> FrameState {
        opening(&self.frame)
    }

    /// Whether the frame is all of its source.
    pub fn is_whole(&self) -> bool {
        self.frame.window == Window::whole(self.frame.w, self.frame.h)
    }

    /// An accepted call with other bytes wherever RULES 2.3 says that none is looked at.
    pub fn with_others_outside(&self) -> FrameRequest {
        let f = &self.frame;
        let rows = f.window.top as usize..(f.window.top + f.h) as usize;
        let c = f.settings.channels.bytes() as usize;
        let mut other = self.clone();
        others_outside(&mut other.lent[0], f.source_stride, rows, self.columns(), c);
        other
    }
}

/// The state of a frame's opening.
pub fn opening(f: &Frame) -> FrameState {
    FrameState {
        w: f.w,
        h: f.h,
        window: f.window,
        settings: f.settings,
        y_stride: f.y_stride,
        u_stride: f.u_stride,
        v_stride: f.v_stride,
        done: 0,
    }
}

fn columns(w: u32, window: &Window, settings: &Settings) -> Range<usize> {
    let c = settings.channels.bytes() as usize;
    let start = window.left as usize * c;
    start..start + w as usize * c
}

/// Changes every byte of a source but the colours of the rectangle of these rows and columns.
fn others_outside(
    source: &mut [u8],
    stride: u32,
    rows: Range<usize>,
    columns: Range<usize>,
    c: usize,
) {
    for (i, byte) in source.iter_mut().enumerate() {
        let (r, at) = (i / stride as usize, i % stride as usize);
        let inside = rows.contains(&r) && columns.contains(&at);
        if !inside || (at - columns.start) % c == 3 {
            *byte = !*byte;
        }
    }
}

impl BandRequest {
    pub fn shapes(&self) -> [Shape; 4] {
        let s = &self.state;
        let source = (s.window.source_width, self.rows);
        shapes(s.w, s.h, source, &s.settings)
    }

    /// The pixels of row r of an accepted band.
    pub fn pixels(&self, r: usize) -> &[u8] {
        let start = r * self.source_stride as usize;
        let row = &self.lent[0][start..start + self.shapes()[0].row as usize];
        &row[columns(self.state.w, &self.state.window, &self.state.settings)]
    }

    /// An accepted call with other bytes wherever RULES 2.3 says that none is looked at.
    pub fn with_others_outside(&self) -> BandRequest {
        let s = &self.state;
        let columns = columns(s.w, &s.window, &s.settings);
        let c = s.settings.channels.bytes() as usize;
        let rows = 0..self.rows as usize;
        let mut other = self.clone();
        others_outside(&mut other.lent[0], self.source_stride, rows, columns, c);
        other
    }

    pub fn strides(&self) -> [u32; 4] {
        let s = &self.state;
        [self.source_stride, s.y_stride, s.u_stride, s.v_stride]
    }

    pub fn set_strides(&mut self, strides: [u32; 4]) {
        let s = &mut self.state;
        [self.source_stride, s.y_stride, s.u_stride, s.v_stride] = strides;
    }
}

// Text: one line a request, words apart by a space, buffers in hexadecimal, `-` for an empty one.

pub fn hex(bytes: &[u8]) -> String {
    if bytes.is_empty() {
        return "-".to_string();
    }
    bytes.iter().fold(String::new(), |mut text, byte| {
        let _ = write!(text, "{byte:02x}");
        text
    })
}

/// channels sampling range matrix transfer rounding, in the codes of RULES 1.2; Custom is
/// 6 with the bits of kr and kb.
fn settings_text(settings: &Settings) -> String {
    let channels = match settings.channels {
        YuvSourceChannels::Rgb => 0,
        YuvSourceChannels::Rgba => 1,
        YuvSourceChannels::Bgra => 2,
        YuvSourceChannels::Bgr => 3,
    };
    let sampling = match settings.sampling {
        YuvChromaSubsampling::Yuv420 => 0,
        YuvChromaSubsampling::Yuv422 => 1,
    };
    let range = match settings.range {
        YuvRange::Limited => 0,
        YuvRange::Full => 1,
    };
    let matrix = match settings.matrix {
        YuvStandardMatrix::Bt601 => "0".to_string(),
        YuvStandardMatrix::Bt709 => "1".to_string(),
        YuvStandardMatrix::Bt2020 => "2".to_string(),
        YuvStandardMatrix::Smpte240 => "3".to_string(),
        YuvStandardMatrix::Bt470_6 => "4".to_string(),
        YuvStandardMatrix::Fcc => "5".to_string(),
        YuvStandardMatrix::Custom(kr, kb) => {
            format!("6:{:08x}:{:08x}", kr.to_bits(), kb.to_bits())
        }
    };
    let transfer = match settings.transfer {
        SharpYuvGammaTransfer::Srgb => 0,
        SharpYuvGammaTransfer::Rec709 => 1,
        SharpYuvGammaTransfer::Gamma2p2 => 2,
        SharpYuvGammaTransfer::Gamma2p8 => 3,
    };
    let rounding = match settings.rounding {
        TableRounding::Truncated => 0,
        TableRounding::Nearest => 1,
    };
    format!("{channels} {sampling} {range} {matrix} {transfer} {rounding}")
}

/// The settings, any Custom as one, and whether w and h are odd.
pub fn frame_combination(f: &Frame) -> String {
    let mut settings = f.settings;
    if let YuvStandardMatrix::Custom(..) = settings.matrix {
        settings.matrix = YuvStandardMatrix::Custom(0.0, 0.0);
    }
    format!("{} {} {}", settings_text(&settings), f.w % 2, f.h % 2)
}

/// w h left top source_width source_height
fn size_text(w: u32, h: u32, window: &Window) -> String {
    let Window {
        left,
        top,
        source_width,
        source_height,
    } = window;
    format!("{w} {h} {left} {top} {source_width} {source_height}")
}

/// `3 x 2`, and where that is not all of its source ` at 5, 1 of 9 x 4`.
pub fn place_text(w: u32, h: u32, window: &Window) -> String {
    if *window == Window::whole(w, h) {
        return format!("{w} x {h}");
    }
    let Window { left, top, .. } = window;
    let source = format!("{} x {}", window.source_width, window.source_height);
    format!("{w} x {h} at {left}, {top} of {source}")
}

/// w h window settings y_stride u_stride v_stride done. Equal texts are equal states, NaN included.
pub fn state_text(s: &FrameState) -> String {
    let size = size_text(s.w, s.h, &s.window);
    let settings = settings_text(&s.settings);
    let strides = format!("{} {} {}", s.y_stride, s.u_stride, s.v_stride);
    format!("{size} {settings} {strides} {}", s.done)
}

/// number expected received; number 0 is accepted.
pub fn answer_text(answer: &Answer) -> String {
    match answer {
        Ok(()) => "0 0 0".to_string(),
        Err(r) => format!("{} {} {}", r.number, r.expected, r.received),
    }
}

/// source y u v, or y u v alone.
fn lent_text(lent: &[Vec<u8>]) -> String {
    let texts: Vec<String> = lent.iter().map(|bytes| hex(bytes)).collect();
    texts.join(" ")
}

/// frame w h window settings source_stride y_stride u_stride v_stride source y u v
pub fn frame_text(request: &FrameRequest) -> String {
    let f = &request.frame;
    let settings = settings_text(&f.settings);
    let strides = request.strides().map(|stride| stride.to_string()).join(" ");
    let lent = lent_text(&request.lent);
    let size = size_text(f.w, f.h, &f.window);
    format!("frame {size} {settings} {strides} {lent}")
}

/// The request = number expected received y u v: a line for a stored list.
pub fn frame_vector(before: &FrameRequest, answer: &Answer, after: &FrameRequest) -> String {
    let planes = lent_text(&after.lent[1..]);
    format!("{} = {} {planes}", frame_text(before), answer_text(answer))
}

/// band state rows source_stride source y u v carried
pub fn band_text(request: &BandRequest) -> String {
    let state = state_text(&request.state);
    let lent = lent_text(&request.lent);
    let carried = hex(&request.carried);
    format!(
        "band {state} {} {} {lent} {carried}",
        request.rows, request.source_stride
    )
}

/// The request = number expected received done y u v carried.
pub fn band_vector(
    before: &BandRequest,
    answer: &Answer,
    done: u32,
    after: &BandRequest,
) -> String {
    let planes = lent_text(&after.lent[1..]);
    let carried = hex(&after.carried);
    format!(
        "{} = {} {done} {planes} {carried}",
        band_text(before),
        answer_text(answer)
    )
}

/// run, the frame, its bands as rows+padding, the carried row, the seed of refused calls
pub fn run_text(run: &Run) -> String {
    let bands: Vec<String> = (run.bands.iter())
        .map(|(rows, padding)| format!("{rows}+{padding}"))
        .collect();
    format!(
        "run {} bands {} carried {} refused {}",
        frame_text(&run.request),
        bands.join(" "),
        hex(&run.carried),
        run.refused
    )
}

/// program input = output
pub fn program_vector(input: &[u8], output: &[u8]) -> String {
    format!("program {} = {}", hex(input), hex(output))
}
