//! Grey stays grey, RULES 6.5: frames and lists of band calls whose rectangles are grey, each pixel
//! its own grey, most of them inside a coloured source.

use crate::check::{Case, Converters, equal_bytes, frame_of};
use crate::conditions;
use crate::random::{self, Random};
use crate::request::{FrameRequest, Input, Lent, Run, frame_text, run_text};
use model::grey::{greys, tint};
use model::{FrameState, Window};

/// A frame call whose rectangle is grey.
#[derive(Clone)]
pub struct GreyFrame {
    request: FrameRequest,
    /// Whether it is run by the unaltered Rust too, which makes its tables anew for every call.
    by_unaltered: bool,
}

/// One in so many frames is.
const BY_UNALTERED: u64 = 10;

impl GreyFrame {
    pub fn random(random: &mut Random) -> GreyFrame {
        GreyFrame {
            request: random::grey_frame(random),
            by_unaltered: random.one_in(BY_UNALTERED),
        }
    }
}

/// The greys of an accepted frame, row by row. None: a pixel of it is not grey.
pub fn greys_of(request: &FrameRequest) -> Option<Vec<Vec<u8>>> {
    greys_before(request, request.frame.h)
}

/// The same of its rows before one.
pub fn greys_before(request: &FrameRequest, rows: u32) -> Option<Vec<Vec<u8>>> {
    let row = |r: u32| greys(&request.frame.settings, request.pixels(r as usize));
    (0..rows).map(row).collect()
}

/// That the finished rows of these planes are as grey rows leave them.
pub fn without_tint(
    name: &str,
    state: &FrameState,
    rows: &[Vec<u8>],
    planes: [&[u8]; 3],
) -> Result<(), String> {
    match tint(state, rows, planes) {
        None => Ok(()),
        Some(wrong) => Err(format!(
            "{name}: not grey after {} rows: {wrong:?}",
            rows.len()
        )),
    }
}

pub fn planes([_, y, u, v]: &Lent) -> [&[u8]; 3] {
    [y, u, v]
}

impl Case for GreyFrame {
    /// What is compared of any frame, and then that every converter keeps it grey. The unaltered Rust
    /// leaves the same planes, whatever its tables: those of grey depend on none.
    fn check(&self, converters: &Converters) -> Result<u8, String> {
        let request = &self.request;
        let number = request.check(converters)?;
        if number != 0 {
            return Err(format!("refused {number}"));
        }
        let rows = greys_of(request).ok_or("the frame is not grey")?;
        for converter in converters {
            let (_, after) = frame_of(&**converter, request);
            let (name, state) = (converter.name(), request.opening());
            without_tint(name, &state, &rows, planes(&after.lent))?;
        }
        if self.by_unaltered {
            let (_, should) = frame_of(&*converters[0], request);
            let [source, mut y, mut u, mut v] = request.lent.clone();
            oracle::unaltered_frame(&request.frame, &source, &mut y, &mut u, &mut v)
                .map_err(|error| format!("the unaltered Rust: {error:?}"))?;
            for ((buffer, is), should) in ["Y", "U", "V"]
                .into_iter()
                .zip([y, u, v])
                .zip(&should.lent[1..])
            {
                equal_bytes("the unaltered Rust", buffer, &is, should)?;
            }
        }
        Ok(0)
    }

    fn smaller(&self) -> Vec<GreyFrame> {
        let mut list = self.request.smaller();
        list.retain(|request| is_accepted_and_grey(request, request.frame.h));
        let with = |request| GreyFrame { request, ..*self };
        list.into_iter().map(with).collect()
    }

    fn text(&self) -> String {
        frame_text(&self.request)
    }

    fn combination(&self) -> Option<String> {
        self.request.combination()
    }

    fn size(&self) -> Option<(u32, u32)> {
        self.request.size()
    }

    fn is_inside(&self) -> bool {
        self.request.is_inside()
    }
}

fn is_accepted_and_grey(request: &FrameRequest, rows: u32) -> bool {
    conditions::of_frame(request).is_ok() && greys_before(request, rows).is_some()
}

/// A frame cut into bands, whose first rows are grey: all of them, or those before a row.
#[derive(Clone)]
pub struct GreyRun {
    run: Run,
    grey_rows: u32,
}

impl GreyRun {
    pub fn random(random: &mut Random) -> GreyRun {
        let (run, grey_rows) = random::grey_run(random);
        GreyRun { run, grey_rows }
    }
}

impl Case for GreyRun {
    /// What is compared of any list of calls, refused ones among them, and after each accepted call
    /// that the rows finished so far are grey, while those of the tally are.
    fn check(&self, converters: &Converters) -> Result<u8, String> {
        let rows =
            greys_before(&self.run.request, self.grey_rows).ok_or("the rows are not grey")?;
        self.run.check_with(
            converters,
            &|name, now| match rows.get(..now.state.done as usize) {
                Some(rows) => without_tint(name, &now.state, rows, planes(&now.lent)),
                None => Ok(()),
            },
        )
    }

    fn smaller(&self) -> Vec<GreyRun> {
        let with = |run: Run| GreyRun {
            grey_rows: self.grey_rows.min(run.request.frame.h),
            run,
        };
        let mut list: Vec<GreyRun> = self.run.smaller().into_iter().map(with).collect();
        list.retain(|grey| is_accepted_and_grey(&grey.run.request, grey.grey_rows));
        list
    }

    fn text(&self) -> String {
        run_text(&self.run)
    }

    fn combination(&self) -> Option<String> {
        self.run.combination()
    }

    fn size(&self) -> Option<(u32, u32)> {
        self.run.size()
    }

    fn is_inside(&self) -> bool {
        self.run.is_inside()
    }
}

/// A request of the program whose rows are grey.
#[derive(Clone)]
pub struct GreyInput(Input);

impl GreyInput {
    pub fn random(random: &mut Random) -> GreyInput {
        GreyInput(random::grey_input(random))
    }
}

impl Case for GreyInput {
    /// What is compared of any input, and that what is written for it is grey.
    fn check(&self, converters: &Converters) -> Result<u8, String> {
        let number = self.0.check(converters)?;
        let request = self.0.request().filter(|_| number == 0);
        let request = request.ok_or(format!("refused {number}"))?;
        let rows = greys_of(&request).ok_or("the frame is not grey")?;
        let sizes = request
            .shapes()
            .map(|shape| (shape.row * shape.rows) as usize);
        for converter in converters {
            if let Some(output) = converter.program(&self.0.0) {
                let (y, chroma) = output.split_at(sizes[1]);
                let (u, v) = chroma.split_at(sizes[2]);
                without_tint(converter.name(), &request.opening(), &rows, [y, u, v])?;
            }
        }
        Ok(0)
    }

    fn smaller(&self) -> Vec<GreyInput> {
        let mut list = self.0.smaller();
        list.retain(|input| {
            let request = input.request();
            request.is_some_and(|request| {
                let (w, h) = (request.frame.w as usize, request.frame.h as usize);
                let c = request.frame.settings.channels.bytes() as usize;
                let whole = w * h > 0 && request.lent[0].len() == w * h * c;
                whole && greys_of(&request).is_some()
            })
        });
        list.into_iter().map(GreyInput).collect()
    }

    fn text(&self) -> String {
        self.0.text()
    }
}

// That the comparison can fail: calls with planes that are not those of the grey frame they are held to.

/// So many frames are changed in each way.
const CHANGED: u64 = 5_000;

/// The frame with a channel of one of its pixels changed.
fn with_colour(random: &mut Random, request: &FrameRequest, change: fn(u8) -> u8) -> FrameRequest {
    let mut changed = request.clone();
    let f = &request.frame;
    let (row, column) = (random.from(0, f.h - 1), random.from(0, f.w - 1));
    let c = f.settings.channels.bytes() as usize;
    let start = (f.window.top + row) as usize * f.source_stride as usize;
    let at = start + (f.window.left + column) as usize * c + random.below(3) as usize;
    changed.lent[0][at] = change(changed.lent[0][at]);
    changed
}

/// The frame one pixel to a side, where its source has one there.
fn moved(random: &mut Random, request: &FrameRequest) -> Option<FrameRequest> {
    let mut changed = request.clone();
    let place = &mut changed.frame.window;
    let Window { left, top, .. } = request.frame.window;
    match random.below(4) {
        0 => place.left = left.checked_sub(1)?,
        1 => place.left = left + 1,
        2 => place.top = top.checked_sub(1)?,
        _ => place.top = top + 1,
    }
    conditions::of_frame(&changed).is_ok().then_some(changed)
}

/// How many of the frames so changed are not taken for the grey ones, by the last converter. Err: too
/// few of them are.
pub fn changed(seed: u64, converters: &Converters) -> Result<String, String> {
    type Change = fn(&mut Random, &FrameRequest) -> Option<FrameRequest>;
    // What must be told, in hundredths: most changes by 1 are lost in rounding.
    let changes: [(&str, u64, Change); 3] = [
        ("a channel of a pixel off by 128", 90, |random, request| {
            Some(with_colour(random, request, |byte| byte ^ 128))
        }),
        ("a channel of a pixel off by 1", 10, |random, request| {
            Some(with_colour(random, request, |byte| byte ^ 1))
        }),
        ("a row or column from outside", 90, moved),
    ];
    let last = converters.last().expect("a converter");
    let mut parts = Vec::new();
    for (what, least, change) in changes {
        let (mut tried, mut told) = (0, 0);
        for case in 0..CHANGED {
            let mut random = Random::new(seed, 6, case);
            let request = GreyFrame::random(&mut random).request;
            let rows = greys_of(&request).expect("a grey frame");
            let Some(request) = change(&mut random, &request) else {
                continue;
            };
            let (_, after) = frame_of(&**last, &request);
            tried += 1;
            told += u64::from(tint(&request.opening(), &rows, planes(&after.lent)).is_some());
        }
        parts.push(format!("{what} {told} of {tried}"));
        if 100 * told < least * tried {
            return Err(format!("grey frames, {what}: only {told} of {tried} told"));
        }
    }
    let (name, parts) = (last.name(), parts.join(", "));
    Ok(format!(
        "grey frames changed, told in the {name}'s planes: {parts}"
    ))
}
