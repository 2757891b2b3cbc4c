//! The front desk, RULES 16.1 and on: a history is a desk, five buffers and a list of calls. After every call answer,
//! what is told, every number of the desk and every byte of the buffers are held to a second statement of the desk
//! (`desk_mistakes.rs`), whose bands are single band calls of each converter that has them.
//!
//! Of a desk that begins fresh it is held too that a camera that waits is served within 32 steps, that the planes of
//! an open frame are at all times those of its own bands converted alone, and in the end those of a frame call of its
//! rows by every converter.

use crate::check::{Case, Converters, checked, equal_answers, equal_bytes, frame_of, smallest};
use crate::converter::{Converter, Opening};
use crate::desk_met::Met;
use crate::desk_mistakes::{Mistake, Second, frame_described};
use crate::random::Random;
use crate::request::{FrameRequest, hex};
use crate::shift::equal;
use model::FrameState;
use model::desk::{Buffers, CUSTOMS, DeskNumbers, FIRST, NUMBERS, OpenFrame, PARTS, Told};
use std::collections::BTreeMap;
use std::fmt::Write;
use std::ops::Range;

/// Source, Y, U, V and carried rows.
pub type Five = [Vec<u8>; 5];

pub const BUFFERS: [&str; 5] = ["source", "Y", "U", "V", "carried rows"];

/// What is asked of a desk.
#[derive(Clone, Debug)]
pub enum Ask {
    Open(Opening),
    /// Rows and stride of the band; offset and length in the source, and the source's length.
    Offer {
        camera: u32,
        band: [u32; 2],
        place: [u64; 3],
    },
    /// So many bytes of each buffer are lent, from the first on.
    Step {
        lent: [usize; 5],
    },
    /// No call: a camera writes these bytes into the source.
    Deliver {
        offset: usize,
        bytes: Vec<u8>,
    },
}

#[derive(Clone)]
pub struct History {
    pub desk: DeskNumbers,
    pub buffers: Five,
    pub asks: Vec<Ask>,
}

/// Other bytes before and behind a buffer, which no call is lent.
const BESIDE: usize = 8;

fn lend<'a>(buffers: &'a mut Five, lengths: &[usize; 5]) -> [&'a mut [u8]; 5] {
    let mut lengths = lengths.iter();
    buffers.each_mut().map(|buffer| {
        let whole = buffer.len() - 2 * BESIDE;
        let length = lengths.next().copied().unwrap_or(0).min(whole);
        &mut buffer[BESIDE..BESIDE + length]
    })
}

/// Who makes the calls, on a desk and buffers of his own.
enum By<'a> {
    Calls(&'a dyn Converter),
    Second(Second<'a>),
}

struct Player<'a> {
    name: String,
    by: By<'a>,
    desk: DeskNumbers,
    buffers: Five,
}

impl<'a> Player<'a> {
    fn new(history: &History, name: String, by: By<'a>) -> Player<'a> {
        let beside = [0xc3; BESIDE];
        let with_others = |buffer: &Vec<u8>| [&beside[..], buffer, &beside].concat();
        Player {
            name,
            by,
            desk: history.desk,
            buffers: history.buffers.each_ref().map(with_others),
        }
    }

    fn ask(&mut self, ask: &Ask) -> Result<Told, String> {
        let lengths = match ask {
            Ask::Deliver { offset, bytes } => {
                let end = offset + bytes.len();
                let [source, ..] = lend(&mut self.buffers, &[usize::MAX; 5]);
                source[*offset..end].copy_from_slice(bytes);
                return Ok([0; 5]);
            }
            Ask::Step { lent } => *lent,
            _ => [0; 5],
        };
        let lent = lend(&mut self.buffers, &lengths);
        match &mut self.by {
            By::Second(second) => second.ask(&mut self.desk, ask, lent),
            By::Calls(converter) => Ok(called(*converter, &mut self.desk, ask, lent)),
        }
    }

    /// The bytes of a part that is inside its buffer.
    fn part(&self, buffer: usize, part: Range<usize>) -> &[u8] {
        &self.buffers[buffer][BESIDE + part.start..BESIDE + part.end]
    }
}

/// One of a converter's three calls.
pub fn called(
    converter: &dyn Converter,
    desk: &mut DeskNumbers,
    ask: &Ask,
    [source, y, u, v, carried]: [&mut [u8]; 5],
) -> Told {
    match ask {
        Ask::Open(opening) => converter.desk_open(desk, opening),
        Ask::Offer {
            camera,
            band,
            place,
        } => converter.desk_offer(desk, *camera, *band, *place),
        Ask::Step { .. } => converter.desk_step(
            desk,
            Buffers {
                source,
                y,
                u,
                v,
                carried,
            },
        ),
        Ask::Deliver { .. } => [0; 5],
    }
}

/// Every number; any NaN is any other.
fn equal_desks(name: &str, is: &DeskNumbers, should: &DeskNumbers) -> Result<(), String> {
    for (at, (is, should)) in is.numbers.iter().zip(should.numbers).enumerate() {
        equal(name, &format!("number {at} is"), *is, should)?;
    }
    let bits = |k: &f32| if k.is_nan() { None } else { Some(k.to_bits()) };
    for (at, (is, should)) in is.customs.iter().zip(&should.customs).enumerate() {
        equal(
            name,
            &format!("of kr and kb {at} is"),
            bits(is),
            bits(should),
        )?;
    }
    for (at, (is, should)) in is.parts.iter().zip(should.parts).enumerate() {
        equal(name, &format!("number {at} of parts is"), *is, should)?;
    }
    Ok(())
}

fn equal_players(is: &Player, should: &Player) -> Result<(), String> {
    // Formatting is slow, and nearly always all are equal.
    let same = is.desk.numbers == should.desk.numbers && is.desk.parts == should.desk.parts;
    if !same || is.desk.customs != should.desk.customs {
        equal_desks(&is.name, &is.desk, &should.desk)?;
    }
    for (b, buffer) in BUFFERS.iter().enumerate() {
        equal_bytes(&is.name, buffer, &is.buffers[b], &should.buffers[b])?;
    }
    Ok(())
}

/// A frame whose bands are converted alone, on buffers that nobody else has.
struct Alone {
    state: FrameState,
    /// Of Y, U, V and carried rows.
    places: [Range<usize>; 4],
    first: [Vec<u8>; 3],
    now: [Vec<u8>; 4],
    /// All rows so far, of the source's whole width.
    rows: Vec<u8>,
}

impl Alone {
    /// None: it does not stand in the buffers.
    fn open(player: &Player, opening: &Opening) -> Option<Alone> {
        let (state, _) = frame_described(&opening.described, opening.custom)?;
        let mut places = [const { 0..0 }; 4];
        for (k, place) in places.iter_mut().enumerate() {
            let [offset, length] = [0, 1].map(|i| opening.parts[2 * k + i]);
            let whole = player.buffers[k + 1].len() - 2 * BESIDE;
            let end = offset
                .checked_add(length)
                .filter(|end| *end <= whole as u64)?;
            *place = offset as usize..end as usize;
        }
        let now = [0, 1, 2, 3].map(|k| player.part(k + 1, places[k].clone()).to_vec());
        Some(Alone {
            state,
            first: [0, 1, 2].map(|k| now[k].clone()),
            places,
            now,
            rows: Vec::new(),
        })
    }

    /// An accepted band.
    fn band(&mut self, rows: u32, stride: u32, source: &[u8]) -> Result<(), String> {
        let [y, u, v, carried] = &mut self.now;
        let (state, answer) = self.state.band(rows, source, stride, y, u, v, carried);
        equal_answers("the band alone", &answer, &Ok(()))?;
        self.state = state;
        let row = state.window.source_width as usize * state.settings.channels.bytes() as usize;
        for source_row in source.chunks(stride as usize) {
            self.rows.extend(&source_row[..row]);
        }
        Ok(())
    }

    /// The bytes of its parts are those that its own bands alone left.
    fn is_left_alone(&self, player: &Player) -> Result<(), String> {
        for (k, now) in self.now.iter().enumerate() {
            let name = format!("{}, beside the frame alone", player.name);
            let is = player.part(k + 1, self.places[k].clone());
            equal_bytes(&name, BUFFERS[k + 1], is, now)?;
        }
        Ok(())
    }

    /// Every converter's frame call of the same rows.
    fn is_the_frame(&self, converters: &Converters) -> Result<(), String> {
        let s = &self.state;
        let window = s.window;
        let row = self.rows.len() / s.h as usize;
        let mut source = vec![0x5a; row * window.source_height as usize];
        source[window.top as usize * row..][..self.rows.len()].copy_from_slice(&self.rows);
        let [y, u, v] = self.first.clone();
        let request = FrameRequest {
            frame: model::Frame {
                w: s.w,
                h: s.h,
                window,
                settings: s.settings,
                source_stride: row as u32,
                y_stride: s.y_stride,
                u_stride: s.u_stride,
                v_stride: s.v_stride,
            },
            lent: [source, y, u, v],
        };
        for converter in converters {
            let name = format!("{}, the frame in one call", converter.name());
            let (answer, after) = frame_of(&**converter, &request);
            equal_answers(&name, &answer, &Ok(()))?;
            for k in 0..3 {
                equal_bytes(&name, BUFFERS[k + 1], &after.lent[k + 1], &self.now[k])?;
            }
        }
        Ok(())
    }
}

/// What is held of a history beside the calls themselves.
struct Watch {
    /// RULES 16.6 speaks of desks that began fresh alone.
    is_fresh: bool,
    alone: BTreeMap<u32, Alone>,
    /// The steps since its band was offered, of a camera that waits.
    waits: BTreeMap<u32, u32>,
}

/// RULES 16.5.
pub const WITHIN: u32 = 32;

impl Watch {
    fn new(history: &History) -> Watch {
        let desk = history.desk.desk();
        let waiting = (0..).zip(&desk.cameras).filter(|(_, open)| {
            let band = open.as_ref().and_then(|open| open.band);
            band.is_some()
        });
        Watch {
            is_fresh: history.is_fresh(),
            alone: BTreeMap::new(),
            waits: waiting.map(|(camera, _)| (camera, 0)).collect(),
        }
    }

    /// `before`: the desk before the call, `player`: it and its buffers after it.
    fn call(
        &mut self,
        ask: &Ask,
        told: &Told,
        before: &DeskNumbers,
        player: &Player,
        converters: &Converters,
    ) -> Result<(), String> {
        match (ask, told) {
            (Ask::Open(opening), [0, ..]) if self.is_fresh => {
                if let Some(alone) = Alone::open(player, opening) {
                    self.alone.insert(opening.camera, alone);
                }
            }
            (Ask::Offer { camera, .. }, [0, ..]) => {
                self.waits.insert(*camera, 0);
            }
            (Ask::Step { .. }, told) => self.step(told, before, player, converters)?,
            _ => {}
        }
        for alone in self.alone.values() {
            alone.is_left_alone(player)?;
        }
        Ok(())
    }

    fn step(
        &mut self,
        told: &Told,
        before: &DeskNumbers,
        player: &Player,
        converters: &Converters,
    ) -> Result<(), String> {
        let &[number, _, _, served, camera] = told;
        let camera = camera as u32;
        self.waits.values_mut().for_each(|steps| *steps += 1);
        if served == 1 && self.waits.remove(&camera).is_none() {
            return Err(format!("camera {camera} is served without a band"));
        }
        if let Some((camera, _)) = self.waits.iter().find(|(_, steps)| **steps >= WITHIN) {
            return Err(format!("camera {camera} is not served in {WITHIN} steps"));
        }
        if served == 0 || number != 0 {
            return Ok(());
        }
        let Some(alone) = self.alone.get_mut(&camera) else {
            return Ok(());
        };
        let place = before.desk().cameras[camera as usize];
        let Some(OpenFrame {
            band: Some(band), ..
        }) = place
        else {
            return Err(format!("camera {camera} is served without a band"));
        };
        let start = band.part.offset as usize;
        let source = player.part(0, start..start + band.part.length as usize);
        alone.band(band.rows, band.stride, source)?;
        if alone.state.done == alone.state.h {
            alone.is_left_alone(player)?;
            alone.is_the_frame(converters)?;
            self.alone.remove(&camera);
        }
        Ok(())
    }
}

impl History {
    pub fn is_fresh(&self) -> bool {
        self.desk == DeskNumbers::FRESH
    }

    fn players<'a>(&self, converters: &'a Converters) -> Vec<Player<'a>> {
        let mut players = Vec::new();
        // The oracle has no bands.
        for converter in converters.iter().filter(|one| one.has_desk()) {
            let name = format!("{}, single band calls", converter.name());
            let second = Second::new(Mistake::NoMistake, &**converter, &self.desk);
            players.push(Player::new(self, name, By::Second(second)));
            let name = converter.name().to_string();
            players.push(Player::new(self, name, By::Calls(&**converter)));
        }
        players
    }
}

impl Case for History {
    /// The first of all that make the calls is held to what RULES 16.5 and 16.6 say, the others to it.
    fn check(&self, converters: &Converters) -> Result<u8, String> {
        let mut players = self.players(converters);
        let mut watch = Watch::new(self);
        for (at, ask) in self.asks.iter().enumerate() {
            let wrong = |wrong: String| format!("call {at}: {wrong}");
            let before = players[0].desk;
            let (first, others) = players.split_first_mut().expect("the model");
            let should = first.ask(ask).map_err(wrong)?;
            for player in others {
                let told = player.ask(ask).map_err(wrong)?;
                equal(&player.name, "tells", told, should).map_err(wrong)?;
                equal_players(player, first).map_err(wrong)?;
            }
            let held = watch.call(ask, &should, &before, first, converters);
            held.map_err(wrong)?;
        }
        Ok(0)
    }

    /// Without some of what is asked.
    fn smaller(&self) -> Vec<History> {
        let n = self.asks.len();
        let with = |asks: Vec<Ask>| History {
            asks,
            ..self.clone()
        };
        let mut all = Vec::new();
        for end in [n / 2, n.saturating_sub(1)] {
            if end < n {
                all.push(with(self.asks[..end].to_vec()));
            }
        }
        for at in 0..n {
            let mut asks = self.asks.clone();
            asks.remove(at);
            all.push(with(asks));
        }
        all
    }

    /// The desk's numbers that are not 0, the buffers, and a line for each ask.
    fn text(&self) -> String {
        let mut text = String::from("desk");
        let camera = |at: usize, each: usize| format!("{}.{}", at / each, at % each);
        for (at, number) in self.desk.numbers.iter().enumerate() {
            if *number != 0 {
                let _ = match at {
                    FIRST => write!(text, " first={number}"),
                    _ => write!(text, " {}={number}", camera(at, NUMBERS)),
                };
            }
        }
        for (at, k) in self.desk.customs.iter().enumerate() {
            if k.to_bits() != 0 {
                let _ = write!(text, " k{}={:08x}", camera(at, CUSTOMS), k.to_bits());
            }
        }
        for (at, number) in self.desk.parts.iter().enumerate() {
            if *number != 0 {
                let _ = write!(text, " p{}={number}", camera(at, PARTS));
            }
        }
        for (name, buffer) in BUFFERS.iter().zip(&self.buffers) {
            let _ = write!(text, "\n{name} {}", hex(buffer));
        }
        for (at, ask) in self.asks.iter().enumerate() {
            let _ = match ask {
                Ask::Deliver { offset, bytes } => {
                    write!(text, "\n{at} deliver {offset} {}", hex(bytes))
                }
                other => write!(text, "\n{at} {other:?}"),
            };
        }
        text
    }
}

/// So many random histories. All that stands in the list of `desk_met.rs` must be met, where there are enough.
pub fn check(histories: u64, seed: u64, converters: &Converters) -> Result<String, String> {
    const ENOUGH: u64 = 5_000;
    let mut met = Met::default();
    for case in 0..histories {
        let history = History::random(&mut Random::new(seed, 80, case));
        checked(&history, converters).map_err(|wrong| {
            let (smaller, wrong) = smallest(&history, converters, wrong);
            format!("desk histories: case {case}: {wrong}\n{}", smaller.text())
        })?;
        met.history(&history);
    }
    if let Some(missing) = met.missing().filter(|_| histories >= ENOUGH) {
        return Err(format!("desk histories: none with {missing}"));
    }
    Ok(format!("desk histories: {histories} equal, {}", met.text()))
}
