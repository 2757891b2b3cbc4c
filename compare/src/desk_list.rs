//! The stored list of histories of the front desk, which the crate replay_desk replays with no Rust at hand: its
//! histories, what is answered, and its files. The expectations are the model's; its calls are held first to a second
//! statement of the desk, and finished frames to the oracle's frame calls (`desk.rs`).
//!
//! The list is the number of histories, and these, one behind the other. Numbers have four bytes, low byte first, and
//! buffers are stored as in the other lists (`stored.rs`). vectors/README.md has it field by field.
//!
//! What is printed of a call is a line: the place of its history in the list and its own in that, both from 1 on; the
//! number; of an opening and of a step expected and received; of a step whether a camera was served, and which, and
//! the digests of Y, U, V and carried rows; and last that of the desk's three lists, one behind the other.
//!
//!     1.3 0 desk=28fe8ee6

use crate::check::{Case, Converters, checked, equal_bytes};
use crate::converter::{Converter, Opening};
use crate::desk::{Ask, Five, History, called};
use crate::desk_mistakes::{MISTAKES, Mistake, Second};
use crate::desk_random::World;
use crate::random::Random;
use crate::request::FrameRequest;
use crate::stored::{Stored, digest, repeated};
use crate::worked::{bt601, painted};
use model::YuvRange;
use model::desk::{DeskNumbers, FIRST, NUMBERS, OpenFrame, PARTS, Told};
use std::collections::{BTreeMap, BTreeSet};
use std::fmt::Write;
use std::path::Path;

const SEED: u64 = 1;

/// The buffers of every history, as the replaying program has them: its steps lend the first bytes. And the most
/// numbers of a description that it can lend.
const LENGTHS: [usize; 5] = [1_024, 512, 512, 512, 512];
const MOST_NUMBERS: usize = 16;

/// Bytes of the whole list.
const LONGEST_LIST: usize = 500_000;

/// One call in so many has a fault: none has.
const NEVER: u64 = 1 << 60;

struct Listed {
    group: &'static str,
    why: String,
    history: History,
}

fn listed(why: impl Into<String>, history: History) -> Listed {
    Listed {
        group: "",
        why: why.into(),
        history,
    }
}

/// All histories, none twice.
fn histories() -> Vec<Listed> {
    let groups = [
        ("worked line", worked_lines()),
        ("round", rounds()),
        ("refused band", refused_bands()),
        ("numbers and order", orders()),
        ("outside", outside()),
        ("overlap", overlaps()),
        ("offer", offers()),
        ("last row", last_rows()),
        ("lent at the step", lent_at_the_step()),
        ("carried row", carried_rows()),
        ("settings", settings_of_their_own()),
        ("made by no call", made_by_no_call()),
        ("32 cameras", full()),
        ("any", any()),
    ];
    let mut seen = BTreeSet::new();
    let mut all = Vec::new();
    for (group, list) in groups {
        for one in list {
            if seen.insert(one.history.text()) {
                all.push(Listed { group, ..one });
            }
        }
    }
    all
}

/// Buffers of one byte each, which is stored once, and as long as all are.
fn plain(world: World, desk: DeskNumbers) -> History {
    let mut history = world.history(desk);
    let bytes = [0x3c, 0xa1, 0xa2, 0xa3, 0xa4];
    assert!(fits(&history), "a history that the program can lend");
    history.buffers = [0, 1, 2, 3, 4].map(|b| repeated(&[bytes[b]], LENGTHS[b]));
    history
}

/// Whether its buffers are no longer than those that every history has.
fn fits(history: &History) -> bool {
    let lengths = history.buffers.each_ref().map(Vec::len);
    (0..5).all(|b| lengths[b] <= LENGTHS[b])
}

fn fresh(world: World) -> History {
    plain(world, DeskNumbers::FRESH)
}

/// A history of these calls on a desk that is fresh.
fn told_by(stream: u64, side: u32, length: usize, ask: impl FnOnce(&mut World)) -> History {
    let random = &mut Random::new(SEED, stream, 0);
    let mut world = World::new(random, side, length, NEVER);
    ask(&mut world);
    fresh(world)
}

/// Opens a frame, and offers the rows of it from this one on.
fn open_frame(world: &mut World, camera: u32, request: &FrameRequest) {
    let opening = world.opening_of(camera, request).expect("room");
    world.ask(Ask::Open(opening));
}

fn offer_rows(
    world: &mut World,
    camera: u32,
    request: &FrameRequest,
    rows: std::ops::Range<usize>,
) {
    let stride = request.frame.source_stride;
    let count = rows.len() as u32;
    let bytes = rows.flat_map(|r| request.source_row(r).to_vec()).collect();
    world.offer_bytes(camera, [count, stride], bytes);
}

fn worked_lines() -> Vec<Listed> {
    let limited = bt601(YuvRange::Limited);
    let black = painted(4, 5, limited, |_, _| [0; 3]);
    let white = painted(3, 3, limited, |_, _| [255; 3]);
    let red = painted(1, 1, bt601(YuvRange::Full), |_, _| [255, 0, 0]);
    let one = told_by(800, 1, 40, |world| {
        open_frame(world, 0, &red);
        offer_rows(world, 0, &red, 0..1);
        world.step();
        world.step();
    });
    let three = told_by(801, 1, 60, |world| {
        for (camera, frame) in [(3, &black), (30, &white), (31, &red)] {
            open_frame(world, camera, frame);
        }
        offer_rows(world, 31, &red, 0..1);
        offer_rows(world, 30, &white, 0..1);
        offer_rows(world, 3, &black, 0..3);
        world.step();
        offer_rows(world, 3, &black, 3..4);
        world.step();
        offer_rows(world, 30, &white, 1..3);
        for _ in 0..3 {
            world.step();
        }
        offer_rows(world, 3, &black, 4..5);
        world.step();
        world.step();
    });
    vec![
        listed("red alone", one),
        listed("black, white and red of three cameras", three),
    ]
}

/// Cameras with room for several bands.
fn open_all(world: &mut World, cameras: &[u32]) {
    let limited = bt601(YuvRange::Limited);
    for camera in cameras {
        // One column of four rows, the greys of a camera its own.
        let frame = painted(1, 4, limited, |row, _| [(7 * camera + 50 * row) as u8; 3]);
        open_frame(world, *camera, &frame);
    }
}

/// The next row of each.
fn offer_all(world: &mut World, cameras: &[u32]) {
    for camera in cameras {
        world.offer_bytes(*camera, [1, 3], vec![(7 * camera) as u8; 3]);
    }
}

fn steps(world: &mut World, count: usize) {
    for _ in 0..count {
        world.step();
    }
}

fn rounds() -> Vec<Listed> {
    let mut all = vec![
        listed(
            "none waiting: no frame open, and one",
            told_by(810, 1, 40, |world| {
                steps(world, 2);
                open_all(world, &[5]);
                steps(world, 2);
                offer_all(world, &[5]);
                steps(world, 3);
            }),
        ),
        listed(
            "camera 0 first, though it came last",
            told_by(811, 1, 60, |world| {
                open_all(world, &[31, 1, 0]);
                offer_all(world, &[31, 1, 0]);
                steps(world, 4);
            }),
        ),
        listed(
            "a camera that delivers again waits for the others",
            told_by(812, 1, 60, |world| {
                open_all(world, &[0, 5, 31]);
                offer_all(world, &[0, 5, 31]);
                for _ in 0..6 {
                    world.step();
                    offer_all(world, &[0]);
                }
                steps(world, 2);
            }),
        ),
        listed(
            "the next after the one served, not the next number",
            told_by(813, 1, 60, |world| {
                open_all(world, &[2, 9, 20]);
                offer_all(world, &[9]);
                world.step();
                offer_all(world, &[2, 20]);
                steps(world, 2);
                offer_all(world, &[9, 20]);
                steps(world, 3);
            }),
        ),
        listed(
            "an idle camera does not hold the round up",
            told_by(814, 1, 60, |world| {
                open_all(world, &[4, 5, 6]);
                offer_all(world, &[4, 6]);
                steps(world, 2);
                offer_all(world, &[5]);
                steps(world, 2);
                offer_all(world, &[6, 5, 4]);
                steps(world, 4);
            }),
        ),
    ];
    for (stream, cameras) in [
        (815, [0, 1, 2]),
        (816, [29, 30, 31]),
        (817, [0, 15, 31]),
        (818, [7, 8, 24]),
    ] {
        let why = format!("cameras {cameras:?}, each order of offers");
        let history = told_by(stream, 1, 60, |world| {
            let [a, b, c] = cameras;
            open_all(world, &cameras);
            for order in [[a, b, c], [c, a, b], [b, c, a]] {
                offer_all(world, &order);
                steps(world, 3);
            }
            world.step();
        });
        all.push(listed(why, history));
    }
    all
}

/// A good frame of two columns and three rows in 4:2:0.
fn good_frame() -> FrameRequest {
    let settings = bt601(YuvRange::Full);
    painted(2, 3, settings, |row, column| {
        [200, (90 * row) as u8, (99 * column) as u8]
    })
}

/// Changes of a band or of an opening, and the refusal that comes of each at the step.
type BandFault = fn(&mut [u32; 2], &mut [u64; 3]);
type OpeningFault = fn(&mut Opening);

const BAND_FAULTS: [(u64, &str, BandFault); 9] = [
    (5, "no rows", |band, _| band[0] = 0),
    (5, "a row too many", |band, _| band[0] = 4),
    (5, "2^32 - 1 rows", |band, _| band[0] = u32::MAX),
    (6, "a byte short", |_, place| place[1] -= 1),
    (6, "no bytes", |_, place| place[1] = 0),
    (7, "a stride under the row", |band, place| {
        (*band, place[1]) = ([1, 5], 6)
    }),
    (7, "no stride", |band, _| band[1] = 0),
    (12, "a byte too many", |_, place| place[1] += 1),
    (6, "a stride of 2^32 - 1", |band, _| band[1] = u32::MAX),
];

const OPENING_FAULTS: [(u64, &str, OpeningFault); 9] = [
    (8, "a stride of Y under the row", |o| o.described[7] = 1),
    (9, "Y short", |o| o.parts[1] = 5),
    (10, "a stride of U under the row", |o| o.described[8] = 0),
    (10, "no bytes of U", |o| o.parts[3] = 0),
    (11, "a stride of V under the row", |o| o.described[9] = 0),
    (11, "V short", |o| o.parts[5] = 1),
    (12, "a byte of Y too many", |o| o.parts[1] = 7),
    (13, "a carried row short", |o| o.parts[7] = 5),
    (13, "no carried row", |o| o.parts[7] = 0),
];

/// A band that is refused between good ones of three cameras, and good ones after it where there can be.
fn refused_bands() -> Vec<Listed> {
    let frame = good_frame();
    let with = |stream: u64, change: &dyn Fn(&mut World)| {
        told_by(stream, 1, 60, |world| {
            for camera in [1, 12] {
                open_frame(world, camera, &frame);
            }
            change(world);
            // Camera 1 takes its turn before the refused band of 6, and 12 after it.
            for camera in [12, 1] {
                offer_rows(world, camera, &frame, 0..1);
            }
            steps(world, 2);
            if world.open_frame(6).is_some_and(|open| open.band.is_none()) {
                offer_rows(world, 6, &frame, 0..2);
            }
            offer_rows(world, 1, &frame, 1..3);
            steps(world, 4);
        })
    };
    let mut all = Vec::new();
    for (stream, (number, why, change)) in (820..).zip(BAND_FAULTS) {
        let history = with(stream, &|world| {
            open_frame(world, 6, &frame);
            let mut band = [2, 6];
            let mut place = [10, 12, world.length(0)];
            change(&mut band, &mut place);
            let camera = 6;
            world.ask(Ask::Offer {
                camera,
                band,
                place,
            });
        });
        all.push(listed(format!("{number}: {why}"), history));
    }
    for (stream, (number, why, change)) in (830..).zip(OPENING_FAULTS) {
        let history = with(stream, &|world| {
            let mut opening = world.opening_of(6, &frame).expect("room");
            change(&mut opening);
            world.ask(Ask::Open(opening));
            offer_rows(world, 6, &frame, 0..1);
        });
        all.push(listed(format!("{number}: {why}"), history));
    }
    all
}

/// Every camera number with every kind of parts and every description, and the same of offers.
fn orders() -> Vec<Listed> {
    let frame = good_frame();
    let described: [(&str, OpeningFault); 8] = [
        ("an opening", |_| {}),
        ("nine numbers", |o| o.described.truncate(9)),
        ("no number", |o| o.described.clear()),
        ("another code", |o| o.described[3] = 2),
        ("no size", |o| o.described[0] = 0),
        ("too large", |o| o.described[1] = 16_385),
        ("another matrix", |o| {
            (o.described[5], o.custom) = (6, [0.75, 0.25])
        }),
        ("a window outside", |o| o.described[11] = 1),
    ];
    let mut all = Vec::new();
    for (stream, (why, change)) in (840..).zip(described) {
        let history = told_by(stream, 1, 60, |world| {
            open_frame(world, 9, &frame);
            let other = match world.asks.last() {
                Some(Ask::Open(opening)) => opening.parts,
                _ => unreachable!("it was asked"),
            };
            let mut good = world.opening_of(2, &frame).expect("room");
            good.described = [&good.described[..10], &[0, 0, 0, 2, 3]].concat();
            change(&mut good);
            let outside = |parts: [u64; 8], k: usize| {
                let mut parts = parts;
                parts[2 * k] = u64::MAX;
                parts
            };
            for camera in [u32::MAX, 32, 41, 9, 2] {
                for parts in [outside(good.parts, 3), other, good.parts] {
                    world.ask(Ask::Open(Opening {
                        camera,
                        parts,
                        ..good.clone()
                    }));
                }
            }
            world.ask(Ask::Open(Opening {
                camera: 31,
                ..good.clone()
            }));
        });
        all.push(listed(format!("openings of {why}"), history));
    }
    let history = told_by(848, 1, 60, |world| {
        for camera in [3, 4] {
            open_frame(world, camera, &frame);
        }
        let source = world.length(0);
        offer_rows(world, 4, &frame, 0..1);
        // 3 has none waiting, 4 has one; 35 and 36 are they modulo 32; 5 has no frame.
        for camera in [35, 36, 32, u32::MAX, 5, 4, 3] {
            for place in [
                [source, 1, source],
                [source + 1, 0, source],
                [0, 12, source],
            ] {
                for rows in [0, 2] {
                    let band = [rows, 6];
                    world.ask(Ask::Offer {
                        camera,
                        band,
                        place,
                    });
                }
            }
        }
        steps(world, 3);
    });
    all.push(listed("offers", history));
    all
}

const PLANES: [&str; 4] = ["Y", "U", "V", "carried rows"];

/// An opening with this part of a buffer, then a band and a step.
fn with_part(stream: u64, k: usize, part: impl Fn(&World, [u64; 2]) -> [u64; 2]) -> History {
    let frame = good_frame();
    told_by(stream, 1, 40, |world| {
        let mut opening = world.opening_of(8, &frame).expect("room");
        let own = [opening.parts[2 * k], opening.parts[2 * k + 1]];
        let part = part(world, own);
        opening.parts[2 * k..][..2].copy_from_slice(&part);
        world.ask(Ask::Open(opening));
        serve_opened(world, &frame);
    })
}

/// A band of camera 8 and a step, where its frame was opened.
fn serve_opened(world: &mut World, frame: &FrameRequest) {
    if world.open_frame(8).is_some() {
        offer_rows(world, 8, frame, 0..2);
        world.step();
    }
}

/// Parts around the ends of each buffer, and sums around 2^32 and 2^64.
fn outside() -> Vec<Listed> {
    const WIDE: u64 = 1 << 32;
    type Of = fn(u64, [u64; 2]) -> [u64; 2];
    let parts: [(&str, Of); 18] = [
        ("ends with it", |end, [_, n]| [end - n, n]),
        ("a byte past it", |end, [_, n]| [end - n + 1, n]),
        ("all of it", |end, _| [0, end]),
        ("all of it and a byte", |end, _| [0, end + 1]),
        ("no bytes at its end", |end, _| [end, 0]),
        ("no bytes past its end", |end, _| [end + 1, 0]),
        ("one byte at its end", |end, _| [end, 1]),
        ("no bytes at 2^64 - 1", |_, _| [u64::MAX, 0]),
        ("to 2^64", |_, _| [u64::MAX, 1]),
        ("past 2^64", |_, [_, n]| [u64::MAX - 3, 4 + n]),
        ("past 2^64, all but its offset", |_, [from, n]| {
            [from + n, u64::MAX - from]
        }),
        ("half of 2^64 twice", |_, _| [1 << 63, 1 << 63]),
        ("2^64 - 1 bytes", |_, _| [0, u64::MAX]),
        ("2^32 further", |_, [from, n]| [WIDE + from, n]),
        ("2^32 longer", |_, [from, n]| [from, WIDE + n]),
        ("to 2^32", |_, [_, n]| [WIDE - n, n]),
        ("from 2^32 - 1 on", |_, [_, n]| [WIDE - 1, n]),
        ("no bytes at 2^32", |_, _| [WIDE, 0]),
    ];
    let mut all = Vec::new();
    for (k, name) in PLANES.iter().enumerate() {
        for (stream, (why, of)) in (850..).zip(parts) {
            let history = with_part(stream, k, |world, own| of(world.length(k + 1), own));
            all.push(listed(format!("{name}: {why}"), history));
        }
        // Lengths that are told, and are not those of the buffers.
        for (stream, (why, fewer)) in (868..).zip([
            ("told a byte short of the part", 1),
            ("told as long as the part's end", 0),
        ]) {
            let frame = good_frame();
            let history = told_by(stream, 1, 40, |world| {
                let mut opening = world.opening_of(8, &frame).expect("room");
                let end = opening.parts[2 * k] + opening.parts[2 * k + 1];
                opening.lengths[k] = end - fewer;
                world.ask(Ask::Open(opening));
                serve_opened(world, &frame);
            });
            all.push(listed(format!("{name}: {why}"), history));
        }
        let frame = good_frame();
        let history = told_by(870, 1, 40, |world| {
            let mut opening = world.opening_of(8, &frame).expect("room");
            opening.parts[2 * k] = world.length(k + 1);
            opening.lengths[k] = u64::MAX;
            world.ask(Ask::Open(opening));
            serve_opened(world, &frame);
        });
        all.push(listed(format!("{name}: told longer than it is"), history));
    }
    all
}

/// Each buffer, and each way in which the part of an opening can lie beside one of two open frames.
fn overlaps() -> Vec<Listed> {
    let frame = good_frame();
    type Of = fn([u64; 2], u64) -> Option<[u64; 2]>;
    let ways: [(&str, Of); 10] = [
        ("the same as", |[from, n], _| Some([from, n])),
        ("from the last byte on of", |[from, n], m| {
            Some([from + n - 1, m])
        }),
        ("to the first byte of", |[from, _], m| {
            Some([(from + 1).checked_sub(m)?, m])
        }),
        ("inside", |[from, _], _| Some([from + 1, 1])),
        ("around", |[from, n], _| Some([from.checked_sub(1)?, n + 2])),
        ("a longer one from the start of", |[from, n], _| {
            Some([from, n + 1])
        }),
        ("behind", |[from, n], m| Some([from + n, m])),
        ("before", |[from, _], m| Some([from.checked_sub(m)?, m])),
        ("no bytes inside", |[from, _], _| Some([from + 1, 0])),
        ("no bytes at the start of", |[from, _], _| Some([from, 0])),
    ];
    let mut all = Vec::new();
    for (k, name) in PLANES.iter().enumerate() {
        for (stream, (why, of)) in (880..).zip(ways) {
            // The one waits and the other does not; the new one has a lower number, one between, and a higher one.
            for (cameras, new) in [([9, 20], 4), ([20, 9], 12), ([3, 9], 31)] {
                let history = told_by(stream, 1, 70, |world| {
                    let gap = 10;
                    for (place, camera) in (1..).zip(cameras) {
                        let mut opening = world.opening_of(camera, &frame).expect("room");
                        for k in 0..4 {
                            opening.parts[2 * k] = 20 * place - gap;
                        }
                        world.ask(Ask::Open(opening));
                    }
                    offer_rows(world, cameras[0], &frame, 0..2);
                    let mut opening = world.opening_of(new, &frame).expect("room");
                    for k in 0..4 {
                        opening.parts[2 * k] = 50;
                    }
                    let [from, length] = [10, opening.parts[2 * k + 1]];
                    let waiting = of([from, length], length);
                    let idle = of([from + 20, length], length);
                    for part in [waiting, idle].into_iter().flatten() {
                        opening.parts[2 * k..][..2].copy_from_slice(&part);
                        world.ask(Ask::Open(opening.clone()));
                    }
                    steps(world, 1);
                });
                let why = format!("{name} of camera {new}: {why} that of {cameras:?}");
                all.push(listed(why, history));
            }
        }
    }
    let history = told_by(895, 1, 40, |world| {
        // Every part of both frames at the same place, but in buffers of its own.
        for (camera, order) in [(7, [0, 6, 12, 18]), (6, [6, 12, 18, 0])] {
            let mut opening = world.opening_of(camera, &frame).expect("room");
            for (k, from) in order.into_iter().enumerate() {
                opening.parts[2 * k] = from;
            }
            world.ask(Ask::Open(opening));
            offer_rows(world, camera, &frame, 0..3);
        }
        steps(world, 2);
    });
    all.push(listed("unlike buffers at the same places", history));
    let history = told_by(896, 1, 40, |world| {
        let mut opening = world.opening_of(7, &frame).expect("room");
        for k in 0..4 {
            opening.parts[2 * k] = 4;
        }
        world.ask(Ask::Open(opening));
        offer_rows(world, 7, &frame, 0..3);
        world.step();
    });
    all.push(listed("a frame's own parts at the same place", history));
    all
}

/// Parts of the source, offered and served.
fn offers() -> Vec<Listed> {
    let frame = good_frame();
    let mut all = Vec::new();
    let history = told_by(900, 1, 20, |world| {
        open_frame(world, 2, &frame);
        let end = world.length(0);
        for place in [
            [end - 11, 12, end],
            [end, 1, end],
            [end + 1, 0, end],
            [0, end + 1, end],
            [u64::MAX, 0, end],
            [u64::MAX, 1, end],
            [u64::MAX - 3, 4 + 12, end],
            [1, u64::MAX, end],
            [1 << 63, 1 << 63, end],
            [1 << 32, 12, end],
            [0, (1 << 32) + 12, end],
            [(1 << 32) - 12, 12, end],
            [0, 12, 11],
            [12, 0, 11],
            [0, 1, 0],
        ] {
            let (camera, band) = (2, [2, 6]);
            world.ask(Ask::Offer {
                camera,
                band,
                place,
            });
        }
        world.step();
    });
    all.push(listed("bands outside the source", history));
    for (stream, (why, place)) in (901..).zip([
        ("ends with the source", [28u64, 12, 40]),
        ("ends with a source told shorter", [3, 12, 15]),
        ("no bytes at the end", [40, 0, 40]),
        ("told to be in a longer source", [36, 12, 48]),
        (
            "past 2^64 - 1 in a source of as many",
            [u64::MAX - 12, 12, u64::MAX],
        ),
    ]) {
        let history = told_by(stream, 1, 20, |world| {
            open_frame(world, 2, &frame);
            let whole = world.length(0);
            // The source has 40 bytes and some more, of which the steps lend 40.
            let (camera, band) = (2, [2, 6]);
            world.ask(Ask::Offer {
                camera,
                band,
                place,
            });
            let mut lent = [1, 2, 3, 4].map(|b| world.length(b) as usize).to_vec();
            lent.insert(0, 40.min(whole as usize));
            let lent = lent.try_into().expect("five");
            world.ask(Ask::Step { lent });
            world.ask(Ask::Step { lent });
        });
        all.push(listed(why, history));
    }
    let history = told_by(906, 1, 60, |world| {
        for camera in [2, 3, 4] {
            open_frame(world, camera, &frame);
        }
        let source = world.length(0);
        for (camera, from) in [(2, 5), (3, 5), (4, 7)] {
            world.ask(Ask::Offer {
                camera,
                band: [2, 6],
                place: [from, 12, source],
            });
        }
        world.step();
        // What the band of 3 is, is what stands there at its step.
        let bytes = (0..12).map(|i| 20 * i).collect();
        world.ask(Ask::Deliver { offset: 5, bytes });
        steps(world, 3);
    });
    all.push(listed(
        "one part of the source for two, and one near it",
        history,
    ));
    all
}

/// What is free after a frame's last row, and what is not before it.
fn last_rows() -> Vec<Listed> {
    let frame = good_frame();
    let mut all = Vec::new();
    for (stream, rows) in (910..).zip([1, 2, 3]) {
        let history = told_by(stream, 1, 60, |world| {
            let opening = world.opening_of(4, &frame).expect("room");
            let again = |camera: u32| {
                Ask::Open(Opening {
                    camera,
                    ..opening.clone()
                })
            };
            world.ask(again(4));
            let mut done = 0;
            while done < 3 {
                let end = (done + rows).min(3);
                offer_rows(world, 4, &frame, done..end);
                world.ask(again(4));
                world.ask(again(5));
                world.step();
                done = end;
            }
            // A band for a frame that is finished; then its parts for another camera, and its number for other parts.
            offer_rows(world, 4, &frame, 0..1);
            world.ask(again(5));
            world.ask(again(4));
            open_frame(world, 4, &frame);
            for camera in [5, 4] {
                offer_rows(world, camera, &frame, 0..3);
            }
            steps(world, 3);
        });
        all.push(listed(format!("in bands of {rows} rows at most"), history));
    }
    let history = told_by(913, 1, 60, |world| {
        let opening = world.opening_of(0, &frame).expect("room");
        for _ in 0..3 {
            world.ask(Ask::Open(opening.clone()));
            offer_rows(world, 0, &frame, 0..3);
            world.step();
        }
        world.step();
    });
    all.push(listed("one number opened again and again", history));
    all
}

/// Buffers that are shorter at the step, by each of the five.
fn lent_at_the_step() -> Vec<Listed> {
    let frame = good_frame();
    let mut all = Vec::new();
    for (b, name) in crate::desk::BUFFERS.iter().enumerate() {
        for (stream, fewer) in [(920, 0), (921, 1), (922, u64::MAX)] {
            let history = told_by(stream, 1, 60, |world| {
                for (camera, from) in [(17, 0), (11, 20)] {
                    let mut opening = world.opening_of(camera, &frame).expect("room");
                    for k in 0..4 {
                        opening.parts[2 * k] = from;
                    }
                    world.ask(Ask::Open(opening));
                    let place = [from + 3, 12, world.length(0)];
                    world.ask(Ask::Offer {
                        camera,
                        band: [2, 6],
                        place,
                    });
                }
                let open = world.open_frame(11).expect("open");
                let band = open.band.expect("waiting").part;
                let parts = [
                    band,
                    open.parts[0],
                    open.parts[1],
                    open.parts[2],
                    open.parts[3],
                ];
                let end = parts[b].offset + parts[b].length;
                let mut lent = [0, 1, 2, 3, 4].map(|b| world.length(b) as usize);
                lent[b] = end.saturating_sub(fewer) as usize;
                // 11 has its turn before 17, whose parts come before those of 11.
                for _ in 0..3 {
                    world.ask(Ask::Step { lent });
                }
                offer_rows(world, 11, &frame, 0..3);
                steps(world, 1);
                // A band that is refused for its rows too.
                let place = [23, 12, world.length(0)];
                world.ask(Ask::Offer {
                    camera: 17,
                    band: [9, 6],
                    place,
                });
                lent[b] = 1;
                world.ask(Ask::Step { lent });
            });
            let why = match fewer {
                0 => "ends with the part",
                1 => "a byte short of it",
                _ => "none of it",
            };
            all.push(listed(format!("{name}: {why}"), history));
        }
    }
    all
}

/// 4:2:0 in single rows of several cameras in turn: every second row is the other's carried one.
fn carried_rows() -> Vec<Listed> {
    let settings = bt601(YuvRange::Full);
    let mut all = Vec::new();
    for (stream, (w, h)) in (930..).zip([(1, 2), (2, 3), (3, 4), (2, 5), (4, 2)]) {
        let frame = |camera: u32| {
            painted(w, h, settings, |row, column| {
                let mixed = 40 * row + 90 * column + 13 * camera;
                [mixed as u8, (3 * mixed) as u8, (7 * mixed + 1) as u8]
            })
        };
        let history = told_by(stream, 1, 120, |world| {
            let cameras = [30, 2, 18];
            for camera in cameras {
                open_frame(world, camera, &frame(camera));
            }
            for row in 0..h as usize {
                for camera in cameras {
                    offer_rows(world, camera, &frame(camera), row..row + 1);
                }
                steps(world, 3);
            }
        });
        all.push(listed(format!("three cameras of {w} x {h}"), history));
    }
    all
}

/// Frames of any settings, roundings and windows, of two to five cameras, until all are finished.
fn settings_of_their_own() -> Vec<Listed> {
    let mut all = Vec::new();
    for case in 0..28 {
        let random = &mut Random::new(SEED, 940, case);
        let count = random.from(2, 4);
        let mut world = World::new(random, 4, 160, NEVER);
        for _ in 0..count {
            let camera = world.random.below(32) as u32;
            world.open_good(camera);
        }
        while !world.open_cameras().is_empty() {
            let idle = |(camera, open): &(u32, OpenFrame)| open.band.is_none().then_some(*camera);
            let idle: Vec<u32> = world.open_cameras().iter().filter_map(idle).collect();
            for camera in idle {
                if world.random.one_in(2) {
                    world.offer_good(camera);
                }
            }
            world.step();
        }
        all.push(listed("cameras of settings of their own", fresh(world)));
    }
    all
}

/// Changes of a desk with frames at 5, which waits, 9, which does not, and 30, which waits.
type Forged = fn(&mut DeskNumbers);

fn number(desk: &mut DeskNumbers, camera: usize, at: usize) -> &mut u32 {
    &mut desk.numbers[NUMBERS * camera + at]
}

const FORGED: [(&str, Forged); 47] = [
    ("as a call left it", |_| {}),
    ("camera 31 asked first", |d| d.numbers[FIRST] = 31),
    ("camera 32 asked first", |d| d.numbers[FIRST] = 32),
    ("camera 38 asked first", |d| d.numbers[FIRST] = 38),
    ("camera 2^32 - 1 asked first", |d| {
        d.numbers[FIRST] = u32::MAX
    }),
    ("camera 2^31 + 9 asked first", |d| {
        d.numbers[FIRST] = (1 << 31) + 9
    }),
    ("camera 38 asked first, none waiting", |d| {
        d.numbers[FIRST] = 38;
        (*number(d, 5, 0), *number(d, 30, 0)) = (1, 1);
    }),
    ("first number 0 at 5", |d| *number(d, 5, 0) = 0),
    ("first number 3 at 5", |d| *number(d, 5, 0) = 3),
    ("first number 257 at 5", |d| *number(d, 5, 0) = 257),
    ("first number 258 at 5", |d| *number(d, 5, 0) = 258),
    ("first number 2^32 - 1 at 5", |d| {
        *number(d, 5, 0) = u32::MAX
    }),
    ("first number 1 at 5", |d| *number(d, 5, 0) = 1),
    ("first number 2 at 9", |d| *number(d, 9, 0) = 2),
    ("first number 1 at 0, all else 0", |d| d.numbers[0] = 1),
    ("first number 2 at 0, all else 0", |d| d.numbers[0] = 2),
    ("rows done past the height at 5", |d| *number(d, 5, 1) = 4),
    ("rows done at the height at 5", |d| *number(d, 5, 1) = 3),
    ("rows done at the height at 9", |d| *number(d, 9, 1) = 3),
    ("2^32 - 1 rows done at 5", |d| *number(d, 5, 1) = u32::MAX),
    ("one row done at 5", |d| *number(d, 5, 1) = 1),
    ("no width at 5", |d| *number(d, 5, 4) = 0),
    ("no height at 5", |d| *number(d, 5, 5) = 0),
    ("16,385 columns at 5", |d| *number(d, 5, 4) = 16_385),
    ("a window outside at 5", |d| *number(d, 5, 15) = 1),
    ("a source too large at 9", |d| *number(d, 9, 18) = 20_000),
    ("order 4 at 5", |d| *number(d, 5, 6) = 4),
    ("order 257 at 5", |d| *number(d, 5, 6) = 257),
    ("sampling 2 at 5", |d| *number(d, 5, 7) = 2),
    ("sampling 257 at 9", |d| *number(d, 9, 7) = 257),
    ("range 2 at 5", |d| *number(d, 5, 8) = 2),
    ("range 2^32 - 1 at 9", |d| *number(d, 9, 8) = u32::MAX),
    ("matrix 7 at 5", |d| *number(d, 5, 9) = 7),
    ("matrix 262 at 5", |d| {
        *number(d, 5, 9) = 262;
        d.customs[10..12].copy_from_slice(&[0.25, 0.25]);
    }),
    ("transfer 4 at 5", |d| *number(d, 5, 10) = 4),
    ("transfer 258 at 9", |d| *number(d, 9, 10) = 258),
    ("rounding 2 at 5", |d| *number(d, 5, 14) = 2),
    ("rounding 2^31 + 1 at 9", |d| {
        *number(d, 9, 14) = (1 << 31) + 1
    }),
    ("every code 255 at 5 and 9", |d| {
        for camera in [5, 9] {
            for at in [6, 7, 8, 9, 10, 14] {
                *number(d, camera, at) = 255;
            }
        }
    }),
    ("kr and kb without Custom at 5 and 9", |d| {
        for k in [10, 11, 18, 19] {
            d.customs[k] = 0.25;
        }
    }),
    ("Custom with kr 0.75 at 5", |d| {
        *number(d, 5, 9) = 6;
        d.customs[10..12].copy_from_slice(&[0.75, 0.25]);
    }),
    ("Custom with kr and kb at 5 and 9", |d| {
        for camera in [5, 9] {
            *number(d, camera, 9) = 6;
        }
        d.customs[10..12].copy_from_slice(&[0.25, 0.125]);
        d.customs[18..20].copy_from_slice(&[0.5, -0.0]);
    }),
    ("the parts of 9 those of 5", |d| {
        let parts: [u64; 8] = *d.parts[PARTS * 5 + 2..].first_chunk().expect("eight");
        d.parts[PARTS * 9 + 2..][..8].copy_from_slice(&parts);
    }),
    ("Y of 30 from the second byte of 5", |d| {
        d.parts[PARTS * 30 + 2] = d.parts[PARTS * 5 + 2] + 1;
    }),
    ("V of 5 far outside", |d| d.parts[PARTS * 5 + 6] = u64::MAX),
    ("2^64 - 1 bytes of the source at 5", |d| {
        d.parts[PARTS * 5 + 1] = u64::MAX
    }),
    ("numbers left in the free place of 2", |d| {
        d.numbers[NUMBERS * 2 + 1..][..18].fill(7);
        d.customs[4..6].fill(0.5);
        d.parts[PARTS * 2..][..PARTS].fill(9);
    }),
];

fn made_by_no_call() -> Vec<Listed> {
    let frame = good_frame();
    let mut all = Vec::new();
    for (why, change) in FORGED {
        let random = &mut Random::new(SEED, 950, 0);
        let mut world = World::new(random, 1, 60, NEVER);
        for camera in [5, 9, 30] {
            open_frame(&mut world, camera, &frame);
        }
        for camera in [30, 5] {
            offer_rows(&mut world, camera, &frame, 0..1);
        }
        let delivered: Vec<Ask> = (world.asks.drain(..))
            .filter(|ask| matches!(ask, Ask::Deliver { .. }))
            .collect();
        change(&mut world.desk);
        let desk = world.desk;
        for ask in delivered {
            world.ask(ask);
        }
        // A refused offer, one step, an accepted offer, an opening, more steps.
        let place = [u64::MAX, 1, 0];
        let (camera, band) = (9, [1, 6]);
        world.ask(Ask::Offer {
            camera,
            band,
            place,
        });
        world.step();
        offer_rows(&mut world, 9, &frame, 0..1);
        if let Some(opening) = world.opening_of(2, &frame) {
            world.ask(Ask::Open(opening));
        }
        steps(&mut world, 3);
        if let Some(opening) = world.opening_of(5, &frame) {
            world.ask(Ask::Open(opening));
        }
        offer_rows(&mut world, 5, &frame, 1..3);
        offer_rows(&mut world, 30, &frame, 1..3);
        steps(&mut world, 3);
        all.push(listed(why, plain(world, desk)));
    }
    all
}

/// As many cameras as there may be.
fn full() -> Vec<Listed> {
    let cameras: Vec<u32> = (0..32).collect();
    let dark = painted(1, 1, bt601(YuvRange::Full), |_, _| [9, 8, 7]);
    let history = told_by(960, 1, 200, |world| {
        for camera in &cameras {
            open_frame(world, *camera, &dark);
        }
        for camera in cameras.iter().rev() {
            world.offer_bytes(*camera, [1, 3], vec![8 * *camera as u8; 3]);
        }
        steps(world, 33);
    });
    let mut all = vec![listed(
        "all waiting, offered from the last to the first",
        history,
    )];
    for case in 0..2 {
        let random = &mut Random::new(SEED, 961, case);
        let mut world = World::new(random, 2, 500, 20);
        world.full(30);
        all.push(listed(
            "each delivers again when it was served",
            fresh(world),
        ));
    }
    all
}

/// Random ones that are short.
fn any() -> Vec<Listed> {
    let made = (0..).map(|case| History::random(&mut Random::new(SEED, 970, case)));
    let short = |history: &History| {
        let bytes = history.buffers.iter().map(Vec::len).sum::<usize>();
        let delivered = |ask: &Ask| match ask {
            Ask::Deliver { bytes, .. } => bytes.len(),
            _ => 0,
        };
        let delivered = history.asks.iter().map(delivered).sum::<usize>();
        bytes + delivered <= 2_400 && (10..=50).contains(&history.asks.len()) && fits(history)
    };
    let plain = |mut history: History| {
        for (buffer, length) in history.buffers.iter_mut().zip(LENGTHS) {
            *buffer = repeated(&buffer[..buffer.len().min(5)], length);
        }
        history
    };
    made.filter(short)
        .take(36)
        .map(|history| listed("any", plain(history)))
        .collect()
}

/// The desk and the buffers after a call, and what it told.
struct Left {
    told: Told,
    desk: DeskNumbers,
    buffers: Five,
}

/// A history, and what its calls must come to.
struct Vector {
    listed: Listed,
    left: Vec<Left>,
}

/// All calls of a history, each on what the one before left.
fn played(
    history: &History,
    mut ask: impl FnMut(&mut DeskNumbers, &Ask, [&mut [u8]; 5]) -> Result<Told, String>,
    mut after: impl FnMut(usize, &Told, &DeskNumbers, &Five) -> bool,
) -> Result<(), String> {
    let (mut desk, mut buffers) = (history.desk, history.buffers.clone());
    for (at, one) in history.asks.iter().enumerate() {
        if let Ask::Deliver { offset, bytes } = one {
            buffers[0][*offset..][..bytes.len()].copy_from_slice(bytes);
        }
        let mut lengths = match one {
            Ask::Step { lent } => lent.to_vec(),
            _ => vec![0; 5],
        }
        .into_iter();
        let lent = (buffers.each_mut()).map(|buffer| {
            let length = lengths.next().unwrap_or(0).min(buffer.len());
            &mut buffer[..length]
        });
        let told = ask(&mut desk, one, lent)?;
        if !after(at, &told, &desk, &buffers) {
            break;
        }
    }
    Ok(())
}

/// The bits of a kr or kb; any NaN as one.
fn bits(k: f32) -> u32 {
    if k.is_nan() { 0x7fc0_0000 } else { k.to_bits() }
}

fn same_desk(a: &DeskNumbers, b: &DeskNumbers) -> bool {
    let customs = a.customs.map(bits) == b.customs.map(bits);
    a.numbers == b.numbers && customs && a.parts == b.parts
}

fn vectors(converters: &Converters) -> Result<Vec<Vector>, String> {
    let model = &*converters[0];
    let mut vectors = Vec::new();
    for listed in histories() {
        let wrong = |wrong: String| {
            let text = listed.history.text();
            format!("desk history, {}: {wrong}\n{text}", listed.why)
        };
        checked(&listed.history, converters).map_err(wrong)?;
        let mut left = Vec::new();
        let by_calls = |desk: &mut DeskNumbers, ask: &Ask, lent: [&mut [u8]; 5]| {
            Ok(called(model, desk, ask, lent))
        };
        played(&listed.history, by_calls, |_, told, desk, buffers| {
            left.push(Left {
                told: *told,
                desk: *desk,
                buffers: buffers.clone(),
            });
            true
        })?;
        vectors.push(Vector { listed, left });
    }
    complete(&vectors)?;
    Ok(vectors)
}

impl Vector {
    /// Its calls, in their order, with what each came to.
    fn calls(&self) -> impl Iterator<Item = (usize, &Ask, &Left)> + Clone {
        let asks = self.listed.history.asks.iter().zip(&self.left);
        let all = (1..).zip(asks).map(|(at, (ask, left))| (at, ask, left));
        all.filter(|(_, ask, _)| !matches!(ask, Ask::Deliver { .. }))
    }
}

fn kind(ask: &Ask) -> &'static str {
    match ask {
        Ask::Open(_) => "openings",
        Ask::Offer { .. } => "offers",
        Ask::Step { .. } => "steps",
        Ask::Deliver { .. } => "deliveries",
    }
}

/// The answers of each kind of call, and how many there are of each.
fn answers(vectors: &[Vector]) -> BTreeMap<&'static str, BTreeMap<u64, usize>> {
    let mut answers: BTreeMap<_, BTreeMap<u64, usize>> = BTreeMap::new();
    for (_, ask, left) in vectors.iter().flat_map(Vector::calls) {
        let of_kind = answers.entry(kind(ask)).or_default();
        *of_kind.entry(left.told[0]).or_default() += 1;
    }
    answers
}

/// What the list must have.
fn complete(vectors: &[Vector]) -> Result<(), String> {
    let numbers = |ask: &Ask| match ask {
        Ask::Open(opening) => opening.described.len(),
        _ => 0,
    };
    let fits = |vector: &Vector| {
        let history = &vector.listed.history;
        history.buffers.each_ref().map(Vec::len) == LENGTHS
            && history.asks.iter().all(|ask| numbers(ask) <= MOST_NUMBERS)
    };
    let answers = answers(vectors);
    let has = |kind: &str, numbers: &[u64]| {
        let of_kind = answers.get(kind);
        of_kind.is_some_and(|answers| answers.keys().eq(numbers))
    };
    let every = vectors.iter().flat_map(Vector::calls);
    let none = |(_, ask, left): (_, &Ask, &Left)| kind(ask) == "steps" && left.told[3] == 0;
    let cameras: BTreeSet<u64> = (every.clone())
        .filter(|(_, _, left)| left.told[3] == 1)
        .map(|(_, _, left)| left.told[4])
        .collect();
    let steps = [0, 2, 3, 4, 5, 6, 7, 8, 9, 10, 11, 12, 13, 14, 18];
    for (has, what) in [
        (
            vectors.iter().all(fits),
            "histories that the program can lend",
        ),
        (
            has("openings", &[0, 1, 2, 3, 4, 14, 18, 21, 23]),
            "every answer of an opening",
        ),
        (has("offers", &[0, 18, 21, 22]), "every answer of an offer"),
        (has("steps", &steps), "every answer of a step"),
        (every.clone().any(none), "a step with none waiting"),
        (cameras.len() == 32, "every camera"),
        (
            stored(vectors).len() <= LONGEST_LIST,
            "500,000 bytes at most",
        ),
    ] {
        if !has {
            return Err(format!("the list of desk histories lacks {what}"));
        }
    }
    Ok(())
}

// The files.

fn wide(numbers: &[u64]) -> Vec<u32> {
    let halves = |number: &u64| [*number as u32, (*number >> 32) as u32];
    numbers.iter().flat_map(halves).collect()
}

/// The places of a list that are not 0, and what stands there.
fn put_places(stored: &mut Stored, places: Vec<(usize, Vec<u32>)>) {
    let places: Vec<_> = (places.into_iter())
        .filter(|(_, numbers)| numbers.iter().any(|number| *number != 0))
        .collect();
    stored.lengths([places.len()]);
    for (at, numbers) in places {
        stored.lengths([at]);
        stored.numbers(&numbers);
    }
}

fn stored(vectors: &[Vector]) -> Vec<u8> {
    let mut stored = Stored::default();
    stored.lengths([vectors.len()]);
    for vector in vectors {
        let history = &vector.listed.history;
        for buffer in &history.buffers {
            stored.block(buffer);
        }
        let DeskNumbers {
            numbers,
            customs,
            parts,
        } = &history.desk;
        let of = |number: &u32| vec![*number];
        put_places(&mut stored, numbers.iter().map(of).enumerate().collect());
        let of = |k: &f32| vec![k.to_bits()];
        put_places(&mut stored, customs.iter().map(of).enumerate().collect());
        let of = |number: &u64| wide(&[*number]);
        put_places(&mut stored, parts.iter().map(of).enumerate().collect());
        stored.lengths([history.asks.len()]);
        for ask in &history.asks {
            put_ask(&mut stored, ask);
        }
    }
    stored.0
}

fn put_ask(stored: &mut Stored, ask: &Ask) {
    match ask {
        Ask::Open(o) => {
            stored.numbers(&[0, o.camera]);
            stored.numbers(&o.custom.map(f32::to_bits));
            stored.numbers(&wide(&o.parts));
            stored.numbers(&wide(&o.lengths));
            stored.lengths([o.described.len()]);
            stored.numbers(&o.described);
        }
        Ask::Offer {
            camera,
            band,
            place,
        } => {
            stored.numbers(&[1, *camera]);
            stored.numbers(band);
            stored.numbers(&wide(place));
        }
        Ask::Step { lent } => {
            stored.numbers(&[2]);
            stored.lengths(*lent);
        }
        Ask::Deliver { offset, bytes } => {
            stored.numbers(&[3]);
            stored.lengths([*offset, bytes.len()]);
            stored.block(bytes);
        }
    }
}

/// What is printed of a call, behind its places.
fn line(ask: &Ask, left: &Left) -> String {
    let [number, expected, received, served, camera] = left.told;
    let DeskNumbers {
        numbers,
        customs,
        parts,
    } = &left.desk;
    let lists = [&numbers[..], &customs.map(bits), &wide(parts)].concat();
    let bytes: Vec<u8> = (lists.iter())
        .flat_map(|number| number.to_le_bytes())
        .collect();
    let desk = digest("desk", &bytes);
    let [_, y, u, v, carried] = &left.buffers;
    match ask {
        Ask::Step { .. } => {
            let buffers = [
                digest("y", y),
                digest("u", u),
                digest("v", v),
                digest("carried", carried),
            ]
            .concat();
            let told = format!("{number} {expected} {received} served={served} camera={camera}");
            format!("{told}{buffers}{desk}")
        }
        Ask::Open(_) => format!("{number} {expected} {received}{desk}"),
        _ => format!("{number}{desk}"),
    }
}

fn expected(vectors: &[Vector]) -> String {
    let mut text = String::new();
    for (vector, place) in vectors.iter().zip(1..) {
        for (at, ask, left) in vector.calls() {
            let _ = writeln!(text, "{place}.{at} {}", line(ask, left));
        }
    }
    text
}

/// How many there are, and the calls of each kind, accepted and refused with each number.
fn counts(vectors: &[Vector]) -> String {
    let mut kinds = Vec::new();
    let by_kind = answers(vectors);
    for kind in ["openings", "offers", "steps"] {
        let mut answers = by_kind.get(kind).cloned().unwrap_or_default();
        let all: usize = answers.values().sum();
        let accepted = answers.remove(&0).unwrap_or(0);
        let refused: Vec<String> = (answers.iter())
            .map(|(number, count)| format!("{number}: {count}"))
            .collect();
        let none = |(_, ask, left): &(_, &Ask, &Left)| {
            matches!(ask, Ask::Step { .. }) && left.told[3] == 0
        };
        let accepted = match kind {
            "steps" => {
                let none = vectors.iter().flat_map(Vector::calls).filter(none).count();
                format!("{} served, {none} with none waiting", accepted - none)
            }
            _ => format!("{accepted} accepted"),
        };
        kinds.push(format!(
            "{all} {kind} ({accepted}, refused {})",
            refused.join(", ")
        ));
    }
    format!(
        "{} histories of a front desk: {}",
        vectors.len(),
        kinds.join(", ")
    )
}

/// A word for each call: `o` an opening, `b` a band offered, each with its answer; `s` a step, with the camera and its
/// answer, or a dash for none.
fn words(vector: &Vector) -> String {
    let word = |(_, ask, left): (_, &Ask, &Left)| match (ask, left.told) {
        (Ask::Open(_), [number, ..]) => format!("o{number}"),
        (Ask::Offer { .. }, [number, ..]) => format!("b{number}"),
        (_, [_, _, _, 0, _]) => "s-".to_string(),
        (_, [number, _, _, _, camera]) => format!("s{camera}:{number}"),
    };
    let words: Vec<String> = vector.calls().map(word).collect();
    words.join(" ")
}

/// A line for each history, without the bytes.
fn index(vectors: &[Vector], bytes: usize) -> String {
    let mut groups: Vec<(&str, usize)> = Vec::new();
    for vector in vectors {
        match groups.last_mut() {
            Some((group, count)) if *group == vector.listed.group => *count += 1,
            _ => groups.push((vector.listed.group, 1)),
        }
    }
    let groups: Vec<String> = (groups.iter())
        .map(|(group, count)| format!("{group} {count}"))
        .collect();
    let mut text = format!(
        "# The histories of crates/replay_desk/stdin, made by vectors/make; README.md says how.\n\
         # {} in {bytes} bytes.\n\
         # {}.\n\
         # number | what it is for | its calls: o opening, b band offered, s step, and the answer of each\n",
        counts(vectors),
        groups.join(", "),
    );
    for (vector, place) in vectors.iter().zip(1..) {
        let Listed { group, why, .. } = &vector.listed;
        let what = match group == why {
            true => why.clone(),
            false => format!("{group}: {why}"),
        };
        let _ = writeln!(text, "{place} | {what} | {}", words(vector));
    }
    text
}

fn files(vectors: &[Vector]) -> [(&'static str, Vec<u8>); 3] {
    let stored = stored(vectors);
    let index = index(vectors, stored.len());
    let expected = expected(vectors).into_bytes();
    [
        ("vectors/desk.txt", index.into_bytes()),
        ("crates/replay_desk/stdout", expected),
        ("crates/replay_desk/stdin", stored),
    ]
}

pub fn write(root: &Path, converters: &Converters) -> Result<String, String> {
    let vectors = vectors(converters)?;
    for (file, bytes) in files(&vectors) {
        std::fs::write(root.join(file), bytes).map_err(|error| format!("{file}: {error}"))?;
    }
    Ok(format!("{} desk histories written", vectors.len()))
}

/// The list's line in the README.
fn readme_line(vectors: &[Vector]) -> String {
    let counts = counts(vectors);
    format!("| `crates/replay_desk/stdin` | {counts} | `replay_desk` | `desk.txt` |")
}

/// Whether the files are those that `write` writes, and the README counts them so and has the table of the mistakes.
pub fn check(root: &Path, converters: &Converters) -> Result<String, String> {
    let vectors = vectors(converters)?;
    let read =
        |file: &str| std::fs::read(root.join(file)).map_err(|error| format!("{file}: {error}"));
    for (file, bytes) in files(&vectors) {
        equal_bytes("what is made", file, &read(file)?, &bytes)?;
    }
    let readme = "vectors/README.md";
    let text = String::from_utf8_lossy(&read(readme)?).into_owned();
    let mut lines = mistake_lines(&vectors, &*converters[0])?;
    lines.push(readme_line(&vectors));
    for line in lines {
        if !text.lines().any(|other| other == line) {
            return Err(format!("{readme} lacks the line: {line}"));
        }
    }
    Ok(format!("{} desk histories, as made", vectors.len()))
}

/// Which history catches each mistake first, and how many do; and the list's line.
pub fn report(converters: &Converters) -> Result<String, String> {
    let vectors = vectors(converters)?;
    let mut lines = mistake_lines(&vectors, &*converters[0])?;
    lines.push(readme_line(&vectors));
    Ok(lines.join("\n"))
}

/// The first call of a history that shows the mistake.
fn caught(
    vector: &Vector,
    mistake: Mistake,
    model: &dyn Converter,
) -> Result<Option<usize>, String> {
    let history = &vector.listed.history;
    let mut second = Second::new(mistake, model, &history.desk);
    let mut caught = None;
    played(
        history,
        |desk, ask, lent| second.ask(desk, ask, lent),
        |at, told, desk, buffers| {
            let should = &vector.left[at];
            let same =
                *told == should.told && same_desk(desk, &should.desk) && *buffers == should.buffers;
            if !same {
                caught = Some(at + 1);
            }
            same
        },
    )?;
    Ok(caught)
}

/// The first history that catches each mistake, and how many do.
fn mistake_lines(vectors: &[Vector], model: &dyn Converter) -> Result<Vec<String>, String> {
    let catching = |mistake: Mistake| -> Result<Vec<usize>, String> {
        let mut catching = Vec::new();
        for (vector, place) in vectors.iter().zip(1..) {
            if caught(vector, mistake, model)?.is_some() {
                catching.push(place);
            }
        }
        Ok(catching)
    };
    if let [place, ..] = catching(Mistake::NoMistake)?[..] {
        let call = caught(&vectors[place - 1], Mistake::NoMistake, model)?;
        return Err(format!(
            "desk history {place}, without a mistake: call {call:?}"
        ));
    }
    let (mut lines, mut missing) = (Vec::new(), Vec::new());
    for (mistake, what) in MISTAKES {
        match &catching(mistake)?[..] {
            [first, others @ ..] => {
                lines.push(format!("| {what} | {first} | {} |", others.len() + 1));
            }
            [] => missing.push(what),
        }
    }
    match missing.is_empty() {
        true => Ok(lines),
        false => Err(format!("no desk history catches: {}", missing.join("; "))),
    }
}
