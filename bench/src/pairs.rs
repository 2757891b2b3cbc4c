//! Two shift files paired: a day of equal frames beside memcmp of the same bytes, and small records by their number.
use crate::Bars;
use crate::shift::least;
use segvartin::{pair_shift_files, shift_file_size, write_shift_file};
use std::hint::black_box;

const TURNS: usize = 7;
const TURNS_OF_SMALL: usize = 200;

// What is asked of the figures: times memcmp; the time for a record and each doubling of their number, of 4,096 over 1,024.
const MOST_OVER_MEMCMP: f64 = 2.;
const MOST_OVER_N_LOG_N: f64 = 1.5;

unsafe extern "C" {
    /// libc
    fn memcmp(a: *const u8, b: *const u8, len: usize) -> i32;
}

/// Two files with the same frames.
struct Day {
    ours: Vec<u8>,
    theirs: Vec<u8>,
    records: usize,
}

impl Day {
    /// So many records of one size, noise, with these crossings; in theirs they stand in the opposite order where that is asked.
    fn new(width: u16, height: u16, crossings: &[u32], opposite: bool) -> Day {
        let (w, h) = (usize::from(width), usize::from(height));
        let size = 8 + w * h + 2 * w.div_ceil(2) * h.div_ceil(2);
        let mut state = 12345u32;
        let mut records: Vec<u8> = Vec::with_capacity(crossings.len() * size);
        for crossing in crossings {
            records.extend(crossing.to_le_bytes());
            records.extend(width.to_le_bytes());
            records.extend(height.to_le_bytes());
            records.extend((8..size).map(|_| {
                state = state.wrapping_mul(1664525).wrapping_add(1013904223);
                (state >> 24) as u8
            }));
        }
        let ours = file_of(&records);
        let theirs = if opposite {
            let turned: Vec<u8> = records.chunks_exact(size).rev().flatten().copied().collect();
            file_of(&turned)
        } else {
            ours.clone()
        };
        Day { ours, theirs, records: crossings.len() }
    }

    fn paired(&mut self) {
        let report = black_box(pair_shift_files(&self.ours, &self.theirs)).unwrap();
        assert_eq!((report.equal, report.differing), (self.records, 0));
    }

    /// Of the two files as they stand.
    fn compared(&mut self) {
        // SAFETY: it reads as many bytes as both slices have.
        let order = unsafe { memcmp(self.ours.as_ptr(), self.theirs.as_ptr(), self.ours.len()) };
        assert_eq!(black_box(order), 0);
    }
}

fn file_of(records: &[u8]) -> Vec<u8> {
    let mut file = vec![0; shift_file_size(records).unwrap()];
    write_shift_file(records, &mut file).unwrap();
    file
}

/// Crossings as they come in a shift: none equal, in no order; all in order; three of them, or one, whose bytes are all unlike.
const ORDERS: [(&str, fn(u32) -> u32); 4] =
    [("no order", |k| k.wrapping_mul(2_654_435_761)), ("ascending", |k| k), ("three crossings", |k| k % 3), ("one crossing", |_| 8)];

pub fn report(bars: &mut Bars) {
    println!("\ntwo files with the same frames paired, ms, beside memcmp of their bytes; least of {TURNS} turns; bar: {MOST_OVER_MEMCMP} times memcmp");
    println!("{:<18}{:>9}{:>13}{:>9}{:>9}{:>8}{:>14}", "records of", "records", "bytes a file", "memcmp", "paired", "times", "paired GB/s");
    for (width, height, count, turns) in
        [(1920, 1080, 300, TURNS), (1919, 1079, 300, TURNS), (640, 480, 1400, TURNS), (320, 240, 4096, TURNS), (16384, 16384, 2, TURNS), (1920, 1080, 1, 30 * TURNS)]
    {
        let crossings: Vec<u32> = (0..count).map(ORDERS[0].1).collect();
        let mut day = Day::new(width, height, &crossings, false);
        let bytes = day.ours.len();
        let [compared, paired] = least(&mut day, turns, [&Day::compared, &Day::paired]);
        // What the caches hold is shown only: a day is larger.
        let said = if count == 1 { "" } else { bars.hold(paired <= MOST_OVER_MEMCMP * compared) };
        let size = format!("{width} x {height}");
        println!("{size:<18}{count:>9}{bytes:>13}{compared:>9.2}{paired:>9.2}{:>8.2}{:>14.2}{said}", paired / compared, bytes as f64 / paired / 1e6);
    }

    println!(
        "\nrecords of 1 x 1 paired, ns a record; where no two have one crossing, theirs stand in the opposite order; least of {TURNS_OF_SMALL} turns; bar: the time for a record and doubling, of 4,096 over 1,024, {MOST_OVER_N_LOG_N}"
    );
    println!("{:<18}{:>9}{:>9}{:>12}", "crossings", "records", "paired", "a doubling");
    for (name, crossing) in ORDERS {
        let mut first = 0.;
        for count in [1024u32, 2048, 4096] {
            let crossings: Vec<u32> = (0..count).map(crossing).collect();
            // Records of one crossing are unlike: there the opposite order would not be the same pairs.
            let mut day = Day::new(1, 1, &crossings, name == "no order" || name == "ascending");
            let [time] = least(&mut day, TURNS_OF_SMALL, [&Day::paired]);
            let each = time * 1e6 / f64::from(count);
            let doubling = each / f64::from(count.ilog2());
            if count == 1024 {
                first = doubling;
            }
            let said = bars.hold(doubling <= MOST_OVER_N_LOG_N * first);
            println!("{name:<18}{count:>9}{each:>9.1}{doubling:>12.2}{said}");
        }
    }
}
