//! Summaries of shift files: the means of large luma planes beside a loop in C, and building, checking, lookup and update by the number of records.
use crate::Bars;
use crate::shift::least;
use segvartin::{SUMMARY_ENTRY, ShiftFile, shift_file_size, write_shift_file};
use std::hint::black_box;

const TURNS: usize = 15;
const TURNS_OF_SMALL: usize = 200;

// What is asked of the figures: times the loop in C; the time for a record and each doubling of their number, of 4,096 over 1,024.
const MOST_OVER_LOOP: f64 = 2.;
const MOST_OVER_N_LOG_N: f64 = 1.5;

unsafe extern "C" {
    /// byte_sum.c
    fn byte_sum(bytes: *const u8, len: usize) -> u64;
}

/// A file, its summary with room for one entry more, and the record that an update adds.
struct Shift {
    file: Vec<u8>,
    summary: Vec<u8>,
    /// As the building left it.
    built: Vec<u8>,
    record: Vec<u8>,
}

impl Shift {
    /// So many records of one size, noise, with these crossings; the update's comes last.
    fn new(width: u16, height: u16, crossings: &[u32]) -> Shift {
        let (w, h) = (usize::from(width), usize::from(height));
        let planes = w * h + 2 * w.div_ceil(2) * h.div_ceil(2);
        let mut state = 12345u32;
        let mut records: Vec<u8> = Vec::with_capacity(crossings.len() * (8 + planes));
        for crossing in crossings {
            records.extend(crossing.to_le_bytes());
            records.extend(width.to_le_bytes());
            records.extend(height.to_le_bytes());
            records.extend((0..planes).map(|_| {
                state = state.wrapping_mul(1664525).wrapping_add(1013904223);
                (state >> 24) as u8
            }));
        }
        let record = records.split_off((crossings.len() - 1) * (8 + planes));
        let mut file = vec![0; shift_file_size(&records).unwrap()];
        write_shift_file(&records, &mut file).unwrap();
        let summary = vec![0; SUMMARY_ENTRY * crossings.len()];
        let mut shift = Shift { file, built: summary.clone(), summary, record };
        shift.build();
        shift.built.copy_from_slice(&shift.summary);
        shift
    }

    fn open(&self) -> ShiftFile<'_> {
        ShiftFile::open(&self.file).unwrap()
    }

    fn build(&mut self) {
        let file = ShiftFile::open(&self.file).unwrap();
        file.build_summary(&mut self.summary).unwrap();
    }

    fn check(&mut self) {
        assert!(black_box(self.open().check_summary(&self.built)));
    }

    /// Of a crossing that is not there, so that all are passed.
    fn find(&mut self) {
        assert!(black_box(self.open().find_record(&self.built, ABSENT)).unwrap().is_none());
    }

    /// Behind the copying of the summary as it was, which is little.
    fn update(&mut self) {
        self.summary.copy_from_slice(&self.built);
        let file = ShiftFile::open(&self.file).unwrap();
        file.update_summary(&self.record, &mut self.summary).unwrap();
    }

    /// The sums of all Y planes by the loop in C; their means must be those of the summary.
    fn sums(&mut self) {
        for record in self.open().records() {
            // SAFETY: it reads as many bytes as the slice has.
            black_box(unsafe { byte_sum(record.y.as_ptr(), record.y.len()) });
        }
    }

    fn luma(&self) -> usize {
        self.open().records().map(|record| record.y.len()).sum()
    }
}

const ABSENT: u32 = 5;

/// Crossings as they come in a shift: none equal, in no order; all in order; all the other way round; three of them; all the same.
const ORDERS: [(&str, fn(u32) -> u32); 5] = [
    ("no order", |k| k.wrapping_mul(2_654_435_761) | 8),
    ("ascending", |k| k + 8),
    ("descending", |k| 10_000 - k),
    ("three crossings", |k| k % 3 + 8),
    ("one crossing", |_| 8),
];

pub fn report(bars: &mut Bars) {
    println!(
        "\na summary built, ms, beside the sum of all luma bytes by a loop in C ({} -O3); least of {TURNS} turns; bar: {MOST_OVER_LOOP} times the loop",
        env!("BENCH_GCC")
    );
    println!("{:<18}{:>9}{:>12}{:>9}{:>9}{:>8}{:>13}", "records of", "records", "luma bytes", "loop", "built", "times", "built GB/s");
    let mut others = Vec::new();
    for (width, height, count, turns) in [(1920, 1080, 1, 10 * TURNS), (640, 480, 16, 10 * TURNS), (1920, 1080, 100, TURNS), (16384, 16384, 1, TURNS)] {
        let crossings: Vec<u32> = (0..=count).map(ORDERS[0].1).collect();
        let mut shift = Shift::new(width, height, &crossings);
        let luma = shift.luma();
        let [sums, built] = least(&mut shift, turns, [&Shift::sums, &Shift::build]);
        let said = bars.hold(built <= MOST_OVER_LOOP * sums);
        let size = format!("{width} x {height}");
        println!("{size:<18}{count:>9}{luma:>12}{sums:>9.3}{built:>9.3}{:>8.2}{:>13.2}{said}", built / sums, luma as f64 / built / 1e6);
        let [checked, found, updated] = least(&mut shift, turns, [&Shift::check, &Shift::find, &Shift::update]);
        others.push((size, count, checked, found, updated));
    }
    println!("\nthe same files: a summary checked, a crossing looked up, and an update, ms");
    println!("{:<18}{:>9}{:>9}{:>9}{:>9}", "records of", "records", "checked", "found", "updated");
    for (size, count, checked, found, updated) in others {
        println!("{size:<18}{count:>9}{checked:>9.3}{found:>9.3}{updated:>9.3}");
    }

    println!(
        "\nrecords of 1 x 1, ns a record; least of {TURNS_OF_SMALL} turns; bar: the time for a record and doubling, of 4,096 over 1,024, {MOST_OVER_N_LOG_N}"
    );
    println!("{:<18}{:>9}{:>9}{:>11}{:>9}{:>9}{:>9}", "crossings", "records", "built", "a doubling", "checked", "found", "updated");
    for (name, crossing) in ORDERS {
        let mut first = [0.; 4];
        for count in [1024u32, 2048, 4096] {
            // The update's record makes it so many.
            let crossings: Vec<u32> = (0..count).map(crossing).collect();
            let mut shift = Shift::new(1, 1, &crossings);
            let times = least(&mut shift, TURNS_OF_SMALL, [&Shift::build, &Shift::check, &Shift::find, &Shift::update]);
            let each = times.map(|time| time * 1e6 / f64::from(count));
            let doublings = f64::from(count.ilog2());
            if count == 1024 {
                first = each.map(|each| each / doublings);
            }
            let over = each.iter().zip(&first).all(|(each, first)| each / doublings <= MOST_OVER_N_LOG_N * first);
            let said = bars.hold(over);
            let [built, checked, found, updated] = each;
            println!("{name:<18}{count:>9}{built:>9.1}{:>11.2}{checked:>9.1}{found:>9.1}{updated:>9.1}{said}", built / doublings);
        }
    }
}
