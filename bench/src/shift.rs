//! Shift files: writing one and moving one from form to form beside the copying of its bytes, checking one, and making a record from planes.
use crate::Bars;
use segvartin::{
    BufferStoreMut, ShiftFile, YuvChromaSubsampling, YuvPlanarImageMut, move_back, move_forward, moved_forward_size, shift_file_size, shift_record,
    shift_record_size, write_shift_file,
};
use std::hint::black_box;
use std::time::Instant;

/// Of 1,920 x 1,080: 933 MB, and as many for the file.
const RECORDS: usize = 300;

const TURNS: usize = 7;
const TURNS_OF_CHECKS: usize = 200;
const TURNS_OF_RECORDS: usize = 200;

// What is asked of the figures: times memcpy; nanoseconds to check a record of any size.
const MOST_OVER_COPY: f64 = 2.;
const MOST_OF_CHECK: f64 = 1000.;

/// The least time of each form, in milliseconds: they take turns.
pub fn least<S, const N: usize>(on: &mut S, turns: usize, forms: [&dyn Fn(&mut S); N]) -> [f64; N] {
    let mut least = [f64::MAX; N];
    for _ in 0..turns {
        for (form, time) in forms.iter().zip(&mut least) {
            let start = Instant::now();
            form(on);
            *time = time.min(start.elapsed().as_secs_f64() * 1e3);
        }
    }
    least
}

/// Planes of noise, their rows so many bytes further apart than they must be.
pub fn planes(width: u32, height: u32, sampling: YuvChromaSubsampling, padding: u32) -> YuvPlanarImageMut<'static, u8> {
    let mut image = YuvPlanarImageMut::<u8>::alloc(width, height, sampling);
    let mut state = 12345u32;
    let chroma_rows = match sampling {
        YuvChromaSubsampling::Yuv420 => height.div_ceil(2),
        YuvChromaSubsampling::Yuv422 => height,
    };
    for (plane, stride, rows) in [
        (&mut image.y_plane, &mut image.y_stride, height),
        (&mut image.u_plane, &mut image.u_stride, chroma_rows),
        (&mut image.v_plane, &mut image.v_stride, chroma_rows),
    ] {
        *stride += padding;
        let bytes = (0..*stride as usize * rows as usize).map(|_| {
            state = state.wrapping_mul(1664525).wrapping_add(1013904223);
            (state >> 24) as u8
        });
        *plane = BufferStoreMut::Owned(bytes.collect());
    }
    image
}

/// A record, and what is left of the planes where their rows are copied one by one.
struct Record {
    image: YuvPlanarImageMut<'static, u8>,
    record: Vec<u8>,
}

impl Record {
    fn new(width: u32, height: u32, padding: u32) -> Record {
        let image = planes(width, height, YuvChromaSubsampling::Yuv420, padding);
        let record = vec![0; shift_record_size(&image).unwrap()];
        Record { image, record }
    }

    fn ours(&mut self) {
        shift_record(1400, &self.image, &mut self.record).unwrap();
    }

    /// The rows behind eight bytes, each by memcpy.
    fn copied(&mut self) {
        let Record { image, record } = self;
        let mut rest = &mut record[8..];
        let chroma = image.width.div_ceil(2);
        for (plane, stride, width) in
            [(&image.y_plane, image.y_stride, image.width), (&image.u_plane, image.u_stride, chroma), (&image.v_plane, image.v_stride, chroma)]
        {
            for row in plane.borrow().chunks(stride as usize) {
                let (to, others) = rest.split_at_mut(width as usize);
                to.copy_from_slice(&row[..width as usize]);
                rest = others;
            }
        }
    }
}

/// A file, and the records that it is made of.
struct File {
    records: Vec<u8>,
    file: Vec<u8>,
}

impl File {
    /// Of one record again and again. The second writing finds all memory in place.
    fn new(record: &[u8], count: usize) -> File {
        let records = record.repeat(count);
        let file = vec![0; shift_file_size(&records).unwrap()];
        let mut both = File { records, file };
        both.ours();
        both
    }

    fn ours(&mut self) {
        write_shift_file(&self.records, &mut self.file).unwrap();
    }

    /// The same bytes to the same place.
    fn copied(&mut self) {
        let start = self.file.len() - self.records.len();
        self.file[start..].copy_from_slice(&self.records);
    }
}

/// A file without settings, the same with settings, and room for either.
struct Moved {
    old: Vec<u8>,
    new: Vec<u8>,
    room: Vec<u8>,
}

impl Moved {
    fn new(old: Vec<u8>) -> Moved {
        let mut new = vec![0; moved_forward_size(&old).unwrap()];
        move_forward(&old, &mut new).unwrap();
        let room = new.clone();
        Moved { old, new, room }
    }

    fn forward(&mut self) {
        move_forward(&self.old, &mut self.room).unwrap();
    }

    fn back(&mut self) {
        move_back(&self.new, &mut self.room).unwrap();
    }

    /// The bytes of the file without settings.
    fn copied(&mut self) {
        self.room[..self.old.len()].copy_from_slice(&self.old);
    }
}

fn moves(bars: &mut Bars) {
    println!("\na shift file moved forward and back, ms, beside memcpy of its bytes; least of {TURNS} turns; bar: {MOST_OVER_COPY} times memcpy");
    println!("{:<18}{:>9}{:>13}{:>9}{:>9}{:>8}{:>9}{:>8}", "records of", "records", "bytes", "memcpy", "forward", "times", "back", "times");
    for (width, height, count) in [(1920, 1080, RECORDS), (640, 480, 1400), (64, 48, 4096)] {
        let mut one = Record::new(width, height, 0);
        one.ours();
        let File { records, file } = File::new(&one.record, count);
        drop(records);
        let mut moved = Moved::new(file);
        moved.back();
        assert!(moved.room[..moved.old.len()] == moved.old, "moved back it is another file");
        let bytes = moved.old.len();
        let large = bytes > 100_000_000;
        let turns = if large { TURNS } else { 30 * TURNS };
        let [copied, forward, back] = least(&mut moved, turns, [&Moved::copied, &Moved::forward, &Moved::back]);
        // What the caches hold is shown only: a day is larger.
        let said = if large { bars.hold(forward.max(back) <= MOST_OVER_COPY * copied) } else { "" };
        let size = format!("{width} x {height}");
        println!("{size:<18}{count:>9}{bytes:>13}{copied:>9.2}{forward:>9.2}{:>8.2}{back:>9.2}{:>8.2}{said}", forward / copied, back / copied);
    }
}

pub fn report(bars: &mut Bars) {
    let mut one = Record::new(1920, 1080, 0);
    one.ours();
    let mut file = File::new(&one.record, RECORDS);
    let size = file.records.len();
    println!("\na shift file of {RECORDS} records of 1,920 x 1,080 written, ms, beside memcpy of its {size} bytes of records; least of {TURNS} turns; bar: {MOST_OVER_COPY} times memcpy");
    println!("{:<12}{:>9}{:>9}{:>8}{:>13}", "", "memcpy", "written", "times", "written GB/s");
    let [copied, written] = least(&mut file, TURNS, [&File::copied, &File::ours]);
    let said = bars.hold(written <= MOST_OVER_COPY * copied);
    println!("{:<12}{copied:>9.1}{written:>9.1}{:>8.2}{:>13.2}{said}", "", written / copied, size as f64 / written / 1e6);

    drop(file);
    moves(bars);

    println!("\na shift file checked, ns a record; least of {TURNS_OF_CHECKS} turns; bar: {MOST_OF_CHECK} ns, whatever the size of the planes");
    println!("{:<18}{:>9}{:>15}{:>12}", "records of", "records", "bytes each", "ns a record");
    for (width, height, count) in [(1, 1, 4096), (64, 48, 4096), (320, 240, 4096), (640, 480, 2000), (1920, 1080, RECORDS), (16384, 16384, 2)] {
        let mut one = Record::new(width, height, 0);
        one.ours();
        let File { records, mut file } = File::new(&one.record, count);
        drop(records);
        let [time] = least(&mut file, TURNS_OF_CHECKS, [&|file| assert_eq!(black_box(ShiftFile::open(file)).unwrap().len(), count)]);
        let each = time * 1e6 / count as f64;
        let said = bars.hold(each <= MOST_OF_CHECK);
        println!("{:<18}{count:>9}{:>15}{each:>12.1}{said}", format!("{width} x {height}"), one.record.len());
    }

    println!("\na record of 1,920 x 1,080 from planes, ms, beside memcpy of each row; least of {TURNS_OF_RECORDS} turns");
    println!("{:<24}{:>9}{:>9}{:>8}", "", "memcpy", "record", "times");
    for (name, padding) in [("no padding", 0), ("64 bytes behind a row", 64)] {
        let mut record = Record::new(1920, 1080, padding);
        record.ours();
        let ours = record.record.clone();
        record.copied();
        assert!(record.record == ours, "the rows of the record are others");
        let [copied, made] = least(&mut record, TURNS_OF_RECORDS, [&Record::copied, &Record::ours]);
        println!("{name:<24}{copied:>9.3}{made:>9.3}{:>8.2}", made / copied);
    }
}
