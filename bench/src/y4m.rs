//! Y4M files: writing one beside the copying of its bytes, at once and picture by picture, and checking one.
use crate::Bars;
use crate::shift::{least, planes};
use segvartin::{Y4mFile, YuvChromaSubsampling, YuvPlanarImageMut, write_y4m, y4m_picture, y4m_picture_size, y4m_size};
use std::hint::black_box;

/// Of 1,920 x 1,080: 933 MB in 4:2:0, and as many for the file.
const PICTURES: usize = 300;

const TURNS: usize = 15;
const TURNS_OF_CHECKS: usize = 200;
const TURNS_OF_PICTURES: usize = 200;

// What is asked of the figures: times memcpy; nanoseconds to check a picture of any size.
const MOST_OVER_COPY: f64 = 2.;
const MOST_OF_CHECK: f64 = 1000.;

/// A file, and the planes that it is made of.
struct File {
    width: u32,
    height: u32,
    sampling: YuvChromaSubsampling,
    count: usize,
    planes: Vec<u8>,
    file: Vec<u8>,
}

impl File {
    /// Of one picture of noise again and again. The second writing finds all memory in place.
    fn new(width: u32, height: u32, sampling: YuvChromaSubsampling, count: usize) -> File {
        let image = planes(width, height, sampling, 0);
        let one = [image.y_plane.borrow(), image.u_plane.borrow(), image.v_plane.borrow()].concat();
        let planes = one.repeat(count);
        let file = vec![0; y4m_size(width, height, sampling, &planes).unwrap()];
        let mut both = File { width, height, sampling, count, planes, file };
        both.ours();
        both
    }

    /// The bytes of a picture.
    fn each(&self) -> usize {
        self.planes.len() / self.count
    }

    /// Its planes are those that are read.
    fn check(&self) {
        let read = Y4mFile::open(&self.file).unwrap();
        assert_eq!(read.len(), self.count);
        for (is, should) in read.pictures().zip(self.planes.chunks(self.each())) {
            let (y, others) = should.split_at(is.y.len());
            let (u, v) = others.split_at(is.u.len());
            assert!((is.y, is.u, is.v) == (y, u, v), "its planes are read back as others");
        }
    }

    fn ours(&mut self) {
        write_y4m(self.width, self.height, self.sampling, &self.planes, &mut self.file).unwrap();
    }

    /// The same bytes to the same place.
    fn copied(&mut self) {
        let start = self.file.len() - self.planes.len();
        self.file[start..].copy_from_slice(&self.planes);
    }

    /// Picture by picture, each to its place. Where libc copies very many bytes at once past the caches, these still go through them.
    fn copied_by_pictures(&mut self) {
        let each = self.each();
        let start = self.file.len() - self.count * (6 + each);
        for (to, from) in self.file[start..].chunks_mut(6 + each).zip(self.planes.chunks(each)) {
            to[6..].copy_from_slice(from);
        }
    }
}

/// A picture, and what is left of the planes where their rows are copied one by one.
struct Picture {
    sampling: YuvChromaSubsampling,
    image: YuvPlanarImageMut<'static, u8>,
    picture: Vec<u8>,
}

impl Picture {
    fn new(sampling: YuvChromaSubsampling, padding: u32) -> Picture {
        let image = planes(1920, 1080, sampling, padding);
        let picture = vec![0; y4m_picture_size(sampling, &image).unwrap()];
        Picture { sampling, image, picture }
    }

    fn ours(&mut self) {
        y4m_picture(self.sampling, &self.image, &mut self.picture).unwrap();
    }

    /// The rows behind the six bytes of FRAME, each by memcpy.
    fn copied(&mut self) {
        let Picture { image, picture, .. } = self;
        let mut rest = &mut picture[6..];
        let chroma = image.width.div_ceil(2);
        for (plane, stride, width) in
            [(&image.y_plane, image.y_stride, image.width), (&image.u_plane, image.u_stride, chroma), (&image.v_plane, image.v_stride, chroma)]
        {
            for row in plane.borrow().chunks(stride as usize) {
                let (to, others) = rest.split_at_mut(width as usize);
                to.copy_from_slice(&row[..width as usize]);
                rest = others;
            }
        }
    }
}

fn name(sampling: YuvChromaSubsampling) -> &'static str {
    match sampling {
        YuvChromaSubsampling::Yuv420 => "4:2:0",
        YuvChromaSubsampling::Yuv422 => "4:2:2",
    }
}

pub fn report(bars: &mut Bars) {
    use YuvChromaSubsampling::{Yuv420, Yuv422};
    println!("\na Y4M file written, ms, beside memcpy of the bytes of its planes; least of {TURNS} turns; bar: {MOST_OVER_COPY} times memcpy");
    println!(
        "{:<14}{:<8}{:>9}{:>12}{:>9}{:>13}{:>9}{:>7}{:>15}{:>7}",
        "pictures of", "chroma", "pictures", "bytes", "memcpy", "by pictures", "written", "times", "by pictures", "GB/s"
    );
    let files = [(1920, 1080, Yuv420, PICTURES), (1920, 1080, Yuv422, PICTURES * 3 / 4), (640, 480, Yuv420, 1400), (64, 48, Yuv420, 4096)];
    for (width, height, sampling, count) in files {
        let mut file = File::new(width, height, sampling, count);
        file.check();
        let size = file.planes.len();
        let large = size > 100_000_000;
        let [copied, by_pictures, written] = least(&mut file, TURNS, [&File::copied, &File::copied_by_pictures, &File::ours]);
        // What the caches hold is shown only.
        let said = if large { bars.hold(written <= MOST_OVER_COPY * copied) } else { "" };
        println!(
            "{:<14}{:<8}{count:>9}{size:>12}{copied:>9.2}{by_pictures:>13.2}{written:>9.2}{:>7.2}{:>15.2}{:>7.2}{said}",
            format!("{width} x {height}"),
            name(sampling),
            written / copied,
            written / by_pictures,
            size as f64 / written / 1e6
        );
    }

    println!("\na picture of 1,920 x 1,080 from planes, ms, beside memcpy of each row; least of {TURNS_OF_PICTURES}; bar: {MOST_OVER_COPY} times");
    println!("{:<24}{:<8}{:>9}{:>9}{:>8}", "", "chroma", "memcpy", "picture", "times");
    for (padded, padding) in [("no padding", 0), ("64 bytes behind a row", 64)] {
        for sampling in [Yuv420, Yuv422] {
            let mut picture = Picture::new(sampling, padding);
            picture.ours();
            let ours = picture.picture.clone();
            picture.copied();
            assert!(picture.picture == ours, "the rows of the picture are others");
            let [copied, made] = least(&mut picture, TURNS_OF_PICTURES, [&Picture::copied, &Picture::ours]);
            let said = bars.hold(made <= MOST_OVER_COPY * copied);
            println!("{padded:<24}{:<8}{copied:>9.3}{made:>9.3}{:>8.2}{said}", name(sampling), made / copied);
        }
    }

    println!("\na Y4M file checked, ns a picture; least of {TURNS_OF_CHECKS} turns; bar: {MOST_OF_CHECK} ns, whatever the size of the planes");
    println!("{:<14}{:>9}{:>15}{:>14}", "pictures of", "pictures", "bytes each", "ns a picture");
    for (width, height, count) in [(1, 1, 100_000), (64, 48, 4096), (320, 240, 4096), (640, 480, 2000), (1920, 1080, PICTURES), (16384, 16384, 2)] {
        let File { planes, mut file, .. } = File::new(width, height, Yuv420, count);
        let each = planes.len() / count;
        drop(planes);
        let [time] = least(&mut file, TURNS_OF_CHECKS, [&|file| assert_eq!(black_box(Y4mFile::open(file)).unwrap().len(), count)]);
        let time = time * 1e6 / count as f64;
        let said = bars.hold(time <= MOST_OF_CHECK);
        println!("{:<14}{count:>9}{each:>15}{time:>14.1}{said}", format!("{width} x {height}"));
    }
}
