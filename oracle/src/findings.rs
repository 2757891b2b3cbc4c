//! Runs the unaltered Rust where the rules have it otherwise, on the smallest inputs that show
//! it, and prints what it does. The lists of docs/DIFFERENCES.md are this program's.

use model::{
    Frame, Settings, SharpYuvGammaTransfer, TableRounding, Window, YuvChromaSubsampling, YuvRange,
    YuvSourceChannels, YuvStandardMatrix,
};
use oracle::unaltered;
use std::panic::{AssertUnwindSafe, catch_unwind};

fn main() {
    // Panics are among the findings; they are printed as such.
    std::panic::set_hook(Box::new(|_| {}));
    table_entries();
    lengths();
    sizes();
    custom();
    order();
    stored_sets();
}

/// Bt601 Full, Srgb, three bytes a pixel.
fn frame(w: u32, h: u32, sampling: YuvChromaSubsampling, strides: [u32; 4]) -> Frame {
    Frame {
        w,
        h,
        window: Window::whole(w, h),
        settings: Settings {
            channels: YuvSourceChannels::Rgb,
            sampling,
            range: YuvRange::Full,
            matrix: YuvStandardMatrix::Bt601,
            transfer: SharpYuvGammaTransfer::Srgb,
            rounding: TableRounding::Truncated,
        },
        source_stride: strides[0],
        y_stride: strides[1],
        u_stride: strides[2],
        v_stride: strides[3],
    }
}

/// For each table entry that differs, a smallest frame whose planes differ by it.
fn table_entries() {
    println!("## Table entries that differ, in a frame");
    println!();
    println!("Rgb, Bt601 Full, 4:2:0, one pixel wide. U and V of the unaltered Rust, and exact.");
    println!();
    println!("| transfer | table | index | pixels from the top | unaltered Rust | exact |");
    println!("|---|---|---|---|---|---|");
    for entry in oracle::differing_entries().0 {
        let (frame, source) = frame_showing(&entry).expect("an entry that no frame shows");
        let h = frame.h as usize;
        let planes = [unaltered::frame, oracle::exact::frame].map(|call| {
            let (mut y, mut u, mut v) = (vec![0; h], [0], [0]);
            call(&frame, &source, &mut y, &mut u, &mut v).expect("an accepted frame");
            (u[0], v[0])
        });
        let [rust, exact] = planes.map(|(u, v)| format!("{u} {v}"));
        let pixels = source.chunks_exact(3).map(|pixel| format!("{pixel:?}"));
        println!(
            "| {:?} | {} | {} | {} | {rust} | {exact} |",
            entry.transfer,
            entry.table,
            entry.index,
            pixels.collect::<Vec<_>>().join(" ")
        );
    }
    println!();
}

/// One pixel, or two above each other, that differ in one channel at most.
fn frame_showing(entry: &oracle::Entry) -> Option<(Frame, Vec<u8>)> {
    let exact = model::curves::tables(entry.transfer, TableRounding::Truncated);
    let rust = unaltered::tables(entry.transfer);
    let weights = unaltered::weights(YuvStandardMatrix::Bt601, YuvRange::Full, true);
    let index = |tables: &model::curves::Tables, a: u8, b: u8| {
        let [a, b] = [a, b].map(|v| u64::from(tables.linear[usize::from(v)]));
        model::row::interpolate([(12, a), (4, b)]) as usize
    };
    let equal = (0..=255).map(|v| (v, v));
    let unequal = (0..=255).flat_map(|a| (0..=255).map(move |b| (a, b)));
    for (a, b) in equal.chain(unequal) {
        let (i, j) = (index(&rust, a, b), index(exact, a, b));
        let shown = match entry.table {
            "linear" => [a, b].map(usize::from).contains(&entry.index),
            _ => i == entry.index,
        };
        let (k, l) = (rust.gamma[i], exact.gamma[j]);
        if !shown || k == l {
            continue;
        }
        for (channel, other) in (0..3).flat_map(|c| (0..=255).map(move |other| (c, other))) {
            let planes = |own: u8, other: u8| {
                let mut rgb = [i64::from(other); 3];
                rgb[channel] = i64::from(own);
                model::row::chroma(&weights, YuvRange::Full, rgb)
            };
            let flat = |tables: &model::curves::Tables| tables.gamma[index(tables, other, other)];
            if planes(k, flat(&rust)) != planes(l, flat(exact)) {
                let h = if a == b { 1 } else { 2 };
                let mut call = frame(1, h, YuvChromaSubsampling::Yuv420, [3, 1, 1, 1]);
                call.settings.transfer = entry.transfer;
                let mut source = vec![other; 3 * h as usize];
                source[channel] = a;
                source[3 * (h as usize - 1) + channel] = b;
                return Some((call, source));
            }
        }
    }
    None
}

/// Bytes of a plane before the call. No plane byte of the rows below has this value.
const UNWRITTEN: u8 = 9;

/// Pixels from the top: red, green, blue, white, and red again.
const ROWS: [[u8; 3]; 5] = [
    [255, 0, 0],
    [0, 255, 0],
    [0, 0, 255],
    [255, 255, 255],
    [255, 0, 0],
];

/// The unaltered Rust on a frame one pixel wide, source rows as `ROWS`: the planes, `.` for a byte
/// that was not written.
fn planes(frame: &Frame, lengths: [u64; 4]) -> String {
    let mut source: Vec<u8> = (ROWS.iter())
        .flat_map(|pixel| {
            let mut row = pixel.to_vec();
            row.resize(frame.source_stride as usize, 0);
            row
        })
        .collect();
    source.truncate(lengths[0] as usize);
    let [mut y, mut u, mut v] = [1, 2, 3].map(|i| vec![UNWRITTEN; lengths[i] as usize]);
    let call = || unaltered::frame(frame, &source, &mut y, &mut u, &mut v);
    let answer = match catch_unwind(AssertUnwindSafe(call)) {
        Err(panic) => {
            let text = panic.downcast_ref::<String>().cloned();
            format!("panics ({}); ", text.unwrap_or_default())
        }
        Ok(Err(error)) => return error_text(Err(error)),
        Ok(Ok(())) => String::new(),
    };
    let texts = [("Y", &y), ("U", &u), ("V", &v)].map(|(name, plane)| {
        let bytes: Vec<String> = (plane.iter())
            .map(|byte| match *byte {
                UNWRITTEN => ".".to_string(),
                byte => byte.to_string(),
            })
            .collect();
        format!("{name} {}", bytes.join(" "))
    });
    answer + &texts.join(", ")
}

/// Inputs of refusal 12.
fn lengths() {
    println!("## Buffers that are not exactly stride × rows");
    println!();
    println!("Frames one pixel wide, Rgb, Bt601 Full, Srgb; rows from the top red, green, blue,");
    println!(
        "white, red. A dot is a byte that was not written. Strides and lengths: source, Y, U, V."
    );
    println!();
    println!("| sampling | h | strides | lengths | the unaltered Rust |");
    println!("|---|---|---|---|---|");
    let yuv420 = YuvChromaSubsampling::Yuv420;
    let yuv422 = YuvChromaSubsampling::Yuv422;
    // A buffer with padding at its minimum: the last row's padding is missing. A longer one: one
    // row more.
    for (sampling, h, strides, lengths) in [
        // What exact buffers give.
        (yuv420, 1, [3, 1, 1, 1], [3, 1, 1, 1]),
        (yuv420, 2, [3, 1, 1, 1], [6, 2, 1, 1]),
        (yuv420, 3, [3, 1, 1, 1], [9, 3, 2, 2]),
        (yuv420, 4, [3, 1, 1, 1], [12, 4, 2, 2]),
        (yuv422, 1, [3, 1, 1, 1], [3, 1, 1, 1]),
        (yuv422, 2, [3, 1, 1, 1], [6, 2, 2, 2]),
        // Source short of its last padding.
        (yuv420, 1, [4, 1, 1, 1], [3, 1, 1, 1]),
        (yuv420, 2, [4, 1, 1, 1], [7, 2, 1, 1]),
        (yuv420, 3, [4, 1, 1, 1], [11, 3, 2, 2]),
        (yuv420, 4, [4, 1, 1, 1], [15, 4, 2, 2]),
        (yuv422, 1, [4, 1, 1, 1], [3, 1, 1, 1]),
        (yuv422, 2, [4, 1, 1, 1], [7, 2, 2, 2]),
        // Y.
        (yuv420, 1, [3, 2, 1, 1], [3, 1, 1, 1]),
        (yuv420, 2, [3, 2, 1, 1], [6, 3, 1, 1]),
        (yuv420, 3, [3, 2, 1, 1], [9, 5, 2, 2]),
        (yuv420, 4, [3, 2, 1, 1], [12, 7, 2, 2]),
        (yuv422, 1, [3, 2, 1, 1], [3, 1, 1, 1]),
        (yuv422, 2, [3, 2, 1, 1], [6, 3, 2, 2]),
        // U; V is treated alike.
        (yuv420, 1, [3, 1, 2, 1], [3, 1, 1, 1]),
        (yuv420, 2, [3, 1, 2, 1], [6, 2, 1, 1]),
        (yuv420, 3, [3, 1, 2, 1], [9, 3, 3, 2]),
        (yuv420, 4, [3, 1, 2, 1], [12, 4, 3, 2]),
        (yuv422, 1, [3, 1, 2, 1], [3, 1, 1, 1]),
        (yuv422, 2, [3, 1, 2, 1], [6, 2, 3, 2]),
        // One longer by a row.
        (yuv420, 1, [3, 1, 1, 1], [6, 1, 1, 1]),
        (yuv420, 1, [3, 1, 1, 1], [3, 2, 1, 1]),
        (yuv420, 1, [3, 1, 1, 1], [3, 1, 2, 1]),
        (yuv420, 2, [3, 1, 1, 1], [9, 2, 1, 1]),
        (yuv420, 2, [3, 1, 1, 1], [6, 3, 1, 1]),
        (yuv420, 2, [3, 1, 1, 1], [6, 2, 2, 1]),
        (yuv422, 1, [3, 1, 1, 1], [6, 1, 1, 1]),
        (yuv422, 1, [3, 1, 1, 1], [3, 2, 1, 1]),
        (yuv422, 1, [3, 1, 1, 1], [3, 1, 2, 1]),
        // One longer by less than a row.
        (yuv420, 1, [3, 2, 1, 1], [4, 2, 1, 1]),
        (yuv420, 1, [3, 2, 1, 1], [3, 3, 1, 1]),
        // Several longer.
        (yuv420, 1, [3, 1, 1, 1], [6, 2, 1, 1]),
        (yuv420, 2, [3, 1, 1, 1], [12, 4, 2, 2]),
        (yuv422, 1, [3, 1, 1, 1], [6, 2, 2, 2]),
    ] {
        let name = match sampling {
            YuvChromaSubsampling::Yuv420 => "4:2:0",
            YuvChromaSubsampling::Yuv422 => "4:2:2",
        };
        let is = planes(&frame(1, h, sampling, strides), lengths);
        let list = |numbers: &[String]| numbers.join(" ");
        println!(
            "| {name} | {h} | {} | {} | {is} |",
            list(&strides.map(|n| n.to_string())),
            list(&lengths.map(|n| n.to_string())),
        );
    }
    println!();
}

/// Beyond refusal 3.
fn sizes() {
    println!("## Sizes above 16,384");
    println!();
    for (w, h) in [(16_385u32, 1u32), (1, 16_385)] {
        let half = w.div_ceil(2);
        let frame = frame(w, h, YuvChromaSubsampling::Yuv422, [3 * w, w, half, half]);
        let source = vec![255; (3 * w * h) as usize];
        let mut y = vec![UNWRITTEN; (w * h) as usize];
        let mut u = vec![UNWRITTEN; (half * h) as usize];
        let mut v = u.clone();
        let answer = unaltered::frame(&frame, &source, &mut y, &mut u, &mut v);
        let white = [(&y, 255), (&u, 128), (&v, 128)];
        let white = white
            .iter()
            .all(|(plane, value)| plane.iter().all(|byte| byte == value));
        println!(
            "{w} × {h}, white: {}, converted: {white}",
            error_text(answer)
        );
    }
    for (w, h) in [(1 << 31, 1 << 31), (u32::MAX, u32::MAX)] {
        let frame = frame(w, h, YuvChromaSubsampling::Yuv420, [0; 4]);
        let answer = unaltered::frame(&frame, &[], &mut [], &mut [], &mut []);
        println!("{w} × {h}, empty buffers: {}", error_text(answer));
    }
    println!();
}

fn error_text(answer: Result<(), oracle::RustError>) -> String {
    match answer {
        Ok(()) => "Ok".to_string(),
        Err(error) => format!("{} {} {}", error.name, error.expected, error.received),
    }
}

/// Beyond refusal 4.
fn custom() {
    println!("## Custom pairs");
    println!();
    println!("Nine weights in Full range, and Y U V of one pixel in 4:2:2.");
    println!();
    println!("| kr, kb | yr yg yb, cb, cr | white | red |");
    println!("|---|---|---|---|");
    for (kr, kb) in [
        (0.5, 0.5),
        (0.5f32.next_up(), 0.0),
        (0.75, 0.25),
        (-0.25, 0.0),
        (1.0, 0.0),
        (f32::NAN, 0.0),
        (1.0e9, 0.0),
    ] {
        let matrix = YuvStandardMatrix::Custom(kr, kb);
        let weights = unaltered::weights(matrix, YuvRange::Full, true);
        let mut call = frame(1, 1, YuvChromaSubsampling::Yuv422, [3, 1, 1, 1]);
        call.settings.matrix = matrix;
        let [white, red] = [[255, 255, 255], [255, 0, 0]].map(|pixel| {
            let [mut y, mut u, mut v] = [[0]; 3];
            let call = || unaltered::frame(&call, &pixel, &mut y, &mut u, &mut v);
            match catch_unwind(AssertUnwindSafe(call)) {
                Err(_) => "panics".to_string(),
                Ok(Err(error)) => error_text(Err(error)),
                Ok(Ok(())) => format!("{} {} {}", y[0], u[0], v[0]),
            }
        });
        let triples = [weights.y, weights.cb, weights.cr];
        let numbers = triples.map(|t| t.map(|n| n.to_string()).join(" "));
        println!(
            "| {kr:?}, {kb:?} | {} | {white} | {red} |",
            numbers.join(", ")
        );
    }
    println!();
}

/// All faults at once, then the one that was answered mended.
fn order() {
    println!("## Order of the checks");
    println!();
    let mut call = frame(0, 3, YuvChromaSubsampling::Yuv420, [0; 4]);
    let mut lengths = [0u64; 4];
    let mut seen = Vec::new();
    loop {
        let (w, h) = (call.w, call.h);
        let [source, mut y, mut u, mut v] = lengths.map(|length| vec![0; length as usize]);
        let answer = unaltered::frame(&call, &source, &mut y, &mut u, &mut v);
        let Err(error) = answer else { break };
        seen.push(error_text(Err(error.clone())));
        match error.name.as_str() {
            "ZeroBaseSize" => call.w = 3,
            "DestinationSizeMismatch" => lengths[0] = error.expected,
            "MinimumStrideSizeMismatch" => {
                call.source_stride = 3 * w;
                lengths[0] = u64::from(3 * w * h);
            }
            "LumaPlaneMinimumSizeMismatch" => call.y_stride = w,
            "LumaPlaneSizeMismatch" => lengths[1] = error.expected,
            // The chroma planes share an error: U's stride, U's length, V's stride, V's length.
            _ if call.u_stride == 0 => call.u_stride = w.div_ceil(2),
            _ if lengths[2] == 0 => lengths[2] = error.expected,
            _ if call.v_stride == 0 => call.v_stride = w.div_ceil(2),
            _ => lengths[3] = error.expected,
        }
    }
    println!("{}", seen.join("; "));
    println!();
}

/// The ten sets against the Rust's own transform of its own kr and kb.
fn stored_sets() {
    println!("## Stored sets against the Rust's own kr and kb");
    println!();
    println!("| set | stored | computed | stored − computed | sum of luma weights |");
    println!("|---|---|---|---|---|");
    for matrix in [
        YuvStandardMatrix::Bt601,
        YuvStandardMatrix::Bt709,
        YuvStandardMatrix::Bt2020,
        YuvStandardMatrix::Smpte240,
        YuvStandardMatrix::Bt470_6,
        YuvStandardMatrix::Fcc,
    ] {
        for range in [YuvRange::Limited, YuvRange::Full] {
            let nine = |stored| {
                let weights = unaltered::weights(matrix, range, stored);
                [weights.y, weights.cb, weights.cr].concat()
            };
            let (stored, computed) = (nine(true), nine(false));
            let less: Vec<i64> = stored.iter().zip(&computed).map(|(s, c)| s - c).collect();
            let list = |numbers: &[i64]| {
                let texts: Vec<String> = numbers.iter().map(|n| n.to_string()).collect();
                texts.join(" ")
            };
            println!(
                "| {matrix:?} {range:?} | {} | {} | {} | {} |",
                list(&stored),
                list(&computed),
                if less.iter().all(|n| *n == 0) {
                    "0".into()
                } else {
                    list(&less)
                },
                stored[..3].iter().sum::<i64>()
            );
        }
    }
    println!();
    println!("Smpte240 with kr and kb exchanged (Custom(0.087, 0.212)):");
    println!();
    for range in [YuvRange::Limited, YuvRange::Full] {
        let weights = unaltered::weights(YuvStandardMatrix::Custom(0.087, 0.212), range, false);
        println!(
            "{range:?}: {:?} {:?} {:?}",
            weights.y, weights.cb, weights.cr
        );
    }
}
