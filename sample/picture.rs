// Shows what `relief` did to a grid: numbers before and after, and both shaded in one picture (PNG).
//
//     picture make SIDE            writes a sample stream: an island of SIDE × SIDE cells with rolling hills
//     picture show IN OUT PICTURE  IN is the stream that went into relief, OUT what came out of it
use std::io::Write;
use std::process::exit;

struct Grid {
    w: usize,
    h: usize,
    heights: Vec<f32>,
}

fn fail(why: &str) -> ! {
    eprintln!("picture: {why}");
    exit(1)
}

fn u16_at(b: &[u8], at: usize) -> usize {
    match b.get(at..at + 2) {
        Some(x) => x[0] as usize + 256 * x[1] as usize,
        None => fail("the stream ends early"),
    }
}

fn u32_at(b: &[u8], at: usize) -> u32 {
    u16_at(b, at) as u32 + 65536 * u16_at(b, at + 2) as u32
}

// The grid whose rows begin at a place, and the place behind them.
fn grid(b: &[u8], mut at: usize) -> (Grid, usize) {
    let (w, h) = (u16_at(b, 2), u16_at(b, 4));
    let mut heights = Vec::new();
    for _ in 0..h {
        if b.get(at..at + 2) != Some(b"RW") {
            fail("a row without its mark");
        }
        heights.extend((0..w).map(|x| f32::from_bits(u32_at(b, at + 2 + 4 * x))));
        at += 2 + 4 * w;
    }
    (Grid { w, h, heights }, at)
}

fn line(name: &str, g: &Grid) {
    let low = g.heights.iter().cloned().fold(f32::INFINITY, f32::min);
    let high = g.heights.iter().cloned().fold(f32::NEG_INFINITY, f32::max);
    let mean = g.heights.iter().map(|&x| x as f64).sum::<f64>() / g.heights.len() as f64;
    println!("{name:7} lowest {low:.4}  mean {mean:.4}  highest {high:.4}");
}

fn row(name: &str, g: &Grid, step: usize) {
    let y = g.h / 2;
    let cells: Vec<String> = (0..g.w).step_by(step).map(|x| format!("{:.3}", g.heights[y * g.w + x])).collect();
    println!("{name:7} row {y}, every {step} cells: {}", cells.join(" "));
}

// The height at a place between cells, in cells from the middle of the first: even between the four cells around it.
fn height(g: &Grid, x: f32, y: f32) -> f32 {
    let (x, y) = (x.clamp(0.0, (g.w - 1) as f32), y.clamp(0.0, (g.h - 1) as f32));
    let (left, top) = (x as usize, y as usize);
    let at = |x: usize, y: usize| g.heights[y.min(g.h - 1) * g.w + x.min(g.w - 1)];
    let along = |y: usize| at(left, y) + (x - left as f32) * (at(left + 1, y) - at(left, y));
    along(top) + (y - top as f32) * (along(top + 1) - along(top))
}

// The colours of the picture by number: greys from black to white, and a blue for the sea.
const SEA: u8 = 255;
const WHITE: u8 = 254;
const SEA_BLUE: [u8; 3] = [148, 178, 203];

// The colour of a place: the sea up to the water level; above it the grey of its slope in a light that stands in the
// north-west, halfway up the sky. The slope is that of the eight places one cell away; `steep` stretches the heights.
fn colour(g: &Grid, x: f32, y: f32, water: f32, steep: f32) -> u8 {
    if height(g, x, y) <= water {
        return SEA;
    }
    let rise = |dx: f32, dy: f32| steep * (height(g, x + dx, y + dy) - height(g, x - dx, y - dy)) / 8.0;
    let (south_east, north_east) = (rise(1.0, 1.0), rise(1.0, -1.0));
    let east = 2.0 * rise(1.0, 0.0) + south_east + north_east;
    let south = 2.0 * rise(0.0, 1.0) + south_east - north_east;
    let light = (east + south + 2f32.sqrt()) / (2.0 * (east * east + south * south + 1.0).sqrt());
    (light.max(0.0) * WHITE as f32) as u8
}

fn picture(before: &Grid, after: &Grid, water: f32, path: &str) {
    let side = before.w.max(before.h);
    let zoom = (256 / side).max(1);
    let all = before.heights.iter().chain(&after.heights);
    let low = all.clone().cloned().fold(f32::INFINITY, f32::min);
    let span = (all.cloned().fold(f32::NEG_INFINITY, f32::max) - low).max(f32::MIN_POSITIVE);
    let steep = 0.2 * side as f32 / span;
    let cell = |p: usize| (p as f32 + 0.5) / zoom as f32 - 0.5;
    let mut rows = Vec::new();
    for y in 0..before.h * zoom {
        let row = |g| (0..before.w * zoom).map(move |x| colour(g, cell(x), cell(y), water, steep));
        rows.push(row(before).chain([WHITE; 8]).chain(row(after)).collect());
    }
    if std::fs::write(path, png(&rows)).is_err() {
        fail("the picture cannot be written");
    }
}

// A PNG of rows of colours, by their numbers in its palette.
fn png(rows: &[Vec<u8>]) -> Vec<u8> {
    let mut head = (rows[0].len() as u32).to_be_bytes().to_vec();
    head.extend((rows.len() as u32).to_be_bytes());
    head.extend([8, 3, 0, 0, 0]);
    let mut palette: Vec<u8> = (0..SEA).flat_map(|grey| [grey; 3]).collect();
    palette.extend(SEA_BLUE);
    let pixels: Vec<u8> = rows.iter().flat_map(|row| [&[0], &row[..]].concat()).collect();
    let mut bytes = b"\x89PNG\r\n\x1a\n".to_vec();
    chunk(&mut bytes, b"IHDR", &head);
    chunk(&mut bytes, b"PLTE", &palette);
    chunk(&mut bytes, b"IDAT", &stored(&pixels));
    chunk(&mut bytes, b"IEND", &[]);
    bytes
}

// A chunk of a PNG: its length, its kind, what it holds, and the CRC-32 of the last two.
fn chunk(bytes: &mut Vec<u8>, kind: &[u8; 4], data: &[u8]) {
    bytes.extend((data.len() as u32).to_be_bytes());
    let start = bytes.len();
    bytes.extend(kind);
    bytes.extend(data);
    let mut crc = u32::MAX;
    for &byte in &bytes[start..] {
        crc ^= byte as u32;
        for _ in 0..8 {
            crc = (crc >> 1) ^ (0xedb8_8320 * (crc & 1));
        }
    }
    bytes.extend((!crc).to_be_bytes());
}

// A zlib stream of bytes as they are, in stored blocks, with their Adler-32.
fn stored(data: &[u8]) -> Vec<u8> {
    let mut out = vec![0x78, 0x01];
    let last = data.chunks(65535).count() - 1;
    for (i, block) in data.chunks(65535).enumerate() {
        let length = block.len() as u16;
        out.push((i == last) as u8);
        out.extend(length.to_le_bytes());
        out.extend((!length).to_le_bytes());
        out.extend(block);
    }
    let (a, b) = data.iter().fold((1, 0), |(a, b), &x| ((a + x as u32) % 65521, (a + x as u32 + b) % 65521));
    out.extend((b << 16 | a).to_be_bytes());
    out
}

fn show(input: &str, output: &str, path: &str) {
    let read = |p: &str| std::fs::read(p).unwrap_or_else(|_| fail(&format!("{p} cannot be read")));
    let (a, b) = (read(input), read(output));
    if b.get(0..2) != Some(b"GR") {
        fail(&format!("relief refused the stream: number {}", u16_at(&b, 2)));
    }
    let rows = if a.get(6..8) == Some(b"FL") { 36 } else { 32 };
    let (before, _) = grid(&a, rows);
    let (after, end) = grid(&b, 6);
    if b.get(end..end + 2) != Some(b"EN") || b.len() != end + 16 {
        fail("the output is not whole");
    }
    if (before.w, before.h) != (after.w, after.h) {
        fail("the output is of another stream");
    }
    let (number, counts) = (u16_at(&b, end + 2), [4, 8, 12].map(|place| u32_at(&b, end + place)));
    let [incisions, passes, questions] = counts;
    println!(
        "{} x {} cells; number {number}, incisions {incisions}, passes {passes}, questions {questions}",
        before.w, before.h
    );
    line("before", &before);
    line("after", &after);
    row("before", &before, (before.w / 8).max(1));
    row("after", &after, (after.w / 8).max(1));
    picture(&before, &after, f32::from_bits(u32_at(&a, 8)), path);
    println!("picture: {path} (left before, right after)");
}

// Rolling hills: lattice values by a mixed number, smoothed between, in four octaves.
fn hills(x: f32, y: f32) -> f32 {
    let value = |i: i32, j: i32| {
        let mut n = (i as u32).wrapping_mul(0x9e37_79b1) ^ (j as u32).wrapping_mul(0x85eb_ca6b);
        n = (n ^ (n >> 15)).wrapping_mul(0x2c1b_3c6d);
        ((n ^ (n >> 13)) & 0xffff) as f32 / 65535.0
    };
    let (mut sum, mut size, mut weight) = (0.0, 1.0, 0.5);
    for _ in 0..4 {
        let (u, v) = (x * size, y * size);
        let (i, j) = (u.floor(), v.floor());
        let ease = |t: f32| t * t * (3.0 - 2.0 * t);
        let (s, t) = (ease(u - i), ease(v - j));
        let corner = |di: i32, dj: i32| value(i as i32 + di, j as i32 + dj);
        let top = corner(0, 0) + s * (corner(1, 0) - corner(0, 0));
        let low = corner(0, 1) + s * (corner(1, 1) - corner(0, 1));
        sum += weight * (top + t * (low - top));
        size *= 2.0;
        weight *= 0.5;
    }
    sum
}

fn make(side: usize) {
    let mut b = b"GR".to_vec();
    b.extend((side as u16).to_le_bytes());
    b.extend((side as u16).to_le_bytes());
    b.extend(b"FL");
    for setting in [0.12f32, 0.6, 0.5, 0.0] {
        b.extend(setting.to_bits().to_le_bytes());
    }
    for number in [50u32, 512, 0] {
        b.extend(number.to_le_bytes());
    }
    for y in 0..side {
        b.extend(b"RW");
        for x in 0..side {
            let (u, v) = (x as f32 / side as f32 - 0.5, y as f32 / side as f32 - 0.5);
            let shore = (1.0 - 3.6 * (u * u + v * v)).max(0.0);
            let height = shore * (0.2 + 0.8 * hills(4.0 * u + 9.0, 4.0 * v + 3.0));
            b.extend(height.to_bits().to_le_bytes());
        }
    }
    if std::io::stdout().write_all(&b).is_err() {
        fail("the stream cannot be written");
    }
}

fn main() {
    let args: Vec<String> = std::env::args().skip(1).collect();
    let words: Vec<&str> = args.iter().map(|a| a.as_str()).collect();
    match words[..] {
        ["make", side] => make(side.parse().unwrap_or_else(|_| fail("SIDE is a number"))),
        ["show", input, output, path] => show(input, output, path),
        _ => fail("picture make SIDE, or picture show IN OUT PICTURE"),
    }
}
