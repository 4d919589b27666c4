//! Draws polygons on a canvas with 16 samples a pixel by four threads, and writes the picture to standard output as a
//! PPM file. At the top of the repository:
//!
//!     make library
//!     cargo run --release --manifest-path bindings/rust/Cargo.toml --example polygons > polygons.ppm

use std::error::Error;
use std::io::{stdout, Write};

use trirast::{Blend, Canvas, Format, Polygons, State};

const WIDTH: u32 = 640;
const HEIGHT: u32 = 480;
const SAMPLES: u32 = 16;
const THREADS: u32 = 4;

/// A frame, which is a ring with a hole; a star of one ring that crosses itself; and a square whose left side is the
/// frame's inner one. Corners are in pixels.
const CORNERS: [[i32; 2]; 17] = [
    [20, 20],
    [620, 20],
    [620, 460],
    [20, 460],
    [100, 100],
    [100, 380],
    [540, 380],
    [540, 100],
    [320, 60],
    [440, 420],
    [130, 200],
    [510, 200],
    [200, 420],
    [100, 100],
    [200, 100],
    [200, 200],
    [100, 200],
];
const RING_ENDS: [u32; 4] = [4, 8, 13, 17];
const POLYGON_ENDS: [u32; 3] = [2, 3, 4];
const COLORS: [[u8; 4]; 3] = [[70, 110, 200, 255], [230, 180, 40, 200], [90, 160, 90, 255]];

fn main() -> Result<(), Box<dyn Error>> {
    let corners = CORNERS.map(|corner| corner.map(|place| 256 * place));
    let polygons = Polygons::new(&corners, &RING_ENDS, &POLYGON_ENDS).colors(&COLORS);
    let mut canvas = Canvas::builder(WIDTH, HEIGHT)
        .samples(SAMPLES)
        .threads(THREADS)
        .build()?;
    canvas.clear([24, 24, 32])?;
    canvas.draw_polygons(&polygons, State::new().blend(Blend::OVER))?;
    let mut out = stdout().lock();
    write!(out, "P6\n{WIDTH} {HEIGHT}\n255\n")?;
    out.write_all(&canvas.pixels(Format::Rgb8)?)?;
    Ok(out.flush()?)
}
