//! Draws a floor that goes from behind the eye to the horizon, and gives it a pattern where it is seen: triangles are
//! cut and projected, drawn by ids, and shaded tile by tile. Each of four threads shades tile rows of its own. Writes
//! the picture to standard output as a PPM file. At the top of the repository:
//!
//!     make library
//!     cargo run --release --manifest-path bindings/rust/Cargo.toml --example floor > floor.ppm

use std::error::Error;
use std::io::{stdout, Write};
use std::thread;

use trirast::{edges, Canvas, Clip, Clipped, Draw, Format, TileRows, CANVAS_TILE_SIZE};

const WIDTH: u32 = 640;
const HEIGHT: u32 = 360;
const SAMPLES: u32 = 4;
const THREADS: u32 = 4;
/// The near plane is at w = 0.1, where z is 0.
const FLOOR: [[f32; 4]; 4] = [
    [-20.0, -2.0, -5.1, -5.0],
    [20.0, -2.0, -5.1, -5.0],
    [20.0, -2.0, 39.9, 40.0],
    [-20.0, -2.0, 39.9, 40.0],
];
/// Where the floor's corners lie on it: across, and from the eye on.
const PLACES: [[f64; 2]; 4] = [[-20.0, -5.0], [20.0, -5.0], [20.0, 40.0], [-20.0, 40.0]];
/// White, to which the canvas is cleared: no triangle has this id.
const NONE: u32 = 0x00ff_ffff;
const SKY: u32 = 0x00c0_8040;

/// The colour of a triangle at a point of the screen: squares of one unit.
fn color_at(
    seen: &Clipped,
    places: &[[f64; 2]],
    id: u32,
    point: [i32; 2],
) -> Result<u32, Box<dyn Error>> {
    let corners = [0, 1, 2].map(|k| seen.indices[3 * id as usize + k] as usize);
    let found = edges(
        corners.map(|k| [seen.vertices[k].x, seen.vertices[k].y]),
        point,
    )?;
    // Weights that are right in perspective: those of the screen over w, and 1 together.
    let shares = [
        (found.a, corners[0]),
        (found.b, corners[1]),
        (found.c, corners[2]),
    ];
    let weights = shares.map(|(edge, k)| edge as f64 / f64::from(seen.w[k]));
    let all: f64 = weights.iter().sum();
    let along = |axis: usize| {
        (0..3)
            .map(|k| weights[k] * places[corners[k]][axis])
            .sum::<f64>()
            / all
    };
    let is_dark = (along(0).floor() + along(1).floor()).rem_euclid(2.0) == 1.0;
    Ok(if is_dark { 0x0030_2820 } else { 0x00d0_e0e0 })
}

/// Puts colours in the place of the ids of some tile rows. Each sample is shaded at the middle of its pixel.
fn shade(
    part: &mut TileRows<'_>,
    seen: &Clipped,
    places: &[[f64; 2]],
) -> Result<(), Box<dyn Error>> {
    let (mut entries, columns) = (vec![0; part.tile_entries()], part.tile_columns());
    for (row, column) in
        (part.first()..part.end()).flat_map(|row| (0..columns).map(move |column| (row, column)))
    {
        let written = part.tile_ids(column, row, &mut entries)?.len();
        if written == 1 {
            part.tile_store(column, row, &[SKY])?;
            continue;
        }
        for (y, x) in (0..CANVAS_TILE_SIZE).flat_map(|y| (0..CANVAS_TILE_SIZE).map(move |x| (y, x)))
        {
            let middle = [x + column * CANVAS_TILE_SIZE, y + row * CANVAS_TILE_SIZE]
                .map(|pixel| 256 * pixel as i32 + 128);
            for sample in 0..SAMPLES {
                let entry = part
                    .tile_entry(x, y, sample)
                    .ok_or("a sample of the tile")?;
                let id = entries[entry];
                entries[entry] = if id == NONE {
                    SKY
                } else {
                    color_at(seen, places, id, middle)?
                };
            }
        }
        part.tile_store(column, row, &entries)?;
    }
    Ok(())
}

fn main() -> Result<(), Box<dyn Error>> {
    let seen = Clip::new(WIDTH, HEIGHT).triangles(&FLOOR, &[0, 1, 2, 0, 2, 3])?;
    let [across, ahead] = [0, 1].map(|axis| {
        seen.attributes(&PLACES.map(|place| place[axis]))
            .unwrap_or_default()
    });
    let places: Vec<_> = across.into_iter().zip(ahead).map(|(x, z)| [x, z]).collect();
    let mut canvas = Canvas::builder(WIDTH, HEIGHT)
        .samples(SAMPLES)
        .threads(THREADS)
        .build()?;
    canvas.clear([255; 3])?;
    canvas.draw_ids(&[Draw::new(&seen.vertices, &seen.indices)], 0)?;
    thread::scope(|scope| -> Result<(), Box<dyn Error>> {
        let (seen, places) = (&seen, &places);
        let shaded = |mut part: TileRows<'_>| {
            shade(&mut part, seen, places).map_err(|error| error.to_string())
        };
        let started: Vec<_> = canvas
            .split(THREADS)
            .into_iter()
            .map(|part| scope.spawn(move || shaded(part)))
            .collect();
        started
            .into_iter()
            .try_for_each(|thread| thread.join().unwrap_or_else(|_| Err("a thread".into())))?;
        Ok(())
    })?;
    let mut out = stdout().lock();
    write!(out, "P6\n{WIDTH} {HEIGHT}\n255\n")?;
    out.write_all(&canvas.pixels(Format::Rgb8)?)?;
    Ok(out.flush()?)
}
