//! Scenes with what the Python package draws of them, and triangles in clip space with what the header in C makes of
//! them: tests/library/from_rust.py writes both. Without them there is nothing to compare with.

use std::{env, fs};

use trirast::{
    Blend, Canvas, Clear, Clip, DepthTest, Draw, Equation, Factor, FillRule, Format, Indices, NearPlane, Operation,
    Polygons, Sides, State, Vertex,
};

/// More threads than a canvas here has tile rows are among them.
const THREADS: [u32; 3] = [1, 2, 5];

/// What is left to read, in the order of the machine.
struct Reader(Vec<u8>, usize);

impl Reader {
    /// The file that a variable of the environment names, or nothing.
    fn of_file(variable: &str) -> Reader {
        Reader(env::var_os(variable).map(|path| fs::read(path).expect("a file")).unwrap_or_default(), 0)
    }

    fn is_at_end(&self) -> bool {
        self.1 == self.0.len()
    }

    fn bytes(&mut self, count: usize) -> &[u8] {
        self.1 += count;
        &self.0[self.1 - count..self.1]
    }

    fn number(&mut self) -> i32 {
        i32::from_ne_bytes(self.bytes(4).try_into().unwrap())
    }

    fn count(&mut self) -> usize {
        self.number() as usize
    }

    fn numbers<const N: usize>(&mut self) -> [i32; N] {
        [0; N].map(|_| self.number())
    }

    /// Their number, and then the rows.
    fn rows<const N: usize>(&mut self) -> Vec<[i32; N]> {
        (0..self.count()).map(|_| self.numbers()).collect()
    }
}

// ---- Scenes

fn factor(number: i32) -> Factor {
    use Factor::*;
    let all = [
        Zero,
        One,
        SourceColor,
        InverseSourceColor,
        SourceAlpha,
        InverseSourceAlpha,
        StoredAlpha,
        InverseStoredAlpha,
        StoredColor,
        InverseStoredColor,
        SourceAlphaSaturated,
        Constant,
        InverseConstant,
    ];
    all.into_iter().find(|&factor| factor as i32 == number).expect("a factor")
}

fn operation(number: i32) -> Operation {
    use Operation::*;
    [Add, Subtract, ReverseSubtract, Min, Max][number as usize - 1]
}

fn equation([source, stored, combined]: [i32; 3]) -> Equation {
    Equation { source: factor(source), stored: factor(stored), operation: operation(combined) }
}

fn vertex([x, y, depth, red, green, blue, alpha]: [i32; 7]) -> Vertex {
    Vertex::new(x, y, [red, green, blue, alpha].map(|channel| channel as u8)).at_depth(depth as u16)
}

/// Draws the next scene by this number of threads, and returns the canvas.
fn draw_next(reader: &mut Reader, threads: u32) -> Canvas {
    let [width, height, samples, x, y, first_id, rule] = reader.numbers();
    let (color, alpha, constant) = (equation(reader.numbers()), equation(reader.numbers()), reader.numbers::<4>());
    let vertices: Vec<_> = reader.rows().into_iter().map(vertex).collect();
    let corners: Vec<[i32; 2]> = reader.rows();
    let colors: Vec<_> = reader.rows::<4>().into_iter().map(|color| color.map(|channel| channel as u8)).collect();
    let [ring_ends, polygon_ends, depths] =
        [0; 3].map(|_| reader.rows::<1>().into_iter().map(|[number]| number as u32).collect::<Vec<_>>());
    let depths: Vec<_> = depths.into_iter().map(|depth| depth as u16).collect();

    let builder = Canvas::builder(width as u32, height as u32).samples(samples as u32);
    let mut canvas = builder.origin(x, y).threads(threads).build().unwrap();
    canvas.clear(Clear { color: [10, 200, 90, 255], depth: 40_000 }).unwrap();
    let blend = Blend::new(color, alpha).with_constant(constant.map(|channel| channel as u8));
    let state = State::new().blend(blend).depth_test(DepthTest::LessEqual).depth_write(true);
    let rule = if rule == 0 { FillRule::EvenOdd } else { FillRule::Nonzero };
    let polygons = Polygons::new(&corners, &ring_ends, &polygon_ends).colors(&colors).depths(&depths).fill_rule(rule);
    if let Ok(first_id) = u32::try_from(first_id) {
        canvas.draw_ids(&[Draw::new(&vertices, Indices::InOrder).state(state)], first_id).unwrap();
        canvas.draw_polygon_ids(&polygons, first_id + vertices.len() as u32 / 3, state).unwrap();
    } else {
        canvas.draw(&vertices, Indices::InOrder, state).unwrap();
        canvas.draw_polygons(&polygons, state).unwrap();
    }
    canvas
}

fn shown(canvas: &Canvas) -> Vec<u8> {
    let mut found = canvas.pixels(Format::Rgb8).unwrap();
    for sample in 0..canvas.samples() {
        found.extend(canvas.ids(sample).unwrap().into_iter().flat_map(u32::to_ne_bytes));
        found.extend(canvas.depths(sample).unwrap().into_iter().flat_map(u16::to_ne_bytes));
    }
    found
}

#[test]
fn draws_what_python_draws() {
    let mut reader = Reader::of_file("TRIRAST_PYTHON_SCENES");
    for scene in 0.. {
        if reader.is_at_end() {
            return;
        }
        let found = shown(&draw_next(&mut reader, THREADS[scene % 3]));
        assert!(reader.bytes(found.len()) == found, "scene {scene}");
    }
}

// ---- Clipping

/// What the next task makes: the counts of vertices, cuts, triangles and folds, and the arrays.
fn clip_next(reader: &mut Reader) -> Vec<u8> {
    let [left, top, width, height, near_plane, sides, near, far, positions, indices] = reader.numbers();
    let near_plane = if near_plane == 0 { NearPlane::AtZero } else { NearPlane::AtMinusOne };
    let sides = if sides == 0 { Sides::GuardBand } else { Sides::Viewport };
    let clip = Clip::new(width as u32, height as u32).at(left, top).near_plane(near_plane).sides(sides);
    let positions: Vec<_> = (0..positions).map(|_| [0; 4].map(|_| f32::from_bits(reader.number() as u32))).collect();
    let indices: Vec<_> = (0..indices).map(|_| reader.number() as u32).collect();
    let seen = clip.depths([near as u16, far as u16]).triangles(&positions, &indices).unwrap();

    let counts = [seen.vertices.len(), seen.cuts.len(), seen.sources.len(), seen.folded];
    let mut found: Vec<u8> = counts.into_iter().flat_map(|count| (count as u32).to_ne_bytes()).collect();
    for vertex in &seen.vertices {
        found.extend([vertex.x, vertex.y].into_iter().flat_map(i32::to_ne_bytes));
        found.extend(vertex.depth.to_ne_bytes());
        found.extend([vertex.red, vertex.green, vertex.blue, vertex.alpha, 0, 0]);
    }
    found.extend(seen.w.iter().flat_map(|w| w.to_ne_bytes()));
    found.extend(seen.cuts.iter().flat_map(|cut| cut.triangle.to_ne_bytes()));
    found.extend(seen.cuts.iter().flat_map(|cut| cut.weights).flat_map(f64::to_ne_bytes));
    found.extend(seen.indices.iter().chain(&seen.sources).flat_map(|index| index.to_ne_bytes()));
    for cut in &seen.cuts {
        assert_eq!(cut.corners[..], indices[3 * cut.triangle as usize..][..3]);
    }
    found
}

#[test]
fn clips_as_the_header_does() {
    let (mut tasks, mut answers) = (Reader::of_file("TRIRAST_CLIP_TASKS"), Reader::of_file("TRIRAST_CLIP_ANSWERS"));
    for task in 0.. {
        if tasks.is_at_end() {
            assert!(answers.is_at_end());
            return;
        }
        let found = clip_next(&mut tasks);
        assert!(answers.bytes(found.len()) == found, "task {task}");
    }
}
