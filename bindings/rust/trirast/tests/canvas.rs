//! Canvases: pictures of scenes and lists by every way, what is read back, and what is refused.

mod common;
#[path = "common/scenes.rs"]
mod scenes;

use std::thread;

use scenes::{Pick, Scene};
use trirast::{
    edges, edges_at, BatchCause, Blend, Canvas, Channels, Clear, DepthTest, Draw, Equation, Error, ErrorKind, Factor,
    Format, Indices, Operation, Origin, State, Topology, Vertex, Vertices,
};

const FORMATS: [Format; 3] = [Format::Rgb8, Format::Rgba8, Format::Bgra8];
/// More threads than a canvas here has tile rows are among them.
const THREADS: [u32; 4] = [1, 2, 3, 100];
const WHITE: u32 = 16_777_215;

fn canvas_of(scene: &Scene) -> Canvas {
    let mut canvas = Canvas::builder(scene.width, scene.height).samples(scene.samples).build().unwrap();
    canvas.clear(scene.clear).unwrap();
    canvas
}

/// The pixels of a canvas in the form of its list's picture.
fn shown(canvas: &Canvas, is_depth: bool) -> Vec<u8> {
    if is_depth {
        canvas.depths(0).unwrap().into_iter().flat_map(u16::to_be_bytes).collect()
    } else {
        canvas.pixels(Format::Rgb8).unwrap()
    }
}

/// The pixels of a scene that is drawn as a whole on the calling thread.
fn pixels_of(scene: &Scene) -> Vec<u8> {
    let mut canvas = canvas_of(scene);
    canvas.draw_batch(&scene.draws()).unwrap();
    shown(&canvas, scene.is_depth)
}

/// Draws a scene on canvases: in two batches by several threads, by the parts of a canvas, and as a window on
/// a part of the screen.
fn compare(scene: &Scene, wanted: &[u8], number: usize, name: &str) {
    let draws = scene.draws();
    let (before, behind) = draws.split_at(number % (draws.len() + 1));
    let mut canvas = canvas_of(scene);
    canvas.set_threads(THREADS[number % 4]);
    canvas.draw_batch(before).unwrap();
    canvas.draw_batch(behind).unwrap();
    assert_eq!(shown(&canvas, scene.is_depth), wanted, "{name}: in two batches");
    let mut canvas = canvas_of(scene);
    thread::scope(|scope| {
        for mut part in canvas.split(THREADS[number / 4 % 4]) {
            let draws = &draws;
            scope.spawn(move || part.draw_batch(draws).unwrap());
        }
    });
    assert_eq!(shown(&canvas, scene.is_depth), wanted, "{name}: by parts");
    compare_window(scene, wanted, name);
}

fn compare_window(scene: &Scene, wanted: &[u8], name: &str) {
    let (left, top) = (scene.width / 3, scene.height / 3);
    let (width, height) = ((scene.width - left).min(70), (scene.height - top).min(70));
    let builder = Canvas::builder(width, height).samples(scene.samples);
    let mut window = builder.origin(left as i32, top as i32).build().unwrap();
    window.clear(scene.clear).unwrap();
    let drawn = window.draw_batch(&scene.draws());
    let is_far = |place: i32, first: u32| place - 256 * (first as i32) < -8_388_608;
    if scene.vertices().any(|vertex| is_far(vertex.x, left) || is_far(vertex.y, top)) {
        assert_eq!(refused(drawn).0, ErrorKind::BadBatch(BatchCause::BadPosition), "{name}: a window");
        return;
    }
    drawn.unwrap();
    let pixel = if scene.is_depth { 2 } else { 3 };
    let rows = wanted.chunks(scene.width as usize * pixel).skip(top as usize).take(height as usize);
    let part: Vec<_> = rows.flat_map(|row| &row[left as usize * pixel..][..width as usize * pixel]).copied().collect();
    assert_eq!(shown(&window, scene.is_depth), part, "{name}: a window");
}

#[test]
fn draws_generated_scenes() {
    let mut pick = Pick::new(1);
    for number in 0..150 {
        let mut scene = pick.scene();
        for is_depth in [false, true] {
            scene.is_depth = is_depth;
            compare(&scene, &pixels_of(&scene), number, &format!("scene {number}"));
        }
    }
}

#[test]
fn draws_what_the_program_draws() {
    for (number, one) in common::manifest().into_iter().filter(|one| one.is_drawn).enumerate() {
        let scene = scenes::read(&one.list);
        let pixel = if scene.is_depth { 2 } else { 3 };
        let pixels = scene.width as usize * scene.height as usize * pixel;
        compare(&scene, &one.written[one.written.len() - pixels..], number, &one.list.display().to_string());
    }
}

// ---- What is drawn

/// A right triangle over the upper left half of a square of `side` pixels, in the colour that is the number of its id.
fn triangle(id: u32, depth: u16, side: i32) -> [Vertex; 3] {
    let [red, green, blue, _] = id.to_le_bytes();
    [(0, 0), (side, 0), (0, side)].map(|(x, y)| Vertex::new(256 * x, 256 * y, [red, green, blue, 255]).at_depth(depth))
}

#[test]
fn takes_indices_of_each_size_and_none() {
    let vertices = triangle(5, 0, 40);
    let first = |indices: Indices<'_>| {
        let mut canvas = Canvas::builder(50, 50).build().unwrap();
        canvas.clear([255; 3]).unwrap();
        canvas.draw(&vertices, indices, State::new()).unwrap();
        canvas.ids(0).unwrap()[0]
    };
    let (short, long) = (vec![0u16, 1, 2], vec![0u32, 1, 2]);
    for indices in [Indices::from(&short), Indices::from(&long), Indices::from(&long[..]), Indices::InOrder] {
        assert_eq!(first(indices), 5);
    }
    // Empty arrays draw nothing.
    for indices in [Indices::from(&[0u16; 0]), Indices::from(&[0u32; 0])] {
        assert_eq!(first(indices), WHITE);
    }
    let mut canvas = Canvas::builder(50, 50).build().unwrap();
    canvas.draw(&[], Indices::InOrder, State::new()).unwrap();
    canvas.draw_batch(&[]).unwrap();
    canvas.draw_batch(&[Draw::new(&vertices, &[0u16; 0]), Draw::new(&vertices, &[0u32; 0])]).unwrap();
    assert!(canvas.ids(0).unwrap().iter().all(|&id| id == 0));
    // Vertices that are members of other structs are read where they lie, also in one batch with others.
    let marked: Vec<(u8, Vertex, [f32; 3])> = vertices.iter().map(|&vertex| (7, vertex, [0.5; 3])).collect();
    let members = Vertices::of_members(&marked, |one| &one.1).unwrap();
    assert_eq!((members.len(), members.is_empty(), members == Vertices::from(&vertices)), (3, false, true));
    assert_eq!(members.iter().copied().collect::<Vec<_>>(), vertices);
    for indices in [Indices::from(&short), Indices::from(&long), Indices::InOrder] {
        let mut canvas = Canvas::builder(50, 50).build().unwrap();
        canvas.draw(members, indices, State::new()).unwrap();
        assert_eq!(canvas.ids(0).unwrap()[0], 5);
        canvas.draw_batch(&[Draw::new(&[], Indices::InOrder), Draw::new(members, indices)]).unwrap();
        assert_eq!(canvas.ids(0).unwrap()[0], 5);
    }
    assert!(Vertices::of_members(&marked[..0], |one| &one.1).unwrap().is_empty());
    assert!(Vertices::of_members(&marked, |_| &marked[0].1).is_none());
    assert!(Vertices::of_members(&marked, |_| &vertices[0]).is_none());
    assert!(Vertices::of_members(&[(vertices[0], [0u8; 2048])], |one| &one.0).is_none());
    // Draws of both sizes are one batch.
    let other = triangle(9, 0, 10);
    canvas
        .draw_batch(&[
            Draw::new(&vertices, &short),
            Draw::new(&other, Indices::InOrder),
            Draw::new(&vertices, &[0u32; 0]),
        ])
        .unwrap();
    assert_eq!((canvas.ids(0).unwrap()[0], canvas.ids(0).unwrap()[20]), (9, 5));
}

/// The colour of a pixel of 100, 20, 250 over which a triangle of 200, 10, 30 with alpha 128 is drawn.
fn blended(state: State) -> [u8; 3] {
    let vertices = triangle(0, 0, 64).map(|vertex| Vertex { red: 200, green: 10, blue: 30, alpha: 128, ..vertex });
    let mut canvas = Canvas::builder(8, 8).build().unwrap();
    canvas.clear([100, 20, 250]).unwrap();
    canvas.draw(&vertices, Indices::InOrder, state).unwrap();
    let pixels = canvas.pixels(Format::Rgb8).unwrap();
    [pixels[0], pixels[1], pixels[2]]
}

#[test]
fn blends_by_each_preset() {
    let cases = [
        (Blend::NONE, [200, 10, 30]),
        (Blend::OVER, [150, 15, 140]),
        (Blend::PREMULTIPLIED, [250, 20, 155]),
        (Blend::ADD, [200, 25, 255]),
        (Blend::MULTIPLY, [78, 1, 29]),
        (Blend::KEEP, [100, 20, 250]),
    ];
    for (blend, wanted) in cases {
        assert_eq!(blended(State::new().blend(blend)), wanted, "{blend:?}");
    }
    assert_eq!(blended(State::default()), [200, 10, 30]);
}

#[test]
fn blends_by_an_equation() {
    let with = |source, stored, operation| Equation { source, stored, operation };
    let alpha = Equation::add(Factor::One, Factor::Zero);
    let cases = [
        (with(Factor::One, Factor::One, Operation::Subtract), [100, 0, 0]),
        (with(Factor::One, Factor::One, Operation::ReverseSubtract), [0, 10, 220]),
        (with(Factor::Zero, Factor::Zero, Operation::Min), [100, 10, 30]),
        (with(Factor::Zero, Factor::Zero, Operation::Max), [200, 20, 250]),
        (with(Factor::Constant, Factor::InverseConstant, Operation::Add), [100, 10, 250]),
    ];
    for (color, wanted) in cases {
        let blend = Blend::new(color, alpha).with_constant([0, 255, 0, 9]);
        assert_eq!(blended(State::new().blend(blend)), wanted, "{color:?}");
    }
}

#[test]
fn stores_alpha() {
    let vertices = triangle(0, 0, 64).map(|vertex| Vertex { red: 200, green: 100, blue: 0, alpha: 128, ..vertex });
    let mut canvas = Canvas::builder(4, 4).alpha(true).build().unwrap();
    assert!(canvas.has_alpha());
    canvas.draw(&vertices, Indices::InOrder, State::new().blend(Blend::OVER)).unwrap();
    assert_eq!(canvas.pixels(Format::Rgba8).unwrap()[..4], [100, 50, 0, 128]);
    assert_eq!(canvas.pixels(Format::Bgra8Straight).unwrap()[..4], [0, 100, 199, 128]);
    canvas.clear([9, 8, 7]).unwrap();
    assert_eq!(canvas.pixels(Format::Rgba8).unwrap()[..4], [9, 8, 7, 255]);
}

#[test]
fn keeps_channels() {
    assert_eq!(blended(State::new().keep(Channels::GREEN | Channels::ALPHA)), [200, 20, 30]);
    assert_eq!(blended(State::new().keep(Channels::ALL)), [100, 20, 250]);
    assert!(Channels::ALL.contains(Channels::RED) && !Channels::RED.contains(Channels::ALL));
}

#[test]
fn draws_ids() {
    const FIRST: u32 = 70_000;
    let state = State::new().skip_samples(!5);
    let large = [triangle(FIRST, 9, 200), triangle(FIRST + 1, 9, 50)].concat();
    let small = triangle(FIRST + 2, 9, 20);
    let draws = [Draw::new(&large, &[0u16, 1, 2, 3, 4, 5]).state(state), Draw::new(&small, Indices::InOrder)];
    let [mut ids, mut colours] = [0; 2].map(|_| {
        let mut canvas = Canvas::builder(150, 190).samples(4).threads(2).build().unwrap();
        canvas.clear([255; 3]).unwrap();
        canvas
    });
    ids.draw_ids(&draws, FIRST).unwrap();
    colours.draw_batch(&draws).unwrap();
    for sample in 0..4 {
        let found = ids.ids(sample).unwrap();
        assert_eq!(found, colours.ids(sample).unwrap());
        assert_eq!((found[0], found[150 * 190 - 1]), (FIRST + 2, WHITE));
        assert_eq!(found[30], if sample % 2 == 0 { FIRST + 1 } else { WHITE });
    }
    let refused = ids.draw_ids(&draws, 16_777_214).unwrap_err();
    assert_eq!((refused.kind(), refused.draw()), (ErrorKind::BadBatch(BatchCause::TooManyIds), Some(1)));
}

#[test]
fn draws_every_sample_of_each_count() {
    for samples in [1, 2, 4, 8, 16] {
        let mut canvas = Canvas::builder(70, 130).samples(samples).threads(2).build().unwrap();
        canvas.clear([255; 3]).unwrap();
        canvas.draw_ids(&[Draw::new(&triangle(5, 0, 300), Indices::InOrder)], 5).unwrap();
        for sample in 0..samples {
            assert!(canvas.ids(sample).unwrap().iter().all(|&id| id == 5));
        }
        assert_eq!(canvas.ids(samples).unwrap_err().kind(), ErrorKind::BadSample);
        assert_eq!((canvas.samples(), canvas.split(2)[1].samples()), (samples, samples));
    }
}

#[test]
fn skips_samples_of_sixteen() {
    let mut canvas = Canvas::builder(70, 130).samples(16).build().unwrap();
    canvas.clear([255; 3]).unwrap();
    let state = State::new().skip_samples(!(1 << 8 | 1 << 15));
    canvas.draw(&triangle(5, 0, 300), &[0u32, 1, 2], state).unwrap();
    for sample in 0..16 {
        let wanted = if sample == 8 || sample == 15 { 5 } else { WHITE };
        assert!(canvas.ids(sample).unwrap().iter().all(|&id| id == wanted));
    }
    // Of sixteen samples 14 are white, and 2 have red 5, green 0 and blue 0.
    assert_eq!(canvas.pixels(Format::Rgb8).unwrap(), [224, 223, 223].repeat(70 * 130));
}

// ---- What is read back

#[test]
fn begins_black_and_far() {
    let canvas = Canvas::builder(70, 130).samples(2).build().unwrap();
    assert!(canvas.pixels(Format::Rgb8).unwrap().iter().all(|&byte| byte == 0));
    assert!(canvas.depths(1).unwrap().iter().all(|&depth| depth == 65_535));
}

#[test]
fn resolves_and_loads_each_format_with_a_stride() {
    let scene = Pick::new(7).scene();
    let (width, height) = (scene.width as usize, scene.height as usize);
    let mut canvas = canvas_of(&scene);
    canvas.draw_batch(&scene.draws()).unwrap();
    let wanted = shown(&canvas, false);
    for (format, threads) in FORMATS.into_iter().zip(THREADS) {
        let (pixel, stride) = (format.pixel_bytes(), width * format.pixel_bytes() + 5);
        let mut bytes = vec![9; stride * height - 5];
        canvas.set_threads(threads);
        canvas.resolve(format, &mut bytes, stride).unwrap();
        for (row, wanted) in bytes.chunks(stride).zip(wanted.chunks(3 * width)) {
            let (pixels, padding) = row.split_at(pixel * width);
            assert!(padding.iter().all(|&byte| byte == 9));
            for (found, wanted) in pixels.chunks(pixel).zip(wanted.chunks(3)) {
                let [red, green, blue] = [wanted[0], wanted[1], wanted[2]];
                let all = [[red, green, blue, 0], [red, green, blue, 255], [blue, green, red, 255]];
                assert_eq!(*found, all[format as usize][..pixel]);
            }
        }
        let mut loaded = Canvas::builder(scene.width, scene.height).samples(4).threads(threads).build().unwrap();
        loaded.clear(Clear { color: [1, 2, 3, 4], depth: 77 }).unwrap();
        loaded.load(format, &bytes, stride).unwrap();
        assert_eq!(loaded.pixels(Format::Rgb8).unwrap(), wanted);
        assert!(loaded.depths(3).unwrap().iter().all(|&depth| depth == 77));
        // Without a stride there is no gap.
        loaded.load(Format::Rgb8, &wanted, 0).unwrap();
        assert_eq!(loaded.pixels(Format::Rgb8).unwrap(), wanted);
    }
}

#[test]
fn reads_depths_and_samples() {
    let mut canvas = Canvas::builder(150, 190).samples(4).build().unwrap();
    canvas.clear(Clear { color: [255; 4], depth: 900 }).unwrap();
    let state = State::new().depth_write(true).skip_samples(7);
    canvas.draw(&triangle(0x030201, 7, 140), &[0u16, 1, 2], state).unwrap();
    let (first, last) = (canvas.depths(0).unwrap(), canvas.depths(3).unwrap());
    assert!(first.iter().all(|&depth| depth == 900));
    assert_eq!((last[0], last[139 * 150], last[140 * 150], last[150 * 190 - 1]), (7, 900, 900, 900));
    let (clear, drawn) = (([255; 3], 900), ([1, 2, 3], 7));
    for (column, row, sample, wanted) in [(0, 0, 3, drawn), (0, 0, 2, clear), (2, 130, 3, drawn), (149, 189, 3, clear)]
    {
        let found = canvas.sample(column, row, sample).unwrap();
        assert_eq!((found.color, found.depth), wanted);
    }
    let part = canvas.rows(2, 3).unwrap();
    assert_eq!((part.top(), part.height(), part.width(), part.first(), part.end()), (128, 62, 150, 2, 3));
    assert_eq!(part.sample(2, 130, 3).unwrap().depth, 7);
    assert_eq!(part.depths(3).unwrap(), last[128 * 150..]);
    for (column, row, sample) in [(150, 130, 0), (0, 127, 0), (0, 190, 0), (0, u32::MAX, 0), (0, 130, 4)] {
        assert_eq!(part.sample(column, row, sample).unwrap_err().kind(), ErrorKind::BadSample);
    }
    let mut entries = [1; 150 * 62 + 61 * 3];
    part.depths_into(3, &mut entries, 2 * 153).unwrap();
    assert_eq!(
        (entries[..150].to_vec(), entries[150..153].to_vec()),
        (last[128 * 150..129 * 150].to_vec(), vec![1; 3])
    );
}

#[test]
fn reads_and_stores_the_colours_of_one_sample() {
    for threads in THREADS {
        let mut canvas = Canvas::builder(70, 130).samples(4).threads(threads).build().unwrap();
        canvas.clear(Clear { color: [255; 4], depth: 900 }).unwrap();
        canvas.draw(&triangle(0x030201, 7, 300), &[0u32, 1, 2], State::new().skip_samples(!4)).unwrap();
        let (drawn, clear) = ([1, 2, 3].repeat(70 * 130), vec![255; 3 * 70 * 130]);
        assert!(canvas.colors(2, Format::Rgb8).unwrap() == drawn && canvas.colors(1, Format::Rgb8).unwrap() == clear);
        canvas.store(0, Format::Rgb8, &drawn, 0).unwrap();
        assert!(canvas.colors(0, Format::Bgra8).unwrap() == [3, 2, 1, 255].repeat(70 * 130));
        assert!(
            canvas.colors(3, Format::Rgb8).unwrap() == clear
                && canvas.depths(0).unwrap().iter().all(|&depth| depth == 900)
        );
        assert_eq!(refused(canvas.store(4, Format::Rgb8, &drawn, 0)).0, ErrorKind::BadSample);
        assert_eq!(refused(canvas.store(0, Format::Rgb8, &drawn[1..], 0)).0, ErrorKind::BufferTooSmall);
        assert_eq!(canvas.colors(4, Format::Rgb8).unwrap_err().kind(), ErrorKind::BadSample);
    }
}

#[test]
fn stands_anywhere_on_the_screen() {
    for (x, y) in [(30_000, -20), (-20, 0), (-20, -20)] {
        let mut window = Canvas::builder(40, 130).samples(4).origin(x, y).build().unwrap();
        assert_eq!(window.origin(), Origin { x, y });
        let vertices =
            triangle(5, 0, 10).map(|vertex| Vertex { x: vertex.x + 256 * x, y: vertex.y + 256 * y, ..vertex });
        for threads in THREADS {
            window.set_threads(threads);
            window.clear([255; 3]).unwrap();
            window.draw_ids(&[Draw::new(&vertices, Indices::InOrder)], 5).unwrap();
            let wanted = |limit: u32| {
                (0..40 * 130).map(move |at| if at % 40 + at / 40 < 10 && at % 40 < limit { 5 } else { WHITE })
            };
            assert!(window.ids(0).unwrap().into_iter().eq(wanted(40)), "{x}, {y}");
            // A scissor is of the screen too, also left of it and above.
            window.clear([255; 3]).unwrap();
            let state = State::new().scissor([i32::MIN, i32::MIN, x + 3, i32::MAX]);
            window.draw_ids(&[Draw::new(&vertices, Indices::InOrder).state(state)], 5).unwrap();
            assert!(window.ids(0).unwrap().into_iter().eq(wanted(3)), "{x}, {y}");
        }
    }
}

/// A vertex outside of the guard band, or seen from the origin outside of it, is refused.
#[test]
fn refuses_what_is_too_far_away() {
    for (x, place, is_drawn) in [
        (-20, 8_388_607, false),
        (-20, 8_383_487, true),
        (-20, -8_388_608, true),
        (-20, -8_388_609, false),
        (i32::MIN, 0, false),
        (-20, i32::MAX, false),
    ] {
        let mut window = Canvas::builder(4, 4).origin(x, 0).build().unwrap();
        let vertices = triangle(5, 0, 10).map(|vertex| Vertex { x: place, ..vertex });
        let drawn = window.draw(&vertices, &[2u16, 1, 0], State::new());
        assert_eq!(drawn.is_ok(), is_drawn, "{x} {place}");
        if let Err(error) = drawn {
            assert_eq!(error.kind(), ErrorKind::BadBatch(BatchCause::BadPosition));
            assert_eq!((error.draw(), error.element().unwrap_or(2)), (Some(0), 2));
        }
    }
}

// ---- Parts

#[test]
fn has_parts() {
    fn is_send<T: Send>(_: &T) {}
    let mut canvas = Canvas::builder(10, 200).samples(4).build().unwrap();
    is_send(&canvas);
    assert_eq!((canvas.width(), canvas.height(), canvas.first(), canvas.end()), (10, 200, 0, 4));
    let heights = |canvas: &mut Canvas, parts| canvas.split(parts).iter().map(|part| part.height()).collect::<Vec<_>>();
    assert_eq!(heights(&mut canvas, 3), [64, 64, 72]);
    assert_eq!(heights(&mut canvas, 100), [64, 64, 64, 8]);
    assert_eq!(heights(&mut canvas, 0), []);
    for (first, end) in [(0, 5), (2, 1), (5, 5), (0, u32::MAX)] {
        assert_eq!(canvas.rows(first, end).unwrap_err().kind(), ErrorKind::BadTileRows);
    }
    let mut none = canvas.rows(4, 4).unwrap();
    none.clear([0; 3]).unwrap();
    assert_eq!((none.height(), none.pixels(Format::Rgb8).unwrap().len(), none.split(2).len()), (0, 0, 0));
    let refused = none.draw(&[], &[0u16, 0, 0], State::new()).unwrap_err();
    assert_eq!(refused.kind(), ErrorKind::BadBatch(BatchCause::BadIndex));
    let mut below = canvas.rows(1, 4).unwrap();
    assert_eq!(below.rows(0, 2).unwrap_err().kind(), ErrorKind::BadTileRows);
    assert_eq!(below.rows(2, 4).unwrap().top(), 128);
}

// ---- Errors

fn refused(result: Result<(), Error>) -> (ErrorKind, Option<usize>) {
    let error = result.unwrap_err();
    (error.kind(), error.draw())
}

#[test]
fn refuses_canvases_that_there_are_not() {
    for (width, height, samples) in
        [(0, 1, 1), (1, 0, 1), (4097, 1, 1), (1, 4097, 1), (u32::MAX, u32::MAX, 1), (1, 1, 3), (1, 1, 0), (1, 1, 32)]
    {
        let error = Canvas::builder(width, height).samples(samples).build().unwrap_err();
        let sizes = "1 to 4096 pixels a side and 1, 2, 4, 8 or 16 samples a pixel";
        let line = format!("no such canvas: expected {sizes}, got {width} by {height} and {samples}");
        assert_eq!((error.kind(), error.to_string()), (ErrorKind::BadCanvas, line));
        assert_eq!((error.draw(), error.element()), (None, None));
    }
}

#[test]
fn refuses_buffers_that_are_too_small() {
    let mut canvas = Canvas::builder(10, 200).samples(4).build().unwrap();
    canvas.clear([1, 2, 3]).unwrap();
    for threads in THREADS {
        canvas.set_threads(threads);
        for (length, stride) in [(199 * 31 + 29, 31), (200 * 30, 29), (0, 30), (5999, 0), (6000, usize::MAX)] {
            let mut bytes = vec![7; length];
            assert_eq!(refused(canvas.resolve(Format::Rgb8, &mut bytes, stride)).0, ErrorKind::BufferTooSmall);
            assert_eq!(refused(canvas.load(Format::Rgb8, &bytes, stride)).0, ErrorKind::BufferTooSmall);
            assert!(bytes.iter().all(|&byte| byte == 7));
        }
        let mut depths = [7; 1999];
        assert_eq!(refused(canvas.depths_into(0, &mut depths, 20)).0, ErrorKind::BufferTooSmall);
        assert_eq!(refused(canvas.depths_into(0, &mut depths, 21)).0, ErrorKind::BadStride);
        assert_eq!(refused(canvas.depths_into(4, &mut depths, 20)).0, ErrorKind::BadSample);
        assert_eq!(depths, [7; 1999]);
        assert_eq!(canvas.ids(4).unwrap_err().to_string(), "no such sample: expected 0 to 3, got 4");
        assert_eq!(canvas.pixels(Format::Rgb8).unwrap(), [1, 2, 3].repeat(2000));
    }
}

#[test]
fn says_what_was_passed_and_what_may_be() {
    let mut canvas = Canvas::builder(10, 200).samples(4).threads(2).build().unwrap();
    let (mut bytes, mut depths) = ([0; 5999], [0; 2000]);
    let good = triangle(0, 0, 200);
    let far = good.map(|vertex| Vertex { x: 8_388_608, ..vertex });
    let [.., Vertex { y, .. }] = far;
    let beyond = format!(
        "vertex 2 is out of range, got x 8388608 and y {y} in 1/256 pixel (32768 and {} pixels)",
        f64::from(y) / 256.0
    );
    let draws = [Draw::new(&good, Indices::InOrder), Draw::new(&far, &[2u32, 2, 2])];
    let mut window = Canvas::builder(1, 1).origin(-5, 0).build().unwrap();
    let message = |result: Result<(), Error>| result.unwrap_err().to_string();
    let cases = [
        (
            message(canvas.resolve(Format::Rgb8, &mut bytes, 0)),
            "buffer too small: expected 6000 bytes for 200 rows at a stride of 30, got 5999".into(),
        ),
        (
            message(canvas.load(Format::Rgb8, &bytes, 29)),
            "buffer too small: expected a stride of at least 30 bytes, or 0, got 29".into(),
        ),
        (
            message(canvas.depths_into(0, &mut depths, 21)),
            "wrong stride: expected a multiple of 2 bytes, got 21".into(),
        ),
        (
            message(canvas.store(9, Format::Rgb8, &bytes, 0)),
            "no such sample: expected 0 to 3, got 9".into(),
        ),
        (message(canvas.rows(2, 5).map(drop)), "no such tile rows: expected 0 to 4, got 2 to 5".into()),
        (
            message(canvas.draw(&good, &[0u16, 1, 3], State::new())),
            "draw 0: index 2 is 3, which is not less than the number of vertices: 3".into(),
        ),
        (
            message(canvas.draw_batch(&draws)),
            format!("draw 1: {beyond}; x: -8388608 to 8388607 (-32768 to 32767.99609375 pixels)"),
        ),
        (
            message(window.draw_ids(&draws[1..], 0)),
            format!("draw 0: {beyond}; x with the origin -5: -8388608 to 8387327 (-32768 to 32762.99609375 pixels)"),
        ),
    ];
    for (found, wanted) in cases {
        let wanted: String = wanted;
        assert_eq!(found, wanted);
    }
}

#[test]
fn refuses_batches_and_draws_nothing_of_them() {
    let good = triangle(0, 0, 200);
    let far = good.map(|vertex| Vertex { x: 8_388_608, ..vertex });
    let first = Draw::new(&good, &[0u32, 1, 2]);
    let quads = State::new().topology(Topology::Quads);
    let cases = [
        (Draw::new(&good, &[0u32, 1, 3]), BatchCause::BadIndex, Some(2)),
        (Draw::new(&good, &[0u32, 1]), BatchCause::NotWhole, None),
        (Draw::new(&far, &[1u32, 1, 1]), BatchCause::BadPosition, Some(1)),
        (Draw::new(&good, &[0u32, 1, 2, 0]).state(quads), BatchCause::NotConvex, Some(0)),
    ];
    let mut canvas = Canvas::builder(100, 200).build().unwrap();
    canvas.clear([1, 2, 3]).unwrap();
    for threads in THREADS {
        canvas.set_threads(threads);
        for (second, wanted, element) in cases {
            let error = canvas.draw_batch(&[first, second]).unwrap_err();
            assert_eq!((error.kind(), error.draw()), (ErrorKind::BadBatch(wanted), Some(1)));
            // The library need not say which element it is.
            assert!(error.element().is_none() || error.element() == element);
            assert!(error.to_string().starts_with("draw 1: "), "{error}");
            assert_eq!(refused(canvas.draw_ids(&[second], 0)), (ErrorKind::BadBatch(wanted), Some(0)));
        }
    }
    let error = canvas.draw_batch(&[first, cases[3].0]).unwrap_err();
    assert!(error.to_string().ends_with("is not strictly convex"), "{error}");
    assert_eq!(canvas.pixels(Format::Rgb8).unwrap(), [1, 2, 3].repeat(20_000));
}

#[test]
fn tests_depths() {
    let mut canvas = Canvas::builder(8, 8).build().unwrap();
    canvas.clear(Clear { color: [255; 4], depth: 100 }).unwrap();
    let cases = [
        (DepthTest::Always, [true, true, true]),
        (DepthTest::Never, [false, false, false]),
        (DepthTest::Less, [true, false, false]),
        (DepthTest::Equal, [false, true, false]),
        (DepthTest::LessEqual, [true, true, false]),
        (DepthTest::Greater, [false, false, true]),
        (DepthTest::NotEqual, [true, false, true]),
        (DepthTest::GreaterEqual, [false, true, true]),
    ];
    for (test, wanted) in cases {
        for (depth, is_drawn) in [99, 100, 101].into_iter().zip(wanted) {
            canvas.clear(Clear { color: [255; 4], depth: 100 }).unwrap();
            canvas.draw(&triangle(5, depth, 64), Indices::InOrder, State::new().depth_test(test)).unwrap();
            assert_eq!(canvas.ids(0).unwrap()[0], if is_drawn { 5 } else { WHITE }, "{test:?} {depth}");
        }
    }
}

// ---- Edge functions

/// A right triangle whose doubled area is 65,536, and a point that lies at a quarter of one side and an
/// eighth of the other.
#[test]
fn gives_edge_functions() {
    let (a, b, c) = ([0, 0], [256, 0], [0, 256]);
    let inside = edges([a, b, c], [64, 32]).unwrap();
    assert_eq!((inside.a, inside.b, inside.c, inside.doubled_area), (40_960, 16_384, 8_192, 65_536));
    assert!(inside.covered);
    let reversed = edges([a, c, b], [64, 32]).unwrap();
    assert_eq!((reversed.a, reversed.b, reversed.c, reversed.doubled_area), (-40_960, -8_192, -16_384, -65_536));
    assert!(reversed.covered);
    // The hypotenuse is a right edge; the others are the top and the left one.
    let points = [[128, 128], [128, 0], [0, 128], [64, 32]];
    let found = edges_at([a, b, c], &points).unwrap();
    assert_eq!(found.iter().map(|one| one.covered).collect::<Vec<_>>(), [false, true, true, true]);
    assert_eq!(found[3], inside);
    assert_eq!(edges_at([a, b, c], &[]).unwrap(), []);
    let error = edges([a, b, [0, 8_388_608]], [0, 0]).unwrap_err();
    let line = "position out of range: expected corner[2] of -8388608 to 8388607, got x 0 and y 8388608 in \
                1/256 pixel (0 and 32768 pixels); y: -8388608 to 8388607 (-32768 to 32767.99609375 pixels)";
    assert_eq!((error.kind(), error.to_string().as_str()), (ErrorKind::BadPosition, line));
    assert_eq!(edges([a, b, c], [-8_388_609, 0]).unwrap_err().kind(), ErrorKind::BadPosition);
    let error = edges_at([a, b, c], &[[0, 0], [0, 8_388_608]]).unwrap_err();
    assert_eq!((error.kind(), error.to_string()), (ErrorKind::BadPosition, line.replace("corner[2]", "point[1]")));
}
