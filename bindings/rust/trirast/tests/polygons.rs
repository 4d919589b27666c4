//! Polygons and tiles of a canvas: what the definition says of some, and what is refused. python.rs
//! compares random ones.

use trirast::{
    BatchCause, Blend, Canvas, Draw, ErrorKind, FillRule, Format, Indices, Polygons, State, Vertex, CANVAS_TILE_SIZE,
};

const THREADS: [u32; 3] = [1, 2, 100];
const WHITE: u32 = 16_777_215;
/// A square of two pixels, and another one beside it.
const CORNERS: [[i32; 2]; 8] = [[0, 0], [512, 0], [512, 512], [0, 512], [512, 0], [1024, 0], [1024, 512], [512, 512]];
const RINGS: [u32; 2] = [4, 8];
const COLORS: [[u8; 4]; 2] = [[10, 20, 30, 255], [40, 50, 60, 255]];

fn cleared() -> Canvas {
    let mut canvas = Canvas::builder(4, 200).samples(4).build().unwrap();
    canvas.clear([255; 3]).unwrap();
    canvas
}

#[test]
fn draws_in_colours_at_depths_and_by_ids() {
    let squares = Polygons::new(&CORNERS, &RINGS, &[1, 2]).colors(&COLORS).depths(&[7, 8]);
    for threads in THREADS {
        let (mut colours, mut ids) = (cleared(), cleared());
        colours.set_threads(threads);
        ids.set_threads(threads);
        for rule in [FillRule::EvenOdd, FillRule::Nonzero] {
            colours.draw_polygons(&squares.fill_rule(rule), State::new().depth_write(true)).unwrap();
            ids.draw_polygon_ids(&squares.fill_rule(rule), 70_000, State::new()).unwrap();
            let pixels = colours.pixels(Format::Rgb8).unwrap();
            assert_eq!(pixels[..12], [10, 20, 30, 10, 20, 30, 40, 50, 60, 40, 50, 60]);
            assert_eq!((pixels[3 * 8], colours.depths(2).unwrap()[..4].to_vec()), (255, vec![7, 7, 8, 8]));
            assert_eq!(ids.ids(1).unwrap()[..5], [70_000, 70_000, 70_001, 70_001, 70_000]);
        }
    }
    // One polygon of both rings is one square; without rings nothing is drawn.
    let mut canvas = cleared();
    canvas.draw_polygons(&Polygons::new(&CORNERS, &RINGS, &[2]).colors(&COLORS), State::new()).unwrap();
    canvas.draw_polygons(&Polygons::default(), State::new()).unwrap();
    assert!(canvas.ids(3).unwrap()[..8].iter().all(|&id| id == 0x001e_140a));
}

#[test]
fn neighbours_leave_no_seam() {
    let middle = [301, 287];
    let outline = [[0, 0], [4096, 0], [4096, 4096], [0, 4096]];
    let corners: Vec<_> = (0..4).flat_map(|k| [outline[k], outline[(k + 1) % 4], middle]).collect();
    let mut canvas = Canvas::builder(16, 16).samples(16).build().unwrap();
    let cells = Polygons::new(&corners, &[3, 6, 9, 12], &[1, 2, 3, 4]).colors(&[[255, 255, 255, 128]; 4]);
    canvas.draw_polygons(&cells, State::new().blend(Blend::OVER)).unwrap();
    assert!(canvas.pixels(Format::Rgb8).unwrap().iter().all(|&channel| channel == 128));
}

#[test]
fn refuses_by_ring_polygon_and_corner() {
    let mut far = CORNERS;
    far[5][1] = 8_388_608;
    let of = |corners, ring_ends, polygon_ends| Polygons::new(corners, ring_ends, polygon_ends).colors(&COLORS);
    let whole = of(&CORNERS, &RINGS, &[1, 2]);
    let (ring, polygon) =
        ("ends before it begins, or behind the last corner", "ends before it begins, or behind the last ring");
    let left_over = "a vertex or an index is in no draw, or a corner or a ring in no polygon";
    let of_corners = format!("of {} corners", CORNERS.len());
    let (x, in_pixels) = (far[5][0], f64::from(far[5][0]) / 256.0);
    let place = format!(
        "got x {x} and y 8388608 in 1/256 pixel ({in_pixels} and 32768 pixels); \
         y: -8388608 to 8388607 (-32768 to 32767.99609375 pixels)"
    );
    let cases = [
        (
            of(&CORNERS, &[5, 4], &[1, 2]),
            BatchCause::BadRing,
            Some(1),
            format!("ring 1 {ring}, got 4 after 5, {of_corners}"),
        ),
        (
            of(&CORNERS, &[9, 9], &[1, 2]),
            BatchCause::BadRing,
            Some(0),
            format!("ring 0 {ring}, got 9 after 0, {of_corners}"),
        ),
        (
            of(&CORNERS, &RINGS, &[1, 3]),
            BatchCause::BadPolygon,
            Some(1),
            format!("polygon 1 {polygon}, got 3 after 1, of 2 rings"),
        ),
        (
            of(&far, &RINGS, &[1, 2]),
            BatchCause::BadPosition,
            Some(5),
            // What a corner is called is the library's.
            format!("5 is out of range, {place}"),
        ),
        (of(&CORNERS, &[4, 7], &[1, 2]), BatchCause::LeftOver, None, left_over.into()),
        (of(&CORNERS, &RINGS, &[1, 1]), BatchCause::LeftOver, None, left_over.into()),
        (
            whole.colors(&COLORS[..1]),
            BatchCause::TooFewColors,
            None,
            "there are fewer colors than polygons, got 1 for 2 polygons".into(),
        ),
        (
            whole.depths(&[1]),
            BatchCause::TooFewDepths,
            None,
            "there are fewer depths than polygons, got 1 for 2 polygons".into(),
        ),
    ];
    let mut canvas = cleared();
    for threads in THREADS {
        canvas.set_threads(threads);
        for (polygons, cause, element, text) in &cases {
            let error = canvas.draw_polygons(polygons, State::new()).unwrap_err();
            assert_eq!((error.kind(), error.draw(), error.element()), (ErrorKind::BadBatch(*cause), None, *element));
            assert!(error.to_string().ends_with(text), "{error}");
        }
        let error = canvas.draw_polygon_ids(&whole, WHITE, State::new()).unwrap_err();
        assert_eq!(error.kind(), ErrorKind::BadBatch(BatchCause::TooManyIds));
    }
    assert!(canvas.ids(0).unwrap().iter().all(|&id| id == WHITE));
    let mut window = Canvas::builder(4, 4).origin(28_673, 0).build().unwrap();
    let error = window.draw_polygons(&whole, State::new()).unwrap_err();
    assert_eq!(error.kind(), ErrorKind::BadPosition);
    assert!(error.to_string().ends_with(": expected an origin of -32768 to 28672 pixels, got 28673 and 0"), "{error}");
}

// ---- Tiles

#[test]
fn reads_and_stores_tiles() {
    let corners = [[0, 0], [25_600, 0], [0, 25_600]].map(|[x, y]| Vertex::new(x, y, [0; 4]));
    for samples in [1, 2, 4, 8, 16] {
        let mut canvas = Canvas::builder(130, 200).samples(samples).build().unwrap();
        canvas.clear([255; 3]).unwrap();
        let mut entries = vec![5; canvas.tile_entries()];
        assert_eq!((canvas.tile_columns(), canvas.tile_ids(2, 3, &mut entries).unwrap()), (3, &[WHITE][..]));
        assert_eq!(entries[1], 5);
        canvas.draw_ids(&[Draw::new(&corners, Indices::InOrder)], 9).unwrap();
        let before: Vec<_> = (0..samples).map(|sample| canvas.ids(sample).unwrap()).collect();
        let written = canvas.tile_ids(0, 1, &mut entries).unwrap().to_vec();
        assert_eq!(written.len(), 4096 * samples as usize);
        for (sample, ids) in (0..).zip(&before) {
            for (x, y) in [(0, 0), (35, 0), (36, 0), (7, 8), (20, 15), (63, 63)] {
                let entry = canvas.tile_entry(x, y, sample).unwrap();
                assert_eq!(written[entry], ids[(y + CANVAS_TILE_SIZE) as usize * 130 + x as usize], "{x}, {y}");
            }
        }
        canvas.tile_store(0, 1, &written).unwrap();
        assert!((0..samples).zip(&before).all(|(sample, ids)| canvas.ids(sample).unwrap() == *ids));
        canvas.tile_store(0, 1, &[0xff03_0201]).unwrap();
        let ids = canvas.ids(samples - 1).unwrap();
        assert_eq!(
            (ids[64 * 130], ids[127 * 130 + 63], ids[64 * 130 + 64], ids[0]),
            (0x0003_0201, 0x0003_0201, WHITE, 9)
        );
    }
}

#[test]
fn blends_kept_samples_of_a_tile() {
    let mut canvas = cleared();
    let state = State::new().blend(Blend::OVER);
    let (mut kept, colors) = (vec![0; canvas.tile_entries() / 64], [0x80ff_0000]);
    // Sample 3 of pixel 1.
    kept[3] = 2;
    canvas.tile_blend(0, 1, state, &colors, &[0], &kept).unwrap();
    let blended = |sample: u32, pixel: usize| canvas.ids(sample).unwrap()[64 * 4 + pixel];
    assert_eq!((blended(3, 1), blended(3, 0), blended(2, 1)), (0x00ff_7f7f, WHITE, WHITE));
    assert_eq!(canvas.tile_blend(1, 0, state, &colors, &[0], &kept).unwrap_err().kind(), ErrorKind::BadTile);
    for (colors, depths, masks) in [(0, 1, 1), (1, 0, 1), (1, 1, 0), (2, 1, 256), (1, 16_383, 256), (1, 1, 255)] {
        let (colors, depths) = (vec![0; colors], vec![0; depths]);
        let error = canvas.tile_blend(0, 0, state, &colors, &depths, &vec![0; masks]).unwrap_err();
        assert_eq!(error.kind(), ErrorKind::BufferTooSmall);
    }
}

#[test]
fn refuses_tiles_that_there_are_not() {
    let mut canvas = cleared();
    let mut entries = vec![5; canvas.tile_entries() + 1];
    for (column, row) in [(1, 0), (0, 4), (u32::MAX, u32::MAX)] {
        assert_eq!(canvas.tile_ids(column, row, &mut entries).unwrap_err().kind(), ErrorKind::BadTile);
        let error = canvas.tile_store(column, row, &entries).unwrap_err();
        assert_eq!(
            error.to_string(),
            format!("no such tile: expected column 0 to 0 and row 0 to 3, got {column} and {row}")
        );
    }
    let mut part = canvas.rows(1, 2).unwrap();
    assert_eq!(part.tile_ids(0, 0, &mut entries).unwrap_err().kind(), ErrorKind::BadTile);
    assert_eq!(part.tile_ids(0, 1, &mut entries[..9]).unwrap_err().kind(), ErrorKind::BufferTooSmall);
    for colors in [&entries[..0], &entries[..2], &entries[..]] {
        assert_eq!(part.tile_store(0, 1, colors).unwrap_err().kind(), ErrorKind::BufferTooSmall);
    }
    const FAR: u32 = u32::MAX;
    let beside = [(64, 0, 0), (0, 64, 0), (0, 0, 4), (FAR, FAR, 0), (0, 0, FAR), (FAR, 0, FAR)];
    assert_eq!(beside.map(|(x, y, sample)| part.tile_entry(x, y, sample)), [None; 6]);
    assert!(canvas.ids(0).unwrap().iter().all(|&id| id == WHITE) && entries.iter().all(|&entry| entry == 5));
}
