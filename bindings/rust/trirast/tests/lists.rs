//! Draw lists: pictures by every way, errors, and what the program writes for lists in a file.

mod common;

use std::fs;

use trirast::{
    draw, draw_by_threads, draw_into, draw_rows_into, image_info, triangle_samples, why, ErrorKind, ListCause, Listed,
    Outcome, Reason, TileSize,
};

const SIZES: [TileSize; 4] = [TileSize::Eight, TileSize::Sixteen, TileSize::ThirtyTwo, TileSize::SixtyFour];
/// A white triangle over the upper left half of nine pixels. By the top-left rule it covers the first and second
/// pixel of the first row, and the first of the second: the third of the diagonal lies on the edge that is
/// neither top nor left.
const TRIANGLE: &str = r#"{"width": 3, "height": 3, "draws": [{
    "vertices": [[128, 128, 0, 255, 255, 255, 255], [640, 128, 0, 255, 255, 255, 255],
                 [128, 640, 0, 255, 255, 255, 255]],
    "triangles": [[0, 1, 2]]}]}"#;

#[test]
fn draws_the_pixels_that_are_covered() {
    let picture = draw(TRIANGLE, TileSize::default()).unwrap();
    let covered = [[true, true, false], [true, false, false], [false, false, false]];
    for (row, columns) in (0..).zip(covered) {
        for (column, is_covered) in (0..).zip(columns) {
            let wanted: &[u8] = if is_covered { &[255; 3] } else { &[0; 3] };
            assert_eq!(picture.pixel(column, row), Some(wanted), "column {column}, row {row}");
        }
    }
    assert_eq!(picture.pixel(3, 0), None);
    assert_eq!(&picture.file()[..11], b"P6\n3 3\n255\n");
    assert_eq!(picture.file().len(), 11 + 27);
}

#[test]
fn reads_the_size() {
    let info = image_info(TRIANGLE).unwrap();
    assert_eq!((info.width, info.height, info.pixel_bytes, info.header_bytes, info.file_bytes()), (3, 3, 3, 11, 38));
    let depths = image_info(r#"{"width": 20, "height": 7, "output": "depth", "draws": []}"#).unwrap();
    assert_eq!((depths.pixel_bytes, depths.file_bytes()), (2, 14 + 280));
}

#[test]
fn draws_into_a_buffer() {
    let mut buffer = [7u8; 40];
    draw_into(TRIANGLE, TileSize::Eight, &mut buffer).unwrap();
    assert_eq!(&buffer[..38], draw(TRIANGLE, TileSize::default()).unwrap().file());
    assert_eq!(buffer[38..], [7, 7]);
    let mut short = [7u8; 37];
    let error = draw_into(TRIANGLE, TileSize::Eight, &mut short).unwrap_err();
    assert_eq!(error.kind(), ErrorKind::BufferTooSmall);
    assert_eq!(short, [7; 37]);
}

#[test]
fn refuses_tile_rows_that_there_are_not() {
    for rows in [0..2, 1..1, 1..2] {
        let error = draw_rows_into(TRIANGLE, TileSize::ThirtyTwo, rows, &mut [0; 64]).unwrap_err();
        assert_eq!(error.kind(), ErrorKind::BadTileRows);
    }
}

#[test]
fn says_what_is_wrong_with_a_list() {
    let error = draw("{", TileSize::default()).unwrap_err();
    assert_eq!((error.kind(), error.draw()), (ErrorKind::BadList(ListCause::NotJson), None));
    let bad_index = TRIANGLE.replace("[[0, 1, 2]]", "[[0, 1, 3]]");
    let error = draw(bad_index, TileSize::default()).unwrap_err();
    assert_eq!((error.kind(), error.draw()), (ErrorKind::BadList(ListCause::BadIndex), Some(0)));
    assert_eq!(error.to_string(), "list fault 6 BadIndex in draw 0");
    let long = vec![b' '; 67_108_865];
    assert_eq!(draw(long, TileSize::default()).unwrap_err().kind(), ErrorKind::InputTooLong);
}

#[test]
fn says_why_a_sample_is_what_it_is() {
    let missed = why(TRIANGLE, 1, 1, 0, Listed::All).unwrap();
    assert_eq!((missed.position, missed.begin.depth, missed.end.color), ([384, 384], 65_535, [0; 3]));
    let event = missed.events[0];
    assert_eq!((event.draw, event.triangle, event.outcome, event.fragment), (0, 0, Outcome::Missed, None));
    assert!(event.reasons().eq([Reason::NotCovered]));
    assert_eq!((event.edges[1], event.doubled_area), (0, 262_144));
    assert!(why(TRIANGLE, 1, 1, 0, Listed::Covering).unwrap().events.is_empty());
    let drawn = why(TRIANGLE, 0, 0, 0, Listed::Covering).unwrap();
    assert_eq!(
        (drawn.events.len(), drawn.events[0].outcome, drawn.events[0].reasons().count()),
        (1, Outcome::Drawn, 0)
    );
    assert_eq!((drawn.events[0].fragment.unwrap().color, drawn.events[0].after), ([255; 4], drawn.end));
    assert_eq!(why(TRIANGLE, 3, 0, 0, Listed::All).unwrap_err().kind(), ErrorKind::BadPixel);
    assert_eq!(why(TRIANGLE, 0, 0, 1, Listed::All).unwrap_err().kind(), ErrorKind::BadSample);
    assert_eq!(why("{", 0, 0, 0, Listed::All).unwrap_err().kind(), ErrorKind::BadList(ListCause::NotJson));
    let counts = triangle_samples(TRIANGLE, 0, 0).unwrap();
    assert_eq!((counts.covered, counts.changed, counts.shown), (3, 3, 3));
    assert_eq!(triangle_samples(TRIANGLE, 0, 1).unwrap_err().kind(), ErrorKind::BadTriangle);
}

#[test]
fn several_threads_draw_at_once() {
    let wanted = draw(TRIANGLE, TileSize::default()).unwrap();
    std::thread::scope(|scope| {
        let started: Vec<_> = (0..4).map(|_| scope.spawn(|| draw(TRIANGLE, TileSize::default()).unwrap())).collect();
        for one in started {
            assert_eq!(one.join().unwrap(), wanted);
        }
    });
}

#[test]
fn draws_what_the_program_draws() {
    for (number, one) in common::manifest().into_iter().enumerate() {
        let text = fs::read(&one.list).unwrap();
        let size = SIZES[number % 4];
        if one.is_drawn {
            assert_eq!(draw(&text, size).unwrap().file(), one.written, "{}", one.list.display());
            let by_threads = draw_by_threads(&text, SIZES[number / 4 % 4], [1, 2, 3, 4, 100][number % 5]).unwrap();
            assert_eq!(by_threads.into_file(), one.written, "{}", one.list.display());
        } else {
            let line = format!("trirast: {}\n", draw(&text, size).unwrap_err());
            assert_eq!(line.as_bytes(), one.written, "{}", one.list.display());
        }
    }
}
