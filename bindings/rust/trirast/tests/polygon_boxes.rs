//! Boxes of polygons: they are those of the corners, a call by them draws the same, and what is refused.

#[allow(dead_code)]
#[path = "common/scenes.rs"]
mod scenes;

use scenes::Pick;
use trirast::{BatchCause, Blend, Canvas, DepthTest, ErrorKind, FillRule, PolygonBox, Polygons, Position, State};

const THREADS: [u32; 2] = [1, 3];
const RULES: [FillRule; 2] = [FillRule::EvenOdd, FillRule::Nonzero];
const WHITE: u32 = 16_777_215;
/// Of no corners.
const NOTHING: PolygonBox = PolygonBox { left: i32::MAX, top: i32::MAX, right: i32::MIN, bottom: i32::MIN };
/// Beside a canvas at the origin.
const BESIDE: PolygonBox = PolygonBox { left: 1 << 20, top: 0, right: 1 << 20, bottom: 512 };
const SQUARE: [Position; 4] = [[0, 0], [512, 0], [512, 512], [0, 512]];

/// The arrays of polygons, with a colour and a depth of each.
#[derive(Default)]
struct Map {
    corners: Vec<Position>,
    ring_ends: Vec<u32>,
    polygon_ends: Vec<u32>,
    colors: Vec<[u8; 4]>,
    depths: Vec<u16>,
}

impl Map {
    /// Polygons on a screen of 600 by 800 pixels and around it: of no ring up to three, of which some have no corners.
    /// Corners on quarters of pixels meet samples often.
    fn new(pick: &mut Pick, count: usize) -> Map {
        let mut map = Map::default();
        for _ in 0..count {
            let size = [9, 99, 999][pick.below(3) as usize];
            let middle = [pick.below(3200), pick.below(4000)].map(|place| place as i32 - 400);
            for _ in 0..pick.below(4) {
                for _ in 0..pick.below(8) {
                    map.corners.push(middle.map(|place| 64 * (place + pick.below(2 * size) as i32 - size as i32)));
                }
                map.ring_ends.push(map.corners.len() as u32);
            }
            map.end_polygon([0; 4].map(|_| pick.below(256) as u8), pick.below(65_536) as u16);
        }
        map
    }

    /// One polygon of each ring.
    fn of_rings(rings: &[&[Position]]) -> Map {
        let mut map = Map::default();
        for ring in rings {
            map.corners.extend(*ring);
            map.ring_ends.push(map.corners.len() as u32);
            map.end_polygon([0, 0, 0, 255], 0);
        }
        map
    }

    fn end_polygon(&mut self, color: [u8; 4], depth: u16) {
        self.polygon_ends.push(self.ring_ends.len() as u32);
        self.colors.push(color);
        self.depths.push(depth);
    }

    fn polygons(&self) -> Polygons<'_> {
        Polygons::new(&self.corners, &self.ring_ends, &self.polygon_ends).colors(&self.colors).depths(&self.depths)
    }

    /// The box of each polygon, corner by corner.
    fn boxes(&self) -> Vec<PolygonBox> {
        let (mut ring, mut corner) = (0, 0);
        let mut box_of = |&end: &u32| {
            let mut found = NOTHING;
            for &behind in &self.ring_ends[ring..end as usize] {
                for &[x, y] in &self.corners[corner..behind as usize] {
                    (found.left, found.right) = (found.left.min(x), found.right.max(x));
                    (found.top, found.bottom) = (found.top.min(y), found.bottom.max(y));
                }
                corner = behind as usize;
            }
            ring = end as usize;
            found
        };
        self.polygon_ends.iter().map(&mut box_of).collect()
    }
}

/// All that is read back of a canvas: of each sample index the ids and the depths.
type Shown = Vec<(Vec<u32>, Vec<u16>)>;

fn shown(canvas: &Canvas) -> Shown {
    (0..canvas.samples()).map(|sample| (canvas.ids(sample).unwrap(), canvas.depths(sample).unwrap())).collect()
}

/// A white window of 130 by 200 pixels, which has four tile rows.
fn window(samples: u32, [x, y]: [i32; 2], threads: u32) -> Canvas {
    let mut canvas = Canvas::builder(130, 200).samples(samples).origin(x, y).threads(threads).build().unwrap();
    canvas.clear([255; 3]).unwrap();
    canvas
}

/// What a window shows on which polygons were drawn: in their colours, or by ids.
fn drawn(polygons: &Polygons<'_>, samples: u32, origin: [i32; 2], threads: u32, ids: Option<u32>) -> Shown {
    let mut canvas = window(samples, origin, threads);
    let state = State::new().blend(Blend::OVER).depth_test(DepthTest::LessEqual).depth_write(true);
    match ids {
        Some(first_id) => canvas.draw_polygon_ids(polygons, first_id, state).unwrap(),
        None => canvas.draw_polygons(polygons, state).unwrap(),
    }
    shown(&canvas)
}

#[test]
fn are_those_of_the_corners() {
    let map = Map::new(&mut Pick::new(3), 300);
    let boxes = map.polygons().measure().unwrap();
    assert_eq!(boxes, map.boxes());
    assert!(boxes.contains(&NOTHING));
    assert_eq!(map.polygons().boxes(&[BESIDE]).colors(&[]).depths(&[]).measure().unwrap(), boxes);
    assert_eq!(Polygons::default().measure().unwrap(), []);
}

#[test]
fn show_the_same_of_a_map() {
    let mut pick = Pick::new(7);
    for samples in [1, 2, 4, 8, 16] {
        let map = Map::new(&mut pick, 120);
        let boxes = map.polygons().measure().unwrap();
        for rule in RULES {
            let polygons = map.polygons().fill_rule(rule);
            for ids in [None, Some(70_000)] {
                let origin = [pick.below(470), pick.below(600)].map(|place| place as i32);
                let wanted = drawn(&polygons, samples, origin, 1, ids);
                assert!(wanted != drawn(&Polygons::default(), samples, origin, 1, ids));
                for threads in THREADS {
                    assert!(drawn(&polygons, samples, origin, threads, ids) == wanted, "{rule:?}, {samples} samples");
                    let by_boxes = drawn(&polygons.boxes(&boxes), samples, origin, threads, ids);
                    assert!(by_boxes == wanted, "{rule:?}, {samples} samples, by boxes");
                }
            }
        }
    }
}

#[test]
fn show_what_meets_the_edges_of_a_canvas() {
    let ([left, top], [width, height]) = ([-3, 5], [5, 2]);
    let steps = [-513, -512, -511, -256, -1, 0, 1, 255, 256];
    let corner = |x: i32, y: i32| {
        steps.into_iter().flat_map(move |dx| steps.into_iter().map(move |dy| [256 * x + dx, 256 * y + dy]))
    };
    let places = [left, left + width].into_iter().flat_map(|x| [(x, top), (x, top + height)]);
    let mut seen = [0; 2];
    for [dx, dy] in places.flat_map(|(x, y)| corner(x, y)) {
        let square = SQUARE.map(|[x, y]| [x + dx, y + dy]);
        let map = Map::of_rings(&[&square]);
        let boxes = map.polygons().measure().unwrap();
        let [found, wanted] = [&boxes[..], &[]].map(|boxes| {
            let builder = Canvas::builder(width as u32, height as u32).samples(16).origin(left, top);
            let mut canvas = builder.build().unwrap();
            canvas.clear([255; 3]).unwrap();
            canvas.draw_polygon_ids(&map.polygons().boxes(boxes), 0, State::new()).unwrap();
            shown(&canvas)
        });
        assert_eq!(found, wanted, "{dx}, {dy}");
        seen[usize::from(found.iter().any(|(ids, _)| ids.contains(&0)))] += 1;
    }
    assert!(seen[0] > 0 && seen[1] > 0);
}

#[test]
fn of_all_beside_a_canvas_change_nothing() {
    let map = Map::new(&mut Pick::new(11), 50);
    let boxes = map.polygons().measure().unwrap();
    for origin in [[-4000, 0], [4000, 0], [0, -4000], [0, 4000]] {
        for threads in THREADS {
            let found = drawn(&map.polygons().boxes(&boxes), 4, origin, threads, Some(0));
            assert!(found == drawn(&Polygons::default(), 4, origin, 1, None));
        }
    }
}

#[test]
fn of_fewer_polygons_are_refused() {
    let map = Map::of_rings(&[&SQUARE, &SQUARE]);
    let boxes = map.polygons().measure().unwrap();
    let few = map.polygons().boxes(&boxes[..1]);
    for threads in THREADS {
        let mut canvas = window(4, [0, 0], threads);
        let errors = [
            canvas.draw_polygons(&few, State::new()).unwrap_err(),
            canvas.draw_polygon_ids(&few, WHITE, State::new()).unwrap_err(),
            canvas.draw_polygons(&few.colors(&[]).depths(&[1]), State::new()).unwrap_err(),
        ];
        for error in errors {
            assert_eq!(error.kind(), ErrorKind::BadBatch(BatchCause::TooFewBoxes));
            assert_eq!(error.to_string(), "there are fewer boxes than polygons, got 1 for 2 polygons");
        }
        assert!(canvas.ids(0).unwrap().iter().all(|&id| id == WHITE));
        // More of them are none too few.
        let one = Map::of_rings(&[&SQUARE]);
        canvas.draw_polygons(&one.polygons().boxes(&boxes), State::new()).unwrap();
        assert_eq!(canvas.ids(0).unwrap()[0], 0);
    }
}

#[test]
fn of_other_polygons_leave_some_out() {
    let rings = [0, 1, 2, 3, 4].map(|k| SQUARE.map(|[x, y]| [x + 4096 * k, y]));
    let map = Map::of_rings(&[&rings[0], &rings[1], &rings[2], &rings[3], &rings[4]]);
    let mut boxes = map.boxes();
    (boxes[1], boxes[3]) = (NOTHING, BESIDE);
    // One that holds more than its polygon, or less, and meets the canvas changes nothing.
    boxes[0] = PolygonBox { left: -9999, top: -9999, right: 99_999, bottom: 99_999 };
    boxes[4] = PolygonBox { left: 0, top: 0, right: 256, bottom: 256 };
    let left = Map::of_rings(&[&rings[0], &[], &rings[2], &[], &rings[4]]);
    for (rule, threads) in RULES.into_iter().flat_map(|rule| THREADS.map(|threads| (rule, threads))) {
        let wanted = drawn(&left.polygons().fill_rule(rule), 4, [0, 0], 1, Some(0));
        let found = drawn(&map.polygons().fill_rule(rule).boxes(&boxes), 4, [0, 0], threads, Some(0));
        assert!(found == wanted, "{rule:?}, {threads} threads");
    }
}

#[test]
fn are_refused_if_a_corner_is_far() {
    let far = [[0, 0], [512, 0], [512, 8_388_608]];
    let beside = SQUARE.map(|[x, y]| [x + 512, y]);
    let map = Map::of_rings(&[&SQUARE, &far, &beside]);
    let error = map.polygons().measure().unwrap_err();
    assert_eq!((error.kind(), error.element()), (ErrorKind::BadBatch(BatchCause::BadPosition), Some(6)));
    let place = "x 512 and y 8388608 in 1/256 pixel (2 and 32768 pixels)";
    assert!(
        error.to_string().ends_with(&format!("{place}; y: -8388608 to 8388607 (-32768 to 32767.99609375 pixels)")),
        "{error}"
    );
    // By boxes that a caller made the polygon is left out.
    let left = Map::of_rings(&[&SQUARE, &[], &beside]);
    let wanted = drawn(&left.polygons(), 4, [0, 0], 1, Some(0));
    let boxes = map.boxes();
    for second in [boxes[1], boxes[0], BESIDE] {
        for threads in THREADS {
            let boxes = [boxes[0], second, boxes[2]];
            let found = drawn(&map.polygons().boxes(&boxes), 4, [0, 0], threads, Some(0));
            assert!(found == wanted, "{second:?}, {threads} threads");
            // Without boxes the call is refused as by one thread.
            let mut canvas = window(4, [0, 0], threads);
            assert_eq!(canvas.draw_polygons(&map.polygons(), State::new()).unwrap_err(), error);
        }
    }
}

#[test]
fn are_refused_by_ring_and_polygon() {
    let corners = [SQUARE, SQUARE].concat();
    let cases = [
        (Polygons::new(&corners, &[5, 4], &[1, 2]), BatchCause::BadRing, Some(1)),
        (Polygons::new(&corners, &[9, 9], &[1, 2]), BatchCause::BadRing, Some(0)),
        (Polygons::new(&corners, &[4, 7], &[1, 2]), BatchCause::LeftOver, None),
        (Polygons::new(&corners, &[4, 8], &[1, 3]), BatchCause::BadPolygon, Some(1)),
        (Polygons::new(&corners, &[4, 8], &[1, 1]), BatchCause::LeftOver, None),
    ];
    for (polygons, cause, element) in cases {
        let error = polygons.measure().unwrap_err();
        assert_eq!((error.kind(), error.element()), (ErrorKind::BadBatch(cause), element));
        for threads in THREADS {
            let mut canvas = window(1, [0, 0], threads);
            assert_eq!(canvas.draw_polygons(&polygons, State::new()).unwrap_err(), error);
        }
    }
}
