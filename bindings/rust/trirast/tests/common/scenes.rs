//! Scenes: as generated, and those of lists, which lie beside them as NAME.scene.

use std::fs;
use std::path::Path;

use trirast::{Blend, Channels, Clear, Cull, DepthTest, Draw, State, Topology, Vertex};

const TOPOLOGIES: [Topology; 3] = [Topology::Triangles, Topology::Strip, Topology::Quads];
const CULLS: [Cull; 3] = [Cull::None, Cull::Front, Cull::Back];
/// By their numbers.
const TESTS: [DepthTest; 8] = [
    DepthTest::Always,
    DepthTest::Never,
    DepthTest::Less,
    DepthTest::Equal,
    DepthTest::LessEqual,
    DepthTest::Greater,
    DepthTest::NotEqual,
    DepthTest::GreaterEqual,
];
const BLENDS: [Blend; 2] = [Blend::NONE, Blend::OVER];
const CHANNELS: [Channels; 3] = [Channels::RED, Channels::GREEN, Channels::BLUE];

/// A draw with its arrays.
#[derive(Clone, Debug)]
pub struct Drawn {
    pub vertices: Vec<Vertex>,
    pub indices: Vec<u32>,
    pub state: State,
}

/// A picture, of colours or of depths, and what is drawn on it.
#[derive(Clone, Debug)]
pub struct Scene {
    pub width: u32,
    pub height: u32,
    pub samples: u32,
    pub is_depth: bool,
    pub clear: Clear,
    pub draws: Vec<Drawn>,
}

impl Scene {
    pub fn draws(&self) -> Vec<Draw<'_>> {
        self.draws.iter().map(|one| Draw::new(&one.vertices, &one.indices).state(one.state)).collect()
    }

    /// The vertices that an index names.
    pub fn vertices(&self) -> impl Iterator<Item = &Vertex> {
        self.draws.iter().flat_map(|one| one.indices.iter().map(move |&index| &one.vertices[index as usize]))
    }
}

/// Numbers that are the same in each run.
pub struct Pick(u64);

impl Pick {
    pub fn new(seed: u64) -> Pick {
        Pick(seed)
    }

    /// A number below `end`, by the generator of Knuth's MMIX.
    pub fn below(&mut self, end: u32) -> u32 {
        self.0 = self.0.wrapping_mul(6_364_136_223_846_793_005).wrapping_add(1_442_695_040_888_963_407);
        ((self.0 >> 33) % u64::from(end)) as u32
    }

    fn byte(&mut self) -> u8 {
        self.below(256) as u8
    }

    fn one_of<T: Copy>(&mut self, all: &[T]) -> T {
        all[self.below(all.len() as u32) as usize]
    }

    /// A position, in or around a picture of this side.
    fn position(&mut self, side: u32) -> i32 {
        self.below(512 * side) as i32 - 128 * side as i32
    }

    fn vertex(&mut self, width: u32, height: u32) -> Vertex {
        let (x, y, depth) = (self.position(width), self.position(height), self.below(65_536) as u16);
        Vertex::new(x, y, [self.byte(), self.byte(), self.byte(), self.byte()]).at_depth(depth)
    }

    fn state(&mut self, width: u32, height: u32) -> State {
        let scissor =
            [self.below(width), self.below(height), width, height - self.below(height)].map(|edge| edge as i32);
        let mut state = State::new()
            .topology(self.one_of(&TOPOLOGIES[..2]))
            .cull(self.one_of(&CULLS))
            .depth_test(self.one_of(&TESTS))
            .depth_write(self.below(2) == 1)
            .blend(self.one_of(&BLENDS))
            .skip_samples(self.below(4) as u16);
        for channel in CHANNELS {
            if self.below(4) == 0 {
                state.keep |= channel;
            }
        }
        if self.below(3) == 0 {
            state.scissor = Some(scissor);
        }
        state
    }

    pub fn scene(&mut self) -> Scene {
        let (width, height) = (1 + self.below(150), 1 + self.below(300));
        let samples = self.one_of(&[1, 2, 4, 8, 16]);
        let clear = Clear { color: [self.byte(), self.byte(), self.byte(), 255], depth: self.below(65_536) as u16 };
        let draws = (0..1 + self.below(6)).map(|_| {
            let vertices: Vec<_> = (0..3 + self.below(9)).map(|_| self.vertex(width, height)).collect();
            let indices = (0..3 * (1 + self.below(5))).map(|_| self.below(vertices.len() as u32)).collect();
            Drawn { vertices, indices, state: self.state(width, height) }
        });
        let draws = draws.collect();
        Scene { width, height, samples, is_depth: false, clear, draws }
    }
}

/// The scene of a list, whose arrays are three counts, the head, and the arrays one after another, as 32-bit integers.
pub fn read(list: &Path) -> Scene {
    let bytes = fs::read(list.with_extension("scene")).expect("the arrays of a list");
    let mut numbers = bytes.chunks(4).map(|four| u32::from_le_bytes([four[0], four[1], four[2], four[3]]));
    let mut next = || numbers.next().expect("a number");
    let [draw_count, _, _, width, height, samples, output] = [0; 7].map(|_| next());
    let [red, green, blue] = [0; 3].map(|_| next() as u8);
    let clear = Clear { color: [red, green, blue, 255], depth: next() as u16 };
    let heads: Vec<_> = (0..draw_count).map(|_| [0; 13].map(|_| next())).collect();
    let vertices: Vec<Vec<_>> =
        heads.iter().map(|draw| (0..draw[0]).map(|_| vertex_of([0; 7].map(|_| next()))).collect()).collect();
    let arrays = heads.iter().zip(vertices);
    let draws = arrays.map(|(draw, vertices)| Drawn {
        vertices,
        indices: (0..draw[1]).map(|_| next()).collect(),
        state: state_of(draw),
    });
    Scene { draws: draws.collect(), width, height, samples, is_depth: output == 1, clear }
}

fn vertex_of([x, y, depth, red, green, blue, alpha]: [u32; 7]) -> Vertex {
    Vertex::new(x as i32, y as i32, [red, green, blue, alpha].map(|channel| channel as u8)).at_depth(depth as u16)
}

/// The state of a draw: its two counts, topology, cull, depth test, whether depth is written, whether it is blended
/// over what is stored, the channels that are kept, the samples that are skipped, and the scissor.
fn state_of(draw: &[u32; 13]) -> State {
    let mut state = State::new()
        .topology(TOPOLOGIES[draw[2] as usize])
        .cull(CULLS[draw[3] as usize])
        .depth_test(TESTS[draw[4] as usize])
        .depth_write(draw[5] == 1)
        .blend(BLENDS[draw[6] as usize])
        .skip_samples(draw[8] as u16)
        .scissor([draw[9], draw[10], draw[11], draw[12]].map(|edge| edge as i32));
    for (bit, channel) in CHANNELS.into_iter().enumerate() {
        if draw[7] >> bit & 1 == 1 {
            state.keep |= channel;
        }
    }
    state
}
