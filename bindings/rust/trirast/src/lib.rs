//! Draws triangles by libtrirast: the same bytes on any number of threads.
//!
//! A [`Canvas`] keeps its samples, so that batch after batch is drawn over them: `docs/canvas.md` of the repository.
//!
//! ```
//! use trirast::{Blend, Canvas, Format, State, Vertex};
//!
//! let corners = [(128, 128), (640, 128), (128, 640)].map(|(x, y)| Vertex::new(x, y, [255, 255, 255, 128]));
//! let mut canvas = Canvas::builder(3, 3).samples(16).build()?;
//! canvas.draw(&corners, &[0u16, 1, 2], State::new().blend(Blend::OVER))?;
//! let pixels = canvas.pixels(Format::Rgb8)?;
//! # assert_eq!(pixels.len(), 27);
//! # Ok::<(), trirast::Error>(())
//! ```
//!
//! [`draw`] and its like draw a list, a JSON text, as the program `trirast` does: `docs/draw-list.md`.
//!
//! ```
//! let list = r#"{"width": 3, "height": 3, "draws": [{
//!     "vertices": [[128, 128, 0, 255, 255, 255, 255], [640, 128, 0, 255, 255, 255, 255],
//!                  [128, 640, 0, 255, 255, 255, 255]],
//!     "triangles": [[0, 1, 2]]}]}"#;
//! let picture = trirast::draw(list, trirast::TileSize::default())?;
//! assert_eq!(picture.info().width, 3);
//! assert_eq!(picture.pixels()[..3], [255, 255, 255]);
//! # Ok::<(), trirast::Error>(())
//! ```

#![deny(missing_docs)]

mod batch;
mod blend;
mod canvas;
mod cause;
mod clip;
mod cut_triangle;
mod edges;
mod error;
mod history;
mod list;
mod memory;
mod numbers;
mod parts;
mod picture;
mod polygons;
mod read;
mod state;
mod tiles;
mod values;

pub use batch::{Draw, Indices, Vertex, Vertices};
pub use blend::{Blend, Equation};
pub use canvas::{Canvas, CanvasBuilder, Clear, Origin, Sample, TileRows};
pub use cause::{BatchCause, ErrorKind, ListCause};
pub use clip::{Clip, ClipError, ClipPosition, Clipped, Cut, NearPlane, Sides};
pub use edges::{edges, edges_at, Edges, Position};
pub use error::Error;
pub use history::{triangle_samples, why, Event, Fragment, History, Listed, Outcome, Reason, SampleCounts};
pub use list::{draw, draw_by_threads, draw_into, draw_rows_into, image_info};
pub use numbers::{Cull, DepthTest, Factor, FillRule, Format, Operation, Topology};
pub use picture::{ImageInfo, Picture, TileSize};
pub use polygons::{PolygonBox, Polygons};
pub use state::{Channels, State};
pub use tiles::CANVAS_TILE_SIZE;
