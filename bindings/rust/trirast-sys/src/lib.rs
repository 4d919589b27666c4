//! The calls and structs of `trirast.h`, which documents each. The crate `trirast` has safe calls over these.
//!
//! Written by `python3 -m tools.interface` from that header and from `interface/numbers.toml`.

#![allow(non_camel_case_types)]

use std::os::raw::{c_char, c_void};

/// The release that these declarations describe.
pub const TRIRAST_VERSION_MAJOR: u32 = 0;
pub const TRIRAST_VERSION_MINOR: u32 = 1;
pub const TRIRAST_VERSION_PATCH: u32 = 0;
/// The interface that these declarations describe: a library of a greater number has all of it, in the same form.
pub const TRIRAST_INTERFACE: u32 = 2;
/// No index: what an error names is in no draw, or is no element.
pub const TRIRAST_NONE: usize = usize::MAX;
/// Bytes of stack that are enough for each call: docs/reference/calls.md.
pub const TRIRAST_STACK: usize = 262_144;
/// Bytes of stack that are enough for a call that reads a draw list: docs/reference/calls.md.
pub const TRIRAST_STACK_TEXT: usize = 196_608;
/// Bytes that are enough for each message of trirast_error_message with its zero byte.
pub const TRIRAST_ERROR_MESSAGE_SIZE: usize = 128;
/// The greatest vertex_stride: D3D11_REQ_MULTI_ELEMENT_STRUCTURE_SIZE_IN_BYTES.
pub const TRIRAST_MAX_STRIDE: usize = 2048;
/// The width and height of a tile of a canvas, in pixels.
pub const TRIRAST_TILE_SIZE: u32 = 64;
/// Bytes of one sample index over a block of 8 by 8 pixels, 64 samples of 6 bytes: the unit of a canvas's memory. A
/// canvas without alpha has room for it too, which is 255 once it was cleared or loaded.
pub const TRIRAST_PLANE_BYTES: usize = 384;

// What a call returns.
pub const TRIRAST_STATUS_OK: u32 = 0;
pub const TRIRAST_STATUS_BAD_LIST: u32 = 1;
pub const TRIRAST_STATUS_INPUT_TOO_LONG: u32 = 2;
pub const TRIRAST_STATUS_OUT_OF_MEMORY: u32 = 3;
pub const TRIRAST_STATUS_BUFFER_TOO_SMALL: u32 = 4;
pub const TRIRAST_STATUS_BAD_TILE_SIZE: u32 = 5;
pub const TRIRAST_STATUS_BAD_TILE_ROWS: u32 = 6;
pub const TRIRAST_STATUS_BAD_STRUCT_SIZE: u32 = 7;
pub const TRIRAST_STATUS_BAD_CANVAS: u32 = 8;
pub const TRIRAST_STATUS_BAD_MEMORY: u32 = 9;
pub const TRIRAST_STATUS_BAD_FORMAT: u32 = 10;
pub const TRIRAST_STATUS_BAD_SAMPLE: u32 = 11;
pub const TRIRAST_STATUS_BAD_POSITION: u32 = 12;
pub const TRIRAST_STATUS_BAD_PIXEL: u32 = 13;
pub const TRIRAST_STATUS_BAD_TRIANGLE: u32 = 14;
pub const TRIRAST_STATUS_BAD_BATCH: u32 = 15;
pub const TRIRAST_STATUS_BAD_STRIDE: u32 = 16;
pub const TRIRAST_STATUS_BAD_TILE: u32 = 17;
pub const TRIRAST_STATUS_BAD_INDEX_SIZE: u32 = 18;

// Why a text is no draw list: the numbers and names of docs/draw-list.md.
pub const TRIRAST_LIST_NOT_JSON: u32 = 1;
pub const TRIRAST_LIST_UNKNOWN_KEY: u32 = 2;
pub const TRIRAST_LIST_MISSING_KEY: u32 = 3;
pub const TRIRAST_LIST_WRONG_KIND: u32 = 4;
pub const TRIRAST_LIST_OUT_OF_RANGE: u32 = 5;
pub const TRIRAST_LIST_BAD_INDEX: u32 = 6;
pub const TRIRAST_LIST_TOO_MANY: u32 = 7;
pub const TRIRAST_LIST_TWO_LISTS: u32 = 9;
pub const TRIRAST_LIST_NOT_CONVEX: u32 = 10;

// Why a batch cannot be drawn.
pub const TRIRAST_BATCH_TOO_FEW_VERTICES: u32 = 1;
pub const TRIRAST_BATCH_TOO_FEW_INDICES: u32 = 2;
pub const TRIRAST_BATCH_BAD_STATE: u32 = 3;
pub const TRIRAST_BATCH_NOT_WHOLE: u32 = 4;
pub const TRIRAST_BATCH_TOO_MANY_IDS: u32 = 5;
pub const TRIRAST_BATCH_BAD_INDEX: u32 = 6;
pub const TRIRAST_BATCH_BAD_POSITION: u32 = 7;
pub const TRIRAST_BATCH_NOT_CONVEX: u32 = 8;
pub const TRIRAST_BATCH_LEFT_OVER: u32 = 9;
pub const TRIRAST_BATCH_TOO_MANY_CORNERS: u32 = 10;
pub const TRIRAST_BATCH_BAD_RING: u32 = 11;
pub const TRIRAST_BATCH_BAD_POLYGON: u32 = 12;
pub const TRIRAST_BATCH_TOO_FEW_COLORS: u32 = 13;
pub const TRIRAST_BATCH_TOO_FEW_DEPTHS: u32 = 14;
pub const TRIRAST_BATCH_BAD_TOPOLOGY: u32 = 15;
pub const TRIRAST_BATCH_BAD_CULL: u32 = 16;
pub const TRIRAST_BATCH_BAD_DEPTH_TEST: u32 = 17;
pub const TRIRAST_BATCH_BAD_DEPTH_WRITE: u32 = 18;
pub const TRIRAST_BATCH_BAD_KEEP: u32 = 19;
pub const TRIRAST_BATCH_BAD_SCISSOR_ENABLE: u32 = 20;
pub const TRIRAST_BATCH_BAD_FACTOR: u32 = 21;
pub const TRIRAST_BATCH_BAD_OPERATION: u32 = 22;
pub const TRIRAST_BATCH_BAD_FILL_RULE: u32 = 23;
pub const TRIRAST_BATCH_TOO_FEW_BOXES: u32 = 24;

// What the indices of a draw are, or without any its vertices in their order.
pub const TRIRAST_TOPOLOGY_TRIANGLES: u32 = 0;
pub const TRIRAST_TOPOLOGY_STRIP: u32 = 1;
pub const TRIRAST_TOPOLOGY_QUADS: u32 = 2;

// Which triangles are dropped.
pub const TRIRAST_CULL_NONE: u32 = 0;
pub const TRIRAST_CULL_FRONT: u32 = 1;
pub const TRIRAST_CULL_BACK: u32 = 2;

// When the new depth passes its test against the stored one: the numbers of D3D11_COMPARISON_FUNC, but 0 in place of 8.
pub const TRIRAST_DEPTH_ALWAYS: u32 = 0;
pub const TRIRAST_DEPTH_NEVER: u32 = 1;
pub const TRIRAST_DEPTH_LESS: u32 = 2;
pub const TRIRAST_DEPTH_EQUAL: u32 = 3;
pub const TRIRAST_DEPTH_LESS_EQUAL: u32 = 4;
pub const TRIRAST_DEPTH_GREATER: u32 = 5;
pub const TRIRAST_DEPTH_NOT_EQUAL: u32 = 6;
pub const TRIRAST_DEPTH_GREATER_EQUAL: u32 = 7;

// Channels that a draw keeps as they are stored.
pub const TRIRAST_KEEP_RED: u32 = 1;
pub const TRIRAST_KEEP_GREEN: u32 = 2;
pub const TRIRAST_KEEP_BLUE: u32 = 4;
pub const TRIRAST_KEEP_ALPHA: u32 = 8;

// What a blend equation multiplies a term by: the numbers of D3D11_BLEND.
pub const TRIRAST_FACTOR_DEFAULT: u32 = 0;
pub const TRIRAST_FACTOR_ZERO: u32 = 1;
pub const TRIRAST_FACTOR_ONE: u32 = 2;
pub const TRIRAST_FACTOR_SOURCE_COLOR: u32 = 3;
pub const TRIRAST_FACTOR_INVERSE_SOURCE_COLOR: u32 = 4;
pub const TRIRAST_FACTOR_SOURCE_ALPHA: u32 = 5;
pub const TRIRAST_FACTOR_INVERSE_SOURCE_ALPHA: u32 = 6;
pub const TRIRAST_FACTOR_STORED_ALPHA: u32 = 7;
pub const TRIRAST_FACTOR_INVERSE_STORED_ALPHA: u32 = 8;
pub const TRIRAST_FACTOR_STORED_COLOR: u32 = 9;
pub const TRIRAST_FACTOR_INVERSE_STORED_COLOR: u32 = 10;
pub const TRIRAST_FACTOR_SOURCE_ALPHA_SATURATED: u32 = 11;
pub const TRIRAST_FACTOR_CONSTANT: u32 = 14;
pub const TRIRAST_FACTOR_INVERSE_CONSTANT: u32 = 15;

// How a blend equation combines its terms, f = s by its factor and g = d by its factor: the numbers of D3D11_BLEND_OP,
// and 0 for ADD.
pub const TRIRAST_OPERATION_DEFAULT: u32 = 0;
pub const TRIRAST_OPERATION_ADD: u32 = 1;
pub const TRIRAST_OPERATION_SUBTRACT: u32 = 2;
pub const TRIRAST_OPERATION_REVERSE_SUBTRACT: u32 = 3;
pub const TRIRAST_OPERATION_MIN: u32 = 4;
pub const TRIRAST_OPERATION_MAX: u32 = 5;

// Which points are inside of a polygon, by the edges of its rings that a ray to the left crosses.
pub const TRIRAST_FILL_EVEN_ODD: u32 = 0;
pub const TRIRAST_FILL_NONZERO: u32 = 1;

// How the colour of a pixel lies in bytes, in the order of the name.
pub const TRIRAST_FORMAT_RGB8: u32 = 0;
pub const TRIRAST_FORMAT_RGBA8: u32 = 1;
pub const TRIRAST_FORMAT_BGRA8: u32 = 2;
pub const TRIRAST_FORMAT_RGBA8_STRAIGHT: u32 = 3;
pub const TRIRAST_FORMAT_BGRA8_STRAIGHT: u32 = 4;

// What a picture shows.
pub const TRIRAST_OUTPUT_COLOR: u32 = 0;
pub const TRIRAST_OUTPUT_DEPTH: u32 = 1;

// What a triangle did to a sample.
pub const TRIRAST_RESULT_MISSED: u32 = 0;
pub const TRIRAST_RESULT_DEPTH_FAILED: u32 = 1;
pub const TRIRAST_RESULT_DRAWN: u32 = 2;

// Why a triangle is not drawn at a sample.
pub const TRIRAST_REASON_CULLED: u32 = 1;
pub const TRIRAST_REASON_ZERO_AREA: u32 = 2;
pub const TRIRAST_REASON_NOT_COVERED: u32 = 4;
pub const TRIRAST_REASON_OUTSIDE_SCISSOR: u32 = 8;
pub const TRIRAST_REASON_MASKED: u32 = 16;
pub const TRIRAST_REASON_DEPTH_FAILED: u32 = 32;

// How a sample fails the top-left rule at an edge.
pub const TRIRAST_FAILURE_NONE: u32 = 0;
pub const TRIRAST_FAILURE_OUTSIDE: u32 = 1;
pub const TRIRAST_FAILURE_ON_EDGE: u32 = 2;

// What a draw writes.
pub const TRIRAST_WRITE_RED: u32 = 1;
pub const TRIRAST_WRITE_GREEN: u32 = 2;
pub const TRIRAST_WRITE_BLUE: u32 = 4;
pub const TRIRAST_WRITE_DEPTH: u32 = 8;

/// Why a call failed.
#[repr(C)]
#[derive(Clone, Copy, Debug, Default, PartialEq, Eq, Hash)]
pub struct trirast_error {
    pub status: u32,
    pub cause: u32,
    pub draw: usize,
    pub element: usize,
    pub value: usize,
}

/// What the new colour does to the stored one.
#[repr(C)]
#[derive(Clone, Copy, Debug, Default, PartialEq, Eq, Hash)]
pub struct trirast_blend {
    pub color_source: u8,
    pub color_stored: u8,
    pub color_operation: u8,
    pub alpha_source: u8,
    pub alpha_stored: u8,
    pub alpha_operation: u8,
    pub constant: [u8; 4],
}

/// A vertex: 16 bytes.
#[repr(C)]
#[derive(Clone, Copy, Debug, Default, PartialEq, Eq, Hash)]
pub struct trirast_vertex {
    pub x: i32,
    pub y: i32,
    pub depth: u16,
    pub red: u8,
    pub green: u8,
    pub blue: u8,
    pub alpha: u8,
    pub unused: u16,
}

/// One draw of a batch.
#[repr(C)]
#[derive(Clone, Copy, Debug, Default, PartialEq, Eq, Hash)]
pub struct trirast_draw {
    pub vertex_count: usize,
    pub index_count: usize,
    pub topology: u8,
    pub cull: u8,
    pub depth_test: u8,
    pub depth_write: u8,
    pub keep: u8,
    pub scissor_enable: u8,
    pub skip_samples: u16,
    pub scissor_left: i32,
    pub scissor_top: i32,
    pub scissor_right: i32,
    pub scissor_bottom: i32,
    pub blend: trirast_blend,
}

/// Draws with their vertices and indices.
#[repr(C)]
#[derive(Clone, Copy, Debug)]
pub struct trirast_batch {
    pub struct_size: u32,
    pub vertex_stride: u32,
    pub index_size: u32,
    pub draws: *const trirast_draw,
    pub draw_count: usize,
    pub vertices: *const c_void,
    pub vertex_count: usize,
    pub indices: *const c_void,
    pub index_count: usize,
}

impl Default for trirast_batch {
    /// All zeros.
    fn default() -> trirast_batch {
        // SAFETY: numbers and raw pointers may be zeros.
        unsafe { std::mem::zeroed() }
    }
}

/// The tile rows of a canvas, or some of them, with the memory of their samples.
#[repr(C)]
#[derive(Clone, Copy, Debug)]
pub struct trirast_canvas {
    pub struct_size: u32,
    pub width: u32,
    pub height: u32,
    pub samples: u32,
    pub channels: u32,
    pub origin_x: i32,
    pub origin_y: i32,
    pub first: u32,
    pub end: u32,
    pub initialized: u32,
    pub memory: *mut c_void,
    pub plane_count: usize,
}

impl Default for trirast_canvas {
    /// All zeros.
    fn default() -> trirast_canvas {
        // SAFETY: numbers and raw pointers may be zeros.
        unsafe { std::mem::zeroed() }
    }
}

/// What samples are made by trirast_canvas_clear.
#[repr(C)]
#[derive(Clone, Copy, Debug, Default, PartialEq, Eq, Hash)]
pub struct trirast_clear {
    pub red: u8,
    pub green: u8,
    pub blue: u8,
    pub alpha: u8,
    pub depth: u16,
    pub unused: u16,
}

/// A corner of a ring, or any point, in 1/256 pixel of the screen: -8388608 to 8388607.
#[repr(C)]
#[derive(Clone, Copy, Debug, Default, PartialEq, Eq, Hash)]
pub struct trirast_corner {
    pub x: i32,
    pub y: i32,
}

/// The box of a polygon's corners in 1/256 pixel of the screen: the least and the greatest x and y of them.
#[repr(C)]
#[derive(Clone, Copy, Debug, Default, PartialEq, Eq, Hash)]
pub struct trirast_box {
    pub left: i32,
    pub top: i32,
    pub right: i32,
    pub bottom: i32,
}

/// Polygons with their colours.
#[repr(C)]
#[derive(Clone, Copy, Debug)]
pub struct trirast_polygons {
    pub struct_size: u32,
    pub fill_rule: u32,
    pub corners: *const trirast_corner,
    pub corner_count: usize,
    pub ring_ends: *const u32,
    pub ring_count: usize,
    pub polygon_ends: *const u32,
    pub polygon_count: usize,
    pub colors: *const [u8; 4],
    pub color_count: usize,
    pub depths: *const u16,
    pub depth_count: usize,
    pub boxes: *const trirast_box,
    pub box_count: usize,
    pub state: trirast_draw,
}

impl Default for trirast_polygons {
    /// All zeros.
    fn default() -> trirast_polygons {
        // SAFETY: numbers and raw pointers may be zeros.
        unsafe { std::mem::zeroed() }
    }
}

/// What lies where in scratch memory: columns of flags, and after them columns of counters.
#[repr(C)]
#[derive(Clone, Copy, Debug, Default, PartialEq, Eq, Hash)]
pub struct trirast_scratch_layout {
    pub flag_columns: usize,
    pub counter_columns: usize,
    pub counters_at: usize,
    pub size: usize,
}

/// The corners of a triangle, in 1/256 pixel: -8388608 to 8388607 each.
#[repr(C)]
#[derive(Clone, Copy, Debug, Default, PartialEq, Eq, Hash)]
pub struct trirast_corners {
    pub ax: i32,
    pub ay: i32,
    pub bx: i32,
    pub by: i32,
    pub cx: i32,
    pub cy: i32,
}

/// A point, in 1/256 pixel: -8388608 to 8388607.
#[repr(C)]
#[derive(Clone, Copy, Debug, Default, PartialEq, Eq, Hash)]
pub struct trirast_point {
    pub x: i32,
    pub y: i32,
}

/// The edge functions of a triangle at a point, in 1/65536 square pixel.
#[repr(C)]
#[derive(Clone, Copy, Debug, Default, PartialEq, Eq, Hash)]
pub struct trirast_edges {
    pub a: i64,
    pub b: i64,
    pub c: i64,
    pub doubled_area: i64,
    pub covered: u64,
}

/// The size of a picture and of its file.
#[repr(C)]
#[derive(Clone, Copy, Debug, Default, PartialEq, Eq, Hash)]
pub struct trirast_image_info {
    pub width: u32,
    pub height: u32,
    pub pixel_bytes: u32,
    pub header_bytes: u32,
    pub file_bytes: u64,
}

/// What a sample stores.
#[repr(C)]
#[derive(Clone, Copy, Debug, Default, PartialEq, Eq, Hash)]
pub struct trirast_stored {
    pub red: u32,
    pub green: u32,
    pub blue: u32,
    pub depth: u32,
}

/// What a triangle has at a sample, each value rounded down.
#[repr(C)]
#[derive(Clone, Copy, Debug, Default, PartialEq, Eq, Hash)]
pub struct trirast_fragment {
    pub red: u32,
    pub green: u32,
    pub blue: u32,
    pub alpha: u32,
    pub depth: u32,
}

/// What a triangle of a draw list did to a sample, and why.
#[repr(C)]
#[derive(Clone, Copy, Debug, Default, PartialEq, Eq, Hash)]
pub struct trirast_event {
    pub doubled_area: i64,
    pub edge_ab: i64,
    pub edge_bc: i64,
    pub edge_ca: i64,
    pub number: usize,
    pub draw: usize,
    pub triangle: usize,
    pub failure_ab: u32,
    pub failure_bc: u32,
    pub failure_ca: u32,
    pub result: u32,
    pub reasons: u32,
    pub writes: u32,
    pub covered: u32,
    pub fragment: trirast_fragment,
    pub before: trirast_stored,
    pub after: trirast_stored,
}

/// A sample beside its events.
#[repr(C)]
#[derive(Clone, Copy, Debug, Default, PartialEq, Eq, Hash)]
pub struct trirast_sample_info {
    pub event_count: usize,
    pub samples: u32,
    pub output: u32,
    pub x: i32,
    pub y: i32,
    pub begin: trirast_stored,
    pub end: trirast_stored,
}

/// The sample whose history is asked for.
#[repr(C)]
#[derive(Clone, Copy, Debug, Default, PartialEq, Eq, Hash)]
pub struct trirast_history_request {
    pub struct_size: u32,
    pub event_size: u32,
    pub info_size: u32,
    pub x: u32,
    pub y: u32,
    pub sample: u32,
    pub all: u32,
}

/// How many samples of the picture a triangle has.
#[repr(C)]
#[derive(Clone, Copy, Debug, Default, PartialEq, Eq, Hash)]
pub struct trirast_sample_counts {
    pub covered: u32,
    pub changed: u32,
    pub shown: u32,
}

extern "C" {
    pub fn trirast_version_string() -> *const c_char;
    pub fn trirast_interface() -> u32;
    pub fn trirast_status_string(status: u32) -> *const c_char;
    pub fn trirast_error_message(error: *const trirast_error, buffer: *mut c_char, size: usize) -> usize;
    pub fn trirast_canvas_size(canvas: *const trirast_canvas) -> usize;
    pub fn trirast_canvas_tile_rows(canvas: *const trirast_canvas) -> u32;
    pub fn trirast_canvas_init(canvas: *mut trirast_canvas, memory: *mut c_void, size: usize) -> u32;
    pub fn trirast_canvas_split(whole: *const trirast_canvas, first: u32, end: u32, piece: *mut trirast_canvas) -> u32;
    pub fn trirast_canvas_clear(canvas: *mut trirast_canvas, clear: *const trirast_clear) -> u32;
    pub fn trirast_canvas_load(
        canvas: *mut trirast_canvas,
        format: u32,
        pixels: *const c_void,
        size: usize,
        stride: usize,
    ) -> u32;
    pub fn trirast_canvas_draw(
        canvas: *mut trirast_canvas,
        batch: *const trirast_batch,
        error: *mut trirast_error,
    ) -> u32;
    pub fn trirast_canvas_draw_ids(
        canvas: *mut trirast_canvas,
        batch: *const trirast_batch,
        first_id: u32,
        error: *mut trirast_error,
    ) -> u32;
    pub fn trirast_polygons_scratch(canvas: *const trirast_canvas, fill_rule: u32) -> usize;
    pub fn trirast_polygons_measure(
        polygons: *const trirast_polygons,
        boxes: *mut trirast_box,
        box_count: usize,
        error: *mut trirast_error,
    ) -> u32;
    pub fn trirast_canvas_draw_polygons(
        canvas: *mut trirast_canvas,
        polygons: *const trirast_polygons,
        scratch: *mut c_void,
        scratch_size: usize,
        error: *mut trirast_error,
    ) -> u32;
    pub fn trirast_canvas_draw_polygon_ids(
        canvas: *mut trirast_canvas,
        polygons: *const trirast_polygons,
        first_id: u32,
        scratch: *mut c_void,
        scratch_size: usize,
        error: *mut trirast_error,
    ) -> u32;
    pub fn trirast_canvas_resolve(
        canvas: *const trirast_canvas,
        format: u32,
        pixels: *mut c_void,
        size: usize,
        stride: usize,
    ) -> u32;
    pub fn trirast_canvas_depths(
        canvas: *const trirast_canvas,
        sample: u32,
        depths: *mut u16,
        count: usize,
        stride: usize,
    ) -> u32;
    pub fn trirast_canvas_ids(
        canvas: *const trirast_canvas,
        sample: u32,
        ids: *mut u32,
        count: usize,
        stride: usize,
    ) -> u32;
    pub fn trirast_canvas_colors(
        canvas: *const trirast_canvas,
        sample: u32,
        format: u32,
        pixels: *mut c_void,
        size: usize,
        stride: usize,
    ) -> u32;
    pub fn trirast_canvas_store(
        canvas: *mut trirast_canvas,
        sample: u32,
        format: u32,
        pixels: *const c_void,
        size: usize,
        stride: usize,
    ) -> u32;
    pub fn trirast_canvas_tile_ids(
        canvas: *const trirast_canvas,
        column: u32,
        row: u32,
        ids: *mut u32,
        count: usize,
        uniform: *mut u32,
    ) -> u32;
    pub fn trirast_canvas_tile_store(
        canvas: *mut trirast_canvas,
        column: u32,
        row: u32,
        colors: *const u32,
        count: usize,
    ) -> u32;
    pub fn trirast_canvas_tile_blend(
        canvas: *mut trirast_canvas,
        column: u32,
        row: u32,
        state: *const trirast_draw,
        colors: *const u32,
        color_count: usize,
        depths: *const u16,
        depth_count: usize,
        kept: *const u64,
        kept_count: usize,
    ) -> u32;
    pub fn trirast_edges_at_point(corners: *const trirast_corners, x: i32, y: i32, edges: *mut trirast_edges) -> u32;
    pub fn trirast_edges_at(
        corners: *const trirast_corners,
        points: *const c_void,
        stride: usize,
        count: usize,
        edges: *mut trirast_edges,
    ) -> u32;
    pub fn trirast_list_info(
        json: *const c_char,
        json_len: usize,
        info: *mut trirast_image_info,
        error: *mut trirast_error,
    ) -> u32;
    pub fn trirast_list_draw(
        json: *const c_char,
        json_len: usize,
        tile_size: u32,
        buffer: *mut u8,
        buffer_size: usize,
        error: *mut trirast_error,
    ) -> u32;
    pub fn trirast_list_draw_rows(
        json: *const c_char,
        json_len: usize,
        tile_size: u32,
        first: u32,
        end: u32,
        buffer: *mut u8,
        buffer_size: usize,
        error: *mut trirast_error,
    ) -> u32;
    pub fn trirast_list_history(
        json: *const c_char,
        json_len: usize,
        request: *const trirast_history_request,
        events: *mut trirast_event,
        capacity: usize,
        info: *mut trirast_sample_info,
        error: *mut trirast_error,
    ) -> u32;
    pub fn trirast_list_triangle_samples(
        json: *const c_char,
        json_len: usize,
        draw: usize,
        triangle: usize,
        counts: *mut trirast_sample_counts,
        error: *mut trirast_error,
    ) -> u32;
}
