// The structs of include/trirast.h as they lie in memory of 64 bits. Written by `python3 -m tools.interface` from it.

import { Struct } from './struct.js';

/** trirast_error. */
export const ERROR = new Struct({ status: 'u32', cause: 'u32', draw: 'size', element: 'size', value: 'size' });

/** trirast_clear. */
export const CLEAR = new Struct({ red: 'u8', green: 'u8', blue: 'u8', alpha: 'u8', depth: 'u16', unused: 'u16' });

/** trirast_vertex. */
export const VERTEX = new Struct({
  x: 'i32', y: 'i32', depth: 'u16', red: 'u8', green: 'u8', blue: 'u8', alpha: 'u8', unused: 'u16',
});

/** trirast_draw. */
export const DRAW = new Struct({
  vertex_count: 'size', index_count: 'size', topology: 'u8', cull: 'u8', depth_test: 'u8', depth_write: 'u8',
  keep: 'u8', scissor_enable: 'u8', skip_samples: 'u16', scissor_left: 'i32', scissor_top: 'i32', scissor_right: 'i32',
  scissor_bottom: 'i32', blend: 10,
});

/** trirast_proved_batch: without any index, and `in_order` 0, nothing is drawn. */
export const BATCH = new Struct({
  struct_size: 'u32', vertex_stride: 'u32', index_size: 'u32', in_order: 'u32', draws: 'size', draw_count: 'size',
  vertices: 'size', vertex_count: 'size', strided: 'size', strided_size: 'size', vertex_total: 'size', indices: 'size',
  index_count: 'size', short_indices: 'size', short_index_count: 'size',
});

/** trirast_canvas. */
export const CANVAS = new Struct({
  struct_size: 'u32', width: 'u32', height: 'u32', samples: 'u32', channels: 'u32', origin_x: 'i32', origin_y: 'i32',
  first: 'u32', end: 'u32', initialized: 'u32', memory: 'size', plane_count: 'size',
});
