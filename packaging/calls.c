/* The functions that include/trirast.h defines inline, for who calls them by name from another
 * language, and the release. Written by `python3 -m tools.interface` from the header. */
#include "trirast.h"

extern inline const char *trirast_status_string(trirast_status status);
extern inline trirast_proved_batch trirast_proved_batch_of(const trirast_batch *batch);
extern inline trirast_status trirast_canvas_init(trirast_canvas *canvas, void *memory, size_t size);
extern inline trirast_status trirast_canvas_split(const trirast_canvas *whole, uint32_t first, uint32_t end,
                                                  trirast_canvas *piece);
extern inline trirast_status trirast_canvas_clear(trirast_canvas *canvas, const trirast_clear *clear);
extern inline trirast_status trirast_canvas_draw(trirast_canvas *canvas, const trirast_batch *batch,
                                                 trirast_error *error);
extern inline trirast_status trirast_canvas_draw_ids(trirast_canvas *canvas, const trirast_batch *batch,
                                                     uint32_t first_id, trirast_error *error);
extern inline size_t trirast_polygons_scratch(const trirast_canvas *canvas, trirast_fill_rule fill_rule);
extern inline trirast_status trirast_polygons_measure(const trirast_polygons *polygons, trirast_box *boxes,
                                                      size_t box_count, trirast_error *error);
extern inline trirast_status trirast_canvas_draw_polygons(trirast_canvas *canvas, const trirast_polygons *polygons,
                                                          void *scratch, size_t scratch_size, trirast_error *error);
extern inline trirast_status trirast_canvas_draw_polygon_ids(trirast_canvas *canvas, const trirast_polygons *polygons,
                                                             uint32_t first_id, void *scratch, size_t scratch_size,
                                                             trirast_error *error);
extern inline trirast_status trirast_edges_at(const trirast_corners *corners, const void *points, size_t stride,
                                              size_t count, trirast_edges *edges);
extern inline trirast_status trirast_list_info(const char *json, size_t json_len, trirast_image_info *info,
                                               trirast_error *error);
extern inline trirast_status trirast_list_draw(const char *json, size_t json_len, uint32_t tile_size, uint8_t *buffer,
                                               size_t buffer_size, trirast_error *error);
extern inline trirast_status trirast_list_draw_rows(const char *json, size_t json_len, uint32_t tile_size,
                                                    uint32_t first, uint32_t end, uint8_t *buffer, size_t buffer_size,
                                                    trirast_error *error);
extern inline trirast_status trirast_list_history(const char *json, size_t json_len,
                                                  const trirast_history_request *request, trirast_event *events,
                                                  size_t capacity, trirast_sample_info *info, trirast_error *error);
extern inline trirast_status trirast_list_triangle_samples(const char *json, size_t json_len, size_t draw,
                                                           size_t triangle, trirast_sample_counts *counts,
                                                           trirast_error *error);

const char *trirast_version_string(void) {
    return TRIRAST_VERSION_STRING;
}
