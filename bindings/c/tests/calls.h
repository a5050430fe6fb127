/* The calls of each form, made by tools/calls: X(name, most), with the most elements that it makes of unions; and
 * each call with drawn arguments: ASK(name, (arguments), SEE(what it writes) ..). */
#ifndef CALLS_H
#define CALLS_H

#define CALLS_OF_TWO_UNIONS(X) \
  X(difference, S2U_MOST_DIFFERENCE(nx, ny)) \
  X(intersection, nx + ny) \
  X(symmetric_difference, S2U_MOST_SYMMETRIC_DIFFERENCE(nx, ny)) \
  X(union, nx + ny)

#define CALLS_OF_A_UNION(X) \
  X(ancestors, S2U_MOST_ANCESTORS(n)) \
  X(complement, S2U_MOST_COMPLEMENT(n))

#define EACH_CALL(ASK) \
  ASK(ancestors, (xs, nx, out, out_room, &len), SEE(out) SEE(len)) \
  ASK(cell_contains, (id, other), ) \
  ASK(cell_intersects, (id, other), ) \
  ASK(cells_at, (xs, nx, id, &len, &count), SEE(len) SEE(count)) \
  ASK(child, (id, level), ) \
  ASK(common_ancestor, (id, other), ) \
  ASK(compare, (xs, nx, ys, ny), ) \
  ASK(complement, (xs, nx, out, out_room, &len), SEE(out) SEE(len)) \
  ASK(contains, (xs, nx, ys, ny), ) \
  ASK(contains_cell, (xs, nx, id), ) \
  ASK(contains_cells, (xs, nx, ys, ny, bytes, bytes_room, &len), SEE(bytes) SEE(len)) \
  ASK(debug, (id, text, text_room, &len), SEE(text) SEE(len)) \
  ASK(decode, (file, file_size, out, out_room, &len), SEE(out) SEE(len)) \
  ASK(denormalised, (xs, nx, level, modulus, out, out_room, &len), SEE(out) SEE(len)) \
  ASK(denormalised_len, (xs, nx, level, modulus, &number), SEE(number)) \
  ASK(difference, (xs, nx, ys, ny, out, out_room, &len), SEE(out) SEE(len)) \
  ASK(direction_of, (longitude, latitude, &direction), SEE(direction)) \
  ASK(encode, (xs, nx, bytes, bytes_room, &len), SEE(bytes) SEE(len)) \
  ASK(face, (id), ) \
  ASK(file_ancestors, (file, file_size, out, out_room, &len), SEE(out) SEE(len)) \
  ASK(file_cell, (file, file_size, place, &number), SEE(number)) \
  ASK(file_check, (file, file_size), ) \
  ASK(file_contains, (file, file_size, other_file, other_size), ) \
  ASK(file_contains_cell, (file, file_size, id), ) \
  ASK(file_contains_cells, (file, file_size, xs, nx, bytes, bytes_room, &len), SEE(bytes) SEE(len)) \
  ASK(file_count, (file, file_size, &number), SEE(number)) \
  ASK(file_intersects, (file, file_size, other_file, other_size), ) \
  ASK(file_intersects_cell, (file, file_size, id), ) \
  ASK(file_leaf_count, (file, file_size, &number), SEE(number)) \
  ASK(from_debug, (words, words_size, &number), SEE(number)) \
  ASK(from_face_ij, (level, i, j), ) \
  ASK(from_points, (points, points_count, out, out_room, &len), SEE(out) SEE(len)) \
  ASK(from_token, (words, words_size, &number), SEE(number)) \
  ASK(from_tokens, (words, words_size, out, out_room, &len), SEE(out) SEE(len)) \
  ASK(geodesic_geojson, (geojson, geojson_size, coarse, most, out, out_room, &len, &count, &shape_fault), SEE(out) \
    SEE(len) SEE(count) SEE(shape_fault)) \
  ASK(geodesic_wkb, (wkb, wkb_size, coarse, most, out, out_room, &len, &count, &shape_fault), SEE(out) SEE(len) \
    SEE(count) SEE(shape_fault)) \
  ASK(inner, (&rect, level, most, out, out_room, &len), SEE(out) SEE(len)) \
  ASK(inner_in, (xs, nx, &rect, level, most, out, out_room, &len), SEE(out) SEE(len)) \
  ASK(inner_of, (xs, nx, level, most, out, out_room, &len), SEE(out) SEE(len)) \
  ASK(intersection, (xs, nx, ys, ny, out, out_room, &len), SEE(out) SEE(len)) \
  ASK(intersects, (xs, nx, ys, ny), ) \
  ASK(intersects_cell, (xs, nx, id), ) \
  ASK(intersects_cells, (xs, nx, ys, ny, bytes, bytes_room, &len), SEE(bytes) SEE(len)) \
  ASK(is_cell, (id), ) \
  ASK(is_union, (xs, nx), ) \
  ASK(leaf_count, (xs, nx), ) \
  ASK(level, (id), ) \
  ASK(levels, (xs, nx, bytes, bytes_room, &len), SEE(bytes) SEE(len)) \
  ASK(map_geojson, (geojson, geojson_size, coarse, shape_work, out, out_room, &len, &count, &shape_fault), SEE(out) \
    SEE(len) SEE(count) SEE(shape_fault)) \
  ASK(map_geojson_up_to, (geojson, geojson_size, deepest, most, out, out_room, &len, &count, &shape_fault), SEE(out) \
    SEE(len) SEE(count) SEE(shape_fault)) \
  ASK(map_wkb, (wkb, wkb_size, coarse, shape_work, out, out_room, &len, &count, &shape_fault), SEE(out) SEE(len) \
    SEE(count) SEE(shape_fault)) \
  ASK(map_wkb_up_to, (wkb, wkb_size, deepest, most, out, out_room, &len, &count, &shape_fault), SEE(out) SEE(len) \
    SEE(count) SEE(shape_fault)) \
  ASK(next, (id), ) \
  ASK(normalise, (ids, ids_room, &len), SEE(ids) SEE(len)) \
  ASK(outer, (&rect, level, most, out, out_room, &len), SEE(out) SEE(len)) \
  ASK(outer_in, (xs, nx, &rect, level, most, out, out_room, &len), SEE(out) SEE(len)) \
  ASK(outer_of, (xs, nx, level, most, out, out_room, &len), SEE(out) SEE(len)) \
  ASK(parent, (id, level), ) \
  ASK(parents, (xs, nx, level, out, out_room, &len), SEE(out) SEE(len)) \
  ASK(polygon_coverings_up_to, (corners, corners_count, corner_ends, rings, outside, margin, least, deepest, most, \
    out, out_room, &len, more, more_room, &count), SEE(out) SEE(len) SEE(more) SEE(count)) \
  ASK(polygon_inner, (corners, corners_count, corner_ends, rings, outside, margin, coarse, most, out, out_room, \
    &len), SEE(out) SEE(len)) \
  ASK(polygon_inner_up_to, (corners, corners_count, corner_ends, rings, outside, margin, least, deepest, most, out, \
    out_room, &len), SEE(out) SEE(len)) \
  ASK(polygon_outer, (corners, corners_count, corner_ends, rings, outside, margin, coarse, most, out, out_room, \
    &len), SEE(out) SEE(len)) \
  ASK(polygon_outer_up_to, (corners, corners_count, corner_ends, rings, outside, margin, least, deepest, most, out, \
    out_room, &len), SEE(out) SEE(len)) \
  ASK(prev, (id), ) \
  ASK(range, (id, other, out, out_room, &len), SEE(out) SEE(len)) \
  ASK(range_max, (id), ) \
  ASK(range_maxes, (xs, nx, out, out_room, &len), SEE(out) SEE(len)) \
  ASK(range_min, (id), ) \
  ASK(range_mins, (xs, nx, out, out_room, &len), SEE(out) SEE(len)) \
  ASK(shape_geojson, (geojson, geojson_size, places, places_room, &len, shape_rings, shape_rings_room, &count, \
    &shape_fault), SEE(places) SEE(len) SEE(shape_rings) SEE(count) SEE(shape_fault)) \
  ASK(shape_wkb, (wkb, wkb_size, places, places_room, &len, shape_rings, shape_rings_room, &count, &shape_fault), \
    SEE(places) SEE(len) SEE(shape_rings) SEE(count) SEE(shape_fault)) \
  ASK(size, (id), ) \
  ASK(square_of, (id, &square), SEE(square)) \
  ASK(symmetric_difference, (xs, nx, ys, ny, out, out_room, &len), SEE(out) SEE(len)) \
  ASK(token, (id, text, text_room, &len), SEE(text) SEE(len)) \
  ASK(token_fields, (xs, nx, text, text_room, &len), SEE(text) SEE(len)) \
  ASK(tokens, (xs, nx, text, text_room, &len), SEE(text) SEE(len)) \
  ASK(union, (xs, nx, ys, ny, out, out_room, &len), SEE(out) SEE(len)) \
  ASK(union_of_many, (xs, nx, ends, lists, work, work_room, out, out_room, &len), SEE(work) SEE(out) SEE(len)) \
  ASK(version, (), )
#endif
