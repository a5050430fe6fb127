# Random regions beside S2's own operations, in package s2, and each error.
library(s2)
library(s2union)
set.seed(20261128)
cells <- function(n) {
  leaves <- as_s2_cell(s2_lnglat(runif(n, -20, 20), runif(n, -10, 10)))
  s2_cell_parent(leaves, sample(0:9, n, TRUE, c(1, rep(9, 9))))
}
same <- function(made, wanted) stopifnot(identical(as.character(made), as.character(unclass(wanted)[[1]])))
for (k in 1:300) {
  a <- cells(sample(0:12, 1))
  b <- cells(sample(0:12, 1))
  x <- s2_cell_union_normalize(s2_cell_union(list(a)))
  y <- s2_cell_union_normalize(s2_cell_union(list(b)))
  same(s2u_normalise(a), x)
  same(s2u_union(a, b), s2_cell_union_union(x, y))
  same(s2u_intersection(a, b), s2_cell_union_intersection(x, y))
  same(s2u_difference(a, b), s2_cell_union_difference(x, y))
  stopifnot(
    s2u_contains(a, b) == s2_cell_union_contains(x, y), s2u_intersects(a, b) == s2_cell_union_intersects(x, y),
    identical(s2u_union(s2u_difference(a, b), s2u_difference(b, a)), s2u_symmetric_difference(a, b)),
    identical(s2u_contains_cells(x, b), vapply(seq_along(b), function(k) s2u_contains(a, b[k]), NA)),
    identical(s2u_file_contains_cells(s2u_encode(a), b), s2u_contains_cells(x, b)),
    identical(s2u_intersects_cells(x, b), vapply(seq_along(b), function(k) s2u_intersects(a, b[k]), NA)),
    identical(s2u_decode(s2u_encode(a)), s2u_normalise(x)),
    identical(list(s2u_tokens(a), s2u_encode(a), s2u_bounds(a), s2u_expanded(a, 3), s2u_contains_cells(a, b)),
              list(s2u_tokens(x), s2u_encode(x), s2u_bounds(x), s2u_expanded(x, 3), s2u_contains_cells(x, b))),
    identical(s2u_area(a), s2u_area(x)), all.equal(s2u_area(a), sum(s2_cell_area(unclass(x)[[1]])) / 1e6, 1e-9),
    identical(s2u_tokens(x), paste(as.character(unclass(x)[[1]]), collapse = " ")),
    identical(s2u_intersects_cells(a, b), s2u_intersects_cells(x, b)),
    identical(s2u_normalise(s2u_from_tokens(s2u_tokens(a))), s2u_normalise(x)))
}
refused <- function(call, status, place = NA_real_) {
  error <- tryCatch(call, s2union_error = identity)
  stopifnot(inherits(error, status), identical(error$place, place))
}
face <- s2u_from_tokens("1")
none <- new_s2_cell(c(unclass(face), 0, NA))
file <- s2u_encode(face)
refused(s2u_union(face, none), "S2U_NO_CELL", 2)
refused(s2u_contains_cells(face, none[3:1]), "S2U_NO_CELL", 2)
refused(s2u_file_contains_cells(file, none[3:1]), "S2U_NO_CELL", 2)
refused(s2u_file_contains_cells(file[-17], face), "S2U_FILE_SHORT")
refused(s2u_file_contains_cells(replace(file, 10, as.raw(2)), face), "S2U_FILE_CELL")
refused(s2u_from_tokens(c("1", "x")), "S2U_NO_CELL", 3)
refused(s2u_decode(replace(file, 1, as.raw(2))), "S2U_FILE_VERSION")
refused(s2u_decode(file[-17]), "S2U_FILE_SHORT")
refused(s2u_decode(raw()), "S2U_FILE_SHORT")
refused(s2u_decode(c(file, file)), "S2U_FILE_TRAILING")
refused(s2u_decode(replace(file, 10, as.raw(2))), "S2U_FILE_CELL")
for (x in list(1, "1", NULL, s2_cell_union(list(face, face))))
  stopifnot(inherits(try(s2u_tokens(x), TRUE), "try-error"))
nothing <- s2u_difference(face, face)
odd <- s2u_from_tokens("7ff1 7ff9 7fff") # NaN, if they were numbers
stopifnot(identical(s2u_contains_cells(face, none[c(3, 1)]), c(NA, TRUE)),
          identical(s2u_file_contains_cells(file, none[c(3, 1)]), c(NA, TRUE)),
          s2u_file_contains_cells(c(replace(file, 2, as.raw(2)), file[10:17]), face), length(s2u_encode(nothing)) == 9,
          s2u_tokens(nothing) == "", length(s2u_from_tokens("")) == 0,
          identical(s2u_tokens(odd), "7ff1 7ff9 7fff"),
          identical(s2u_contains_cells(odd, new_s2_cell(c(unclass(odd), NA))), c(TRUE, TRUE, TRUE, NA)))
# Leaves and coverings in degrees, beside package s2's own, and what is refused. tests/dask/check.sh compares the cells
# of each kind of shape with those of Python.
x <- c(runif(5000, -180, 180), 0, 180, NA, 2)
y <- c(asin(runif(5000, -1, 1)) * 180 / pi, 90, -16.5, 1, NaN)
leaves <- as_s2_cell(s2_lnglat(x, y))
leaves[5003:5004] <- new_s2_cell(NA_real_)
stopifnot(identical(s2u_leaf(x, y), leaves), length(s2u_leaf(numeric(), 1)) == 0, is.na(s2u_leaf(NA, 1)),
          identical(s2u_leaf(1:4, 1:2), s2u_leaf(1:4, c(1, 2, 1, 2))))
square <- cbind(c(2, 3, 3, 2, 2), c(48, 48, 49, 49, 48))
hole <- cbind(c(2.4, 2.6, 2.6, 2.4, 2.4), c(48.4, 48.4, 48.6, 48.6, 48.4))
wkb <- unclass(s2_as_binary(as_s2_geography("POLYGON ((2 48, 3 48, 3 49, 2 49, 2 48))")))[[1]]
both <- s2u_coverings(list(square, hole), 50)
far <- s2u_coverings(list(list(square, hole), list(square + 10)), max_level = 9)
stopifnot(identical(both$outer, s2u_covering(list(square, hole), max_cells = 50)),
          identical(both$inner, s2u_interior(list(square, hole), 50)), length(both$outer) <= 50,
          s2u_contains(both$outer, both$inner), identical(s2u_covering(wkb), s2u_covering(list(square))),
          identical(s2u_contains_cells(both$inner, s2u_leaf(c(2.2, 2.5, 3.1), 48.5)), c(TRUE, FALSE, FALSE)),
          identical(s2u_contains_cells(far$inner, s2u_leaf(c(2.2, 2.5, 12.5), c(48.5, 48.5, 58.5))),
                    c(TRUE, FALSE, TRUE)), all(s2_cell_level(far$outer) <= 9),
          s2u_contains_cells(s2u_covering(wkb, margin = 10000), s2u_leaf(3.1, 48.5)),
          !s2u_contains_cells(s2u_covering(wkb, within = 500), s2u_leaf(3.01, 48.5)),
          max(s2_cell_level(s2u_covering(wkb, 8, min_level = 9))) >= 9, length(s2u_covering(list())) == 0,
          !identical(s2u_covering(wkb, edges = "geodesic"), s2u_covering(wkb)),
          identical(s2u_interior(list(square[5:1, ]), edges = "geodesic"), s2u_interior(wkb, edges = "left")))
near <- s2u_neighbors(cell <- s2u_from_tokens("89c25"))
behind <- s2u_bounds(s2u_from_tokens("7"))
stopifnot(s2u_tokens(near) == "89c21 89c23 89c27 89c29 89c2f 89c31 89c3b 89c3d",
          identical(s2u_neighbors(cell, 8), near), identical(s2u_expanded(cell, 8), s2u_union(cell, near)),
          all(s2_cell_edge_neighbour(cell, 0:3) %in% near), length(s2u_neighbors(cell, 10)) == 20,
          identical(names(behind), c("west", "south", "east", "north")), all(round(behind) == c(135, -45, -135, 45)),
          is.null(s2u_bounds(nothing)), length(s2u_expanded(nothing, 3)) == 0,
          all.equal(s2u_area(face), 4 * pi * 6371.01^2 / 6, 1e-13), identical(s2u_area(nothing), 0))
refused(s2u_neighbors(none[2]), "S2U_NO_CELL", 1)
refused(s2u_neighbors(none[3]), "S2U_NO_CELL", 1)
refused(s2u_bounds(none), "S2U_NO_CELL", 2)
refused(s2u_area(none), "S2U_NO_CELL", 2)
for (level in c(-1, 7, 31, 8.5, 2^32, NaN, Inf, NA)) refused(s2u_neighbors(cell, level), "S2U_ARGUMENT")
for (level in c(-1, 31, 8.5, NaN)) refused(s2u_expanded(cell, level), "S2U_ARGUMENT")
refused(s2u_neighbors(face, 18), "S2U_MANY")
refused(s2u_expanded(face, 20), "S2U_MANY")
for (wrong in list(quote(s2u_neighbors(near)), quote(s2u_neighbors(nothing)), quote(s2u_neighbors(cell, "8")),
                   quote(s2u_neighbors("89c25")), quote(s2u_expanded(cell)), quote(s2u_bounds(1)),
                   quote(s2u_area(1)),
                   quote(s2u_leaf(1:3, 1:2)), quote(s2u_leaf("1", 2))))
  stopifnot(inherits(try(eval(wrong), TRUE), "try-error"))
refused(s2u_leaf(c(0, 541), 0), "S2U_COVER_NUMBER", 2)
refused(s2u_leaf(0, -Inf), "S2U_COVER_NUMBER", 1)
refused(s2u_covering(raw()), "S2U_COVER_WKB", 1)
refused(s2u_covering(wkb[-93]), "S2U_COVER_WKB", 10)
refused(s2u_coverings(replace(wkb, 2, as.raw(8))), "S2U_COVER_TYPE", 1)
refused(s2u_interior(list(square, hole[-5, ])), "S2U_COVER_OPEN", 4)
refused(s2u_interior(list(square, replace(hole, 2, NaN))), "S2U_COVER_NUMBER", 2)
error <- tryCatch(s2u_interior(list(square, hole[-5, ])), S2U_COVER_OPEN = identity)
stopifnot(error$ring == 2, grepl("^a ring is open: .*: ring 2, position 4$", conditionMessage(error)))
for (options in list(list(-1), list(1e6 + 1), list(NaN), list(1.5), list(2^32), list(9, 10, 9), list(9, 0, 31),
                     list(9, -1), list(margin = -1), list(margin = 300001), list(margin = NA_real_), list(within = 0),
                     list(within = NaN), list(within = -Inf), list(within = NA_real_), list(within = NA_integer_)))
  refused(do.call(s2u_covering, c(list(wkb), options)), "S2U_COVER_OPTION")
for (shape in list(NULL, 1, "POINT (1 2)", square, list(1), list(square, list(square)), list(cbind(1:4)),
                   list(replace(square, 1, "x")), structure(list(square), class = c("XY", "MULTILINESTRING", "sfg"))))
  stopifnot(inherits(try(s2u_covering(shape), TRUE), "try-error"))
for (options in list(list("9"), list(c(1, 2)), list(edges = "flat"), list(wide = 1)))
  stopifnot(inherits(try(do.call(s2u_covering, c(list(wkb), options)), TRUE), "try-error"))
zones <- s2u_zones(list(wkb, list(square), list(list(square, hole), list(square + 10))))
pairs <- s2u_pairs(zones, c(NA, 2.5, 12), c(0, 48.2, 58), TRUE)
stopifnot(identical(pairs$place, c(2, 2, 2, 3)), identical(pairs$zone, c(1, 2, 3, 3)),
          nrow(s2u_pairs(zones, 12, 58)) == 0, nrow(s2u_pairs(zones, numeric(), numeric())) == 0,
          nrow(s2u_pairs(s2u_zones(list()), 1, 2, TRUE)) == 0)
refused(s2u_pairs(zones, c(NA, 0, 541), 0), "S2U_COVER_NUMBER", 3)
refused(s2u_zones(list(wkb, wkb[-93])), "S2U_COVER_WKB", 10)
error <- tryCatch(s2u_zones(list(wkb, list(square, hole[-5, ]))), S2U_COVER_OPEN = identity)
stopifnot(error$zone == 2, error$ring == 2, grepl("^zone 2: a ring is open: ", conditionMessage(error)))
for (wrong in list(quote(s2u_pairs(1, 2, 3)), quote(s2u_pairs(zones, "1", 2)), quote(s2u_pairs(zones, 1:3, 1:2)),
                   quote(s2u_pairs(unserialize(serialize(zones, NULL)), 1, 2)), quote(s2u_zones(list(1)))))
  stopifnot(inherits(try(eval(wrong), TRUE), "try-error"))
# With a collection at each allocation, what isn't protected is lost, and its memory is given to others.
many <- s2u_difference(face, s2u_from_tokens("0000000000000001"))
asked <- many[rep(1:90, 8)] # as many answers as the 90 cells have bytes
twice <- c(replace(s2u_encode(many), 2, as.raw(91)), tail(s2u_encode(many), 8))
gctorture()
made <- list(s2u_file_contains_cells(twice, asked), s2u_decode(twice), s2u_encode(many))
covered <- list(s2u_covering(wkb, 9), s2u_interior(list(square), 9), s2u_leaf(2, 48))
around <- list(s2u_neighbors(cell), s2u_expanded(cell, 8), s2u_bounds(face), s2u_area(many))
joined <- s2u_pairs(s2u_zones(list(wkb, list(square))), 2.5, 48.2, TRUE)
refused(s2u_interior(list(square, hole[-5, ])), "S2U_COVER_OPEN", 4)
refused(s2u_union(many, none), "S2U_NO_CELL", 2)
gctorture(FALSE)
stopifnot(identical(made, list(rep(TRUE, 720), many, s2u_encode(many))),
          identical(joined$zone, c(1, 2)),
          identical(around, list(near, s2u_union(cell, near), s2u_bounds(face), s2u_area(many))),
          identical(covered, list(s2u_covering(list(square), 9), s2u_interior(wkb, 9), s2u_leaf(2, 48))))
for (k in 1:60000) stopifnot(s2u_encode(face)[1] == 1, s2u_file_contains_cells(twice, many[1])) # nothing stays so
