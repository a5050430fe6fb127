# man/s2union.Rd says what these take and return.
# methods: all others

s2u_leaf <- function(longitude, latitude) {
  places <- places_of(longitude, latitude)
  new_s2_cell(.Call(C_leaf, places[[1]], places[[2]]))
}
places_of <- function(longitude, latitude) { # vectors of one length
  counts <- range(length(longitude), length(latitude))
  if (counts[1] && counts[2] %% counts[1]) stop(length(longitude), " longitudes and ", length(latitude), " latitudes")
  count <- if (counts[1]) counts[2] else 0
  list(rep_len(degrees_of(longitude), count), rep_len(degrees_of(latitude), count))
}
s2u_covering <- function(shape, ...) covered(shape, c(TRUE, FALSE), ...)$outer
s2u_interior <- function(shape, ...) covered(shape, c(FALSE, TRUE), ...)$inner
s2u_coverings <- function(shape, ...) covered(shape, c(TRUE, TRUE), ...)

covered <- function(shape, which, max_cells = if (is.null(within)) 200 else 1e6, min_level = 0, max_level = 30,
                    within = NULL, margin = 0, edges = c("map", "geodesic", "left")) {
  kind <- match(match.arg(edges), c("map", "geodesic", "left")) - 1
  finest <- if (is.null(within)) NA_real_ else number_of(within)
  numbers <- c(number_of(max_cells), number_of(min_level), number_of(max_level), number_of(margin), kind, finest)
  made <- if (is.raw(shape)) .Call(C_cover_wkb, shape, numbers, which) else {
    rings <- rings_of(shape)
    .Call(C_cover_rings, rings[[1]], rings[[2]], rings[[3]], numbers, which)
  }
  both_of(made)
}
both_of <- function(made) list(outer = new_s2_cell(made[[1]]), inner = new_s2_cell(made[[2]]))

s2u_zones <- function(shapes) {
  made <- .Call(C_zones)
  for (k in seq_along(shapes)) tryCatch(add_zone(made, shapes[[k]]), s2union_error = function(error) {
    error$message <- sprintf("zone %d: %s", k, error$message)
    error$zone <- k
    stop(error)
  })
  made
}
add_zone <- function(zones, shape) {
  if (is.raw(shape)) return(.Call(C_add_wkb, zones, shape))
  rings <- rings_of(shape)
  .Call(C_add_rings, zones, rings[[1]], rings[[2]], rings[[3]])
}
s2u_pairs <- function(zones, longitude, latitude, borders = FALSE) {
  places <- places_of(longitude, latitude)
  asked <- as.numeric(which(!is.na(places[[1]]) & !is.na(places[[2]])))
  made <- tryCatch(.Call(C_pairs, zones, places[[1]][asked], places[[2]][asked], isTRUE(borders)),
                   S2U_COVER_NUMBER = function(error)
                     refuse(c(class(error)[1], sub(" at [0-9]+$", "", error$message)), c(asked[error$place], NA)))
  data.frame(place = asked[made[[1]]], zone = made[[2]])
}

# Polygons as package sf has them: a list of matrices, whose rows are positions, or a list of such lists. Their
# positions, where each ring ends, and its polygon.
rings_of <- function(shape) {
  if (!is.list(shape) || (inherits(shape, "sfg") && !inherits(shape, c("POLYGON", "MULTIPOLYGON"))))
    stop("not a raw vector of WKB, nor a list of matrices")
  polygons <- if (all(vapply(shape, is.list, NA))) shape else list(shape)
  rings <- lapply(do.call(c, c(list(list()), lapply(polygons, unclass))), positions_of)
  of <- rep(seq_along(polygons), lengths(polygons))
  list(as.double(unlist(rings)), cumsum(lengths(rings) / 2), as.double(of))
}
positions_of <- function(ring) {
  if (!is.matrix(ring) || !is.numeric(ring) || ncol(ring) < 2) stop("a ring is a matrix of longitudes and latitudes")
  t(ring[, 1:2, drop = FALSE])
}
number_of <- function(x) { # NA goes as NaN: in C it stands for what is not given
  if (!is.numeric(x) || length(x) != 1) stop("not a number")
  if (is.na(x)) NaN else as.double(x)
}
degrees_of <- function(x) if (is.numeric(x) || all(is.na(x))) as.double(x) else stop("not degrees")

s2u_neighbors <- function(cell, level = NULL)
  new_s2_cell(.Call(C_neighbors, cell_of(cell), if (is.null(level)) NA_real_ else number_of(level)))
s2u_expanded <- function(x, level) new_s2_cell(.Call(C_expanded, cells_of(x), number_of(level)))
s2u_bounds <- function(x) {
  sides <- .Call(C_bounds, cells_of(x))
  if (sides[2] <= sides[4]) structure(sides, names = c("west", "south", "east", "north"))
}

s2u_area <- function(x) .Call(C_area, cells_of(x))

bytes_of <- function(bytes) if (is.raw(bytes)) bytes else stop("not a raw vector")
text_of <- function(text) if (is.character(text)) charToRaw(paste(text, collapse = " ")) else stop("not a text")
utf8_of <- function(text) {
  if (is.character(text)) charToRaw(enc2utf8(paste(text, collapse = "\n")))
  else if (is.raw(text)) text else stop("not a text, nor a raw vector")
}
cell_of <- function(cell) if (length(cells_of(cell)) == 1) cells_of(cell) else stop("not one cell")

# The vector of cells that an argument is.
cells_of <- function(x) {
  if (inherits(x, "s2_cell_union") && length(x) == 1) x <- unclass(x)[[1]]
  if (!inherits(x, "s2_cell") || !is.double(x)) stop("not a vector s2_cell, nor one s2_cell_union")
  x
}

# The C calls these: words are the name of an error and its text, and the numbers count from 1.
refuse <- function(words, at) { # the place and the ring, or NA
  where <- if (is.na(at[1])) "" else if (is.na(at[2])) sprintf(" at %.0f", at[1]) else
    sprintf(": ring %.0f, position %.0f", at[2], at[1])
  end_by(words[1], paste0(words[2], where), place = at[1], ring = at[2])
}
refuse_shape <- function(words, at) { # the byte of WKB, or NA, the part, the ring and the place
  where <- sprintf(": part %.0f, ring %.0f, position %.0f", at[2], at[3], at[4])
  end_by(c(words[1], "S2U_SHAPE"), paste0(words[2], where), byte = at[1], part = at[2], ring = at[3], place = at[4])
}
end_by <- function(names, message, ...)
  stop(structure(class = c(names, "s2union_error", "error", "condition"), list(message = message, call = NULL, ...)))
