# The cells of shapes, and the names and places of errors, which tests/model/shapes.py has of Python: shapes.R SHAPES.
# The last line is 'N passed, M failed'.
library(s2union)
bytes <- function(hex) {
  digits <- strtoi(strsplit(hex, "")[[1]], 16)
  if (nchar(hex)) as.raw(16 * digits[c(TRUE, FALSE)] + digits[c(FALSE, TRUE)]) else raw()
}
numbers <- function(hex) readBin(bytes(hex), "double", nchar(hex) / 16, endian = "big")
polygons <- function(words) { # lists of matrices; NULL if there are lines
  parts <- strsplit(strsplit(words, " ")[[1]], ":")
  of <- vapply(parts, `[`, "", 1)
  rings <- lapply(parts, function(part) matrix(numbers(if (is.na(part[2])) "" else part[2]), ncol = 2, byrow = TRUE))
  if ("-" %in% of) NULL else unname(split(rings, factor(of, unique(of))))
}
cells <- function(x) {
  found <- matrix(s2u_encode(x)[-(1:9)], nrow = 8)
  paste(apply(found, 2, function(cell) sub("^0+", "", paste(rev(cell), collapse = ""))), collapse = " ")
}
name <- function(error) {
  name <- tolower(sub("S2U_(COVER_)?", "", class(error)[1]))
  if (name %in% c("argument", "many", "pieces", "outside", "option")) return(paste0("!", name))
  paste0("!", paste(c(name, na.omit(c(error$ring, error$place)) - 1), collapse = " "))
}
kinds <- c("map", "geodesic", "left")
asked <- 0
region <- function(text) { # of numbers, as tokens that have each digit
  ids <- strsplit(text, " ")[[1]]
  s2u_from_tokens(sprintf("%s%s", strrep("0", 16 - nchar(ids)), ids))
}
around <- function(call, cell, level) { # the answer to a question of cells, as it stands there
  if (!call %in% of_one) return(cells((if (call == "neighbors") s2u_neighbors else s2u_expanded)(cell, level)))
  found <- (if (call == "bounds") s2u_bounds else s2u_area)(cell)
  if (is.null(found)) "none" else paste(writeBin(unname(found), raw(), endian = "big"), collapse = "")
}
of_one <- c("bounds", "area") # which take no level
zone <- function(text) { # as WKB, or as rings, also of a box, which R doesn't have; NULL if there are lines
  if (startsWith(text, "wkb:")) return(bytes(substring(text, 5)))
  if (!startsWith(text, "box:")) return(polygons(text))
  at <- numbers(substring(text, 5))
  if (at[3] < at[1]) at[3] <- at[3] + 360
  list(cbind(at[c(1, 3, 3, 1, 1)], at[c(2, 2, 4, 4, 2)]))
}
joined <- function(zones, borders, x, y) {
  found <- s2u_pairs(s2u_zones(zones), numbers(x), numbers(y), borders == "1")
  paste(sprintf("%d:%d", as.integer(found$place - 1), as.integer(found$zone - 1)), collapse = " ")
}
for (line in strsplit(readLines(commandArgs(TRUE)), "\t")) {
  if (line[1] == "zones") {
    zones <- lapply(strsplit(line[2], "|", fixed = TRUE)[[1]], zone)
    if (any(vapply(zones, is.null, NA)) || anyNA(numbers(c(line[-(1:3)], "")[1]))) next # nor is a place of NaN wrong
    said <- tryCatch(joined(zones, line[3], c(line[-(1:3)], "")[1], c(line[-(1:4)], "")[1]), s2union_error = name)
    wanted <- c(line[-(1:5)], "")[1]
    if (wanted == "!argument") next # of a box
    if (!identical(said, wanted)) stop(paste(c("zones", "wanted", wanted, "said", said), collapse = "\n"))
    asked <- asked + 1
    next
  }
  if (line[1] %in% c("neighbors", "expanded", of_one)) {
    said <- tryCatch(around(line[1], region(line[2]), as.numeric(line[3])), s2union_error = name)
    wanted <- c(line[-seq_len(if (line[1] %in% of_one) 2 else 3)], "")[1]
    if (!identical(said, wanted)) stop(paste(c(line[1:3], "wanted", wanted, "said", said), collapse = "\n"))
    asked <- asked + 1
    next
  }
  shape <- if (line[1] == "wkb") bytes(line[2]) else polygons(line[2])
  words <- strsplit(line[3], " ")[[1]]
  most <- as.numeric(words[1:4])
  meters <- c(numbers(words[5]), numbers(words[6]))
  if (is.null(shape) || most[4] > 2) next
  within <- if (!identical(meters[2], 0)) meters[2]
  options <- list(shape, most[1], most[2], most[3], within, meters[1], kinds[most[4] + 1])
  said <- tryCatch({
    both <- do.call(s2u_coverings, options)
    stopifnot(identical(both$outer, do.call(s2u_covering, options)),
              identical(both$inner, do.call(s2u_interior, options)))
    c(cells(both$outer), cells(both$inner))
  }, s2union_error = name)
  wanted <- line[-(1:3)]
  wanted <- if (startsWith(wanted[1], "!")) wanted[1] else c(wanted, "")[1:2]
  if (!identical(said, wanted)) stop(paste(c(line[1:3], "wanted", wanted, "said", said), collapse = "\n"))
  asked <- asked + 1
}
cat(asked, "passed, 0 failed\n")
