# The questions of tests/model: vectors.R VECTORS, with those that R lacks. The examples of the calls come first, each
# beside its answer. The last line is 'N passed, M failed'.
library(s2)
library(s2union)

lacking <- c("is_cell", "level", "face", "range_min", "range_max", "size", "next", "previous", "parent", "children",
             "token", "debug", "from_token", "from_debug", "square", "from_face_ij", "common_ancestor", "levels",
             "range_mins", "range_maxes", "token_fields", "parents", "from_points", "leaf_count", "contains_cell",
             "intersects_cell", "intersection_with_cell", "cells_at", "leaves", "outer_of_rectangle",
             "inner_of_rectangle", "outer_in", "inner_in", "version", "text_of", "file_count", "file_cell")

# ---- what is given, and what is shown

bytes <- function(hex) {
  digits <- strtoi(strsplit(hex, "")[[1]], 16)
  if (nchar(hex)) as.raw(16 * digits[c(TRUE, FALSE)] + digits[c(FALSE, TRUE)]) else raw()
}
cells <- function(text) { # any numbers of 64 bits
  ids <- strsplit(text, " ")[[1]]
  ids <- ids[nzchar(ids)]
  whole <- paste0(strrep("0", 16 - nchar(ids)), ids, collapse = "")
  new_s2_cell(readBin(bytes(whole), "double", length(ids), endian = "big"))
}
cell <- union <- cells
file <- function(text) s2u_encode(cells(text))
text <- function(hex) rawToChar(bytes(hex))
numbers <- function(text) as.numeric(strsplit(text, " ")[[1]])
hex <- function(raws) paste(raws, collapse = "")
shown <- function(value) {
  if (is.raw(value)) return(hex(value))
  if (is.character(value)) return(hex(charToRaw(value)))
  if (is.logical(value)) return(paste(ifelse(value, "yes", "no"), collapse = " "))
  if (is.integer(value)) return(as.character(value))
  each <- matrix(writeBin(as.double(unclass(value)), raw(), endian = "big"), nrow = 8)
  paste(apply(each, 2, function(id) sub("^0+(?=.)", "", hex(id), perl = TRUE)), collapse = " ")
}
refused <- function(error, wanted) { # with the place if the answer has one
  place <- if (grepl(" ", wanted)) sprintf(" %.0f", error$place - 1) else ""
  paste0("!", tolower(sub("S2U_", "", class(error)[1])), place)
}

passed <- failed <- 0
compare <- function(said, wanted, what) {
  if (identical(said, wanted)) passed <<- passed + 1
  else if ((failed <<- failed + 1) < 20) cat(substr(paste(what, "said", said, "and not", wanted), 1, 400), "\n")
}
shows <- function(said, wanted) {
  if (is.numeric(wanted)) said <- as.numeric(said)
  compare(said, wanted, "an example")
}
# examples: all

ways <- list()
ask <- function(question, way) ways[[question]] <<- c(ways[[question]], way)
# questions: all
ask("from_tokens", function(g) s2u_normalise(s2u_from_tokens(text(g[1]))))
ask("union_contains", function(g) all(s2u_contains_cells(union(g[1]), union(g[2]))))
ask("normalise", function(g) s2u_union(cells(g[1]), cells("")))

asked <- character()
for (line in strsplit(paste0(readLines(commandArgs(TRUE)), "\t."), "\t")) {
  call <- line[1]
  given <- line[-c(1, length(line) - 1:0)]
  wanted <- line[length(line) - 1]
  of_cells <- call %in% c("contains", "intersects") # two of them
  has_nul <- call %in% c("named", "from_tokens") && any(bytes(given) == 0) # as no text of R has
  if (call %in% lacking || of_cells || has_nul) next
  asked <- unique(c(asked, call))
  for (way in ways[[call]]) {
    said <- tryCatch(shown(way(given)), s2union_error = function(error) refused(error, wanted))
    compare(said, wanted, paste(call, paste(given, collapse = "|")))
  }
}
never <- setdiff(names(ways), asked)
if (length(never)) cat("never asked:", never, "\n")
failed <- failed + length(never)
cat(passed, " passed, ", failed, " failed\n", sep = "")
quit(status = failed > 0)
