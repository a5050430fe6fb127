# Texts of GeoJSON and bytes of WKB, with the coverings that tests/model/maps.py has: maps.R TEXTS. The last line is
# 'N passed, M failed'.
library(s2union)

bytes <- function(hex) {
  digits <- strtoi(strsplit(hex, "")[[1]], 16)
  if (nchar(hex)) as.raw(16 * digits[c(TRUE, FALSE)] + digits[c(FALSE, TRUE)]) else raw()
}
cells <- function(x) {
  each <- matrix(writeBin(as.double(unclass(x)), raw(), endian = "big"), nrow = 8)
  paste(apply(each, 2, function(id) sub("^0+", "", paste(id, collapse = ""))), collapse = " ")
}
fault <- function(error) {
  name <- tolower(sub("^S2U_(FAULT_)?", "", class(error)[1]))
  if (!inherits(error, "S2U_SHAPE")) return(paste0("!", name))
  stopifnot(grepl(sprintf(": part %.0f, ring %.0f, position %.0f$", error$part, error$ring, error$place),
                  conditionMessage(error)))
  byte <- if (is.na(error$byte)) 0 else error$byte - 1
  paste0("!", paste(name, byte, error$part - 1, error$ring - 1, error$place - 1))
}
answer <- function(ask, given, line) tryCatch({
  both <- ask(given, as.numeric(line[3]), as.numeric(line[4]))
  c(cells(both$outer), cells(both$inner))
}, s2union_error = fault)

asked <- list(map_wkb = s2u_map_wkb, map_geojson = s2u_map_geojson, geodesic_wkb = s2u_geodesic_wkb,
              geodesic_geojson = s2u_geodesic_geojson, map_wkb_up_to = s2u_map_wkb_up_to,
              map_geojson_up_to = s2u_map_geojson_up_to)
passed <- failed <- 0
for (line in strsplit(paste0(readLines(commandArgs(TRUE)), "\t."), "\t")) {
  given <- bytes(line[2])
  wanted <- line[5:(length(line) - 1)]
  ask <- asked[[line[1]]]
  said <- list(answer(ask, given, line))
  if (grepl("geojson", line[1]) && !any(given == 0) && validUTF8(rawToChar(given))) { # also as a text
    text <- rawToChar(given)
    Encoding(text) <- "UTF-8"
    said <- c(said, list(answer(ask, text, line)))
  }
  for (it in said) {
    if (identical(it, wanted)) passed <- passed + 1
    else if ((failed <- failed + 1) < 20) cat(substr(paste(c(line[1:4], "said", it), collapse = " "), 1, 400), "\n")
  }
}
cat(passed, " passed, ", failed, " failed\n", sep = "")
quit(status = failed > 0)
