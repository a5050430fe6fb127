# Zones with each allocation refused in turn, by refuse.so: R's own memory is refused too, so calls are those below the
# functions, which do more in R. The last line is 'N passed, M failed'.
library(s2union)
invisible(compiler::enableJIT(0))
dyn.load("refuse.so")
refuse <- function(turn) .C("refuse", turn, 0L)[[2]]
blocks <- function() {
  gc() # by which zones that nobody has any more are given back
  .C("blocks", 0L)[[1]]
}
ring <- c(2, 48, 3, 48, 3, 49, 2, 49, 2, 48)
wkb <- c(as.raw(1), writeBin(c(3L, 1L, 5L), raw(), endian = "little"), writeBin(ring, raw(), endian = "little"))
kept <- s2u_zones(list(wkb))
held <- 1
places <- list(c(2.5, 9), c(48.5, 9))
zones_of <- function(zones) .Call(s2union:::C_pairs, zones, places[[1]], places[[2]], TRUE)[[2]]
calls <- list(function() {
  made <- .Call(s2union:::C_zones)
  .Call(s2union:::C_add_wkb, made, wkb)
  zones_of(made)
}, function() {
  .Call(s2union:::C_add_wkb, kept, wkb)
  held <<- held + 1
  zones_of(kept)
})
refused <- function(call, turn) { # whether an allocation was refused; then it is said, and the zones are as they were
  refuse(turn)
  found <- tryCatch(call(), S2U_MEMORY = identity)
  is_refused <- refuse(0L) >= turn
  stopifnot(is_refused == inherits(found, "S2U_MEMORY"), identical(zones_of(kept), as.numeric(seq_len(held))))
  is_refused
}
asked <- 0
for (call in calls) {
  turn <- 1L
  while (refused(call, turn)) turn <- turn + 1L
  stopifnot(turn > 10)
  asked <- asked + turn
}
for (turn in 1:12) {
  for (k in 1:5) refused(calls[[1]], turn)
  before <- blocks()
  for (k in 1:50) refused(calls[[1]], turn)
  stopifnot(blocks() - before < 50)
  asked <- asked + 1
}
cat(asked, "passed, 0 failed\n")
