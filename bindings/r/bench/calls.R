# Operations of the package for R on 2 cells and many, beside those of package s2: bench/run r [ROUNDS]. A row counts
# only if both sides agree.
suppressMessages({
  library(s2)
  library(s2union)
})
words <- commandArgs(TRUE)
rounds <- if (length(words)) as.integer(words[1]) else 5

# The least nanoseconds of the rounds that one of a side's calls takes. A round is 20 ms of them.
best <- function(call) {
  took <- function(times) {
    begun <- Sys.time()
    for (k in seq_len(times)) call()
    as.numeric(Sys.time() - begun, units = "secs")
  }
  times <- 1
  while (took(times) < 0.02) times <- 2 * times
  min(replicate(rounds, took(times))) * 1e9 / times
}

somewhere <- function(count, level) {
  place <- s2_lnglat(runif(count, -180, 180), asin(runif(count, -1, 1)) * 180 / pi)
  s2_cell_parent(as_s2_cell(place), level)
}

same <- TRUE
for (count in c(1000, 10000, 1100000)) {
  set.seed(4)
  large <- s2u_normalise(somewhere(count, rep_len(14:20, count)))
  inside <- as_s2_cell(s2_cell_center(large[length(large) %/% 2]))
  repeat {
    apart <- somewhere(1, 24)
    if (!s2u_contains_cells(large, apart)) break
  }
  small <- s2u_normalise(c(inside, apart))
  few <- s2_cell_union(list(small))
  many <- s2_cell_union(list(large))
  rows <- list(
    small_intersection = list(\() s2u_intersection(small, large), \() s2_cell_union_intersection(few, many)),
    large_intersection = list(\() s2u_intersection(large, small), \() s2_cell_union_intersection(many, few)),
    small_difference = list(\() s2u_difference(small, large), \() s2_cell_union_difference(few, many)),
    large_difference = list(\() s2u_difference(large, small), \() s2_cell_union_difference(many, few)),
    small_union = list(\() s2u_union(small, large), \() s2_cell_union_union(few, many)),
    small_symmetric_difference = list(
      \() s2u_symmetric_difference(small, large),
      \() s2_cell_union_union(s2_cell_union_difference(few, many), s2_cell_union_difference(many, few))
    )
  )
  for (name in names(rows)) {
    row <- rows[[name]]
    agree <- identical(s2_cell_union(list(row[[1]]())), row[[2]]())
    same <- same && agree
    cat(sprintf("%-36s %12.1f ns, s2 %14.1f%s\n", paste0(name, "_", length(large)), best(row[[1]]), best(row[[2]]),
                if (agree) "" else "  THE ANSWERS DIFFER"))
  }
}
quit(status = if (same) 0 else 1)
