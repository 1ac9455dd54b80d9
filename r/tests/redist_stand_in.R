# Stands in for redist, with the calls that redist.md uses, over precincts in a row. It is no
# redist: a district is a run of precincts, and all plans of an ensemble are the same.

redist_map <- function(data, ndists, pop_bounds, total_pop, adj) {
  people <- eval(substitute(total_pop), data)
  stopifnot(length(adj) == nrow(data), length(pop_bounds) == 3, !is.unsorted(pop_bounds))
  list(people = people, districts = ndists, bounds = pop_bounds)
}

# Returns the list of neighbours of some rows, from 0 as all.
redist.reduce.adjacency <- function(adj, keep_rows) {
  lapply(adj[keep_rows], function(places) {
    kept <- match(places + 1, keep_rows)
    kept[!is.na(kept)] - 1
  })
}

redist_smc <- function(map, nsims, silent) {
  district <- 1
  sum <- 0
  plan <- integer(length(map$people))
  for (place in seq_along(plan)) {
    if (sum >= map$bounds[1] && district < map$districts) {
      district <- district + 1
      sum <- 0
    }
    sum <- sum + map$people[place]
    stopifnot(sum <= map$bounds[3])
    plan[place] <- district
  }
  stopifnot(district == map$districts, sum >= map$bounds[1])
  matrix(plan, length(plan), nsims)
}

get_plans_matrix <- function(plans) plans
