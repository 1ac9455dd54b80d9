# Precincts. `man/` has what this function takes and returns.

county_pairs <- function(adjacency, counties) {
  if (!is.list(adjacency) || length(adjacency) != length(counties)) {
    told <- paste0(" precincts, not ", length(counties), ".")
    stop_input("The list of neighbours has ", length(adjacency), told)
  }
  is_from_1 <- inherits(adjacency, c("nb", "sgbp"))
  places <- if (is_from_1) adjacency else places_from_1(adjacency, length(counties))
  pairs <- pairs_of_places(places, counties)
  found <- cbind(as.character(counties)[pairs[, 1]], as.character(counties)[pairs[, 2]])
  found <- unique(found[found[, 1] < found[, 2], , drop = FALSE])
  data.frame(county = found[, 1], neighbour = found[, 2])
}
