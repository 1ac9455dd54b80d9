# The borders of North Carolina's counties, which this package carries.

carried_words <- paste(
  "of North Carolina's border list in this package,",
  "which isn't the Census Bureau's file"
)

borders_source <- function() {
  path <- system.file("extdata", "borders_source.txt", package = "countygroups")
  if (!nzchar(path)) return(character())
  lines_of(path)
}

# Returns the carried pairs of GEOIDs as a matrix, or `NULL` if the list isn't in the package.
carried_geoids <- function() {
  path <- system.file("extdata", "county_borders.txt", package = "countygroups")
  if (!nzchar(path)) return(NULL)
  pairs <- geoid_pairs_of(path)
  pairs[grepl("^[0-9]{5}$", pairs[, 1]) & pairs[, 1] != pairs[, 2], , drop = FALSE]
}

# Returns the carried pairs as places of `labels`, or `NULL` if these aren't North Carolina's.
carried_pairs <- function(labels) {
  known <- carried_geoids()
  geoids <- geoids_of(labels)
  if (is.null(known) || anyNA(geoids) || !all(geoids %in% known)) return(NULL)
  places <- matrix(match(known, geoids), ncol = 2)
  in_order(places[!is.na(places[, 1]) & !is.na(places[, 2]), , drop = FALSE])
}

# Returns the pairs of GEOIDs of a file in one of the Census Bureau's two layouts: a matrix.
#
# Since 2023 a line has the fields name, GEOID, name and GEOID at pipes. Before, they stood at tabs,
# and the first two were left out where they are those of the line before.
geoid_pairs_of <- function(path) {
  rows <- fields_of(path)
  if (!any(lengths(rows) >= 4)) rows <- fields_of(path, "\t")
  rows <- rows[lengths(rows) >= 4]
  if (length(rows) == 0) return(matrix("", 0, 2))
  first <- trimws(vapply(rows, function(row) row[2], ""))
  above <- cummax(ifelse(nzchar(first), seq_along(first), 0L))
  first[above > 0] <- first[above]
  cbind(first, trimws(vapply(rows, function(row) row[4], "")))
}

# Warns of the pairs that `adjacency` lacks or adds to North Carolina's list, or else of what shapes
# can't show. `found` has `source`, `is_shapes` and the pairs `points` that aren't taken.
warn_of_seen <- function(adjacency, found, table) {
  known <- carried_pairs(table$label)
  if (is.null(known)) {
    if (found$is_shapes) warn_of_shapes(found$points, table)
    return(invisible())
  }
  key <- function(pairs) paste(pairs[, 1], pairs[, 2])
  without <- function(pairs, others) pairs[!key(pairs) %in% key(others), , drop = FALSE]
  lacking <- without(without(known, pairs_that_count(adjacency)), adjacency$cut)
  more <- without(without(without(adjacency$listed, known), adjacency$cut), adjacency$added)
  if (nrow(lacking) + nrow(more) == 0) return(invisible())
  told <- paste0(
    "The pairs ", found$source, " differ from North Carolina's border list: they lack ",
    nrow(lacking), " (", names_of_pairs(lacking, table), ") and add ", nrow(more), " (",
    names_of_pairs(more, table), "). Without `adjacency =` the list is taken."
  )
  warn_user(told)
}

# Warns of what shapes can't show.
warn_of_shapes <- function(points, table) {
  told <- "Shapes don't show which counties meet over water"
  if (nrow(points) > 0) {
    names <- names_of_pairs(points, table)
    told <- paste0(told, ", and pairs that touch in points aren't taken: ", names)
  }
  warn_user(told, ". Compare the pairs with a list, or give the list by `adjacency =`.")
}

# Returns the names of the counties of pairs, in words.
names_of_pairs <- function(pairs, table) {
  if (nrow(pairs) == 0) return("none")
  pairs <- pairs[order(pairs[, 1], pairs[, 2]), , drop = FALSE]
  paste(table$name[pairs[, 1]], "and", table$name[pairs[, 2]], collapse = ", ")
}
