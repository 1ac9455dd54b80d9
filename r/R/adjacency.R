# Which counties are adjacent, and where that comes from. A pair is two places of counties.

# Returns `listed`, `added` and `cut`, each a matrix of two columns, and `source` in words.
#
# `given` is "edges" or "points" for shapes, the path of a file in the layout of the Census Bureau's
# county adjacency file or of a dual graph in JSON, a matrix or data frame of two columns of labels,
# a square matrix, a graph of igraph, a list of neighbours by label, or a list of neighbours by
# place as `sf`, `spdep` and `redist` have them. Without it the counties of North Carolina have the
# list of this package, and other shapes their edges. Warns of what shapes and graphs don't show.
adjacency_of <- function(given, counties, table, added = NULL, cut = NULL) {
  found <- if (is.null(given)) {
    usual_pairs(counties, table$label)
  } else {
    pairs_of(given, counties, table$label)
  }
  adjacency <- list(
    listed = in_order(found$pairs), source = found$source,
    added = in_order(pairs_of_table(added, table$label)),
    cut = in_order(pairs_of_table(cut, table$label))
  )
  if (found$is_seen) warn_of_seen(adjacency, found, table)
  if (nrow(table) > 1 && nrow(pairs_that_count(adjacency)) == 0) {
    warn_user("No two of the ", nrow(table), " counties are adjacent.")
  }
  adjacency
}

# Returns what is known of pairs: the places, where they are from, whether they are of shapes or of
# a graph that may be, whether of shapes themselves, and the pairs that touch in points.
found_pairs <- function(pairs, source, is_seen = FALSE, is_shapes = FALSE, points = pairs[0, ]) {
  list(pairs = pairs, source = source, is_seen = is_seen, is_shapes = is_shapes, points = points)
}

# Returns the carried pairs of North Carolina, or those of the shapes.
usual_pairs <- function(counties, labels) {
  known <- carried_pairs(labels)
  if (!is.null(known)) return(found_pairs(known, carried_words))
  if (!inherits(counties, "sf")) {
    stop_input("There are no shapes: say by `adjacency =` which counties meet.")
  }
  pairs_of_shapes(counties, "edges")
}

# Returns pairs, and where they come from.
pairs_of <- function(given, counties, labels) {
  if (is.character(given) && length(given) == 1) {
    if (given %in% c("edges", "points")) return(pairs_of_shapes(counties, given))
    source <- paste("of", basename(given))
    if (is_json_path(given)) return(found_pairs(pairs_of_graph_file(given, labels), source, TRUE))
    return(found_pairs(pairs_of_file(given, labels), source))
  }
  if (is_square(given, labels)) {
    pairs <- unname(which(given != 0, arr.ind = TRUE))
    return(found_pairs(pairs, "of a matrix"))
  }
  if (is.matrix(given) || is.data.frame(given)) {
    return(found_pairs(pairs_of_table(given, labels), "of a table of pairs"))
  }
  if (inherits(given, "igraph")) {
    return(found_pairs(pairs_of_igraph(given, labels), "of the edges of a graph", TRUE))
  }
  if (inherits(given, c("nb", "sgbp"))) {
    return(found_pairs(pairs_of_places(given, labels), "of a list of neighbours", TRUE))
  }
  if (is.list(given) && !is.null(names(given))) {
    pairs <- cbind(rep(names(given), lengths(given)), unlist(given, use.names = FALSE))
    return(found_pairs(pairs_of_table(pairs, labels), "of a list of neighbours"))
  }
  if (is.list(given) && length(given) > 0 && all(vapply(given, is.numeric, TRUE))) {
    places <- places_from_1(given, length(labels))
    return(found_pairs(pairs_of_places(places, labels), "of a list of neighbours", TRUE))
  }
  stop_input("`adjacency` says nothing of which counties are adjacent.")
}

# Returns whether this is a matrix of numbers with a row and a column for each county.
is_square <- function(given, labels) {
  is.matrix(given) && (is.numeric(given) || is.logical(given)) &&
    all(dim(given) == length(labels)) && length(labels) > 2
}

# Returns the edges of a graph of igraph, by the names of its vertices or by their places.
pairs_of_igraph <- function(graph, labels) {
  if (!requireNamespace("igraph", quietly = TRUE)) {
    stop_input("A graph of igraph needs the package igraph.")
  }
  pairs <- igraph::as_edgelist(graph, names = TRUE)
  if (is.character(pairs)) return(pairs_of_table(pairs, labels))
  if (igraph::vcount(graph) != length(labels)) {
    told <- paste0(" vertices without names, and there are ", length(labels), " counties.")
    stop_input("The graph has ", igraph::vcount(graph), told)
  }
  pairs
}

# Returns a list of neighbours' places from 1. As `redist` has it, it is from 0. Stops if it can't
# be told from which number on the places are.
places_from_1 <- function(given, count) {
  places <- unlist(given)
  if (0 %in% places && !count %in% places) return(lapply(given, function(one) one + 1))
  if (count %in% places && !0 %in% places) return(given)
  stop_input("It can't be told whether this list of neighbours has places from 0 or from 1.")
}

# Returns each pair once, the lesser place first, without a county beside itself.
in_order <- function(pairs) {
  ordered <- cbind(pmin(pairs[, 1], pairs[, 2]), pmax(pairs[, 1], pairs[, 2]))
  unique(ordered[ordered[, 1] != ordered[, 2], , drop = FALSE])
}

# Returns the places of a matrix or data frame whose first two columns are labels.
pairs_of_table <- function(given, labels) {
  if (is.null(given)) return(matrix(integer(), ncol = 2))
  if (is.vector(given) && length(given) == 2) given <- matrix(given, ncol = 2)
  if (!is.matrix(given) && !is.data.frame(given) || ncol(given) < 2) {
    stop_input("Pairs of counties are a matrix or a data frame of two columns.")
  }
  words <- cbind(as.character(given[, 1]), as.character(given[, 2]))
  places <- matrix(match(words, as.character(labels)), ncol = 2)
  if (anyNA(places)) stop_input("A pair names ", words[is.na(places)][1], ", which is no county.")
  places
}

# Returns the pairs of a list that has the places of each county's neighbours, or 0 for none.
pairs_of_places <- function(given, labels) {
  if (length(given) != length(labels)) {
    stop_input("The list of neighbours has ", length(given), " counties, not ", length(labels), ".")
  }
  others <- unlist(given)
  pairs <- cbind(rep(seq_along(given), lengths(given)), others)
  unname(pairs[others > 0, , drop = FALSE])
}

# Returns the pairs of an adjacency file whose counties are both listed.
pairs_of_file <- function(path, labels) {
  geoids <- geoids_of(labels)
  if (anyNA(geoids)) {
    other <- labels[is.na(geoids)][1]
    told <- paste0("and one label is ", other, ": say by `label =` which column has the GEOIDs.")
    stop_input("An adjacency file takes GEOIDs such as 37183 as labels, ", told)
  }
  if (!file.exists(path)) stop_input("The adjacency file ", path, " can't be read.")
  words <- geoid_pairs_of(path)
  if (!any(grepl("^[0-9]{5}$", words[, 1]))) {
    told <- " has a county's GEOID as the second field, at pipes or tabs: "
    remedy <- "put these there, or give a table of pairs. Of shapes give what sf::st_read reads"
    stop_input("No line of ", path, told, remedy, " as the counties.")
  }
  places <- matrix(match(words, geoids), ncol = 2)
  places[!is.na(places[, 1]) & !is.na(places[, 2]), , drop = FALSE]
}

# Returns the pairs of shapes that have an edge in common, or also those that touch in points.
pairs_of_shapes <- function(counties, kind) {
  if (!inherits(counties, "sf")) {
    stop_input("adjacency = \"", kind, "\" takes shapes, and the counties have none.")
  }
  contacts <- contacts_of(sf::st_geometry(counties))
  edges <- nrow(contacts$edges)
  points <- nrow(contacts$points)
  if (kind == "points") {
    source <- paste0("of the shapes: ", edges, " share an edge, ", points, " touch in points")
    return(found_pairs(rbind(contacts$edges, contacts$points), source, TRUE, TRUE))
  }
  told <- paste0(points, " that touch in points aren't taken")
  source <- paste0("of the shapes, which share an edge; ", told)
  found_pairs(contacts$edges, source, TRUE, TRUE, contacts$points)
}

# Returns which shapes of an sfc touch, in the plane: `edges` are the pairs with an edge or an area
# in common, `points` those with single points only.
contacts_of <- function(shapes) {
  wrong <- which(sf::st_is_empty(shapes) | !sf::st_dimension(shapes) %in% 2)
  if (length(wrong) > 0) stop_input("Row ", wrong[1], " of the table has no polygon.")
  shapes <- sf::st_set_crs(shapes, NA)
  if (!all(sf::st_is_valid(shapes))) shapes <- sf::st_make_valid(shapes)
  relation <- sf::st_relate(shapes, shapes)
  part <- function(place) substr(relation, place, place)
  # Of the inside and the border of two shapes: the dimensions of what they have in common.
  is_edge <- part(1) == "2" | part(5) == "1"
  is_contact <- part(1) != "F" | part(2) != "F" | part(4) != "F" | part(5) != "F"
  is_first <- upper.tri(relation)
  list(
    edges = which(matrix(is_edge, nrow(relation)) & is_first, arr.ind = TRUE),
    points = which(matrix(is_contact & !is_edge, nrow(relation)) & is_first, arr.ind = TRUE)
  )
}

# Returns the pairs that count: the listed and the added ones without the cut ones.
pairs_that_count <- function(adjacency) {
  pairs <- unique(rbind(adjacency$listed, adjacency$added))
  key <- function(one) paste(one[, 1], one[, 2])
  pairs[!key(pairs) %in% key(adjacency$cut), , drop = FALSE]
}

# Returns the number of pairs and where they come from, in words.
adjacency_words <- function(adjacency) {
  added <- nrow(adjacency$added)
  cut <- nrow(adjacency$cut)
  told <- if (added + cut > 0) paste0("; ", added, " added and ", cut, " cut") else ""
  paste0(nrow(adjacency$listed), " pairs ", adjacency$source, told)
}
