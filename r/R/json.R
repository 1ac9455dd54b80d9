# Reads JSON by the package jsonlite: rows of the Census Bureau's API, and dual graphs as GerryChain
# and networkx store them. `man/` has what `read_dual_graph` takes and returns.

# Returns whether this is the path of a file of JSON.
is_json_path <- function(given) {
  is.character(given) && length(given) == 1 && file.exists(given) && !dir.exists(given) &&
    begins_with(given, c("{", "["))
}

# Returns what a file of JSON holds, as nested lists. Stops without the package jsonlite.
json_of <- function(path) {
  if (!requireNamespace("jsonlite", quietly = TRUE)) {
    stop_input(path, " is JSON, which the package jsonlite reads: install.packages(\"jsonlite\").")
  }
  tryCatch(jsonlite::fromJSON(path, simplifyVector = FALSE), error = function(fault) {
    stop_input(path, " begins as JSON, and can't be read: ask for it again, or store it again.")
  })
}

# Returns the counties of a file of JSON, and how they are adjacent if it is a dual graph: a list
# of `nodes` and `adjacency`.
counties_of_json <- function(path) {
  held <- json_of(path)
  if (is_graph(held)) return(graph_of(held, path))
  list(nodes = rows_of_api(held, path), adjacency = NULL)
}

read_dual_graph <- function(path) {
  if (!is_json_path(path)) stop_input(path, " is no file of JSON: store the graph by its to_json.")
  graph_of(json_of(path), path)
}

# Returns whether JSON has nodes, and edges in one of the forms of networkx.
is_graph <- function(held) {
  is.list(held$nodes) && length(held$nodes) > 0 &&
    (is.list(held$adjacency) || is.list(held$links) || is.list(held$edges))
}

# Returns the data frame of rows of texts, of which the first has the names of the columns.
rows_of_api <- function(held, path) {
  widths <- lengths(held)
  is_table <- is.null(names(held)) && length(held) > 1 && all(vapply(held, is.list, TRUE)) &&
    all(widths == widths[1]) && all(lengths(unlist(held, recursive = FALSE)) <= 1)
  if (!is_table) {
    told <- " is JSON, and neither a dual graph nor rows of the Census Bureau's API. "
    stop_input(path, told, json_remedies)
  }
  text <- function(value) if (is.null(value)) NA_character_ else as.character(value)
  columns <- lapply(seq_len(widths[1]), function(place) {
    vapply(held[-1], function(row) text(row[[place]]), "")
  })
  names(columns) <- vapply(held[[1]], text, "")
  data.frame(columns, check.names = FALSE, stringsAsFactors = FALSE)
}

# What to do with other files of JSON.
json_remedies <- paste(
  "GeoJSON is read by sf::st_read.",
  "What Districtr stores is a plan, for `audit_plan`."
)

# Returns the `nodes` of a graph in a data frame, and its `adjacency` as places of these.
graph_of <- function(held, path) {
  if (!is_graph(held)) {
    stop_input(path, " is JSON without the nodes and the edges of a graph. ", json_remedies)
  }
  nodes <- node_frame(held$nodes)
  ids <- as.character(if (is.null(nodes$id)) seq_along(held$nodes) - 1 else nodes$id)
  if (anyDuplicated(ids) > 0) stop_input("Node ", ids[anyDuplicated(ids)], " stands twice.")
  row.names(nodes) <- ids
  pairs <- if (is.list(held$adjacency)) pairs_of_near(held, ids) else pairs_of_links(held, ids)
  if (anyNA(pairs)) stop_input(path, " has an edge of a node that it hasn't: store it again.")
  pairs <- in_order(pairs)
  both <- rbind(pairs, pairs[, 2:1])
  near <- split(both[, 2], factor(both[, 1], seq_along(ids)))
  near <- lapply(unname(near), function(places) if (length(places) > 0) places else 0L)
  list(nodes = nodes, adjacency = structure(near, class = "nb"))
}

# Returns the attributes of nodes that have one value each, in a data frame.
node_frame <- function(nodes) {
  fields <- unique(unlist(lapply(nodes, names)))
  columns <- lapply(fields, function(field) {
    values <- lapply(nodes, function(node) node[[field]])
    values[vapply(values, is.null, TRUE)] <- NA
    if (all(lengths(values) == 1) && all(vapply(values, is.atomic, TRUE))) unlist(values)
  })
  names(columns) <- fields
  data.frame(columns[!vapply(columns, is.null, TRUE)], check.names = FALSE,
    stringsAsFactors = FALSE
  )
}

# Returns the edges of a graph that has the neighbours of each node, as two columns of places.
pairs_of_near <- function(held, ids) {
  ends <- lapply(held$adjacency, function(near) {
    vapply(near, function(one) as.character(one$id), "")
  })
  cbind(rep(seq_along(ends), lengths(ends)), match(unlist(ends), ids))
}

# Returns the edges of a graph that has a list of links, as two columns of places.
pairs_of_links <- function(held, ids) {
  links <- if (is.list(held$links)) held$links else held$edges
  end <- function(name) match(vapply(links, function(one) as.character(one[[name]]), ""), ids)
  cbind(end("source"), end("target"))
}

# Returns the pairs of a dual graph's file whose nodes are both counties.
pairs_of_graph_file <- function(path, labels) {
  graph <- read_dual_graph(path)
  found <- labels_in_frame(graph$nodes)
  place <- match(as.character(found), as.character(labels))
  known <- geoids_of(labels)
  geoids <- geoids_of(found)
  place <- ifelse(is.na(place) & !is.na(geoids), match(geoids, known), place)
  if (all(is.na(place))) {
    told <- paste0(" is one of the counties, such as ", labels[1], ": name the nodes as these.")
    stop_input("No node of ", path, told)
  }
  pairs <- pairs_of_places(graph$adjacency, found)
  pairs <- cbind(place[pairs[, 1]], place[pairs[, 2]])
  pairs[!is.na(pairs[, 1]) & !is.na(pairs[, 2]), , drop = FALSE]
}
