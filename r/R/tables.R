# Tables and maps of an answer. `man/` has what each of these functions takes and returns.

# From light to dark, so that neighbours differ in grey, too.
map_colours <- c("#fff6cc", "#b5d9f2", "#e59b3c", "#8579c2", "#8fd0a0", "#d6708c")

as_sf <- function(answer, ...) {
  UseMethod("as_sf")
}

# Returns the place of the set of each county among the groups and then the withdrawn sets.
set_places <- function(groups, problem) {
  label <- problem$table$label
  sets <- c(
    lapply(groups$counties, match, table = label),
    lapply(problem$withdrawn, function(one) one$places)
  )
  place <- rep(NA_integer_, length(label))
  for (one in seq_along(sets)) place[sets[[one]]] <- one
  place
}

# Returns a colour for each set, from 0 on, so that no two adjacent sets have the same. A set with
# the most colours beside it comes first, so that few colours are needed.
set_colours <- function(set_place, pairs) {
  sets <- sort(unique(set_place))
  one <- set_place[pairs[, 1]]
  other <- set_place[pairs[, 2]]
  near <- lapply(sets, function(place) setdiff(c(other[one == place], one[other == place]), place))
  colour <- rep(NA_integer_, length(sets))
  while (anyNA(colour)) {
    taken <- lapply(near, function(places) unique(stats::na.omit(colour[match(places, sets)])))
    left <- which(is.na(colour))
    first <- left[order(-lengths(taken[left]), -lengths(near[left]))][1]
    colour[first] <- min(setdiff(seq_along(sets) - 1L, taken[[first]]))
  }
  colour
}

# Returns the columns of groups for each county.
group_columns <- function(answer, number) {
  problem <- answer$problem
  groups <- groups_at(answer, number)
  place <- set_places(groups, problem)
  of_sets <- vapply(problem$withdrawn, function(one) one$seats, 0)
  seats <- c(groups$seats, of_sets)
  people <- tapply(problem$table$people, place, sum)
  # (numbers, so that a legend sorts them; with withdrawn sets all are texts)
  names <- seq_len(nrow(groups))
  if (length(of_sets) > 0) names <- c(sprintf("%d", names), sprintf("W%d", seq_along(of_sets)))
  colours <- set_colours(place, pairs_that_count(problem$adjacency))
  data.frame(
    GROUP = names[place], SEATS = seats[place], GROUP_POPULATION = as.vector(people[place]),
    COLOUR = colours[place]
  )
}

as.data.frame.county_groups <- function(x, row.names = NULL, optional = FALSE, number = NULL, ...) {
  table <- x$problem$table
  found <- group_columns(x, number)
  first <- data.frame(GEOID = table$label, NAME = table$name, POPULATION = table$people)
  frame <- cbind(first, found)
  if (!is.null(row.names)) row.names(frame) <- row.names
  frame
}

tidy.county_groups <- function(x, number = NULL, ...) {
  as.data.frame(x, number = number)
}

as_sf.county_groups <- function(answer, number = NULL, shapes = NULL, ...) {
  given <- answer$problem$given
  if (is.null(shapes)) {
    if (!inherits(given, "sf")) stop_input("The counties have no shapes: give `shapes =`, an sfc.")
    found <- group_columns(answer, number)
    for (column in names(found)) given[[own_name(column, given)]] <- found[[column]]
    return(given)
  }
  frame <- as.data.frame(answer, number = number)
  if (length(shapes) != nrow(frame)) {
    stop_input("There are ", length(shapes), " shapes for ", nrow(frame), " counties.")
  }
  sf::st_sf(frame, geometry = shapes)
}

# Returns the name that a column gets beside those of the user's table.
own_name <- function(column, given) {
  if (column %in% names(given)) paste0("COUNTYGROUPS_", column) else column
}

# Returns the frame of an answer with the columns of the groups by their usual names.
drawn_frame <- function(x, number, shapes) {
  frame <- as_sf(x, number = number, shapes = shapes)
  found <- group_columns(x, number)
  for (column in names(found)) frame[[column]] <- found[[column]]
  frame
}

plot.county_groups <- function(x, number = NULL, shapes = NULL, main = NULL, ...) {
  frame <- drawn_frame(x, number, shapes)
  if (is.null(main)) {
    main <- paste(x$problem$seats, "seats in", length(unique(frame$GROUP)), "groups of counties")
  }
  colour <- palette_of(max(frame$COLOUR) + 1)[frame$COLOUR + 1]
  shapes <- sf::st_geometry(frame)
  graphics::plot(shapes, col = colour, border = "#555555", lwd = 0.5, main = main, ...)
  groups <- group_shapes(frame)
  graphics::plot(groups, add = TRUE, border = "#111111", lwd = 2)
  seats <- frame$SEATS[match(attr(groups, "group"), frame$GROUP)]
  spots <- sf::st_coordinates(sf::st_point_on_surface(sf::st_set_crs(groups, NA)))
  graphics::points(spots, pch = 21, cex = 2.6, bg = "white", col = "#111111")
  graphics::text(spots, labels = seats, font = 2, cex = 0.8)
  invisible(frame)
}

# Returns as many colours as are asked for.
palette_of <- function(number) {
  if (number <= length(map_colours)) return(map_colours)
  grDevices::hcl.colors(number, "Pastel 1")
}

# Returns the shape of each group, in the plane, with the attribute `group`.
group_shapes <- function(frame) {
  shapes <- sf::st_set_crs(sf::st_geometry(frame), NA)
  if (!all(sf::st_is_valid(shapes))) shapes <- sf::st_make_valid(shapes)
  names <- unique(frame$GROUP)
  joined <- lapply(names, function(one) sf::st_union(shapes[frame$GROUP == one]))
  groups <- sf::st_set_crs(do.call(c, joined), sf::st_crs(frame))
  attr(groups, "group") <- names
  groups
}
