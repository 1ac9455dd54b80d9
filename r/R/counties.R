# Counties and their codes.

# Where the label, the people and the name of a county stand, if nothing else is said: the first of
# these that is there. A label may also be the state's and the county's digits of two columns.
label_columns <- c("GEOID", "GEOID20", "GEOID10", "GEO_ID", "GEOIDFQ", "GEOIDFQ20", "FIPS")
state_and_county <- list(
  c("STATEFP", "COUNTYFP"), c("STATEFP20", "COUNTYFP20"), c("STATEFP10", "COUNTYFP10"),
  c("STATE", "COUNTY"), c("state", "county")
)
people_column <- "people"
name_columns <- c("NAME", "NAME20", "NAME10")

# No state has this code. It stands in codes that are made up.
made_up_state <- 99
most_counties <- 256

# Returns a data frame with the columns `label`, `people` and `name`.
#
# `counties` is a data frame, an sf object, a named vector of people, or the path of JSON. `people`,
# `label` and `name` are columns, and `people` may be a vector with the labels as names.
read_counties <- function(counties, people = NULL, label = NULL, name = NULL) {
  if (is.numeric(counties) && !is.null(names(counties))) {
    counties <- data.frame(GEOID = names(counties), people = unname(counties))
  }
  if (is_json_path(counties)) counties <- counties_of_json(counties)$nodes
  if (is.character(counties) && length(counties) == 1) {
    told <- " is a path, and no counties: read it by sf::st_read, read.csv or read_census."
    stop_input(counties, told)
  }
  if (!is.data.frame(counties)) {
    stop_input("`counties` is no data frame, no sf object and no named vector of people.")
  }
  if (nrow(counties) == 0) stop_input("There is no county.")
  labels <- labels_in_frame(counties, label)
  names <- column_of(counties, name, name_columns)
  if (is.null(names)) names <- labels
  found <- people_of(counties, people, labels)
  data.frame(label = labels, people = found, name = as.character(names), stringsAsFactors = FALSE)
}

# Returns the labels of the rows of a data frame: those of the column that is asked, or of a usual
# one, or the codes of two, or else the names of the rows.
labels_in_frame <- function(counties, label = NULL) {
  labels <- column_of(counties, label, label_columns)
  if (is.null(labels)) labels <- joined_codes(counties)
  if (is.null(labels)) labels <- row.names(counties)
  if (is.factor(labels)) as.character(labels) else labels
}

# Returns the values of the column that is asked, or else of the first usual one that is there, or
# `NULL`.
column_of <- function(counties, asked, usual) {
  if (!is.null(asked)) {
    if (!asked %in% names(counties)) stop_input("There is no column \"", asked, "\".")
    return(counties[[asked]])
  }
  found <- intersect(usual, names(counties))
  if (length(found) == 0) return(NULL)
  counties[[found[1]]]
}

# Returns the GEOIDs of a column of states and one of counties, or `NULL` if there are none. Stops
# if a row is that of a whole state.
joined_codes <- function(counties) {
  for (pair in state_and_county) {
    if (!all(pair %in% names(counties))) next
    parts <- lapply(pair, function(name) as.character(counties[[name]]))
    if (!all(grepl("^[0-9]+$", unlist(parts)))) next
    codes <- sprintf("%02d%03d", as.integer(parts[[1]]), as.integer(parts[[2]]))
    wrong <- which(endsWith(codes, "000"))
    if (length(wrong) > 0) {
      stop_input("Row ", wrong[1], " is that of a state, not of a county: leave it out.")
    }
    if (all(nchar(codes) == 5)) return(codes)
  }
  NULL
}

# Returns the people of each county as whole numbers.
people_of <- function(counties, people, labels) {
  if (is.numeric(people) && !is.null(names(people))) {
    found <- unname(people[as.character(labels)])
  } else {
    found <- column_of(counties, people, people_column)
    if (is.null(found)) {
      told <- paste(names(counties), collapse = ", ")
      stop_input(
        "There is no column \"people\": say by `people =` where the people stand. The columns are ",
        told, "."
      )
    }
  }
  words <- trimws(as.character(found))
  has_commas <- grepl("^[0-9]{1,3}(,[0-9]{3})+$", words)
  words[has_commas] <- gsub(",", "", words[has_commas], fixed = TRUE)
  numbers <- suppressWarnings(as.numeric(words))
  wrong <- which(!is.finite(numbers) | numbers < 0 | numbers != floor(numbers))
  if (length(wrong) > 0) {
    is_heading <- grepl("[^0-9]", words[wrong[1]]) && !grepl("[0-9]", words[wrong[1]])
    remedy <- if (is_heading) ": if this is a second heading, leave that row out." else "."
    told <- paste0(" are ", found[wrong[1]], ", which is no whole number", remedy)
    stop_input("The people of county ", labels[wrong[1]], told)
  }
  numbers
}

# Returns the codes of labels, which have to differ: `state`, `are_geoids`, `label` and `code`.
#
# If all labels are GEOIDs of one state, as texts or as numbers, these are the codes. Else codes are
# made up, in the order of the labels.
codes_of <- function(labels) {
  if (length(labels) > most_counties) {
    told <- " counties, and the program takes at most 256. If these are precincts or blocks, add"
    stop_input("There are ", length(labels), told, " up their people by county first.")
  }
  twice <- anyDuplicated(labels)
  if (twice > 0) stop_input("County ", labels[twice], " stands twice.")
  geoids <- geoids_of(labels)
  states <- unique(substr(geoids, 1, 2))
  are_geoids <- !anyNA(geoids) && length(states) == 1
  made_up <- sprintf("%02d%03d", made_up_state, seq_along(labels))
  list(
    state = if (are_geoids) states else as.character(made_up_state),
    are_geoids = are_geoids, label = labels, code = if (are_geoids) geoids else made_up
  )
}

# Returns the five digits of each label that is a GEOID, and `NA` for the others. A text may have
# what data.census.gov writes before the digits, as in 0500000US37183.
geoids_of <- function(labels) {
  if (is.numeric(labels)) {
    is_code <- labels == floor(labels) & labels >= 1001 & labels <= 99999
    return(ifelse(is_code, sprintf("%05.0f", labels), NA_character_))
  }
  digits <- sub("^050[0-9A-Z]{4}US", "", labels)
  ifelse(grepl("^[0-9]{5}$", digits), digits, NA_character_)
}

# Returns the labels of codes.
labels_of <- function(codes, found) {
  codes$label[match(found, codes$code)]
}

# Returns a line for each made-up code of some words.
legend_of <- function(codes, words) {
  if (codes$are_geoids) return(character())
  found <- unlist(regmatches(words, gregexpr("\\b[0-9]{5}\\b", words)))
  found <- sort(intersect(found, codes$code))
  if (length(found) == 0) return(character())
  paste(found, "is", labels_of(codes, found))
}
