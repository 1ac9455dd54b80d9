# What else the program is asked: seats by county, a grouping, a plan. `man/` has what each of these
# functions takes and returns.

seat_sizes <- function(counties, seats, people = NULL, tolerance = NULL, label = NULL, name = NULL,
                       program = NULL) {
  table <- read_counties(counties, people, label, name)
  none <- matrix(integer(), ncol = 2)
  problem <- list(
    given = counties, table = table, seats = whole_number(seats, 1, 1000, "seats"),
    codes = codes_of(table$label), adjacency = list(listed = none, added = none, cut = none),
    withdrawn = list(), tolerance = tolerance_of(tolerance), program = find_program(program)
  )
  read_sizes(run_program(problem, "size", character())$output, problem$codes)
}

judge_groups <- function(answer, groups) {
  given <- list(grouping.txt = grouping_lines(groups, answer$problem$codes))
  words <- c("--grouping", "grouping.txt")
  if (identical(answer$outcome, "best")) {
    given$certificate.txt <- answer$certificate
    words <- c(words, certificate_words)
  }
  run <- run_program(answer$problem, "judge", words, given)
  found <- read_verdict(run$output)
  messages <- run$messages
  if (nzchar(found$fault)) messages <- c(messages, legend_of(answer$problem$codes, messages))
  list(
    outcome = if (nzchar(found$fault)) "fault" else found$answer, fault = found$fault,
    messages = messages, greater = found$greater
  )
}

audit_plan <- function(answer, plan, counties, people, number = NULL) {
  refuse_other_plans(plan, counties)
  problem <- answer$problem
  plan <- stats::setNames(as.character(plan), names(plan))
  units <- plan_units(problem, plan, counties, people)
  districts <- unique(plan[!is.na(plan)])
  is_given <- !is.na(plan)
  assigned <- paste(units$code[is_given], match(plan[is_given], districts), sep = "|")
  first <- nrow(problem$table) + seq_along(plan)
  given <- list(
    geo.pl = c(geo_lines(problem$table, problem$codes), block_lines(first, units$code)),
    segment1.pl = c(segment_lines(problem$table), sprintf("||||%07d|%s", first, plain(people))),
    grouping.txt = grouping_lines(groups_at(answer, number), problem$codes),
    assignments.csv = assigned
  )
  words <- c("--grouping", "grouping.txt", "--assignments", "assignments.csv")
  found <- read_findings(run_program(problem, "audit", words, given)$output)
  findings_of(found, districts, units)
}

# Stops if a plan is a path, a table or a list, and says how its districts are taken of these.
refuse_other_plans <- function(plan, counties) {
  ordered <- "give its districts in the order of `counties`, as "
  by_column <- "plan$District[match(blocks$GEOID20, plan$GEOID20)]"
  by_list <- "unlist(plan$assignment)[blocks$GEOID20]"
  if (is.data.frame(plan)) stop_input("`plan` is a table: ", ordered, by_column, ".")
  if (is.list(plan)) stop_input("`plan` is a list: ", ordered, by_list, " of Districtr's JSON.")
  is_path <- is.character(plan) && length(plan) == 1 && length(counties) != 1
  if (!is_path && !(length(plan) == 1 && file.exists(as.character(plan)))) return(invisible())
  told <- paste0(plan, " is a path, and no plan: ", ordered)
  if (is_json_path(plan)) {
    stop_input(told, by_list, " of plan <- jsonlite::fromJSON(path).")
  }
  if (file.exists(plan) && begins_with(plan, "PK")) {
    stop_input(plan, " is a zip archive: unpack it by utils::unzip, read the file of the chamber ",
      "by read.table, and ", ordered, "plan$DISTRICT[match(blocks$GEOID20, plan$BLOCKID)]."
    )
  }
  stop_input(told, by_column, " of plan <- read.csv(path, colClasses = \"character\").")
}

# Returns the code that each precinct gets, and its name, in a data frame. Stops if the vectors
# don't fit, or if the people of a county's precincts aren't those of the answer.
plan_units <- function(problem, plan, counties, people) {
  if (length(counties) != length(plan) || length(people) != length(plan)) {
    stop_input("`plan`, `counties` and `people` have a value for each precinct, and differ.")
  }
  labels <- problem$table$label
  geoids <- geoids_of(labels)
  place <- match(as.character(counties), as.character(labels))
  if (!anyNA(geoids)) place <- ifelse(is.na(place), match(counties, substr(geoids, 3, 5)), place)
  if (anyNA(place)) {
    told <- paste0(" lies in ", counties[is.na(place)][1], ", which is no county.")
    stop_input("Precinct ", which(is.na(place))[1], told)
  }
  sums <- vapply(seq_along(labels), function(one) sum(people[place == one]), 0)
  wrong <- which(sums != problem$table$people)
  if (length(wrong) > 0) {
    one <- problem$table[wrong[1], ]
    told <- paste0(" people, and the county has ", with_commas(one$people), ".")
    stop_input("The precincts of ", one$name, " have ", with_commas(sums[wrong[1]]), told)
  }
  names <- if (is.null(names(plan))) as.character(seq_along(plan)) else names(plan)
  data.frame(code = sprintf("%s%010d", problem$codes$code[place], seq_along(plan)), name = names)
}

# Returns the line of each block in a geographic header.
block_lines <- function(record, code) {
  lines <- matrix("", length(code), most_geo_fields)
  lines[, geo_fields["sumlev"]] <- "750"
  lines[, geo_fields["geocomp"]] <- "00"
  lines[, geo_fields["logrecno"]] <- sprintf("%07d", record)
  lines[, block_field] <- code
  lines[, geo_fields["state"]] <- substr(code, 1, 2)
  apply(lines, 1, paste, collapse = "|")
}

# Returns the findings of an audit in a data frame, with the labels of districts and precincts.
findings_of <- function(found, districts, units) {
  told <- vapply(found, function(one) {
    words <- one$words
    if (one$kind %in% c("Crosses", "DistrictSize")) words[1] <- districts[as.integer(words[1])]
    if (one$kind == "Unassigned") words[1] <- units$name[match(words[1], units$code)]
    paste(words, collapse = " ")
  }, "")
  data.frame(kind = vapply(found, function(one) one$kind, ""), told = told)
}
