# The answer to a problem. `man/` has what each of these functions takes and returns.

county_groups <- function(counties, seats, people = NULL, adjacency = NULL, added = NULL,
                          cut = NULL, withdrawn = NULL, tolerance = NULL, label = NULL,
                          name = NULL, steps = NULL, timeout = Inf, progress = interactive(),
                          program = NULL) {
  problem <- problem_of(
    counties, seats, people, adjacency, added, cut, withdrawn, tolerance, label, name, program
  )
  message("adjacency: ", adjacency_words(problem$adjacency))
  words <- c("--certificate", "certificate.txt")
  if (!is.null(steps)) words <- c(words, "--steps", plain(whole_number(steps, 0, 2^53, "steps")))
  run <- run_program(problem, "solve", words, progress = progress, timeout = timeout)
  answer_of(problem, run, if (length(run$certificate) > 0) run$certificate)
}

# Returns the answer of a run whose text is a report.
answer_of <- function(problem, run, certificate) {
  found <- read_report(run$output, problem$codes)
  structure(list(
    outcome = found$outcome,
    counts = found$counts,
    groups = found$groups,
    certificate = certificate,
    adjacency = list(
      pairs = labelled_pairs(problem), source = adjacency_words(problem$adjacency)
    ),
    messages = run$messages,
    ideal = ideal_of(problem),
    district_bounds = bounds_of(problem),
    problem = problem
  ), class = "county_groups")
}

# Returns the ideal population of a district of the chamber: its people over its seats.
ideal_of <- function(problem) {
  sum(problem$table$people) / problem$seats
}

# Returns the least and the greatest number of people that a district may have. The products are
# whole numbers that R counts exactly.
bounds_of <- function(problem) {
  people <- sum(problem$table$people)
  part <- problem$tolerance[1]
  whole <- problem$tolerance[2]
  below <- people * (whole - part)
  above <- people * (whole + part)
  over <- whole * problem$seats
  c(least = below %/% over + (below %% over > 0), greatest = above %/% over)
}

group_margins <- function(answer, number = NULL) {
  groups <- groups_at(answer, number)
  people <- sum(answer$problem$table$people)
  part <- answer$problem$tolerance[1]
  whole <- answer$problem$tolerance[2]
  over <- whole * answer$problem$seats
  below <- people * (whole - part) * groups$seats
  above <- people * (whole + part) * groups$seats
  least <- below %/% over + (below %% over > 0)
  data.frame(fewer = groups$people - least, more = above %/% over - groups$people)
}

# Returns the pairs that count, by labels.
labelled_pairs <- function(problem) {
  pairs <- pairs_that_count(problem$adjacency)
  label <- problem$table$label
  data.frame(county = label[pairs[, 1]], neighbour = label[pairs[, 2]])
}

check_certificate <- function(answer, certificate = answer$certificate) {
  if (is.null(certificate)) {
    stop_with("countygroups_no_grouping", "The steps ran out, so there is no certificate.")
  }
  given <- list(certificate.txt = certificate)
  run <- run_program(answer$problem, "check", certificate_words, given)
  answer_of(answer$problem, run, certificate)
}

best_groupings <- function(answer) {
  run <- run_list(answer, c("--groupings", "groupings.csv"))
  found <- read_list(run$output, answer$problem$codes)
  found$groupings <- read_groupings(run$groupings, answer$problem$table, answer$problem$codes)
  structure(found, class = "county_groupings")
}

print.county_groupings <- function(x, ...) {
  cat(x$number, if (x$number == 1) "best grouping\n" else "best groupings\n")
  cat(nrow(x$shared), "groups of all of them\n")
  for (region in x$regions) {
    counties <- paste(region$counties, collapse = ", ")
    told <- paste0(length(region$alternatives), " choices: ", counties)
    cat(strwrap(told, 100, exdent = 4), sep = "\n")
  }
  invisible(x)
}

best_grouping <- function(answer, number) {
  groupings <- best_groupings(answer)$groupings
  number <- whole_number(number, 1, length(groupings), "number")
  groupings[[number]]
}

grouping_number <- function(answer, groups) {
  wanted <- sorted_sets(groups)
  is_equal <- vapply(best_groupings(answer)$groupings, function(one) {
    identical(sorted_sets(one), wanted)
  }, TRUE)
  if (any(is_equal)) which(is_equal)[1] else NA_integer_
}

# Returns the sets of counties of groups, in an order of their own.
sorted_sets <- function(groups) {
  sort(vapply(groups$counties, function(one) paste(sort(as.character(one)), collapse = "\r"), ""))
}

# Returns the best grouping of a number, or without a number the groups of the answer.
groups_at <- function(answer, number = NULL) {
  if (!is.null(number)) return(best_grouping(answer, number))
  has_none <- nrow(answer$groups) == 0 && length(answer$problem$withdrawn) == 0
  if (answer$outcome == "impossible" || has_none) {
    told <- paste0("The outcome is ", answer$outcome, ", and there is no grouping.")
    stop_with("countygroups_no_grouping", told)
  }
  answer$groups
}

# Runs `list` over the certificate of an answer.
run_list <- function(answer, words = character()) {
  if (answer$outcome != "best") {
    told <- paste0("The outcome is ", answer$outcome, ", so no grouping is known as best.")
    stop_with("countygroups_no_grouping", told)
  }
  given <- list(certificate.txt = answer$certificate)
  run_program(answer$problem, "list", c(certificate_words, words), given)
}

print.county_groups <- function(x, ...) {
  cat(summary_lines(x), sep = "\n")
  table <- x$problem$table
  for (place in seq_len(nrow(x$groups))) {
    group <- x$groups[place, ]
    names <- table$name[match(group$counties[[1]], table$label)]
    told <- paste0(place, ": ", group_words(group), ": ", paste(names, collapse = ", "))
    cat(strwrap(told, 100, exdent = 4), sep = "\n")
  }
  cat(x$messages, sep = if (length(x$messages) > 0) "\n" else "")
  invisible(x)
}

# Returns the line that names the counties without a neighbour, or none.
alone_line <- function(problem) {
  alone <- setdiff(seq_len(nrow(problem$table)), pairs_that_count(problem$adjacency))
  if (length(alone) == 0) return(character())
  paste("without a neighbour:", paste(problem$table$name[alone], collapse = ", "))
}

# Returns the seats and the people of a group in words.
group_words <- function(group) {
  seats <- if (group$seats == 1) "1 seat" else paste(group$seats, "seats")
  paste0(seats, ", ", with_commas(group$people), " people")
}

# Returns a number with commas.
with_commas <- function(number) {
  format(number, big.mark = ",", scientific = FALSE, trim = TRUE)
}

# Returns what was asked and what the outcome is, in lines.
summary_lines <- function(answer) {
  problem <- answer$problem
  people <- with_commas(sum(problem$table$people))
  size <- paste0(problem$seats, " seats, ", nrow(problem$table), " counties, ", people, " people")
  told <- answer$outcome
  if (nrow(answer$groups) > 0) {
    counts <- paste(answer$counts, collapse = " ")
    told <- paste0(told, ": ", nrow(answer$groups), " groups, counts ", counts)
  }
  c(
    paste0(size, ", tolerance ", paste(plain(problem$tolerance), collapse = "/")),
    paste0("adjacency: ", answer$adjacency$source), alone_line(problem), told
  )
}
