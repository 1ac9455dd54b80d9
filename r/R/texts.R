# What the program's texts say: the one place that reads them. A set of groups is a data frame with
# the list column `counties`, which has labels.

# The checker counts its steps. A certificate bounds them, so that this number stops nobody.
unbounded <- "18446744073709551615"

# The words by which `check` and `list` read the certificate of the working folder.
certificate_words <- c("--certificate", "certificate.txt", "--budget", unbounded)

# Returns whether the lines of a command have an answer.
has_answer <- function(command, lines) {
  begins <- switch(command, size = "people ", audit = "findings ", c("answer ", "fault "))
  any(vapply(begins, function(word) any(startsWith(lines, word)), TRUE))
}

# Returns what stands behind `word` in the first line that begins with it, or "".
behind <- function(lines, word) {
  found <- lines[startsWith(lines, paste0(word, " "))]
  if (length(found) == 0) return("")
  substring(found[1], nchar(word) + 2)
}

# Returns the counts behind `word` in the first line that begins with it. Without such a line they
# are empty.
counts_of <- function(lines, word = "counts") {
  words <- behind(lines, word)
  if (words %in% c("", "none")) return(integer())
  as.integer(strsplit(words, " ", fixed = TRUE)[[1]])
}

# Returns the groups of lines such as `group 1 seats 2 people 3 counties 37001 37003`.
groups_of <- function(lines, codes) {
  pattern <- "^group [0-9]+ seats ([0-9]+) people ([0-9]+) counties ([0-9 ]+)$"
  lines <- grep("^group ", lines, value = TRUE)
  parts <- regmatches(lines, regexec(pattern, lines))
  group_frame(
    seats = field_of(parts, 2), people = field_of(parts, 3),
    counties = lapply(parts, function(part) labels_in(part[4], codes))
  )
}

# Returns the groups of a list's lines such as `group seats 2 to 3 people 3 counties 37001`.
listed_groups_of <- function(lines, codes) {
  pattern <- "^group seats ([0-9]+)( to ([0-9]+))? people ([0-9]+) counties ([0-9 ]+)$"
  parts <- regmatches(lines, regexec(pattern, lines))
  most <- vapply(parts, function(part) if (nzchar(part[4])) part[4] else part[2], "")
  group_frame(
    least_seats = field_of(parts, 2), most_seats = as.numeric(most), people = field_of(parts, 5),
    counties = lapply(parts, function(part) labels_in(part[6], codes))
  )
}

# Returns a data frame with the list column `counties`.
group_frame <- function(..., counties) {
  frame <- data.frame(...)
  frame$counties <- counties
  frame
}

# Returns one part of each match, as numbers.
field_of <- function(parts, place) {
  as.numeric(vapply(parts, function(part) part[place], ""))
}

# Returns the labels of codes with blanks between.
labels_in <- function(words, codes) {
  labels_of(codes, strsplit(words, " ", fixed = TRUE)[[1]])
}

# Returns what a report says: `outcome`, `counts` and `groups`.
read_report <- function(lines, codes) {
  list(
    outcome = strsplit(behind(lines, "answer"), " ", fixed = TRUE)[[1]][1],
    counts = counts_of(lines), groups = groups_of(lines, codes)
  )
}

# Returns what a size table says: a data frame with a row for each county.
read_sizes <- function(lines, codes) {
  rows <- strsplit(lines[grepl("|", lines, fixed = TRUE)], "|", fixed = TRUE)
  number <- function(place) {
    vapply(rows, function(row) if (length(row) < 4) NA_real_ else as.numeric(row[place]), 0)
  }
  data.frame(
    label = labels_of(codes, vapply(rows, function(row) row[1], "")),
    people = as.numeric(vapply(rows, function(row) row[2], "")),
    least_seats = number(3), most_seats = number(4)
  )
}

# Returns what a judge says: `answer` and `fault`, of which one is empty, and `greater`.
read_verdict <- function(lines) {
  list(
    answer = behind(lines, "answer"), fault = behind(lines, "fault"),
    greater = counts_of(lines, "greater counts")
  )
}

# Returns the findings of an audit: a list of lists of `kind` and `words`.
read_findings <- function(lines) {
  lapply(strsplit(lines[-1], " ", fixed = TRUE), function(one) list(kind = one[1], words = one[-1]))
}

# Returns what a list says: `number`, `shared` and `regions`.
read_list <- function(lines, codes) {
  lines <- lines[seq(which(startsWith(lines, "best groupings "))[1], length(lines))]
  number <- as.numeric(behind(lines, "best groupings"))
  is_group <- startsWith(lines, "group ")
  region <- cumsum(startsWith(lines, "region "))
  alternative <- cumsum(startsWith(lines, "alternative "))
  shared <- listed_groups_of(lines[is_group & region == 0], codes)
  regions <- lapply(seq_len(max(region)), function(one) {
    wanted <- unique(alternative[is_group & region == one])
    alternatives <- lapply(wanted, function(place) {
      listed_groups_of(lines[is_group & alternative == place & region == one], codes)
    })
    found <- unlist(alternatives[[1]]$counties)
    list(counties = codes$label[codes$label %in% found], alternatives = alternatives)
  })
  list(number = number, shared = shared, regions = regions)
}

# Returns the groups of each grouping of the program's table, in their order: a list of data frames.
# Withdrawn sets, such as W1, are left out.
read_groupings <- function(found, table, codes) {
  numbers <- unique(as.integer(found$GROUPING))
  rows <- found[!startsWith(found$GROUP, "W"), ]
  lapply(sort(numbers), function(number) {
    one <- rows[as.integer(rows$GROUPING) == number, ]
    groups <- sort(unique(as.integer(one$GROUP)))
    place <- match(as.integer(one$GROUP), groups)
    counties <- unname(split(labels_of(codes, one$GEOID), factor(place, seq_along(groups))))
    people <- vapply(counties, function(set) sum(table$people[match(set, table$label)]), 0)
    seats <- as.numeric(one$SEATS[match(groups, as.integer(one$GROUP))])
    group_frame(seats = seats, people = people, counties = counties)
  })
}
