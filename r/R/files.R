# Files that are read and saved. `man/` has what these functions take and return.

read_census <- function(geo, segment) {
  people <- people_of_segment(segment)
  header <- header_of(geo)
  header <- header[header$sumlev == "050" & header$geocomp == "00", ]
  if (nrow(header) == 0) {
    told <- " is that of a county: give the geographic header of PL 94-171. Another table is read"
    stop_input("No line of ", geo, told, " by read.csv, and JSON is taken as `counties`.")
  }
  geoid <- paste0(header$state, header$county)
  found <- suppressWarnings(as.numeric(people[header$logrecno]))
  if (anyNA(found)) {
    told <- paste0(" has no people in ", segment, ": give segment 1 of the same files.")
    stop_input("County ", geoid[is.na(found)][1], " of ", geo, told)
  }
  data.frame(GEOID = geoid, NAME = ifelse(header$name == "", geoid, header$name), people = found)
}

# Returns the people of each record of segment 1, by the record's number: fields at pipes (2020) or
# at commas (2010).
people_of_segment <- function(path) {
  records <- fields_of(path)
  if (!any(lengths(records) >= 6)) records <- fields_of(path, ",")
  records <- records[lengths(records) >= 6]
  people <- vapply(records, function(row) row[6], "")
  stats::setNames(people, vapply(records, function(row) row[5], ""))
}

# Returns the fields of a geographic header that are used: a data frame of texts.
header_of <- function(path) {
  rows <- fields_of(path)
  fields <- if (any(lengths(rows) > 1)) {
    lapply(geo_fields, function(place) {
      words <- vapply(rows, function(row) row[place], "")
      ifelse(is.na(words), "", words)
    })
  } else {
    lines <- vapply(rows, function(row) if (length(row) > 0) row[1] else "", "")
    lapply(geo_columns_2010, function(ends) trimws(substring(lines, ends[1], ends[2])))
  }
  data.frame(fields)
}

# Returns whether a file begins with one of some words.
begins_with <- function(path, words) {
  first <- readBin(path, "raw", 64)
  text <- trimws(rawToChar(first[first > as.raw(0) & first < as.raw(128)]))
  any(startsWith(text, words))
}

# Returns the fields at a sign of each line of a file in UTF-8. Stops if there is no file.
#
# Each byte that isn't UTF-8 becomes the sign U+FFFD: `strsplit` would lose such a line.
fields_of <- function(path, at = "|") {
  if (!file.exists(path)) stop_input("The file ", path, " can't be read.")
  if (begins_with(path, "PK")) {
    stop_input(path, " is a zip archive: unpack it by utils::unzip, and name the file in it.")
  }
  sign <- "\ufffd"
  # (as a native text it isn't translated, whatever the locale)
  Encoding(sign) <- "unknown"
  lines <- readLines(path, warn = FALSE, encoding = "UTF-8")
  strsplit(iconv(lines, "UTF-8", "UTF-8", sub = sign), at, fixed = TRUE)
}

save_groups <- function(answer, folder) {
  problem <- answer$problem
  dir.create(folder, showWarnings = FALSE, recursive = TRUE)
  write_problem(problem, folder)
  labels <- data.frame(
    CODE = problem$codes$code, LABEL = problem$table$label, NAME = problem$table$name
  )
  utils::write.csv(labels, file.path(folder, "labels.csv"), row.names = FALSE)
  lines <- c(summary_lines(answer), "", "The files of the problem, as the program reads them.")
  if (nrow(answer$groups) > 0) {
    write_lines(grouping_lines(answer$groups, problem$codes), folder, "grouping.txt")
  }
  if (!is.null(answer$certificate)) {
    write_lines(answer$certificate, folder, "certificate.txt")
    words <- c("countygroups check", problem_words(problem), certificate_words)
    told <- "In this folder the certificate is checked by:"
    lines <- c(lines, told, "", paste(words, collapse = " "))
  }
  write_lines(lines, folder, "README.txt")
  invisible(folder)
}

# Returns the lines of a grouping text. Stops if `groups` are none.
grouping_lines <- function(groups, codes) {
  if (!is.data.frame(groups) || !all(c("seats", "counties") %in% names(groups))) {
    told <- "`groups` is no data frame with the column `seats` and the list column `counties`: "
    stop_input(told, "give one as the answer has it in `groups`.")
  }
  vapply(seq_len(nrow(groups)), function(place) {
    labels <- groups$counties[[place]]
    found <- codes$code[match(as.character(labels), as.character(codes$label))]
    if (anyNA(found)) {
      told <- paste0(", which is no county: a group has labels such as ", codes$label[1], ".")
      stop_input("A group names ", labels[is.na(found)][1], told)
    }
    paste(c(plain(groups$seats[place]), found), collapse = "|")
  }, "")
}
