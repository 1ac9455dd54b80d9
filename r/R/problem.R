# A problem: counties, seats, adjacency, withdrawn sets and the tolerance, and its files.

five_percent <- c(1, 20)

# The fields of a line of a geographic header, from 1, and how many such a line has.
geo_fields <- c(sumlev = 3, geocomp = 5, logrecno = 8, state = 13, county = 15, name = 88)
most_geo_fields <- 97
# Where a line of the header of 2010 has these fields: the first and the last sign, from 1.
geo_columns_2010 <- list(
  sumlev = c(9, 11), geocomp = c(12, 13), logrecno = c(19, 25), state = c(28, 29),
  county = c(30, 32), name = c(227, 316)
)
# The field of a block's code of fifteen digits.
block_field <- 10

# Returns the problem of the words of `county_groups`.
problem_of <- function(counties, seats, people, adjacency, added, cut, withdrawn, tolerance,
                       label, name, program) {
  seats <- whole_number(seats, 1, 1000, "seats")
  if (is_json_path(counties)) {
    found <- counties_of_json(counties)
    counties <- found$nodes
    if (is.null(adjacency)) adjacency <- found$adjacency
  }
  table <- read_counties(counties, people, label, name)
  list(
    given = counties, table = table, seats = seats, codes = codes_of(table$label),
    adjacency = adjacency_of(adjacency, counties, table, added, cut),
    withdrawn = lapply(withdrawn, withdrawn_set, table = table),
    tolerance = tolerance_of(tolerance), program = find_program(program)
  )
}

# Returns a whole number from `least` to `most`. Stops if it is none; `name` says what it is.
whole_number <- function(given, least, most, name) {
  if (!is.numeric(given) || length(given) != 1 || !is.finite(given) || given != floor(given)) {
    stop_input("`", name, "` is no whole number.")
  }
  if (given < least || given > most) {
    told <- paste0(", and has to be ", plain(least), " to ", plain(most), ".")
    stop_input("`", name, "` is ", plain(given), told)
  }
  given
}

# Returns the seats and the places of a withdrawn set, given as `list(labels, seats)`.
withdrawn_set <- function(given, table) {
  if (!is.list(given) || length(given) != 2) {
    stop_input("A withdrawn set is a list of its counties and their seats.")
  }
  places <- match(as.character(given[[1]]), as.character(table$label))
  if (anyNA(places)) {
    stop_input("A withdrawn set names ", given[[1]][is.na(places)][1], ", which is no county.")
  }
  seats <- given[[2]]
  if (!is.numeric(seats) || length(seats) != 1 || !is.finite(seats) || seats != floor(seats)) {
    stop_input("A withdrawn set has seats that are no whole number.")
  }
  list(seats = seats, places = places)
}

# Returns the tolerance as the part and the whole of a fraction in lowest terms.
tolerance_of <- function(given) {
  if (is.null(given)) return(five_percent)
  if (is.character(given)) return(tolerance_of_text(given))
  if (!is.numeric(given) || length(given) != 1 || !is.finite(given) || given < 0) {
    stop_input("`tolerance` is no number from 0 on.")
  }
  if (given > 0.5) {
    stop_input("`tolerance` is ", given, ", and has to be 0 to 0.5; 0.05 is five percent.")
  }
  whole <- 1:1000
  part <- round(given * whole)
  found <- which(abs(part / whole - given) < 1e-12 & part <= 500)
  if (length(found) == 0) {
    stop_input("`tolerance` is no fraction of at most 500 over at most 1000.")
  }
  c(part[found[1]], whole[found[1]])
}

# Returns the tolerance that a text such as "4%", "0.04" or "1/25" writes, as `tolerance_of` does.
tolerance_of_text <- function(text) {
  form <- "^([0-9]{1,9})/([0-9]{1,9})$|^([0-9]{1,3})([.]([0-9]{1,9}))?(%?)$"
  found <- if (length(text) == 1) regmatches(text, regexec(form, text))[[1]]
  if (length(found) == 0 || is.na(found[1])) {
    stop_input("`tolerance` is \"", text[1], "\", and no percentage, decimal or fraction.")
  }
  if (nzchar(found[2])) {
    over <- as.numeric(found[2])
    under <- as.numeric(found[3])
  } else {
    over <- as.numeric(paste0(found[4], found[6]))
    under <- 10^(nchar(found[6]) + 2 * nchar(found[7]))
  }
  if (2 * over > under) {
    stop_input("`tolerance` is ", text, ", and has to be 0 to 0.5; 5% is five percent.")
  }
  # (all products are whole numbers below 2^53, which are exact)
  whole <- 1:1000
  part <- round(over * whole / under)
  equal <- which(part * under == over * whole)
  if (under == 0 || length(equal) == 0) {
    stop_input("`tolerance` is no fraction of at most 500 over at most 1000.")
  }
  c(part[equal[1]], whole[equal[1]])
}

# Returns a whole number as the program reads it.
plain <- function(number) {
  sprintf("%.0f", number)
}

# Writes lines to a file of `folder`, each with one LF at its end, in UTF-8.
write_lines <- function(lines, folder, name) {
  file <- file(file.path(folder, name), open = "wb")
  on.exit(close(file))
  writeLines(enc2utf8(lines), file, sep = "\n", useBytes = TRUE)
}

# Returns the line of each county in a geographic header.
geo_lines <- function(table, codes) {
  lines <- matrix("", nrow(table), most_geo_fields)
  lines[, geo_fields["sumlev"]] <- "050"
  lines[, geo_fields["geocomp"]] <- "00"
  lines[, geo_fields["logrecno"]] <- sprintf("%07d", seq_len(nrow(table)))
  lines[, geo_fields["state"]] <- substr(codes$code, 1, 2)
  lines[, geo_fields["county"]] <- substr(codes$code, 3, 5)
  lines[, geo_fields["name"]] <- gsub("[[:cntrl:]|]", " ", table$name)
  apply(lines, 1, paste, collapse = "|")
}

# Returns the line of each county in segment 1.
segment_lines <- function(table) {
  sprintf("||||%07d|%s", seq_len(nrow(table)), plain(table$people))
}

# Writes the files of a problem to a folder, in the layouts of the program.
write_problem <- function(problem, folder) {
  table <- problem$table
  code <- problem$codes$code
  write_lines(geo_lines(table, problem$codes), folder, "geo.pl")
  write_lines(segment_lines(table), folder, "segment1.pl")
  listed <- problem$adjacency$listed
  write_lines(sprintf("|%s||%s", code[listed[, 1]], code[listed[, 2]]), folder, "adjacency.txt")
  if (has_links(problem)) write_lines(link_lines(problem), folder, "links.txt")
  if (length(problem$withdrawn) > 0) {
    lines <- vapply(problem$withdrawn, function(one) {
      paste(c(plain(one$seats), code[one$places]), collapse = "|")
    }, "")
    write_lines(lines, folder, "withdrawn.txt")
  }
}

# Returns whether pairs were added or cut.
has_links <- function(problem) {
  nrow(problem$adjacency$added) + nrow(problem$adjacency$cut) > 0
}

# Returns the lines that add and cut pairs.
link_lines <- function(problem) {
  code <- problem$codes$code
  added <- problem$adjacency$added
  cut <- problem$adjacency$cut
  c(
    sprintf("+|%s|%s", code[added[, 1]], code[added[, 2]]),
    sprintf("-|%s|%s", code[cut[, 1]], code[cut[, 2]])
  )
}

# Returns the words of a problem for a command. The files of the problem lie in the working folder.
problem_words <- function(problem, command = "solve") {
  words <- c("--geo", "geo.pl", "--segment", "segment1.pl")
  words <- c(words, "--state", problem$codes$state, "--chamber", plain(problem$seats))
  if (!identical(as.numeric(problem$tolerance), five_percent)) {
    tolerance <- plain(problem$tolerance)
    words <- c(words, "--part", tolerance[1], "--of", tolerance[2])
  }
  if (command == "size") return(words)
  words <- c(words, "--adjacency", "adjacency.txt")
  if (has_links(problem)) words <- c(words, "--links", "links.txt")
  if (length(problem$withdrawn) > 0) words <- c(words, "--withdrawn", "withdrawn.txt")
  words
}
