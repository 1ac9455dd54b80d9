# What the tests share. `COUNTYGROUPS_DATA` is the folder data/nc2020 of the repository.

library(countygroups)

data <- Sys.getenv("COUNTYGROUPS_DATA")
data_file <- function(name) file.path(data, name)
has_program <- !inherits(try(find_program(), silent = TRUE), "try-error")

# A path of four counties for 4 seats. A district has 95 to 105 people, so that Cedar has 1 seat,
# Dogwood has 2, and Alder and Birch need each other.
path_people <- c(Alder = 50, Birch = 50, Cedar = 100, Dogwood = 200)
path_pairs <- rbind(c("Alder", "Birch"), c("Birch", "Cedar"), c("Cedar", "Dogwood"))

# The counts of the enacted Senate grouping, and what Cooper, Esselstyn, Herschlag, Mattingly and
# Tippett published in 2021: best groupings, groups in all of them, and the seats of these.
senate_counts <- c(2, 9, 9, 1, 0, 0, 2, 1, 0, 1, 0, 0, 0, 0, 0, 0, 1)
house_counts <- c(11, 16, 6, 4, 1, 0, 0, 0, 2)
published <- list("50" = c(16, 17, 36), "120" = c(8, 33, 107))

# Runs a test, and says its name.
test <- function(name, code) {
  force(code)
  cat("ok:", name, "\n")
}

# Stops unless two values are equal.
expect_equal <- function(found, wanted) {
  told <- all.equal(found, wanted, check.attributes = FALSE)
  if (!isTRUE(told)) stop(paste(c(told, "found:", format(found)), collapse = " "), call. = FALSE)
}

# Stops unless an expression ends with an error of a class, whose message has some words.
expect_refusal <- function(code, words, class = "countygroups_input_error") {
  found <- tryCatch(
    {
      force(code)
      NULL
    },
    error = identity
  )
  if (!inherits(found, class) || !grepl(words, conditionMessage(found), fixed = TRUE)) {
    told <- if (is.null(found)) "no error" else paste(class(found)[1], conditionMessage(found))
    stop("wanted ", class, " ", words, "; found ", told, call. = FALSE)
  }
  found
}

# Returns the sets of counties of groups, as sorted words.
sets_of <- function(groups) {
  sort(vapply(groups$counties, function(one) paste(sort(as.character(one)), collapse = " "), ""))
}

# Solves without a message.
solved <- function(...) {
  suppressMessages(county_groups(..., progress = FALSE))
}

# Returns the sets of the grouping that was enacted in 2023, of `senate` or `house`.
enacted <- function(name) {
  rows <- strsplit(readLines(data_file(paste0(name, "2023.grouping"))), "|", fixed = TRUE)
  sort(vapply(rows, function(row) paste(sort(row[-1]), collapse = " "), ""))
}

# Returns the adjacent pairs that have no edge in common in the outlines.
pairs_without_edge <- function() {
  rows <- read.delim(data_file("borders_without_an_edge.txt"), sep = "|", colClasses = "character")
  rows[c(2, 4)]
}
