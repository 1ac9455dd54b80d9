# Runs the R of README.md as it stands, and compares what it prints.

source("setting.R")

# Returns the blocks of a document: their code, and what they print.
blocks_of <- function(path) {
  text <- paste0("\n", paste(readLines(path, encoding = "UTF-8"), collapse = "\n"), "\n")
  pattern <- "(?s)\n```r\n(.*?)\n```\n(?:\n```text\n(.*?)\n```\n)?"
  found <- gregexpr(pattern, text, perl = TRUE)[[1]]
  starts <- attr(found, "capture.start")
  lengths <- attr(found, "capture.length")
  lapply(seq_along(found), function(place) {
    parts <- substring(text, starts[place, ], starts[place, ] + lengths[place, ] - 1)
    list(code = parts[1], printed = strsplit(parts[2], "\n", fixed = TRUE)[[1]])
  })
}

# Runs the blocks of a document one after the other in a folder that has the data.
run_document <- function(name) {
  top <- normalizePath(file.path(data, "..", ".."))
  blocks <- blocks_of(file.path(top, name))
  room <- tempfile()
  dir.create(room)
  file.symlink(file.path(top, "data"), file.path(room, "data"))
  here <- setwd(room)
  on.exit(setwd(here))
  names <- new.env()
  for (block in blocks) {
    code <- textConnection(block$code)
    printed <- utils::capture.output(suppressMessages(
      source(code, local = names, echo = FALSE, print.eval = TRUE)
    ))
    close(code)
    expect_equal(printed, block$printed)
  }
  expect_equal(length(blocks) >= 3, TRUE)
}

if (has_program && nzchar(data)) {
  test("README.md", run_document("r/README.md"))
  if (!requireNamespace("redist", quietly = TRUE)) {
    cat("redist isn't installed: its calls are those of redist_stand_in.R\n")
    stand_in <- new.env()
    source("redist_stand_in.R", local = stand_in)
    library <- function(package) {
      name <- as.character(substitute(package))
      if (name == "redist") attach(stand_in) else base::library(name, character.only = TRUE)
    }
  }
  test("redist.md", run_document("r/redist.md"))
}
