# The errors of this package, as conditions with classes.

# Stops with a sentence that says why what was given can't be used.
stop_input <- function(...) {
  stop_with("countygroups_input_error", paste0(...))
}

# Stops with a sentence that says where the program was looked for.
stop_no_program <- function(...) {
  stop_with("countygroups_no_program", paste0(...))
}

# Stops with a condition of `class`, which is a `countygroups_error`, too.
stop_with <- function(class, message, ...) {
  classes <- c(class, "countygroups_error", "error", "condition")
  stop(structure(list(message = message, call = NULL, ...), class = classes))
}

# Warns of what may be wrong though there is an answer.
warn_user <- function(...) {
  classes <- c("countygroups_warning", "warning", "condition")
  warning(structure(list(message = paste0(...), call = NULL), class = classes))
}

# Warns of what the program warned of, with the labels of its codes. The package itself has warned
# of counties without any border.
warn_program <- function(messages, codes) {
  sign <- "countygroups: warning: "
  told <- substring(messages[startsWith(messages, sign)], nchar(sign) + 1)
  for (one in told[!startsWith(told, "--adjacency ")]) {
    one <- sub("^--([a-z]+) [a-z]+\\.txt:? ", "\\1: ", one)
    legend <- legend_of(codes, one)
    warn_user(one, if (length(legend) > 0) paste0(" (", paste(legend, collapse = ", "), ")"))
  }
}

# Stops with the words of the program where it gave no answer. `run` has `status`, `output` and
# `messages`. If codes stand for other labels, a line for each code of these words follows.
stop_program <- function(run, codes) {
  line <- paste(run$output, collapse = "\n")
  words <- c(run$output, run$messages)
  told <- c(words, legend_of(codes, words))
  if (length(told) == 0) told <- paste("the program ended with", run$status)
  is_no_certificate <- run$status == 1 && startsWith(line, "no ")
  kind <- c(if (is_no_certificate) "countygroups_certificate_error", "countygroups_program_error")
  stop_with(kind, paste(told, collapse = "\n"),
    status = run$status, line = line, messages = run$messages
  )
}
