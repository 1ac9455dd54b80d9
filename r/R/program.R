# Finds the program and runs it.

native_program <- "countygroups-x86_64-linux"
program_by_node <- "countygroups.mjs"

# Returns the words by which the program is started. `man/find_program.Rd` says where it is looked
# for.
find_program <- function(program = NULL) {
  named <- if (is.null(program)) Sys.getenv("COUNTYGROUPS") else program
  if (nzchar(named)) {
    path <- unname(Sys.which(named))
    if (!nzchar(path) && file.exists(named)) path <- named
    if (!nzchar(path)) stop_no_program("There is no program ", named, ".")
    return(started(path))
  }
  system <- Sys.info()[c("sysname", "machine")]
  is_linux <- identical(unname(system), c("Linux", "x86_64"))
  names <- c(if (is_linux) native_program, program_by_node)
  folders <- c(system.file("bin", package = "countygroups"), "dist")
  near <- file.path(rep(folders[nzchar(folders)], each = length(names)), names)
  on_path <- unname(Sys.which("countygroups"))
  found <- c(near[file.exists(near)], on_path[nzchar(on_path)])
  if (length(found) > 0) return(started(found[1]))
  stop_no_program(
    "There is no program in this package, in dist/ of the working folder or on the path: ",
    "COUNTYGROUPS in the environment, or `program =`, names one."
  )
}

# Returns the words by which a program is started: one whose name ends in .mjs by Node.
started <- function(path) {
  path <- normalizePath(path)
  if (!grepl("\\.mjs$", path)) return(path)
  node <- unname(Sys.which("node"))
  if (!nzchar(node)) {
    stop_no_program(path, " needs Node 20 or later, and there is no `node` on the path.")
  }
  c(node, path)
}

# Runs a command over a problem in a folder of its own, with a certificate if given.
#
# `given` has the lines of more files by their names, and `timeout` bounds the run in seconds.
# Returns `status`, `output` and `messages`, and the lines of the files that were stored as
# `certificate` and `groupings`. If `progress`, standard error stays that of R, where the program
# shows its progress if it is a terminal. Stops with the program's words if it gives no answer.
run_program <- function(problem, command, words, given = list(), progress = FALSE, timeout = Inf) {
  room <- tempfile("countygroups")
  dir.create(room)
  on.exit(unlink(room, recursive = TRUE))
  write_problem(problem, room)
  for (name in names(given)) write_lines(given[[name]], room, name)
  whole <- c(command, problem_words(problem, command), words)
  run <- run_in(room, problem$program, whole, progress, timeout)
  is_answer <- run$status %in% c(0, 1, 3) && has_answer(command, run$output)
  if (!is_answer) stop_program(run, problem$codes)
  warn_program(run$messages, problem$codes)
  run$certificate <- lines_of(file.path(room, "certificate.txt"))
  run$groupings <- file.path(room, "groupings.csv")
  if (file.exists(run$groupings)) {
    run$groupings <- utils::read.csv(run$groupings, colClasses = "character")
  }
  run
}
