# Runs a program so that nothing of it is left if R is ended.

# Runs the words behind the first two: its working folder, and where standard error goes, a file or
# `-` for that of R. Standard input is a pipe that R holds open. Whatever ends R, the pipe ends with
# it: then the program is killed and the folder is removed.
watched_script <- '
folder=$1
errors=$2
shift 2
cd "$folder" || exit 1
exec 3<&0
if [ "$errors" != - ]; then exec 2>"$errors"; fi
"$@" </dev/null >output.txt 3<&- &
program=$!
{
    cat <&3
    trap "" TERM
    kill -s KILL "$program"
    cd /
    rm -rf -- "$folder"
} >/dev/null 2>&1 &
watcher=$!
exec 3<&-
wait "$program"
echo $? >status.part
kill "$watcher" 2>/dev/null
mv status.part status.txt
'

# Runs a program in `folder`, and returns its `status` and the lines that it wrote: `output` and
# `messages`. Stops with an error of the class `countygroups_time_limit` if it takes longer than
# `timeout` seconds, which may be `Inf`. An interrupt ends the program, too.
run_in <- function(folder, program, words, progress, timeout = Inf) {
  if (.Platform$OS.type == "windows") return(run_unwatched(folder, program, words, progress))
  errors <- if (progress) "-" else "messages.txt"
  parts <- c("sh", "-c", watched_script, "countygroups", folder, errors, program, words)
  # (`exec` takes the place of the shell that R starts)
  connection <- pipe(paste("exec", paste(shQuote(parts), collapse = " ")), open = "w")
  on.exit(close(connection))
  wait_for(file.path(folder, "status.txt"), timeout)
  list(
    status = as.integer(lines_of(file.path(folder, "status.txt"))),
    output = lines_of(file.path(folder, "output.txt")),
    messages = lines_of(file.path(folder, "messages.txt"))
  )
}

# Waits until there is a file, and stops if that takes longer than `timeout` seconds.
wait_for <- function(path, timeout) {
  ends_at <- proc.time()[["elapsed"]] + timeout
  pause <- 0.005
  while (!file.exists(path)) {
    if (proc.time()[["elapsed"]] > ends_at) {
      told <- paste0("There is no answer after ", timeout, " seconds, so the program was ended.")
      stop_with("countygroups_time_limit", told)
    }
    Sys.sleep(pause)
    pause <- min(0.1, pause * 1.5)
  }
}

# Runs a program where there is no shell of Unix.
run_unwatched <- function(folder, program, words, progress) {
  here <- setwd(folder)
  on.exit(setwd(here))
  errors <- if (progress) "" else "messages.txt"
  arguments <- shQuote(c(program[-1], words), type = "cmd")
  ended <- suppressWarnings(
    system2(program[1], arguments, stdout = "output.txt", stderr = errors)
  )
  list(status = ended, output = lines_of("output.txt"), messages = lines_of("messages.txt"))
}

# Returns the lines of a file, or none if there is no file.
lines_of <- function(path) {
  if (!file.exists(path)) return(character())
  readLines(path, warn = FALSE, encoding = "UTF-8")
}
