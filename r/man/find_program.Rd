\name{find_program}
\alias{find_program}
\title{Which program is run}
\description{
Finds the program: the one that is given, that of the variable \code{COUNTYGROUPS} of the
environment, that inside this package, that of \code{dist/} in the working folder, or
\code{countygroups} on the path.
}
\usage{
find_program(program = NULL)
}
\arguments{
\item{program}{the path of the program. If it ends in \code{.mjs}, Node starts it.}
}
\value{
The words by which the program is started. If there is none, the error has the class
\code{countygroups_no_program}.
}
