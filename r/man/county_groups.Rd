\name{county_groups}
\alias{county_groups}
\alias{print.county_groups}
\title{Find the best grouping of counties}
\description{
Finds the best grouping of counties for a chamber under \emph{Stephenson v. Bartlett}, with its
certificate, by the program \code{countygroups}.
}
\usage{
county_groups(counties, seats, people = NULL, adjacency = NULL, added = NULL,
              cut = NULL, withdrawn = NULL, tolerance = NULL, label = NULL,
              name = NULL, steps = NULL, timeout = Inf, progress = interactive(),
              program = NULL)

\method{print}{county_groups}(x, ...)
}
\arguments{
\item{counties}{an \code{sf} object, a data frame, people by label as a named vector, or the path of
JSON: rows of the Census Bureau's API, or a dual graph, whose edges are then the borders if nothing is
said (\code{\link{read_dual_graph}})}
\item{seats}{the number of seats of the chamber, 1 to 1000}
\item{people}{the column of people, or people by label as a named vector; \code{"people"} if nothing
is said}
\item{adjacency}{\code{"edges"} (shapes with an edge in common), \code{"points"} (also those that
touch in a point), the path of a file in the layout of the Census Bureau's county adjacency file, the
path of a dual graph in JSON whose nodes have the labels or GEOIDs of the counties, a matrix or data frame of two columns of labels, a square matrix with a row for each county, a graph of
\code{igraph}, a list of neighbours by label, or a list of neighbours by place as \code{sf},
\code{spdep} and \code{redist} have them. If nothing is said, counties of North Carolina have the list
of this package (see \code{\link{borders_source}}), and other shapes their common edges.}
\item{added, cut}{pairs of labels that are then added and cut: two columns}
\item{withdrawn}{a list of the sets that are taken out beforehand, each \code{list(labels, seats)}}
\item{tolerance}{how much of the ideal population a district may miss; 0.05 if nothing is said. It
may be a text, too: \code{"4\%"}, \code{"0.04"} and \code{"1/25"} are the same as \code{0.04}. It has to
be a fraction of at most 500 over at most 1000.}
\item{label}{the column that labels counties. If nothing is said, it is the first of \code{"GEOID"},
\code{"GEOID20"}, \code{"GEOID10"}, \code{"GEO_ID"} and \code{"FIPS"} that is there, or the codes of
\code{"STATEFP"} and \code{"COUNTYFP"} or of \code{"state"} and \code{"county"}, or the row names.
Labels that aren't GEOIDs of one state get codes for the program, and come back as labels.}
\item{name}{the column of names for people to read; \code{"NAME"} where it is there, else the labels}
\item{steps}{the most steps of the search; the program has 10,000,000}
\item{timeout}{the most seconds of the search; then the error has the class
\code{countygroups_time_limit}}
\item{progress}{whether the program's lines for a person go to the terminal, with its progress once a
second. If not, they are kept as \code{messages}.}
\item{program}{the path of the program; see \code{\link{find_program}}}
\item{x}{an answer}
\item{...}{nothing}
}
\details{
A message says which adjacency was taken. Shapes are compared in the plane of their coordinates.
Shapes that were simplified one by one have lost their common edges, and shapes don't meet over
water. So a warning of the class \code{countygroups_warning} names each pair in which shapes of North
Carolina differ from the list of this package, and says of other shapes what they can't show. What
the program warns of comes as such a warning, too.

The law bounds a district by the ideal population of the chamber, and not by the mean of its group.

If something can't be used, the error has the class \code{countygroups_input_error}. If the program
gives no answer, the error has its words, with \code{status}, \code{line} and \code{messages}, and
the class \code{countygroups_program_error}. Both are \code{countygroups_error}.
}
\value{
An answer of the class \code{county_groups}, a list of:
\item{outcome}{\code{"best"} if no lawful grouping is greater, \code{"impossible"} if none is lawful,
and \code{"open"} if the steps ran out}
\item{counts}{how many groups have one county, two, and so on}
\item{groups}{a data frame with \code{seats}, \code{people} and the labels as a list,
\code{counties}}
\item{certificate}{the lines of the text that proves the outcome, or \code{NULL}}
\item{adjacency}{the pairs that count, and their source in words}
\item{messages}{what the program told a person}
\item{ideal}{the ideal population of a district: the chamber's people over its seats}
\item{district_bounds}{the least and the greatest number of people that a district may have}
\item{problem}{what was asked}
}
\section{North Carolina's Senate}{
These lines were run from the top of the repository. They draw the picture.
\preformatted{
data <- "data/nc2020"
census <- read_census(file.path(data, "nc2020geo.pl"), file.path(data, "nc000012020.pl"))
outlines <- sf::st_read(file.path(data, "county_outlines.geojson"), quiet = TRUE)
counties <- merge(outlines, census[c("GEOID", "people")])
senate <- county_groups(counties, seats = 50)
best_groupings(senate)$number   # 16, as published
plot(senate)
}
\if{html}{\figure{senate.png}{options: width=760 alt="Carolina's Senate: 50 seats in 26 groups"}}
\if{latex}{\figure{senate.png}{options: width=12cm}}
}
\examples{
people <- c(Alder = 50, Birch = 50, Cedar = 100, Dogwood = 200)
pairs <- rbind(c("Alder", "Birch"), c("Birch", "Cedar"), c("Cedar", "Dogwood"))
if (!inherits(try(find_program(), silent = TRUE), "try-error")) {
  answer <- county_groups(people, seats = 4, adjacency = pairs)
  print(answer)
  check_certificate(answer)$outcome
}
}
\seealso{\code{\link{best_groupings}}, \code{\link{as_sf}}, \code{\link{check_certificate}}}
