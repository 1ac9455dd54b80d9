\name{seat_sizes}
\alias{seat_sizes}
\title{How many seats each county's people suit}
\description{
Tells for each county how many seats its people suit, by the program.
}
\usage{
seat_sizes(counties, seats, people = NULL, tolerance = NULL, label = NULL, name = NULL,
           program = NULL)
}
\arguments{
\item{counties, seats, people, tolerance, label, name, program}{as in \code{\link{county_groups}}}
}
\value{
A data frame with \code{label}, \code{people}, \code{least_seats} and \code{most_seats}, which are
\code{NA} if the county needs others.
}
