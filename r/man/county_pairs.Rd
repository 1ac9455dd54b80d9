\name{county_pairs}
\alias{county_pairs}
\title{Which counties are adjacent by their precincts}
\description{
Gives the pairs of counties of which precincts are adjacent.
}
\usage{
county_pairs(adjacency, counties)
}
\arguments{
\item{adjacency}{a list of the neighbours of each precinct, as \code{redist} has it (places from 0) or
\code{sf} and \code{spdep} have it (places from 1)}
\item{counties}{the county of each precinct}
}
\value{
A data frame with a row for each pair: \code{county} and \code{neighbour}.
}
