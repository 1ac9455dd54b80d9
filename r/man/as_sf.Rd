\name{as_sf}
\alias{as_sf}
\alias{as_sf.county_groups}
\alias{as.data.frame.county_groups}
\alias{plot.county_groups}
\alias{tidy.county_groups}
\title{Tables and maps of an answer}
\description{
Gives a row for each county with its group, with or without shapes, or draws the groups.
}
\usage{
as_sf(answer, ...)

\method{as_sf}{county_groups}(answer, number = NULL, shapes = NULL, ...)

\method{as.data.frame}{county_groups}(x, row.names = NULL, optional = FALSE, number = NULL, ...)

\method{tidy}{county_groups}(x, number = NULL, ...)

\method{plot}{county_groups}(x, number = NULL, shapes = NULL, main = NULL, ...)
}
\arguments{
\item{answer, x}{an answer of \code{\link{county_groups}} with a grouping; else the error has the
class \code{countygroups_no_grouping}}
\item{number}{the number of a best grouping, from 1; the answer's own grouping if nothing is said}
\item{shapes}{the shapes in the order of the counties, an \code{sfc}; it may be left out if the
counties came as an \code{sf} object}
\item{main}{the title of the map}
\item{row.names}{the names of the rows}
\item{optional}{nothing}
\item{...}{for \code{plot}: handed to the plot of the shapes}
}
\value{
A copy of the \code{sf} object that was given, or a data frame, with these columns: \code{GROUP}
(a number from 1 on; if sets are withdrawn, the texts \code{"1"} on for groups and \code{"W1"} on for
these sets), \code{SEATS} and \code{GROUP_POPULATION} of the group, and \code{COLOUR}, a number from 0
on that differs for adjacent groups. If the \code{sf} object has a column of such a name, that column
stays, and the new one is called \code{COUNTYGROUPS_GROUP} and so on. \code{plot} returns it
invisibly. \code{tidy} of the package \code{generics} gives the data frame, too.
}
