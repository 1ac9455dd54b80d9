\name{best_groupings}
\alias{best_groupings}
\alias{best_grouping}
\alias{grouping_number}
\title{All best groupings}
\description{
Lists all best groupings by one call of the program, gives the one of a number, or tells the number
of a grouping.
}
\usage{
best_groupings(answer)

best_grouping(answer, number)

grouping_number(answer, groups)
}
\arguments{
\item{answer}{an answer of \code{\link{county_groups}} whose outcome is \code{"best"}; else the error
has the class \code{countygroups_no_grouping}}
\item{number}{a number from 1, as the program numbers its list}
\item{groups}{a data frame of groups with the list column \code{counties}; the seats don't count}
}
\value{
\code{best_groupings} returns a list that is printed as a summary, of:
\item{number}{how many best groupings there are}
\item{shared}{the groups of all of them: a data frame with \code{least_seats}, \code{most_seats},
\code{people} and the labels as a list, \code{counties}. The two numbers of seats are nearly always
the same.}
\item{regions}{for each region its \code{counties} and its \code{alternatives}, each a data frame of
groups}
\item{groupings}{the groups of each, in the order of their numbers, as \code{county_groups} has them}
\code{best_grouping} returns the groups of one as \code{county_groups} does, and
\code{grouping_number} its number, or \code{NA} if none has these groups.
}
\seealso{\code{\link{as_sf}}, which takes the number of a grouping, too}
