\name{group_margins}
\alias{group_margins}
\title{How many people a group may lose or gain}
\description{
Tells for each group how many people fewer, and how many more, it may have for its seats. The ideal
population is taken as it is.
}
\usage{
group_margins(answer, number = NULL)
}
\arguments{
\item{answer}{an answer of \code{\link{county_groups}} with a grouping; else the error has the class
\code{countygroups_no_grouping}}
\item{number}{the number of a best grouping, from 1; the answer's own grouping if nothing is said}
}
\value{
A data frame with \code{fewer} and \code{more}, and a row for each group in its order.
}
