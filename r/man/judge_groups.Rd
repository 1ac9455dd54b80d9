\name{judge_groups}
\alias{judge_groups}
\title{Judge a grouping}
\description{
Tells whether a grouping is lawful, and by the certificate of an answer whether it is best.
}
\usage{
judge_groups(answer, groups)
}
\arguments{
\item{answer}{an answer of \code{\link{county_groups}}, whose problem and certificate count}
\item{groups}{a data frame with \code{seats} and the labels as a list, \code{counties}}
}
\value{
A list of \code{outcome}, which is \code{"best"}, \code{"lawful"} or \code{"fault"}, the
\code{fault}, \code{messages} with its reasons, and \code{greater}. If the answer's best grouping has
greater counts than a lawful grouping, \code{greater} has these counts: by place, how many groups of
1, 2, .. counties it has. Else it is empty.
}
