\name{audit_plan}
\alias{audit_plan}
\title{Audit a plan of districts}
\description{
Tells what a plan has against the groups of an answer, their seats, and the bounds of a district.
}
\usage{
audit_plan(answer, plan, counties, people, number = NULL)
}
\arguments{
\item{answer}{an answer of \code{\link{county_groups}} with a grouping}
\item{plan}{the district of each precinct, or \code{NA}; blocks do as well. Its names, if it has any,
name the precincts. Of a path, a table or what Districtr's JSON has, an error says how to take the
districts.}
\item{counties}{the county of each precinct: its label, or of a GEOID the last three digits}
\item{people}{the people of each precinct. Those of a county have to be the county's.}
\item{number}{the number of a best grouping, from 1; the answer's own grouping if nothing is said}
}
\value{
A data frame with a row for each finding: \code{kind} is the program's word (\code{"Crosses"},
\code{"WrongNumber"}, \code{"DistrictSize"}, \code{"Unassigned"} or \code{"Grouping"}), and
\code{told} its line.
}
