\name{read_census}
\alias{read_census}
\title{People and names from Census files}
\description{
Reads the counties of the PL 94-171 legacy files of the Census Bureau, of 2020 (fields at pipes) or of
2010 (fixed columns, and commas).
}
\usage{
read_census(geo, segment)
}
\arguments{
\item{geo}{the path of the geographic header, unzipped or packed by gzip}
\item{segment}{the path of segment 1, unzipped or packed by gzip}
}
\value{
A data frame with \code{GEOID}, \code{NAME} and \code{people} of each county, for
\code{\link{county_groups}}.
}
