\name{borders_source}
\alias{borders_source}
\title{Where the border list of North Carolina comes from}
\description{
Tells where the list comes from that the package carries and \code{\link{county_groups}} takes for
counties of North Carolina. It isn't the Census Bureau's file.
}
\usage{
borders_source()
}
\value{
Lines of words.
}
