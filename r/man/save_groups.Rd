\name{save_groups}
\alias{save_groups}
\title{Save a problem with its certificate}
\description{
Writes the files of the problem, the certificate and the grouping to a folder. With them anybody can
check the certificate: \code{README.txt} has the command, and \code{labels.csv} has the label of each
code.
}
\usage{
save_groups(answer, folder)
}
\arguments{
\item{answer}{an answer of \code{\link{county_groups}}}
\item{folder}{the folder, which is made if it isn't there}
}
\value{
The folder, invisibly.
}
