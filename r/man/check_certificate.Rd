\name{check_certificate}
\alias{check_certificate}
\title{Check a certificate}
\description{
Lets the program check a certificate of a problem, whoever wrote it.
}
\usage{
check_certificate(answer, certificate = answer$certificate)
}
\arguments{
\item{answer}{an answer of \code{\link{county_groups}}, which has the problem}
\item{certificate}{the lines of a certificate; those of the answer if nothing is said}
}
\value{
What the certificate proves, as an answer: its \code{outcome} is \code{"best"} or
\code{"impossible"}. If the text is no certificate of the problem, the error has the program's words
and the class \code{countygroups_certificate_error}.
}
