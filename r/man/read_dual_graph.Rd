\name{read_dual_graph}
\alias{read_dual_graph}
\title{The dual graph of a JSON file}
\description{
Reads a graph of counties or of precincts in JSON, as GerryChain and \code{networkx} store it, by the
package \code{jsonlite}.
}
\usage{
read_dual_graph(path)
}
\arguments{
\item{path}{the path of the file: nodes with their neighbours, or nodes with links}
}
\value{
A list of \code{nodes}, a data frame with the attributes that have one value for each node, and of
\code{adjacency}, a list of the neighbours of each node by place, as \code{spdep} has it. For a graph
of counties both serve \code{\link{county_groups}}, which also takes the path. For one of precincts
they serve \code{\link{county_pairs}} and \code{\link{audit_plan}}.
}
\examples{
path <- tempfile()
writeLines('{"nodes": [{"id": 7, "TOTPOP": 50}, {"id": 9, "TOTPOP": 40}],
             "adjacency": [[{"id": 9}], [{"id": 7}]]}', path)
if (requireNamespace("jsonlite", quietly = TRUE)) read_dual_graph(path)$nodes
}
