\name{nucleolus}
\alias{nucleolus}
\alias{prenucleolus}
\alias{shapley}
\alias{bird}
\alias{core}
\title{Exact shares of a cooperative game}
\description{The nucleolus, the prenucleolus, the Shapley value, Bird's shares of a tree game, and a point of the core.}
\usage{
nucleolus(game, ...)
prenucleolus(game, ...)
shapley(game, ...)
bird(game, ...)
core(game, ...)
}
\arguments{
  \item{game}{a game (\code{\link{table_game}}), or a vector of worths by size: 1, 2, 3, 12, 13, 23, 123.}
  \item{...}{for a vector, the further arguments of \code{\link{table_game}}.}
}
\value{
A numeric vector of class \code{coop_shares}, by the names of the players. \code{\link{exact}} gives the exact fractions
as texts, and \code{as.data.frame} a row for each player with both. Its attribute \code{line} is what the program printed, with the certificate of a nucleolus.

If the core is empty, \code{core} returns a list of class \code{coop_answer} that says why. All other outcomes are errors
of class \code{coop_no_answer}, with \code{status} and \code{line}.
}
\examples{
nucleolus(c(0, 0, 0, 6, 2, 2, 12), names = c("Ann", "Bob", "Cem"))
exact(shapley(c(0.25, 1.5, 3.1), digits = 2))
core(c(0, 0, 0, 6, 2, 2, 3))
bird(tree_game(matrix(c(0, 1, 2, 1, 0, 1, 2, 1, 0), 3)))
}
