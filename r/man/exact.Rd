\name{exact}
\alias{exact}
\alias{holds}
\title{The exact fractions, and whether an answer is positive}
\description{What an answer of \code{\link{nucleolus}} or \code{\link{propose}} has beside its numbers.}
\usage{
exact(x)
holds(x)
}
\arguments{
  \item{x}{an answer.}
}
\value{\code{exact}: texts such as \code{"9/2"}, by the names of the players; \code{NULL} of shares that were
changed or computed with. \code{holds}: true or false.}
\examples{
exact(nucleolus(c(0, 0, 0, 6, 2, 2, 12)))
}
