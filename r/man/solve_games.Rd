\name{solve_games}
\alias{solve_games}
\title{Many games}
\description{The shares of each game of a list.}
\usage{
solve_games(command, games, ...)
}
\arguments{
  \item{command}{\code{"nucleolus"}, \code{"prenucleolus"}, \code{"shapley"}, \code{"core"} or \code{"bird"}.}
  \item{games}{a list of games or of vectors by size.}
  \item{...}{for vectors, the further arguments of \code{\link{table_game}}.}
}
\value{A list of class \code{coop_many}. A game without an answer has a vector of \code{NA}, with the reason as its
attribute \code{why}. \code{as.data.frame} gives a row for each game and a column for each player, beside \code{why}.}
\examples{
as.data.frame(solve_games("nucleolus", list(c(0, 0, 4), c(1, 1, 1))))
}
