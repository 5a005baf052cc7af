\name{table_game}
\alias{table_game}
\alias{airport_game}
\alias{bankruptcy_game}
\alias{tree_game}
\alias{assignment_game}
\alias{market_game}
\alias{voting_game}
\title{Games}
\description{Games for \code{\link{nucleolus}} and the other questions.}
\usage{
table_game(v, names = NULL, costs = FALSE, digits = 0, per_head = FALSE)
airport_game(costs, names = base::names(costs), digits = 0, per_head = FALSE)
bankruptcy_game(estate, claims, names = base::names(claims), digits = 0, per_head = FALSE)
tree_game(matrix, names = NULL, digits = 0, per_head = FALSE)
assignment_game(matrix, names = NULL, digits = 0, per_head = FALSE)
market_game(matrix, names = NULL, digits = 0)
voting_game(quota, weights, names = base::names(weights), per_head = FALSE)
}
\arguments{
  \item{v}{the worths of all groups by size: 1, 2, 3, 12, 13, 23, 123, as in the packages CoopGame and GameTheory.}
  \item{names}{the names of the players.}
  \item{costs}{whether the numbers of a table are costs; of an airport, what each landing needs alone.}
  \item{digits}{to how many decimals numbers are rounded, from 0 to 4. Without it they have to be whole. Texts, such as
    \code{"25/2"} or \code{"12.50"}, are taken as they are.}
  \item{per_head}{whether the excess of a group is divided by the number of its members.}
  \item{estate, claims}{an estate, and the claim of each player.}
  \item{matrix}{the cost of the link between each two points, the source first; or what each buyer (a row) and each
    seller are worth together.}
  \item{quota, weights}{how many votes win, and the votes of each player.}
}
\value{An object of class \code{coop_game}.}
\examples{
airport_game(c(light = 2, medium = 4, heavy = 6))
nucleolus(bankruptcy_game(200, c(100, 200, 300)))
}
