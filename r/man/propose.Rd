\name{propose}
\alias{propose}
\alias{kernel}
\alias{convex}
\alias{matching}
\alias{check}
\title{Questions about a game or about shares}
\description{Whether shares are in the core or in the prekernel, whether a game is convex, whether a certificate proves
its shares, and the best matching of a market.}
\usage{
propose(game, shares, ..., share_digits = 4)
kernel(game, shares, ..., share_digits = 4)
convex(game, ...)
matching(game, ...)
check(answer)
}
\arguments{
  \item{game}{a game, or a vector by size, as in \code{\link{nucleolus}}.}
  \item{shares}{an answer, whose exact fractions are taken; texts such as \code{"9/2"}; or numbers. Those with names are
  the shares of these players of a game with names, in whatever order.}
  \item{...}{for a vector, the further arguments of \code{\link{table_game}}.}
  \item{share_digits}{to how many decimals shares that are numbers are rounded.}
  \item{answer}{the answer of \code{nucleolus} or \code{prenucleolus}, or its line.}
}
\value{A list of class \code{coop_answer} with the fields of the program's line, such as \code{answer},
\code{coalition} and \code{excess}. \code{\link{holds}} says whether it is the positive answer.}
\examples{
three <- c(0, 0, 0, 6, 2, 2, 12)
holds(check(nucleolus(three)))
propose(three, c(1, 10.5, 0.5))$coalition
matching(market_game(matrix(c(3, 2, 1, 2), 2)))$value
}
