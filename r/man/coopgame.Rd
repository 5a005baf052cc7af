\name{shapleyValue}
\alias{shapleyValue}
\alias{isConvexGame}
\alias{isBalancedGame}
\alias{belongsToCore}
\alias{belongsToPrekernel}
\title{The same by the names of CoopGame}
\description{Calls for scripts that were written for the package CoopGame: its names, and its order of arguments.
\code{\link{nucleolus}} and \code{\link{prenucleolus}} have them already.}
\usage{
shapleyValue(v, ...)
isConvexGame(v, ...)
isBalancedGame(v, ...)
belongsToCore(x, v, ...)
belongsToPrekernel(x, v, ...)
}
\arguments{
  \item{v}{a game, or a vector of worths by size, as in \code{\link{nucleolus}}.}
  \item{x}{shares, as in \code{\link{propose}}.}
  \item{...}{the further arguments of \code{\link{shapley}}, \code{\link{convex}}, \code{\link{core}},
    \code{\link{propose}} or \code{\link{kernel}}.}
}
\value{\code{shapleyValue}: the shares. The others: true or false. A game is balanced if its core isn't empty.}
\examples{
shapleyValue(c(0, 0, 0, 6, 2, 2, 12))
belongsToCore(c(5, 5, 2), c(0, 0, 0, 6, 2, 2, 12))
}
