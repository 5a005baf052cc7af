# The games, as documents of the program.

table_game <- function(v, names = NULL, costs = FALSE, digits = 0, per_head = FALSE) {
  n <- log2(length(v) + 1)
  if (n != round(n) || n < 1 || n > 16) stop("a vector has 2^n - 1 numbers, n from 1 to 16, without the empty group")
  if (any(grepl("+", base::names(v), fixed = TRUE))) stop("names of groups aren't read: give unname(v), by size")
  fields <- sprintf('"players":%d,"worths":%s', n, array_of(numbers_of(v[by_mask(n)], digits)))
  game_of(if (costs) "cost-table" else "table", fields, n, names, per_head, costs)
}

airport_game <- function(costs, names = base::names(costs), digits = 0, per_head = FALSE)
  game_of("airport", paste0('"costs":', array_of(numbers_of(costs, digits))), length(costs), names, per_head, TRUE)

bankruptcy_game <- function(estate, claims, names = base::names(claims), digits = 0, per_head = FALSE) {
  fields <- sprintf('"estate":%s,"claims":%s', numbers_of(estate, digits), array_of(numbers_of(claims, digits)))
  game_of("bankruptcy", fields, length(claims), names, per_head)
}

tree_game <- function(matrix, names = NULL, digits = 0, per_head = FALSE)
  game_of("tree", matrix_of(matrix, digits), nrow(matrix) - 1, names, per_head, TRUE)

assignment_game <- function(matrix, names = NULL, digits = 0, per_head = FALSE)
  game_of("assignment", matrix_of(matrix, digits), sum(dim(matrix)), names, per_head)

market_game <- function(matrix, names = NULL, digits = 0)
  game_of("market", matrix_of(matrix, digits), sum(dim(matrix)), names, FALSE)

voting_game <- function(quota, weights, names = base::names(weights), per_head = FALSE) {
  fields <- sprintf('"quota":%s,"weights":%s', numbers_of(quota, 0), array_of(numbers_of(weights, 0)))
  game_of("voting", fields, length(weights), names, per_head)
}

game_of <- function(class, fields, n, names, per_head, costs = FALSE) {
  if (!is.null(names) && length(names) != n) stop(length(names), " names for ", n, " players")
  called <- if (is.null(names)) "" else sprintf(',"names":%s', array_of(vapply(names, quoted, "")))
  text <- sprintf('{"class":"%s"%s%s%s,%s}', class, if (per_head) ',"excess":"per-head"' else "", called,
                  if (grepl('"-?[0-9]+/', fields)) ',"version":2' else "", fields)
  structure(list(text = text, names = if (is.null(names)) as.character(seq_len(n)) else unname(names), costs = costs),
            class = "coop_game")
}

print.coop_game <- function(x, ...) {
  cat("A game of ", length(x$names), " players: ", paste(x$names, collapse = ", "), "\n", x$text, "\n", sep = "")
  invisible(x)
}

# What is given for a game is a game, or a vector by size with the arguments of table_game.
as_game <- function(game, ...) if (inherits(game, "coop_game")) game else table_game(game, ...)

# Where the groups by size, 1, 2, 3, 12, 13, 23, 123, stand in the order of the program, by sums of 2^(i - 1).
by_mask <- function(n) {
  key <- as.character(n)
  if (is.null(orders[[key]]))
    orders[[key]] <- order(unlist(lapply(seq_len(n), function(k) utils::combn(n, k, function(group) sum(2^(group - 1))))))
  orders[[key]]
}

orders <- new.env()

array_of <- function(texts) paste0("[", paste(texts, collapse = ","), "]")

matrix_of <- function(matrix, digits) {
  if (!is.matrix(matrix)) stop("a matrix is wanted")
  rows <- apply(matrix, 1, function(row) array_of(numbers_of(row, digits)))
  paste0('"matrix":', array_of(rows))
}

# Numbers as the program reads them: whole, or fractions as texts, by which it knows them exactly.
numbers_of <- function(x, digits) {
  if (is.character(x)) return(vapply(x, fraction_of, "", USE.NAMES = FALSE))
  if (!is.numeric(x)) stop("numbers are numeric, or texts such as \"25/2\"")
  if (digits != round(digits) || digits < 0 || digits > 4) stop("digits is from 0 to 4; or give texts, such as \"1/3\"")
  scaled <- x * 10^digits
  if (any(!is.finite(scaled)) || any(abs(scaled) >= 2^40)) stop("numbers are finite and below 2^40 in size")
  if (digits == 0 && any(scaled != round(scaled))) stop("numbers are whole; or name their digits: digits = 2")
  ratios(round(scaled), rep(10^digits, length(scaled)))
}

# The texts of numbers by their parts, each whole and below 2^53.
ratios <- function(up, down) {
  divisor <- gcd(abs(up), down)
  parts <- list(whole(up / divisor), whole(down / divisor))
  ifelse(down == divisor, parts[[1]], sprintf('"%s/%s"', parts[[1]], parts[[2]]))
}

whole <- function(x) sprintf("%.0f", x)

gcd <- function(a, b) {
  while (any(b > 0)) {
    rest <- ifelse(b > 0, a %% b, 0)
    a <- ifelse(b > 0, b, a)
    b <- rest
  }
  a
}

# "7", "-12.50" or "25/2".
fraction_of <- function(text) {
  parts <- regmatches(text, regexec("^ *([+-]?)([0-9]+)(\\.([0-9]+)|/([0-9]+))? *$", text))[[1]]
  if (!length(parts)) stop("\"", text, "\" is no number")
  down <- if (nzchar(parts[6])) as.numeric(parts[6]) else 10^nchar(parts[5])
  up <- as.numeric(paste0(parts[3], parts[5]))
  if (down == 0 || up >= 2^53 || down >= 2^53) stop("\"", text, "\" has a part that is 0 or above 2^53")
  ratios(if (parts[2] == "-") -up else up, down)
}

quoted <- function(text) {
  if (grepl("[[:cntrl:]]", text)) stop("a name has a character that controls others")
  paste0('"', gsub('(["\\\\])', "\\\\\\1", enc2utf8(text)), '"')
}
