# What the program answers.

nucleolus <- function(game, ...) shares_or_stop("nucleolus", as_game(game, ...))
prenucleolus <- function(game, ...) shares_or_stop("prenucleolus", as_game(game, ...))
shapley <- function(game, ...) shares_or_stop("shapley", as_game(game, ...))
bird <- function(game, ...) shares_or_stop("bird", as_game(game, ...))
core <- function(game, ...) answer_or_stop("core", as_game(game, ...))
convex <- function(game, ...) answer_or_stop("convex", as_game(game, ...))
matching <- function(game, ...) answer_or_stop("matching", as_game(game, ...))
propose <- function(game, shares, ..., share_digits = 4)
  judged("propose", as_game(game, ...), shares, share_digits)
kernel <- function(game, shares, ..., share_digits = 4)
  judged("kernel", as_game(game, ...), shares, share_digits)
judged <- function(command, game, shares, digits)
  answer_or_stop(command, game, proposed(shares, digits, game$names))

check <- function(answer) {
  line <- if (is.character(answer)) answer else attr(answer, "line")
  if (length(line) != 1 || !nzchar(line)) stop("what is checked is an answer of nucleolus or prenucleolus, or its line")
  answer_of(asked("check", line), "check", NULL)
}

# The names of the package CoopGame, and its order of arguments.
shapleyValue <- function(v, ...) shapley(v, ...)
isConvexGame <- function(v, ...) holds(convex(v, ...))
isBalancedGame <- function(v, ...) holds(core(v, ...))
belongsToCore <- function(x, v, ...) holds(propose(v, x, ...))
belongsToPrekernel <- function(x, v, ...) holds(kernel(v, x, ...))

# The shares of each game of a list, in order. A vector of NA has the program's line as its attribute "why".
solve_games <- function(command, games, ...) {
  if (!command %in% sharing) stop("solve_games takes one of ", paste(sharing, collapse = ", "))
  found <- lapply(games, function(game) {
    game <- as_game(game, ...)
    got <- asked(command, document_of(game))
    if (got$status <= 1 && grepl('"shares":', got$line, fixed = TRUE)) return(shares_of(got$line, game))
    why <- if (nzchar(got$line)) got$line else paste("status", got$status)
    structure(stats::setNames(rep(NA_real_, length(game$names)), game$names), why = why)
  })
  structure(found, class = "coop_many")
}

sharing <- c("nucleolus", "prenucleolus", "shapley", "core", "bird")

exact <- function(x) attr(x, "exact")
holds <- function(x) identical(attr(x, "status"), 0L)

# One call of the library: the status and the line.
asked <- function(command, document) {
  got <- .Call(coop_call, enc2utf8(command), enc2utf8(document))
  list(status = got[[1]], line = sub("\n$", "", got[[2]]))
}

document_of <- function(game, shares = NULL)
  sprintf('{"game":%s%s}', game$text, if (is.null(shares)) "" else paste0(',"shares":', array_of(shares)))

# Shares that are proposed: those of an answer, as exact as they are; texts; or numbers, rounded to so many digits. Those
# with names are the players' of these names; of a game without names as they come.
proposed <- function(shares, digits, players) {
  texts <- if (!is.null(exact(shares))) exact(shares) else shares
  called <- names(texts)
  if (!is.null(called) && setequal(called, players) && length(called) == length(players))
    texts <- texts[match(players, called)]
  else if (!is.null(called) && !identical(players, as.character(seq_along(players))))
    stop("give a share to each of these names, each once: ", paste(players, collapse = ", "))
  numbers_of(unname(texts), if (is.character(texts)) 0 else digits)
}

no_answer <- function(got, command) {
  said <- if (nzchar(got$line)) got$line else "no line"
  stop(structure(class = c("coop_no_answer", "error", "condition"),
                 list(message = sprintf("%s has no answer, status %d: %s", command, got$status, said), call = NULL,
                      status = got$status, line = got$line)))
}

shares_or_stop <- function(command, game) {
  got <- asked(command, document_of(game))
  if (got$status != 0) no_answer(got, command)
  shares_of(got$line, game)
}

answer_or_stop <- function(command, game, shares = NULL)
  answer_of(asked(command, document_of(game, shares)), command, game)

answer_of <- function(got, command, game) {
  if (got$status > 1) no_answer(got, command)
  if (command == "core" && got$status == 0) return(shares_of(got$line, game))
  found <- parsed(got$line)
  structure(found, class = "coop_answer", status = got$status, line = got$line, names_of_players = game$names)
}

# The shares of a line, as numbers; the exact fractions are beside them.
shares_of <- function(line, game) {
  texts <- strsplit(gsub('"', "", sub('.*"shares":\\[([^]]*)\\].*', "\\1", line)), ",")[[1]]
  structure(values_of(texts), names = game$names, exact = stats::setNames(texts, game$names), line = line, status = 0L,
            class = "coop_shares")
}

values_of <- function(texts)
  vapply(strsplit(texts, "/", fixed = TRUE), function(parts) Reduce(`/`, as.numeric(parts)), 0)

# A row for each player: the number, and the exact fraction as a text.
as.data.frame.coop_shares <- function(x, ...)
  data.frame(player = names(x), share = as.numeric(x), exact = unname(exact(x)), stringsAsFactors = FALSE)

# A row for each game and a column for each player; the column why says why a row has none.
as.data.frame.coop_many <- function(x, ...) {
  players <- unique(lapply(x, names))
  if (length(players) > 1) stop("the games have other players: make a data frame of each")
  shares <- do.call(rbind, lapply(x, as.numeric))
  frame <- as.data.frame(shares)
  names(frame) <- unlist(players)
  frame$why <- vapply(x, function(one) if (is.null(attr(one, "why"))) NA_character_ else attr(one, "why"), "")
  if (!is.null(names(x))) row.names(frame) <- make.unique(names(x))
  frame
}

print.coop_many <- function(x, ...) {
  print(as.data.frame(x), ...)
  invisible(x)
}

print.coop_shares <- function(x, ...) {
  print(data.frame(share = as.numeric(x), exact = unname(exact(x)), row.names = make.unique(names(x))), ...)
  invisible(x)
}

`[.coop_shares` <- function(x, i) {
  values <- stats::setNames(as.numeric(x), names(x))[i]
  structure(values, exact = exact(x)[i], class = "coop_shares")
}

# What is changed in shares, or computed of them, is numbers: fractions and line were those of the answer.
plain <- function(x) if (inherits(x, "coop_shares")) stats::setNames(as.numeric(x), names(x)) else x
`[<-.coop_shares` <- function(x, i, value) `[<-`(plain(x), i, value)
`[[<-.coop_shares` <- function(x, i, value) `[[<-`(plain(x), i, value)
Math.coop_shares <- function(x, ...) get(.Generic)(plain(x), ...)
Ops.coop_shares <- function(e1, e2)
  if (missing(e2)) get(.Generic)(plain(e1)) else get(.Generic)(plain(e1), plain(e2))

print.coop_answer <- function(x, ...) {
  cat(attr(x, "line"), "\n", sep = "")
  invisible(x)
}

# ---- A line of the program, as lists: an array of numbers or of texts is a vector.

parsed <- function(line) {
  tokens <- regmatches(line, gregexpr('"(?:[^"\\\\]|\\\\.)*"|-?[0-9][0-9.eE+-]*|[][{}:,]|[a-z]+', line, perl = TRUE))[[1]]
  at <- 0
  take <- function() tokens[at <<- at + 1]
  value <- function() {
    token <- take()
    if (token == "{") return(members())
    if (token == "[") return(items())
    if (startsWith(token, '"')) text_of(token) else as.numeric(token)
  }
  members <- function() {
    found <- list()
    while (tokens[at + 1] != "}") {
      name <- gsub(" ", "_", text_of(take()), fixed = TRUE)
      take()
      found[[name]] <- value()
      if (tokens[at + 1] == ",") take()
    }
    take()
    found
  }
  items <- function() {
    found <- list()
    is_nested <- FALSE
    while (tokens[at + 1] != "]") {
      is_nested <- is_nested || tokens[at + 1] %in% c("[", "{")
      found[[length(found) + 1]] <- value()
      if (tokens[at + 1] == ",") take()
    }
    take()
    if (is_nested) found else unlist(found)
  }
  value()
}

text_of <- function(token) gsub("\\\\(.)", "\\1", substr(token, 2, nchar(token) - 1))
