library(coop)

near <- function(x, y) stopifnot(isTRUE(all.equal(as.numeric(x), y)))
said <- function(call) tryCatch({ call; "nothing" }, error = conditionMessage)

three <- c(0, 0, 0, 6, 2, 2, 12)
shares <- nucleolus(three, names = c("Ann", "Bob", "Cem"))
near(shares, c(4.5, 4.5, 3))
stopifnot(identical(unname(exact(shares)), c("9/2", "9/2", "3")), identical(names(shares), c("Ann", "Bob", "Cem")))
stopifnot(holds(check(shares)), holds(propose(three, shares)), holds(kernel(three, shares)))
stopifnot(!holds(check(sub('"9/2","9/2","3"', '"9/2","7/2","4"', attr(shares, "line")))))
stopifnot(identical(unname(exact(shares["Cem"])), "3"))
near(prenucleolus(three), c(4.5, 4.5, 3))

# Shares go by their names, and are plain numbers once they are changed or computed with.
runway <- airport_game(c(light = 2, medium = 4, heavy = 6))
stopifnot(holds(propose(runway, c(heavy = 3.5, light = 1, medium = 1.5))), holds(propose(runway, rev(nucleolus(runway)))))
stopifnot(grepl("each of these names", said(propose(runway, c(a = 3.5, b = 1, c = 1.5)))))
changed <- nucleolus(runway)
changed["light"] <- 99
stopifnot(is.null(exact(changed)), is.null(exact(round(shares))), is.null(exact(shares * 2)), identical(shares[[3]], 3))
stopifnot(grepl("what is checked", said(check(changed))), grepl("aren't read", said(nucleolus(c(a = 1, b = 1, "a+b" = 3)))))

# Digits: the fractions are those of the numbers that were given.
tenths <- shapley(c(0.25, 1.5, 3.1), digits = 2)
near(tenths, c(0.925, 2.175))
stopifnot(identical(unname(exact(tenths)), c("37/40", "87/40")))
stopifnot(identical(exact(nucleolus(c(1.5, 2.5, 9), digits = 1)), exact(nucleolus(c("3/2", "2.5", "9")))))
near(nucleolus(c(1.5, 2.5, 9), digits = 1), c(4, 5))

# Costs, excess per head, and the other classes.
near(nucleolus(c(4, 4, 6), costs = TRUE), c(3, 3))
near(nucleolus(airport_game(c(light = 2, medium = 4, heavy = 6))), c(1, 1.5, 3.5))
near(nucleolus(airport_game(c(2, 4, 6), per_head = TRUE)), as.numeric(prenucleolus(airport_game(c(2, 4, 6), per_head = TRUE))))
near(nucleolus(bankruptcy_game(200, c(100, 200, 300))), c(50, 75, 75))
near(bird(tree_game(matrix(c(0, 1, 2, 1, 0, 1, 2, 1, 0), 3))), c(1, 1))
near(core(assignment_game(matrix(c(3, 2, 1, 2), 2))), as.numeric(core(assignment_game(matrix(c(3, 2, 1, 2), 2)))))
market <- matching(market_game(matrix(c(3, 2, 1, 2), 2)))
stopifnot(identical(market$value, "5"), identical(market$pairs, list(c(1, 3), c(2, 4))))
near(shapley(voting_game(3, c(2, 1, 1))), c(2, 1/2, 1/2) / 3 + c(0, 0, 0))

# No, and why.
blocked <- propose(three, c(1, 10.5, 0.5))
stopifnot(!holds(blocked), identical(blocked$coalition, c(1, 3)), identical(blocked$excess, "1/2"))
empty <- core(c(0, 0, 0, 6, 2, 2, 3))
stopifnot(!holds(empty), identical(empty$answer, "empty core"), identical(empty$collection, list(list(c(1, 2), 1), list(3, 1))))
stopifnot(!holds(convex(c(0, 0, 0, 6, 2, 2, 3))), holds(convex(c(0, 0, 4))))
stopifnot(identical(said(nucleolus(c(1, 1, 1))),
                    'nucleolus has no answer, status 1: {"answer":"no imputation","singles":"2","total":"1"}'))
stopifnot(grepl("status 2", said(bird(three))), grepl("status 3", said(nucleolus(bankruptcy_game(9, c(1, 2))))))
stopifnot(grepl("a vector has", said(nucleolus(c(1, 1)))), grepl("numbers are whole", said(nucleolus(c(1, 1.5, 3)))))
stopifnot(grepl("finite", said(nucleolus(c(1, 1, NA)))), grepl("is no number", said(nucleolus(c("1", "x", "3")))))

# Many games; names that need quotes.
many <- solve_games("nucleolus", list(c(0, 0, 100000), c(1, 1, 1)))
near(many[[1]], c(50000, 50000))
stopifnot(all(is.na(many[[2]])), grepl("no imputation", attr(many[[2]], "why")))
stopifnot(identical(names(nucleolus(c(0, 0, 2), names = c('a "b"\\', "\u00e9"))), c('a "b"\\', "\u00e9")))
stopifnot(grepl("takes one of", said(solve_games("nuclolus", list(three)))))

# Data frames, and the names of CoopGame.
stopifnot(identical(as.data.frame(shares), data.frame(player = c("Ann", "Bob", "Cem"), share = c(4.5, 4.5, 3),
                                                      exact = c("9/2", "9/2", "3"), stringsAsFactors = FALSE)))
frame <- as.data.frame(many)
stopifnot(identical(names(frame), c("1", "2", "why")), identical(frame[[1]], c(50000, NA)), is.na(frame$why[1]))
stopifnot(grepl("other players", said(as.data.frame(solve_games("core", list(c(0, 0, 1), three))))))
stopifnot(identical(exact(shapleyValue(three)), exact(shapley(three))), isBalancedGame(three), !isConvexGame(c(0, 0, 0, 6, 2, 2, 3)))
stopifnot(belongsToCore(c(5, 5, 2), three), !belongsToCore(c(1, 10.5, 0.5), three), belongsToPrekernel(shares, three))
