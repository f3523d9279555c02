# matchingMarkets of R, for tools/challenge: the matching of hri that is best for the students.
#
#     tools/challenge -- Rscript examples/challenge/matchingmarkets.R '{dir}'
suppressMessages(library(matchingMarkets))
folder <- commandArgs(trailingOnly = TRUE)[1]
table <- function(name) as.matrix(read.csv(file.path(folder, name), colClasses = "character", check.names = FALSE))
p <- table("proposers.csv")
r <- table("reviewers.csv")
students <- matrix(match(t(p[, -1]), r[, 1]), ncol = nrow(p))
colleges <- matrix(match(t(r[, -(1:2)]), p[, 1]), ncol = nrow(r))
found <- hri(s.prefs = students, c.prefs = colleges, nSlots = as.integer(r[, 2]))$matchings
best <- found[found$sOptimal == 1, ]
at <- as.integer(as.character(best$college[match(seq_len(nrow(p)), as.integer(as.character(best$student)))]))
write.csv(data.frame(proposer = p[, 1], partner = ifelse(is.na(at), "", r[at, 1])), row.names = FALSE)
