# matchingR of R, for tools/challenge. It takes complete lists alone.
#
#     tools/challenge --shapes complete,opposed,cycle -- Rscript examples/challenge/matchingr.R '{dir}'
suppressMessages(library(matchingR))
folder <- commandArgs(trailingOnly = TRUE)[1]
table <- function(name) as.matrix(read.csv(file.path(folder, name), colClasses = "character", check.names = FALSE))
p <- table("proposers.csv")
r <- table("reviewers.csv")
students <- matrix(match(t(p[, -1]), r[, 1]), ncol = nrow(p))
colleges <- matrix(match(t(r[, -(1:2)]), p[, 1]), ncol = nrow(r))
found <- galeShapley.collegeAdmissions(studentPref = students, collegePref = colleges, slots = as.integer(r[, 2]))
at <- found$matched.students[, 1]
write.csv(data.frame(proposer = p[, 1], partner = ifelse(is.na(at), "", r[at, 1])), row.names = FALSE)
