# The fit of examples/counts.c by R: the direct maximum of the same likelihood, and MASS::glm.nb, whose model this is.
# Rscript examples/counts.R [TABLE]: the answer's numbers with nine digits, for comparison. Needs MASS (Debian:
# r-cran-mass).
library(MASS)
given <- commandArgs(TRUE)
s <- read.csv(if (length(given)) given[1] else "examples/ships.csv")
stopifnot(nrow(merge(s, ships[ships$service > 0, ])) == nrow(s), nrow(s) == sum(ships$service > 0))
# A negative binomial: its size is the shape, its mean the shape times the exposure over the rate.
nll <- function(p) -sum(dnbinom(s$incidents, size = exp(p[1]), mu = exp(p[1] - p[2]) * s$service, log = TRUE))
best <- optim(c(0, log(1000)), nll, method = "BFGS", control = list(reltol = 1e-15, maxit = 1000, ndeps = c(1e-5, 1e-5)))
best <- optim(best$par, nll, control = list(reltol = 1e-16, maxit = 5000))
say <- function(name, shape, rate, value) cat(sprintf("%-10s shape %.6f  rate %.6f  mean rate %.9f  minus the log-likelihood %.9f\n", name, shape, rate, shape / rate, value))
say("optim", exp(best$par[1]), exp(best$par[2]), best$value)
v <- solve(optimHess(best$par, nll, control = list(ndeps = c(1e-4, 1e-4))))
cat(sprintf("standard errors in the logarithm: shape %.4f  rate %.4f  mean rate %.4f\n", sqrt(v[1, 1]), sqrt(v[2, 2]), sqrt(v[1, 1] + v[2, 2] - 2 * v[1, 2])))
m <- glm.nb(incidents ~ 1 + offset(log(service)), data = s, control = glm.control(epsilon = 1e-12, maxit = 200))
say("glm.nb", m$theta, m$theta / exp(coef(m)[[1]]), -as.numeric(logLik(m)))
