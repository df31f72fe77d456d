# Weil's litters: the engine's bits, R's methods, refusals, and lme4 where it is there.
library(litterfit)

d <- read.csv(system.file("extdata", "weil.csv", package = "litterfit"))
fit <- litterfit(d$affected, d$total, d$group)
# The bits that the program probitfit prints for the same request.
stopifnot(identical(unname(coef(fit)), c(-0x1.4e678fc8223edp+0, -0x1.e51a7f2e5b4b1p-1, 0x1.ec1836239c415p-3, 0x1.078cc77e1f30fp+0)))
stopifnot(fit$converged, fit$counts == c(28, 11, 313330), nobs(fit) == 32, attr(logLik(fit), "df") == 4)
se <- sqrt(diag(vcov(fit)))
stopifnot(abs(se - c(0.168497, 0.305544, 0.301502, 0.299214)) < 1e-5)
ci <- confint(fit)
stopifnot(abs(ci[3:4, ] - c(0.020542, 0.582408, 2.810606, 1.819778)) < 1e-5, ci[1:2, 1] < coef(fit)[1:2], ci[1:2, 2] > coef(fit)[1:2])
# Another level is R's own arithmetic; near 0.95 both agree.
stopifnot(abs(confint(fit, level = 0.950001) - ci) < 1e-4, identical(confint(fit, "sd:treated"), ci["sd:treated", , drop = FALSE]))
print(fit)
print(summary(fit))
pdf(NULL)
plot(fit)

refused <- function(words, ...) stopifnot(grepl(words, tryCatch({ litterfit(...); "" }, error = conditionMessage), fixed = TRUE))
refused("litter 2: 9 affected of 8", c(1, 9, 1, 1), c(5, 8, 5, 5), c("a", "a", "b", "b"))
refused("total[3] is 0", c(1, 1, 0, 1), c(5, 5, 0, 5), c("a", "a", "b", "b"))
refused("affected[1] is NA", c(NA, 1, 0, 1), c(5, 5, 5, 5), c("a", "a", "b", "b"))
refused("affected[1] is 1.5", c(1.5, 1, 0, 1), c(5, 5, 5, 5), c("a", "a", "b", "b"))
refused("there are 3: a, b, c", c(1, 1, 0, 1), c(5, 5, 5, 5), c("a", "a", "b", "c"))
refused("group 'b' has one litter", c(1, 1, 1), c(5, 5, 5), c("a", "a", "b"))
refused("group[2] is missing", c(1, 1, 1), c(5, 5, 5), c("a", NA, "b"))
refused("the limit of 100 evaluations", d$affected, d$total, d$group, quadrature = 100)

# On a bound there is no standard error.
flat <- litterfit(c(1, 1, 2, 2), c(10, 10, 10, 10), c("a", "a", "b", "b"))
stopifnot(flat$on.bound[3:4], coef(flat)[3:4] == 0, is.na(diag(vcov(flat))[3:4]), !is.na(diag(vcov(flat))[1:2]), is.na(confint(flat)[3:4, ]))
print(summary(flat))

if (requireNamespace("lme4", quietly = TRUE)) {
    nll <- 0
    for (g in c("control", "treated")) {
        x <- d[d$group == g, ]
        x$litter <- factor(x$litter)
        m <- suppressWarnings(lme4::glmer(cbind(affected, total - affected) ~ 1 + (1 | litter), data = x, family = binomial("probit"), nAGQ = 100,
            control = lme4::glmerControl(optimizer = "bobyqa", optCtrl = list(rhoend = 1e-10, maxfun = 100000))))
        stopifnot(abs(lme4::fixef(m) - coef(fit)[paste0("mean:", g)]) < 1e-5, abs(sqrt(unlist(lme4::VarCorr(m))) - coef(fit)[paste0("sd:", g)]) < 1e-5)
        stopifnot(abs(sqrt(vcov(m, use.hessian = TRUE)[1, 1]) - se[paste0("mean:", g)]) < 2e-4)
        nll <- nll - as.numeric(logLik(m)) - sum(dbinom(x$affected, x$total, x$affected / x$total, log = TRUE))
    }
    stopifnot(abs(nll - fit$nll) < 1e-7)
    cat("lme4 agrees\n")
}
