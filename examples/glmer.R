# Weil's litters fitted by lme4's glmer, each group by itself, as the three lines of a claim.
# Rscript examples/glmer.R > examples/glmer.claim
# Made with lme4 1.1.31 and R 4.2.2; another version may end elsewhere.
suppressMessages(library(lme4))
litters <- read.csv("examples/weil.csv")
fits <- lapply(c("control", "treated"), function(group) {
    x <- litters[litters$group == group, ]
    m <- glmer(cbind(affected, total - affected) ~ 1 + (1 | litter), data = x, family = binomial("probit"), nAGQ = 100)
    # With more than one point glmer leaves the saturated model's likelihood out.
    nll <- -as.numeric(logLik(m)) - sum(dbinom(x$affected, x$total, x$affected / x$total, log = TRUE))
    c(fixef(m), unlist(VarCorr(m)), nll)
})
f <- do.call(cbind, fits)
cat(sprintf("claim mean %.15f %.15f\nclaim variance %.15f %.15f\nclaim nll %.15f\n", f[1, 1], f[1, 2], f[2, 1], f[2, 2], sum(f[3, ])))
