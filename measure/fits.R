# Times glmer on litters of 5 to 13 pups, both groups, each by itself: probit link, 50 points. The processor's time,
# the best of five.
suppressMessages(library(lme4))
set.seed(1)
fit <- function(d) suppressWarnings(suppressMessages(glmer(cbind(y, n - y) ~ 1 + (1 | litter), data = d, family = binomial("probit"), nAGQ = 50)))
for (number in c(4, 32, 128)) {
    # Four litters are two a group, which glmer takes.
    n <- sample(5:13, number, replace = TRUE)
    g <- (seq_len(number) - 1) %% 2
    y <- rbinom(number, n, pnorm(rnorm(number, 0.5 * g - 0.2, 0.5)))
    d <- data.frame(y = y, n = n, litter = factor(seq_len(number)))
    once <- function() sum(system.time(for (k in 0:1) fit(d[g == k, ]))[c("user.self", "sys.self")])
    cat(sprintf("glmer, %d litters, both groups: %.0f ms\n", number, 1e3 * min(replicate(5, once()))))
}
