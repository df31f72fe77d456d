# A fit of two groups of litters by the proved engine, and what R's users ask of a fit.

STATUSES <- c("converged", "evaluation limit", "iteration limit", "line search failed")
# As include/probit_names.h has them.
REASONS <- c("mode not bracketed", "mode not converged", "tail not bounded", "not finite", "refinement not converged", "total not finite")

# Whole numbers within [low, high], or an error that names the first that is not.
whole <- function(x, what, low, high) {
    bad <- which(is.na(x) | !is.finite(x) | x != floor(x) | x < low | x > high)
    if (length(bad)) stop(sprintf("%s[%d] is %s, where a whole number of %d to %d is asked for", what, bad[1], format(x[bad[1]]), low, high), call. = FALSE)
    as.integer(x)
}

limits <- function(x, what, low, high) {
    if (!is.numeric(x) || length(x) != 3L || anyNA(x) || !(low <= x[1] && x[1] < x[2] && x[2] <= high && x[1] <= x[3] && x[3] <= x[2]))
        stop(sprintf("'%s' has to be low, high and start, low < high within [%g, %g], the start between them", what, low, high), call. = FALSE)
    as.double(x)
}

litterfit <- function(affected, total, group, mean = c(-8, 8, 0), sd = c(0, 3, 0.5), tolerance = 1e-8,
                      evaluations = 1000, iterations = 1000, quadrature = 2e7) {
    call <- match.call()
    if (length(affected) != length(total) || length(group) != length(total)) stop("'affected', 'total' and 'group' have to be of one length")
    if (anyNA(group)) stop(sprintf("group[%d] is missing", which(is.na(group))[1]))
    group <- if (is.factor(group)) droplevels(group) else factor(group, levels = unique(group))
    if (nlevels(group) != 2L) stop(sprintf("two groups are compared; there are %d: %s", nlevels(group), paste(levels(group), collapse = ", ")))
    total <- whole(total, "total", 1, 1000)
    affected <- whole(affected, "affected", 0, 1000)
    bad <- which(affected > total)
    if (length(bad)) stop(sprintf("litter %d: %d affected of %d", bad[1], affected[bad[1]], total[bad[1]]))
    if (length(total) > 128L) stop(sprintf("%d litters; the engine takes at most 128", length(total)))
    few <- which(table(group) < 2)
    if (length(few)) stop(sprintf("group '%s' has one litter; a group needs 2 or more", levels(group)[few[1]]))
    mean <- limits(mean, "mean", -8, 8)
    sd <- limits(sd, "sd", 0, 3)
    if (!is.numeric(tolerance) || length(tolerance) != 1L || !is.finite(tolerance) || tolerance <= 0) stop("'tolerance' has to be above 0 and finite")
    work <- as.double(c(whole(evaluations[1], "evaluations", 1, 1000), whole(iterations[1], "iterations", 1, 1000), whole(quadrature[1], "quadrature", 1, 2e7)))

    answer <- .Call(C_fit, c(mean, mean, sd, sd), as.double(tolerance), work, as.integer(rbind(affected, total, as.integer(group) - 1L)))
    used <- answer$counts
    if (answer$ending == 2L) stop(sprintf("refused after %.0f evaluations of the integrand: %s", used[4], REASONS[used[6]]))
    if (answer$ending == 3L) stop(sprintf("refused: the limit of %.0f evaluations of the integrand was met; 'quadrature' may be raised to 2e7", used[4]))
    if (answer$ending != 0L) stop(sprintf("refused by the engine (ending %d)", answer$ending))

    n <- answer$numbers
    names <- c(paste0("mean:", levels(group)), paste0("sd:", levels(group)))
    bound <- setNames(used[7:10] == 1, names)
    out <- list(call = call, coefficients = setNames(n[1:4], names), variance = setNames(n[7:8], levels(group)), nll = n[5], norm = n[6],
                status = STATUSES[used[1]], converged = used[1] == 1, on.bound = bound,
                counts = c(evaluations = used[2], iterations = used[3], quadrature = used[4]),
                gradient = n[9:12], hessian = matrix(n[13:28], 4L, byrow = TRUE), tolerance = tolerance,
                data = data.frame(group = group, affected = affected, total = total), engine = .Call(C_version))
    class(out) <- "litterfit"
    out$vcov <- covariance(out)
    if (!out$converged) warning("the fit did not converge: ", out$status, call. = FALSE)
    out
}

# The covariance of means and SDs: the inverse of the engine's Hessian in means and variances over what is free, and the delta method.
# What lies on a bound is not free and has NA.
covariance <- function(fit) {
    names <- names(fit$coefficients)
    out <- matrix(NA_real_, 4L, 4L, dimnames = list(names, names))
    free <- which(!fit$on.bound)
    if (!fit$converged || !length(free)) return(out)
    h <- fit$hessian[free, free, drop = FALSE]
    root <- tryCatch(chol((h + t(h)) / 2), error = function(e) NULL)
    if (is.null(root)) return(out)
    slope <- c(1, 1, 1 / (2 * fit$coefficients[3:4]))[free]
    v <- chol2inv(root) * outer(slope, slope)
    out[free, free] <- (v + t(v)) / 2
    out
}

coef.litterfit <- function(object, ...) object$coefficients

vcov.litterfit <- function(object, ...) object$vcov

logLik.litterfit <- function(object, ...) structure(-object$nll, df = 4L, nobs = nrow(object$data), class = "logLik")

nobs.litterfit <- function(object, ...) nrow(object$data)

# Means: Wald intervals. SDs: Wald intervals of their logarithm, by the engine at 0.95 and in R's arithmetic at another level.
confint.litterfit <- function(object, parm, level = 0.95, ...) {
    est <- object$coefficients
    if (missing(parm)) parm <- names(est) else if (is.numeric(parm)) parm <- names(est)[parm]
    if (!is.numeric(level) || length(level) != 1L || !(level > 0 && level < 1)) stop("'level' has to be between 0 and 1")
    se <- sqrt(diag(object$vcov))
    a <- c((1 - level) / 2, 1 - (1 - level) / 2)
    z <- qnorm(a)
    out <- matrix(NA_real_, 4L, 2L, dimnames = list(names(est), paste(format(100 * a, trim = TRUE, digits = 3), "%")))
    out[1:2, ] <- est[1:2] + outer(se[1:2], z)
    out[3:4, ] <- est[3:4] * exp(outer(se[3:4] / est[3:4], z))
    free <- which(!is.na(se))
    if (isTRUE(all.equal(level, 0.95)) && any(free > 2)) {
        v <- object$vcov[free, free, drop = FALSE]
        by <- .Call(C_intervals, as.double(est[free]), as.double(v), as.double(sqrt(diag(v))), as.integer(sum(2^(which(free > 2) - 1))))
        if (!is.null(by)) {
            by <- matrix(by, ncol = 3L, byrow = TRUE)
            out[free[free > 2], ] <- by[free > 2, 2:3]
        }
    }
    out[parm, , drop = FALSE]
}

# Of each group the fitted share of affected pups with its interval, and the correlation within a litter, on the probit scale.
meaning <- function(fit, level = 0.95) {
    m <- fit$coefficients[1:2]
    s <- fit$coefficients[3:4]
    root <- sqrt(1 + s^2)
    u <- m / root
    error <- vapply(1:2, function(g) {
        if (is.na(fit$vcov[g, g])) return(NA_real_)
        slope <- c(1 / root[g], if (is.na(fit$vcov[g + 2, g + 2])) 0 else -m[g] * s[g] / root[g]^3)
        v <- fit$vcov[c(g, g + 2), c(g, g + 2)]
        v[is.na(v)] <- 0
        sqrt(drop(slope %*% v %*% slope))
    }, 0)
    z <- qnorm(1 - (1 - level) / 2)
    data.frame(share = pnorm(u), lower = pnorm(u - z * error), upper = pnorm(u + z * error), correlation = s^2 / (1 + s^2), row.names = levels(fit$data$group))
}

print.litterfit <- function(x, digits = max(3L, getOption("digits") - 3L), ...) {
    cat("Litters of two groups, fitted on the probit scale\n\n")
    print(matrix(x$coefficients, 2L, dimnames = list(levels(x$data$group), c("mean", "sd"))), digits = digits)
    cat("\nMinus the log-likelihood: ", format(x$nll, digits = digits + 4L), " (", x$status, ")\n", sep = "")
    invisible(x)
}

summary.litterfit <- function(object, ...) {
    d <- object$data
    by <- function(f) vapply(split(d, d$group), f, 0)
    out <- list(call = object$call, fit = object,
                study = data.frame(litters = by(nrow), pups = by(function(x) sum(x$total)), affected = by(function(x) sum(x$affected)),
                                   extreme = by(function(x) sum(x$affected == 0 | x$affected == x$total))),
                coefficients = cbind(Estimate = object$coefficients, "Std. Error" = sqrt(diag(object$vcov)), confint(object)),
                meaning = meaning(object))
    class(out) <- "summary.litterfit"
    out
}

print.summary.litterfit <- function(x, digits = max(3L, getOption("digits") - 3L), ...) {
    fit <- x$fit
    cat("\nCall:\n", paste(deparse(x$call), collapse = "\n"), "\n\nThe study (extreme: litters with none or all pups affected):\n", sep = "")
    print(x$study)
    cat("\nThe fit, on the probit scale:\n")
    print(x$coefficients, digits = digits)
    if (any(fit$on.bound)) cat("On a bound, hence not free and without a standard error:", paste(names(fit$on.bound)[fit$on.bound], collapse = ", "), "\n")
    cat("\nFitted share of affected pups with its 95 % interval, and correlation within a litter:\n")
    print(x$meaning, digits = digits)
    cat("\nMinus the log-likelihood: ", format(fit$nll, digits = digits + 4L), " on 4 parameters\n", sep = "")
    cat(sprintf("%s after %.0f evaluations of the likelihood, %.0f steps, %.0f evaluations of the integrand; slope left %.3g\n",
                fit$status, fit$counts[1], fit$counts[2], fit$counts[3], fit$norm))
    invisible(x)
}

# Each litter's share, its area by pups, with the fitted share and its interval. The litters stand beside each other in their order.
plot.litterfit <- function(x, ...) {
    d <- x$data
    m <- meaning(x)
    g <- as.integer(d$group)
    place <- g + ave(seq_along(g), g, FUN = function(i) if (length(i) > 1) seq(-0.32, 0.32, length.out = length(i)) else 0)
    graphics::plot(NA, xlim = c(0.5, 2.5), ylim = c(0, 1), xlab = "", ylab = "share of pups affected", xaxt = "n", ...)
    axis(1, at = 1:2, labels = levels(d$group), tick = FALSE)
    colour <- c("#0b6bb8", "#b35300")
    for (i in 1:2) {
        if (!is.na(m$lower[i])) rect(i - 0.4, m$lower[i], i + 0.4, m$upper[i], col = adjustcolor(colour[i], 0.15), border = NA)
        segments(i - 0.4, m$share[i], i + 0.4, m$share[i], col = colour[i], lwd = 2)
    }
    points(place, d$affected / d$total, pch = c(21, 23)[g], bg = adjustcolor(colour[g], 0.5), col = colour[g], cex = 2.5 * sqrt(d$total / max(d$total)))
    invisible(x)
}
