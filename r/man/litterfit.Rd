\name{litterfit}
\alias{litterfit}
\alias{print.litterfit}
\alias{summary.litterfit}
\alias{print.summary.litterfit}
\alias{coef.litterfit}
\alias{vcov.litterfit}
\alias{confint.litterfit}
\alias{logLik.litterfit}
\alias{nobs.litterfit}
\alias{plot.litterfit}
\title{Fit of Two Groups of Litters}
\description{
  Fits a mean and a spread on the probit scale to each of two groups of litters, of which it is
  counted how many pups of how many are affected: a probit-normal binomial model. The fit is that
  of a proved engine; the same data give the same bits on every run.
}
\usage{
litterfit(affected, total, group, mean = c(-8, 8, 0), sd = c(0, 3, 0.5), tolerance = 1e-8,
          evaluations = 1000, iterations = 1000, quadrature = 2e7)

\method{print}{litterfit}(x, digits = max(3L, getOption("digits") - 3L), ...)
\method{summary}{litterfit}(object, ...)
\method{print}{summary.litterfit}(x, digits = max(3L, getOption("digits") - 3L), ...)
\method{coef}{litterfit}(object, ...)
\method{vcov}{litterfit}(object, ...)
\method{confint}{litterfit}(object, parm, level = 0.95, ...)
\method{logLik}{litterfit}(object, ...)
\method{nobs}{litterfit}(object, ...)
\method{plot}{litterfit}(x, ...)
}
\arguments{
  \item{affected, total}{affected pups and all pups of each litter; 1 to 1000 pups, at most 128 litters.}
  \item{group}{the group of each litter, a factor or labels; two groups of two or more litters each. The first level, or the first label, is the first group.}
  \item{mean, sd}{low bound, high bound and start of both means, within [-8, 8], and of both SDs, within [0, 3].}
  \item{tolerance}{the slope of the likelihood at which the fit has converged.}
  \item{evaluations, iterations, quadrature}{limits of work: evaluations of the likelihood, steps of the descent, evaluations of the integrand.}
  \item{x, object}{a fit.}
  \item{digits}{digits that are shown.}
  \item{parm}{names or numbers of coefficients.}
  \item{level}{of the intervals.}
  \item{...}{for \code{plot}, further arguments of \code{\link[graphics]{plot.default}}; else not used.}
}
\details{
  Nothing is guessed: a missing value, a third group, a total of 0 are errors that name the place.

  The standard errors come from the inverse of the engine's Hessian in means and variances; the
  delta method takes them to SDs. What lies on a bound is not free: it has no standard error
  (\code{NA}), and the others are worked out as if it were known. The intervals of the means are
  Wald intervals, those of the SDs Wald intervals of the logarithm; at level 0.95 the engine
  computes the latter. All are for many litters.
}
\value{
  \code{litterfit} gives a list of class \code{"litterfit"} with, among others, \code{coefficients},
  \code{vcov}, \code{nll} (minus the log-likelihood), \code{status}, \code{converged},
  \code{on.bound}, \code{counts} (the work) and the engine's \code{gradient} and \code{hessian} in
  mean 1, mean 2, variance 1, variance 2.
}
\examples{
d <- read.csv(system.file("extdata", "weil.csv", package = "litterfit"))
fit <- litterfit(d$affected, d$total, d$group)
fit
summary(fit)
confint(fit)
plot(fit)
}
\keyword{models}
