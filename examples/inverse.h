/* The inverse of a Hessian, for the examples: plain C, no part of the engine and of none of its promises. */
#ifndef INVERSE_H
#define INVERSE_H

#include <math.h>

#include "probit.h"

enum { N = PROBIT_POINT };

/* The inverse of the first n rows and columns of a, by elimination with the largest pivot; 0 where there is none. */
static int inverse(int n, double a[N][N], double b[N][N]) {
    for (int i = 0; i < n; i++)
        for (int j = 0; j < n; j++) b[i][j] = i == j;
    for (int k = 0; k < n; k++) {
        int p = k;
        for (int i = k + 1; i < n; i++)
            if (fabs(a[i][k]) > fabs(a[p][k])) p = i;
        if (a[p][k] == 0) return 0;
        for (int j = 0; j < n; j++) {
            double t = a[k][j]; a[k][j] = a[p][j]; a[p][j] = t;
            t = b[k][j]; b[k][j] = b[p][j]; b[p][j] = t;
        }
        for (int i = 0; i < n; i++) {
            double f = i == k ? 0 : a[i][k] / a[k][k];
            for (int j = 0; j < n; j++) a[i][j] -= f * a[k][j], b[i][j] -= f * b[k][j];
        }
    }
    for (int i = 0; i < n; i++)
        for (int j = 0; j < n; j++) b[i][j] /= a[i][i];
    return 1;
}

#endif
