"""The least value of a function of one number between two ends: Brent's method, each value one call."""
import math

GOLDEN = (3 - math.sqrt(5)) / 2


def least(f, low, high, within=1e-6, most=60):
    """Where f is least between low and high, its value there, and how often it was asked; the ends are asked too."""
    ends = [(f(low), low), (f(high), high)]
    x = w = v = low + GOLDEN * (high - low)
    fx = fw = fv = f(x)
    step = last = high - low
    asked, a, b = 3, low, high
    while asked < most:
        middle, near = (a + b) / 2, within * max(1.0, abs(x))
        if abs(x - middle) <= 2 * near - (b - a) / 2:
            break
        p = q = 0.0
        if abs(last) > near:
            r, q = (x - w) * (fx - fv), (x - v) * (fx - fw)
            p, q = (x - v) * q - (x - w) * r, 2 * (q - r)
            p, q = (-p, q) if q > 0 else (p, -q)
        if q and abs(p) < abs(q * last / 2) and q * (a - x) < p < q * (b - x):
            last, step = step, p / q
            if x + step - a < 2 * near or b - x - step < 2 * near:
                step = math.copysign(near, middle - x)
        else:
            last = (a if x >= middle else b) - x
            step = GOLDEN * last
        u = x + (step if abs(step) >= near else math.copysign(near, step))
        fu = f(u)
        asked += 1
        if fu <= fx:
            a, b = (x, b) if u >= x else (a, x)
            v, fv, w, fw, x, fx = w, fw, x, fx, u, fu
        else:
            a, b = (u, b) if u < x else (a, u)
            if fu <= fw or w == x:
                v, fv, w, fw = w, fw, u, fu
            elif fu <= fv or v in (x, w):
                v, fv = u, fu
    fx, x = min(ends + [(fx, x)])
    return x, fx, asked
