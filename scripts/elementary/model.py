"""The elementary functions as docs/ELEMENTARY.md defines them, on Python's whole numbers and fractions."""
import struct
from fractions import Fraction

from mpmath import cos as mp_cos
from mpmath import exp as mp_exp
from mpmath import floor
from mpmath import log as mp_log
from mpmath import mp, mpf
from mpmath import sin as mp_sin

mp.prec = 400
NAN, INF = float("nan"), float("inf")


def table(count, f):
    return [int(floor(f(mpf(i)))) for i in range(count)]


COARSE = table(65, lambda i: mp_exp(i / 32 - 1) * 2**60)
FINE = table(32, lambda i: mp_exp(i / 1024) * 2**62)
SINE = table(257, lambda i: mp_sin(i / 256) * 2**58)
COSINE = table(257, lambda i: mp_cos(i / 256) * 2**58)
LOGARITHM = [int(floor(mp_log(mpf(1024) / (131072 // (129 + i))) * 2**58)) for i in range(128)]
L = 6243314768165359


def bits(x):
    return struct.unpack("<Q", struct.pack("<d", x))[0]


def of_bits(b):
    return struct.unpack("<d", struct.pack("<Q", b))[0]


def fields(x):
    """Sign, exponent's field and digits."""
    b = bits(x)
    return b >> 63, b % 2**63 >> 52, b % 2**52


def scaled(x, k):
    f = abs(Fraction(x))
    return f.numerator * 2**k // f.denominator


def nearest(a, b):
    """The float nearest to a / b, ties to even: Python's division of whole numbers rounds so."""
    try:
        return a / b
    except OverflowError:
        return INF


def exp_kernel(t):
    i, j, d = t // 2**53, t // 2**48 % 32, t % 2**48
    c = COARSE[i] * FINE[j] // 2**64
    u = d // 2**16
    h = 715827883 + u * 178956971 // 2**42
    r = 2**31 + u * h // 2**42
    w = u * (u * r // 2**32) // 2**26
    p = (d + w) // 2**7
    return c + (p * (c // 2**38) + p * (c // 2**16 % 2**22) // 2**22) // 2**13


def exp(x):
    if x != x:
        return NAN
    if x > 709:
        return INF
    if x < -745:
        return 0.0
    s, _, _ = fields(x)
    if abs(x) <= 1:
        m = scaled(x, 58)
        t, k = (2**58 - m if s else 2**58 + m), 1087
    else:
        m = scaled(x, 53)
        n = m // 2**32 * 3098164009 // 2**52 + s
        if s:
            t, k = (2**53 + n * L - m) * 32 + 6 * n, 1087 - n
        else:
            t, k = (2**53 + m - n * L) * 32 - 6 * n, 1087 + n
    assert 0 <= t <= 2**59
    return nearest(exp_kernel(t) // 128 * 2**k, 2**1138)


def log(x):
    if x != x or x < 0:
        return NAN
    if x == 0:
        return -INF
    if x == INF:
        return INF
    if x == 1:
        return 0.0
    k = 0
    if x < 2.0**-1022:
        x, k = x * 2.0**54, 54
    _, e, t = fields(x)
    i = t // 2**45
    z = (2**62 - (2**52 + t) * (131072 // (129 + i))) // 16
    a, l = z // 2**20, z % 2**20
    q = (a * a + a * l // 2**19) // 2**31
    h = 1227133513
    for c in (1431655765, 1717986918, 2147483648, 2863311530, 4294967296):
        h = c + a * h // 2**38
    g = z + q * h // 2**20
    w = (LOGARITHM[i] + 2**58 - g) // 32
    p, n = e * L + w, (1023 + k) * L + 2**53
    size = nearest(abs(p - n), 2**53)
    return -size if p < n else size


def sine(x, j):
    if x != x or abs(x) > 65536:
        return NAN
    if abs(x) <= 1:
        n, t = j, 2**58 + scaled(x, 58)
    else:
        m = scaled(x, 46)
        h = (m // 2**31 * 2734261102 + 2**46) // 2**47
        n = h + j
        t = (m + 2**46 - h * 110534964875444) * 4096 - h * 1629119075 // 2**20
    assert 0 <= t <= 2**59
    r = abs(t - 2**58)
    i, d = r // 2**50, r % 2**50
    a, b = SINE[i], COSINE[i]
    u = d // 2**18
    q = u * u // 2**32
    arc = (d - u * (715827883 * q // 2**32) // 2**30) // 2**8
    sag = q - q * (178956971 * q // 2**40) // 2**39

    def across(y):
        return (arc * (y // 2**38) + arc * (y // 2**16 % 2**22) // 2**22) // 2**12

    def drop(y):
        return sag * (y // 2**27) // 2**22

    if n % 2 == 0:
        v = a + across(b) - drop(a)
        n += 2 if t < 2**58 else 0
    else:
        v = b - across(a) - drop(b)
    y = nearest(v // 128, 2**51)
    return -y if n % 4 >= 2 and y != 0 else y


def sin(x):
    return sine(x, 2 * (bits(x) >> 63))


def cos(x):
    return sine(x, 1)


def root(a):
    """The r with (2 r - 1)^2 < a 2^54 <= (2 r + 1)^2."""
    from math import isqrt

    r = (isqrt(a * 2**54) + 1) // 2
    while (2 * r - 1) ** 2 >= a * 2**54:
        r -= 1
    while a * 2**54 > (2 * r + 1) ** 2:
        r += 1
    return r


def sqrt(x):
    if x != x or x < 0:
        return NAN
    if x == 0 or x == INF:
        return x
    k = 0
    if x < 2.0**-1022:
        x, k = x * 2.0**54, 27
    _, e, t = fields(x)
    return of_bits(((e + 1021) // 2 - k) * 2**52 + root((2**52 + t) * (2 - e % 2)))


def pow(b, e):
    if e == 0:
        return 1.0
    if e == e and 1 <= e <= 32 and e == int(e):
        y = b
        for _ in range(int(e) - 1):
            y = y * b
        return y
    if e == 0.5:
        return sqrt(b)
    if b == 0 and e != 0 and e == e:
        return 0.0 if e > 0 else INF
    if b == INF and e == e:
        return INF if e > 0 else 0.0
    if b < 0 or b != b or e != e:
        return NAN
    return exp(e * log(b))
