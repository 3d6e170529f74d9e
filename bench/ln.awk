# The natural logarithm, since not every awk has one: halved or doubled to near 1, then by the series of the inverse
# hyperbolic tangent, which is precise to more places there than are printed.
function ln(x,   twos, y, power, sum, i) {
    for (twos = 0; x > 1.4; twos++) x /= 2
    for (; x < 0.7; twos--) x *= 2
    y = (x - 1) / (x + 1)
    power = y
    for (i = 1; i < 24; i += 2) { sum += power / i; power *= y * y }
    return 2 * sum + twos * 0.693147180559945
}
