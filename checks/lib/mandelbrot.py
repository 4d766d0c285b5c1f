"""Prints the picture that the program mandelbrot has to print, in python's exact integers.

Usage: checks/lib/mandelbrot.py WIDTH HEIGHT. It is written from the description of the picture: the middle
of each pixel in the plane from -2.25 to 0.75 and from -1 to 1, with 28 bits of fraction, rounded toward
zero from the edge; each square and product rounded down; at most 1,000 iterations, as long as the
point is not farther than 2 from 0. A coordinate of 8 or more, which the program cannot have, is farther.
"""
import sys

BITS, LIMIT = 28, 1000
ONE = 1 << BITS


def count(real, imaginary):
    """How many iterations the point gets before it escapes."""
    x = y = 0
    for iterations in range(LIMIT):
        if x * x + y * y > 4 << 2 * BITS:
            return iterations
        x, y = ((x * x - y * y) >> BITS) + real, ((2 * x * y) >> BITS) + imaginary
    return LIMIT


def wave(height):
    """Up from 0 to 255 and down again."""
    return min(height % 511, 510 - height % 511)


def pixel(iterations):
    """Red, green and blue."""
    if iterations == LIMIT:
        return bytes(3)
    return bytes(wave(iterations * slope) for slope in (11, 7, 3))


def picture(width, height):
    """The bytes of the picture."""
    yield b"P6\n%d %d\n255\n" % (width, height)
    for row in range(height):
        imaginary = ONE - 2 * ONE * (2 * row + 1) // (2 * height)
        for column in range(width):
            real = 3 * ONE * (2 * column + 1) // (2 * width) - 9 * ONE // 4
            yield pixel(count(real, imaginary))


if __name__ == "__main__":
    sys.stdout.buffer.writelines(picture(int(sys.argv[1]), int(sys.argv[2])))
