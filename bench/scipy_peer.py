#!/usr/bin/env python3
"""SciPy's qmc.Sobol against vektrid_fill, both in this one process, in turn.

    scipy_peer.py LIBRARY SECONDS WORD..    (target/libvektrid.so; 0 seconds only compares values; the 64 words of any pair)

Prints lines of a name and a value. SciPy gives the standard pair, X first, in Gray-code order: point k is that of index k xor k/2, k = 0
included, the top 30 bits of each coordinate as a double. A draw from an engine that has drawn before is up to twice as fast as the first
one, which copies everything to set point 0 before the others: it is measured too, as `later`.
"""
import ctypes
import random
import sys
import time

import numpy as np
import scipy
from scipy.stats import qmc

COUNT = 1 << 20


def pointer(words):
    return words.ctypes.data_as(ctypes.POINTER(ctypes.c_uint32))


def fill_call(library, pair, xs, ys):
    """A function of no arguments that fills xs and ys with the points of a pair from index 0 on."""
    call = library.vektrid_fill
    word, size, words = ctypes.c_uint32, ctypes.c_size_t, ctypes.POINTER(ctypes.c_uint32)
    flips = [ctypes.c_char_p, size]
    no_flips = bytes(32)
    call.argtypes = [words, size, word, word, *flips, *flips, word, words, size, words, size]
    call.restype = word
    arguments = (pointer(pair), len(pair), 0, 0, no_flips, 32, no_flips, 32, 0, pointer(xs), len(xs), pointer(ys), len(ys))
    return lambda: call(*arguments)


def agree(engine_points, xs, ys):
    k = np.arange(len(engine_points), dtype=np.uint32)
    gray = k ^ (k >> np.uint32(1))
    return all(np.array_equal(engine_points[:, axis] * 2.0**30, words[gray] >> np.uint32(2)) for axis, words in enumerate((xs, ys)))


def compare(library):
    """Whether SciPy's first points, and those of a second draw, are ours."""
    standard = np.zeros(64, dtype=np.uint32)
    library.vektrid_standard_pair(pointer(standard), ctypes.c_size_t(64))
    xs, ys = np.zeros(2 * COUNT, dtype=np.uint32), np.zeros(2 * COUNT, dtype=np.uint32)
    if fill_call(library, standard, xs, ys)() != 0:
        return False
    engine = qmc.Sobol(d=2, scramble=False)
    drawn = np.concatenate([engine.random(COUNT), engine.random(COUNT)])
    return agree(drawn, xs, ys) and np.array_equal(qmc.Sobol(d=2, scramble=False).random_base2(20), drawn[:COUNT])


def contenders(fill):
    """Name, preparation and timed call of each. Of the two first draws the better counts."""

    def fresh():
        return qmc.Sobol(d=2, scramble=False)

    def used():
        engine = fresh()
        engine.random(2)
        return engine

    return [
        ('ours', lambda: None, lambda _: fill()),
        ('first', fresh, lambda engine: engine.random(COUNT)),
        ('first', fresh, lambda engine: engine.random_base2(20)),
        ('later', used, lambda engine: engine.random(COUNT)),
    ]


def measure(fill, seconds):
    best, rounds = {}, 0
    end = time.perf_counter() + seconds
    while time.perf_counter() < end:
        rounds += 1
        order = contenders(fill)
        random.shuffle(order)
        for name, prepare, call in order:
            prepared = prepare()
            start = time.perf_counter()
            result = call(prepared)
            took = time.perf_counter() - start
            del result  # not in the time
            best[name] = min(best.get(name, took), took)
    return best | {'rounds': rounds}


def main():
    library, seconds = ctypes.CDLL(sys.argv[1]), float(sys.argv[2])
    pair = np.array([int(word) for word in sys.argv[3:]], dtype=np.uint32)
    xs, ys = np.zeros(COUNT, dtype=np.uint32), np.zeros(COUNT, dtype=np.uint32)
    fill = fill_call(library, pair, xs, ys)
    print('version', scipy.__version__)
    print('equal', int(compare(library) and fill() == 0))
    for name, value in measure(fill, seconds).items():
        print(name, value)


main()
