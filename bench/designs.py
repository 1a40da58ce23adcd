# scipy's remez, asked by bench/designs.rs. A line in: COUNT GRID TAPS TYPE, then the bands as BEGIN END DESIRED WEIGHT each. A line out:
# the nanoseconds of a design, the least of COUNT, then the taps.
import sys
import time
from scipy.signal import remez

for line in sys.stdin:
    words = line.split()
    count, grid, taps, kind = int(words[0]), int(words[1]), int(words[2]), words[3]
    numbers = [float(word) for word in words[4:]]
    edges = [x for i in range(0, len(numbers), 4) for x in numbers[i : i + 2]]
    desired, weights = numbers[2::4], numbers[3::4]
    best = None
    for _ in range(count):
        began = time.perf_counter_ns()
        h = remez(taps, edges, desired, weight=weights, type=kind, maxiter=100, grid_density=grid, fs=1.0)
        took = time.perf_counter_ns() - began
        best = took if best is None else min(best, took)
    print(best, *h.tolist(), flush=True)
