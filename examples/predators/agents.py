#!/usr/bin/env python3
"""Prints the animals: 300 hares and 40 foxes, at random over the field."""
import random

HARES, FOXES, SIDE = 300, 40, 40.0
draw = random.Random(5).random

for number in range(HARES + FOXES):
    x, y = SIDE * draw(), SIDE * draw()
    if number < HARES:
        print(f"Hare,{number},{x:.3f},{y:.3f}")
    else:
        print(f"Fox,{number},{x:.3f},{y:.3f},{5 + int(10 * draw())}")
