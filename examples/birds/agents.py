#!/usr/bin/env python3
"""Prints the birds: 150 gulls and 150 crows, mixed at random over one square."""
import math
import random

BIRDS, SIDE = 300, 40.0
draw = random.Random(3).random

for number in range(BIRDS):
    kind = "Gull" if number % 2 == 0 else "Crow"
    x, y, angle = SIDE * (draw() - 0.5), SIDE * (draw() - 0.5), 2 * math.pi * draw()
    vx, vy = 0.5 * math.cos(angle), 0.5 * math.sin(angle)
    print(f"{kind},{number},{x:.3f},{y:.3f},{vx:.3f},{vy:.3f},0,0")
