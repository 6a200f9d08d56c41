#!/usr/bin/env python3
"""Prints the agents of the school: 300 fish at random places with random headings, 30 leaders.

    agents.py [FISH [SIDE]]     another number of fish, one in ten a leader, over a square of SIDE
"""
import math
import random
import sys

FISH = int(sys.argv[1]) if len(sys.argv) > 1 else 300
SIDE = float(sys.argv[2]) if len(sys.argv) > 2 else 36.0
LEADERS, WISH = FISH // 10, (0.2, 0.1)
draw = random.Random(1).random

for number in range(FISH):
    x, y, angle = SIDE * draw(), SIDE * draw(), 2 * math.pi * draw()
    wx, wy = WISH if number < LEADERS else (0.0, 0.0)
    print(f"Fish,{number},{x:.3f},{y:.3f},{math.cos(angle):.3f},{math.sin(angle):.3f},{wx},{wy},0")
