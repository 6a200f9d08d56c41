#!/usr/bin/env python3
"""Prints the people of the town: 1000 at random places, one with a rumour, one with its denial."""
import random

PEOPLE, SIDE = 1000, 50.0
draw = random.Random(4).random

for number in range(PEOPLE):
    x, y, news = SIDE * draw(), SIDE * draw(), 0
    if number == 0:
        x, y, news = 10.0, 10.0, 1
    if number == 1:
        x, y, news = 48.0, 48.0, 2
    print(f"Person,{number},{x:.3f},{y:.3f},{news},0")
