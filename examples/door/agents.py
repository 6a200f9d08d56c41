#!/usr/bin/env python3
"""Prints the people of the room: 240 at random places, no two within 0.6 metres, of two paces."""
import math
import random

PEOPLE, APART = 240, 0.6
draw = random.Random(2).random

places = []
while len(places) < PEOPLE:
    place = 2 + 27 * draw(), -9.5 + 19 * draw()
    if all(math.dist(place, other) >= APART for other in places):
        places.append(place)
for number, (x, y) in enumerate(places):
    pace = 0.5 + 0.2 * draw()
    print(f"Person,{number},{x:.3f},{y:.3f},{pace:.3f},0")
