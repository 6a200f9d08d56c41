#!/usr/bin/env python3
"""Prints the cars of the ring roads: evenly spaced, all at a speed of 8."""
import math

RINGS = ((100, 16), (130, 32), (160, 56), (190, 84))

number = 0
for radius, cars in RINGS:
    for place in range(cars):
        angle = 2 * math.pi * place / cars
        x, y = radius * math.cos(angle), radius * math.sin(angle)
        print(f"Car,{number},{x:.6f},{y:.6f},{radius},8,0")
        number += 1
