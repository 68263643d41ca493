# SPDX-License-Identifier: MIT
"""The cross field of a disk, with crosses along its rim: four singularities, by Poincare and Hopf."""

import math

import godf

RINGS, SECTORS = 6, 24

points = [(0.0, 0.0)]
triangles = []
for ring in range(1, RINGS + 1):
    for k in range(SECTORS):
        turn = 2 * math.pi * k / SECTORS
        points.append((ring * math.cos(turn), ring * math.sin(turn)))
for k in range(SECTORS):
    here, after = 1 + k, 1 + (k + 1) % SECTORS
    triangles.append((0, here, after))
    for ring in range(RINGS - 1):
        inner, outer = ring * SECTORS, (ring + 1) * SECTORS
        triangles.append((inner + here, outer + here, outer + after))
        triangles.append((inner + here, outer + after, inner + after))

field = godf.solve(points, triangles, sizes=1.0, boundary="tangent")
print("%d points, %d triangles" % (len(points), len(triangles)))
for triangle, valence in godf.singularities(field.angles, triangles):
    x, y = (sum(points[corner][axis] for corner in triangles[triangle]) / 3 for axis in (0, 1))
    print("%d quads meet at (%.2f, %.2f)" % (valence, x, y))
print("angle at (5, 0): %.4f" % godf.probe(field.angles, points, triangles, 5, 0))

try:
    godf.solve(points, triangles, sizes=[-1.0] + [1.0] * (len(points) - 1))
except godf.Refusal as refusal:
    print("refusal %d: %s" % (refusal.number, refusal))
