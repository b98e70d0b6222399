"""A timetable: each lesson gets an hour and a room, as long as no teacher and no class is in two places at once."""
from itertools import combinations, product

from varisat import Solver

LESSONS = [("Maths", "Ada", "7a"), ("Maths", "Ada", "7b"), ("Music", "Bach", "7a"), ("Music", "Bach", "7b"), ("Art", "Cleo", "7a")]
HOURS, ROOMS = [8, 9, 10], ["blue", "red"]

# A variable for each lesson at each hour in each room.
places = list(product(HOURS, ROOMS))
is_at = {it: number for number, it in enumerate(product(LESSONS, places), 1)}

with Solver() as solver:
    for lesson in LESSONS:
        solver.add_clause([is_at[lesson, place] for place in places])
    for (one, there), (other, here) in combinations(is_at, 2):
        same_hour = there[0] == here[0]
        if one == other or there == here or (same_hour and (one[1] == other[1] or one[2] == other[2])):
            solver.add_clause([-is_at[one, there], -is_at[other, here]])
    # Bach is not there at eight, and Cleo comes only then: asked as assumptions, so that the same solver answers other wishes.
    wishes = [-is_at[lesson, place] for lesson, place in is_at if (lesson[1], place[0]) in [("Bach", 8), ("Cleo", 9), ("Cleo", 10)]]
    if solver.solve(assumptions=wishes):
        true = set(solver.get_model())
        for (subject, teacher, group), (hour, room) in sorted((it for it in is_at if is_at[it] in true), key=lambda it: it[1]):
            print(f"{hour:2} {room}: {subject} of {group}, {teacher}")
    # Where nobody may come at eight, there is no room for five lessons.
    early = [-is_at[lesson, place] for lesson, place in is_at if place[0] == 8]
    print("without the first hour:", "fine" if solver.solve(assumptions=early) else "no")
