#!/usr/bin/env python3
"""Fills the plan of crates/planner_bench by the rules of docs/DRAWING.md, and prints what that program has to print.

Written from the rules alone, and not from the program: it asks each timetable by trying the tick asked and every end, and
keeps no bookings in order.
"""

LAYER, STRIDE, HORIZON = 16, 5, 2_000_000_000
MACHINES = [1 + m % 4 for m in range(16)]
LINKS = [({k % 16, (k + (1 if k < 16 else STRIDE)) % 16}, 1 + k % 3) for k in range(32)]
WORKS = [100 + t * 73 % 400 for t in range(128)]
EDGES = [
    (i // 2, (i // 2 // LAYER + 1) * LAYER + (i // 2 + i % 2 * STRIDE) % LAYER, 20 + i * 29 % 80) for i in range(224)
]


def ticks(amount, rate):
    return -(-amount // rate)


def routes_from(source):
    """The links to each station, by the fewest hops: docs/MODEL.md, "The search"."""
    settled = [(source, 0, [])]
    while True:
        reached = {station for station, _, _ in settled}
        ways = [
            (hops + 1, goal, place, link)
            for place, (station, hops, _) in enumerate(settled)
            for link, (stations, _) in enumerate(LINKS)
            if station in stations
            for goal in stations - reached
        ]
        if not ways:
            return {station: links for station, _, links in settled}
        hops, goal, place, link = min(ways)
        settled.append((goal, hops, settled[place][2] + [link]))


def earliest(bookings, resource, start, length):
    spans = [(s, e) for r, s, e in bookings if r == resource]
    for s in sorted([start] + [e for _, e in spans if e >= start]):
        if s + length <= HORIZON and all(s + length <= b or e <= s for b, e in spans):
            return s
    raise SystemExit("no start")


def placed(bookings, places, routes, task, machine):
    """The finish of the task on the machine, and the bookings with its own."""
    made, ready = list(bookings), 0
    for origin, goal, volume in EDGES:
        if goal == task:
            station, finish = places[origin]
            first, previous = None, finish
            for link in routes[station][machine]:
                length = ticks(volume, LINKS[link][1])
                start = finish if first is None else max(first, previous - length)
                start = earliest(made, 16 + link, start, length)
                first = start if first is None else first
                previous = start + length
                made.append((16 + link, start, previous))
            ready = max(ready, previous)
    length = ticks(WORKS[task], MACHINES[machine])
    start = earliest(made, machine, ready, length)
    return start + length, made + [(machine, start, start + length)]


def main():
    routes = [routes_from(station) for station in range(16)]
    levels = [0] * len(WORKS)
    for task in reversed(range(len(WORKS))):
        levels[task] = WORKS[task] + max((v + levels[b] for a, b, v in EDGES if a == task), default=0)
    bookings, places = [], {}
    for task in sorted(range(len(WORKS)), key=lambda t: (-levels[t], t)):
        tries = [placed(bookings, places, routes, task, machine) for machine in range(len(MACHINES))]
        machine = min(range(len(MACHINES)), key=lambda m: (tries[m][0], m))
        finish, bookings = tries[machine]
        places[task] = (machine, finish)
    length = max(finish for _, finish in places.values())
    print(f"{len(places)} tasks in {len(bookings)} bookings, length {length}")


main()
