"""The door of an event: in walks by chance against the events before it, looked at one by one, and of events by chance, which few walks reach, against
runs back."""
from desk_model.door import door
from desk_model.services import BACK, run
from desk_model.trees import *
from desk_model.writer import listed_record, record
from model_checks.bench import same
from model_checks.chance import Chance
from model_checks.walks import events_of

ROOM = 32768
MOST = 4294967295


def nearest(events, n):
    """the place of the last call, up to event n, of its goal with its ancestors"""
    of = events[n].goal, events[n].ancestors
    return max(k for k in range(n + 1) if events[k].port == CALL and (events[k].goal, events[k].ancestors) == of)


def under_limits(program, event, steps, reached):
    """32 under limits below the steps that lead to the answer; reached: the record so many steps back"""
    for limit in {0, 1, steps // 2, steps - 1} & set(range(steps)):
        same(door(program, event, limit, ROOM), (32, limit, reached(limit)))


# ---- Groups
def doors_in_walks_by_chance():
    chance, met = Chance(10), 0
    for _ in range(60):
        program, keys = chance.program(2)
        events = events_of(program, chance.goal(3, keys, 3), 60)
        data, walk = listed_record(program), [record(e) for e in events]
        for n in range(len(walk)):
            at = nearest(events, n)
            for limit in n - at, n - at + 1, MOST:
                same(door(data, walk[n], limit, ROOM), (0, n - at, walk[at]))
            under_limits(data, walk[n], n - at, lambda taken: walk[n - taken])
            met += n - at > 1
    assert met > 200


def ways_back_of_events_by_chance():
    """0 at a call alone, and never 6: a way back to a first event would be a walk, and an event of a walk has its door in it"""
    chance, met = Chance(12), {0: 0, 7: 0}
    for _ in range(1500):
        program, keys = chance.program(1)
        data, event = listed_record(program), record(chance.event(keys))
        number, taken, reached = door(data, event, MOST, ROOM)
        met[number] += taken > 0
        same(run(BACK, data, event, taken, ROOM), (0, taken, reached))
        same(door(data, event, taken, ROOM), (number, taken, reached))
        assert number == 0 or run(BACK, data, event, MOST, ROOM) == (number, taken, reached)
        under_limits(data, event, taken, lambda limit: run(BACK, data, event, limit, ROOM)[2])
    assert min(met.values()) > 50, met


GROUPS = doors_in_walks_by_chance, ways_back_of_events_by_chance
