"""The facts of docs/GALLERY.md on the nets with monitors and with phases: each is as tests/facts.py says, and joins its groups."""
import itertools
import re

import scripts  # by which the package is found
from facts import Group, place_of, set_value
from nockmango import Count, Size, StopCount, Value

# ---- what monitors measure


def any_arrivals(draw, document):
    times = sorted(draw.randrange(25) for _ in range(draw.randint(1, 7)))
    place_of(document, "Coming")["initial"] = " ++ ".join(f"1`{n}@{at}" for n, at in enumerate(times, 1))
    set_value(document, "service", draw.randint(1, 6))


def any_stop(draw, document):
    document["monitors"][0]["n"] = draw.randint(1, 5)


desk = Group("measured_queue", draws=False)
any_desk = Group("measured_queue", "measured_queue, its customers drawn", change=any_arrivals)
cell = Group("production_cell")
any_batch = Group("production_cell", "production_cell, its batch drawn", change=any_stop)


@desk.run
def the_queue_is_as_by_hand(run):
    """the queue sums up to 12 and the clerk's work to 20 of 25, and five customers wait 12"""
    wanted = {"queue": Size(0, 2, 0, 12), "busy": Size(0, 1, 0, 20), "waiting": Value(5, 12, 0, 6, 0), "served": Count(5)}
    return run.end == "dead" and run.clock == 25 and run.monitors == wanted


def waits(document):
    """Returns how long each customer waits: until the one before is done."""
    service = int(re.search(r"service = (\d+)", document["declarations"][0])[1])
    times, free, found = [int(it) for it in re.findall(r"@(\d+)", place_of(document, "Coming")["initial"])], 0, []
    for at in times:
        found.append(max(free - at, 0))
        free = max(free, at) + service
    return service, found, free


@any_desk.run
def the_queue_is_what_is_waited(run):
    """the queue sums up over the time to what the customers wait, and the clerk's work to their services"""
    (service, found, free), of = waits(run.document), run.monitors
    values = Value(len(found), sum(found), min(found), max(found), 0)
    measured = of["queue"].area, of["busy"].area, of["waiting"], of["served"], run.clock
    return measured == (sum(found), service * len(found), values, Count(len(found)), free)


STATIONS = {"Press": ("load", "press"), "Drill": ("transfer", "drill")}


@cell.marking
def one_part_in_each_machine(state):
    """the room of a machine, its parts, and the one that the robot brings are one together"""
    there = lambda name, way, machine: [f"{name} Room", f"{name} In", f"{machine}/At Work", f"{name} Out", f"{way}/Held"]
    return all(sum(state.number(f"Cell/{it}") for it in there(name, *of)) == 1 for name, of in STATIONS.items())


@cell.marking
def the_robot_holds_one_part(state):
    """the robot is idle or holds one part"""
    return sum(state.number(f"Cell/{it}") for it in ("Robot", "load/Held", "transfer/Held", "deliver/Held")) == 1


@cell.run
def the_cell_is_as_by_hand(run):
    """the third part is delivered at 36; the robot is idle for 16 of that, the press works for 22, and the drill for 12"""
    sizes = {"robot idle": Size(0, 1, 1, 16), "press": Size(0, 1, 1, 22), "drill": Size(0, 1, 0, 12)}
    wanted = {"three parts": StopCount(3), "loaded": Count(4), **sizes}
    return run.end == "stop three parts" and run.clock == 36 and run.monitors == wanted


@any_batch.run
def each_part_takes_10(run):
    """a batch of k parts is delivered at 6 + 10k"""
    batch = run.document["monitors"][0]["n"]
    return run.end == "stop three parts" and run.clock == 6 + 10 * batch and run.monitors["three parts"] == StopCount(batch)


# ---- several runs

LIMITS = (2, 2, 4, 4)  # how many jars the guards let onto the line, run by run


def any_limit(draw, document):
    document["phases"][2]["edits"][0]["text"] = f"k < {draw.randint(2, 6)}"


def any_jobs(draw, document):
    jobs = [f"({n}, {draw.randint(1, 9)})" for n in range(1, draw.randint(2, 6))]
    place_of(document, "Queue")["initial"] = f"[{', '.join(jobs)}]"


packing = Group("packing_line")
any_packing = Group("packing_line", "packing_line, its second limit drawn", change=any_limit)
dispatching = Group("dispatching_rules")
any_dispatching = Group("dispatching_rules", "dispatching_rules, its jobs drawn", change=any_jobs)


def tokens_on(state, *names):
    return [state.number(f"Line/{it}") for it in names]


def jars_on_line(state):
    return sum(tokens_on(state, "Filling", "Sealing")) + len(state.one("Line/Waiting"))


@packing.marking
def the_line_is_counted(state):
    """the jars that are filled, wait and are sealed are as many as are counted, and not more than the guard allows"""
    return jars_on_line(state) == state.one("Line/On Line") <= LIMITS[state.run]


@packing.marking
def machines_are_free_or_work(state):
    """the filler is free or fills one jar, and the sealer is free or seals one"""
    return [sum(tokens_on(state, *it)) for it in (("Filler", "Filling"), ("Sealer", "Sealing"))] == [1, 1]


@packing.run
def the_line_is_as_by_hand(run):
    """with 2 jars the line seals 15 in the first 80 and then 16, each on the line for 10; with 4 jars it seals 16, each there for 20"""
    times = [part.monitors["lead time"] for part in run.parts]
    there = [Value(15, 148, 8, 10, 0), Value(16, 160, 10, 10, 0), Value(16, 320, 20, 20, 0)]
    return [*times[:2], times[3]] == there and [(part.end, part.clock) for part in run.parts] == [("stop window", 80 * k) for k in (1, 2, 3, 4)]


@any_packing.run
def a_jar_leaves_each_5(run):
    """with n jars one leaves each 5, after 5n"""
    n = int(run.document["phases"][2]["edits"][0]["text"].split()[-1])
    return run.parts[3].monitors["lead time"] == Value(16, 16 * 5 * n, 5 * n, 5 * n, 0)


def begins(times, machines):
    """Returns when jobs begin that are begun in this order, each on the machine that is free first."""
    free, found = [0] * machines, []
    for time in times:
        found.append(min(free))
        free[free.index(min(free))] += time
    return found, max(free)


@dispatching.run
def the_jobs_wait_as_by_hand(run):
    """the jobs wait 29 in the order of the list and 11 with the shortest first, and 3 on two machines, where all is done at 9"""
    waiting = Value(4, 29, 0, 13, 0), Value(4, 11, 0, 7, 0), Value(4, 3, 0, 2, 0)
    return run.parts == [("dead", clock, {"waiting": it}) for clock, it in zip((14, 14, 9), waiting)]


@dispatching.run
def the_end_could_be_earlier(run):
    """the shortest first is not best for the end: another order has all done at 7"""
    return min(begins(it, 2)[1] for it in itertools.permutations((7, 2, 4, 1))) == 7 < run.clock


@any_dispatching.run
def no_order_waits_less(run):
    """the jobs wait as the list orders them, and then least of all orders, on one machine and on two"""
    times = [int(it) for it in re.findall(r", (\d+)\)", place_of(run.document, "Queue")["initial"])]
    least = [min(sum(begins(it, machines)[0]) for it in itertools.permutations(times)) for machines in (1, 2)]
    return [part.monitors["waiting"].sum for part in run.parts] == [sum(begins(times, 1)[0]), *least]
