"""The facts of docs/GALLERY.md: what theory says of the nets of nets/, each with its sentence. tests/gallery checks them.

A group is a net with its facts, and how many occurrences a run may have. A fact is a function whose docstring is its sentence: one of
a marking gets the state after an occurrence (nockmango.model), one of a run the run when it has ended, and one of all runs their list.
The documents of a group may be changed from seed to seed. Numbers that are compared were worked out by hand in docs/GALLERY.md.
"""
import collections
import copy
import itertools
import json
import random
import re

GROUPS = []


class Group:
    """A net with its facts, and how many workers make its runs. A net that draws nothing is run once, unless its documents differ."""

    def __init__(self, net, name=None, steps=1000, change=None, draws=True, workers=1):
        self.net, self.name, self.steps, self.change, self.draws, self.workers = net, name or net, steps, change, draws, workers
        self.of_markings, self.of_runs, self.of_all = [], [], []
        GROUPS.append(self)

    @property
    def facts(self):
        return self.of_markings + self.of_runs + self.of_all

    def document(self, seed):
        """Returns the document of a seed."""
        document = copy.deepcopy(self.whole)
        if self.change:
            self.change(random.Random(seed), document)
        return document

    def marking(self, fact):
        self.of_markings.append(fact)

    def run(self, fact):
        self.of_runs.append(fact)

    def all(self, fact):
        self.of_all.append(fact)


def groups(folder):
    """Returns all groups, with the documents that stand in a folder."""
    for group in GROUPS:
        with open(f"{folder}/{group.net}.json", encoding="utf-8") as file:
            group.whole = json.load(file)
    return GROUPS


def count(*values):
    return collections.Counter(values)


def place_of(document, name):
    return next(it for it in document["modules"][0]["places"] if it["name"] == name)


def set_value(document, name, text):
    """Gives a declared value another text."""
    at = next(at for at, it in enumerate(document["declarations"]) if it.startswith(f"val {name} "))
    document["declarations"][at] = f"val {name} = {text};"


def is_near(found, wanted, variance):
    """Returns whether a sum is within five standard deviations of what is expected."""
    return (found - wanted) ** 2 <= 25 * variance


# ---- philosophers

PHILOSOPHERS = range(1, 6)
dining = Group("dining_philosophers", steps=120)
left_first = Group("left_fork_first")


def left_of(fork):
    """Returns the philosopher whose right fork it is."""
    return fork - 1 or 5


@dining.marking
def each_thinks_or_eats(state):
    """each philosopher thinks or eats"""
    return state.counted("Table/Thinking") + state.counted("Table/Eating") == count(*PHILOSOPHERS)


@dining.marking
def each_fork_is_in_one_place(state):
    """each fork lies on the table, or just one of the two philosophers beside it eats"""
    forks, eating = state.counted("Table/Forks"), state.counted("Table/Eating")
    return all(forks[it] + eating[it] + eating[left_of(it)] == 1 for it in PHILOSOPHERS)


@dining.marking
def at_most_two_eat(state):
    """at most two of the five eat"""
    return state.number("Table/Eating") <= 2


@dining.run
def the_table_never_blocks(run):
    """the run never ends dead"""
    return run.end == "steps"


@left_first.marking
def each_fork_has_one_holder(state):
    """each fork lies on the table, or just one philosopher holds it"""
    forks, left, eating = (state.counted(f"Table/{it}") for it in ("Forks", "Has Left", "Eating"))
    return all(forks[it] + left[it] + eating[it] + eating[left_of(it)] == 1 for it in PHILOSOPHERS)


@left_first.run
def dead_where_each_has_its_left_fork(run):
    """a run ends dead just where each philosopher holds its left fork"""
    return (run.end == "dead") == (run.last.counted("Table/Has Left") == count(*PHILOSOPHERS))


@left_first.all
def runs_do_block(runs):
    """and all runs of 1,000 occurrences end so"""
    return all(run.end == "dead" for run in runs)


# ---- Jensen's resource allocation system and his data base

allocation = Group("resource_allocation", steps=150)
database = Group("distributed_database", steps=160)


def processes(state, kind, places):
    """Returns how many processes of a kind are on these places."""
    return sum(many for place in places for value, many in state.counted(f"Allocation/{place}").items() if value[0].name == kind)


@allocation.marking
def processes_stay(state):
    """there are always two p-processes and three q-processes"""
    return (processes(state, "p", "ABCDE"), processes(state, "q", "ABCDE")) == (2, 3)


@allocation.marking
def r_is_free_or_held(state):
    """R and the q-processes on B and C are one together"""
    return state.number("Allocation/R") + processes(state, "q", "BC") == 1


@allocation.marking
def s_is_free_or_held(state):
    """S, the q-processes on B, and twice the processes on C, D and E are three together"""
    return state.number("Allocation/S") + processes(state, "q", "B") + 2 * sum(processes(state, it, "CDE") for it in "pq") == 3


@allocation.marking
def t_is_free_or_held(state):
    """T, the processes on D, and those on E, where a p-process counts twice, are two together"""
    held = processes(state, "p", "D") + processes(state, "q", "D") + 2 * processes(state, "p", "E") + processes(state, "q", "E")
    return state.number("Allocation/T") + held == 2


@allocation.run
def allocation_goes_on(run):
    """the run never ends dead"""
    return run.end == "steps"


MANAGERS = range(4)


def messages_of(sender):
    return count(*((sender, it) for it in MANAGERS if it != sender))


def on_places(state, *names):
    return sum((state.counted(f"Database/{it}") for it in names), count())


@database.marking
def each_manager_has_one_state(state):
    """each manager is inactive, waiting or performing"""
    return on_places(state, "Inactive", "Waiting", "Performing") == count(*MANAGERS)


@database.marking
def each_message_is_in_one_place(state):
    """each message is unused, sent, received or acknowledged"""
    return on_places(state, "Unused", "Sent", "Received", "Acknowledged") == sum(map(messages_of, MANAGERS), count())


@database.marking
def messages_are_those_of_the_waiting(state):
    """the messages under way are just those of the manager that waits, and at most one waits"""
    waiting = on_places(state, "Waiting")
    under_way = on_places(state, "Sent", "Received", "Acknowledged")
    return under_way == sum(map(messages_of, waiting), count()) and waiting.total() == state.number("Database/Active") <= 1


@database.marking
def performing_are_those_who_received(state):
    """the managers that perform are those whose message is received"""
    return on_places(state, "Performing") == count(*(it for _, it in on_places(state, "Received").elements()))


@database.run
def an_update_takes_eight_occurrences(run):
    """each update takes 2n occurrences, of which the last is `Receive all Acks`"""
    names = [name.rpartition("/")[2] for _, name, _ in run.occurrences]
    lasts = [at for at, name in enumerate(names) if name == "Receive all Acks"]
    return run.end == "steps" and lasts == [*range(7, 160, 8)]


# ---- protocols

PACKETS = {1: "COL", 2: "OUR", 3: "ED ", 4: "NET"}
modules = Group("protocol_in_three_modules", steps=3000)
simple = Group("simple_protocol", steps=3000)
simple_by_four = Group("simple_protocol", "simple_protocol, by four workers", steps=500, workers=4)
waiting = Group("stop_and_wait", steps=3000)
timed = Group("timed_stop_and_wait", steps=3000)


def text_before(number):
    return "".join(text for at, text in PACKETS.items() if at < number)


@modules.marking
def received_in_order(state):
    """the receiver has the texts of the packets before the one that it waits for, each once and in their order"""
    return state.one("Protocol/Receiver/Data Received") == text_before(state.one("Protocol/Receiver/Next Rec"))


@modules.marking
def sender_and_receiver_agree(state):
    """the sender's number is the receiver's, or the one before it"""
    return state.one("Protocol/Receiver/Next Rec") - state.one("Protocol/Sender/Next Send") in (0, 1)


@modules.run
def all_is_received(run):
    """the run ends dead, with all four packets received and acknowledged"""
    return run.end == "dead" and run.last.one("Protocol/Sender/Next Send") == 5


@modules.run
def four_packets_take_63(run):
    """the last acknowledgement comes at 63 or later"""
    return run.of("Receive Ack")[-1][0] >= 63


@simple.marking
def simple_received_in_order(state):
    """the receiver has the texts of the packets before the one that it waits for, each once and in their order"""
    return state.one("Protocol/Data Received") == text_before(state.one("Protocol/Next Rec"))


@simple.run
def simple_ends(run):
    """the run ends dead, with all three packets received"""
    return run.end == "dead" and run.last.one("Protocol/Data Received") == "COLOURED "


@simple_by_four.marking
def received_in_order_by_four(state):
    """the receiver has the texts of the packets before the one that it waits for, and the sender waits for none behind that one"""
    wanted = state.one("Protocol/Next Rec")
    return state.one("Protocol/Data Received") == text_before(wanted) and 1 <= state.one("Protocol/Next Send") <= wanted <= 4


@simple_by_four.marking
def packets_stay_by_four(state):
    """the packets to send stay as they are"""
    return state.counted("Protocol/Packets To Send") == count(*[*PACKETS.items()][:3])


@simple_by_four.run
def simple_ends_by_four(run):
    """the run ends by the limit of its steps, or dead with all three packets received"""
    return run.end == "steps" or run.end == "dead" and run.last.one("Protocol/Data Received") == "COLOURED "


@waiting.marking
def one_message_is_under_way(state):
    """there is one message under way, or the limit's token"""
    return sum(state.number(f"Protocol/{it}") for it in ("Limit", "A", "B", "C", "D")) == 1


@waiting.marking
def waiting_received_in_order(state):
    """the receiver has the texts of the packets before the one that it waits for, each once and in their order"""
    return state.one("Protocol/Data Received") == text_before(state.one("Protocol/Next Rec"))


@waiting.run
def waiting_ends(run):
    """the run ends dead, with all three packets received"""
    return run.end == "dead" and run.last.one("Protocol/Data Received") == "COLOURED "


@timed.run
def each_loss_costs_a_timeout(run):
    """the last acknowledgement comes at 36, and 25 later for each message that was lost"""
    lost = sum(not binding["success"] for name in ("Transmit Packet", "Transmit Ack") for _, binding in run.of(name))
    return run.end == "dead" and run.of("Receive Ack")[-1][0] == 36 + 25 * lost


# ---- election


def any_arrangement(draw, document):
    ids = draw.sample(range(100), 5)
    place_of(document, "Asleep")["initial"] = " ++ ".join(f"1`({at}, {it})" for at, it in enumerate(ids))


def best_arrangement(_, document):
    place_of(document, "Asleep")["initial"] = " ++ ".join(f"1`({at}, {10 * at + 10})" for at in range(5))


def asleep(document):
    """Returns the numbers of the processes, seat by seat."""
    return [int(it) for it in re.findall(r"\(\d, (\d+)\)", place_of(document, "Asleep")["initial"])]


def messages_wanted(ids):
    """Returns how many messages are sent: each number goes on up to the first seat with a greater one, or all round."""
    ways = ([ids[(at + step) % len(ids)] > own for step in range(1, len(ids))] for at, own in enumerate(ids))
    return sum(1 + [*way, True].index(True) for way in ways)


worst = Group("ring_election")
best = Group("ring_election", "ring_election, its numbers turned round", change=best_arrangement)
arranged = Group("ring_election", "ring_election, its numbers in any order", change=any_arrangement)


@worst.run
def worst_case(run):
    """15 messages are sent, n(n + 1)/2, and the greatest number wins"""
    return (run.end, run.last.one("Ring/Sent"), run.last.one("Ring/Leader")) == ("dead", 15, 50)


@best.run
def best_case(run):
    """9 messages are sent, 2n - 1, and the greatest number wins"""
    return (run.end, run.last.one("Ring/Sent"), run.last.one("Ring/Leader")) == ("dead", 9, 50)


@arranged.run
def any_case(run):
    """each number is sent up to the first seat with a greater one, and the greatest number wins"""
    ids = asleep(run.document)
    return (run.last.one("Ring/Sent"), run.last.one("Ring/Leader")) == (messages_wanted(ids), max(ids))


# ---- machines and queues


def makespan(jobs):
    """Returns when the second machine has done all jobs, one after the other."""
    first = second = 0
    for a, b in jobs:
        first += a
        second = max(first, second) + b
    return second


def any_jobs(draw, document):
    jobs = [(at, draw.randint(1, 9), draw.randint(1, 9)) for at in range(1, 6)]
    place_of(document, "Orders")["initial"] = str(jobs)


def orders(document):
    """Returns the works of the jobs on both machines."""
    return [(int(a), int(b)) for a, b in re.findall(r"\(\d+, (\d+), (\d+)\)", place_of(document, "Orders")["initial"])]


shop = Group("flow_shop")
any_shop = Group("flow_shop", "flow_shop, its jobs drawn", change=any_jobs)


def last_done(run):
    return max(at for _, at in run.last.counted("Shop/Done"))


@shop.run
def makespan_is_24(run):
    """the last job is done at 24"""
    return last_done(run) == 24


@any_shop.run
def makespan_is_least(run):
    """the last job is done at the least time of all 120 sequences"""
    return last_done(run) == min(makespan(it) for it in itertools.permutations(orders(run.document)))


def any_counter(draw, document):
    for name, text in (("customers", draw.randint(1, 9)), ("gap", draw.randint(1, 6)), ("service", draw.randint(1, 6))):
        set_value(document, name, text)


counter = Group("fixed_service")
any_counter = Group("fixed_service", "fixed_service, its numbers drawn", change=any_counter)


def waited(run):
    return sorted(run.last.counted("Counter/Waited"))


@counter.run
def each_waits_one_more(run):
    """customer k waits k"""
    return waited(run) == [(k, k) for k in range(6)]


@any_counter.run
def each_waits_by_the_difference(run):
    """customer k waits k times as long as the service is longer than the gap, and nothing where it is not"""
    customers, gap, service = (int(it.split(" = ")[1][:-1]) for it in run.document["declarations"][:3])
    return waited(run) == [(k, k * max(0, service - gap)) for k in range(customers)]


server = Group("queue_with_server")
machines = Group("three_machines")
line = Group("production_line")


@server.run
def server_ends_at_11(run):
    """the last job is finished at 11"""
    return run.clock == max(at for _, at in run.last.counted("Shop/Done")) == 11


@machines.run
def painted_at_20(run):
    """the second part is painted at 20"""
    return run.end == "dead" and run.clock == 20


MACHINES = [f"Factory/{cell}/{machine}" for cell in ("blanking", "finishing") for machine in ("first", "second")]


@line.marking
def operators_are_free_or_at_work(state):
    """the free operators and the machines at work are two together"""
    return state.number("Factory/Operators") + sum(state.number(f"{it}/At Work") for it in MACHINES) == 2


@line.marking
def each_machine_is_idle_or_at_work(state):
    """each machine is idle or works on one part"""
    return all(state.number(f"{it}/Idle") + state.number(f"{it}/At Work") == 1 for it in MACHINES)


@line.marking
def no_part_is_lost(state):
    """the three parts stay three"""
    buffers = ["Raw", "Blanks", "Finished", "blanking/Buffer", "finishing/Buffer"]
    parts = [f"Factory/{it}" for it in buffers] + [f"{it}/At Work" for it in MACHINES]
    return sum((state.counted(it) for it in parts), count()) == count(1, 2, 3)


@line.run
def the_line_takes_35(run):
    """all parts are finished, at 35 or later"""
    return run.end == "dead" and run.last.number("Factory/Finished") == 3 and run.clock >= 35


@line.all
def some_line_takes_35(runs):
    """and some runs end at just 35"""
    return any(run.clock == 35 for run in runs)


# ---- buffers

bounded = Group("bounded_queue")
slots = Group("producer_consumer")
printer = Group("queue_as_list")


@bounded.marking
def the_queue_is_bounded(state):
    """at most three items are in the queue"""
    return len(state.one("Store/Queue")) <= 3


@bounded.marking
def what_is_produced_is_there(state):
    """what is produced waits or is consumed, each once"""
    produced = [(who, n) for who, last in state.counted("Store/Producers") for n in range(1, last)]
    got = [item for _, items in state.counted("Store/Consumers") for item in items]
    return count(*produced) == count(*state.one("Store/Queue"), *got)


@bounded.run
def first_in_first_out(run):
    """items are consumed in the order in which they are produced, all eight"""
    produced = [(it["p"], it["n"]) for _, it in run.of("produce")]
    return run.end == "dead" and len(produced) == 8 and produced == [it["item"] for _, it in run.of("consume")]


@slots.marking
def two_slots(state):
    """the free slots and the items in the buffer are two together"""
    return state.number("Line/Free Slots") + state.number("Line/Buffer") == 2


@slots.marking
def four_items(state):
    """the four orders become four items"""
    return sum(state.number(f"Line/{it}") for it in ("Orders", "Buffer", "Delivered")) == 4


@printer.run
def printed_as_joined(run):
    """jobs are printed in the order in which they joined"""
    joined = [it["job"] for _, it in run.of("join")]
    return run.end == "dead" and len(joined) == 3 and run.last.one("Printer/Printed") == joined


# ---- chance

inspection = Group("probability")
office = Group("random_delay")


@inspection.run
def all_parts_are_good(run):
    """all ten parts are good at the end"""
    return run.end == "dead" and run.last.counted("Inspection/Good") == count(*range(1, 11))


@inspection.all
def one_part_of_five_is_rejected(runs):
    """a part is inspected 1.25 times on average, within five standard deviations"""
    parts = 10 * len(runs)
    return is_near(sum(len(run.of("inspect")) for run in runs), 1.25 * parts, 0.3125 * parts)


def services(run):
    """Returns when each customer's service began and ended."""
    ends = run.last.marking["Office/Served"]
    return [(at, *ends[it["k"]]) for at, it in run.of("serve")]


@office.run
def the_clerk_serves_one_at_a_time(run):
    """ten customers are served, and none begins before the one before is done"""
    found = services(run)
    return len(found) == 10 and all(end <= later for (_, end), (later, _) in zip(found, found[1:]))


@office.all
def services_take_4(runs):
    """a service takes 4 on average, within five standard deviations"""
    works = [end - at for run in runs for at, end in services(run)]
    return is_near(sum(works), 4 * len(works), 7 * len(works))


@office.all
def gaps_are_6(runs):
    """customers come 6 apart on average, within five standard deviations"""
    gaps = [later - at for run in runs for (at, _), (later, _) in zip(run.of("arrive"), run.of("arrive")[1:])]
    return set(gaps) <= set(range(4, 9)) and is_near(sum(gaps), 6 * len(gaps), 2 * len(gaps))


# ---- a workflow, a lift, trains

workflow = Group("order_with_deadline")
lift = Group("elevator")
ring = Group("railway_ring", steps=120)
crossing = Group("railway_crossing")


@workflow.marking
def never_both(state):
    """no order is shipped and cancelled"""
    closed = [order for name in ("Shipped", "Cancelled") for order, _ in state.counted(f"Office/{name}").elements()]
    return len(closed) == len({*closed})


@workflow.run
def nothing_is_left(run):
    """all three orders are closed, and no token is left on another place"""
    left = [run.last.number(f"Office/{it}") for it in ("Inbox", "Open", "Credit", "Goods", "Alarm")]
    return run.end == "dead" and sum(left) == 0 and run.last.number("Office/Shipped") + run.last.number("Office/Cancelled") == 3


@workflow.run
def shipped_in_time_or_cancelled(run):
    """an order is shipped as soon as both parts are done, where that is within 8 hours, and otherwise cancelled after 8 and a half"""
    wanted = {"Shipped": count(), "Cancelled": count()}
    for came, it in run.of("receive"):
        took = max(it["check"], it["pack"])
        wanted["Shipped" if took <= 8 else "Cancelled"][it["order"], came + (2 * took if took <= 8 else 17)] += 1
    return all(run.last.counted(f"Office/{name}") == them for name, them in wanted.items())


CALLS = count((0, 3), (2, 0), (1, 4), (3, 0), (4, 2))


@lift.marking
def nobody_is_lost(state):
    """each passenger is to come, waits, rides or has arrived"""
    there = [it for name in ("Waiting", "Aboard", "Arrived") for it in state.one(f"House/{name}")]
    return state.counted("House/To Come") + count(*there) == CALLS


@lift.run
def all_arrive(run):
    """all five arrive, and the run ends dead"""
    return run.end == "dead" and count(*run.last.one("House/Arrived")) == CALLS


@lift.run
def it_stops_where_it_is_wanted(run):
    """the lift leaves no floor where one waits or wants to get out"""
    going = [(it["floor"], it["waiting"], it["aboard"]) for name in ("go on", "turn") for _, it in run.of(name)]
    return not any(start == floor or end == floor for floor, waits, rides in going for start, _ in waits for _, end in rides)


def any_calls(draw, document):
    calls = [tuple(draw.sample(range(5), 2)) for _ in range(draw.randint(1, 5))]
    place_of(document, "Waiting")["initial"] = str(calls)
    place_of(document, "To Come")["initial"] = "empty"


def calls_of(document):
    return [(int(a), int(b)) for a, b in re.findall(r"\((\d), (\d)\)", place_of(document, "Waiting")["initial"])]


any_lift = Group("elevator", "elevator, calls drawn that all stand at the start", change=any_calls)


@any_lift.run
def one_way_up_and_one_down(run):
    """it goes up to the highest floor that is called or wanted, and once down to the lowest that is still wanted"""
    calls = calls_of(run.document)
    highest, lowest = max(map(max, calls)), min((end for start, end in calls if end < start), default=None)
    wanted = highest + (0 if lowest is None else highest - lowest)
    return run.end == "dead" and len(run.of("go on")) == wanted and len(run.last.one("House/Arrived")) == len(calls)


@ring.marking
def one_train_in_a_section(state):
    """each section is free or has one train"""
    return state.counted("Ring/Free") + count(*(section for _, section in state.counted("Ring/Track").elements())) == count(*range(6))


@ring.marking
def no_train_overtakes(state):
    """in front of the freight train comes the local one, and then the express"""
    at = {train.name: section for train, section in state.counted("Ring/Track")}
    return 0 < (at["local"] - at["freight"]) % 6 < (at["express"] - at["freight"]) % 6


@ring.run
def the_freight_train_never_waits(run):
    """the freight train moves at 0, 5, 10 and so on, and the run never ends dead"""
    moves = [at for at, it in run.of("move") if it["train"].name == "freight"]
    return run.end == "steps" and moves == [5 * k for k in range(len(moves))]


@crossing.marking
def the_gate_is_down(state):
    """a train on the crossing finds the gate down"""
    return state.number("Line/Crossing") <= state.number("Line/Down")


def near_trains(_, document):
    place_of(document, "Away")["initial"] = "1`1@0 ++ 1`2@3"


near = Group("railway_crossing", "railway_crossing, its trains 3 apart", change=near_trains)


@near.all
def the_gate_is_raised_too_early(runs):
    """some runs raise the gate while a train is on the crossing"""
    return any(
        enters <= raised < leaves
        for run in runs
        for raised, _ in run.of("raise")
        for (enters, train), (leaves, other) in itertools.product(run.of("enter"), run.of("leave"))
        if train == other
    )


# ---- machines that count

MOST_STEPS = {9: 19, 97: 118, 871: 178, 6171: 261, 77031: 350, 837799: 524, 8400511: 685, 63728127: 949, 670617279: 986}


def steps_to_one(number):
    """Counts the steps of a number to 1."""
    count_of = 0
    while number != 1:
        number = 3 * number + 1 if number % 2 else number // 2
        count_of += 1
    return count_of


def any_numbers(draw, document):
    place_of(document, "Numbers")["initial"] = " ++ ".join(f"1`{draw.randint(1, 10**9)}" for _ in range(4))


counting = Group("collatz_machines", draws=False)
any_counting = Group("collatz_machines", "collatz_machines, its numbers drawn, by four workers", change=any_numbers, workers=4)


@counting.marking
def no_machine_and_no_number_is_lost(state):
    """the eight machines stay, and the numbers and their steps are 72 together"""
    machines = state.counted("Hall/Machines") == count(*range(1, 9))
    return machines and state.number("Hall/Numbers") + state.number("Hall/Steps") == 72


@counting.run
def the_champions_take_the_most_steps(run):
    """each number takes the most steps of all below its power of ten, eight times"""
    return run.end == "dead" and run.last.counted("Hall/Steps") == count(*[*MOST_STEPS.items()] * 8)


@any_counting.run
def each_number_takes_its_steps(run):
    """each number takes as many steps as are counted one by one"""
    numbers = [int(it) for it in re.findall(r"`(\d+)", place_of(run.document, "Numbers")["initial"])]
    return run.end == "dead" and run.last.counted("Hall/Steps") == count(*((it, steps_to_one(it)) for it in numbers))


# ---- the smaller nets

allocator = Group("resource_allocator")
memory = Group("shared_memory")
robot = Group("choice_loop", steps=60)
bridge = Group("weight_limit", draws=False)
tokens = Group("three_tokens", draws=False)
sorter = Group("parcel_sorter", draws=False)
mail = Group("message_header", draws=False)
requests = Group("requests_and_answers", draws=False)
stack = Group("stack_machine", draws=False)
colours = Group("every_colour", draws=False)


@allocator.marking
def six_units(state):
    """the free units and those that are granted are six together"""
    granted = sum(units for _, units in state.counted("Allocator/Granted").elements())
    return state.one("Allocator/Free") + granted == 6


@allocator.run
def dora_waits(run):
    """all are served but Dora, who asks for nine"""
    left = [(client.name, units) for client, units in run.last.counted("Allocator/Requests").elements()]
    return run.end == "dead" and left == [("dora", 9)] and run.last.number("Allocator/Served") == 3


@memory.run
def two_only_where_one_follows_the_other(run):
    """the counter is 2 where one process loads after the other has stored, and otherwise 1"""
    names = [name.rpartition("/")[2] for _, name, _ in run.occurrences if not name.endswith("show")]
    return run.last.one("System/first/Counter") == (2 if names == ["load", "store", "load", "store"] else 1)


@robot.marking
def the_robot_does_one_thing(state):
    """the robot is idle, works or rests"""
    return sum(state.number(f"Robot/{it}") for it in ("Idle", "Working", "Resting")) == 1


@bridge.marking
def no_car_is_lost(state):
    """each car is on one side or the other"""
    return state.counted("Bridge/Waiting") + state.counted("Bridge/Across") == count(7, 7, 7, 12)


@bridge.run
def the_heavy_car_waits(run):
    """the car of 12 tonnes stays, and the others cross"""
    return run.end == "dead" and run.last.counted("Bridge/Waiting") == count(12)


@tokens.marking
def three_tokens_stay(state):
    """the tokens on A and B are three together"""
    return state.number("Top/A") + state.number("Top/B") == 3


@sorter.run
def parcels_are_on_their_lanes(run):
    """each parcel is on the lane of its code"""
    lanes = {it: run.last.counted(f"Sorter/{it}") for it in ("North", "South", "Overseas")}
    return lanes == {"North": count(("N1", 300), ("N1", 50)), "South": count(("S4", 1200)), "Overseas": count(("X9", 80))}


@mail.run
def messages_arrive_in_order(run):
    """each message has the length of its text, and they arrive in the order in which they were sent"""
    messages = [it["message"] for _, it in run.of("receive")]
    texts = [text for _, text in messages]
    return texts == ["hi", 'say "go"', ""] and all(header == ("ann", at + 1, len(text)) for at, (header, text) in enumerate(messages))


@requests.run
def each_request_is_answered(run):
    """the answers are 1 and 2, twice missing, and done for the three others"""
    answers = collections.Counter((it.constructor, it.argument) for it in run.last.counted("Server/Answers").elements())
    return answers == {("value", 1): 1, ("value", 2): 1, ("missing", None): 2, ("done", None): 3}


@stack.run
def six_by_nothing(run):
    """the run ends by the fault of 6 div (3 + ~3)"""
    return run.end.startswith("fault 2 divide_by_zero") and run.last.one("Machine/Stack") == [0, 6]


@colours.run
def each_kind_is_taken(run):
    """the one occurrence takes a token of each kind of colour set"""
    return len(run.occurrences) == 1 and run.last.counted("Top/Here") == count(7) and run.last.number("Top/R") == 0


# ---- an office that is measured

measured_office = Group("measured_office")
WORKS = dict(zip(range(1, 11), [2] * 5 + [4] * 3 + [9] * 2))  # how long a service takes, by the tenth


@measured_office.marking
def the_line_is_counted(state):
    """the tokens beside the list are as many as the customers in it, and the list is one token"""
    return state.number("Office/Line") == 1 and state.number("Office/In Line") == len(state.one("Office/Line"))


@measured_office.marking
def one_is_served(state):
    """the clerk is free or serves one customer"""
    return state.number("Office/Free") + state.number("Office/In Service") == 1


@measured_office.run
def served_in_their_order(run):
    """customers begin in the order in which they come, each once"""
    begun = [it["n"] for _, it in run.of("begin")]
    return begun == [*range(1, len(begun) + 1)]


@measured_office.run
def both_windows_take_500(run):
    """both runs take 500, and in both the list counts as one token"""
    lists = [part.monitors["list"] for part in run.parts]
    ends = [("stop window", 500), ("stop window", 1000)]
    is_one = all((it.least, it.greatest, it.last, it.area) == (1, 1, 1, 500) for it in lists)
    return is_one and [(part.end, part.clock) for part in run.parts] == ends


@measured_office.run
def the_squares_are_added_up(run):
    """the waiting times, their squares, and the numbers of long ones and of those who wait add up to what the bindings add up to"""
    waits = [it["waited"] for _, it in run.of("finish")]
    values = [[part.monitors[name] for part in run.parts] for name in ("waiting", "waiting squared", "long waits")]
    sums = [sum(it.sum for it in found) for found in values]
    waiting = sum(part.monitors["of those who wait"].count for part in run.parts)
    wanted = [sum(waits), sum(it * it for it in waits), sum(it > 5 for it in waits)]
    return sums == wanted and waiting == sum(it > 0 for it in waits)


@measured_office.all
def the_clerk_works_4_of_6(runs):
    """customers come 6 apart and are served for 4 on average, within five standard deviations"""
    gaps = [it["gap"] for run in runs for _, it in run.of("arrive")]
    works = [WORKS[it["tenth"]] for run in runs for _, it in run.of("begin")]
    return is_near(sum(gaps), 6 * len(gaps), 2 * len(gaps)) and is_near(sum(works), 4 * len(works), 7 * len(works))
