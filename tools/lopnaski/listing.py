"""A plan as the planner lists it."""

import re

from lopnaski.casefile import OBSERVE, REINFORCE, SERVING, Refusal
from lopnaski.figures import of_bits

TALLIES = ("mode", "rounds", "converged", "capacity", "stiffening", "filler", "promoted", "upsized", "overloaded", "capped")
UTILISATION = 0.9
EPSILON = 1e-9
FIGURE = re.compile(r"[0-9A-F]{16}\Z")


class Plan:
    """The figures of a listing, and what follows from them beside its case."""

    def __init__(self):
        self.tallies = {}
        self.added, self.grounds = [], []
        self.tiers, self.angles = [], []
        self.dispatch = []
        self.circuits, self.flows, self.rates = [], [], []
        self.loading = self.spread = 0.0

    def kv(self, case, bus):
        """A bus's voltage in the plan: tiers count from the first added level."""
        ladder = self.added + case.levels()[case.head("above") :]
        return ladder[self.tiers[bus]]

    def ends(self, case, corridor):
        """The ends of a corridor as its flow is signed: from the higher voltage to the lower, a first on a tie."""
        a, b = case.whole("CO", corridor, "a"), case.whole("CO", corridor, "b")
        return (a, b) if self.kv(case, a) >= self.kv(case, b) else (b, a)

    def loading_of(self, corridor):
        """The flow on a corridor as a share of what all its circuits may carry."""
        return abs(self.flows[corridor]) / (self.circuits[corridor] * self.rates[corridor])

    def is_overloaded(self, corridor):
        return self.loading_of(corridor) > 1.0 + EPSILON

    def is_capped(self, case, corridor):
        """Whether a corridor has as many circuits as it may, and its flow needs more."""
        mode = case.head("mode") % SERVING
        kv = self.kv(case, self.ends(case, corridor)[0])
        cap = case.cap(corridor) or (6 if mode == REINFORCE and kv < 100.0 else 4)
        need = abs(self.flows[corridor]) / UTILISATION / self.rates[corridor]
        return mode != OBSERVE and self.circuits[corridor] >= cap and need > self.circuits[corridor] + EPSILON


def figure(word):
    if not FIGURE.match(word):
        raise ValueError("'%s' is no figure of a listing" % word)
    return of_bits(int(word, 16))


def put(plan, mark, words):
    """A line into the plan. ValueError where it is none."""
    if mark == "PL":
        plan.tallies = dict(zip(TALLIES, [int(word) for word in words]))
    elif mark == "AD":
        plan.added.append(figure(words[0]))
    elif mark == "GR":
        plan.grounds.append(int(words[0]))
    elif mark == "BU":
        plan.tiers.append(int(words[1]))
        plan.angles.append(figure(words[2]))
    elif mark == "GE":
        plan.dispatch.append(figure(words[1]))
    elif mark == "CO":
        plan.circuits.append(int(words[1]))
        plan.flows.append(figure(words[2]))
        plan.rates.append(figure(words[3]))
    elif mark == "MX":
        plan.loading, plan.spread = figure(words[0]), figure(words[1])
    else:
        raise ValueError("'%s' begins no line of a listing" % mark)


def parse(text):
    """The plan that a listing says. Raises Refusal for an RF line, ValueError for what is no listing."""
    lines = text.split("\n")
    if lines.pop() != "" or not lines:
        raise ValueError("the listing is not whole")
    plan = Plan()
    for line in lines:
        mark, *words = line.split(" ")
        if mark == "RF":
            raise Refusal(int(words[0]), int(words[1]))
        try:
            put(plan, mark, words)
        except IndexError:
            raise ValueError("'%s' lacks fields" % line) from None
    if not lines[-1].startswith("MX "):
        raise ValueError("the listing does not end with its MX line")
    return plan


def fits(plan, case):
    """Whether a plan has a line for each record of a case."""
    counts = (len(plan.tiers), len(plan.dispatch), len(plan.circuits), plan.tallies.get("mode"))
    return counts == (case.count("BU"), case.count("GE"), case.count("CO"), case.head("mode"))
