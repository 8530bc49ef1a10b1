"""Counts what is tried, and what of it was wrong."""


# How a run may end to which the system refuses something.
DONE, NAMED_FAULT = "done", "refused with a named fault"


class Tally:
    """How often each thing was tried or seen, in the order in which the things were named, and how many faults there were."""

    def __init__(self, *names):
        self.counts, self.wrong = dict.fromkeys(names, 0), 0

    def count(self, name, number=1):
        self.counts[name] = self.counts.get(name, 0) + number

    def fault(self, *told):
        """Tells and counts a fault."""
        self.wrong += 1
        print("wrong:", *told, flush=True)

    def add(self, other):
        """Takes the counts of another one with its own."""
        for name, number in other.counts.items():
            self.count(name, number)
        self.wrong += other.wrong

    def __str__(self):
        return ", ".join([*(f"{number} {name}" for name, number in self.counts.items()), f"{self.wrong} wrong"])
