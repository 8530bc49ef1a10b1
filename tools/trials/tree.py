"""What a volume may have: a model of its files, folders and links, and of what a line or a shell of `xnfs` may leave at any moment."""

import os
import random
from dataclasses import dataclass

LENGTHS = [0, 1, 383, 384, 385, 512, 513, 3000, 8192, 8193, 20_000, 75_000]
# Files of the system, by their names: some of each length, and those of a folder.
SOURCES = {f"source{length}{letter}": random.Random(f"{length}{letter}").randbytes(length) for length in LENGTHS for letter in "abc"}
IN_FOLDER = {"one": b"1" * 600, "two": b"2" * 20, "below/three": b"3" * 1500}
HOLES = {"holes": b"a" * 5000 + bytes(80_000) + b"b" * 3000}
TOP = 1


class Tree:
    """The names of each folder by its number, and what each number is: a file with its bytes and its mode, a symbolic link, or a folder with its mode."""

    made = TOP

    def __init__(self, names=None, things=None):
        self.names = {folder: dict(inside) for folder, inside in (names or {TOP: {}}).items()}
        self.things = dict(things or {TOP: ("folder", None)})

    def copy(self):
        return Tree(self.names, self.things)

    def walk(self, folder=TOP, path=""):
        """All paths below a folder, with their numbers."""
        for name, number in sorted(self.names[folder].items()):
            yield f"{path}/{name}", number
            if number in self.names:
                yield from self.walk(number, f"{path}/{name}")

    def at(self, path):
        """The number to which a path leads."""
        number = TOP
        for name in filter(None, path.split("/")):
            number = self.names.get(number, {}).get(name)
        return number

    def kind(self, path):
        number = self.at(path)
        return self.things[number][0] if number else None

    def place(self, path):
        """The folder of a path, and its name there."""
        above, _, name = path.rpartition("/")
        folder = self.at(above)
        return (folder, name) if folder in self.names and name else None

    def goal(self, source, path):
        """The place of what goes to a path, or into the folder that is there. Where a symbolic link leads is not asked here."""
        if self.kind(path) == "link":
            return None
        if self.kind(path) == "folder":
            return self.at(path), os.path.basename(source)
        return self.place(path)

    def make(self, place, thing):
        """Has a name lead to something new."""
        Tree.made += 1
        folder, name = place
        self.names[folder][name], self.things[Tree.made] = Tree.made, thing
        if thing[0] == "folder":
            self.names[Tree.made] = {}
        return Tree.made

    def may_replace(self, place, is_folder, number=None):
        """Whether something may take a name."""
        other = place and self.names[place[0]].get(place[1])
        return place is not None and (other is None or (other != number and (self.things[other][0] == "folder") == is_folder))

    def folder_at(self, place, mode):
        """The folder of a name, which is made where none is."""
        if not self.may_replace(place, True):
            return None
        return self.names[place[0]].get(place[1]) or self.make(place, ("folder", mode))

    def put_file(self, place, thing):
        if self.may_replace(place, False):
            return self.make(place, thing)
        return None

    def put_folder(self, place):
        """`put` of the folder of the system."""
        folder = self.folder_at(place, 0o755)
        below = folder and self.folder_at((folder, "below"), 0o755)
        if not below:
            return False
        self.things[folder] = self.things[below] = "folder", 0o755
        return all(self.put_file((below if "/" in path else folder, os.path.basename(path)), ("file", data, 0o644)) for path, data in IN_FOLDER.items())

    def copy_below(self, number, place, copied):
        """`cp -r` of something."""
        thing = self.things[number]
        if thing[0] != "folder":
            if number not in copied:
                copied[number] = self.put_file(place, thing)
                return copied[number] is not None
            if not self.may_replace(place, False):
                return False
            self.names[place[0]][place[1]] = copied[number]
            return True
        inside = sorted(self.names[number].items())
        folder = self.folder_at(place, thing[1])
        return folder is not None and all(self.copy_below(other, (folder, name), copied) for name, other in inside)

    def copied(self, path, to, is_recursive):
        """`cp`; whether it can be done."""
        number, place = self.at(path), self.goal(path, to)
        if not number or number == TOP or place is None or self.is_below(place[0], number):
            return False
        if not is_recursive:
            thing, there = self.things[number], self.things.get(self.names[place[0]].get(place[1]))
            if there and there[0] == "file" and thing[0] == "file":
                thing = (*thing[:2], there[2])
            return thing[0] == "file" and self.may_replace(place, False, number) and self.put_file(place, thing) is not None
        return self.may_replace(place, self.things[number][0] == "folder", number) and self.copy_below(number, place, {})

    def is_below(self, folder, above):
        return folder == above or any(self.is_below(folder, number) for number in self.names.get(above, {}).values() if number in self.names)

    def moved(self, path, to):
        """`mv`; whether it can be done."""
        number, place = self.at(path), self.goal(path, to)
        is_folder = number in self.names
        if number and not is_folder and place not in (None, self.place(path)) and self.names[place[0]].get(place[1]) == number:
            folder, name = self.place(path)
            del self.names[folder][name]
            return True
        if not number or number == TOP or place is None or self.is_below(place[0], number) or not self.may_replace(place, is_folder, number):
            return False
        other = self.names[place[0]].get(place[1])
        if other and self.names.get(other):
            return False
        folder, name = self.place(path)
        del self.names[folder][name]
        self.names[place[0]][place[1]] = number
        return True

    def linked(self, path, to):
        """`ln`; whether it can be done."""
        number, place = self.at(path), self.goal(path, to)
        if not number or number in self.names or place is None or place[1] in self.names[place[0]]:
            return False
        self.names[place[0]][place[1]] = number
        return True

    def set_thing(self, path, thing_of):
        """Changes what a file is."""
        if self.kind(path) != "file":
            return False
        _, data, mode = self.things[self.at(path)]
        self.things[self.at(path)] = "file", *thing_of(data, mode)
        return True

    def folders_made(self, path):
        """`mkdir -p`; whether it can be done."""
        place, names = TOP, path.strip("/").split("/")
        for name in names:
            place = self.folder_at((place, name), 0o755)
            if place is None:
                return False
        return True

    def take(self, path):
        folder, name = self.place(path)
        del self.names[folder][name]
        return True

    def change(self, words, given=b""):
        """Does a line; whether it can be done."""
        match words:
            case ["put", "folder", path]:
                place = self.goal("folder", path)
                return place is not None and self.put_folder(place)
            case ["put", "-", path]:
                mode = self.things[self.at(path)][2] if self.kind(path) == "file" else 0o644
                return self.put_file(self.goal("-", path), ("file", given, mode)) is not None and self.kind(path) != "folder"
            case ["put", source, path]:
                return self.put_file(self.goal(source, path), ("file", {**SOURCES, **HOLES}[source], 0o644)) is not None
            case ["mkdir", "-p", path]:
                return self.folders_made(path)
            case ["mkdir", path]:
                place = self.place(path)
                return place is not None and place[1] not in self.names[place[0]] and self.folder_at(place, 0o755) is not None
            case ["rm", "-r", path] if path != "/" and self.at(path):
                return self.take(path)
            case ["rm", path] if self.kind(path) in ("file", "link"):
                return self.take(path)
            case ["rmdir", path] if path != "/" and self.kind(path) == "folder" and not self.names[self.at(path)]:
                return self.take(path)
            case ["mv", path, to]:
                return self.moved(path, to)
            case ["cp", "-r", path, to]:
                return self.copied(path, to, True)
            case ["cp", path, to]:
                return self.copied(path, to, False)
            case ["ln", "-s", target, path]:
                place = self.place(path)
                return place is not None and place[1] not in self.names[place[0]] and self.put_file(place, ("link", target)) is not None
            case ["ln", path, to]:
                return self.linked(path, to)
            case ["chmod", mode, path]:
                return self.set_thing(path, lambda data, _: (data, int(mode, 8)))
            case ["truncate", "-s", size, path]:
                return self.set_thing(path, lambda data, mode: (data[: int(size)].ljust(int(size), b"\0"), mode))
            case ["touch", "-d", _, path]:
                return self.kind(path) in ("file", "folder")
            case ["check", "--repair"] | ["sync"]:
                return True
        return False

    def after(self, words, given=b""):
        """The tree after a line that is done; None where it can't be."""
        after = self.copy()
        return after if after.change(words, given) else None

    def path_of(self, number):
        """A path that leads to a number."""
        return next((path for path, other in self.walk() if other == number), None)

    def numbers(self):
        """What names lead to."""
        return {TOP, *(number for _, number in self.walk())}

    def blocks(self):
        """About how many blocks its files and folders take."""
        return sum(3 + (len(self.things[number][1]) // 500 if self.things[number][0] == "file" else 0) for _, number in self.walk())


@dataclass
class Run:
    """A line or a shell: its words, what it is given, its lines, and the trees before the first of them and after each."""

    words: list
    given: bytes
    lines: list
    trees: list

    def is_shell(self):
        return self.words[0] == "shell"

    def is_lazy(self):
        return "--lazy" in self.words

    def kinds(self):
        """What its lines do, by name."""
        return [kind_of(words, tree) for words, tree in zip(self.lines, self.trees)]

    def settled(self, answered):
        """The number of the tree that is on the disk, or a later one, once so many lines have answered."""
        if not self.is_lazy():
            return answered
        return max((number for number in range(1, answered + 1) if self.lines[number - 1] == ["sync"]), default=0)

    def odd(self, found, answered=None):
        """What a volume has otherwise than it may have it once so many lines have answered and the next is perhaps under way, or once all is done."""
        if found is None:
            return ["it is not sound"]
        first = len(self.lines) if answered is None else self.settled(answered)
        last = len(self.lines) if answered is None else min(answered + 1, len(self.lines))
        return odd(found, self.trees[first : last + 1])


def kind_of(words, tree):
    """The name of what a line does to a tree."""
    name = " ".join(word for word in words[:2] if word in ("put", "cp", "mv", "rm", "ln", "chmod", "truncate", "touch") or word[0] == "-" or words[0] == word)
    if words[0] == "put" and words[1] == "folder":
        name = "put of a folder"
    if words[0] in ("put", "mv", "cp") and tree.kind(words[-1]) == "file" and words[-2] != words[-1]:
        name += " over a file"
    if words[0] == "mv" and tree.kind(words[1]) == "folder":
        name += " of a folder"
    return name


class Fit:
    """How a tree that was found agrees with some trees, of which one followed on the other: each name leads to what it led to in one of them."""

    def __init__(self, found, trees):
        self.found, self.trees, self.seen, self.odd = found, trees, set(), []

    def states(self, number):
        return {tree.things[number] for tree in self.trees if number in tree.things}

    def led_to(self, folder, name):
        """To what a name of a folder has led."""
        return {tree.names[folder].get(name) if folder in tree.reached else None for tree in self.trees}

    def odd_in(self, here, folder, path):
        """What is odd in a folder that was found, where it is one of the trees'."""
        names = set(self.found.names[here]).union(*(tree.names.get(folder, {}) for tree in self.trees))
        return [it for name in sorted(names) for it in self.odd_at(self.found.names[here].get(name), self.led_to(folder, name), f"{path}/{name}")]

    def odd_at(self, here, numbers, path):
        """What is odd about what was found under a name, or that nothing was."""
        if here is None:
            return [] if None in numbers else [f"{path} is not there"]
        thing, seen = self.found.things[here], {}
        for number in numbers - {None}:
            if thing in self.states(number):
                seen[number] = self.odd_in(here, number, path) if thing[0] == "folder" else []
        fitting = {number for number, odd in seen.items() if not odd}
        self.seen |= fitting
        if fitting:
            return []
        states = [shown(it) for number in numbers for it in self.states(number)]
        return sum(sorted(seen.values(), key=len), []) or [f"{path} is {shown(thing)}, and not {states}"]

    def play(self):
        """Finds what is odd: what doesn't agree, and what is in each of the trees and wasn't found."""
        for tree in self.trees:
            tree.reached = tree.numbers()
        self.odd = self.odd_in(TOP, TOP, "")
        for number in set.intersection(*(tree.reached for tree in self.trees)) - {TOP} - self.seen:
            self.odd.append(f"{self.trees[0].path_of(number)} is lost")


def shown(thing):
    """What something is, with no more than the first of its bytes."""
    return thing and tuple(f"{len(it)} bytes {it[:8].hex()}" if isinstance(it, bytes) else it for it in thing)


def odd(found, trees):
    """What a tree that was found has otherwise than a stop between these may leave it; or than the one tree has it."""
    fit = Fit(found, trees)
    fit.play()
    return fit.odd
