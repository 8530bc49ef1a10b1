"""Random lines and shells of `xnfs`."""

from trials.tree import LENGTHS, SOURCES, Run

# Two of the last ones fill the place of names in a folder's inode.
NAMES = ["a", "b", "c", "notes.txt", "l" * 120, "m" * 200]
# What a crowded volume has: more numbers than inode 0 has pointers of its own, and more names in a folder than its inode has place for.
CROWD = [f"f{number}" + "x" * (number % 5 * 30) for number in range(30)]
# The line of a shell behind each other one, which prints one line: so what is printed tells how many lines have answered.
MARK = "pwd"
SIZES = ["0", "100", "384", "513", "9000", "30000"]


def random_words(tree, rng):
    """The words of a line that mostly can be done."""
    paths = list(tree.walk())
    folders = ["", *(path for path, number in paths if number in tree.names)]
    files = [path for path, number in paths if tree.things[number][0] == "file"]
    links = [path for path, number in paths if tree.things[number][0] == "link"]
    path = f"{rng.choice(folders)}/{rng.choice(NAMES + CROWD[-3:] if len(paths) >= 20 else NAMES)}"
    file = rng.choice(files) if files else path
    goal, folder, other = rng.choice([path, path, file]), rng.choice(folders) or path, rng.choice(folders) or "/"
    return rng.choice([
        ["put", rng.choice(list(SOURCES)), goal], ["put", rng.choice(list(SOURCES)), goal], ["put", "folder", path], ["put", "holes", goal],
        ["mkdir", path], ["mkdir", "-p", f"{path}/{rng.choice(NAMES)}/{rng.choice(NAMES)}"], ["rm", file], ["rm", rng.choice(links or files or [path])],
        ["rm", "-r", folder], ["rmdir", folder], ["mv", file, goal], ["mv", rng.choice(files or [path]), goal], ["mv", file, other], ["mv", folder, path],
        ["mv", folder, other], ["cp", file, goal], ["cp", "-r", folder, path], ["ln", file, path], ["ln", "-s", file, path], ["sync"], ["check", "--repair"],
        ["chmod", rng.choice(["600", "640", "755"]), file], ["truncate", "-s", rng.choice(SIZES), file], ["touch", "-d", "1000000000", file],
    ])


def is_small(tree, most):
    """Whether a tree takes at most so many blocks, and not too many names."""
    return tree.blocks() < most and len(list(tree.walk())) < 80


def random_line(tree, rng, most):
    """The words of a line that a tree takes, and the tree after it, which takes at most so many blocks."""
    while True:
        words = random_words(tree, rng)
        if max(word.count("/") for word in words) > 5:
            continue
        after = tree.after(words)
        if after is not None and is_small(after, most):
            return words, after


def close_lines(tree, rng):
    """Lines that work on what the one before them has just made or moved, as a lazy shell might keep them all until one flush."""
    paths = [path for path, _ in tree.walk() if path.count("/") < 3]
    file = rng.choice([path for path in paths if tree.kind(path) == "file"] or ["/a"])
    folder = rng.choice([path for path in paths if tree.kind(path) == "folder"] or ["/z"])
    own, made = file.rpartition("/")[2], f"{rng.choice(['', folder])}/{rng.choice(NAMES)}"
    return rng.choice([
        [["mkdir", made], ["mv", file, made], ["rm", f"{made}/{own}"]],
        [["mkdir", made], ["mv", file, made], ["mv", folder, f"{folder}q"]],
        [["mkdir", made], ["put", "source75000a", f"{made}/big"], ["mv", f"{made}/big", f"{folder}/big"], ["put", "source384a", f"{folder}/big"]],
        [["mkdir", made], ["mkdir", f"{made}/b"], ["mkdir", f"{made}/b/c"], ["mv", f"{made}/b/c", "/"]],
        [["mkdir", made], ["put", "source1a", f"{made}/x"], ["sync"], ["rm", f"{made}/x"], ["rmdir", made]],
        [["rm", file], ["mkdir", file], ["rmdir", file], ["put", "source3000a", file]],
        [["mv", file, f"{file}q"], ["put", "source8193a", file], ["rm", f"{file}q"]],
        [["put", "source8193b", f"{folder}/new"], ["mv", f"{folder}/new", file]],
        [["ln", file, made], ["rm", file], ["ln", made, file], ["rm", made]],
        [["ln", file, made], ["mv", made, folder], ["rm", file]],
        [["truncate", "-s", "100", file], ["truncate", "-s", "30000", file], ["mv", file, made]],
        [["cp", "-r", folder, made], ["rm", "-r", folder], ["mv", made, folder]],
        [["mv", folder, made], ["put", "source513c", f"{made}/new"], ["rm", "-r", made]],
    ])


def shell_of(is_lazy, lines, trees):
    """A shell that is given these lines."""
    given = "".join(f"{' '.join(words)}\n{MARK}\n" for words in lines).encode()
    return Run(["shell", "--lazy"] if is_lazy else ["shell"], given, lines, trees)


def close_run(tree, rng, most):
    """A shell of such lines, mostly a lazy one, where a tree takes them; else None."""
    is_lazy, lines, trees = rng.random() < 0.8, [], [tree]
    for _ in range(rng.choice([1, 1, 2])):
        for words in close_lines(trees[-1], rng):
            after = trees[-1].after(words)
            if after is None or not is_small(after, most):
                return None
            lines.append(words)
            trees.append(after)
    return shell_of(is_lazy, lines, trees)


def random_run(tree, rng, most=600):
    """A line that a tree takes, or a shell of some. In a crowded volume half of the runs are shells whose lines work on what the one before has made."""
    is_crowded = len(list(tree.walk())) >= 20
    if rng.random() < (0.5 if is_crowded else 0.2) and (run := close_run(tree, rng, most)):
        return run
    form = rng.choice(["line", "shell", "lazy", "lazy"] if is_crowded else ["line", "line", "input", "shell", "lazy"])
    if form == "line":
        words, after = random_line(tree, rng, most)
        return Run(words, b"", [words], [tree, after])
    if form == "input":
        given, words = rng.randbytes(rng.choice(LENGTHS)), ["put", "-", "/" + rng.choice(NAMES)]
        after = tree.after(words, given)
        if after is None or not is_small(after, most):
            return random_run(tree, rng, most)
        return Run(words, given, [words], [tree, after])
    lines, trees = [], [tree]
    for _ in range(rng.randrange(2, 12)):
        words, after = random_line(trees[-1], rng, most)
        lines.append(words)
        trees.append(after)
    return shell_of(form == "lazy", lines, trees)


def answered_by(out):
    """How many lines of a shell have answered, by what it has printed."""
    return out.split(b"\n")[:-1].count(b"/")
