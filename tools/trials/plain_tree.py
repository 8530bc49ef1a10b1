"""A plain tree of the calls of the file system of trees: what each call, as `treefs_runs` writes it, has to answer, and what it changes."""

import urllib.parse

from trials.tree_images import BLOCK, FILE, FOLDER, LINK, bytes_of

GREATEST = 134_251_159_552


def name_of(word):
    """The bytes of a name that a transcript writes so."""
    return urllib.parse.unquote_to_bytes(word)


def is_bad(name):
    return not 0 < len(name) < 256 or name in (b".", b"..") or b"/" in name or b"\0" in name


class Inode:
    """An inode of the plain tree. A file or a symbolic link has bytes, and a folder names, each with a number."""

    def __init__(self, mode, time, parent=0, data=b""):
        self.mode, self.links, self.uid, self.gid, self.mtime, self.ctime, self.parent = mode, 1, 0, 0, time, time, parent
        self.kind, self.data, self.names = mode & 0o170000, bytearray(data), {}

    def fields(self):
        """As `Volume.fields` answers it."""
        return self.mode, self.links, self.uid, self.gid, len(self.data), self.mtime, self.ctime, self.parent


class Plain:
    """A plain tree. Each call answers its fault, or None, and what it does where it is done, which answers what is wrong with the number that was answered."""

    def __init__(self):
        self.inodes, self.begun, self.clock, self.untrimmed = {1: Inode(FOLDER | 0o755, 0, 1)}, {}, 0, set()

    def at(self, number):
        """Why a number is no folder in which names may stand."""
        inode = self.inodes.get(number)
        return "NoEntry" if inode is None else "NotDir" if inode.kind != FOLDER else "NoEntry" if inode.links == 0 else None

    def found(self, number, name):
        """Why a folder has no inode of that name."""
        return self.at(number) or ("BadName" if is_bad(name) else "NoEntry" if name not in self.inodes[number].names else None)

    def file(self, number):
        """Why a number is no file or symbolic link."""
        return "NoEntry" if number not in self.inodes else "IsDir" if self.inodes[number].kind == FOLDER else None

    def inode(self, number, name):
        return self.inodes[self.inodes[number].names[name]]

    def naming(self, number, name, replace):
        """Why a name may not come to lead to a new inode."""
        fault = self.found(number, name)
        if fault is None:
            return "Exists" if not replace else "IsDir" if self.inode(number, name).kind == FOLDER else None
        return None if fault == "NoEntry" and self.at(number) is None else fault

    def touch(self, number):
        self.inodes[number].mtime = self.inodes[number].ctime = self.clock

    def end(self, folder, name):
        """A name of a folder ends."""
        gone = self.inodes[self.inodes[folder].names.pop(name)]
        gone.links -= 1
        if gone.links:
            gone.ctime = self.clock
        self.touch(folder)

    def add(self, number, inode, folder, name):
        """A new inode of this number gets a name, which may lead to another one."""
        wrong = f"{number} isn't free" if number in self.inodes else None
        if name in self.inodes[folder].names:
            self.end(folder, name)
        self.inodes[number] = inode
        self.inodes[folder].names[name] = number
        self.touch(folder)
        return wrong

    def make(self, folder, name, inode, replace=False):
        folder, name = int(folder), name_of(name)
        return self.naming(folder, name, replace), lambda number: self.add(number, inode, folder, name)

    def create(self, folder, name, mode="644"):
        return self.make(folder, name, Inode(FILE | int(mode, 8), self.clock))

    def mkdir(self, folder, name, mode="755"):
        return self.make(folder, name, Inode(FOLDER | int(mode, 8), self.clock, int(folder)))

    def symlink(self, folder, name, target):
        return self.make(folder, name, Inode(LINK | 0o777, self.clock, data=bytes_of(target)))

    def put(self, folder, name, data):
        return self.make(folder, name, Inode(FILE | 0o644, self.clock, data=bytes_of(data)), True)

    def begin(self, data):
        inode = Inode(FILE | 0o644, self.clock, data=bytes_of(data))
        return "TooLarge" if len(inode.data) > 384 else None, lambda block: f"{block} was begun" if self.begun.setdefault(block, inode) is not inode else None

    def more(self, block, _, data):
        inode = self.begun[int(block)]
        return None, lambda count: self.put_bytes(inode, len(inode.data), bytes_of(data), count)

    def commit(self, block, folder, name, way):
        fault, done = self.make(folder, name, self.begun[int(block)], way == "replace")
        return fault, lambda number: self.begun.pop(int(block)) and done(number)

    def link(self, number, folder, name):
        number, folder, name = int(number), int(folder), name_of(name)

        def done(_):
            self.inodes[number].links += 1
            self.inodes[number].ctime = self.clock
            self.inodes[folder].names[name] = number
            self.touch(folder)

        lacks = self.file(number) or ("NoEntry" if self.inodes[number].links == 0 else None)
        return self.at(folder) or lacks or self.naming(folder, name, False), done

    def unlink(self, folder, name):
        folder, name = int(folder), name_of(name)
        fault = self.found(folder, name)
        return fault or ("IsDir" if self.inode(folder, name).kind == FOLDER else None), lambda _: self.end(folder, name)

    def rmdir(self, folder, name):
        folder, name = int(folder), name_of(name)
        fault = self.found(folder, name)
        if fault is None:
            gone = self.inode(folder, name)
            fault = "NotDir" if gone.kind != FOLDER else "NotEmpty" if gone.names else None
        return fault, lambda _: self.end(folder, name)

    def is_below(self, number, other):
        """Whether a folder is another inode, or stands below it."""
        while number not in (other, 1):
            number = self.inodes[number].parent
        return number == other

    def moving(self, folder, name, to, new_name):
        """Why a name may not move."""
        fault = self.at(folder) or self.at(to) or ("BadName" if is_bad(name) or is_bad(new_name) else None) or self.found(folder, name)
        if fault:
            return fault
        number, replaced = self.inodes[folder].names[name], self.inodes[to].names.get(new_name)
        is_folder = self.inodes[number].kind == FOLDER
        if is_folder and self.is_below(to, number):
            return "Cycle"
        if replaced in (None, number):
            return None
        other = self.inodes[replaced]
        if (other.kind == FOLDER) != is_folder:
            return "NotDir" if is_folder else "IsDir"
        return "NotEmpty" if other.names else None

    def rename(self, folder, name, to, new_name):
        folder, name, to, new_name = int(folder), name_of(name), int(to), name_of(new_name)

        def done(_):
            number = self.inodes[folder].names[name]
            if self.inodes[to].names.get(new_name) == number:
                return
            if new_name in self.inodes[to].names:
                self.end(to, new_name)
            self.inodes[to].names[new_name] = self.inodes[folder].names.pop(name)
            self.inodes[number].ctime = self.clock
            self.inodes[number].parent = to if self.inodes[number].kind == FOLDER else 0
            self.touch(folder)
            self.touch(to)

        return self.moving(folder, name, to, new_name), done

    def put_bytes(self, inode, at, data, count):
        """The first bytes of these are written from a place on."""
        if data:
            inode.data.extend(bytes(max(0, at + count - len(inode.data))))
            inode.data[at : at + count] = data[:count]
            inode.mtime = inode.ctime = self.clock
        return None if min(1, len(data)) <= count <= len(data) else f"{count} of {len(data)} bytes"

    def write(self, number, at, data):
        number, at, data = int(number), int(at), bytes_of(data)
        fault = self.file(number) or ("TooLarge" if at >= GREATEST else None)
        return fault, lambda count: self.put_bytes(self.inodes[number], at, data, count)

    def truncate(self, number, size):
        number, size = int(number), int(size)

        def done(_):
            inode = self.inodes[number]
            inode.data = inode.data[:size].ljust(size, b"\0")
            inode.mtime = inode.ctime = self.clock
            self.untrimmed.discard(number)

        return self.file(number) or ("TooLarge" if size > GREATEST else None), done

    def set(self, number, **fields):
        """Fields of an inode are set."""
        inode = self.inodes.get(int(number))
        return None if inode else "NoEntry", lambda _: inode.__dict__.update(fields, ctime=self.clock)

    def chmod(self, number, mode):
        return self.set(number, mode=int(mode, 8) | (self.inodes[int(number)].kind if int(number) in self.inodes else 0))

    def chown(self, number, uid, gid):
        return self.set(number, uid=int(uid), gid=int(gid))

    def utimens(self, number, mtime):
        return self.set(number, mtime=int(mtime))

    def trim(self, number):
        return None if int(number) in self.inodes else "NoEntry", lambda _: self.untrimmed.discard(int(number))

    def orphans(self, numbers=()):
        """Those of some numbers that have no link, or all that have none."""
        return [number for number, inode in self.inodes.items() if inode.links == 0 and (not numbers or str(number) in numbers)]

    def reap(self, *numbers):
        def done(_):
            for number in self.orphans(numbers):
                del self.inodes[number]
                self.untrimmed.discard(number)

        return None, done

    def look(self, word, words):
        """What a look answers, as a transcript writes it; a list of names is sorted, and bytes are bytes."""
        number = int(words[0]) if words else None
        if word == "check":
            return "good"
        if word == "stat":
            return self.stat(number)
        if word == "lookup":
            name = name_of(words[1])
            return self.found(number, name) or str(self.inodes[number].names[name])
        if word == "readdir":
            return self.at(number) or sorted((name, it) for name, it in self.inodes[number].names.items())
        if word == "read":
            return self.file(number) or bytes(self.inodes[number].data[int(words[1]) :][: int(words[2])])
        if word == "readlink":
            inode = self.inodes.get(number)
            return "NoEntry" if inode is None else "NotLink" if inode.kind != LINK else bytes(inode.data[:BLOCK])
        return str(self.path(number, name_of(words[1]), words[2] == "follow"))

    def stat(self, number):
        if number not in self.inodes:
            return "NoEntry"
        mode, *fields = self.inodes[number].fields()
        names = ["links", "uid", "gid", "size", "mtime", "ctime", "parent"]
        return " ".join([f"mode {mode:o}", *(f"{name} {field}" for name, field in zip(names, fields))])

    def step(self, number, name):
        """The fault of a name of a path, and the number to which it leads."""
        if name in (b".", b".."):
            return self.at(number), self.inodes[number].parent if name == b".." and number in self.inodes else number
        return self.found(number, name), self.inodes[number].names.get(name) if number in self.inodes else None

    def path(self, number, rest, is_followed):
        """The number to which a path leads, or its fault."""
        number, links = 1 if rest.startswith(b"/") else number, 40
        while rest:
            if rest.startswith(b"/"):
                rest, fault = rest[1:], self.at(number)
                if fault:
                    return fault
                continue
            name = rest.partition(b"/")[0]
            rest, (fault, there) = rest[len(name) :], self.step(number, name)
            if fault:
                return fault
            inode = self.inodes[there]
            if inode.kind != LINK or not (is_followed or rest):
                number = there
            elif links == 0 or len(inode.data) > 4096:
                return "TooLarge" if links else "Cycle"
            else:
                rest, links = bytes(inode.data) + rest, links - 1
                number = 1 if rest.startswith(b"/") else number
        return number
