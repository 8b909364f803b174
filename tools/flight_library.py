"""The tree's C interface (include/oscjardum.h) from Python: the archive of `rt lib` in crates/flight as a shared library, and six lent areas with a record."""

import ctypes
import os
import platform
import shutil
import subprocess

TOP = os.path.dirname(os.path.dirname(os.path.realpath(__file__)))
KINDS = [ctypes.c_uint64, ctypes.c_uint8, ctypes.c_uint16, ctypes.c_uint64, ctypes.c_uint32, ctypes.c_uint64]  # areas 0 to 5
NAMES = ("build", "grow", "first_child", "next_sibling", "label", "leaf_count", "byte_size", "nodes", "is_empty", "close", "bit", "walk")


class Absent(Exception):
    """Why there is no library: no x86-64 machine, no C compiler, no rt."""


def library(folder):
    """The functions; the shared library is made in the folder. FLIGHT_ARCHIVE names an archive to take as it is."""
    if platform.machine() != "x86_64" or shutil.which("gcc") is None:
        raise Absent("no C compiler, or no x86-64 machine")
    archive = os.environ.get("FLIGHT_ARCHIVE")
    if not archive:
        if shutil.which("rt") is None:
            raise Absent("no rt on PATH")
        crate = os.path.join(TOP, "crates", "flight")
        made = subprocess.run(["rt", "lib"], cwd=crate, stdout=subprocess.PIPE, stderr=subprocess.STDOUT, text=True)
        if made.returncode != 0:
            raise SystemExit(made.stdout)
        archive = os.path.join(crate, "out", "libflight.a")
    shared = os.path.join(folder, "flight.so")
    subprocess.run(["gcc", "-shared", "-o", shared, "-Wl,--whole-archive", archive, "-Wl,--no-whole-archive"], check=True)
    flight = ctypes.CDLL(shared)
    for name in NAMES:
        getattr(flight, "oscjardum_" + name).restype = ctypes.c_uint64
    return flight


def lent(array):
    return array, ctypes.c_size_t(len(array))


def array(kind, values):
    return (kind * len(values))(*values)


class Tree:
    """Six lent areas and a record."""

    def __init__(self, flight, lengths):
        self.flight, self.areas = flight, [(kind * length)() for kind, length in zip(KINDS, lengths)]
        self.record, self.out = (ctypes.c_uint64 * 18)(), (ctypes.c_uint64 * 4)()

    def call(self, name, before, count, after):
        flat = [part for area in self.areas[:count] for part in lent(area)]
        status = getattr(self.flight, "oscjardum_" + name)(*before, *flat, *after, *lent(self.out))
        return status, list(self.out)

    def build(self, levels, labels):
        lists = [*lent(array(ctypes.c_uint32, levels)), *lent(array(ctypes.c_uint32, labels))]
        return self.call("build", lists, 6, lent(self.record))

    def grow(self, level, label):
        return self.call("grow", [], 6, [*lent(self.record), ctypes.c_uint32(level), ctypes.c_uint32(label)])

    def ask(self, name, *arguments):
        return self.call(name, [], 5, [*lent(self.record), *map(ctypes.c_uint64, arguments)])

    def walk(self, n, m=None):
        """With n elements lent for the levels, and m for the labels."""
        levels, labels = (ctypes.c_uint32 * n)(), (ctypes.c_uint32 * (n if m is None else m))()
        status, out = self.call("walk", [], 6, [*lent(self.record), *lent(levels), *lent(labels)])
        return status, out, list(levels), list(labels)

    def held(self):
        return [bytes(area) for area in self.areas], list(self.record)
