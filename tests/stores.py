"""A store in the files of a folder (`run --store DIR`): what is there already, what is no regular file, and no folder at all."""

import os

from process import want

# 100 objects of 64 cells each, so that a run with few frames needs its store.
TEXT = "int main() { int[] a = alloc_array(int, 6400); int s = 0; for (int i = 0; i < 6400; i++) { a[i] = i; } for (int i = 0; i < 6400; i++) { s += a[i]; } return s; }\n"
SUM = "result: 20476800\n"
FAILED = "store failed\n"


def numbered(folder):
    return {name for name in os.listdir(folder) if name.isdigit()}


def run(it, folder, *words, **told):
    it.write("a.c0", TEXT)
    it.check("run", "--frames", "8", "--store", folder, *words, "a.c0", **told)


def a_folder(it):
    os.mkdir(it.path("store"))
    run(it, "store", out=SUM)
    want("0" in os.listdir(it.path("store")), "no file was written")


def files_that_were_there(it):
    os.mkdir(it.path("store"))
    it.write("store/0", "what was there, and is longer than an object of a piece with its header" * 40)
    it.write("store/other", "not mine")
    run(it, "store", out=SUM)
    want(it.read("store/other") == b"not mine", "another file was changed")
    want(os.path.getsize(it.path("store/0")) == 8 * (3 + 64), "the file has another length than an object's")


def a_folder_used_again_with_other_pieces(it):
    os.mkdir(it.path("store"))
    run(it, "store", "--piece", "16", out=SUM)
    run(it, "store", "--piece", "256", out=SUM)
    run(it, "store", "--piece", "16", out=SUM)


def no_folder(it):
    it.write("file", "")
    for name in ("missing", "file", "missing/store"):
        run(it, name, out=FAILED, status=3)


def an_empty_name(it):
    before = numbered("/")
    try:
        run(it, "", out=FAILED, status=3)
    finally:
        for name in numbered("/") - before:
            os.remove(f"/{name}")


def link_to(name):
    return lambda path: os.symlink(name, path)


def what_is_no_regular_file(it):
    """A pipe would be waited for without end, and a link would be followed. One such file keeps its object in its frame, and all of them leave no room."""
    it.write("target", "untouched")
    for kind, make in (("pipe", os.mkfifo), ("folder", os.mkdir), ("link", link_to(it.path("target"))), ("device", link_to("/dev/null"))):
        for name, numbers in ((f"one_{kind}", [3]), (f"each_{kind}", range(100))):
            os.mkdir(it.path(name))
            for number in numbers:
                make(it.path(f"{name}/{number}"))
        run(it, f"one_{kind}", out=SUM)
        run(it, f"each_{kind}", out=FAILED, status=3)
    want(it.read("target") == b"untouched", "a link was followed")


def a_run_that_needs_no_store(it):
    it.write("small.c0", "int main() { return 7; }\n")
    it.check("run", "--store", "missing", "small.c0", out="result: 7\n")


TESTS = [
    a_folder,
    files_that_were_there,
    a_folder_used_again_with_other_pieces,
    no_folder,
    an_empty_name,
    what_is_no_regular_file,
    a_run_that_needs_no_store,
]
