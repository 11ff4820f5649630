"""What `build` and `check` do with files: none is lost, and none is half written."""

import os
import stat

from process import want

TEXT = "int main() { return 7; }\n"
WRONG = "int main() { return x; }\n"


def unchanged(it, name, bytes_before):
    want(it.read(name) == bytes_before, f"{name} was changed")


def build_writes_an_image(it):
    it.write("a.c0", TEXT)
    it.check("build", "-o", "a.c0i", "a.c0")
    it.check("run", "a.c0i", out="result: 7\n")
    want(sorted(os.listdir(it.folder)) == ["a.c0", "a.c0i"], "another file was left")


def build_refuses_its_own_text(it):
    it.write("a.c0", TEXT)
    os.symlink("a.c0", it.path("link.c0"))
    os.link(it.path("a.c0"), it.path("second.c0"))
    for out in ("a.c0", "./a.c0", it.path("a.c0"), "link.c0", "second.c0"):
        it.check("build", "-o", out, "a.c0", status=2, err=f"{out}: cannot be written\n")
        unchanged(it, "a.c0", TEXT.encode())


def build_refuses_its_own_image(it):
    it.write("a.c0", TEXT)
    it.check("build", "-o", "a.c0i", "a.c0")
    it.check("build", "-o", "a.c0i", "a.c0i", status=2, err="a.c0i: cannot be written\n")
    it.check("run", "a.c0i", out="result: 7\n")


def build_keeps_what_it_cannot_replace(it):
    it.write("wrong.c0", WRONG)
    it.write("a.c0i", "what was there")
    it.check("build", "-o", "a.c0i", "wrong.c0", status=2, err="wrong.c0:1:21: fault 30 UnknownName\n")
    unchanged(it, "a.c0i", b"what was there")


def build_keeps_the_mode(it):
    it.write("a.c0", TEXT)
    it.write("a.c0i", "")
    os.chmod(it.path("a.c0i"), 0o640)
    it.check("build", "-o", "a.c0i", "a.c0")
    want(stat.S_IMODE(os.stat(it.path("a.c0i")).st_mode) == 0o640, "the mode was changed")
    it.check("run", "a.c0i", out="result: 7\n")


def build_follows_a_link(it):
    it.write("a.c0", TEXT)
    os.mkdir(it.path("images"))
    it.write("images/a.c0i", "")
    os.symlink("images/a.c0i", it.path("a.c0i"))
    os.symlink("images/new.c0i", it.path("new.c0i"))
    for name in ("a.c0i", "new.c0i"):
        it.check("build", "-o", name, "a.c0")
        want(os.path.islink(it.path(name)), f"{name} is no link any more")
        it.check("run", f"images/{name}", out="result: 7\n")


def build_writes_into_what_is_no_regular_file(it):
    """The devices are named by links, so that a program that replaces what it is given does no harm."""
    it.write("a.c0", TEXT)
    os.mkfifo(it.path("pipe"))
    reader = os.open(it.path("pipe"), os.O_RDONLY | os.O_NONBLOCK)
    it.check("build", "-o", "pipe", "a.c0")
    it.check("build", "-o", "a.c0i", "a.c0")
    want(stat.S_ISFIFO(os.stat(it.path("pipe")).st_mode), "the pipe is no pipe any more")
    want(os.read(reader, 1 << 16) == it.read("a.c0i"), "the pipe did not get the image")
    os.close(reader)
    for name in ("null", "full"):
        os.symlink(f"/dev/{name}", it.path(name))
    it.check("build", "-o", "null", "a.c0")
    it.check("build", "-o", "full", "a.c0", status=2, err="full: cannot be written\n")
    want(os.path.islink(it.path("null")) and os.path.islink(it.path("full")), "a link to a device was replaced")


def build_takes_no_name_that_is_taken(it):
    it.write("a.c0", TEXT)
    it.write("a.c0i.unfinished", "somebody's")
    os.mkdir(it.path("a.c0i.unfinished.1"))
    it.check("build", "-o", "a.c0i", "a.c0")
    unchanged(it, "a.c0i.unfinished", b"somebody's")
    it.check("run", "a.c0i", out="result: 7\n")
    want(sorted(os.listdir(it.folder)) == ["a.c0", "a.c0i", "a.c0i.unfinished", "a.c0i.unfinished.1"], "another file was left")


def build_into_no_folder(it):
    it.write("a.c0", TEXT)
    os.mkdir(it.path("folder"))
    for out in ("missing/a.c0i", "a.c0/a.c0i", "folder", "", "x" * 300):
        it.check("build", "-o", out, "a.c0", status=2, err=f"{out}: cannot be written\n")
    want(sorted(os.listdir(it.folder)) == ["a.c0", "folder"], "another file was left")


def a_file_that_cannot_be_read(it):
    os.mkdir(it.path("folder.c0"))
    for name in ("missing.c0", "folder.c0", "", "missing.c0i"):
        for words in (("check",), ("list",), ("mean", "--turns", "9"), ("run",), ("build", "-o", "out.c0i")):
            it.check(*words, name, status=2, err=f"{name}: cannot be read\n")
    want(os.listdir(it.folder) == ["folder.c0"], "another file was left")


TESTS = [
    build_writes_an_image,
    build_refuses_its_own_text,
    build_refuses_its_own_image,
    build_keeps_what_it_cannot_replace,
    build_keeps_the_mode,
    build_follows_a_link,
    build_writes_into_what_is_no_regular_file,
    build_takes_no_name_that_is_taken,
    build_into_no_folder,
    a_file_that_cannot_be_read,
]
