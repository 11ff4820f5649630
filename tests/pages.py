"""What scripts of the repository make of its sources is what stands there: tables of pages, the page of the manual, and the list of crates."""

import os
import subprocess
import sys

from process import want

ROOT = os.path.dirname(os.path.dirname(os.path.realpath(__file__)))


def is_current(script):
    told = subprocess.run([sys.executable, f"{ROOT}/{script}", "--check"], capture_output=True, text=True)
    want(told.returncode == 0, f"{script} --check: {(told.stdout + told.stderr).strip()}")


def what_to_read_is_as_the_page_has_it(_):
    is_current("tools/what_to_read.py")


def crates_are_listed_as_their_sources_name_them(_):
    is_current("tools/edges.py")


def the_tables_of_crates_are_those_of_their_sources(_):
    is_current("tools/crates_table.py")


def the_page_of_the_manual_is_that_of_help(_):
    is_current("editors/man_page.py")


TESTS = (
    what_to_read_is_as_the_page_has_it,
    crates_are_listed_as_their_sources_name_them,
    the_tables_of_crates_are_those_of_their_sources,
    the_page_of_the_manual_is_that_of_help,
)
