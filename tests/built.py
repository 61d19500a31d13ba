"""The built program that the scripts in this folder try, and how many checks they made."""
import os

TOP = os.path.dirname(os.path.dirname(os.path.abspath(__file__)))
# What ETS_TOOL names, or else the program that the gate builds.
PROGRAM = os.path.abspath(os.environ.get("ETS_TOOL") or f"{TOP}/crates/ets_tool/out/ets_tool")


def tally(what, passed, failed):
    """Appends how many checks passed and failed to the file that TALLY names; without that variable does nothing."""
    if os.environ.get("TALLY"):
        with open(os.environ["TALLY"], "a", encoding="utf-8") as file:
            file.write(f"{passed} {failed} {what}\n")


def all_right(what, results):
    """Whether all results are true; tallies them."""
    passed = sum(map(bool, results))
    tally(what, passed, len(results) - passed)
    return passed == len(results)
