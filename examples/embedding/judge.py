#!/usr/bin/env python3
"""Judges a transcript through the shared library, as `bg_relay judge` does: prints the board and the verdict, and ends
with status 0 where it is fine and 2 where it is refused. With --turns it lists the legal turns after it.

    ./judge.py OUT/libbg_relay.so.2 TRANSCRIPT [--turns]
"""
import pathlib
import sys

sys.dont_write_bytecode = True
# A program of your own finds the package where it is installed.
sys.path.insert(0, str(pathlib.Path(__file__).resolve().parents[1] / "languages" / "python"))

from bg_relay import Refused, judge, load, turns


def main():
    load(sys.argv[1])
    transcript = pathlib.Path(sys.argv[2]).read_bytes()
    if sys.argv[3:] == ["--turns"]:
        print("".join(f"{turn}\n" for turn in turns(transcript)), end="")
        return 0
    judged = judge(transcript)
    print(judged.text, end="")
    return 0 if judged.is_fine else 2


if __name__ == "__main__":
    try:
        sys.exit(main())
    except Refused as why:
        sys.exit(f"judge.py: {why}")
