"""The tokens of sources, as the toolchain's check reads them."""
import json
import pathlib
import re
import subprocess
import typing

KIT = pathlib.Path(subprocess.run(["rt", "doc"], capture_output=True, text=True, check=True).stdout.strip()).parent
RATTLE = KIT / "bin/rattle"


class Token(typing.NamedTuple):
    line: int
    start: int  # among the bytes of the file
    end: int
    kind: str  # Code or Literal of Rust, Antt or Text of clauses, specs and proofs, or Head or End of a clause
    text: str


def read(files):
    """Yields the tokens of each file, without comments."""
    done = subprocess.run([RATTLE, "fmt", "--tokens", *files], capture_output=True, text=True, check=True)
    for rows in re.split(r"^file \d+\n", done.stdout, flags=re.M)[1:]:
        rows = [row.split(" ", 4) for row in rows.splitlines()]
        texts = json.loads(f"[{','.join(row[4] for row in rows)}]")
        yield [Token(int(row[0]), int(row[1]), int(row[2]), row[3], text) for row, text in zip(rows, texts)]
