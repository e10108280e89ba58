"""Where the repository stands, and which program its checks try."""
import os

TOP = os.path.realpath(os.path.join(os.path.dirname(os.path.realpath(__file__)), "..", ".."))
PROGRAM = os.environ.get("BG_RELAY", os.path.join(TOP, "crates", "bg_relay", "out", "bg_relay"))
