"""The library that is preloaded to stop a process as it writes, or to let a write fail."""
import os
import shutil
import subprocess

from program import TOP


def cutter(top):
    """The library, made in this folder; none where there is no C compiler."""
    compiler = shutil.which("cc") or shutil.which("gcc")
    if compiler is None:
        return None
    source, library = os.path.join(TOP, "tools", "kills", "cut_write.c"), f"{top}/cut_write.so"
    subprocess.run([compiler, "-shared", "-fPIC", "-O1", "-o", library, source, "-ldl"], check=True)
    return library
