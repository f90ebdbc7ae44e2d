"""The kit's command `rt` as a module: it reads edits, and knows how a crate is checked."""
import importlib.machinery
import importlib.util
import os
import subprocess


def command_of_kit():
    page = subprocess.run(["rt", "doc"], check=True, capture_output=True, text=True).stdout.strip()
    loader = importlib.machinery.SourceFileLoader("rt_of_kit", os.path.join(os.path.dirname(page), "bin", "rt"))
    made = importlib.util.module_from_spec(importlib.util.spec_from_loader("rt_of_kit", loader))
    loader.exec_module(made)
    return made


rt = command_of_kit()
# No crate of the repository has C code, whatever the environment says.
os.environ.pop(rt.rtlib.ALLOW_C, None)
