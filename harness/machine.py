"""What a command of the harness needs, asked before anything is proved: where it is missing one line says so, and the status is 2."""
import ctypes
import importlib.util
import os
import platform
import shutil
import sys


def stop(what):
    print(f"{os.path.basename(sys.argv[0])}: {what}", file=sys.stderr)
    sys.exit(2)


def need_x86():
    """The library is for x86-64 and is loaded into this process, so that no emulator can run it alone."""
    if platform.machine() != "x86_64":
        stop(f"needs an x86-64 machine, since it loads the library into its own process; this one is {platform.machine()}")


def need(program, package):
    if shutil.which(program) is None:
        stop(f"{program} is missing (Debian's {package})")


def need_module(module, package):
    if importlib.util.find_spec(module) is None:
        stop(f"the Python module {module} is missing (Debian's {package}, for Debian's python3)")


def shared_library(name, package):
    try:
        return ctypes.CDLL(name)
    except OSError:
        stop(f"{name} is missing (Debian's {package})")
