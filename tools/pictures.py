"""What tools that draw share: a Python with the packages that they need, the library, and what is
left out where one of these is not there."""
import os
import subprocess
import sys

TOP = os.path.dirname(os.path.dirname(os.path.abspath(__file__)))
# That of the path, and that of the system, for which Debian has its packages.
PYTHONS = ("python3", "/usr/bin/python3")


def python_with(*packages):
    """A Python that has all of these packages, or none."""
    code = "; ".join(f"import {package}" for package in packages)
    for name in (sys.executable, *PYTHONS):
        try:
            done = subprocess.run([name, "-c", code], capture_output=True, check=False)
        except OSError:
            continue
        if done.returncode == 0:
            return name
    return None


def go_on_with(*packages):
    """Goes on in a Python that has these packages; says whether this is one."""
    name = python_with(*packages)
    if name is None:
        return False
    if name != sys.executable:
        os.execvp(name, [name, *sys.argv])
    return True


def package():
    """The package of this repository, if its library is there, and else None."""
    sys.dont_write_bytecode = True
    sys.path.insert(0, os.path.join(TOP, "python"))
    import gjcut

    try:
        gjcut.call("check", "")
    except gjcut.LibraryMissing:
        return None
    return gjcut


def skipped(what):
    """Tells what is left out, and keeps it for the gate to count."""
    print(f"skipped: {what}")
    if os.environ.get("GATE_SKIPPED"):
        with open(os.environ["GATE_SKIPPED"], "a", encoding="utf-8") as file:
            file.write(what + "\n")
