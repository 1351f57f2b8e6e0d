"""What this package was built from: its version, the commit of the repository and the kit."""
import json
import re
import subprocess
from pathlib import Path
from typing import Dict

HERE = Path(__file__).resolve().parent
RECORD = HERE / "build.json"


def _first_line(*words: str) -> str:
    try:
        done = subprocess.run(words, cwd=HERE, capture_output=True, text=True, check=False)
    except OSError:
        return ""
    return done.stdout.partition("\n")[0].strip() if done.returncode == 0 else ""


def version() -> str:
    """The version of the package."""
    if RECORD.exists():
        return json.loads(RECORD.read_text(encoding="utf-8"))["version"]
    project = HERE.parent / "pyproject.toml"
    settings = project.read_text(encoding="utf-8") if project.exists() else ""
    found = re.search(r'^version = "(.*)"$', settings, re.M)
    return found[1] if found else "unknown"


def build() -> Dict[str, str]:
    """What was recorded when the package was installed; in a repository what stands there now."""
    if RECORD.exists():
        return json.loads(RECORD.read_text(encoding="utf-8"))
    commit = _first_line("git", "rev-parse", "HEAD") or "unknown"
    if _first_line("git", "status", "--porcelain", "--untracked-files=no"):
        commit += " with changes"
    kit = _first_line("rt", "version") or "unknown"
    return {"version": version(), "commit": commit, "kit": kit}
