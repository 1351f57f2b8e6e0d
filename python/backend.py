"""Makes the wheel of the package, with the shared library in it. It needs Python, and no network:

    pip install --no-build-isolation ./python

The shared library is that of this repository, or the file that GJCUT_LIBRARY names.
"""
import base64
import hashlib
import json
import re
import sysconfig
import zipfile
from pathlib import Path

from gjcut import _build, _library

HERE = Path(__file__).resolve().parent
SETTINGS = (HERE / "pyproject.toml").read_text(encoding="utf-8")
PROJECT = dict(re.findall(r'^(\S+) = "(.*)"$', SETTINGS, re.M))
# What only some calls need, by the name of what they do.
EXTRAS = {
    name: re.findall(r'"([^"]*)"', packages)
    for name, packages in re.findall(
        r"^(\S+) = \[(.*)\]$", SETTINGS.partition("[project.optional-dependencies]")[2], re.M
    )
}


def _files():
    """Each file of the package by its name in the wheel."""
    for path in sorted((HERE / "gjcut").iterdir()):
        if path.suffix == ".py" or path.name == "py.typed":
            yield f"gjcut/{path.name}", path.read_bytes()
    yield "gjcut/build.json", json.dumps(_build.build()).encode()
    yield f"gjcut/{_library.NAME}", _library.find().read_bytes()


def build_wheel(wheel_directory, config_settings=None, metadata_directory=None):
    tag = "py3-none-" + re.sub(r"\W", "_", sysconfig.get_platform())
    name = f"{PROJECT['name']}-{PROJECT['version']}"
    metadata = f"Metadata-Version: 2.1\nName: {PROJECT['name']}\nVersion: {PROJECT['version']}\n" \
        f"Summary: {PROJECT['description']}\nRequires-Python: {PROJECT['requires-python']}\n"
    for extra, packages in EXTRAS.items():
        metadata += f"Provides-Extra: {extra}\n"
        metadata += "".join(f'Requires-Dist: {each}; extra == "{extra}"\n' for each in packages)
    wheel = f"Wheel-Version: 1.0\nGenerator: gjcut\nRoot-Is-Purelib: false\nTag: {tag}\n"
    records = []
    told = {f"{name}.dist-info/METADATA": metadata, f"{name}.dist-info/WHEEL": wheel}
    files = [*_files(), *((file, text.encode()) for file, text in told.items())]
    made = Path(wheel_directory) / f"{name}-{tag}.whl"
    with zipfile.ZipFile(made, "w", zipfile.ZIP_DEFLATED) as archive:
        for file, data in files:
            archive.writestr(file, data)
            digest = base64.urlsafe_b64encode(hashlib.sha256(data).digest()).rstrip(b"=").decode()
            records.append(f"{file},sha256={digest},{len(data)}\n")
        record = f"{name}.dist-info/RECORD"
        archive.writestr(record, "".join([*records, f"{record},,\n"]))
    return f"{name}-{tag}.whl"
