"""Packages that are not of Python's own, and that some calls need."""
import importlib
from types import ModuleType


class PackageMissing(ImportError):
    """A package is not here that this call needs; the text says which, and how to have it."""


def needed(module: str, what: str, debian: str) -> ModuleType:
    """The module of a package; `what` needs it, and Debian has it in the package `debian`."""
    try:
        return importlib.import_module(module)
    except ImportError as error:
        package = module.partition(".")[0]
        if error.name not in (module, package):
            raise
        how = f"`apt-get install {debian}`, or `pip install {package}`"
        raise PackageMissing(f"{what} need the package {package}, which is not here: {how}") from None
