"""Files that are written whole, and replace none that was not meant."""
import os
from pathlib import Path
from typing import Union


def write(name: Union[str, Path], data: bytes, force: bool = False) -> None:
    """Writes the whole file, or none. If there is one of this name, that raises `FileExistsError`,
    but for `force`."""
    where = Path(name)
    if where.exists() and not force:
        raise FileExistsError(f"{where}: it is there already")
    draft = where.with_name(f".{where.name}.{os.getpid()}")
    try:
        draft.write_bytes(data)
        os.replace(draft, where)
    finally:
        draft.unlink(missing_ok=True)
