"""The modules of scribe as they stand now, for what is imported later.

A book may be open for days, and scribe may be installed anew meanwhile, or taken away. Modules of
another version don't fit those that are imported already.
"""

import os
import sys
from collections.abc import Mapping, Sequence
from contextlib import suppress
from importlib.abc import MetaPathFinder, SourceLoader
from importlib.machinery import ModuleSpec
from importlib.util import spec_from_file_location
from types import ModuleType

#: The packages of which all that is here is made.
_PACKAGES = ("braildesk", "scribe")


def hold_modules() -> None:
    """Has each module that isn't imported yet be as it stands now, whenever it is imported."""
    places: dict[str, str] = {}
    sources: dict[str, bytes] = {}
    for package in _PACKAGES:
        for folder in sys.modules[package].__path__:
            for name, path in _modules(package, folder):
                # one that can't be read now is looked for where it is asked for
                with suppress(OSError), open(path, "rb") as file:
                    sources[path] = file.read()
                    places[name] = path
    sys.meta_path.insert(0, _Held(places, sources))


class _Held(SourceLoader, MetaPathFinder):
    """Finds modules by their names, and makes them of sources that were read before."""

    def __init__(self, places: Mapping[str, str], sources: Mapping[str, bytes]) -> None:
        self._places = places
        self._sources = sources

    def find_spec(
        self,
        fullname: str,
        path: Sequence[str] | None,
        target: ModuleType | None = None,
    ) -> ModuleSpec | None:
        """Where a module stood, none for those of others."""
        place = self._places.get(fullname)
        if place is None:
            return None
        return spec_from_file_location(fullname, place, loader=self)

    def get_filename(self, fullname: str) -> str:
        """The path of a module."""
        return self._places[fullname]

    def get_data(self, path: str | bytes) -> bytes:
        """What stood at a path."""
        return self._sources[os.fsdecode(path)]


def _modules(package: str, top: str) -> list[tuple[str, str]]:
    """The names and the paths of the modules in the folder of a package."""
    found = []
    for folder, _, files in os.walk(top):
        parts = os.path.relpath(folder, top).split(os.sep)
        names = [package, *(part for part in parts if part != ".")]
        for file in files:
            name, ending = os.path.splitext(file)
            if ending == ".py":
                of_module = names if name == "__init__" else [*names, name]
                found.append((".".join(of_module), os.path.join(folder, file)))
    return found
