"""The version of the package: that of the file VERSION, which a wheel has beside the modules, and a checkout at its top."""

from pathlib import Path

_PACKAGE = Path(__file__).resolve().parent
_PLACES = (_PACKAGE / "VERSION", _PACKAGE.parent.parent / "VERSION")

__version__ = next(place for place in _PLACES if place.exists()).read_text(encoding="ascii").strip()
