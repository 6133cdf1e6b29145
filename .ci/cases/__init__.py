"""The cases of `.ci/statuses`, a file for each subject."""

import importlib
import pkgutil

CASES = [
    case
    for found in pkgutil.iter_modules(__path__)
    for case in getattr(importlib.import_module(f"{__name__}.{found.name}"), "CASES", ())
]
