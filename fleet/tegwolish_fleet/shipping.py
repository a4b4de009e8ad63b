"""Things that are made where they arrive, from source text that travels with them.

Dask pickles what can be imported by its name alone; workers of a cluster need not have this
package, and may have another version of it. So the modules that they run travel as text, and
stand there as a package whose name is their digest.
"""

from __future__ import annotations

from pathlib import Path
from typing import Any, Callable

from .cache import digest_of

# In the order in which they import one another.
MODULES = ("answers", "cache", "child", "report", "task", "there")


def unpack(name: str, sources: dict[str, str], what: str, arguments: tuple[Any, ...]) -> Any:
    """Makes the package if it is not there yet, and gives what `there.what` makes of the arguments.

    It travels by value, so it uses nothing of this module.
    """
    import importlib
    import sys
    from types import ModuleType

    if name not in sys.modules:
        package = ModuleType(name)
        package.__path__ = []
        sys.modules[name] = package
        for short, source in sources.items():
            module = ModuleType(f"{name}.{short}")
            module.__package__ = name
            sys.modules[module.__name__] = module
            exec(compile(source, f"<{module.__name__}>", "exec"), module.__dict__)
            setattr(package, short, module)
    return getattr(importlib.import_module(f"{name}.there"), what)(*arguments)


def call_there(package: str, what: str, *arguments: Any) -> Any:
    """Calls what an earlier delivery has unpacked. It travels by value as well."""
    import importlib

    return getattr(importlib.import_module(f"{package}.there"), what)(*arguments)


class ByValue:
    """A function that is pickled with its code."""

    def __init__(self, function: Callable[..., Any]):
        import sys

        import cloudpickle

        module = sys.modules[function.__module__]
        cloudpickle.register_pickle_by_value(module)
        self.loads, self.content = cloudpickle.loads, cloudpickle.dumps(function)
        cloudpickle.unregister_pickle_by_value(module)

    def __reduce__(self) -> tuple[Any, ...]:
        return self.loads, (self.content,)

    def __call__(self, *_: Any) -> None:
        raise AssertionError("it is called where it arrives")


class Shipped:
    """What arrives as the object that `there.what` makes of the arguments."""

    def __init__(self, what: str, *arguments: Any):
        folder = Path(__file__).parent
        sources = {name: (folder / f"{name}.py").read_text("utf-8") for name in MODULES}
        digest = digest_of("".join(sources.values()).encode("utf-8"))
        self.package = f"tegwolish_fleet_{digest}"
        self.unpack = ByValue(unpack)
        self.arguments = (self.package, sources, what, arguments)

    def __reduce__(self) -> tuple[Any, ...]:
        return self.unpack, self.arguments
