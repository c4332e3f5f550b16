"""Recognise what decides the figures of a sweep, so that no table mixes two models or two programs.

A mark covers

- the model and the measurement: the instructions and constants of their functions, the values of default arguments, closures and
  globals that these use, and the same of all functions, methods, classes and modules of the user that they reach by name;
- the program: the hash of its source text, whether it is proved, and the kit;
- the text of this package, the Python version, and the versions of installed packages that the model reaches.

It does not depend on folders, hosts, line numbers, comments or docstrings. It does not see files that a model reads, the environment,
names that are looked up as strings (`getattr`), attributes that were set in modules of others or in `builtins`, and metaclasses.
"""
from __future__ import annotations

import bisect
import builtins
import copyreg
import dis
import functools
import hashlib
import importlib
import importlib.metadata
import importlib.util
import platform
import site
import sys
import sysconfig
import types
from collections import deque
from dataclasses import dataclass
from pathlib import Path, PurePath
from typing import Callable, Iterable, Iterator, Mapping

from ..base.errors import Fault
from ..program.programs import describe_program

PACKAGE = Path(__file__).resolve().parents[1]
PYTHON = f"{platform.python_implementation()} {platform.python_version()}"
TOO_DEEP = 100
"""The depth of nested values at which a value counts as unknown."""
SKIPPED = {"__dict__", "__weakref__", "__module__", "__doc__", "__annotations__", "__firstlineno__", "__static_attributes__", "__abstractmethods__",
           "_abc_impl", "__dataclass_fields__", "__dataclass_params__", "__match_args__"}
"""The entries of a class that decide no figure, or that are derived from others."""
SHARED = (tuple, frozenset, types.CodeType)
"""The types of constants. Python may keep one object or several for equal ones."""
OF_MODULES = {"__name__", "__file__", "__doc__", "__spec__", "__loader__", "__package__", "__builtins__", "__cached__"}
"""The globals that Python sets."""


class Unknown(Fault):
    """A part of a model cannot be recognised in a later run."""


class OtherMark(Fault):
    """A table has results of another model, measurement or program."""


@dataclass(frozen=True)
class Mark:
    """A mark: the text for the column `model`, and a digest or version for each part that it covers."""

    text: str
    parts: dict[str, str]

    def changes(self, other: dict[str, str]) -> list[str]:
        """Return the names of the parts that differ from those of another mark."""
        return [name for name in dict.fromkeys([*other, *self.parts]) if other.get(name) != self.parts.get(name)]


def make_mark(model: Callable[..., object], measure: Callable[..., object] | None, version: str | None = None,
              program: Path | str | None = None, python: str = PYTHON) -> Mark:
    """Return the mark of a model and its measurement. With `version`, this string stands for their source, Python and packages.
    `python` names the Python that runs them.

    Unknown: a part cannot be recognised in a later run. The message names it, and says what to do.
    """
    name = str(getattr(model, "__name__", type(model).__name__))
    parts = {"the program": describe_program(program), "zegdrut": sum_package()}
    if version is not None:
        return Mark(f"{name}@{version}-{digest(sorted(parts.items()))[:12]}", {**parts, "version": version})
    parts = {**Reach().parts(model, measure), **parts, "Python": python}
    return Mark(f"{name}-{digest(sorted(parts.items()))[:12]}", parts)


def digest(value: object) -> str:
    """Return the SHA-256 of a value's text."""
    return hashlib.sha256(repr(value).encode("utf-8", "surrogatepass")).hexdigest()


@functools.cache
def sum_package() -> str:
    """Return the SHA-256 of the text of this package."""
    total = hashlib.sha256()
    for path in sorted(PACKAGE.rglob("*.py")):
        text = path.read_bytes()
        total.update(f"{path.relative_to(PACKAGE)} {len(text)}\n".encode() + text)
    return total.hexdigest()


@functools.cache
def installed_folders() -> tuple[str, ...]:
    """Return the folders of Python's library and of installed packages."""
    named = [sysconfig.get_path(name) for name in ("stdlib", "platstdlib", "purelib", "platlib")]
    named += [*site.getsitepackages(), site.getusersitepackages(), *(path for path in sys.path if path.endswith(("-packages", "lib-dynload")))]
    return tuple({str(Path(path).resolve()) + "/" for path in named if path})


@functools.cache
def is_installed(file: str) -> bool:
    """Return whether a file belongs to Python, to an installed package or to this package, and not to the user."""
    return file.startswith("<frozen") or f"{Path(file).resolve()}/".startswith((*installed_folders(), f"{PACKAGE}/"))


@functools.cache
def package_version(top: str) -> str | None:
    """Return the name and the version of an installed package, by its top module; None for a module of Python or of this package."""
    if top in sys.stdlib_module_names or top == PACKAGE.name:
        return None
    names = [top] if any(True for _ in importlib.metadata.distributions(name=top)) else \
        importlib.metadata.packages_distributions().get(top, [])
    if names:
        return ", ".join(f"{name} {importlib.metadata.version(name)}" for name in sorted(set(names)))
    return f"{top} {getattr(sys.modules.get(top), '__version__', 'of unknown version')}"


def module_of(thing: object) -> types.ModuleType | None:
    """Return the module in which a class or a function was defined."""
    return sys.modules.get(str(getattr(thing, "__module__", None)))


def name_of_module(names: dict[str, object]) -> str:
    """Return the name of a module by its globals: the name of its file if it was run as a script."""
    name, file = str(names.get("__name__", "")), names.get("__file__")
    return Path(file).stem if name == "__main__" and isinstance(file, str) else name


Token = object
"""A part of a canonical description: strings, numbers and tuples of them, so that its `repr` decides it."""


class Reach:
    """Everything that functions reach, as a digest for each name."""

    def __init__(self) -> None:
        self._digests: dict[str, str] = {}
        self._packages: dict[str, str] = {}
        self._waiting: deque[tuple[str, object, str]] = deque()
        self.modules: dict[str, types.ModuleType] = {}
        """The modules of the user that functions reach, by name."""

    def parts(self, model: object, measure: object) -> dict[str, str]:
        """Return a digest for each global that a model and its measurement reach, and a version for each installed package."""
        folder = ""
        for value in (model, measure):
            file = getattr(value, "__globals__", getattr(module_of(value), "__dict__", {})).get("__file__")
            folder = folder or (str(Path(file).resolve().parent) if isinstance(file, str) and not is_installed(file) else "")
        self._waiting.extend([("the model", model, folder), ("the measurement", measure, folder)])
        while self._waiting:
            label, value, folder = self._waiting.popleft()
            if label not in self._digests:
                self._digests[label] = ""
                self._digests[label] = digest(Walk(self, label, folder).value(value))
        return {**self._digests, **self._packages}

    def note(self, label: str, value: object, folder: str) -> Token:
        """Remember a global for a digest of its own. Return what stands for it."""
        self._waiting.append((label, value, folder))
        return ("global", label)

    def note_package(self, module: str) -> None:
        """Remember an installed package."""
        top = module.partition(".")[0]
        version = package_version(top) if top else None
        if version is not None:
            self._packages[f"package {top}"] = version

    def note_module(self, module: types.ModuleType) -> None:
        """Remember a module of the user."""
        self.modules[module.__name__] = module


class Walk:
    """A description of one value, with everything in it except globals, which `reach` describes apart."""

    def __init__(self, reach: Reach, label: str, folder: str) -> None:
        self._reach, self._label, self._folder = reach, label, folder
        self._seen: dict[int, int] = {}
        self._kept: list[object] = []  # (so that no `id` is used twice)
        self._depth = 0

    def value(self, value: object) -> Token:
        """Return a description of any value. Unknown: there is none."""
        if value is None or value is Ellipsis or isinstance(value, (bool, int, float, complex, bytes)) and type(value).__module__ == "builtins":
            return (type(value).__name__, repr(value))
        if type(value) is str:
            return ("str", self._relative(value))
        if isinstance(value, PurePath):
            return ("path", self._relative(str(value)))
        if type(value) not in SHARED:
            if id(value) in self._seen:
                return ("seen", self._seen[id(value)])
            self._seen[id(value)] = len(self._seen)
            self._kept.append(value)
        self._depth += 1
        if self._depth > TOO_DEEP:
            raise self._unknown("a value that is nested too deeply")
        found = self._compound(value)
        self._depth -= 1
        return found

    def _relative(self, text: str) -> str:
        """Return a text without the folder of the model, if it begins with it."""
        return "." + text[len(self._folder):] if self._folder and f"{text}/".startswith(f"{self._folder}/") else text

    def _all(self, values: Iterable[object]) -> tuple[Token, ...]:
        return tuple(self.value(value) for value in values)

    def _compound(self, value: object) -> Token:
        if isinstance(value, (tuple, list)) and type(value).__module__ == "builtins":
            return (type(value).__name__, self._all(value))
        if type(value) in (dict, types.MappingProxyType):
            assert isinstance(value, Mapping)
            return ("dict", tuple((self.value(key), self.value(one)) for key, one in value.items()))
        if isinstance(value, (set, frozenset)) and type(value).__module__ == "builtins":
            return ("set", tuple(sorted((Walk(self._reach, self._label, self._folder).value(one) for one in value), key=repr)))
        if isinstance(value, types.FunctionType):
            return self._function(value)
        if isinstance(value, types.MethodType):
            return ("method", self.value(value.__func__), self.value(value.__self__))
        if isinstance(value, types.ModuleType):
            return self._module(value)
        if isinstance(value, type):
            return self._class(value)
        if isinstance(value, types.CodeType):
            return self._code(value, {})
        if isinstance(value, (staticmethod, classmethod)):
            return (type(value).__name__, self.value(value.__func__))
        if isinstance(value, property):
            return ("property", self._all((value.fget, value.fset, value.fdel)))
        if isinstance(value, functools.partial):
            return ("partial", self._all((value.func, value.args, value.keywords)))
        if isinstance(value, types.BuiltinFunctionType):
            return ("builtin", value.__qualname__, None if isinstance(value.__self__, types.ModuleType) else self.value(value.__self__),
                    self._installed(value.__module__ or ""))
        if hasattr(value, "__wrapped__") and is_installed_class(type(value)):
            return ("wrapper", self._installed(type(value).__module__), type(value).__qualname__, self.value(value.__wrapped__))
        if isinstance(value, (types.MethodDescriptorType, types.WrapperDescriptorType, types.MemberDescriptorType, types.GetSetDescriptorType,
                              types.ClassMethodDescriptorType, types.MethodWrapperType)):
            return ("slot", getattr(value, "__qualname__", value.__name__))
        return self._object(value)

    def _installed(self, module: str) -> str:
        self._reach.note_package(module)
        return module

    def _function(self, function: types.FunctionType) -> Token:
        """Describe a function: its name alone if it is one of an installed package, else what it does and what it uses."""
        inner = self._all((function.__defaults__, function.__kwdefaults__, [read_cell(cell) for cell in function.__closure__ or ()],
                           {name: one for name, one in vars(function).items() if name != "__wrapped__"}))
        if is_installed(function.__code__.co_filename):
            return ("installed", self._installed(str(function.__globals__.get("__name__", ""))), function.__code__.co_name,
                    inner if function.__closure__ else ())
        module = module_of(function)
        if module is not None:
            self._reach.note_module(module)
        return ("function", self._code(function.__code__, function.__globals__), inner)

    def _code(self, code: types.CodeType, names: dict[str, object]) -> Token:
        """Describe instructions without their lines: operations, constants, and the globals that they read."""
        steps = [step for step in dis.get_instructions(code) if step.opname not in ("NOP", "CACHE", "EXTENDED_ARG")]
        places = [step.offset for step in steps]

        def place(offset: int) -> int:
            return bisect.bisect_left(places, offset)
        found: list[Token] = []
        for number, step in enumerate(steps):
            argument: Token = step.argval if isinstance(step.argval, (str, int, type(None))) else repr(step.arg)
            if step.opcode in dis.hasjabs or step.opcode in dis.hasjrel:
                argument = place(int(step.argval))
            elif step.opcode in dis.hasconst:
                argument = self._code(step.argval, names) if isinstance(step.argval, types.CodeType) else self.value(step.argval)
            elif step.opname in ("LOAD_GLOBAL", "LOAD_NAME"):
                argument = self._global(str(step.argval), names, steps[number + 1:number + 9])
            elif step.opname == "IMPORT_NAME":
                argument = self._import(str(step.argval), names, steps[number - 2].argval, steps[number - 1].argval)
            found.append((step.opname, argument))
        table = [(place(start), place(end), place(target), depth) for start, end, target, depth in exception_table(code)]
        return ("code", code.co_name, code.co_argcount, code.co_posonlyargcount, code.co_kwonlyargcount, code.co_flags, code.co_varnames,
                tuple(found), tuple(table))

    def _global(self, name: str, names: dict[str, object], after: list[dis.Instruction]) -> Token:
        """Describe a global. Of a module of the user, only the attribute that is read counts."""
        if name not in names:
            return ("builtin", name) if hasattr(builtins, name) else ("missing", name)
        if name in OF_MODULES:
            return ("of the module", name)
        label, value = f"{name_of_module(names)}.{name}", names[name]
        for step in after:
            if not isinstance(value, types.ModuleType) or is_installed_module(value) or step.opname not in ("LOAD_ATTR", "LOAD_METHOD"):
                break
            self._reach.note_module(value)
            label, value = f"{value.__name__}.{step.argval}", getattr(value, str(step.argval), None)
        if isinstance(value, types.ModuleType):
            return self._module(value)
        return self._reach.note(label, value, self._folder)

    def _import(self, name: str, names: dict[str, object], level: object, wanted: object) -> Token:
        """Describe a module that a function imports: what it takes from it, or the whole module."""
        full = importlib.util.resolve_name("." * level + name, str(names.get("__package__"))) if isinstance(level, int) and level else name
        try:
            module = importlib.import_module(full)
        except ImportError:
            return ("missing", full)
        if is_installed_module(module) or not isinstance(wanted, tuple):
            return self._module(module)
        self._reach.note_module(module)
        return tuple(self._reach.note(f"{full}.{one}", getattr(module, one, None), self._folder) for one in wanted)

    def _module(self, module: types.ModuleType) -> Token:
        """Describe a module: its name if it is installed, else everything in it."""
        if is_installed_module(module):
            return ("module", self._installed(module.__name__))
        self._reach.note_module(module)
        return ("module", tuple(self._reach.note(f"{module.__name__}.{name}", value, self._folder)
                                for name, value in sorted(vars(module).items()) if name not in OF_MODULES))

    def _class(self, kind: type) -> Token:
        """Describe a class: its name if it is installed, else its bases and everything in it."""
        if is_installed_class(kind):
            return ("class", self._installed(kind.__module__), kind.__qualname__)
        module = module_of(kind)
        if module is not None:
            self._reach.note_module(module)
        return ("class", kind.__qualname__, self._all(kind.__bases__),
                tuple((name, self.value(value)) for name, value in sorted(vars(kind).items()) if name not in SKIPPED))

    def _object(self, value: object) -> Token:
        """Describe an object as pickle does: its class and its state. Unknown: it has none."""
        try:
            registered = copyreg.dispatch_table.get(type(value))
            reduced = registered(value) if registered else value.__reduce_ex__(2)
        except Exception:  # (whatever pickling raises for such an object)
            raise self._unknown(f"an object of the class {type(value).__qualname__}") from None
        if isinstance(reduced, str):
            return ("installed", self._installed(str(getattr(value, "__module__", None) or type(value).__module__)), reduced)
        make, given, state, items, pairs = (*reduced, None, None, None)[:5]
        if isinstance(state, dict):  # (`functools.update_wrapper` copies names and a docstring, which decide nothing)
            state = {name: one for name, one in state.items() if name not in functools.WRAPPER_ASSIGNMENTS}
        return ("object", self._all((make, given, state, None if items is None else list(items), None if pairs is None else list(pairs))))

    def _unknown(self, what: str) -> Unknown:
        return Unknown(f"{self._label} has {what}, which cannot be recognised in a later run, so the table could not be continued: give "
                       "version=\"1\" (--version 1), and a different version whenever the model changes")


def read_cell(cell: types.CellType) -> object:
    """Return the value of a variable of a closure, or None if it is not set yet."""
    try:
        return cell.cell_contents
    except ValueError:
        return None


def is_installed_class(kind: type) -> bool:
    """Return whether a class is Python's, of an installed package, or of this one."""
    module = module_of(kind)
    return kind.__module__ == "builtins" or module is not None and is_installed_module(module)


def is_installed_module(module: types.ModuleType) -> bool:
    """Return whether a module is Python's, an installed one, or one of this package."""
    if module.__name__ == "__main__":
        return False
    folders = (f"{path}/" for path in getattr(module, "__path__", ()))
    file = getattr(module, "__file__", None) or next(folders, None)  # (a folder without __init__.py has no file)
    return is_installed(file) if file else module.__name__.partition(".")[0] in sys.stdlib_module_names


def exception_table(code: types.CodeType) -> Iterator[tuple[int, int, int, int]]:
    """Yield (first offset, offset after the last one, offset of the handler, depth) for each region with a handler."""
    data = iter(getattr(code, "co_exceptiontable", b""))

    def number(first: int) -> int:
        value = first & 63
        while first & 64:
            first = next(data)
            value = value << 6 | first & 63
        return value
    for first in data:
        start, size, target, depth = number(first) * 2, number(next(data)) * 2, number(next(data)) * 2, number(next(data))
        yield start, start + size, target, depth
