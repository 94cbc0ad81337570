"""Linked modules as one module: the items of the libraries, one library after the other, and those of the main module
behind them. The exports and the start function are the main module's.

An import stands for what the export of its name stands for in the library of its name, which comes before. Modules that
aren't linked aren't recognised.
"""
from .module import Export, Function, Module, need

FUNCTION, GLOBAL = 0, 3


def sums(counts):
    """For each module how many items the modules before it have."""
    return [sum(counts[:place]) for place in range(len(counts))]


def export_of(library, name):
    found = [export for export in library.exports if export.name == name]
    need(len(found) == 1, f"the export {name}")
    return found[0]


def function_numbers(names, modules):
    """For each module which functions of the joined module its indices stand for."""
    stand = []
    for module, first in zip(modules, sums([len(module.functions) for module in modules])):
        imported = []
        for library, name, kind in module.imports:
            need(library in names[:len(stand)], f"the library {library}")
            place = names.index(library)
            export = export_of(modules[place], name)
            need(export.kind == kind != GLOBAL, f"the import {name}")
            if kind == FUNCTION:
                imported.append(stand[place][export.index])
        stand.append([*imported, *range(first, first + len(module.functions))])
    return stand


def with_numbers(code, types, functions, globals_):
    """A body, where the types and the globals of its module are counted from these on."""
    made = []
    for name, *rest in code:
        if name in ("block", "loop", "if"):
            rest[1:] = [with_numbers(body, types, functions, globals_) for body in rest[1:]]
        elif name == "call":
            rest = [functions[rest[0]]]
        elif name == "call_indirect":
            rest = [rest[0] + types, 0]
        elif name in ("global.get", "global.set"):
            rest = [rest[0] + globals_]
        made.append((name, *rest))
    return made


def joined(libraries, main):
    """The one module of libraries, which are pairs of a name and a module, and of a main module."""
    names, modules = [name for name, _ in libraries], [*(module for _, module in libraries), main]
    need(len(set(names)) == len(names), "a name that two libraries have")
    stand = function_numbers(names, modules)
    types, globals_ = (sums([len(items) for items in lists]) for lists in
                       ([module.types for module in modules], [module.globals for module in modules]))
    functions = [Function(function.type, function.locals, with_numbers(function.body, *places))
                 for module, *places in zip(modules, types, stand, globals_) for function in module.functions]
    elements = [(offset, [numbers[index] for index in indices])
                for module, numbers in zip(modules, stand) for offset, indices in module.elements]
    exports = [Export(name, kind, stand[-1][index] if kind == FUNCTION else index + globals_[-1] * (kind == GLOBAL))
               for name, kind, index in main.exports]
    memories = [module.memory for module in modules if module.memory is not None]
    need(len(memories) < 2, "two memories")
    return Module([type_ for module in modules for type_ in module.types], functions, exports,
                  [global_ for module in modules for global_ in module.globals], sum(module.table for module in modules),
                  elements, memories[0] if memories else None, [data for module in modules for data in module.datas],
                  None if main.start is None else stand[-1][main.start])
