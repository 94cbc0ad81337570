"""Modules, an engine, packs and worlds, restated apart from the program, for the tools that compare."""
