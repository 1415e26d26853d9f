"""Runs the `main` of a module, for a command of this repository:

    python3 -B FOLDER MODULE COMMAND [ARGUMENT]..

FOLDER is this folder, from which all modules import each other. COMMAND is what messages call the program."""
import importlib
import sys

_, module, *sys.argv = sys.argv
sys.exit(importlib.import_module(module).main())
