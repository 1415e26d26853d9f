"""Reads the assembly source of the cargo crate for 64-bit ARM."""
import os

from ..cargo import FOLDER, ForCargo, OfCargo
from ..sources import assembled
from . import objects
from .table import Processor

NAME = "aarch64"
SOURCE = os.path.join(FOLDER, f"{NAME}.s")


def program() -> "CargoProgram":
    """Returns the program of the assembled source."""
    return assembled(SOURCE, NAME, CargoProgram)


class CargoProgram(OfCargo, objects.Program):
    pass


class CargoProcessor(Processor):
    library = ForCargo
