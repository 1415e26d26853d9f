"""Fills the table of instructions."""
from . import scalar, vectors
from .processor import TABLE, Processor

__all__ = ["TABLE", "Processor", "scalar", "vectors"]
