"""Symbolic values: the names of terms, polynomials, memory and refusals that the execution of machine code uses."""
from .definition import Bytes, suppositions
from .induction import Induction, moved, same, step_between
from .memory import RUNS, Input, Memory, Piece, in_order, is_inside, is_within, outside, taken
from .nodes import NODES, OPAQUE, SYMBOL, Node, Value, WrongRule, is_same, symbol
from .polynomials import (Poly, as_word, at_most, constant_of, divided, given, is_natural, is_number, is_same_number,
                          lifted, minus, names_of, parts_of, plus, times, value_at, variable, wrapped)
from .refusals import REFUSALS, NotShown, Undecided, Unsupported
from .requests import LONGEST, LONGEST_SECRET, TOP, Request, seed_symbol
from .rules import ones, zeros_below
from .modular import BINARY, TESTS, signed

__all__ = ["Bytes", "suppositions", "Induction", "moved", "same", "step_between", "RUNS", "Input", "Memory", "Piece",
           "in_order", "is_inside", "is_within", "outside", "taken", "NODES", "OPAQUE", "SYMBOL", "Node", "WrongRule",
           "is_same", "symbol", "Poly", "as_word", "at_most", "constant_of", "divided", "given", "is_natural",
           "is_number", "is_same_number", "lifted", "minus", "names_of", "parts_of", "plus", "times", "value_at",
           "variable", "wrapped", "REFUSALS", "NotShown", "Undecided", "Unsupported", "LONGEST", "LONGEST_SECRET",
           "TOP", "Request", "seed_symbol", "ones", "zeros_below", "BINARY", "TESTS", "signed", "Value"]
