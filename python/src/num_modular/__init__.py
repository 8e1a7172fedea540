"""Arithmetic modulo m, by a library that is proved: integers modulo m with operators, transforms, products of long numbers and
of polynomials, hashes, residue systems, erasure codes and check digits.

Moduli and words of arrays are below 2^64, and exponents between -2^64 and 2^64. Integers of which only the residue counts,
such as operands, roots and the entries of lists, may have any sign and size; symbols of erasure codes and residues for
`decode` and `extend` must be from 0 to their modulus less 1. A number that is out of range raises ValueError, a part that a
text doesn't have IndexError, and what isn't an integer TypeError.

A call takes longer than `x * y % m` in Python, so pass lists where you can: `Montgomery.add_lists` and its like compute entry
by entry. The methods of `Montgomery` and `Plan` take two kinds of lists. For a sequence of integers they return a new list. A
one-dimensional, contiguous, aligned and writable array of unsigned 64-bit words (numpy's uint64, array.array("Q")) they change
in place and return. All other calls only read their lists.

Python's integers themselves take time that depends on their values, so timing may reveal secrets.
"""
from num_modular._calls import NoInverseError, NoRootError, PointsError, TooFewSymbolsError, TooManyErrorsError
from num_modular._check_digits import (
    ABA_RTN,
    DAMM,
    EAN_8,
    EAN_13,
    ISBN_10,
    ISBN_13,
    ISSN,
    LUHN,
    ORCID,
    UPC_A,
    VERHOEFF,
    CheckCode,
    Standard,
    accepts_iban,
    iban_check_digits,
)
from num_modular._codes import CorrectedWord, Correction, Corrector, ErasureCode
from num_modular._hashes import PrefixHashes, find, find_all, polynomial_hash
from num_modular._numbers import crt, decode, encode, extend, product
from num_modular._polynomials import (
    multiply,
    multiply_cyclic,
    multiply_negacyclic,
    square,
    transform,
    transform_find_root,
    transform_inverse,
    transform_root_fits,
)
from num_modular._residues import Mod
from num_modular._rings import Divider, Montgomery, Plan
from num_modular._words import addm, invm, invm_secret, jacobi, kronecker, legendre, mulm, powm, powm_secret, subm

__version__ = "0.7.0"

__all__ = [
    "ABA_RTN",
    "CheckCode",
    "CorrectedWord",
    "Correction",
    "Corrector",
    "DAMM",
    "Divider",
    "EAN_13",
    "EAN_8",
    "ErasureCode",
    "ISBN_10",
    "ISBN_13",
    "ISSN",
    "LUHN",
    "Mod",
    "Montgomery",
    "NoInverseError",
    "NoRootError",
    "ORCID",
    "Plan",
    "PointsError",
    "PrefixHashes",
    "Standard",
    "TooFewSymbolsError",
    "TooManyErrorsError",
    "UPC_A",
    "VERHOEFF",
    "accepts_iban",
    "addm",
    "crt",
    "decode",
    "encode",
    "extend",
    "find",
    "find_all",
    "iban_check_digits",
    "invm",
    "invm_secret",
    "jacobi",
    "kronecker",
    "legendre",
    "multiply",
    "multiply_cyclic",
    "multiply_negacyclic",
    "mulm",
    "polynomial_hash",
    "powm",
    "powm_secret",
    "product",
    "square",
    "subm",
    "transform",
    "transform_find_root",
    "transform_inverse",
    "transform_root_fits",
]

# Messages and help name each item by the path by which it is imported.
for _name in __all__:
    if not isinstance(globals()[_name], Standard):  # whose class names it
        globals()[_name].__module__ = __name__
