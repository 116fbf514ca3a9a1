"""The texts of the libraries that come with the program, as its refusals count their lines."""
from __future__ import annotations

from typing import Dict

BOOLEAN = """\
type Boolean is
sorts Bool
opns
  false, true : -> Bool
  not : Bool -> Bool
  _and_, _or_, _xor_, _implies_, _iff_, _eq_, _ne_ : Bool, Bool -> Bool
eqns forall x, y : Bool ofsort Bool
  not(true) = false;
  not(false) = true;
  x and true = x;
  x and false = false;
  x or true = true;
  x or false = x;
  x xor y = (x and not(y)) or (y and not(x));
  x implies y = y or not(x);
  x iff y = (x implies y) and (y implies x);
  x eq y = x iff y;
  x ne y = x xor y;
endtype
"""

NATURAL_NUMBER = """\
library Boolean endlib
type NaturalNumber is Boolean
sorts Nat
opns
  0 : -> Nat
  Succ : Nat -> Nat
  _+_, _*_, _**_ : Nat, Nat -> Nat
  _eq_, _ne_, _lt_, _le_, _ge_, _gt_ : Nat, Nat -> Bool
eqns forall x, y : Nat
ofsort Nat
  x + 0 = x;
  x + Succ(y) = Succ(x + y);
  x * 0 = 0;
  x * Succ(y) = x + (x * y);
  x ** 0 = Succ(0);
  x ** Succ(y) = x * (x ** y);
ofsort Bool
  0 eq 0 = true;
  0 eq Succ(y) = false;
  Succ(x) eq 0 = false;
  Succ(x) eq Succ(y) = x eq y;
  x ne y = not(x eq y);
  x lt 0 = false;
  0 lt Succ(y) = true;
  Succ(x) lt Succ(y) = x lt y;
  x le y = (x lt y) or (x eq y);
  x ge y = y le x;
  x gt y = y lt x;
endtype
"""

SHIPPED: Dict[str, str] = {"library Boolean": BOOLEAN, "library NaturalNumber": NATURAL_NUMBER}
# The same texts by the names that a specification mentions, in small letters.
SHIPPED_BY_NAME: Dict[str, str] = {"boolean": BOOLEAN, "naturalnumber": NATURAL_NUMBER}
