#!/usr/bin/env python3
"""Prints the cases of `data/fault_neighbours.cases`: runs with two faults, of which the first is told.

Where the fault that is told stands, its text has the mark ¶; this script counts the line and the column. The
texts have the escapes of the cases, `{N*TEXT}` alone.
"""
import re

DEEP = "{500*Succ(}0{500*)}"
DEEP_TOLD = "{500*Succ(}¶0{500*)}"
OF_NUMBERS = "type W is sorts N opns 0 : -> N eqns ofsort N 0 = "
CLASH = "type T is sorts N opns _+_ : N, N -> N eqns forall x, y : N ofsort N x + y = y + x; endtype "
UNJOINED = "type T is sorts N opns a, b, c : -> N f : N -> N eqns forall x : N ofsort N f(a) = b; f(x) = c; endtype "


def place(text):
    before = re.sub(r"\{(\d+)\*(.*?)\}", lambda it: int(it[1]) * it[2], text).split("¶")[0].split("\n")
    return f"{len(before)}:{len(before[-1].encode()) + 1}"


def case(name, words, files, told, detail=""):
    """`files` are pairs of a name and a text; a text without a mark is not blamed. `told` is the code with its
    name, or a whole line and a status."""
    print(f'\ncase {name}\nwords {words.replace("¶", "")}')
    at = None
    for file, text in files:
        if "¶" in text:
            at = f"{file}:{place(text)}"
        print("file " + file)
        if text:
            print("?" + text.replace("¶", "").replace("\n", "\\n"))
    for number, word in enumerate(re.findall(r'"[^"]*"|[^ ]+', words.split(" with ")[1] if " with " in words else "")):
        if "¶" in word:
            at = f"with:{number + 1}:" + place(word.strip('"')).split(":")[1]
    print("prints")
    if isinstance(told, tuple):
        print(f"|{told[0]}\nstatus {told[1]}")
    else:
        print(f"|refused {told} at {at}{detail and ' ' + detail}\nstatus 1")


def spec(behaviour, items="", head="specification S [a, g] : noexit "):
    return head + items + "behaviour " + behaviour + " endspec"


def of_type(name, text, told, detail=""):
    """A case whose specification has these types and an unknown gate."""
    case(name, "check s", [("s", spec("h; stop", text + " "))], told, detail)


def of_body(name, behaviour, told, detail="", where=""):
    text = spec(behaviour, "type T is sorts C opns c : -> C endtype ")
    case(name, "check s", [("s", text.replace(" endspec", f" where {where} endspec") if where else text)], told, detail)


def missing(name):
    return (f"cannot read {name}", 3)


LIBRARIES = spec("stop", "library L, M endlib ")


def of_libraries(name, told, *files):
    case(name, "check s", [("s", LIBRARIES), *files], told)


def texts():
    case("a specification that is missing before an order file that is", "check s o", [], missing("s"))
    case("101 before 102", "check s", [("s", "stop ¶$ (*")], "101 BadByte")
    case("102 before 104", "check s", [("s", "stop ¶(*")], "102 OpenComment")
    case("105 before 103 of a library", "check s",
         [("s", spec(f"g !{DEEP_TOLD}; stop", "library L endlib ")), ("L.lib", "{1048577* }")], "105 TooDeep")
    of_libraries("a library that is missing before 103 of the next", missing("L.lib"), ("M.lib", "{1048577* }"))
    of_libraries("103 of a library before 101 of it", "103 TooLong", ("L.lib", "¶{1048577*$}"))
    of_libraries("101 of a library before 104 of it", "101 BadByte", ("L.lib", "stop ¶$"))
    of_libraries("102 of a library before 104 of it", "102 OpenComment", ("L.lib", "stop ¶(*"))
    of_libraries("104 of a library before 105 of it", "104 Syntax", ("L.lib", f"{OF_NUMBERS}{DEEP}; endtype ¶stop"))
    of_libraries("105 of a library before a library of its own that is missing", "105 TooDeep",
                 ("L.lib", f"library N endlib {OF_NUMBERS}{DEEP_TOLD}; endtype"))
    of_libraries("105 of a library before the next that is missing", "105 TooDeep",
                 ("L.lib", f"{OF_NUMBERS}{DEEP_TOLD}; endtype"))
    of_libraries("a library of a library before the next of the text", "101 BadByte",
                 ("L.lib", "library N endlib"), ("N.lib", "¶$"))
    of_libraries("a library of a library that is missing before 104 of the next of the text", missing("N.lib"),
                 ("L.lib", "library N endlib"), ("M.lib", "stop"))
    case("105 of a library before 201", "check s",
         [("s", spec("stop", "library L endlib type A is endtype type A is endtype ")),
          ("L.lib", f"{OF_NUMBERS}{DEEP_TOLD}; endtype")], "105 TooDeep")


def types():
    of_type("201 before 202", "type A is B endtype type ¶A is endtype", "201 DoubleType", "A")
    of_type("202 before 203", "type A is A endtype type B is ¶C endtype", "202 UnknownType", "C")
    of_type("203 before a sort", "type A is sorts X, X endtype type B is ¶B endtype", "203 TypeCycle", "B")
    of_type("a clash of imports before a clash of own sorts",
            "type A is sorts X endtype type B is sorts X endtype type D is A, ¶B sorts Y, Y endtype", "204 DoubleSort", "B")
    of_type("a sort before an operation", "type A is sorts Y, ¶Y opns _f_ : Y -> Y endtype", "204 DoubleSort", "Y")
    of_type("212 of an operation before 205 of it", "type A is sorts Y opns _¶f_ : Z -> Y endtype", "212 NoReading")
    of_type("the first sort of an operation before the next", "type A is sorts Y opns f : ¶Z, X -> W endtype",
            "205 UnknownSort", "Z")
    of_type("205 of an operation before 206 of the next", "type A is sorts Y opns c : -> Y d : -> ¶Z c : -> Y endtype",
            "205 UnknownSort", "Z")
    of_type("206 of an operation before 205 of the next", "type A is sorts Y opns c : -> Y ¶c : -> Y d : -> Z endtype",
            "206 DoubleOperation", "c")
    of_type("an operation before the sorts of the equations",
            "type A is sorts Y opns c : -> Y ¶c : -> Y eqns forall x : Z ofsort Y c = c; endtype", "206 DoubleOperation", "c")
    of_type("a sort behind forall before one behind ofsort",
            "type A is sorts Y opns c : -> Y eqns forall x : ¶Z ofsort X c = c; endtype", "205 UnknownSort", "Z")
    of_type("a sort behind ofsort before 210", "type A is sorts Y opns c : -> Y eqns ofsort ¶X c => c = c; endtype",
            "205 UnknownSort", "X")
    of_type("210 before a term of the equation", "type A is sorts Y opns c : -> Y eqns ofsort Y u = c ¶=> v = c; endtype",
            "210 Premised")
    of_type("a term before 210 of the next equation",
            "type A is sorts Y opns c : -> Y eqns ofsort Y ¶u = c; c = c => c = c; endtype", "211 UnknownName")
    of_type("the left term before the right one",
            "type A is sorts X, Z, Y opns c : -> X c : -> Z f : X -> Y f : Z -> Y eqns ofsort Y ¶f(c) = u; endtype",
            "213 TwoReadings")
    of_type("the right term of a formal equation before its premisses",
            "type A is formaleqns ofsort Y w => c = ¶u; sorts Y opns c : -> Y endtype", "211 UnknownName")
    of_type("a sort pair before an operation pair",
            "type A is sorts Y endtype type B is A renamedby sortnames X for Y ¶Z for Y opnnames k for z endtype",
            "204 DoubleSort", "Z")
    of_type("208 before a clash of the actual types",
            "type A is sorts X endtype type B is sorts X endtype type D is ¶A actualizedby A, B using endtype",
            "208 NotFormal", "A")
    formal = "type F is formalsorts E formalopns f : -> E endtype type A is sorts X endtype "
    of_type("a clash of the actual types before a pair",
            formal + "type B is sorts X endtype type D is F actualizedby A, ¶B using sortnames X for Z endtype",
            "204 DoubleSort", "B")
    of_type("a sort pair before a formal sort without an actual one",
            formal + "type D is F actualizedby A using sortnames X for ¶Z endtype", "205 UnknownSort", "Z")
    of_type("an operation pair before a formal sort without an actual one",
            formal + "type D is F actualizedby A using opnnames k for ¶z endtype", "207 UnknownOperation", "z")
    of_type("a formal sort before a formal operation", formal + "type D is ¶F actualizedby A using endtype",
            "209 MissingActual", "E")
    of_type("a formal operation before a clash with the base",
            "type F is formalsorts E formalopns f : -> E sorts X endtype type A is sorts X endtype "
            "type D is ¶F actualizedby A using sortnames X for E endtype", "209 MissingActual", "f")
    of_type("a type before the next", "type A is sorts Y, ¶Y endtype type B is Z, A sorts Y endtype type Z is endtype",
            "204 DoubleSort", "Y")
    of_type("a type that is named before the type that names it",
            "type A is B sorts X, X endtype type B is sorts Z, ¶Z endtype", "204 DoubleSort", "Z")
    of_type("the last type before a clash of the flattened data",
            "type A is sorts X endtype type B is sorts X endtype type D is sorts Y, ¶Y endtype", "204 DoubleSort", "Y")
    of_type("a clash of the flattened data before 301", "type A is sorts X endtype type ¶B is sorts X endtype",
            "204 DoubleSort", "B")
    of_type("214 of the flattened data before 301",
            "type A is sorts {32767*q\\#,}q32767 endtype\ntype ¶B is sorts {32769*z\\# }endtype", "214 TooLarge", "B")


def scopes():
    of_body("303 before 301 behind it", "choice x in [a], ¶x in [h] [] stop", "303 DoubleName", "x")
    of_body("301 before 303 behind it", "choice x in [¶h], x in [a] [] stop", "301 UnknownGate", "h")
    of_body("302 before 301 of its gates", "¶Q[h]", "302 UnknownProcess", "Q")
    a_process = "process P : noexit := stop endproc"
    of_body("304 before 301 of its gates", "¶P[h]", "304 GateCount", "wanted 0 given 1", a_process)
    of_body("304 before 305 of one call", "¶P[a](c)", "304 GateCount", "wanted 0 given 1", a_process)
    of_body("305 before the values of the call", "¶P(u)", "305 ValueCount", "wanted 0 given 1", a_process)
    of_body("303 before 205 of its sort", "g ?x:C ?¶x:Z; stop", "303 DoubleName", "x")
    of_body("205 before 211 behind it", "g ?x:¶Z !u; stop", "205 UnknownSort", "Z")
    of_body("306 before 211 at one place", "[¶u] -> stop", "306 NoBool")
    of_body("211 before 306 behind it", "g !¶u [c]; stop", "211 UnknownName")
    of_body("211 before 212 of the term", "[c = c(c, ¶u)] -> stop", "211 UnknownName")
    of_body("a scope before 401 in front of it", "(exit [] exit(c)) ||| ¶h; stop", "301 UnknownGate", "h")
    of_body("401 before 402 in front of it", "P", "401 Mismatch", "exit and exit(C)",
            "process P : noexit := P endproc process Q : noexit := exit ¶[] exit(c) endproc")


def orders():
    unguarded = spec("P", CLASH).replace(" endspec", " where process P : noexit := ¶P endproc endspec")
    case("402 before an order file that is missing", "check s o", [("s", unguarded)], "402 Unguarded", "P -> P")
    clash = ("s", spec("stop", CLASH))
    case("an order file that is missing before 601", "check s o", [clash], missing("o"))
    case("103 of an order file before 101 of it", "check s o", [clash, ("o", "¶{1048577*$}")], "103 TooLong")
    case("101 of an order file before 102 of it", "check s o", [clash, ("o", "f ¶$ (*")], "101 BadByte")
    case("102 of an order file before 104 of it", "check s o", [clash, ("o", "f ¶(*")], "102 OpenComment")
    case("104 of an order file before 501", "check s o", [clash, ("o", "h; f¶")], "104 Syntax")
    case("104 of an order file before 503", "check s o", [clash, ("o", "_+_ up; f¶")], "104 Syntax")
    case("501 before 502 of the next item", "check s o", [clash, ("o", "_+_; ¶h; _+_;")], "501 OrderOperation", "h")
    case("502 before 501 of the next item", "check s o", [clash, ("o", "_+_; _¶+_; h;")], "502 TwiceListed", "+")
    case("501 before 503 of one item", "check s o", [clash, ("o", "¶h up;")], "501 OrderOperation", "h")
    case("502 before 503 of one item", "check s o", [clash, ("o", "_+_ left; _¶+_ up;")], "502 TwiceListed", "+")
    case("503 before 501 of the next item", "check s o", [clash, ("o", "_+_ ¶up; h;")], "503 BadStatus", "up")
    case("503 before 502 of the next item", "check s o", [clash, ("o", "_+_ ¶up; _+_;")], "503 BadStatus", "up")
    case("502 before 601", "check s o", [clash, ("o", "_+_; _¶+_;")], "502 TwiceListed", "+")
    case("503 before 601", "check s o", [clash, ("o", "_+_ ¶up;")], "503 BadStatus", "up")
    both = UNJOINED.replace("x : N", "x, y : N").replace("= c;", "= c; ¶f(x) = f(y);")
    case("601 before 602", "check s", [("s", spec("stop", both))], "601 Unorientable", "f(x) = f(y)")
    unjoined = spec("stop", UNJOINED.replace("f(a)", "¶f(a)"))
    second = place(UNJOINED.join(["specification S [a, g] : noexit ", ""]).replace("f(x)", "¶f(x)"))
    case("602 before 101 of a word", "check s with $", [("s", unjoined)], "602 Unjoined",
         f"with s:{second}: f(a) gives b and c")


def start_values():
    of_two = ("s", spec("stop", "library NaturalNumber endlib ", "specification S [a, g] (x, y : Nat) : noexit "))
    of_one = ("s", of_two[1].replace("x, y", "x"))
    case("101 of a word before 102 of it", 'check s with "¶$ (*" 0', [of_two], "101 BadByte")
    case("102 of a word before 104 of it", 'check s with ") ¶(*" 0', [of_two], "102 OpenComment")
    case("104 of a word before 105 of it", f'check s with "{DEEP} ¶)" 0', [of_two], "104 Syntax")
    case("105 of a word before 101 of the next", f'check s with "{DEEP_TOLD}" $', [of_two], "105 TooDeep")
    case("105 of the last word before 701", f'check s with 0 "{DEEP_TOLD}"', [of_one], "105 TooDeep")
    case("701 before 211", "check s with u", [of_two], ("refused 701 StartValues wanted 2 given 1", 1))
    case("211 of a word before 205 of the next", 'check s with ¶u "0 of Z"', [of_two], "211 UnknownName")
    case("212 of a word before 211 of the next", "check s with ¶true u", [of_two], "212 NoReading")
    case("205 of a word before 211 of the next", 'check s with "0 of ¶Z" u', [of_two], "205 UnknownSort")
    case("211 before 212 of one word", 'check s with 0 "true + ¶u"', [of_two], "211 UnknownName")
    case("205 before 212 of one word", 'check s with 0 "true + (0 of ¶Z)"', [of_two], "205 UnknownSort")
    of_readings = "s", of_two[1].replace("behaviour", "type T is NaturalNumber sorts A, B opns c : -> A c : -> B "
                                         "f : A -> Nat f : B -> Nat endtype behaviour")
    case("213 of a word before 211 of the next", "check s with ¶f(c) u", [of_readings], "213 TwoReadings")
    case("211 before 213 of one word", 'check s with 0 "f(c) + ¶u"', [of_readings], "211 UnknownName")


print("# Runs with two faults that are neighbours in the order of faults: the first is told. (An order file has no")
print("# terms, so none of it is too deep.) Made by generators/fault_neighbours.py.")
texts()
types()
scopes()
orders()
start_values()
