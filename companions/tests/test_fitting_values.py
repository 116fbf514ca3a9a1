"""Values that fit open entries: each is taken by the program, the smallest come first, and the session stays as it was."""
import time

from .helpers import PROGRAM, FolderTest
from lotos_companion.fitting_values import Fitting, fitting
from lotos_companion.play import Play
from lotos_companion.program import Words
from lotos_companion.signature import read_signature

# So many constants, so that the program lists no value of more than four operations, and a packet has five.
CONSTANTS = " ".join(f"a{count} : -> Address" for count in range(14))
MANY = f"""specification Many [g] : noexit library NaturalNumber endlib
type Address is sorts Address opns {CONSTANTS} endtype
type Packet is Address, NaturalNumber sorts Packet
  opns packet : Address, Address, Address, Nat -> Packet number : Packet -> Nat
  eqns forall x, y, z : Address, n : Nat ofsort Nat number(packet(x, y, z, n)) = n;
endtype
behaviour g ?p:Packet [number(p) = Succ(0)]; stop [] g ?x:Nat [Succ(Succ(Succ(0))) lt x]; stop
[] g ?x:Address ?y:Nat; stop [] g ?x:Nat [x lt x]; stop endspec
"""
RENAMED = """specification Renamed [g] : noexit library NaturalNumber endlib
type Octet is NaturalNumber renamedby sortnames Octet for Nat opnnames next for Succ endtype
type Box is formalsorts Element sorts Box opns full : Element -> Box endtype
type OctetBox is Box actualizedby Octet using sortnames Octet for Element OctetBox for Box endtype
behaviour g ?x:Nat ?y:Octet [x lt Succ(0)]; stop [] g ?b:OctetBox; stop endspec
"""


class Values(FolderTest):
    """What is found for the entries of a menu."""

    def play(self, name, text=None):
        """A play that has begun, with the entries of its menu."""
        if text:
            self.write(name, text)
        play = Play(PROGRAM, Words((name,)))
        self.addCleanup(play.kill)
        play.open()
        return play, play.menu.entries

    def check(self, play, entry, found):
        """Each tuple can be taken, and none is there twice."""
        self.assertEqual(len(set(found)), len(found))
        for values in found:
            self.assertIsNotNone(play.ask(f"step {entry.number} {', '.join(values)}").label, values)
            play.ask("undo")

    def test_listed_ones(self):
        play, (entry,) = self.play("entries.lotos")
        found = list(fitting(play, entry, 3))
        self.assertEqual(found[:2], [("0", "Succ(0)"), ("0", "Succ(Succ(0))")])
        self.assertEqual(len(found), 3)
        self.check(play, entry, found)

    def test_as_many_as_there_are(self):
        play, (entry,) = self.play("buffer.lotos")
        self.assertEqual(list(fitting(play, entry, 20, 0.5)), [("0",), ("Succ(0)",), ("Succ(Succ(0))",)])
        self.assertEqual(list(fitting(play, entry, 0)), [])
        play.ask("step 1 0")
        self.assertEqual(list(fitting(play, play.menu.entries[1], 2)), [()])

    def test_beyond_what_the_program_lists(self):
        play, (packets, numbers, pairs, nobody) = self.play("many.lotos", MANY)
        self.assertEqual(play.ask("values Packet 5").first, "refused 815 TooManyValues")
        for entry, count in ((packets, 3), (numbers, 3), (pairs, 80)):
            found = list(fitting(play, entry, count, 20))
            self.assertEqual(len(found), count)
            self.check(play, entry, found)
        self.assertEqual(list(fitting(play, nobody, 3, 0.3)), [])

    def test_overloaded_and_renamed_sorts(self):
        play, (pair, box) = self.play("renamed.lotos", RENAMED)
        found = list(fitting(play, pair, 3))
        self.assertEqual(found[:2], [("0 of Nat", "0 of Octet"), ("0 of Nat", "next(0 of Octet)")])
        self.check(play, pair, found)
        self.assertEqual(list(fitting(play, box, 2)), [("full(0 of Octet)",), ("full(next(0 of Octet))",)])

    def test_the_session_stays_as_it_was(self):
        play, _ = self.play("many.lotos", MANY)
        play.ask("step 3 a1, 0")
        play.ask("undo")
        before = (play.ask("show"), play.ask("trace"), list(play.undone), play.menu)
        for entry in play.menu.entries:
            list(fitting(play, entry, 2, 0.2))
        self.assertEqual((play.ask("show"), play.ask("trace"), list(play.undone), play.menu), before)

    def test_a_busy_program_is_left_when_time_is_up(self):
        hanging = ('import sys, time\nprint("accepted S\\ndata: 1 sorts, 1 operations, 0 equations\\nevents 1\\n1: g !$1 for $1:S",'
                   ' flush=True)\nfor line in sys.stdin:\n    if line.startswith("normal"): time.sleep(600)\n'
                   '    print("refused 815 TooManyValues" if line.startswith("i") else "refused 801 BadCommand", flush=True)\n')
        self.write("s", "type T is sorts S opns c : -> S endtype")
        play = Play(self.stand_in(f"#!/usr/bin/env python3\n{hanging}"), Words(("s",)))
        self.addCleanup(play.kill)
        play.open()
        begin = time.monotonic()
        search = Fitting(play, play.menu.entries[0], 3, 1)
        self.assertEqual(list(search), [])
        self.assertLess(time.monotonic() - begin, 20)
        self.assertEqual(search.why_ended, "more than 1 seconds are not taken")


class Signatures(FolderTest):
    """The operations of the data."""

    def test_all_types_are_flattened(self):
        self.write("renamed.lotos", RENAMED)
        found = read_signature(PROGRAM, Words(("renamed.lotos",)))
        self.assertEqual([it.name for it in found.of_sort("octetbox")], ["full"])
        self.assertEqual([(it.name, it.infix, it.arguments) for it in found.of_sort("Octet")][:3],
                         [("0", False, ()), ("next", False, ("Octet",)), ("+", True, ("Octet", "Octet"))])

    def test_where_the_program_flattens_nothing_the_text_is_read(self):
        self.write("s", "type T is sorts S opns c : -> S endtype")
        self.assertEqual([it.name for it in read_signature(self.stand_in(), Words(("s",))).of_sort("S")], ["c"])
