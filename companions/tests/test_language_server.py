"""The language server, driven as an editor drives it."""
import json
import os
import random
import subprocess
import sys

import pytest

from .helpers import COMPANIONS, EXAMPLES, PROGRAM, FolderTest, read
from .language_client import Client

sys.path.insert(0, COMPANIONS)
pytest.importorskip("lark", reason="the language server, since there is no python3-lark")

from lotos_companion.language.tokens import Token, tokens  # noqa: E402
from lotos_companion.language_server.layout import laid_out  # noqa: E402

QUEUE = """specification Queues [put, get] : noexit
  library NaturalNumber endlib
  type Queue is NaturalNumber
    sorts Queue
    opns
      empty : -> Queue
      add : Nat, Queue -> Queue
      _same_ : Queue, Queue -> Bool
    eqns forall q : Queue ofsort Bool
      q same q = true;
  endtype
behaviour
  hide inner in Cell[put, inner](empty) |[inner]| Cell[inner, get](empty)
where
  process Cell[from, to](kept : Queue) : noexit :=
    from ?x:Nat [x le Succ(0)]; to !x; Cell[from, to](add(x, kept))
  endproc
endspec
"""
SHELF = """type Shelf is
  sorts Shelf
  opns bare : -> Shelf
endtype
"""


def damaged(text, random_source):
    """A text with a few letters taken out or put in."""
    for _ in range(random_source.randrange(1, 4)):
        at = random_source.randrange(len(text))
        put = random_source.choice(["", ";", "(", "x", " endproc ", "[]", "\n", "é", "(*"])
        text = text[:at] + put + text[at + random_source.randrange(0, 6):]
    return text


class LanguageServerTest(FolderTest):
    """A server in a folder with the examples."""

    def client(self, **more):
        """A server that ends with the test."""
        client = Client(os.path.realpath(self.folder), **more)
        self.addCleanup(client.kill)
        return client

    def find(self, text, word, nth=1):
        """The line and column, from nought, of the nth time that a word stands in a text."""
        at = -1
        for _ in range(nth):
            at = text.index(word, at + 1)
        return text.count("\n", 0, at), at - text.rfind("\n", 0, at) - 1


class AnswersTest(LanguageServerTest):
    """What is found in a text, right or not."""

    def test_hover_tells_declarations(self):
        client = self.client()
        client.open("queues.lotos", QUEUE)
        for word, nth, wanted in [("add", 2, "operation add : Nat, Queue -> Queue"), ("kept", 2, "variable kept : Queue"),
                                  ("Cell", 1, "process Cell [from, to] (kept : Queue) : noexit"), ("inner", 2, "gate inner hidden"),
                                  ("same q", 1, "operation _same_ : Queue, Queue -> Bool"), ("le", 1, "operation _le_ : Nat, Nat -> Bool"),
                                  ("Queue", 2, "type Queue is NaturalNumber"), ("from", 2, "gate from of Cell")]:
            found = client.at("hover", "queues.lotos", *self.find(QUEUE, word, nth))
            self.assertIn(wanted, found["contents"]["value"].split("\n"), word)
        self.assertIsNone(client.at("hover", "queues.lotos", 11, 2))

    def test_definitions_and_references_go_by_scopes(self):
        client = self.client()
        client.open("queues.lotos", QUEUE)
        begin = {"line": 14, "character": 10}
        found = client.at("definition", "queues.lotos", *self.find(QUEUE, "Cell", 1))
        self.assertEqual([begin], [it["range"]["start"] for it in found])
        found = client.at("references", "queues.lotos", 14, 11, context={"includeDeclaration": True})
        self.assertEqual([12, 12, 14, 15], [it["range"]["start"]["line"] for it in found])
        found = client.at("references", "queues.lotos", 14, 11, context={"includeDeclaration": False})
        self.assertEqual([12, 12, 15], [it["range"]["start"]["line"] for it in found])
        # `put` is a gate of the specification; `from` and `to` are others.
        found = client.at("references", "queues.lotos", 0, 23, context={"includeDeclaration": True})
        self.assertEqual([(0, 22), (12, 21)], [(it["range"]["start"]["line"], it["range"]["start"]["character"]) for it in found])

    def test_a_definition_in_a_library_is_found_in_its_file(self):
        self.write("Shelf.lib", SHELF)
        text = "specification S [g] : noexit library Shelf endlib behaviour g !bare; stop endspec\n"
        client = self.client()
        client.open("s.lotos", text)
        found = client.at("definition", "s.lotos", *self.find(text, "bare"))
        self.assertEqual([(client.uri("Shelf.lib"), 2, 7)],
                         [(it["uri"], it["range"]["start"]["line"], it["range"]["start"]["character"]) for it in found])
        client.open("Shelf.lib", SHELF.replace("bare", "empty"))
        self.assertEqual([], client.at("definition", "s.lotos", *self.find(text, "bare")))

    def test_symbols_are_an_outline(self):
        client = self.client()
        client.open("queues.lotos", QUEUE)
        top, = client.ask("textDocument/documentSymbol", {"textDocument": {"uri": client.uri("queues.lotos")}})
        self.assertEqual("Queues", top["name"])
        self.assertEqual(["NaturalNumber", "Queue", "Cell"], [it["name"] for it in top["children"]])
        self.assertEqual(["Queue", "empty", "add", "same"], [it["name"] for it in top["children"][1]["children"]])

    def test_completion_offers_what_can_stand_there(self):
        client = self.client()
        text = QUEUE.replace("Cell[from, to](add(x, kept))", "Cell[from, to](ad")
        client.open("queues.lotos", text)
        line, column = self.find(text, "(ad")
        items = client.at("completion", "queues.lotos", line, column + 3)["items"]
        self.assertIn(("add", "operation add : Nat, Queue -> Queue"), [(it["label"], it.get("detail")) for it in items])
        items = client.at("completion", "queues.lotos", line, column + 1)["items"]
        labels = [it["label"] for it in items]
        for name in ("from", "x", "kept", "Cell", "empty", "stop"):
            self.assertIn(name, labels)
        self.assertNotIn("inner", labels)

    def test_what_is_right_in_a_broken_text_is_found(self):
        client = self.client()
        text = QUEUE.replace("opns\n      empty", "opns (\n      empty").replace("to !x;", "to !x ! ;")
        client.open("queues.lotos", text)
        found = client.at("hover", "queues.lotos", *self.find(text, "kept", 2))
        self.assertIn("variable kept : Queue", found["contents"]["value"])

    def test_places_are_those_of_the_editor(self):
        text = "specification S [g] : noexit behaviour (* \U0001F600 \u00e4 *) h; stop endspec\n"
        before = text[:text.index("h;")]
        for encodings, column in (["utf-8"], len(before) + 4), (["utf-16"], len(before) + 1):
            client = self.client(encodings=encodings)
            client.open("s.lotos", text)
            shown, = client.shown("s.lotos", 1)
            self.assertEqual({"line": 0, "character": column}, shown["range"]["start"])
            self.assertEqual(301, shown["code"])
            client.end()


class DiagnosticsTest(LanguageServerTest):
    """What is shown as wrong is what the program says."""

    def test_a_fault_is_shown_while_one_types_and_goes_with_it(self):
        client = self.client()
        client.open("queues.lotos", QUEUE)
        self.assertEqual([], client.shown("queues.lotos", 1))
        line, column = self.find(QUEUE, "!x")
        place = {"line": line, "character": column + 1}
        client.change("queues.lotos", 2, {"range": {"start": place, "end": {**place, "character": column + 2}}, "text": "y"})
        shown, = client.shown("queues.lotos", 2)
        self.assertEqual((211, 15), (shown["code"], shown["range"]["start"]["line"]))
        client.change("queues.lotos", 3, {"text": QUEUE})
        self.assertEqual([], client.shown("queues.lotos", 3))
        self.assertEqual(0, client.end())

    def test_a_change_that_was_tried_mends_the_text(self):
        client = self.client()
        wrong = QUEUE.replace("Cell[from, to](add", "Cel[from, to](add")
        client.open("queues.lotos", wrong)
        shown, = client.shown("queues.lotos", 1)
        self.assertEqual(302, shown["code"])
        fixes = client.ask("textDocument/codeAction", {"textDocument": {"uri": client.uri("queues.lotos")},
                                                       "range": shown["range"], "context": {"diagnostics": [shown]}})
        edit = fixes[0]["edit"]["changes"][client.uri("queues.lotos")][0]
        client.change("queues.lotos", 2, {"range": edit["range"], "text": edit["newText"]})
        self.assertEqual([], client.shown("queues.lotos", 2))

    def test_a_library_is_checked_by_itself(self):
        client = self.client()
        client.open("Shelf.lib", SHELF.replace("-> Shelf", "-> Shelve"))
        shown, = client.shown("Shelf.lib", 1)
        self.assertEqual(2, shown["range"]["start"]["line"])
        client.open("Shelf.lib", SHELF, 2)
        self.assertEqual([], client.shown("Shelf.lib", 2))

    def test_words_of_the_settings_stand_behind_the_name(self):
        client = self.client(words={"car_park.lotos": read(os.path.join(EXAMPLES, "car_park.words")).split()[1:]})
        client.open("car_park.lotos", read("car_park.lotos"))
        self.assertEqual([], client.shown("car_park.lotos", 1))
        client.tell("workspace/didChangeConfiguration", {"settings": {"lotos": {"words": {}}}})
        shown, = client.shown("car_park.lotos", 1)
        self.assertEqual(701, shown["code"])

    def compared(self, texts):
        """Has texts checked by the server and by `lotos-check --json`, and compares what both say."""
        client = self.client()
        for number, (name, text) in enumerate(texts, 1):
            name = f"{number}_{name}"
            self.write(name, text)
            done = subprocess.run([os.path.join(COMPANIONS, "lotos-check"), "--json", name], stdout=subprocess.PIPE, check=False,
                                  env={**os.environ, "LOTOS": PROGRAM})
            wanted = json.loads(done.stdout)
            client.open(name, text)
            shown = client.shown(name, 1)
            self.assertEqual(wanted["accepted"], not shown, name)
            if not shown:
                continue
            self.assertEqual(wanted["number"], shown[0].get("code"), name)
            self.assertEqual([wanted["answer"][0], *filter(None, [wanted["sentence"]]), *wanted["evidence"],
                              *(f"tried: {it['says']}" for it in wanted["suggestions"])], shown[0]["message"].split("\n"), name)
            place = wanted["place"]
            if place and place["text"] == name:
                begin, end = shown[0]["range"]["start"], shown[0]["range"]["end"]
                self.assertEqual((place["line"], place["column"]), (begin["line"] + 1, begin["character"] + 1), name)
                self.assertEqual((place["end_line"], place["end_column"]), (end["line"] + 1, end["character"] + 1), name)

    def texts(self, count):
        """So many texts, every other one damaged."""
        source = random.Random(20)
        names = sorted(it for it in os.listdir(self.folder) if it.endswith(".lotos"))
        for number in range(count):
            name = names[number * 7 % len(names)]
            text = read(name)
            yield name, damaged(text, source) if number % 2 else text

    def test_the_server_and_the_command_say_the_same(self):
        self.compared(self.texts(4))

    @pytest.mark.slow
    def test_the_server_and_the_command_say_the_same_of_fifty_texts(self):
        self.compared(self.texts(50))


class EditsTest(LanguageServerTest):
    """Nothing that an editor sends ends the server."""

    def edited(self, count):
        """Makes random edits in an open text and asks at random places between them."""
        client, source = self.client(), random.Random(21)
        text, version = read("alternating_bit.lotos"), 1
        client.open("edited.lotos", text)
        for _ in range(count):
            version += 1
            lines = text.split("\n")
            line = source.randrange(len(lines))
            begin, end = sorted(source.randrange(len(lines[line]) + 1) for _ in range(2))
            put = source.choice(["", "", "(", ")", "[", "x", "process", "endproc", " type ", "(*", "*)", "\n", ";", "=", "ä", "\U0001F600"])
            client.change("edited.lotos", version, {
                "range": {"start": {"line": line, "character": len(lines[line][:begin].encode())},
                          "end": {"line": line, "character": len(lines[line][:min(end, begin + 8)].encode())}}, "text": put})
            lines[line] = lines[line][:begin] + put + lines[line][min(end, begin + 8):]
            text = "\n".join(lines)
            if version % 40 == 0:
                text = read("alternating_bit.lotos")
                client.change("edited.lotos", version, {"text": text})
            if version % 4 == 0:
                client.at(source.choice(["hover", "definition", "completion"]), "edited.lotos", line, begin)
            if version % 25 == 0:
                for method in ("documentSymbol", "formatting"):
                    client.ask(f"textDocument/{method}", {"textDocument": {"uri": client.uri("edited.lotos")}, "options": {}})
        client.shown("edited.lotos", version)
        self.assertTrue(client.is_alive())
        self.assertEqual("", client.errors)
        self.assertEqual(0, client.end())

    def test_random_edits_do_not_end_it(self):
        self.edited(200)

    @pytest.mark.slow
    def test_ten_thousand_random_edits_do_not_end_it(self):
        self.edited(10_000)

    def test_wrong_messages_are_refused(self):
        client = self.client()
        client.send_bytes(b"no JSON")
        client.send_bytes(b"[]")
        self.assertEqual(-32601, client.ask_raw("textDocument/rename", {})["error"]["code"])
        self.assertEqual(-32602, client.ask_raw("textDocument/hover", {})["error"]["code"])
        self.assertEqual(-32602, client.ask_raw("textDocument/hover", {"textDocument": {"uri": "file:///none"},
                                                                      "position": {"line": 0, "character": 0}})["error"]["code"])
        self.assertEqual([-32700, -32700], [it["error"]["code"] for it in client.said if "error" in it])
        self.assertEqual(0, client.end())

    def test_a_program_that_dies_does_not_end_it(self):
        path = self.write("dies", "#!/bin/sh\nkill -SEGV $$\n")
        os.chmod(path, 0o755)
        client = self.client(program=path)
        client.open("queues.lotos", QUEUE)
        self.assertEqual(1, len(client.shown("queues.lotos", 1)))
        self.assertIsNotNone(client.at("hover", "queues.lotos", *self.find(QUEUE, "Cell", 1)))
        self.assertEqual(0, client.end())

    def test_an_input_that_ends_is_told_by_the_status(self):
        done = subprocess.run([os.path.join(COMPANIONS, "lotos-language-server"), "--program", PROGRAM], input=b"",
                              stdout=subprocess.PIPE, check=False)
        self.assertEqual((1, b""), (done.returncode, done.stdout))


class LayoutTest(FolderTest):
    """Formatting changes blanks alone."""

    def words(self, text):
        """The tokens of a text without their places, comments by their words."""
        return [(it.kind, it.text.split()) for it in tokens(text, with_comments=True) if isinstance(it, Token)]

    def test_layout_keeps_words_and_stands_still(self):
        source = random.Random(22)
        for name in sorted(os.listdir(self.folder)):
            if not name.endswith((".lotos", ".lib")):
                continue
            text = read(name)
            jumbled = "\n".join(" " * source.randrange(9) + it.lstrip(" ") + " " * source.randrange(3) for it in text.split("\n"))
            for given in (text, jumbled):
                made = laid_out(given)
                self.assertEqual(self.words(given), self.words(made), name)
                self.assertEqual(made, laid_out(made), name)

    def test_layout_mends_what_is_indented_wrong(self):
        jumbled = "\n".join(it.strip() for it in QUEUE.split("\n"))
        self.assertEqual(QUEUE, laid_out(jumbled))

    def test_a_behaviour_keeps_its_shape(self):
        text = "specification S [a] : noexit\nbehaviour\na; (\n     a; stop\n  [] stop)\nendspec\n"
        self.assertEqual("specification S [a] : noexit\nbehaviour\n  a; (\n       a; stop\n    [] stop)\nendspec\n", laid_out(text))

    def test_what_has_no_tokens_is_left(self):
        self.assertIsNone(laid_out("behaviour (* no end"))
        self.assertIsNone(laid_out("behaviour $"))
