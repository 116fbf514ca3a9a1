"""What the editors' files start: the language server, with a text open that has a fault."""
import os
import subprocess

import pytest

from .helpers import COMPANIONS, PROGRAM, FolderTest, find_tool, read

pytest.importorskip("lark", reason="the language server in editors, since there is no python3-lark")

WRONG = "specification S [g] : noexit behaviour h; stop endspec\n"
# What VS Code has, as far as the extension uses it: one document is open, and the first diagnostics are printed.
VSCODE = r'''
class Position { constructor(line, character) { this.line = line; this.character = character; } }
class Range { constructor(start, end) { this.start = start; this.end = end; } }
class Diagnostic { constructor(range, message, severity) { Object.assign(this, { range, message, severity }); } }
class Hover { constructor(contents, range) { Object.assign(this, { contents, range }); } }
class MarkdownString { constructor(value) { this.value = value; } }
class CodeAction { constructor(title, kind) { Object.assign(this, { title, kind }); } }
class WorkspaceEdit { constructor() { this.edits = []; } set(uri, edits) { this.edits.push([uri.toString(), edits]); } }
class TextEdit { constructor(range, newText) { Object.assign(this, { range, newText }); } }
const provided = {};
const provide = (kind) => (selector, provider) => { provided[kind] = provider; return {}; };
const uri = (text) => ({ scheme: "file", toString: () => text });
const text = require("fs").readFileSync(process.env.OPENED, "utf8");
const opened = { languageId: "lotos", version: 1, uri: uri("file://" + process.env.OPENED), getText: () => text };
const said = [];
module.exports = {
  Position, Range, Diagnostic, Hover, MarkdownString, CodeAction, WorkspaceEdit, TextEdit, provided, opened, said,
  CodeActionKind: { QuickFix: "quickfix" }, Uri: { parse: uri },
  window: { showErrorMessage: (it) => said.push(it) },
  workspace: { textDocuments: [opened], getConfiguration: () => ({ get: (name) => name === "server" ? process.env.SERVER : {} }),
    onDidOpenTextDocument: () => ({}), onDidChangeTextDocument: () => ({}), onDidSaveTextDocument: () => ({}),
    onDidCloseTextDocument: () => ({}) },
  languages: { createDiagnosticCollection: () => ({ set: (where, found) => said.push([where.toString(), found]) }),
    registerHoverProvider: provide("hover"), registerDefinitionProvider: provide("definition"),
    registerReferenceProvider: provide("references"), registerDocumentSymbolProvider: provide("symbols"),
    registerCompletionItemProvider: provide("completion"), registerDocumentFormattingEditProvider: provide("formatting"),
    registerCodeActionsProvider: provide("actions") },
};
'''
DRIVER = r'''
const vscode = require("vscode");
const extension = require(process.env.EXTENSION);
(async () => {
  await extension.activate({ subscriptions: [] });
  while (!vscode.said.length) await new Promise((resolve) => setTimeout(resolve, 50));
  const [where, [first]] = vscode.said[0];
  console.log(first.code, first.range.start.line, first.range.start.character, first.severity);
  const hover = await vscode.provided.hover.provideHover(vscode.opened, new vscode.Position(0, 17));
  console.log(hover.contents.value.split("\n")[1]);
  await extension.deactivate();
})();
'''
NEOVIM = r'''
vim.opt.runtimepath:prepend("{editors}/vim")
vim.cmd("runtime! plugin/lotos.lua")
vim.cmd("filetype plugin on")
vim.cmd("edit wrong.lotos")
vim.wait(30000, function() return #vim.diagnostic.get(0) > 0 end, 100)
for _, it in ipairs(vim.diagnostic.get(0)) do
  io.stdout:write(it.code .. " " .. it.lnum .. " " .. it.col .. "\n")
end
vim.cmd("qa!")
'''
EMACS = r'''
(add-to-list 'load-path "{editors}/emacs")
(if (locate-library "eglot") (require 'eglot)
  (defvar eglot-server-programs nil)
  (provide 'eglot))
(require 'lotos-mode)
(princ (format "%S\n" (cdr (assq 'lotos-mode eglot-server-programs))))
'''


class ClientsTest(FolderTest):
    """Each editor that is there."""

    with_examples = False

    def setUp(self):
        super().setUp()
        self.write("wrong.lotos", WRONG)
        self.environment = {**os.environ, "LOTOS": PROGRAM, "PATH": f"{COMPANIONS}:{os.environ['PATH']}",
                            "SERVER": f"{COMPANIONS}/lotos-language-server", "OPENED": os.path.realpath("wrong.lotos"),
                            "EXTENSION": f"{COMPANIONS}/editors/vscode/extension.js", "HOME": os.path.realpath(self.folder)}

    def run_editor(self, *command):
        """What an editor prints."""
        done = subprocess.run(command, env=self.environment, stdin=subprocess.DEVNULL, stdout=subprocess.PIPE,
                              stderr=subprocess.PIPE, timeout=120, check=False)
        return done.stdout.decode() or done.stderr.decode()

    def test_vs_code_shows_a_fault(self):
        if not find_tool("node"):
            self.skipTest("the extension of VS Code, since there is no node")
        os.makedirs("node_modules/vscode")
        self.write("node_modules/vscode/index.js", VSCODE)
        self.write("driver.js", DRIVER)
        self.environment["NODE_PATH"] = os.path.realpath("node_modules")
        self.assertEqual("301 0 39 0\ngate g of S\n", self.run_editor("node", "driver.js"))

    def test_neovim_shows_a_fault(self):
        if not find_tool("nvim"):
            self.skipTest("the language server in Neovim, since there is no nvim")
        self.write("init.lua", NEOVIM.format(editors=f"{COMPANIONS}/editors"))
        self.assertIn("301 0 39", self.run_editor("nvim", "--headless", "-u", "NONE", "-i", "NONE", "-c", "luafile init.lua"))

    def test_emacs_knows_the_server(self):
        if not find_tool("emacs"):
            self.skipTest("the language server in Emacs, since there is no emacs")
        self.write("init.el", EMACS.format(editors=f"{COMPANIONS}/editors"))
        said = self.run_editor("emacs", "-Q", "--batch", "-l", "init.el")
        self.assertIn('("lotos-language-server" :initializationOptions (:words ', said)

    def test_the_manifest_names_the_extension(self):
        self.assertIn('"main": "./extension.js"', read(f"{COMPANIONS}/editors/vscode/package.json"))
