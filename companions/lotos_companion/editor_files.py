"""The files for Vim, Neovim, Emacs and VS Code, made from the table of the reserved words."""
from __future__ import annotations

import json
import re
from typing import Dict, Iterable, Sequence

from .commands.files import make_files
from .commands.makers import EDITOR_FILES
from .editor_clients import EMACS_CLIENT, NEOVIM_CLIENT, VIM_CLIENT, VSCODE_CLIENT
from .reserved_words import BEHAVIOURS, DEFINING, SIGNS, STRUCTURE, TYPES
from .version import VERSION

MADE = "Made by companions/make-editor-files from the table of the reserved words."
# A name: what neither stands behind nor before another letter, digit or underscore.
NAME = "[A-Za-z0-9](?:_*[A-Za-z0-9])*"

VIM_SYNTAX = r'''" LOTOS: colours. {made}
if exists("b:current_syntax")
  finish
endif
syntax case ignore
syntax keyword lotosStructure {structure}
syntax keyword lotosStructure {defining} nextgroup=lotosDefinition skipwhite skipempty
syntax keyword lotosSection {types}
syntax keyword lotosBehaviour {behaviours}
syntax match lotosOffer "[!?]"
syntax match lotosSign "{signs}"
syntax match lotosDefinition "\w\+" contained
syntax match lotosSort ":\_s*\zs\a\w*"
syntax match lotosNoSort ":\_s*\zs\%(noexit\|exit\)\>"
syntax region lotosComment start="(\*" end="\*)" contains=@Spell
syntax sync minlines=200
highlight default link lotosStructure Structure
highlight default link lotosSection Statement
highlight default link lotosBehaviour Keyword
highlight default link lotosNoSort Keyword
highlight default link lotosOffer Special
highlight default link lotosSign Operator
highlight default link lotosDefinition Function
highlight default link lotosSort Type
highlight default link lotosComment Comment
let b:current_syntax = "lotos"
'''
VIM_DETECT = '''" LOTOS: which files it is. {made}
autocmd BufNewFile,BufRead *.lotos setfiletype lotos
'''
VIM_PLUGIN = r'''" LOTOS: comments, pairs of words, and :make. {made}
if exists("b:did_ftplugin")
  finish
endif
let b:did_ftplugin = 1
setlocal comments=s1:(*,mb:*,ex:*) commentstring=(*\ %s\ *)
setlocal expandtab shiftwidth=2 softtabstop=2
let b:match_ignorecase = 1
let b:match_words = '\<specification\>:\<behaviou\?r\>:\<endspec\>,\<process\>:\<endproc\>'
    \ . ',\<type\>:\<endtype\>,\<library\>:\<endlib\>'
let b:undo_ftplugin = "setlocal comments< commentstring< expandtab< shiftwidth< softtabstop<"
    \ . " | unlet! b:match_words b:match_ignorecase"
compiler lotos
'''
VIM_COMPILER = r'''" LOTOS: :make checks the file, and a refusal leads to its place. {made}
if exists("current_compiler")
  finish
endif
let current_compiler = "lotos"
CompilerSet makeprg=lotos\ check\ %:S
CompilerSet errorformat=%+Grefused\ %n\ %.%#\ at\ library\ %.%#,
    \%+Grefused\ %n\ %.%#\ at\ with:%.%#,
    \%+Erefused\ %n\ %.%#\ at\ %f:%l:%c,
    \%+Erefused\ %n\ %.%#\ at\ %f:%l:%c\ %.%#,
    \%+Grefused\ %.%#,
    \%+Gcannot\ read\ %.%#,
    \%-G%.%#
'''
EMACS = r''';;; lotos-mode.el --- LOTOS: colours, comments, and the places of refusals  -*- lexical-binding: t -*-

;; {made}

;;; Code:

(require 'compile)

(defvar lotos-mode-syntax-table
  (let ((table (make-syntax-table)))
    (modify-syntax-entry ?\( "()1" table)
    (modify-syntax-entry ?\) ")(4" table)
    (modify-syntax-entry ?* ". 23" table)
    (modify-syntax-entry ?_ "_" table)
    table)
  "Comments stand between (* and the next *).")

(defvar lotos-mode-keywords
  (list
   (cons (regexp-opt '({structure}) 'symbols)
         'font-lock-keyword-face)
   (cons (regexp-opt '({types}) 'symbols)
         'font-lock-builtin-face)
   (cons (regexp-opt '({behaviours}) 'symbols)
         'font-lock-constant-face)
   (list "\\_<\\(?:{alternatives}\\)\\s-+\\(\\(?:\\sw\\|\\s_\\)+\\)" 1
         'font-lock-function-name-face)
   (list ":\\s-*\\([A-Za-z]\\(?:\\sw\\|\\s_\\)*\\)" 1 'font-lock-type-face))
  "What is coloured.")

;;;###autoload
(define-derived-mode lotos-mode prog-mode "LOTOS"
  "A mode for specifications in LOTOS."
  (setq-local comment-start "(* " comment-end " *)")
  (setq-local font-lock-defaults '(lotos-mode-keywords nil t))
  (setq-local indent-tabs-mode nil)
  (when buffer-file-name
    (setq-local compile-command
                (concat "lotos check " (shell-quote-argument (file-name-nondirectory buffer-file-name))))))

(add-to-list 'compilation-error-regexp-alist-alist
             '(lotos "^refused [0-9]+ [A-Za-z]+ at \\([^:\n]+\\):\\([0-9]+\\):\\([0-9]+\\)" 1 2 3))
(add-to-list 'compilation-error-regexp-alist 'lotos)

;;;###autoload
(add-to-list 'auto-mode-alist '("\\.lotos\\'" . lotos-mode))
{client}
(provide 'lotos-mode)
;;; lotos-mode.el ends here
'''


def editor_files() -> Dict[str, str]:
    """Each file by its name in companions/editors."""
    structure = " ".join(it for it in STRUCTURE if it not in DEFINING)
    plain = {"structure": structure, "defining": " ".join(DEFINING), "types": " ".join(TYPES),
             "behaviours": " ".join(BEHAVIOURS), "made": MADE, "signs": r"\|".join(map(_for_vim, SIGNS))}
    quoted = {**plain, "alternatives": r"\\|".join(DEFINING),
              "structure": _quoted(STRUCTURE), "types": _quoted(TYPES), "behaviours": _quoted(BEHAVIOURS)}
    return {
        "vim/syntax/lotos.vim": _filled(VIM_SYNTAX, plain),
        "vim/ftdetect/lotos.vim": _filled(VIM_DETECT, plain),
        "vim/ftplugin/lotos.vim": _filled(VIM_PLUGIN, plain),
        "vim/compiler/lotos.vim": _filled(VIM_COMPILER, plain),
        "vim/plugin/lotos.vim": VIM_CLIENT.format(made=MADE),
        "vim/plugin/lotos.lua": NEOVIM_CLIENT.format(made=MADE),
        "emacs/lotos-mode.el": _filled(EMACS, {**quoted, "client": EMACS_CLIENT}),
        "vscode/package.json": _json(_package()),
        "vscode/language-configuration.json": _json(_language()),
        "vscode/syntaxes/lotos.tmLanguage.json": _json(_grammar()),
        "vscode/extension.js": VSCODE_CLIENT.replace("MADE", MADE, 1),
    }


def _filled(form: str, values: Dict[str, str]) -> str:
    """A form with values in the places of their names."""
    return re.sub(r"\{([a-z]+)\}", lambda it: values[it[1]], form)


def _for_vim(sign: str) -> str:
    """A sign as a pattern of Vim."""
    return re.sub(r"([\[\]*.~])", r"\\\1", sign)


def _quoted(words: Iterable[str]) -> str:
    return " ".join(f'"{it}"' for it in words)


def _json(value: object) -> str:
    return json.dumps(value, indent=2) + "\n"


def _package() -> object:
    """What VS Code reads first: the language, its grammar, and how a refusal tells its place."""
    return {
        "name": "lotos",
        "displayName": "LOTOS",
        "description": "Colours for specifications in LOTOS, and what lotos says of them. " + MADE,
        "version": VERSION,
        "publisher": "lotos",
        "engines": {"vscode": "^1.60.0"},
        "categories": ["Programming Languages"],
        "main": "./extension.js",
        "activationEvents": ["onLanguage:lotos"],
        "contributes": {
            "configuration": {"title": "LOTOS", "properties": {
                "lotos.server": {"type": "string", "default": "lotos-language-server",
                                 "description": "The language server: its name in the PATH, or its file."},
                "lotos.words": {"type": "object", "default": {}, "description":
                                "For the name of a specification, the words behind it: an order file, with and values."}}},
            "languages": [{"id": "lotos", "aliases": ["LOTOS"], "extensions": [".lotos"],
                           "configuration": "./language-configuration.json"}],
            "grammars": [{"language": "lotos", "scopeName": "source.lotos", "path": "./syntaxes/lotos.tmLanguage.json"}],
            "problemMatchers": [{
                "name": "lotos", "owner": "lotos", "severity": "error",
                "fileLocation": ["autoDetect", "${workspaceFolder}"],
                "pattern": {"regexp": r"^(refused \d+ \w+ at (?!with:|library )(.+?):(\d+):(\d+)(?: .*)?)$",
                            "message": 1, "file": 2, "line": 3, "column": 4}}],
        },
    }


def _language() -> object:
    """Comments and brackets."""
    pairs = [["(", ")"], ["[", "]"]]
    return {"comments": {"blockComment": ["(*", "*)"]}, "brackets": pairs, "autoClosingPairs": pairs,
            "surroundingPairs": pairs, "wordPattern": NAME}


def _grammar() -> object:
    """The grammar of TextMate."""
    def words(name: str, listed: Iterable[str]) -> Dict[str, str]:
        return {"name": name, "match": rf"(?i)(?<![A-Za-z0-9_])(?:{'|'.join(listed)})(?![A-Za-z0-9_])"}

    definition = {"match": rf"(?i)(?<![A-Za-z0-9_])({'|'.join(DEFINING)})\s+({NAME})",
                  "captures": {"1": {"name": "keyword.control.lotos"}, "2": {"name": "entity.name.function.lotos"}}}
    exits = "|".join(it for it in BEHAVIOURS if it.endswith("exit"))
    sort = {"match": rf"(?i):\s*(?!(?:{exits})(?![A-Za-z0-9_]))([A-Za-z](?:_*[A-Za-z0-9])*)",
            "captures": {"1": {"name": "entity.name.type.lotos"}}}
    return {
        "comment": MADE,
        "scopeName": "source.lotos",
        "name": "LOTOS",
        "fileTypes": ["lotos"],
        "patterns": [
            {"name": "comment.block.lotos", "begin": r"\(\*", "end": r"\*\)"},
            definition,
            words("keyword.control.lotos", STRUCTURE),
            words("keyword.other.lotos", TYPES),
            words("keyword.operator.word.lotos", BEHAVIOURS),
            {"name": "keyword.operator.lotos", "match": "|".join(map(re.escape, SIGNS))},
            sort,
            {"name": "punctuation.definition.offer.lotos", "match": "[!?]"},
        ],
    }


def main(given: Sequence[str]) -> int:
    """Writes the files: the status."""
    return make_files(EDITOR_FILES, given, "companions/editors", editor_files())
