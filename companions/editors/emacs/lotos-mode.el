;;; lotos-mode.el --- LOTOS: colours, comments, and the places of refusals  -*- lexical-binding: t -*-

;; Made by companions/make-editor-files from the table of the reserved words.

;;; Code:

(require 'compile)

(defvar lotos-mode-syntax-table
  (let ((table (make-syntax-table)))
    (modify-syntax-entry ?\( "()1" table)
    (modify-syntax-entry ?\) ")(4" table)
    (modify-syntax-entry ?* ". 23" table)
    (modify-syntax-entry ?_ "_" table)
    table)
  "Comments stand between (* and the next *).")

(defvar lotos-mode-keywords
  (list
   (cons (regexp-opt '("specification" "endspec" "process" "endproc" "type" "endtype" "library" "endlib" "behaviour" "behavior" "where" "is") 'symbols)
         'font-lock-keyword-face)
   (cons (regexp-opt '("sorts" "opns" "eqns" "formalsorts" "formalopns" "formaleqns" "forall" "ofsort" "of" "for" "using" "renamedby" "actualizedby" "sortnames" "opnnames") 'symbols)
         'font-lock-builtin-face)
   (cons (regexp-opt '("stop" "exit" "noexit" "i" "hide" "in" "let" "choice" "par" "accept" "any") 'symbols)
         'font-lock-constant-face)
   (list "\\_<\\(?:specification\\|process\\|type\\)\\s-+\\(\\(?:\\sw\\|\\s_\\)+\\)" 1
         'font-lock-function-name-face)
   (list ":\\s-*\\([A-Za-z]\\(?:\\sw\\|\\s_\\)*\\)" 1 'font-lock-type-face))
  "What is coloured.")

;;;###autoload
(define-derived-mode lotos-mode prog-mode "LOTOS"
  "A mode for specifications in LOTOS."
  (setq-local comment-start "(* " comment-end " *)")
  (setq-local font-lock-defaults '(lotos-mode-keywords nil t))
  (setq-local indent-tabs-mode nil)
  (when buffer-file-name
    (setq-local compile-command
                (concat "lotos check " (shell-quote-argument (file-name-nondirectory buffer-file-name))))))

(add-to-list 'compilation-error-regexp-alist-alist
             '(lotos "^refused [0-9]+ [A-Za-z]+ at \\([^:\n]+\\):\\([0-9]+\\):\\([0-9]+\\)" 1 2 3))
(add-to-list 'compilation-error-regexp-alist 'lotos)

;;;###autoload
(add-to-list 'auto-mode-alist '("\\.lotos\\'" . lotos-mode))

(defvar lotos-words nil
  "What stands behind the names of specifications: an alist of a keyword and a vector,
as ((:car_park.lotos . [\"with\" \"Succ(0)\" \"true\"])).")

(with-eval-after-load 'eglot
  (add-to-list 'eglot-server-programs
               `(lotos-mode . ("lotos-language-server" :initializationOptions
                               (:words ,(or (mapcan (lambda (it) (list (car it) (cdr it))) lotos-words)
                                            (make-hash-table)))))))

(provide 'lotos-mode)
;;; lotos-mode.el ends here
