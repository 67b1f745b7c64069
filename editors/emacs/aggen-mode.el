;;; aggen-mode.el --- Major mode for grammars of aggen  -*- lexical-binding: t; -*-

;; SPDX-License-Identifier: MIT OR Apache-2.0

;;; Commentary:

;; Colours for files that end in .ag.  `compile' runs `aggen plan --all', and `next-error' jumps from fault to fault.
;; `flymake-mode' shows all faults, also if the buffer is not saved.

;;; Code:

(require 'compile)
(require 'flymake)
(require 'json)
(require 'let-alist)

(defvar aggen-mode-syntax-table
  (let ((table (make-syntax-table)))
    (modify-syntax-entry ?\" "\"" table)
    (modify-syntax-entry ?\\ "\\" table)
    (modify-syntax-entry ?_ "w" table)
    (modify-syntax-entry ?$ "'" table)
    (modify-syntax-entry ?' "." table)
    table)
  "Syntax table of `aggen-mode'.")

(defconst aggen-font-lock-keywords
  `(("\\_<\\(?:start\\|symbol\\)\\_>[ \t\n]+\\(\\w+\\)" 1 font-lock-type-face)
    ("\\(\\$[0-9]+\\)\\.\\(\\w+\\)" (1 font-lock-constant-face) (2 font-lock-variable-name-face))
    (,(concat (regexp-opt '("len" "text" "number" "keys" "iserr" "nth" "append" "join" "get" "has" "orelse" "put") 'words)
              "[ \t\n]*(")
     1 font-lock-builtin-face)
    (,(regexp-opt '("let" "in" "if" "then" "else" "div" "mod") 'words) . font-lock-keyword-face)
    (,(regexp-opt '("start" "symbol" "syn" "inh") 'words) . font-lock-keyword-face)
    (,(regexp-opt '("NAME" "NUMBER" "TEXT") 'words) . font-lock-type-face)
    ("^[ \t]*\\(\\w+\\)[ \t\n]*=" 1 font-lock-function-name-face))
  "Words that `aggen-mode' colours.")

;; The message of A1 has the place of a rule in its text, and the other messages have theirs before the text.
(add-to-list 'compilation-error-regexp-alist-alist
             '(aggen "^[A-Z]+[0-9]+ \\(?:[A-Z]+[0-9]+ \\)?\\(?:at [0-9]+ \\)?(\\(.+?\\):\\([0-9]+\\):\\([0-9]+\\)): " 1 2 3))
(add-to-list 'compilation-error-regexp-alist-alist
             '(aggen-passes "^A1 .*? all of them wait for .*?: .*? (\\(.+?\\):\\([0-9]+\\):\\([0-9]+\\)) uses " 1 2 3))
(add-to-list 'compilation-error-regexp-alist 'aggen)
(add-to-list 'compilation-error-regexp-alist 'aggen-passes)

(defvar-local aggen--process nil
  "The process that `aggen-flymake' has started last for this buffer.")

(defconst aggen--longest 1048577
  "The number of bytes that aggen reads: one more than a grammar may have.
If it gets more, it may end before all are sent, and its output is lost.")

(defun aggen--position (at)
  "Return the position of the byte AT, from 0, of the current buffer in UTF-8."
  (or (byte-to-position (1+ at)) (point-max)))

(defun aggen--diagnostic (fault)
  "Return a diagnostic for a FAULT of the current buffer.
Without a place it is at the first character.  If the place is empty, the
character before it is marked."
  (let-alist fault
    (let* ((end (aggen--position (or .end 1)))
           (start (max (point-min) (min (aggen--position (or .at 0)) (1- end)))))
      (flymake-make-diagnostic (current-buffer) start end :error
                               (concat .number " " .message (if (equal .remedy "") "" ", ") .remedy)))))

(defun aggen--faults (output)
  "Return the faults in the buffer OUTPUT.
An object without a number is no fault: it says how many are left out."
  (with-current-buffer output
    (goto-char (point-min))
    (let (faults)
      (while (not (eobp))
        (let ((it (json-read)))
          (when (assq 'number it)
            (push it faults)))
        (forward-line))
      (nreverse faults))))

(defun aggen--report (process buffer report)
  "Call REPORT with diagnostics for the faults of BUFFER that PROCESS printed.
Do nothing if a later process was started for BUFFER."
  (unwind-protect
      (when (buffer-live-p buffer)
        (with-current-buffer buffer
          (when (eq process aggen--process)
            (let ((faults (aggen--faults (process-buffer process))))
              (save-restriction
                (widen)
                (funcall report (mapcar #'aggen--diagnostic faults)))))))
    (kill-buffer (process-buffer process))))

(defun aggen-flymake (report &rest _)
  "Run aggen on the current buffer, and call REPORT with diagnostics."
  (unless (executable-find "aggen")
    (error "The program aggen is not in the path"))
  (when (process-live-p aggen--process)
    (kill-process aggen--process))
  (let ((buffer (current-buffer)))
    (setq aggen--process
          (make-process :name "aggen" :buffer (generate-new-buffer " *aggen*") :noquery t
                        :command '("aggen" "plan" "--all" "--json" "-") :coding 'utf-8-unix :connection-type 'pipe
                        :sentinel (lambda (process _)
                                    (unless (process-live-p process)
                                      (aggen--report process buffer report)))))
    (save-restriction
      (widen)
      (process-send-region aggen--process (point-min)
                           (min (point-max) (1+ (aggen--position aggen--longest)))))
    ;; after so many bytes it ends without this
    (ignore-errors
      (process-send-eof aggen--process))))

;;;###autoload
(define-derived-mode aggen-mode prog-mode "aggen"
  "Major mode for grammars of aggen."
  (setq-local font-lock-defaults '(aggen-font-lock-keywords))
  (setq-local font-lock-multiline t)
  ;; a column of aggen counts characters, whatever their width
  (setq-local compilation-error-screen-columns nil)
  ;; without this, messages have colours in some terminals, and are not recognized
  (setq-local compilation-environment '("TERM=dumb"))
  (add-hook 'flymake-diagnostic-functions #'aggen-flymake nil t)
  (when buffer-file-name
    (setq-local compile-command
                (concat "aggen plan --all " (shell-quote-argument (file-name-nondirectory buffer-file-name))))))

;;;###autoload
(add-to-list 'auto-mode-alist '("\\.ag\\'" . aggen-mode))

(provide 'aggen-mode)
;;; aggen-mode.el ends here
