;;; fmc.el --- programs in Fortran M  -*- lexical-binding: t -*-

;; Load this file, and
;;
;;     (add-hook 'fortran-mode-hook #'fmc-mode-maybe)
;;
;; colours the words of Fortran M in each buffer of `fortran-mode' that has a statement of processes or ports; other
;; Fortran stays as it is.  `M-x fmc-mode' turns it on or off in a buffer.
;;
;; `M-x fmc-check' in the buffer of a program checks it, and `next-error' (C-x `) goes to the refused line.  A refusal
;; names no file, so the pattern takes the one that was checked last.
;;
;; With eglot, `M-x eglot' shows what is refused, and mostly a slip, while one types: see `fmc-language-server'.

;;; Code:

(require 'compile)

(defvar fmc-program "fmc"
  "The command that checks programs.")

(defvar fmc--file nil
  "The file that was checked last.")

(defun fmc--checked-file ()
  "The file that a refusal is about."
  fmc--file)

(add-to-list 'compilation-error-regexp-alist-alist
             '(fmc "^line \\([0-9]+\\): E[0-9][0-9] " fmc--checked-file 1))
(add-to-list 'compilation-error-regexp-alist 'fmc)

;;;###autoload
(defun fmc-check ()
  "Save the program of this buffer and check it."
  (interactive)
  (save-buffer)
  (setq fmc--file buffer-file-name)
  (compile (format "%s check < %s"
                   (shell-quote-argument fmc-program)
                   (shell-quote-argument buffer-file-name))))

(defconst fmc--keywords
  '(("^[ 0-9]\\{6,\\}\\(PROCESS\\)[ \t]+\\([A-Z][A-Z0-9_]*\\)"
     (1 font-lock-keyword-face) (2 font-lock-function-name-face))
    ("\\<\\(PROCESS *CALL\\)[ \t]+\\([A-Z][A-Z0-9_]*\\)"
     (1 font-lock-keyword-face t) (2 font-lock-function-name-face t))
    ("\\<\\(\\(END *\\)?PROCESS\\(ES\\|DO\\)\\|PROCESS *CALL\\)\\>" (1 font-lock-keyword-face t))
    ("\\<\\(SEND\\|RECEIVE\\|CHANNEL\\|MERGER\\|PROBE\\|END *CHANNEL\\|MOVE *PORT\\)\\>[ \t]*("
     (1 font-lock-keyword-face t))
    ("\\<\\(INPORT\\|OUTPORT\\)\\>" (1 font-lock-type-face t))
    ("\\<\\(PROCESSORS\\|LOCATION\\|SUBMACHINE\\)\\>" (1 font-lock-builtin-face t))
    ("[(,][ \t]*\\(PORT\\|IN\\|OUT\\|FROM\\|TO\\|END\\|IOSTAT\\|EMPTY\\)[ \t]*=" (1 font-lock-constant-face t)))
  "The words of Fortran M, but for those in comments and character constants.")

(defun fmc--outside (keyword)
  "KEYWORD as one that is found outside comments and character constants alone."
  (cons (let ((pattern (car keyword)))
          (lambda (limit)
            (let (found)
              (while (and (setq found (re-search-forward pattern limit t))
                          (save-excursion (nth 8 (syntax-ppss (match-beginning 1))))))
              found)))
        (cdr keyword)))

(defvar fmc--matchers (mapcar #'fmc--outside fmc--keywords)
  "What `fmc-mode' adds to the keywords of `fortran-mode'.")

;;;###autoload
(define-minor-mode fmc-mode
  "Colour the words of Fortran M, over the colours of `fortran-mode'."
  :lighter " M"
  (if fmc-mode
      (font-lock-add-keywords nil fmc--matchers t)
    (font-lock-remove-keywords nil fmc--matchers))
  (font-lock-flush))

;;;###autoload
(defun fmc-mode-maybe ()
  "Turn on `fmc-mode' if this buffer has a statement of processes or ports."
  (save-excursion
    (goto-char (point-min))
    (let ((case-fold-search t))
      (when (re-search-forward "^[ 0-9]\\{6,\\}\\(PROCESS\\|INPORT\\|OUTPORT\\|CHANNEL *(\\)" nil t)
        (fmc-mode 1)))))

(defvar fmc-language-server
  (expand-file-name "../lsp" (file-name-directory (file-truename (or load-file-name buffer-file-name ""))))
  "The language server, which eglot starts in `fortran-mode'.")

(defvar eglot-server-programs)
(with-eval-after-load 'eglot
  (add-to-list 'eglot-server-programs (list 'fortran-mode fmc-language-server)))

(provide 'fmc)

;;; fmc.el ends here
