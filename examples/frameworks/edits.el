;;; edits.el --- random edits in Emacs, beside a server whose hover shows its text  -*- lexical-binding: t -*-

;; Driven by `test' (this folder), which sets COMMAND (the server's, as JSON), EDITS and SEED.  Prints in how many edits of all the
;; server's text was the buffer's then.

(require 'eglot)
(setq eglot-sync-connect t eglot-autoreconnect nil eglot-send-changes-idle-time 0 make-backup-files nil create-lockfiles nil)
(defconst edits-words ["a" "line" "é" "漢字" "😀" "x\fy" "\u2028" "e\u0301" "x😀y" "\n" "\n\n" "  " "tab\t"])
(random (getenv "SEED"))

(defun edits-word () (aref edits-words (random (length edits-words))))

(defun edits-somewhere () (goto-char (+ (point-min) (random (1+ (buffer-size))))))

(defun edits-step ()
  "Make one random edit."
  (edits-somewhere)
  (pcase (random 10)
    ((or 0 1 2) (insert (edits-word)))
    (3 (delete-region (point) (min (point-max) (+ (point) (random 12)))))
    (4 (kill-line) (edits-somewhere) (yank))
    (5 (delete-indentation))
    (6 (let ((place (point))) (goto-char (point-min)) (while (search-forward "x" nil t) (replace-match (edits-word))) (goto-char place)))
    (7 (open-line 2))
    (8 (capitalize-word 1))
    (9 (undo-boundary) (setq last-command nil) (undo (1+ (random 3)))))
  (undo-boundary)
  (when (< (buffer-size) 40) (dotimes (_ 40) (insert (edits-word) "\n"))))

(defun edits-in-server ()
  "Return the server's text."
  (eglot--signal-textDocument/didChange)
  (let* ((answer (jsonrpc-request (eglot-current-server) :textDocument/hover (eglot--TextDocumentPositionParams) :timeout 60))
         (contents (plist-get answer :contents)))
    (if (vectorp contents) (aref contents 0) contents)))

(let ((right 0) (count (string-to-number (getenv "EDITS"))))
  (write-region "one\n" nil "text.txt")
  (find-file "text.txt")
  (buffer-enable-undo)
  (eglot '(text-mode) (cons 'transient default-directory) 'eglot-lsp-server (append (json-parse-string (getenv "COMMAND")) nil) "text")
  (dotimes (_ count)
    (condition-case nil (edits-step) (user-error nil) (end-of-buffer nil) (beginning-of-buffer nil))
    (when (equal (edits-in-server) (buffer-string)) (setq right (1+ right))))
  (princ (format "%d of %d\n" right count))
  (set-buffer-modified-p nil)
  (eglot-shutdown (eglot-current-server) nil 60))
