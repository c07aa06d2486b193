;;; test.el --- the test of laspidru-eglot  -*- lexical-binding: t -*-

;; `test' (this folder) runs it.  SESSIONS and STEPS say how many random sessions are made, and how many steps each has.  With COMPARE they
;; are made by eglot's own messages too.

(require 'ert)
(require 'laspidru-eglot)

(defvar test-folder (file-name-as-directory (make-temp-file "laspidru-eglot-" t)))
(defvar test-answers (make-hash-table :test #'equal) "What the server has of each URI.")
(defvar test-said nil "What was said, last first.")
(defvar test-class 'laspidru-eglot-server)
(defconst test-server (expand-file-name "../neovim/test_server.py" (file-name-directory load-file-name)))

(setq eglot-sync-connect t eglot-autoreconnect nil eglot-events-buffer-size 0 eglot-send-changes-idle-time 0
      make-backup-files nil create-lockfiles nil auto-save-default nil undo-limit 80000000 text-quoting-style 'grave)

(cl-defmethod eglot-handle-notification (_server (_method (eql test/text)) &key uri text fault)
  (puthash uri (list text fault) test-answers))

(defun test-say (format &rest arguments)
  (when (and format (string-prefix-p "Laspidru: " format))
    (push (apply #'format-message format arguments) test-said)))
(advice-add 'message :before #'test-say)

(defun test-wait (condition)
  "Wait for CONDITION, with idle timers."
  (let ((limit (+ (float-time) 10)))
    (while (not (funcall condition))
      (when (> (float-time) limit) (ert-fail "nothing came"))
      (accept-process-output nil 0.005))))

(defun test-uri ()
  (eglot--path-to-uri (or buffer-file-name (buffer-file-name (buffer-base-buffer)))))

(defun test-in-server (server uri)
  "Return what SERVER has of URI, or nil."
  (remhash uri test-answers)
  (jsonrpc-notify server :test/text (list :uri uri))
  (test-wait (lambda () (gethash uri test-answers)))
  (pcase-let ((`(,text ,fault) (gethash uri test-answers)))
    (should-not fault)
    text))

(defun test-has (server wanted)
  (should (equal (test-in-server server (test-uri)) wanted)))

(defun test-heard (words)
  (should (string-match-p (regexp-quote words) (or (car (last test-said)) "")))
  (setq test-said (butlast test-said)))

(defun test-file (name text)
  "Visit a new file NAME with TEXT."
  (let ((coding-system-for-write 'utf-8-unix) (path (expand-file-name name test-folder)))
    (write-region text nil path nil 'quiet)
    (find-file path)
    (buffer-enable-undo)))

(defun test-start (&rest words)
  "Start a server for text files, and manage the current buffer."
  (eglot '(text-mode) (cons 'transient test-folder) test-class `("python3" ,test-server ,@(or words '("utf-16"))) "text")
  (eglot-current-server))

(defmacro test-case (name docstring &rest body)
  "Define a test NAME with DOCSTRING that runs BODY, with no buffers and no server after it."
  (declare (indent defun) (doc-string 2))
  `(ert-deftest ,name ()
     ,docstring
     (let ((test-said nil))
       (unwind-protect (progn ,@body)
         (dolist (buffer (buffer-list))
           (with-current-buffer buffer
             (when (or buffer-file-name (buffer-base-buffer))
               (set-buffer-modified-p nil)
               (kill-buffer))))
         (eglot-shutdown-all)))))

(test-case changes-are-sent
  "Each change is in the server before a request, and after a save."
  (test-file "a.txt" "one\n")
  (let ((server (test-start)))
    (test-has server "one\n")
    (goto-char (point-max))
    (insert "x😀y")
    (test-has server "one\nx😀y")
    (delete-char -1)
    (should (equal (plist-get (jsonrpc-request server :textDocument/hover (eglot--TextDocumentPositionParams)) :contents) "one\nx😀"))
    (narrow-to-region 1 2)
    (goto-char 1)
    (insert "é")
    (test-has server "éone\nx😀")
    (save-buffer)
    (test-has server "éone\nx😀\n")
    (should-not test-said)))

(test-case changes-that-no-hook-sees
  "A change that Emacs tells nobody of is sent all the same."
  (test-file "a.txt" "one\n")
  (let ((server (test-start)))
    (let ((inhibit-modification-hooks t))
      (insert "hidden "))
    (test-has server "hidden one\n")
    (setq after-change-functions nil)
    (insert "lost ")
    (test-has server "hidden lost one\n")
    (should-not test-said)))

(test-case whole-texts
  "A server that asks for whole texts gets them."
  (test-file "a.txt" "é\n")
  (let ((server (test-start "utf-8" "full")))
    (insert "x")
    (test-has server "xé\n")))

(test-case no-synchronisation
  "A server that doesn't ask for documents gets none, and nothing is said."
  (test-file "a.txt" "one\n")
  (let ((server (test-start "utf-16" "none")))
    (insert "x")
    (should (eq (oref server client) 'none))
    (should-not test-said)))

(test-case a-text-over-the-limit
  "The server keeps the text before it, until there is one that it can have."
  (test-file "a.txt" "short\n")
  (let* ((laspidru-eglot-max-text 20) (server (test-start)))
    (insert "this line is longer than the limit ")
    (test-has server "short\n")
    (test-heard "isn't sent: the text is longer than laspidru-eglot-max-text")
    (insert "still ")
    (test-has server "short\n")
    (erase-buffer)
    (insert "short again\n")
    (test-has server "short again\n")
    (test-heard "is sent again")
    (should-not test-said)))

(test-case its-status
  "`laspidru-status' says what the server has."
  (test-file "status.txt" "one\n")
  (should (equal (laspidru-status) "Laspidru: no server of it manages this buffer"))
  (let* ((test-said nil) (laspidru-eglot-max-text 20) (server (test-start)))
    (insert "x")
    (should (string-match-p "\\`status.txt, version [0-9]+: its last change isn't sent yet\\'" (laspidru-status)))
    (test-has server "xone\n")
    (should (string-match-p "\\`status.txt, version [0-9]+: the server has the text\\'" (laspidru-status)))
    (insert "a line that is longer than the limit ")
    (test-has server "xone\n")
    (should (string-match-p "the server lacks the text: the text is longer than laspidru-eglot-max-text" (laspidru-status)))
    (test-heard "isn't sent: the text is longer")))

(test-case a-bad-limit
  "Eglot goes on as without the package, and says so."
  (test-file "a.txt" "one\n")
  (let* ((laspidru-eglot-max-body 1) (server (test-start)))
    (test-heard "keeps eglot's own messages: a limit is out of its range")
    (test-has server "one\n")
    (dolist (wanted '("xone\n" "xxone\n"))
      (insert "x")
      (eglot--signal-textDocument/didChange)
      (test-has server wanted))))

(test-case no-text
  "A buffer with a byte that is no text isn't sent."
  (test-file "a.txt" "one\n")
  (let ((server (test-start)))
    (insert (string-to-multibyte "\xff"))
    (test-has server "one\n")
    (test-heard "isn't sent: it isn't text in UTF-8")
    (delete-char -1)
    (test-has server "one\n")))

(test-case another-name
  "A buffer that gets another file is closed and opened."
  (test-file "first.txt" "one\n")
  (let ((server (test-start)) (before (test-uri)))
    (insert "x")
    (write-file (expand-file-name "second.txt" test-folder))
    (test-has server "xone\n")
    (should-not (test-in-server server before))
    (insert "y")
    (test-has server "xyone\n")
    (let ((after (test-uri)))
      (kill-buffer)
      (should-not (test-in-server server after)))))

(test-case a-clone
  "Edits in an indirect clone are those of its buffer, which stays open without it."
  (test-file "a.txt" "one\n")
  (let ((server (test-start)) (base (current-buffer)))
    (insert "x")
    (with-current-buffer (clone-indirect-buffer nil nil)
      (insert "y")
      (eglot--signal-textDocument/didChange)
      (insert "z")
      (eglot--signal-textDocument/didChange)
      (test-has server "xyzone\n")
      (kill-buffer))
    (with-current-buffer base
      (insert "w")
      (test-has server "xwyzone\n"))
    (should-not test-said)))

(test-case two-buffers-of-a-file
  "The second is opened once the first is killed."
  (test-file "a.txt" "one\n")
  (let ((server (test-start)) (first (current-buffer)) (path buffer-file-name))
    (with-current-buffer (generate-new-buffer "second")
      (insert "two\n")
      (setq buffer-file-name path)
      (text-mode)
      (test-heard "another buffer has the same file")
      (test-has server "one\n")
      (with-current-buffer first
        (set-buffer-modified-p nil)
        (kill-buffer))
      (test-has server "two\n"))))

(test-case read-again
  "A file that is read again is closed and opened."
  (test-file "a.txt" "one\n")
  (let ((server (test-start)))
    (insert "x")
    (write-region "two\n" nil buffer-file-name nil 'quiet)
    (revert-buffer t t)
    (test-has server "two\n")
    (insert "y")
    (test-has server "ytwo\n")))

(test-case edits-of-the-server
  "An edit of the version that the server has is made."
  (test-file "a.txt" "one\n")
  (let ((server (test-start)))
    (let ((inhibit-modification-hooks t)) (insert "x"))
    (insert "y")
    (test-has server "xyone\n")
    (let ((version (laspidru-eglot--document-version (laspidru-eglot--current server))))
      (eglot--apply-text-edits [(:range (:start (:line 0 :character 0) :end (:line 0 :character 2)) :newText "z")] version))
    (test-has server "zone\n")))

(defconst test-words ["a" "line" "é" "漢字" "😀" "e\u0301" "ß" "ŉ" "\u2028" "tab\there" "x😀y" "  " "\r" "" "\n" "\r\n"])

(defun test-word ()
  (aref test-words (random (length test-words))))

(defun test-somewhere ()
  (goto-char (+ (point-min) (random (1+ (buffer-size))))))

(defmacro test-steps (&rest rows)
  "Return a vector of (NAME . FUNCTION) of ROWS (NAME BODY..), of which each is called at some place."
  `(vector ,@(mapcar (lambda (row) `(cons ,(car row) (lambda () ,@(cdr row)))) rows)))

(defconst test-all-steps
  (test-steps
   ("types" (insert (test-word)))
   ("types more" (insert (test-word) "\n" (test-word)))
   ("deletes" (delete-char (min (random 4) (- (point-max) (point)))))
   ("kills a line" (kill-line))
   ("kills lines" (kill-whole-line (1+ (random 3))))
   ("yanks" (yank))
   ("transposes" (transpose-chars 1))
   ("changes case" (upcase-word 2))
   ("capitalizes" (capitalize-region (min (point) (mark t)) (max (point) (mark t))))
   ("joins" (delete-indentation))
   ("sorts" (sort-lines nil (point-min) (point-max)))
   ("replaces" (goto-char (point-min)) (while (search-forward "e" nil t) (replace-match (test-word) t t)))
   ("a rectangle" (delete-rectangle (min (point) (mark t)) (max (point) (mark t))))
   ("undoes" (undo-boundary) (undo 1))
   ("undoes more" (undo-boundary) (undo 3))
   ("deletes all" (erase-buffer))
   ("narrows" (narrow-to-region (min (point) (mark t)) (max (point) (mark t))) (insert (test-word)))
   ("without hooks" (let ((inhibit-modification-hooks t)) (insert (test-word))))
   ("loses its hooks" (setq after-change-functions nil before-change-functions nil) (insert (test-word)))
   ("saves" (save-buffer))
   ("reverts" (save-buffer) (write-region "re\nverted 😀\n" nil buffer-file-name nil 'quiet) (revert-buffer t t))
   ("in a clone" (with-current-buffer (clone-indirect-buffer nil nil) (test-somewhere) (insert (test-word)) (kill-buffer)))
   ("another name" (write-file (expand-file-name (format "name-%d.txt" (random 1000000)) test-folder)))))

(defun test-session (encoding steps)
  "Make a random session of so many STEPS in ENCODING.  Return what went wrong, or nil."
  (test-file (format "session-%d.txt" (random 1000000)) (concat (test-word) "\n" (test-word) "one\ntwo"))
  (let ((server (test-start encoding)) (case-fold-search nil) (sentence-end-double-space nil) found)
    (dotimes (number steps)
      (unless found
        (let ((step (aref test-all-steps (random (length test-all-steps)))))
          (widen)
          (push-mark (+ (point-min) (random (1+ (buffer-size)))) t)
          (test-somewhere)
          (setq last-command nil this-command 'test)
          (undo-boundary)
          (ignore-errors (funcall (cdr step)))
          (widen)
          (eglot--signal-textDocument/didChange)
          (condition-case problem
              (let ((text (test-in-server server (test-uri))))
                (unless (equal text (buffer-string))
                  (setq found (format "step %d, %s: has %S, and Emacs %S" number (car step) text (buffer-string)))))
            (ert-test-failed (setq found (format "step %d, %s: %S" number (car step) problem)))))))
    found))

(defun test-sessions (call &rest encodings)
  "Make the random sessions, each of ENCODINGS for as many, and CALL with what went wrong in each."
  (random "laspidru")
  (dotimes (number (string-to-number (getenv "SESSIONS")))
    (funcall call (test-session (nth (% number (length encodings)) encodings) (string-to-number (getenv "STEPS"))))
    (set-buffer-modified-p nil)
    (kill-buffer)
    (eglot-shutdown-all)))

(test-case random-sessions
  "After each step the server's text is that of the buffer."
  (test-sessions (lambda (found) (should-not found)) "utf-16" "utf-8" "utf-32"))

(when (getenv "COMPARE")
  (ert-deftest eglot-itself ()
    "Say in how many such sessions, all in UTF-16, eglot's own messages leave another text, and after which step."
    (let ((test-class 'eglot-lsp-server) (steps nil))
      (test-sessions (lambda (found)
                       (when found (push (and (string-match "^step [0-9]+, \\([^:]*\\)" found) (match-string 1 found)) steps)))
                     "utf-16")
      (message "    eglot itself: %d sessions differ: %s" (length steps)
               (mapconcat (lambda (group) (format "%s %d" (car group) (length (cdr group)))) (seq-group-by #'identity steps) ", ")))))

(add-hook 'kill-emacs-hook (lambda () (delete-directory test-folder t)))

;;; test.el ends here
