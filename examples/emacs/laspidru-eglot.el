;;; laspidru-eglot.el --- Eglot on laspidru's client  -*- lexical-binding: t -*-

;; Package-Requires: ((emacs "28.1") (eglot "1.9"))

;;; Commentary:

;; Eglot starts the server, and keeps completion, hover, diagnostics and all other requests.  What it sends of texts is replaced: before
;; each message the buffers that changed are compared with the documents of laspidru's client, whatever Emacs' hooks saw of the changes.
;; README.md says how it is used.
;;
;; Changes without hooks, also after hooks were lost (C-g, an error), are sent with the next message.  A buffer that gets another name
;; (`write-file') is closed and opened again.  An indirect clone is the same document; of two buffers of one file the server has the
;; first.  A text over a limit, or with a byte that is no character, is kept back, and a message says so.

;;; Code:

(require 'cl-lib)
(require 'eglot)
(require 'laspidru-module)

(defgroup laspidru-eglot nil
  "Eglot on laspidru's client."
  :group 'eglot)

(defcustom laspidru-eglot-max-text 16777216
  "How many bytes a text may have."
  :type 'integer)

(defcustom laspidru-eglot-max-body 16777216
  "How many bytes a message for a document may have."
  :type 'integer)

(define-error 'laspidru-refused "Laspidru refused a call")

(defconst laspidru-eglot--reasons
  '((1 . "it isn't text in UTF-8")
    (2 . "there is no memory left")
    (5 . "the text is longer than laspidru-eglot-max-text, or its message than laspidru-eglot-max-body")
    (12 . "a limit is out of its range")
    (15 . "another buffer has the same file")
    (16 . "as many documents are open as may be")
    (18 . "there are too many changes, or too long ones")
    (31 . "the server doesn't want to be notified of documents, or of changes"))
  "Why laspidru refuses a call, by the code in laspidru.h.")

(cl-defstruct laspidru-eglot--document
  "A buffer whose text the server is to have.
FILE is the buffer's file.  URI, VERSION and TICK are those that were sent
last.  PROBLEM is why the text couldn't be sent, or nil."
  buffer file uri language version tick is-open problem)

;; (eglot's own, if it has one)
(defvar-local eglot--versioned-identifier 0 "The version of the buffer's last message.")

(defvar laspidru-eglot--is-sending nil "Whether a message of laspidru's client is being sent.")

(defclass laspidru-eglot-server (eglot-lsp-server)
  ((client :initform nil :documentation "Laspidru's client, nil before the first document, or `none'.")
   (documents :initform nil :documentation "A list of documents."))
  :documentation "A server whose documents are those of laspidru's client.")

(defun laspidru-eglot--reason (problem)
  "Say why PROBLEM, what `condition-case' caught, came."
  (let ((code (if (eq (car problem) 'laspidru-refused) (cadr problem) 1)))
    (alist-get code laspidru-eglot--reasons (format "code %d of laspidru.h" code))))

(defun laspidru-eglot--start (server)
  "Make the client of SERVER, or `none'.
It gets the parts of the response to `initialize' that are for it."
  (let* ((capabilities (eglot--capabilities server))
         (encoding (or (plist-get capabilities :positionEncoding) "utf-16"))
         (sync (plist-get capabilities :textDocumentSync)))
    (condition-case problem
        (laspidru-module-client
         (json-serialize `(:jsonrpc "2.0" :id 1 :result (:capabilities (:positionEncoding ,encoding :textDocumentSync ,sync)))
                         :null-object nil :false-object :json-false)
         (equal encoding "utf-8") (equal encoding "utf-32") laspidru-eglot-max-text laspidru-eglot-max-body)
      (laspidru-refused
       (unless (eql (cadr problem) 31)
         (message "Laspidru: %s keeps eglot's own messages: %s" (jsonrpc-name server) (laspidru-eglot--reason problem)))
       'none))))

(defun laspidru-eglot--client (server)
  "Return the client of SERVER, or nil if eglot's own messages are to be sent."
  ;; (before the response to `initialize' newer eglots have nil there)
  (when (and (slot-boundp server 'capabilities) (eglot--capabilities server))
    (unless (oref server client)
      (oset server client (laspidru-eglot--start server)))
    (let ((client (oref server client)))
      (unless (eq client 'none) client))))

(defun laspidru-eglot--text (buffer)
  "Return the text of BUFFER, with a line feed for each line end."
  (with-current-buffer buffer
    (save-restriction
      (widen)
      (buffer-substring-no-properties (point-min) (point-max)))))

(defun laspidru-eglot--send (server body)
  "Send SERVER a notification, of which laspidru's client has made the BODY."
  (let ((message (json-parse-string body :object-type 'plist :null-object nil :false-object :json-false))
        (laspidru-eglot--is-sending t))
    (jsonrpc-notify server (intern (concat ":" (plist-get message :method))) (plist-get message :params))))

(defun laspidru-eglot--next-version (document)
  "Return the version of DOCUMENT's next message.
It is eglot's, or a greater one, which eglot then has too."
  (with-current-buffer (laspidru-eglot--document-buffer document)
    (let ((last (laspidru-eglot--document-version document)))
      (setq-local eglot--versioned-identifier (max eglot--versioned-identifier (if last (1+ last) 0))))))

(defun laspidru-eglot--attempt (server document)
  "Bring DOCUMENT of SERVER to its buffer's text.
If that is refused the server keeps the text that it has, and the next
attempt is made with the next change."
  (pcase-let (((cl-struct laspidru-eglot--document buffer uri language is-open problem) document)
              (client (oref server client)) (version (laspidru-eglot--next-version document)))
    (condition-case caught
        (let* ((text (laspidru-eglot--text buffer))
               (body (if is-open
                         (laspidru-module-change client uri version text)
                       (laspidru-module-open client uri language version text))))
          (when problem (message "Laspidru: %s is sent again" (buffer-name buffer)))
          (setf (laspidru-eglot--document-is-open document) t
                (laspidru-eglot--document-version document) version
                (laspidru-eglot--document-problem document) nil)
          (laspidru-eglot--send server body))
      ((laspidru-refused wrong-type-argument)
       (let ((reason (laspidru-eglot--reason caught)))
         (unless (equal reason problem) (message "Laspidru: %s isn't sent: %s" (buffer-name buffer) reason))
         (setf (laspidru-eglot--document-problem document) reason))))))

(defun laspidru-eglot--update (server document)
  "Update DOCUMENT of SERVER, if its buffer's text or eglot's version has changed."
  (let* ((buffer (laspidru-eglot--document-buffer document))
         (tick (cons (buffer-chars-modified-tick buffer) (buffer-local-value 'eglot--versioned-identifier buffer))))
    (unless (equal tick (laspidru-eglot--document-tick document))
      (laspidru-eglot--attempt server document)
      (setf (laspidru-eglot--document-tick document)
            (cons (car tick) (buffer-local-value 'eglot--versioned-identifier buffer))))))

(defun laspidru-eglot--current (server)
  "Return the document of SERVER that the current buffer has.
Of a clone that is the document of the buffer of which it is one."
  (cl-find (or (buffer-base-buffer) (current-buffer)) (oref server documents) :key #'laspidru-eglot--document-buffer))

(defun laspidru-eglot--open (server uri language)
  "Open the current buffer in SERVER as URI in LANGUAGE.
The document that it had is closed before."
  (let ((old (laspidru-eglot--current server)) (buffer (or (buffer-base-buffer) (current-buffer))))
    (when old (laspidru-eglot--close server old))
    (push (make-laspidru-eglot--document :buffer buffer :file (buffer-file-name buffer) :uri uri :language language)
          (oref server documents))
    (laspidru-eglot--update server (car (oref server documents)))))

(defun laspidru-eglot--close (server document)
  "Close DOCUMENT of SERVER.  Another buffer of its file may be opened after that."
  (oset server documents (delq document (oref server documents)))
  (when (laspidru-eglot--document-is-open document)
    (laspidru-eglot--send server (laspidru-module-close (oref server client) (laspidru-eglot--document-uri document)))
    (dolist (other (oref server documents))
      (unless (laspidru-eglot--document-is-open other)
        (setf (laspidru-eglot--document-tick other) nil)))))

(defun laspidru-eglot--update-all (server uri)
  "Send what changed in all buffers of SERVER.
URI is what eglot calls the current one, or nil: its file may have another name."
  (dolist (document (oref server documents))
    (unless (buffer-live-p (laspidru-eglot--document-buffer document))
      (laspidru-eglot--close server document)))
  (pcase (laspidru-eglot--current server)
    ((and (cl-struct laspidru-eglot--document buffer file language (uri old)) (guard (and uri (not (equal uri old)))))
     (unless (equal file (buffer-file-name buffer))
       (laspidru-eglot--open server uri language))))
  (dolist (document (oref server documents))
    (laspidru-eglot--update server document)))

(defun laspidru-eglot--replace (server method item)
  "Report to SERVER what eglot's METHOD says of a text document, ITEM.
Return nil for a method that is to be sent as it is."
  (pcase method
    ("textDocument/didOpen" (laspidru-eglot--open server (plist-get item :uri) (plist-get item :languageId)) t)
    ("textDocument/didChange" (laspidru-eglot--update-all server (plist-get item :uri)) t)
    ("textDocument/didClose"
     (let ((document (laspidru-eglot--current server)))
       ;; (a clone of a buffer closes nothing)
       (when (and document (eq (current-buffer) (laspidru-eglot--document-buffer document)))
         (laspidru-eglot--close server document)))
     (laspidru-eglot--update-all server nil)
     t)
    ("shutdown" (oset server documents nil))
    (_ (laspidru-eglot--update-all server (plist-get item :uri)) nil)))

(defun laspidru-eglot--describe (document)
  "Return a line on DOCUMENT: whether its server has the buffer's text."
  (pcase-let (((cl-struct laspidru-eglot--document buffer version tick problem) document))
    (format "%s, version %s: %s" (buffer-name buffer) (or version "none")
            (cond (problem (concat "the server lacks the text: " problem))
                  ((equal (car tick) (buffer-chars-modified-tick buffer)) "the server has the text")
                  (t "its last change isn't sent yet")))))

(defun laspidru-status ()
  "Say which texts the current buffer's server has."
  (interactive)
  (let ((server (eglot-current-server)))
    (message "%s" (cond ((not (cl-typep server 'laspidru-eglot-server)) "Laspidru: no server of it manages this buffer")
                        ((eq (oref server client) 'none) "Laspidru: this server gets eglot's own messages")
                        (t (mapconcat #'laspidru-eglot--describe (oref server documents) "\n"))))))

(cl-defmethod jsonrpc-connection-send :around ((server laspidru-eglot-server) &key method params &allow-other-keys)
  "Send SERVER what laspidru's client has of documents, before all other messages.
METHOD and PARAMS are those of eglot's message."
  (unless (and (not laspidru-eglot--is-sending)
               (laspidru-eglot--client server)
               (laspidru-eglot--replace server (string-remove-prefix ":" (format "%s" method))
                                        (and (listp params) (plist-get params :textDocument))))
    (cl-call-next-method)))

;; Eglots of Emacs 30 and later track changes by another package, which loses them in a clone and in a narrowed buffer.  They also keep a
;; buffer's URI when it gets another name.

(defvar eglot--track-changes)
(defvar eglot--recent-changes)
(defvar eglot--TextDocumentIdentifier-cache)
(declare-function eglot--track-changes-signal "ext:eglot")
(declare-function track-changes-unregister "ext:track-changes")

(defun laspidru-eglot--changed (&rest _)
  "Have eglot call for what changed, once the user is idle."
  (eglot--track-changes-signal nil))

(defun laspidru-eglot--has-client (server)
  "Return whether SERVER gets the messages of laspidru's client."
  (and (cl-typep server 'laspidru-eglot-server) (laspidru-eglot--client server)))

(defun laspidru-eglot--take-over ()
  "Take the place of eglot's tracker in a buffer of a laspidru server.
For eglot's own messages its tracker stays: it also counts their versions."
  (when (and (bound-and-true-p eglot--track-changes) (laspidru-eglot--has-client (eglot-current-server)))
    (track-changes-unregister eglot--track-changes)
    (setq eglot--track-changes nil)
    (add-hook 'after-change-functions #'laspidru-eglot--changed nil t)))

(defun laspidru-eglot--fetch (fetch tracker)
  "Call FETCH for a TRACKER of eglot's.
Without one say that all may have changed: laspidru's client knows better."
  (cond (tracker (funcall fetch tracker))
        ((bound-and-true-p eglot--recent-changes) (setq eglot--recent-changes :emacs-messup))))

(defun laspidru-eglot--renamed ()
  "Have the server of the current buffer open it by its new name."
  (let ((server (and buffer-file-name (eglot-current-server))))
    (when (laspidru-eglot--has-client server)
      (setq eglot--TextDocumentIdentifier-cache nil)
      (laspidru-eglot--update-all server (plist-get (eglot--TextDocumentIdentifier) :uri)))))

(when (fboundp 'eglot--track-changes-signal)
  (add-hook 'eglot-managed-mode-hook #'laspidru-eglot--take-over)
  (advice-add 'eglot--track-changes-fetch :around #'laspidru-eglot--fetch)
  (add-hook 'after-set-visited-file-name-hook #'laspidru-eglot--renamed))

(provide 'laspidru-eglot)
;;; laspidru-eglot.el ends here
