;;; live-occur.el --- Matching lines, kept right while buffers are edited  -*- lexical-binding: t; -*-

;; Copyright (c) 2026 The Gaxtrel authors

;; Author: The Gaxtrel authors
;; URL: https://gaxtrel.example/
;; Version: 1.0.0
;; Package-Requires: ((emacs "28.1"))
;; Keywords: matching, tools, convenience
;; SPDX-License-Identifier: MIT OR Apache-2.0

;;; Commentary:

;; `live-occur' lists the lines of the current buffer, or of its region, that
;; match a pattern, as `occur' does, while the pattern is typed; other commands
;; take the files of a project, buffers by name or mode, marked files of Dired,
;; and what isearch looks for.  The list is kept right while the buffers are
;; edited, and its rows can be edited, too.  C-h m in it describes the keys.
;;
;; What matches is decided by the program `occur' of Gaxtrel, one process a
;; list: it is sent the lines that a change touched, and answers what changed
;; of the hits.  Set `live-occur-program' where `occur' is not on your path.

;;; Code:

(require 'cl-lib)
(require 'live-occur-track)
(require 'seq)
(require 'subr-x)

(declare-function dired-get-marked-files "dired")
(declare-function org-fold-core-get-regions "org-fold-core")
(declare-function org-fold-core-region "org-fold-core")
(declare-function org-fold-show-set-visibility "org-fold")
(declare-function project-files "project")
(declare-function project-root "project")

;;;; Options

(defgroup live-occur nil
  "Lines that match, kept right while buffers are edited."
  :group 'matching)

(defcustom live-occur-program "occur"
  "The program that searches.
It is a file, or a name to look for in the variable `exec-path'."
  :type 'string)

(defcustom live-occur-states nil
  "How many states of its automaton the matcher of each pattern may keep.
A change counts from the next start of the program on."
  :type '(choice (const :tag "As many as the program has by default" nil)
                 (integer :tag "Number from 1 to 65536")))

(defcustom live-occur-delay 0.2
  "Seconds for which Emacs has to be idle before a list is brought up to date."
  :type 'number)

(defcustom live-occur-syntax 'basic
  "The syntax of patterns with which a list begins, or in a list, that it has."
  :type '(choice (const basic) (const extended) (const fixed)))

(defcustom live-occur-flags nil
  "The flags with which a list begins, as letters of options of grep.
In a list it has the flags that are on."
  :type '(set (const :tag "i: match both cases of letters" ?i)
              (const :tag "v: list the lines that are not matched" ?v)
              (const :tag "x: match whole lines alone" ?x)))

(defcustom live-occur-characters t
  "Whether patterns speak of characters, and not of the bytes of UTF-8.
They speak of bytes where a buffer that is searched is unibyte, too.  Classes,
as [:alpha:], have characters of ASCII alone."
  :type 'boolean)

(defcustom live-occur-smart-case nil
  "Whether both cases match unless a pattern has an upper-case letter.
Flag i follows the patterns then.  A letter after a backslash isn't counted,
unless the patterns are fixed strings.  In a list it has the value that is in
force there, and to turn flag i on or off by hand ends it."
  :type 'boolean)

(defcustom live-occur-context nil
  "How many lines a list shows around each that matches, when it begins.
In a list it has how many are shown now."
  :type '(choice (const :tag "None" nil)
                 (cons (natnum :tag "Before") (natnum :tag "After"))))

(defcustom live-occur-follow nil
  "Whether lists begin with `next-error-follow-minor-mode' on."
  :type 'boolean)

(defcustom live-occur-typing-delay 0.1
  "Seconds after which the list follows a pattern that is typed.
It is nil for lists that wait until the pattern is entered."
  :type '(choice (const :tag "Wait for RET" nil) number))

(defcustom live-occur-preview t
  "Whether the first hit after point is shown while a pattern is typed.
\\<live-occur-preview-map>\\[live-occur-preview-next] and \
\\[live-occur-preview-previous] show others.  RET goes to the one that is
shown, and leaves the mark where point was."
  :type 'boolean)

(defcustom live-occur-narrowed nil
  "Whether the list of one buffer that is narrowed has what is accessible alone.
It is then the list of a region, and `live-occur' makes a new one."
  :type 'boolean)

(defcustom live-occur-update-hook nil
  "Functions that are called in a list after its hits have changed.
`live-occur-hits' answers them, and `live-occur-done-p' whether all have come."
  :type 'hook)

(defcustom live-occur-visit-hook nil
  "Functions that are called at a line after it was visited from its row."
  :type 'hook)

(defcustom live-occur-idle-rows 10000
  "How many rows of a list are made while Emacs is idle, at most.
The others are made when they are seen, copied, edited, or searched by isearch."
  :type 'natnum)

(defcustom live-occur-max-columns 1000
  "How many characters of a line are shown in its row at most.
The whole line is searched."
  :type 'natnum)

(defface live-occur-name '((t :inherit font-lock-function-name-face))
  "Face for the name of the buffer in a row.")
(defface live-occur-line '((t :inherit shadow))
  "Face for the number of the line in a row, and for lines around matches.")
(defface live-occur-match '((t :inherit match)) "Face for the matched parts of a row.")
(defface live-occur-changed '((t :inherit warning))
  "Face for name and number of a row that was changed, while rows are edited.")
(defface live-occur-preview '((t :inherit highlight))
  "Face for the hit that is shown while a pattern is typed, and for its row.")
(defface live-occur-fault '((t :inherit error :underline t))
  "Face for the place at which a pattern is refused.")

(defvar live-occur-history nil "Patterns that were read from the minibuffer.")

;; What all rows have, as a category: of many rows the collector has less to look at.
(setplist 'live-occur--row '(mouse-face highlight help-echo "mouse-2: go to this line"))

;;;; A list

(defvar-local live-occur--process nil "The program of this list.")
(defvar-local live-occur--fault nil "What made this list wrong, or nil.")
(defvar-local live-occur--sources nil "The sources, in their order.")
(defvar-local live-occur--visited nil "The sources that have buffers.")
(defvar-local live-occur--files nil "The sources by names of files, or nil.")
(defvar-local live-occur--patterns nil "The patterns, in their order.")
(defvar-local live-occur--sent nil "Syntax and patterns of the program.")
(defvar-local live-occur--flags-sent nil "The flags that the program has on.")
(defvar-local live-occur--asked nil "Whether changes of hits are on their way.")
(defvar-local live-occur--due nil "Whether to ask for changes of hits.")
(defvar-local live-occur--slice nil "See `live-occur--send-next'.")
(defvar-local live-occur--more nil "Whether more lines are to be searched.")
(defvar-local live-occur--held nil "Whether the list gets no other rows now.")
(defvar-local live-occur--kept nil "Whether rows stay until all was reported.")
(defvar-local live-occur--trying nil "If patterns wait, or what comes next.")
(defvar-local live-occur--previewing nil "Whether a pattern is being typed.")
(defvar-local live-occur--preview nil "One while a pattern is typed, or nil.")
(defvar-local live-occur--looking nil
  "The patterns of the last look for a hit, and whether it goes on: a new pair.")
(defvar-local live-occur--wanted nil "The hit whose row is gone to later.")
(defvar-local live-occur--page nil
  "Where the hits are not shown, how many to tell of, and where to go back to.")
(defvar-local live-occur--made 0 "How many rows were made while idle.")
(defvar-local live-occur--idle-timer nil "The timer that looks for edits.")
(defvar-local live-occur--touched nil
  "The buffers that rows have changed, each with its state and its hash or nil.")
(defvar-local live-occur--timer nil "The timer that does so once, or nil.")

(defvar live-occur--sending nil "Whether edits are being sent.")
(defvar live-occur--typing nil "Whether settings count for what is typed.")
(defvar live-occur-edit-mode)
(defvar live-occur-mode-map)
(defvar live-occur-preview-map)

(defun live-occur--text-after-point (&optional most)
  "The text from point to the end of the line, at most MOST characters of it."
  (buffer-substring-no-properties
   (point) (min (line-end-position) (+ (point) (or most (buffer-size))))))

(defun live-occur--look-later (list seconds)
  "Look at LIST in SECONDS, if Emacs is idle and no other timer does.
It stays idle where the system tells that a file was written."
  (when (or (current-idle-time) (eq (car-safe last-input-event) 'file-notify))
    (live-occur--in list
      (unless live-occur--timer
        (setq live-occur--timer (run-with-timer seconds nil #'live-occur--look list))))))

;;;; A program and its replies

;; Commands are answered in their order, so it suffices to keep what waits for a reply in a
;; queue.  It is the property `waiting' of the process: pairs of a length and a function.  What
;; the program says to its standard error follows its last reply.
;;
;; Where a pipe is full Emacs sleeps, and far too long.  So commands on their way have few bytes
;; in all, and others stay in the property `unsent'.  A long one goes alone and in parts: each
;; when the program sleeps, since it has read all then.

(defconst live-occur--flight 45000 "How many bytes are on their way at most.")

(defun live-occur--end ()
  "End the program of this list, if there is one."
  (when live-occur--process
    (set-process-sentinel live-occur--process #'ignore)
    (delete-process live-occur--process)
    (kill-buffer (process-buffer live-occur--process))))

(defun live-occur--send (command function)
  "Send COMMAND, and call FUNCTION here with the reply.
FUNCTION gets the last line of the reply, and the blocks before it: each is a
list of a line that says what comes, and of the rows in `live-occur--piece's."
  (let ((inhibit-quit t))
    (cl-callf nconc (process-get live-occur--process 'unsent) (list (cons command function)))
    (live-occur--write live-occur--process)))

(defun live-occur--write (process)
  "Send PROCESS what waits to be sent, as far as it fits.
Emacs may take replies meanwhile, and send more: a command is one text for it."
  (while (pcase-let* ((`(,text . ,function) (car (process-get process 'unsent)))
                      (length (length text)))
           (when (and text
                      (not (process-get process 'rest))
                      (live-occur--fits-p process length))
             (pop (process-get process 'unsent))
             (cl-callf nconc (process-get process 'waiting) (list (cons length function)))
             (if (<= length live-occur--flight)
                 (live-occur--write-text process text)
               (process-put process 'rest (cons text 0))
               ;; A timer that begins in another one would wait for a redisplay.
               (process-put process 'timer
                            (run-with-timer 0 0.002 #'live-occur--write-part process)))
             t))))

(defun live-occur--fits-p (process length)
  "Whether a command of LENGTH bytes more may be on its way to PROCESS."
  (let ((waiting (process-get process 'waiting)))
    (and (process-live-p process)
         (or (null waiting)
             (and (length< waiting 50)
                  (<= (+ length (cl-loop for (sent . _) in waiting sum sent))
                      live-occur--flight))))))

(defun live-occur--write-text (process text)
  "Write TEXT to PROCESS."
  (condition-case nil
      (process-send-string process (live-occur--bytes text))
    (error (when (process-live-p process) (delete-process process)))))

(defun live-occur--write-part (process)
  "Send PROCESS the next part of a long command, if it sleeps.
Where the system doesn't tell, it has slept since the part before."
  (pcase-let* ((`(,text . ,start) (process-get process 'rest))
               (most (/ live-occur--flight (if (= (length text) (string-bytes text)) 1 4)))
               (end (min (length text) (+ start most))))
    (when (member (alist-get 'state (process-attributes (process-id process))) '(nil "S" "I"))
      (process-put process 'rest (and (length> text end) (cons text end)))
      (live-occur--write-text process (substring text start end)))
    (unless (and (process-get process 'rest) (process-live-p process))
      (cancel-timer (process-get process 'timer))
      (process-put process 'rest nil)
      (live-occur--write process))))

(defvar-local live-occur--blocks nil "Those of the reply, the last first.")
(defvar-local live-occur--rows-left 0 "How many rows of the block are to come.")
(defvar-local live-occur--lines-here 0 "How many lines are before point.")

(defun live-occur--read (process text)
  "Take TEXT from PROCESS, and hand out the replies in it."
  (let ((output (process-buffer process)))
    (live-occur--in output
      (save-excursion (goto-char (point-max)) (insert text))
      (while (and (buffer-live-p output) (live-occur--take process)))
      (live-occur--in (process-get process 'list)
        (live-occur--write process)
        (live-occur--step)))))

(defun live-occur--take (process)
  "Take some rows or one line out of this buffer, the output of PROCESS.
Answer whether they were there; point is where to look for lines later."
  (let* ((count (max 1 (min 500 live-occur--rows-left)))
         (start (point))
         (wanted (- count live-occur--lines-here))
         (short (forward-line wanted))
         (begun (if (and (> (point) start) (not (bolp))) 1 0)))
    (when (and (= count (cl-incf live-occur--lines-here (- wanted short begun)))
               (save-excursion
                 (goto-char (point-min))
                 (looking-at-p "[rp] \\|h\\|ok$\\|refused\\|status\\|occur ")))
      (let ((text (buffer-substring (point-min) (point)))
            (last (progn (forward-line -1) (- (point) (point-min)))))
        (delete-region (point-min) (+ (point-min) (length text)))
        (setq live-occur--lines-here 0)
        (cond ((eq (aref text 0) ?h)
               (push (list text) live-occur--blocks)
               (setq live-occur--rows-left (string-to-number (or (nth 5 (split-string text)) ""))))
              ((eq (aref text 1) ?\s)
               (cl-callf - live-occur--rows-left count)
               (push (live-occur--piece text count (live-occur--place-in text last) 0)
                     (cdar live-occur--blocks)))
              (t (let ((blocks (nreverse (cl-shiftf live-occur--blocks nil))))
                   (dolist (block blocks) (cl-callf nreverse (cdr block)))
                   (live-occur--in (process-get process 'list)
                     ;; After a fault replies are out of step.
                     (unless live-occur--fault
                       (funcall (or (cdr (pop (process-get process 'waiting)))
                                    #'live-occur--accepted)
                                (substring text 0 -1) blocks)))))))
      t)))

(defun live-occur--ended (process _event)
  "Report in the list of PROCESS that it has ended, if it has."
  (unless (process-live-p process)
    (let ((how (if (eq (process-status process) 'signal)
                   "%s was killed by signal %d"
                 "%s ended with status %d (%s)"))
          (said (live-occur--in (process-buffer process)
                  (goto-char (point-min))
                  (live-occur--text-after-point))))
      (with-current-buffer (process-get process 'list)
        (live-occur--tell-fault
         (format how (file-name-nondirectory live-occur-program)
                 (process-exit-status process) said))))))

(defun live-occur--tell-fault (what)
  "Report that this list is no longer kept right, since WHAT happened."
  (setq live-occur--fault
        (concat what (when live-occur--patterns
                       (substitute-command-keys "; \\<live-occur-mode-map>\
\\[live-occur-restart] in the list starts it again"))))
  (force-mode-line-update)
  (message "%s: %s" (buffer-name) live-occur--fault))

(defun live-occur--check ()
  "Signal an error where this list is no longer kept right."
  (when live-occur--fault (user-error "%s" live-occur--fault)))

(defun live-occur--wait-for (done)
  "Wait until the function DONE answers what is not nil, and answer that."
  (cl-loop for answer = (funcall done) until answer
           do (live-occur--check)
           (accept-process-output live-occur--process 1)
           finally return answer))

(defun live-occur--order (command)
  "Send COMMAND, which the program has to accept."
  (live-occur--send command #'live-occur--accepted))

(defun live-occur--accepted (reply _)
  "Report in this list that the program didn't accept a command, by its REPLY."
  (unless (equal reply "ok")
    (live-occur--tell-fault (concat "occur answered: " reply))))

(defun live-occur--begin ()
  "Start the program of this list, and send it all that it has to hold."
  (unless (executable-find live-occur-program)
    (user-error "There is no program %s: set live-occur-program" live-occur-program))
  (let ((default-directory temporary-file-directory)
        (process-adaptive-read-buffering nil))
    (setq live-occur--process
          (make-process
           :name "live-occur" :buffer (generate-new-buffer " *live-occur replies*" t) :noquery t
           :connection-type 'pipe :coding 'binary
           :command `(,live-occur-program
                      ,@(and live-occur-states (list "--states" (format "%d" live-occur-states))))
           :filter #'live-occur--read :sentinel #'live-occur--ended)))
  (process-put live-occur--process 'list (current-buffer))
  (live-occur--in (process-buffer live-occur--process)
    (set-buffer-multibyte nil)
    (setq-local cache-long-scans nil))
  (setq live-occur--fault nil live-occur--asked nil live-occur--due nil
        live-occur--slice nil live-occur--more nil live-occur--trying nil
        live-occur--sent '(basic) live-occur--flags-sent nil)
  (live-occur--order "flag o on\n")
  (mapc #'live-occur--open live-occur--sources)
  (when live-occur--patterns (live-occur--want live-occur--patterns #'ignore)))

(defun live-occur--command (words lines &optional count)
  "A command of WORDS with the text LINES, which are COUNT, or a list."
  (let ((text (if count lines (concat (string-join lines "\n") "\n"))))
    (concat (format "%s %d\n" words (or count (length lines)))
            (unless (eql count 0) text)
            (unless (or (eql count 0) (string-suffix-p "\n" text)) "\n"))))

(defun live-occur--bytes (text)
  "The bytes of TEXT: UTF-8, and bytes that are no character as they are."
  (if (multibyte-string-p text) (encode-coding-string text 'utf-8-emacs-unix t) text))

(defun live-occur--text (bytes)
  "The text that BYTES are, for people to read."
  (decode-coding-string bytes 'utf-8-emacs-unix t))

;;;; Buffers and files that are searched

(cl-defstruct (live-occur--source (:type vector) (:include live-occur--text)
                                  (:conc-name live-occur--) (:copier nil))
  "A buffer or a file that is searched, and which of its lines the program has."
  list                                  ; the buffer with the rows
  file                                  ; its name, or nil for a buffer alone
  state                                 ; that of the file when it was read
  why                                   ; why it was left out, or nil
  unread                                ; whether the file is to be read
  opened                                ; whether the program has the source
  from to              ; markers of a region, or nil: see `live-occur--limit'
  pieces)                               ; the hits, in `live-occur--piece's

(defmacro live-occur--in-text (source &rest body)
  "Run BODY in the whole text of SOURCE, if it is there, and stay here."
  (declare (indent 1) (debug t))
  `(live-occur--in-whole (live-occur--text-buffer ,source) ,@body))

(defun live-occur--heard (source moved)
  "Bring the list of SOURCE up to date later, and numbers now if lines MOVED."
  (live-occur--look-later (live-occur--list source) live-occur-delay)
  (when moved (live-occur--in (live-occur--list source) (force-mode-line-update))))

;; A file that isn't open is read into a buffer for its text when it is sent, and when its lines
;; are shown.  It has no edits, since nobody edits it there.

(defvar-local live-occur--text-of nil "The source whose file this buffer has.")

(defun live-occur--text-buffer (source &optional name)
  "The buffer of SOURCE, or one of NAME that has the text of its file."
  (or (live-occur--buffer source)
      (with-current-buffer (get-buffer-create (or name " *live-occur text*") t)
        (unless (eq source live-occur--text-of)
          (live-occur--insert-file source (live-occur--state source))
          (set-buffer-modified-p nil))
        (current-buffer))))

(defun live-occur--file-state (file)
  "What is another value once FILE was written: nil where it isn't there."
  (when-let* ((attributes (file-attributes file)))
    (list (file-attribute-modification-time attributes)
          (file-attribute-size attributes)
          (file-attribute-type attributes))))

(defun live-occur--insert-file (source state)
  "Put the text of the file of SOURCE here, or answer why there is none.
It is what a buffer would have, but of no archive.  STATE is that of the file."
  (let* ((file (live-occur--file source))
         (file-name-handler-alist (and (file-remote-p file) file-name-handler-alist))
         (inhibit-modification-hooks t))
    (setq buffer-undo-list t live-occur--text-of source)
    (erase-buffer)
    (cond ((nth 2 state) "no file")
          ((> (or (nth 1 state) 0) (or large-file-warning-threshold most-positive-fixnum))
           "too large")
          ((not (ignore-errors (insert-file-contents file))) "unreadable")
          ((search-forward "\0" nil t)
           (erase-buffer)
           "no text"))))

(defun live-occur--read-file (source)
  "Read the file of SOURCE if it has changed, and note that it is to be sent."
  (setf (live-occur--unread source) nil)
  (let ((state (live-occur--file-state (live-occur--file source))))
    (unless (and state (equal state (live-occur--state source)))
      (setf (live-occur--state source) state)
      (with-current-buffer (get-buffer-create " *live-occur text*" t)
        (setf (live-occur--why source) (live-occur--insert-file source state))
        (live-occur--replaced source (line-number-at-pos (point-max)))))))

(defun live-occur--visited-buffer (source)
  "The buffer of SOURCE, whose file is visited if it isn't yet."
  (or (live-occur--buffer source)
      (let ((file (live-occur--file source)))
        (unless (file-exists-p file) (user-error "%s is gone" file))
        (live-occur--attach source (find-file-noselect file)))))

(defun live-occur--attach (source buffer)
  "Search SOURCE in BUFFER, which visits its file, and answer that.
The program has its text already if the file is the same as when it was read."
  (let ((same (and (not (buffer-modified-p buffer))
                   (live-occur--opened source)
                   (not (live-occur--to-send-p source))
                   (equal (live-occur--state source)
                          (live-occur--file-state (live-occur--file source))))))
    (setf (live-occur--buffer source) buffer
          (live-occur--unread source) nil
          (live-occur--why source) nil)
    (with-current-buffer (live-occur--list source) (push source live-occur--visited))
    (live-occur--track source)
    (live-occur--lose source)
    (with-current-buffer buffer (when same (live-occur--know source)))
    buffer))

(defun live-occur--attach-visited ()
  "Search those files of this list in buffers that are visited by now."
  (when live-occur--files
    (dolist (buffer (buffer-list))
      (when-let* ((file (buffer-file-name buffer))
                  (source (or (gethash file live-occur--files)
                              (gethash (buffer-local-value 'buffer-file-truename buffer)
                                       live-occur--files))))
        (unless (live-occur--buffer source) (live-occur--attach source buffer))))))

(defun live-occur--left-out ()
  "How many files of this list are left out, and why, for the header."
  (when-let* ((reasons (and live-occur--files
                            (cl-loop for source in live-occur--sources
                                     for why = (live-occur--why source) when why collect why))))
    (format "  %d left out (%s)" (length reasons)
            (mapconcat (pcase-lambda (`(,why . ,all)) (format "%d %s" (length all) why))
                       (seq-group-by #'identity reasons) ", "))))

;;;; Sending lines

;; A large text is sent block by block, and each block once few are on their way.  After a slice
;; of lines the list asks what changed of the hits, and sends no line before that has come.  So
;; hits are always those of the lines that the program holds, or of those before the slice.

(defvar live-occur--block 20000 "How many bytes of a text are sent at once.")
(defvar live-occur--slice-lines 20000 "After how many to ask about the hits.")
(defconst live-occur--longest 0.02 "For how many seconds to send at a time.")

(defun live-occur--step ()
  "Send some of what changed, and ask what changed of the hits.
It goes on when replies come."
  (unless (or live-occur--sending live-occur--fault live-occur--held
              live-occur--asked live-occur-edit-mode)
    (let ((inhibit-quit t) (live-occur--sending t) (end (+ (float-time) live-occur--longest)))
      (when (live-occur--close-killed) (setq live-occur--due t))
      (dolist (source live-occur--visited)
        ;; Where changes aren't known hooks may have been taken away.
        (unless (live-occur--known-p source)
          (live-occur--track source)
          (live-occur--in-text source
            (live-occur--replaced source (line-number-at-pos (point-max)))
            (live-occur--know source)))
        (live-occur--settle source))
      (while (and (not live-occur--asked)
                  (not (process-get live-occur--process 'unsent))
                  (live-occur--fits-p live-occur--process live-occur--block)
                  (live-occur--send-next)
                  (or (< (float-time) end)
                      (ignore (run-with-timer 0 nil #'live-occur--look (current-buffer)))))))))

(defun live-occur--to-send-p (source)
  "Whether something of SOURCE is to be sent."
  (or (live-occur--unread source)
      (not (live-occur--opened source))
      (live-occur--first-edit source)))

(defun live-occur--edited-p ()
  "Whether lines of this list are to be sent."
  (and (cl-some #'live-occur--to-send-p live-occur--sources) t))

(defun live-occur--send-next ()
  "Send the next block of a slice, or what ends or begins one, if any is due.
The slice is a list of how many lines are left in it, and of the sources that
have some, after their numbers.  So the program gets them in order, and those
that it has come first.  To read a file counts as some lines.  The first slice
is short, so that some hits come early."
  (pcase-let ((`(,left (,file . ,source) . ,_) live-occur--slice))
    (cond ((not live-occur--slice)
           (when (or (live-occur--edited-p) (and live-occur--due (not live-occur--previewing)))
             (setq live-occur--slice
                   (cons (if live-occur--more live-occur--slice-lines
                           (max 1 (/ live-occur--slice-lines 10)))
                         (cl-loop for source in live-occur--sources for file from 0
                                  when (live-occur--to-send-p source)
                                  collect (cons file source))))))
          ((or (not source) (<= left 0))
           (setq live-occur--slice nil)
           (cond ((not live-occur--previewing) (live-occur--ask-for-changes))
                 ((not live-occur--trying) (live-occur--ask-for-page)))
           t)
          ((not (live-occur--opened source))
           (live-occur--order "file buffer 0\n")
           (setf (live-occur--opened source) t))
          ((live-occur--unread source)
           (live-occur--read-file source)
           (cl-decf (car live-occur--slice) 50))
          ((live-occur--first-edit source)
           (cl-decf (car live-occur--slice) (live-occur--send-block source file left)))
          (t (pop (cdr live-occur--slice))))))

(defun live-occur--first-edit (source)
  "The first of the edits of SOURCE that are to be sent."
  (car (live-occur--in-order (live-occur--edits source))))

(defun live-occur--send-block (source file most)
  "Send the first of the lines of SOURCE that changed, at most MOST of them.
The program knows it by the number FILE.  Answer how many they are."
  (pcase-let* ((`(,at ,was ,is) (live-occur--first-edit source))
               (moves (live-occur--moves source))
               ;; After a newline at the buffer's end there is no line, and none is added.
               (`(,count ,added . ,text)
                (live-occur--in-text source
                  (live-occur--go-to-line source at)
                  (let* ((start (point))
                         (block (+ (position-bytes start) live-occur--block))
                         (end (or (byte-to-position block) (point-max)))
                         (lines (live-occur--count-newlines start end))
                         (count (min most is (if (= end (point-max)) (1+ lines) (max lines 1))))
                         (short (forward-line count)))
                    `(,count ,(- count short) . ,(buffer-substring-no-properties start (point))))))
               (more (< count is))
               (old (if more (- (live-occur--unmoved (+ at count) moves) at) was))
               (removed (min old (- (live-occur--lines source) at))))
    (unless (= added removed 0)
      (live-occur--order
       (live-occur--command (format "splice %d %d %d" file at removed) text added)))
    (cl-incf (live-occur--lines source) (- added removed))
    (live-occur--cut-first (live-occur--edits source) count old)
    (dolist (hunk (live-occur--split moves (+ at count) (+ at old)))
      (apply #'live-occur--note (live-occur--sent source) hunk))
    (when more (live-occur--tell-more))
    count))

(defun live-occur--tell-more ()
  "Tell in the header whether more lines are to be searched."
  (let ((more (and (or (live-occur--edited-p) live-occur--slice) t)))
    (unless (eq more (cl-shiftf live-occur--more more)) (force-mode-line-update))))

;;;; Hits

;; Each source has the hits that the program has reported, in pieces of 500 at most.  A piece
;; keeps its rows as the bytes that came.  They are read when they come into view, so a million
;; hits cost little.  Where lines before a piece come or go, the number to add to the places in it
;; changes, no byte.

(cl-defstruct (live-occur--piece
               (:constructor live-occur--piece (rows count last shift))
               (:copier nil))
  "Hits that follow one another."
  rows                                  ; bytes, one line for each hit
  count
  last                                  ; the place of the last in the bytes
  shift)                                ; what to add to each place

(cl-defstruct (live-occur--hit (:copier nil))
  "A line that matches.  Its row is read where it is needed: it may be long."
  source
  place                      ; its number in the source when it was reported
  rows                       ; bytes
  parts-at                   ; where in them its matched parts begin
  start end                  ; where its line does, and where that ends
  text first stays)          ; of a row that is edited: see `live-occur--note-text'

(defun live-occur--place-in (rows start)
  "The place of the hit in the bytes ROWS that begins at START."
  (string-to-number (substring rows (+ start 2) (string-search " " rows (+ start 2)))))

(defun live-occur--after-rows (rows start count)
  "Where in the bytes ROWS the row begins that is COUNT rows after START."
  (dotimes (_ count) (setq start (1+ (string-search "\n" rows start))))
  start)

(defun live-occur--count-below (piece line)
  "How many hits of PIECE have a place below LINE."
  (let ((rows (live-occur--piece-rows piece)) (line (- line (live-occur--piece-shift piece))))
    (if (< (live-occur--piece-last piece) line)
        (live-occur--piece-count piece)
      (cl-loop for start = 0 then (live-occur--after-rows rows start 1)
               while (< (live-occur--place-in rows start) line) count t))))

(defun live-occur--cut (pieces line)
  "PIECES with a place below LINE, and the others, as a pair of lists."
  (let ((some 0) head)
    (while (and pieces
                (= (setq some (live-occur--count-below (car pieces) line))
                   (live-occur--piece-count (car pieces))))
      (push (pop pieces) head))
    (when (and pieces (> some 0))
      (pcase-let* (((cl-struct live-occur--piece rows count last shift) (pop pieces))
                   (before (live-occur--after-rows rows 0 (1- some)))
                   (cut (live-occur--after-rows rows before 1)))
        (push (live-occur--piece (substring rows 0 cut) some
                                 (live-occur--place-in rows before) shift)
              head)
        (push (live-occur--piece (substring rows cut) (- count some) last shift) pieces)))
    (cons (nreverse head) pieces)))

(defun live-occur--count (pieces &optional line)
  "How many hits PIECES have, or with LINE, how many of a place below it."
  (cl-loop for piece in pieces
           sum (live-occur--count-below piece (or line most-positive-fixnum))))

(defun live-occur--total ()
  "How many hits this list has, or 0 while a page of them is in it."
  (if live-occur--page 0 (live-occur--row-of-source nil)))

(defun live-occur--row-of-source (source)
  "The number of the first row of SOURCE, or of all rows if it is nil."
  (cl-loop for other in live-occur--sources until (eq other source)
           for pieces = (live-occur--pieces other) when pieces sum (live-occur--count pieces)))

(defun live-occur--hit-in (source rows start shift)
  "The hit of SOURCE in the bytes ROWS that begins at START, with SHIFT."
  (let* ((parts (1+ (string-search " " rows (+ start 2))))
         (line (1+ (string-search " " rows parts))))
    (make-live-occur--hit
     :source source
     :place (+ shift (live-occur--place-in rows start))
     :rows rows :parts-at parts
     :start line :end (string-search "\n" rows line))))

(defun live-occur--hit-bytes (hit &optional from to)
  "The bytes of the line of HIT, or those of them FROM and up to TO."
  (pcase-let (((cl-struct live-occur--hit rows start end) hit))
    (substring rows (+ start (or from 0)) (min end (+ start (or to end))))))

(defun live-occur--hit-parts (hit &optional from to)
  "The matched parts of HIT: pairs of places in its bytes, counted from FROM.
They are those that begin before byte TO."
  (let ((at (live-occur--hit-parts-at hit)) (from (or from 0)) part all)
    (while (and (setq part (live-occur--part-at hit at))
                (< (car part) (or to most-positive-fixnum)))
      (push (cons (- (car part) from) (- (cadr part) from)) all)
      (setq at (cddr part)))
    (nreverse all)))

(defun live-occur--part-at (hit at)
  "The part of HIT that is told of at AT in its row, or nil.
It is where it begins and ends, and then where the next is told of."
  (pcase-let (((cl-struct live-occur--hit rows start) hit))
    (unless (or (>= at start) (eq (aref rows at) ?-))
      (let* ((hyphen (string-search "-" rows at)) (end (1+ hyphen)))
        (while (<= ?0 (aref rows end) ?9) (setq end (1+ end)))
        `(,(string-to-number (substring rows at hyphen))
          ,(string-to-number (substring rows (1+ hyphen) end))
          . ,(1+ end))))))

(defun live-occur--map-hits (function first most)
  "Call FUNCTION with each of MOST hits of this list, from number FIRST on."
  (dolist (source live-occur--sources)
    (pcase-dolist ((cl-struct live-occur--piece rows count shift) (live-occur--pieces source))
      (let ((some (min most (- count first))))
        (when (> some 0)
          (let ((start (live-occur--after-rows rows 0 first)))
            (dotimes (_ some)
              (funcall function (live-occur--hit-in source rows start shift))
              (setq start (live-occur--after-rows rows start 1))))
          (cl-decf most some))
        (setq first (max 0 (- first count)))))))

(defun live-occur--hit (row)
  "The hit of the row of number ROW, or nil where there is none."
  (unless live-occur--page
    (catch 'hit
      (live-occur--map-hits (lambda (hit) (throw 'hit hit)) row 1))))

(defun live-occur--line-of (hit &optional page alone)
  "The line at which HIT is now, which may be one of a PAGE.
If that was taken out it is one near it, or with ALONE, nil."
  (let ((source (live-occur--hit-source hit)))
    (live-occur--moved (live-occur--moved (live-occur--hit-place hit)
                                          (unless page (live-occur--sent source)))
                       (live-occur--moves source) alone)))

(defmacro live-occur--at-line-of (hit &rest body)
  "Run BODY at the line of HIT in its buffer, unless that is gone."
  (declare (indent 1) (debug t))
  `(live-occur--in-text (live-occur--hit-source ,hit)
     (live-occur--go-to-line (live-occur--hit-source ,hit) (live-occur--line-of ,hit))
     ,@body))

;;;; Changes of hits

(defun live-occur--look (list)
  "Bring LIST up to date if anything has changed, and make some rows."
  (live-occur--in list
    (setq live-occur--timer nil)
    (live-occur--attach-visited)
    (if live-occur-edit-mode
        (live-occur--follow-lines)
      (live-occur--step)
      (when (< live-occur--made (min live-occur-idle-rows (live-occur--total)))
        (live-occur--make-rows live-occur--made 200)
        (cl-incf live-occur--made 200)
        (live-occur--look-later list 0.02)))))

(defun live-occur--update (&optional always)
  "Send what has changed, and ask for what changed of the hits.
If nothing has changed ask for none, but with ALWAYS non-nil."
  (when always (setq live-occur--due t))
  (unless live-occur--previewing (live-occur--step)))

(defun live-occur--busy-p ()
  "Whether this list waits for replies, or has more to send."
  (and (not live-occur--fault)
       (or live-occur--asked live-occur--slice
           (process-get live-occur--process 'unsent)
           (process-get live-occur--process 'waiting))
       t))

(defun live-occur--close-killed ()
  "Close the sources of this list whose buffers were killed, and answer them.
Those of files are read from there again."
  (let ((killed (cl-remove-if #'buffer-live-p live-occur--visited :key #'live-occur--buffer)))
    (dolist (source killed killed)
      (cl-callf2 remq source live-occur--visited)
      (if (not (live-occur--file source))
          (live-occur--close source)
        (setf (live-occur--buffer source) nil
              (live-occur--state source) nil
              (live-occur--unread source) t)
        (live-occur--lose source)))))

(defun live-occur--ask-for-changes ()
  "Ask for what changed of the hits, and apply it when it comes."
  (setq live-occur--asked t live-occur--due nil)
  (let* ((sources live-occur--sources)
         (source (live-occur--region))
         (bounds (and source
                      (live-occur--known-p source)
                      (not (live-occur--first-edit source))
                      (live-occur--bounds source))))
    (live-occur--send "changes\n"
                      (lambda (_ blocks) (live-occur--apply-all blocks sources bounds)))))

(defun live-occur--apply-all (blocks sources bounds)
  "Apply BLOCKS, in which files are known by their numbers among SOURCES.
BOUNDS are what was listed of the first one at the question, or nil."
  (setq live-occur--asked nil)
  (live-occur--tell-more)
  (let ((rest sources) (number 0) (row 0) spots (last -1) (shift 0))
    (pcase-dolist (`(,words . ,pieces) blocks)
      (pcase-let ((`(,_ ,file ,front ,removed ,added ,_)
                   (mapcar #'string-to-number (split-string words " "))))
        (while (< number file)
          (cl-incf row (live-occur--count (live-occur--pieces (pop rest))))
          (cl-incf number))
        (unless (= file (cl-shiftf last file)) (setq shift 0))
        (when (and (or pieces (live-occur--pieces (car rest)))
                   (memq (car rest) live-occur--sources))
          (let ((new (live-occur--apply (car rest) row front removed added pieces)))
            (pcase-dolist (`(,spot . ,_) new)
              (when (live-occur--hit-p spot) (cl-decf (live-occur--hit-place spot) shift)))
            (cl-callf2 nconc new spots)))
        (cl-incf shift (- added removed))))
    (live-occur--clip bounds)
    (live-occur--go-to-spots spots t))
  (dolist (source sources)
    (when (live-occur--in-order (live-occur--sent source))
      (setf (live-occur--sent source) (live-occur--hunks 0))))
  (when (and live-occur--page (not (and live-occur--kept live-occur--more)))
    (live-occur--show-hits))
  (live-occur--go-to-wanted)
  (when blocks (run-hooks 'live-occur-update-hook))
  (force-mode-line-update))

(defun live-occur--apply (source row front removed added new)
  "Put the hits NEW in the place of those among REMOVED lines of SOURCE.
They are among the ADDED lines from FRONT on, and its first row is ROW.  Answer
the spots there."
  (pcase-let* ((`(,head . ,rest) (live-occur--cut (live-occur--pieces source) front))
               (`(,gone . ,tail) (live-occur--cut rest (+ front removed)))
               (row (+ row (live-occur--count head)))
               (less (live-occur--count gone))
               (more (live-occur--count new))
               (spots (unless live-occur--page (live-occur--spots row less))))
    (dolist (piece tail) (cl-incf (live-occur--piece-shift piece) (- added removed)))
    (setf (live-occur--pieces source) (nconc head new tail))
    (live-occur--replace-rows row less more)
    spots))

;;;; Rows

;; A row is a line of the list.  It is empty until it is made, which is when it comes into view.
;; So the list has all rows, and a million cost little.

(defvar-local live-occur--row-stop nil "A tick, and a row and its place then.")

(defmacro live-occur--at-row-start (position &rest body)
  "Run BODY at the beginning of the row at POSITION, in the whole list."
  (declare (indent 1) (debug t))
  `(save-excursion
     (save-restriction
       (widen)
       (goto-char ,position)
       (forward-line 0)
       ,@body)))

(defmacro live-occur--at-row (row &rest body)
  "Run BODY at ROW, counted from 0, in the whole list, and stay here."
  (declare (indent 1) (debug t))
  `(live-occur--at-row-start (point-min)
     (live-occur--go-to-row ,row)
     ,@body))

(defun live-occur--go-to-row (row)
  "Move to ROW of the whole list, from a row that is known."
  (pcase live-occur--row-stop
    ((and `(,tick ,at . ,place) (guard (and (= tick (buffer-chars-modified-tick)) (<= at row))))
     (goto-char place)
     (forward-line (- row at)))
    (_ (goto-char (point-min)) (forward-line row))))

(defun live-occur--row-at (position)
  "The number of the row at POSITION, from 0."
  (live-occur--at-row 0 (1- (line-number-at-pos position))))

(defun live-occur--replace-rows (row removed added)
  "Put ADDED rows that are not made in the place of REMOVED ones from ROW on."
  (unless (or live-occur--page (= removed added 0))
    (with-silent-modifications
      (live-occur--at-row row
        (delete-region (point) (line-beginning-position (1+ removed)))
        (insert-char ?\n added)
        (setq live-occur--row-stop `(,(buffer-chars-modified-tick) ,(+ row added) . ,(point)))))
    (when live-occur-edit-mode (setq buffer-undo-list nil))
    (cl-callf min live-occur--made row)))

(defun live-occur--show-hits (&optional spots)
  "Show the hits of this list again, at SPOTS or where it is."
  (let ((spots (or spots (live-occur--spots 0 (buffer-size)))))
    (setq live-occur--page nil live-occur--kept nil)
    (with-silent-modifications (erase-buffer))
    (live-occur--replace-rows 0 0 (live-occur--total))
    (live-occur--go-to-spots spots)))

(defun live-occur--spots (row count)
  "List where point and the windows are in the COUNT rows from ROW on.
An element has the hit, or else the row, the column, the window, and its mover."
  (unless (= count 0)
    (pcase-let ((`(,start . ,end)
                 (live-occur--at-row row (cons (point) (line-beginning-position (1+ count))))))
      (cl-loop
       for (position . how) in
       `((,(point) nil ,(lambda (_ position) (goto-char position)))
         ,@(cl-loop for window in (get-buffer-window-list nil nil t)
                    collect (list (window-point window) window #'set-window-point)
                    collect (list (window-start window) window
                                  (lambda (window start) (set-window-start window start t)))))
       when (or (and (<= start position) (< position end)) (= position end (1+ (buffer-size))))
       collect (let ((row (live-occur--row-at position)))
                 `(,(or (live-occur--hit row) row)
                   ,(live-occur--at-row-start position (- position (point))) . ,how))))))

(defun live-occur--go-to-spots (spots &optional new)
  "Go back to SPOTS, or to rows after them.
With NEW non-nil hits were reported since: places are others than before."
  (pcase-dolist (`(,spot ,column ,window ,mover) spots)
    (when (or (not window) (eq (window-buffer window) (current-buffer)))
      (let ((row (pcase spot
                   ((cl-struct live-occur--hit source place)
                    (+ (live-occur--row-of-source source)
                       (live-occur--count
                        (live-occur--pieces source)
                        (live-occur--moved place (and new (live-occur--sent source))))))
                   (_ spot))))
        (live-occur--make-rows row 1)
        (funcall mover window
                 (live-occur--at-row row (min (+ (point) column) (line-end-position))))))))

(defun live-occur--make-rows (first count)
  "Make COUNT rows from FIRST on, and bring their numbers up to date."
  (unless (or live-occur--page live-occur-edit-mode)
    (with-silent-modifications (live-occur--map-rows #'live-occur--make-row first count))))

(defun live-occur--make-all-rows ()
  "Make all rows of this list, which can be quit."
  (unless (or live-occur--page live-occur-edit-mode (>= live-occur--made (live-occur--total)))
    (with-local-quit
      (live-occur--in-steps "Making rows..." (live-occur--total) #'live-occur--make-rows)
      (setq live-occur--made (live-occur--total)))))

(defun live-occur--copy (start end &optional delete)
  "The text from START to END, whose rows are made, to copy it.
With DELETE it is taken out, too."
  (let ((start (copy-marker start)) (end (copy-marker end)))
    (unless (or delete live-occur-edit-mode)
      (let ((first (live-occur--row-at start)))
        (live-occur--in-steps "Making rows..."
                              (- (live-occur--row-at end) first -1)
                              (lambda (row count) (live-occur--make-rows (+ first row) count)))))
    (buffer-substring--filter start end delete)))

(defun live-occur--map-rows (function first count)
  "Call FUNCTION with each hit of COUNT rows from FIRST on, at its row."
  (live-occur--at-row first
    (live-occur--map-hits (lambda (hit)
                            (save-excursion (funcall function hit))
                            (forward-line 1))
                          first count)))

(defun live-occur--make-row (hit)
  "Make the row of HIT at point, or correct its head, and lose point."
  (let ((head (live-occur--row-head hit (live-occur--line-of hit))))
    (if (eolp)
        (live-occur--insert-row hit head)
      (let ((end (live-occur--after-head)))
        (unless (equal head (buffer-substring-no-properties (point) end))
          (delete-region (point) end)
          (insert head))))))

(defun live-occur--insert-row (hit head)
  "Insert the row of HIT: HEAD, and its text, with its parts highlighted.
Of a long text a part is shown."
  (insert head)
  (let* ((most live-occur-max-columns)
         (start (live-occur--shown-from hit))
         (bytes (live-occur--hit-bytes hit start (+ start (* 5 (1+ most)))))
         (text (live-occur--text bytes))
         (cut (length> text most))
         (mark (propertize "…" 'face 'shadow))
         (from (point)))
    (when cut (setq text (substring text 0 most)))
    (when (= start 0) (live-occur--colour text hit))
    (pcase-dolist (`(,start . ,end)
                   (live-occur--in-characters
                    bytes (live-occur--hit-parts hit start (+ start (length bytes)))))
      (when (< start most)
        (add-face-text-property start (min end most) 'live-occur-match nil text)))
    (put-text-property 0 (length text) 'category 'live-occur--row text)
    (insert (if (> start 0) mark "") text (if cut mark ""))
    (when (or cut (> start 0)) (put-text-property from (point) 'live-occur-short t))))

(defun live-occur--row-head (hit line)
  "The head of the row of HIT, which is at LINE."
  (propertize (live-occur--head (live-occur--shown-name (live-occur--hit-source hit))
                                (1+ line) ":")
              'category 'live-occur--row 'live-occur-number (1+ line)))

(defun live-occur--source-name (source)
  "What rows call SOURCE."
  (if-let* ((file (live-occur--file source)))
      (if (string-prefix-p default-directory file)
          (substring file (length default-directory))
        (abbreviate-file-name file))
    (or (buffer-name (live-occur--buffer source)) "no buffer")))

(defun live-occur--shown-name (source)
  "What rows of this list call SOURCE, or nil where it has no other one."
  (and (cdr live-occur--sources) (live-occur--source-name source)))

(defun live-occur--name-rows ()
  "Make the rows of this list anew: they get names, or have them no longer."
  (unless (or live-occur--page live-occur-edit-mode live-occur--held) (live-occur--show-hits)))

(defun live-occur--after-head ()
  "Where the text of the row at point begins."
  (next-single-property-change (point) 'live-occur-number))

(defun live-occur--head (name number mark)
  "The head of a row of line NUMBER of NAME, with MARK after each part.
Where NAME is nil the head has none."
  (concat (and name (propertize (string-replace "\n" " " name) 'face 'live-occur-name))
          (propertize (format "%s%d%s" (if name mark "") number mark) 'face 'live-occur-line)))

(defun live-occur--colour (text hit)
  "Give TEXT, which begins the line of HIT, the faces that it has there."
  (when (live-occur--in (live-occur--buffer (live-occur--hit-source hit)) font-lock-mode)
    (live-occur--at-line-of hit
      (let ((there (buffer-substring (point) (min (point-max) (+ (point) (length text))))))
        (when (string-equal text there)
          (pcase-dolist (`(,from ,to ,properties) (object-intervals there))
            (put-text-property from to 'face (plist-get properties 'face) text)))))))

(defun live-occur--shown-from (hit)
  "From which byte on the line of HIT is shown.
It is a little before the first match if that would not be shown else."
  (pcase-let ((most live-occur-max-columns)
              (`(,from ,to . ,_) (live-occur--part-at hit (live-occur--hit-parts-at hit))))
    (if (or (not from)
            (<= to most)
            (and (<= to (* 5 most))
                 (length< (live-occur--text (live-occur--hit-bytes hit 0 to)) (1+ most))))
        0
      (live-occur--byte-before hit from (min 30 (/ most 2))))))

(defun live-occur--byte-before (hit byte count)
  "Where in the line of HIT the characters begin that are COUNT before BYTE."
  (pcase-let* (((cl-struct live-occur--hit rows start) hit)
               (at (+ start byte))
               (first (max start (- at (* 5 count)))))
    (while (and (> count 0) (> at first))
      (setq at (1- at))
      (unless (= #x80 (logand #xC0 (aref rows at))) (setq count (1- count))))
    (- at start)))

(defun live-occur--in-characters (line places)
  "Those of PLACES that begin in the bytes LINE as places in its text.
A character of which only some bytes are in a place is in it."
  (let* ((text (live-occur--text line))
         (last (length line))
         (numbers (unless (length= text last)
                    (vconcat (cl-loop
                              for character across text and number from 0
                              nconc (make-list (length (live-occur--bytes (string character)))
                                               number))))))
    (cl-flet ((number (byte) (if numbers (aref numbers byte) byte)))
      (cl-loop for (start . end) in places while (< start last)
               collect (cons (number start) (1+ (number (1- (min end last)))))))))

(defun live-occur--make-in-view (window)
  "Make the rows of this list in WINDOW and near it, before it is redrawn.
It may be moved to its point then, so rows there are made, too."
  (live-occur--close-killed)
  (unless (equal (window-parameter window 'live-occur-seen) (live-occur--seen window))
    (dolist (position (list (window-start window) (window-point window)))
      (let* ((height (window-body-height window))
             (first (max 0 (- (live-occur--row-at position) height))))
        (live-occur--make-rows first (* 3 height))
        (live-occur--show-around first (* 3 height))))
    (set-window-parameter window 'live-occur-seen (live-occur--seen window))))

(defun live-occur--seen (window)
  "What the rows in WINDOW depend on."
  (list (current-buffer) (buffer-chars-modified-tick)
        (window-start window) (window-point window) (window-body-height window)
        live-occur-context live-occur--page live-occur-max-columns
        (cl-loop for source in live-occur--visited
                 for buffer = (live-occur--buffer source)
                 collect (list (buffer-name buffer)
                               (buffer-chars-modified-tick buffer)
                               (buffer-size buffer)))))

;;;; Hits for others' programs

(defun live-occur-hits (&optional first count)
  "The hits of this list from number FIRST on, COUNT of them, or all.
Each is a list: its buffer, or the name of its file where that isn't open; the
number of its line, from 1; its text; and its matched parts, pairs of places in
that, from 0.  `live-occur' makes a list for a pattern and buffers."
  (let (hits)
    (live-occur--map-hits
     (lambda (hit)
       (let ((source (live-occur--hit-source hit)) (bytes (live-occur--hit-bytes hit)))
         (push (list (or (live-occur--buffer source) (live-occur--file source))
                     (1+ (live-occur--line-of hit))
                     (live-occur--text bytes)
                     (live-occur--in-characters bytes (live-occur--hit-parts hit)))
               hits)))
     (or first 0) (or count most-positive-fixnum))
    (nreverse hits)))

(defun live-occur-done-p ()
  "Whether this list has the hits in all that was there at the last update.
`live-occur-refresh' begins another one."
  (not (or live-occur--fault (live-occur--busy-p) (live-occur--edited-p))))

(defun live-occur--imenu ()
  "An index for imenu: where the rows of each buffer begin."
  (let ((row 0))
    (cl-loop for source in live-occur--sources
             for count = (live-occur--count (live-occur--pieces source))
             unless (= count 0)
             collect (cons (live-occur--source-name source)
                           (live-occur--at-row row (point-marker)))
             do (cl-incf row count))))

;;;; Lines around

;; Lines around a row are no rows.  They are strings of an overlay over it, and are read from the
;; source when the row comes into view.

(defun live-occur--show-around (first count)
  "Show the lines around COUNT rows from FIRST on."
  (live-occur--at-row first
    (remove-overlays (point) (line-beginning-position (1+ count)) 'live-occur-around t))
  (when (and live-occur-context (not live-occur--page))
    (let ((before (and (> first 0) (live-occur--hit (1- first)))))
      (live-occur--map-rows
       (lambda (hit)
         (let ((row (make-overlay (point) (line-beginning-position 2) nil t)))
           (overlay-put row 'live-occur-around t)
           (overlay-put row 'evaporate t)
           (overlay-put row 'before-string (live-occur--between before hit))
           (when (= (overlay-end row) (point-max))
             (overlay-put row 'after-string (live-occur--between hit nil)))
           (setq before hit)))
       first count))))

(defun live-occur--between (above below)
  "The lines that are shown between the hits ABOVE and BELOW.
ABOVE is nil before the first hit of the list, and BELOW after the last one."
  (pcase-let* ((`(,before . ,after) live-occur-context)
               (source (and above (live-occur--hit-source above)))
               (from (and above (1+ (live-occur--line-of above))))
               (end (and above (+ from after)))
               (other (and below (live-occur--hit-source below)))
               (to (and below (live-occur--line-of below)))
               (start (and below (max 0 (- to before)))))
    (if (and (eq source other) (<= start end))
        (live-occur--lines-in source from to)
      (concat (and above (live-occur--lines-in source from end))
              (and above below (propertize "--\n" 'face 'live-occur-line))
              (and below (live-occur--lines-in other start to))))))

(defun live-occur--lines-in (source from to)
  "The lines FROM to TO of SOURCE as they are shown around rows."
  (when (< from to)
    (pcase-let ((name (live-occur--shown-name source))
                (first (live-occur--from source))
                (end (live-occur--to source)))
      (live-occur--in-text source
        (live-occur--go-to-line source from)
        (cl-loop for number from (1+ from) to to until (eobp)
                 unless (or (and first (< (point) first))
                            (and end (<= end (line-end-position))))
                 concat (concat
                         (live-occur--head name number "-")
                         (propertize (live-occur--text-after-point live-occur-max-columns)
                                     'face 'live-occur-line)
                         "\n")
                 do (forward-line 1))))))

;;;; Going to a line

(defun live-occur-visit (&optional event)
  "Go to the line of the row at point, or of the one that EVENT clicked at.
The list keeps its window."
  (interactive (list last-nonmenu-event) live-occur-mode)
  (when (mouse-event-p event) (posn-set-point (event-end event)))
  (let* ((hit (or (live-occur--hit (live-occur--row-at (point)))
                  (user-error "There is no row here")))
         (source (live-occur--hit-source hit))
         (buffer (live-occur--visited-buffer source))
         (position (car (live-occur--place-of hit))))
    (unless position (user-error "The buffer of this row is gone"))
    (unless (or (live-occur--known-p source)
                (live-occur--at-line-of hit
                  (live-occur--line-is-p (live-occur--text (live-occur--hit-bytes hit)))))
      ;; It was changed without a report.
      (live-occur--update)
      (user-error "The list was not up to date: try again"))
    (setq next-error-last-buffer (current-buffer))
    (pop-to-buffer buffer
                   (unless (eq (window-buffer) (current-buffer))
                     '((display-buffer-reuse-window display-buffer-same-window))))
    (unless (<= (point-min) position (point-max))
      (unless widen-automatically
        (user-error "The line is outside of the narrowed part of %s" (buffer-name)))
      (widen))
    (goto-char position)
    (live-occur--unfold t)
    (run-hooks 'live-occur-visit-hook)))

(defun live-occur--unfold (&optional for-good)
  "Show the line at point where it is folded, FOR-GOOD or for a while.
Answer a function that folds it again."
  (if (and (derived-mode-p 'org-mode) (fboundp 'org-fold-core-get-regions))
      (let ((folds (org-fold-core-get-regions :with-markers t :from (point-min) :to (point-max))))
        (org-fold-show-set-visibility 'canonical)
        (lambda ()
          (pcase-dolist (`(,from ,to ,kind) (delq nil folds))
            (org-fold-core-region from to t kind))))
    (let* ((at (if (eolp) (max (point-min) (1- (point))) (point)))
           (search-invisible 'open)
           (isearch-hide-immediately nil)
           (isearch-opened-overlays nil)
           (folds (progn (isearch-range-invisible at (1+ at))
                         isearch-opened-overlays))
           (fold (lambda ()
                   (let ((isearch-opened-overlays folds))
                     (isearch-close-unnecessary-overlays 0 0)))))
      (when for-good
        (funcall fold)
        (dolist (fold folds) (funcall (overlay-get fold 'isearch-open-invisible) fold)))
      fold)))

(defun live-occur--column (hit byte)
  "How many characters of the line of HIT are before the one that has BYTE."
  (let ((near (live-occur--byte-before hit byte 4)))
    (+ (length (live-occur--text (live-occur--hit-bytes hit 0 near)))
       (caar (live-occur--in-characters
              (live-occur--hit-bytes hit near (+ byte 5))
              (list (cons (- byte near) (1+ (- byte near)))))))))

(defun live-occur-display ()
  "Show the line of the row at point in another window, and stay here."
  (interactive nil live-occur-mode)
  (save-selected-window (live-occur-visit)))

(defun live-occur-next (&optional count)
  "Move COUNT rows on."
  (interactive "p" live-occur-mode)
  (let ((row (+ (live-occur--row-at (point)) (or count 1))))
    (unless (< -1 row (live-occur--total)) (user-error "There are no more rows"))
    (goto-char (live-occur--at-row row (point)))))

(defun live-occur-previous (&optional count)
  "Move COUNT rows back."
  (interactive "p" live-occur-mode)
  (live-occur-next (- (or count 1))))

(defun live-occur--next-error (count reset)
  "Move COUNT rows on, or with RESET from the first row, and go to the line.
This is the `next-error-function' of lists."
  (live-occur-next (if reset (- (live-occur--row-at (point))) count))
  (when-let* ((window (get-buffer-window nil 0))) (set-window-point window (point)))
  (live-occur-visit))

;;;; Patterns

;; What a list searches for are its patterns, its syntax, flags, and whether the case is smart.
;; The program has what these are in its own terms: see `live-occur--sent'.

(defun live-occur--for-program (patterns flags)
  "A syntax for the program, and PATTERNS in pieces, where FLAGS are in force."
  (let* ((fold (memq ?i flags))
         (characters
          (and live-occur-characters
               (cl-loop for source in live-occur--visited
                        always (buffer-local-value 'enable-multibyte-characters
                                                   (live-occur--buffer source)))))
         (quoted (and characters fold (eq live-occur-syntax 'fixed)
                      (string-match-p "[[:nonascii:]]" (apply #'concat patterns))))
         (syntax (if quoted 'basic live-occur-syntax)))
    (cons syntax
          (mapcar (lambda (pattern)
                    (live-occur--translated
                     (if quoted (live-occur--quoted pattern syntax) pattern)
                     (and characters syntax) fold))
                  patterns))))

(defun live-occur--want (patterns report)
  "Search in this list for PATTERNS, by its settings, if the program takes them.
Call REPORT with the fault, or nil.  Of several wishes the last one is kept."
  (if live-occur--trying
      (setq live-occur--trying (list patterns report))
    (setq live-occur--trying t)
    (pcase-let* ((flags (live-occur--flags-for patterns))
                 (`(,syntax . ,pieces) (live-occur--for-program patterns flags))
                 (texts (mapcar (lambda (all) (mapconcat #'cdr all "")) pieces))
                 (before live-occur--sent)
                 (other (not (eq syntax (car before))))
                 (place (unless other (live-occur--place-to-change texts (cdr before)))))
      (cl-flet ((got (in-place reply)
                  (let ((fault (live-occur--fault-in reply pieces)))
                    (cond ((not fault)
                           (live-occur--take-wish patterns flags (cons syntax texts) in-place))
                          (other (live-occur--begin-syntax before)))
                    (funcall report fault)
                    (let ((wanted (cl-shiftf live-occur--trying nil)))
                      (cond ((consp wanted) (apply #'live-occur--want wanted))
                            ;; Perhaps hits were reported without patterns.
                            ((and fault (not other)))
                            (live-occur--previewing (live-occur--ask-for-page))
                            (t (live-occur--update t)))))))
        (cond ((or (null texts) (equal texts (and (not other) (cdr before)))) (got texts "ok"))
              (place
               (live-occur--send
                (format "pattern %d\n%s\n" place (nth place texts))
                (lambda (reply _)
                  (got t (string-replace "Pattern 0" (format "Pattern %d" place) reply)))))
              (t (when other (live-occur--begin-syntax (list syntax)))
                 (live-occur--send (live-occur--command "patterns" texts)
                                   (lambda (reply _) (got nil reply)))))))))

(defun live-occur--begin-syntax (wanted)
  "Let the program have WANTED, a syntax and patterns that it takes.
Before that it has no patterns, which it might refuse by that."
  (dolist (_ (cdr live-occur--sent)) (live-occur--order "drop 0\n"))
  (live-occur--order (format "syntax %s\n" (car wanted)))
  (when (cdr wanted) (live-occur--order (live-occur--command "patterns" (cdr wanted))))
  (setq live-occur--sent wanted))

(defun live-occur--place-to-change (texts others)
  "The number of the only one of TEXTS that differs from OTHERS, or nil."
  (when (length= texts (length others))
    (pcase (cl-loop for new in texts for old in others
                    for place from 0
                    unless (equal new old) collect place)
      (`(,place) place))))

(defun live-occur--take-wish (patterns flags sent in-place)
  "Let this list have PATTERNS and FLAGS: SENT was accepted, perhaps IN-PLACE.
Where hits may be others the patterns are not `eq' to those before."
  (unless in-place (dolist (_ (cdr live-occur--sent)) (live-occur--order "drop 0\n")))
  (setq live-occur-flags flags)
  (unless (and (equal sent live-occur--sent)
               (equal flags live-occur--flags-sent)
               (equal patterns live-occur--patterns))
    (dolist (letter (cl-set-exclusive-or flags live-occur--flags-sent))
      (live-occur--order (format "flag %c %s\n" letter
                                 (if (memq letter flags) "on" "off"))))
    (setq live-occur--patterns (copy-sequence patterns)
          live-occur--sent sent
          live-occur--flags-sent flags)))

(defun live-occur--fault-in (reply pieces)
  "The fault that REPLY reports in patterns sent as PIECES, or nil.
It is a list of a kind, or REPLY, the number of a pattern and the place in it."
  (pcase (split-string reply " ")
    ('("ok") nil)
    (`("refused" "Pattern" ,number ,kind ,at)
     (let ((number (string-to-number number)) (at (string-to-number at)))
       (list kind number
             (cl-loop for (place . bytes) in (nth number pieces)
                      while (>= at (length bytes))
                      do (cl-decf at (length bytes))
                      finally return place))))
    (_ (list reply 0 0))))

(defun live-occur--fault-in-text (fault text first)
  "The kind of FAULT, and its place in TEXT, or nil.
TEXT has the patterns from number FIRST on, one a line."
  (pcase fault
    (`(,kind ,number ,place)
     (list kind (min (length text)
                     (cl-loop for line in (split-string text "\n")
                              repeat (- number first)
                              sum (1+ (length line)) into before
                              finally return (+ before place)))))))

(defun live-occur--put (patterns)
  "Let this list search for PATTERNS, wait until it does, and answer the fault."
  (live-occur--check)
  (let (answer)
    (live-occur--want patterns (lambda (fault) (setq answer (list fault))))
    (car (live-occur--wait-for (lambda () answer)))))

;;;; Characters

;; The program takes each byte as a character.  So what a pattern says of characters beyond ASCII
;; is said of their bytes in UTF-8.  What is sent is kept in pieces, pairs of a place in the
;; pattern and bytes, by which the place of a fault is found in the pattern.

(defun live-occur--quoted (text syntax)
  "A pattern in SYNTAX that matches TEXT."
  (pcase syntax
    ('fixed text)
    ('basic (replace-regexp-in-string "[][\\.*^$]" "\\\\\\&" text))
    (_ (replace-regexp-in-string "[][\\.*^$+?(){}|]" "\\\\\\&" text))))

(defun live-occur--translated (pattern syntax fold)
  "PATTERN, read by SYNTAX, in pieces that speak of its bytes.
It isn't translated without a SYNTAX.  With FOLD both cases match."
  (with-temp-buffer
    (insert pattern)
    (goto-char (point-min))
    (append (if (memq syntax '(nil fixed))
                (live-occur--as-it-is (point-max))
              (cl-loop until (eobp) nconc (live-occur--next-pieces syntax fold)))
            (list (list (length pattern))))))

(defun live-occur--next-pieces (syntax fold)
  "Pieces of what is at point of a pattern, which is of SYNTAX; move over it.
FOLD is as in `live-occur--translated'."
  (let ((place (1- (point))))
    (cond ((looking-at "\\\\[[:ascii:]]\\|\\.\\*\\|[[:ascii:]]")
           (pcase (char-after)
             ((and ?. (guard (= 1 (- (match-end 0) (point)))))
              (forward-char)
              (live-occur--choice
               place syntax
               (live-occur--alternatives t nil '((#x80 . #x10ffff)))))
             (?\[ (live-occur--next-set syntax fold))
             (_ (live-occur--as-it-is (match-end 0)))))
          (t (skip-chars-forward "\\\\")
             (forward-char)
             (live-occur--choice
              place syntax (mapcar (lambda (one) (live-occur--bytes (string one)))
                                   (live-occur--cases (char-before) fold)))))))

(defun live-occur--as-it-is (end)
  "Pieces of the text from point to END; move over it."
  (cl-loop while (< (point) end)
           collect (cons (1- (point)) (live-occur--bytes (string (char-after))))
           do (forward-char)))

(defun live-occur--choice (place syntax texts)
  "Pieces for PLACE of a pattern of SYNTAX, before point: one of TEXTS."
  (pcase-let ((`(,open ,bar ,close ,many)
               (if (eq syntax 'extended)
                   '("(" "|" ")" "[*+?{]")
                 '("\\(" "\\|" "\\)" "\\*\\|\\\\[+?{]"))))
    (list (cons place
                (if (or (cdr texts) (looking-at-p many))
                    (concat open (string-join texts bar) close)
                  (car texts))))))

(defun live-occur--cases (character fold)
  "CHARACTER, and with FOLD those beyond ASCII that differ from it by case."
  (let ((same (char-table-extra-slot (standard-case-table) 2)))
    (cons character
          (cl-loop for other = (and fold (aref same character))
                   then (aref same other)
                   until (memq other (list nil character))
                   unless (< other #x80) collect other))))

(defun live-occur--next-set (syntax fold)
  "Pieces of the bracket expression at point, read by SYNTAX; move over it.
FOLD is as in `live-occur--translated'.  One with a fault goes as it is, with
all that follows, but a descending range of characters as one of letters."
  (let ((start (point)))
    (pcase (catch 'fault (live-occur--read-set))
      (`(,complement ,texts ,ranges)
       (if (not (or complement ranges))
           (let ((end (point)))
             (goto-char start)
             (live-occur--as-it-is end))
         (live-occur--choice
          (1- start) syntax
          (live-occur--alternatives
           complement texts (live-occur--all-ranges ranges fold complement)))))
      (dash
       (goto-char start)
       (if (not dash)
           (live-occur--as-it-is (point-max))
         (goto-char (point-max))
         `((,(1- start) . "[b") (,(1- dash) . "-a]")))))))

(defun live-occur--read-set ()
  "Move over the bracket expression at point, and answer its elements.
They are whether it is a complement, texts for ASCII, and ranges of others.
Throw nil to `fault', or where a range beyond ASCII descends."
  (let (texts ranges (complement (looking-at "\\[\\^")) (first t))
    (forward-char (if complement 2 1))
    (while (or (cl-shiftf first nil) (not (eq (char-after) ?\])))
      (if (looking-at
           (rx "[:" (or "alnum" "alpha" "blank" "cntrl" "digit" "graph" "lower"
                        "print" "punct" "space" "upper" "xdigit")
               ":]"))
          (progn (push (match-string 0) texts)
                 (goto-char (match-end 0)))
        (let* ((single (looking-at-p "\\[="))
               (from (live-occur--read-point))
               (dash (and (not single) (looking-at-p "-[^]]") (point)))
               (to (if (not dash) from (forward-char) (live-occur--read-point))))
          (when (< to from) (throw 'fault (and (>= from #x80) dash)))
          (when (< from #x80)
            (push (mapconcat (lambda (one)
                               (format (if (memq one '(?\[ ?\] ?^ ?-)) "[.%c.]" "%c") one))
                             (seq-uniq (list from (min to #x7f))) "-")
                  texts))
          (when (>= to #x80) (push (cons (max from #x80) to) ranges)))))
    (forward-char)
    (list complement (nreverse texts) (nreverse ranges))))

(defun live-occur--read-point ()
  "Move over the character at point of a bracket expression, and answer it."
  (cond ((looking-at "\\[\\([.=]\\)\\(.\\)\\1]")
         (goto-char (match-end 0))
         (string-to-char (match-string 2)))
        ((or (eobp) (looking-at-p "\\[[.=:]")) (throw 'fault nil))
        (t (forward-char) (char-before))))

(defun live-occur--all-ranges (ranges fold complement)
  "RANGES, and with FOLD what differs by case from those that aren't long.
With COMPLEMENT it is what is in none of them, of the characters beyond ASCII."
  (pcase-dolist (`(,from . ,to) (and fold (copy-sequence ranges)))
    (when (< (- to from) 2000)
      (cl-loop for one from from to to
               do (dolist (other (cdr (live-occur--cases one t)))
                    (push (cons other other) ranges)))))
  (if (not complement) ranges
    (let ((next #x80) others)
      (pcase-dolist (`(,from . ,to) (sort (copy-sequence ranges) #'car-less-than-car))
        (when (< next from) (push (cons next (1- from)) others))
        (setq next (max next (1+ to))))
      (nreverse (if (<= next #x10ffff) (cons (cons next #x10ffff) others) others)))))

(defun live-occur--alternatives (complement texts ranges)
  "What matches a character of a set, as expressions for bytes.
It has the elements TEXTS, or with COMPLEMENT others of ASCII, and RANGES."
  (append
   (cond (complement (list (concat "[^" (string-join texts) "\200-\377]")))
         (texts (list (concat "[" (string-join texts) "]"))))
   (cl-loop
    for (from . to) in ranges
    nconc (cl-loop
           for (low . high) in '((#x80 . #x7ff) (#x800 . #xffff) (#x10000 . #x3fffff))
           for first = (max low from) for last = (min high to)
           when (<= first last)
           nconc (mapcar
                  (lambda (ranges)
                    (mapconcat (pcase-lambda (`(,low . ,high))
                                 (if (= low high) (unibyte-string low)
                                   (unibyte-string ?\[ low ?- high ?\])))
                               ranges ""))
                  (live-occur--byte-ranges
                   (append (live-occur--bytes (string first)) nil)
                   (append (live-occur--bytes (string last)) nil)))))))

(defun live-occur--byte-ranges (from to)
  "Lists of ranges, each for a byte, that have all bytes between FROM and TO.
FROM and TO are the bytes of characters that have equally many."
  (pcase-let* ((`(,first . ,from-rest) from) (`(,last . ,to-rest) to)
               (lowest (make-list (length from-rest) #x80))
               (highest (make-list (length from-rest) #xbf)))
    (cond ((null from) '(()))
          ((= first last)
           (mapcar (lambda (rest) `((,first . ,last) . ,rest))
                   (live-occur--byte-ranges from-rest to-rest)))
          ((not (equal from-rest lowest))
           (append (live-occur--byte-ranges from (cons first highest))
                   (live-occur--byte-ranges (cons (1+ first) lowest) to)))
          ((not (equal to-rest highest))
           (append (live-occur--byte-ranges from (cons (1- last) highest))
                   (live-occur--byte-ranges (cons last lowest) to)))
          (t `(((,first . ,last) . ,(cl-mapcar #'cons lowest highest)))))))

;;;; The prompt

(defvar-local live-occur--typing-list nil "The list that a pattern is for.")
(defvar-local live-occur--typing-what nil "What that is, unless the list's use.")
(defvar-local live-occur--try-now nil
  "A function that lets the list follow what is typed, if new or with t.")

(defun live-occur--show-fault (fault)
  "Show FAULT in this minibuffer, or that there is none where it is nil."
  (remove-overlays (point-min) (point-max) 'live-occur-fault t)
  (pcase fault
    (`(,kind ,place)
     (let* ((at (min (+ (minibuffer-prompt-end) place) (point-max)))
            (fault (make-overlay at (min (1+ at) (point-max))))
            (end (make-overlay (point-max) (point-max))))
       (dolist (one (list fault end)) (overlay-put one 'live-occur-fault t))
       (overlay-put fault 'face 'live-occur-fault)
       (overlay-put end 'after-string
                    (concat (when (= at (point-max)) (propertize " " 'face 'live-occur-fault))
                            (propertize (format " [%s]" kind) 'face 'error 'cursor t)))))))

(defun live-occur--follow-typing (list before after)
  "Let LIST follow what is typed in this minibuffer, between BEFORE and AFTER."
  (let ((tried (minibuffer-contents-no-properties))
        (timer (timer-create))
        (minibuffer (current-buffer)))
    (setq live-occur--try-now
          (lambda (&optional always)
            (cancel-timer timer)
            (live-occur--in minibuffer
              (let ((text (minibuffer-contents-no-properties)))
                (when (or always (not (equal tried text)))
                  (setq tried text)
                  (live-occur--try list minibuffer text before after))))))
    (add-hook 'minibuffer-exit-hook (lambda () (cancel-timer timer)) nil t)
    (add-hook 'post-command-hook
              (lambda ()
                (cancel-timer timer)
                (unless (equal tried (minibuffer-contents-no-properties))
                  (setq timer (run-with-timer live-occur-typing-delay nil live-occur--try-now))))
              nil t)))

(defun live-occur--try (list minibuffer text before after)
  "Let LIST show what TEXT in MINIBUFFER matches, between BEFORE and AFTER."
  (live-occur--in list
    (unless live-occur--fault
      (setq live-occur--previewing t)
      (live-occur--step)
      (live-occur--want
       (append before (unless (string-empty-p text) (split-string text "\n")) after)
       (lambda (fault)
         (live-occur--in minibuffer
           (when (equal text (minibuffer-contents-no-properties))
             (live-occur--show-fault (live-occur--fault-in-text fault text (length before))))))))))

(defun live-occur--symbol-at-point (syntax)
  "The symbol at point as a pattern in SYNTAX that matches it, or nil."
  (when-let* ((symbol (thing-at-point 'symbol t))) (live-occur--quoted symbol syntax)))

(defun live-occur--prompt (list what)
  "A prompt of WHAT, or of the use of LIST, with its syntax and flags."
  (with-current-buffer list
    (format "%s (%s): "
            (or what (if (memq ?v live-occur-flags)
                         "List lines that don't match"
                       "List lines that match"))
            (string-join
             `(,(symbol-name live-occur-syntax)
               ,@(cond (live-occur-smart-case '("smart case"))
                       ((memq ?i live-occur-flags) '("both cases")))
               ,@(and (memq ?x live-occur-flags) '("whole lines")))
             ", "))))

(defun live-occur-preview-set ()
  "While a pattern is typed, do what the last key does in the list.
It changes a flag or the syntax; the prompt has those in force."
  (interactive)
  (let ((command (lookup-key live-occur-mode-map (vector last-command-event))))
    (live-occur--in live-occur--typing-list
      (let ((live-occur--typing t)) (call-interactively command)))
    (remove-overlays (point-min) (minibuffer-prompt-end) 'live-occur-prompt t)
    (let ((prompt (make-overlay (point-min) (minibuffer-prompt-end))))
      (overlay-put prompt 'live-occur-prompt t)
      (overlay-put prompt 'display
                   (propertize (live-occur--prompt live-occur--typing-list live-occur--typing-what)
                               'face 'minibuffer-prompt)))
    (when live-occur--try-now (funcall live-occur--try-now t))))

(defun live-occur--ask (list what &optional text before after)
  "Read patterns in a prompt of WHAT, with TEXT at first, until LIST takes them.
WHAT is nil for the use of the list.  They go between the patterns BEFORE and
AFTER."
  (let ((offered (live-occur--symbol-at-point (buffer-local-value 'live-occur-syntax list)))
        (old (with-current-buffer list (cons live-occur--patterns (live-occur--settings))))
        fault done)
    (live-occur--begin-showing list (selected-window))
    (unwind-protect
        (while (not done)
          (minibuffer-with-setup-hook
              (lambda ()
                (live-occur--show-fault fault)
                (setq live-occur--typing-list list live-occur--typing-what what)
                (when live-occur-typing-delay (live-occur--follow-typing list before after))
                (use-local-map (make-composed-keymap live-occur-preview-map (current-local-map))))
            (setq text (read-from-minibuffer
                        (concat (and fault (apply #'format "%s at %d; " fault))
                                (live-occur--prompt list what))
                        (if fault (cons text (1+ (nth 1 fault))) text)
                        nil nil 'live-occur-history offered)))
          (with-current-buffer list
            (setq fault (live-occur--fault-in-text
                         (live-occur--put (append before (split-string text "\n") after))
                         text (length before))
                  done (not fault))))
      (live-occur--in list
        (unwind-protect
            (live-occur--end-showing done)
          (unless done (live-occur--use (cdr old)))
          (live-occur--end-preview (if done live-occur--patterns (car old))))))))

(defun live-occur--end-preview (patterns)
  "Keep PATTERNS, and show again what the list had where they are the old ones."
  (when live-occur--previewing
    (setq live-occur--previewing nil)
    (when (and live-occur--page (or live-occur--fault (not (equal patterns live-occur--patterns))))
      (live-occur--show-hits (cdr live-occur--page)))
    (if live-occur--fault
        (setq live-occur--patterns patterns)
      (live-occur--want patterns #'ignore))))

(defun live-occur-add-pattern ()
  "Add a pattern: lines that any of the patterns matches are listed."
  (interactive nil live-occur-mode)
  (live-occur--ask (current-buffer) "Add pattern" nil live-occur--patterns))

(defun live-occur--read-place (prompt)
  "Read with PROMPT which of the patterns is meant, and answer its number."
  (pcase live-occur--patterns
    ('nil (user-error "There is no pattern"))
    (`(,_) 0)
    (all (or (seq-position all (completing-read prompt all nil t))
             (user-error "There is no such pattern")))))

(defun live-occur-drop-pattern (place)
  "Drop the pattern of number PLACE.  Without any, no line is listed."
  (interactive (list (live-occur--read-place "Drop pattern: ")) live-occur-mode)
  (live-occur--put (append (seq-take live-occur--patterns place)
                           (seq-drop live-occur--patterns (1+ place)))))

(defun live-occur-change-pattern (place)
  "Change the pattern of number PLACE."
  (interactive (list (live-occur--read-place "Change pattern: ")) live-occur-mode)
  (live-occur--ask (current-buffer) "Pattern" (nth place live-occur--patterns)
                   (seq-take live-occur--patterns place)
                   (seq-drop live-occur--patterns (1+ place))))

;;;; Pages

;; While a pattern is typed the list shows a page: the first hits, and the number of all.  The
;; hits that the program reported before are kept.

(defun live-occur--hit-on-page (piece)
  "The hit in PIECE, which is a row of a page."
  (let ((row (live-occur--piece-rows piece)))
    (live-occur--hit-in (nth (live-occur--place-in row 0) live-occur--sources)
                        row (1- (string-search " " row 2)) 0)))

(defun live-occur--move-windows (position)
  "Move point, and that of windows of this list, to POSITION."
  (goto-char position)
  (dolist (window (get-buffer-window-list nil nil t)) (set-window-point window position)))

(defun live-occur--show-page (block total)
  "Show the hits in BLOCK, which is a page, instead of the rows, of TOTAL ones."
  (setq live-occur--kept nil
        live-occur--page (cons total (or (cdr live-occur--page)
                                         (live-occur--spots 0 (buffer-size)))))
  (with-silent-modifications
    (erase-buffer)
    (dolist (piece (cdr block))
      (let ((hit (live-occur--hit-on-page piece)))
        (live-occur--insert-row hit (live-occur--row-head hit (live-occur--hit-place hit)))
        (insert "\n"))))
  (live-occur--move-windows (point-min))
  (force-mode-line-update))

;;;; A hit that is shown while a pattern is typed

;; It is the first one at point or after it, in the window in which the pattern was asked for;
;; keys go through those of all buffers.  Its number is found by halving: the program is asked for
;; pages of one hit.

(cl-defstruct (live-occur--preview (:copier nil))
  "A window in which hits are shown."
  window
  buffer                                ; what the window showed before
  point
  start
  source                                ; that of this buffer, or nil
  (line 0)                              ; that of this point
  keyed                                 ; patterns for which keys moved to a hit
  number                                ; that of the hit shown, or asked for
  after                                 ; whether it is at this point or after it
  hit                                   ; that is shown, or nil
  page                                  ; the number of the first row shown
  (low 0) (high 0)                      ; those of the hits that are listed
  mark row                              ; overlays over the hit and its row
  (fold #'ignore))                      ; folds again what is unfolded

(defvar live-occur-preview-map
  (let ((map (make-sparse-keymap)))
    (define-key map (kbd "C-n") #'live-occur-preview-next)
    (define-key map (kbd "C-p") #'live-occur-preview-previous)
    (dolist (key '("i" "v" "x" "B" "E" "F"))
      (define-key map (kbd (concat "M-s " key)) #'live-occur-preview-set))
    map)
  "Keys while a pattern is typed.")

(defun live-occur--begin-showing (list window)
  "Show hits of LIST in WINDOW from now on, if that is wanted.
Where that shows the list itself it is another one that shows a source."
  (with-current-buffer list
    (setq live-occur--wanted nil live-occur--looking nil)
    (when (eq (window-buffer window) list)
      (setq window (cl-some (lambda (source) (get-buffer-window (live-occur--buffer source)))
                            (reverse live-occur--visited))))
    (when (and window live-occur-preview live-occur-typing-delay)
      (let* ((source (live-occur--source-of (window-buffer window))) (point (window-point window)))
        (setq live-occur--preview
              (make-live-occur--preview
               :window window :buffer (window-buffer window) :source source
               :point point :start (window-start window)
               :line (if (not source) 0
                       (live-occur--in-text source (1- (line-number-at-pos point))))))))))

(defun live-occur--ask-about-hits (first count function &optional bare)
  "Ask for a page of COUNT hits from number FIRST on.
Call FUNCTION with its block, unless another look has begun by then.  With BARE
it needs no text of lines, which may be long."
  (let ((looking live-occur--looking) (sources live-occur--sources))
    (when bare (live-occur--order "text off\n"))
    (live-occur--send (format "page %d %d\n" first count)
                      (lambda (_ blocks)
                        (when (and (eq looking live-occur--looking)
                                   (eq (car looking) live-occur--patterns)
                                   (eq sources live-occur--sources))
                          (funcall function (car blocks)))))
    (when bare (live-occur--order "text on\n"))))

(defun live-occur--ask-for-page ()
  "Ask how many hits there are, and for some, while a pattern is typed.
What is looked for or shown stays if it can."
  (live-occur--tell-more)
  (let ((stays (live-occur--stays-p)))
    (unless stays (setq live-occur--looking (cons live-occur--patterns t)))
    (live-occur--with-part
     (lambda (low high)
       (cond ((not live-occur--previewing))
             ((not stays) (live-occur--look-between low high))
             (live-occur--page
              (setcar live-occur--page (- high low))
              (when live-occur--preview
                (setf (live-occur--preview-high live-occur--preview) high))
              (force-mode-line-update)))))))

(defun live-occur--stays-p ()
  "Whether more is to come, and what is looked for or shown stays until then.
It is the first hit after point, or one that keys have moved to: lines that come
after it change nothing."
  (and live-occur--more
       (eq (car live-occur--looking) live-occur--patterns)
       (or (cdr live-occur--looking)
           (pcase live-occur--preview
             ((cl-struct live-occur--preview keyed after hit)
              (and live-occur--page hit (or after (eq keyed live-occur--patterns))))))))

(defun live-occur--look-between (low high)
  "Show a page of the hits from number LOW on and below HIGH, and one of them.
It is the first at point or after it, or else the first of all.  Once keys have
moved it is the one of the same number: what comes later has greater ones."
  (pcase live-occur--preview
    ('nil (live-occur--show-number low low high))
    ((and preview (cl-struct live-occur--preview source line keyed number))
     (setf (live-occur--preview-page preview) nil
           (live-occur--preview-low preview) low
           (live-occur--preview-high preview) high)
     (if (and number (eq keyed live-occur--patterns))
         (live-occur--show-number (max low (min number (1- high))) low high)
       (live-occur--find-number
        (or (seq-position live-occur--sources source #'eq) 0) line low high
        (lambda (number)
          (setf (live-occur--preview-after preview) (< number high))
          (live-occur--show-number (if (< number high) number low) low high)))))))

(defun live-occur--with-part (function)
  "Call FUNCTION with which hits are listed.
It is the number of the first one, and that of the first after them."
  (live-occur--ask-about-hits
   0 0
   (lambda (block)
     (let ((total (string-to-number (substring (car block) (length "hits "))))
           (source (live-occur--region)))
       (if (not source)
           (funcall function 0 total)
         (pcase-let ((`(,from . ,to) (live-occur--bounds source)))
           (live-occur--find-number
            0 from 0 total
            (lambda (low)
              (live-occur--find-number 0 to low total (apply-partially function low))))))))))

(defun live-occur--find-number (file line low high function)
  "Call FUNCTION with the number of the first hit from LINE of FILE on.
It is known that hits before number LOW come before it, and none from HIGH on."
  (if (= low high)
      (funcall function low)
    (let ((middle (/ (+ low high) 2)))
      (live-occur--ask-about-hits
       middle 1
       (lambda (block)
         (pcase block
           ((and `(,_ ,(cl-struct live-occur--piece rows))
                 (let `(,_ ,there ,at . ,_) (mapcar #'string-to-number (split-string rows " ")))
                 (guard (or (< there file) (and (= there file) (< at line)))))
            (setq low (1+ middle)))
           (_ (setq high middle)))
         (live-occur--find-number file line low high function))
       t))))

(defun live-occur--show-number (number low high)
  "Show the page of the hit of NUMBER, of those from LOW on and below HIGH.
Show the hit itself, too, if hits are shown."
  (let* ((preview live-occur--preview)
         (size (max 50 (frame-height)))
         (first (if (< (- number low) size) low (- number (/ size 2)))))
    (when preview (setf (live-occur--preview-number preview) number))
    (live-occur--ask-about-hits
     first (min size (- high first))
     (lambda (block)
       (setcdr live-occur--looking nil)
       (when (and live-occur--previewing
                  (not (and preview (eql first (live-occur--preview-page preview)))))
         (live-occur--show-page block (- high low)))
       (when preview
         (let ((piece (nth (1+ (- number first)) block)))
           (setf (live-occur--preview-page preview) first)
           (live-occur--show-found preview (and piece (live-occur--hit-on-page piece)))
           (live-occur--show-row preview (- number first))))))))

(defun live-occur--show-in (preview buffer point start)
  "Let the window of PREVIEW show BUFFER from START on, if it can.
Move its POINT there, and answer whether it could."
  (let ((window (live-occur--preview-window preview)))
    (when (and (window-live-p window)
               (buffer-live-p buffer)
               (or (eq (window-buffer window) buffer) (not (window-dedicated-p window))))
      (unless (eq (window-buffer window) buffer) (set-window-buffer window buffer))
      (when start (set-window-start window start t))
      (set-window-point window point)
      t)))

(defun live-occur--go-back (preview)
  "Let the window of PREVIEW be as it was."
  (pcase-let (((cl-struct live-occur--preview buffer point start mark row) preview))
    (setf (live-occur--preview-hit preview) nil)
    (funcall (cl-shiftf (live-occur--preview-fold preview) #'ignore))
    (dolist (overlay (list mark row)) (when overlay (delete-overlay overlay)))
    (live-occur--show-in preview buffer point start)))

(defun live-occur--show-found (preview hit)
  "Show HIT by PREVIEW, unless it is nil or outside of what is narrowed."
  (funcall (cl-shiftf (live-occur--preview-fold preview) #'ignore))
  (let* ((window (live-occur--preview-window preview))
         (buffer (and hit (live-occur--text-buffer (live-occur--hit-source hit)
                                                   " *live-occur preview*"))))
    (unless (live-occur--in buffer
              (pcase-let ((`(,place . ,end) (live-occur--place-of hit t)))
                (when (and (<= (point-min) place end (point-max))
                           (live-occur--show-in preview buffer place nil))
                  (let ((mark (live-occur--overlay (live-occur--preview-mark preview) place end)))
                    (overlay-put mark 'window window)
                    (setf (live-occur--preview-mark preview) mark
                          (live-occur--preview-hit preview) hit
                          (live-occur--preview-fold preview)
                          (save-excursion (goto-char place)
                                          (live-occur--unfold)))))))
      (live-occur--go-back preview))))

(defun live-occur--place-of (hit &optional page)
  "Where the first part of HIT, or else its line, begins and ends in its text.
The hit may be one of a PAGE."
  (live-occur--in-text (live-occur--hit-source hit)
    (live-occur--go-to-line (live-occur--hit-source hit) (live-occur--line-of hit page))
    (let ((start (point)) (last (line-end-position)))
      (pcase (live-occur--part-at hit (live-occur--hit-parts-at hit))
        ('nil (cons start last))
        (`(,from ,to . ,_)
         (cons (min last (+ start (live-occur--column hit from)))
               (min last (+ start 1 (live-occur--column hit (1- to))))))))))

(defun live-occur--overlay (overlay start end)
  "Put OVERLAY, or a new one if it is nil, from START to END, and answer it."
  (let ((overlay (or overlay (make-overlay start end))))
    (move-overlay overlay start end (current-buffer))
    (overlay-put overlay 'face 'live-occur-preview)
    (overlay-put overlay 'priority 1)
    overlay))

(defun live-occur--show-row (preview row)
  "Mark ROW of the page that is shown with PREVIEW, and move to it."
  (when live-occur--previewing
    (goto-char (point-min))
    (forward-line row)
    (setf (live-occur--preview-row preview)
          (live-occur--overlay (live-occur--preview-row preview)
                               (point) (line-beginning-position 2)))
    (live-occur--move-windows (point))))

(defun live-occur-preview-next (&optional count)
  "While a pattern is typed, show the hit that is COUNT hits on.
It is waited for the one from which this counts."
  (interactive "p")
  (when live-occur--try-now (funcall live-occur--try-now))
  (live-occur--in live-occur--typing-list
    (when-let* ((preview live-occur--preview))
      (live-occur--wait-for-hit t)
      (pcase-let* (((cl-struct live-occur--preview number low high) preview)
                   (new (and number (+ number (or count 1)))))
        (if (not (and new (<= low new (1- high))))
            (message "There are no more hits")
          (setf (live-occur--preview-keyed preview) live-occur--patterns)
          (setq live-occur--looking (cons live-occur--patterns t))
          (live-occur--show-number new low high))))))

(defun live-occur-preview-previous (&optional count)
  "While a pattern is typed, show the hit that is COUNT hits back."
  (interactive "p")
  (live-occur-preview-next (- (or count 1))))

(defun live-occur--end-showing (done)
  "Show no hit any more: go to the last one if DONE is t, and else back."
  (when-let* ((preview live-occur--preview))
    (let (hit)
      (unwind-protect
          (when (and done (not live-occur--fault))
            (live-occur--wait-for-hit)
            (setq hit (live-occur--preview-hit preview)))
        (setq live-occur--preview nil live-occur--looking nil)
        (live-occur--go-back preview))
      (when hit (live-occur--go-to-shown preview hit)))))

(defun live-occur--wait-for-hit (&optional always)
  "Show a hit of the patterns that this list has, if there is one.
With ALWAYS wait for it while more is to come."
  (cl-flet ((shown-p ()
              (and (not live-occur--trying)
                   (not (cdr live-occur--looking))
                   (or (null live-occur--patterns)
                       (and (eq live-occur--patterns (car live-occur--looking))
                            (or (live-occur--preview-hit live-occur--preview)
                                (not (and always live-occur--more))))))))
    (unless (or (shown-p) live-occur--previewing)
      (setq live-occur--looking (cons live-occur--patterns t))
      (live-occur--with-part #'live-occur--look-between))
    (live-occur--wait-for #'shown-p)))

(defun live-occur--go-to-shown (preview hit)
  "Go to HIT in the window of PREVIEW, and to its row here."
  (let* ((source (live-occur--hit-source hit))
         (buffer (live-occur--visited-buffer source))
         (window (live-occur--preview-window preview))
         (place (and (window-live-p window) (car (live-occur--place-of hit t)))))
    (when place
      (with-selected-window window
        (unless (eq (current-buffer) buffer) (switch-to-buffer buffer nil t))
        (unless (= (point) place)
          (push-mark nil t)
          (goto-char place))
        (live-occur--unfold t)
        (run-hooks 'live-occur-visit-hook))
      (setq live-occur--wanted
            (make-live-occur--hit :source source :place (live-occur--line-of hit t)))
      (unless (or live-occur--asked live-occur--due live-occur--slice live-occur--previewing)
        (live-occur--go-to-wanted)))))

(defun live-occur--go-to-wanted ()
  "Go to the row of the hit that is wanted here, if there is one."
  (when-let* ((hit (and (not live-occur--page) (cl-shiftf live-occur--wanted nil))))
    (live-occur--go-to-spots
     `((,hit 0 nil ,(lambda (_ place) (live-occur--move-windows place)))))))

;;;; A list of a region

;; The program has the whole buffer, and hits outside of the region are left out.  Its first line
;; is the first one that begins at the marker `from' or after it, and the line that has the marker
;; `to' follows the last one.

(defun live-occur--limit (source start end)
  "List the lines of SOURCE from START to END alone."
  (live-occur--in-text source
    (goto-char end)
    (unless (and (bolp) (< start end)) (forward-line 1))
    (setf (live-occur--to source) (and (bolp) (copy-marker (point) t)))
    (goto-char start)
    (setf (live-occur--from source) (copy-marker (line-beginning-position)))))

(defun live-occur--region ()
  "The source of this list if a region of it is listed, or nil."
  (when-let* ((source (car live-occur--sources))) (and (live-occur--from source) source)))

(defun live-occur--bounds (source)
  "The first line of the region of SOURCE, and the first one after it."
  (live-occur--in-text source
    (goto-char (live-occur--from source))
    (let ((first (- (line-number-at-pos) (if (bolp) 1 0))) (to (live-occur--to source)))
      (cons first (if to (max first (1- (line-number-at-pos to))) most-positive-fixnum)))))

(defun live-occur--clip (bounds)
  "Leave out the hits of this list outside of BOUNDS, unless they are nil."
  (pcase bounds
    (`(,from . ,to)
     (pcase-let* ((source (car live-occur--sources))
                  (`(,head . ,rest) (live-occur--cut (live-occur--pieces source) from))
                  (`(,kept . ,tail) (live-occur--cut rest to))
                  (before (live-occur--count head)))
       (setf (live-occur--pieces source) kept)
       (live-occur--replace-rows (+ before (live-occur--count kept)) (live-occur--count tail) 0)
       (live-occur--replace-rows 0 before 0)))))

;;;; Syntax and flags

(defun live-occur--settings ()
  "How patterns are read here: syntax, flags, and whether the case is smart."
  (list live-occur-syntax live-occur-flags live-occur-smart-case))

(defun live-occur--use (settings)
  "Read patterns by SETTINGS, as `live-occur--settings' has them, from now on."
  (cl-mapc #'set '(live-occur-syntax live-occur-flags live-occur-smart-case) settings))

(defun live-occur--set (syntax flags smart)
  "Read patterns by SYNTAX, FLAGS and SMART case, or tell what is refused."
  (live-occur--check)
  (let ((old (live-occur--settings)) done)
    (live-occur--use (list syntax flags smart))
    (unwind-protect
        (let ((refused (unless live-occur--typing
                         (live-occur--refused
                          (live-occur--put live-occur--patterns)
                          (string-join live-occur--patterns "\n")))))
          (if refused (message "%s" refused) (setq done t)))
      (unless done (live-occur--use old)))))

(defun live-occur--refused (fault text)
  "What to tell of FAULT in the patterns TEXT, or nil where there is none."
  (pcase (live-occur--fault-in-text fault text 0)
    (`(,kind ,place)
     (let ((text (concat text (when (= place (length text)) " "))))
       (add-face-text-property place (1+ place) 'live-occur-fault nil text)
       (format "%s at %d: %s" kind place text)))))

(defun live-occur-basic ()
  "Read the patterns as basic regular expressions."
  (interactive nil live-occur-mode)
  (live-occur--set 'basic live-occur-flags live-occur-smart-case))

(defun live-occur-extended ()
  "Read the patterns as extended regular expressions."
  (interactive nil live-occur-mode)
  (live-occur--set 'extended live-occur-flags live-occur-smart-case))

(defun live-occur-fixed ()
  "Read the patterns as fixed strings."
  (interactive nil live-occur-mode)
  (live-occur--set 'fixed live-occur-flags live-occur-smart-case))

(defun live-occur--toggle (letter &optional smart)
  "Turn the flag LETTER on or off, and let the case be smart if SMART is t."
  (live-occur--set live-occur-syntax
                   (sort (cl-set-exclusive-or (list letter) live-occur-flags) #'<)
                   smart))

(defun live-occur--flags-for (patterns)
  "The flags of this list while it has PATTERNS."
  (let ((others (remq ?i live-occur-flags)) (escapes (not (eq live-occur-syntax 'fixed))))
    (cond ((not live-occur-smart-case) live-occur-flags)
          ((cl-loop for pattern in patterns always (isearch-no-upper-case-p pattern escapes))
           (cons ?i others))
          (t others))))

(defun live-occur-toggle-case (&optional smart)
  "Match both cases of letters, or no longer: flag i.
With a prefix argument SMART let it follow the patterns from now on, as
`live-occur-smart-case' says."
  (interactive "P" live-occur-mode)
  (if smart (live-occur--set live-occur-syntax live-occur-flags t) (live-occur--toggle ?i)))

(defun live-occur-toggle-inverse ()
  "List the lines that are not matched, or no longer: flag v."
  (interactive nil live-occur-mode)
  (live-occur--toggle ?v live-occur-smart-case))

(defun live-occur-toggle-whole-lines ()
  "Match whole lines alone, or no longer: flag x."
  (interactive nil live-occur-mode)
  (live-occur--toggle ?x live-occur-smart-case))

(defun live-occur-set-context (before after)
  "Show BEFORE lines before each that matches, and AFTER lines after it.
Where both numbers are 0 no other lines are shown."
  (interactive
   (list (read-number "Lines before: " (or (car live-occur-context) 0))
         (read-number "Lines after: " (or (cdr live-occur-context) 0)))
   live-occur-mode)
  (unless (and (natnump before) (natnump after))
    (user-error "A number of lines is 0 or more"))
  (setq live-occur-context (unless (= 0 before after) (cons before after)))
  (force-mode-line-update))

;;;; The list as a whole

(defun live-occur--header ()
  "The header line: what is set, and what is shown."
  (let ((rows (or (car live-occur--page) (live-occur--total)))
        (buffers (length live-occur--sources)))
    (string-replace
     "%" "%%"
     (propertize
      (concat
       " " (symbol-name live-occur-syntax)
       (and live-occur-smart-case ", smart case")
       (and live-occur-flags (concat " -" live-occur-flags))
       (pcase live-occur-context
         (`(,before . ,after) (format " -B %d -A %d" before after)))
       "  " (if live-occur--patterns
                (propertize (string-join live-occur--patterns "  ") 'face 'bold)
              "no pattern")
       "  " (if live-occur--fault
                (propertize live-occur--fault 'face 'error)
              (format "%d row%s, %d %s%s" rows (if (= rows 1) "" "s")
                      buffers (cond ((live-occur--region) "region")
                                    (live-occur--files "file")
                                    ("buffer"))
                      (if (= buffers 1) "" "s")))
       (live-occur--left-out)
       (and live-occur--more (not live-occur--fault) "  more to come")
       (and live-occur-edit-mode
            (substitute-command-keys "  \\<live-occur-edit-mode-map>\
rows are edited, \\[live-occur-edit-mode] ends it, \
\\[live-occur-abort-changes] gives it up")))
      'help-echo "In the list: C-h m describes the keys"))))

(defun live-occur-refresh (&rest _)
  "Bring the list up to date now, and read files again that have changed."
  (interactive nil live-occur-mode)
  (live-occur--check)
  (dolist (source live-occur--sources)
    (unless (live-occur--buffer source) (setf (live-occur--unread source) t)))
  (live-occur--update t))

(defun live-occur-restart ()
  "Start the program again.  The list stays as it is until that has reported."
  (interactive nil live-occur-mode)
  (live-occur--end)
  (setq live-occur--page (list (live-occur--total)) live-occur--kept t)
  (dolist (source live-occur--sources) (setf (live-occur--pieces source) nil))
  (live-occur--begin)
  (live-occur--update t))

(defun live-occur--list-p (buffer)
  "Whether BUFFER is a list."
  (buffer-local-value 'live-occur--process buffer))

(defun live-occur--add-sources (things)
  "Search THINGS in this list as well, which are buffers and names of files."
  (let ((sources (mapcar #'live-occur--new-source things)))
    (cl-callf append live-occur--sources sources)
    (when (length= live-occur--sources (1+ (length sources))) (live-occur--name-rows))
    (mapc #'live-occur--open sources)
    (live-occur--attach-visited)))

(defun live-occur--new-source (thing)
  "A new source of this list for THING, a buffer or the name of a file."
  (let ((source (make-live-occur--source :list (current-buffer) :tell #'live-occur--heard)))
    (cond ((stringp thing)
           (unless live-occur--files (setq live-occur--files (make-hash-table :test #'equal)))
           (puthash thing source live-occur--files)
           (setf (live-occur--file source) thing))
          ((live-occur--list-p thing) (user-error "%s is a list itself" (buffer-name thing)))
          (t (setf (live-occur--buffer source) thing)
             (push source live-occur--visited)
             (live-occur--track source)))
    source))

(defun live-occur--open (source)
  "Let SOURCE be one that the program doesn't have yet."
  (setf (live-occur--lines source) 0 (live-occur--opened source) nil
        (live-occur--state source) nil (live-occur--sent source) nil
        (live-occur--unread source) (not (live-occur--buffer source)))
  (when (or (live-occur--buffer source) (live-occur--first-edit source))
    (live-occur--lose source)))

(defun live-occur--close (source)
  "Take SOURCE out of this list."
  (when (live-occur--buffer source) (live-occur--untrack source))
  (cl-callf2 remq source live-occur--visited)
  (when live-occur--files (remhash (live-occur--file source) live-occur--files))
  (live-occur--replace-rows (live-occur--row-of-source source)
                            (live-occur--count (live-occur--pieces source)) 0)
  (let ((file (seq-position live-occur--sources source #'eq)))
    (setf (live-occur--pieces source) nil)
    (setq live-occur--sources (remq source live-occur--sources)
          live-occur--slice nil
          live-occur--due t)
    (when (length= live-occur--sources 1) (live-occur--name-rows))
    (when (live-occur--opened source) (live-occur--order (format "close %d\n" file)))))

(defun live-occur--discard ()
  "End the program of this list, which is killed."
  (cancel-timer live-occur--idle-timer)
  (mapc #'live-occur--untrack live-occur--visited)
  (live-occur--end))

(defun live-occur--source-of (buffer)
  "The source of this list that BUFFER is, or nil."
  (when-let* ((buffer (get-buffer buffer)))
    (cl-find buffer live-occur--sources :key #'live-occur--buffer)))

(defun live-occur-add-buffer (buffer)
  "Search BUFFER as well."
  (interactive "bSearch buffer: " live-occur-mode)
  (when (live-occur--source-of buffer) (user-error "%s is searched already" buffer))
  (when (live-occur--region) (user-error "The list of a region has no other buffers"))
  (live-occur--add-sources (list (get-buffer buffer)))
  (live-occur--want live-occur--patterns #'ignore))

(defun live-occur-remove-buffer (buffer)
  "Search BUFFER no longer, which may be what rows call it."
  (interactive
   (list (completing-read
          "Leave out buffer: "
          (mapcar #'live-occur--source-name live-occur--sources) nil t))
   live-occur-mode)
  (when-let* ((source (or (live-occur--source-of buffer)
                          (cl-find buffer live-occur--sources
                                   :key #'live-occur--source-name
                                   :test #'equal))))
    (live-occur--close source)
    (live-occur--want live-occur--patterns #'ignore)))

(defconst live-occur--commands
  '(("RET" live-occur-visit "Go to Line")
    ("SPC" live-occur-display "Show Line")
    ("n" live-occur-next "Next Row")
    ("p" live-occur-previous "Previous Row")
    ("f" next-error-follow-minor-mode "Show Lines as Point Moves"
     :style toggle :selected next-error-follow-minor-mode)
    ("e" live-occur-edit-mode "Edit Rows")
    ("s" live-occur-save "Save Buffers Changed in Rows" :active (live-occur--changed-buffers))
    ("a" live-occur-add-pattern "Add Pattern...")
    ("c" live-occur-change-pattern "Change Pattern..." :active live-occur--patterns)
    ("d" live-occur-drop-pattern "Drop Pattern..." :active live-occur--patterns)
    ("i" live-occur-toggle-case "Both Cases of Letters"
     :style toggle :selected (memq ?i live-occur-flags))
    ("v" live-occur-toggle-inverse "Lines That Don't Match"
     :style toggle :selected (memq ?v live-occur-flags))
    ("x" live-occur-toggle-whole-lines "Whole Lines"
     :style toggle :selected (memq ?x live-occur-flags))
    ("B" live-occur-basic "Basic Expressions"
     :style radio :selected (eq live-occur-syntax 'basic))
    ("E" live-occur-extended "Extended Expressions"
     :style radio :selected (eq live-occur-syntax 'extended))
    ("F" live-occur-fixed "Fixed Strings" :style radio :selected (eq live-occur-syntax 'fixed))
    ("C" live-occur-set-context "Lines Around...")
    ("+" live-occur-add-buffer "Add Buffer...")
    ("-" live-occur-remove-buffer "Leave Out Buffer...")
    ("g" live-occur-refresh "Bring Up to Date")
    ("r" live-occur-restart "Start the Program Again")
    ("q" quit-window "Hide List"))
  "Keys in lists by use, with their commands and what these are in the menu.")

(defvar live-occur-mode-map
  (let ((map (make-sparse-keymap)))
    (pcase-dolist (`(,key ,command . ,_)
                   `(("C-o" live-occur-display) ("o" live-occur-visit)
                     ("<mouse-2>" live-occur-visit) ("<follow-link>" mouse-face)
                     ("<remap> <save-buffer>" live-occur-save)
                     ("<remap> <read-only-mode>" live-occur-edit-mode)
                     ,@live-occur--commands))
      (define-key map (kbd key) command))
    map)
  "Keys in lists of `live-occur'.")

(easy-menu-define live-occur-menu live-occur-mode-map
  "Menu of lists of `live-occur'."
  (cons "Live-Occur"
        (mapcar (pcase-lambda (`(,_ ,command ,label . ,how)) `[,label ,command ,@how])
                live-occur--commands)))

(define-derived-mode live-occur-mode special-mode "Live-Occur"
  "A list of the lines that match, kept right while buffers are edited."
  :interactive nil
  (setq-local live-occur-syntax live-occur-syntax
              live-occur-smart-case live-occur-smart-case
              live-occur-context live-occur-context
              live-occur-flags (sort (copy-sequence live-occur-flags) #'<)
              revert-buffer-function #'live-occur-refresh
              next-error-function #'live-occur--next-error
              next-error-find-buffer-function (lambda (&rest _) (current-buffer))
              header-line-format '((:eval (live-occur--header)))
              filter-buffer-substring-function #'live-occur--copy
              imenu-create-index-function #'live-occur--imenu
              truncate-lines t buffer-undo-list t inhibit-field-text-motion t
              bidi-paragraph-direction 'left-to-right ; Emacs looks far back in empty rows
              gc-cons-threshold (max gc-cons-threshold 20000000) ; rows are much to look at
              live-occur--idle-timer
              (run-with-idle-timer live-occur-delay t #'live-occur--look (current-buffer)))
  (when live-occur-follow (next-error-follow-minor-mode))
  (add-hook 'kill-buffer-hook #'live-occur--discard nil t)
  (add-hook 'change-major-mode-hook #'live-occur--discard nil t)
  (add-hook 'isearch-mode-hook #'live-occur--make-all-rows nil t)
  (add-hook 'pre-redisplay-functions #'live-occur--make-in-view nil t))

;; A copy of a list would share its program.
(put 'live-occur-mode 'no-clone t)
(put 'live-occur-mode 'no-clone-indirect t)

;; The keys are described in this order, and not in that of the keymap.
(put 'live-occur-mode 'function-documentation
     (concat "A list of lines that match, kept right while buffers are edited.
\\<live-occur-mode-map>"
             (mapconcat (pcase-lambda (`(,_ ,command ,label . ,_))
                          (format "\n\\[%s]\t%s" command label))
                        live-occur--commands "")))

;;;; Editing rows

;; While rows are edited, each change of one is made in its line as well, and the list gets no
;; other rows.  Heads and newlines are read-only.  A head keeps the text that the row and its line
;; had last, so that a line that has changed otherwise is not overwritten.  At the end all rows
;; are looked at: one may have been changed without a report, or not been written then.

(defvar live-occur--giving-up nil "Whether an edit of rows is given up.")
(defvar-local live-occur--alone 0 "How many rows were edited alone at the end.")

(defmacro live-occur--for-all-rows (what &rest body)
  "Run BODY at each row, some at a time, and tell WHAT meanwhile."
  (declare (indent 1) (debug t))
  `(live-occur--in-steps
    ,what (live-occur--row-at (1+ (buffer-size)))
    (lambda (first count)
      (live-occur--at-row first
        (dotimes (_ count)
          ,@body
          (forward-line 1))))))

(define-minor-mode live-occur-edit-mode
  "Edit the rows of this list, and with each its line.
Undo works in the list, and in the buffers."
  :lighter " Edit"
  :interactive (live-occur-mode)
  :keymap `((,(kbd "C-c C-c") . live-occur-edit-mode)
            (,(kbd "C-c C-k") . live-occur-abort-changes)
            (,(kbd "C-c C-o") . live-occur-display)
            ([remap read-only-mode] . live-occur-edit-mode)
            ([remap save-buffer] . live-occur-save))
  (let ((on live-occur-edit-mode))
    (setq live-occur-edit-mode (not on) live-occur--alone 0)
    (cond (on
           (live-occur--update)
           (when (live-occur--busy-p) (message "Rows are edited once all lines are searched"))
           (live-occur--wait-for (lambda () (not (live-occur--busy-p))))
           (live-occur--check)
           (live-occur--make-all-to-edit))
          ((not live-occur--giving-up)
           (live-occur--for-all-rows "Looking at all rows..."
             (unless (live-occur--write-row) (cl-incf live-occur--alone)))))
    (setq live-occur-edit-mode on
          buffer-read-only (not on)
          buffer-undo-list (not on))
    (use-local-map (unless on live-occur-mode-map))
    (if on
        (add-hook 'after-change-functions #'live-occur--row-changed nil t)
      (remove-hook 'after-change-functions #'live-occur--row-changed t)
      (set-buffer-modified-p nil)
      (live-occur--unmodify)
      (live-occur--show-hits)
      (live-occur--update)
      (live-occur--tell-alone))))

(easy-menu-define live-occur-edit-menu live-occur-edit-mode-map
  "Menu of lists whose rows are edited."
  '("Live-Occur"
    ["Go to Line" live-occur-display]
    ["End Edit" live-occur-edit-mode]
    ["End Edit and Save" live-occur-save]
    ["Give Changes Up" live-occur-abort-changes]))

(defun live-occur--make-all-to-edit ()
  "Make all rows to edit them, unless they are too many for the user.
Where that is quit the list is as before."
  (let ((total (live-occur--total)) done)
    (unless (or (<= total live-occur-idle-rows)
                (yes-or-no-p (format "Make all %d rows to edit them? " total)))
      (user-error "The rows are not edited"))
    (setq live-occur--held t)
    (unwind-protect
        (progn
          (live-occur--in-steps
           "Making rows to edit them..." total
           (lambda (first count)
             (live-occur--make-rows first count)
             (with-silent-modifications
               (live-occur--map-rows #'live-occur--protect-row first count))))
          (setq done t))
      (setq live-occur--held nil)
      (unless done (live-occur--show-hits)))))

(defun live-occur--in-steps (what total function)
  "Call FUNCTION with the first one and the number of some of TOTAL things.
Between the calls tell WHAT with how far it is, and do what else there is."
  (let ((reporter (make-progress-reporter what 0 total)) (first 0) (some 100))
    (while (< first total)
      (funcall function first (min some (- total first)))
      (progress-reporter-update reporter (cl-incf first some))
      (sit-for 0))
    (progress-reporter-done reporter)))

(defun live-occur--protect-row (hit)
  "Make the head and the newline of the row of HIT at point read-only.
All of it is where its buffer is read-only, or its text is shortened."
  (let* ((buffer (live-occur--buffer (live-occur--hit-source hit)))
         (head (live-occur--after-head))
         (end (line-end-position))
         (short (get-text-property head 'live-occur-short))
         (text (unless short (live-occur--row-text)))
         (why (cond ((and buffer (buffer-local-value 'buffer-read-only buffer))
                     (format "buffer %s" (buffer-name buffer)))
                    (short "a row that is shortened"))))
    (setf (live-occur--hit-text hit) text (live-occur--hit-first hit) text)
    (add-text-properties (point) head
                         `(read-only ,(or why "the head of a row") live-occur-hit ,hit
                           front-sticky (read-only) rear-nonsticky ,(not why)))
    (put-text-property (if why head end) (1+ end) 'read-only (or why "the end of a row"))))

(defun live-occur--row-changed (start end removed)
  "Make the change of rows from START to END in their lines as well.
What came in the place of REMOVED characters becomes plain text of one line."
  (live-occur--in-hook
    (save-match-data
      ;; Heads and ends of rows are read-only; what is new may be a copy of one.
      (when (or (= removed 0) (not (text-property-not-all start end 'read-only nil)))
        (with-silent-modifications
          (subst-char-in-region start end ?\n ?\s t)
          (set-text-properties start end nil)))
      (live-occur--at-row-start start
        (while (progn
                 (unless (live-occur--write-row) (cl-incf live-occur--alone))
                 (forward-line 1)
                 (< (point) end)))))))

(defun live-occur--tell-alone ()
  "Tell of rows that were edited, and not their lines, if there are any."
  (unless (= live-occur--alone 0)
    (message "%d row%s not written: the line is gone, can't be edited, \
or was edited in its buffer"
             live-occur--alone (if (= live-occur--alone 1) " is" "s are"))))

(defun live-occur--write-row ()
  "Make what changed of the row at point in its line as well, or tell why not.
Answer whether the row and its line are the same."
  (let* ((hit (get-text-property (point) 'live-occur-hit))
         (old (and hit (live-occur--hit-text hit)))
         (text (and old (live-occur--row-text))))
    ;; A line of the list with text, and without a head, is no row.
    (cond ((not hit) (or (eolp) (get-text-property (point) 'live-occur-number)))
          ((equal old text))
          (t (condition-case problem
                 (or (with-local-quit
                       (live-occur--change-line hit old text)
                       (live-occur--note-text hit text)
                       t)
                     (user-error "Quit"))
               (error (message "%s; the row alone is edited"
                               (error-message-string problem))
                      nil))))))

(defun live-occur--row-text ()
  "The text of the row at point."
  (buffer-substring-no-properties (live-occur--after-head) (line-end-position)))

(defun live-occur--change-line (hit old new)
  "Put the text NEW in the place of OLD in the line of HIT, or signal an error.
Take note of its buffer, with its text if it wasn't modified."
  (let* ((buffer (live-occur--visited-buffer (live-occur--hit-source hit)))
         (before (live-occur--in buffer
                   (list (live-occur--base buffer) (live-occur--visited-state)
                         (unless (buffer-modified-p) (buffer-hash)))))
         (noted (assq (car before) live-occur--touched))
         (changed (live-occur--changed-p noted)))
    (unless (live-occur--at-line-of hit
              (when buffer-read-only (user-error "Buffer %s is read-only" (buffer-name)))
              (unless (and (live-occur--line-of hit nil t) (live-occur--line-is-p old))
                (user-error "The line of this row in %s is gone, \
or was edited there" (buffer-name)))
              (let ((inhibit-modification-hooks nil)) (live-occur--replace old new))
              t)
      (user-error "The buffer of this row is gone"))
    (unless changed (setq live-occur--touched (cons before (delq noted live-occur--touched))))))

(defun live-occur--line-is-p (text)
  "Whether TEXT, which may be nil, is what is from point to the line's end."
  (equal text (live-occur--text-after-point (1+ (length text)))))

(defun live-occur--replace (old new)
  "Put the text NEW in the place of OLD, which is after point.
What they have in common at both ends stays, so that point and markers do."
  (let* ((front (live-occur--same old new))
         (back (live-occur--same (reverse (substring old front)) (reverse (substring new front)))))
    (save-excursion
      (forward-char front)
      (delete-char (- (length old) front back))
      (insert (substring new front (- (length new) back))))))

(defun live-occur--same (old new)
  "How many characters OLD and NEW have in common at their beginnings."
  (let ((same (compare-strings old nil nil new nil nil)))
    (if (eq same t) (length old) (1- (abs same)))))

(defun live-occur--follow-lines ()
  "Bring rows in view up to date with their lines, and show their numbers.
Undo knows places in the text, so numbers in that stay."
  (add-hook 'after-change-functions #'live-occur--row-changed nil t)
  (dolist (window (get-buffer-window-list nil nil t))
    (live-occur--at-row-start (window-start window)
      (dotimes (_ (window-body-height window))
        (when-let* ((hit (get-text-property (point) 'live-occur-hit)))
          (live-occur--follow-line hit)
          (let ((old (get-text-property (point) 'live-occur-number))
                (new (1+ (live-occur--line-of hit)))
                (end (1- (live-occur--after-head))))
            (with-silent-modifications
              (put-text-property (- end (length (number-to-string old))) end
                                 'display (unless (= old new) (number-to-string new))))))
        (forward-line 1)))))

(defun live-occur--follow-line (hit)
  "Bring the row of HIT at point up to date, unless its line is gone or too long.
A row that is far too long itself, as it was edited so, stays as it is."
  (when-let* ((old (live-occur--hit-text hit))
              ((live-occur--line-of hit nil t))
              (most (max live-occur-max-columns (length old)))
              ((<= most (* 10 live-occur-max-columns)))
              (new (live-occur--at-line-of hit (live-occur--text-after-point (1+ most)))))
    (when (and (not (equal new old)) (not (length> new most)) (equal old (live-occur--row-text)))
      (let ((inhibit-modification-hooks t) (inhibit-read-only t))
        (save-excursion
          (goto-char (live-occur--after-head))
          (live-occur--replace old new)))
      (live-occur--note-text hit new t))))

;;;; What edits of rows have changed

;; Each row keeps the text that its line had before, so that its changes can be given up.  The
;; buffers are kept until they are saved.

(defun live-occur--visited-state ()
  "What is another value once this buffer was saved, or visits another file."
  (list buffer-file-name (visited-file-modtime) buffer-file-coding-system))

(defun live-occur--changed-p (touched)
  "Whether the buffer of TOUCHED is modified, and wasn't saved since."
  (pcase-let ((`(,buffer ,state . ,_) touched))
    (live-occur--in buffer
      (and (buffer-modified-p) (equal state (live-occur--visited-state))))))

(defun live-occur--changed-buffers ()
  "The buffers that rows have changed, as far as they are to be saved."
  (cl-callf2 cl-remove-if-not #'live-occur--changed-p live-occur--touched))

(defun live-occur--unmodify ()
  "Mark touched buffers as not modified if their text is what it was then."
  (pcase-dolist (`(,buffer ,_ ,hash) (live-occur--changed-buffers))
    (with-current-buffer buffer
      (when (and hash (verify-visited-file-modtime) (equal hash (buffer-hash)))
        (set-buffer-modified-p nil)))))

(defun live-occur--note-text (hit text &optional followed)
  "Keep that the row of HIT at point and its line have TEXT, and mark what changed.
Changes are given up to the text that was the first.  If the row FOLLOWED its
line that is this one, and what rows changed before stays."
  (when followed
    (unless (equal (live-occur--hit-first hit) (live-occur--hit-text hit))
      (setf (live-occur--hit-stays hit) t))
    (setf (live-occur--hit-first hit) text))
  (setf (live-occur--hit-text hit) text)
  ;; Overlays would be slow where they are many.
  (let ((at (point)) (end (live-occur--after-head)))
    (with-silent-modifications
      (while (< at end)
        (let ((next (next-single-property-change at 'face nil end))
              (face (car (last (ensure-list (get-text-property at 'face))))))
          (put-text-property at next 'face
                             (if (equal (live-occur--hit-first hit) text) face
                               (list 'live-occur-changed face)))
          (setq at next))))))

(defun live-occur-abort-changes ()
  "End the edit of rows, and give up all that it has changed.
What was edited in the buffers themselves stays."
  (interactive nil live-occur-mode)
  (unless live-occur-edit-mode (user-error "No rows are edited"))
  (let ((steps (cl-loop for (buffer) in live-occur--touched
                        nconc (live-occur--in buffer
                                (undo-boundary)
                                (prepare-change-group))))
        (stay 0) (live-occur--giving-up t))
    (unwind-protect
        (live-occur--for-all-rows "Giving changes up..."
          (unless (live-occur--put-back) (cl-incf stay)))
      (undo-amalgamate-change-group steps))
    (live-occur-edit-mode -1)
    (message (pcase stay
               (0 "The rows and their lines are as they were")
               (1 "1 line stays changed: it was edited in its buffer, too")
               (_ "%d lines stay changed: they were edited in their buffers, \
too"))
             stay)))

(defun live-occur--put-back ()
  "Undo what was changed in the row at point, and answer whether all of it was."
  (pcase (get-text-property (point) 'live-occur-hit)
    ((and hit (cl-struct live-occur--hit source text first stays))
     (and (or (equal first text)
              (not (buffer-live-p (live-occur--buffer source)))
              (ignore-errors
                (live-occur--change-line hit text first)
                (live-occur--note-text hit first)
                t))
          (not stays)))
    (_ t)))

(defun live-occur-save ()
  "Save the buffers of which lines were changed in rows.
An edit of rows is ended before that."
  (interactive nil live-occur-mode)
  (setq live-occur--alone 0)
  (when live-occur-edit-mode (live-occur-edit-mode -1))
  (let ((buffers (mapcar #'car (live-occur--changed-buffers))))
    (save-some-buffers t (lambda () (memq (current-buffer) buffers)))
    (cl-callf2 seq-remove #'buffer-modified-p buffers)
    (message "Saved: %s" (if buffers (mapconcat #'buffer-name buffers ", ") "nothing")))
  (live-occur--tell-alone))

;;;; Commands to begin a list

(defun live-occur--list-of (buffer)
  "The list of BUFFER alone that was used last, or nil.
One whose rows are edited is left alone."
  (cl-find-if (lambda (list)
                (and (live-occur--list-p list)
                     (with-current-buffer list
                       (and (length= live-occur--sources 1)
                            (live-occur--source-of buffer)
                            (not (live-occur--region))
                            (not live-occur-edit-mode)))))
              (buffer-list)))

(defun live-occur--fill (list things pattern &optional region settings)
  "Let LIST search for PATTERN by SETTINGS, or for one that is asked for.
Without a LIST a new one is made for THINGS, or for the REGION of the first one.
If that is broken off, LIST is again as it was, and a new one is killed."
  (let* ((new (not list))
         ;; A new one is named by its buffers.
         (list (or list
                   (generate-new-buffer
                    (format "*Live Occur: %s*"
                            (cond ((cl-some #'stringp things)
                                   (file-name-nondirectory
                                    (directory-file-name default-directory)))
                                  ((cdr things) (format "%d buffers" (length things)))
                                  (t (buffer-name (car things))))))))
         (old (with-current-buffer list (live-occur--settings)))
         (window (get-buffer-window list t)) done)
    (unwind-protect
        (progn
          (with-current-buffer list
            (cond (new (live-occur-mode)
                       (live-occur--begin)
                       (live-occur--add-sources things)
                       (when region
                         (live-occur--limit (car live-occur--sources) (car region) (cdr region))))
                  (live-occur--fault (live-occur-restart)))
            (when settings (live-occur--use settings))
            (when-let* ((refused (and pattern
                                      (live-occur--refused
                                       (live-occur--put (split-string pattern "\n"))
                                       pattern))))
              (user-error "%s" refused)))
          (unless pattern
            (when live-occur-typing-delay (live-occur--show list))
            (live-occur--ask list nil))
          (setq done t))
      (unless done
        (unless window
          (when-let* ((window (get-buffer-window list t)))
            (quit-restore-window window (if new 'kill 'bury))))
        (if new (kill-buffer list) (live-occur--in list (live-occur--use old)))))
    (setq next-error-last-buffer list)
    (live-occur--show list)
    list))

(defun live-occur--show (list)
  "Show LIST, and not in this window if there is another one.
This window may have shown it before."
  (display-buffer list (unless (one-window-p t) '(nil (inhibit-same-window . t)))))

(defun live-occur--accessible ()
  "What is accessible of this buffer, a pair, if that alone is to be listed."
  (and live-occur-narrowed (buffer-narrowed-p) (cons (point-min) (point-max))))

;;;###autoload
(defun live-occur (&optional pattern buffers another region)
  "List the lines of the current buffer that match a pattern.
The list is kept right while the buffer is edited.  Where there is a list of
this buffer alone it is used again, but with a prefix argument ANOTHER one is
made.  Of an active region, the pair REGION, its lines alone are listed, in
a new list.  From Lisp, PATTERN and BUFFERS are what is searched for, and
where: buffers, and full names of files.  A new list is made for either, and the
answer is its buffer.

In a list its pattern is changed.

A pattern is one of POSIX grep, in the syntax that `live-occur-syntax' says,
or several of them, one a line.  The whole text of each buffer is searched,
whatever it is narrowed to, unless `live-occur-narrowed' says otherwise."
  (interactive (list nil nil current-prefix-arg
                     (and (use-region-p)
                          (not (live-occur--list-p (current-buffer)))
                          (cons (region-beginning) (region-end)))))
  (let ((here (current-buffer)) (region (or region (and (not buffers) (live-occur--accessible)))))
    (cond ((or pattern buffers (not (live-occur--list-p here)))
           (when region (deactivate-mark))
           (live-occur--fill (unless (or pattern buffers another region)
                               (live-occur--list-of here))
                             (or buffers (list here)) pattern region))
          (live-occur-edit-mode (user-error "End the edit of rows first"))
          (t (call-interactively (if live-occur--patterns
                                     #'live-occur-change-pattern
                                   #'live-occur-add-pattern))
             here))))

;;;###autoload
(defun live-occur-in-buffers (names)
  "List the lines that match in the buffers of NAMES, which are asked for.
Each is that of a buffer, or of a major mode for its buffers, or else a regexp
for the names of buffers."
  (interactive
   (list (completing-read-multiple
          "Buffers, modes or regexps: "
          (append (mapcar #'buffer-name (buffer-list))
                  (seq-uniq (mapcar (lambda (buffer)
                                      (symbol-name (buffer-local-value 'major-mode buffer)))
                                    (buffer-list)))))))
  (live-occur--in-things
   (seq-remove (lambda (buffer)
                 (or (string-prefix-p " " (buffer-name buffer)) (live-occur--list-p buffer)))
               (seq-uniq (mapcan #'live-occur--buffers-of names)))))

(defun live-occur--buffers-of (name)
  "The buffers of NAME, as `live-occur-in-buffers' has it."
  (if-let* ((buffer (get-buffer name)))
      (list buffer)
    (seq-filter (lambda (buffer)
                  (with-current-buffer buffer
                    (if (string-suffix-p "-mode" name)
                        (derived-mode-p (intern name))
                      (string-match-p name (buffer-name)))))
                (buffer-list))))

(defun live-occur--in-things (things)
  "List lines of THINGS, buffers and names of files, if there are any."
  (live-occur nil (or things (user-error "There is no such buffer or file"))))

;;;###autoload
(defun live-occur-in-project ()
  "List the lines that match in the files of the current project.
Those that aren't open are read from the disk while you type; that goes on in
the list, and ends with it.  A file is visited where its row is visited or
edited."
  (interactive)
  (let* ((project (project-current t))
         (default-directory (expand-file-name (project-root project))))
    (live-occur--in-things (project-files project))))

;;;###autoload
(defun live-occur-in-dired ()
  "List the lines that match in the marked files of this Dired buffer."
  (interactive nil dired-mode)
  (live-occur--in-things (seq-filter #'file-regular-p (dired-get-marked-files))))

;;;###autoload
(defun live-occur-isearch ()
  "List the lines that match what is searched for.
A regexp, and what isearch makes one of, is translated into an extended regular
expression, and any other text is a fixed string."
  (interactive)
  (when (string-search "\n" isearch-string)
    (user-error "A list has lines, and what is searched for has several"))
  (let* ((here (current-buffer))
         (region (live-occur--accessible))
         (regexp (cond ((functionp isearch-regexp-function)
                        (funcall isearch-regexp-function isearch-string))
                       (isearch-regexp-function (word-search-regexp isearch-string))
                       (isearch-regexp isearch-string)))
         (pattern (if regexp (live-occur--from-regexp regexp) isearch-string)))
    (isearch-done)
    (live-occur--fill (cond ((live-occur--list-p here) here)
                            ((not region) (live-occur--list-of here)))
                      (list here) pattern region
                      (list (if regexp 'extended 'fixed)
                            (and isearch-case-fold-search '(?i)) nil))))

(defun live-occur--from-regexp (regexp)
  "REGEXP as an extended regular expression, or signal an error.
Of repetitions that aren't greedy the lines are the same."
  (with-temp-buffer
    (insert regexp)
    (goto-char (point-min))
    (let ((first t) all)
      (while (not (eobp))
        (push (live-occur--next-of-regexp first) all)
        (setq first (member (car all) '("(" "|" "^"))))
      (apply #'concat (nreverse all)))))

(defun live-occur--next-of-regexp (first)
  "What is at point of a regexp, for an extended expression; move over it.
FIRST says whether an item begins there, which nothing can repeat."
  (cl-flet ((found (regexp) (when (looking-at regexp) (goto-char (match-end 0)))))
    (cond ((found "\\\\(\\(?:\\?[0-9]*:\\)?") "(")
          ((found "\\\\\\([|)]\\)") (match-string 1))
          ((found "\\\\{\\([0-9,]*\\)\\\\}")
           (format "{%s}" (match-string 1)))
          ((found "\\\\\\([^[:alnum:]_<>`'={}]\\)") (live-occur--quoted (match-string 1) 'extended))
          ((looking-at "\\\\_?.?")
           (user-error "%s in a regexp can't be said in a pattern of lines" (match-string 0)))
          ((and (not first) (found "\\([*+?]\\)\\??")) (match-string 1))
          ((found "\\[\\^?]?\\(?:\\[:[a-z]+:]\\|[^]]\\)*]") (match-string 0))
          ((and first (found "\\^")) "^")
          ((found "\\$\\(?:\\'\\|\\(?:\\\\[|)]\\)\\)")
           (goto-char (1+ (match-beginning 0)))
           "$")
          ((found "\\.") ".")
          (t (forward-char) (live-occur--quoted (string (char-before)) 'extended)))))

(provide 'live-occur)

;;; live-occur.el ends here
