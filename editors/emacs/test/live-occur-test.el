;;; live-occur-test.el --- Tests of live-occur  -*- lexical-binding: t; -*-

;; SPDX-License-Identifier: MIT OR Apache-2.0

;;; Commentary:

;; Run by `make test-editor', against the built programs, which the variables
;; OCCUR and GREP of the environment name.

;;; Code:

(require 'ert)
(require 'live-occur)
(require 'autorevert)
(require 'checkdoc)
(require 'dired)
(require 'lisp-mnt)
(require 'project)

(setq live-occur-program (or (getenv "OCCUR") "occur"))

(defvar live-occur-test--grep (or (getenv "GREP") "grep")
  "The program whose rows the lists are compared with.")

;;;; Helpers

(defun live-occur-test--wait ()
  "Wait until all replies of this list have come."
  (with-timeout (20 (error "A reply does not come"))
    (while (live-occur--busy-p)
      (accept-process-output nil 0.02))))

(defun live-occur-test--rows (list)
  "The rows of LIST, brought up to date."
  (with-current-buffer list
    (live-occur--update)
    (live-occur-test--wait)
    (live-occur--make-rows 0 (live-occur--total))
    (live-occur--show-around 0 (live-occur--total))
    (live-occur-test--text-shown)))

(defun live-occur-test--text-shown ()
  "The text of this list with the lines around rows, as it is drawn."
  (dolist (window (get-buffer-window-list nil nil t))
    (run-hook-with-args 'pre-redisplay-functions window))
  (save-excursion
    (goto-char (point-min))
    (let (all)
      (while (not (eobp))
        (let ((around (cl-find-if (lambda (overlay) (overlay-get overlay 'live-occur-around))
                                  (overlays-in (point) (line-beginning-position 2)))))
          (push (or (and around (overlay-get around 'before-string)) "") all)
          (push (buffer-substring-no-properties (point) (line-beginning-position 2)) all)
          (push (or (and around (overlay-get around 'after-string)) "") all))
        (forward-line 1))
      (substring-no-properties (apply #'concat (nreverse all))))))

(defun live-occur-test--mark (list)
  "The places of parts in each row of LIST."
  (live-occur-test--rows list)
  (with-current-buffer list
    (save-excursion
      (goto-char (point-min))
      (let (all)
        (while (not (eobp))
          (let ((at (next-single-property-change (point) 'live-occur-number)) parts)
            (while (and (< at (line-end-position))
                        (setq at (text-property-any at (line-end-position)
                                                    'face 'live-occur-match)))
              (let ((end (next-single-property-change at 'face nil (line-end-position))))
                (push (- at (line-beginning-position)) parts)
                (push (buffer-substring-no-properties at end) parts)
                (setq at end)))
            (push (nreverse parts) all))
          (forward-line 1))
        (nreverse all)))))

(defun live-occur-test--buffers (texts)
  "New buffers called a, b and so on that hold TEXTS."
  (cl-loop for text in texts
           for letter from ?a
           collect (with-current-buffer (generate-new-buffer (string letter))
                     (insert text)
                     (set-buffer-modified-p nil)
                     (buffer-enable-undo)
                     (current-buffer))))

(defmacro live-occur-test--with (texts &rest body)
  "Run BODY with BUFFERS that hold TEXTS and, A being the first, in it.
All buffers and processes that it makes are taken away after it."
  (declare (indent 1) (debug t))
  `(let* ((before (buffer-list))
          (buffers (live-occur-test--buffers ,texts))
          (a (car buffers))
          (live-occur-syntax 'basic)
          (live-occur-flags nil)
          (live-occur-context nil)
          (inhibit-message t))
     (ignore a)
     (unwind-protect
         (with-current-buffer a ,@body)
       (dolist (buffer (buffer-list))
         (unless (memq buffer before)
           (when (buffer-live-p buffer)
             (with-current-buffer buffer
               (set-buffer-modified-p nil))
             (let ((kill-buffer-query-functions nil))
               (kill-buffer buffer))))))))

(defun live-occur-test--answers (&rest answers)
  "A function in the place of `read-from-minibuffer' that gives ANSWERS."
  (lambda (&rest _) (or (pop answers) (error "Asked too often"))))

(defun live-occur-test--line-of (hit)
  "The text of the line of HIT as it is now."
  (live-occur--at-line-of hit
    (live-occur--text-after-point)))

(defun live-occur-test--first-column (hit)
  "How many characters of the line of HIT are before its first part."
  (live-occur--at-line-of hit
    (- (car (live-occur--place-of hit)) (point))))

(defun live-occur-test--tell (&rest words)
  "Tell WORDS, as `message' does, though messages may be off."
  (let ((inhibit-message nil))
    (apply #'message words)))

(defun live-occur-test--go-to-row (row)
  "Move to the row of number ROW, from 0."
  (goto-char (live-occur--at-row row (point))))

(defun live-occur-test--at (list row)
  "Move to ROW of LIST, from 1, there and in its windows."
  (with-current-buffer list
    (live-occur-test--go-to-row (1- row))
    (dolist (window (get-buffer-window-list nil nil t))
      (set-window-point window (point)))))

(defmacro live-occur-test--with-program (script &rest body)
  "Run BODY where the program is a shell SCRIPT, in which %s is the one under test."
  (declare (indent 1) (debug t))
  `(let* ((program (make-temp-file "live-occur" nil nil
                                   (format (concat "#!/bin/sh\n" ,script)
                                           (executable-find live-occur-program))))
          (live-occur-program program))
     (set-file-modes program #o700)
     (unwind-protect (progn ,@body)
       (delete-file program))))

(defmacro live-occur-test--commands (&rest body)
  "Run BODY, and list the commands that are sent meanwhile, with their lines."
  (declare (indent 0) (debug t))
  `(let (sent)
     (cl-letf* ((send (symbol-function 'process-send-string))
                ((symbol-function 'process-send-string)
                 (lambda (process text)
                   ;; Lines are sent after their command, and a last newline after them.
                   (if (string-match-p "\\`\\(splice\\|patterns\\)[^\n]* [1-9][0-9]*\n?\\'\\|[^\n]\\'"
                                       (or (car sent) "\n"))
                       (setcar sent (concat (car sent) text))
                     (push text sent))
                   (funcall send process text))))
       ,@body)
     (nreverse sent)))

(defmacro live-occur-test--in-pieces (&rest body)
  "Run BODY where texts are sent in small pieces, of a few lines."
  (declare (indent 0) (debug t))
  `(let ((live-occur--block 60) (live-occur--slice-lines 7))
     ,@body))

;;;; Stalls

;; Each test fails where Emacs doesn't answer for too long.  In batch mode no
;; timer ticks between two calls, so what is measured is what the client does
;; before it gives the word back.  It gets the word by a command, a timer, the
;; filter or the sentinel of a process, or a hook: `live-occur-test--entries',
;; and all commands.  It gives it back where that returns, or where it waits so
;; that the user can quit.  What can't be quit, as a pipe that is full, counts as
;; work.  On a loaded machine all takes longer, so the time that Emacs had a
;; processor counts, and of all time three tenths: for the default of
;; `live-occur-test--stall', a stall is 0.3 s of work, or 1 s in all.  Time to
;; collect garbage doesn't count, since ERT keeps so much of it.

(defvar live-occur-test--stall (string-to-number (or (getenv "STALL") "0.3"))
  "For how many seconds Emacs may not answer.")

(defconst live-occur-test--entries
  '(timer-event-handler command-execute
    live-occur--read live-occur--ended live-occur--look live-occur--try
    live-occur--write-part live-occur--before live-occur--after
    live-occur--make-in-view live-occur--row-changed live-occur--update
    live-occur--step live-occur--put live-occur--set live-occur--next-error
    live-occur--header live-occur--discard)
  "Functions by which the client gets the word, beside its commands.")

(defconst live-occur-test--waits
  '(accept-process-output sit-for sleep-for read-from-minibuffer)
  "Functions in which Emacs answers.")

(defvar live-occur-test--since nil
  "The time since which Emacs doesn't answer, and that of its processor, or nil.")
(defvar live-occur-test--longest nil "The longest stall, and where it was.")

(defun live-occur-test--now ()
  "The time, and that which Emacs had a processor, without that of the collector."
  (cons (- (float-time) gc-elapsed)
        (- (float-time (get-internal-run-time)) gc-elapsed)))

(defun live-occur-test--answered (where)
  "Note how long Emacs didn't answer before this, which is WHERE."
  (pcase-let* ((`(,wall . ,work) (live-occur-test--now))
               (stall (max (- work (cdr live-occur-test--since))
                           (* 0.3 (- wall (car live-occur-test--since))))))
    (when (> stall (car live-occur-test--longest))
      (setq live-occur-test--longest (list stall where)))))

(defun live-occur-test--entered (name function &rest words)
  "Call FUNCTION, of this NAME, with WORDS, and note how long it takes."
  (if live-occur-test--since
      (apply function words)
    (setq live-occur-test--since (live-occur-test--now))
    (unwind-protect (apply function words)
      (live-occur-test--answered name)
      (setq live-occur-test--since nil))))

(defun live-occur-test--waited (name function &rest words)
  "Call FUNCTION, of this NAME, with WORDS: Emacs answers meanwhile."
  (if (or inhibit-quit (not live-occur-test--since))
      (apply function words)
    (live-occur-test--answered (list 'before name))
    (unwind-protect
        (let ((live-occur-test--since nil))
          (apply function words))
      (setq live-occur-test--since (live-occur-test--now)))))

(defun live-occur-test--watched-functions ()
  "The functions to watch, each with what is put around it."
  (let (all)
    (mapatoms (lambda (symbol)
                (when (and (string-match-p "\\`live-occur\\(-[a-z]\\|\\'\\)" (symbol-name symbol))
                           (commandp symbol))
                  (push (cons symbol #'live-occur-test--entered) all))))
    (append all
            (mapcar (lambda (symbol) (cons symbol #'live-occur-test--entered))
                    live-occur-test--entries)
            (mapcar (lambda (symbol) (cons symbol #'live-occur-test--waited))
                    live-occur-test--waits))))

(defun live-occur-test--longest-stall (body)
  "Call BODY, and answer the longest stall meanwhile, and where it was."
  (let ((functions (live-occur-test--watched-functions))
        (live-occur-test--longest '(0))
        (live-occur-test--since nil))
    (pcase-dolist (`(,symbol . ,around) functions)
      (advice-add symbol :around (apply-partially around symbol)
                  '((name . live-occur-test-watch))))
    (unwind-protect (funcall body)
      (pcase-dolist (`(,symbol . ,_) functions)
        (advice-remove symbol 'live-occur-test-watch)))
    live-occur-test--longest))

(defun live-occur-test--watch (body)
  "Call BODY, and fail where Emacs doesn't answer for too long meanwhile."
  (let ((longest (live-occur-test--longest-stall body)))
    (when (> (car longest) live-occur-test--stall)
      (ert-fail (cons "Emacs didn't answer" longest)))))

(defun live-occur-test--run (run test)
  "Call RUN with TEST, which is watched unless its tags say otherwise."
  (let ((body (ert-test-body test)))
    (if (memq 'unwatched (ert-test-tags test))
        (funcall run test)
      (unwind-protect
          (progn
            (setf (ert-test-body test) (lambda () (live-occur-test--watch body)))
            (funcall run test))
        (setf (ert-test-body test) body)))))

(advice-add 'ert-run-test :around #'live-occur-test--run)

(ert-deftest live-occur-stalls-are-seen ()
  :tags '(unwatched)
  (cl-flet ((stall (seconds)
              (let ((gc-cons-threshold most-positive-fixnum)
                    (work (lambda ()
                            (let ((end (+ (cdr (live-occur-test--now)) seconds)))
                              (while (< (cdr (live-occur-test--now)) end))))))
                (live-occur-test--longest-stall (lambda ()
                                                  (run-with-timer 0 nil work)
                                                  (accept-process-output nil 0.1))))))
    (should (< (car (stall 0)) 0.2))
    (should (equal (cdr (stall 0.3)) '(timer-event-handler)))
    (should (>= (car (stall 0.3)) 0.3))))

;;;; Rows

(ert-deftest live-occur-lists-lines-of-one-buffer ()
  (live-occur-test--with '("one\ntwo\nthree\n")
    (let ((list (live-occur "e")))
      (should (equal (live-occur-test--rows list) "1:one\n3:three\n")))))

(ert-deftest live-occur-lists-lines-of-several-buffers ()
  (live-occur-test--with '("one\ntwo\n" "" "x\n\none:1" "\n")
    (let ((list (live-occur "one" buffers)))
      (should (equal (live-occur-test--rows list) "a:1:one\nc:3:one:1\n")))
    (let ((list (live-occur "^$" buffers)))
      (should (equal (live-occur-test--rows list) "c:2:\nd:1:\n")))))

(ert-deftest live-occur-lists-a-last-line-without-newline ()
  (live-occur-test--with '("a\na")
    (let ((list (live-occur "a")))
      (should (equal (live-occur-test--rows list) "1:a\n2:a\n"))
      (goto-char (point-max))
      (insert "\n")
      (should (equal (live-occur-test--rows list) "1:a\n2:a\n"))
      (insert "a")
      (should (equal (live-occur-test--rows list) "1:a\n2:a\n3:a\n"))
      (erase-buffer)
      (should (equal (live-occur-test--rows list) ""))
      (insert "ba")
      (should (equal (live-occur-test--rows list) "1:ba\n")))))

(ert-deftest live-occur-takes-several-patterns ()
  (live-occur-test--with '("one\ntwo\nthree\n")
    (let ((list (live-occur "one\ntwo")))
      (should (equal (live-occur-test--rows list) "1:one\n2:two\n"))
      (with-current-buffer list
        (should (equal live-occur--patterns '("one" "two")))
        (cl-letf (((symbol-function 'read-from-minibuffer) (live-occur-test--answers "hr")))
          (live-occur-add-pattern))
        (should (equal (live-occur-test--rows list) "1:one\n2:two\n3:three\n"))
        (cl-letf (((symbol-function 'completing-read) (lambda (&rest _) "two")))
          (call-interactively #'live-occur-drop-pattern))
        (should (equal (live-occur-test--rows list) "1:one\n3:three\n"))
        (cl-letf (((symbol-function 'completing-read) (lambda (&rest _) "one"))
                  ((symbol-function 'read-from-minibuffer) (live-occur-test--answers "wo")))
          (call-interactively #'live-occur-change-pattern))
        (should (equal live-occur--patterns '("wo" "hr")))
        (should (equal (live-occur-test--rows list) "2:two\n3:three\n"))))))

(ert-deftest live-occur-has-flags ()
  (live-occur-test--with '("a\nA\nba ab\nc\n" "c\n")
    (let ((list (live-occur "a" buffers)))
      (with-current-buffer list
        (pcase-dolist (`(,key . ,rows)
                       '(("i" . "a:1:a\na:2:A\na:3:ba ab\n")
                         ("x" . "a:1:a\na:2:A\n")
                         ("i" . "a:1:a\n")
                         ("v" . "a:2:A\na:3:ba ab\na:4:c\nb:1:c\n")
                         ("x" . "a:2:A\na:4:c\nb:1:c\n")
                         ("v" . "a:1:a\na:3:ba ab\n")
                         ("i" . "a:1:a\na:2:A\na:3:ba ab\n")))
          (call-interactively (key-binding (kbd key)))
          (should (equal (live-occur-test--rows list) rows)))
        (should (equal live-occur-flags '(?i)))
        (should (string-prefix-p " basic -i  a  3 rows, 2 buffers" (live-occur--header)))))))

(ert-deftest live-occur-has-syntaxes ()
  (live-occur-test--with '("a+b\naab\n")
    (let ((list (live-occur "a+b")))
      (with-current-buffer list
        (should (equal (live-occur-test--rows list) "1:a+b\n"))
        (call-interactively (key-binding "E"))
        (should (equal (live-occur-test--rows list) "2:aab\n"))
        (call-interactively (key-binding "F"))
        (should (equal (live-occur-test--rows list) "1:a+b\n"))
        (call-interactively (key-binding "B"))
        (should (equal live-occur-syntax 'basic))))))

(ert-deftest live-occur-begins-with-settings ()
  (live-occur-test--with '("AB\nb\n")
    (let* ((live-occur-syntax 'extended)
           (live-occur-flags '(?x ?i))
           (list (live-occur "(a|b)+")))
      (should (equal (live-occur-test--rows list) "1:AB\n2:b\n"))
      (with-current-buffer list
        (should (string-prefix-p " extended -ix  (a|b)+" (live-occur--header)))))))

(ert-deftest live-occur-shows-lines-around ()
  (live-occur-test--with '("a\nb-1:c\nc\nd\na\n" "a\n\n")
    (let ((list (live-occur "a")))
      (with-current-buffer list
        (live-occur-set-context 0 1)
        (should (equal (live-occur-test--rows list) "1:a\n2-b-1:c\n--\n5:a\n"))
        (should (string-prefix-p " basic -B 0 -A 1  a  2 rows" (live-occur--header)))
        (live-occur-set-context 2 0)
        (should (equal (live-occur-test--rows list) "1:a\n--\n3-c\n4-d\n5:a\n"))
        (live-occur-add-buffer (nth 1 buffers))
        (live-occur-set-context 0 1)
        (should (equal (live-occur-test--rows list)
                       "a:1:a\na-2-b-1:c\n--\na:5:a\n--\nb:1:a\nb-2-\n"))
        (live-occur-restart)
        (should (equal (live-occur-test--rows list)
                       "a:1:a\na-2-b-1:c\n--\na:5:a\n--\nb:1:a\nb-2-\n"))
        (live-occur-set-context 0 0)
        (should (equal (live-occur-test--rows list) "a:1:a\na:5:a\nb:1:a\n"))
        (should-error (live-occur-set-context -1 0) :type 'user-error)))))

(ert-deftest live-occur-begins-with-lines-around ()
  (live-occur-test--with '("b\na\nb\n")
    (let* ((live-occur-context '(1 . 0))
           (list (live-occur "a")))
      (should (equal (live-occur-test--rows list) "1-b\n2:a\n")))))

(ert-deftest live-occur-makes-rows-in-view ()
  (live-occur-test--with (list (apply #'concat (make-list 5000 "a\n")))
    (live-occur-test--in-windows
      (let* ((live-occur-idle-rows 0)
             (list (live-occur "a"))
             (window (get-buffer-window list))
             (height (window-body-height window)))
        (with-current-buffer list
          (live-occur-test--wait)
          (should (= (live-occur--total) 5000 (count-lines 1 (point-max))))
          (should (< (point-max) (+ 5000 (* 20 3 height))))
          (goto-char (point-max))
          (forward-line -2)
          (set-window-start window (point))
          (set-window-point window (point))
          (run-hook-with-args 'pre-redisplay-functions window)
          (should (looking-at "4999:a\n5000:a\n")))))))

(ert-deftest live-occur-shows-the-name-that-a-buffer-has ()
  (live-occur-test--with '("x\n" "x\n")
    (let ((list (live-occur "x" buffers)))
      (should (equal (live-occur-test--rows list) "a:1:x\nb:1:x\n"))
      (rename-buffer "a new: name")
      (should (equal (live-occur-test--rows list) "a new: name:1:x\nb:1:x\n")))))

;;;; Edits

(ert-deftest live-occur-follows-edits ()
  (live-occur-test--with '("one\ntwo\nthree\nfour\n")
    (let ((list (live-occur "o")))
      (should (equal (live-occur-test--rows list) "1:one\n2:two\n4:four\n"))
      (goto-char (point-min))
      (insert "o\no\n")
      (should (equal (live-occur-test--rows list)
                     "1:o\n2:o\n3:one\n4:two\n6:four\n"))
      (delete-region 3 (- (point-max) 2))
      (should (equal (live-occur-test--rows list) "1:o\n"))
      (should (equal (buffer-string) "o\nr\n"))
      (goto-char (point-max))
      (insert "o")
      (should (equal (live-occur-test--rows list) "1:o\n3:o\n"))
      (undo-boundary)
      (erase-buffer)
      (should (equal (live-occur-test--rows list) ""))
      (undo-boundary)
      (undo)
      (should (equal (live-occur-test--rows list) "1:o\n3:o\n")))))

(ert-deftest live-occur-sends-only-lines-that-changed ()
  (live-occur-test--with (list (apply #'concat (make-list 1000 "line\n")))
    (let ((list (live-occur "x")))
      (live-occur-test--rows list)
      (should (equal (live-occur-test--commands
                       (goto-char (point-min))
                       (insert "x")
                       (goto-char (point-max))
                       (insert "x\n")
                       (goto-char 3505)
                       (insert "x\n")
                       (goto-char 3002)
                       (delete-char 5)
                       (goto-char 2502)
                       (insert "x\n")
                       (live-occur-test--rows list))
                     '("splice 0 0 1 1\nxline\n"
                       "splice 0 500 0 1\nx\n"
                       "splice 0 601 1 0\n"
                       "splice 0 700 1 2\nlinx\ne\n"
                       "splice 0 1001 0 1\nx\n"
                       "changes\n")))
      (should (equal (live-occur-test--rows list)
                     "1:xline\n501:x\n701:linx\n1002:x\n")))))

(ert-deftest live-occur-gets-one-report-of-several-buffers ()
  (live-occur-test--with '("a\n" "a\n")
    (let ((list (live-occur "a" buffers)))
      (live-occur-test--rows list)
      (should (equal (live-occur-test--commands
                       (dolist (buffer buffers)
                         (with-current-buffer buffer (insert "ab\n")))
                       (should (equal (live-occur-test--rows list)
                                      "a:1:a\na:2:ab\nb:1:a\nb:2:ab\n")))
                     '("splice 0 1 0 1\nab\n" "splice 1 1 0 1\nab\n" "changes\n"))))))

(ert-deftest live-occur-keeps-windows-where-several-parts-change ()
  "Point and windows stay at their rows where one report has several parts."
  (live-occur-test--with (list (apply #'concat (make-list 300 "a\n")))
    (live-occur-test--in-windows
      (let ((list (live-occur "a")))
        (live-occur-test--rows list)
        (live-occur-test--at list 200)
        (goto-char (point-min))
        (insert "a1\na2\na3\n")
        (forward-line 199)
        (insert "b\n")
        (forward-line -1)
        (delete-region (point) (line-beginning-position 3))
        (insert "a4\n")
        (goto-char (point-max))
        (insert "a5\n")
        (live-occur-test--rows list)
        (with-current-buffer list
          (should (looking-at "203:a4\n204:a\n"))
          (should (= (window-point (get-buffer-window)) (point))))))))

(ert-deftest live-occur-gets-only-rows-that-changed ()
  "Rows between edits that are far apart don't come again, and point stays."
  (live-occur-test--with (list (apply #'concat (make-list 1000 "a\n")))
    (let ((list (live-occur "a")) (got 0))
      (live-occur-test--rows list)
      (live-occur-test--at list 800)
      (cl-letf* ((apply (symbol-function 'live-occur--apply))
                 ((symbol-function 'live-occur--apply)
                  (lambda (source row front removed added new)
                    (cl-incf got (live-occur--count new))
                    (funcall apply source row front removed added new))))
        (goto-char (point-min))
        (insert "a1\na2\n")
        (forward-line 799)
        (insert "b")
        (goto-char (point-max))
        (insert "a3\n")
        (live-occur-test--rows list))
      (should (= got 4))
      (with-current-buffer list
        (should (looking-at "802:ba$"))
        (goto-char (point-min))
        (should (looking-at "1:a1\n2:a2\n3:a\n"))
        (goto-char (point-max))
        (forward-line -2)
        (should (looking-at "1002:a\n1003:a3\n"))))))

(ert-deftest live-occur-asks-for-one-report-at-a-time ()
  (live-occur-test--with '("a\n")
    (let ((list (live-occur "a")) (most 0) (all 0))
      (live-occur-test--rows list)
      (cl-letf* ((send (symbol-function 'live-occur--send))
                 (due 0)
                 ((symbol-function 'live-occur--send)
                  (lambda (text function)
                    (if (not (equal text "changes\n"))
                        (funcall send text function)
                      (setq due (1+ due) all (1+ all) most (max most due))
                      (funcall send text
                               (lambda (&rest reply)
                                 (setq due (1- due))
                                 (apply function reply)))))))
        (dotimes (_ 20)
          (goto-char (point-max))
          (insert "a\n")
          (with-current-buffer list
            (live-occur--update)))
        (should (equal (length (split-string (live-occur-test--rows list) "\n" t)) 21)))
      (should (= most 1))
      (should (<= 2 all 20)))))

(ert-deftest live-occur-searches-all-of-a-narrowed-buffer ()
  (live-occur-test--with '("a\nb\na\n")
    (narrow-to-region 3 4)
    (let ((list (live-occur "a")))
      (should (equal (live-occur-test--rows list) "1:a\n3:a\n"))
      (goto-char (point-max))
      (insert "a\na")
      (should (equal (live-occur-test--rows list) "1:a\n2:ba\n3:a\n4:a\n"))
      (should (buffer-narrowed-p))
      (live-occur-test--at list 4)
      (with-current-buffer list
        (let ((widen-automatically nil))
          (should-error (live-occur-visit) :type 'user-error)))
      (with-current-buffer list
        (live-occur-visit))
      (should-not (buffer-narrowed-p))
      (should (= (line-number-at-pos) 4)))))

(ert-deftest live-occur-follows-a-buffer-that-is-reverted ()
  (live-occur-test--with '("")
    (let* ((file (make-temp-file "live-occur" nil nil "one\ntwo\nthree\n"))
           (buffer (find-file-noselect file))
           list)
      (unwind-protect
          (with-current-buffer buffer
            (rename-buffer "visited")
            (setq list (live-occur "o"))
            (should (equal (live-occur-test--rows list) "1:one\n2:two\n"))
            (write-region "zero\none\nthree\ntoo\n" nil file nil 'quiet)
            (revert-buffer t t)
            (should (equal (live-occur-test--rows list)
                           "1:zero\n2:one\n4:too\n"))
            (goto-char (point-min))
            (insert "o\n")
            (should (equal (live-occur-test--rows list)
                           "1:o\n2:zero\n3:one\n5:too\n"))
            (revert-buffer t t)
            (emacs-lisp-mode)
            (goto-char (point-max))
            (insert "o\n")
            (should (memq #'live-occur--after after-change-functions))
            (should (equal (live-occur-test--rows list)
                           "1:zero\n2:one\n4:too\n5:o\n")))
        (delete-file file)))))

(ert-deftest live-occur-follows-indirect-buffers ()
  (live-occur-test--with '("one\ntwo\n")
    (let* ((indirect (make-indirect-buffer a "indirect"))
           (list (live-occur "o" (list indirect)))
           (other (live-occur "o" (list a))))
      (should (equal (live-occur-test--rows list) "1:one\n2:two\n"))
      (insert "o\n")
      (should (equal (live-occur-test--rows other) "1:one\n2:two\n3:o\n"))
      (with-current-buffer indirect
        (goto-char (point-min))
        (insert "o\n"))
      (should (equal (live-occur-test--rows list)
                     "1:o\n2:one\n3:two\n4:o\n"))
      (should (equal (live-occur-test--rows other) "1:o\n2:one\n3:two\n4:o\n"))
      (with-current-buffer (make-indirect-buffer a "later")
        (goto-char (point-min))
        (delete-char 2))
      (should (equal (live-occur-test--rows other) "1:one\n2:two\n3:o\n"))
      (kill-buffer indirect)
      (should (equal (live-occur-test--rows list) ""))
      (insert "o\n")
      (should (equal (live-occur-test--rows other) "1:one\n2:two\n3:o\n4:o\n")))))

(ert-deftest live-occur-notices-edits-that-are-not-told ()
  (live-occur-test--with '("one\ntwo\n")
    (let ((list (live-occur "o")))
      (live-occur-test--rows list)
      (let ((inhibit-modification-hooks t))
        (goto-char (point-min))
        (insert "o\n"))
      (should (equal (live-occur-test--rows list) "1:o\n2:one\n3:two\n"))
      (let ((inhibit-modification-hooks t))
        (delete-region 1 3))
      (goto-char (point-max))
      (insert "no\n")
      (should (equal (live-occur-test--rows list) "1:one\n2:two\n3:no\n")))))

(defun live-occur-test--check (list)
  "Check that LIST shows what grep writes, and that each row leads to its line."
  (live-occur-test--numbers-right list)
  (let ((folder (make-temp-file "live-occur" t)))
    (unwind-protect
        (should (equal (live-occur-test--rows list) (live-occur-test--searched list folder)))
      (delete-directory folder t)))
  (with-current-buffer list
    (dotimes (row (min 50 (live-occur--total)))
      (live-occur-test--go-to-row row)
      (let ((text (live-occur--row-text)))
        (save-current-buffer
          (live-occur-visit)
          (beginning-of-line)
          (should (equal (live-occur--bytes text)
                         (live-occur--bytes (live-occur--text-after-point)))))))))

(defun live-occur-test--follows (&rest changes)
  "Check that a list is right after each of CHANGES, which are called at a line.
It is called alone, after an edit nearby, and after many, and an edit follows."
  (dolist (change changes)
    (dolist (edits '(0 1 10))
      (progn
        (live-occur-test--with '("one a\né b\nthree\nab\nYWIK\nsix\na\n\nbabab\na")
          (live-occur-test--in-windows
            (let ((list (live-occur "a")))
              (live-occur-test--rows list)
              (dotimes (turn 2)
                (goto-char (point-min))
                (forward-line (+ 3 turn))
                (dotimes (_ edits) (insert "b"))
                (forward-line 0)
                (save-excursion (funcall change))
                (live-occur-test--check list))
              (goto-char (point-min))
              (insert "a\n")
              (live-occur-test--check list))))))))

(defmacro live-occur-test--in-line (&rest body)
  "A function that runs BODY with START and END, the ends of two lines from point."
  `(lambda ()
     (let ((start (point)) (end (line-beginning-position 3)))
       (ignore start end)
       ,@body)))

(ert-deftest live-occur-follows-files-that-are-inserted ()
  "Emacs counts no change of characters where it puts a file into a text."
  (let ((file (make-temp-file "live-occur" nil nil "fa\nfb\né a\nb\na")))
    (unwind-protect
        (live-occur-test--follows
         (lambda () (insert-file-contents file))
         (lambda () (insert-file-contents file nil 3 6))
         (lambda () (insert-file-contents-literally file))
         (lambda () (forward-char 1) (insert-file file))
         (lambda () (let ((coding-system-for-read 'latin-1)) (insert-file-contents file)))
         (lambda () (insert-file-contents file nil nil nil t))
         (lambda () (insert-file-contents file t nil nil t) (set-visited-file-name nil t))
         (lambda () (goto-char (point-max)) (insert-file-contents file))
         ;; This is told by no hook.
         (lambda ()
           (erase-buffer)
           (set-buffer-modified-p nil)
           (insert-file-contents file t)
           (set-visited-file-name nil t)
           (rename-buffer "a")))
      (delete-file file))))

(ert-deftest live-occur-follows-the-output-of-programs ()
  (live-occur-test--follows
   (lambda () (call-process "printf" nil t nil "a\\nb\\na b\\na"))
   (lambda () (forward-char 1) (call-process "printf" nil t nil "b\\n"))
   (lambda () (call-process "printf" nil t t "a b"))
   (lambda () (call-process "seq" nil t nil "9000"))
   (lambda () (shell-command "echo a; echo b" t))
   (lambda ()
     (let ((process (start-process "live-occur-test" (current-buffer) "printf" "a\\nb\\n")))
       (set-process-sentinel process #'ignore)
       (set-marker (process-mark process) (point))
       (while (accept-process-output process 1))))))

(ert-deftest live-occur-follows-regions-that-programs-replace ()
  (live-occur-test--follows
   (live-occur-test--in-line (call-process-region start end "tr" t t nil "ab" "ba"))
   (live-occur-test--in-line (call-process-region start end "tr" t t nil "b" "\n"))
   (live-occur-test--in-line (call-process-region start end "cat" t nil nil))
   (live-occur-test--in-line (call-process-region start end "cat" nil t nil))
   (lambda () (call-process-region nil nil "tac" t t nil))
   (lambda () (call-process-region (point-min) (point-max) "tac" t t nil))
   (live-occur-test--in-line (shell-command-on-region start end "sort; echo a" nil t))))

(ert-deftest live-occur-follows-the-tail-of-a-file ()
  (live-occur-test--with '("")
    (live-occur-test--with-file file "a\nb\n"
      (live-occur-test--in-windows
        (let ((auto-revert-use-notify nil)
              (inhibit-message t)
              (list (live-occur "a")))
          (live-occur-test--rows list)
          (auto-revert-tail-mode)
          (dolist (text '("a2\n" "b\na3\nb" "a\n" "é a\na"))
            (write-region text nil file t 'quiet)
            (let ((size (buffer-size)))
              (auto-revert-buffers)
              (should (= (buffer-size) (+ size (length text)))))
            (should-not (buffer-modified-p))
            (live-occur-test--check list))
          (let ((inhibit-read-only t))
            (goto-char (point-min))
            (insert "a\nb\n"))
          (set-buffer-modified-p nil)
          (live-occur-test--check list))))))

(ert-deftest live-occur-follows-a-file-that-others-write ()
  (live-occur-test--with '("")
    (live-occur-test--with-file file "a\nb\nab\n"
      (live-occur-test--in-windows
        (let ((auto-revert-use-notify nil)
              (inhibit-message t)
              (list (live-occur "a")))
          (live-occur-test--rows list)
          (auto-revert-mode)
          (dolist (text '("a\nb\na\nab\n" "b\nb\n" "" "é\na\na\n" "é\na\na\nb\na"))
            (sleep-for 0.02)
            (write-region text nil file nil 'quiet)
            (auto-revert-buffers)
            (should (equal (buffer-string) text))
            (live-occur-test--check list)
            (goto-char (point-min))
            (insert "a")
            (revert-buffer t t t)
            (live-occur-test--check list)
            (goto-char (point-min))
            (insert "b\n")
            (set-buffer-modified-p nil)
            (live-occur-test--check list)
            (revert-buffer-with-fine-grain t t)
            (live-occur-test--check list)))))))

(ert-deftest live-occur-follows-a-file-while-emacs-is-idle ()
  "A list follows a file that is read again by a timer, or as the system tells of it.
Text that comes into an empty buffer so is reported after it has come alone."
  (dolist (mode '(auto-revert-mode auto-revert-tail-mode))
    (dolist (event '(nil (file-notify (nil changed "file") ignore)))
      (live-occur-test--with '("")
        (live-occur-test--with-file file ""
          (let ((auto-revert-use-notify nil)
                (inhibit-message t)
                (list (live-occur "a")))
            (should (equal (live-occur-test--rows list) ""))
            (funcall mode)
            (dolist (hits '(2 4))
              (sleep-for 0.02)
              (write-region "a\nb\na\n" nil file t 'quiet)
              (cl-letf (((symbol-function 'current-idle-time)
                         (lambda () (unless event (seconds-to-time 1))))
                        (last-input-event event))
                (auto-revert-buffers)
                (live-occur-test--until
                 (lambda () (= hits (with-current-buffer list (live-occur--total)))))))
            (should (equal (live-occur-test--rows list) "1:a\n3:a\n4:a\n6:a\n"))))))))

(ert-deftest live-occur-follows-all-that-changes-texts ()
  (live-occur-test--follows
   (lambda ()
     (let ((buffer (current-buffer)) (text (buffer-string)))
       (with-temp-buffer
         (insert (replace-regexp-in-string "b" "a\nc" text))
         (let ((other (current-buffer)))
           (with-current-buffer buffer
             (replace-buffer-contents other)
             (insert-buffer-substring other))))))
   (live-occur-test--in-line (base64-encode-region start (1- end)))
   (lambda ()
     (insert "YQphCg==")
     (base64-decode-region (- (point) 8) (point)))
   (lambda ()
     (insert (string-to-multibyte "\303\251\r\na\r\n"))
     (decode-coding-region (- (point) 7) (point) 'utf-8-dos))
   (lambda ()
     (insert "é\na\nü")
     (encode-coding-region (- (point) 5) (point) 'utf-8-dos)
     (recode-region (- (point) 2) (point) 'latin-1 'utf-8))
   (live-occur-test--in-line (subst-char-in-region start end ?b ?a))
   (live-occur-test--in-line (subst-char-in-region start end ?\n ?a t))
   (live-occur-test--in-line (subst-char-in-region start end ?b ?\n))
   (live-occur-test--in-line
    (let ((table (make-string 256 0)))
      (dotimes (byte 256) (aset table byte byte))
      (aset table ?b ?\n)
      (translate-region start (min (point-max) (+ 9 end)) table)
      (aset table ?\n ?a)
      (translate-region (point-min) start table)))
   (live-occur-test--in-line (transpose-regions (point-min) 3 start end))
   (live-occur-test--in-line (transpose-regions start (1+ start) (- end 2) (1- end)))
   (live-occur-test--in-line
    (combine-after-change-calls (insert "a\n") (goto-char (point-max)) (insert "a\na")))
   (live-occur-test--in-line
    (combine-change-calls start end
      (insert "a\n") (goto-char (- end 1)) (insert "\nba") (delete-char 1)))
   (live-occur-test--in-line
    (with-silent-modifications (insert "a\nb\n"))
    (with-silent-modifications (delete-region start (+ 2 start))))
   (live-occur-test--in-line (with-silent-modifications (upcase-region start end)))
   (live-occur-test--in-line (put-text-property start end 'face 'bold) (insert "a\n"))
   (live-occur-test--in-line (reverse-region start end) (sort-lines t start end))
   (lambda () (when (fboundp 'json-insert) (json-insert ["a" "b"])))
   (lambda ()
     (set-buffer-multibyte nil)
     (insert "a\n")
     (set-buffer-multibyte t))
   (live-occur-test--in-line
    (let ((inhibit-modification-hooks t)) (insert "a\n"))
    (forward-line 1)
    (insert "a\n"))))

(ert-deftest live-occur-goes-to-no-wrong-line ()
  "Where a change was not told, a row leads to its line, or it is said to be old."
  (live-occur-test--with '("one\ntwo\no\n")
    (live-occur-test--in-windows
      (let ((list (live-occur "o")))
        (live-occur-test--rows list)
        (with-silent-modifications
          (goto-char (point-max))
          (insert "o\n"))
        (live-occur-test--at list 2)
        (with-current-buffer list
          (live-occur-visit)
          (should (looking-at "o$")))
        (live-occur-test--rows list)
        (with-silent-modifications
          (goto-char (point-min))
          (insert "o\n"))
        (live-occur-test--at list 2)
        (with-current-buffer list
          (should-error (live-occur-visit) :type 'user-error)
          (live-occur-test--wait)
          (should (equal (buffer-substring-no-properties (point-min) (+ 4 (point-min)))
                         "1:o\n")))
        (live-occur-test--check list)))))

(defmacro live-occur-test--with-fault (function fault &rest body)
  "Run BODY where FUNCTION signals FAULT at its first call, and where it is called."
  (declare (indent 2) (debug t))
  `(let ((turns 0))
     (advice-add ,function :before
                 (lambda (&rest _)
                   (when (= (cl-incf turns) 1) (signal ,fault nil)))
                 '((name . live-occur-test-fault)))
     (unwind-protect (progn ,@body)
       (advice-remove ,function 'live-occur-test-fault))
     (when (= turns 0) (ert-fail (list ,function "is not called")))))

(ert-deftest live-occur-gathers-edits-after-an-error ()
  "No error takes the hooks of a buffer away, or an edit from the list."
  (dolist (function '(live-occur--known-p live-occur--expect live-occur--settle live-occur--took
                      live-occur--line-at live-occur--count-newlines live-occur--know))
    (dolist (fault '(error quit))
      (live-occur-test--with '("ab\nb\nab\n")
        (live-occur-test--in-windows
          (let ((list (live-occur "a")))
            (live-occur-test--rows list)
            (live-occur-test--with-fault function fault
              (goto-char 4)
              (insert "a\n")
              (dotimes (_ 9) (insert "a"))
              (with-current-buffer (make-indirect-buffer a "indirect")
                (delete-region 1 2)
                (kill-buffer))
              (insert "a\n")
              (delete-region 1 2))
            (should (memq #'live-occur--after after-change-functions))
            (live-occur-test--check list)
            (should (memq #'live-occur--before before-change-functions))
            (goto-char (point-min))
            (insert "a\n")
            (should (live-occur--known-p (car (buffer-local-value 'live-occur--sources list))))
            (live-occur-test--check list)))))))

(ert-deftest live-occur-gathers-edits-after-an-error-of-others ()
  "Emacs takes all functions out of a hook where one of them signals an error."
  (live-occur-test--with '("ab\nb\nab\n")
    (live-occur-test--in-windows
      (let ((list (live-occur "a")))
        (live-occur-test--rows list)
        (dolist (hook '(before-change-functions after-change-functions))
          (add-hook hook (lambda (&rest _) (error "Other")) nil t)
          (ignore-errors (insert "a\n"))
          (should-not (memq #'live-occur--after (symbol-value hook)))
          (insert "a\n")
          (live-occur-test--check list)
          (insert "ab\n")
          (should (live-occur--known-p (car (buffer-local-value 'live-occur--sources list))))
          (live-occur-test--check list))))))

(ert-deftest live-occur-tells-of-a-reply-that-was-not-asked-for ()
  (live-occur-test--with '("a\n")
    (let ((list (live-occur "a")) (inhibit-message t))
      (live-occur-test--rows list)
      (with-current-buffer list
        (dolist (reply '("refused BadCommand\n" "status 0\n"))
          (live-occur--read live-occur--process reply)
          (should (string-prefix-p "occur answered: refused BadCommand" live-occur--fault)))
        (live-occur-restart))
      (insert "a\n")
      (should (equal (live-occur-test--rows list) "1:a\n2:a\n")))))

(ert-deftest live-occur-leaves-buffers-as-they-are ()
  (live-occur-test--with '("one\ntwo\nthree\n")
    (goto-char 6)
    (let ((undo buffer-undo-list)
          (hooks (list before-change-functions after-change-functions kill-buffer-hook))
          (list (progn (setq buffer-read-only t) (live-occur "o"))))
      (live-occur-test--mark list)
      (with-current-buffer list
        (live-occur-toggle-case))
      (live-occur-test--rows list)
      (live-occur-test--at list 1)
      (with-current-buffer list
        (live-occur-display))
      (kill-buffer list)
      (should (equal (buffer-string) "one\ntwo\nthree\n"))
      (should-not (buffer-modified-p))
      ;; A timer of Emacs may have put a boundary there.
      (should (equal (remq nil buffer-undo-list) (remq nil undo)))
      (should-not (local-variable-p 'live-occur--texts-here))
      (should (equal hooks
                     (list before-change-functions after-change-functions kill-buffer-hook)))
      (should-not (overlays-in (point-min) (point-max))))))

(ert-deftest live-occur-follows-a-buffer-that-is-read-only ()
  (live-occur-test--with '("one\n")
    (setq buffer-read-only t)
    (let ((list (live-occur "o")))
      (should (equal (live-occur-test--rows list) "1:one\n"))
      (let ((inhibit-read-only t))
        (insert "o\n"))
      (should (equal (live-occur-test--rows list) "1:one\n2:o\n")))))

(defun live-occur-test--follow (hunks old new)
  "The lines that HUNKS make of the lines OLD, with lines of NEW."
  (pcase-dolist (`(,at ,was ,is) hunks)
    (setq old (append (seq-take old at)
                      (seq-subseq new at (+ at is))
                      (seq-drop old (+ at was)))))
  old)

(ert-deftest live-occur-joins-edits ()
  "What is gathered of edits says what they did to the lines."
  (random "live-occur edits")
  (dotimes (_ 300)
    (let* ((held (number-sequence 0 (random 400)))
           (now (copy-sequence held))
           (edits (live-occur--hunks 50))
           (few (live-occur--hunks 1))
           (moves (live-occur--hunks 0)))
      (dotimes (_ (1+ (random 40)))
        (let* ((start (random (1+ (length now))))
               (old (min (random 4) (- (length now) start)))
               (new (random 4)))
          (setq now (append (seq-take now start) (make-list new 'new)
                            (seq-drop now (+ start old))))
          (dolist (hunks (list edits few moves))
            (live-occur--note hunks start old new))))
      (dolist (hunks (list edits few moves))
        (should (equal (live-occur-test--follow (live-occur--in-order hunks) held now) now)))
      (dolist (line held)
        (when-let* ((at (seq-position now line)))
          (should (= at (live-occur--moved line moves))))))))

(ert-deftest live-occur-knows-how-lines-moved-that-are-sent ()
  "Where some of the edits are sent, what moved before and since is known."
  (random "live-occur moves")
  (dotimes (_ 500)
    (let* ((held (number-sequence 0 (random 60)))
           (now (copy-sequence held))
           (edits (live-occur--hunks 5))
           (moves (live-occur--hunks 0))
           (sent (live-occur--hunks 0)))
      (dotimes (_ 8)
        (let* ((start (random (1+ (length now))))
               (old (min (random 4) (- (length now) start)))
               (new (random 4)))
          (setq now (append (seq-take now start) (make-list new 'new)
                            (seq-drop now (+ start old))))
          (live-occur--note edits start old new)
          (live-occur--note moves start old new))
        (when-let* ((edit (car (live-occur--in-order edits))))
          (pcase-let* ((`(,at ,was ,is) edit)
                       (count (random (1+ is)))
                       (gone (if (= count is) was
                               (- (live-occur--unmoved (+ at count) moves) at))))
            (live-occur--cut-first edits count gone)
            (dolist (hunk (live-occur--split moves (+ at count) (+ at gone)))
              (apply #'live-occur--note sent hunk)))))
      (dolist (line held)
        (when-let* ((at (seq-position now line)))
          (should (= at (live-occur--moved (live-occur--moved line sent) moves))))))))

;;;; What goes out

(ert-deftest live-occur-sends-characters-as-bytes ()
  (live-occur-test--with '("é\n€\nx\n\x3fffff\n")
    (let* ((live-occur-characters nil) (list (live-occur "^..$")))
      (should (equal (live-occur-test--rows list) "1:é\n"))
      (should (equal (live-occur-test--mark list) '((2 "é")))))
    (let* ((live-occur-characters nil) (list (live-occur "^.$")))
      (should (equal (live-occur-test--rows list) (string-to-multibyte "3:x\n4:\377\n"))))
    (let ((list (live-occur "€\né")))
      (should (equal (live-occur-test--rows list) "1:é\n2:€\n")))))

(ert-deftest live-occur-takes-unibyte-buffers ()
  (live-occur-test--with '("")
    (set-buffer-multibyte nil)
    (insert "\351t\351\nx\303\251\n")
    (let ((list (live-occur "t")))
      (should (equal (live-occur-test--rows list) (string-to-multibyte "1:\351t\351\n"))))
    (let ((list (live-occur "é")))
      (should (equal (live-occur-test--rows list) "2:xé\n")))))

(ert-deftest live-occur-takes-long-lines ()
  (live-occur-test--with (list (concat "x\n" (make-string 300000 ?a) "needle" "\nx needle\n"))
    (let ((list (live-occur "needle")))
      (should (equal (live-occur-test--rows list)
                     (concat "2:…" (make-string 30 ?a) "needle\n3:x needle\n")))
      (should (equal (live-occur-test--mark list) '((33 "needle") (4 "needle")))))))

(ert-deftest live-occur-sends-long-texts ()
  (live-occur-test--with (list (concat (mapconcat #'number-to-string
                                                  (number-sequence 1 60000) "\n")))
    (let ((list (live-occur "7777$")))
      (should (equal (live-occur-test--rows list)
                     "7777:7777\n17777:17777\n27777:27777\n37777:37777\n47777:47777\n57777:57777\n"))
      (replace-regexp-in-region "7$" "8" (point-min))
      (should (equal (live-occur-test--rows list) ""))
      (replace-regexp-in-region "8$" "7" (point-min))
      (should (equal (length (split-string (live-occur-test--rows list) "\n" t)) 12)))))

;;;; What comes back

(defun live-occur-test--bytes-of (blocks)
  "The bytes of BLOCKS of a reply."
  (mapconcat (pcase-lambda (`(,words . ,pieces))
               (apply #'concat words (mapcar #'live-occur--piece-rows pieces)))
             blocks ""))

(ert-deftest live-occur-reads-replies-while-it-takes-one ()
  (live-occur-test--with '("a\n")
    (let ((list (live-occur "a")) seen)
      (live-occur-test--rows list)
      (let* ((process (buffer-local-value 'live-occur--process list))
             (take (lambda (name)
                     (lambda (reply blocks)
                       (push (list name (live-occur-test--bytes-of blocks) reply) seen)
                       (when (eq name 'first)
                         (live-occur--read process "4 - ab\nstatus 0\no"))))))
        (process-put process 'waiting
                     (mapcar (lambda (name) (cons 1 (funcall take name)))
                             '(first second third fourth)))
        (live-occur--read process "h 0 1 2 3 1\nr 2 - status 5\nstatus 1\nhits 1\np 0 ")
        (live-occur--read process "k\nrefused NoSuchFile")
        (live-occur--read process "\n"))
      (should (equal (nreverse seen)
                     '((first "h 0 1 2 3 1\nr 2 - status 5\n" "status 1")
                       (second "hits 1\np 0 4 - ab\n" "status 0")
                       (third "" "ok")
                       (fourth "" "refused NoSuchFile")))))))

;;;; Refusals

(ert-deftest live-occur-refuses-a-pattern ()
  (live-occur-test--with '("a(\n")
    (let ((buffers (buffer-list))
          (processes (process-list)))
      (should-error (live-occur "a\\(") :type 'user-error)
      (should (equal (buffer-list) buffers))
      (should (equal (process-list) processes)))))

(ert-deftest live-occur-shows-where-a-pattern-is-refused ()
  (live-occur-test--with '("a(\nb\n")
    (let ((list (live-occur "a"))
          (asked nil))
      (should (equal (live-occur-test--rows list) "1:a(\n"))
      (with-current-buffer list
        (cl-letf* ((answers '("é\\(" "b"))
                   ((symbol-function 'read-from-minibuffer)
                    (lambda (prompt &optional initial &rest _)
                      (push (cons prompt initial) asked)
                      (pop answers))))
          (live-occur-add-pattern))
        (should (equal (nreverse asked)
                       '(("Add pattern (basic): ")
                         ("UnclosedGroup at 1; Add pattern (basic): " "é\\(" . 2))))
        (should (equal live-occur--patterns '("a" "b")))
        (should (equal (live-occur-test--rows list) "1:a(\n2:b\n"))))))

(ert-deftest live-occur-underlines-the-fault ()
  (should (equal-including-properties
           (live-occur--refused '("K" 0 1) "a(b")
           #("K at 1: a(b" 9 10 (face live-occur-fault))))
  (should (equal-including-properties
           (live-occur--refused '("K" 0 2) "ab")
           #("K at 2: ab " 10 11 (face live-occur-fault))))
  (let ((pieces (mapcar (lambda (pattern) (live-occur--translated pattern nil nil))
                        '("a" "b" "" "é[z-a]"))))
    (cl-flet ((fault (reply first)
                (live-occur--fault-in-text (live-occur--fault-in reply pieces) "\né[z-a]" first)))
      (should (equal (fault "refused Pattern 3 BadRange 3" 2) '("BadRange" 3)))
      (should (equal (fault "refused Pattern 3 UnclosedGroup 7" 2) '("UnclosedGroup" 7)))
      (should (equal (fault "refused Memory" 0) '("refused Memory" 0)))
      (should-not (fault "ok" 0)))))

(ert-deftest live-occur-keeps-a-syntax-that-another-cannot-replace ()
  (live-occur-test--with '("a(\n")
    (let ((list (live-occur "a(")))
      (with-current-buffer list
        (live-occur-test--wait)
        (let ((told nil))
          (cl-letf (((symbol-function 'message)
                     (lambda (&rest words) (setq told (apply #'format words)))))
            (live-occur-extended))
          (should (equal told "UnclosedGroup at 1: a(")))
        (should (eq live-occur-syntax 'basic))
        (should (equal (live-occur-test--rows list) "1:a(\n"))
        (ert-info ("hits are reported meanwhile")
          (cl-letf* ((begin (symbol-function 'live-occur--begin-syntax))
                     ((symbol-function 'live-occur--begin-syntax)
                      (lambda (syntax)
                        (funcall begin syntax)
                        (live-occur--update t))))
            (live-occur-extended))
          (live-occur-test--wait)
          (should (= 1 (live-occur--total)))
          (should (equal (live-occur-test--rows list) "1:a(\n")))))))

(ert-deftest live-occur-tells-of-a-program-that-is-not-there ()
  (live-occur-test--with '("a\n")
    (let ((live-occur-program "/nonexistent/occur")
          (buffers (buffer-list))
          (processes (process-list)))
      (should-error (live-occur "a") :type 'user-error)
      (should (equal (buffer-list) buffers))
      (should (equal (process-list) processes)))))

;; A batch Emacs that writes into a pipe which nobody reads is ended by a signal, so
;; the program stays for a moment.
(ert-deftest live-occur-tells-of-words-that-are-refused ()
  (live-occur-test--with '("a\n")
    (live-occur-test--with-program
        "'%s' \"$@\" < /dev/null\nstatus=$?\nsleep 0.2\nexit $status\n"
      (let ((live-occur-states 0))
        (should (string-match-p "ended with status 2 (.*0.*--states.*)\\'"
                                (cadr (should-error (live-occur "a") :type 'user-error))))))))

;;;; The program

(ert-deftest live-occur-tells-that-its-program-was-killed ()
  (live-occur-test--with '("a\nb\n")
    (let ((list (live-occur "a")) told)
      (should (equal (live-occur-test--rows list) "1:a\n"))
      (with-current-buffer list
        (cl-letf (((symbol-function 'message)
                   (lambda (&rest words) (setq told (apply #'format words)))))
          (signal-process live-occur--process 'KILL)
          (with-timeout (10) (while (not told) (accept-process-output nil 0.05))))
        (should (string-match-p
                 "\\`\\*Live Occur: a\\*: .*occur was killed by signal 9; r in the list starts it again\\'"
                 told))
        (should (string-search "was killed by signal 9" (live-occur--header)))
        (should-error (live-occur-refresh) :type 'user-error)
        (should-error (live-occur-toggle-case) :type 'user-error)
        (should-error (live-occur-drop-pattern 0) :type 'user-error)
        (should (equal live-occur--patterns '("a"))))
      (insert "aa\n")
      (should (equal (live-occur-test--rows list) "1:a\n"))
      (with-current-buffer list
        (call-interactively (key-binding "r")))
      (should (equal (live-occur-test--rows list) "1:a\n3:aa\n"))
      (with-current-buffer list
        (should (string-suffix-p "2 rows, 1 buffer" (live-occur--header)))))))

(ert-deftest live-occur-starts-again-with-all-that-was-set ()
  (live-occur-test--with '("A\nb\nab\n" "c\n")
    (let ((list (live-occur "a\nc" buffers)))
      (with-current-buffer list
        (live-occur-toggle-case)
        (live-occur-toggle-whole-lines)
        (live-occur-extended)
        (live-occur-restart)
        (should (equal (live-occur-test--rows list) "a:1:A\nb:1:c\n"))))))

(ert-deftest live-occur-ends-its-programs-with-the-list ()
  (live-occur-test--with '("a\n")
    (let* ((processes (process-list))
           (buffers (buffer-list))
           (timers (length timer-idle-list))
           (list (live-occur "a")))
      (live-occur-test--mark list)
      (should (length> (process-list) (length processes)))
      (kill-buffer list)
      (should (equal (process-list) processes))
      (should (equal (buffer-list) buffers))
      (should (= (length timer-idle-list) timers)))))

(ert-deftest live-occur-closes-the-file-of-a-killed-buffer ()
  (live-occur-test--with '("a\n" "a\n" "a\n")
    (let ((list (live-occur "a" buffers)))
      (should (equal (live-occur-test--rows list) "a:1:a\nb:1:a\nc:1:a\n"))
      (kill-buffer (nth 1 buffers))
      (live-occur--look list)
      (with-current-buffer list
        (should (equal (live-occur-test--text-shown) "a:1:a\nc:1:a\n")))
      (with-current-buffer (nth 2 buffers)
        (insert "a"))
      (should (equal (live-occur-test--rows list) "a:1:a\nc:1:a\nc:2:a\n"))
      (kill-buffer (nth 2 buffers))
      (should (equal (live-occur-test--rows list) "1:a\n"))
      (with-temp-buffer
        (rename-buffer "temporary")
        (insert "aa")
        (with-current-buffer list
          (live-occur-add-buffer "temporary"))
        (should (equal (live-occur-test--rows list) "a:1:a\ntemporary:1:aa\n"))
        (with-current-buffer list
          (live-occur-remove-buffer "temporary"))
        (insert "a")
        (should (equal (live-occur-test--rows list) "1:a\n"))))))

(ert-deftest live-occur-closes-the-file-of-a-buffer-that-is-gone ()
  (live-occur-test--with '("a\n")
    (let (list)
      (with-temp-buffer
        (rename-buffer "temporary")
        (insert "a\n")
        (setq list (live-occur "a" (list (current-buffer) a)))
        (should (equal (live-occur-test--rows list) "temporary:1:a\na:1:a\n")))
      (insert "a\n")
      (should (equal (live-occur-test--rows list) "1:a\n2:a\n")))))

(ert-deftest live-occur-is-not-told-of-edits-of-a-copy ()
  (live-occur-test--with '("a\n")
    (let ((list (live-occur "a")))
      (live-occur-test--rows list)
      (with-current-buffer (clone-buffer "copy")
        (should live-occur--texts-here)
        (insert "a\na\n"))
      (should (equal (live-occur-test--rows list) "1:a\n"))
      (insert "a\n")
      (should (equal (live-occur-test--rows list) "1:a\n2:a\n"))
      (with-current-buffer list
        (should (live-occur--tick (car live-occur--sources)))))))

(ert-deftest live-occur-offers-the-symbol-at-point ()
  (live-occur-test--with '("")
    (emacs-lisp-mode)
    (insert "a*b+c")
    (should (equal (live-occur--symbol-at-point 'basic) "a\\*b+c"))
    (should (equal (live-occur--symbol-at-point 'extended) "a\\*b\\+c"))
    (should (equal (live-occur--symbol-at-point 'fixed) "a*b+c"))))

;;;; Characters

(defun live-occur-test--beside (name)
  "The file NAME, seen from the folder of the file that is tested."
  (expand-file-name name (file-name-directory (live-occur-test--file))))

(defun live-occur-test--found (syntax flags pattern line)
  "What PATTERN, read by SYNTAX and FLAGS, finds in LINE, as `characters.tsv' has it."
  (live-occur-test--with (list (concat line "\n"))
    (let* ((live-occur-syntax syntax)
           (live-occur-flags (remq ?- (append flags nil)))
           (list (live-occur "" buffers)))
      (with-current-buffer list
        (pcase (live-occur--put (list pattern))
          (`(,kind ,_ ,place) (format "!%s %d" kind place))
          (_ (live-occur-test--wait)
             (or (when-let* ((hit (live-occur--hit 0))
                             (bytes (live-occur--hit-bytes hit)))
                   (mapconcat (pcase-lambda (`(,from . ,to))
                                (live-occur--text (substring bytes from to)))
                              (live-occur--hit-parts hit) ","))
                 "none")))))))

(ert-deftest live-occur-speaks-of-characters ()
  (with-temp-buffer
    (insert-file-contents (live-occur-test--beside "../characters.tsv"))
    (let ((rows (cdr (split-string (buffer-string) "\n" t))))
      (should (> (length rows) 50))
      (dolist (row rows)
        (pcase-let ((`(,syntax ,flags ,pattern ,line ,found) (split-string row "\t")))
          (ert-info (row)
            (should (equal (live-occur-test--found (intern syntax) flags pattern line)
                           found))))))))

(ert-deftest live-occur-speaks-of-bytes-where-that-is-wanted ()
  (should (equal (live-occur--translated (unibyte-string #x80) 'fixed nil)
                 (list (cons 0 (unibyte-string #x80)) (list 1))))
  (let ((live-occur-characters nil))
    (should (equal (live-occur-test--found 'basic "-" "^..$" "é") "é"))
    (should (equal (live-occur-test--found 'basic "i" "é" "É") "none")))
  (live-occur-test--with '("")
    (set-buffer-multibyte nil)
    (insert "\303\251\n")
    (should (equal (live-occur-test--rows (live-occur "^..$")) "1:é\n"))
    (ert-info ("while such a buffer is in the list")
      (let ((other (get-buffer-create "live-occur-b")))
        (with-current-buffer other (insert "éé\nzz\n"))
        (let ((list (live-occur "^..$" (list other))))
          (should (equal (live-occur-test--rows list) "1:éé\n2:zz\n"))
          (with-current-buffer list (live-occur-add-buffer a))
          (should (equal (live-occur-test--rows list) "live-occur-b:2:zz\na:1:é\n"))
          (with-current-buffer list (live-occur-remove-buffer a))
          (should (equal (live-occur-test--rows list) "1:éé\n2:zz\n")))))))

(defun live-occur-test--random-regexp (depth)
  "A random extended expression and the same as a regexp of Emacs, a pair."
  (cl-flet ((one () (nth (random 9) '("a" "é" "É" "日" "ж" "Ж" "b" "ü" "😀")))
            (more () (live-occur-test--random-regexp (1- depth))))
    (pcase (random (if (> depth 0) 8 5))
      (0 (cons "." "."))
      (1 (let ((set (concat (nth (random 2) '("[" "[^"))
                            (one) (nth (random 4) '("" "à-ü" "a-é" "б-я")) (one) "]")))
           (cons set set)))
      ((or 2 3 4) (let ((one (one))) (cons one one)))
      (5 (pcase-let ((`(,a . ,b) (more)) (`(,c . ,d) (more)))
           (cons (concat a c) (concat b d))))
      (6 (pcase-let ((`(,a . ,b) (more)) (`(,c . ,d) (more)))
           (cons (format "(%s|%s)" a c) (format "\\(?:%s\\|%s\\)" b d))))
      (_ (pcase-let ((`(,a . ,b) (more)) (many (nth (random 3) '("*" "+" "?"))))
           (cons (format "(%s)%s" a many) (format "\\(?:%s\\)%s" b many)))))))

(ert-deftest live-occur-finds-the-characters-that-emacs-finds ()
  (random "live-occur characters")
  (live-occur-test--with
      (list (apply #'concat
                   (cl-loop repeat 150
                            collect (concat (cl-loop repeat (random 5) concat
                                                     (nth (random 11) '("a" "é" "É" "日" "ж" "Ж" "b"
                                                                        "ü" "😀" "ÿ" "я")))
                                            "\n"))))
    (let* ((live-occur-syntax 'extended) (list (live-occur "x")) (found 0))
      (dotimes (turn 150)
        (pcase-let ((`(,pattern . ,regexp) (live-occur-test--random-regexp 3))
                    (case-fold-search (cl-evenp turn)))
          (with-current-buffer list
            (setq live-occur-flags (if case-fold-search '(?i ?x) '(?x)))
            (should-not (live-occur--put (list pattern))))
          (let ((wanted (cl-loop for line in (split-string (buffer-string) "\n")
                                 for number from 1
                                 when (and (< number 151)
                                           (string-match-p (format "\\`\\(?:%s\\)\\'" regexp) line))
                                 concat (format "%d:%s\n" number line))))
            (cl-incf found (length wanted))
            (ert-info ((format "%s %s" pattern case-fold-search))
              (should (equal (live-occur-test--rows list) wanted))))))
      (should (> found 2000)))))

(ert-deftest live-occur-searches-no-list ()
  (live-occur-test--with '("a\n")
    (with-current-buffer (live-occur "a")
      (should-error (live-occur "a") :type 'user-error))))

;;;; Typing

(defun live-occur-test--type (keys)
  "Type KEYS, and list what was seen after each key in the minibuffer.
It is the text there, that of the list, and what is said of a fault."
  (let* ((live-occur-typing-delay 0)
         (map (make-sparse-keymap))
         (overriding-terminal-local-map nil)
         seen
         (look (lambda ()
                 (let* ((list (buffer-local-value 'live-occur-test--list (current-buffer)))
                        (end (cl-find-if (lambda (overlay) (overlay-get overlay 'after-string))
                                         (progn
                                           (with-current-buffer list
                                             (dotimes (_ 3)
                                               (accept-process-output nil 0.01))
                                             (live-occur-test--wait))
                                           (overlays-in (point-min) (point-max))))))
                   (push (list (minibuffer-contents-no-properties)
                               (with-current-buffer list (live-occur-test--text-shown))
                               (and end (string-trim (substring-no-properties
                                                      (overlay-get end 'after-string)))))
                         seen))))
         (setup (lambda ()
                  (setq-local live-occur-test--list
                              (cl-find-if (lambda (buffer)
                                            (string-prefix-p "*Live Occur" (buffer-name buffer)))
                                          (buffer-list)))
                  (add-hook 'post-command-hook look 90 t))))
    (define-key map (kbd "C-c t") #'live-occur)
    (define-key map (kbd "C-c a") #'live-occur-add-pattern)
    (define-key map (kbd "C-c c") #'live-occur-change-pattern)
    (define-key map (kbd "C-c k") (lambda ()
                                    (interactive)
                                    (live-occur-test--kill live-occur-test--list)))
    (unwind-protect
        (progn
          (use-global-map (make-composed-keymap map (current-global-map)))
          (add-hook 'minibuffer-setup-hook setup)
          (execute-kbd-macro (kbd keys)))
      (remove-hook 'minibuffer-setup-hook setup)
      (use-global-map global-map))
    (cdr (nreverse seen))))

(defvar live-occur-test--list nil "The list that is followed.")

(ert-deftest live-occur-follows-typing ()
  (live-occur-test--with '("one\ntwo(\nthree\n")
    (live-occur-test--in-windows
      (set-window-buffer nil a)
      (should (equal (live-occur-test--type "C-c t o \\ ( DEL DEL n RET")
                     '(("o" "1:one\n2:two(\n" nil)
                       ("o\\" "1:one\n2:two(\n" "[TrailingBackslash]")
                       ("o\\(" "1:one\n2:two(\n" "[UnclosedGroup]")
                       ("o\\" "1:one\n2:two(\n" "[TrailingBackslash]")
                       ("o" "1:one\n2:two(\n" nil)
                       ("on" "1:one\n" nil))))
      (let ((list (get-buffer "*Live Occur: a*")))
        (should (equal (live-occur-test--rows list) "1:one\n"))
        (with-selected-window (get-buffer-window list)
          (live-occur-toggle-inverse)
          (should (equal (live-occur-test--rows list) "2:two(\n3:three\n"))
          (goto-char (point-max))
          (forward-line -1)
          (live-occur-test--type "C-c a t h C-g")
          (should (looking-at "3:three\n"))
          (live-occur-test--rows list)
          (should (looking-at "3:three\n"))
          (live-occur-toggle-inverse)
          (should (equal (live-occur-test--rows list) "1:one\n"))
          (should (equal (live-occur-test--type "C-c a t h C-g")
                         '(("t" "1:one\n2:two(\n3:three\n" nil)
                           ("th" "1:one\n3:three\n" nil))))
          (should (equal (live-occur-test--text-shown) "1:one\n"))
          (should (equal (live-occur-test--rows list) "1:one\n"))
          (should (equal live-occur--patterns '("on")))
          (should (equal (live-occur-test--type "C-c c DEL DEL t w RET")
                         '(("o" "1:one\n2:two(\n" nil)
                           ("" "" nil)
                           ("t" "2:two(\n3:three\n" nil)
                           ("tw" "2:two(\n" nil))))
          (should (equal (live-occur-test--rows list) "2:two(\n"))
          (should (bobp))
          (should (equal live-occur--patterns '("tw"))))))))

(ert-deftest live-occur-changes-settings-while-a-pattern-is-typed ()
  (live-occur-test--with '("One\no+\no\n")
    (live-occur-test--in-windows
      (set-window-buffer nil a)
      (cl-flet ((prompts (keys)
                  (let (seen)
                    (cl-letf* ((set (symbol-function 'live-occur-preview-set))
                               ((symbol-function 'live-occur-preview-set)
                                (lambda ()
                                  (interactive)
                                  (funcall set)
                                  (push (get-char-property (point-min) 'display) seen))))
                      (list (mapcar (lambda (row) (seq-take row 2))
                                    (live-occur-test--type keys))
                            (mapcar #'substring-no-properties (nreverse seen)))))))
        (should (equal (prompts "C-c t o M-s i M-s x M-s x M-s i RET")
                       '((("o" "2:o+\n3:o\n") ("o" "1:One\n2:o+\n3:o\n") ("o" "3:o\n")
                          ("o" "1:One\n2:o+\n3:o\n") ("o" "2:o+\n3:o\n"))
                         ("List lines that match (basic, both cases): "
                          "List lines that match (basic, both cases, whole lines): "
                          "List lines that match (basic, both cases): "
                          "List lines that match (basic): "))))
        (with-selected-window (get-buffer-window "*Live Occur: a*")
          (should (equal (cadr (prompts "C-c a x M-s v C-g"))
                         '("Add pattern (basic): "))))
        (should (equal (cadr (prompts "C-c t x M-s v C-g"))
                       '("List lines that don't match (basic): ")))
        (ert-info ("a syntax that refuses what is typed counts all the same")
          (should (equal (live-occur-test--type "C-c t + M-s E DEL M-s F + RET")
                         '(("+" "2:o+\n" nil)
                           ("+" "2:o+\n" "[NothingToRepeat]")
                           ("" "" nil)
                           ("" "" nil)
                           ("+" "2:o+\n" nil)))))
        (cl-flet ((settings () (with-current-buffer "*Live Occur: a*"
                                 (live-occur--settings))))
          (should (equal (settings) '(fixed nil nil)))
          (ert-info ("C-g puts them back")
            (live-occur-test--type "C-c t o M-s E M-s i M-s v C-u M-s i C-g")
            (should (equal (settings) '(fixed nil nil)))
            (should (equal (live-occur-test--rows "*Live Occur: a*") "2:o+\n"))
            (live-occur-test--type "C-c t O C-u M-s i RET")
            (should (equal (live-occur-test--rows "*Live Occur: a*") "1:One\n"))
            (should (equal (settings) '(fixed nil t)))))))))

(defun live-occur-test--type-and-list-commands ()
  "Type a pattern and change it, and list the commands that have to do with it."
  (live-occur-test--with '("one\ntwo\nthree\nt\n")
    (live-occur-test--in-windows
      (set-window-buffer nil a)
      (cl-remove-if-not
       (lambda (command) (string-match-p "\\`\\(pattern\\|drop\\)" command))
       (live-occur-test--commands
         (live-occur-test--type "C-c t t h RET")
         (with-selected-window (get-buffer-window "*Live Occur: a*")
           (should (equal (live-occur-test--type "C-c a x \\ ( DEL DEL w RET")
                          '(("x" "3:three\n" nil)
                            ("x\\" "3:three\n" "[TrailingBackslash]")
                            ("x\\(" "3:three\n" "[UnclosedGroup]")
                            ("x\\" "3:three\n" "[TrailingBackslash]")
                            ("x" "3:three\n" nil)
                            ("xw" "3:three\n" nil))))
           (cl-letf (((symbol-function 'completing-read) (lambda (&rest _) "th")))
             (live-occur-test--type "C-c c DEL RET"))
           (should (equal live-occur--patterns '("t" "xw")))
           (should (equal (live-occur-test--rows "*Live Occur: a*")
                          "2:two\n3:three\n4:t\n"))))))))

(ert-deftest live-occur-puts-a-pattern-in-its-place ()
  (should (equal (live-occur-test--type-and-list-commands)
                 '("patterns 1\nt\n" "pattern 0\nth\n"
                   "patterns 2\nth\nx\n" "drop 0\n"
                   "pattern 1\nx\\\n" "pattern 1\nx\\(\n" "pattern 1\nx\\\n"
                   "pattern 1\nxw\n" "pattern 0\nt\n"))))

(defun live-occur-test--commands-of-a-look ()
  "Type a pattern, and list the commands by which the hit after point is found."
  (live-occur-test--with (list (apply #'concat (make-list 500 "a\nb\n")))
    (live-occur-test--in-windows
      (set-window-buffer nil a)
      (goto-char 1001)
      (cl-remove-if-not
       (lambda (command) (string-match-p "\\`\\(text\\|page [0-9]+ 1$\\)" command))
       (live-occur-test--commands
         (should (equal (live-occur-test--shown "C-c t a") '(("a" "501:a" ("a")))))
         (should (= (point) 1001)))))))

(ert-deftest live-occur-looks-for-hits-without-their-lines ()
  (let ((sent (live-occur-test--commands-of-a-look)))
    (should (> (length sent) 9))
    (while sent
      (should (equal (pop sent) "text off\n"))
      (should (string-prefix-p "page " (pop sent)))
      (should (equal (pop sent) "text on\n")))))

(ert-deftest live-occur-goes-away-by-quitting ()
  (live-occur-test--with '("one\n")
    (live-occur-test--in-windows
      (set-window-buffer nil a)
      (let ((processes (process-list)))
        (should (equal (live-occur-test--type "C-c t o C-g") '(("o" "1:one\n" nil))))
        (should-not (get-buffer "*Live Occur: a*"))
        (should (equal (process-list) processes))
        (should (= (count-windows) 1))))))

(ert-deftest live-occur-shows-a-page-while-typing ()
  (live-occur-test--with (list (apply #'concat (make-list 5000 "a\n")))
    (live-occur-test--in-windows
      (set-window-buffer nil a)
      (let ((seen (live-occur-test--type "C-c t a RET")))
        (should (= (length (split-string (nth 1 (car seen)) "\n" t)) 50)))
      (should (= (length (split-string (live-occur-test--rows "*Live Occur: a*") "\n" t)) 5000)))))

;;;; A hit that is shown while a pattern is typed

(defun live-occur-test--shown (keys)
  "Type KEYS, and list what the window of this buffer showed after each key.
It is the line at its point, and the row at that of the list."
  (let* ((window (get-buffer-window))
         seen
         (look (lambda ()
                 (push (list (with-selected-window window
                               (buffer-substring (line-beginning-position) (line-end-position)))
                             (with-selected-window (get-buffer-window live-occur-test--list)
                               (buffer-substring-no-properties
                                (line-beginning-position) (line-end-position)))
                             (with-current-buffer (window-buffer window)
                               (cl-loop for overlay in (overlays-in (point-min) (point-max))
                                        when (eq (overlay-get overlay 'face) 'live-occur-preview)
                                        collect (buffer-substring (overlay-start overlay)
                                                                  (overlay-end overlay)))))
                       seen)))
         (setup (lambda () (add-hook 'post-command-hook look 95 t))))
    (add-hook 'minibuffer-setup-hook setup 90)
    (unwind-protect
        (live-occur-test--type keys)
      (remove-hook 'minibuffer-setup-hook setup))
    (cdr (nreverse seen))))

(ert-deftest live-occur-shows-the-hit-after-point ()
  (live-occur-test--with '("one\ntwo\nthree\nso é two\nfour\n")
    (live-occur-test--in-windows
      (set-window-buffer nil a)
      (goto-char (point-min))
      (forward-line 2)
      (let ((window (selected-window)))
        (should (equal (live-occur-test--shown "C-c t o DEL t w C-p C-n C-n z C-g")
                       '(("so é two" "4:so é two" ("o"))
                         ("three" "" nil)
                         ("three" "3:three" ("t"))
                         ("so é two" "4:so é two" ("tw"))
                         ("two" "2:two" ("tw"))
                         ("so é two" "4:so é two" ("tw"))
                         ("so é two" "4:so é two" ("tw"))
                         ("three" "" nil))))
        (should (eq (selected-window) window))
        (should (eq (current-buffer) a))
        (should (= (point) (window-point) 9))
        (should (= (window-start) 1))
        (should-not (overlays-in (point-min) (point-max)))
        (ert-info ("RET goes there, and leaves the mark")
          (live-occur-test--shown "C-c t o C-n RET")
          (should (looking-at "our$"))
          (should (= (mark t) 9))
          (should-not (overlays-in (point-min) (point-max)))
          (live-occur-test--rows "*Live Occur: a*")
          (with-selected-window (get-buffer-window "*Live Occur: a*")
            (should (looking-at "5:four$")))
          (previous-error)
          (should (looking-at "o é two$")))
        (ert-info ("RET before it is shown")
          (goto-char (point-min))
          (let ((live-occur-typing-delay 100))
            (cl-letf (((symbol-function 'read-from-minibuffer) (lambda (&rest _) "hr")))
              (call-interactively #'live-occur)))
          (should (looking-at "hree$")))
        (ert-info ("none after point: the first one")
          (goto-char (point-max))
          (should (equal (live-occur-test--shown "C-c t n C-g") '(("one" "1:one" ("n")))))
          (should (eobp)))
        (ert-info ("no hit")
          (live-occur-test--shown "C-c t z RET")
          (should (eobp)))
        (ert-info ("its buffer is killed meanwhile")
          (cl-letf (((symbol-function 'read-from-minibuffer)
                     (lambda (&rest _) (kill-buffer a) "o")))
            (with-timeout (10 (error "It is waited for a hit"))
              (call-interactively #'live-occur)))
          (should (equal (live-occur-test--rows "*Live Occur: a*") "")))))))

(ert-deftest live-occur-shows-hits-of-the-buffer-in-which-it-was-asked ()
  (live-occur-test--with '("one\n" "two\nso\nfoo\n" "four\n")
    (live-occur-test--in-windows
      (let ((list (live-occur "x" buffers)) (b (nth 1 buffers)))
        (set-window-buffer nil b)
        (set-buffer b)
        (goto-char (point-max))
        (with-current-buffer list
          (live-occur-test--wait))
        (cl-letf (((symbol-function 'live-occur)
                   (lambda () (interactive) (live-occur--fill list nil nil))))
          (should (equal (live-occur-test--shown "C-c t o C-p C-p C-p C-p C-p C-n C-g")
                         '(("four" "c:1:four" ("o"))
                           ("foo" "b:3:foo" ("o"))
                           ("so" "b:2:so" ("o"))
                           ("two" "b:1:two" ("o"))
                           ("one" "a:1:one" ("o"))
                           ("one" "a:1:one" ("o"))
                           ("two" "b:1:two" ("o")))))
          (should (eq (window-buffer) b))
          (should (eobp))
          (ert-info ("RET goes to one of another buffer, and `next-error' goes on from there")
            (live-occur-test--shown "C-c t o C-p C-p C-p C-p RET")
            (should (eq (window-buffer) a))
            (should (looking-at "one$"))
            (live-occur-test--rows list)
            (next-error)
            (should (eq (window-buffer) b))
            (should (with-current-buffer b (looking-at "o$")))
            (set-buffer b))
          (ert-info ("the buffer of the window is not searched: the first hit of all")
            (with-current-buffer list
              (live-occur-remove-buffer b))
            (goto-char (point-max))
            (should (equal (live-occur-test--shown "C-c t o C-n C-g")
                           '(("one" "a:1:one" ("o")) ("four" "c:1:four" ("o")))))
            (should (eq (window-buffer) b))
            (should (eobp))))))))

(ert-deftest live-occur-keeps-keys-until-a-hit-is-there ()
  (live-occur-test--with (list (apply #'concat (cl-loop for n below 40
                                                        collect (format "%d TODO\n" n))))
    (live-occur-test--in-windows
      (set-window-buffer nil a)
      (goto-char (point-min))
      (let ((map (make-sparse-keymap)))
        (define-key map (kbd "C-c t") #'live-occur)
        (unwind-protect
            (progn
              (use-global-map (make-composed-keymap map (current-global-map)))
              (execute-kbd-macro (kbd "C-c t T O D O C-n C-n C-p C-n RET"))
              (should (looking-at "TODO$"))
              (should (= 3 (line-number-at-pos)))
              (ert-info ("and none, where there is no hit, or no pattern")
                (execute-kbd-macro (kbd "C-c t C-n z C-n \\ ( C-n C-g")))
              (should (= 3 (line-number-at-pos))))
          (use-global-map global-map))))))

(ert-deftest live-occur-shows-a-hit-far-down ()
  (live-occur-test--with (list (mapconcat #'number-to-string (number-sequence 1 3000) "\n"))
    (live-occur-test--in-windows
      (set-window-buffer nil a)
      (goto-char (point-min))
      (forward-line 1999)
      (should (equal (live-occur-test--shown "C-c t 7 C-n 1 C-g")
                     '(("2007" "2007:2007" ("7"))
                       ("2017" "2017:2017" ("7"))
                       ("2071" "2071:2071" ("71")))))
      (should (looking-at "2000$"))
      (ert-info ("it is off")
        (let ((live-occur-preview nil))
          (should (equal (mapcar #'car (live-occur-test--shown "C-c t 7 RET")) '("2000"))))
        (should (looking-at "2000$"))))))

(defun live-occur-test--look ()
  "Look for a hit again."
  (setq live-occur--looking (cons live-occur--patterns t))
  (live-occur--with-part #'live-occur--look-between))

(ert-deftest live-occur-shows-the-hit-after-point-while-more-is-to-come ()
  "A look that began later counts, also if one before it takes longer."
  (live-occur-test--with '("")
    (live-occur-test--in-windows
      (set-window-buffer nil a)
      (dolist (place '((0 . 0) (30100 . 30102) (39999 . 39999)))
        (erase-buffer)
        (let* ((live-occur--block 5000)
               (live-occur--slice-lines 1000)
               (list (live-occur "one")))
          (insert (mapconcat (lambda (line) (format "%s %d\n" (if (= 0 (mod line 3)) "two" "one") line))
                             (number-sequence 0 39999) ""))
          (goto-char (point-min))
          (forward-line (car place))
          (set-window-point nil (point))
          (live-occur--begin-showing list (selected-window))
          (live-occur--try list nil "tw" nil nil)
          (with-current-buffer list
            (should (live-occur--edited-p))
            (let ((preview live-occur--preview)
                  (wanted (with-current-buffer a
                            (goto-char (point-min))
                            (line-beginning-position (1+ (cdr place))))))
              (dotimes (_ 2)
                (live-occur-test--wait)
                (should (looking-at-p (format "%d:two" (1+ (cdr place)))))
                (should (= wanted (window-point (live-occur--preview-window preview))))
                (setf (live-occur--preview-line preview) 40000)
                (live-occur-test--look)
                (accept-process-output live-occur--process 1)
                (setf (live-occur--preview-line preview) (car place))
                (live-occur-test--look)))
            (live-occur--end-showing nil)
            (live-occur--end-preview '("one")))
          (kill-buffer list))))))

(ert-deftest live-occur-stays-at-the-hit-that-keys-have-shown ()
  "A hit is shown while more is to come, and keys move on from there at once."
  (live-occur-test--with '("")
    (live-occur-test--insert-lines 300000 4)
    (goto-char (point-min))
    (live-occur-test--in-windows
      (set-window-buffer nil a)
      (set-window-point nil 1)
      (let ((list (live-occur "dog")))
        (live-occur--begin-showing list (selected-window))
        (live-occur--try list nil "needle" nil nil)
        (with-current-buffer list
          (let ((preview live-occur--preview))
            (live-occur-test--until (lambda ()
                                      (and (equal live-occur--patterns '("needle"))
                                           live-occur--page
                                           (live-occur--preview-number preview))))
            (should (live-occur--edited-p))
            (let ((total (car live-occur--page)))
              (live-occur-test--until (lambda () (> (car live-occur--page) total)))
              (should (= (car live-occur--page) (live-occur--preview-high preview))))
            (with-temp-buffer
              (setq-local live-occur--typing-list list)
              (dotimes (_ 2) (live-occur-preview-next)))
            (live-occur-test--wait)
            (should-not (live-occur--edited-p))
            (should (looking-at-p "9:the quick brown fox needle$"))
            (should (= 2 (live-occur--preview-number preview)))
            (should (string-prefix-p " basic  needle  75000 rows" (live-occur--header)))
            (live-occur--try list nil "needl" nil nil)
            (live-occur-test--wait)
            (should (looking-at-p "1:the quick brown fox needle$")))
          (live-occur--end-showing nil)
          (live-occur--end-preview '("dog")))))))

(ert-deftest live-occur-shows-hits-of-long-lines ()
  "Only what is before the first part of a line is read as a text."
  (live-occur-test--with (list (concat "one\n" (make-string 3000000 ?é) "éwo" (make-string 3000000 ?é)
                                       "\n"))
    (live-occur-test--in-windows
      (set-window-buffer nil a)
      (goto-char (point-min))
      (let ((live-occur-typing-delay 100))
        (cl-letf (((symbol-function 'read-from-minibuffer) (lambda (&rest _) "éw")))
          (call-interactively #'live-occur)))
      (should (= (point) (+ 5 3000000)))
      (should (looking-at-p "éwo")))))

(ert-deftest live-occur-shows-no-hit-outside-of-what-is-narrowed ()
  (live-occur-test--with '("one\ntwo\nso\n")
    (live-occur-test--in-windows
      (set-window-buffer nil a)
      (narrow-to-region 5 9)
      (goto-char 5)
      (should (equal (mapcar #'car (live-occur-test--shown "C-c t s RET")) '("two")))
      (should (buffer-narrowed-p))
      (should (= (point) 5)))))

(defun live-occur-test--grepped (pattern folder)
  "The first rows that grep writes for PATTERN in the file a of FOLDER.
It is nil where the pattern is refused."
  (let ((default-directory (file-name-as-directory folder))
        (coding-system-for-read 'utf-8-emacs-unix))
    (with-temp-buffer
      (unless (eq 2 (call-process live-occur-test--grep nil '(t nil) nil
                                  "-n" "-e" pattern "--" "a"))
        (goto-char (point-min))
        (forward-line 50)
        (buffer-substring (point-min) (point))))))

(ert-deftest live-occur-follows-random-typing ()
  "After each key the list has what grep writes, or is as it was."
  (random "live-occur keys")
  (let ((folder (make-temp-file "live-occur" t)) (accepted 0) (refused 0)
        (live-occur-characters nil))
    (unwind-protect
        (dotimes (_ 6)
          (live-occur-test--with (list (live-occur-test--text 400))
            (live-occur-test--in-windows
              (set-window-buffer nil a)
              (goto-char (point-min))
              (let ((coding-system-for-write 'utf-8-emacs-unix))
                (write-region nil nil (expand-file-name "a" folder) nil 'quiet))
              (let ((keys (cl-loop with length = 0
                                   repeat 25
                                   for key = (nth (random (if (= length 0) 11 13))
                                                  '("a" "b" "a" "x" "." "*" "\\" "(" ")" "["
                                                    "]" "DEL" "DEL"))
                                   do (cl-incf length (if (equal key "DEL") -1 1))
                                   collect key))
                    (before ""))
                (pcase-dolist (`(,text ,rows ,fault)
                               (live-occur-test--type
                                (concat "C-c t " (string-join keys " ") " C-g")))
                  (let ((wanted (if (equal text "") ""
                                  (live-occur-test--grepped text folder))))
                    (should (eq (null wanted) (and fault t)))
                    (should (equal rows (or wanted before)))
                    (setq before rows)
                    (if wanted (cl-incf accepted) (cl-incf refused))))))))
      (delete-directory folder t))
    (should (> accepted 50))
    (should (> refused 10))))

;;;; The program killed in each state

(defun live-occur-test--kill (list)
  "Kill the program of LIST, and wait until that is known."
  (with-current-buffer list
    (unless live-occur--fault
      (signal-process live-occur--process 'KILL))
    ;; In batch mode to write to a pipe that has no reader kills Emacs.
    (cl-letf (((symbol-function 'live-occur--write-text) #'ignore))
      (with-timeout (10 (error "The end of the program is not known"))
        (while (not live-occur--fault)
          (accept-process-output nil 0.01))))))

(defun live-occur-test--restart (list)
  "Start the program of LIST again, and answer the rows."
  (with-current-buffer list
    (should (string-search "was killed by signal 9" (live-occur--header)))
    (live-occur-restart))
  (live-occur-test--rows list))

(ert-deftest live-occur-outlives-its-program ()
  (live-occur-test--with '("one\ntwo\nthree\n" "four\n")
    (live-occur-test--in-windows
      (let ((list (live-occur "o" buffers))
            (rows "a:1:one\na:2:two\nb:1:four\n"))
        (ert-info ("while the first reply is on its way")
          (live-occur-test--kill list)
          (should (equal (live-occur-test--restart list) rows)))
        (ert-info ("while nothing is asked for")
          (live-occur-test--kill list)
          (should (equal (live-occur-test--text-shown-in list) rows))
          (should (equal (live-occur-test--restart list) rows)))
        (ert-info ("with edits that are not sent")
          (insert "o\n")
          (live-occur-test--kill list)
          (delete-char -2)
          (should (equal (live-occur-test--restart list) rows)))
        (ert-info ("while changes are on their way")
          (with-current-buffer list
            (signal-process live-occur--process 'STOP)
            (with-current-buffer a
              (goto-char (point-min))
              (insert "x\n"))
            (live-occur--update))
          (live-occur-test--kill list)
          (goto-char (point-min))
          (delete-char 2)
          (should (equal (live-occur-test--restart list) rows)))
        (ert-info ("while a pattern is typed")
          (with-selected-window (get-buffer-window list)
            (live-occur-test--type "C-c a t C-c k h C-g")
            (should (equal (live-occur-test--text-shown) rows))
            (should (equal live-occur--patterns '("o"))))
          (should (equal (live-occur-test--restart list) rows)))
        (ert-info ("while rows are edited")
          (with-current-buffer list
            (live-occur-edit-mode)
            (live-occur-test--kill list)
            (goto-char (point-min))
            (search-forward "one")
            (insert "s")
            (live-occur-edit-mode -1))
          (should (equal (live-occur-test--restart list)
                         "a:1:ones\na:2:two\nb:1:four\n")))))))

(defmacro live-occur-test--killed-after (list function &rest body)
  "Run BODY, and kill the program of LIST after the first call of FUNCTION.
Where BODY reports that it was killed, that is as it has to be."
  (declare (indent 2) (debug t))
  `(let (killed)
     (advice-add ,function :after (lambda (&rest _)
                                    (unless killed
                                      (setq killed t)
                                      (live-occur-test--kill ,list)))
                 '((name . live-occur-test)))
     (unwind-protect
         (condition-case problem
             (progn ,@body)
           (user-error (should (string-search "was killed" (cadr problem)))))
       (advice-remove ,function 'live-occur-test))
     (should killed)))

(ert-deftest live-occur-outlives-its-program-in-the-midst-of-a-command ()
  (live-occur-test--with '("one\ntwo\nthree\n" "four\n")
    (live-occur-test--in-windows
      (let ((list (live-occur "o" buffers))
            (rows "a:1:one\na:2:two\nb:1:four\n"))
        (live-occur-test--rows list)
        (ert-info ("while a text is sent")
          (goto-char (point-min))
          (insert (apply #'concat (make-list 60000 "x\n")))
          (with-current-buffer list
            (live-occur-test--killed-after list #'live-occur--order
              (live-occur--update)))
          (delete-region 1 120001)
          (should (equal (live-occur-test--restart list) rows)))
        (ert-info ("while a list is opened")
          (should-error (live-occur-test--killed-in-new-list) :type 'user-error))
        (ert-info ("while a pattern waits for its reply")
          (with-current-buffer list
            (live-occur-test--killed-after list #'live-occur--place-to-change
              (live-occur--put '("t")))
            (should (equal live-occur--patterns '("o"))))
          (should (equal (live-occur-test--restart list) rows)))
        (ert-info ("while a page is on its way")
          (with-selected-window (get-buffer-window list)
            (live-occur-test--killed-after list #'live-occur--ask-for-page
              (live-occur-test--type "C-c a t C-g"))
            (should (equal live-occur--patterns '("o")))
            (should (equal (live-occur-test--text-shown) rows)))
          (should (equal (live-occur-test--restart list) rows)))
        (ert-info ("while a page is shown, and the pattern is kept")
          (with-selected-window (get-buffer-window list)
            (live-occur-test--killed-after list #'live-occur--show-page
              (live-occur-test--type "C-c a t RET C-g"))
            (should (equal live-occur--patterns '("o")))
            (should (equal (live-occur-test--text-shown) rows)))
          (should (equal (live-occur-test--restart list) rows)))
        (ert-info ("while a flag waits for its reply")
          (with-current-buffer list
            (signal-process live-occur--process 'STOP)
            (live-occur-test--killed-after list #'live-occur--send
              (live-occur-toggle-inverse))
            (should (equal live-occur-flags '(?v))))
          (should-not (equal (live-occur-test--restart list) rows))
          (with-current-buffer list
            (live-occur-toggle-inverse))
          (should (equal (live-occur-test--rows list) rows)))
        (ert-info ("while the rows to edit are on their way")
          (insert "o\n")
          (with-current-buffer list
            (signal-process live-occur--process 'STOP)
            (live-occur-test--killed-after list #'live-occur--send-block
              (live-occur-edit-mode))
            (should-not live-occur-edit-mode)
            (should buffer-read-only))
          (delete-char -2)
          (should (equal (live-occur-test--restart list) rows)))
        (ert-info ("while it starts again")
          (with-current-buffer list
            (live-occur-test--killed-after list #'live-occur--begin
              (live-occur-restart)))
          (should (equal (live-occur-test--restart list) rows)))))))

(ert-deftest live-occur-outlives-its-program-while-a-hit-is-looked-for ()
  (live-occur-test--with '("one\ntwo\n")
    (live-occur-test--in-windows
      (set-window-buffer nil a)
      (let ((list (live-occur "w")))
        (should (equal (live-occur-test--rows list) "2:two\n"))
        (goto-char (point-min))
        (cl-letf (((symbol-function 'read-from-minibuffer)
                   (lambda (&rest _)
                     (with-current-buffer list
                       (setq live-occur--previewing t))
                     "o"))
                  ((symbol-function 'live-occur--wait-for-hit)
                   (lambda (&rest _)
                     (live-occur-test--kill list)
                     (live-occur--check))))
          (should-error (call-interactively #'live-occur) :type 'user-error))
        (with-current-buffer list
          (should-not live-occur--previewing)
          (should-not live-occur--preview)
          (should-not live-occur--page))
        (should (bobp))
        (should-not (overlays-in (point-min) (point-max)))
        (should (equal (live-occur-test--restart list) "1:one\n2:two\n"))))))

(defun live-occur-test--killed-in-new-list ()
  "Begin a list, and kill its program while its text is sent."
  (let ((buffers (buffer-list)))
    (cl-letf* ((open (symbol-function 'live-occur--add-sources))
               ((symbol-function 'live-occur--add-sources)
                (lambda (buffer)
                  (funcall open buffer)
                  (live-occur-test--kill (current-buffer)))))
      (unwind-protect
          (live-occur "o")
        (should (equal (buffer-list) buffers))))))

(defun live-occur-test--text-shown-in (list)
  "The text that LIST shows."
  (with-current-buffer list
    (live-occur-test--text-shown)))

;;;; Matched parts

(ert-deftest live-occur-knows-places-in-characters ()
  (should (equal (live-occur--in-characters "a\303\251b" '((1 . 2) (2 . 3) (3 . 4)))
                 '((1 . 2) (1 . 2) (2 . 3)))))

(ert-deftest live-occur-highlights-parts ()
  (live-occur-test--with '("abab\nb é b\nx\nbc\n")
    (let ((list (live-occur "b")))
      (should (equal (live-occur-test--mark list)
                     '((3 "b" 5 "b") (2 "b" 6 "b") (2 "b")))))
    (let ((list (live-occur "b$")))
      (should (equal (live-occur-test--mark list) '((5 "b") (6 "b")))))
    (let ((list (live-occur "^b\nc")))
      (should (equal (live-occur-test--mark list) '((2 "b") (2 "bc"))))))
  (live-occur-test--with '("aaa\n")
    (should (equal (live-occur-test--mark (live-occur "aa")) '((2 "aa"))))
    (should (equal (live-occur-test--mark (live-occur "aa$")) '((3 "aa"))))))

(ert-deftest live-occur-highlights-again-what-changed ()
  (live-occur-test--with '("ab\nba\n")
    (let ((list (live-occur "a")))
      (should (equal (live-occur-test--mark list) '((2 "a") (3 "a"))))
      (insert "caa\n")
      (should (equal (live-occur-test--mark list) '((2 "a") (3 "a") (3 "aa"))))
      (with-current-buffer list
        (live-occur-toggle-inverse))
      (should (equal (live-occur-test--mark list) nil))
      (with-current-buffer list
        (live-occur-toggle-inverse))
      (should (equal (live-occur-test--mark list) '((2 "a") (3 "a") (3 "aa")))))))

(ert-deftest live-occur-ends-a-program-that-is-stopped ()
  (live-occur-test--with '("a\n")
    (let ((list (live-occur "a")))
      (should (equal (live-occur-test--rows list) "1:a\n"))
      (with-current-buffer list
        (let ((process live-occur--process))
          (signal-process process 'STOP)
          (with-timeout (10)
            (while (eq (process-status process) 'run)
              (accept-process-output nil 0.02)))
          (should (eq (process-status process) 'stop))))
      (insert "a\n")
      (should (equal (live-occur-test--rows list) "1:a\n"))
      (with-current-buffer list
        (should (string-search "killed by signal 9" (live-occur--header)))
        (live-occur-restart))
      (should (equal (live-occur-test--rows list) "1:a\n2:a\n")))))

;;;; Going to lines

(defmacro live-occur-test--in-windows (&rest body)
  "Run BODY in a frame of one window."
  (declare (indent 0) (debug t))
  `(save-window-excursion
     (delete-other-windows)
     ,@body))

(defun live-occur-test--edited-list (pattern &optional buffers)
  "A list of the lines that match PATTERN, of BUFFERS or of this buffer.
Its rows are there, and can be edited."
  (let ((list (live-occur pattern buffers)))
    (live-occur-test--rows list)
    (with-current-buffer list
      (live-occur-edit-mode))
    list))

(ert-deftest live-occur-visits-lines ()
  (live-occur-test--with '("one\ntwo\nxtwo\n" "two\n")
    (live-occur-test--in-windows
      (let ((list (live-occur "tw" buffers)))
        (live-occur-test--mark list)
        (live-occur-test--at list 2)
        (with-current-buffer list
          (live-occur-visit))
        (should (eq (window-buffer) a))
        (should (= (line-number-at-pos) 3))
        (should (= (current-column) 1))
        (next-error)
        (should (eq (window-buffer) (nth 1 buffers)))
        (should-error (next-error) :type 'user-error)
        (previous-error 2)
        (should (eq (window-buffer) a))
        (should (= (line-number-at-pos) 2))
        (first-error)
        (should (= (line-number-at-pos) 2))
        (with-current-buffer list
          (live-occur-visit
           (list 'mouse-2 (list (display-buffer list)
                                (progn (live-occur-test--go-to-row 2) (point))
                                '(0 . 0) 0))))
        (should (eq (window-buffer) (nth 1 buffers)))))))

(ert-deftest live-occur-highlights-no-lines-around ()
  (live-occur-test--with '("a\nb\nc\na\n")
    (let ((list (live-occur "a")))
      (with-current-buffer list
        (live-occur-set-context 0 1))
      (should (equal (live-occur-test--mark list) '((2 "a") (2 "a")))))))

(ert-deftest live-occur-visits-the-first-part ()
  (live-occur-test--with '("é xab é ab\n")
    (live-occur-test--in-windows
      (let ((list (live-occur "ab")))
        (live-occur-test--rows list)
        (live-occur-test--at list 1)
        (with-current-buffer list
          (live-occur-visit))
        (should (= (current-column) 3))))))

(ert-deftest live-occur-takes-lines-with-fields ()
  "A line goes on where a field ends, as after the prompt of a shell."
  (live-occur-test--with '("")
    (live-occur-test--in-windows
      (insert (propertize "$ " 'field 'output) "ls a\n"
              (propertize "b a\n" 'field 'output) (propertize "$ " 'field 'output))
      (let ((list (live-occur "a")))
        (should (equal (live-occur-test--rows list) "1:$ ls a\n2:b a\n"))
        (live-occur-test--at list 1)
        (with-current-buffer list
          (live-occur-visit)
          (should (looking-at "a$"))
          (should (= (current-column) 5)))
        (with-current-buffer list
          (live-occur-edit-mode)
          (live-occur--look list)
          (live-occur-test--edit-row list 1 "x")
          (live-occur-test--rows-and-lines list)
          (let ((inhibit-modification-hooks t))
            (live-occur-test--edit-row list 2 (propertize "y" 'field 'output)))
          (live-occur-edit-mode -1))
        (should (equal (buffer-substring-no-properties (point-min) (point-max))
                       "x$ ls a\nyb a\n$ "))))))

(ert-deftest live-occur-corrects-numbers-at-once ()
  (live-occur-test--with '("a1\nb\na2\na3\n" "a4\n")
    (live-occur-test--in-windows
      (let ((list (live-occur "a" buffers)))
        (live-occur-test--rows list)
        (goto-char (point-min))
        (forward-line 1)
        (insert "c\nd\n")
        (with-current-buffer list
          (run-hook-with-args 'pre-redisplay-functions (get-buffer-window list))
          (should (equal (live-occur-test--text-shown)
                         "a:1:a1\na:5:a2\na:6:a3\nb:1:a4\n"))
          (goto-char (point-min))
          (while (not (eobp))
            (should (eq (null (get-text-property (point) 'help-echo)) (eolp)))
            (should (eq (null (get-text-property (point) 'mouse-face)) (eolp)))
            (forward-char 1))
          (should-not (live-occur--busy-p)))))))

(ert-deftest live-occur-visits-lines-that-have-moved ()
  (live-occur-test--with (list (concat "o1\n" (apply #'concat (make-list 200 "x\n")) "o2\n"))
    (live-occur-test--in-windows
      (let ((list (live-occur "o")))
        (should (equal (live-occur-test--rows list) "1:o1\n202:o2\n"))
        (goto-char (point-min))
        (insert "x\nx\n")
        (goto-char (point-max))
        (insert "x\n")
        (with-current-buffer list
          (live-occur--step))
        (goto-char 100)
        (insert "\n\n\n")
        (goto-char (point-min))
        (insert "x\nx\ny")
        (dolist (row '(1 2))
          (live-occur-test--at list row)
          (with-current-buffer list
            (live-occur-visit))
          (should (looking-at (format "y?o%d$" row))))))))

(ert-deftest live-occur-shows-lines-as-point-moves ()
  (live-occur-test--with '("x1\nx2\nx3\n")
    (live-occur-test--in-windows
      (let* ((live-occur-follow t)
             (list (live-occur "x")))
        (live-occur-test--rows list)
        (with-selected-window (get-buffer-window list)
          (goto-char (point-min))
          (live-occur-next 2)
          (run-hooks 'post-command-hook)
          (should (eq (current-buffer) list)))
        (should (= (line-number-at-pos (window-point (get-buffer-window a))) 3))
        (save-window-excursion
          (live-occur "x1"))
        (with-selected-window (get-buffer-window list)
          (live-occur-previous 1)
          (run-hooks 'post-command-hook))
        (should (= (line-number-at-pos (window-point (get-buffer-window a))) 2))
        (with-current-buffer list
          (next-error-follow-minor-mode 'toggle)
          (live-occur-previous 1)
          (run-hooks 'post-command-hook))
        (should (= (line-number-at-pos (window-point (get-buffer-window a))) 2))))))

(ert-deftest live-occur-stays-right-while-it-is-narrowed ()
  (live-occur-test--with '("a1\nb\na2\na3\na4\n")
    (live-occur-test--in-windows
      (let ((list (live-occur "a")))
        (live-occur-test--rows list)
        (live-occur-test--at list 2)
        (with-current-buffer list
          (narrow-to-region (point) (line-beginning-position 3)))
        (goto-char (point-min))
        (insert "a0\n")
        (live-occur-test--rows list)
        (search-forward "a3")
        (insert " a")
        (live-occur-test--rows list)
        (goto-char (point-max))
        (insert "a5\n")
        (should (string-prefix-p "4:a2\n5:a3 a\n" (live-occur-test--rows list)))
        (with-current-buffer list
          (goto-char (point-min))
          (should (looking-at "4:a2"))
          (live-occur-next)
          (should (looking-at "5:a3 a"))
          (live-occur-edit-mode)
          (goto-char (point-min))
          (search-forward "a2")
          (insert "!")
          (live-occur-edit-mode -1))
        (should (equal (buffer-string) "a0\na1\nb\na2!\na3 a\na4\na5\n"))
        (with-current-buffer list
          (widen))
        (should (equal (live-occur-test--rows list)
                       "1:a0\n2:a1\n4:a2!\n5:a3 a\n6:a4\n7:a5\n"))))))

(ert-deftest live-occur-unfolds-lines-that-are-shown ()
  (live-occur-test--with '("* one\nfolded\n* two\nrest\n")
    (live-occur-test--in-windows
      (set-window-buffer nil a)
      (dolist (mode (list #'outline-mode #'org-mode))
        (funcall mode)
        (cl-flet ((hidden-p () (invisible-p (+ 2 (string-search "olded" (buffer-string))))))
          (outline-hide-sublevels 1)
          (goto-char (point-min))
          (should (hidden-p))
          (ert-info ("the preview shows it, and folds it again")
            (let (seen)
              (cl-letf* ((show (symbol-function 'live-occur--show-row))
                         ((symbol-function 'live-occur--show-row)
                          (lambda (&rest words)
                            (push (with-current-buffer a (hidden-p)) seen)
                            (apply show words))))
                (live-occur-test--type "C-c t f o l C-g"))
              (should (equal (last seen) '(nil)))
              (should (hidden-p))))
          (ert-info ("RET in the minibuffer goes there")
            (live-occur-test--type "C-c t o l d RET")
            (should (looking-at "old"))
            (should-not (hidden-p)))
          (ert-info ("RET in the list, too")
            (outline-hide-sublevels 1)
            (with-current-buffer (live-occur "folded")
              (live-occur-test--rows (current-buffer))
              (live-occur-test--go-to-row 0)
              (live-occur-visit))
            (should (looking-at "folded"))
            (should-not (hidden-p))))))))

(ert-deftest live-occur-makes-rows-to-copy-and-to-search-them ()
  (live-occur-test--with (list (apply #'concat (cl-loop for n below 3000
                                                        collect (format "a%d\n" n))))
    (live-occur-test--in-windows
      (let ((list (live-occur "a")) (live-occur-idle-rows 0))
        (with-selected-window (get-buffer-window list)
          (live-occur-test--wait)
          (execute-kbd-macro (kbd "M-< C-u 1 0 0 0 C-n C-SPC C-u 5 0 0 C-n M-w"))
          (should (equal (substring-no-properties (current-kill 0))
                         (apply #'concat (cl-loop for n from 1000 below 1500
                                                  collect (format "%d:a%d\n" (1+ n) n)))))
          (execute-kbd-macro (kbd "C-x h M-w"))
          (should (= 3000 (length (split-string (current-kill 0) "\n" t))))
          (live-occur-restart)
          (live-occur-test--wait)
          (execute-kbd-macro (kbd "M-< C-s a 2 5 5 5 RET"))
          (should (equal (buffer-substring-no-properties (line-beginning-position) (point))
                         "2556:a2555")))))))

(ert-deftest live-occur-begins-an-edit-as-other-modes-do ()
  (live-occur-test--with '("one\ntwo\n")
    (live-occur-test--in-windows
      (let ((list (live-occur "o")))
        (live-occur-test--rows list)
        (with-selected-window (get-buffer-window list)
          (live-occur-test--press "M-< C-x C-q C-f C-f X C-x C-q")
          (should-not live-occur-edit-mode)
          (should buffer-read-only))
        (should (equal (live-occur-test--text-of a) "Xone\ntwo\n"))))))

(ert-deftest live-occur-lists-what-is-accessible ()
  (live-occur-test--with '("one\ntwo\nso\nfour\n")
    (narrow-to-region 5 12)
    (should (equal (live-occur-test--rows (live-occur "o")) "1:one\n2:two\n3:so\n4:four\n"))
    (let* ((live-occur-narrowed t)
           (list (live-occur "o")))
      (should (equal (live-occur-test--rows list) "2:two\n3:so\n"))
      (widen)
      (should (equal (live-occur-test--rows list) "2:two\n3:so\n"))
      (should (equal (live-occur-test--rows (live-occur "o"))
                     "1:one\n2:two\n3:so\n4:four\n")))))

(ert-deftest live-occur-is-not-copied ()
  (live-occur-test--with '("one\n")
    (with-current-buffer (live-occur "o")
      (should-error (clone-buffer))
      (should-error (clone-indirect-buffer nil nil)))))

(ert-deftest live-occur-changes-the-pattern-of-a-list ()
  (live-occur-test--with '("one\ntwo\n")
    (live-occur-test--in-windows
      (let ((list (live-occur "o")))
        (with-selected-window (get-buffer-window list)
          (live-occur-test--type "C-c t DEL t w RET")
          (should (equal live-occur--patterns '("tw")))
          (should (equal (live-occur-test--lists) '("*Live Occur: a*")))
          (live-occur-edit-mode)
          (should-error (live-occur-test--type "C-c t x RET") :type 'user-error)))
      (with-current-buffer (live-occur "o" (list a (get-buffer-create "live-occur-b")))
        (should (equal (buffer-name) "*Live Occur: 2 buffers*"))))))

(ert-deftest live-occur-has-hooks-and-hits-for-others ()
  (live-occur-test--with '("one\né twoo\n" "so\n" "none x\n")
    (live-occur-test--in-windows
      (let* (updates visits
             (live-occur-update-hook (list (lambda () (push (live-occur-hits) updates))))
             (live-occur-visit-hook (list (lambda ()
                                            (push (list (buffer-name) (line-number-at-pos)) visits))))
             (list (live-occur "o\\{1,2\\}" (seq-take buffers 2))))
        (live-occur-test--rows list)
        (with-current-buffer list
          (should (live-occur-done-p))
          (should (equal (live-occur-hits)
                         (list (list a 1 "one" '((0 . 1))) (list a 2 "é twoo" '((4 . 6)))
                               (list (nth 1 buffers) 1 "so" '((1 . 2))))))
          (should (equal (car updates) (live-occur-hits)))
          (should (equal (live-occur-hits 1 1) (list (list a 2 "é twoo" '((4 . 6))))))
          (let ((rows (mapcar (pcase-lambda (`(,name . ,at)) (list name (line-number-at-pos at)))
                              (funcall imenu-create-index-function))))
            (should (equal rows '(("a" 1) ("b" 3))))))
        (insert "foo\n")
        (setq updates nil)
        (live-occur-test--rows list)
        (should (= 1 (length updates)))
        (live-occur-test--at list 4)
        (with-current-buffer list
          (live-occur-visit))
        (should (equal visits '(("b" 1))))))))

(ert-deftest live-occur-keeps-the-colours-of-a-buffer ()
  "In batch mode `font-lock-mode' doesn't go on."
  (live-occur-test--with (list (concat (propertize "; one" 'face 'font-lock-comment-face)
                                       " end\né " (propertize "two" 'face 'bold) "\n"))
    (setq-local font-lock-mode t)
    (let ((list (live-occur "o")))
      (live-occur-test--rows list)
      (with-current-buffer list
        (cl-flet ((faces (text) (save-excursion
                                  (goto-char (point-min))
                                  (search-forward text)
                                  (cl-loop for at from (match-beginning 0) below (match-end 0)
                                           collect (get-text-property at 'face)))))
          (should (equal (faces " on") '(font-lock-comment-face
                                         (live-occur-match font-lock-comment-face)
                                         font-lock-comment-face)))
          (should (equal (faces " end") '(nil nil nil nil)))
          (should (equal (faces "é two") '(nil nil bold bold (live-occur-match bold)))))))))

(ert-deftest live-occur-stays-at-its-row ()
  (live-occur-test--with '("x1\nx2\nx3\nx4\n")
    (let ((list (live-occur "x")))
      (live-occur-test--rows list)
      (live-occur-test--at list 3)
      (goto-char (point-min))
      (insert "x0\nx0\n")
      (live-occur-test--rows list)
      (with-current-buffer list
        (should (looking-at "5:x3"))))))

;;;; Which buffers

(ert-deftest live-occur-takes-buffers-by-name-and-mode ()
  (live-occur-test--with '("one\n" "one\n" "one\n")
    (rename-buffer "live-occur-x1")
    (with-current-buffer (nth 1 buffers)
      (rename-buffer "live-occur-x2")
      (emacs-lisp-mode))
    (with-current-buffer (nth 2 buffers)
      (emacs-lisp-mode))
    (let ((live-occur-typing-delay nil))
      (cl-letf (((symbol-function 'read-from-minibuffer) (lambda (&rest _) "o")))
        (should (equal (live-occur-test--rows (live-occur-in-buffers '("^live-occur-x")))
                       "live-occur-x1:1:one\nlive-occur-x2:1:one\n"))
        (should (member "live-occur-x2:1:one"
                        (split-string (live-occur-test--rows
                                       (live-occur-in-buffers '("emacs-lisp-mode" "a")))
                                      "\n")))
        (should-error (live-occur-in-buffers '("^no such name$")) :type 'user-error)))))

(ert-deftest live-occur-takes-buffers-of-a-project-and-of-dired ()
  (live-occur-test--with '("")
    (let* ((folder (make-temp-file "live-occur" t))
           (default-directory (file-name-as-directory folder))
           (project-find-functions (list (lambda (_) (cons 'transient default-directory)))))
      (unwind-protect
          (cl-letf (((symbol-function 'read-from-minibuffer) (lambda (&rest _) "o")))
            (write-region "one\n" nil "f1" nil 'quiet)
            (write-region "two\n" nil "f2" nil 'quiet)
            (with-current-buffer (dired-noselect folder)
              (dired-mark-files-regexp "f[12]")
              (should (equal (live-occur-test--rows (live-occur-in-dired))
                             "f1:1:one\nf2:1:two\n")))
            (with-current-buffer (find-file-noselect "f1")
              (let ((rows (live-occur-test--rows (live-occur-in-project))))
                (should (string-search "f1:1:one\n" rows))
                (should (string-search "f2:1:two\n" rows)))))
        (delete-directory folder t)))))

(defmacro live-occur-test--with-files (files &rest body)
  "Run BODY in a folder that has FILES, a list of names and texts, as a project."
  (declare (indent 1) (debug t))
  `(let* ((folder (file-name-as-directory (make-temp-file "live-occur" t)))
          (before (buffer-list))
          (default-directory folder)
          (live-occur-typing-delay nil)
          (project-find-functions (list (lambda (_) (cons 'transient folder)))))
     (unwind-protect
         (progn
           (pcase-dolist (`(,name . ,text) ,files)
             (make-directory (file-name-directory (expand-file-name name)) t)
             (let ((coding-system-for-write 'utf-8-unix))
               (write-region text nil name nil 'quiet)))
           ,@body)
       (dolist (buffer (buffer-list))
         (when (and (buffer-live-p buffer) (not (memq buffer before)))
           (with-current-buffer buffer (set-buffer-modified-p nil))
           (kill-buffer buffer)))
       (delete-directory folder t))))

(defun live-occur-test--project-list (pattern)
  "The list of lines of this project that match PATTERN."
  (cl-letf (((symbol-function 'read-from-minibuffer) (lambda (&rest _) pattern)))
    (live-occur-in-project)))

(ert-deftest live-occur-lists-files-that-are-not-open ()
  (live-occur-test--with-files '(("a" . "one\ntwo\n") ("d/b" . "xo\né o") ("d/c" . "none\r\nso\r\n")
                                 ("z" . "o\0o\n") ("big" . "ooooo\nooooo\nooooo\n") ("empty" . ""))
    (live-occur-test--in-windows
      (let* ((large-file-warning-threshold 15)
             (inhibit-message t)
             (list (live-occur-test--project-list "o"))
             (sorted (lambda ()
                       (sort (split-string (live-occur-test--rows list) "\n" t) #'string<))))
        (should (equal (buffer-name list)
                       (format "*Live Occur: %s*" (file-name-nondirectory
                                                   (directory-file-name folder)))))
        (should (equal (funcall sorted)
                       '("a:1:one" "a:2:two" "d/b:1:xo" "d/b:2:é o" "d/c:1:none" "d/c:2:so")))
        (should-not (cl-some #'buffer-file-name (cl-set-difference (buffer-list) before)))
        (with-current-buffer list
          (should (string-match-p "6 rows, 6 files  2 left out (\\(1 too large, 1 no text\\|1 no text, 1 too large\\))"
                                  (live-occur--header))))
        (cl-flet ((go-to (row)
                    (with-current-buffer list
                      (goto-char (point-min))
                      (search-forward row)
                      (forward-line 0))))
          (ert-info ("a row's file is opened when it is visited, and not sent again")
            (go-to "d/b:2:é")
            (should-not (cl-some (lambda (command) (string-prefix-p "splice" command))
                                 (live-occur-test--commands
                                   (with-current-buffer list (live-occur-visit))
                                   (funcall sorted))))
            (should (equal (buffer-file-name (window-buffer))
                           (expand-file-name "d/b")))
            (should (with-current-buffer (window-buffer) (looking-at "o$")))
            (with-current-buffer (window-buffer)
              (goto-char (point-min))
              (insert "new o\n"))
            (should (equal (funcall sorted)
                           '("a:1:one" "a:2:two" "d/b:1:new o" "d/b:2:xo" "d/b:3:é o" "d/c:1:none"
                             "d/c:2:so"))))
          (ert-info ("lines around come from the disk")
            (with-current-buffer list (live-occur-set-context 0 1))
            (with-current-buffer list
              (live-occur--put '("one")))
            (should (string-search "a:1:one\na-2-two\n" (live-occur-test--rows list)))
            (with-current-buffer list
              (live-occur-set-context 0 0)
              (live-occur--put '("o")))
            (funcall sorted))
          (ert-info ("an edit of a row opens its file")
            (with-current-buffer list
              (live-occur-edit-mode))
            (go-to "a:2:two")
            (with-current-buffer list
              (goto-char (live-occur--after-head))
              (insert "X")
              (should (equal (with-current-buffer (find-buffer-visiting "a") (buffer-string))
                             "one\nXtwo\n"))
              (live-occur-save))
            (should (member "a:2:Xtwo" (funcall sorted)))
            (should (equal (with-temp-buffer (insert-file-contents "a") (buffer-string))
                           "one\nXtwo\n")))
          (ert-info ("a killed buffer's file is read from the disk")
            (with-current-buffer (find-buffer-visiting "d/b")
              (set-buffer-modified-p nil)
              (kill-buffer))
            (with-current-buffer list (live-occur-refresh))
            (should (equal (funcall sorted)
                           '("a:1:one" "a:2:Xtwo" "d/b:1:xo" "d/b:2:é o" "d/c:1:none" "d/c:2:so"))))
          (ert-info ("files that have changed are read again")
            (write-region "only o here\n" nil "d/c" nil 'quiet)
            (delete-file "d/b")
            (should-not (member "d/c:1:only o here" (funcall sorted)))
            (let ((sent (live-occur-test--commands
                          (with-current-buffer list (live-occur-refresh))
                          (should (equal (funcall sorted)
                                         '("a:1:one" "a:2:Xtwo" "d/c:1:only o here"))))))
              (should (= 2 (cl-count-if (lambda (command) (string-prefix-p "splice" command))
                                        sent)))))
          (ert-info ("one that is opened otherwise is searched there")
            (with-current-buffer (find-file-noselect "d/c")
              (insert "o\n"))
            (with-current-buffer list (live-occur--look list))
            (should (member "d/c:2:only o here" (funcall sorted)))
            (should (member "d/c:1:o" (funcall sorted))))
          (ert-info ("started again, it has all of them")
            (with-current-buffer list (live-occur-restart))
            (should (equal (funcall sorted)
                           '("a:1:one" "a:2:Xtwo" "d/c:1:o" "d/c:2:only o here")))))))))

(ert-deftest live-occur-reads-files-as-buffers-do ()
  "Whatever their encoding and ends of lines, and if they have changed meanwhile."
  (live-occur-test--with-files '(("latin" . "") ("dos" . "one\r\nso\r\n") ("bom" . "\ufeffone\n")
                                 ("cookie" . "-*- coding: koi8-r -*-\n"))
    (let ((coding-system-for-write 'no-conversion) (inhibit-message t))
      (write-region "caf\351 o\n" nil "latin" nil 'quiet)
      (write-region "-*- coding: koi8-r -*-\n\306o\n" nil "cookie" nil 'quiet))
    (live-occur-test--in-windows
      (let* ((names '("latin" "dos" "bom" "cookie"))
             (list (live-occur "o" (mapcar #'expand-file-name names)))
             (rows (live-occur-test--rows list)))
        (should (string-search "dos:1:one\ndos:2:so\nbom:1:one\n" rows))
        (should (string-search "cookie:2:фo\n" rows))
        (with-current-buffer list
          (live-occur-edit-mode)
          (goto-char (point-min))
          (while (not (eobp))
            (goto-char (live-occur--after-head))
            (insert "x")
            (forward-line 1))
          (live-occur-save)
          (should (= 0 live-occur--alone)))
        (dolist (name names)
          (kill-buffer (find-buffer-visiting name)))
        (should (equal (with-temp-buffer
                         (set-buffer-multibyte nil)
                         (dolist (name names) (insert-file-contents-literally name)
                                 (goto-char (point-max)))
                         (buffer-string))
                       (concat "xcaf\351 o\nxone\r\nxso\r\n\357\273\277xone\n"
                               "x-*- coding: koi8-r -*-\nx\306o\n")))
        (with-current-buffer list (live-occur-refresh))
        (live-occur-test--rows list)
        (ert-info ("one that was written since leads to no wrong line")
          (write-region "new\none\n" nil "bom" nil 'quiet)
          (with-current-buffer list
            (goto-char (point-min))
            (search-forward "bom:1:xone")
            (should-error (live-occur-visit) :type 'user-error)
            (live-occur-test--rows list)
            (goto-char (point-min))
            (search-forward "bom:2:one")
            (live-occur-visit))
          (should (with-current-buffer (window-buffer) (looking-at "one"))))))))

(defun live-occur-test--rows-of-files (names)
  "The rows of lines of files NAMES that have an x, from buffers or from the disk."
  (cl-loop
   for name in names
   for buffer = (find-buffer-visiting name)
   for text = (cond (buffer (with-current-buffer buffer (buffer-string)))
                    ((file-exists-p name) (with-temp-buffer (insert-file-contents name)
                                                            (buffer-string)))
                    (t ""))
   concat (cl-loop for line in (split-string text "\n") for number from 1
                   when (string-search "x" line)
                   concat (format "%s:%d:%s\n" name number line))))

(ert-deftest live-occur-follows-files-at-random ()
  "They are written, removed, opened, edited in rows and in buffers, and killed."
  (random "live-occur files")
  (let ((names '("a" "b" "c" "d")) (rows 0) (inhibit-message t) (create-lockfiles nil)
        (make-backup-files nil))
    (live-occur-test--with-files (mapcar (lambda (name) (cons name "x\ny\n")) names)
      (live-occur-test--in-windows
        (let ((list (live-occur "x" (mapcar #'expand-file-name names))))
          (dotimes (_ 250)
            (let* ((name (nth (random 4) names)) (buffer (find-buffer-visiting name)))
              (pcase (random 9)
                ((or 0 1) (unless buffer
                            (write-region (live-occur-test--text 3) nil name nil 'quiet)
                            (set-file-times name (time-add nil (random 1000)))))
                (2 (unless buffer (delete-file name)))
                (3 (when (file-exists-p name) (find-file-noselect name)))
                ((or 4 5) (when buffer
                            (with-current-buffer buffer
                              (goto-char (1+ (random (1+ (buffer-size)))))
                              (insert (nth (random 3) '("x" "\nx" "x\ny"))))))
                (6 (when buffer
                     (with-current-buffer buffer
                       (if (= (random 2) 0) (live-occur-test--save)
                         (set-buffer-modified-p nil)
                         (kill-buffer)))))
                (7 (with-current-buffer list
                     (live-occur-refresh)
                     (live-occur-test--rows list)
                     (when (> (live-occur--total) 0)
                       (live-occur-test--go-to-row (random (live-occur--total)))
                       (live-occur-visit))))
                (8 (with-current-buffer list
                     (live-occur-refresh)
                     (live-occur-test--rows list)
                     (when (> (live-occur--total) 0)
                       (live-occur-edit-mode)
                       (live-occur-test--go-to-row (random (live-occur--total)))
                       (goto-char (live-occur--after-head))
                       (insert "x")
                       (if (= (random 3) 0)
                           (live-occur-abort-changes)
                         (live-occur-edit-mode -1))
                       (should (= 0 live-occur--alone))))))
              (with-current-buffer list
                (live-occur--attach-visited)
                (live-occur-refresh))
              (let ((shown (live-occur-test--rows list)))
                (cl-incf rows (length shown))
                (should (equal shown (live-occur-test--rows-of-files names)))))))))
    (should (> rows 5000))))

(ert-deftest live-occur-shows-hits-in-files-that-are-not-open ()
  (live-occur-test--with-files '(("a" . "one\ntwo\n") ("b" . "xo\nend\n"))
    (live-occur-test--in-windows
      (switch-to-buffer (get-buffer-create "live-occur-other"))
      (setq default-directory folder)
      (let ((list (live-occur "x" (list (expand-file-name "a") (expand-file-name "b")))))
        (cl-letf (((symbol-function 'live-occur)
                   (lambda () (interactive) (live-occur--fill list nil nil)))
                  (live-occur-typing-delay 0))
          (should (equal (mapcar (lambda (row) (seq-take row 2))
                                 (live-occur-test--shown "C-c t o C-n C-n C-g"))
                         '(("one" "a:1:one") ("two" "a:2:two") ("xo" "b:1:xo"))))
          (should (equal (buffer-name (window-buffer)) "live-occur-other"))
          (should-not (find-buffer-visiting "b"))
          (live-occur-test--shown "C-c t o C-n C-n RET")
          (should (eq (window-buffer) (find-buffer-visiting "b")))
          (should (with-current-buffer (window-buffer) (looking-at "o$"))))))))

(ert-deftest live-occur-reads-no-files-after-a-quit ()
  (live-occur-test--with-files (cl-loop for n below 300 collect (cons (format "f%d" n) "one\ntwo\n"))
    (live-occur-test--in-windows
      (switch-to-buffer (get-buffer-create "live-occur-other"))
      (setq default-directory folder)
      (let ((processes (process-list)) (map (make-sparse-keymap)) (read 0)
            (live-occur-typing-delay 0) (inhibit-message t))
        (define-key map (kbd "C-c p") #'live-occur-in-project)
        (unwind-protect
            (cl-letf* ((insert (symbol-function 'live-occur--insert-file))
                       ((symbol-function 'live-occur--insert-file)
                        (lambda (source) (cl-incf read) (funcall insert source))))
              (use-global-map (make-composed-keymap map (current-global-map)))
              (execute-kbd-macro (kbd "C-c p o C-g"))
              (should (equal (process-list) processes))
              (should-not (cl-some #'live-occur--list-p (buffer-list)))
              (let ((now read))
                (accept-process-output nil 0.1)
                (should (= now read))))
          (use-global-map global-map))))))

(ert-deftest live-occur-lists-many-files-in-pieces ()
  "The first rows come early, and Emacs goes on answering."
  :tags '(unwatched)
  (live-occur-test--with-files
      (cl-loop for n below (string-to-number (or (getenv "FILES") "3000"))
               collect (cons (format "d%d/f%d.txt" (/ n 100) n)
                             (apply #'concat (make-list 40 (format "line of file %d, and text\n" n)))))
    (let* ((inhibit-message t)
           (files (project-files (project-current)))
           (start (float-time))
           first all
           (stall (live-occur-test--longest-stall
                   (lambda ()
                     (let ((list (live-occur "line" files)))
                       (with-current-buffer list
                         (while (= 0 (live-occur--total)) (accept-process-output nil 0.01))
                         (setq first (- (float-time) start))
                         (live-occur-test--until
                          (lambda () (= (live-occur--total) (* 40 (length files)))))
                         (live-occur-test--wait)
                         (setq all (- (float-time) start))))))))
      (live-occur-test--tell "%d files: the first rows after %.2f s, all after %.1f s, stall %s"
                             (length files) first all stall)
      (should (< first 3))
      (should (< (car stall) live-occur-test--stall)))))

(ert-deftest live-occur-takes-over-from-isearch ()
  (live-occur-test--with '("a.b\nA.B\naxb\n")
    (live-occur-test--in-windows
      (set-window-buffer nil a)
      (set-buffer a)
      (goto-char (point-min))
      (let ((map (make-sparse-keymap)))
        (set-keymap-parent map isearch-mode-map)
        (define-key map (kbd "M-s l") #'live-occur-isearch)
        (let ((isearch-mode-map map))
          (execute-kbd-macro (kbd "C-s a . b M-s l"))))
      (should (equal (live-occur-test--rows "*Live Occur: a*") "1:a.b\n2:A.B\n"))
      (with-current-buffer "*Live Occur: a*"
        (should (eq live-occur-syntax 'fixed))))))

;;;; One list a buffer

(defun live-occur-test--lists ()
  "The names of the lists that there are, in order."
  (sort (cl-loop for buffer in (buffer-list)
                 when (live-occur--list-p buffer) collect (buffer-name buffer))
        #'string<))

(ert-deftest live-occur-uses-the-list-of-a-buffer-again ()
  (live-occur-test--with '("one\ntwo\nthree\n" "four\n")
    (live-occur-test--in-windows
      (set-window-buffer nil a)
      (live-occur-test--type "C-c t o RET")
      (should (equal (live-occur-test--lists) '("*Live Occur: a*")))
      (let* ((list (get-buffer "*Live Occur: a*"))
             (process (buffer-local-value 'live-occur--process list))
             sent)
        (with-current-buffer list
          (live-occur-extended))
        (should (equal (live-occur-test--rows list) "1:one\n2:two\n"))
        (ert-info ("another pattern, for the text that the program has")
          (cl-letf* ((send (symbol-function 'process-send-string))
                     ((symbol-function 'process-send-string)
                      (lambda (process text)
                        (push (car (split-string text)) sent)
                        (funcall send process text))))
            (should (equal (live-occur-test--type "C-c t t h RET")
                           '(("t" "2:two\n3:three\n" nil) ("th" "3:three\n" nil)))))
          (should-not (seq-intersection sent '("file" "splice")))
          (should (equal (live-occur-test--rows list) "3:three\n"))
          (should (eq (buffer-local-value 'live-occur--process list) process))
          (should (eq (buffer-local-value 'live-occur-syntax list) 'extended)))
        (ert-info ("C-g puts back what it showed")
          (should (get-buffer-window list))
          (should (equal (live-occur-test--type "C-c t o C-g")
                         '(("o" "1:one\n2:two\n" nil))))
          (should (equal (live-occur-test--text-shown-in list) "3:three\n"))
          (should (get-buffer-window list))
          (should (equal (live-occur-test--rows list) "3:three\n"))
          (should (equal (buffer-local-value 'live-occur--patterns list) '("th"))))
        (ert-info ("C-g takes its window away where it had none")
          (delete-other-windows)
          (set-window-buffer nil a)
          (live-occur-test--type "C-c t o C-g")
          (should (buffer-live-p list))
          (should-not (get-buffer-window list))
          (should (equal (live-occur-test--rows list) "3:three\n")))
        (ert-info ("it leaves the window of the buffer, which has shown it, as it is")
          (delete-other-windows)
          (set-window-buffer (split-window) (get-buffer-create "*scratch*"))
          (switch-to-buffer list)
          (switch-to-buffer a)
          (live-occur-test--type "C-c t t h RET")
          (should (eq (window-buffer) a))
          (should (get-buffer-window list))
          (delete-other-windows))
        (ert-info ("a prefix argument makes another list")
          (live-occur-test--type "C-u C-c t w RET")
          (should (equal (live-occur-test--lists) '("*Live Occur: a*" "*Live Occur: a*<2>")))
          (should (equal (live-occur-test--rows list) "3:three\n"))
          (kill-buffer "*Live Occur: a*<2>"))
        (ert-info ("a program that was killed is started again")
          (live-occur-test--kill list)
          (live-occur-test--type "C-c t w RET")
          (should (equal (live-occur-test--rows list) "2:two\n")))
        (ert-info ("a list whose rows are edited is left alone")
          (with-current-buffer list
            (live-occur-edit-mode))
          (should-not (live-occur--list-of a))
          (with-current-buffer list
            (live-occur-edit-mode -1)))
        (ert-info ("a list of two buffers is not the list of one")
          (with-current-buffer list
            (live-occur-add-buffer (nth 1 buffers)))
          (should-not (live-occur--list-of a))
          (should-not (live-occur--list-of (nth 1 buffers))))))))

(ert-deftest live-occur-uses-a-list-again-from-isearch ()
  (live-occur-test--with '("a.b\nA.B\naxb\n")
    (live-occur-test--in-windows
      (set-window-buffer nil a)
      (goto-char (point-min))
      (let* ((live-occur-smart-case t)
             (list (live-occur "A"))
             (map (make-sparse-keymap)))
        (with-current-buffer list
          (live-occur-toggle-whole-lines))
        (set-keymap-parent map isearch-mode-map)
        (define-key map (kbd "M-s l") #'live-occur-isearch)
        (let ((isearch-mode-map map))
          (execute-kbd-macro (kbd "C-s a . b M-s l"))
          (should (equal (live-occur-test--lists) '("*Live Occur: a*")))
          (should (equal (live-occur-test--rows list) "1:a.b\n2:A.B\n"))
          (ert-info ("what the program refuses leaves the list as it was")
            (goto-char (point-min))
            (let ((problem (should-error (execute-kbd-macro (kbd "C-M-s a \\ ( M-s l")))))
              (should (equal "UnclosedGroup at 1: a(" (error-message-string problem))))
            (should (equal (live-occur-test--rows list) "1:a.b\n2:A.B\n"))
            (with-current-buffer list
              (should (eq live-occur-syntax 'fixed))
              (should (equal live-occur-flags '(?i)))
              (should-not live-occur-smart-case)
              (should (equal live-occur--patterns '("a.b")))))
          (ert-info ("the settings stay")
            (live-occur-test--type "C-c t A . B RET")
            (should (equal (live-occur-test--rows list) "1:a.b\n2:A.B\n"))
            (with-current-buffer list
              (should (equal (live-occur--settings) '(fixed (?i) nil))))))))))

(ert-deftest live-occur-translates-regexps-of-isearch ()
  (pcase-dolist (`(,regexp . ,wanted)
                 '(("a" . "a")
                   ("a\\(b\\|c\\)+?d*" . "a(b|c)+d*")
                   ("\\(?:a\\)\\{2,3\\}\\(?1:x\\)" . "(a){2,3}(x)")
                   ("a(b)|{2}" . "a\\(b\\)\\|\\{2\\}")
                   ("*a^b$c" . "\\*a\\^b\\$c")
                   ("^*a$" . "^\\*a$")
                   ("\\(^a$\\)\\|^+$" . "(^a$)|^\\+$")
                   ("[]^a].[[:alpha:]]\\.\\*\\\\" . "[]^a].[[:alpha:]]\\.\\*\\\\")
                   ("\\-é" . "-é")))
    (ert-info (regexp)
      (should (equal (live-occur--from-regexp regexp) wanted))))
  (dolist (regexp '("\\_<a\\_>" "\\ba" "a\\w" "\\(a\\)\\1" "\\`a" "\\s-" "\\" "\\cg"))
    (ert-info (regexp)
      (should-error (live-occur--from-regexp regexp) :type 'user-error)))
  (live-occur-test--with '("foo\nfoobar\nbar\n")
    (live-occur-test--in-windows
      (set-window-buffer nil a)
      (goto-char (point-min))
      (let ((map (make-sparse-keymap)))
        (set-keymap-parent map isearch-mode-map)
        (define-key map (kbd "M-s l") #'live-occur-isearch)
        (let ((isearch-mode-map map))
          (execute-kbd-macro (kbd "C-M-s ^ \\ ( f o + \\ | b \\ ) M-s l"))
          (should (equal (live-occur-test--rows "*Live Occur: a*") "1:foo\n2:foobar\n3:bar\n"))
          (let ((problem (should-error (execute-kbd-macro (kbd "M-< M-s . M-s l")))))
            (should (equal (error-message-string problem)
                           (format-message "\\_< in a regexp can't be said in a pattern of lines"))))
          (should-error (execute-kbd-macro (kbd "C-s f C-q C-j b M-s l")))
          (ert-info ("in a list, for its pattern")
            (with-selected-window (get-buffer-window "*Live Occur: a*")
              (execute-kbd-macro (kbd "M-< C-s f o o b M-s l")))
            (should (equal (live-occur-test--rows "*Live Occur: a*") "2:foobar\n")))
          (should (equal (live-occur-test--lists) '("*Live Occur: a*"))))))))

(ert-deftest live-occur-asks-for-buffers ()
  (live-occur-test--with '("one\n" "one\n" "one\n")
    (let ((live-occur-typing-delay nil))
      (cl-letf (((symbol-function 'completing-read-multiple) (lambda (&rest _) '("a" "c" "a")))
                ((symbol-function 'read-from-minibuffer) (lambda (&rest _) "o")))
        (should (equal (live-occur-test--rows (call-interactively #'live-occur-in-buffers))
                       "a:1:one\nc:1:one\n"))))))

(ert-deftest live-occur-names-the-buffer-where-there-are-several ()
  "Rows have the name of their buffer only while the list has another one."
  (live-occur-test--with '("one\ntwo\nso\n" "one\n")
    (live-occur-test--in-windows
      (let ((list (live-occur "o")))
        (should (equal (live-occur-test--rows list) "1:one\n2:two\n3:so\n"))
        (live-occur-test--at list 2)
        (with-current-buffer list
          (live-occur-set-context 0 1)
          (live-occur-add-buffer (nth 1 buffers))
          (should (equal (live-occur-test--rows list)
                         "a:1:one\na:2:two\na:3:so\n--\nb:1:one\n"))
          (should (looking-at "a:2:two"))
          (live-occur-remove-buffer (nth 1 buffers))
          (should (looking-at "2:two"))
          (live-occur-set-context 0 0)
          (should (equal (live-occur-test--text-shown) "1:one\n2:two\n3:so\n"))
          (live-occur-add-buffer (nth 1 buffers))
          (live-occur-test--rows list))
        (ert-info ("a buffer is killed while rows are edited")
          (with-current-buffer list
            (live-occur-edit-mode)
            (kill-buffer (nth 1 buffers))
            (live-occur--close-killed))
          (live-occur-test--edit-row list 1 "X")
          (should (equal (live-occur-test--text-of list) "a:1:Xone\na:2:two\na:3:so\n"))
          (should (equal (live-occur-test--text-of a) "Xone\ntwo\nso\n"))
          (with-current-buffer list
            (live-occur-edit-mode -1))
          (should (equal (live-occur-test--rows list) "1:Xone\n2:two\n3:so\n")))
        (ert-info ("rows of one buffer are edited, and lead to their lines")
          (with-selected-window (get-buffer-window list)
            (live-occur-test--press "M-< e C-f C-f Y C-n C-a C-f C-f Z C-c C-c"))
          (should (equal (live-occur-test--text-of a) "YXone\nZtwo\nso\n"))
          (should (equal (live-occur-test--mark list) '((4 "o") (5 "o") (3 "o"))))
          (live-occur-test--at list 2)
          (next-error)
          (should (eq (window-buffer) a))
          (should (looking-at "o$")))))))

(ert-deftest live-occur-says-how-a-pattern-is-read ()
  (live-occur-test--with '("one\n")
    (let ((live-occur-typing-delay nil) asked)
      (cl-letf (((symbol-function 'read-from-minibuffer)
                 (lambda (prompt &rest _) (push prompt asked) "o")))
        (let ((list (call-interactively #'live-occur)))
          (with-current-buffer list
            (live-occur-toggle-case)
            (live-occur-toggle-whole-lines)
            (live-occur-extended)
            (live-occur-add-pattern)
            (live-occur-toggle-whole-lines)
            (live-occur-toggle-inverse)
            (live-occur-toggle-case t))
          (call-interactively #'live-occur)
          (with-current-buffer list
            (live-occur-fixed)
            (live-occur-toggle-case)
            (live-occur-drop-pattern 0)
            (call-interactively #'live-occur-add-pattern))))
      (should (equal (nreverse asked)
                     '("List lines that match (basic): "
                       "Add pattern (extended, both cases, whole lines): "
                       "List lines that don't match (extended, smart case): "
                       "Add pattern (fixed): "))))))

;;;; A list of a region

(ert-deftest live-occur-lists-lines-of-a-region ()
  (live-occur-test--with '("one\ntwo\nso\nthree\nfour\n" "one\n")
    (let ((list (live-occur "o" nil nil '(5 . 10))))
      (cl-flet ((rows (text) (should (equal (live-occur-test--rows list) text)))
                (at-line (line) (goto-char (point-min)) (forward-line (1- line))))
        (rows "2:two\n3:so\n")
        (with-current-buffer list
          (should (string-suffix-p "o  2 rows, 1 region" (live-occur--header))))
        (ert-info ("lines come and go above it, in it and below it")
          (at-line 1)
          (insert "o1\n")
          (rows "3:two\n4:so\n")
          (at-line 4)
          (insert "o2\n")
          (rows "3:two\n4:o2\n5:so\n")
          (at-line 6)
          (forward-char 2)
          (insert "o3\no")
          (rows "3:two\n4:o2\n5:so\n")
          (undo-boundary))
        (ert-info ("lines that are put directly before it and after it")
          (at-line 3)
          (insert "o4\n")
          (rows "3:o4\n4:two\n5:o2\n6:so\n")
          (at-line 7)
          (insert "o5\n")
          (rows "3:o4\n4:two\n5:o2\n6:so\n7:o5\n")
          (insert "o")
          (rows "3:o4\n4:two\n5:o2\n6:so\n7:o5\n"))
        (ert-info ("a change of all lines, and another pattern")
          (with-current-buffer list
            (live-occur-toggle-inverse)
            (live-occur--put '("t"))
            (live-occur-set-context 1 1))
          (rows "3:o4\n4-two\n5:o2\n6:so\n7:o5\n")
          (with-current-buffer list
            (live-occur-toggle-inverse))
          (rows "3-o4\n4:two\n5-o2\n")
          (with-current-buffer list
            (live-occur--put '("4"))
            (live-occur-restart))
          (rows "3:o4\n4-two\n")
          (with-current-buffer list
            (live-occur-set-context 0 0)
            (live-occur--put '("o"))))
        (ert-info ("rows are edited")
          (rows "3:o4\n4:two\n5:o2\n6:so\n7:o5\n")
          (with-current-buffer list
            (live-occur-edit-mode))
          (live-occur-test--edit-row list 1 "X")
          (live-occur-test--edit-row list 5 "Y")
          (with-current-buffer list
            (live-occur-edit-mode -1))
          (rows "3:Xo4\n4:two\n5:o2\n6:so\n7:Yo5\n"))
        (ert-info ("it has one buffer, and is not used again")
          (with-current-buffer list
            (should-error (live-occur-add-buffer (nth 1 buffers)) :type 'user-error))
          (should-not (live-occur--list-of a)))
        (ert-info ("all of it goes, and something comes")
          (at-line 3)
          (delete-region (point) (line-beginning-position 6))
          (rows "")
          (insert "so\n")
          (rows "3:so\n")
          (erase-buffer)
          (rows "")
          (insert "o\no")
          (rows "1:o\n"))))))

(ert-deftest live-occur-keeps-the-bounds-of-a-region-through-undo ()
  (live-occur-test--with '("o1\no2\no3\no4\no5\n")
    (dolist (region '((4 . 10) (5 . 8) (4 . 7)))
      (let ((list (live-occur "o" nil nil region))
            (wanted (if (= (cdr region) 7) "2:o2\n" "2:o2\n3:o3\n")))
        (should (equal (live-occur-test--rows list) wanted))
        (dolist (gone '((1 . 4) (4 . 7) (7 . 10) (10 . 13) (1 . 10) (4 . 16) (1 . 16)
                        (2 . 5) (8 . 11) (3 . 4) (9 . 10) (6 . 7)))
          (undo-boundary)
          (delete-region (car gone) (cdr gone))
          (live-occur-test--rows list)
          (undo-boundary)
          (setq last-command nil)
          (undo)
          (undo-boundary)
          (should (equal (list gone (live-occur-test--rows list)) (list gone wanted))))
        (kill-buffer list)))))

(ert-deftest live-occur-lists-lines-of-a-region-to-the-end ()
  (live-occur-test--with '("o1\no2\no3")
    (let ((list (live-occur "o" nil nil (cons 4 (point-max)))))
      (should (equal (live-occur-test--rows list) "2:o2\n3:o3\n"))
      (goto-char (point-max))
      (insert "\no4")
      (should (equal (live-occur-test--rows list) "2:o2\n3:o3\n4:o4\n")))))

(ert-deftest live-occur-takes-the-active-region ()
  (live-occur-test--with (list (mapconcat (lambda (line) (format "x%d" line))
                                          (number-sequence 1 300) "\n"))
    (live-occur-test--in-windows
      (set-window-buffer nil a)
      (transient-mark-mode 1)
      (goto-char (point-min))
      (forward-line 99)
      (push-mark (point) t t)
      (forward-line 101)
      (cl-flet ((lines (rows) (cons (length (split-string rows "\n" t))
                                    (substring rows 0 (string-search "\n" rows)))))
        (let ((seen (live-occur-test--type "C-c t x DEL 9 C-n RET")))
          (should (equal (mapcar (lambda (step) (lines (nth 1 step))) seen)
                         '((50 . "100:x100") (0 . "") (19 . "109:x109") (19 . "109:x109")))))
        (should-not (use-region-p))
        (should (equal (thing-at-point 'line) "x119\n"))
        (let ((list (get-buffer "*Live Occur: a*")))
          (should (equal (lines (live-occur-test--rows list)) '(19 . "109:x109")))
          (with-current-buffer list
            (should (string-suffix-p "19 rows, 1 region" (live-occur--header)))))))))

(defun live-occur-test--list-regions-at-random (turns)
  "In TURNS, compare the rows of regions with what is searched for here."
  (live-occur-test--with (list (live-occur-test--text 200))
    (let ((compared 0) (inside 0) list)
      (dotimes (turn turns)
        (when (= (mod turn 100) 0)
          (when list (kill-buffer list))
          (erase-buffer)
          (insert (live-occur-test--text 300))
          (let ((places (sort (list (live-occur-test--position) (live-occur-test--position)) #'<)))
            (setq list (live-occur "a" nil nil (cons (car places) (cadr places))))))
        (pcase (random 30)
          (0 (let ((inhibit-modification-hooks t))
               (live-occur-test--edit)))
          (_ (live-occur-test--edit)))
        (when (= (random 8) 0)
          (with-current-buffer list
            (live-occur--update))
          (accept-process-output nil 0.001))
        (when (= (random 3) 0)
          (pcase-let* ((rows (live-occur-test--rows list))
                       (`(,from . ,to) (live-occur--bounds
                                        (car (buffer-local-value 'live-occur--sources list))))
                       (wanted (save-excursion
                                 (goto-char (point-min))
                                 (let ((case-fold-search nil))
                                   (cl-loop for line from 0 until (eobp)
                                            when (and (<= from line) (< line to)
                                                      (search-forward "a" (line-end-position) t))
                                            concat (progn
                                                     (cl-incf inside)
                                                     (format "%d:%s\n" (1+ line)
                                                             (buffer-substring
                                                              (line-beginning-position)
                                                              (line-end-position))))
                                            do (forward-line 1))))))
            (cl-incf compared)
            (should (equal rows wanted)))))
      (should (> compared (/ turns 5)))
      (should (> inside turns)))))

(ert-deftest live-occur-lists-a-region-at-random ()
  "After random edits the rows are the hits among the lines of the region."
  (random "live-occur region")
  (live-occur-test--list-regions-at-random 1500))

(ert-deftest live-occur-lists-a-region-at-random-in-pieces ()
  (random "live-occur region in pieces")
  (live-occur-test--in-pieces
    (live-occur-test--list-regions-at-random 700)))

(ert-deftest live-occur-lists-a-region-of-a-large-text ()
  "While more is to come, and at the end."
  (live-occur-test--with '("")
    (live-occur-test--insert-lines 100000 100)
    (live-occur-test--in-windows
      (let ((list (live-occur "needle" nil nil
                              (cons (progn (goto-char (point-min))
                                           (line-beginning-position 60002))
                                    (line-beginning-position 60202)))))
        (with-current-buffer list
          (should live-occur--more)
          (should (string-suffix-p "1 region  more to come" (live-occur--header)))
          (live-occur-test--wait))
        (should (equal (live-occur-test--rows list)
                       (concat "60101:the quick brown fox needle\n"
                               "60201:the quick brown fox needle\n")))
        (dotimes (_ 30000)
          (insert "needle\n"))
        (goto-char (point-min))
        (forward-line 90150)
        (insert "needle\n")
        (should (equal (live-occur-test--rows list)
                       (concat "90101:the quick brown fox needle\n"
                               "90151:needle\n"
                               "90202:the quick brown fox needle\n")))))))

;;;; Smart case

(ert-deftest live-occur-has-smart-case ()
  (live-occur-test--with '("foo Bar\nFOO bar\n")
    (live-occur-test--in-windows
      (set-window-buffer nil a)
      (let ((live-occur-smart-case t))
        (should (equal (live-occur-test--type "C-c t f DEL F O DEL DEL f RET")
                       '(("f" "1:foo Bar\n2:FOO bar\n" nil)
                         ("" "" nil)
                         ("F" "2:FOO bar\n" nil)
                         ("FO" "2:FOO bar\n" nil)
                         ("F" "2:FOO bar\n" nil)
                         ("" "" nil)
                         ("f" "1:foo Bar\n2:FOO bar\n" nil))))
        (with-current-buffer "*Live Occur: a*"
          (should (string-prefix-p " basic, smart case -i  f  2 rows" (live-occur--header)))
          (ert-info ("one pattern with an upper-case letter is enough")
            (live-occur--put '("foo" "B"))
            (should (equal (live-occur-test--rows (current-buffer)) "1:foo Bar\n"))
            (should (string-prefix-p " basic, smart case  foo  B  1 row" (live-occur--header)))
            (live-occur-drop-pattern 1)
            (should (equal (live-occur-test--rows (current-buffer)) "1:foo Bar\n2:FOO bar\n")))
          (ert-info ("a letter after a backslash isn't counted, but in a fixed string")
            (should (equal (live-occur--flags-for '("\\W")) '(?i)))
            (should-not (live-occur--flags-for '("\\\\W")))
            (live-occur-fixed)
            (should-not (live-occur--flags-for '("\\W")))
            (live-occur--put '("\\W"))
            (should-not live-occur-flags)
            (live-occur--put '("[[:upper:]]"))
            (should (equal live-occur-flags '(?i)))
            (live-occur-basic)
            (should-not live-occur-flags))
          (ert-info ("by hand")
            (live-occur--put '("F"))
            (call-interactively (key-binding "i"))
            (should (equal (live-occur-test--rows (current-buffer)) "1:foo Bar\n2:FOO bar\n"))
            (should-not live-occur-smart-case)
            (should (string-prefix-p " basic -i  F  2 rows" (live-occur--header)))
            (call-interactively (key-binding "v"))
            (should (equal live-occur-flags '(?i ?v)))
            (let ((current-prefix-arg '(4)))
              (call-interactively (key-binding "i")))
            (should (equal live-occur-flags '(?v)))
            (should (equal (live-occur-test--rows (current-buffer)) "1:foo Bar\n")))
          (ert-info ("started again")
            (live-occur--put '("f"))
            (live-occur-toggle-inverse)
            (live-occur-restart)
            (should (equal (live-occur-test--rows (current-buffer)) "1:foo Bar\n2:FOO bar\n"))))))))

;;;; Editing rows

(ert-deftest live-occur-edits-rows-once-all-lines-are-searched ()
  (live-occur-test--with '("")
    (live-occur-test--in-pieces
      (cl-letf* ((told nil)
                 ((symbol-function 'message)
                  (lambda (&rest words) (push (apply #'format-message words) told)))
                 (list (live-occur "one")))
        (insert (apply #'concat (make-list 200 "one\n")))
        (with-current-buffer list
          (live-occur-edit-mode)
          (should (= 200 (count-lines 1 (point-max))))
          (live-occur-edit-mode -1)
          (live-occur-test--wait)
          (should (member "Rows are edited once all lines are searched" told))
          (setq told nil)
          (live-occur-edit-mode)
          (should-not (member "Rows are edited once all lines are searched" told)))))))

(ert-deftest live-occur-edits-rows-of-many-buffers ()
  "A change asks about its own buffer alone."
  (live-occur-test--with (make-list 30 "one\n")
    (let ((list (live-occur-test--edited-list "one" buffers)) (asked 0))
      (cl-letf* ((state (symbol-function 'live-occur--visited-state))
                 ((symbol-function 'live-occur--visited-state)
                  (lambda () (cl-incf asked) (funcall state))))
        (dotimes (row 30) (live-occur-test--edit-row list (1+ row) "x")))
      (should (< asked 100))
      (with-current-buffer list
        (should (= 30 (length (live-occur--changed-buffers))))
        (live-occur-abort-changes))
      (dolist (buffer buffers)
        (should (equal (live-occur-test--text-of buffer) "one\n"))))))

(ert-deftest live-occur-edits-rows ()
  (live-occur-test--with '("one\ntwo\nthree\n" "four\n")
    (live-occur-test--in-windows
      (let ((list (live-occur "o" buffers)))
        (should (equal (live-occur-test--rows list) "a:1:one\na:2:two\nb:1:four\n"))
        (with-selected-window (get-buffer-window list)
          (live-occur-test--press "M-< e M-f C-f C-f C-f X")
          (should (equal (buffer-string) "a:1:Xone\na:2:two\nb:1:four\n"))
          (should (equal (with-current-buffer a (buffer-string)) "Xone\ntwo\nthree\n"))
          (live-occur-test--press "C-n C-e C-q C-j Y")
          (should (equal (with-current-buffer a (buffer-string)) "Xone\ntwo Y\nthree\n"))
          (undo-boundary)
          (undo 2)
          (should (equal (with-current-buffer a (buffer-string)) "Xone\ntwo\nthree\n"))
          (should (equal (buffer-substring-no-properties (point-min) (point-max))
                         "a:1:Xone\na:2:two\nb:1:four\n"))
          (should-error (progn (goto-char (point-min)) (insert "x")) :type 'text-read-only)
          (should-error (progn (goto-char (point-max)) (insert "x")) :type 'text-read-only)
          (should-error (delete-char -1) :type 'text-read-only)
          (goto-char (point-max))
          (forward-char -5)
          (insert "ab")
          (should (equal (with-current-buffer (nth 1 buffers) (buffer-string)) "abfour\n"))
          (search-backward "two")
          (delete-char 3)
          (should (equal (with-current-buffer a (buffer-string)) "Xone\n\nthree\n"))
          (live-occur-test--press "C-c C-c"))
        (should (equal (live-occur-test--rows list) "a:1:Xone\nb:1:abfour\n"))
        (with-current-buffer list
          (should buffer-read-only)
          (should (eq (key-binding "e") #'live-occur-edit-mode)))))))

(defun live-occur-test--press (keys)
  "Press KEYS in the selected window."
  (execute-kbd-macro (kbd keys)))

(ert-deftest live-occur-refuses-to-edit-what-it-may-not ()
  (live-occur-test--with '("one\ntwo\no3\n" "four\n" )
    (with-current-buffer (nth 1 buffers)
      (setq buffer-read-only t))
    (let ((list (live-occur "o" buffers)) told)
      (should (equal (live-occur-test--rows list) "a:1:one\na:2:two\na:3:o3\nb:1:four\n"))
      (with-current-buffer list
        (live-occur-edit-mode)
        (goto-char (point-max))
        (forward-char -3)
        (should (equal (should-error (insert "x") :type 'text-read-only)
                       '(text-read-only "buffer b")))
        (forward-char 2)
        (should-error (insert "x") :type 'text-read-only)
        (with-current-buffer a
          (goto-char (point-min))
          (forward-line 1)
          (delete-region (point) (line-beginning-position 2)))
        (cl-letf (((symbol-function 'message)
                   (lambda (&rest words) (setq told (apply #'format words)))))
          (goto-char (point-min))
          (search-forward "two")
          (insert "x")
          (should (equal told "The line of this row in a is gone, or was edited there; the row alone is edited"))
          (search-forward "o3")
          (insert "x")
          (with-current-buffer a
            (should (equal (buffer-string) "one\no3x\n"))
            (setq buffer-read-only t))
          (insert "y")
          (should (equal told "Buffer a is read-only; the row alone is edited")))
        (live-occur-edit-mode -1))
      (should (equal (live-occur-test--rows list) "a:1:one\na:2:o3x\nb:1:four\n")))))

(ert-deftest live-occur-leaves-rows-of-lines-that-are-gone-alone ()
  "They show no other line, and are written into none, also where one is the same."
  (live-occur-test--with '("one\ntwo\ntwo\no4\n")
    (live-occur-test--in-windows
      (let ((list (live-occur-test--edited-list "o")) told)
        (dolist (gone '((1 . 5) (1 . 5)))
          (delete-region (car gone) (cdr gone))
          (with-current-buffer list
            (live-occur--look list)
            (should (equal (live-occur-test--text-shown) "1:one\n2:two\n3:two\n4:o4\n"))))
        (cl-letf (((symbol-function 'message)
                   (lambda (&rest words) (setq told (apply #'format words)))))
          (dolist (row '(1 2))
            (live-occur-test--edit-row list row "x")
            (should (string-prefix-p "The line of this row in a is gone" told))))
        (live-occur-test--edit-row list 3 "y")
        (should (equal (buffer-string) "ytwo\no4\n"))
        (ert-info ("a line that comes back")
          (goto-char (point-min))
          (insert "one\n")
          (with-current-buffer list
            (live-occur-edit-mode -1))
          (should (equal (live-occur-test--rows list) "1:xone\n2:ytwo\n3:o4\n")))))))

(ert-deftest live-occur-follows-lines-while-rows-are-edited ()
  (live-occur-test--with '("one\ntwo\n")
    (live-occur-test--in-windows
      (let ((list (live-occur "o")))
        (live-occur-test--rows list)
        (setq buffer-undo-list nil)
        (with-selected-window (get-buffer-window list)
          (live-occur-edit-mode)
          (goto-char (point-min))
          (search-forward "tw")
          (insert "12"))
        (undo-boundary)
        (should (equal (buffer-string) "one\ntw12o\n"))
        (undo)
        (should (equal (buffer-string) "one\ntwo\n"))
        (with-current-buffer list
          (live-occur--look list)
          (should (equal (live-occur-test--text-shown) "1:one\n2:two\n"))
          (search-backward "tw")
          (insert "3"))
        (should (equal (buffer-string) "one\n3two\n"))
        (with-current-buffer list
          (live-occur-edit-mode -1))
        (should (equal (live-occur-test--rows list) "1:one\n2:3two\n"))))))

(ert-deftest live-occur-corrects-numbers-while-rows-are-edited ()
  (live-occur-test--with (list (concat "x\n" (apply #'concat (make-list 9 "o\n"))))
    (live-occur-test--in-windows
      (let ((list (live-occur-test--edited-list "o")))
        (cl-flet ((numbers ()
                    (with-current-buffer list
                      (live-occur--look list)
                      (save-excursion
                        (goto-char (point-min))
                        (cl-loop until (eobp)
                                 collect (or (get-text-property (point) 'display)
                                             (buffer-substring-no-properties
                                              (point) (1- (live-occur--after-head))))
                                 do (forward-line 1))))))
          (should (equal (numbers) (mapcar #'number-to-string (number-sequence 2 10))))
          (goto-char (point-min))
          (insert "new\n")
          (should (equal (numbers) (mapcar #'number-to-string (number-sequence 3 11))))
          (live-occur-test--edit-row list 9 "Y")
          (with-current-buffer list
            (undo-boundary)
            (let ((last-command nil)) (undo)))
          (should (equal (live-occur-test--text-of a)
                         (concat "new\nx\n" (apply #'concat (make-list 9 "o\n")))))
          (goto-char (point-min))
          (delete-region 1 5)
          (should (equal (numbers) (mapcar #'number-to-string (number-sequence 2 10))))
          (with-current-buffer list
            (live-occur-edit-mode -1))
          (should (string-prefix-p "2:o\n" (live-occur-test--rows list))))))))

(ert-deftest live-occur-yanks-the-head-of-a-row ()
  (live-occur-test--with '("one\ntwo\n")
    (live-occur-test--in-windows
      (let ((list (live-occur-test--edited-list "o")))
        (with-selected-window (get-buffer-window list)
          (live-occur-test--press "M-< C-SPC C-f C-f M-w C-y")
          (should (equal (buffer-substring-no-properties 1 8) "1:1:one"))
          (live-occur-edit-mode -1))
        (should (equal (live-occur-test--text-of a) "1:one\ntwo\n"))
        (should (equal (live-occur-test--rows list) "1:1:one\n2:two\n"))))))

(ert-deftest live-occur-edits-rows-at-random ()
  "After each of many edits of rows and undos, the lines are those of the rows."
  (random "live-occur rows")
  (live-occur-test--with '("ab\nc\naé\nba\n\na\n" "a\nx\n€a")
    (let ((list (live-occur "a" buffers)))
      (live-occur-test--rows list)
      (with-current-buffer list
        (live-occur-edit-mode)
        (dotimes (_ 300)
          (live-occur-test--go-to-row (random (live-occur--total)))
          (let* ((start (next-single-property-change (point) 'live-occur-number))
                 (place (+ start (random (1+ (- (line-end-position) start)))))
                 (end (min (line-end-position) (+ place (random 3)))))
            (pcase (random 7)
              ((or 0 1) (goto-char place) (insert (live-occur-test--text 2)))
              (6 (kill-ring-save (max 1 (- place (random 9))) (min (point-max) (+ place (random 12))))
                 (goto-char place)
                 (if (= 0 (random 2)) (yank) (insert (car kill-ring))))
              (2 (delete-region place end))
              (3 (upcase-region place end))
              (4 (goto-char place) (delete-region place end) (insert "é"))
              (5 (ignore-errors (undo (1+ (random 2)))))))
          (undo-boundary)
          (goto-char (point-min))
          (live-occur--map-hits
           (lambda (hit)
             (should (equal (buffer-substring-no-properties
                             (next-single-property-change (point) 'live-occur-number)
                             (line-end-position))
                            (live-occur-test--line-of hit)))
             (forward-line 1))
           0 (live-occur--total)))
        (live-occur-edit-mode -1))
      (should (equal (with-current-buffer a (count-lines 1 (point-max))) 6))
      (let ((folder (make-temp-file "live-occur" t)))
        (unwind-protect
            (should (equal (live-occur-test--rows list) (live-occur-test--searched list folder)))
          (delete-directory folder t))))))

(defun live-occur-test--rows-and-lines (list)
  "Check that LIST, whose rows are edited, has the rows that it had, and their lines."
  (with-current-buffer list
    (should live-occur-edit-mode)
    (should (memq #'live-occur--row-changed after-change-functions))
    (should (= (live-occur--total) (count-lines (point-min) (point-max))))
    (live-occur--map-rows
     (lambda (hit)
       (should (equal (live-occur-test--line-of hit) (live-occur--row-text)))
       (should-not (text-property-not-all (live-occur--after-head) (line-end-position)
                                          'read-only nil))
       (should (get-text-property (line-end-position) 'read-only)))
     0 (live-occur--total))))

(ert-deftest live-occur-yanks-rows-into-a-row ()
  "A copy of heads and ends of rows becomes text as any other."
  (dolist (keys '("M-> C-p C-f C-f C-f C-SPC M-< C-e M-w M-< C-n C-f C-f C-y"
                  "M-< C-SPC M-> M-w M-< C-f C-f C-f C-y"
                  "M-< C-SPC C-e M-w M-< C-f C-f C-y"
                  "M-< C-SPC C-f C-f M-w M-< C-f C-f C-y C-y"
                  "M-< C-n C-SPC C-f C-f M-w M-< C-f C-f C-y"
                  "M-< C-e C-SPC C-n M-w M-< C-n C-e C-y x C-y"))
    (live-occur-test--with '("one\ntwo\nthree\nfour\n")
      (live-occur-test--in-windows
        (let ((list (live-occur-test--edited-list "o")) after)
          (with-selected-window (get-buffer-window list)
            (undo-boundary)
            (live-occur-test--press keys)
            (live-occur-test--rows-and-lines list)
            (setq after (buffer-substring-no-properties (point-min) (point-max)))
            (undo-boundary)
            (undo)
            (live-occur-test--rows-and-lines list)
            (should-not (equal after (buffer-substring-no-properties (point-min) (point-max))))
            (undo-boundary)
            (setq last-command 'ignore)
            (undo)
            (live-occur-test--rows-and-lines list)
            (should (equal after (buffer-substring-no-properties (point-min) (point-max))))
            (live-occur-test--press "M-> C-b Z")
            (live-occur-test--rows-and-lines list)
            (setq after (buffer-substring-no-properties (point-min) (point-max)))
            (live-occur-test--press "C-c C-c"))
          (should (string-suffix-p "\nthree\nfourZ\n" (live-occur-test--text-of a)))
          (should (= 4 (count-lines (point-min) (point-max))))
          (should (equal after (live-occur-test--rows list))))))))

(ert-deftest live-occur-leaves-out-properties-of-what-is-inserted ()
  "Text with a field, that can't be read or is shown as another is as any other."
  (live-occur-test--with '("one\ntwo\n")
    (let ((list (live-occur-test--edited-list "o")))
      (with-current-buffer list
        (dolist (property '(field invisible display line-prefix keymap read-only intangible
                            live-occur-number live-occur-hit live-occur-text live-occur-short))
          (dolist (place '(3 5 6))
            (goto-char place)
            (insert (propertize "x" property 2))
            (live-occur-test--rows-and-lines list)
            (should (equal (text-properties-at place) nil))))
        (upcase-region 3 4)
        (live-occur-test--rows-and-lines list)
        (let ((inhibit-read-only t))
          (put-text-property (point-min) (point-max) 'live-occur-test t))
        (live-occur-test--rows-and-lines list)
        (live-occur-edit-mode -1))
      (should (= 33 (how-many "x" (point-min)))))))

(ert-deftest live-occur-writes-rows-after-an-error ()
  "No error ends that rows are written, and what it has kept from its line is written later."
  (dolist (function '(live-occur--row-text live-occur--visited-state live-occur--change-line
                      live-occur--replace live-occur--same live-occur--changed-p live-occur--row-changed
                      live-occur--write-row))
    (dolist (fault '(error quit))
      (live-occur-test--with '("one\ntwo\nfour\n")
        (live-occur-test--in-windows
          (let ((list (live-occur-test--edited-list "o")) told)
            (cl-letf (((symbol-function 'message)
                       (lambda (&rest words) (push (apply #'format words) told))))
              (live-occur-test--with-fault function fault
                (ignore-errors
                  (ignore-error quit (live-occur-test--edit-row list 2 "a")))))
            (should (or told (eq function 'live-occur--row-changed)))
            (live-occur--look list)
            (live-occur-test--edit-row list 2 "b")
            (live-occur-test--edit-row list 3 "c")
            (live-occur-test--rows-and-lines list)
            (should (equal (buffer-string) "one\nbatwo\ncfour\n"))
            (live-occur-test--with-fault function fault
              (ignore-errors
                (ignore-error quit (live-occur-test--edit-row list 1 "d"))))
            (with-current-buffer list
              (live-occur-edit-mode -1))
            (should (equal (buffer-string) "done\nbatwo\ncfour\n"))
            (should (equal (live-occur-test--rows list) "1:done\n2:batwo\n3:cfour\n"))))))))

(ert-deftest live-occur-writes-rows-after-a-quit ()
  "A quit while Emacs asks about a line ends the command, and not that rows are written."
  (live-occur-test--with '("one\ntwo\n")
    (let ((list (live-occur-test--edited-list "o")) (asked 0))
      (push (lambda (&rest _)
              (when (= (cl-incf asked) 1)
                (setq quit-flag t)
                (ignore)))
            before-change-functions)
      (should (eq 'quit (condition-case nil
                            (ignore (live-occur-test--edit-row list 1 "a"))
                          (quit 'quit))))
      (should (equal (buffer-string) "one\ntwo\n"))
      (live-occur-test--edit-row list 1 "b")
      (live-occur-test--rows-and-lines list)
      (should (equal (buffer-string) "baone\ntwo\n")))))

(ert-deftest live-occur-notes-changes-that-emacs-asks-about ()
  "While Emacs asks whether to change a text the list looks at what was saved."
  (live-occur-test--with '("one\ntwo\n")
    (let ((list (live-occur-test--edited-list "o")) told)
      (push (lambda (&rest _) (live-occur--look list)) before-change-functions)
      (cl-letf (((symbol-function 'message)
                 (lambda (&rest words) (push (apply #'format words) told))))
        (live-occur-test--edit-row list 1 "a"))
      (should-not told)
      (live-occur-test--rows-and-lines list)
      (should (equal (live-occur-test--marked list) '("1:aone")))
      (with-current-buffer list
        (live-occur-abort-changes))
      (should (equal (buffer-string) "one\ntwo\n")))))

(ert-deftest live-occur-writes-rows-that-were-changed-without-a-report ()
  (dolist (keeps `(live-occur-edit-mode ,(lambda (_) (live-occur-save)) nil))
    (live-occur-test--with '("one\ntwo\nthree\no\n" "o\n")
      (let ((list (live-occur-test--edited-list "o" buffers)) told)
        (live-occur-test--edit-row list 3 "x")
        (let ((inhibit-modification-hooks t))
          (live-occur-test--edit-row list 1 "a"))
        (with-current-buffer list
          (add-hook 'after-change-functions (lambda (&rest _) (error "Other")) nil t)
          (ignore-errors (live-occur-test--edit-row list 2 "b"))
          (should-not after-change-functions))
        (with-current-buffer (nth 1 buffers)
          (goto-char 2)
          (insert "y"))
        (live-occur-test--edit-row list 4 "c")
        (should (equal (buffer-string) "one\ntwo\nthree\nxo\n"))
        (with-current-buffer list
          (if (not keeps)
              (live-occur-abort-changes)
            (cl-letf (((symbol-function 'message)
                       (lambda (&rest words) (push (apply #'format words) told))))
              (funcall keeps -1)
              (should (string-match-p "\\(\\`\\|; \\)1 row is not written: " (car told)))
              (live-occur-save)
              (should-not (string-match-p "not written" (car told))))))
        (should (equal (buffer-string)
                       (if keeps "aone\nbtwo\nthree\nxo\n" "one\ntwo\nthree\no\n")))
        (should (equal (live-occur-test--rows list)
                       (if keeps "a:1:aone\na:2:btwo\na:4:xo\nb:1:oy\n"
                         "a:1:one\na:2:two\na:4:o\nb:1:oy\n")))))))

(ert-deftest live-occur-writes-a-row-that-was-edited-alone-before ()
  "Where its line may be changed again all of it is written, and no other line."
  (live-occur-test--with '("one\nx\no3\nfour\n")
    (let ((list (live-occur-test--edited-list "o")))
      (setq buffer-read-only t)
      (live-occur-test--edit-row list 2 "ab")
      (setq buffer-read-only nil)
      (with-current-buffer list
        (goto-char (line-end-position))
        (insert "c"))
      (live-occur-test--rows-and-lines list)
      (should (equal (buffer-string) "one\nx\nabo3c\nfour\n")))))

(defmacro live-occur-test--with-file (file text &rest body)
  "Run BODY in a buffer called A that visits FILE, which holds TEXT at first."
  (declare (indent 2) (debug t))
  `(let* ((,file (make-temp-file "live-occur" nil nil ,text))
          (create-lockfiles nil)
          (make-backup-files nil)
          (a (find-file-noselect ,file)))
     (unwind-protect
         (with-current-buffer a
           (rename-buffer ,(symbol-name file))
           ,@body)
       (with-current-buffer a (set-buffer-modified-p nil))
       (kill-buffer a)
       (delete-file ,file))))

(defun live-occur-test--save ()
  "Save this buffer, at another time of its file than before."
  (sleep-for 0.02)
  (save-buffer))

(defun live-occur-test--edit-row (list row text)
  "Insert TEXT at the beginning of ROW of LIST, from 1, whose rows are edited."
  (with-current-buffer list
    (live-occur-test--go-to-row (1- row))
    (goto-char (next-single-property-change (point) 'live-occur-number))
    (undo-boundary)
    (insert text)
    (undo-boundary)))

(defun live-occur-test--marked (list)
  "The rows of LIST that are marked as changed."
  (with-current-buffer list
    (save-excursion
      (cl-loop initially (goto-char (point-min))
               until (eobp)
               when (memq 'live-occur-changed (ensure-list (get-text-property (point) 'face)))
               collect (buffer-substring-no-properties (point) (line-end-position))
               do (forward-line 1)))))

(defun live-occur-test--text-of (buffer)
  "The text of BUFFER."
  (with-current-buffer buffer
    (buffer-string)))

(ert-deftest live-occur-gives-an-edit-up ()
  (live-occur-test--with '("one\ntwo\nthree\nfour\n" "four\n")
    (live-occur-test--in-windows
      (let ((list (live-occur "o" buffers)) (b (nth 1 buffers)))
        (should (equal (live-occur-test--rows list)
                       "a:1:one\na:2:two\na:4:four\nb:1:four\n"))
        (with-current-buffer b
          (goto-char (point-max))
          (insert "five\n"))
        (with-selected-window (get-buffer-window list)
          (live-occur-test--press "M-< e M-f C-f C-f C-f X C-n C-a M-f C-f C-f C-f C-k Y"))
        (should (equal (live-occur-test--text-of a) "Xone\nY\nthree\nfour\n"))
        (live-occur-test--edit-row list 4 "Z")
        (should (equal (live-occur-test--text-of b) "Zfour\nfive\n"))
        ;; Edits in the buffer itself: another line, and lines above.
        (goto-char (point-max))
        (insert "so\n")
        (goto-char (point-min))
        (insert "zero\n")
        (undo-boundary)
        (with-selected-window (get-buffer-window list)
          (live-occur-test--press "C-c C-k"))
        (should (equal (live-occur-test--text-of a) "zero\none\ntwo\nthree\nfour\nso\n"))
        (should (equal (live-occur-test--text-of b) "four\nfive\n"))
        (with-current-buffer list
          (should-not live-occur-edit-mode)
          (should buffer-read-only))
        (should (buffer-modified-p a))
        (should (buffer-modified-p b))
        (should (equal (live-occur-test--rows list)
                       "a:1:zero\na:2:one\na:3:two\na:5:four\na:6:so\nb:1:four\n"))
        (should-not (live-occur-test--marked list))
        (ert-info ("it is one step for undo in the buffer")
          (undo-boundary)
          (undo)
          (should (equal (live-occur-test--text-of a) "zero\nXone\nY\nthree\nfour\nso\n")))))))

(ert-deftest live-occur-gives-up-no-edit-of-the-buffer ()
  "A line that was also edited in its buffer stays, and that is told."
  (live-occur-test--with '("one\ntwo\nso\n")
    (let ((list (live-occur "o")) told)
      (live-occur-test--rows list)
      (with-current-buffer list
        (live-occur-edit-mode))
      (dolist (row '(1 2 3))
        (live-occur-test--edit-row list row "X"))
      (goto-char (point-min))
      (insert "Y")
      (with-current-buffer list
        (live-occur--follow-lines))
      (live-occur-test--edit-row list 2 "Z")
      (forward-line 2)
      (delete-region (point) (point-max))
      (should (equal (buffer-string) "YXone\nZXtwo\n"))
      (cl-letf (((symbol-function 'message)
                 (lambda (&rest words) (setq told (apply #'format words)))))
        (with-current-buffer list
          (live-occur-abort-changes)))
      (should (equal told "2 lines stay changed: they were edited in their buffers, too"))
      (should (equal (buffer-string) "YXone\ntwo\n"))
      (should (equal (live-occur-test--rows list) "1:YXone\n2:two\n"))
      (with-current-buffer list
        (should-error (live-occur-abort-changes) :type 'user-error)))))

(ert-deftest live-occur-gives-up-all-but-the-buffers-part-of-a-line ()
  (live-occur-test--with '("one\n")
    (live-occur-test--in-windows
      (let ((list (live-occur-test--edited-list "o")))
        (live-occur-test--edit-row list 1 "X")
        (goto-char (point-min))
        (insert "Y")
        (with-current-buffer list
          (live-occur--look list))
        (live-occur-test--edit-row list 1 "Z")
        (should (equal (buffer-string) "ZYXone\n"))
        (with-current-buffer list
          (live-occur-abort-changes))
        (should (equal (buffer-string) "YXone\n"))))))

(ert-deftest live-occur-gives-an-edit-up-without-a-buffer-or-the-program ()
  (live-occur-test--with '("one\n" "so\n")
    (let ((list (live-occur-test--edited-list "o" buffers)))
      (live-occur-test--edit-row list 1 "X")
      (live-occur-test--edit-row list 2 "X")
      (kill-buffer (nth 1 buffers))
      (live-occur-test--edit-row list 2 "Y")
      (live-occur-test--kill list)
      (with-current-buffer list
        (live-occur-abort-changes)
        (should-not live-occur-edit-mode))
      (should (equal (buffer-string) "one\n"))
      (should (equal (live-occur-test--restart list) "1:one\n")))))

(ert-deftest live-occur-leaves-no-mark-of-modification-where-an-edit-is-undone ()
  (live-occur-test--with '("")
    (live-occur-test--with-file file "one\ntwo\n"
      (let ((list (live-occur "o")))
        (live-occur-test--rows list)
        (cl-flet ((edit-and-undo (between)
                    (with-current-buffer list
                      (live-occur-edit-mode))
                    (live-occur-test--edit-row list 1 "X")
                    (should (buffer-modified-p a))
                    (funcall between)
                    (with-current-buffer list
                      (undo-boundary)
                      (setq last-command nil)
                      (undo)
                      (live-occur-edit-mode -1))
                    (live-occur-test--rows list)
                    (buffer-modified-p a)))
          (should-not (edit-and-undo #'ignore))
          (ert-info ("edited in the buffer, too")
            (should (edit-and-undo (lambda () (goto-char (point-max)) (insert "so\n"))))
            (should (equal (buffer-string) "one\ntwo\nso\n"))
            (live-occur-test--save)
            (should-not (edit-and-undo #'ignore)))
          (ert-info ("saved meanwhile")
            (should (edit-and-undo #'live-occur-test--save))
            (should (equal (buffer-string) "one\ntwo\nso\n"))
            (live-occur-test--save))
          (ert-info ("changed on the disk")
            (should (edit-and-undo (lambda ()
                                     (write-region "other\n" nil file nil 'quiet)
                                     (set-file-times file (time-add nil 60)))))))))))

(ert-deftest live-occur-gives-up-the-mark-of-modification-too ()
  (live-occur-test--with '("")
    (live-occur-test--with-file file "one\ntwo\n"
      (let ((list (live-occur-test--edited-list "o")))
        (live-occur-test--edit-row list 1 "X")
        (live-occur-test--edit-row list 2 "X")
        (ert-info ("one row is undone in the buffer")
          (goto-char (point-min))
          (delete-char 1))
        (with-current-buffer list
          (live-occur-abort-changes))
        (should (equal (buffer-string) "one\ntwo\n"))
        (should-not (buffer-modified-p a))
        (ert-info ("it was modified before")
          (goto-char (point-max))
          (insert "so\n")
          (live-occur-test--rows list)
          (with-current-buffer list
            (live-occur-edit-mode))
          (live-occur-test--edit-row list 3 "X")
          (with-current-buffer list
            (live-occur-abort-changes))
          (should (equal (buffer-string) "one\ntwo\nso\n"))
          (should (buffer-modified-p a)))))))

(ert-deftest live-occur-gives-many-changes-up ()
  "Emacs answers meanwhile; where that is quit, the rest can be given up later."
  (live-occur-test--with '("")
    (live-occur-test--insert-lines 9000 1)
    (set-buffer-modified-p nil)
    (live-occur-test--in-windows
      (let ((list (live-occur "needle"))
            (text (buffer-string)))
        (live-occur-test--rows list)
        (with-current-buffer list
          (live-occur-edit-mode)
          (goto-char (point-min))
          (while (search-forward "quick" nil t)
            (replace-match "slow" t t))
          (cl-letf* ((turns 0)
                     (wait (symbol-function 'sit-for))
                     ((symbol-function 'sit-for)
                      (lambda (&rest words)
                        (apply wait words)
                        (when (= (cl-incf turns) 20) (signal 'quit nil)))))
            (should (condition-case nil (ignore (live-occur-abort-changes)) (quit t))))
          (should live-occur-edit-mode)
          (should (= 7000 (with-current-buffer a
                            (how-many "slow" (point-min)))))
          (live-occur-abort-changes)
          (should-not live-occur-edit-mode))
        (should (equal (buffer-string) text))
        (should-not (buffer-modified-p))))))

(ert-deftest live-occur-knows-at-random-what-is-modified ()
  "After random edits of rows and of the buffer, undos and saves, it is never
marked as not modified while it differs from its file, and `C-c C-k' gives
up what the rows changed alone."
  (random "live-occur modified")
  (live-occur-test--with '("")
    (live-occur-test--with-file file "one\ntwo\nso\nfoo\n"
      (let ((list (live-occur "o")) (unmodified 0) (given-up 0))
        (live-occur-test--rows list)
        (dotimes (_ 160)
          (let ((began (buffer-string)) (alone t) (flag (buffer-modified-p)) saved)
            (with-current-buffer list
              (live-occur-edit-mode))
            (dotimes (_ (random 12))
              (pcase (random 12)
                ((or 0 1 2 3 4) (live-occur-test--edit-row list (1+ (random 4)) "o"))
                ((or 5 6 7) (with-current-buffer list
                              (live-occur-test--go-to-row (random 4))
                              (goto-char (line-end-position))
                              (when (eq (char-before) ?o)
                                (ignore-errors (delete-char -1))
                                (undo-boundary))))
                ((or 8 9) (with-current-buffer list
                            (setq last-command nil)
                            (ignore-errors (undo))))
                (10 (when (= (random 3) 0)
                      (goto-char (+ 1 (random (buffer-size))))
                      (setq alone nil)
                      (insert "x")
                      (undo-boundary)))
                (11 (when (= (random 3) 0)
                      (setq saved t)
                      (live-occur-test--save))))
              (unless (buffer-modified-p)
                (cl-incf unmodified)
                (should (equal (buffer-string)
                               (with-temp-buffer
                                 (insert-file-contents file)
                                 (buffer-string))))))
            (with-current-buffer list
              (if (= (random 2) 0)
                  (live-occur-edit-mode -1)
                (live-occur-abort-changes)
                (when alone
                  (cl-incf given-up)
                  (should (equal (live-occur-test--text-of a) began))
                  ;; What was typed back otherwise is modified no longer, either.
                  (unless (or saved (eq (buffer-modified-p a) flag))
                    (should flag)
                    (should (equal began
                                   (with-temp-buffer
                                     (insert-file-contents file)
                                     (buffer-string))))))))
            (let ((rows (live-occur-test--rows list)))
              (unless (= 4 (length (split-string rows "\n" t)))
                (erase-buffer)
                (insert "one\ntwo\nso\nfoo\n")
                (live-occur-test--rows list)))))
        (should (> unmodified 20))
        (should (> given-up 5))))))

(ert-deftest live-occur-saves-what-rows-changed ()
  (live-occur-test--with '("xo\n")
    (let ((other a))
      (live-occur-test--with-file file "one\ntwo\n"
        (live-occur-test--with-file file2 "so\n"
          (live-occur-test--in-windows
            (let ((list (live-occur "o" (list (get-file-buffer file) a other))))
              (live-occur-test--rows list)
              (with-selected-window (get-buffer-window list)
                (live-occur-test--press "M-< e")
                (live-occur-test--edit-row list 2 "X")
                (live-occur-test--edit-row list 4 "Y")
                (should (equal (live-occur-test--marked list)
                               '("file:2:Xtwo" "a:1:Yxo")))
                (live-occur-test--press "C-x C-s")
                (should-not live-occur-edit-mode))
              (should (equal (with-temp-buffer
                               (insert-file-contents file)
                               (buffer-string))
                             "one\nXtwo\n"))
              (should-not (buffer-modified-p (get-file-buffer file)))
              (live-occur-test--rows list)
              (ert-info ("later, by s")
                (with-current-buffer list
                  (live-occur-edit-mode))
                (live-occur-test--edit-row list 1 "Z")
                (with-current-buffer list
                  (live-occur-edit-mode -1))
                (live-occur-test--rows list)
                (should (buffer-modified-p (get-file-buffer file)))
                (cl-letf* ((told nil)
                           ((symbol-function 'message)
                            (lambda (&rest words) (push (apply #'format words) told))))
                  (with-current-buffer list
                    (call-interactively (key-binding "s"))
                    (should (equal (car told) "Saved: file"))
                    (call-interactively (key-binding "s"))
                    (should (equal (car told) "Saved: nothing"))))
                (should-not (buffer-modified-p (get-file-buffer file)))))))))))

(ert-deftest live-occur-marks-rows-that-were-changed ()
  (live-occur-test--with '("one\ntwo\n")
    (live-occur-test--in-windows
      (let ((list (live-occur-test--edited-list "o")))
        (live-occur-test--edit-row list 2 "X")
        (with-current-buffer list
          (live-occur-edit-mode -1)
          (live-occur-edit-mode)
          (should-not (live-occur-test--marked list)))
        (live-occur-test--edit-row list 2 "X")
        (should (equal (live-occur-test--marked list) '("2:XXtwo")))
        (with-current-buffer list
          (live-occur-test--go-to-row 1)
          (goto-char (live-occur--after-head))
          (delete-char 1)
          (should-not (live-occur-test--marked list))
          (insert "Y")
          (live-occur-edit-mode -1))
        (should-not (live-occur-test--marked list))))))

;;;; Random edits

(defconst live-occur-test--words
  '("a" "b" "ab" "ba" "aab" "B" "." "é" "x y" "" "" "\n" "\n" "\n\n" "a\n" "\nb" "b\na\nab" "\x3fff80")
  "What random texts are made of.")

(defun live-occur-test--text (most)
  "A random text of at most MOST words."
  (mapconcat (lambda (_) (nth (random (length live-occur-test--words)) live-occur-test--words))
             (make-list (random (1+ most)) nil) ""))

(defun live-occur-test--position ()
  "A random position in this buffer, and often one of its ends."
  (pcase (random 8)
    (0 (point-min))
    (1 (point-max))
    (_ (+ (point-min) (random (1+ (- (point-max) (point-min))))))))

(defun live-occur-test--region ()
  "A random region of this buffer, most often a small one."
  (let* ((start (live-occur-test--position))
         (end (if (= (random 10) 0)
                  (live-occur-test--position)
                (min (point-max) (+ start (random 25))))))
    (list (min start end) (max start end))))

(defun live-occur-test--edit ()
  "Make a random edit of this buffer."
  (pcase-let ((`(,start ,end) (live-occur-test--region)))
    (pcase (random 20)
      ((or 0 1 2) (goto-char start) (insert (live-occur-test--text 6)))
      ((or 3 4) (delete-region start end))
      ((or 5 6 7) (goto-char start) (delete-region start end) (insert (live-occur-test--text 6)))
      ((or 8 9) (ignore-errors (undo (1+ (random 3)))))
      (10 (upcase-region start end))
      (11 (subst-char-in-region start end ?a ?b))
      (12 (goto-char start) (ignore-errors (transpose-lines 1)))
      (13 (sort-lines nil start end))
      (14 (ignore-errors
            (replace-regexp-in-region "a+b" (live-occur-test--text 2) start end)))
      (15 (if (= (random 4) 0)
              (let ((text (concat (buffer-substring start end) (live-occur-test--text 20))))
                (erase-buffer)
                (insert text))
            (goto-char start)
            (insert (make-string (random 60) ?\n))))
      (16 (goto-char start)
          (call-process "printf" nil t nil (replace-regexp-in-string
                                            "\n" "\\\\n" (live-occur-test--text 6))))
      (17 (call-process-region start end "tr" t t nil "ab\n" "b\na"))
      (18 (let ((table (make-string 256 0)))
            (dotimes (byte 256) (aset table byte byte))
            (aset table ?a ?\n)
            (translate-region start end table)))
      (19 (put-text-property start end 'live-occur-test t)
          (setq end (copy-marker end))
          (encode-coding-region start end 'utf-8-dos)
          (decode-coding-region start end 'utf-8-dos))))
  (undo-boundary))

(defun live-occur-test--add (text)
  "Add the patterns in TEXT to this list."
  (live-occur--put (append live-occur--patterns (split-string text "\n"))))

(defun live-occur-test--change (list)
  "Change at random a flag, the syntax or the patterns of LIST."
  (with-current-buffer list
    (pcase (random 10)
      (9 (live-occur-toggle-case (= (random 2) 0)))
      (8 (live-occur-set-context (random 3) (random 3)))
      ((or 0 1 2 3) (live-occur--toggle (nth (random 3) '(?i ?v ?x))))
      (4 (let ((syntax (nth (random 3) '(basic extended fixed))))
           (live-occur--set syntax live-occur-flags live-occur-smart-case)))
      (5 (live-occur-test--add (nth (random 6) '("a" "b$" "^" "a*b" "\\(a" "[ab]B"))))
      (6 (when live-occur--patterns
           (live-occur-drop-pattern (random (length live-occur--patterns)))))
      (7 (live-occur-test--add (concat (live-occur-test--text 1) "\nb"))))
    (unless live-occur--patterns
      (live-occur-test--add "a"))))

(defun live-occur-test--searched (list folder &optional parts)
  "What grep writes for all that LIST has, with files in FOLDER.
With PARTS non-nil it is the matched parts."
  (with-current-buffer list
    (let ((default-directory (file-name-as-directory folder))
          (coding-system-for-write 'utf-8-emacs-unix)
          (coding-system-for-read 'utf-8-emacs-unix)
          names)
      (dolist (source live-occur--sources)
        (with-current-buffer (live-occur--buffer source)
          (push (buffer-name) names)
          (save-restriction
            (widen)
            (write-region nil nil (expand-file-name (buffer-name) folder) nil 'quiet))))
      (write-region (concat (string-join live-occur--patterns "\n") "\n") nil "patterns" nil 'quiet)
      (with-temp-buffer
        (apply #'call-process live-occur-test--grep nil t nil
               (concat "-n" (with-current-buffer list
                              (concat (apply #'string live-occur-flags)
                                      (pcase live-occur-syntax
                                        ('basic "") ('extended "E") ('fixed "F")))))
               "-f" "patterns"
               (append (if parts
                           '("-o")
                         (pcase (buffer-local-value 'live-occur-context list)
                           (`(,before . ,after)
                            (list (format "-B%d" before) (format "-A%d" after)))))
                       '("--") (nreverse names)))
        (buffer-string)))))

(defun live-occur-test--parts (list)
  "The matched parts of the hits of LIST, as grep writes them."
  (with-current-buffer list
    (let (all)
      (live-occur--map-hits
       (lambda (hit)
         (pcase-dolist (`(,start . ,end) (live-occur--hit-parts hit))
           (push (format "%s:%d:%s\n"
                         (live-occur--source-name (live-occur--hit-source hit))
                         (1+ (live-occur--line-of hit))
                         (live-occur--text (substring (live-occur--hit-bytes hit) start end)))
                 all)))
       0 (live-occur--total))
      (apply #'concat (nreverse all)))))

(defun live-occur-test--badly-marked (list)
  "A row of LIST in which other characters are highlighted than should be, or nil."
  (with-current-buffer list
    (goto-char (point-min))
    (let (bad)
      (live-occur--map-hits
       (lambda (hit)
         (goto-char (next-single-property-change (point) 'live-occur-number))
         (let ((byte 0))
           (while (not (eolp))
             (let ((next (+ byte (length (live-occur--bytes (string (char-after)))))))
               (unless (eq (and (eq (get-text-property (point) 'face) 'live-occur-match) t)
                           (and (cl-loop for (start . end) in (live-occur--hit-parts hit)
                                         thereis (and (< start next) (< byte end)))
                                t))
                 (setq bad (buffer-substring (line-beginning-position) (line-end-position))))
               (setq byte next))
             (forward-char 1)))
         (forward-line 1))
       0 (live-occur--total))
      bad)))

(defun live-occur-test--numbers-right (list)
  "Check the numbers of rows of LIST that no edit has touched since the last update.
The answer is how many they are."
  (with-current-buffer list
    (live-occur-test--wait)
    (let ((checked 0))
      (live-occur--map-hits
       (lambda (hit)
         (let ((source (live-occur--hit-source hit))
               (line (live-occur--line-of hit)))
           (unless (or (not (live-occur--known-p source))
                       (ignore (live-occur--settle source))
                       (cl-loop for (at _ is) in (live-occur--in-order (live-occur--edits source))
                                thereis (<= at line (+ at is))))
             (cl-incf checked)
             (should (equal (live-occur--bytes (live-occur-test--line-of hit))
                            (live-occur--hit-bytes hit))))))
       0 (live-occur--total))
      checked)))

(defvar live-occur-test--edits
  (string-to-number (or (getenv "EDITS") "4000"))
  "How many random edits are made.")

(ert-deftest live-occur-shows-what-grep-writes ()
  (let ((live-occur-characters nil))
    (live-occur-test--compare-after-edits live-occur-test--edits)))

(defun live-occur-test--compare-after-edits (edits)
  "After random EDITS in several buffers the rows are those of grep."
  (random (or (getenv "SEED") "live-occur"))
  (live-occur-test--with (cl-loop for most in '(0 10 200 900)
                                  collect (live-occur-test--text most))
    (let* ((folder (make-temp-file "live-occur" t))
           (indirect (make-indirect-buffer (nth 3 buffers) "indirect"))
           (list (live-occur "ab" buffers))
           (compared 0) (rows 0) (lost 0) (numbers 0))
      (unwind-protect
          (progn
            (live-occur-test--rows list)
            (advice-add 'live-occur--lose :before
                        (lambda (source)
                          (when (live-occur--tick source)
                            (cl-incf lost)))
                        '((name . live-occur-test)))
            (dotimes (_ edits)
              (with-current-buffer (or (nth (random 5) buffers) indirect)
                (pcase (random 60)
                  (0 (let ((inhibit-modification-hooks t))
                       (live-occur-test--edit)))
                  ((pred (> 7))
                   (save-restriction
                     (apply #'narrow-to-region (live-occur-test--region))
                     (live-occur-test--edit)))
                  (_ (live-occur-test--edit))))
              (when (= (random 4) 0)
                (cl-incf numbers (live-occur-test--numbers-right list)))
              (when (= (random 12) 0)
                (live-occur-test--change list))
              (when (= (random 3) 0)
                (let ((shown (live-occur-test--rows list)))
                  (cl-incf compared)
                  (when (= (random 4) 0)
                    (should (equal (live-occur-test--parts list)
                                   (live-occur-test--searched list folder t)))
                    (should-not (live-occur-test--badly-marked list)))
                  (cl-incf rows (with-current-buffer list (live-occur--total)))
                  (unless (equal shown (live-occur-test--searched list folder))
                    (ert-fail (list "differs" compared shown
                                    (live-occur-test--searched list folder))))))))
        (advice-remove 'live-occur--lose 'live-occur-test)
        (delete-directory folder t))
      (live-occur-test--tell
       "%d edits, %d comparisons of %d rows, none differ; %d numbers before an update, none wrong; %d texts sent again"
       edits compared rows numbers lost)
      (should (> compared (/ edits 5))))))

;;;; Time

(defun live-occur-test--median (numbers)
  "The median of NUMBERS."
  (nth (/ (length numbers) 2) (sort (copy-sequence numbers) #'<)))

(defun live-occur-test--large (lines every)
  "A text of LINES lines, of which one of EVERY has a needle."
  (with-temp-buffer
    (dotimes (line lines)
      (insert (format "%07d the quick brown fox jumps over the lazy %s\n"
                      line (if (= 0 (mod line every)) "needle" "dog"))))
    (buffer-string)))

(defun live-occur-test--times (lines every turns away)
  "Measure TURNS edits with their updates in a text of LINES lines.
One line of EVERY matches.  Each edit is AWAY lines after the one before, or
before it at the end.  The answer is the seconds to open the list, those of the
edits: of the command alone, and with the update, and those of an update after
two edits, at both ends of the text."
  (live-occur-test--with (list (live-occur-test--large lines every))
    (live-occur-test--in-windows
      (let* ((live-occur-idle-rows 0)
             (began (float-time))
             (list (live-occur "needle"))
             (opened (with-current-buffer list
                       (live-occur-test--wait)
                       (- (float-time) began)))
             edits updates)
        (goto-char (/ (point-max) 3))
        (dotimes (turn turns)
          (setq away (* away (if (= 0 (forward-line away)) 1 -1)))
          (forward-line 0)
          (let ((start (float-time)))
            (insert (format "%d new needle\n" turn))
            (push (- (float-time) start) edits)
            (push (+ (car edits) (live-occur-test--update-time list)) updates)))
        (goto-char (point-min))
        (insert "first needle\n")
        (goto-char (point-max))
        (insert "last needle\n")
        (let ((both (live-occur-test--update-time list)))
          (with-current-buffer list
            (should (= (live-occur--total) (+ 2 turns (/ (+ lines every -1) every)))))
          (list opened edits updates both))))))

(defun live-occur-test--update-time (list)
  "Bring LIST up to date, and answer the seconds that it took."
  (let ((start (float-time)))
    (with-current-buffer list
      (live-occur--update)
      (while (live-occur--busy-p)
        (accept-process-output live-occur--process 1)))
    (- (float-time) start)))

(ert-deftest live-occur-is-quick-in-a-large-buffer ()
  "An edit of 200,000 lines and its update take less than a tenth of a second."
  (pcase-let ((`(,opened ,_ ,updates ,_) (live-occur-test--times 200000 10 30 10)))
    (live-occur-test--tell
     "200,000 lines: opened in %.2f s; an edit and its update: median %.1f ms, at most %.1f ms"
     opened (* 1000 (live-occur-test--median updates)) (* 1000 (apply #'max updates)))
    (should (< (live-occur-test--median updates) 0.1))))

(defun live-occur-test-times ()
  "Print a table of times."
  (live-occur-test--tell "%10s %10s %10s %10s %10s %10s %10s %14s" "lines" "hits" "lines away"
                         "open, s" "edit, ms" "update, ms" "at most" "both ends, ms")
  (pcase-dolist (`(,lines ,every ,away)
                 '((100000 10 10) (1000000 1000 10) (1000000 10 10) (1000000 10 300000)
                   (1000000 1 10)))
    (pcase-let ((`(,opened ,edits ,updates ,both)
                 (live-occur-test--times lines every 60 away)))
      (live-occur-test--tell "%10d %10d %10d %10.2f %10.2f %10.2f %10.2f %14.2f"
                             lines (/ lines every) away opened
                             (* 1000 (live-occur-test--median edits))
                             (* 1000 (live-occur-test--median updates))
                             (* 1000 (apply #'max updates)) (* 1000 both)))))

(defun live-occur-test--steps (list first done)
  "Call FIRST in LIST, and let Emacs work until DONE answers non-nil there.
The answer is the seconds until then, and those of the longest step."
  (with-current-buffer list
    (let ((began (float-time)) (longest 0))
      (while (let ((start (float-time)))
               (if first (funcall (cl-shiftf first nil)) (accept-process-output nil 0.001))
               (setq longest (max longest (- (float-time) start)))
               (not (funcall done))))
      (list (- (float-time) began) longest))))

(defun live-occur-test-typing-times ()
  "Print a table of times while a pattern is typed, and after it is kept."
  (live-occur-test--tell "%10s %10s %16s %16s %16s %16s" "lines" "hits" "first rows, s"
                         "longest step, ms" "kept: rows, s" "longest step, ms")
  (pcase-dolist (`(,lines ,pattern ,hits)
                 '((100000 "lazy" 100000) (1000000 "needle" 100000) (1000000 "lazy" 1000000)))
    (live-occur-test--with (list (live-occur-test--large lines 10))
      (live-occur-test--in-windows
        (let ((list (live-occur "^$")))
          (with-current-buffer list
            (live-occur-test--wait))
          (garbage-collect)
          (pcase-let ((`(,first ,typed)
                       (live-occur-test--steps
                        list (lambda () (live-occur--try list nil pattern nil nil))
                        (lambda () live-occur--page)))
                      (`(,all ,kept)
                       (live-occur-test--steps
                        list (lambda () (live-occur--end-preview live-occur--patterns))
                        (lambda () (not (live-occur--busy-p))))))
            (should (= hits (with-current-buffer list (live-occur--total))))
            (live-occur-test--tell "%10d %10d %16.2f %16.1f %16.2f %16.1f" lines hits
                                   first (* 1000 typed) all (* 1000 kept))))))))

;;;; Long lines

(defun live-occur-test--text-of (buffer)
  "The text of BUFFER."
  (with-current-buffer buffer
    (buffer-substring-no-properties (point-min) (point-max))))

(ert-deftest live-occur-shows-a-match-far-to-the-right ()
  "A row that is shortened shows what is around its first match."
  (let ((live-occur-max-columns 100))
    (live-occur-test--with
        (list (concat (make-string 90 ?a) "needle\n" (make-string 97 ?a) "needle" (make-string 97 ?b)
                      "\n" (make-string 94 ?a) "needle\n" (make-string 2000 ?é) "needle éneedle"
                      (make-string 200 ?é) "needle\n" (make-string 300 ?a) "\n"))
      (live-occur-test--in-windows
        (let ((list (live-occur "needle")))
          (should (equal (live-occur-test--rows list)
                         (concat "1:" (make-string 90 ?a) "needle\n"
                                 "2:…" (make-string 30 ?a) "needle" (make-string 64 ?b) "…\n"
                                 "3:" (make-string 94 ?a) "needle\n"
                                 "4:…" (make-string 30 ?é) "needle éneedle"
                                 (make-string 56 ?é) "…\n")))
          (should (equal (live-occur-test--mark list)
                         '((92 "needle") (33 "needle") (96 "needle") (33 "needle" 41 "needle"))))
          (cl-loop for (row . column) in '((1 . 90) (2 . 97) (3 . 94) (4 . 2000)) do
                   (live-occur-test--at list row)
                   (with-current-buffer list
                     (live-occur-visit))
                   (should (eq (current-buffer) a))
                   (should (= row (line-number-at-pos)))
                   (should (= column (- (point) (line-beginning-position)))))
          (with-current-buffer list
            (live-occur-toggle-inverse))
          (should (equal (live-occur-test--rows list)
                         (concat "5:" (make-string 100 ?a) "…\n"))))))))

(ert-deftest live-occur-finds-characters-of-which-some-bytes-match ()
  (live-occur-test--with (list (concat (make-string 50 ?x) "\x3fff80é€\n"))
    (let ((list (live-occur "[\x3fffa9]")))
      (live-occur-test--rows list)
      (with-current-buffer list
        (should (= 51 (live-occur-test--first-column (live-occur--hit 0))))))
    (let ((list (live-occur "[\x3fffac]")))
      (live-occur-test--rows list)
      (with-current-buffer list
        (should (= 52 (live-occur-test--first-column (live-occur--hit 0))))))))

(defun live-occur-test--refuses-text (position)
  "Check that no text can be put or deleted at POSITION of this list."
  (goto-char position)
  (should-error (insert "x") :type 'text-read-only)
  (unless (eolp)
    (should-error (delete-char 1) :type 'text-read-only)))

(ert-deftest live-occur-leaves-long-lines-alone ()
  "While rows are edited, those of long lines stay as they are, at any length."
  (dolist (length '(1001 5000 100000 1000000))
    (let ((long (concat "needle" (make-string length ?a))))
      (live-occur-test--with (list (concat "needle 1\n" long "\nneedle 2\n"))
        (live-occur-test--in-windows
          (let* ((list (live-occur "needle"))
                 (rows (concat "1:needle 1\n2:needle" (make-string 994 ?a) "…\n3:needle 2\n")))
            (should (equal (live-occur-test--rows list) rows))
            (with-current-buffer list
              (live-occur-edit-mode)
              (dotimes (_ 3)
                (live-occur--look list))
              (should (equal (live-occur-test--text-shown) rows))
              (goto-char (point-min))
              (forward-line 1)
              (let ((end (line-end-position)))
                (dolist (position (list (point) (+ (point) 1) (+ (point) 2) (+ (point) 3)
                                        (- end 5) (1- end) end))
                  (live-occur-test--refuses-text position)))
              (goto-char (point-max))
              (insert-before-markers "")
              (search-backward "2")
              (insert "x")
              (should (equal (live-occur-test--text-of a)
                             (concat "needle 1\n" long "\nneedle x2\n")))
              (with-current-buffer a
                (goto-char (point-min))
                (forward-line 1)
                (insert "b"))
              (live-occur--look list)
              (live-occur-edit-mode -1))
            (should (equal (live-occur-test--rows list)
                           (concat "1:needle 1\n2:bneedle" (make-string 993 ?a)
                                   "…\n3:needle x2\n")))))))))

(ert-deftest live-occur-lets-rows-grow ()
  "A row that becomes long while it is edited stays whole."
  (live-occur-test--with '("needle\nneedle 2\n")
    (live-occur-test--in-windows
      (let ((list (live-occur "needle"))
            (long (make-string 1200 ?é)))
        (live-occur-test--rows list)
        (with-current-buffer list
          (live-occur-edit-mode)
          (goto-char (point-min))
          (end-of-line)
          (insert long)
          (live-occur--look list)
          (insert "!")
          (should (equal (live-occur-test--text-shown)
                         (concat "1:needle" long "!\n2:needle 2\n"))))
        (should (equal (buffer-string) (concat "needle" long "!\nneedle 2\n")))
        (delete-region 7 8)
        (with-current-buffer list
          (live-occur--look list)
          (should (string-prefix-p (concat "1:needle" (substring long 1) "!\n")
                                   (live-occur-test--text-shown)))
          (live-occur-edit-mode -1))
        (should (equal (live-occur-test--rows list)
                       (concat "1:needle" (substring long 0 994) "…\n2:needle 2\n")))))))

(ert-deftest live-occur-leaves-rows-of-lines-that-grow ()
  "A line that becomes long in its buffer is shortened when rows are edited no longer."
  (live-occur-test--with '("needle\nneedle 2\n")
    (live-occur-test--in-windows
      (let ((list (live-occur "needle"))
            (long (make-string 1000000 ?b)))
        (live-occur-test--rows list)
        (with-current-buffer list
          (live-occur-edit-mode))
        (goto-char 7)
        (insert long)
        (with-current-buffer list
          (live-occur--look list)
          (should (equal (live-occur-test--text-shown) "1:needle\n2:needle 2\n"))
          (goto-char (1- (point-max)))
          (insert "!")
          (live-occur-edit-mode -1))
        (should (equal (live-occur-test--text-of a) (concat "needle" long "\nneedle 2!\n")))
        (should (equal (live-occur-test--rows list)
                       (concat "1:needle" (substring long 0 994) "…\n2:needle 2!\n")))))))

(ert-deftest live-occur-changes-little-of-a-line ()
  "Point, markers and text that did not change stay, and one undo is enough."
  (random "live-occur lines")
  (dotimes (_ 500)
    (with-temp-buffer
      (buffer-enable-undo)
      (cl-flet ((text () (mapconcat (lambda (_) (nth (random 4) '("a" "b" "é" "")))
                                    (make-list (random 12) nil) "")))
        (let* ((front (text)) (back (text)) (old (concat front (text) back))
               (new (concat front (text) back))
               (before (make-marker)) (after (make-marker)))
          (insert "<" old ">")
          (set-marker before (+ 2 (length front)))
          (set-marker after (- (point-max) 1 (length back)))
          (undo-boundary)
          (goto-char 2)
          (live-occur--replace old new)
          (should (equal (buffer-string) (concat "<" new ">")))
          (should (= (point) 2))
          (should (>= (point-max) (marker-position after) (marker-position before)))
          (should (equal (buffer-substring 2 (min before (+ 2 (length front))))
                         (substring front 0 (- (min before (+ 2 (length front))) 2))))
          (undo-boundary)
          (unless (equal old new)
            (undo)
            (should (equal (buffer-string) (concat "<" old ">")))))))))

(ert-deftest live-occur-changes-long-lines-in-time ()
  "The time to change a line grows no faster than its length."
  (let* ((old (make-string 5000000 ?a))
         (new (concat (substring old 1) "b" (substring old 1))))
    (with-temp-buffer
      (insert old)
      (goto-char 1)
      (live-occur-test--watch (lambda ()
                                (live-occur-test--entered 'replace #'live-occur--replace
                                                          old new)))
      (should (string-equal (buffer-string) new)))))

;;;; Large texts

(defun live-occur-test--insert-lines (count every &optional text)
  "Insert COUNT lines, a multiple of 1000, in which one of EVERY has a needle.
TEXT is what is in each line."
  (let ((part (with-temp-buffer
                (dotimes (line 1000)
                  (insert (or text "the quick brown fox ")
                          (if (= 0 (mod line every)) "needle" "dog") "\n"))
                (buffer-string))))
    (dotimes (_ (/ count 1000))
      (insert part))))

(defun live-occur-test--places (list)
  "The numbers of the lines of LIST, from 1."
  (with-current-buffer list
    (let (all)
      (live-occur--map-hits (lambda (hit) (push (1+ (live-occur--line-of hit)) all))
                            0 (live-occur--total))
      (nreverse all))))

(defun live-occur-test--grepped-places (pattern)
  "The numbers of the lines of this buffer that grep finds by PATTERN, from 1."
  (let ((file (make-temp-file "live-occur"))
        (coding-system-for-write 'utf-8-emacs-unix))
    (unwind-protect
        (progn
          (save-restriction
            (widen)
            (write-region nil nil file nil 'quiet))
          (with-temp-buffer
            (call-process live-occur-test--grep nil t nil "-n" "-e" pattern "--" file)
            (goto-char (point-min))
            (cl-loop until (eobp)
                     collect (string-to-number (buffer-substring (point) (+ (point) 8)))
                     do (forward-line 1))))
      (delete-file file))))

(defun live-occur-test--until (done)
  "Wait until DONE answers non-nil, and answer how many seconds that took."
  (let ((start (float-time)))
    (with-timeout (60 (error "It does not come"))
      (while (not (funcall done))
        (accept-process-output nil 0.01)))
    (- (float-time) start)))

(ert-deftest live-occur-sends-a-large-text-in-pieces ()
  "The first rows of a million lines are there at once, and edits are right."
  (live-occur-test--with '("")
    (live-occur-test--insert-lines 1000000 1000 "é quick brown fox jumps over a ")
    (live-occur-test--in-windows
      (let* ((list (live-occur "needle"))
             (first (live-occur-test--until
                     (lambda () (< 0 (with-current-buffer list (live-occur--total)))))))
        (with-current-buffer list
          (should live-occur--more)
          (should (string-suffix-p "more to come" (live-occur--header)))
          (should (< (live-occur--total) 1000)))
        (goto-char (point-min))
        (insert "needle first\n")
        (forward-line 500000)
        (insert "needle in the middle\n")
        (forward-line 1000)
        (delete-region (point) (line-beginning-position 1000))
        (accept-process-output nil 0.1)
        (goto-char (point-max))
        (insert "needle last\n")
        (goto-char (point-min))
        (forward-line 250000)
        (insert "\n\n")
        (live-occur-test--until (lambda () (not (with-current-buffer list (live-occur--busy-p)))))
        (with-current-buffer list
          (live-occur--update)
          (live-occur-test--wait)
          (should-not live-occur--more)
          (should-not (string-search "more to come" (live-occur--header))))
        (should (equal (live-occur-test--places list)
                       (live-occur-test--grepped-places "needle")))
        (live-occur-test--tell "1,000,000 lines: the first rows after %.2f s" first)
        (should (< first 1))))))

(ert-deftest live-occur-takes-a-million-hits ()
  "All in one reply, after which the last rows are looked at, and edited."
  (live-occur-test--with (list (apply #'concat (make-list 1000000 "x\n")))
    (live-occur-test--in-windows
      (let* ((list (live-occur "y"))
             (window (get-buffer-window list)))
        (with-current-buffer list
          (with-timeout (60)
            (while (live-occur--busy-p)
              (accept-process-output nil 0.02)))
          (should-not (live-occur--put '("x")))
          (with-timeout (60)
            (while (live-occur--busy-p)
              (accept-process-output nil 0.02)))
          (should (= 1000000 (live-occur--total)))
          (goto-char (point-max))
          (forward-line -2)
          (set-window-start window (point))
          (set-window-point window (point))
          (run-hook-with-args 'pre-redisplay-functions window)
          (should (looking-at "999999:x\n1000000:x\n")))
        (goto-char (point-min))
        (dotimes (_ 5)
          (insert "\nx\n")
          (goto-char (- (point-max) (point))))
        (with-current-buffer list
          (live-occur--update)
          (live-occur-test--wait)
          (should (= 1000005 (live-occur--total)))
          (run-hook-with-args 'pre-redisplay-functions window)
          (should (looking-at "10000[0-9]+:x\n")))))))

(ert-deftest live-occur-follows-a-large-text-that-is-edited-at-random ()
  "While it is sent in small pieces."
  (random "live-occur pieces")
  (live-occur-test--in-pieces
    (dotimes (_ 12)
      (live-occur-test--with (list (live-occur-test--text 900) (live-occur-test--text 300))
        (let* ((list (live-occur "ab" buffers))
               (folder (make-temp-file "live-occur" t)))
          (unwind-protect
              (dotimes (_ 8)
                (dotimes (_ (random 30))
                  (with-current-buffer (nth (random 2) buffers)
                    (if (= 0 (random 10))
                        (dotimes (_ 5)
                          (ignore-errors
                            (goto-char (live-occur-test--position))
                            (insert "a")))
                      (live-occur-test--edit)))
                  (pcase (random 8)
                    (0 (accept-process-output nil 0.001))
                    (1 (with-current-buffer list (live-occur--update)))
                    (2 (live-occur-test--numbers-in-order list))
                    (3 (when (= 0 (random 5)) (live-occur-test--change list)))))
                (should (equal (live-occur-test--rows list)
                               (live-occur-test--searched list folder))))
            (delete-directory folder t)))))))

(defun live-occur-test--numbers-in-order (list)
  "Check that the numbers of rows of LIST are in order, in each buffer."
  (with-current-buffer list
    (let (before)
      (live-occur--map-hits
       (lambda (hit)
         (let ((line (live-occur--line-of hit)) (source (live-occur--hit-source hit)))
           (when (eq source (car before))
             (should (<= (cdr before) line)))
           (setq before (cons source line))))
       0 (live-occur--total)))))

(ert-deftest live-occur-works-while-a-text-is-sent ()
  (live-occur-test--with '("")
    (live-occur-test--insert-lines 100000 100)
    (live-occur-test--in-windows
      (let ((other (generate-new-buffer "other")))
        (with-current-buffer other
          (live-occur-test--insert-lines 100000 1000))
        ;; On a loaded machine all may have been sent by then: another one.
        (cl-flet ((begin (&rest buffers)
                    (cl-loop
                     repeat 5
                     for list = (live-occur "needle" (or buffers (list a)))
                     if (with-current-buffer list (live-occur--edited-p))
                     return list
                     do (kill-buffer list)
                     finally (ert-fail "All lines were sent at once")))
                  (count (list)
                    (with-current-buffer list
                      (live-occur--update)
                      (live-occur-test--wait)
                      (should-not live-occur--more)
                      (live-occur--total))))
          (ert-info ("a flag is changed")
            (let ((list (begin)))
              (with-current-buffer list
                (live-occur-toggle-inverse)
                (should (live-occur--busy-p)))
              (should (= (count list) 99000))))
          (ert-info ("a pattern is added")
            (let ((list (begin)))
              (with-current-buffer list
                (live-occur-test--add "dog$"))
              (should (= (count list) 100000))))
          (ert-info ("the program is killed")
            (let ((list (begin)))
              (live-occur-test--kill list)
              (with-current-buffer list
                (should-not (live-occur--busy-p))
                (should-not (string-search "more to come" (live-occur--header)))
                (live-occur-restart))
              (should (= (count list) 1000))))
          (ert-info ("the program is started again")
            (let ((list (begin)))
              (with-current-buffer list (live-occur-restart))
              (should (= (count list) 1000))))
          (ert-info ("rows are edited")
            (let ((list (begin)))
              (with-current-buffer list
                (live-occur-edit-mode)
                (should (= 1000 (live-occur--total)))
                (live-occur-edit-mode -1))
              (should (= (count list) 1000))))
          (ert-info ("a buffer is killed")
            (let ((list (begin other a)))
              (kill-buffer other)
              (should (= (count list) 1000))))
          (ert-info ("the list is killed")
            (let* ((processes (process-list))
                   (timers (length timer-list))
                   (list (begin)))
              (kill-buffer list)
              (accept-process-output nil 0.1)
              (should (equal (process-list) processes))
              (should (<= (length timer-list) timers)))))))))

(ert-deftest live-occur-keeps-rows-until-a-program-has-reported-all ()
  (live-occur-test--with '("")
    (live-occur-test--insert-lines 100000 100)
    (live-occur-test--in-windows
      (let ((list (live-occur "needle")))
        (live-occur-test--rows list)
        (live-occur-test--at list 900)
        (with-current-buffer list
          (live-occur-restart)
          (let ((fewest (count-lines 1 (point-max))))
            (while (live-occur--busy-p)
              (accept-process-output nil 0.01)
              (setq fewest (min fewest (count-lines 1 (point-max)))))
            (should (= fewest 1000)))
          (should (= 900 (line-number-at-pos)))
          (live-occur-test--rows list)
          (should (looking-at "89901:")))))))

(ert-deftest live-occur-sends-a-text-while-a-pattern-is-typed ()
  (live-occur-test--with '("")
    (live-occur-test--insert-lines 200000 100)
    (live-occur-test--in-windows
      (set-window-buffer nil a)
      (let (list seen)
        (cl-letf (((symbol-function 'read-from-minibuffer)
                   (lambda (&rest _)
                     (setq list (cl-find-if #'live-occur--list-p (buffer-list)))
                     (with-temp-buffer
                       (insert "needle")
                       (live-occur--try list (current-buffer) "needle" nil nil)
                       (live-occur-test--until
                        (lambda ()
                          (with-current-buffer list
                            (when live-occur--page
                              (push (list (car live-occur--page) live-occur--more
                                          (count-lines 1 (point-max)))
                                    seen))
                            (and live-occur--page (not live-occur--more)
                                 (not (live-occur--busy-p)))))))
                     "needle")))
          (live-occur))
        (should (equal (car seen) '(2000 nil 50)))
        (should (equal (nth 1 (car (last seen))) t))
        (should (> 1000 (car (car (last seen)))))
        (with-current-buffer list
          (live-occur-test--wait)
          (should (= 2000 (live-occur--total))))))))

(ert-deftest live-occur-takes-all-kinds-of-texts ()
  "Lines of CR and LF, of UTF-8, one line, no line, a buffer that is read-only."
  (dolist (text (list "" "needle" "needle\n" "\n"
                      (concat (make-string 1000000 ?é) "needle")
                      (concat "é needle\r\n" (make-string 1000000 ?x) "needle\r\nx\r\n")
                      (apply #'concat (make-list 50000 "€ needle\r\n"))))
    (live-occur-test--with (list text)
      (setq buffer-read-only t)
      (let ((list (live-occur "needle")))
        (with-current-buffer list
          (live-occur-test--wait))
        (should (equal (live-occur-test--places list)
                       (live-occur-test--grepped-places "needle")))))))

(ert-deftest live-occur-sends-one-command-after-the-other ()
  "Also where Emacs takes replies while it writes, by which more is sent."
  (live-occur-test--with '("one\n")
    (let* ((list (live-occur "o")) (send (symbol-function 'process-send-string)) (first t))
      (insert "two\n")
      (cl-letf (((symbol-function 'process-send-string)
                 (lambda (process text)
                   (funcall send process text)
                   (when (cl-shiftf first nil)
                     (with-current-buffer list
                       (live-occur--order "text on\n"))))))
        (should (equal (live-occur-test--rows list) "1:one\n2:two\n"))))))

(ert-deftest live-occur-sends-no-more-than-waits ()
  "Of a text no more is copied than is on its way, and the next block."
  (live-occur-test--with (list (concat (apply #'concat (make-list 900 "a short line\n"))
                                       (make-string 300000 ?x) "\n"
                                       (apply #'concat (make-list 100000 "a short line\n"))))
    (let ((most 0) list)
      (cl-letf* ((write (symbol-function 'live-occur--write))
                 ((symbol-function 'live-occur--write)
                  (lambda (process)
                    (setq most (max most (length (process-get process 'unsent))))
                    (funcall write process))))
        (setq list (live-occur "line$"))
        (with-current-buffer list
          (live-occur-test--wait)
          (should (= 100900 (live-occur--total)))))
      (should (<= most 2)))))

(ert-deftest live-occur-sends-something-however-late ()
  "Also where the time for a step is over before it has begun."
  (live-occur-test--with '("one\ntwo\n")
    (let ((list (live-occur "o")))
      (live-occur-test--rows list)
      (goto-char (point-max))
      (insert "so\n")
      (let ((live-occur--longest -1))
        (should (equal (live-occur-test--rows list) "1:one\n2:two\n3:so\n"))))))

(ert-deftest live-occur-sends-few-commands-at-once ()
  "Many small commands cost no more than their number."
  (let ((live-occur--block 20) (most 0) list)
    (live-occur-test--with (list (apply #'concat (make-list 5000 "a short line\n")))
      (cl-letf* ((write (symbol-function 'live-occur--write-text))
                 ((symbol-function 'live-occur--write-text)
                  (lambda (process text)
                    (setq most (max most (length (process-get process 'waiting))))
                    (funcall write process text))))
        (setq list (live-occur "line$"))
        (with-current-buffer list
          (live-occur-test--wait)
          (should (= 5000 (live-occur--total)))))
      (should (<= 10 most 50)))))

(ert-deftest live-occur-sends-long-lines-in-time ()
  "A part doesn't wait for the end of a wait."
  (live-occur-test--with (list (concat (make-string 2000000 ?x) "needle\n"))
    (let ((list (live-occur "needle")) (waits 0))
      (with-current-buffer list
        (while (live-occur--busy-p)
          (cl-incf waits)
          (accept-process-output nil 1))
        (should (= 1 (live-occur--total))))
      (should (< waits 20)))))

(ert-deftest live-occur-sends-long-lines-in-parts ()
  "No command is sent at once that doesn't fit into a pipe."
  (live-occur-test--with (list (concat "x\n" (make-string 300000 ?€) "needle\n"
                                       (make-string 100000 ?x) "\nneedle\n"))
    (let (longest list)
      (cl-letf* ((send (symbol-function 'process-send-string))
                 ((symbol-function 'process-send-string)
                  (lambda (process text)
                    (setq longest (max (length text) (or longest 0)))
                    (funcall send process text))))
        (setq list (live-occur "needle"))
        (with-current-buffer list
          (live-occur-test--wait)
          (should (= 2 (live-occur--total))))
        (should (<= 20000 longest 65536)))
      (ert-info ("the program is killed or stopped in one")
        (goto-char 10)
        (insert "x")
        (with-current-buffer list
          (signal-process live-occur--process 'STOP)
          (live-occur--update)
          (dotimes (_ 5)
            (accept-process-output nil 0.02))
          (should (process-get live-occur--process 'rest))
          (signal-process live-occur--process 'CONT)
          (live-occur-test--wait)
          (should-not (process-get live-occur--process 'rest))
          (with-current-buffer a
            (insert "x"))
          (signal-process live-occur--process 'STOP)
          (live-occur--update)
          (live-occur-test--kill list)
          (accept-process-output nil 0.02)
          (live-occur-restart)
          (live-occur-test--wait)
          (should (= 2 (live-occur--total))))))))

;;;; Many rows to edit

(ert-deftest live-occur-makes-many-rows-to-edit-them ()
  "It tells how far it is, and can be quit: then the list is as before."
  (live-occur-test--with '("")
    (live-occur-test--insert-lines 18000 1)
    (live-occur-test--in-windows
      (let ((list (live-occur "needle")) told)
        (with-current-buffer list
          (live-occur-test--wait)
          (cl-letf (((symbol-function 'yes-or-no-p) #'always)
                    ((symbol-function 'progress-reporter-do-update)
                     (lambda (_ value &rest _) (push value told))))
            (cl-letf* ((turns 0)
                       (wait (symbol-function 'sit-for))
                       ((symbol-function 'sit-for)
                        (lambda (&rest words)
                          (apply wait words)
                          (when (= (cl-incf turns) 20) (signal 'quit nil)))))
              (should (condition-case nil (ignore (live-occur-edit-mode)) (quit t))))
            (should-not live-occur-edit-mode)
            (should buffer-read-only)
            (should-not live-occur--held)
            (should (= 18000 (count-lines 1 (point-max))))
            (should-not (text-property-not-all (point-min) (point-max) 'read-only nil))
            (should-error (insert "x") :type 'buffer-read-only)
            (with-current-buffer a
              (goto-char (point-max))
              (insert "needle\n"))
            (should (string-suffix-p "18001:needle\n" (live-occur-test--rows list)))
            (setq told nil)
            (live-occur-edit-mode)
            (should (< 10 (length told)))
            (should (= (car told) (apply #'max told)))
            (should live-occur-edit-mode)
            (goto-char (1- (point-max)))
            (insert "!")
            (should (string-suffix-p "needle!\n" (live-occur-test--text-of a)))
            (live-occur-edit-mode -1)))))))

;;;; Many changes

(defun live-occur-test--replace-time ()
  "The seconds of work to replace the words of this buffer, with a list."
  (let ((list (live-occur "needle")))
    (with-current-buffer list
      (live-occur-test--wait))
    (goto-char (point-min))
    (garbage-collect)
    (let ((start (float-time (get-internal-run-time)))
          (gc-cons-threshold most-positive-fixnum))
      (perform-replace "fox" "wolf" nil nil nil)
      (prog1 (- (float-time (get-internal-run-time)) start)
        (should (equal (live-occur-test--rows list) ""))
        (kill-buffer list)
        (goto-char (point-min))
        (perform-replace "wolf" "fox" nil nil nil)))))

(ert-deftest live-occur-lets-many-words-be-replaced ()
  "Four times as many take less than eight times as long.
Linear work takes four times as long, and quadratic work sixteen times."
  :tags '(unwatched)
  (live-occur-test--with '("")
    (let ((times (cl-loop for more in '(20000 60000)
                          do (live-occur-test--insert-lines more (1+ more) "the quick brown fox ")
                          (goto-char (point-min))
                          (perform-replace "needle" "dog" nil nil nil)
                          collect (cl-loop repeat 3 minimize (live-occur-test--replace-time)))))
      (apply #'live-occur-test--tell
             "20,000 words replaced with a list: %.2f s, 80,000 %.2f s" times)
      (should (< (nth 1 times) (* 8 (nth 0 times)))))))

(ert-deftest live-occur-lets-words-of-many-rows-be-replaced ()
  "The collector, which has all rows to look at, comes a few times."
  :tags '(unwatched)
  (live-occur-test--with '("")
    (dotimes (_ 20000) (insert "the quick brown fox\n"))
    (let* ((live-occur-idle-rows 20000) (list (live-occur-test--edited-list "fox")))
      (with-current-buffer list
        (goto-char (point-min))
        (let ((before gcs-done) (gc-cons-percentage 0))
          (perform-replace "fox" "wolf" nil nil nil)
          (should (< (- gcs-done before) 10)))
        (live-occur-edit-mode -1)))
    (should (= 20000 (how-many "wolf$" 1)))))

(ert-deftest live-occur-gathers-many-changes ()
  "Also where newlines come and go, or one isn't told."
  (progn
    (live-occur-test--with (list (apply #'concat (make-list 300 "ab ab\n")) "ab a")
      (let ((list (live-occur "b.a\nx$" buffers)) (folder (make-temp-file "live-occur" t)))
        (unwind-protect
            (cl-flet ((check ()
                        (let ((shown (live-occur-test--rows list)))
                          (should (memq #'live-occur--before before-change-functions))
                          (should (equal shown (live-occur-test--searched list folder))))))
              (check)
              (goto-char 600)
              (dotimes (_ 10) (insert "x"))
              (check)
              (replace-regexp-in-region "a" "c" 1)
              (check)
              (replace-regexp-in-region "b c" "b a" 400 900)
              (goto-char 1000)
              (dotimes (_ 20) (insert "\n") (forward-char 3) (delete-char 2))
              (live-occur-test--numbers-in-order list)
              (dotimes (_ 20) (insert "x") (forward-char 2) (delete-char 1))
              (check)
              (dotimes (_ 10) (insert "x"))
              (let ((inhibit-modification-hooks t)) (insert "x\nx"))
              (dotimes (_ 10) (insert "x"))
              (check)
              (dotimes (_ 10) (insert "x"))
              (emacs-lisp-mode)
              (dotimes (_ 10) (insert "y"))
              (check)
              (dotimes (_ 10) (insert "x"))
              (with-current-buffer (clone-buffer "copy")
                (dotimes (_ 10) (insert "x\n")))
              (insert "ab\n")
              (with-current-buffer (make-indirect-buffer a "indirect")
                (goto-char 5)
                (insert "x\n"))
              (check))
          (delete-directory folder t))))))

(ert-deftest live-occur-moves-no-point ()
  "Changes elsewhere leave point where it is."
  (live-occur-test--with (list (apply #'concat (make-list 300 "ab\n")))
    (let ((list (live-occur "b")))
      (live-occur-test--rows list)
      (random "live-occur point")
      (dotimes (_ 300)
        (let* ((start (live-occur-test--position))
               (end (min (point-max) (+ start (random 9))))
               (point (live-occur-test--position)))
          (goto-char point)
          (delete-region start end)
          (should (= (point) (cond ((<= point start) point)
                                   ((<= point end) start)
                                   (t (- point (- end start)))))))
        (goto-char (point-max))
        (insert "ab\n")))))

;;;; Keys

(ert-deftest live-occur-describes-its-keys-in-order-of-use ()
  (with-temp-buffer
    (insert (substitute-command-keys (documentation 'live-occur-mode)))
    (goto-char (point-min))
    (forward-line 1)
    (pcase-dolist (`(,key ,command ,label . ,_) live-occur--commands)
      (forward-line 1)
      (should (commandp command))
      (should (eq (lookup-key live-occur-mode-map (kbd key)) command))
      (should (looking-at-p (concat (regexp-quote key) "\t"
                                   (regexp-quote (substitute-command-keys label)) "$"))))
    (forward-line 1)
    (should (eobp))))

(ert-deftest live-occur-has-its-commands-in-lists-alone ()
  :tags '(unwatched)
  (pcase-dolist (`(,_ ,command . ,_) live-occur--commands)
    (unless (memq command '(quit-window next-error-follow-minor-mode))
      (should (equal (command-modes command) '(live-occur-mode)))))
  (should-not (commandp 'live-occur-mode)))

(ert-deftest live-occur-has-a-menu ()
  (dolist (entry live-occur--commands)
    (should (where-is-internal (nth 1 entry) (list (list 'keymap live-occur-menu))))))

;;;; The files

(defun live-occur-test--file ()
  "The main file that is tested."
  (expand-file-name "../live-occur.el" (file-name-directory (symbol-file 'live-occur-test--file))))

(defun live-occur-test--files ()
  "The files that are tested."
  (list (live-occur-test--file) (live-occur-test--beside "live-occur-track.el")))

(ert-deftest live-occur-loads-what-it-needs ()
  "In another Emacs, which has loaded nothing else."
  (with-temp-buffer
    (should (eql 0 (call-process
                    (expand-file-name invocation-name invocation-directory) nil t nil
                    "-Q" "--batch" "-L" (live-occur-test--beside "") "-l" (live-occur-test--file) "--eval"
                    (format "%S" `(with-temp-buffer
                                    (run-with-timer 20 nil #'kill-emacs 1)
                                    (rename-buffer "a")
                                    (insert "one\ntwo\n")
                                    (setq live-occur-program ,live-occur-program)
                                    (with-current-buffer (live-occur "o")
                                      (while (= 0 (live-occur--total))
                                        (accept-process-output nil 0.02))
                                      (live-occur-drop-pattern 0)
                                      (live-occur--put '("t"))
                                      (while (/= 1 (live-occur--total))
                                        (accept-process-output nil 0.02))
                                      (live-occur--make-rows 0 1)
                                      (princ (buffer-string))))))))
    (should (equal (buffer-string) "2:two\n"))))

(ert-deftest live-occur-has-the-version-of-the-project ()
  (should (equal (lm-version (live-occur-test--file))
                 (with-temp-buffer
                   (insert-file-contents (live-occur-test--beside "../../VERSION"))
                   (string-trim (buffer-string))))))

(defun live-occur-test--snippets ()
  "The settings in the README, as texts."
  (with-temp-buffer
    (insert-file-contents (live-occur-test--beside "README.md"))
    (goto-char (point-min))
    (cl-loop while (re-search-forward "^    (\\(?:.*\n    \\)*.*" nil t)
             collect (match-string 0))))

(ert-deftest live-occur-is-set-up-as-its-readme-says ()
  "In another Emacs, with the client as `make install' installs it.
`use-package' is built in from Emacs 29 on."
  (let ((folder (make-temp-file "live-occur" t)))
    (unwind-protect
        (let ((emacs (expand-file-name invocation-name invocation-directory))
              (tried 0))
          (should (eql 0 (call-process (live-occur-test--beside "install.sh") nil nil nil
                                       emacs folder)))
          (dolist (text (live-occur-test--snippets))
            (when (or (not (string-search "use-package" text))
                      (locate-library "use-package"))
              (cl-incf tried)
              (with-temp-buffer
                (let ((status (call-process
                               emacs nil '(t nil) nil "-Q" "--batch" "-L" folder "--eval"
                               (format "(progn %s\n (prin1 (list
                                          (key-binding (kbd \"M-s l\"))
                                          (lookup-key isearch-mode-map (kbd \"M-s l\"))
                                          (featurep 'live-occur)
                                          (commandp 'live-occur-in-project)
                                          (progn (require 'live-occur) live-occur-program))))"
                                       text))))
                  (should (equal (list status (buffer-string))
                                 '(0 "(live-occur live-occur-isearch nil t \"~/.local/bin/occur\")")))))))
          (should (>= tried 1)))
      (delete-directory folder t))))

(ert-deftest live-occur-compiles-without-a-warning ()
  (let* ((folder (make-temp-file "live-occur" t))
         (byte-compile-error-on-warn t)
         (byte-compile-dest-file-function
          (lambda (_) (expand-file-name "live-occur.elc" folder))))
    (unwind-protect
        (dolist (file (live-occur-test--files))
          (should (eq (byte-compile-file file) t)))
      (delete-directory folder t))))

(ert-deftest live-occur-passes-checkdoc ()
  (let* ((told nil)
         (checkdoc-spellcheck-documentation-flag nil)
         (checkdoc-create-error-function
          (lambda (text start &rest _)
            (push (format "%d: %s" (line-number-at-pos start) text) told)
            nil)))
    (dolist (file (live-occur-test--files))
      (with-current-buffer (find-file-noselect file)
        (checkdoc-current-buffer t)
        (kill-buffer)))
    (should-not told)))

(defvar package-directory-list)
(defvar package-lint-main-file)
(declare-function package-lint-buffer "package-lint")
(declare-function package-activate "package")
(declare-function package-load-all-descriptors "package")

(ert-deftest live-occur-passes-package-lint ()
  "Some releases of package-lint know no Emacs 28."
  (require 'package)
  (add-to-list 'package-directory-list "/usr/share/emacs/site-lisp/elpa")
  (package-load-all-descriptors)
  (package-activate 'package-lint)
  (skip-unless (require 'package-lint nil t))
  (dolist (file (live-occur-test--files))
    (with-current-buffer (find-file-noselect file)
      (unwind-protect
          (let ((package-lint-main-file (live-occur-test--file)))
            (should-not (cl-remove-if
                         (lambda (text)
                           (string-match-p "in all released Emacs versions" text))
                         (mapcar (lambda (found) (nth 3 found)) (package-lint-buffer)))))
        (kill-buffer)))))

(provide 'live-occur-test)

;;; live-occur-test.el ends here
