;;; live-occur-track.el --- Which lines of a text changed, and where they went  -*- lexical-binding: t; -*-

;; Copyright (c) 2026 The Gaxtrel authors

;; SPDX-License-Identifier: MIT OR Apache-2.0

;;; Commentary:

;; Lists of `live-occur' send the lines that a change touched, and show where
;; other lines went.  Both are known from the changes that are gathered here.

;;; Code:

(require 'cl-lib)

(defmacro live-occur--in (buffer &rest body)
  "Run BODY in BUFFER, if it is alive."
  (declare (indent 1) (debug t))
  `(when (buffer-live-p ,buffer) (with-current-buffer ,buffer ,@body)))

;;;; Hunks

;; A hunk is a list of where it begins now, how many lines there were, and how many there are.
;; Hunks are in order, with lines between them that did not change.  Those before the last one
;; noted are kept in a list, the last one first, and those after it in another: so a note near the
;; one before costs little.

(cl-defstruct (live-occur--hunks (:constructor live-occur--hunks (gap)) (:copier nil))
  "Where a text differs from an older one."
  before after
  (shift 0)                             ; what to add to where those after begin
  gap                         ; more lines than this are between two hunks
  index)                                ; see `live-occur--index', or nil

(defun live-occur--note (hunks start old new)
  "Note in HUNKS that NEW lines came in the place of OLD ones at START."
  (let* ((gap (live-occur--hunks-gap hunks)) (low start) (high (+ start old)) (more 0))
    (live-occur--move-gap hunks (+ high gap))
    (while (pcase (car (live-occur--hunks-before hunks))
             ((and `(,at ,was ,is) (guard (<= (- low at is) gap)))
              (pop (live-occur--hunks-before hunks))
              (setq low (min low at)
                    high (max high (+ at is))
                    more (+ more (- was is))))))
    (push (list low (+ (- high low) more) (+ (- high low) (- new old)))
          (live-occur--hunks-before hunks))
    (cl-incf (live-occur--hunks-shift hunks) (- new old))
    (setf (live-occur--hunks-index hunks) nil)))

(defun live-occur--move-gap (hunks line)
  "Let those of HUNKS that begin at LINE or before it be in `before'."
  (cl-symbol-macrolet ((before (live-occur--hunks-before hunks))
                       (after (live-occur--hunks-after hunks))
                       (shift (live-occur--hunks-shift hunks)))
    (while (and before (> (caar before) line))
      (cl-decf (caar before) shift)
      (push (pop before) after))
    (while (and after (<= (+ (caar after) shift) line))
      (cl-incf (caar after) shift)
      (push (pop after) before))))

(defun live-occur--in-order (hunks)
  "All of HUNKS in a list; nil has none."
  (when hunks
    (when (or (live-occur--hunks-before hunks) (/= 0 (live-occur--hunks-shift hunks)))
      (live-occur--move-gap hunks most-positive-fixnum)
      (setf (live-occur--hunks-after hunks)
            (nreverse (cl-shiftf (live-occur--hunks-before hunks) nil))
            (live-occur--hunks-shift hunks) 0))
    (live-occur--hunks-after hunks)))

(defun live-occur--cut-first (hunks new old)
  "Take NEW lines of the first of HUNKS out of it, and OLD ones."
  (pcase-let ((`((,at ,was ,is) . ,others) (live-occur--in-order hunks)))
    (unless (and (= was old) (= is new)) (push (list (+ at new) (- was old) (- is new)) others))
    (setf (live-occur--hunks-after hunks) others)))

(defun live-occur--split (hunks new old)
  "Let HUNKS say how lines moved since those before line NEW were sent.
They are in the place of those before line OLD.  Answer the hunks that say how
lines moved by that, in a list."
  (let ((tail (live-occur--in-order hunks)) (shift 0) head last next)
    (while (pcase tail
             ((and `((,at ,was ,is) . ,_)
                   (guard (<= (+ at is) new))
                   (guard (<= (+ (- at shift) was) old)))
              (push (pop tail) head)
              (cl-incf shift (- is was)))))
    ;; The last line before the cut, and the first after it, that didn't change.
    (setq last (min old (- new shift) (if tail (- (caar tail) shift) old)))
    (unless (= last old (- new shift))
      (push (list (+ last shift) (- old last) (- new last shift)) head))
    (setq next (max old (- new shift)))
    (while (and tail (> next (- (caar tail) shift)))
      (pcase-let ((`(,at ,was ,is) (pop tail)))
        (setq next (+ (- at shift) was))
        (cl-incf shift (- is was))
        (setq next (max next old (- new shift)))))
    (unless (= next old (- new shift))
      (push (list new (- next old) (- (+ next shift) new)) tail))
    (setf (live-occur--hunks-after hunks) tail (live-occur--hunks-index hunks) nil)
    (nreverse head)))

(defun live-occur--unmoved (line hunks)
  "The line that LINE was before HUNKS, or the one in whose place it came."
  (let ((shift 0))
    (cl-loop for (at was is) in (live-occur--in-order hunks)
             while (< at line)
             do (cl-incf shift (if (< line (+ at is)) (max 0 (- line at was)) (- is was))))
    (- line shift)))

(defun live-occur--index (hunks)
  "HUNKS as a vector, with where each begins in the old text first."
  (or (live-occur--hunks-index hunks)
      (setf (live-occur--hunks-index hunks)
            (let ((shift 0))
              (vconcat (cl-loop for (at was is) in (live-occur--in-order hunks)
                                collect (list (- at shift) at was is)
                                do (cl-incf shift (- is was))))))))

(defun live-occur--moved (line hunks &optional alone)
  "Where LINE of an old text is now, as HUNKS say; nil has none.
If it was taken out it is at one near that, or with ALONE, nowhere."
  (let* ((index (and hunks (live-occur--index hunks))) (low 0) (high (length index)))
    (while (< low high)
      (let ((middle (/ (+ low high) 2)))
        (if (<= (car (aref index middle)) line) (setq low (1+ middle)) (setq high middle))))
    (if (= low 0) line
      (pcase-let* ((`(,from ,at ,was ,is) (aref index (1- low))) (after (- line from)))
        (cond ((>= after was) (+ at is (- after was)))
              ((< after is) (+ at after))
              ((not alone) (max at (+ at is -1))))))))

;;;; Texts

;; Lines are counted as the gaps between newlines, from 0: a text that ends in a newline has an
;; empty line after it, which is never sent.

(cl-defstruct (live-occur--text (:type vector) (:conc-name live-occur--) (:copier nil))
  "What is known of a text, which a program has."
  buffer                                ; nil for a file that isn't open
  tell                  ; called after a change, with whether lines have moved
  (lines 0)                             ; how many lines the program holds
  edits                                 ; what changed since, or nil
  moves                                 ; how lines moved since
  sent                           ; how they moved before, but since the hits
  tick size            ; of the buffer when its edits were known, or nil if lost
  (place 1) (line 0)                    ; one that is known, and its line
  start tail          ; where a change begins, and how far from the end it ends
  span whole                ; how many newlines it has, and if of whole lines
  rest)     ; how far from the end changes that wait end, which begin at place

(defvar-local live-occur--texts-here nil "What is known of this buffer's text.")

;; A change of the major mode, as by `revert-buffer', leaves these in place.
(put 'live-occur--texts-here 'permanent-local t)
(put 'live-occur--before 'permanent-local-hook t)
(put 'live-occur--after 'permanent-local-hook t)

(defmacro live-occur--in-whole (buffer &rest body)
  "Run BODY in the whole text of BUFFER, if that is alive, and stay there.
A cache of newlines would make it slower to walk over many lines.  A line goes
on where a field ends."
  (declare (indent 1) (debug t))
  `(live-occur--in ,buffer
     (save-excursion
       (save-restriction
         (widen)
         (let ((cache-long-scans nil) (inhibit-field-text-motion t))
           ,@body)))))

(defsubst live-occur--base (buffer)
  "The buffer that has the text of BUFFER, which may be an indirect one."
  (or (buffer-base-buffer buffer) buffer))

(defun live-occur--track (text)
  "Gather the edits of TEXT, in all buffers that have it."
  (dolist (buffer (buffer-list))
    (when (eq (live-occur--base buffer) (live-occur--base (live-occur--buffer text)))
      (with-current-buffer buffer
        (cl-pushnew text live-occur--texts-here)
        (add-hook 'before-change-functions #'live-occur--before nil t)
        (add-hook 'after-change-functions #'live-occur--after nil t)))))

(defun live-occur--untrack (text)
  "Gather no more edits of TEXT."
  (dolist (buffer (buffer-list))
    (when (memq text (buffer-local-value 'live-occur--texts-here buffer))
      (with-current-buffer buffer
        (unless (cl-callf2 remq text live-occur--texts-here)
          (kill-local-variable 'live-occur--texts-here)
          (remove-hook 'before-change-functions #'live-occur--before t)
          (remove-hook 'after-change-functions #'live-occur--after t))))))

(defun live-occur--count-newlines (from to)
  "How many newlines are from FROM to TO, below 0 if TO comes first."
  (cond ((= from to) 0)
        ((< to from) (- (live-occur--count-newlines to from)))
        (t (let ((point (point)))       ; `save-excursion' would make garbage
             (goto-char from)
             (skip-chars-forward "^\n" to)
             (prog1 (if (= (point) to) 0
                      (save-restriction
                        (narrow-to-region (point) to)
                        (1- (line-number-at-pos (point-max)))))
               (goto-char point))))))

(defun live-occur--go-to-line (text line)
  "Move to the beginning of LINE of TEXT, which is here, from one that is known."
  (if (not (and (live-occur--buffer text) (live-occur--known-p text)))
      (progn (goto-char (point-min)) (forward-line line))
    (live-occur--settle text)
    (goto-char (live-occur--place text))
    (when (and (= 0 (forward-line (- line (live-occur--line text)))) (bolp))
      (setf (live-occur--place text) (point)
            (live-occur--line text) line
            (live-occur--start text) nil))))

;;;; Changes

;; A change is reported before and after it is made, but not always in pairs, and not always with
;; the same bounds.  What is reported before is kept with the number of newlines in it; what is
;; reported after has to lie inside, and the size of the buffer has to be what both say.  Where it
;; is not, or the tick or the size tells of a change that was not reported, the whole text is sent
;; again.  A text that comes from a file or a program leaves the tick alone.
;;
;; A command may make many changes.  The lines of those that are near one another and have no
;; newline are counted later: they are from `place' to `rest' characters before the end.

(defun live-occur--known-p (text)
  "Whether all edits of TEXT are known, and none is lost."
  (let ((buffer (live-occur--buffer text)))
    (and (eql (live-occur--tick text) (buffer-chars-modified-tick buffer))
         (eql (live-occur--size text) (buffer-size buffer)))))

(defun live-occur--know (text)
  "Note that all edits of TEXT, which is here, are known now."
  (setf (live-occur--tick text) (buffer-chars-modified-tick)
        (live-occur--size text) (buffer-size)))

(defun live-occur--lose (text)
  "Forget the edits of TEXT: all of it is to be sent."
  (setf (live-occur--tick text) nil
        (live-occur--edits text) (live-occur--hunks 50)
        (live-occur--moves text) (live-occur--hunks 0)
        (live-occur--place text) 1
        (live-occur--line text) 0
        (live-occur--start text) nil
        (live-occur--rest text) nil)
  (cl-callf or (live-occur--sent text) (live-occur--hunks 0)))

(defun live-occur--replaced (text lines)
  "Note that TEXT, which has LINES, is another one now."
  (live-occur--lose text)
  (dolist (hunks (list (live-occur--edits text) (live-occur--moves text)))
    (live-occur--note hunks 0 (live-occur--lines text) lines)))

(defmacro live-occur--in-hook (&rest body)
  "Run BODY where a change is reported, and tell of an error in it.
Emacs takes all functions out of a hook where one is broken off.  After an error
no edit of this buffer is known."
  (declare (indent 0) (debug t))
  `(let ((inhibit-quit t))
     (condition-case problem
         (progn ,@body)
       ((error quit)
        (dolist (text live-occur--texts-here) (setf (live-occur--tick text) nil))
        (message "live-occur: %s; all is looked at again later"
                 (error-message-string problem))))))

(defmacro live-occur--for-texts (text &rest body)
  "Run BODY with TEXT as what is known of this buffer's, all of it accessible.
A copy of a buffer has its local variables, and another text."
  (declare (indent 1) (debug t))
  `(live-occur--in-hook
     (dolist (,text live-occur--texts-here)
       (when (eq (live-occur--base (current-buffer)) (live-occur--base (live-occur--buffer ,text)))
         (save-restriction
           (widen)
           ,@body)))))

(defun live-occur--before (start end)
  "Take note of the text from START to END, which is about to change."
  (live-occur--for-texts text
    (if (not (live-occur--known-p text))
        (live-occur--lose text)
      (unless (when-let* ((rest (live-occur--rest text)))
                (<= (live-occur--place text) start (+ 200 (- (buffer-size) rest))))
        (live-occur--settle text)
        (setf (live-occur--line text) (live-occur--line-at text start)
              (live-occur--place text) start))
      (live-occur--expect text start (- (buffer-size) end)))))

(defun live-occur--expect (text start tail)
  "Expect a change of TEXT from START to TAIL before its end."
  (let ((end (- (buffer-size) tail)))
    (setf (live-occur--start text) start
          (live-occur--tail text) tail
          (live-occur--span text) (live-occur--count-newlines start end)
          (live-occur--whole text) (and (not (live-occur--rest text))
                                        (memq (char-before start) '(nil ?\n))
                                        (memq (char-before end) '(nil ?\n))))))

(defun live-occur--line-at (text position)
  "The line of POSITION, where nothing of TEXT changed from its `place' to there."
  (+ (live-occur--line text) (live-occur--count-newlines (live-occur--place text) position)))

(defun live-occur--after (start end removed)
  "Gather the change that put START to END in the place of REMOVED characters."
  (live-occur--for-texts text
    (let ((from (live-occur--start text)))
      (funcall (live-occur--tell text) text
               (if (and from
                        (<= from start end (- (buffer-size) (live-occur--tail text)))
                        (= (buffer-size) (+ (live-occur--size text) (- end start removed))))
                   (live-occur--took text from (live-occur--tail text))
                 (live-occur--lose text))))))

(defun live-occur--took (text start tail)
  "Gather the change of TEXT that was expected from START to TAIL before its end.
Answer whether lines have moved."
  (let ((old (live-occur--span text))
        (whole (and (live-occur--whole text) (not (live-occur--rest text)))))
    (live-occur--expect text start tail)
    (setf (live-occur--rest text) (min tail (or (live-occur--rest text) tail)))
    (let ((new (live-occur--span text)))
      (unless (= 0 old new)
        (live-occur--settle text (- new old) (and whole (live-occur--whole text))))
      (unless (= old new)
        (live-occur--note (live-occur--moves text)
                          (+ (live-occur--line-at text start)
                             (if (memq (char-before start) '(nil ?\n)) 0 1))
                          old new))
      (live-occur--know text)
      (/= old new))))

(defun live-occur--settle (text &optional more whole)
  "Note the lines of TEXT that were touched, MORE of which came than went.
With WHOLE the last of them wasn't."
  (when-let* ((rest (cl-shiftf (live-occur--rest text) nil)))
    (live-occur--in-whole (live-occur--buffer text)
      (let ((count (+ (if whole 0 1)
                      (live-occur--count-newlines (live-occur--place text)
                                                  (- (buffer-size) rest)))))
        (live-occur--note (live-occur--edits text) (live-occur--line text)
                          (- count (or more 0)) count)))))

(provide 'live-occur-track)

;;; live-occur-track.el ends here
