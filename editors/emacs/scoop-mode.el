;;; scoop-mode.el --- Mode for SCOOP texts -*- lexical-binding: t -*-

;; Version: 0.1.0
;; Package-Requires: ((emacs "26.1"))
;; Keywords: languages

;;; Commentary:

;; Colours, indentation, comments, `compile' and the menu of classes for the files of `scoop'.
;; With eglot, `M-x eglot' starts the language server.

;;; Code:

(require 'compile)
(require 'subr-x)

(defgroup scoop nil
  "SCOOP texts."
  :group 'languages)

(defcustom scoop-program "scoop"
  "The program that checks and lays out."
  :type 'string)

(defcustom scoop-files nil
  "The files of the system, as \"src/*.e\"; if nil, the file of the buffer."
  :type '(choice (const nil) string))

(defvar scoop-mode-syntax-table
  (let ((table (make-syntax-table)))
    (modify-syntax-entry ?_ "w" table)
    (modify-syntax-entry ?- ". 12" table)
    (modify-syntax-entry ?\n ">" table)
    (modify-syntax-entry ?% "\\" table)
    (modify-syntax-entry ?\\ "." table)
    (modify-syntax-entry ?\" "\"" table)
    table)
  "Comments begin with two dashes, and `%' quotes in strings.")

(defconst scoop-keywords
  '("as" "class" "create" "deferred" "do" "else" "elseif" "end" "expanded" "feature" "from" "frozen" "if" "indexing" "inherit" "is"
    "local" "loop" "note" "redefine" "then" "until" "check" "ensure" "invariant" "require" "attached" "detachable" "separate"))

(defconst scoop-operators '("and" "implies" "not" "old" "or" "xor"))

(defconst scoop-constants '("current" "false" "result" "true" "void"))

(defconst scoop-left-out
  '("across" "agent" "alias" "assign" "debug" "export" "external" "inspect" "like" "once" "rename" "rescue" "retry" "select"
    "undefine" "variant" "when"))

(defconst scoop-types '("integer" "boolean" "any" "none"))

(defconst scoop--class "^[ \t]*\\(?:\\(?:deferred\\|expanded\\|frozen\\)[ \t]+\\)?class[ \t]+\\([[:alpha:]]\\w*\\)")

(defconst scoop--heading "^\t\\([[:alpha:]]\\w*\\)[ \t]*\\(?:([^)\n]*)\\)?[ \t]*\\(?:[:,\n]\\|do\\>\\|--\\)"
  "A feature at its depth in the layout.")

(defconst scoop-font-lock
  `((,(regexp-opt scoop-keywords 'words) . font-lock-keyword-face)
    (,(regexp-opt scoop-operators 'words) . font-lock-builtin-face)
    (,(regexp-opt scoop-constants 'words) . font-lock-constant-face)
    (,(regexp-opt scoop-left-out 'words) . font-lock-warning-face)
    (,(regexp-opt scoop-types 'words) . font-lock-type-face)
    (,scoop--class 1 font-lock-type-face)
    (,scoop--heading 1 font-lock-function-name-face)
    ("\\<print\\>" . font-lock-function-name-face)
    ("\\<[0-9]+\\(?:_+[0-9]+\\)*\\>" . font-lock-constant-face)))

;; Indentation, as `scoop format' does it.

(defconst scoop--openers '("class" "redefine" "do" "if" "from" "check")
  "What an `end' closes.")

(defconst scoop--parts '("end" "elseif" "else" "until" "loop" "ensure" "then")
  "What begins a line at the depth of the construct that it belongs to.")

(defconst scoop--sections
  '("note" "indexing" "deferred" "expanded" "frozen" "class" "inherit" "create" "feature" "invariant"))

(defun scoop--in-text-p (position)
  "Whether POSITION is in a string or a comment."
  (nth 8 (save-excursion (syntax-ppss position))))

(defun scoop--code-p ()
  "Whether the line at point has something beside a comment."
  (save-excursion
    (back-to-indentation)
    (not (or (eolp) (looking-at "--")))))

(defun scoop--word ()
  "The first word of the line at point, in lower case."
  (save-excursion
    (back-to-indentation)
    (if (looking-at "\\w+") (downcase (match-string-no-properties 0)) "")))

(defun scoop--innermost ()
  "The innermost construct open before this line, or nil.
It is a pair of its word and the indentation of its line."
  (save-excursion
    (beginning-of-line)
    (let ((end (point)) (case-fold-search t) open)
      (if (re-search-backward (concat "^[ \t]*feature\\>\\|" scoop--class) nil 'move)
          (when (looking-at "[ \t]*feature\\>") (push '("class" . 0) open)))
      (while (re-search-forward "\\<\\w+\\>" end t)
        (let ((word (downcase (match-string 0))))
          (unless (scoop--in-text-p (match-beginning 0))
            (cond ((member word scoop--openers) (push (cons word (current-indentation)) open))
                  ((equal word "end") (pop open))))))
      (car open))))

(defun scoop--class-depth (word)
  "The depth of this line directly in a class, if WORD is its first."
  (cond
   ((or (equal word "end") (member word scoop--sections)) 0)
   ((member word '("require" "local" "do" "ensure")) 2)
   (t
    (save-excursion
      (let (depth)
        (while (and (not depth) (zerop (forward-line -1)))
          (let ((before (scoop--word)))
            (cond ((member before '("require" "local")) (setq depth 3))
                  ((equal before "end") (setq depth (if (zerop (current-indentation)) 0 1)))
                  ((member before scoop--sections) (setq depth 1)))))
        (or depth 0))))))

(defun scoop--goes-on-p ()
  "Whether the code before this line ends with an operator."
  (save-excursion
    (let ((case-fold-search t))
      (while (and (zerop (forward-line -1)) (not (scoop--code-p))))
      (let ((comment (save-excursion (nth 8 (syntax-ppss (line-end-position))))))
        (goto-char (or comment (line-end-position)))
        (skip-chars-backward " \t")
        (looking-back "[-+*/\\=<>]\\|\\<\\(?:and\\|or\\|xor\\|implies\\|not\\)" (line-beginning-position))))))

(defun scoop--indentation ()
  "How far this line is indented; a comment as the code after it."
  (let* ((case-fold-search t)
         (is-comment (save-excursion (back-to-indentation) (looking-at "--")))
         (word (save-excursion
                 (when is-comment
                   (while (and (zerop (forward-line 1)) (not (eobp)) (not (scoop--code-p)))))
                 (scoop--word)))
         (open (scoop--innermost)))
    (cond
     ((or (not open) (equal (car open) "class")) (* tab-width (scoop--class-depth word)))
     ((member word scoop--parts) (cdr open))
     (t (+ (cdr open) (* tab-width (if (scoop--goes-on-p) 2 1)))))))

(defun scoop-indent-line ()
  "Indents the line at point."
  (let ((column (scoop--indentation))
        (is-before (<= (current-column) (current-indentation))))
    (if is-before (indent-line-to column) (save-excursion (indent-line-to column)))))

;; The program.

(defun scoop-compile-command ()
  "What checks the system of this buffer."
  (format "%s check --all --explain %s 2>&1 >/dev/null" scoop-program
          (or scoop-files (if buffer-file-name (shell-quote-argument (file-name-nondirectory buffer-file-name)) "*.e"))))

(add-to-list 'compilation-error-regexp-alist-alist
             '(scoop "^\\(?:refused [A-Z][0-9]+ [A-Za-z]+\\|\\(warning\\): .*?\\) \\([^ \n]+\\):\\([0-9]+\\):\\([0-9]+\\)$" 2 3 4 (1)))
(add-to-list 'compilation-error-regexp-alist-alist
             '(scoop-related "^\\([^ \n:]+\\):\\([0-9]+\\):\\([0-9]+\\): " 1 2 3 0))
(add-to-list 'compilation-error-regexp-alist 'scoop)
(add-to-list 'compilation-error-regexp-alist 'scoop-related)

(defun scoop-format-buffer ()
  "Puts the text in its layout by `scoop format', or says why it is refused."
  (interactive)
  (let ((laid-out (generate-new-buffer " *scoop format*")))
    (unwind-protect
        (if (zerop (call-process-region nil nil scoop-program nil laid-out nil "format" "-"))
            (replace-buffer-contents laid-out)
          (message "%s" (string-trim (with-current-buffer laid-out (buffer-string)))))
      (kill-buffer laid-out))))

(defvar scoop-mode-map
  (let ((map (make-sparse-keymap)))
    (define-key map (kbd "C-c C-c") #'compile)
    (define-key map (kbd "C-c C-f") #'scoop-format-buffer)
    map)
  "Keys of `scoop-mode'.")

;;;###autoload
(define-derived-mode scoop-mode prog-mode "SCOOP"
  "Mode for SCOOP texts."
  (setq-local comment-start "-- "
              comment-end ""
              comment-start-skip "--+[ \t]*"
              indent-tabs-mode t
              indent-line-function #'scoop-indent-line
              font-lock-defaults '(scoop-font-lock nil t)
              imenu-case-fold-search t
              imenu-generic-expression `(("Classes" ,scoop--class 1) (nil ,scoop--heading 1))
              compile-command (scoop-compile-command)
              compilation-error-screen-columns nil)
  (setq-local electric-indent-chars (append "\n" electric-indent-chars))
  (add-hook 'post-self-insert-hook #'scoop--indent-part nil t)
  (add-hook 'hack-local-variables-hook (lambda () (setq-local compile-command (scoop-compile-command))) nil t))

(defun scoop--indent-part ()
  "Indents a line anew once a word is typed that changes its depth."
  (when (and (eq (char-syntax last-command-event) ?w)
             (member (scoop--word) (append scoop--parts scoop--sections '("require" "local" "do")))
             (looking-back "^[ \t]*\\w+" (line-beginning-position)))
    (scoop-indent-line)))

;;;###autoload
(add-to-list 'auto-mode-alist '("\\.e\\'" . scoop-mode))

(defun scoop-server (&optional _interactive)
  "How eglot starts the language server.
It is given the files of the system, if `scoop-files' names them."
  (append (list scoop-program "lsp")
          (when scoop-files
            (list :initializationOptions
                  (list :files (vconcat (mapcan (lambda (it) (mapcar #'expand-file-name (file-expand-wildcards it)))
                                                (split-string scoop-files))))))))

(defvar eglot-server-programs)
(with-eval-after-load 'eglot
  (add-to-list 'eglot-server-programs '(scoop-mode . scoop-server)))

(provide 'scoop-mode)
;;; scoop-mode.el ends here
