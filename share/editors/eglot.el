;;; SPDX-License-Identifier: MIT OR Apache-2.0
;;; Emacs with eglot: diagnostics, go to definition and hover for definition files of units. Load it in your init file,
;;; and type M-x eglot in a file NAME.units:
;;;   (load "/usr/local/share/units/editors/eglot.el")
(defvar units-language-server
  (let* ((here (file-name-directory (or load-file-name buffer-file-name)))
         (installed (expand-file-name "../lsp/units_lsp.py" here)))
    (if (file-exists-p installed) installed (expand-file-name "../../tools/units_lsp.py" here))))
(define-derived-mode units-definitions-mode prog-mode "Units"
  (setq-local comment-start "# "))
(add-to-list 'auto-mode-alist '("\\.units\\'" . units-definitions-mode))
(with-eval-after-load 'eglot
  (add-to-list 'eglot-server-programs `(units-definitions-mode . ("python3" ,units-language-server))))
