;; For Emacs with dap-mode: (load "/path/to/zebludor/editors/emacs.el"), then M-x dap-debug in a source; M-x compile shows
;; what tools/why --lines refuses. dap-mode has no command for going back; the last two are them.
(require 'dap-mode)
(defvar zebludor-dap (expand-file-name "../tools/dap" (file-name-directory (or load-file-name buffer-file-name))))
(dap-register-debug-provider "zebludor"
  (lambda (conf) (dap--put-if-absent (dap--put-if-absent conf :dap-server-path (list zebludor-dap)) :program buffer-file-name)))
(dap-register-debug-template "Zebludor" (list :type "zebludor" :request "launch" :name "Zebludor" :stopOnEntry t))
(add-hook 'asm-mode-hook (lambda () (setq-local compile-command (concat (file-name-directory zebludor-dap) "why --lines " (shell-quote-argument buffer-file-name)))))
(defun zebludor-step-back () (interactive) (dap--step "stepBack" (dap--cur-session-or-die)))
(defun zebludor-reverse-continue () (interactive) (dap--step "reverseContinue" (dap--cur-session-or-die)))
