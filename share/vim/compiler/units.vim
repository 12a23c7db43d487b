" SPDX-License-Identifier: MIT OR Apache-2.0
" Reports on definition files: `:make` runs the check. `:setlocal makeprg=units-lint\ %:S` makes it run the linter.
if exists('current_compiler') | finish | endif
let current_compiler = 'units'

" Notices and findings have a file and a line. A fault in a definition has only its name.
CompilerSet makeprg=units\ --check\ -f\ %:S
CompilerSet errorformat=%f:%l:\ %m,%+G%.%#
