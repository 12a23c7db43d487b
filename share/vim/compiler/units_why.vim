" SPDX-License-Identifier: MIT OR Apache-2.0
" Reports on definition files, with the file, the line and the column of each fault: `:compiler units_why`, `:make`.
if exists('current_compiler') | finish | endif
let current_compiler = 'units_why'

CompilerSet makeprg=units-why\ --lint\ -f\ %:S
CompilerSet errorformat=%f:%l:%c:\ %m,%+G%.%#
