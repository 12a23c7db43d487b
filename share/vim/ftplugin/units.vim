" SPDX-License-Identifier: MIT OR Apache-2.0
" Settings for definition files of units.
if exists('b:did_ftplugin') | finish | endif
let b:did_ftplugin = 1

setlocal comments=:#:,:#=,:# commentstring=#\ %s formatoptions-=t formatoptions+=croql
" gf and [i follow !include lines.
setlocal include=^\\s*!\\s*include
compiler units

let b:undo_ftplugin = 'setlocal comments< commentstring< formatoptions< include< makeprg< errorformat<'
