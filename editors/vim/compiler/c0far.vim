" Vim compiler file for c0far. :compiler c0far has :make check the text in the buffer, and leaves its fault in the quickfix list.
" let g:c0far_level = 1 takes `break` and `continue`, as --level 1 does.
if exists('current_compiler')
  finish
endif
let current_compiler = 'c0far'

let s:cpo_save = &cpo
set cpo&vim

execute 'CompilerSet makeprg=c0far\ check\ --level\ ' . get(g:, 'c0far_level', 0) . '\ %:S'
" FILE:LINE:COLUMN: fault NUMBER NAME; of an image FILE: verify fault NUMBER; else what c0far says without a place, but for `ok`
CompilerSet errorformat=%f:%l:%c:\ fault\ %n\ %m,%f:\ %m,%-Gok

let &cpo = s:cpo_save
unlet s:cpo_save
