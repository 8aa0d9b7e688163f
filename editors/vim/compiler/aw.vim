" `:make` shows the place of a fault by aw_explain; `:compiler aw` chooses it.
if exists('current_compiler') && current_compiler ==# 'aw'
  finish
endif
let current_compiler = 'aw'

let s:save = &cpo
set cpo&vim
let s:here = expand('<sfile>:p:h:h:h:h') . '/forms/aw_explain'
let s:program = get(g:, 'aw_explain', filereadable(s:here) ? s:here : 'aw_explain')
execute 'CompilerSet makeprg=' . escape(shellescape(s:program) . ' --all --format=line %:S', ' \|"')
CompilerSet errorformat=%f:%l:%v:\ %m,%-G%.%#
let &cpo = s:save
unlet s:save
