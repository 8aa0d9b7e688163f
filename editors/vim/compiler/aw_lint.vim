" `:compiler aw_lint` and `:make` show what a specification says and was hardly meant; `:compiler aw` goes back to faults.
if exists('current_compiler') && current_compiler ==# 'aw_lint'
  finish
endif
let current_compiler = 'aw_lint'

let s:save = &cpo
set cpo&vim
let s:here = expand('<sfile>:p:h:h:h:h') . '/forms/aw_lint'
let s:program = get(g:, 'aw_lint', filereadable(s:here) ? s:here : 'aw_lint')
execute 'CompilerSet makeprg=' . escape(shellescape(s:program) . ' --format=line %:S', ' \|"')
CompilerSet errorformat=%f:%l:%v:\ %m,%-G%.%#
let &cpo = s:save
unlet s:save
