" Specifications and schedules of aw.
if exists('b:did_ftplugin')
  finish
endif
let b:did_ftplugin = 1

setlocal comments=:% commentstring=%\ %s formatoptions-=t formatoptions+=croql
setlocal nowrap
compiler aw

let s:here = expand('<sfile>:p:h:h:h:h') . '/forms/aw_fmt'

" Writes the whole text in one form; where a line can't be read it is left as it is.
if !exists('*s:Format')
  function s:Format() abort
    let l:program = get(g:, 'aw_fmt', filereadable(s:here) ? s:here : 'aw_fmt')
    let l:lines = systemlist(shellescape(l:program) . ' -', getline(1, '$'))
    if v:shell_error
      echohl ErrorMsg | echomsg join(l:lines[:1], ' ') | echohl None
    elseif l:lines !=# getline(1, '$')
      let l:view = winsaveview()
      silent keepjumps %delete _
      call setline(1, l:lines)
      call winrestview(l:view)
    endif
  endfunction
endif
command! -buffer -bar AwFormat call s:Format()

let b:undo_ftplugin = 'setlocal comments< commentstring< formatoptions< wrap< makeprg< errorformat< | silent! delcommand -buffer AwFormat'
