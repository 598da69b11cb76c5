" :make tells why the program in the buffer is refused, or what is likely to be wrong in it. g:cpx_show is the command `show` of the project.
if exists('current_compiler')
  finish
endif
let current_compiler = 'cpx'
let s:show = get(g:, 'cpx_show', fnamemodify(expand('<sfile>:p'), ':h:h:h:h') . '/show')
let &l:makeprg = fnameescape(s:show) . ' refusal --where %:S %:S'
setlocal errorformat=%f:%l:%c:\ %tint:\ %m,%f:%l:%c:\ %m,%-G%.%#
