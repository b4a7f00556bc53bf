" Comments, indentation by two spaces, :make, and gq, which lays the whole file out, whatever lines it is given.
if exists('b:did_ftplugin')
  finish
endif
let b:did_ftplugin = 1

" A text that is refused stays as it is.
function! CycloneFormat() abort
  if mode() =~# '[iR]'
    return 1
  endif
  let l:lines = systemlist('cyclone format /dev/stdin 2>/dev/null', getline(1, '$'))
  if v:shell_error
    echohl ErrorMsg | echomsg 'cyclone format refuses the text: :make says why' | echohl None
    return 0
  endif
  let l:view = winsaveview()
  call setline(1, l:lines)
  if line('$') > len(l:lines)
    silent execute (len(l:lines) + 1) . ',$delete _'
  endif
  call winrestview(l:view)
  return 0
endfunction

setlocal commentstring=//\ %s comments=s1:/*,mb:*,ex:*/,://
setlocal formatoptions-=t formatoptions+=croql formatexpr=CycloneFormat()
setlocal expandtab shiftwidth=2 softtabstop=2
compiler cyclone

let b:undo_ftplugin = 'setlocal commentstring< comments< formatoptions< formatexpr< expandtab< shiftwidth< softtabstop< makeprg< errorformat<'
