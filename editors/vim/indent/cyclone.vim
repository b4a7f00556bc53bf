" The style of the examples: vim's own indentation of C, with labels in line with what stands beside them. It takes the `:=:` of a swap for
" an expression that goes on, so behind a swap the indentation is found here.
if exists('b:did_indent')
  finish
endif
let b:did_indent = 1

setlocal indentexpr=CycloneIndent(v:lnum)
setlocal cinoptions=L0,(0,W2,l1
setlocal indentkeys=0{,0},0),:,!^F,o,O,e

let b:undo_indent = 'setlocal indentexpr< cinoptions< indentkeys<'

if exists('*CycloneIndent')
  finish
endif

function CycloneIndent(line)
  let before = prevnonblank(a:line - 1)
  while getline(before) =~# '^\s*//'
    let before = prevnonblank(before - 1)
  endwhile
  if getline(before) !~# ':=:.*;'
    return cindent(a:line)
  endif
  let head = getline(prevnonblank(before - 1))
  let is_alone = head =~# '^\s*\%(if\|while\)\>.*)\s*$\|\<else\s*$'
  let closes = getline(a:line) =~# '^\s*}'
  return indent(before) - shiftwidth() * (is_alone + closes)
endfunction
