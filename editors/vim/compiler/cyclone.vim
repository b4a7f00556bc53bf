" :make checks the file, and the list of places (:copen) has each refusal and warning.
if exists('current_compiler')
  finish
endif
let current_compiler = 'cyclone'

CompilerSet makeprg=cyclone\ check\ %:S
CompilerSet errorformat=%f:%l:%c:\ %tarning:\ %m,%f:%l:%c:\ %m,%-G%.%#
