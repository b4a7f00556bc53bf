" The language of docs/LANGUAGE.md. Each token is one match; of two matches at one place vim takes the one that stands further down.
if exists('b:current_syntax')
  finish
endif

syntax case match
syntax match cycloneName /\h\w*/
syntax match cycloneType /\%(int\|char\|void\|struct\|datatype\|exn\|region_t\|uregion_key_t\)\w\@!/
syntax match cycloneStatement /\%(if\|else\|while\|for\|return\|break\|continue\|throw\|try\|catch\|case\|default\)\w\@!/
syntax match cycloneMemory /\%(region\|open\|let\|alias\|NewDynamicRegion\|new_ukey\|new\|rnew\|numelts\|ufree\|free_ukey\)\w\@!/
syntax match cycloneConstant /\%(NULL\|unique_region\|heap_region\)\w\@!/
syntax match cycloneRegion /`\h\w*/
syntax match cycloneNumber /0[xX]\x\+\|0\|[1-9]\d*/
syntax match cycloneCharacter /'\%([ -&(-[\]-~]\|\\[ntr0\\']\)'/
syntax match cycloneSign /[-+*\/%&|^~!<>=()[\]{},;:@?]/
syntax match cycloneComment "//.*$"
syntax region cycloneComment start="/\*" end="\*/"
syntax sync fromstart

highlight default link cycloneType Type
highlight default link cycloneStatement Statement
highlight default link cycloneMemory Keyword
highlight default link cycloneConstant Constant
highlight default link cycloneRegion Identifier
highlight default link cycloneNumber Number
highlight default link cycloneCharacter Character
highlight default link cycloneSign Operator
highlight default link cycloneComment Comment

let b:current_syntax = 'cyclone'
