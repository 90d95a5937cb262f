" Vim syntax of missions and programs of soter
if exists('b:current_syntax')
  finish
endif

syntax case match

syntax keyword soterDeclaration topic environment plant node external module
syntax keyword soterClause      state input sees noise next period offset reads writes local do ac sc safe safer
syntax keyword soterStatement   publish if then else repeat
syntax keyword soterType        int fix bool
syntax keyword soterOperator    and or not
syntax keyword soterFunction    min max abs clamp rescale
syntax keyword soterBoolean     true false
syntax keyword soterNone        none

syntax match soterNumber  /\<\d\+\%(\.\d\+\)\=/
" 65 bytes or more are no name
syntax match soterLong    /\<[A-Za-z_][A-Za-z0-9_]\{64,}\>/
syntax match soterSign    /:=\|\.\.\|<=\|>=\|==\|!=\|[-+*\/%<>=|]/
" a byte that begins no token
syntax match soterBad     /!=\@!/
syntax match soterBad     /[^ \t\r#A-Za-z0-9_:.<>=!+\-*\/%;,|()\[\]{}]/
syntax match soterComment /#.*$/ contains=soterTodo,@Spell
syntax keyword soterTodo  contained TODO FIXME

" a line that begins with % ends the program. What stands behind the three known ones is left alone
syntax match  soterUnknown /^%.*$/
syntax region soterSection matchgroup=soterLine start=/^%\%(certificate\|flight\|trace\)\r\=$/ end=/^%/me=s-1 keepend

highlight default link soterDeclaration Structure
highlight default link soterClause      Keyword
highlight default link soterStatement   Statement
highlight default link soterType        Type
highlight default link soterOperator    Operator
highlight default link soterSign        Operator
highlight default link soterFunction    Function
highlight default link soterBoolean     Boolean
highlight default link soterNone        Constant
highlight default link soterNumber      Number
highlight default link soterComment     Comment
highlight default link soterTodo        Todo
highlight default link soterLine        PreProc
highlight default link soterUnknown     Error
highlight default link soterLong        Error
highlight default link soterBad         Error

" a certificate may be a long single line, and a section is found from the top
syntax sync fromstart

let b:current_syntax = 'soter'
