" Vim compiler file for soter: after `:compiler soter`, `:make` checks the file and jumps to the place of a fault.
" Where these files were copied out of the repository, g:soter_lint has the path of its scripts/lint.
if exists('current_compiler')
  finish
endif
let current_compiler = 'soter'

let s:lint = get(g:, 'soter_lint', fnamemodify(resolve(expand('<sfile>:p')), ':h:h:h:h') . '/scripts/lint')
execute 'CompilerSet makeprg=' . escape(s:lint, ' \|"') . '\ %:p:S'
CompilerSet errorformat=%f:%l:%c:\ %trror:\ %m,%f:%l:%c:\ %tote:\ %m,%f:%l:%c:\ %tarning:\ %m
