" Vim compiler plugin: `:compiler fmc`, then `:make` checks the program of the buffer and goes to the refused line.
" Put this file into ~/.vim/compiler/. `fmc` has to be on the PATH; a symbolic link to the script will do.

if exists("current_compiler")
  finish
endif
let current_compiler = "fmc"

if exists(":CompilerSet") != 2
  command -nargs=* CompilerSet setlocal <args>
endif

let s:cpo_save = &cpo
set cpo&vim

" %:S is the name of the file, quoted for the shell
CompilerSet makeprg=fmc\ check\ <\ %:S
" what `check` says of a lawful program is no error
CompilerSet errorformat=line\ %l:\ %m,%-G%.%#

let &cpo = s:cpo_save
unlet s:cpo_save
