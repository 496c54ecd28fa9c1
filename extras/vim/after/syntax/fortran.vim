" The words of Fortran M, over Vim's own colours of Fortran. Put this file into ~/.vim/after/syntax/.
"
" It colours a buffer that has a statement of processes or ports, or in which b:fortran_m is set to 1, and leaves other
" Fortran as it is. With b:fortran_m or g:fortran_m set to 0 it colours nothing.

let s:is_on = get(b:, "fortran_m", get(g:, "fortran_m", -1))
if s:is_on == 0
  finish
endif
" the keyword of a statement stands in column 7 or behind
if s:is_on < 0 && !search('\c^[ 0-9]\{6,}\%(PROCESS\|INPORT\|OUTPORT\|CHANNEL *(\)', "nw")
  finish
endif

let s:cpo_save = &cpo
set cpo&vim
syn case ignore

syn keyword fortranMUnit PROCESS
syn keyword fortranMType INPORT OUTPORT
syn keyword fortranMProcess PROCESSES ENDPROCESSES PROCESSCALL PROCESSDO ENDPROCESSDO
syn keyword fortranMMessage SEND RECEIVE CHANNEL MERGER PROBE ENDCHANNEL MOVEPORT
syn keyword fortranMPlace PROCESSORS LOCATION SUBMACHINE
" two words stand for one
syn match fortranMProcess "\<END *PROCESS\%(ES\|DO\)\>"
syn match fortranMProcess "\<PROCESS *CALL\>"
syn match fortranMMessage "\<END *CHANNEL\>"
syn match fortranMMessage "\<MOVE *PORT\>"
" keys of a statement on channels
syn match fortranMKey "\%([(,] *\)\@<=\%(PORT\|IN\|OUT\|FROM\|TO\|END\|IOSTAT\|EMPTY\)\ze *="

hi def link fortranMUnit    fortranUnitHeader
hi def link fortranMType    fortranType
hi def link fortranMProcess fortranKeyword
hi def link fortranMMessage fortranReadWrite
hi def link fortranMPlace   fortranStorageClass
hi def link fortranMKey     Identifier

let &cpo = s:cpo_save
unlet s:cpo_save
