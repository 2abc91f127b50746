" A script of sunvm: set-up lines, and the lines of processes. What the grammar refuses is shown as an error.
if exists('b:current_syntax')
  finish
endif
syntax case match
syntax sync minlines=1

syntax match sunvmComment '^ *#.*$'
" a comment stands on a line of its own; tabs and carriage returns stand nowhere
syntax match sunvmError '\t\|\r'
syntax match sunvmError ' \zs#.*$'
syntax match sunvmComment '^ *#.*$' contains=NONE

syntax match sunvmSetup '^ *\zs\%(frames\|swap\|translations\|disk\|join\|file\)\ze\%( \|$\)'
syntax match sunvmBlock '^ *\zs\%(process\|fork\|end\|wait\)\ze *$'
syntax match sunvmCall '^ *\zs\%(map\|unmap\|protect\|sync\|load\|store\|read\|write\|truncate\)\ze\%( \|$\)'
syntax match sunvmNumber ' \zs\%(0x\x\{1,8}\|\d\{1,10}\)\ze\%( \|$\)'
syntax match sunvmBytes ' \zs\%(\x\x\)\{5,}\ze *$'
syntax match sunvmChoice ' \zs\%(blank\|path\|stripe\|mirror\|ro\|rw\|r\|w\|none\|shared\|private\|any\|zero\)\ze\%( \|$\)'

highlight default link sunvmComment Comment
highlight default link sunvmError Error
highlight default link sunvmSetup PreProc
highlight default link sunvmBlock Statement
highlight default link sunvmCall Function
highlight default link sunvmNumber Number
highlight default link sunvmBytes String
highlight default link sunvmChoice Type

let b:current_syntax = 'sunvm'
