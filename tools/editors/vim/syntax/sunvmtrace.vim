" A trace: its opening part, and an entry a line. A report may stand behind it.
if exists('b:current_syntax')
  finish
endif
runtime! syntax/sunvmreport.vim
unlet! b:current_syntax
syntax case match

syntax match sunvmOpening '^\%(trace swap \d\+\|disk \d\+ \d\+\|root \d\+\|entries \d\+\)$'
syntax match sunvmOpening '^file \d\+ \S\+ r[ow] \d\+ \d\+ \S*$'
syntax match sunvmNumber ' \zs\%(0x\x\+\|\d\+\)\ze\%( \|$\)'
syntax match sunvmProcess '^\d\+\ze \x\{16} '
syntax match sunvmMask '\%(^\d\+ \)\@<=\x\{16}\ze '
syntax match sunvmCall '\%(^\d\+ \x\{16} \)\@<=\%(map\|unmap\|protect\|sync\|load\|store\|read\|write\|truncate\|fork\|exit\)\>'
syntax match sunvmChoice ' \zs\%(shared\|private\|any\|newzero\|file\|zero\|none\|r\|w\|rw\)\ze '
syntax match sunvmReply ' = .*$' contains=sunvmDone,sunvmSignal,sunvmRefusal,sunvmNumber

highlight default link sunvmOpening PreProc
highlight default link sunvmProcess LineNr
highlight default link sunvmMask Comment
highlight default link sunvmChoice Type
highlight default link sunvmReply Delimiter

let b:current_syntax = 'sunvmtrace'
