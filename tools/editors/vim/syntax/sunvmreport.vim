" A report of sunvm: the sections of processes and files, or the line of what kept a run from its end.
if exists('b:current_syntax')
  finish
endif
syntax case match

syntax match sunvmHeading '^\%(process \d\+\%( not born\)\?\|file \S\+ \d\+\)$'
syntax match sunvmLine '^\d\+\ze [a-z]'
syntax match sunvmCall '\%(^\d\+ \)\@<=\%(map\|unmap\|protect\|sync\|load\|store\|read\|write\|truncate\|fork\|exit\)\>'
syntax match sunvmDone ' \zsok\%( \d\+\)\?$'
syntax match sunvmNumber ' \zs0x\x\+$'
syntax match sunvmSignal '\%(SEGV\|BUS\) \%(nomap\|prot\|align\|past\|io \d\+ \d\+ \d\+\)$'
syntax match sunvmRefusal '\<error \%(\d\+ \u\a*\|io \d\+ \d\+ \d\+\)$'
syntax match sunvmBytes '^\x\{8} \%(\x\x\)\{1,32}$'
syntax match sunvmFault '^\%(script\|setup\|fault\|usage\|trace\): .*$'
syntax match sunvmSummary '^make \d\+ entries \d\+ signals \d\+ refusals \d\+ sum \d\+$'

highlight default link sunvmHeading Title
highlight default link sunvmLine LineNr
highlight default link sunvmCall Function
highlight default link sunvmDone Constant
highlight default link sunvmNumber Number
highlight default link sunvmSignal WarningMsg
highlight default link sunvmRefusal WarningMsg
highlight default link sunvmBytes String
highlight default link sunvmFault Error
highlight default link sunvmSummary Title

let b:current_syntax = 'sunvmreport'
