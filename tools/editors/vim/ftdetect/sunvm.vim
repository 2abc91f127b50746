" Scripts, reports and traces of sunvm, told by their first line that is no comment: other programs have files of these names too.
function! s:First(pattern) abort
  for line in getline(1, 200)
    if line !~# '^[ \t]*\%(#.*\)\?\r\?$'
      return line =~# a:pattern
    endif
  endfor
  return 1
endfunction

autocmd BufRead,BufNewFile *.vm if s:First('^[ \t]*\%(frames\|swap\|translations\|disk\|join\|file\|process\)\>') | set filetype=sunvm | endif
autocmd BufRead,BufNewFile *.report if s:First('^\%(process \d\+\|file \|make \d\+ entries\|trace swap\|script: \|setup: \|fault: \)') | set filetype=sunvmreport | endif
autocmd BufRead,BufNewFile *.trace if s:First('^trace swap \d\+$') | set filetype=sunvmtrace | endif
