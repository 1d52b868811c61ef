" Scripts of sbiboard: a file of such a name that is new, or that has a board line among its first lines.
function! s:Detect() abort
  let l:head = getline(1, 100)
  if l:head ==# [''] || match(l:head, '^\s*board\%([[:blank:]#]\|$\)') >= 0
    setfiletype sbiboard
  endif
endfunction

autocmd BufNewFile,BufRead *.sched,*.trace,*.program,*.failed,*.reached call s:Detect()
