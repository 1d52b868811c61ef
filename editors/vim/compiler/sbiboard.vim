" `:compiler! sbiboard`, then `:make` tests the script at hand: its faults, the conditions that fail, the lines of a trace that
" differ. It reads what `sbiboard replay` and `sbiboard check` say, too.
if exists('current_compiler')
  finish
endif
let current_compiler = 'sbiboard'

CompilerSet makeprg=sbiboard\ test\ %:S
" A trace that differs: its file, and for each line what was wanted and what the board answers.
CompilerSet errorformat=%-Pnot\ ok\ %*\\d\ -\ %f\ (%*\\d\ lines)
CompilerSet errorformat+=%E\ \ \ \ -\ line:\ %l,%C\ \ \ \ \ \ wanted:\ %m,%Z\ \ \ \ \ \ got:\ %m
CompilerSet errorformat+=%-Q\ \ ...
" A fault of a script or of a condition, a condition that fails, any other file that can't be tested.
CompilerSet errorformat+=not\ ok\ %*\\d\ -\ %f:%l:%c:\ %m
CompilerSet errorformat+=not\ ok\ %*\\d\ -\ %f:\ line\ %l:\ %m
CompilerSet errorformat+=not\ ok\ %*\\d\ -\ %f:\ %m
" What --explain says.
CompilerSet errorformat+=%f:%l:%c:\ %m
" What is said of the script at hand, without its name.
CompilerSet errorformat+=#\ line\ %l:\ %m
CompilerSet errorformat+=sbiboard:\ line\ %l:\ %m
CompilerSet errorformat+=differs\ at\ line\ %l:\ %m
CompilerSet errorformat+=%-G%.%#
