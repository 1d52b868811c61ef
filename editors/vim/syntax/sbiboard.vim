" Vim syntax of the scripts of sbiboard, as docs/FORMATS.md has them.
if exists('b:current_syntax')
  finish
endif

let s:operations = 'ecall load fetch store store1 store2 store4 amoswap amoadd amoand amoor amoxor amomin amomax amominu amomaxu amoswap.w amoadd.w amoand.w amoor.w amoxor.w amomin.w amomax.w amominu.w amomaxu.w amocas satp sfence fencei sie sstatus sip clearssip wfi poll serve advance tick'
let s:replies = 'ret entry waiting gone value fault served moved done refused'
let s:rules = 'never some each before can end steady firm lenient'
let s:marks = 'stale missed unsteady unfirm unlenient'
let s:ends = 'off history-full quiet stuck'

" Any of these words, whole. A comment may begin behind one, and in a condition a comma.
function! s:Words(words, behind) abort
  return '"\%(^\|[[:blank:],!]\)\@1<=\%(' . join(split(escape(a:words, '.')), '\|') . '\)\ze\%([[:blank:]#' . a:behind . ']\|$\)"'
endfunction

let s:number = '-\?\%(0x\x\+\|\d\+\)'

syntax case match
syntax sync minlines=1

" (of two that match at one place the later one holds)
syntax match sbiboardError "[^[:blank:]#]\+"
execute 'syntax match sbiboardNumber "\%(^\|[[:blank:],]\)\@1<=' . s:number . '\ze\%([[:blank:]#]\|$\)"'
syntax match sbiboardAll "[[:blank:]]\@1<=-\ze\%([[:blank:]#]\|$\)"
syntax match sbiboardActor "^\s*\zs\%(c\|0x\x\+\|\d\+\)\ze\%([[:blank:]#]\|$\)"
execute 'syntax match sbiboardOperation ' . s:Words(s:operations, '')
syntax match sbiboardBoard "^\s*\zsboard\ze\%([[:blank:]#]\|$\)"
syntax match sbiboardHead "^\s*\zs\%(at\|clock\)\ze\%([[:blank:]#]\|$\)"
syntax match sbiboardCut "^\s*\zscut\ze\%([[:blank:]#]\|$\)"
syntax region sbiboardAnswer start="[[:blank:]]\@1<=->\ze\%([[:blank:]#]\|$\)" end="\ze#" end="$" oneline keepend contains=sbiboardArrow,sbiboardReply,sbiboardNumber,sbiboardError
execute 'syntax match sbiboardReply ' . s:Words(s:replies, ',') . ' contained'
syntax match sbiboardArrow "[[:blank:]]\@1<=->\ze\%([[:blank:]#]\|$\)" contained
syntax match sbiboardComment "#.*" contains=@Spell

" Conditions.
syntax region sbiboardCondition matchgroup=sbiboardSign start="^\s*\zs#!/\@!" end="\ze#" end="$" oneline keepend
      \ contains=sbiboardError,sbiboardRule,sbiboardAfter,sbiboardEnd,sbiboardAny,sbiboardComma,sbiboardArrow,sbiboardPatternNumber,sbiboardPatternOperation,sbiboardPatternReply,sbiboardMark,sbiboardClock,sbiboardDash
execute 'syntax match sbiboardRule ' . s:Words(s:rules, '') . ' contained'
execute 'syntax match sbiboardEnd ' . s:Words(s:ends, '') . ' contained'
execute 'syntax match sbiboardPatternOperation ' . s:Words(s:operations . ' cut', ',') . ' contained'
execute 'syntax match sbiboardPatternReply ' . s:Words(s:replies, ',') . ' contained'
execute 'syntax match sbiboardMark ' . s:Words(s:marks, ',') . ' contained'
execute 'syntax match sbiboardPatternNumber "\%(^\|[[:blank:],]\)\@1<=' . s:number . '\ze\%([[:blank:]#,]\|$\)" contained'
syntax match sbiboardAfter "[[:blank:]!]\@1<=\%(after\|maybe\)\ze\%([[:blank:]#]\|$\)" contained
syntax match sbiboardClock "[[:blank:],]\@1<=c\ze\%([[:blank:]#,]\|$\)" contained
syntax match sbiboardAny "[[:blank:],]\@1<=_\ze\%([[:blank:]#,]\|$\)" contained
syntax match sbiboardDash "[[:blank:]]\@1<=-\ze\%([[:blank:]#,]\|$\)" contained
syntax match sbiboardComma "," contained

highlight default link sbiboardError Error
highlight default link sbiboardNumber Number
highlight default link sbiboardPatternNumber Number
highlight default link sbiboardAll Constant
highlight default link sbiboardDash Constant
highlight default link sbiboardActor Identifier
highlight default link sbiboardClock Identifier
highlight default link sbiboardOperation Function
highlight default link sbiboardPatternOperation Function
highlight default link sbiboardBoard Statement
highlight default link sbiboardHead Label
highlight default link sbiboardCut Statement
highlight default link sbiboardReply Type
highlight default link sbiboardPatternReply Type
highlight default link sbiboardArrow Operator
highlight default link sbiboardComma Delimiter
highlight default link sbiboardComment Comment
highlight default link sbiboardSign PreProc
highlight default link sbiboardRule Keyword
highlight default link sbiboardAfter Keyword
highlight default link sbiboardEnd Constant
highlight default link sbiboardMark Type
highlight default link sbiboardAny Special

let b:current_syntax = 'sbiboard'
