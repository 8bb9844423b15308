" Colours of osi's scripts for vim. Put it in ~/.vim/syntax/osi.vim, and in ~/.vimrc: au BufRead,BufNewFile *.osi setf osi
if exists("b:current_syntax")
  finish
endif
syn match osiComment "^#.*" contains=osiForeign
" A comment that no tool knows: free text has a blank behind #.
syn match osiUnknown "^#[A-Za-z=].*" contains=osiForeign
syn match osiExpected "^#= .*" contains=osiForeign
syn match osiLosses "^#\(when\|losses\|calm\|down\|up\|lan\)\( .*\)\?$" contains=osiForeign
syn match osiCommand "^# osi \(run\|datagrams\|inactive\|relay\):.*" contains=osiForeign
syn match osiSetup "^\(version\|set\|lan\|es\|is\|port\|route\|path\|tsap\|relay\|start\)\>"
syn match osiEvent "^\(unit\|connect\|accept\|refuse\|data\|expedite\|window\|disconnect\|tick\|deliver\|settle\|inject\|restart\|send\)\>"
syn match osiWord " \(normal\|extended\|exp\|noexp\|sum\|nosum\|partial\|complete\)\>"
syn match osiNumber " \d\+\>"
" What the program refuses: blanks at the ends or twice, tabs, and what is not ASCII, in comments too.
syn match osiForeign "[^ -~]" contained
syn match osiFault "^ \+\| \+$\|  \+\|\t\|[^ -~]"
hi def link osiComment Comment
hi def link osiUnknown Error
hi def link osiExpected Special
hi def link osiLosses PreProc
hi def link osiCommand PreProc
hi def link osiSetup Type
hi def link osiEvent Statement
hi def link osiWord Constant
hi def link osiNumber Number
hi def link osiFault Error
hi def link osiForeign Error
let b:current_syntax = "osi"
