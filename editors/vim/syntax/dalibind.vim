" Colours a binding of dalictl. Written by editors/make.
if exists('b:current_syntax')
  finish
endif
syntax match dalibindComment /^#.*$/
syntax match dalibindWord /^\%(source\|buses\|tries\)\ze\%( \|$\)/
syntax match dalibindKind /\%( \)\@<=\%(device-instance\|instance-group\|device-group\|instance\|device\)\ze\%( \|$\)/
syntax match dalibindNumber /\%( \)\@<=\d\+\%(\.\d\+\)\=\ze\%( \|$\)/
highlight default link dalibindComment Comment
highlight default link dalibindWord Statement
highlight default link dalibindKind Constant
highlight default link dalibindNumber Number
let b:current_syntax = 'dalibind'
