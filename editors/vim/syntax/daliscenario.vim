" Colours a scenario of dalictl. Written by editors/make.
if exists('b:current_syntax')
  finish
endif
syntax match daliscenarioComment /^#.*$/
syntax match daliscenarioWord /^\%(lampfailure\|hearfault\|instance\|device\|memory\|event\|reply\|ticks\|gear\|tick\)\ze\%( \|$\)/
syntax match daliscenarioKind /\%( \)\@<=\%(damaged\|fault\|group\|level\|scene\|lost\)\ze\%( \|$\)/
syntax match daliscenarioNumber /\%( \)\@<=\d\+\%(\.\d\+\)\=\ze\%( \|$\)/
syntax match daliscenarioFrame /\%( \)\@<=\x\{6}$/
highlight default link daliscenarioFrame Special
highlight default link daliscenarioComment Comment
highlight default link daliscenarioWord Statement
highlight default link daliscenarioKind Constant
highlight default link daliscenarioNumber Number
let b:current_syntax = 'daliscenario'
