" Colours a text of dalictl. Written by editors/make.
if exists('b:current_syntax')
  finish
endif
syntax case ignore
setlocal iskeyword=@,48-57,_
syntax keyword ilBoolean FALSE TRUE
syntax keyword ilType BOOL CTU DEV_ASK DEV_DO DEV_SCHEME DINT GEAR_ASK GEAR_DO GEAR_LEVEL GEAR_PAIR GEAR_READ GEAR_SET INT R_TRIG SINT TIME TON UDINT UINT USINT
syntax keyword ilFunction ABS DINT_TO_INT DINT_TO_SINT DINT_TO_UDINT DINT_TO_UINT DINT_TO_USINT INT_TO_DINT INT_TO_SINT INT_TO_UDINT INT_TO_UINT INT_TO_USINT LIMIT MAX MIN SINT_TO_DINT SINT_TO_INT SINT_TO_UDINT SINT_TO_UINT SINT_TO_USINT UDINT_TO_DINT UDINT_TO_INT UDINT_TO_SINT UDINT_TO_UINT UDINT_TO_USINT UINT_TO_DINT UINT_TO_INT UINT_TO_SINT UINT_TO_UDINT UINT_TO_USINT USINT_TO_DINT USINT_TO_INT USINT_TO_SINT USINT_TO_UDINT USINT_TO_UINT
syntax keyword ilStructure AT CONFIGURATION END_CONFIGURATION END_FUNCTION END_PROGRAM END_RESOURCE FUNCTION INTERVAL ON PRIORITY PROGRAM RESOURCE SINGLE TASK WITH
syntax keyword ilStatement ADD AND ANDN CAL CALC CALCN DIV EQ GE GT JMP JMPC JMPCN LD LDN LE LT MOD MUL NE NOT OR ORN R RET RETC RETCN S ST STN SUB XOR XORN
syntax match ilNumber /\<\d\+#[0-9A-Fa-f_]\+\>\|\<\d[0-9_]*\>/
syntax match ilTime /\<\%(T\|TIME\)#[0-9dhms_]\+\>/
syntax match ilAddress /%\%(QB\|IW\|IX\)\d\+\.\d\+/
syntax match ilSign /&N\=\>\|&\|:=/
syntax region ilComment start=/(\*/ end=/\*)/
syntax match ilLabel /^\s*\zs\h\w*\ze\s*:=\@!/
syntax match ilLabel /\%(\<JMPC\=N\=[ \t]\+\)\@<=\h\w*/
syntax region ilDeclarations matchgroup=ilStructure start=/\<VAR\%(_[A-Z]\+\)\=\>/ end=/\<END_VAR\>/ contains=ALLBUT,ilLabel,ilDeclarations
syntax region ilDeclarations matchgroup=ilStructure start=/\<TYPE\>/ end=/\<END_TYPE\>/ contains=ALLBUT,ilLabel,ilDeclarations
syntax sync fromstart
highlight default link ilBoolean Boolean
highlight default link ilType Type
highlight default link ilFunction Function
highlight default link ilStructure Structure
highlight default link ilStatement Statement
highlight default link ilNumber Number
highlight default link ilTime Number
highlight default link ilAddress Identifier
highlight default link ilSign Operator
highlight default link ilComment Comment
highlight default link ilLabel Label
let b:current_syntax = 'il'
