" `:make` explains what stands against a text, or prints notes on it. A binding beside the text that has its name is taken
" with it, as hall.bind with hall.il.
let current_compiler = 'dalictl'

let s:text = shellescape(expand('%'), 1)
let s:bind = expand('%:r') . '.bind'
let s:words = filereadable(s:bind) ? ' --bind ' . shellescape(s:bind, 1) : ''
let &l:makeprg = 'dalictl explain ' . s:text . s:words

" A note, or a fault; all other lines say more of what stands above them.
let &l:errorformat = '%W%f:%l:%c: note %m,%f:%l:%c: %m,%-G%.%#'
