" Names the file types of dalictl.
autocmd BufNewFile,BufRead *.il set filetype=il
autocmd BufNewFile,BufRead *.bind set filetype=dalibind
autocmd BufNewFile,BufRead *.scenario set filetype=daliscenario
