" Comments of a file of lines.
setlocal commentstring=#\ %s
setlocal comments=:#
