" How texts of dalictl are edited: comments, and `:make`, which explains what stands against the text.
setlocal commentstring=(*\ %s\ *)
setlocal comments=
compiler dalictl
