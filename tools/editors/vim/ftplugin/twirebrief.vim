" Comments of twire.
setlocal comments=:# commentstring=#\ %s
