" Plans and briefs of twire.
autocmd BufNewFile,BufRead *.brief setfiletype twirebrief
autocmd BufNewFile,BufRead *.plan  setfiletype twireplan
