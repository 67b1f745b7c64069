autocmd BufNewFile,BufRead *.ag setfiletype aggen
