autocmd BufNewFile,BufRead *.dg setfiletype dialog
