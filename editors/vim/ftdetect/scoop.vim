autocmd BufNewFile,BufRead *.e set filetype=scoop
