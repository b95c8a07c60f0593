autocmd BufNewFile,BufRead *.pearl set filetype=pearl
