autocmd BufNewFile,BufRead *.mission,*.program setfiletype soter
