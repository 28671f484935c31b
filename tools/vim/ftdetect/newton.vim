autocmd BufRead,BufNewFile *.newton setfiletype newton
