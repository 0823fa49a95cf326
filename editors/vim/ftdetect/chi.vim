autocmd BufRead,BufNewFile *.chi setfiletype chi
