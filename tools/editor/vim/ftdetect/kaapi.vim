autocmd BufRead,BufNewFile *.job setfiletype kaapi
