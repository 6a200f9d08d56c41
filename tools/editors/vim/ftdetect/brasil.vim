autocmd BufRead,BufNewFile *.brasil setfiletype brasil
