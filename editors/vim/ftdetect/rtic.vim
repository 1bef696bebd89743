autocmd BufRead,BufNewFile *.rtic setfiletype rtic
