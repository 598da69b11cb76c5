autocmd BufNewFile,BufRead *.cp setfiletype concurrentpascal
