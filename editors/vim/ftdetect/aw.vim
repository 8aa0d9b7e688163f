" Specifications and schedules of aw.
autocmd BufNewFile,BufRead *.aw setfiletype aw
