autocmd BufNewFile,BufRead *.cyc set filetype=cyclone
