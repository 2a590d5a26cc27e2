" Scripts of Nuchapay.
autocmd BufNewFile,BufRead *.actors setfiletype actors
