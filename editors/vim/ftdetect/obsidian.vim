autocmd BufNewFile,BufRead *.obs setfiletype obsidian
