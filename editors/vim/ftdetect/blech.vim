autocmd BufRead,BufNewFile *.blech,*.blc setfiletype blech
