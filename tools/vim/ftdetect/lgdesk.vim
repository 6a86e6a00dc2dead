" Graph files and scripts of lgdesk, by the ends of their names.
autocmd BufRead,BufNewFile *.lgf setfiletype lgf
autocmd BufRead,BufNewFile *.script setfiletype lgdesk
