" Files that end in .propia, and Prolog files whose query infers.
autocmd BufRead,BufNewFile *.propia setfiletype propia
autocmd BufRead *.pl if search('\<infers\>\_s\+\(most\|unique\|consistent\)\>', 'nw') | set filetype=propia | endif
