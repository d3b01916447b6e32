" Bundles and HAIL scripts of Mu. (Vim itself takes *.mu for another language, so the type is set and not only proposed.)
au BufRead,BufNewFile *.mu,*.hail set filetype=mu
