" Comments, and :make by `mu --check-all`, which finds the place of each refusal.
if exists("b:did_ftplugin")
  finish
endif
let b:did_ftplugin = 1
setlocal comments=:// commentstring=//\ %s
setlocal iskeyword=@,48-57,_,.,-,@-@,%,$
setlocal makeprg=mu\ --check-all\ %:S
setlocal errorformat=%f:%l:%c:\ error:\ %m,%f:\ error:\ %m,%-G%.%#
let b:undo_ftplugin = "setlocal comments< commentstring< iskeyword< makeprg< errorformat<"
