" Applications of rtic: comments, blocks of four spaces as `fmt` writes them, and `:make` by tools/explain.
if exists("b:did_ftplugin")
  finish
endif
let b:did_ftplugin = 1
setlocal commentstring=//\ %s comments=:// shiftwidth=4 expandtab
compiler rtic
let b:undo_ftplugin = "setlocal commentstring< comments< shiftwidth< expandtab< makeprg< errorformat<"
