" `:compiler rtic` and `:make` check the application in the buffer by tools/explain, and jump to its refusals and
" warnings: lines `FILE:LINE:COL: EN words`, with what is said of them. The tool is that of this folder's repository, or
" the one that `g:rtic_explain` names. `%:S` is the file's name as one word of the shell, whatever is in it.
if exists("current_compiler")
  finish
endif
let current_compiler = "rtic"
let s:explain = get(g:, "rtic_explain", fnamemodify(resolve(expand("<sfile>:p")), ":h:h:h:h") . "/tools/explain")
execute "CompilerSet makeprg=" . escape(escape(shellescape(s:explain), "%#") . " check %:S", ' \|"')
CompilerSet errorformat=%E%f:%l:%c:\ E%n\ %m,%W%f:%l:%c:\ warning:\ %m,%C\ \ =\ %m,%-C%*[0-9]\ \|%.%#,%-C\ %#\|%.%#,
CompilerSet errorformat+=%-G%.%#
