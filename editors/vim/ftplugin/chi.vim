" Chi 3: written by editors/make. gg=G lays out the whole file by chi fmt; what is refused stays as it is.
" The program is chi, on the path, or what g:chi_program says.
if exists("b:did_ftplugin")
  finish
endif
let b:did_ftplugin = 1
setlocal shiftwidth=2 expandtab commentstring=#\ %s comments=:# formatoptions-=t
let s:program = get(g:, "chi_program", "chi")
let &l:equalprg = "f=$(mktemp) && cat > $f && { " . s:program . " fmt $f 2> /dev/null || cat $f; }; rm -f $f"
let b:undo_ftplugin = "setlocal shiftwidth< expandtab< commentstring< comments< formatoptions< equalprg<"
