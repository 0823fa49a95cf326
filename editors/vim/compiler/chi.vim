" Chi 3: written by editors/make. After :compiler chi, :make asks what is wrong with the file, by chi explain. Nothing is run: the
" bound on steps is 0, so a file that is a program ends out of steps, which is no error here.
" The program is chi, on the path, or what g:chi_program says.
if exists("current_compiler")
  finish
endif
let current_compiler = "chi"
if exists(":CompilerSet") != 2
  command -nargs=* CompilerSet setlocal <args>
endif
let s:program = get(g:, "chi_program", "chi")
execute "CompilerSet makeprg=" . escape(s:program . " explain --steps 0 -- %:S", ' \|"')
CompilerSet errorformat=%-C\ \ \ \ %.%#,%-G\ \ %.%#,%-Gout\ of\ steps\ at\ time\ %.%#,%-Ginstance\ %*[0-9]\ %.%#,%-Gthe\ model's\ parameters\ are\ %.%#,%-Gparameter\ %*[0-9]\ of\ the\ model\ is\ %.%#,%f:%l:%c:\ %m,%E%m\ in\ const\ line\ %l\ at\ time\ %.%#,%Z%m
