" Chi 3: written by editors/make. Where a new line stands, as chi fmt would lay it out.
if exists("b:did_indent")
  finish
endif
let b:did_indent = 1
setlocal indentexpr=ChiIndent(v:lnum) indentkeys=o,O,!^F,0=end,0=elif,0=else,0=alt
let b:undo_indent = "setlocal indentexpr< indentkeys<"
if exists("*ChiIndent")
  finish
endif

let s:openers = ["proc", "func", "model", "xper", "if", "while", "for", "select", "unwind"]
let s:parts = ["end", "elif", "else", "alt"]
let s:definitions = ["const", "enum", "func", "model", "proc", "type", "xper"]

" A line without its comment, with its texts empty.
function s:Code(line)
  return substitute(substitute(a:line, '"\%(\\.\|[^"\\]\)*"', '""', "g"), '#.*', "", "")
endfunction

" The words of a line that open something or close it, the last one first.
function s:Marks(line)
  return reverse(filter(split(s:Code(a:line), '\W\+'), 'v:val ==# "end" || index(s:openers, v:val) >= 0'))
endfunction

" The line and the word that open what goes on after a line, or, with depth -1, what its last end closes.
function s:Opener(number, depth)
  let depth = a:depth
  for at in range(a:number, 1, -1)
    for word in s:Marks(getline(at))
      if word ==# "end"
        let depth += 1
      elseif depth == 0
        return [at, word]
      else
        let depth -= 1
      endif
    endfor
  endfor
  return [0, ""]
endfunction

" The line above with more than a comment.
function s:Above(number)
  let at = prevnonblank(a:number - 1)
  while at > 0 && s:Code(getline(at)) =~# '^\s*$'
    let at = prevnonblank(at - 1)
  endwhile
  return at
endfunction

function ChiIndent(number)
  let first = matchstr(s:Code(getline(a:number)), '^\s*\zs\w\+')
  let above = s:Above(a:number)
  if above == 0 || index(s:definitions, first) >= 0
    return 0
  endif
  if index(s:parts, first) >= 0
    let [at, word] = s:Opener(a:number - 1, 0)
    return at == 0 ? 0 : indent(at) + (first ==# "alt" && word ==# "unwind" ? shiftwidth() : 0)
  endif
  let code = s:Code(getline(above))
  if code =~# ':\s*$'
    return indent(above) + shiftwidth()
  endif
  if code =~# '\<end\s*;\?\s*$'
    let [at, word] = s:Opener(above, -1)
    return at == 0 ? 0 : indent(at)
  endif
  return indent(above)
endfunction
