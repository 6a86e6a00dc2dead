" Vim syntax file: graph files (docs/GRAPH_FILES.md).
if exists("b:current_syntax")
  finish
endif

syntax case match

" A token in quotes, with its escapes. An open quote ends with the line and is shown as an error.
syntax match lgfOpenQuote /\%(^\|[ \t\x0b\x0c\r"]\)\@1<="\%([^"\\]\|\\.\)*$/
syntax region lgfQuoted start=/\%(^\|[ \t\x0b\x0c\r"]\)\@1<="/ skip=/\\./ end=/"/ oneline contains=lgfBadEscape,lgfEscape
syntax match lgfBadEscape /\\./ contained
syntax match lgfEscape /\\[\\"'?abtnvfr]\|\\x\x\{1,2}\|\\\o\{1,3}/ contained

" A line is a comment, or opens a section, by its first byte that is no blank.
syntax match lgfComment /^\s*#.*$/
syntax match lgfOtherSection /^\s*@\S*/
syntax match lgfSection /^\s*@\%(nodes\|arcs\|edges\|attributes\)\%(\s\|$\)\@=/

highlight default link lgfQuoted String
highlight default link lgfEscape SpecialChar
highlight default link lgfBadEscape Error
highlight default link lgfOpenQuote Error
highlight default link lgfComment Comment
highlight default link lgfSection Statement
highlight default link lgfOtherSection PreProc

let b:current_syntax = "lgf"
