" Vim syntax file: scripts of lgdesk (docs/COMMANDS.md).
if exists("b:current_syntax")
  finish
endif

syntax case match

" A token in quotes, with its escapes. An open quote ends with the line and is shown as an error.
syntax match lgdeskOpenQuote /\%(^\|[ \t\x0b\x0c\r"]\)\@1<="\%([^"\\]\|\\.\)*$/
syntax region lgdeskQuoted start=/\%(^\|[ \t\x0b\x0c\r"]\)\@1<="/ skip=/\\./ end=/"/ oneline contains=lgdeskBadEscape,lgdeskEscape
syntax match lgdeskBadEscape /\\./ contained
syntax match lgdeskEscape /\\[\\"'?abtnvfr]\|\\x\x\{1,2}\|\\\o\{1,3}/ contained

" A line is a comment by its first byte that is no blank. A # behind a command is a word like any other.
syntax match lgdeskComment /^\s*#.*$/

" The first word of each command. Another first word is shown as an error.
syntax match lgdeskUnknown /^\s*[^# \t"]\S*/
syntax match lgdeskCommand /^\s*\%(addnode\|addarc\|delnode\|delarc\|source\|target\|turn\|contract\|splitnode\|splitarc\|clear\)\%(\s\|$\)\@=/
syntax match lgdeskCommand /^\s*\%(nodemap\|arcmap\|type\|set\|get\|degree\|trues\|items\|dropmap\|total\|least\|count\)\%(\s\|$\)\@=/
syntax match lgdeskCommand /^\s*\%(tie\|untie\|attr\|relabel\)\%(\s\|$\)\@=/
syntax match lgdeskCommand /^\s*\%(guard\|unguard\|guards\|snap\|restore\|forget\|snaps\)\%(\s\|$\)\@=/
syntax match lgdeskCommand /^\s*\%(view\|keep\|unview\|nodes\|arcs\|out\|in\)\%(\s\|$\)\@=/
syntax match lgdeskCommand /^\s*\%(dijkstra\|bellman\|maxflow\|circulate\|mincost\|simplex\|match\)\%(\s\|$\)\@=/
syntax match lgdeskCommand /^\s*\%(heaviest\|assign\|meancycle\)\%(\s\|$\)\@=/
syntax match lgdeskCommand /^\s*save\%(\s\|$\)\@=/

highlight default link lgdeskQuoted String
highlight default link lgdeskEscape SpecialChar
highlight default link lgdeskBadEscape Error
highlight default link lgdeskOpenQuote Error
highlight default link lgdeskComment Comment
highlight default link lgdeskCommand Statement
highlight default link lgdeskUnknown Error

let b:current_syntax = "lgdesk"
