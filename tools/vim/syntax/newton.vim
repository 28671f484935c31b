" Vim syntax file
" Language: scripts of newton, their replies, and literals

if exists("b:current_syntax")
  finish
endif

let s:saved = &cpoptions
set cpoptions&vim

syntax case match

" The first word of a line is a command. A line whose first mark is % says nothing.
syntax match newtonStart "^[ \t]*" nextgroup=newtonCommand
syntax match newtonComment "^[ \t]*%.*$"
syntax keyword newtonCommand contained nextgroup=newtonUnit skipwhite nsof lit time quit format
      \ mount unmount stores default soup soups drop index unindex indexes tags info add addx
      \ addu get getx remove set change copy move vread vwrite alias resolve query entry next
      \ prev reset end moveby goto gotokey count which clone close watch notes unwatch open
      \ draft edit save revert discard
syntax match newtonUnit "[0-7*]\ze\([ \t]\|$\)" contained

" Replies, where a session was kept.
syntax match newtonReply "^ok\ze\( \|$\)"
syntax match newtonError "^error [0-9]\+ [a-z]\+.*$"

" What stands in literals.
syntax keyword newtonConstant nil true
syntax keyword newtonQuery indexPath beginKey beginExclKey endKey endExclKey tagSpec equal all
      \ any none words text entireWords pathExpr
syntax match newtonType ":\(string\|int\|char\|symbol\):\(ascend\|descend\)\>"
syntax match newtonNumber "\<[0-9]\{1,10}\>"
syntax match newtonNumber "-[0-9]\{1,10}\>"
syntax match newtonWord "&[0-9A-Fa-f]\{8}"
syntax match newtonCharacter "\$\(\\[0-9A-Fa-f]\{4}\|[!-\[\]-~]\)"
syntax match newtonSymbol "'[A-Za-z_][A-Za-z0-9_]*"
syntax match newtonSymbol "'|\(\\[\\|]\|[^|\\]\)*|"
syntax match newtonLabel "#[0-9]\{1,5}[=#]"
syntax region newtonString start=+"+ skip=+\\[\\"]+ end=+"+ oneline contains=newtonEscape
syntax match newtonEscape +\\\(["\\]\|u[0-9A-Fa-f]\{4}\)+ contained
syntax match newtonBinary "<<\?[A-Za-z_|][^:<>]*:\(\*[0-9]\{1,7}\|[0-9A-Fa-f]*\)>>\?"

highlight default link newtonCommand Statement
highlight default link newtonUnit Identifier
highlight default link newtonComment Comment
highlight default link newtonReply Type
highlight default link newtonError Error
highlight default link newtonConstant Constant
highlight default link newtonQuery Keyword
highlight default link newtonType Type
highlight default link newtonNumber Number
highlight default link newtonWord Number
highlight default link newtonCharacter Character
highlight default link newtonSymbol Constant
highlight default link newtonLabel Label
highlight default link newtonString String
highlight default link newtonEscape SpecialChar
highlight default link newtonBinary Special

let b:current_syntax = "newton"

let &cpoptions = s:saved
unlet s:saved
