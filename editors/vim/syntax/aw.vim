" Specifications and schedules of aw. Words are not reserved: they count at the beginning of a line alone.
if exists('b:current_syntax')
  finish
endif

syntax case match
syntax iskeyword a-z,48-57,_

" What stands in no token.
syntax match awError /[^ \t\r]/
syntax match awError /[a-z0-9_#/.]\+/

" Words, from the plainest on: what is defined later wins.
syntax match awName /\<[a-z][a-z0-9_]\{,63}\>/
syntax match awCall /\<[a-z][a-z0-9_]\{,63}\>\ze\s*(/
syntax match awNumber /\<\%(0\|[1-9][0-9]\{,19}\)\>/
syntax match awError /\<0[0-9]\+\>/
syntax match awTask /\<[a-z][a-z0-9_]\{,63}#\%(0\|[1-9][0-9]*\)\%(\/[a-z][a-z0-9_]\{,63}\.[1-8]\)*\>/
syntax match awMark /[(){}<>,:=;]/
syntax match awSort /\%([:=;]\s*\)\@<=\<[a-z][a-z0-9_]*\>\ze\s*(/
syntax match awField /\%({[^{}"]*\)\@<=\<[a-z][a-z0-9_]*\>\ze[^{}"]*}\s*:/
syntax match awType /\%(^\s*\%(shape\|carry\)\>.*\)\@<=\<\%(num\|text\)\>/

" Texts.
syntax region awText matchgroup=awQuote start=/"/ end=/"/ end=/$/ oneline contains=awPair,awBadPair
syntax match awBadPair /\\./ contained
syntax match awPair /\\["\\n]/ contained

" The first word of a line, and what it declares.
syntax match awWord /^\s*\zs\<\%(role\|con\|sort\|start\|offer\|use\|type\|shape\|carry\|depends\|free\|rule\)\>/ nextgroup=awDeclared skipwhite
syntax match awWord /^\s*\zs\<schedule\>/
syntax match awEvent /^\s*\zs\<\%(choose\|deliver\|settle\|list\)\>/
syntax match awDeclared /\<[a-z][a-z0-9_]\{,63}\>/ contained

" A comment is a line of its own.
syntax match awComment /^\s*%.*$/ contains=awAllow,@Spell
syntax match awAllow /aw_lint: allow .*/ contained
syntax keyword awTodo TODO FIXME contained containedin=awComment

highlight default link awError Error
highlight default link awBadPair Error
highlight default link awName Identifier
highlight default link awCall Constant
highlight default link awField Identifier
highlight default link awNumber Number
highlight default link awTask Special
highlight default link awMark Delimiter
highlight default link awSort Type
highlight default link awType Type
highlight default link awText String
highlight default link awQuote String
highlight default link awPair SpecialChar
highlight default link awWord Statement
highlight default link awEvent Keyword
highlight default link awDeclared Function
highlight default link awComment Comment
highlight default link awAllow PreProc
highlight default link awTodo Todo

syntax sync minlines=1
let b:current_syntax = 'aw'
