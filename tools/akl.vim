" Highlighting for AKL, the language that docs/LANGUAGE.md describes.
" Copy to ~/.vim/syntax/akl.vim, and put this line into the vimrc:
"   autocmd BufRead,BufNewFile *.akl setfiletype akl
if exists("b:current_syntax")
  finish
endif

syntax case match

syntax match aklName "\<[a-z][A-Za-z0-9_]*\>"
syntax match aklVariable "\<[A-Z_][A-Za-z0-9_]*\>"
syntax match aklNumber "\<[0-9]\+\>"

syntax match aklOperator "[-+*]\|//"
syntax match aklRelation "=:=\|=\\=\|=<\|>=\|[=<>]"
syntax match aklGuard "->\|[|?]"
syntax match aklNeck ":-"
syntax match aklSeparator ";"
" A `-` before a digit is a sign where no operand stands before it.
syntax match aklNumber "\%([A-Za-z0-9_')\]]\s*\)\@<!-[0-9]\+\>"
syntax keyword aklOperator mod
syntax keyword aklRelation is
syntax keyword aklReserved true fail bagof open_port send

" The `|` of a list's tail is no guard.
syntax region aklList matchgroup=aklBracket start="\[" end="\]" contains=TOP,aklGuard

syntax match aklQuoted "'\%([^'\\]\|''\|\\['\\nt]\)*'"
syntax match aklComment "%.*$" contains=@Spell
syntax region aklComment start="/\*" end="\*/" contains=@Spell

highlight default link aklName Normal
highlight default link aklVariable Identifier
highlight default link aklNumber Number
highlight default link aklOperator Operator
highlight default link aklRelation Operator
highlight default link aklGuard Conditional
highlight default link aklNeck Statement
highlight default link aklSeparator Conditional
highlight default link aklReserved Keyword
highlight default link aklBracket Delimiter
highlight default link aklQuoted String
highlight default link aklComment Comment

let b:current_syntax = "akl"
