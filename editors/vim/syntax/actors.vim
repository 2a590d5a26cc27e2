" Vim syntax of the scripts of Nuchapay (*.actors). docs/LANGUAGE.md has the rules.
"
" Copy or link the folders ftdetect and syntax into ~/.vim, or add their parent to 'runtimepath'.

if exists('b:current_syntax')
  finish
endif

syntax case match
syntax iskeyword @,48-57,_

syntax keyword actorsDeclaration actor executor nextgroup=actorsType skipwhite
syntax keyword actorsDeclaration func invariant let local root var
syntax keyword actorsModifier on nextgroup=actorsType skipwhite
syntax keyword actorsModifier at fifo pinned
syntax keyword actorsStatement assume nextgroup=actorsType skipwhite
syntax keyword actorsStatement add await bind cancel check detach else group if next return spawn task throw unless while yield
syntax keyword actorsConstant background high low medium
syntax keyword actorsSpecial cancelled priority

" Of those that match at one place the last one is taken.
syntax match actorsIllegal "[^ \t\r]"
syntax match actorsPunctuation "[(){},;.]"
syntax match actorsOperator "&&\|||\|[-+*<>=!@]"
syntax match actorsNumber "[0-9]\+"
syntax match actorsType "\h\w*" contained
syntax match actorsName "\h\w*"
syntax match actorsType "\h\w*\ze[ \t]*\."
syntax match actorsFunction "\h\w*\ze[ \t]*("
syntax match actorsIllegalInComment "[^\t\r -~]\+" contained
syntax match actorsComment "//.*$" contains=actorsIllegalInComment

highlight default link actorsComment Comment
highlight default link actorsConstant Constant
highlight default link actorsDeclaration Structure
highlight default link actorsFunction Function
highlight default link actorsIllegal Error
highlight default link actorsIllegalInComment Error
highlight default link actorsModifier StorageClass
highlight default link actorsNumber Number
highlight default link actorsOperator Operator
highlight default link actorsSpecial Special
highlight default link actorsStatement Statement
highlight default link actorsType Type

let b:current_syntax = 'actors'
