" Applications of rtic: every word of the language, by docs/LANGUAGE.md.
if exists("b:current_syntax")
  finish
endif
syntax keyword rticDeclaration app interrupts monotonic shared local lock_free init idle task with
syntax keyword rticOption bits dispatchers binds priority capacity
syntax keyword rticStatement let if else for in lock emit pend spawn spawn_after cancel reschedule_after
syntax keyword rticValue now
" `fpu` and `on` are words in the first declaration alone, and names elsewhere
syntax match rticOption "\<fpu\>\ze\_s*=\_s*on\>"
syntax match rticValue "\%(\<fpu\_s*=\_s*\)\@<=on\>"
syntax match rticNumber "\<\%(0x\x\+\|\d\+\)"
syntax match rticOperator "<<\|>>\|==\|!=\|<=\|>=\|\.\.\|[-+*/%&|^<>=]"
syntax match rticComment "//.*$" contains=@Spell
highlight default link rticDeclaration Keyword
highlight default link rticOption Type
highlight default link rticStatement Statement
highlight default link rticValue Constant
highlight default link rticNumber Number
highlight default link rticOperator Operator
highlight default link rticComment Comment
let b:current_syntax = "rtic"
