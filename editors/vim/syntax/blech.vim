" Blech. Made by editors/make; don't edit.
if exists('b:current_syntax')
  finish
endif

syntax keyword blechUnit function activity struct returns
syntax keyword blechDeclaration var let const
syntax keyword blechOperator and or not as prev
syntax keyword blechBoolean true false
syntax keyword blechType bool int8 int16 int32 int64 nat8 nat16 nat32 nat64 bits8 bits16 bits32 bits64
syntax keyword blechControl return if then elseif else end await run cobegin weak with when abort reset repeat until while

syntax keyword blechTodo contained TODO FIXME
syntax match blechComment '//.*$' contains=blechTodo,@Spell
syntax region blechComment start='/\*' end='\*/' contains=blechTodo,@Spell
syntax match blechEntry '@\_s*\[\_s*EntryPoint\_s*\]'
syntax match blechNumber '\<\%(0x\x\+\|0b[01]\+\|\d\+\)\>'
syntax sync minlines=200

highlight default link blechUnit Structure
highlight default link blechDeclaration StorageClass
highlight default link blechOperator Operator
highlight default link blechBoolean Boolean
highlight default link blechType Type
highlight default link blechControl Statement
highlight default link blechComment Comment
highlight default link blechTodo Todo
highlight default link blechEntry PreProc
highlight default link blechNumber Number

let b:current_syntax = 'blech'
