" Concurrent Pascal, as cpx reads it: lexemes as in docs/LANGUAGE.md.
if exists('b:current_syntax')
  finish
endif
syntax case ignore

syntax keyword concurrentpascalStatement begin case cycle do downto else end for if init repeat then to until while
syntax keyword concurrentpascalDeclaration array const function of procedure record set type var
syntax keyword concurrentpascalSystem class monitor process
syntax keyword concurrentpascalEntry entry
syntax keyword concurrentpascalOperator div mod not or and in
syntax keyword concurrentpascalLeftOut with univ program
syntax keyword concurrentpascalQueue delay continue empty
syntax keyword concurrentpascalFunction succ pred chr ord abs display
syntax keyword concurrentpascalType integer boolean char queue
syntax keyword concurrentpascalConstant false true

syntax match concurrentpascalNumber "\<\d\+\>"
syntax match concurrentpascalBadCharacter "'[^'\n]*'\="
syntax match concurrentpascalCharacter "'\%((:0*\%(12[0-7]\|1[01]\d\|\d\d\=\):)\|[ -&(-~]\)'"
syntax region concurrentpascalComment start=+"+ end=+"+
syntax region concurrentpascalAnnotation start=+"\_s*(\*\_s*\C\%(assert\|invariant\)[A-Za-z0-9_]\@!+ end=+"+

highlight default link concurrentpascalStatement Statement
highlight default link concurrentpascalDeclaration Structure
highlight default link concurrentpascalSystem StorageClass
highlight default link concurrentpascalEntry StorageClass
highlight default link concurrentpascalOperator Operator
highlight default link concurrentpascalLeftOut Error
highlight default link concurrentpascalQueue Special
highlight default link concurrentpascalFunction Function
highlight default link concurrentpascalType Type
highlight default link concurrentpascalConstant Constant
highlight default link concurrentpascalNumber Number
highlight default link concurrentpascalBadCharacter Error
highlight default link concurrentpascalCharacter Character
highlight default link concurrentpascalComment Comment
highlight default link concurrentpascalAnnotation PreProc

let b:current_syntax = 'concurrentpascal'
