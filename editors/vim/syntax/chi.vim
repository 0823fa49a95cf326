" Chi 3: written by editors/make, from the tables of keywords and predefined names.
if exists("b:current_syntax")
  finish
endif
syntax case match
syntax keyword chiType bool int real string void chan list set dict tuple dist inst timer enum type
syntax keyword chiOperator and or not in sub div mod sample
syntax keyword chiConstant true false time
syntax keyword chiStatement alt break const continue delay elif else end exit finish for func if model pass proc return run select start unwind while write writeln xper
syntax keyword chiFunction abs sign min max floor ceil round size empty pop del insert range enumerate dict_keys dict_values constant uniform bernoulli binomial exponential ready finished
syntax match chiInt /\<\d\+\>/
syntax match chiReal /\<\d\+\.\d\+\>/
syntax match chiEscape /\\[nt"\\]/ contained
syntax match chiCode /%\(%\|-\?\([1-9]\d\{,2}\)\?\(s\|d\|f\|\.\df\)\)/ contained
syntax region chiText start=/"/ skip=/\\["\\]/ end=/"/ oneline contains=chiEscape,chiCode
syntax match chiComment /#.*/
highlight default link chiType Type
highlight default link chiOperator Operator
highlight default link chiConstant Constant
highlight default link chiStatement Statement
highlight default link chiFunction Function
highlight default link chiComment Comment
highlight default link chiText String
highlight default link chiEscape SpecialChar
highlight default link chiCode SpecialChar
highlight default link chiReal Float
highlight default link chiInt Number
let b:current_syntax = "chi"
