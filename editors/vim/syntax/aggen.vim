" Grammars of aggen (docs/LANGUAGE.md).
if exists('b:current_syntax')
    finish
endif
syntax case match
syntax sync fromstart

" a grammar outside of rules
syntax keyword aggenKeyword start symbol syn inh
syntax keyword aggenClass NAME NUMBER TEXT
syntax match aggenSymbol "\%(\<\%(start\|symbol\)\_s\+\)\@<=\K\k*"
syntax match aggenSymbol "\<\K\k*\%(\_s*=\)\@="
syntax match aggenOperator "="
syntax match aggenDelimiter "[;,]"
syntax region aggenText start=+"+ end=+"+ contains=aggenEscape,aggenWrongEscape
syntax match aggenEscape +\\["\\ntr]+ contained
syntax match aggenWrongEscape +\\[^"\\ntr]+ contained

" the rules of a production
syntax match aggenInRuleTable "{\_s*}" contained
syntax match aggenInRuleAttribute "\$\d\+\.\K\k*" contained
syntax match aggenInRuleNumber "\<\d\+" contained
syntax match aggenInRuleOperator "++\|==\|[-+*<=]" contained
syntax match aggenInRuleDelimiter "[][(),;]" contained
syntax match aggenInRuleCall "\<\%(len\|text\|number\|keys\|iserr\|nth\|append\)\>\%(\_s*(\)\@=" contained
syntax match aggenInRuleCall "\<\%(join\|get\|has\|orelse\|put\)\>\%(\_s*(\)\@=" contained
syntax keyword aggenInRuleKeyword let in if then else contained
syntax keyword aggenInRuleDivision div mod contained
syntax region aggenRules matchgroup=aggenDelimiter start="{" end="}" fold contains=aggenText,aggenInRule.*

highlight default link aggenKeyword Keyword
highlight default link aggenClass Type
highlight default link aggenSymbol Identifier
highlight default link aggenOperator Operator
highlight default link aggenDelimiter Delimiter
highlight default link aggenText String
highlight default link aggenEscape SpecialChar
highlight default link aggenWrongEscape Error
highlight default link aggenInRuleTable Constant
highlight default link aggenInRuleAttribute Identifier
highlight default link aggenInRuleNumber Number
highlight default link aggenInRuleOperator Operator
highlight default link aggenInRuleDelimiter Delimiter
highlight default link aggenInRuleCall Function
highlight default link aggenInRuleKeyword Conditional
highlight default link aggenInRuleDivision Operator

let b:current_syntax = 'aggen'
