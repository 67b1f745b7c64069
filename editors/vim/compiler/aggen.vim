" `:make` runs `aggen plan --all` on the grammar, fills the quickfix list with all its faults, and jumps to the first. For
" sentences, set 'makeprg' to `aggen run GRAMMAR %:S`.
if exists('current_compiler')
    finish
endif
let current_compiler = 'aggen'
if exists(':CompilerSet') != 2
    command -nargs=* CompilerSet setlocal <args>
endif
let s:saved_cpo = &cpoptions
set cpoptions&vim

CompilerSet makeprg=aggen\ plan\ --all\ %:S

" The line with the number of faults is no entry. A1 has the place of a rule in its text, and the other refusals have theirs in
" parentheses before the text. `%+E` keeps the whole line as the message.
let s:formats = [
    \ '%-G%*\d faults\, %*\d shown',
    \ '%+EA1 %.%#all of them wait for %.%\{-}: %.%\{-} (%f:%l:%c) uses %.%#',
    \ '%+E%[A-Z]%[A-Z0-9 ]%\+at %*\d (%f:%l:%c): %.%#',
    \ '%+E%[A-Z]%[A-Z0-9 ]%\+(%f:%l:%c): %.%#',
    \ ]
execute 'CompilerSet errorformat=' . escape(join(s:formats, ','), ' \|"')

augroup aggen_columns
    autocmd!
    autocmd QuickFixCmdPost make call aggen#convert_quickfix()
    autocmd QuickFixCmdPost lmake call aggen#convert_locations()
augroup END

let &cpoptions = s:saved_cpo
unlet s:saved_cpo s:formats
