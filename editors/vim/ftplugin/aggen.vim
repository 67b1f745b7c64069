" Grammars of aggen: `:make` runs `aggen plan`. Grammars have no comments.
if exists('b:did_ftplugin')
    finish
endif
let b:did_ftplugin = 1
compiler aggen
setlocal comments= commentstring=
let b:undo_ftplugin = 'setlocal comments< commentstring< makeprg< errorformat<'
