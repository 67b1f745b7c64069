" Columns: those of aggen count characters, and those of Vim count bytes.

" Returns the number of bytes before a character of a line. The column counts characters from 1, also combining ones.
function! aggen#bytes_before(text, column) abort
    return byteidxcomp(a:text, a:column - 1)
endfunction

" Converts the columns of the quickfix list that `:make` has filled.
function! aggen#convert_quickfix() abort
    if s:is_of_aggen()
        call setqflist([], 'r', {'items': s:converted(getqflist())})
    endif
endfunction

" Converts the columns of the location list that `:lmake` has filled.
function! aggen#convert_locations() abort
    if s:is_of_aggen()
        call setloclist(0, [], 'r', {'items': s:converted(getloclist(0))})
    endif
endfunction

" Returns whether `:make` runs aggen in this buffer.
function! s:is_of_aggen() abort
    return get(b:, 'current_compiler', get(g:, 'current_compiler', '')) ==# 'aggen'
endfunction

" Returns entries of a list with columns that count bytes.
function! s:converted(entries) abort
    for it in filter(copy(a:entries), 'v:val.valid')
        let it.col = max([aggen#bytes_before(s:line(it.bufnr, it.lnum), it.col) + 1, 1])
    endfor
    return a:entries
endfunction

" Returns a line of a buffer, or of its file if the buffer is not loaded, or '' if there is none.
function! s:line(buffer, lnum) abort
    if bufloaded(a:buffer)
        return get(getbufline(a:buffer, a:lnum), 0, '')
    endif
    let name = bufname(a:buffer)
    return filereadable(name) ? get(readfile(name, '', a:lnum), a:lnum - 1, '') : ''
endfunction
