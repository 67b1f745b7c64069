" Shows all faults of a grammar in ALE, also if the buffer is not saved.

call ale#linter#Define('aggen', {
    \ 'name': 'aggen',
    \ 'executable': 'aggen',
    \ 'command': '%e plan --all --json -',
    \ 'output_stream': 'stdout',
    \ 'read_buffer': 1,
    \ 'callback': 'ale_linters#aggen#aggen#Handle',
    \ })

" Returns the items of ALE for the lines that aggen has printed. An object without a number is no fault: it says how many are left
" out.
function! ale_linters#aggen#aggen#Handle(buffer, lines) abort
    let faults = filter(map(copy(a:lines), 'json_decode(v:val)'), 'has_key(v:val, "number")')
    return map(faults, 's:item(a:buffer, v:val)')
endfunction

" Returns the item for a fault. One without a place is shown at the first line.
function! s:item(buffer, fault) abort
    let item = {'lnum': 1, 'text': a:fault.message, 'code': a:fault.number, 'type': 'E'}
    if a:fault.remedy !=# ''
        let item.text .= ', ' . a:fault.remedy
    endif
    if has_key(a:fault, 'line')
        let item.lnum = a:fault.line
        let item.col = s:bytes_before(a:buffer, a:fault.line, a:fault.column) + 1
        let item.end_lnum = a:fault.end_line
        " the end of aggen is exclusive and that of ALE inclusive
        let item.end_col = s:bytes_before(a:buffer, a:fault.end_line, a:fault.end_column)
    endif
    return item
endfunction

" Returns the number of bytes before a character of a line of the buffer, 0 if there is no such line.
function! s:bytes_before(buffer, lnum, column) abort
    return max([aggen#bytes_before(get(getbufline(a:buffer, a:lnum), 0, ''), a:column), 0])
endfunction
