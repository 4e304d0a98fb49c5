augroup cbor
  autocmd!
  autocmd BufReadCmd *.cbor call s:Read(expand('<amatch>'))
  autocmd BufWriteCmd *.cbor call s:Write(expand('<amatch>'))
augroup END

" Shows the file as text. If that text would not give the same bytes back, it cannot be changed.
function! s:Read(file) abort
  let l:name = shellescape(a:file)
  setlocal undolevels=-1
  if filereadable(a:file)
    call setline(1, systemlist('cborcat -f bytes --partial ' . l:name . ' 2> /dev/null'))
    call system('cborcat -f bytes ' . l:name . ' | cborcat -f diag -t bytes | cmp -s - ' . l:name)
    let &l:modifiable = v:shell_error == 0
  endif
  setlocal nomodified undolevels=-123456
endfunction

" Writes the bytes of the text, once it has no error.
function! s:Write(file) abort
  let l:bytes = tempname()
  let l:said = system('cborcat -f diag -t bytes -o ' . l:bytes, getline(1, '$'))
  if v:shell_error == 0
    let l:said = system('cat ' . l:bytes . ' > ' . shellescape(a:file))
  endif
  if v:shell_error == 0
    setlocal nomodified
    return
  endif
  let l:place = matchlist(l:said, ':\(\d\+\):\(\d\+\): ') + ['', '', '']
  call cursor(l:place[1], l:place[2])
  throw split(l:said, "\n")[0]
endfunction
