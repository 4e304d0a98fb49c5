# fish completion for cborcat(1)

# The paths of the file that is named first, each once and without the number of its item.
function __cborcat_paths
    for word in (commandline -opc)[2..] (commandline -c | string split ' ')[2..]
        if test -f "$word"
            command cborcat -t paths -- $word 2>/dev/null | head -n 5000 | string replace -r '^\d+:' '' |
                string replace -r '  .*' '' | sort -u
            return
        end
    end
end

set -l encodings preferred core length-first ctap2 dcbor
set -l types COSE_Sign1 COSE_Sign COSE_Mac0 COSE_Mac COSE_Encrypt0 COSE_Encrypt COSE_Header COSE_Key CWT SenML \
    CTAP2_MakeCredential CTAP2_GetAssertion CTAP2_GetInfo

complete -c cborcat -s f -l from -x -a 'bytes cbor hex diag edn json base64' -d 'the form of the input'
complete -c cborcat -s x -l text -x -d 'read this text instead of files'
complete -c cborcat -s 1 -l one -d 'each input has to be exactly one item'
complete -c cborcat -l offset -x -d 'begin at this byte of the data'
complete -c cborcat -l limit -x -d 'refuse a longer item'
complete -c cborcat -s t -l to -x -d 'the form of the output' \
    -a 'pretty diag edn hex html digits bytes cbor json raw paths stats index='
complete -c cborcat -s p -l path -x -a '(__cborcat_paths)' -d 'show only this part'
complete -c cborcat -l set -x -d 'put an item at a path: PATH=EDN'
complete -c cborcat -l delete -x -a '(__cborcat_paths)' -d 'leave this part out'
complete -c cborcat -s e -l embedded -d 'show byte strings that hold an item as <<..>>'
complete -c cborcat -l no-notes -d 'no comments and no names'
complete -c cborcat -l as -x -a "$types" -d 'the type of each item'
complete -c cborcat -l names -r -a 'c509 cardano corim coswid mdoc suit' -d 'also show the names of a file'
complete -c cborcat -l no-names -d 'no names'
complete -c cborcat -l names-as-keys -d 'write keys as their names (-t json)'
complete -c cborcat -l widths -d 'write all widths'
complete -c cborcat -l no-widths -d 'write no widths'
complete -c cborcat -l width -x -d 'the columns of pretty notation'
complete -c cborcat -l strict -d 'report what JSON does not keep as an error (-t json)'
complete -c cborcat -l elide -d 'cut strings of more than 32 bytes, or --elide=N'
complete -c cborcat -l color -x -a 'auto always never' -d 'when to use colours'
complete -c cborcat -s o -l output -r -d 'write this file'
complete -c cborcat -s i -l in-place -d 'put what becomes of each file in its place'
complete -c cborcat -l partial -d 'also show the part of a truncated or malformed item'
complete -c cborcat -l places -d 'show the place of each item (-t paths)'
complete -c cborcat -l at -x -d 'show the item that contains this byte'
complete -c cborcat -s c -d 'write nothing, report errors'
complete -c cborcat -l check -f -a "rfc8949 valid $encodings" -d 'write nothing, report errors and violations of rules'
complete -c cborcat -l cddl -r -d 'check by the CDDL of a file'
complete -c cborcat -l rule -x -d 'the rule that items have to fit'
complete -c cborcat -l encode -x -a "$encodings" -d 're-encode each item by rules'
complete -c cborcat -l diff -d 'compare two files'
complete -c cborcat -l exact -d 'with --diff, also report other encodings'
complete -c cborcat -s h -l help -d 'show help'
complete -c cborcat -s V -l version -d 'show the version'
