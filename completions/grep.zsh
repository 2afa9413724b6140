#compdef grep

_arguments -s \
    '*-A+[write lines after each selected one]:number of lines: ' \
    '*-B+[write lines before each selected one]:number of lines: ' \
    '*-C+[write lines on both sides of each selected one]:number of lines: ' \
    '(-F)-E[patterns are extended regular expressions]' \
    '(-E)-F[patterns are fixed strings]' \
    '-c[write only the number of selected lines]' \
    '(1)*-e+[use these patterns]:patterns: ' \
    '(1)*-f+[use the lines of a file as patterns]:file of patterns:_files' \
    '-i[match letters in both cases]' \
    '-l[write only names of files that have a selected line]' \
    '-n[write the number of each line]' \
    '-o[write only the matched parts]' \
    '-q[write nothing, end at the first selected line]' \
    '-s[write no message about files]' \
    '-v[select lines that are not matched]' \
    '-x[match whole lines]' \
    '1:patterns: ' \
    '*:file:_files'
