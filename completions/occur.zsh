#compdef occur

_arguments \
    '(- *)--help[say how occur is used]' \
    '(- *)--version[say the version, and that of scripts]' \
    '--states[states that the matcher of each pattern may keep]:number from 1 to 65536: ' \
    '1:script:_files'
