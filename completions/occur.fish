complete -c occur -l help -d 'say how occur is used'
complete -c occur -l version -d 'say the version, and that of scripts'
complete -c occur -l states -x -d 'states that the matcher of each pattern may keep'
