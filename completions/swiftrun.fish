# What fish completes after swiftrun, written by tools/completions.py.
complete -c swiftrun -f
complete -c swiftrun -l workers -x -a '1 2 3 4 5 6 7 8' -d 'Runs the tasks on N threads, from 1 to 8'
complete -c swiftrun -l quiet -d 'Leaves the journals out of the report'
complete -c swiftrun -l help -d 'Print help'
