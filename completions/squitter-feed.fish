# Completion of squitter-feed for fish.

complete -c squitter-feed -l format -x -a 'auto beast avr csv log' -d 'Read this format'
complete -c squitter-feed -l reorder -x -d 'Hold each frame and sort late frames in'
complete -c squitter-feed -l leap -x -d 'Let frames wait that jump ahead by more'
complete -c squitter-feed -l arrival -d 'Ignore the clock'
complete -c squitter-feed -l all -d 'Print frames of all downlink formats'
complete -c squitter-feed -l save -r -F -d 'Append what is printed to a file'
complete -c squitter-feed -l help -d 'Print help'
complete -c squitter-feed -l version -d 'Print the version'
