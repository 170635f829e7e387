# Completion of squitter-geojson for fish.

complete -c squitter-geojson -l kml -d 'Print KML'
complete -c squitter-geojson -l silence -x -d 'Cut a line where two places are further apart'
complete -c squitter-geojson -l lat -x -d 'Latitude of the receiver'
complete -c squitter-geojson -l lon -x -d 'Longitude of the receiver'
complete -c squitter-geojson -l range -x -d 'Doubt places that are further from the receiver'
complete -c squitter-geojson -l speed -x -d 'Doubt places that were reached faster'
complete -c squitter-geojson -l help -d 'Print help'
complete -c squitter-geojson -l version -d 'Print the version'
