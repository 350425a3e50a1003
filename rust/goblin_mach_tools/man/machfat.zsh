#compdef machfat

_arguments \
    '--json[with list, print one JSON object per file]' \
    '--limit[with list, members, verify, N lines per file at most]:N: ' \
    '--names[with list, members, verify, read the files in FILE]:FILE:_files' \
    '--fat64[with create, use 64-bit offsets and sizes]' \
    '-0[names in the lists of --names end with NUL]' \
    '--color[colour what is at fault, auto, always or never]:WHEN: ' \
    '(- *)-h[print the usage]' \
    '(- *)--help[print this help]' \
    '(- *)--version[print the name and version]' \
    '1:command:((list\:"print the entries of a fat file" extract\:"write the bytes of one entry, by its number or cpu" thin\:"write the bytes of the first entry for a cpu" members\:"print the members and symbols of archives" create\:"build a fat file from files" replace\:"replace the entries for the cpu of a file" remove\:"remove one entry" verify\:"print the layout faults of a fat file"))' \
    '*:file:_files'
